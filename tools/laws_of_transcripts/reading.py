"""Reads a transcript of `sim` entry by entry: what each line and tick owes, in the order in which it is done."""
from collections import namedtuple

from .host import Host
from .links import CHIP, HOST, Line
from .orders import order_of
from .owed import Broken, Owed
from .stretches import Stretches
from .world import World

Violation = namedtuple("Violation", "law part at text")
HOST_LINES = ("send", "get", "interview", "discover", "neighbours", "failed", "probe", "join", "cancel", "store", "restart")
AIR_LINES = ("link", "unlink", "lose", "loseack", "repeat", "wake", "local", "show")
HOST_NOTES = ("begin", "out", "store", "report", "unstored", "old", "unread", "awake", "asleep", "interviewed", "uninterviewed", "done",
              "neighbours", "failed", "queuefull", "held", "unkept")
# the law that speaks of an entry which nothing demands
LAW_OF = {
    "accepted": "AnswersLines", "refused": "AnswersLines", "begin": "RestsWell", "h": "SendsInTurn", "c": "AnswersInOrder",
    "dropped": "MarksUnits", "garbled": "MarksUnits", "overrun": "OverrunsWhenFull", "air": "AirsWhatIsTaken", "heard": "FaresInTurn",
    "lost": "FaresInTurn", "unheard": "FaresInTurn", "dev": "RanAsShown", "forget": "ForgetsDeadHops", "store": "StoresConfirmed",
    "report": "NotesWhatHappens", "unstored": "NotesWhatHappens", "old": "NotesWhatHappens", "unread": "NotesWhatHappens", "awake": "WakesAsTold",
    "asleep": "FallsAsleep", "interviewed": "EndsInterviews", "uninterviewed": "EndsInterviews", "done": "SaysHowDone",
    "neighbours": "AnswersQuestions", "failed": "AnswersQuestions", "chipfull": "DropsWhenFull", "queuefull": "FitsQueue",
    "held": "HoldsAsAsked", "unkept": "CountsFaults", "cleared": "ClearsLine", "device": "ShowsValues", "json": "ShowsValues",
    "time": "TellsTime",
}
LAW_OF_ENDING = {"unanswered": "GivesUpAfterThree", "cancelled": "CancelsWhenAsked"}


def not_due(entry):
    """An entry that nothing demands breaks the law that speaks of it."""
    law = LAW_OF_ENDING.get(entry.fields[1], "NotesWhatHappens") if entry.kind == "out" else LAW_OF[entry.kind]
    return Broken(law, "nothing demands this entry here")


def with_marks(entries):
    """Each entry with the marks that stand directly behind it, if it is a unit."""
    taken = 0
    for place, entry in enumerate(entries):
        if place < taken:
            continue
        taken, marks = place + 1, []
        if entry.kind in (HOST, CHIP):
            while taken < len(entries) and entries[taken].kind in ("dropped", "garbled", "overrun"):
                marks.append(entries[taken])
                taken += 1
        yield entry, marks


class Reading:
    """What is common to a host with its world and a host alone: lines, ticks, and the agenda of each party."""

    def __init__(self, key):
        self.key = key
        self.clock = self.ticks_left = 0
        self.is_open = self.is_tick = False
        self.stage = "settled"
        self.entry, self.free = None, None
        self.count = 0

    def read(self, transcript):
        """The first violation, as a list: what stands behind it is not judged, since each entry is judged by those before it."""
        try:
            for entry, marks in with_marks(transcript.entries):
                self.entry = entry
                self.take(entry, marks)
            self.entry = None
            if transcript.ended:
                self.finish_line()
        except Broken as broken:
            entry = self.entry
            return [Violation(broken.law, broken.part, entry.at if entry else len(transcript.entries) + 1, entry.text if entry else "the end")]
        return []

    def take(self, entry, marks):
        """The next entry: a line or a tick begins, or something in it is done."""
        if entry.kind == "line":
            self.finish_line()
            self.before_line(entry)
            self.begin_line(entry.fields[0])
        elif entry.kind == "time":
            self.close()
            if not self.clock < entry.fields[0] <= self.clock + self.ticks_left:
                raise Broken("TellsTime", "a tick that no line asks for")
            self.pass_ticks(entry.fields[0] - 1)
            self.begin_tick()
        elif not self.is_open:
            raise Broken("TellsTime", "an entry in no line or tick")
        else:
            self.count += 1
            self.place(entry, marks)

    def finish_line(self):
        """The line that is run is done whole, with all its ticks."""
        self.close()
        self.pass_ticks(self.clock + self.ticks_left)

    def before_line(self, entry):
        """A line is about to run."""

    def close(self):
        """The line or tick that is open is done whole."""
        if self.is_open:
            self.settle()
            self.is_open = False
            if self.is_tick and not self.count:
                raise Broken("TellsTime", "a tick is told that has no entry")

    def pass_ticks(self, until):
        """Ticks without an entry."""
        while self.clock < until:
            rest = self.rests_until(until)
            if rest > self.clock:
                self.ticks_left -= rest - self.clock
                self.clock = rest
                self.wait_until(rest)
                continue
            self.begin_tick()
            self.settle()
            self.is_open = False

    def rests_until(self, until):
        """Until when nothing at all can happen."""
        return self.clock

    def wait_until(self, clock):
        """Nothing happens until then."""


class SimReading(Reading):
    """Reads a transcript of `sim`: the host, the serial line, and the chip with air and devices."""

    def __init__(self, key):
        Reading.__init__(self, key)
        self.line = Line(self.told)
        sides = self.line.sides
        self.host = Host(key, lambda: sides[HOST].frame is None, lambda unit: sides[HOST].submit(unit), self.line.clear)
        self.world = World(key, lambda: sides[CHIP].frame is None, lambda unit: sides[CHIP].submit(unit))
        self.stretches, self.ticks = Stretches(self), 0

    # ---- lines and ticks

    def finish_line(self):
        Reading.finish_line(self)
        self.stretches.done(self.ticks)
        self.ticks = 0

    def before_line(self, entry):
        self.stretches.line(entry.fields[0], entry.at)

    def begin_line(self, words):
        """A line is run: its effect, then the world settles."""
        self.line.open()
        self.is_open, self.is_tick, self.stage = True, False, "effect"
        word = words[0]
        if word == "tick":
            self.ticks = self.ticks_left = int(words[1])
            self.is_open = False
        elif word == "stall":
            self.line.stalled_until = max(self.line.stalled_until, self.clock + int(words[1]))
        elif word == "drop":
            self.line.drops[words[1]] += 1
        elif word == "garble":
            self.line.changes[words[1]].append((int(words[2]), int(words[3])))
        elif word == "collide":
            self.line.collisions += 1
        elif word in AIR_LINES:
            self.world.agenda.add(self.world.asks(words))
        elif word in HOST_LINES or order_of(words) is not None:
            self.host.agenda.add(self.asks_host(words))

    def asks_host(self, words):
        """A line for the host; what it makes joined joins in chip and air too, and `discover` renews the chip's table."""
        if words[0] == "discover":
            self.world.discovers()
        before = self.host.joined()
        yield from self.host.asks(words)
        for node in self.host.joined() - before:
            self.world.joins(node)

    def begin_tick(self):
        """A tick: air, results, devices and chip, then the host."""
        self.clock += 1
        self.ticks_left -= 1
        self.line.open()
        self.is_open, self.is_tick, self.stage, self.count = True, True, "effect", 0
        self.world.agenda.add(self.ticks_world())

    def ticks_world(self):
        """What comes before the host's own tick."""
        yield from self.world.ticks()
        event = self.line.sides[CHIP].mark()
        if event == "copy":
            yield Owed("KeepsLinks", "the chip's copy is due", CHIP, (self.line.sides[CHIP].frame,))
        elif event == "failed":
            yield from self.world.is_freed()

    def ticks_host(self):
        """The host's own tick."""
        self.host.clock = self.clock
        event = self.line.sides[HOST].mark()
        if event == "copy":
            yield Owed("KeepsLinks", "the host's copy is due", HOST, (self.line.sides[HOST].frame,))
        yield from self.host.ticks(event)

    def rests_until(self, until):
        sides, pipes = self.line.sides, self.line.pipes
        if (sides[HOST].frame is not None or sides[CHIP].frame is not None or pipes[HOST] or pipes[CHIP] or not self.world.is_at_rest()
                or self.host.looks or self.host.agenda.want or self.world.agenda.want):
            return self.clock
        waits = [wait for wait in (self.host.next_wait(), self.world.next_wait()) if wait is not None]
        return max(self.clock, min([until] + [wait - 1 for wait in waits]))

    def wait_until(self, clock):
        self.host.clock = self.world.clock = clock

    # ---- entries

    def step(self, entry):
        """Goes through the stages of a line or tick; True where the entry is one that is owed in them."""
        while True:
            if self.world.agenda.takes(entry) or self.host.agenda.takes(entry):
                return True
            if self.stage == "effect":
                self.stage = "host"
                if self.is_tick:
                    self.host.agenda.add(self.ticks_host())
            elif self.stage == "host":
                self.stage = "settled"
                self.host.agenda.add(self.host.pumps())
            else:
                return False

    def place(self, entry, marks):
        """An entry within a line or tick."""
        if not self.step(entry):
            self.settles(entry)
        self.stretches.entry(entry)
        if entry.kind in (HOST, CHIP):
            self.line.writes(entry.kind, entry.fields[0], marks, self.clock)
            if len(entry.fields[0]) == 1:
                self.pass_up(entry.kind)
        elif entry.kind == "begin":
            self.world.begun[entry.fields[0]] = self.world.begun.get(entry.fields[0], 0) + 1

    def settles(self, entry):
        """An entry of the settling: an answer, or what the answers that have come make due."""
        self.free, self.frame = None, None
        if entry.kind in (HOST, CHIP) and len(entry.fields[0]) == 1:
            self.frame = self.line.answers(entry.kind, entry.fields[0], self.clock)
            return
        if entry.kind not in HOST_NOTES + (HOST, CHIP):
            raise not_due(entry)
        side = CHIP if entry.kind == CHIP else HOST
        agenda = self.world.agenda if side == CHIP else self.host.agenda
        self.free = side
        while self.line.waits(side, self.clock) == (True, False):
            self.line.judge_next(side, self.clock)
            if agenda.takes(entry):
                return
        if entry.kind == side and self.line.waits(side, self.clock)[1]:
            raise Broken("KeepsLinks", "a frame that has come is answered first")
        if side == HOST:
            agenda.add(self.host.pumps())
            if agenda.takes(entry):
                return
        if entry.kind == side and self.line.sides[side].frame is not None:
            raise Broken("KeepsLinks", "a frame is written before the last one was sent or given up, or a copy at another time")
        raise not_due(entry)

    def pass_up(self, side):
        """The good frame that a side has just acknowledged is passed up."""
        if self.frame is not None:
            if side == HOST:
                self.host.agenda.add(self.host.hears(self.frame))
            else:
                self.world.agenda.add(self.world.is_asked(self.frame))

    def told(self, side, event):
        """A link tells its owner something; what that demands stands next."""
        if side == CHIP:
            agenda, owes = self.world.agenda, self.world.is_freed()
        else:
            agenda = self.host.agenda
            owes = {"sent": self.host.sent, "failed": self.host.gives_up, "pump": self.host.pumps}[event]()
        agenda.add(owes)
        if side != self.free:
            agenda.settle(self.entry)
            if agenda.want is not None:
                raise agenda.want.broken_by(self.entry)

    def settle(self):
        """The line or tick ends: nothing is owed, and where no stall lasts all that came was judged."""
        self.step(None)
        self.free = None
        self.line.close(self.clock)
