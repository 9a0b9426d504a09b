"""The two links of the serial line (docs/SERIAL.md, docs/WORLD.md): what each side has judged, and when it may write.

Each side has one mark a tick, at its own tick; what the other side wrote before its tick is judged after that mark, in the
settling of the line or tick. A settling has passes: in each the chip judges all that has come, then the host."""
from collections import deque

from .owed import Broken
from .serial import ACK, CAN, NAK, item_of

HOST, CHIP = "h", "c"
OTHER = {HOST: CHIP, CHIP: HOST}
WAIT, PAUSES, COPIES = 15, (1, 11, 21), 4
PASSES, ROOM = 64, 4096


class Side:
    """The frame that a side has submitted: how many copies were written, and for how many marks more it waits or pauses."""

    def __init__(self):
        self.frame = None
        self.copies = 0
        self.waits = False
        self.left = 0

    def submit(self, frame):
        """A new frame is written."""
        self.frame, self.copies, self.waits, self.left = frame, 1, True, WAIT

    def end_copy(self):
        """A copy has ended without ACK; True where it was the fourth."""
        if self.copies == COPIES:
            self.frame = None
            return True
        self.waits, self.left = False, PAUSES[self.copies - 1]
        return False

    def hear(self, item):
        """Judges an item of one byte: "sent", "failed" or None."""
        if item.kind == "ack" and self.frame is not None:
            self.frame = None
            return "sent"
        if item.kind in ("nak", "can") and self.frame is not None and self.waits and self.end_copy():
            return "failed"
        return None

    def mark(self):
        """A mark: "copy" where a copy is due, "failed" where the fourth has ended, else None."""
        if self.frame is None:
            return None
        self.left -= 1
        if self.left:
            return None
        if self.waits:
            return "failed" if self.end_copy() else None
        self.copies += 1
        self.waits, self.left = True, WAIT
        return "copy"


class Line:
    """Both links and pipes; `told` is called with a side and "sent" or "failed" as it judges that, or "pump" where the host looks what is next."""

    def __init__(self, told):
        self.told = told
        self.sides = {HOST: Side(), CHIP: Side()}
        self.pipes = {HOST: deque(), CHIP: deque()}
        self.held = {HOST: 0, CHIP: 0}
        self.settling = self.passed = 0
        self.stalled_until = 0
        self.collisions = 0
        self.drops = {HOST: 0, CHIP: 0}
        self.changes = {HOST: deque(), CHIP: deque()}

    # ---- settling

    def open(self):
        """A line or tick begins: what is in the pipes was written before its settling."""
        self.passed = 0
        self.settling += 1

    def pass_of_next(self, hearer):
        """The pass in which the hearer judges the next item of its pipe: the one that follows where the host wrote it."""
        _, settling, passed = self.pipes[OTHER[hearer]][0]
        return max(1, passed + (hearer == CHIP)) if settling == self.settling else 1

    def judge_next(self, hearer, clock):
        """The hearer judges the next item of its pipe, whose answer it gives: the one demanded, or None."""
        if clock < self.stalled_until:
            raise Broken("KeepsLinks", "no byte moves while a stall lasts")
        when = self.pass_of_next(hearer)
        if hearer == CHIP and when > max(1, self.passed):
            self.catch_up(HOST, when - 1, clock)
            self.told(HOST, "pump")
        unit = self.pipes[OTHER[hearer]].popleft()[0]
        self.held[OTHER[hearer]] -= len(unit)
        self.passed = max(self.passed, when)
        if self.passed > PASSES:
            raise Broken("KeepsLinks", "a settling has 64 passes")
        item = item_of(unit)
        if item.kind == "good":
            if hearer == CHIP and self.collisions:
                self.collisions -= 1
                return CAN, None
            return ACK, item.frame
        if item.kind == "bad":
            return NAK, None
        if item.kind in ("ack", "nak", "can"):
            event = self.sides[hearer].hear(item)
            if event:
                self.told(hearer, event)
        return None, None

    def answers(self, side, unit, clock):
        """The side writes an answer: it is that to the next frame or refused frame that has come."""
        pipe = self.pipes[OTHER[side]]
        while pipe:
            wanted, frame = self.judge_next(side, clock)
            if wanted is None:
                continue
            if wanted != unit:
                law = "CollidesWhenAsked" if side == CHIP and CAN in (wanted, unit) else "KeepsLinks"
                raise Broken(law, "the answer %s of %s is due" % (wanted.hex().upper(), side))
            return frame
        raise Broken("KeepsLinks", "an answer to nothing")

    def catch_up(self, hearer, passes, clock):
        """All that is judged in so many passes has been judged by now, and each frame among it answered."""
        pipe = self.pipes[OTHER[hearer]]
        while pipe and self.pass_of_next(hearer) <= passes:
            wanted, _ = self.judge_next(hearer, clock)
            if wanted is not None:
                raise Broken("KeepsLinks", "the answer %s of %s is due" % (wanted.hex().upper(), hearer))

    def waits(self, side, clock):
        """Whether an item has come that the side may judge, and whether it demands an answer first."""
        pipe = self.pipes[OTHER[side]]
        if not pipe or clock < self.stalled_until:
            return False, False
        return True, item_of(pipe[0][0]).kind in ("good", "bad")

    def close(self, clock):
        """A line or tick ends: where no stall lasts all is judged, but for what the host wrote in the 64th pass."""
        if clock >= self.stalled_until:
            self.catch_up(HOST, PASSES, clock)
            self.told(HOST, "pump")
            self.catch_up(CHIP, PASSES, clock)

    # ---- writing

    def due_mark(self, side, unit):
        """The marks that must stand directly behind a unit, and the unit as it arrives (None where it does not)."""
        due, arrives = [], unit
        if self.drops[side]:
            self.drops[side] -= 1
            return [("dropped", (side,))], None
        if len(unit) > 1 and self.changes[side]:
            place, change = self.changes[side].popleft()
            place = min(2 + place, len(unit) - 1)
            arrives = unit[:place] + bytes((unit[place] ^ change,)) + unit[place + 1:]
            due.append(("garbled", (side, arrives)))
        if self.held[side] + len(unit) > ROOM:
            return due + [("overrun", (side,))], None
        return due, arrives

    def writes(self, side, unit, marks, clock):
        """A unit enters its pipe, with the marks that stand behind it."""
        self.catch_up(OTHER[side], self.passed - (side == CHIP), clock)
        due, arrives = self.due_mark(side, unit)
        shown = [(mark.kind, mark.fields) for mark in marks]
        if due != shown:
            law = "OverrunsWhenFull" if ("overrun", (side,)) in due + shown else "MarksUnits"
            raise Broken(law, "directly behind a unit stands %s" % (" and ".join("`%s`" % kind for kind, _ in due) or "no mark"))
        if arrives is not None:
            self.pipes[side].append((arrives, self.settling, self.passed))
            self.held[side] += len(arrives)

    def clear(self):
        """A restart: how many bytes each pipe held; the host's link is new."""
        lost = [(side, self.held[side]) for side in (HOST, CHIP) if self.held[side]]
        for side in (HOST, CHIP):
            self.pipes[side].clear()
            self.held[side] = 0
        self.sides[HOST] = Side()
        return lost
