"""What a transcript does not show and a law says there is: the steps of both links, and which records a host kept.

These are found from the transcript, and then judged by the text of the law.
"""
from copy import copy

from ..ciphers import unsealed
from ..serial import item_of
from .values import EMPTY, WORLD, Function, Rest, append, tuple_of

FRAMED, WRITE = "Unit.Framed", "LinkOut.Write"
IDLE, ASKED, TICKED = WORLD.variant("Turn.Idle"), WORLD.variant("Event.asked"), WORLD.variant("Event.ticked")
KINDS = (WORLD.variant("Kind.Request"), WORLD.variant("Kind.Response"))
ANSWERS = {6: "Unit.Ack", 0x15: "Unit.Nak", 0x18: "Unit.Can"}
MOST_RECORDS, NEAR = 3, 10


def checksum(data):
    """The exclusive or of 0xFF and all bytes."""
    total = 0xFF
    for byte in data:
        total ^= byte
    return total


def frame_in(unit):
    """The frame of a unit, without its sum."""
    return WORLD.record(("kind", "func", "body"), (KINDS[unit[2]], unit[3], tuple(unit[4:-1])))


def item_in(unit):
    """The item that a unit is by all its bytes."""
    kind = item_of(bytes(unit)).kind
    if kind == "good":
        return WORLD.variant("Item.Good", WORLD.variant(FRAMED, frame_in(unit)))
    if unit[0] in ANSWERS:
        return WORLD.variant("Item.Good", WORLD.variant(ANSWERS[unit[0]]))
    if kind == "bad":
        want = checksum(unit[1:-1])
        refusal = WORLD.variant("Refusal.BadSum", want, unit[-1]) if want != unit[-1] else WORLD.variant("Refusal.BadKind", unit[2])
    elif kind == "short":
        refusal = WORLD.variant("Refusal.BadLength", unit[1])
    else:
        refusal = WORLD.variant("Refusal.Stray", unit[0])
    return WORLD.variant("Item.Refused", refusal)


def text_of(unit):
    """The bytes of a unit."""
    if unit.name != FRAMED:
        return ({"Unit.Ack": 6, "Unit.Nak": 0x15, "Unit.Can": 0x18}[unit.name],)
    frame = unit.fields[0]
    counted = (len(frame.body) + 3, KINDS.index(frame.kind), frame.func) + tuple(frame.body)
    return (1,) + counted + (checksum(counted),)


class Link:
    """The steps of a side, in one way that the units that it wrote allow."""

    def __init__(self, names, is_chip):
        self.is_chip, self.names = is_chip, names
        for name in ("hear", "hear_outs", "tick_side", "outs_ticked"):
            setattr(self, name, names.get("serial_link.specs.State." + name).code)
        self.side = self.fresh()
        self.ahead, self.part, self.round = [], [], []
        self.is_tick = self.has_ticked = self.is_asked = False
        self.clock, self.stalled_until = 0, 0

    def fresh(self):
        """A side with no frame of its own."""
        return WORLD.record(("turn", "collisions"), (IDLE, 0))

    def step(self, event, outs):
        """One step; the bytes of the unit that it wrote, or None."""
        self.part.append(WORLD.record(("event", "outs"), (event, tuple_of(outs))))
        return next((text_of(one.fields[0]) for one in tuple_of(outs) if one.name == WRITE), None)

    def ticks(self):
        """The side's own tick."""
        self.has_ticked = True
        outs = self.outs_ticked(self.side.turn)
        self.side = self.tick_side(self.side)
        return self.step(TICKED, outs)

    def hears(self):
        """It hears what is next."""
        item = item_in(self.ahead.pop(0))
        outs = self.hear_outs(self.side, item)
        self.side = self.hear(self.side, item)
        return self.step(WORLD.variant("Event.heard", item), outs)

    def peeks(self):
        """What it would write for what is next."""
        return next((True for one in tuple_of(self.hear_outs(self.side, item_in(self.ahead[0]))) if one.name == WRITE), False)

    def submits(self, unit):
        """It writes a frame of its own."""
        frame = frame_in(unit)
        self.side = WORLD.record(("turn", "collisions"), (WORLD.variant("Turn.Copied", frame, 1, 0), self.side.collisions))
        return self.step(WORLD.variant("Event.submitted", frame), (WORLD.variant(WRITE, WORLD.variant(FRAMED, frame)),))

    def is_stalled(self):
        """Whether bytes are stalled."""
        return self.clock < self.stalled_until

    def asks(self):
        """A collision is asked for."""
        if self.is_asked:
            self.is_asked = False
            self.side = WORLD.record(("turn", "collisions"), (self.side.turn, self.side.collisions + 1))
            self.step(ASKED, ())

    def ways(self, unit):
        """Each way to go on up to a unit that the side wrote: a frame of its own may be submitted before what is ahead is heard, or after some of it."""
        self.asks()
        found = []
        while True:
            may_submit = self.side.turn is IDLE and unit[0] == 1
            if self.is_tick and not self.has_ticked and not (may_submit and self.is_chip):
                written = self.ticks()
            else:
                if may_submit:
                    found.append(self.copy())
                    found[-1].submits(unit)
                if not self.ahead or self.is_stalled():
                    return found
                written = self.hears()
            if written is not None:
                return found + [self] if written == unit else found

    def copy(self):
        """As it is now."""
        link = copy(self)
        link.ahead, link.part = list(self.ahead), list(self.part)
        return link

    def state(self):
        """What the steps to come go by."""
        return repr(self.side), tuple(self.ahead), self.has_ticked, self.is_asked

    def ends(self):
        """The steps up to the end of a line or tick."""
        self.asks()
        if self.is_tick and not self.has_ticked and self.ticks() is not None:
            return False
        while self.ahead and not self.is_stalled() and not self.peeks():
            self.hears()
        return True

    def taken(self):
        """The part so far."""
        part, self.part = tuple(self.part), []
        return part

    def begins(self, event):
        """A line or a tick begins."""
        self.is_tick = event.name == "SerialEvent.Tick_begins"
        self.has_ticked = False
        if self.is_tick:
            self.clock += 1
            return
        for line in tuple_of(event.fields[0]):
            if line.name == "Line.Stall":
                self.stalled_until = max(self.stalled_until, self.clock + line.fields[0])
            elif line.name == "Line.Collide":
                self.is_asked = self.is_chip
            elif line.name == "Line.Restart":
                self.ahead = []
                if not self.is_chip:
                    self.side = self.fresh()


def parts_of(names, events, is_chip):
    """The steps of a side up to each event of the serial line, in each way that was found; or none, and the place of the event up to which there are none."""
    links, own = [(Link(names, is_chip), None)], "Side.Chip" if is_chip else "Side.Host"
    for place, event in enumerate(events):
        then = {}
        for link, before in links:
            for way in goes_on(link, event, own):
                part = way.taken()
                if event.name != "SerialEvent.Writes":
                    way.begins(event)
                then.setdefault(way.state(), (way, (before, part)))
        if not then:
            return [], place
        links = list(then.values())
    return [in_order(parts) for _, parts in links], None


def goes_on(link, event, own):
    """Each way in which a side goes on up to an event."""
    if event.name != "SerialEvent.Writes":
        return [link] if link.ends() else []
    side, unit, arriving, _ = event.fields
    if side.name == own:
        return link.ways(tuple(unit))
    link.ahead += [tuple(one) for one in tuple_of(arriving)]
    return [link]


def in_order(parts):
    """What was linked last first, as a list."""
    found = []
    while parts is not None:
        parts, part = parts
        found.append(part)
    return found[::-1]


def moments_of(events, parts):
    """Events with the steps before each, as a row."""
    row = EMPTY
    for event, part in zip(events, parts):
        row = append(row, WORLD.record(("event", "steps"), (event, part)))
    return row


# ---- which records a host kept

def keepings():
    """Which of so many records may not be kept: each list ends with one that is not."""
    found, longest = [()], [()]
    for _ in range(MOST_RECORDS):
        longest = [one + (kept,) for one in longest for kept in (True, False)]
        found += [one for one in longest if not one[-1]]
    return found


KEEPINGS = keepings()


HEEDS = ("listing", "taken", "counted")
# of no node a nonce was counted before the transcript
NONE_COUNTED = Function(lambda node: 0, 1)
# the messages by which a host may go, and the class of nodes whose reports count where they are sealed
GONE_BY, SECURITY = ("Told.NonceGet", "Told.NonceReport", "Told.SegmentRequest"), 0x98


def is_gone_by(message):
    """Whether queue and attempts may go by a message."""
    return message.name in GONE_BY or message.name == "Told.Report" and message.fields[1].name == "ReportStatus.Working"


class Taken:
    """Of each payload so far, by which messages a host went."""

    def __init__(self, listing, plainly, found):
        self.listing, self.plainly, self.found = listing, plainly, found
        self.heeds = WORLD.record(HEEDS, (listing, Function(self.of, 3), NONE_COUNTED))

    def of(self, past, rest, carried):
        """Those of a payload, up to its acknowledgement; of one that comes just now what is told as it came."""
        known = self.found.get((past.size, carried))
        return known if known is not None else self.guess(past, rest, carried)

    def guess(self, past, rest, carried):
        """What may be meant of what is told as it came."""
        return tuple(one for one in tuple_of(self.plainly.code(past, rest, carried)) if is_gone_by(one))

    def same(self, heeding, rest):
        """Whether these are the messages that were meant for a payload; of one message of a node whose reports count as they come the law itself says when it counts."""
        meant, found = self.of(heeding.past, rest, heeding.carried), tuple_of(heeding.messages)
        return meant == found or (len(meant) == 1 and not found and SECURITY not in self.listing.code(heeding.past, heeding.carried.node))

    def means(self, heeding):
        """The same, with these for a payload."""
        found = dict(self.found)
        found[heeding.past.size, heeding.carried] = tuple_of(heeding.messages)
        return Taken(self.listing, self.plainly, found)

    def keeps(self, heeding, rest):
        """What was meant for a payload stays so."""
        self.found.setdefault((heeding.past.size, heeding.carried), self.of(heeding.past, rest, heeding.carried))


class Notes:
    """The courses that a host may have taken, entry by entry."""

    def __init__(self, names, key, listing):
        self.key = key
        self.after = names.get("law_host.specs.Following.after").code
        self.ended = names.get("law_host.specs.Following.ended_whole").code
        self.frame_next = names.get("law_host.specs.Frames.frame_next").code
        self.bringing_in = names.get("law_transcript.specs.Units.bringing_in").code
        start = names.get("law_host.specs.Course.course_from").code((), WORLD.record(("keepings", "texts"), ((), ())))
        taken = Taken(listing, names.get("law_time.specs.Heeds.taken_plainly"), {})
        self.courses, self.is_seal = [(start, {}, taken)], names.get("law_host.specs.Nonces.IsSeal").code

    def goes_on(self, past, entry, array, place):
        """An entry; whether a course is left."""
        rest = Rest(array, place + 1, [False])
        near = any(one.name == "Entry.Unkept" for one in array[place:place + NEAR])
        found = {}
        for course, drawn, taken in self.courses:
            for kept in KEEPINGS if near else ((),):
                texts = self.texts(past, entry, course, drawn)
                new, goes_by = self.next(past, entry, rest, WORLD.changed(course, ("keepings", "texts"), (kept, texts)), taken)
                if new.fits and new.keepings == ():
                    shown = self.shown(course, new, drawn)
                    if shown is not None:
                        found[id(new)] = (new, shown, goes_by)
        self.courses = list(found.values())
        return bool(found)

    def next(self, past, entry, rest, course, taken):
        """A course behind an entry, and what the host goes by there: what it went by of a payload is what it was meant to."""
        for _ in range(MOST_RECORDS):
            new = self.after(taken.heeds, past, entry, rest, course)
            heedings = new.heeded.last(len(new.heeded) - len(course.heeded)) if len(new.heeded) > len(course.heeded) else ()
            wrong = [heeding for heeding in heedings if not taken.same(heeding, rest)]
            if not wrong:
                break
            taken = taken.means(wrong[0])
        for heeding in heedings:
            taken.keeps(heeding, rest)
        return new, taken

    def heeds(self):
        """What the host goes by, as it seems so far."""
        return self.courses[0][2].heeds

    def texts(self, past, entry, course, drawn):
        """What a sealed message that is judged here opens to for the last nonce that was given."""
        if entry.name != "Entry.Written" or entry.fields[0].name != "Side.Host" or entry.fields[1] != (6,):
            return ()
        for frame in tuple_of(self.frame_next(past)):
            for carried in tuple_of(self.bringing_in(frame)):
                if carried.payload[:2] == (0x98, 0x81):
                    book = next((one for one in course.books if one.node == carried.node), None)
                    nonce = drawn.get((carried.node, book.giver.given)) if book else None
                    text = nonce and unsealed(self.key, bytes(nonce), carried.node, 1, bytes(carried.payload))
                    return (WORLD.variant("None") if text is None else WORLD.variant("Some", tuple(text)),)
        return ()

    def shown(self, old, new, drawn):
        """The nonces that are shown, where what is new of them may be."""
        for offer in new.offered[len(old.offered):] if isinstance(new.offered, tuple) else new.offered.last(len(new.offered) - len(old.offered)):
            before = drawn.get((offer.node, offer.number))
            if len(offer.nonce) != 8 or offer.nonce[0] != offer.number % 256 or before not in (None, offer.nonce):
                return None
            drawn = dict(drawn)
            drawn[offer.node, offer.number] = offer.nonce
        for seal in new.sealed[len(old.sealed):] if isinstance(new.sealed, tuple) else new.sealed.last(len(new.sealed) - len(old.sealed)):
            if not self.is_seal(self.key, seal):
                return None
        return drawn

    def ends(self, past):
        """At the end of a whole run; whether a course is left."""
        return any(self.ended(taken.heeds, past, course).fits for course, _, taken in self.courses)
