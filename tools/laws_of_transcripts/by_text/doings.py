"""What stands for the device in the law of its doings: which changes and frames it makes of what came to it, by the reading of devices beside this folder."""
from .. import devices
from .air import HELD
from .given import given
from .values import tuple_of

DEVICES = "law_transcript.specs.Devices."


def yield_from(event, takes):
    """Gives on what an event yields; what it returns."""
    while True:
        try:
            takes(next(event))
        except StopIteration as end:
            return end.value


class Course:
    """A device of a node, and what a transcript shows of it: each change and each frame in turn."""

    def __init__(self, node, made, frames, unjoined):
        self.lived = devices.Clock()
        self.device = devices.Device(node, HELD["key"], self.lived)
        self.made, self.frames, self.unjoined = iter(made), iter(frames), unjoined
        self.fits = True

    def does(self, event):
        """An event: its changes are those that stand next, and so are its answers, where the node has joined."""
        replies = (yield_from(event, self.changes) if hasattr(event, "send") else event) or ()
        if self.unjoined:
            self.unjoined -= 1
            return
        for reply in replies:
            frame = next(self.frames, None)
            self.fits = self.fits and frame is not None and reply.is_text(HELD["key"], self.device.node, bytes(frame))

    def changes(self, owed):
        """A change of the device is the one that stands next."""
        self.fits = self.fits and next(self.made, None) == tuple(owed.fields[1:])

    def ticks_until(self, ticks):
        """Its own ticks."""
        while self.lived.clock < ticks:
            self.lived.clock += 1
            self.does(self.device.ticks())

    def comes(self, coming):
        """Something comes to it."""
        self.ticks_until(coming.ticks)
        kind = coming.coming
        if kind.name == "Coming.Woken":
            self.does(self.device.wakes())
        elif kind.name == "Coming.SetTo":
            self.does(self.device.is_set(kind.fields[0]))
        else:
            self.does(self.device.hears(bytes(kind.fields[0])) if self.device.awake else ())

    def is_over(self):
        """All that is shown it did."""
        return self.fits and next(self.made, None) is None and next(self.frames, None) is None


def ages(names, past, entry):
    """How many ticks a device may have lived before an entry."""
    if entry.name == "Entry.Said":
        return (names.get("law_transcript.specs.Restarts.ticks_asked").code(names.get("zw_text.specs.Transcript.lines_run").code(past)),)
    if entry.name == "Entry.Time":
        return (entry.fields[0] - 1,)
    clock = names.get("law_wire.specs.Asked.clock_of").code(past)
    return (clock, clock - 1)


@given(4, "law_wire.specs.Doings.DidSoFar")
def did_so_far(node, _, past, entry):
    """Whether all that came to a device so far it has done, and all that it did then is shown."""
    from .laws import NAMES
    made = [(str(one.by), one.setting.property, one.setting.value) for one in tuple_of(NAMES.get("zw_text.specs.Transcript.made").code(node, past))]
    frames = tuple_of(NAMES.get(DEVICES + "sent_from").code(node, past))
    comings = tuple_of(NAMES.get(DEVICES + "brought").code(node, past))
    unjoined = NAMES.get(DEVICES + "events_unjoined").code(node, past)
    for age in ages(NAMES, past, entry):
        course = Course(node, made, frames, unjoined)
        for coming in comings:
            course.comes(coming)
        if course.lived.clock <= age:
            course.ticks_until(age)
            if course.is_over():
                return True
    return False


def nodes_of(past):
    """The nodes of which something is to be looked at: those whose device did something, and those to which something came."""
    found = {2}
    for entry in tuple_of(past):
        if entry.name == "Entry.Dev":
            found.add(entry.fields[0])
        elif entry.name == "Entry.Air":
            found.update(entry.fields[1:3])
        elif entry.name == "Entry.Said" and entry.fields[0][0:1] in (("wake",), ("local",)):
            found.add(int(entry.fields[0][1]))
    return [node for node in sorted(found) if 2 <= node <= 232]


def does_at_once(_, past, entry):
    """The law of each device, before an entry."""
    from .laws import NAMES
    doers = NAMES.get("law_wire.specs.Doings.doers_of").code(entry)
    done = NAMES.get("law_wire.specs.Doings.HasDone").code
    return all(done(node, None, past, entry, doers) for node in nodes_of(past))


OWN = {"by_text.DoesAtOnce": does_at_once}
TESTS = (("DoesAtOnce", "by_text.DoesAtOnce", "devices"),)
