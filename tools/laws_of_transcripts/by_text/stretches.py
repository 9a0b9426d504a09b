"""Calm moments and stretches by the text of `IsCalm`, `IsStretch` and `AnswersInTime`; how the devices stand, and what one says of a message, is read by the
modules beside this folder."""
from .. import devices, messages
from ..orders import order_of
from ..reading import SimReading
from ..stretches import MOST_WATCHED, QUIET, WORDS, judged_like
from .air import route
from .given import GIVEN, LISTING, given, which_of
from .values import EMPTY, WORLD, Function, tuple_of

CALM, STRETCHES, VERDICTS, NETWORKS = "law_time.specs.Calm.", "law_time.specs.Stretches.", "law_time.specs.Verdicts.", "law_wire.specs.Networks."
OUTCOMES = {"success": "Success", "fail": "Fail", "nosupport": "NoSupport"}
STATE = ("node", "kind", "journal", "key", "work_left")
# each device as it stood where a stretch begins
STOOD = {}

GIVEN["law_transcript.specs.Nodes.listing_of"] = Function(lambda _, node: tuple(devices.listing_of(node)), 2)
GIVEN["device_kinds.listens"] = Function(lambda kind: kind != devices.SENSOR, 1)


@given(3, "law_wire.specs.Reach.CanBeReached")
def can_be_reached(all_devices, past, node):
    """Whether a node is reached over the route of the chip's table, over live links, and there is a way back."""
    from .laws import NAMES
    chip, air = (NAMES.get(NETWORKS + name).code(all_devices, past) for name in ("chip_network", "air_network"))
    there = route(chip, node)
    if there is None or route(air, node) is None:
        return False
    way, live = [devices.CONTROLLER] + list(there) + [node], {(link.low, link.high) for link in air.links}
    return all((min(hop), max(hop)) in live for hop in zip(way, way[1:]))


@given(5, VERDICTS + "outcome_due")
def outcome_due(all_devices, before, stretch, node, command):
    """The outcome that the kind of a device says of the message of a session, on what the device has made by then."""
    from .laws import NAMES
    code = lambda name: NAMES.get(VERDICTS + name).code  # noqa: E731
    text = bytes(tuple_of(code("message_in")(all_devices, before, stretch, node, command)))
    if node not in STOOD or not text:
        return ()
    stood = judged_like(STOOD[node])
    for setting in tuple_of(code("settings_made")(node, code("before_session")(command, stretch))):
        stood.values[which_of(setting.property)] = setting.value
    return (WORLD.variant("Outcome." + OUTCOMES[WORDS[stood.judged(messages.opened(text))[0]]]),)


class Standing:
    """Notes how the devices stand before each line that a stretch may begin with."""

    def __init__(self, reading):
        self.reading, self.found = reading, {}

    def line(self, words, at):
        """A line is about to run."""
        if words[0] in QUIET or order_of(words) is not None:
            world = self.reading.world
            self.found[at] = {node: (judged_like(one), one.work is not None) for node, one in world.devices.items()}

    def entry(self, _):
        """An entry tells nothing."""

    def done(self, _):
        """Nor does the end of a line."""


def standing(transcript, key):
    """How the devices stand, by the line of the transcript."""
    reading = SimReading(key)
    reading.stretches = Standing(reading)
    reading.read(transcript)
    return reading.stretches.found


def states(stood, key):
    """The devices as they stand: those to which something came, and the others as made."""
    return tuple(WORLD.record(STATE, (node, devices.kind_of(node), (), tuple(key), int(stood.get(node, (None, False))[1])))
                 for node in range(2, 233))


class Stretch:
    """A stretch that began in a calm moment, as far as it goes."""

    def __init__(self, before, stood, all_devices):
        self.before, self.stood, self.devices, self.entries = before, stood, all_devices, EMPTY


def broken_stretch(names, stretch, key):
    """Whether the stretch has had its time, and whether a command of it then has another outcome."""
    code = lambda name: names.get(STRETCHES + name).code  # noqa: E731
    before, entries = stretch.before, stretch.entries
    if not code("is_long_enough")(entries) or not tuple_of(code("workers")(before, entries)):
        return False, False
    if not code("IsStretch")(tuple(key), stretch.devices, before, entries):
        return False, False
    in_all = code("are_plain_listeners")(stretch.devices, before, entries) or code("is_sleeper_alone")(stretch.devices, before, entries)
    if not in_all and not (code("is_alone")(before, entries) and code("is_time")(before, entries)):
        return False, False
    STOOD.clear()
    STOOD.update({node: devices.Device(node, key) for node in range(2, 233)})
    STOOD.update({node: one for node, (one, _) in stretch.stood.items()})
    return True, not code("answers_all")(stretch.devices, before, entries)


def stretches_broken(names, transcript, entries, key):
    """The places of the lines with which stretches begin that are not answered in time, and how many had their time."""
    found, judged, watched, row = [], 0, [], EMPTY
    stood, array = standing(transcript, key), entries.items()
    asked = lambda past: names.get("law_transcript.specs.Restarts.ticks_asked").code(names.get("zw_text.specs.Transcript.lines_run").code(past))  # noqa: E731
    calm, quiet, fault = (names.get(path).code for path in (CALM + "IsCalm", STRETCHES + "is_quiet_line", STRETCHES + "is_keeper_fault"))
    line_of = names.get("zw_text.specs.Transcript.line_of").code
    for place in range(len(array) + 1):
        entry = array[place] if place < len(array) else None
        if entry is None or entry.name == "Entry.Said":
            going = []
            for one in watched:
                is_due, is_broken = broken_stretch(names, one, key) if entry is not None or transcript.ended else (False, False)
                judged += is_due
                if is_broken:
                    found.append(one.before.size)
                if not is_due:
                    going.append(one)
            watched = going
        if entry is None:
            break
        lines = tuple_of(line_of(entry)) if entry.name == "Entry.Said" else ()
        if fault(entry) or lines and not all(quiet(line) for line in lines):
            watched = []
        elif lines and len(watched) < MOST_WATCHED:
            at = transcript.entries[place].at
            all_devices = states(stood.get(at, {}), key)
            if at in stood and calm(LISTING, all_devices, row, asked(row)):
                watched.append(Stretch(row, stood[at], all_devices))
        for one in watched:
            one.entries = one.entries.with_item(entry)
        row = row.with_item(entry)
    return found, judged
