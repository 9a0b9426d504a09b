"""The laws that speak of accepted commands, sessions, changes and values, whatever way they went (docs/LAWS.md).

Each is a function over what stands before an entry and the entry; it gives what is wrong, or None. Those of `at_end` are judged
at the end of a run."""
from . import orders
from .devices import Device, listing_of
from .entries import FINALS
from .messages import NAMES, property_text


class Past:
    """What the entries so far show."""

    def __init__(self, commands=None):
        self.commands = commands
        self.line, self.ended = None, True
        self.clock = self.ticks = 0
        self.joined, self.lists = {2}, {2: orders.LISTED_AT_FIRST}
        self.accepted, self.sessions, self.outcomes = {}, {}, {}
        self.changes, self.open_change = {}, None
        self.heard, self.last = {}, None
        self.to_store = []
        self.values, self.known_settings = {}, {}

    def add(self, entry):
        """The entry becomes part of the past."""
        kind, fields = entry.kind, entry.fields
        if kind == "line":
            self.finish_line()
            self.line = fields[0]
            self.ticks += int(self.line[1]) if self.line[0] == "tick" else 0
        elif kind == "refused":
            self.line = None
        elif kind == "interviewed":
            self.lists[fields[0]] = None
        elif kind == "accepted":
            self.accepted[fields[0]] = (fields[1], orders.order_of(self.line or ("tick",)), self.lists.get(fields[1]))
        elif kind == "begin":
            self.sessions.setdefault(fields[0], []).append(fields[2])
        elif kind == "out":
            self.outcomes[fields[0]] = fields[1]
            self.to_store = self.settings_of(fields[0]) if fields[1] == "success" else []
        elif kind == "store":
            self.to_store = self.to_store[1:]
        elif kind == "report":
            self.heard.setdefault(fields[0], {})[fields[1]] = fields[2]
        elif kind == "dev":
            self.change(*fields)
        self.last = entry

    def finish_line(self):
        """What a line does that was not refused."""
        if self.line and self.line[0] == "join":
            self.joined.add(int(self.line[1]))
        elif self.line and self.line[0] == "restart":
            self.heard = {}
        self.open_change = None

    def change(self, node, by, which, value):
        """A setting of a change; those of one change stand directly behind each other."""
        changes = self.changes.setdefault(node, [])
        if self.last.kind == "dev" and self.last.fields[0] == node and changes and changes[-1][0] == by and which not in changes[-1][1]:
            changes[-1][1][which] = value
        else:
            changes.append((by, {which: value}))
        self.values.setdefault(node, {})[which] = value

    def settings_of(self, number):
        """The settings of a command, as a transcript names them; a host alone says what its own commands set."""
        if self.commands is not None:
            return [(property_text(which), value) for command in self.commands[number - 1:number] for which, value in command.asked.settings]
        if number not in self.known_settings:
            node, order, classes = self.accepted.get(number, (None, None, None))
            if order is None:
                return []
            asked = orders.asked_of(order, classes or listing_of(node))
            self.known_settings[number] = [] if isinstance(asked, str) else [
                (property_text(which), value) for which, value in asked.settings]
        return self.known_settings[number]

    def is_supervised(self, node):
        """Whether the device of a node knows Supervision."""
        return 0x6C in listing_of(node)

    def carried(self, node, session):
        """The command that a session of a node carries, or None."""
        sessions = self.sessions.get(node, [])
        return sessions[session - 1] if 1 <= session <= len(sessions) else None


def KeepsSessions(past, entry):
    """A session that begins has the next number of its node, and each before it has a final outcome."""
    if entry.kind == "begin":
        node, session, _ = entry.fields
        before = past.sessions.get(node, [])
        if session != len(before) + 1:
            return "the next session of node %d is %d" % (node, len(before) + 1)
        if before and past.outcomes.get(before[-1]) not in FINALS:
            return "session %d of node %d has no final outcome" % (len(before), node)
    return None


def CarriesOnce(past, entry):
    """A session carries an accepted command of its node, later than those before it."""
    if entry.kind == "begin":
        node, _, number = entry.fields
        if past.accepted.get(number, (None,))[0] != node:
            return "command %d was not accepted for node %d" % (number, node)
        if past.sessions.get(node) and number <= past.sessions[node][-1]:
            return "command %d was carried before" % number
    return None


def ChangesOnce(past, entry):
    """A change of a device that knows Supervision is of a later session than those before it, which has begun, with that command's settings."""
    if entry.kind != "dev" or not past.is_supervised(entry.fields[0]) or entry.fields[1] == "local":
        return None
    node, by, which, value = entry.fields
    if by == "plain":
        return "a change without a session"
    command = past.carried(node, int(by))
    if command is None:
        return "session %s of node %d has not begun" % (by, node)
    if (which, value) not in past.settings_of(command):
        return "command %d does not set %s to %d" % (command, which, value)
    last = [change for change in past.changes.get(node, []) if change[0] != "local"][-1:]
    if last and int(by) < int(last[0][0]) or last and by == last[0][0] and (which in last[0][1] or past.last.kind != "dev"):
        return "session %s of node %d has changed its device before" % (by, node)
    return None


def SucceedsAfterChange(past, entry):
    """A success stands behind the change of its session."""
    if entry.kind == "out" and entry.fields[1] == "success":
        node = past.accepted.get(entry.fields[0], (None,))[0]
        if node is not None and past.is_supervised(node):
            session = len(past.sessions.get(node, []))
            if past.carried(node, session) != entry.fields[0]:
                return "command %d is not that of the last session" % entry.fields[0]
            if not any(change[0] == str(session) for change in past.changes.get(node, [])):
                return "session %d has changed nothing" % session
    return None


def StoresConfirmed(past, entry):
    """The settings of a successful command stand directly behind its success, in order, and nowhere else."""
    if entry.kind == "store":
        if not past.to_store or past.to_store[0] != entry.fields[1:]:
            return "no successful command sets this here"
    elif past.to_store:
        return "`store %s %d` is due" % past.to_store[0]
    return None


EACH_OF_HOST = (KeepsSessions, CarriesOnce, StoresConfirmed)
EACH = EACH_OF_HOST + (ChangesOnce, SucceedsAfterChange)


# ---- at the end

def EndsTruly(past):
    """A successful command has changed its device, one that failed, was taken back or waits has not."""
    for number, (node, order, _) in past.accepted.items():
        if not past.is_supervised(node):
            continue
        outcome = past.outcomes.get(number, "begun" if number in past.sessions.get(node, []) else "waiting")
        changed = [change for change in past.changes.get(node, []) if change[0] not in ("local", "plain")
                   and past.carried(node, int(change[0])) == number]
        if outcome == "success" and len(changed) != 1:
            return "command %d succeeded with %d changes" % (number, len(changed))
        if outcome in ("fail", "nosupport", "cancelled", "waiting") and changed:
            return "command %d (%s) has changed its device" % (number, outcome)
    return None


def ChangesWhole(past):
    """Each change by a session has all settings of its command; the one in which a transcript is cut off has some of them."""
    for node, changes in past.changes.items():
        for by, settings in changes:
            if by not in ("local", "plain") and past.is_supervised(node):
                wanted = dict(past.settings_of(past.carried(node, int(by))))
                is_cut = not past.ended and past.last.kind == "dev" and past.last.fields[:2] == (node, by)
                if settings != wanted and not (is_cut and settings.items() <= wanted.items()):
                    return "session %s of node %d lacks a setting" % (by, node)
    return None


def confirmed(past, node):
    """The confirmed values of a node: what its last successful session that sets them asks for."""
    values = {}
    for number in past.sessions.get(node, []):
        if past.outcomes.get(number) == "success":
            values.update(past.settings_of(number))
    return values


def ConfirmsLast(past):
    """Where the last change of a property is by a successful session, the confirmed value is the device's."""
    for node, changes in past.changes.items():
        last = {}
        for by, settings in changes:
            last.update({which: (by, value) for which, value in settings.items()})
        stored = confirmed(past, node)
        for which, (by, value) in last.items():
            if by not in ("local", "plain") and past.outcomes.get(past.carried(node, int(by))) == "success":
                if stored.get(which) != value:
                    return "%s of node %d is not confirmed as %d" % (which, node, value)
    return None


def table_of(past, key, with_devices):
    """The table at the end of a run."""
    lines = ["end %d" % past.ticks]
    for node in sorted(past.joined):
        lines.append("node %d sessions %s" % (node, " ".join(map(str, past.sessions.get(node, []))) or "-"))
        stored, heard = confirmed(past, node), past.heard.get(node, {})
        for which in sorted(set(stored) | set(heard), key=table_order):
            lines.append("value %d %s confirmed %s heard %s" % (node, which, stored.get(which, "-"), heard.get(which, "-")))
        if with_devices and 2 <= node <= 232:
            main = property_text(Device(node, key).main())
            values = {which: value for which, value in past.values.get(node, {}).items() if value}
            values.setdefault(main, 0)
            lines += ["device %d %s %d" % (node, which, values[which]) for which in sorted(values, key=table_order)]
    return lines


def table_order(text):
    """Sorts property texts as properties are listed."""
    end, rest = text.split("/")
    parts = rest.split(":")
    return [int(end), NAMES.index(parts[0])] + [int(part) for part in parts[1:]]


AT_END = (EndsTruly, ChangesWhole, ConfirmsLast)


def violations(transcript, key, commands=None):
    """The first violation of each law: its name, what is wrong, and the entry (None at the end). With `commands` (those of a host
    alone) no device is spoken of."""
    past, found = Past(commands), {}
    alone = commands is not None
    for entry in transcript.entries:
        for law in EACH_OF_HOST if alone else EACH:
            if law.__name__ not in found:
                wrong = law(past, entry)
                if wrong:
                    found[law.__name__] = (wrong, entry)
        past.add(entry)
    past.finish_line()
    past.ended = transcript.ended
    for law in () if alone else AT_END:
        wrong = law(past)
        if wrong:
            found[law.__name__] = (wrong, None)
    if transcript.ended and transcript.table[0].startswith("end ") and table_of(past, key, not alone) != transcript.table:
        found["EndsWithTable"] = ("the table at the end of the run", None)
    return [(name,) + what for name, what in found.items()]
