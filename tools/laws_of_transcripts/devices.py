"""What a device does of what comes to it (docs/DEVICES.md): its changes and its answers. Its kind is its node modulo 8."""
from . import messages
from .ciphers import unsealed
from .messages import property_order, property_text
from .nonces import Nonce
from .owed import Owed

RELAY, SWITCH, DIMMER, LOCK, SENSOR, THERMOSTAT, STRIP, PARAMETERS = 1, 2, 3, 4, 5, 6, 7, 0
CLASSES = {
    RELAY: "2556", SWITCH: "25856C", DIMMER: "26856C", LOCK: "62986C", SENSOR: "3180846C", THERMOSTAT: "40438F856C",
    STRIP: "25606C", PARAMETERS: "70556C",
}
MAIN = {RELAY: "switch", SWITCH: "switch", DIMMER: "level", LOCK: "lock", SENSOR: "sensor", THERMOSTAT: "mode", STRIP: "switch"}
SETTERS = {(0x25, 1), (0x26, 1), (0x40, 1), (0x43, 1), (0x62, 1), (0x70, 4), (0x70, 7), (0x85, 1), (0x85, 4), (0x84, 4)}
NO_SUPPORT, WORKING, FAIL, SUCCESS = 0, 1, 2, 0xFF
CONTROLLER, ASLEEP_AFTER, WORK_TICKS, MOST_MEMBERS, ASKS_FROM = 1, 200, 5, 5, 101


def kind_of(node):
    """The kind of the device of a node."""
    return node % 8


def listing_of(node):
    """The classes that the device of a node lists."""
    return bytes.fromhex(CLASSES[kind_of(node)])


def listens(node):
    """Whether the device of a node listens."""
    return kind_of(node) != SENSOR


class Answer:
    """An answer of a device: known bytes, a nonce that it shows, or a text sealed for a nonce of the host."""

    def __init__(self, text=None, nonce=None, sealed_for=None):
        self.text, self.nonce, self.sealed_for = text, nonce, sealed_for

    def is_text(self, key, node, payload):
        """Whether a payload is this answer."""
        if self.nonce is not None:
            return payload[:2] == messages.NONCE_REPORT and self.nonce.shows(payload[2:])
        if self.sealed_for is not None:
            return (payload[:2] == messages.SEALED and len(payload) >= 20 and payload[-9] == self.sealed_for[0]
                    and unsealed(key, self.sealed_for, node, CONTROLLER, payload) == self.text)
        return payload == self.text


class Clock:
    """How many ticks the devices have lived."""

    clock = 0


class Device:
    """A device as its maker leaves it, and then as what came to it left it; `lived` has the clock of all devices."""

    def __init__(self, node, key, lived=Clock):
        self.node, self.kind, self.key, self.lived = node, kind_of(node), key, lived
        self.classes = listing_of(node)
        self.awake = True
        self.last = 0
        self.values, self.last_level = {}, None
        self.taken, self.status, self.work = 0, SUCCESS, None
        self.segments = None
        self.given, self.live, self.seen, self.pending = 0, None, 0, None

    def value(self, which):
        """The value of a property."""
        return self.values.get(which, 0)

    def main(self):
        """The main property."""
        return (0, "config", 0) if self.kind == PARAMETERS else (0, MAIN[self.kind])

    def shown(self):
        """What the line `show` and the table tell: the main property, and what is not 0."""
        held = {which for which, value in self.values.items() if value} | {self.main()}
        return [(property_text(which), self.value(which)) for which in sorted(held, key=property_order)]

    def changes(self, by, settings):
        """A change: its entries, one for each property, in order."""
        for which, value in sorted(dict(settings).items(), key=lambda setting: property_order(setting[0])):
            self.values[which] = value
            if which[1] == "level" and value:
                self.last_level = value
            yield Owed("RanAsShown", "a change of a device", "dev", (self.node, str(by), property_text(which), value))

    # ---- events; each gives the entries of its changes, and returns the answers

    def ticks(self):
        """A tick: a dimmer's work is done, a sensor falls asleep."""
        clock, answers = self.lived.clock, []
        if self.work is not None and clock >= self.work[0]:
            _, level, out = self.work
            self.work = None
            if level == 0xFF:
                level = 99 if self.last_level is None else self.last_level
            yield from self.changes(self.taken, [((0, "level"), level)])
            self.status = SUCCESS
            if out.session[0]:
                answers.append(Answer(self.wrapped(out, self.report(False))))
        if self.awake and self.kind == SENSOR and clock - self.last >= ASLEEP_AFTER:
            self.awake = False
        return answers

    def next_wait(self):
        """The tick at which a wait of the device ends, or None."""
        if self.work is None and self.kind != SENSOR:
            return None
        waits = [self.work[0]] if self.work else []
        if self.awake and self.kind == SENSOR:
            waits.append(self.last + ASLEEP_AFTER)
        return min(waits, default=None)

    def wakes(self):
        """The line `wake`."""
        if self.kind != SENSOR:
            return []
        self.awake, self.last = True, self.lived.clock
        return [Answer(messages.NOTIFICATION)]

    def is_set(self, value):
        """The line `local`: the main property is set by hand."""
        value = {DIMMER: min(value, 99), THERMOSTAT: value % 3, SENSOR: value, PARAMETERS: value}.get(self.kind, 255 if value else 0)
        yield from self.changes("local", [(self.main(), value)])
        if self.kind in (LOCK, PARAMETERS) or not self.awake:
            return []
        return [Answer(self.tells(self.main()))]

    def hears(self, payload):
        """A payload that comes while it is awake."""
        self.last = self.lived.clock
        if self.kind == LOCK:
            return (yield from self.hears_sealed(payload))
        if self.kind == PARAMETERS and messages.is_segment(payload):
            return (yield from self.hears_segment(payload))
        return (yield from self.hears_message(payload, False))

    # ---- what a message does

    def tells(self, which):
        """The report of a value."""
        value, name = self.value(which), which[1]
        if name in ("switch", "level", "mode"):
            return bytes(({"switch": 0x25, "level": 0x26, "mode": 0x40}[name], 3, value))
        if name == "setpoint":
            return bytes((0x43, 3, which[2], 0x22)) + value.to_bytes(2, "big")
        if name == "config":
            return bytes((0x70, 6, which[2], 4)) + value.to_bytes(4, "big")
        if name == "sensor":
            return bytes((0x31, 5, 1, 0x22)) + value.to_bytes(2, "big")
        return bytes((0x84, 6)) + value.to_bytes(3, "big") + b"\x01"

    def answer_to_get(self, message, end):
        """The report that a Get asks for, or None."""
        kind = (message.cls, message.command)
        if message.cls not in self.classes or self.kind == LOCK or end and kind != (0x25, 2):
            return None
        plain = {(0x25, 2): (end, "switch"), (0x26, 2): (0, "level"), (0x40, 2): (0, "mode"), (0x31, 4): (0, "sensor"),
                 (0x84, 5): (0, "interval")}.get(kind)
        if plain:
            return self.tells(plain)
        if kind == (0x80, 2):
            return b"\x80\x03\x64"
        if kind == (0x43, 2):
            return self.tells((0, "setpoint", message.fields[0])) if message.fields[0] in (1, 2) else None
        if kind == (0x70, 5):
            return self.tells((0, "config", message.fields[0]))
        if kind == (0x85, 2):
            group = message.fields[0]
            return bytes((0x85, 3, group, MOST_MEMBERS, 0)) + bytes(sorted(self.members(group)))
        return None

    def members(self, group):
        """The members of a group."""
        return [which[3] for which, value in self.values.items() if which[1] == "member" and which[2] == group and value]

    @staticmethod
    def wrapped(out, command):
        """An answer, wrapped as it was asked."""
        if out.channel is not None:
            command = messages.to_end_point(out.channel[1], out.channel[0], command)
        return messages.checked(command) if out.checked else command

    def report(self, updates):
        """The Supervision Report of the session that was taken last."""
        ident = self.taken % 64
        if self.status == WORKING:
            return bytes((0x6C, 2, ident | (0x80 if updates else 0), 1, 1))
        return bytes((0x6C, 2, ident | (0x40 if self.kind == SENSOR and self.node >= ASKS_FROM else 0), self.status, 0))

    def answered(self, out, command, sealed):
        """An answer: at once, or by way of a Nonce Get."""
        text = self.wrapped(out, command)
        if not sealed:
            return [Answer(text)]
        self.pending = text
        return [Answer(messages.NONCE_GET)]

    def has_end(self, end):
        """Whether the end point is there."""
        return end == 0 or self.kind == STRIP and end <= 4

    def hears_message(self, payload, sealed):
        """A payload out of seal and segments."""
        try:
            out = messages.opened(payload)
        except messages.Unreadable:
            return []
        if out.session is not None:
            return (yield from self.hears_supervised(out, sealed)) if 0x6C in self.classes else []
        end = out.channel[1] if out.channel else 0
        if out.batch or not self.has_end(end):
            return []
        try:
            message = messages.message_of(out.commands[0])
        except messages.Unreadable:
            return []
        if self.kind == RELAY and (message.cls, message.command) == (0x25, 1):
            yield from self.changes("plain", [((0, "switch"), message.fields[0])])
            return []
        if self.kind == SENSOR and (message.cls, message.command) == (0x84, 8):
            self.awake = False
            return []
        report = self.answer_to_get(message, end)
        return [] if report is None else [Answer(self.wrapped(out, report))]

    def hears_supervised(self, out, sealed):
        """A Supervision Get: the next session is taken, the last one is told again."""
        updates, ident = out.session
        if self.status != WORKING and ident == (self.taken + 1) % 64:
            self.taken += 1
            self.segments = None
            status, settings = self.judged(out)
            self.status = status
            if status == SUCCESS and settings[0][0][1] == "level":
                self.status, self.work = WORKING, (self.lived.clock + WORK_TICKS, settings[0][1], out)
            elif status == SUCCESS:
                yield from self.changes(self.taken, settings)
        elif not (self.taken and ident == self.taken % 64):
            return []
        return self.answered(out, self.report(updates), sealed)

    def judged(self, out):
        """The status of a session's commands, and their settings."""
        end = out.channel[1] if out.channel else 0
        if not self.has_end(end) or out.batch and (not out.commands or 0x8F not in self.classes):
            return NO_SUPPORT, []
        settings, held = [], set(self.members(1))
        for command in out.commands:
            try:
                message = messages.message_of(command)
            except messages.Unreadable:
                return NO_SUPPORT, []
            if message.cls not in self.classes or (message.cls, message.command) not in SETTERS:
                return NO_SUPPORT, []
            made = self.settings_of(message, end, held)
            if made is None:
                return FAIL, []
            settings += made
        return SUCCESS, settings

    def settings_of(self, message, end, held):
        """The settings of a command, or None where a value is outside."""
        kind, fields = (message.cls, message.command), message.fields
        simple = {(0x25, 1): (end, "switch"), (0x26, 1): (0, "level"), (0x62, 1): (0, "lock")}.get(kind)
        if simple:
            return [(simple, fields[0])]
        if kind == (0x40, 1):
            return [((0, "mode"), fields[0])] if fields[0] <= 2 else None
        if kind == (0x43, 1):
            which, precision, scale, size, tenths = fields
            right = which in (1, 2) and (precision, scale, size) == (1, 0, 2) and 50 <= tenths <= 350
            return [((0, "setpoint", which), tenths)] if right else None
        if kind == (0x70, 4):
            return None if fields[1] else [((0, "config", fields[0]), fields[3])]
        if kind == (0x70, 7):
            offset, default, _, values = fields
            if default or offset + len(values) > 256:
                return None
            return [((0, "config", offset + place), value) for place, value in enumerate(values)]
        if kind == (0x84, 4):
            return [((0, "interval"), fields[0])] if fields[1] == CONTROLLER else None
        group, nodes = fields
        if group != 1 or not nodes:
            return None
        adds = message.command == 1
        (held.update if adds else held.difference_update)(nodes)
        return [((0, "member", group, node), int(adds)) for node in nodes] if len(held) <= MOST_MEMBERS else None

    # ---- segments

    def hears_segment(self, text):
        """A segment of the next session's message is kept; one of the last session's is told its end."""
        if len(text) < (7 if text[1] < 0xE0 else 8):
            return []
        first = text[1] < 0xE0
        size, ident = (text[1] & 7) << 8 | text[2], text[3] >> 4
        place, part = (0, text[4:-2]) if first else ((text[3] & 7) << 8 | text[4], text[5:-2])
        if ident != (self.taken + 1) % 16:
            if not (self.taken and ident == self.taken % 16) or place + len(part) != size:
                return []
            return [Answer(bytes((0x55, 0xE8, ident << 4))), Answer(self.report(False))]
        if messages.with_crc(text[:-2]) != text or text[3] & 8 or not 0 < size <= 512 or place >= size or place + len(part) > size:
            return []
        if self.segments is None or self.segments[:2] != (ident, size):
            self.segments = (ident, size, {})
        held = self.segments[2]
        held.update((place + more, byte) for more, byte in enumerate(part))
        if len(held) == size:
            whole = bytes(held[at] for at in range(size))
            self.segments = None
            done = Answer(bytes((0x55, 0xE8, ident << 4)))
            return [done] + (yield from self.hears_message(whole, False))
        if size - 1 not in held:
            return []
        least = next(at for at in range(size) if at not in held)
        return [Answer(bytes((0x55, 0xC8, ident << 4 | least >> 8, least & 255)))]

    # ---- Security 0

    def hears_sealed(self, payload):
        """A lock hears class 98 alone."""
        if payload[:2] == messages.NONCE_GET:
            if self.live is None:
                self.given += 1
                self.live = Nonce(self.given % 256)
            return [Answer(nonce=self.live)]
        if payload[:2] == messages.NONCE_REPORT and len(payload) >= 10 and self.pending is not None:
            nonce = payload[2:10]
            if not (self.seen and nonce[0] == self.seen % 256):
                if nonce[0] != (self.seen + 1) % 256:
                    return []
                self.seen += 1
            text, self.pending = self.pending, None
            return [Answer(text, sealed_for=nonce)]
        if payload[:2] == messages.SEALED and len(payload) >= 20 and self.live is not None and payload[-9] == self.live.first:
            nonce, self.live = self.live, None
            text = unsealed(self.key, nonce.text, CONTROLLER, self.node, payload) if nonce.text else None
            return [] if text is None else (yield from self.hears_message(text, True))
        return []
