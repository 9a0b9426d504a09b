"""Messages of the command classes and how they are wrapped (docs/MESSAGES.md, docs/ENCAPSULATION.md, docs/SEGMENTS.md)."""
from collections import namedtuple
from functools import lru_cache

NONCE_GET = b"\x98\x40"
NONCE_REPORT = b"\x98\x80"
SEALED = b"\x98\x81"
NO_MORE = b"\x84\x08"
NOTIFICATION = b"\x84\x07"
MOST_ON_AIR = 46

# what a payload is once it is out of its wraps; `session` is (whether updates were asked, id), `channel` (source, target)
Opened = namedtuple("Opened", "batch session channel checked commands")
# a message: its class, its command and its fields
Message = namedtuple("Message", "cls command fields")


class Unreadable(Exception):
    """Bytes that are no message or no wrap."""


def crc(data):
    """The remainder by 0x1021 from 0x1D0F."""
    total = 0x1D0F
    for byte in data:
        total ^= byte << 8
        for _ in range(8):
            total = (total << 1 ^ 0x1021 if total & 0x8000 else total << 1) & 0xFFFF
    return total


def with_crc(data):
    """The bytes and then their remainder."""
    return data + crc(data).to_bytes(2, "big")


class Fields:
    """Takes the fields of a message one after another."""

    def __init__(self, text):
        self.text, self.place = text, 2

    def number(self, size=1):
        """An unsigned number, high byte first."""
        self.place += size
        if self.place > len(self.text):
            raise Unreadable
        return int.from_bytes(self.text[self.place - size:self.place], "big")

    def among(self, allowed):
        """A byte that must be one of these."""
        byte = self.number()
        if byte not in allowed:
            raise Unreadable
        return byte

    def rest(self):
        """All bytes that are left."""
        rest, self.place = self.text[self.place:], len(self.text)
        return rest


ON_OFF = (0, 0xFF)
LEVELS = set(range(0x64)) | {0xFF}
BATTERY = set(range(0x65)) | {0xFF}
NODES = range(1, 233)


def scaled(fields):
    """(precision, scale, size, value)."""
    byte = fields.number()
    if byte & 7 not in (1, 2, 4):
        raise Unreadable
    return (byte >> 5, byte >> 3 & 3, byte & 7, fields.number(byte & 7))


def parameter(fields):
    """(parameter, whether the default is asked, size, value)."""
    which, byte = fields.number(), fields.number()
    if byte & 7 not in (1, 2, 4):
        raise Unreadable
    return (which, byte >> 7, byte & 7, fields.number(byte & 7))


def parameters(fields):
    """(offset, whether the default is asked, size, values)."""
    offset, count, byte = fields.number(2), fields.number(), fields.number()
    if byte & 7 not in (1, 2, 4):
        raise Unreadable
    return (offset, byte >> 7, byte & 7, [fields.number(byte & 7) for _ in range(count)])


def members(fields):
    """Nodes to the end of the message."""
    nodes = list(fields.rest())
    if any(node not in NODES for node in nodes):
        raise Unreadable
    return nodes


def supervision(fields):
    """(id, status, whether the node asks to be kept awake)."""
    byte = fields.number()
    status = fields.among((0, 1, 2, 0xFF))
    fields.number()
    return (byte & 63, status, bool(byte & 64))


def numbers(*sizes):
    """Reads numbers of these sizes."""
    return lambda fields: tuple(fields.number(size) for size in sizes)


def one(allowed):
    """Reads one byte of these."""
    return lambda fields: (fields.among(allowed),)


MASKED_MODE = lambda fields: (fields.number() & 31,)
SETPOINT = lambda fields: (fields.number() & 15,) + scaled(fields)
WAKE_INTERVAL = lambda fields: (fields.number(3), fields.among(NODES))
ROWS = {
    (0x20, 1): numbers(1), (0x20, 2): numbers(), (0x20, 3): numbers(1),
    (0x25, 1): one(ON_OFF), (0x25, 2): numbers(), (0x25, 3): one(ON_OFF),
    (0x26, 1): one(LEVELS), (0x26, 2): numbers(), (0x26, 3): one(LEVELS),
    (0x40, 1): MASKED_MODE, (0x40, 2): numbers(), (0x40, 3): MASKED_MODE,
    (0x43, 1): SETPOINT, (0x43, 2): lambda fields: (fields.number() & 15,), (0x43, 3): SETPOINT,
    (0x62, 1): one(ON_OFF), (0x62, 2): numbers(), (0x62, 3): lambda fields: (fields.among(ON_OFF),) + numbers(1, 1, 1, 1)(fields),
    (0x70, 4): parameter, (0x70, 5): numbers(1), (0x70, 6): parameter, (0x70, 7): parameters,
    (0x85, 1): lambda fields: (fields.number(), members(fields)), (0x85, 4): lambda fields: (fields.number(), members(fields)),
    (0x85, 2): numbers(1), (0x85, 3): lambda fields: numbers(1, 1, 1)(fields) + (members(fields),),
    (0x85, 5): numbers(), (0x85, 6): numbers(1),
    (0x84, 4): WAKE_INTERVAL, (0x84, 5): numbers(), (0x84, 6): WAKE_INTERVAL, (0x84, 7): numbers(), (0x84, 8): numbers(),
    (0x30, 2): numbers(), (0x30, 3): one(ON_OFF),
    (0x31, 4): numbers(), (0x31, 5): lambda fields: (fields.number(),) + scaled(fields),
    (0x71, 5): numbers(1, 1), (0x72, 4): numbers(), (0x72, 5): numbers(2, 2, 2),
    (0x80, 2): numbers(), (0x80, 3): one(BATTERY),
    (0x86, 0x11): numbers(), (0x86, 0x12): numbers(1, 1, 1, 1, 1), (0x86, 0x13): numbers(1), (0x86, 0x14): numbers(1, 1),
    (0x6C, 2): supervision, (0x98, 0x40): numbers(),
    (0x98, 0x80): lambda fields: (fields.number(8).to_bytes(8, "big"),),
    (0x55, 0xC8): lambda fields: (lambda byte: (byte >> 4, (byte & 7) << 8 | fields.number()))(fields.number()),
    (0x55, 0xE8): numbers(1), (0x55, 0xF0): numbers(1),
}


def message_of(text):
    """The message that the bytes are, or Unreadable."""
    row = ROWS.get(tuple(text[:2]))
    if row is None:
        raise Unreadable
    return Message(text[0], text[1], row(Fields(text)))


# ---- wraps, from the outside in: CRC-16, Multi Channel, Supervision, Multi Command

def wrap_level(text):
    """The place of the wrap with which the bytes begin in that order; 4 for a seal or segment, None for a command."""
    order = {b"\x56\x01": 0, b"\x60\x0D": 1, b"\x6C\x01": 2, b"\x8F\x01": 3, SEALED: 4}
    if text[:2] in order:
        return order[text[:2]]
    return 4 if is_segment(text) else None


def commands_in(text):
    """The commands of a Multi Command."""
    place, commands = 3, []
    if len(text) < 3:
        raise Unreadable
    for _ in range(text[2]):
        if place >= len(text):
            raise Unreadable
        commands.append(text[place + 1:place + 1 + text[place]])
        place += 1 + text[place]
    if place != len(text) or any(not command or wrap_level(command) is not None for command in commands):
        raise Unreadable
    return commands


def opened(text):
    """What a payload is out of its wraps, or Unreadable. A seal or segment alone is a command here."""
    session = channel = None
    checked, level = False, -1
    while True:
        if not text:
            raise Unreadable
        now = wrap_level(text)
        if now is None or now == 4 and level == -1:
            return Opened(False, session, channel, checked, [text])
        if now <= level or now == 4 or now < 3 and len(text) < 4:
            raise Unreadable
        level = now
        if now == 0:
            if with_crc(text[:-2]) != text:
                raise Unreadable
            checked, text = True, text[2:-2]
        elif now == 1:
            if text[3] & 0x80:
                raise Unreadable
            channel, text = (text[2] & 0x7F, text[3]), text[4:]
        elif now == 2:
            if text[3] != len(text) - 4:
                raise Unreadable
            session, text = (bool(text[2] & 0x80), text[2] & 63), text[4:]
        else:
            return Opened(True, session, channel, checked, commands_in(text))


def supervised(updates, session, text):
    """A Supervision Get around a command."""
    return bytes((0x6C, 1, (0x80 if updates else 0) | session % 64, len(text))) + text


def to_end_point(source, target, text):
    """Multi Channel around a command."""
    return bytes((0x60, 0x0D, source, target)) + text


def checked(text):
    """CRC-16 around a command."""
    return with_crc(b"\x56\x01" + text)


# ---- segments

def is_segment(text):
    """Whether the bytes begin as a First or Subsequent segment."""
    return len(text) >= 2 and text[0] == 0x55 and text[1] & 0xF8 in (0xC0, 0xE0) and (text[1] & 0xF8 != 0xC8)


def segment_at(session, message, place):
    """The segment of a message at a place."""
    size = len(message)
    head = (bytes((0x55, 0xC0 | size >> 8, size & 255, session % 16 << 4)) if place == 0
            else bytes((0x55, 0xE0 | size >> 8, size & 255, session % 16 << 4 | place >> 8, place & 255)))
    return with_crc(head + message[place:place + 39])


def segments_of(session, message):
    """All segments of a message, in order."""
    return [segment_at(session, message, place) for place in range(0, len(message), 39)]


# ---- what a payload tells the host

def told_in(text):
    """The messages that a payload that is not sealed tells, with the end point that it speaks for; Unreadable where one is none."""
    out = opened(text)
    end = out.channel[0] if out.channel else 0
    return end, [message_of(command) for command in out.commands]


def values_in(message, end):
    """The values that a message tells: (end point, name, numbers) and value."""
    kind, fields = (message.cls, message.command), message.fields
    simple = {(0x25, 3): "switch", (0x26, 3): "level", (0x62, 3): "lock", (0x40, 3): "mode", (0x80, 3): "battery", (0x84, 6): "interval"}
    if kind in simple:
        return [((end, simple[kind]), fields[0])]
    if kind == (0x43, 3):
        return [((end, "setpoint", fields[0]), fields[4])]
    if kind == (0x70, 6):
        return [((end, "config", fields[0]), fields[3])]
    if kind == (0x31, 5):
        return [((end, "sensor"), fields[4])]
    if kind == (0x85, 3):
        return [((end, "member", fields[0], node), 1) for node in fields[3]]
    return []


NAMES = ("switch", "level", "lock", "mode", "setpoint", "config", "member", "interval", "sensor", "battery")


@lru_cache(maxsize=65536)
def property_text(which):
    """A property as a transcript names it."""
    return "%d/%s" % (which[0], ":".join([which[1]] + [str(number) for number in which[2:]]))


@lru_cache(maxsize=65536)
def property_order(which):
    """Sorts properties as they are listed."""
    return (which[0], NAMES.index(which[1])) + tuple(which[2:])
