"""Orders: what a line asks for, what refuses it, and the message of its session (docs/ORDERS.md, docs/SESSIONS.md)."""
from collections import namedtuple
from functools import lru_cache

from . import messages
from .entries import ORDERS, end_point_of

# an order as its line says it
Order = namedtuple("Order", "node end word values")
# what an accepted order sends: its commands, the settings that success makes, and how it is carried ("plain", "checked", "sealed", "cut")
Asked = namedtuple("Asked", "commands settings form")
SWITCH, LEVEL, LOCK = 0x25, 0x26, 0x62
LISTED_AT_FIRST = bytes((0x25, 0x85, 0x6C))
MOST_WAITING, MOST_PROPERTIES, MOST_QUEUED = 16, 512, 64


def order_of(words):
    """The order of a line, or None where it is no order."""
    if words[0] not in ORDERS:
        return None
    node, end = end_point_of(words[1]) if words[0] == "set" else (int(words[1]), 0)
    values = words[2:] if words[0] in ("set", "bulk") else tuple(int(word) for word in words[2:])
    return Order(node, end, words[0], tuple(values))


def first_listed(classes, wanted):
    """The first of these classes that is listed, or None."""
    return next((one for one in wanted if one in classes), None)


def classes_needed(order, classes):
    """The classes that a node must list to carry out the order."""
    value = first_listed(classes, (SWITCH, LEVEL, LOCK))
    needed = {"set": [SWITCH if value is None else value], "mode": [0x40], "setpoint": [0x43], "comfort": [0x40, 0x43, 0x8F],
              "config": [0x70], "bulk": [0x70], "assoc": [0x85], "unassoc": [0x85], "interval": [0x84]}[order.word]
    return needed + ([0x60] if order.end else [])


def value_command(cls, word):
    """A Set of a value and the value itself, or None where the class has no such value."""
    if cls == LEVEL:
        level = {"on": 99, "off": 0}.get(word)
        level = int(word) if level is None else level
        return (bytes((cls, 1, level)), level) if level <= 99 else None
    if word not in ("on", "off"):
        return None
    value = 255 if word == "on" else 0
    return bytes((cls, 1, value)), value


def commands_of(order, classes):
    """The commands and the settings of an order, or None where a value is bad."""
    end, values = order.end, order.values
    if order.word == "set":
        cls = first_listed(classes, (SWITCH, LEVEL, LOCK))
        made = value_command(cls, values[0])
        return made and ([made[0]], [((end, {SWITCH: "switch", LEVEL: "level", LOCK: "lock"}[cls]), made[1])])
    if order.word in ("mode", "setpoint", "comfort"):
        commands, settings = [], []
        if order.word != "setpoint":
            if values[0] > 31:
                return None
            commands.append(bytes((0x40, 1, values[0])))
            settings.append(((end, "mode"), values[0]))
        if order.word != "mode":
            which, tenths = values[-2:]
            if which not in (1, 2) or tenths > 999:
                return None
            commands.append(bytes((0x43, 1, which, 0x22)) + tenths.to_bytes(2, "big"))
            settings.append(((end, "setpoint", which), tenths))
        return commands, settings
    if order.word == "config":
        return [bytes((0x70, 4, values[0], 4)) + values[1].to_bytes(4, "big")], [((end, "config", values[0]), values[1])]
    if order.word == "bulk":
        offset, data = int(values[0]), bytes.fromhex(values[1])
        if not data or offset + len(data) > 256:
            return None
        text = bytes((0x70, 7)) + offset.to_bytes(2, "big") + bytes((len(data) & 255, 1)) + data
        return [text], [((end, "config", offset + place), value) for place, value in enumerate(data)]
    if order.word in ("assoc", "unassoc"):
        group, member = values
        adds = order.word == "assoc"
        return [bytes((0x85, 1 if adds else 4, group, member))], [((end, "member", group, member), int(adds))]
    if values[0] > 0xFFFFFF:
        return None
    return [bytes((0x84, 4)) + values[0].to_bytes(3, "big") + b"\x01"], [((end, "interval"), values[0])]


@lru_cache(maxsize=4096)
def asked_of(order, classes):
    """What the order asks for of a node with these classes, or the refusal, by the rules that need no table of the host."""
    for cls in classes_needed(order, classes):
        if cls not in classes:
            return "unsupported %02X" % cls
    made = commands_of(order, classes)
    if made is None:
        return "badvalue"
    if 0x6C not in classes:
        return "unsupervised"
    commands, settings = made
    inner = len(commands[0]) if len(commands) == 1 else 3 + sum(1 + len(command) for command in commands)
    size = inner + 4 + (4 if order.end else 0)
    if inner > 255:
        return "toolong %d" % inner
    if 0x98 in classes:
        return Asked(commands, settings, "sealed") if size <= 26 else "toolong %d" % size
    if size > messages.MOST_ON_AIR:
        return Asked(commands, settings, "cut") if 0x55 in classes else "toolong %d" % size
    return Asked(commands, settings, "checked" if 0x56 in classes and size + 4 <= messages.MOST_ON_AIR else "plain")


def message_of(order, asked, session):
    """The message of a session that carries the order, before it is cut or sealed."""
    commands = asked.commands
    text = commands[0]
    if len(commands) > 1:
        text = bytes((0x8F, 1, len(commands))) + b"".join(bytes((len(command),)) + command for command in commands)
    text = messages.supervised(any(command[0] == LEVEL for command in commands), session, text)
    if order.end:
        text = messages.to_end_point(0, order.end, text)
    return messages.checked(text) if asked.form == "checked" else text


# ---- `send` and `get`

def errand_refusal(words, joined, classes):
    """The refusal of a `send` or `get` line, or None."""
    node, end = end_point_of(words[1])
    if node not in joined:
        return "notjoined"
    if classes is None:
        return "notinterviewed"
    if 0x98 in classes:
        return "secured"
    cls = first_listed(classes, (SWITCH, LEVEL) if words[0] == "send" else (SWITCH, LEVEL, LOCK, 0x40, 0x31))
    if cls is None:
        return "unsupported 25"
    if words[0] == "get":
        return "unsupported 60" if end and 0x60 not in classes else None
    return None if value_command(cls, words[2]) else "badvalue"


def errand_text(words, classes):
    """The payload that a `send` or `get` line asks for."""
    node, end = end_point_of(words[1])
    if words[0] == "send":
        text = value_command(first_listed(classes, (SWITCH, LEVEL)), words[2])[0]
    else:
        cls = first_listed(classes, (SWITCH, LEVEL, LOCK, 0x40, 0x31))
        text = bytes((cls, 4 if cls == 0x31 else 2))
    if end:
        text = messages.to_end_point(0, end, text)
    return messages.checked(text) if 0x56 in classes and len(text) + 4 <= messages.MOST_ON_AIR else text
