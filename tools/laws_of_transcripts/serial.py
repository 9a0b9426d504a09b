"""Units of the serial line and the bodies of its frames (docs/SERIAL.md, docs/FUNCTIONS.md)."""
from collections import namedtuple

ACK, NAK, CAN = b"\x06", b"\x15", b"\x18"
REQUEST, RESPONSE = 0, 1
HANDLER, SEND_DATA, ABORT, UPDATE = 0x04, 0x13, 0x16, 0x49
INIT_DATA, CAPABILITIES, VERSION, MEMORY_ID = 0x02, 0x07, 0x15, 0x20
PROTOCOL_INFO, NODE_INFO, IS_FAILED, ROUTING_INFO = 0x41, 0x60, 0x62, 0x80
NODES = range(1, 233)

# an item of the splitting of a stream: "good" (a frame), "bad" (its sum or type is wrong), "short" (a length below 3),
# "stray", "ack", "nak" or "can"
Item = namedtuple("Item", "kind frame")
Frame = namedtuple("Frame", "kind function body")
Send = namedtuple("Send", "node payload callback")
ANSWERS = {6: "ack", 0x15: "nak", 0x18: "can"}


def checksum(data):
    """The exclusive or of 0xFF and all bytes."""
    total = 0xFF
    for byte in data:
        total ^= byte
    return total


def frame_text(kind, function, body):
    """The bytes of a frame."""
    inner = bytes((len(body) + 3, kind, function)) + bytes(body)
    return b"\x01" + inner + bytes((checksum(inner),))


def item_of(unit):
    """The item that a whole unit is."""
    if unit[0] != 1:
        return Item(ANSWERS.get(unit[0], "stray"), None)
    if unit[1] < 3:
        return Item("short", None)
    if checksum(unit[1:-1]) != unit[-1] or unit[2] > 1:
        return Item("bad", None)
    return Item("good", Frame(unit[2], unit[3], unit[4:-1]))


class Splitter:
    """Splits a stream into items; an unfinished frame is given up at the fifteenth tick after its first byte."""

    def __init__(self):
        self.rest = b""
        self.age = 0

    def take(self, piece):
        """The items that end in the piece, in order."""
        return [item_of(unit) for unit in self.units(piece)]

    def units(self, piece):
        """Their bytes."""
        data = self.rest + piece
        if not self.rest:
            self.age = 0
        place, units = 0, []
        while place < len(data):
            size = 1
            if data[place] == 1:
                if place + 1 == len(data):
                    break
                size = 2 if data[place + 1] < 3 else data[place + 1] + 2
                if place + size > len(data):
                    break
            units.append(data[place:place + size])
            place += size
            self.age = 0
        self.rest = data[place:]
        return units

    def tick(self):
        """A tick of the side that hears."""
        if self.rest:
            self.age += 1
            if self.age == 15:
                self.rest = b""


def node_mask(nodes, size=29):
    """A mask of bits in which bit n - 1 is node n."""
    mask = bytearray(size)
    for node in nodes:
        mask[(node - 1) // 8] |= 1 << (node - 1) % 8
    return bytes(mask)


def nodes_of(mask):
    """The nodes of a mask, in order."""
    return [node for node in NODES if mask[(node - 1) // 8] >> (node - 1) % 8 & 1]


def request_in(frame):
    """The fields of a request, after its function, or None where it is none."""
    if frame is None or frame.kind != REQUEST:
        return None
    function, body = frame.function, frame.body
    if function == SEND_DATA:
        if len(body) < 2 or body[0] not in NODES or body[1] < 1 or len(body) < body[1] + 4 or len(body) != body[1] + 4:
            return None
        if body[-1] == 0:
            return None
        return (function, Send(body[0], body[2:-2], body[-1]))
    if function in (INIT_DATA, CAPABILITIES, VERSION, ABORT, MEMORY_ID):
        return (function, None) if not body else None
    if function in (PROTOCOL_INFO, NODE_INFO, IS_FAILED):
        return (function, body[0]) if len(body) == 1 and body[0] in NODES else None
    if function == ROUTING_INFO:
        return (function, body[0]) if len(body) == 4 and body[0] in NODES else None
    return None


def response_in(frame):
    """What a response says, after its function: a byte, a list of nodes or nothing further; None where it is none."""
    if frame is None or frame.kind != RESPONSE:
        return None
    function, body = frame.function, frame.body
    least = {INIT_DATA: 34, CAPABILITIES: 40, SEND_DATA: 1, VERSION: 13, MEMORY_ID: 5, PROTOCOL_INFO: 6, NODE_INFO: 1,
             IS_FAILED: 1, ROUTING_INFO: 29}.get(function)
    if least is None or len(body) < least:
        return None
    if function == INIT_DATA and body[2] != 0x1D or function == MEMORY_ID and body[4] not in NODES:
        return None
    if function == IS_FAILED and body[0] > 1:
        return None
    if function == ROUTING_INFO:
        return (function, nodes_of(body[:29]))
    return (function, body[0])


def notice_in(frame):
    """What a notice of the chip says: (HANDLER, node, payload), (SEND_DATA, callback, status), (UPDATE, node or None, classes)."""
    if frame is None or frame.kind != REQUEST:
        return None
    function, body = frame.function, frame.body
    if function == HANDLER:
        if len(body) < 4 or body[1] not in NODES or body[2] < 1 or len(body) < 3 + body[2]:
            return None
        return (function, body[1], body[3:3 + body[2]])
    if function == SEND_DATA:
        return (function, body[0], body[1]) if len(body) >= 2 and body[1] <= 4 else None
    if function == UPDATE:
        if len(body) < 3:
            return None
        if body[0] == 0x81:
            return (function, None, b"") if body[1] == 0 and body[2] == 0 else None
        if body[0] != 0x84 or body[1] not in NODES or body[2] < 3 or len(body) < 3 + body[2]:
            return None
        return (function, body[1], body[6:3 + body[2]])
    return None
