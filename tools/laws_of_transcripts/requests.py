"""The requests of a host and how they are owed (docs/REQUESTS.md)."""
from . import serial
from .owed import Broken, Owed

OPTIONS = 0x25


class Request:
    """A request: what it is for, its node, its function and body, and for an attempt its number and whether it may fail by NO_ACK."""

    def __init__(self, purpose, node, function, body=b"", text=None, token=0, spared=False, callback=0):
        self.purpose, self.node, self.function, self.body, self.text = purpose, node, function, body, text
        self.token, self.spared, self.callback = token, spared, callback
        self.sent = self.responded = False
        self.ends_at = 0


class OwedUnit(Owed):
    """A request is written next: an unsealed one byte for byte, a sealed or drawn text as its test says."""

    def __init__(self, request, rule):
        Owed.__init__(self, "RestsWell", rule, "h", (request.function,))
        self.request = request

    def met_by(self, entry):
        if entry.kind != "h" or len(entry.fields[0]) == 1:
            return False
        request = self.request
        if request.function != serial.SEND_DATA:
            return entry.fields[0] == serial.frame_text(0, request.function, request.body)
        frame = serial.item_of(entry.fields[0]).frame
        asked = serial.request_in(frame)
        if not asked or asked[0] != serial.SEND_DATA or frame.body[-2] != OPTIONS:
            return False
        send = asked[1]
        return send.node == request.node and send.callback == request.callback and request.text(send.payload)

    def broken_by(self, entry):
        if entry is None or entry.kind != "h" or len(entry.fields[0]) == 1:
            return Broken(self.law, "%s: function %02X to node %s is due" % (self.part, self.request.function, self.request.node))
        asked = serial.request_in(serial.item_of(entry.fields[0]).frame)
        same = asked and asked[0] == self.request.function and (asked[0] != serial.SEND_DATA or asked[1].node == self.request.node)
        if same and asked[0] == serial.SEND_DATA and asked[1].callback == self.request.callback:
            return Broken("SendsWhatIsDue", "%s: another payload is due to node %d" % (self.part, self.request.node))
        return Broken("SendsInTurn", "%s: function %02X to node %s is due" % (self.part, self.request.function, self.request.node))


class OwedBegin(Owed):
    """A session begins next."""

    def __init__(self, node, session, command):
        Owed.__init__(self, "RestsWell", "a waiting command of a node that is awake", "begin", (node, session, command))

    def broken_by(self, entry):
        broken = Owed.broken_by(self, entry)
        if entry is not None and entry.kind in ("begin", "h"):
            broken.law = "SendsInTurn"
        return broken
