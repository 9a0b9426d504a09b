"""What chip, air and devices owe, over the lines and what the chip heard (docs/CHIP.md, docs/AIR.md, docs/WORLD.md).

Each event gives, in order, the entries that the laws demand of it."""
from collections import deque

from . import messages, serial
from .devices import Device, listens, listing_of
from .owed import Agenda, Broken, Owed
from .routes import CONTROLLER, Network, hops

MOST_KEPT, LATER, LATER_SEGMENT, NONCES, MOST_FOR_HOST = 4096, 62, 14, 120, 32
OK, NO_ACK, FAILED, NO_ROUTE = 0, 1, 2, 4
FUNCTIONS = (0x02, 0x04, 0x07, 0x13, 0x15, 0x16, 0x20, 0x41, 0x49, 0x60, 0x62, 0x80)
HAS_NODES = range(2, 233)


class OwedFrame(Owed):
    """A frame goes on the air next."""

    def __init__(self, law, part, number, sender, receiver, route, is_text):
        Owed.__init__(self, law, part, "air", (number, "%d>%d" % (sender, receiver)))
        self.ends, self.route, self.is_text = (number, sender, receiver), route, is_text

    def met_by(self, entry):
        if entry.kind != "air":
            return False
        frame = entry.fields[0]
        return (frame.number, frame.sender, frame.receiver) == self.ends and frame.route == self.route and self.is_text(frame.payload)

    def broken_by(self, entry):
        law = self.law
        if entry is not None and entry.kind == "air":
            frame = entry.fields[0]
            if frame.number != self.ends[0]:
                law = "NumbersFrames"
            elif (frame.sender, frame.receiver) == self.ends[1:] and frame.route != self.route:
                law = "GoesByRoute"
        return Broken(law, "%s: frame %d %d>%d via %s is due" % ((self.part,) + self.ends + (self.route,)))


class OwedFate(Owed):
    """A frame meets its fate next."""

    def __init__(self, number, fate):
        Owed.__init__(self, "FaresInTurn", "each frame has one fate, in order", fate, (number,))

    def broken_by(self, entry):
        law = self.law
        if entry is not None and entry.kind in ("heard", "lost", "unheard") and entry.fields == self.fields:
            law = "MeetsWhatIsDue"
        return Broken(law, "frame %d is %s" % (self.fields[0], self.kind))


class Sent:
    """A frame that was sent: whether it is lost by a mark, and how many sessions and nonces there were then."""

    def __init__(self, frame, lost, sessions, nonces):
        self.frame, self.lost, self.sessions, self.nonces = frame, lost, sessions, nonces

    def node(self):
        """The end that is not the controller."""
        return self.frame.receiver if self.frame.sender == CONTROLLER else self.frame.sender


class World:
    """Chip, air and devices; `chip_is_free` says whether the chip may submit a frame; `submit` does so."""

    def __init__(self, key, chip_is_free, submit):
        self.key, self.chip_is_free, self.submit = key, chip_is_free, submit
        self.agenda = Agenda()
        self.clock = 0
        self.air, self.table = Network(), Network()
        self.joined = set()
        self.frames, self.flying = {}, []
        self.count = 0
        self.losses = self.deaf = 0
        self.begun, self.nonces, self.last_nonce = {}, {}, {}
        self.devices = {}
        self.waiting = deque()
        self.busy, self.owed, self.results, self.status = None, deque(), deque(), {}
        for network in (self.air, self.table):
            network.set_link(CONTROLLER, 2, True)
        self.joins(2)

    def device(self, node):
        """The device of a node."""
        if node not in self.devices:
            self.devices[node] = Device(node, self.key, self)
        return self.devices[node]

    # ---- lines

    def joins(self, node):
        """A node joins; the chip's table learns its live links to those that have joined, and to node 1."""
        self.joined.add(node)
        if node in HAS_NODES and listens(node):
            self.air.add_repeater(node)
            self.table.add_repeater(node)
        for other in self.air.neighbours(node):
            if other == CONTROLLER or other in self.joined:
                self.table.set_link(node, other, True)

    def discovers(self):
        """The chip's table becomes the air's links between joined nodes and node 1."""
        known = self.joined | {CONTROLLER}
        self.table.links, self.table.found = {}, {}
        for node in known:
            for other in self.air.neighbours(node):
                if other in known:
                    self.table.set_link(node, other, True)

    def asks(self, words):
        """A line of the air or of a device is run."""
        word, node = words[0], int(words[1])
        if word in ("link", "unlink"):
            self.air.set_link(node, int(words[2]), word == "link")
        elif word == "lose":
            self.losses += node
        elif word == "loseack":
            self.deaf += node
        elif word == "repeat":
            yield from self.repeats(node)
        elif node not in HAS_NODES:
            yield Owed("AnswersLines", "a line that its rule refuses", "refused", ("nodevice",))
        elif word == "wake":
            yield from self.answers(node, self.device(node).wakes())
        elif word == "local":
            yield from self.answers(node, (yield from self.device(node).is_set(int(words[2]))))
        elif word == "show":
            for which, value in self.device(node).shown():
                yield Owed("ShowsValues", "the values of a device", "device", (node, which, value))

    def refusal_to_repeat(self, number):
        """Why a frame may not be repeated, or None."""
        if not 1 <= number <= self.count:
            return "neversent"
        if self.count - number > MOST_KEPT:
            return "forgotten"
        sent = self.frames[number]
        first, node = sent.frame.payload[0], sent.node()
        later = self.begun.get(node, 0) - sent.sessions
        if later >= LATER or first == 0x55 and later >= LATER_SEGMENT:
            return "stale %d" % later
        nonces = self.nonces.get(node, 0) - sent.nonces
        return "stale %d" % nonces if first == 0x98 and nonces >= NONCES else None

    def repeats(self, number):
        """A repeat that is not refused is heard where there is somebody to hear."""
        refusal = self.refusal_to_repeat(number)
        if refusal:
            yield Owed("AnswersLines", "a repeat that its rule refuses", "refused", (refusal,))
            return
        frame = self.frames[number].frame
        if frame.receiver == CONTROLLER:
            yield Owed("RepeatsWhatIsAsked", "a repeated frame is heard", "heard", (number,))
            yield from self.brings(frame)
        elif self.is_awake(frame.receiver):
            yield Owed("RepeatsWhatIsAsked", "a repeated frame is heard", "heard", (number,))
            yield from self.hears(frame)

    def is_awake(self, node):
        """Whether the device of a node is there and awake."""
        return node in HAS_NODES and self.device(node).awake

    # ---- the air

    def flies(self, entry):
        """A frame goes on the air: it may use up a mark of loss, and show a new nonce."""
        frame = entry.fields[0]
        self.count = frame.number
        node = frame.receiver if frame.sender == CONTROLLER else frame.sender
        if frame.payload[:2] == messages.NONCE_REPORT and len(frame.payload) >= 10:
            ends = (frame.sender, frame.receiver)
            if self.last_nonce.get(ends) != frame.payload[2:10]:
                self.last_nonce[ends] = frame.payload[2:10]
                self.nonces[node] = self.nonces.get(node, 0) + 1
        lost = self.losses > 0
        self.losses -= lost
        if frame.sender != CONTROLLER and self.air.route(frame.sender) is None:
            lost = True
        self.frames[frame.number] = Sent(frame, lost, self.begun.get(node, 0), self.nonces.get(node, 0))
        self.flying.append(frame.number)

    def answers(self, node, answers):
        """The answers of a joined device go on the air, over the way from its other end; without one they show no repeaters."""
        for answer in answers:
            if node in self.joined:
                route = list(reversed(self.air.route(node) or []))
                self.flies((yield OwedFrame(
                    "RanAsShown", "the answers of a device are its frames", self.count + 1, node, CONTROLLER, route,
                    lambda payload, answer=answer: answer.is_text(self.key, node, payload))))

    def hears(self, frame):
        """A device hears a frame."""
        yield from self.answers(frame.receiver, (yield from self.device(frame.receiver).hears(frame.payload)))

    def dead_hop(self, frame):
        """The first hop of a frame that is not live, or None."""
        return next((hop for hop in hops(frame) if not self.air.has(*hop)), None)

    def ticks(self):
        """A tick of the air, the chip's results and the devices, in this order."""
        flying, self.flying = self.flying, []
        for number in flying:
            yield from self.fares(self.frames[number])
        results, self.results = self.results, deque()
        for result in results:
            yield from self.gives_result(result)
        self.clock += 1
        for node in sorted(node for node, device in self.devices.items() if device.next_wait() is not None):
            yield from self.answers(node, (yield from self.devices[node].ticks()))

    def fares(self, sent):
        """A frame meets its fate."""
        frame = sent.frame
        dead, status = (None if sent.lost else self.dead_hop(frame)), NO_ACK
        if sent.lost:
            yield OwedFate(frame.number, "lost")
        elif dead is None and (frame.receiver == CONTROLLER or self.is_awake(frame.receiver)):
            yield OwedFate(frame.number, "heard")
            if frame.receiver == CONTROLLER:
                yield from self.brings(frame)
            else:
                yield from self.hears(frame)
                status = NO_ACK if self.deaf else OK
                self.deaf -= self.deaf > 0
        else:
            yield OwedFate(frame.number, "unheard")
        if frame.sender == CONTROLLER:
            yield from self.ends_sending(dead, status)

    def ends_sending(self, dead, status):
        """The end of a frame of the controller: a dead hop is forgotten, results that came before are given, then its callback."""
        if dead is not None and self.table.has(*dead):
            self.table.set_link(dead[0], dead[1], False)
            yield Owed("ForgetsDeadHops", "a dead hop of the chip's table", "forget", dead)
        while self.owed[0].without_route:
            self.results.remove(self.owed[0])
            yield from self.calls_back(NO_ROUTE)
        yield from self.calls_back(status)

    # ---- the chip

    def brings(self, frame):
        """The chip brings the host what it heard."""
        body = bytes((0, frame.sender, len(frame.payload))) + frame.payload
        yield from self.gives(serial.frame_text(0, serial.HANDLER, body))

    def gives(self, text):
        """The chip has a frame for the host: it begins it, or it waits, or it is dropped where 32 wait."""
        if self.chip_is_free():
            yield from self.begins(text)
        elif len(self.waiting) >= MOST_FOR_HOST:
            yield Owed("DropsWhenFull", "the new frame is dropped where 32 wait", "chipfull", ())
        else:
            self.waiting.append(text)

    def begins(self, text):
        """A frame of the chip is begun."""
        yield Owed("AnswersInOrder", "the chip gives what it has, in order", "c", (text,))
        self.submit(text)

    def is_freed(self):
        """The chip's frame was sent or given up: the next begins."""
        if self.waiting:
            yield from self.begins(self.waiting.popleft())

    def gives_result(self, result):
        """What the next tick owes: a callback without a route, or the information of a node."""
        if isinstance(result, Sending):
            yield from self.calls_back(NO_ROUTE)
            return
        told = result in self.joined and self.air.route(result) is not None and self.is_awake(result)
        body = b"\x81\0\0"
        if told:
            classes = listing_of(result)
            body = bytes((0x84, result, 3 + len(classes), 4, 0, 0)) + classes
        yield from self.gives(serial.frame_text(0, serial.UPDATE, body))

    def calls_back(self, status):
        """The oldest SendData ends, by its callback, but for one that was taken back."""
        sending = self.owed.popleft()
        if sending.is_over:
            return
        self.busy = None
        self.status[sending.node] = status
        yield from self.gives(serial.frame_text(0, serial.SEND_DATA, bytes((sending.callback, status))))

    def is_asked(self, frame):
        """The chip has acknowledged a good frame: its response, and what the request does."""
        request = serial.request_in(frame)
        if request is None:
            return
        function, node = request
        if function == serial.SEND_DATA:
            yield from self.takes(node)
        elif function == serial.ABORT:
            if self.busy is not None:
                sending, self.busy = self.busy, None
                sending.is_over = True
                self.status[sending.node] = FAILED
                yield from self.gives(serial.frame_text(0, serial.SEND_DATA, bytes((sending.callback, FAILED))))
        else:
            yield from self.gives(serial.frame_text(1, function, self.response_to(function, node)))
            if function == serial.NODE_INFO:
                self.results.append(node)

    def response_to(self, function, node):
        """The body of a response."""
        if function == serial.INIT_DATA:
            return b"\x05\x00\x1D" + serial.node_mask({CONTROLLER} | self.joined) + b"\x07\x00"
        if function == serial.CAPABILITIES:
            return b"\x01\x00" + bytes(6) + serial.node_mask(FUNCTIONS, 32)
        if function == serial.PROTOCOL_INFO:
            hears = node == CONTROLLER or node in self.joined and listens(node)
            return bytes((0x80 if hears else 0, 0, 0, 4, 0, 0))
        if function == serial.IS_FAILED:
            return bytes((int(self.status.get(node) in (NO_ACK, NO_ROUTE)),))
        if function == serial.ROUTING_INFO:
            return serial.node_mask(self.table.neighbours(node))
        return {serial.VERSION: b"Z-Wave 0.00\0\x01", serial.MEMORY_ID: b"\0\0\0\1\1", serial.NODE_INFO: b"\1"}[function]

    def takes(self, send):
        """A SendData is taken where none is under way, its node is joined and its payload is short enough."""
        taken = self.busy is None and send.node in self.joined and len(send.payload) <= messages.MOST_ON_AIR
        yield from self.gives(serial.frame_text(1, serial.SEND_DATA, bytes((int(taken),))))
        if not taken:
            return
        route = self.table.route(send.node)
        sending = self.busy = Sending(send.node, send.callback, route is None)
        self.owed.append(sending)
        if route is None:
            self.results.append(sending)
        else:
            self.flies((yield OwedFrame("AirsWhatIsTaken", "the payload of a SendData that is taken", self.count + 1, CONTROLLER,
                                        send.node, route, send.payload.__eq__)))

    def is_at_rest(self):
        """Whether nothing flies and the chip owes nothing at the next tick."""
        return not (self.flying or self.results)

    def next_wait(self):
        """The next tick at which a device does something, or None."""
        waits = [device.next_wait() for device in self.devices.values()]
        return min((wait for wait in waits if wait is not None), default=None)


class Sending:
    """A SendData that was taken: its node and callback id, whether it has no route, and whether it was taken back."""

    def __init__(self, node, callback, without_route):
        self.node, self.callback, self.without_route = node, callback, without_route
        self.is_over = False
