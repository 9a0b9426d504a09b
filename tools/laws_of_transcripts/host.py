"""What a host owes, over what it heard (docs/HOST.md, docs/REQUESTS.md, docs/NODES.md): the laws of the host alone.

A host hears lines, its own ticks, and what its link tells it (a frame sent or given up, a frame that came). Each is an event;
the function of an event gives, in order, the entries that the laws demand of it. No device, chip or air is named here."""
from collections import deque

from . import messages, orders, serial
from .ciphers import unsealed
from .entries import end_point_of
from .messages import property_order, property_text
from .nonces import Nonce, PerhapsSpent
from .owed import Agenda, Kept, KeptByLine, Owed, OwedOrFault, Peek
from .requests import OwedBegin, OwedUnit, Request

WORDS = {0: "ok", 1: "noack", 2: "fail", 3: "notidle", 4: "noroute"}
OUTCOMES = {0: "nosupport", 2: "fail", 0xFF: "success"}
RESPONSE_WAIT, CALLBACK_WAIT, REPORT_WAIT, SERIES_WAIT, HOLD = 15, 65, 100, 100, 100
ATTEMPTS, CONTROLLER = 3, 1


class Command:
    """An accepted command: its number, order and message, and its outcome."""

    def __init__(self, number, order, asked):
        self.number, self.order, self.asked = number, order, asked
        self.outcome = "waiting"


class Node:
    """What the host knows of a node. A series is "idle", "due" or "runs"; each wait is the tick at which it ends, 0 for none."""

    def __init__(self, number):
        self.number = number
        self.joined = self.listens = self.awake = self.open = self.blocked = False
        self.classes = None
        self.waiting, self.sessions = [], []
        self.forget_tries()
        self.given, self.live, self.seen = 0, None, 0
        self.reserved, self.heard = set(), set()

    def forget_tries(self):
        """What a restart ends: series, attempts, holds, and what counts as awake or told to sleep."""
        self.series, self.attempts, self.token = "idle", 0, 0
        self.attempt_ends = self.series_due = self.hold_ends = 0
        self.segments, self.sealed_for, self.pending = [], None, None
        self.told = None
        self.awake = self.blocked = False

    def is_up(self):
        """Whether the host takes the node to be awake."""
        return self.listens or self.awake

    def properties(self):
        """The properties for which the store has room."""
        return self.reserved | self.heard


class Host:
    """A host: what it has heard, and what it owes. `key` is the network key; `link_is_free` says whether it may submit a frame, `submit`
    does so, and `clears` empties the line at a restart and says how many bytes each pipe held."""

    def __init__(self, key, link_is_free, submit, clears=lambda: []):
        self.key, self.link_is_free, self.submit, self.clears = key, link_is_free, submit, clears
        self.agenda = Agenda()
        self.clock = 0
        self.nodes = {2: Node(2)}
        self.nodes[2].joined = self.nodes[2].listens = True
        self.nodes[2].classes = orders.LISTED_AT_FIRST
        self.commands = []
        self.stored = {}
        self.starts()

    def starts(self):
        """A host begins: no request, nothing queued, callback ids from 1."""
        self.request, self.owes_abort = None, False
        self.queue = deque()
        self.callback, self.served, self.first = 0, 1, None
        self.looks = True

    def node(self, number):
        """What is known of a node."""
        return self.nodes.setdefault(number, Node(number))

    def in_order(self):
        """The nodes in order of numbers."""
        return [self.nodes[number] for number in sorted(self.nodes)]

    # ---- lines

    def asks(self, words):
        """A line is run: its answer, and what it asks for."""
        word = words[0]
        if orders.order_of(words) is not None:
            yield from self.answers_order(orders.order_of(words))
        elif word in ("send", "get"):
            yield from self.answers_errand(words)
        elif word == "interview":
            node = int(words[1])
            if node not in self.joined():
                yield self.refused("notjoined")
            elif (yield from self.has_room(2)):
                self.queue.append(Request("first", node, serial.PROTOCOL_INFO, bytes((node,))))
                self.queue.append(Request("second", node, serial.NODE_INFO, bytes((node,))))
        elif word in ("discover", "neighbours", "failed", "probe"):
            yield from self.answers_question(words)
        elif word == "join":
            yield from self.answers_join(int(words[1]))
        elif word == "cancel":
            yield from self.answers_cancel(int(words[1]))
        elif word == "store":
            yield Owed("ShowsValues", "the stored values of a node", "json", (self.values_text(int(words[1])),))
        elif word == "restart":
            yield from self.restarts()

    def joined(self):
        """The joined nodes."""
        return {number for number, node in self.nodes.items() if node.joined}

    @staticmethod
    def refused(word):
        """The refusal of a line."""
        return Owed("AnswersLines", "a line that its rule refuses", "refused", (word,))

    def has_room(self, places):
        """Whether the queue of requests has so many places; if not, the line is refused."""
        if len(self.queue) + places > orders.MOST_QUEUED:
            yield Owed("FitsQueue", "a line that asks for more places than are free", "refused", ("queuefull 64",))
            return False
        return True

    def refusal_of(self, order):
        """The first rule that refuses an order, or what the order asks for."""
        node = self.nodes.get(order.node)
        if node is None or not node.joined:
            return "notjoined"
        if node.classes is None:
            return "notinterviewed"
        asked = orders.asked_of(order, node.classes)
        if isinstance(asked, str):
            return asked
        if len(node.waiting) >= orders.MOST_WAITING:
            return "mailboxfull 16"
        if len(node.properties() | {which for which, _ in asked.settings}) > orders.MOST_PROPERTIES:
            return "storefull 512"
        return asked

    def answers_order(self, order):
        """An order is accepted with the next number, or refused by the first rule; or the keeper fails."""
        asked = self.refusal_of(order)
        if isinstance(asked, str):
            yield self.refused(asked)
            return
        number, node = len(self.commands) + 1, self.node(order.node)
        entry = yield OwedOrFault("AnswersLines", "an order that no rule refuses", "accepted", (number, order.node))
        if entry.kind == "refused":
            return
        self.commands.append(Command(number, order, asked))
        node.waiting.append(number)
        node.reserved |= {which for which, _ in asked.settings}
        self.begins_series(node)

    def answers_errand(self, words):
        """A `send` or `get` is refused, or its text is queued, by the class list of this moment."""
        number, _ = end_point_of(words[1])
        node = self.nodes.get(number)
        refusal = orders.errand_refusal(words, self.joined(), node.classes if node else None)
        if refusal:
            yield self.refused(refusal)
        elif (yield from self.has_room(1)):
            text = orders.errand_text(words, node.classes)
            self.queue.append(Request("errand", number, serial.SEND_DATA, text=text.__eq__))

    def answers_question(self, words):
        """A question is queued."""
        if not (yield from self.has_room(3 if words[0] == "probe" else 1)):
            return
        if words[0] == "discover":
            self.queue.append(Request("members", None, serial.INIT_DATA))
        elif words[0] == "probe":
            for function in (serial.VERSION, serial.MEMORY_ID, serial.CAPABILITIES):
                self.queue.append(Request("probe", None, function))
        else:
            node = int(words[1])
            function = serial.ROUTING_INFO if words[0] == "neighbours" else serial.IS_FAILED
            body = bytes((node, 0, 0, 0)) if words[0] == "neighbours" else bytes((node,))
            self.queue.append(Request(words[0], node, function, body))

    def answers_join(self, number):
        """A node joins once; node 1 never does."""
        if number == CONTROLLER or number in self.joined():
            yield self.refused("alreadyjoined")
        elif (yield KeptByLine()):
            self.node(number).joined = True

    def answers_cancel(self, number):
        """A waiting command is taken back."""
        command = self.commands[number - 1] if 1 <= number <= len(self.commands) else None
        if command is None or command.outcome != "waiting":
            yield self.refused("notwaiting %d" % number)
            return
        entry = yield OwedOrFault("CancelsWhenAsked", "a command that waits is taken back", "out", (number, "cancelled"))
        if entry.kind == "refused":
            return
        command.outcome = "cancelled"
        self.node(command.order.node).waiting.remove(number)
        self.looks = True

    def values_text(self, number):
        """The stored values of a node as the line `store` shows them."""
        held = self.stored.get(number, {})
        each = ",".join('{"confirmed":%s,"heard":%s,"property":"%s"}' % (
            tuple("null" if value is None else value for value in held[which]) + (property_text(which),))
            for which in sorted(held, key=property_order))
        return '{"node":%d,"values":[%s]}' % (number, each)

    def restarts(self):
        """A new host begins from the records, or the line is refused for the keeper's fault."""
        if not (yield KeptByLine()):
            return
        for side, count in self.clears():
            yield Owed("ClearsLine", "a restart loses what is in the pipes", "cleared", (side, count))
        self.starts()
        for node in self.nodes.values():
            node.forget_tries()
            node.heard = set()
        for number, held in self.stored.items():
            self.stored[number] = {which: (confirmed, None) for which, (confirmed, _) in held.items() if confirmed is not None}
        for command in self.commands:
            if command.outcome == "unanswered":
                command.outcome = "begun"
        for node in self.nodes.values():
            self.begins_series(node)

    # ---- series and attempts

    def begins_series(self, node):
        """A new series is due for an open session of a node that is awake, where none runs or is due."""
        if node.is_up() and node.open and node.series == "idle":
            node.series, node.attempts, node.series_due = "due", 0, 0

    def message(self, node):
        """The command of a node's last session and its message."""
        command = self.commands[node.sessions[-1] - 1]
        return command, orders.message_of(command.order, command.asked, len(node.sessions))

    def ends_attempt(self, node):
        """An attempt ends without a report: the next is due, or the third ends the series."""
        node.attempt_ends, node.segments, node.sealed_for, node.pending = 0, [], None, None
        self.looks = True
        if node.attempts < ATTEMPTS:
            node.series = "due"
            return
        node.series, node.series_due = "idle", self.clock + SERIES_WAIT
        command = self.commands[node.sessions[-1] - 1]
        command.outcome = "unanswered"
        yield Owed("GivesUpAfterThree", "the third attempt has ended", "out", (command.number, "unanswered"))
        yield from self.falls_asleep(node)

    def falls_asleep(self, node):
        """A node that does not listen counts as asleep: after the third attempt, and wherever its No More Information ends."""
        if node.listens:
            return
        node.told, node.hold_ends = None, 0
        if node.awake:
            node.awake = False
            yield Owed("FallsAsleep", "its No More Information or third attempt has ended", "asleep", (node.number,))

    # ---- ticks

    def ticks(self, event):
        """The host's own tick: its link, the wait of its request, then the nodes in order."""
        if event == "failed":
            yield from self.gives_up()
        if self.request is not None and self.request.ends_at == self.clock:
            yield from self.ends("silent")
        for node in self.in_order():
            node.blocked = False
            if node.hold_ends == self.clock:
                node.hold_ends, self.looks = 0, True
            if node.series_due == self.clock:
                node.series_due = 0
                if node.waiting:
                    self.begins_series(node)
            if node.attempt_ends == self.clock:
                yield from self.ends_attempt(node)

    def next_wait(self):
        """The next tick at which a wait ends, or None."""
        waits = [self.request.ends_at] if self.request is not None else []
        for node in self.nodes.values():
            waits += [node.hold_ends, node.series_due, node.attempt_ends]
            if node.blocked:
                waits.append(self.clock + 1)
        return min((wait for wait in waits if wait > self.clock), default=None)

    # ---- the end of a request

    def sent(self):
        """The host's frame was acknowledged."""
        request = self.request
        if request is None or request.sent:
            return
        request.sent = True
        if request.function == serial.ABORT:
            yield from self.ends("sent")
        elif not request.responded:
            request.ends_at = self.clock + RESPONSE_WAIT

    def gives_up(self):
        """The host's link gave its frame up."""
        if self.request is not None:
            yield from self.ends("link")

    def ends(self, how, value=None):
        """The request under way ends."""
        request, self.request = self.request, None
        node = self.nodes.get(request.node)
        self.looks = True
        if request.function == serial.SEND_DATA and how == "silent" and request.responded:
            self.owes_abort = True
        if request.purpose == "attempt":
            if node.series == "runs" and node.token == request.token:
                if how == "ok":
                    node.attempt_ends = self.clock + REPORT_WAIT
                elif not (how == "noack" and request.spared):
                    yield from self.ends_attempt(node)
        elif request.purpose == "errand":
            yield Owed("SaysHowDone", "a Set or Get that a line asked for has ended", "done", (request.node, how))
        elif request.purpose == "no more":
            node.told = None
            yield from self.falls_asleep(node)
        elif request.purpose == "first":
            self.first = value if how == "response" else None
        elif request.purpose == "second":
            yield from self.ends_interview(self.node(request.node), how, value)
        elif request.purpose in ("neighbours", "failed") and how == "response":
            said = tuple(value) if request.purpose == "neighbours" else "yes" if value else "no"
            yield Owed("AnswersQuestions", "a question has its response", request.purpose, (request.node, said))

    def ends_interview(self, node, how, classes):
        """The second request of an interview has ended."""
        if self.first is None or how != "info":
            yield Owed("EndsInterviews", "an interview fails", "uninterviewed", (node.number,))
        elif (yield Kept(node.number)):
            node.listens, node.classes = bool(self.first & 0x80), classes
            yield Owed("EndsInterviews", "an interview succeeds", "interviewed", (node.number,))

    # ---- frames that come

    def hears(self, frame):
        """The host has acknowledged a good frame."""
        if frame.kind == serial.RESPONSE:
            yield from self.hears_response(serial.response_in(frame))
            return
        notice = serial.notice_in(frame)
        request = self.request
        if notice is None:
            return
        if notice[0] == serial.SEND_DATA:
            if request is not None and request.function == serial.SEND_DATA and request.callback == notice[1]:
                yield from self.ends(WORDS[notice[2]])
        elif notice[0] == serial.UPDATE:
            if request is not None and request.function == serial.NODE_INFO and notice[1] in (None, request.node):
                yield from self.ends("nothing" if notice[1] is None else "info", notice[2])
        else:
            yield from self.hears_payload(self.node(notice[1]), notice[2])

    def hears_response(self, response):
        """A response ends the request of its function, or begins its wait for a callback."""
        request = self.request
        if response is None or request is None or request.responded or request.function != response[0]:
            return
        request.responded, request.ends_at = True, 0
        if request.function not in (serial.SEND_DATA, serial.NODE_INFO):
            yield from self.ends("response", response[1])
        elif response[1] == 0:
            yield from self.ends("refused")
        else:
            request.ends_at = self.clock + CALLBACK_WAIT

    def hears_payload(self, node, payload):
        """A payload of a node: each of its messages, in order, each once."""
        self.looks = True
        text, sealed = payload, payload[:2] == messages.SEALED
        if sealed:
            text = yield from self.opens(node, payload)
            if text is False:
                return
        try:
            if text is None:
                raise messages.Unreadable
            end, told = messages.told_in(text)
        except messages.Unreadable:
            yield self.unread(node, payload)
            return
        for message in told:
            kind = (message.cls, message.command)
            if kind == (0x6C, 2) and not sealed and node.classes is not None and 0x98 in node.classes:
                yield self.unread(node, payload)
            elif kind == (0x6C, 2):
                yield from self.takes_report(node, *message.fields)
            elif kind == (0x98, 0x40):
                yield from self.gives_nonce(node)
            elif kind == (0x98, 0x80):
                yield from self.takes_nonce(node, message.fields[0])
            elif kind == (0x84, 7):
                yield from self.wakes(node)
            elif kind == (0x55, 0xC8):
                yield from self.resends(node, *message.fields)
            else:
                for which, value in messages.values_in(message, end):
                    yield from self.hears_value(node, which, value)

    @staticmethod
    def unread(node, payload):
        """A payload that is no message, or does not open, or should have been sealed."""
        return Owed("NotesWhatHappens", "a payload that cannot be read", "unread", (node.number, payload))

    def opens(self, node, payload):
        """The text of a Security message for the live nonce, which is spent; None where it opens to none, False where that is not kept."""
        nonce = node.live
        if len(payload) < 20 or nonce is None or payload[-9] != nonce.first:
            return None
        text = unsealed(self.key, nonce.text, node.number, CONTROLLER, payload) if nonce.text else None
        if isinstance(nonce, PerhapsSpent):
            entry = yield Peek()
            if entry is not None and entry.kind == "unread" and entry.fields == (node.number, payload):
                node.live = None
                return None
        if not (yield Kept(node.number)):
            if text is not None and self.tells_final(node, text) and not isinstance(nonce, PerhapsSpent):
                node.live = PerhapsSpent(node)
            return False
        node.live = None
        return text

    @staticmethod
    def tells_final(node, text):
        """Whether a text tells a final report of the node's open session."""
        try:
            told = messages.told_in(text)[1]
        except messages.Unreadable:
            return False
        return node.open and any((message.cls, message.command) == (0x6C, 2) and message.fields[0] == len(node.sessions) % 64
                                 and message.fields[1] != 1 for message in told)

    def takes_report(self, node, session, status, wake_request):
        """A Supervision Report: of the open session, and kept, it gives the outcome; another one is old."""
        if not node.open or session != len(node.sessions) % 64:
            yield Owed("NotesWhatHappens", "a report of another session", "old", (node.number, session))
            return
        if status == 1:
            if node.series == "runs":
                node.attempt_ends = self.clock + REPORT_WAIT
            return
        if not (yield Kept(node.number)):
            return
        node.open, node.series, node.attempts = False, "idle", 0
        node.attempt_ends = node.series_due = 0
        node.segments, node.sealed_for, node.pending = [], None, None
        command = self.commands[node.sessions[-1] - 1]
        command.outcome = OUTCOMES[status]
        yield Owed("NotesWhatHappens", "a report of the open session is taken", "out", (command.number, command.outcome))
        if status == 0xFF:
            for which, value in sorted(command.asked.settings, key=lambda setting: property_order(setting[0])):
                self.store(node.number, which, value, None)
                yield Owed("StoresConfirmed", "the settings of a successful command", "store",
                           (node.number, property_text(which), value))
        if wake_request and not node.listens:
            node.hold_ends = self.clock + HOLD
            yield Owed("HoldsAsAsked", "a final report asks to be kept awake", "held", (node.number,))

    def store(self, number, which, confirmed, heard):
        """A confirmed or heard value is stored."""
        held = self.stored.setdefault(number, {})
        old = held.get(which, (None, None))
        held[which] = (old[0] if confirmed is None else confirmed, old[1] if heard is None else heard)

    def hears_value(self, node, which, value):
        """A value that a node reports."""
        if which not in node.properties() and len(node.properties()) >= orders.MOST_PROPERTIES:
            yield Owed("NotesWhatHappens", "a value for which there is no room", "unstored", (node.number, property_text(which)))
            return
        node.heard.add(which)
        self.store(node.number, which, None, value)
        yield Owed("NotesWhatHappens", "a value that is told", "report", (node.number, property_text(which), value))

    def wakes(self, node):
        """A Wake Up Notification."""
        node.awake = True
        if node.told == "dropped":
            node.told = None
        self.begins_series(node)
        yield Owed("WakesAsTold", "a node tells that it is awake", "awake", (node.number,))

    # ---- nonces

    def gives_nonce(self, node):
        """A Nonce Get asks for the live nonce, or for a new one whose first byte is the count."""
        if isinstance(node.live, PerhapsSpent) and not (yield Kept(node.number)):
            node.live = None
            return
        if node.live is None:
            if not (yield Kept(node.number)):
                return
            node.given += 1
            node.live = Nonce(node.given % 256)
        nonce = node.live
        yield from self.queues(Request("nonce report", node.number, serial.SEND_DATA,
                                       text=lambda payload: payload[:2] == messages.NONCE_REPORT and nonce.shows(payload[2:])))

    def takes_nonce(self, node, nonce):
        """A Nonce Report is taken while a message is pending; the message is then ready, sealed for it."""
        if node.pending is None:
            return
        if not (node.seen and nonce[0] == node.seen % 256):
            if nonce[0] != (node.seen + 1) % 256 or not (yield Kept(node.number)):
                return
            node.seen += 1
        node.sealed_for, node.pending = (nonce, node.pending), None

    # ---- segments

    def resends(self, node, session, place):
        """A Segment Request of the open session asks for a segment again."""
        if not node.open or session != len(node.sessions) % 16:
            return
        command, text = self.message(node)
        if command.asked.form == "cut" and place % 39 == 0 and place < len(text):
            segment = messages.segment_at(len(node.sessions), text, place)
            yield from self.queues(Request("again", node.number, serial.SEND_DATA, text=segment.__eq__))

    def queues(self, request):
        """A message to a node is queued, or dropped where 64 wait."""
        if len(self.queue) >= orders.MOST_QUEUED:
            yield Owed("FitsQueue", "a message to a node finds the queue full", "queuefull", (request.node,))
            return False
        self.queue.append(request)
        return True

    # ---- choosing

    def tells_sleepers(self):
        """No More Information is queued, once, to each awake sleeper for which there is nothing more."""
        self.looks = False
        for node in self.in_order():
            if (node.awake and not node.listens and node.told is None and node.classes is not None and not node.waiting
                    and node.series == "idle" and not node.hold_ends):
                request = Request("no more", node.number, serial.SEND_DATA, text=messages.NO_MORE.__eq__)
                node.told = "queued" if (yield from self.queues(request)) else "dropped"

    def pumps(self):
        """The host looks what is next: the next request is written where none is under way and the link is free."""
        if self.looks:
            yield from self.tells_sleepers()
        while self.request is None and self.link_is_free():
            if self.owes_abort:
                self.owes_abort = False
                yield from self.writes(Request("abort", None, serial.ABORT), "an abort is owed")
            elif self.queue:
                yield from self.writes(self.queue.popleft(), "the oldest request in the queue")
            else:
                node = self.next_node()
                if node is None:
                    return
                yield from self.serves(node)

    def has_work(self, node):
        """Whether a node has work: a segment or sealed message that is ready, an attempt that is due, or a command to begin."""
        if node.series == "runs":
            return node.sealed_for is not None or bool(node.segments)
        if node.series == "due":
            return True
        return bool(node.waiting) and not node.open and not node.blocked and node.is_up()

    def next_node(self):
        """The first node with work in cyclic order after the one that was served last."""
        ready = [node for node in self.in_order() if self.has_work(node)]
        return next((node for node in ready if node.number > self.served), ready[0] if ready else None)

    def serves(self, node):
        """A node gives the next of its attempt, or an attempt that is due, or begins its oldest command."""
        if node.series == "runs":
            self.served = node.number
            if node.sealed_for is not None:
                yield from self.sends_sealed(node)
            else:
                yield from self.sends_segment(node)
            return
        if node.series == "idle":
            number = node.waiting[0]
            if not (yield Kept(node.number)):
                node.blocked = True
                return
            node.waiting.pop(0)
            node.sessions.append(number)
            node.open, node.attempts = True, 0
            self.commands[number - 1].outcome = "begun"
            yield OwedBegin(node.number, len(node.sessions), number)
        self.served = node.number
        yield from self.begins_attempt(node)

    def begins_attempt(self, node):
        """An attempt begins with its message, its first segment, or its Nonce Get."""
        node.attempts += 1
        node.series, node.token = "runs", node.token + 1
        node.attempt_ends = node.series_due = 0
        node.segments, node.sealed_for, node.pending = [], None, None
        command, text = self.message(node)
        if command.asked.form == "sealed":
            node.pending = text
            yield from self.sends(node, messages.NONCE_GET.__eq__, "an attempt that is due")
        elif command.asked.form == "cut":
            node.segments = messages.segments_of(len(node.sessions), text)
            yield from self.sends_segment(node)
        else:
            yield from self.sends(node, text.__eq__, "an attempt that is due")

    def sends_sealed(self, node):
        """The message that is ready, sealed for the Nonce Report that was taken, once."""
        (nonce, text), node.sealed_for = node.sealed_for, None
        yield from self.sends(node, lambda payload: payload[:2] == messages.SEALED and payload[-9] == nonce[0]
                              and unsealed(self.key, nonce, CONTROLLER, node.number, payload) == text, "a sealed message that is ready")

    def sends_segment(self, node):
        """The next segment of an attempt; NO_ACK ends the attempt only at the last."""
        segment = node.segments.pop(0)
        yield from self.sends(node, segment.__eq__, "the next segment of an attempt", bool(node.segments))

    def sends(self, node, text, rule, spared=False):
        """A request of the running attempt."""
        yield from self.writes(Request("attempt", node.number, serial.SEND_DATA, text=text, token=node.token, spared=spared), rule)

    def writes(self, request, rule):
        """A request is written; it is then the one under way. Callback ids go from 1 to 255 and begin again."""
        if request.function == serial.SEND_DATA:
            self.callback = self.callback % 255 + 1
            request.callback = self.callback
        entry = yield OwedUnit(request, rule)
        self.request = request
        self.submit(entry.fields[0])
