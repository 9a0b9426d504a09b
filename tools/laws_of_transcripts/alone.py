"""Reads a transcript of `replay`: a host alone, over the bytes that its lines give it (docs/RUN.md)."""
from .host import Host
from .links import HOST, Side
from .owed import Broken, Owed
from .reading import Reading, not_due
from .serial import ACK, NAK, Splitter


class HostReading(Reading):
    """The host's laws over what it heard: the splitting of the bytes of the `chip` lines, with a mark at each of its ticks."""

    def __init__(self, key):
        Reading.__init__(self, key)
        self.side, self.splitter = Side(), Splitter()
        self.host = Host(key, lambda: self.side.frame is None, lambda unit: self.side.submit(unit))

    def begin_line(self, words):
        """A line is run, and then the host looks what is next."""
        self.is_open, self.is_tick = True, False
        if words[0] == "tick":
            self.ticks_left, self.is_open = int(words[1]), False
        else:
            self.host.agenda.add(self.runs(words))

    def runs(self, words):
        """What a line owes."""
        yield from self.feeds(bytes.fromhex(words[1])) if words[0] == "chip" else self.host.asks(words)
        yield from self.host.pumps()

    def feeds(self, piece):
        """Each item that ends in a piece is judged, in order; a frame is acknowledged first, and no frame is answered CAN."""
        for item in self.splitter.take(piece):
            if item.kind == "good":
                yield Owed("KeepsLinks", "a good frame is acknowledged", HOST, (ACK,))
                yield from self.host.hears(item.frame)
            elif item.kind == "bad":
                yield Owed("KeepsLinks", "a frame whose sum or type is wrong is refused", HOST, (NAK,))
            else:
                event = self.side.hear(item)
                if event:
                    yield from self.host.sent() if event == "sent" else self.host.gives_up()

    def begin_tick(self):
        """A tick of the host."""
        self.clock += 1
        self.ticks_left -= 1
        self.is_open, self.is_tick, self.count = True, True, 0
        self.host.clock = self.clock
        self.splitter.tick()
        self.host.agenda.add(self.ticks())

    def ticks(self):
        """What a tick owes."""
        event = self.side.mark()
        if event == "copy":
            yield Owed("KeepsLinks", "the host's copy is due", HOST, (self.side.frame,))
        yield from self.host.ticks(event)
        yield from self.host.pumps()

    def rests_until(self, until):
        if self.side.frame is not None or self.splitter.rest or self.host.looks or self.host.agenda.want:
            return self.clock
        wait = self.host.next_wait()
        return until if wait is None else max(self.clock, min(until, wait - 1))

    def wait_until(self, clock):
        self.host.clock = clock

    def place(self, entry, marks):
        """An entry of the host."""
        if marks:
            raise not_due(marks[0])
        if not self.host.agenda.takes(entry):
            if entry.kind == HOST and (len(entry.fields[0]) == 1 or self.side.frame is not None):
                raise Broken("KeepsLinks", "an answer to nothing, or a frame before the last one was sent or given up")
            raise not_due(entry)

    def settle(self):
        """A line or tick ends: nothing is owed."""
        self.host.agenda.takes(None)
