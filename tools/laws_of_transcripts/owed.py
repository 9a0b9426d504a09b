"""What is owed where: an entry that a law demands next, and the ways in which a law is broken."""
from collections import deque


class Broken(Exception):
    """A law is broken: its name, the part of it, and what was wanted."""

    def __init__(self, law, part):
        Exception.__init__(self, "%s: %s" % (law, part))
        self.law, self.part = law, part


class Owed:
    """The next entry must be this one; `test` may judge an entry of the kind whose bytes are drawn."""

    def __init__(self, law, part, kind, fields=None, test=None):
        self.law, self.part, self.kind, self.fields, self.test = law, part, kind, fields, test

    def met_by(self, entry):
        """Whether the entry is the one that is owed."""
        if entry.kind != self.kind:
            return False
        return entry.fields == self.fields if self.test is None else self.test(entry)

    def broken_by(self, entry):
        """The law that an entry breaks which stands in its place."""
        said = "" if self.fields is None else " " + " ".join(shown(field) for field in self.fields)
        return Broken(self.law, "%s: `%s%s` is due" % (self.part, self.kind, said))


class OwedOrFault(Owed):
    """The next entry must be this one, or that the keeper failed."""

    def met_by(self, entry):
        return is_fault(entry) or Owed.met_by(self, entry)


class Kept:
    """The record of a node's event is appended here: `unkept N` is the next entry, or it was kept."""

    def __init__(self, node):
        self.node = node

    def fails_at(self, entry):
        """Whether the entry says that the record was not kept."""
        return entry is not None and entry.kind == "unkept" and entry.fields == (self.node,)


class Peek(Kept):
    """The next entry is looked at, and used up by nothing here."""

    def __init__(self):
        Kept.__init__(self, None)


class KeptByLine(Kept):
    """A line has the keeper called: it is refused for its fault, or the call succeeded."""

    def __init__(self):
        Kept.__init__(self, None)

    def fails_at(self, entry):
        return entry is not None and is_fault(entry)


def is_fault(entry):
    """Whether the entry refuses a line for the keeper's fault."""
    return entry.kind == "refused" and entry.fields == ("keeperfault",)


def shown(field):
    """A field as a complaint shows it."""
    return field.hex().upper() if isinstance(field, bytes) else str(field)


class Agenda:
    """What a party does, event by event: each is a generator of what it owes. The answer to `Kept` is whether it was kept."""

    def __init__(self):
        self.events = deque()
        self.now = None
        self.want = None

    def add(self, event):
        """A further event, after those that wait."""
        self.events.append(event)
        if self.now is None:
            self.go_on()

    def go_on(self, answer=None):
        """Runs on to what is owed next."""
        self.want = None
        while self.now is not None or self.events:
            if self.now is None:
                self.now, answer = self.events.popleft(), None
            try:
                self.want = self.now.send(answer)
                return
            except StopIteration:
                self.now = None

    def settle(self, entry):
        """Decides by the next entry what was kept; True where the entry says that it was not, and so is used up."""
        while isinstance(self.want, Kept):
            if isinstance(self.want, Peek):
                self.go_on(entry)
                continue
            failed = self.want.fails_at(entry)
            self.go_on(not failed)
            if failed:
                return True
        return False

    def takes(self, entry):
        """True where the entry is one that is owed here; it breaks a law where another one is."""
        if self.settle(entry):
            return True
        if self.want is None:
            return False
        if entry is None or not self.want.met_by(entry):
            raise self.want.broken_by(entry)
        self.go_on(entry)
        return True
