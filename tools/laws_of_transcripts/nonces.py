"""Nonces that were given (docs/SECURITY.md), of which a transcript shows all bytes only once a unit carries them."""


class Nonce:
    """A nonce that was given: its first byte, and the whole of it once a unit shows it."""

    def __init__(self, first, text=None):
        self.first, self.text = first, text

    def shows(self, text):
        """Whether this may be the text of the nonce; from then on it is."""
        if self.text is None and len(text) == 8 and text[0] == self.first:
            self.text = text
        return self.text == text


class PerhapsSpent(Nonce):
    """The live nonce of a node of which no entry says whether it was spent: the next Nonce Report tells, by showing it or a new one.

    `unkept N` behind a Security message that opens to a final report says that one of two records was not kept: that the nonce
    is spent, or the report."""

    def __init__(self, node):
        Nonce.__init__(self, node.live.first, node.live.text)
        self.node, self.old, self.new = node, node.live, Nonce((node.given + 1) % 256)
        self.known = None

    def shows(self, text):
        if self.known is None and text == self.old.text:
            self.is_known(self.old)
        elif self.known is None and self.new.shows(text):
            self.node.given += 1
            self.is_known(self.new)
        return self.known is not None and self.known.shows(text)

    def is_known(self, nonce):
        """Which of the two it is."""
        self.known = nonce
        if self.node.live is self:
            self.node.live = nonce
