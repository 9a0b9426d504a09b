"""Reads the lines of a transcript (docs/TRANSCRIPT.md): each becomes an entry, the table at the end is kept apart."""
from collections import namedtuple

# `kind` is the entry's first word (`>` is "line", `t` is "time", `interview N failed` is "uninterviewed"), `fields` what follows,
# `at` the line of the transcript, from 1, and `text` what stands there
Entry = namedtuple("Entry", "kind fields at text")
Frame = namedtuple("Frame", "number sender receiver route payload")
Transcript = namedtuple("Transcript", "entries table ended")

ORDERS = ("set", "mode", "setpoint", "comfort", "config", "bulk", "assoc", "unassoc", "interval")
FINALS = ("success", "fail", "nosupport")


def whole(words):
    """The words as numbers."""
    return tuple(int(word) for word in words)


def air_of(words):
    """A frame on the air."""
    sender, receiver = whole(words[1].split(">"))
    route = [] if words[3] == "-" else list(whole(words[3:-1]))
    return (Frame(int(words[0]), sender, receiver, route, bytes.fromhex(words[-1])),)


READERS = {
    ">": lambda words: ("line", (tuple(words),)), "t": lambda words: ("time", whole(words)),
    "accepted": lambda words: ("accepted", (int(words[0]), int(words[2]))),
    "refused": lambda words: ("refused", (" ".join(words),)),
    "begin": lambda words: ("begin", whole(words)),
    "h": lambda words: ("h", (bytes.fromhex(words[0]),)), "c": lambda words: ("c", (bytes.fromhex(words[0]),)),
    "dropped": lambda words: ("dropped", tuple(words)), "overrun": lambda words: ("overrun", tuple(words)),
    "garbled": lambda words: ("garbled", (words[0], bytes.fromhex(words[1]))),
    "air": lambda words: ("air", air_of(words)),
    "heard": lambda words: ("heard", whole(words)), "lost": lambda words: ("lost", whole(words)),
    "unheard": lambda words: ("unheard", whole(words)),
    "dev": lambda words: ("dev", (int(words[0]), words[1], words[2], int(words[3]))),
    "forget": lambda words: ("forget", whole(words)),
    "out": lambda words: ("out", (int(words[0]), words[1])),
    "store": lambda words: ("store", (int(words[0]), words[1], int(words[2]))),
    "report": lambda words: ("report", (int(words[0]), words[1], int(words[2]))),
    "unstored": lambda words: ("unstored", (int(words[0]), words[1])),
    "old": lambda words: ("old", whole(words)),
    "unread": lambda words: ("unread", (int(words[0]), bytes.fromhex(words[1]))),
    "interview": lambda words: ("uninterviewed", (int(words[0]),)),
    "done": lambda words: ("done", (int(words[0]), words[1])),
    "neighbours": lambda words: ("neighbours", (int(words[0]), () if words[1] == "-" else whole(words[1:]))),
    "failed": lambda words: ("failed", (int(words[0]), words[1])),
    "chipfull": lambda words: ("chipfull", ()),
    "cleared": lambda words: ("cleared", (words[0], int(words[1]))),
    "device": lambda words: ("device", (int(words[0]), words[1], int(words[2]))),
    "json": lambda words: ("json", (" ".join(words),)),
}
for _word in ("awake", "asleep", "interviewed", "queuefull", "held", "unkept"):
    READERS[_word] = lambda words, word=_word: (word, whole(words))


def entry_of(text, at):
    """The entry that a line of a transcript is."""
    words = text.split(" ")
    kind, fields = READERS[words[0]](words[1:])
    return Entry(kind, fields, at, text)


def transcript_of(lines):
    """The entries and the table of what a run printed; `ended` where it has the table, or the line that could not be read."""
    entries, table = [], []
    for at, text in enumerate(lines, 1):
        text = text.rstrip("\n")
        if table or text.startswith("end ") or text.startswith("badline "):
            table.append(text)
        elif text:
            entries.append(entry_of(text, at))
    return Transcript(entries, table, bool(table))


def end_point_of(word):
    """A node with an end point: `N` or `N.E`."""
    node, _, end = word.partition(".")
    return int(node), int(end or 0)
