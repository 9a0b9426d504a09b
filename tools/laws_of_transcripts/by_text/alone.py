"""What a host of `replay` heard, as entries (`heard_of` of proof_replay, with what is refused): after the words of a `chip` line stand the units that its
bytes complete, and then what the host made of them."""
from ..entries import Entry
from ..serial import Splitter, item_of

REFUSED, MOST_AGE = ("bad", "short"), 15


def came(unit, at):
    """A unit; of one that is refused it stands that it did not come as a frame."""
    found = [Entry("c", (unit,), at, "c " + unit.hex().upper())]
    if item_of(unit).kind in REFUSED:
        found.append(Entry("garbled", ("c", unit), at, "garbled c " + unit.hex().upper()))
    return found


def heard_alone(entries):
    """What a host heard of the entries of `replay`."""
    found, splitter = [], Splitter()
    for entry in entries:
        found.append(entry)
        words = entry.fields[0] if entry.kind == "line" else ("",)
        if words[0] == "chip":
            for unit in splitter.units(bytes.fromhex(words[1])):
                found += came(unit, entry.at)
        elif words[0] == "tick":
            for _ in range(min(int(words[1]), MOST_AGE)):
                splitter.tick()
    return found


def is_alone(entries):
    """Whether a transcript is one of `replay`."""
    return any(entry.kind == "line" and entry.fields[0][0] == "chip" for entry in entries)
