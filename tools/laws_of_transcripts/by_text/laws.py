"""The laws of a transcript, by their text."""
import gc
import os
import sys
import threading
from collections import namedtuple

from ..entries import transcript_of
from . import air, doings, stretches
from .alone import heard_alone, is_alone
from .courses import HEEDS, NONE_COUNTED, Notes, moments_of, parts_of
from .entries import entry_of
from .given import GIVEN, LISTING, SIDES, arity_of
from .running import Names
from .values import EMPTY, WORLD, Function, tuple_of

FOLDER = os.path.normpath(os.path.join(os.path.dirname(os.path.abspath(__file__)), "..", "..", "..", "crates"))
BELOW = ("zw_text.specs.Transcript", "serial_link.specs.State", "serial_link.specs.Rules")


def is_text(path):
    """Whether definitions are run as they stand."""
    parts = path.split(".")
    return path in BELOW or parts[0].startswith("law_") and len(parts) == 3 and os.path.exists("%s/%s/specs/%s.antt" % (FOLDER, parts[0], parts[2]))


NAMES = Names(FOLDER, is_text, GIVEN, arity_of(FOLDER))


def row(transcript):
    """The entries as a row."""
    WORLD.clear()
    found = EMPTY
    for entry in transcript.entries:
        found = found.with_item(entry_of(entry))
    return found


def steps_of(entries):
    """Each entry with those before it."""
    found = []
    while entries.size:
        found.append((entries.before, entries.item))
        entries = entries.before
    found.reverse()
    return found


# a law, the test of an entry behind those before it, and what that takes besides
TESTS = (
    ("FitsQueue", "law_time.specs.Queue.may_queue", "heeds"), ("SendsInTurn", "law_time.specs.Choice.may_send", "heeds"),
    ("SendsOneByOne", "law_time.specs.Choice.may_follow", ""), ("NumbersCallbacks", "law_time.specs.Choice.may_number", ""),
    ("RestsWell", "law_time.specs.Rests.may_rest", "heeds"),
)
HOST_TESTS = TESTS + (
    ("AnswersLines", "law_transcript.specs.Answers.MayAnswer", "listing refusals"), ("CancelsWhenAsked", "law_transcript.specs.Answers.MayCancel", ""),
    ("KeepsSessions", "law_transcript.specs.Sessions.MayBegin", ""), ("ShowsValues", "law_host.specs.HostLegal.ShowsValues", "listing"),
    ("SendsWhatIsDue", "law_transcript.specs.Payloads.MayRequest", "listing key"), ("BeginsWithUnit", "law_transcript.specs.Payloads.FollowsBegin", ""),
    ("StoresConfirmed", "law_transcript.specs.Stores.MayStore", ""),
)
SIM_TESTS = TESTS + (
    ("GivesUpAfterThree", "law_time.specs.Unanswered.may_give_up", "heeds"), ("FallsAsleep", "law_time.specs.Waking.may_sleep", ""),
    ("WakesAsTold", "law_time.specs.Waking.may_wake", ""), ("HoldsAsAsked", "law_time.specs.Holds.may_hold", ""),
    ("EndsInterviews", "law_time.specs.Interviews.may_end", ""), ("SaysHowDone", "law_time.specs.Errands.may_say_done", "listing"),
    ("AnswersQuestions", "law_time.specs.Questions.may_answer", ""), ("CollidesWhenAsked", "law_wire.specs.Marks.MayCollide", ""),
)
# these also judge what is owed at the end of a whole run
END_TESTS = (
    ("TellsTime", "law_wire.specs.Times.MayBeTold", ""), ("OverrunsWhenFull", "law_wire.specs.Pipes.may_overrun", ""),
    ("MarksUnits", "by_text.MarksUnits", ""),
) + air.TESTS + doings.TESTS


def marks_unit(past, entry):
    """A unit that is lost or changed by a mark is told so."""
    return NAMES.get("law_wire.specs.Marks.IsMarked").code(NAMES.get("law_wire.specs.Marks.to_stand").code(past), entry)


OWN = {"by_text.MarksUnits": marks_unit, **air.OWN, **doings.OWN}


def refusals(listing):
    """What refuses a line by what the host knows."""
    return Function(NAMES.get("law_transcript.specs.Answers.refusals_by_host").code, 2, (listing,))


def heeds_of_sim():
    """What a host among the devices of `sim` goes by."""
    return WORLD.record(HEEDS, (LISTING, NAMES.get("law_time.specs.Heeds.taken_plainly"), NONE_COUNTED))


def test_of(path, wants, heeds, key):
    """A test of an entry behind those before it."""
    code = OWN[path] if path in OWN else NAMES.get(path).code
    given = {"heeds": lambda: heeds, "listing": lambda: heeds.listing, "key": lambda: tuple(key), "refusals": lambda: refusals(heeds.listing),
             "devices": air.devices_at_entry}
    first = tuple(given[one]() for one in wants.split())
    return lambda past, entry: code(*first, past, entry)


DEPTH, STACK = 200000, 1 << 29
LINKS = ("HearsInTime", "TicksInTime", "CollidesAsTold", "WritesThere")
ROOM = ("FindsRoom",)


def ended(entries):
    """A transcript with an empty line behind it."""
    return entries.with_item(WORLD.variant("Entry.Said", ()))


Broken = namedtuple("Broken", "law whole part place entry")


def links_broken(entries, side, laws=LINKS):
    """Where `KeepsLink` breaks, or what `KeepsLinks` says besides: a part of it and the place of an event of the serial line, where it breaks with all steps that were found; and the moments."""
    events = tuple_of(NAMES.get("law_wire.specs.Serial.serial_events").code(entries))
    found, place = parts_of(NAMES, events, side.name == "Side.Chip")
    first = (("writes", place), None)
    for parts in found:
        moments = moments_of(events, parts)
        broken = moments_broken(moments, side, laws)
        if broken is None:
            return None, moments
        if parts is found[0]:
            first = broken, moments
    return first


def moments_broken(moments, side, laws):
    """The same of these moments."""
    for name in laws:
        claim = NAMES.get("law_wire.specs.Links." + name).code
        for place, (past, one) in enumerate(steps_of(moments)):
            if not (claim(side, one) if name == "WritesThere" else claim(side, past, one)):
                return name, place
    return None


def clears_broken(entries, chip, host):
    """Whether `ClearsLine` breaks, with these moments of both sides."""
    clearing = "law_wire.specs.Clearing."
    there = tuple_of(NAMES.get(clearing + "clears").code(tuple_of(entries)))
    lost = [NAMES.get("law_transcript.specs.Lists.shown_after").code(Function(NAMES.get(clearing + "lost_at").code, 2, (side,)), EMPTY, moments)
            for side, moments in ((SIDES["c"], chip), (SIDES["h"], host))]
    due = NAMES.get(clearing + "to_clear").code(*lost)
    if not NAMES.get(clearing + "AreTold").code(there, due):
        return True
    shown = NAMES.get("zw_text.specs.Transcript.shown").code(NAMES.get(clearing + "clear_at"), entries)
    return tuple(one for each in there for one in tuple_of(each.entries)) != tuple_of(shown)


def heard(entries):
    """What the host heard, as a row."""
    all_heard, found = tuple_of(NAMES.get("law_host.specs.Heard.heard_by_host").code(entries)), EMPTY
    WORLD.part()
    for entry in all_heard:
        found = found.with_item(entry)
    return found


def notes_broken(entries, key, whole):
    """The place of the entry of what a host heard at which `NotesWhatHappens` breaks, or None, and what the host goes by as it seems there."""
    notes = Notes(NAMES, key, NAMES.get("law_host.specs.Heard.listing_heard"))
    array = entries.items()
    for place, (past, entry) in enumerate(steps_of(entries)):
        heeds = notes.heeds()
        if not notes.goes_on(past, entry, array, place):
            return place, heeds
    heeds = notes.heeds()
    return None if not whole or notes.ends(entries) else len(array), heeds


class Reading:
    """The laws of a transcript of `sim`, one after another."""

    def __init__(self, transcript, key):
        self.key, self.entries, self.whole = key, row(transcript), transcript.ended
        air.HELD["key"] = key
        self.texts = [entry.text for entry in transcript.entries]
        self.found, self.transcript, self.stretches = [], transcript, 0

    def breaks(self, law, whole, part, place, entry):
        """A law is broken."""
        self.found.append(Broken(law, whole, part, place, entry))

    def tests(self, whole, tests, entries, heeds):
        """Those that judge each entry by the ones before it; of each the first place at which it breaks."""
        steps = steps_of(entries)
        for law, path, wants in tests:
            test = test_of(path, wants, heeds, self.key)
            for place, (past, entry) in enumerate(steps):
                if not test(past, entry):
                    self.breaks(law, whole, path.split(".")[-1], place, repr(entry))
                    break

    def claims(self, whole, claims):
        """Those of the whole list of entries."""
        for law, part, holds in claims:
            if not holds:
                self.breaks(law, whole, part, len(self.entries), "the end")

    def sim(self):
        """The laws of time and of the line over what the run printed."""
        heeds = heeds_of_sim()
        self.tests("IsLegal, IsPrompt", SIM_TESTS, self.entries, heeds)
        self.tests("IsLegal", END_TESTS, ended(self.entries) if self.whole else self.entries, heeds)
        nothing, in_the_end = WORLD.variant("Entry.Said", ()), not self.whole
        code = lambda path: NAMES.get(path).code  # noqa: E731
        asked = code("law_transcript.specs.Restarts.ticks_asked")(code("zw_text.specs.Transcript.lines_run")(self.entries))
        self.claims("IsLegal, IsPrompt", (
            ("RestsWell", "in_the_end", in_the_end or code("law_time.specs.Rests.rests_well")(heeds, self.entries, nothing)),
            ("GivesUpAfterThree", "in_the_end", in_the_end or code("law_time.specs.Unanswered.none_to_give_up")(heeds, self.entries, asked)),
            ("FallsAsleep", "in_the_end", in_the_end or code("law_time.specs.Waking.owes_no_sleep")(self.entries, nothing))))
        self.links(self.entries)
        places, self.stretches = stretches.stretches_broken(NAMES, self.transcript, self.entries, self.key)
        for place in places:
            self.breaks("AnswersInTime", "AnswersInTime", "answers_all", place, repr(self.entries.items()[place]))

    def links(self, entries):
        """Both links, and what a restart clears."""
        last, moments = ended(entries) if self.whole else entries, []
        for side in "ch":
            broken, found = links_broken(last, SIDES[side], LINKS + ROOM)
            moments.append(found)
            if broken:
                self.breaks("KeepsLinks", "IsLegal", broken[0], broken[1], "side %s, by events of the line" % side)
        if moments[0] is not None and moments[1] is not None and clears_broken(last, *moments):
            self.breaks("ClearsLine", "IsLegal", "each or only", len(entries), "the end")

    def host(self, whole):
        """The laws of the host alone over what it heard, of this whole."""
        entries = heard(self.entries)
        place, heeds = notes_broken(entries, self.key, self.whole)
        listing = heeds.listing
        if place is not None:
            entry = repr(entries.items()[place]) if place < len(entries) else "the end"
            self.breaks("NotesWhatHappens", whole, "fits, in_the_end or nonces", place, entry)
        self.tests(whole, HOST_TESTS, entries, heeds)
        code, last = lambda path: NAMES.get(path).code, ended(entries) if self.whole else entries  # noqa: E731
        shown = code("zw_text.specs.Transcript.shown")(NAMES.get("law_transcript.specs.Stores.store_at"), entries)
        asked = code("law_transcript.specs.Stores.stores_asked")(listing, entries)
        carries = code("law_transcript.specs.Once.CarriesOnce")
        before, last_line = code("law_transcript.specs.Answers.before_last")(entries), code("zw_text.specs.Transcript.line_last")(entries)
        self.claims(whole, (
            ("AnswersLines", "answered", not self.whole or code("law_transcript.specs.Answers.AsksNothing")(refusals(listing), before, last_line)),
            ("RestsWell", "rested", not self.whole or code("law_time.specs.Rests.rests_well")(heeds, entries, WORLD.variant("Entry.Said", ()))),
            ("StoresConfirmed", "asked", tuple_of(asked)[:len(shown)] == tuple_of(shown)),
            ("StoresConfirmed", "all", not self.whole or len(shown) == len(asked)),
            ("CarriesOnce", "carries", all(carries(node, entries) for node in tuple_of(code("zw_text.specs.Transcript.joined")(entries))))))
        broken, _ = links_broken(last, SIDES["h"])
        if broken:
            self.breaks("KeepsLinks", whole, broken[0], broken[1], "by events of the line, as heard")


def violations(lines, key, alone=None):
    """What a transcript breaks, by the text of the laws; that of `replay`, or of a host alone, over what this host heard."""
    transcript = transcript_of(lines)
    alone = is_alone(transcript.entries) if alone is None else alone
    reading = Reading(transcript._replace(entries=heard_alone(transcript.entries)) if alone else transcript, key)
    if not alone:
        reading.sim()
    reading.host("IsHostLegal" if alone else "IsLegal, IsHostLegal")
    return reading.found


def deep(code):
    """What a piece of code gives that goes through long lists without a loop, in a thread with a stack for that."""
    found = []

    def run():
        try:
            found.append(code())
        except BaseException as error:  # pylint: disable=broad-except
            found.append(error)

    limit, size = sys.getrecursionlimit(), threading.stack_size(STACK)
    sys.setrecursionlimit(DEPTH)
    gc.disable()
    try:
        thread = threading.Thread(target=run)
        thread.start()
        thread.join()
    finally:
        sys.setrecursionlimit(limit)
        threading.stack_size(size)
        WORLD.clear()
        gc.enable()
        gc.collect()
    if isinstance(found[0], BaseException):
        raise found[0]
    return found[0]
