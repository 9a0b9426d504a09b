"""Judges a transcript by all laws, and says which laws make up which whole."""
from .alone import HostReading
from .books import violations as violations_of_books
from .entries import transcript_of
from .reading import SimReading, Violation

KEY = bytes(range(16))
HOST_LAWS = (
    "AnswersLines", "CancelsWhenAsked", "KeepsSessions", "CarriesOnce", "SendsWhatIsDue", "NotesWhatHappens", "StoresConfirmed", "KeepsLinks",
    "SaysHowDone", "AnswersQuestions", "EndsInterviews", "WakesAsTold", "FallsAsleep", "HoldsAsAsked", "FitsQueue", "SendsInTurn",
    "GivesUpAfterThree", "RestsWell", "CountsFaults", "ShowsValues", "TellsTime", "EndsWithTable",
)
WORLD_LAWS = (
    "CollidesWhenAsked", "MarksUnits", "OverrunsWhenFull", "ClearsLine", "AnswersInOrder", "DropsWhenFull", "AirsWhatIsTaken", "NumbersFrames",
    "GoesByRoute", "FaresInTurn", "MeetsWhatIsDue", "RepeatsWhatIsAsked", "ForgetsDeadHops", "RanAsShown",
)
PROMPT_LAWS = ("RestsWell", "SendsInTurn", "FitsQueue", "GivesUpAfterThree")
HEADLINE_LAWS = ("KeepsSessions", "CarriesOnce", "ChangesOnce", "ChangesWhole", "SucceedsAfterChange", "EndsTruly", "ConfirmsLast")
BESIDE = ("CountsFaults", "EndsWithTable")
WHOLES = {
    "IsHostLegal": HOST_LAWS,
    "IsLegal": tuple(law for law in HOST_LAWS if law not in BESIDE) + WORLD_LAWS,
    "IsPrompt": PROMPT_LAWS,
    "Headline": HEADLINE_LAWS,
    "AnswersInTime": ("AnswersInTime", "AnswersEach"),
}


def is_replay(transcript):
    """Whether a transcript is one of `replay`: it has `chip` lines, and no unit of a chip."""
    return any(entry.kind == "line" and entry.fields[0][0] == "chip" for entry in transcript.entries)


def judged(lines, key=KEY, alone=None):
    """The violations in a transcript, in the order in which they stand: of the laws that go by what stands before, the first of all;
    of those of sessions and values, the first of each. And how many stretches were judged in it."""
    transcript = transcript_of(lines)
    alone = is_replay(transcript) if alone is None else alone
    reading = HostReading(key) if alone else SimReading(key)
    found = reading.read(transcript)
    commands = reading.host.commands if alone else None
    end = len(transcript.entries) + 1
    for law, part, entry in violations_of_books(transcript, key, commands):
        found.append(Violation(law, part, entry.at if entry else end, entry.text if entry else "the end"))
    return sorted(found, key=lambda violation: violation.at), 0 if alone else reading.stretches.judged


def violations(lines, key=KEY, alone=None):
    """The violations alone."""
    return judged(lines, key, alone)[0]
