"""The entries of a transcript as the definitions have them."""
from .given import SIDES
from .values import WORLD

ENDED = {"success": "Success", "fail": "Fail", "nosupport": "NoSupport", "unanswered": "Unanswered", "cancelled": "Cancelled"}
DONE = {"ok": "Delivered", "noack": "NoAck", "fail": "Fail", "notidle": "NotIdle", "noroute": "NoRoute", "refused": "Refused", "silent": "Silent",
        "link": "LinkFailed"}
REFUSALS = {"notjoined": "NotJoined", "notinterviewed": "NotInterviewed", "unsupported": "Unsupported", "badvalue": "BadValue",
            "unsupervised": "Unsupervised", "toolong": "TooLong", "mailboxfull": "MailboxFull", "storefull": "StoreFull", "secured": "Secured",
            "queuefull": "QueueFull", "alreadyjoined": "AlreadyJoined", "keeperfault": "KeeperFault", "notwaiting": "NotWaiting",
            "neversent": "NeverSent", "forgotten": "Forgotten", "stale": "Stale", "nodevice": "NoDevice", "badrecord": "BadRecord"}
PLAIN = {"accepted": "Accepted", "begin": "Begin", "heard": "Heard", "lost": "Lost", "unheard": "Unheard", "forget": "Forget", "old": "Old", "awake": "Awake",
         "asleep": "Asleep", "interviewed": "Interviewed", "uninterviewed": "InterviewFailed", "chipfull": "ChipFull", "queuefull": "QueueFull", "held": "Held",
         "unkept": "Unkept", "time": "Time", "unstored": "Unstored"}


def setting(which, value):
    """A setting."""
    return WORLD.record(("property", "value"), (which, value))


def refusal_of(text):
    """A refusal and its number."""
    name, *numbers = text.split()
    return WORLD.variant("Refusal." + REFUSALS[name], *(int(number, 16) if name == "unsupported" else int(number) for number in numbers))


def frame_of(frame):
    """The fields of a frame on the air."""
    return frame.number, frame.sender, frame.receiver, tuple(frame.route), tuple(frame.payload)


FIELDS = {
    "line": ("Said", lambda words: (words,)),
    "refused": ("Refused", lambda text: (refusal_of(text),)),
    "h": ("Written", lambda unit: (SIDES["h"], tuple(unit))), "c": ("Written", lambda unit: (SIDES["c"], tuple(unit))),
    "dropped": ("Dropped", lambda side: (SIDES[side],)), "overrun": ("Overrun", lambda side: (SIDES[side],)),
    "garbled": ("Garbled", lambda side, unit: (SIDES[side], tuple(unit))),
    "air": ("Air", frame_of),
    "dev": ("Dev", lambda node, by, which, value: (node, by, setting(which, value))),
    "out": ("Out", lambda command, word: (command, WORLD.variant("Ended." + ENDED[word]))),
    "store": ("Store", lambda node, which, value: (node, setting(which, value))),
    "report": ("Report", lambda node, which, value: (node, setting(which, value))),
    "device": ("Device", lambda node, which, value: (node, setting(which, value))),
    "unread": ("Unread", lambda node, payload: (node, tuple(payload))),
    "done": ("Done", lambda node, word: (node, WORLD.variant("Done." + DONE[word]))),
    "neighbours": ("Neighbours", lambda node, nodes: (node, tuple(nodes))),
    "failed": ("Failed", lambda node, word: (node, word == "yes")),
    "cleared": ("Cleared", lambda side, count: (SIDES[side], count)),
    "json": ("Json", lambda text: (text,)),
}


def entry_of(entry):
    """An entry."""
    if entry.kind in PLAIN:
        return WORLD.variant("Entry." + PLAIN[entry.kind], *entry.fields)
    name, fields = FIELDS[entry.kind]
    return WORLD.variant("Entry." + name, *fields(*entry.fields))
