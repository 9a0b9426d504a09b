"""What stands for the definitions of lower crates: lines, bodies of frames, messages, orders and seals, by the readers beside this folder."""
import glob
import re
from functools import lru_cache

from .. import ciphers, messages, orders, serial
from ..devices import CLASSES, SWITCH, listing_of
from ..entries import ORDERS, end_point_of
from ..messages import property_order, property_text
from .running import COARSE, FOUND, SELECTED
from .values import EMPTY, WORLD, Function, Row, along, append, apply, concat, is_nil, row_of, same, tuple_of

GIVEN = {}
NONE = WORLD.variant("None")


def some(value):
    """There is a value."""
    return WORLD.variant("Some", value)


def ok(value):
    """It was read."""
    return WORLD.variant("Ok", value)


def given(count, *names):
    """Says that a Python function of so many arguments stands for these names."""
    def keep(code):
        for name in names or (code.__name__,):
            GIVEN[name] = Function(code, count)
        return code
    return keep


def arity_of(folder):
    """Says how many fields a variant of a type of the program has, by the source of its crate."""
    @lru_cache(maxsize=None)
    def table(crate, kind):
        for name in glob.glob("%s/%s/src/**/*.rt" % (folder, crate), recursive=True):
            with open(name, encoding="utf-8") as file:
                text = file.read()
            found = re.search(r"pub enum %s \{(.*?)\n\}" % kind, text, re.S)
            if found:
                body = re.sub(r"///?[^\n]*|#\[[^\n]*", "", found.group(1))
                variants = re.findall(r"(\w+)(?:\s*\{(.*?)\}|\(((?:[^()]|\([^()]*\))*)\))?\s*(?:=\s*\w+)?(?:,|$)", body, re.S)
                return {one: len(re.findall(r"\w+:", fields)) if fields else len([part for part in row.split(",") if part.strip()]) if row else 0
                        for one, fields, row in variants}
        return {}

    return lambda crate, kind, name: table(crate, kind).get(name, 0)


KINDS = {"Switch": SWITCH}

# ---- the library

GIVEN.update({"SOF": 1, "ACK": 6, "NAK": 0x15, "CAN": 0x18, "MAX_NODE": 232, "TRANSMIT_OPTIONS": 0x25, "GET_INIT_DATA": 2, "GET_CAPABILITIES": 7,
              "SEND_DATA": 0x13, "GET_VERSION": 0x15, "MEMORY_GET_ID": 0x20, "GET_NODE_PROTOCOL_INFO": 0x41, "REQUEST_NODE_INFO": 0x60, "IS_FAILED_NODE": 0x62,
              "GET_ROUTING_INFO": 0x80, "Unit": True})
given(1, "length")(len)
given(1, "suc")(lambda number: number + 1)
given(1, "not")(lambda one: not one)
given(2, "nat_lt")(lambda first, second: first < second)
given(2, "nat_le")(lambda first, second: first <= second)
given(2, "max")(max)
given(2, "min")(min)
given(2, "bit_xor")(lambda first, second: first ^ second)
given(2, "bytes_eq")(same)
given(1, "is_some")(lambda one: one.name == "Some")
given(2, "unwrap_or")(lambda one, other: one.fields[0] if one.name == "Some" else other)
given(2, "option_map")(lambda function, one: some(apply(function, one.fields[0])) if one.name == "Some" else NONE)
given(2, "replicate")(lambda count, item: (item,) * count)
given(3, "slice_set")(lambda items, place, item: items[:place] + (item,) + items[place + 1:] if place < len(items) else items)


@given(2)
def slice_index(items, place):
    """The item at a place, and 0 where there is none."""
    items = tuple_of(items)
    return items[place] if place < len(items) else 0


@given(2)
def slice_get(items, place):
    """The item at a place, where there is one."""
    if type(items) is Row:
        return some(items.first(place + 1).item) if place < items.size else NONE
    return some(items[place]) if place < len(items) else NONE


@given(2)
def take(count, items):
    """The first items."""
    return items.first(count) if type(items) is Row else tuple_of(items)[:count]


@given(2)
def drop(count, items):
    """All but the first items."""
    if count == 0:
        return items
    return items.last(max(items.size - count, 0)) if type(items) is Row else tuple_of(items)[count:]


def over(function, items, start, step):
    """Goes through a list; over a row, what was worked out is kept with it."""
    if type(items) is Row:
        return along(items, (step, function), start, lambda value, item: step(function, value, item))
    for item in tuple_of(items):
        start = step(function, start, item)
    return start


def adds_all(function, value, item):
    """What a function gives behind what there is."""
    return concat(value, apply(function, item))


def selected(items, names):
    """The entries of these kinds."""
    return along(items, ("selected", names), EMPTY, lambda value, item: value.with_item(item) if item.name in names else value)


@given(2)
def flat_map(function, items):
    """What a function gives for each item, in order; items for which it gives nothing are passed over."""
    names = SELECTED.get(function.code)
    return over(function, selected(items, names) if names and type(items) is Row else items, (), adds_all)


def adds_one(function, value, item):
    """The value of a function behind what there is."""
    return append(value, apply(function, item))


def adds_some(function, value, item):
    """An item behind what there is, where a test holds of it."""
    return append(value, item) if apply(function, item) else value


given(2, "map")(lambda function, items: over(function, items, (), adds_one))
given(2, "filter")(lambda function, items: over(function, items, (), adds_some))
given(2, "list_any")(lambda function, items: any(apply(function, item) for item in tuple_of(items)))
given(2, "list_all", "AllByRecursion")(lambda function, items: all(apply(function, item) for item in tuple_of(items)))
given(2, "Has")(lambda items, item: any(same(one, item) for one in tuple_of(items)))
GIVEN["law_transcript.specs.Lists.Has"] = GIVEN["Has"]


@given(2, "distinct_count")
def distinct_count(_, items):
    """How many items there are, each counted once."""
    return len(set(tuple_of(items)))


@given(2, "nat_cmp")
def nat_cmp(first, second):
    """How two numbers are ordered."""
    return WORLD.variant("Ordering." + ("Less" if first < second else "Equal" if first == second else "Greater"))


@given(2, "IfSome")
def if_some(one, claim):
    """Where there is a value, a claim holds of it."""
    return one.name == "None" or apply(claim, one.fields[0])


# ---- over rows of entries, the same as the text says, without a walk through the list

def by_outcomes(first):
    """Keeps what a definition gives for a number and entries with the sessions that began and the commands that ended, and with what else it goes by."""
    def wrap(code):
        def kept(number, entries):
            if type(entries) is not Row:
                return code(number, entries)
            row, key = selected(entries, OUTCOMES), (code, number, first(number, entries))
            if key not in row.memo:
                row.memo[key] = code(number, entries)
            return row.memo[key]
        return kept
    return wrap


def accepted_of(node, entries):
    """The commands accepted for a node."""
    from .laws import NAMES
    return NAMES.get("zw_text.specs.Transcript.accepted").code(node, entries)


OUTCOMES = frozenset(("Entry.Begin", "Entry.Out"))
COARSE["zw_text.specs.Transcript.outcome"] = by_outcomes(lambda *_: None)
COARSE["law_transcript.specs.Commands.waiting"] = by_outcomes(accepted_of)


@given(2, "zw_text.specs.Transcript.last_with")
def last_with(way, units):
    """The last of some units with another way."""
    if is_nil(units):
        return ()
    if type(units) is Row:
        return units.before.with_item(WORLD.record(("bytes", "way"), (units.item.bytes, way)))
    return units[:-1] + (WORLD.record(("bytes", "way"), (units[-1].bytes, way)),)


def finds_accepted(number, found, row):
    """What stands before the entry that shows a command as accepted, once it stands."""
    return row.before if found is None and row.item.name == "Entry.Accepted" and row.item.fields[0] == number else found


@given(2, "law_transcript.specs.Commands.before_accepted")
def before_accepted(number, entries):
    """The entries before the one that shows a command as accepted, and all where there is none."""
    entries = row_of(entries)
    key, passed, row = ("before_accepted", number), [], entries
    while row.size and key not in row.memo:
        passed.append(row)
        row = row.before
    found = row.memo[key] if row.size else None
    for one in reversed(passed):
        found = one.memo[key] = finds_accepted(number, found, one)
    return entries if found is None else found


@given(1, "law_time.specs.Requests.last_copy")
def last_copy(asked):
    """What stands up to the last copy of a frame, and after that."""
    def step(found, entry):
        past, following, whole = found
        whole = append(whole, entry)
        if entry.name == "Entry.Written" and entry.fields[0].name == "Side.Host" and entry.fields[1] == asked.frame:
            return whole, EMPTY, whole
        return past, append(following, entry), whole

    first = append(asked.before, WORLD.variant("Entry.Written", WORLD.variant("Side.Host"), asked.frame))
    past, following, _ = along(row_of(asked.following), ("last_copy", asked.frame, first), (first, EMPTY, first), step)
    return WORLD.record(("past", "following"), (past, following))


@given(2, "law_transcript.specs.Payloads.FollowsBegin")
def follows_begin(past, entry):
    """Directly after a session that begins stands its unit."""
    last = tuple_of(drop(max(len(past) - 1, 0), past))
    if not last or last[0].name != "Entry.Begin":
        return True
    if entry.name != "Entry.Written" or entry.fields[0].name != "Side.Host":
        return False
    sent = serial.request_in(serial.item_of(bytes(entry.fields[1])).frame)
    return sent is not None and sent[0] == serial.SEND_DATA and sent[1].node == last[0].fields[0]


@given(1, "law_transcript.specs.Stores.FollowsSuccess")
def follows_success(past):
    """After a success, or another value of it."""
    last = tuple_of(drop(max(len(past) - 1, 0), past))
    return bool(last) and (last[0].name == "Entry.Out" and last[0].fields[1].name == "Ended.Success" or last[0].name == "Entry.Store")


@given(1, "law_wire.specs.Links.since_start")
def since_start(past):
    """The moments since the last restart."""
    def step(found, moment):
        event = moment.event
        lines = tuple_of(event.fields[0]) if event.name == "SerialEvent.Line_begins" else ()
        return EMPTY if lines and lines[0].name == "Line.Restart" else append(found, moment)
    return along(row_of(past), "since_start", EMPTY, step)


@given(2, "law_transcript.specs.Lists.IsPrefixOf")
def is_prefix_of(prefix, whole):
    """Whether one list is the prefix of another."""
    return tuple_of(whole)[:len(prefix)] == tuple_of(prefix)


# ---- lines

SIDES = {"h": WORLD.variant("Side.Host"), "c": WORLD.variant("Side.Chip")}
PLAIN_LINES = ("Tick", "Cut", "Stall", "Collide", "Join", "Interview", "Lose", "LoseAck", "Repeat", "Wake", "Cancel", "Link", "Unlink", "Discover", "Neighbours",
               "Failed", "Probe", "Local", "Show", "Store", "Restart")
WITH_NUMBERS = {name.lower(): name for name in PLAIN_LINES}


@given(1)
def line_at(words):
    """The line that some words are."""
    key = ("line", words)
    if key not in WORLD.made:
        WORLD.made[key] = line_of(words)
    return WORLD.made[key]


def line_of(words):
    """The same, made anew: bytes of the chip are no line of a scenario."""
    if not words:
        return ok(NONE)
    word, values = words[0], words[1:]
    if word in ORDERS:
        order = orders.order_of(words)
        what = (order.word, order.values)
        return ok(some(WORLD.variant("Line.Command", WORLD.record(("node", "end", "what"), (order.node, order.end, what)))))
    if word == "drop":
        return ok(some(WORLD.variant("Line.Drop", SIDES[values[0]])))
    if word == "garble":
        return ok(some(WORLD.variant("Line.Garble", SIDES[values[0]], int(values[1]), int(values[2]))))
    if word == "send":
        return ok(some(WORLD.variant("Line.Send", int(values[0]), values[1])))
    if word == "get":
        return ok(some(WORLD.variant("Line.Get", *end_point_of(values[0]))))
    if word not in WITH_NUMBERS:
        return WORLD.variant("Err", 0)
    return ok(some(WORLD.variant("Line." + WITH_NUMBERS[word], *(int(value) for value in values))))


# ---- units of the serial line

@given(1)
def unit_text(unit):
    """The bytes of a unit."""
    from .courses import text_of
    return text_of(unit)


@given(2, "ItemText")
def item_text(item, unit):
    """Whether an item is these bytes."""
    from .courses import item_in
    return item is item_in(unit)


# ---- bodies of frames

STATUSES = ("CompleteOk", "NoAck", "Fail", "NotIdle", "NoRoute")
REQUESTS = {2: "GetInitData", 7: "GetCapabilities", 0x15: "GetVersion", 0x16: "SendDataAbort", 0x20: "MemoryGetId", 0x41: "GetNodeProtocolInfo",
            0x60: "RequestNodeInfo", 0x62: "IsFailedNode", 0x80: "GetRoutingInfo"}
RESPONSES = dict(REQUESTS)
RESPONSES[0x13] = "SendData"


@given(2)
def request_of(function, body):
    """The request of a body."""
    frame = serial.Frame(serial.REQUEST, function, bytes(body))
    found = serial.request_in(frame)
    if found is None:
        return WORLD.variant("Err", 0)
    if function == serial.SEND_DATA:
        return ok(WORLD.variant("Request.SendData", body[0], tuple(body[2:-2]), body[-2], body[-1]))
    return ok(WORLD.variant("Request." + REQUESTS[function], *body))


@given(2)
def notice_of(function, body):
    """The notice of a body."""
    found = serial.notice_in(serial.Frame(serial.REQUEST, function, bytes(body)))
    if found is None:
        return WORLD.variant("Err", 0)
    if function == serial.HANDLER:
        return ok(WORLD.variant("Notice.ApplicationCommandHandler", body[0], found[1], tuple(found[2])))
    if function == serial.SEND_DATA:
        return ok(WORLD.variant("Notice.SendData", found[1], WORLD.variant("TransmitStatus." + STATUSES[found[2]])))
    if found[1] is None:
        return ok(WORLD.variant("Notice.ApplicationUpdate", WORLD.variant("Update.RequestFailed")))
    return ok(WORLD.variant("Notice.ApplicationUpdate", WORLD.variant("Update.Received", found[1], body[3], body[4], body[5], tuple(found[2]))))


@given(2)
def response_of(function, body):
    """The response of a body."""
    found = serial.response_in(serial.Frame(serial.RESPONSE, function, bytes(body)))
    if found is None:
        return WORLD.variant("Err", 0)
    if function == serial.IS_FAILED:
        return ok(WORLD.variant("Response.IsFailedNode", body[0] == 1))
    if function == serial.ROUTING_INFO:
        return ok(WORLD.variant("Response.GetRoutingInfo", tuple(found[1])))
    return ok(WORLD.variant("Response." + RESPONSES[function], *body))


given(1, "status_code")(lambda status: STATUSES.index(status.name.split(".")[1]))


# ---- messages

@given(3)
def begins_with(payload, first, second):
    """Whether a payload begins with two bytes."""
    return len(payload) >= 2 and payload[0] == first and payload[1] == second


REPORTS = {0: "NoSupport", 1: "Working", 2: "Fail", 0xFF: "Success"}


def setting(which, value):
    """A setting; a property is the text that a transcript has for it."""
    return WORLD.record(("property", "value"), (property_text(which), value))


def told(message, end):
    """What a message tells."""
    kind, fields = (message.cls, message.command), message.fields
    if kind == (0x6C, 2):
        return WORLD.variant("Told.Report", fields[0], WORLD.variant("ReportStatus." + REPORTS[fields[1]]), fields[2])
    if kind == (0x98, 0x40):
        return WORLD.variant("Told.NonceGet")
    if kind == (0x98, 0x80):
        return WORLD.variant("Told.NonceReport", tuple(fields[0]))
    if kind == (0x84, 7):
        return WORLD.variant("Told.Notification")
    if kind == (0x55, 0xC8):
        return WORLD.variant("Told.SegmentRequest", *fields)
    return WORLD.variant("Told.Values", tuple(setting(which, value) for which, value in messages.values_in(message, end)))


@lru_cache(maxsize=1 << 16)
def messages_in(payload):
    """The messages of a payload, or None."""
    try:
        return messages.told_in(payload)
    except messages.Unreadable:
        return None


@given(1, "host_heard.heard_at")
def heard_at(payload):
    """What a payload is."""
    if begins_with(payload, 0x98, 0x81):
        return WORLD.variant("Heard.Sealed")
    found = messages_in(bytes(payload))
    if found is None:
        return WORLD.variant("Heard.Unread")
    return WORLD.variant("Heard.Messages", tuple(told(message, found[0]) for message in found[1]))


given(4, "segment_text")(lambda number, size, place, part: tuple(segment(number, size, place, bytes(part))))
given(2, "slice_at")(lambda message, place: message[39 * place:39 * place + 39])


@lru_cache(maxsize=1 << 16)
def segment(number, size, place, part):
    """A segment by its parts."""
    return messages.segment_at(number, bytes(place) + part + bytes(size - place - len(part)), place)


given(1, "keys_of")(bytes)


@given(4)
def sealed_text(key, own, nonce, ends, text):
    """A text sealed under a nonce of the sender for one of the receiver."""
    vector = bytes(own) + bytes(nonce)
    cipher = ciphers.streamed(ciphers.enciphered(key, b"\xAA" * 16), vector, b"\0" + bytes(text))
    code = ciphers.code_of(ciphers.enciphered(key, b"\x55" * 16), vector, ends.sender, ends.receiver, cipher)
    return (0x98, 0x81) + tuple(own) + tuple(cipher) + (nonce[0],) + tuple(code)


GIVEN["sealed_text"] = Function(sealed_text, 5)


@given(4)
def unsealed_at(key, nonce, ends, payload):
    """What a payload opens to for a nonce."""
    found = ciphers.unsealed(key, bytes(nonce), ends.sender, ends.receiver, bytes(payload))
    return NONE if found is None else some(tuple(found))


# what a claim says there is: of a sealed text the nonce of the sender, and that of the node; of what a node told in a sealed payload this payload, both
# nonces and the text; of a segment its place; of a Nonce Report its nonce
def opened_from(key, past, node):
    """The sealed payloads of a node that open for a nonce that the host gave it: the payload, both nonces, and the text."""
    from .laws import NAMES
    code, units = lambda path: NAMES.get(path).code, "law_transcript.specs.Units."  # noqa: E731
    sent = [one for unit in tuple_of(code("zw_text.specs.Transcript.units")(SIDES["h"], past)) for one in tuple_of(code(units + "sending_in")(unit.bytes))]
    given_nonces = {one.payload[2:] for one in sent if one.node == node and begins_with(one.payload, 0x98, 0x80) and len(one.payload) == 10}
    ends = WORLD.record(("sender", "receiver"), (node, 1))
    for payload in tuple_of(code(units + "payloads_from")(node, past)):
        for nonce in given_nonces if begins_with(payload, 0x98, 0x81) else ():
            text = unsealed_at(bytes(key), nonce, ends, payload)
            if text is not NONE and payload[-9] == nonce[0]:
                yield payload, payload[2:10], nonce, text.fields[0]


def tells(payload):
    """What a payload tells as it came."""
    from .laws import NAMES
    return tuple_of(NAMES.get("law_transcript.specs.Payloads.messages_of").code(heard_at(payload)))


def told_sealed(key, past, node, message):
    """The sealed payload in which a node told this, both nonces, and the text."""
    return next((found for found in opened_from(key, past, node) if message in tells(found[3])), None)


def sealed_for(key, past, node, message, payload):
    """The two nonces of a sealed text."""
    from .laws import NAMES
    ends, own = WORLD.record(("sender", "receiver"), (1, node)), payload[2:10]
    openly = tuple_of(NAMES.get("law_transcript.specs.Payloads.told_by").code(node, past))
    for one in openly + tuple(one for found in opened_from(key, past, node) for one in tells(found[3])):
        if one.name == "Told.NonceReport" and one.fields[0][:1] == payload[-9:-8] and sealed_text(bytes(key), own, one.fields[0], ends, message) == payload:
            return own, one.fields[0]
    return None


def segment_place(message, session, payload):
    """The place of a segment."""
    return next(((at,) for at in range((len(message) + 38) // 39)
                 if tuple(segment(session % 16, len(message), 39 * at, bytes(message[39 * at:39 * at + 39]))) == payload), None)


FOUND["law_host.specs.Nonces.IsSeal"] = (("own",), lambda _, seal: (seal.payload[2:10],))
FOUND["law_transcript.specs.Payloads.IsSealedFor"] = (("own", "nonce"), sealed_for)
FOUND["law_transcript.specs.Payloads.IsSegmentOf"] = (("place",), segment_place)
FOUND["law_transcript.specs.Payloads.IsToldSealed"] = (("payload", "own", "nonce", "plain"), told_sealed)
FOUND["law_transcript.specs.Payloads.IsNonceReport"] = (("nonce",), lambda _, past, carried: (carried.payload[2:],))


# ---- orders

given(2, "lists")(lambda classes, one: one in classes)
given(1, "actuator_of")(lambda classes: classes)


@lru_cache(maxsize=1 << 14)
def asked_by(order, classes):
    """What an order asks for of a node with these classes."""
    return orders.asked_of(order, bytes(classes))


def order_by(order):
    """An order as the readers beside this folder have it."""
    return orders.Order(order.node, order.end, order.what[0], order.what[1])


@given(2, "settings")
def settings(classes, order):
    """The settings that an order asks for."""
    asked = asked_by(order_by(order), classes)
    return () if isinstance(asked, str) else tuple(setting(which, value) for which, value in asked.settings)


given(1, "properties_of")(lambda all_settings: tuple(one.property for one in tuple_of(all_settings)))
given(2, "same_property")(lambda first, second: first == second)
given(2, "carriage_of")(lambda classes, order: WORLD.record(("classes", "outer"), (classes, getattr(asked_by(order_by(order), classes), "form", "plain"))))
given(1, "form_of")(lambda outer: WORLD.variant("Form." + {"plain": "Plain", "checked": "Plain", "cut": "Cut", "sealed": "Sealed"}[outer]))


@lru_cache(maxsize=1 << 14)
def message_text(order, classes, session):
    """The message of a session; none of an order that should have been refused."""
    asked = asked_by(order, classes)
    return () if isinstance(asked, str) else tuple(orders.message_of(order, asked, session))


given(3, "message_of")(lambda carriage, order, session: message_text(order_by(order), carriage.classes, session))
given(2, "send_text")(lambda classes, word: tuple(orders.errand_text(("send", "0", word), bytes(classes))))
given(2, "get_text")(lambda classes, end: tuple(orders.errand_text(("get", "0.%d" % end if end else "0"), bytes(classes))))
given(2, "command_at")(lambda commands, session: some(tuple_of(commands)[session - 1]) if 0 < session <= len(commands) else NONE)


def refused(text):
    """A refusal of a line by its text."""
    names = {"notjoined": "NotJoined", "notinterviewed": "NotInterviewed", "unsupported": "Unsupported", "badvalue": "BadValue", "secured": "Secured",
             "unsupervised": "Unsupervised", "toolong": "TooLong", "mailboxfull": "MailboxFull", "storefull": "StoreFull"}
    name, *numbers = text.split()
    return some(WORLD.variant("Refused." + names[name], *(int(number, 16 if name == "unsupported" else 10) for number in numbers)))


def unknown(known):
    """The refusal for a node that has not joined or is not known, or None."""
    return "notjoined" if not known.joined else "notinterviewed" if known.classes is NONE else None


@given(3, "refusal_of")
def refusal_of(known, properties, order):
    """What refuses an order, if anything does."""
    text = unknown(known)
    if text is None:
        asked = asked_by(order_by(order), known.classes.fields[0])
        text = asked if isinstance(asked, str) else "mailboxfull %d" % orders.MOST_WAITING if known.waiting >= orders.MOST_WAITING else \
            "storefull %d" % orders.MOST_PROPERTIES if properties > orders.MOST_PROPERTIES else None
    return NONE if text is None else refused(text)


def errand_refusal(words, known):
    """What refuses a `send` or `get` line, but for a full queue."""
    text = unknown(known) or orders.errand_refusal(words, {int(words[1].split(".")[0])}, bytes(known.classes.fields[0]))
    return NONE if text is None else refused(text)


given(3, "send_refusal")(lambda known, _, word: errand_refusal(("send", "0", word), known))
given(3, "get_refusal")(lambda known, _, end: errand_refusal(("get", "0.%d" % end if end else "0"), known))


def value_text(value):
    """A value or that there is none."""
    return "null" if value is NONE else "%d" % value.fields[0]


@given(2, "values_text")
def values_text(node, held):
    """The values of a node as JSON."""
    each = ",".join('{"confirmed":%s,"heard":%s,"property":"%s"}' % (value_text(one.stored.confirmed), value_text(one.stored.heard), one.property)
                    for one in tuple_of(held))
    return '{"node":%d,"values":[%s]}' % (node, each)


def which_of(which):
    """A property by the text that a transcript has for it."""
    end, _, name = which.partition("/")
    word, *numbers = name.split(":")
    return (int(end), word) + tuple(int(number) for number in numbers)


def place_of(which):
    """Where a property stands in their order."""
    return property_order(which_of(which))


given(1, "rank_of")(place_of)
given(3, "slice_cmp")(lambda _, first, second: nat_cmp(first, second))
given(2, "value_among")(lambda all_settings, which: next((some(one.value) for one in reversed(tuple_of(all_settings)) if one.property == which), NONE))
given(2, "or_else")(lambda first, second: first if first.name == "Some" else second)

given(1, "classes_of")(lambda kind: tuple(bytes.fromhex(CLASSES[KINDS[kind.name.split(".")[1]]])))

# the class list of a node of `sim`, whose kind goes by its number, whatever stood before
LISTING = Function(lambda _, node: tuple(listing_of(node)), 2)


# ---- words of a note

given(1, "done_word")(lambda how: how.name)
given(1, "ended_word")(lambda how: how.name)
