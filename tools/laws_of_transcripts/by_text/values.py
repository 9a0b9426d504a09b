"""Values of the definitions: variants, records, functions, and lists, of which the long ones grow by one item at a time.

A list is a tuple, or a `Row`: an item behind another row. What a definition gives for a row is kept with the row, so that it is not worked out again
when one more entry stands behind it. A `Rest` is what stands behind an entry in a list that may still grow; it notes whether its end was looked at.
"""


class Variant:
    """A variant of a type: its name and its fields. Equal ones are one."""

    __slots__ = ("name", "fields")

    def __init__(self, name, fields):
        self.name, self.fields = name, fields

    def __repr__(self):
        return "(%s)" % " ".join([self.name.split(".")[-1]] + [repr(field) for field in self.fields]) if self.fields else self.name.split(".")[-1]


class Record:
    """A record; each set of field names is a class of its own. Equal ones are one."""

    __slots__ = ("memo",)
    names = ()

    def __repr__(self):
        return "{%s}" % "; ".join("%s = %r" % (name, getattr(self, name)) for name in self.names)


class Function:
    """A function that waits for so many more arguments."""

    __slots__ = ("code", "lacks", "given", "hash")

    def __init__(self, code, lacks, given=()):
        self.code, self.lacks, self.given = code, lacks, given
        self.hash = None

    def __hash__(self):
        if self.hash is None:
            self.hash = hash((self.code, self.given))
        return self.hash

    def __eq__(self, other):
        return self is other or isinstance(other, Function) and self.code is other.code and self.given == other.given


def apply(function, *arguments):
    """A function applied to one argument or more."""
    lacks = function.lacks
    if len(arguments) == lacks:
        return function.code(*function.given, *arguments)
    if len(arguments) < lacks:
        return Function(function.code, lacks - len(arguments), function.given + arguments)
    return apply(function.code(*function.given, *arguments[:lacks]), *arguments[lacks:])


class Row:
    """A list that ends with an item behind another row."""

    __slots__ = ("before", "item", "size", "memo", "next", "rests")

    def __init__(self, before, item, size):
        self.before, self.item, self.size = before, item, size
        self.memo, self.next, self.rests = {}, {}, None

    def __len__(self):
        return self.size

    def with_item(self, item):
        """One item more; the same row for the same item."""
        key = item if type(item) is int else id(item)
        found = self.next.get(key)
        if found is None:
            found = self.next[key] = Row(self, item, self.size + 1)
        return found

    def items(self):
        """All items, in order."""
        found, row = [], self
        while row.size:
            found.append(row.item)
            row = row.before
        found.reverse()
        return tuple(found)

    def last(self, count):
        """The last items, as a tuple."""
        found, row = [], self
        while count and row.size:
            found.append(row.item)
            row, count = row.before, count - 1
        found.reverse()
        return tuple(found)

    def first(self, count):
        """The row of the first items."""
        row = self
        while row.size > count:
            row = row.before
        return row

    def rest(self, place, array, start):
        """What stands behind the item at a place: that of an array of the last items, from a start on."""
        if self.rests is None:
            self.rests = {}
        found = self.rests.get(place)
        if found is None:
            found = self.rests[place] = Rest(array, start, [False])
        return found


class Rest:
    """What stands behind an entry, as far as the list goes now."""

    __slots__ = ("array", "place", "ended")

    def __init__(self, array, place, ended):
        self.array, self.place, self.ended = array, place, ended

    def __len__(self):
        self.ended[0] = True
        return len(self.array) - self.place


class World:
    """What is made once for equal values; emptied between two transcripts."""

    def __init__(self):
        self.classes, self.lasting, self.made, self.constants = {}, {}, {}, []
        self.empty = Row(None, None, 0)

    def clear(self):
        """Forgets all but constants, and what is kept with these."""
        self.made.clear()
        for record in self.constants:
            record.memo.clear()
            self.made[(record.names,) + tuple(getattr(record, name) for name in record.names)] = record
        self.part()

    def part(self):
        """Lists that are made from now on share no row with those before: what is kept with a row may hang on what stands behind it there."""
        self.empty.memo.clear()
        self.empty.next.clear()
        self.empty.rests = None

    def variant(self, name, *fields):
        """A variant."""
        key = (name,) + fields
        table = self.made if fields else self.lasting
        found = table.get(key)
        if found is None:
            found = table[key] = Variant(name, fields)
        return found

    def constant(self, value):
        """Says that a value lasts."""
        if isinstance(value, Record):
            self.constants.append(value)
            for name in value.names:
                self.constant(getattr(value, name))

    def class_of(self, names):
        """The class of records with these fields."""
        found = self.classes.get(names)
        if found is None:
            found = self.classes[names] = type("Record_of_" + "_".join(names), (Record,), {"__slots__": names, "names": names})
        return found

    def record(self, names, values):
        """A record."""
        key = (names,) + values
        found = self.made.get(key)
        if found is None:
            found = self.made[key] = self.class_of(names)()
            found.memo = {}
            for name, value in zip(names, values):
                setattr(found, name, value)
        return found

    def changed(self, record, names, values):
        """A record with some other fields."""
        new = dict(zip(names, values))
        return self.record(record.names, tuple(new[name] if name in new else getattr(record, name) for name in record.names))


WORLD = World()
EMPTY = WORLD.empty


# ---- lists

def tuple_of(items):
    """The items of a list as a tuple."""
    kind = type(items)
    if kind is tuple:
        return items
    if kind is Row:
        return items.items()
    if kind is Rest:
        items.ended[0] = True
        return items.array[items.place:]
    return tuple(items)


def uncons(items):
    """The first item and the rest, or None."""
    kind = type(items)
    if kind is Rest:
        if items.place == len(items.array):
            items.ended[0] = True
            return None
        return items.array[items.place], Rest(items.array, items.place + 1, items.ended)
    if kind is Row:
        items = items.items()
    return (items[0], items[1:]) if items else None


def is_nil(items):
    """Whether a list is empty."""
    if type(items) is Rest:
        if items.place == len(items.array):
            items.ended[0] = True
            return True
        return False
    return not len(items)


def row_of(items):
    """A list as a row."""
    if type(items) is Row:
        return items
    row = EMPTY
    for item in tuple_of(items):
        row = row.with_item(item)
    return row


def append(items, item):
    """One item behind a list."""
    if type(items) is Row:
        return items.with_item(item)
    items = tuple_of(items)
    if type(item) is int or type(item) is bool:
        return items + (item,)
    return row_of(items).with_item(item)


def concat(first, second):
    """One list behind another."""
    if type(second) is tuple and len(second) == 0:
        return first
    if type(first) is Row:
        for item in tuple_of(second):
            first = first.with_item(item)
        return first
    if len(first) == 0:
        return second
    first, second = tuple_of(first), tuple_of(second)
    if isinstance(second[0], (Variant, Record)):
        return concat(row_of(first), second)
    return first + second


def same(first, second):
    """Whether two values are the same."""
    if first is second:
        return True
    if isinstance(first, (Row, Rest, tuple)) and isinstance(second, (Row, Rest, tuple)):
        return tuple_of(first) == tuple_of(second)
    return first == second


def along(row, key, start, step):
    """What a row gives that is worked out from what the row before it gives."""
    passed = []
    while row.size and key not in row.memo:
        passed.append(row)
        row = row.before
    value = row.memo[key] if row.size else start
    for one in reversed(passed):
        value = one.memo[key] = step(value, one.item)
    return value
