"""Makes Python functions of definitions.

Each equation is tried in order, as it stands. Where a definition goes through a list from its first item on and hands on what it has worked out, it is a loop
(`Chain`), so that a list of thousands of entries needs no deep stack; over a row, what it has worked out is kept for each row on the way, as long as
it has not looked at the end of the list. What else a definition gives for a row of entries, or for a record, is kept with that.
"""
from keyword import iskeyword
from operator import add

from .grammar import Module, Parser, Unreadable, equation_of
from .values import EMPTY, WORLD, Function, Row, append, apply, concat, is_nil, same, tuple_of, uncons

RAW = {"true": "True", "false": "False", "⊤": "True", "⊥": "False", "zero": "0"}
SIGNS = {"&&": "({} and {})", "||": "({} or {})", "×": "({} and {})", "⊎": "({} or {})", "→": "(not {} or {})", "==": "same({}, {})",
         "≡": "same({}, {})", "≢": "not same({}, {})", "≤": "({} <= {})", "<": "({} < {})", "+": "({} + {})", "*": "({} * {})", "-": "max({} - {}, 0)",
         "/": "({} // {})", "%": "({} % {})", "++": "concat({}, {})"}


def python_name(field):
    """The name of a field in Python."""
    return field + "_" if iskeyword(field) else field


class Missing:
    """A name for which nothing stands: to use it is an error, to have it in a definition of which other parts are used is none."""

    lacks, given = 0, ()

    def __init__(self, name):
        self.name = name

    def code(self, *_):
        """Says so."""
        raise KeyError(self.name)


class Names:
    """Where the definitions of a crate's modules are found, and what stands for those of lower crates."""

    def __init__(self, folder, is_text, given, arity_of):
        self.folder, self.is_text, self.given, self.arity_of = folder, is_text, given, arity_of
        self.modules, self.made = {}, {}

    def module(self, path):
        """The module of a path such as `law_time.specs.Queue`."""
        if path not in self.modules:
            crate, _, *parts = path.split(".")
            with open("%s/%s/specs/%s.antt" % (self.folder, crate, "/".join(parts)), encoding="utf-8") as file:
                self.modules[path] = Module(path, file.read())
        return self.modules[path]

    def variant_of(self, module, name):
        """The full name of a variant and how many fields it has, or None."""
        if name in ("Some", "None", "Ok", "Err"):
            return name, int(name != "None")
        if "." in name:
            alias, inner = name.split(".")
            return self.variant_at(module.aliases[alias], inner)
        if name in module.variants:
            kind, count = module.variants[name]
            return "%s.%s" % (kind, name), count
        if name in module.imports:
            return self.variant_at(*module.imports[name])
        return None

    def variant_at(self, path, name):
        """A variant by the path of its type."""
        parts = path.split(".")
        if parts[-1] == "TheVariants":
            return "%s.%s" % (parts[-2], name), self.arity_of(parts[0], parts[-2], name)
        for length in (len(parts), len(parts) - 1):
            owner = ".".join(parts[:length])
            if self.is_text(owner) and name in self.module(owner).variants:
                kind, count = self.module(owner).variants[name]
                return "%s.%s" % (kind, name), count
        return None

    def value(self, module, name):
        """What a name stands for: a function or a constant."""
        if name in module.equations or name in module.records:
            return self.made_of(module, name)
        variant = self.variant_of(module, name)
        if variant:
            full, count = variant
            return Function(lambda *fields: WORLD.variant(full, *fields), count) if count else WORLD.variant(full)
        if name in module.imports:
            path, old = module.imports[name]
            if self.is_text(path):
                return self.value(self.module(path), old)
            for key in (path.split(".")[0] + "." + old, old):
                if key in self.given:
                    return self.given[key]
        return self.given[name] if name in self.given else Missing(name)

    def get(self, path):
        """What stands at `law_time.specs.Queue.may_queue`."""
        owner, _, name = path.rpartition(".")
        return self.value(self.module(owner), name)

    def made_of(self, module, name):
        """A definition, made once."""
        key = module.name + "." + name
        if key not in self.made:
            if key in self.given:
                self.made[key] = self.given[key]
            else:
                Maker(self, module, name, key).make()
        return self.made[key]


class Maker:
    """Makes the Python of a definition."""

    def __init__(self, names, module, name, key):
        self.names, self.module, self.name, self.key = names, module, name, key
        self.lines, self.globals, self.count, self.places = [], {}, 0, {}

    def new(self, prefix="v"):
        """A name that is used nowhere else."""
        self.count += 1
        return "%s%d" % (prefix, self.count)

    # ---- definitions

    def make(self):
        """The function or constant, kept under its key before it is run."""
        if self.name in self.module.records:
            return self.finish(self.of_record(), len(self.module.records[self.name][0]))
        parts = [equation_of(part) for part in self.module.equations[self.name]]
        count = len(parts[0][1])
        chain = chain_of(self.name, parts)
        if chain:
            return self.finish_chain(chain, parts, count)
        return self.finish(self.of_equations(self.name, parts), count)

    def finish(self, entry, count):
        """Runs the text; a constant is worked out, and a function of entries keeps what it gives."""
        scope = self.run()
        code = scope[entry]
        note_selected(self, code)
        if count == 0:
            self.resolve(scope)
            self.names.made[self.key] = code()
            WORLD.constant(self.names.made[self.key])
            return
        kept = KEPT[self.key] if self.key in KEPT else kept_place(self.module.types.get(self.name, []))
        wrap = COARSE.get(self.key)
        code = wrap(code) if wrap else keeping(code, kept) if kept is not None else code
        self.names.made[self.key] = Function(code, count)
        self.resolve(scope)

    def finish_chain(self, chain, parts, count):
        """Runs the text of a loop."""
        step, nil = self.of_chain(chain, parts)
        scope = self.run()
        self.names.made[self.key] = Function(Chain(scope[step], scope[nil], chain, count), count)
        self.resolve(scope)

    def run(self):
        """What the text defines."""
        scope = {"WORLD": WORLD, "EMPTY": EMPTY, "Function": Function, "append": append, "apply": apply, "concat": concat, "is_nil": is_nil, "same": same,
                 "tuple_of": tuple_of, "uncons": uncons}
        exec(compile("\n".join(self.lines), self.key, "exec"), scope)  # pylint: disable=exec-used
        return scope

    def resolve(self, scope):
        """Fills in what other names stand for; a function that is called with all its arguments is called itself."""
        for python, (name, called) in self.globals.items():
            value = self.names.value(self.module, name)
            scope[python] = value.code if called and isinstance(value, Function) and value.lacks == called and not value.given else value

    def of_equations(self, name, parts, captured=()):
        """A Python function of these equations, which takes first what it uses of its surroundings."""
        parameters = [self.new("a") for _ in parts[0][1]]
        before = {one: ("value", self.new("c")) for one in captured}
        python = self.new("f")
        lines = ["def %s(%s):" % (python, ", ".join([before[one][1] for one in captured] + parameters))]
        for _, patterns, expression, locals_ in parts:
            scope = dict(before)
            scope.update(self.with_locals(name, locals_, set().union(*(pattern_names(pattern) for pattern in patterns)) if patterns else set()))
            lines += self.of_equation(patterns, parameters, scope, lambda names: "return " + self.expression(expression, names))
        lines.append("    raise ValueError(%r)" % name)
        self.lines += lines
        return python

    def with_locals(self, name, locals_, bound):
        """The local definitions, each with the names of the outer one that they use."""
        scope = {}
        used = tuple(sorted(bound & set().union(*(free_names(part[1]) for parts in locals_.values() for part in parts)))) if locals_ else ()
        for local in locals_:
            scope[local] = self.places[local] = ("local", self.new("l"), len(locals_[local][0][0]), used)
        for local, parts in locals_.items():
            inner = self.of_equations(name + "." + local, [(local,) + tuple(part) for part in parts], used)
            self.lines.append("%s = %s" % (scope[local][1], inner))
        return scope

    def of_equation(self, patterns, parameters, names, body):
        """An equation: its tests, and what follows where they hold."""
        names = dict(names)
        lines, tests, trees = [], [], {}
        for pattern, parameter in zip(patterns, parameters):
            self.match(pattern, parameter, tests, names, trees)
        names["<trees>"] = trees
        indent = "    "
        for kind, text in tests:
            if kind == "test":
                lines.append("%sif %s:" % (indent, text))
                indent += "    "
            else:
                lines.append(indent + text)
        lines.append(indent + body(names))
        return lines

    def match(self, pattern, value, tests, names, trees):
        """The tests that a value matches a pattern, and what its names stand for."""
        kind = pattern[0]
        if kind == "name":
            variant = self.names.variant_of(self.module, pattern[1])
            if variant and "." in variant[0]:
                pattern, kind = ("variant", pattern[1], ()), "variant"
            else:
                names[pattern[1]] = ("value", value)
                return
        if kind == "any":
            return
        if kind == "nil":
            tests.append(("test", "is_nil(%s)" % value))
        elif kind == "number":
            tests.append(("test", "%s == %d" % (value, pattern[1])))
        elif kind == "cons":
            pair = self.new("p")
            tests.append(("do", "%s = uncons(%s)" % (pair, value)))
            tests.append(("test", pair))
            head, tail = self.new(), self.new()
            tests.append(("do", "%s, %s = %s" % (head, tail, pair)))
            self.match(pattern[1], head, tests, names, trees)
            self.match(pattern[2], tail, tests, names, trees)
            trees[as_expression(pattern)] = value
        else:
            self.match_variant(pattern, value, tests, names, trees)

    def match_variant(self, pattern, value, tests, names, trees):
        """The tests of a variant."""
        _, name, fields = pattern
        if name in ("true", "false"):
            tests.append(("test", value if name == "true" else "not " + value))
            return
        if name == "zero":
            tests.append(("test", value + " == 0"))
            return
        if name == "suc":
            less = self.new()
            tests.append(("test", value + " > 0"))
            tests.append(("do", "%s = %s - 1" % (less, value)))
            self.match(fields[0], less, tests, names, trees)
            return
        variant = self.names.variant_of(self.module, name)
        if variant is None and not fields:
            names[name] = ("value", value)
            return
        if variant is None:
            raise Unreadable("%s in %s" % (name, self.key))
        tests.append(("test", "%s.name == %r" % (value, variant[0])))
        for place, field in enumerate(fields):
            if field[0] == "any":
                continue
            inner = self.new()
            tests.append(("do", "%s = %s.fields[%d]" % (inner, value, place)))
            self.match(field, inner, tests, names, trees)
        trees[as_expression(pattern)] = value

    # ---- records as claims

    def of_record(self):
        """A record whose fields are claims holds where all of them do; fields that are things are found by what is given for it."""
        parameters, fields = self.module.records[self.name]
        python, names = self.new("f"), {name: ("value", self.new("a")) for name in parameters}
        lines = ["def %s(%s):" % (python, ", ".join(names[name][1] for name in parameters))]
        found = self.key in FOUND and FOUND[self.key]
        if found:
            lines.append("    found = found_for(%s)" % ", ".join(names[name][1] for name in parameters))
            lines.append("    if found is None: return False")
        for name, text in fields:
            if found and name in found[0]:
                names[name] = ("value", "found[%d]" % found[0].index(name))
                continue
            lines.append("    if not %s: return False" % self.expression(Parser(text).expression(), names))
        lines.append("    return True")
        self.lines += lines
        if found:
            self.globals["found_for"] = ("<found> " + self.key.replace(".", " "), 0)
            self.names.given["<found> " + self.key.replace(".", " ")] = found[1]
        return python

    # ---- chains

    def of_chain(self, chain, parts):
        """The step and the end of a loop."""
        place, kind = chain
        step, nil = self.new("f"), self.new("f")
        for python, (_, patterns, expression, _) in ((nil, parts[0]), (step, parts[1])):
            parameters = [self.new("a") for _ in patterns]
            if python is nil:
                text = self.of_equation(patterns, parameters, {}, lambda names, e=expression: "return " + self.expression(e, names))
                self.lines += ["def %s(%s):" % (python, ", ".join(parameters))] + ["    " + line.strip() for line in text[-1:]]
                continue
            head, tail = self.new("a"), self.new("a")
            names = {pattern[1]: ("value", parameter) for pattern, parameter in zip(patterns, parameters) if pattern[0] == "name"}
            names[patterns[place][1][1]], names[patterns[place][2][1]] = ("value", head), ("value", tail)
            names["<trees>"] = {}
            call = expression if kind == "goes on" else expression[3]
            others = [self.expression(one, names) for at, one in enumerate(call[2]) if at != place]
            first = "()" if kind == "goes on" else self.expression(expression[2], names)
            kept = [parameter for at, parameter in enumerate(parameters) if at != place]
            self.lines += ["def %s(%s):" % (python, ", ".join(kept + [head, tail])), "    return (%s), %s" % ("".join(one + ", " for one in others), first)]
        return step, nil

    # ---- expressions

    def expression(self, tree, names):
        """The Python of an expression."""
        if tree in names.get("<trees>", {}):
            return names["<trees>"][tree]
        return self.KINDS[tree[0]](self, tree, names)

    def of_number(self, tree, _):
        """A number."""
        return str(tree[1])

    def of_text(self, tree, _):
        """A text, as its characters."""
        return repr(tuple(tree[1].encode()))

    def of_nil(self, *_):
        """No items."""
        return "()"

    def of_name(self, tree, names):
        """A name."""
        name = tree[1]
        if name in names:
            if names[name][0] == "value":
                return names[name][1]
        if name in self.places:
            _, python, count, used = self.places[name]
            return "Function(%s, %d, (%s))" % (python, count, "".join(names[one][1] + ", " for one in used))
        if name in RAW:
            return RAW[name]
        return self.outer(name, 0)

    def outer(self, name, called):
        """A name of the module."""
        for python, known in self.globals.items():
            if known == (name, called):
                return python
        python = self.new("g")
        self.globals[python] = (name, called)
        return python

    def of_function(self, tree, names):
        """A function without a name: one with a name, given what it uses of its surroundings."""
        _, parameters, body = tree
        python, inner = self.new("h"), {}
        free = free_names(body)
        free = free.union(*(self.places[name][3] for name in free if name in self.places)) - set(parameters)
        used = sorted(name for name in free if name in names and names[name][0] == "value")
        for name in used + list(parameters):
            inner[name] = ("value", self.new("a"))
        inner["<trees>"] = {}
        text = self.expression(body, inner)
        self.lines += ["def %s(%s):" % (python, ", ".join(inner[name][1] for name in used + list(parameters))), "    return " + text]
        return "Function(%s, %d, (%s))" % (python, len(parameters), "".join(names[name][1] + ", " for name in used))

    def of_if(self, tree, names):
        """A choice."""
        return "(%s if %s else %s)" % (self.expression(tree[2], names), self.expression(tree[1], names), self.expression(tree[3], names))

    def of_let(self, tree, names):
        """A name for a value."""
        _, name, value, body = tree
        python = self.new()
        inner = dict(names)
        inner[name] = ("value", python)
        return "(%s := %s, %s)[1]" % (python, self.expression(value, names), self.expression(body, inner))

    def of_sign(self, tree, names):
        """A binary sign."""
        _, sign, left, right = tree
        first = self.expression(left, names)
        if sign == "∷":
            return "((%s,) + tuple_of(%s))" % (first, self.expression(right, names))
        if sign == "++" and right[0] == "sign" and right[1] == "∷" and right[3] == ("nil",):
            return "append(%s, %s)" % (first, self.expression(right[2], names))
        return SIGNS[sign].format(first, self.expression(right, names))

    def of_field(self, tree, names):
        """A field of a record, or a variant of a type."""
        _, base, field = tree
        if base[0] == "name" and base[1] in self.module.aliases and base[1] not in names:
            return self.outer(base[1] + "." + field, 0)
        return "%s.%s" % (self.expression(base, names), python_name(field))

    def of_record_tree(self, tree, names):
        """A record."""
        _, base, fields = tree
        labels = repr(tuple(python_name(name) for name, _ in fields))
        values = "(%s)" % "".join(self.expression(value, names) + ", " for _, value in fields)
        if base is None:
            return "WORLD.record(%s, %s)" % (labels, values)
        return "WORLD.changed(%s, %s, %s)" % (self.expression(base, names), labels, values)

    def of_call(self, tree, names):
        """A function applied."""
        _, head, arguments = tree
        values = [self.expression(one, names) for one in arguments]
        name = head[1] if head[0] == "name" else "%s.%s" % (head[1][1], head[2]) if head[0] == "field" and head[1][0] == "name" else None
        if head[0] == "name" and (name in names or name in self.places):
            found = names.get(name) or self.places[name]
            if found[0] == "local" and found[2] == len(values):
                return "%s(%s)" % (found[1], ", ".join([names[one][1] for one in found[3]] + values))
        elif head[0] == "name" or name and head[1][1] in self.module.aliases and head[1][1] not in names:
            count = self.arity(name)
            if count is not None and count == len(values):
                return "%s(%s)" % (self.outer(name, count), ", ".join(values))
            if count is not None and 0 < count < len(values):
                return "apply(%s(%s), %s)" % (self.outer(name, count), ", ".join(values[:count]), ", ".join(values[count:]))
            return "apply(%s, %s)" % (self.outer(name, 0), ", ".join(values))
        return "apply(%s, %s)" % (self.expression(head, names), ", ".join(values))

    def arity(self, name):
        """How many arguments a name of the module takes, where that is known before it is made."""
        module, seen = self.module, name
        while True:
            if seen in module.equations:
                given = self.names.given.get(module.name + "." + seen)
                return given.lacks if isinstance(given, Function) else len(equation_of(module.equations[seen][0])[1])
            if seen in module.records:
                return len(module.records[seen][0])
            variant = self.names.variant_of(module, seen)
            if variant:
                return variant[1] or None
            if seen in module.imports:
                path, seen = module.imports[seen]
                if self.names.is_text(path):
                    module = self.names.module(path)
                    continue
                for key in (path.split(".")[0] + "." + seen, seen):
                    if key in self.names.given:
                        return getattr(self.names.given[key], "lacks", None)
                return None
            return getattr(self.names.given.get(seen), "lacks", None)



    KINDS = {"number": of_number, "text": of_text, "nil": of_nil, "name": of_name, "function": of_function, "if": of_if, "let": of_let, "sign": of_sign,
             "field": of_field, "record": of_record_tree, "call": of_call}


# at which argument what these give is kept, besides those of which `kept_place` says so
KEPT = {"law_time.specs.Queue.requests_after": 1, "law_time.specs.Attempts.attempts_by_unit": 1}
# of a definition that goes by a few kinds of entries: how what it gives is kept with these
COARSE = {}
# of a definition that gives nothing for all but a few variants of its last argument: these
SELECTED = {}


def note_selected(maker, code):
    """Notes for which variants of its last argument a definition gives anything."""
    parts = [equation_of(part) for part in maker.module.equations.get(maker.name, [])]
    if len(parts) < 2 or not parts[0][1]:
        return
    *firsts, last = parts
    lasts = [part[1][-1] for part in firsts]
    if last[1][-1][0] in ("any", "name") and last[2] == ("nil",) and all(one[0] == "variant" for one in lasts):
        variants = [maker.names.variant_of(maker.module, one[1]) for one in lasts]
        if all(variants) and all(one[0].startswith("Entry.") for one in variants):
            SELECTED[code] = frozenset(one[0] for one in variants)


# for a record some of whose fields are things: their names, and what finds them
FOUND = {}


def as_expression(pattern):
    """The expression that looks like a pattern."""
    kind = pattern[0]
    if kind == "variant":
        head = ("name", pattern[1])
        if "." in pattern[1]:
            alias, name = pattern[1].split(".")
            head = ("field", ("name", alias), name)
        return ("call", head, tuple(as_expression(field) for field in pattern[2])) if pattern[2] else head
    if kind == "cons":
        return ("sign", "∷", as_expression(pattern[1]), as_expression(pattern[2]))
    return pattern


def pattern_names(pattern):
    """The names that a pattern binds."""
    if pattern[0] == "name":
        return {pattern[1]}
    return set().union(*(pattern_names(one) for one in pattern[2])) if pattern[0] == "variant" and pattern[2] else \
        pattern_names(pattern[1]) | pattern_names(pattern[2]) if pattern[0] == "cons" else set()


def free_names(tree):
    """All names in an expression."""
    if not isinstance(tree, tuple):
        return set()
    if len(tree) == 2 and tree[0] == "name":
        return {tree[1]}
    return set().union(*(free_names(one) for one in tree)) if tree else set()


def chain_of(name, parts):
    """The place of the list and the kind of a definition that goes through a list by `f a [] = ..` and `f a (x ∷ rest) = f b rest` or
    `.. ++ f b rest`."""
    if len(parts) != 2:
        return None
    (_, nil, _, nil_locals), (_, cons, expression, cons_locals) = parts
    places = [at for at, pattern in enumerate(nil) if pattern == ("nil",)]
    if len(places) != 1 or nil_locals or cons_locals:
        return None
    place = places[0]
    pattern = cons[place]
    if pattern[0] != "cons" or pattern[1][0] != "name" or pattern[2][0] != "name":
        return None
    if any(one[0] not in ("name", "any") for side in (nil, cons) for at, one in enumerate(side) if at != place):
        return None
    kind, call = "goes on", expression
    if expression[0] == "sign" and expression[1] in ("++", "+"):
        kind, call = expression[1], expression[3]
        if name in free_names(expression[2]):
            return None
    if call[0] != "call" or call[1] != ("name", name) or len(call[2]) != len(cons) or call[2][place] != ("name", pattern[2][1]):
        return None
    if any(name in free_names(one) for one in call[2]):
        return None
    return place, kind


class Chain:
    """A definition that goes through a list from its first item on."""

    def __init__(self, step, nil, chain, count):
        self.step, self.nil, self.count = step, nil, count
        self.place, self.kind = chain
        self.adds = {"goes on": None, "++": concat, "+": add}[self.kind]
        self.start = 0 if self.kind == "+" else ()

    def __call__(self, *arguments):
        place = self.place
        items, others = arguments[place], arguments[:place] + arguments[place + 1:]
        if type(items) is Row and items.size:
            others, gathered = self.along(items, others)
        else:
            others, gathered = self.through(items, others)
        end = self.nil(*others[:place], (), *others[place:])
        return self.adds(gathered, end) if self.adds else end

    def through(self, items, others):
        """Through a short list."""
        gathered, step = self.start, self.step
        while True:
            pair = uncons(items)
            if pair is None:
                return others, gathered
            head, items = pair
            others, first = step(*others, head, items)
            if self.adds:
                gathered = self.adds(gathered, first)

    def along(self, row, others):
        """Through a row, from where the last one got."""
        key, passed, end = (self, others), [], row
        while row.size:
            found = row.memo.get(key)
            if found is not None:
                break
            passed.append(row)
            row = row.before
        state = found if row.size else (others, self.start)
        lasts, step, adds = True, self.step, self.adds
        passed.reverse()
        array = tuple(one.item for one in passed)
        for start, one in enumerate(passed, 1):
            rest = end.rest(one.size, array, start)
            others, first = step(*state[0], one.item, rest)
            state = (others, adds(state[1], first) if adds else ())
            lasts = lasts and not rest.ended[0]
            if lasts:
                one.memo[key] = state
        return state


def kept_place(types):
    """At which argument what a definition gives is kept: its only list of entries, or its only record that grows with entries."""
    entries = [at for at, one in enumerate(types[:-1]) if one == "List Entry"]
    if len(entries) == 1:
        return entries[0]
    if entries:
        return None
    records = [at for at, one in enumerate(types[:-1]) if one in ("Asked", "Since", "Requests", "Serving")]
    return records[0] if len(records) == 1 else None


def keeping(code, place):
    """The same function, which keeps what it gives with one of its arguments."""
    def kept(*arguments):
        try:
            memo = arguments[place].memo
        except AttributeError:
            return code(*arguments)
        key = (code, arguments)
        try:
            return memo[key]
        except KeyError:
            found = memo[key] = code(*arguments)
            return found
    return kept
