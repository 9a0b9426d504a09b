"""Reads .antt files: their imports, types, signatures and equations, as trees of tuples."""
import re
from functools import lru_cache

TOKEN = re.compile(
    r'(?P<skip>\s+|--[^\n]*)|(?P<text>"[^"]*")|(?P<word>\d\w*|[A-Za-z_]\w*|◌[^\s(){}]*◌)'
    r"|(?P<sign>\+\+|&&|\|\||==|[-+*/%(){}\[\];:,.=<>⊥⊤ℕ∷≡≢→×⊎≤λ])")
ENDS = {")", "]", "}", ";", ",", "then", "else", "in", "=", "where", ".", ":"}
# binary signs, loosest first; those of the first two rows and of the lists are taken from the right
LEVELS = (("→",), ("×", "⊎"), ("≡", "≢", "≤", "<"), ("||",), ("&&",), ("==",), ("∷", "++"), ("+", "-"), ("*", "/", "%"))
FROM_RIGHT = {0, 1, 6}
SIGNS = {sign for level in LEVELS for sign in level}


class Unreadable(Exception):
    """A text that this grammar does not have."""


def tokens_of(text):
    """The words and signs of a text, each with whether a blank stands before it."""
    found, place, spaced = [], 0, True
    while place < len(text):
        match = TOKEN.match(text, place)
        if match is None:
            raise Unreadable(text[place:place + 40])
        if match.lastgroup == "skip":
            spaced = True
        else:
            found.append((match.group(0), spaced))
            spaced = False
        place = match.end()
    return found


class Parser:
    """Expressions and patterns, one after another."""

    def __init__(self, text):
        self.tokens, self.place = tokens_of(text), 0

    def peek(self, ahead=0):
        """The next token, or None."""
        place = self.place + ahead
        return self.tokens[place][0] if place < len(self.tokens) else None

    def is_spaced(self, ahead=0):
        """Whether a blank stands before it."""
        return self.tokens[self.place + ahead][1]

    def next(self):
        """Takes a token."""
        self.place += 1
        return self.tokens[self.place - 1][0]

    def eat(self, token):
        """Takes this token."""
        if self.peek() != token:
            raise Unreadable("%s for %s" % (" ".join(one for one, _ in self.tokens[self.place:self.place + 9]), token))
        self.place += 1

    # ---- expressions

    def expression(self):
        """An expression of any kind."""
        token = self.peek()
        if token == "λ":
            return self.function()
        if token == "if":
            self.next()
            test = self.expression()
            self.eat("then")
            first = self.expression()
            self.eat("else")
            return ("if", test, first, self.expression())
        if token == "let":
            self.next()
            name = self.next()
            self.skip_type("=")
            value = self.expression()
            self.eat("in")
            return ("let", name, value, self.expression())
        return self.binary(0)

    def skip_type(self, end):
        """Passes over a type up to a sign."""
        while self.peek() != end:
            self.next()
        self.next()

    def function(self):
        """`λ a b. e`."""
        self.next()
        names = []
        while self.peek() != ".":
            if self.peek() == "(":
                self.next()
                names.append(self.next())
                self.skip_type(")")
            else:
                names.append(self.next())
        self.next()
        return ("function", tuple(names), self.expression())

    def binary(self, level):
        """Binary signs from a level on."""
        if level == len(LEVELS):
            return self.application()
        if level < 2 and self.peek() == "(" and self.binds():
            return self.binding(level)
        left = self.binary(level + 1)
        while self.peek() in LEVELS[level]:
            sign = self.next()
            if self.peek() in ("λ", "if", "let"):
                return ("sign", sign, left, self.expression())
            if level in FROM_RIGHT:
                return ("sign", sign, left, self.binary(level))
            left = ("sign", sign, left, self.binary(level + 1))
        return left

    def binds(self):
        """Whether `(x : A) ×` or `(x y : A) →` begins here."""
        ahead = 1
        while self.peek(ahead) and re.match(r"[A-Za-z_]", self.peek(ahead)):
            ahead += 1
        return ahead > 1 and self.peek(ahead) == ":"

    def binding(self, level):
        """There is, or for all."""
        self.next()
        names = []
        while self.peek() != ":":
            names.append(self.next())
        depth = 1
        while depth:
            token = self.next()
            depth += (token == "(") - (token == ")")
        sign = self.next()
        return ("binding", sign, tuple(names), self.binary(level))

    def application(self):
        """A function and what it is applied to."""
        head, arguments = self.postfix(), []
        while self.peek() is not None and self.peek() not in ENDS and self.peek() not in SIGNS:
            if self.peek() == "λ":
                arguments.append(self.function())
                break
            arguments.append(self.postfix())
        return ("call", head, tuple(arguments)) if arguments else head

    def postfix(self):
        """An atom and its fields."""
        atom = self.atom()
        if atom == ("name", "Unit") and self.peek() == "{":
            self.skip_type("}")
        while self.peek() == "." and not self.is_spaced() and self.place + 1 < len(self.tokens) and not self.is_spaced(1):
            self.next()
            atom = ("field", atom, self.next())
        return atom

    def atom(self):
        """The smallest expressions."""
        token = self.next()
        if token == "(":
            inner = self.expression()
            self.eat(")")
            return inner
        if token == "[":
            self.eat("]")
            return ("nil",)
        if token == "record":
            return self.record()
        if token[0].isdigit():
            return ("number", int(token, 0))
        if token[0] == '"':
            return ("text", token[1:-1])
        if token in ("⊤", "⊥", "ℕ") or re.match(r"[A-Za-z_]", token):
            return ("name", token)
        raise Unreadable(token)

    def record(self):
        """`record { a = e; .. }`, or with other fields than those of another record."""
        base = None if self.peek() == "{" else self.postfix()
        self.eat("{")
        fields = []
        while self.peek() != "}":
            name = self.next()
            self.eat("=")
            fields.append((name, self.expression()))
            if self.peek() == ";":
                self.next()
        self.next()
        return ("record", base, tuple(fields))

    # ---- patterns

    def pattern(self):
        """A pattern within brackets."""
        first = self.applied()
        if self.peek() == "∷":
            self.next()
            return ("cons", first, self.pattern())
        return first

    def applied(self):
        """A variant and its fields."""
        head, fields = self.small(), []
        while self.peek() not in (")", "∷", "=", None):
            fields.append(self.small())
        return ("variant", head[1], tuple(fields)) if fields else head

    def small(self):
        """A name, a number, a variant without fields, or a pattern in brackets."""
        token = self.next()
        if token == "(":
            inner = self.pattern()
            self.eat(")")
            return inner
        if token == "[":
            self.eat("]")
            return ("nil",)
        if token == "_":
            return ("any",)
        if token[0].isdigit():
            return ("number", int(token, 0))
        if self.peek() == "." and not self.is_spaced():
            self.next()
            token += "." + self.next()
        return ("variant", token, ()) if token[0].isupper() or "." in token or token in ("true", "false", "zero", "suc") else ("name", token)

    def patterns(self):
        """The patterns of an equation, up to `=`."""
        found = []
        while self.peek() != "=":
            if self.peek() == "{":
                self.skip_type("}")
            else:
                found.append(self.small())
        self.next()
        return tuple(found)


def parts_of(text):
    """The statements of a file: each begins in the first column."""
    part = []
    for line in text.split("\n"):
        if line.startswith("--") or not line.strip():
            continue
        if part and line[0] not in " })":
            yield "\n".join(part)
            part = []
        part.append(line)
    if part:
        yield "\n".join(part)


@lru_cache(maxsize=None)
def equation_of(text):
    """The name, the patterns, the expression and the local definitions of an equation."""
    body, _, local = text.partition("\n  where\n")
    parser = Parser(body)
    name = parser.next()
    patterns = parser.patterns()
    expression = parser.expression()
    if parser.peek() is not None:
        raise Unreadable("%s: %s" % (name, parser.peek()))
    locals_ = {}
    for part in parts_of("\n".join(line[4:] for line in local.split("\n"))):
        if not re.match(r"\w+ :", part):
            inner, *rest = equation_of(part)
            locals_.setdefault(inner, []).append(rest)
    return name, patterns, expression, locals_


def split_at_arrows(signature):
    """The texts between the arrows of a signature."""
    types, depth, place = [], 0, 0
    for at, sign in enumerate(signature):
        depth += (sign in "({") - (sign in ")}")
        if sign == "→" and depth == 0:
            types.append(signature[place:at].strip())
            place = at + 1
    return types + [signature[place:].strip()]


def names_in(text):
    """How many arguments `(a b : A) (c : B)` or `A` are."""
    groups = re.findall(r"\(([\w ]+) :", text)
    return sum(len(group.split()) for group in groups) or 1


def types_of(signature):
    """The types of the arguments and of the answer, as texts."""
    types = split_at_arrows(signature)
    return [one.split(":", 1)[1].rstrip(") ").strip() if re.match(r"\(\w+( \w+)* :", one) else one for one in types if not one.startswith("{")]


def home_of(path):
    """The path of a module in its own crate: `B.specs.M` for `A.specs.B.M`, by which A passes on what B defines. Names of modules are capitalized, but for `declared`."""
    passed = re.match(r"\w+\.specs\.(?!declared\.)([a-z]\w*)\.(.*)$", path)
    return home_of("%s.specs.%s" % passed.groups()) if passed else path


class Module:
    """What a file defines and imports."""

    def __init__(self, name, text):
        self.name, self.imports, self.aliases = name, {}, {}
        self.equations, self.types, self.variants, self.records = {}, {}, {}, {}
        for part in parts_of(text):
            self.take(part)

    def take(self, part):
        """A statement."""
        if part.startswith("pub use "):
            return
        if part.startswith("use "):
            self.take_import(part)
        elif re.match(r"(pub )?data ", part):
            name = re.match(r"(?:pub )?data (\w+)", part).group(1)
            for variant, kind in re.findall(r"\n  (\w+) : (.*)", part):
                self.variants[variant] = (name, sum(names_in(one) for one in split_at_arrows(kind)[:-1]))
        elif re.match(r"(pub )?record ", part):
            name, between = re.match(r"(?:pub )?record (\w+)(.*?) : Type \d+ where", part, re.S).groups()
            parameters = [word for group in re.findall(r"\(([^:()]+) :", between) for word in group.split()]
            fields = re.split(r"\n  pub ", part)[1:]
            self.records[name] = (parameters, [tuple(text.strip() for text in field.split(" : ", 1)) for field in fields])
        elif re.match(r"(abbrev |unfoldable )?(pub )?[\w◌]+ :", part):
            name, signature = re.match(r"(?:abbrev |unfoldable )?(?:pub )?(\S+) : (.*)", part, re.S).groups()
            self.types[name] = types_of(" ".join(signature.split()))
        else:
            self.equations.setdefault(re.match(r"\S+", part).group(0), []).append(part)

    def take_import(self, part):
        """`use Rattle.A.B.{c, d as e}` or `use Rattle.A.B as c`."""
        whole = re.match(r"use Rattle\.([\w.]+) as (\w+)$", part)
        if whole:
            self.aliases[whole.group(2)] = home_of(whole.group(1))
            return
        path, names = re.match(r"use Rattle\.([\w.]+)\.\{(.*)\}\s*$", part, re.S).groups()
        for name in names.split(","):
            old, _, new = name.strip().partition(" as ")
            self.imports[new or old] = (home_of(path), old)
