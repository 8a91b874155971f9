"""The terms that definitions are made of: clauses are parsed, and terms shown again."""
from bookparts.specs import KIT_CONSTRUCTORS, LANGUAGE, TOKEN, WORD, Constructor, Declared, Kit

LEVELS = {
    "→": 1, "↔": 2, "⊎": 3, "×": 4, "≡": 5, "≢": 5, "≤": 5, "<": 5, "||": 6, "&&": 7, "==": 8, "∷": 9, "++": 9,
    "+": 10, "-": 10, "+ℤ": 10, "*": 11, "%": 11, "/": 11, "^": 12,
}
TO_THE_RIGHT = {"→", "↔", "⊎", "×", "||", "&&", "∷", "++", "^"}
APPLIED = 13
STOPS = {")", "}", "]", ",", ";", "then", "else", "in", "="}


class Unread(Exception):
    """A text that is none of these terms."""


class Term:
    """A term. Two are equal where they are shown alike."""

    def __eq__(self, other):
        return isinstance(other, Term) and text_of(self) == text_of(other)

    def __hash__(self):
        return hash(text_of(self))


class Name(Term):
    """A word that stands for a definition, a constructor, a declared type or a word of the kit."""

    def __init__(self, text, word):
        self.text, self.word = text, word


class Var(Term):
    def __init__(self, name):
        self.name = name


class Lit(Term):
    def __init__(self, text):
        self.text = text


class App(Term):
    def __init__(self, head, args):
        self.head, self.args = head, list(args)


class Lam(Term):
    def __init__(self, names, body):
        self.names, self.body = list(names), body


class Let(Term):
    def __init__(self, name, value, body):
        self.name, self.value, self.body = name, value, body


class If(Term):
    def __init__(self, condition, yes, no):
        self.condition, self.yes, self.no = condition, yes, no


class Rec(Term):
    """A record of these fields, or another one with these fields in place of its own."""

    def __init__(self, base, fields):
        self.base, self.fields = base, fields


class Proj(Term):
    def __init__(self, of, field):
        self.of, self.field = of, field


class Bin(Term):
    def __init__(self, mark, left, right):
        self.mark, self.left, self.right = mark, left, right


class Tup(Term):
    def __init__(self, items):
        self.items = list(items)


class Alias(Term):
    """A record that is written out, under the name that a definition has for it."""

    def __init__(self, name, value):
        self.name, self.value = name, value


class Case(Term):
    """What comes of a term that is not known, by what it may be: each a pattern and a term."""

    def __init__(self, of, ways):
        self.of, self.ways = of, ways


class Clause:
    """A clause of a definition: patterns, which are terms whose variables it binds, and a body."""

    def __init__(self, patterns, body):
        self.patterns, self.body = patterns, body


def is_constructor(term):
    if isinstance(term, Lit):
        return True
    if isinstance(term, Bin):
        return term.mark == "∷"
    if not isinstance(term, Name):
        return False
    word = term.word
    if isinstance(word, Kit):
        return word.name in KIT_CONSTRUCTORS or word.name[0].isupper() or word.name == "[]"
    return isinstance(word, Constructor) or (isinstance(word, Declared) and word.variant is not None)


class Parser:
    def __init__(self, file, text):
        self.file = file
        self.tokens = [token for token in TOKEN.findall(text) if not token.startswith("--")]
        self.at = 0

    @property
    def token(self):
        return self.tokens[self.at] if self.at < len(self.tokens) else ""

    def take(self, wanted=None):
        token = self.token
        if not token or (wanted and token != wanted):
            raise Unread(f"{wanted or 'a term'} is not {token or 'the end'}")
        self.at += 1
        return token

    def clause(self):
        """NAME patterns = body."""
        self.take()
        patterns, bound = [], set()
        while self.token != "=":
            patterns.append(self.pattern_atom(bound))
        self.take("=")
        body = self.term(bound)
        if self.token:
            raise Unread(f"{self.token} behind a clause")
        return Clause(patterns, body)

    def pattern_atom(self, bound):
        token = self.take()
        if token == "(":
            pattern = self.pattern(bound)
            self.take(")")
            return pattern
        if token == "[":
            self.take("]")
            return Name("[]", self.file.library.word("Rattle.std.specs.Prelude", "[]"))
        if token == "{":
            self.take()
            self.take("}")
            return self.pattern_atom(bound)
        if token.isdigit() or token.startswith("0x"):
            return Lit(token)
        name = self.named(token, set())
        if name is not None and is_constructor(name):
            return name
        bound.add(token)
        return Var(token)

    def pattern(self, bound):
        parts = [self.pattern_atom(bound)]
        while self.token and self.token not in (")", "∷", ","):
            parts.append(self.pattern_atom(bound))
        left = parts[0] if len(parts) == 1 else App(parts[0], parts[1:])
        if self.token == "∷":
            self.take()
            return Bin("∷", left, self.pattern(bound))
        if self.token == ",":
            self.take()
            return Tup([left, self.pattern(bound)])
        return left

    def term(self, bound):
        if self.token == "λ":
            return self.lambda_(bound)
        if self.token == "let":
            return self.let(bound)
        if self.token == "if":
            return self.if_(bound)
        return self.binary(0, bound)

    def lambda_(self, bound):
        self.take("λ")
        names = []
        while True:
            token = self.take()
            if token == "(":
                while self.token != ":":
                    names.append(self.take())
                self.skip(")")
            else:
                names.append(token.rstrip("."))
            if token != "." and token.endswith("."):
                break
            if self.token == ".":
                self.take()
                break
        return Lam(names, self.term(bound | set(names)))

    def skip(self, end):
        """Skips a type, up to the bracket that closes what is open."""
        depth = 0
        while depth or self.token != end:
            token = self.take()
            depth += (token in ("(", "{")) - (token in (")", "}"))
        self.take(end)

    def let(self, bound):
        self.take("let")
        name = self.take()
        if self.token == ":":
            while self.token != "=":
                self.take()
        self.take("=")
        value = self.term(bound)
        self.take("in")
        return Let(name, value, self.term(bound | {name}))

    def if_(self, bound):
        self.take("if")
        condition = self.term(bound)
        self.take("then")
        yes = self.term(bound)
        self.take("else")
        return If(condition, yes, self.term(bound))

    def binary(self, least, bound):
        left = self.applied(bound)
        while LEVELS.get(self.token, -1) >= least and self.token:
            mark = self.take()
            level = LEVELS[mark]
            if self.token in ("λ", "let", "if"):
                return Bin(mark, left, self.term(bound))
            left = Bin(mark, left, self.binary(level if mark in TO_THE_RIGHT else level + 1, bound))
        return left

    def applied(self, bound):
        head = self.atom(bound)
        args = []
        while self.token and self.token not in STOPS and self.token not in LEVELS:
            if self.token == "{":
                self.take()
                self.skip("}")
                continue
            args.append(self.term(bound) if self.token == "λ" else self.atom(bound))
        return App(head, args) if args else head

    def atom(self, bound):
        token = self.take()
        if token == "(":
            return self.projected(self.bracketed(bound))
        if token == "[":
            self.take("]")
            return Name("[]", self.file.library.word("Rattle.std.specs.Prelude", "[]"))
        if token == "record":
            return self.record(bound)
        if token[0] == '"' or token[0].isdigit():
            return Lit(token)
        if token in STOPS or token in LEVELS or not WORD.match(token.partition(".")[0]):
            if token in ("ℕ", "⊥", "ℤ"):
                return Lit(token)
            raise Unread(f"{token} begins no term")
        name = self.named(token, bound)
        return name if name is not None else Var(token)

    def projected(self, term):
        while self.token.startswith(".") and len(self.token) > 1:
            for field in self.take()[1:].split("."):
                term = Proj(term, field)
        return term

    def bracketed(self, bound):
        items = [self.term(bound)]
        while self.token == ",":
            self.take()
            items.append(self.term(bound))
        if self.token == ":":
            self.skip(")")
            return items[0]
        self.take(")")
        return items[0] if len(items) == 1 else Tup(items)

    def record(self, bound):
        base = None if self.token == "{" else self.projected(self.atom(bound))
        self.take("{")
        fields = {}
        while self.token != "}":
            name = self.take()
            self.take("=")
            fields[name] = self.term(bound)
            if self.token == ";":
                self.take()
        self.take("}")
        return Rec(base, fields)

    def named(self, token, bound):
        """A word with what is taken of it: a bound name, or what the file knows under it."""
        name, dot, rest = token.partition(".")
        behind = rest.split(".") if dot and rest else []
        if name in bound:
            term = Var(name)
        else:
            word = None if name in LANGUAGE and name != "tt" else self.file.word(name, behind[0] if behind else None)
            if word is None:
                return Lit(name) if name in LANGUAGE else None
            if name in self.file.aliases and name not in self.file.imports and name not in self.file.definitions and behind:
                name, behind = f"{name}.{behind[0]}", behind[1:]
            term = Name(name, word)
        for field in behind:
            term = Proj(term, field)
        return term


def clauses_of(definition):
    """The clauses of a definition, or none where one of them is no such term."""
    texts, at = [], 0
    for line in definition.text.split("\n"):
        if at and line and not line[0].isspace() and line[0] not in "})]-":
            texts.append(line)
        elif texts:
            texts[-1] += "\n" + line
        at += 1
    try:
        return [Parser(definition.file, text).clause() for text in texts]
    except Unread:
        return []


def shown(term, level=0):
    """A term as text in pieces, each with its word, or none."""
    return list(Shower().show(term, level))


def text_of(term):
    return "".join(piece for piece, _ in shown(term))


class Shower:
    """Shows terms, with as few brackets as they need."""

    def show(self, term, level):
        own, pieces = getattr(self, f"show_{type(term).__name__.lower()}")(term)
        if own < level:
            return [("(", None), *pieces, (")", None)]
        return pieces

    def show_name(self, term):
        return 14, [(term.text, term.word)]

    def show_var(self, term):
        return 14, [(term.name, None)]

    def show_lit(self, term):
        return 14, [(term.text, None)]

    def show_app(self, term):
        pieces = self.show(term.head, 14)
        for arg in term.args:
            pieces = pieces + [(" ", None)] + self.show(arg, 14)
        return APPLIED, pieces

    def show_lam(self, term):
        return 0, [(f"λ {' '.join(term.names)}. ", None)] + self.show(term.body, 0)

    def show_let(self, term):
        return 0, [(f"let {term.name} = ", None)] + self.show(term.value, 0) + [(" in ", None)] + self.show(term.body, 0)

    def show_if(self, term):
        return 0, [("if ", None), *self.show(term.condition, 0), (" then ", None), *self.show(term.yes, 0), (" else ", None), *self.show(term.no, 0)]

    def show_rec(self, term):
        pieces = [("record ", None)]
        if term.base is not None:
            pieces += self.show(term.base, 14) + [(" ", None)]
        pieces.append(("{ ", None))
        for at, (name, value) in enumerate(term.fields.items()):
            pieces += [(f"{'; ' if at else ''}{name} = ", None)] + self.show(value, 0)
        return 14, pieces + [(" }", None)]

    def show_proj(self, term):
        return 14, self.show(term.of, 14) + [(f".{term.field}", None)]

    def show_bin(self, term):
        level = LEVELS[term.mark]
        right = level if term.mark in TO_THE_RIGHT else level + 1
        left = level + 1 if term.mark in TO_THE_RIGHT or term.mark in ("==", "≡") else level
        return level, self.show(term.left, left) + [(f" {term.mark} ", None)] + self.show(term.right, right)

    def show_tup(self, term):
        pieces = [("(", None)]
        for at, item in enumerate(term.items):
            pieces += ([(", ", None)] if at else []) + self.show(item, 0)
        return 14, pieces + [(")", None)]

    def show_alias(self, term):
        return 14, [(term.name, None)]

    def show_case(self, term):
        pieces = [("case ", None)] + self.show(term.of, 0)
        for at, (pattern, way) in enumerate(term.ways):
            pieces += [("; " if at else " of ", None)] + self.show(pattern, 0) + [(" ⇒ ", None)] + self.show(way, 0)
        return 0, pieces
