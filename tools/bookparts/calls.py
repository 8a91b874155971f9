"""The 57 calls, each taken apart into its layout, its refusals, its effect, its reply and what it commits, out of the definitions alone."""
from bookparts.reduce import Reducer, aliases, apply, taken_apart
from bookparts.specs import Declared, Definition
from bookparts.tables import Lines, Refuse, Ways, choice
from bookparts.terms import App, Bin, Case, If, Lam, Lit, Name, Rec, Tup, Var, text_of

REFUSALS = {"CallRow", "Refusal", "List Refusal", "Option Code", "Refused"}
EFFECTS = {"CallRow", "Effect"}
COMMITS = {"CallRow", "Option ℕ"}
KEEPERS = {"keeper_of", "keeper_of_edits"}
LAYOUTS = {"Layout", "List RequestField", "RequestField"}
REPLIES = {"ReplyLayout"}
STEPS = {"Verdict", "Refused"}
ASKED = "asked"
SUM_TYPES = {"TreeCall", "VolumeCall"}
MANY = 5


class Faulty(Exception):
    """A part of a call that is missing, or cannot be read."""


class Call:
    """One call: `name` without FP, its parts, and what was wrong with them."""

    def __init__(self, name, number, group, row, layout, reader):
        self.name, self.number, self.group, self.row, self.layout, self.reader = name, number, group, row, layout, reader
        self.faults = []
        self.fields, self.enclosed, self.refusals, self.effects, self.commits, self.steps = [], None, [], [], [], []
        self.shape, self.reply, self.reply_layout = "", [], None
        self.named = {}

    @property
    def title(self):
        return f"FP{self.name}"

    @property
    def codes(self):
        return {code for line in self.refusals + self.steps for code in line.codes}


class Specs:
    """The definitions by which calls are found."""

    def __init__(self, library):
        self.library, self._steps = library, None
        self.rows = self.definition("afp_serial", "Rows", "row")
        self.layouts = self.definition("afp_calls_grammar", "grammar.Call", "layout_of")
        self.groups = self.definition("afp_calls_grammar", "grammar.Group", "group_of")
        self.shapes = self.definition("afp_replies", "Commands", "rows")
        self.reply_layouts = self.definition("afp_replies", "Commands", "reply_layout_of")
        self.verdict = self.definition("afp_serial", "Answer", "verdict")
        self.without_user = self.definition("afp_serial", "Answer", "commands_without_user")
        self.not_kept = self.definition("afp_serial", "KeptAnswers", "commands_not_kept")
        self.sums = {definition.key for definition in library.definitions() if self.is_sum(definition)}

    def definition(self, crate, module, name):
        found = self.library.word(f"Rattle.{crate}.specs.{module}", name)
        if not isinstance(found, Definition):
            raise Faulty(f"crates/{crate}/specs/{module.replace('.', '/')}.antt: there is no {name}")
        return found

    @property
    def steps(self):
        """The steps before a row, as the lines of a table."""
        if self._steps is None:
            clause = Reducer.clauses(self.verdict)[0]
            reducer = Reducer(STEPS, used=names_in(clause.patterns))
            self._steps = Lines().of(self.verdict_tree(reducer, clause.body))
        return self._steps

    def verdict_tree(self, reducer, term):
        term = reducer.head(term)
        if isinstance(term, If):
            return choice(term.condition, self.verdict_tree(reducer, term.yes), self.verdict_tree(reducer, term.no))
        if isinstance(term, Case):
            ways = []
            for pattern, way in term.ways:
                with reducer.knowing(term.of, pattern):
                    ways.append((pattern, self.verdict_tree(reducer, way)))
            return Ways(term.of, ways)
        apart = taken_apart(term)
        if apart and apart[0] == "refused":
            return refuse(reducer, apart[1][0]) if isinstance(reducer.record(apart[1][0]), Rec) else None
        if apart and apart[0] == "repeats":
            return Refuse(apart[1][0], None)
        return None

    @staticmethod
    def is_sum(definition):
        """Whether a definition says something of each call of the tree or of a volume."""
        clauses = definition.text.count(f"\n{definition.name} ")
        return clauses >= MANY and definition.kind not in ("record", "data") and any(kind in definition.signature.split() for kind in SUM_TYPES)

    def by_call(self, definition):
        """What a definition over calls says of each: name and body, with the arguments that it names."""
        found = {}
        for clause in Reducer.clauses(definition):
            apart = taken_apart(clause.patterns[0])
            if apart:
                found[apart[0]] = clause.body
        if not found:
            raise Faulty(f"{definition.place}: the clauses of {definition.name} cannot be read")
        return found

    def readers(self):
        """The reader of each call, by the call that it makes."""
        found = {}
        for definition in self.library.definitions():
            if definition.crate == self.rows_crate and definition.result == "Reader" and definition.name.endswith("_reader"):
                for word in definition.cited:
                    if isinstance(word, Declared) and word.name == "Call" and word.variant:
                        found[word.variant] = definition
        return found

    @property
    def rows_crate(self):
        return self.layouts.crate


def head_word(term):
    head = term.head if isinstance(term, App) else term
    return head.word if isinstance(head, Name) else None


def read_calls(library):
    """All calls, in the order of the groups and of each group."""
    specs = Specs(library)
    layouts, groups, readers = specs.by_call(specs.layouts), specs.by_call(specs.groups), specs.readers()
    rows = specs.by_call(specs.rows)
    calls = []
    for name in groups:
        row, layout = rows.get(name), layouts.get(name)
        call = Call(name, None, text_of(groups[name]), head_word(row) if row else None, head_word(layout) if layout else None, readers.get(name))
        CallReader(specs, call).read()
        calls.append(call)
    order = {name: place for place, name in enumerate(groups)}
    missing = [name for name in rows if name not in order]
    return calls, missing, specs


class CallReader:
    """Reads the parts of one call."""

    def __init__(self, specs, call):
        self.specs, self.call = specs, call

    def read(self):
        for part in (self.read_layout, self.read_steps, self.read_row, self.read_reply):
            try:
                part()
            except Faulty as fault:
                self.call.faults.append(str(fault))

    # -- the request

    def read_layout(self):
        layout = self.call.layout
        if not isinstance(layout, Definition):
            raise Faulty("its layout is no definition that layout_of names")
        clause = self.clause(layout)
        reducer = Reducer(LAYOUTS, used=names_in(clause.patterns))
        record = reducer.record(apply(Name(layout.name, layout), clause.patterns))
        if not isinstance(record, Rec):
            raise Faulty(f"its layout {layout.name} ({layout.place}) is no record of fields")
        self.call.fields = [(term, self.field(reducer, term)) for term in listed(reducer, record.fields["fields"])]
        self.call.enclosed = record.fields["enclosed"]
        if not self.call.fields:
            raise Faulty(f"its layout {layout.name} ({layout.place}) has no field")
        word = self.call.fields[0][1]
        self.call.number = number_of(word.args[0]) if isinstance(word, App) and word.args else None
        if self.call.number is None:
            raise Faulty(f"its layout {layout.name} ({layout.place}) does not begin with a command")

    @staticmethod
    def field(reducer, term):
        record = reducer.record(term)
        if not isinstance(record, Rec):
            raise Faulty(f"a field of its layout, {text_of(term)}, is no word with a value")
        return record.fields["word"]

    def clause(self, definition):
        clauses = Reducer.clauses(definition)
        if len(clauses) != 1:
            raise Faulty(f"{definition.name} ({definition.place}) is not said by one clause")
        return clauses[0]

    # -- the steps before the row

    def read_steps(self):
        self.call.steps = [line for line in self.specs.steps if self.may_come(line)]
        if not any("UserNotAuth" in line.codes for line in self.specs.steps):
            raise Faulty(f"{self.specs.verdict.name} ({self.specs.verdict.place}) refuses no call without a user")

    def may_come(self, line):
        """Whether a step can be met by this call, whose block begins with its command."""
        text = text_of(line.condition[0])
        if text.startswith("block_of") or "is_command" in text:
            return False
        return "needs_user" not in text or self.call.number not in numbers_in(self.specs.without_user)

    # -- the row

    def read_row(self):
        row = self.call.row
        if not isinstance(row, Definition):
            raise Faulty("its row is no definition that row names")
        clause = self.clause(row)
        self.term, self.used = apply(Name(row.name, row), clause.patterns), names_in(clause.patterns) | {"w", "s"}
        lines = Lines()
        self.call.refusals = lines.of(self.refusal_tree())
        for line in self.call.refusals:
            self.name(*(item for item in [*line.condition, *(line.told or []), line.reply] if item and not isinstance(item, str)))
        for part, read in (("effect", self.read_effects), ("committed", self.read_commits)):
            read(self.part(part, EFFECTS if part == "effect" else COMMITS), lines.refused)

    def part(self, name, types):
        """The row's part of a name, for a world and a session."""
        reducer = Reducer(types, closed=KEEPERS, used=self.used, sums=self.specs.sums)
        row = reducer.record(self.term)
        while isinstance(row, Rec) and name not in row.fields and row.base is not None:
            row = reducer.record(row.base)
        if not isinstance(row, Rec) or name not in row.fields:
            raise Faulty(f"its row {self.call.row.name} ({self.call.row.place}) has no {name}")
        return reducer, App(row.fields[name], [Var("w"), Var("s")])

    def name(self, *terms):
        """Keeps which records the terms name."""
        for term in terms:
            aliases(term, self.call.named)

    def refusal_tree(self):
        reducer, term = self.part("refusals", REFUSALS)
        return self.tree(reducer, term)

    def tree(self, reducer, term):
        term = reducer.head(term)
        if isinstance(term, If):
            return choice(plain(reducer, term.condition), self.tree(reducer, term.yes), self.tree(reducer, term.no))
        if isinstance(term, Case):
            of, ways = plain(reducer, term.of), []
            for pattern, way in term.ways:
                with reducer.knowing(of, pattern):
                    ways.append((pattern, self.tree(reducer, way)))
            return Ways(of, ways)
        if isinstance(term, Bin) and term.mark == "∷":
            return self.first_refusal(reducer, term)
        apart = taken_apart(term)
        if apart is None or apart[0] != "[]":
            raise Faulty(f"its refusals come to {text_of(term)[:100]}, which is no list of conditions")
        return None

    def first_refusal(self, reducer, term):
        word = head_word(term.left)
        pair = reducer.head(term.left)
        if not isinstance(pair, Tup):
            raise Faulty(f"its refusal {text_of(term.left)[:100]} is no condition with what is told")
        condition, told = plain(reducer, pair.items[0]), refuse(reducer, pair.items[1])
        if text_of(condition) == "true":
            return told
        comment = word.comment if isinstance(word, Definition) else ""
        return choice(condition, told, self.tree(reducer, term.right), comment)

    def read_effects(self, found, refused):
        reducer, term = found
        for where, leaf in leaves(reducer, term, refused):
            if not isinstance(leaf, Rec) or set(leaf.fields) != {"world", "reply"}:
                raise Faulty(f"its effect comes to {text_of(leaf)[:100]}, which is no world with a reply")
            world, reply = (plain(reducer, reducer.deep(leaf.fields[name]), self.specs.sums) for name in ("world", "reply"))
            self.call.effects.append((where, world, reply))
            self.name(world, reply, *(of for of, _ in where))
        if not self.call.effects:
            raise Faulty("it has no effect")

    def read_commits(self, found, refused):
        reducer, term = found
        for where, leaf in leaves(reducer, term, refused):
            self.call.commits.append((where, None if text_of(leaf) == "None" else plain(reducer, leaf, self.specs.sums)))

    # -- the reply

    def read_reply(self):
        number, shapes = self.call.number, Reducer(set()).clauses(self.specs.shapes)[0].body
        row = next((item for item in listed(Reducer(set()), shapes) if text_of(item.items[0]) == str(number)), None)
        if row is None:
            raise Faulty(f"{self.specs.shapes.place}: no row of {self.specs.shapes.name} has its number {number}")
        self.call.shape = text_of(row.items[1])
        reducer = Reducer(REPLIES, used={ASKED})
        layouts = self.specs.by_call(self.specs.reply_layouts)
        if self.call.shape not in layouts:
            raise Faulty(f"{self.specs.reply_layouts.place}: {self.specs.reply_layouts.name} has no layout of {self.call.shape}")
        self.call.reply_layout = head_word(layouts[self.call.shape])
        self.reply_fields(reducer, apply(Name(self.specs.reply_layouts.name, self.specs.reply_layouts), [row.items[1], Var(ASKED)]), [])

    def reply_fields(self, reducer, term, where):
        term = reducer.head(term)
        if isinstance(term, If):
            for yes, way in ((True, term.yes), (False, term.no)):
                self.reply_fields(reducer, way, where + [(term.condition, Name("true" if yes else "false", None))])
            return
        if isinstance(term, Case):
            for pattern, way in term.ways:
                self.reply_fields(reducer, way, where + [(term.of, pattern)])
            return
        apart = taken_apart(term)
        if apart is None:
            self.call.reply.append((where, None, "", term))
            return
        name, args = apart
        if name == "Then":
            value = value_name(args[1])
            self.call.reply.append((where, plain(reducer, args[0]), value if value != "_" else "", None))
            self.reply_fields(reducer, apply(args[1], [Var(value)]), where)
        elif name in ("Remaining", "Params"):
            self.call.reply.append((where, apply(term.head, [plain(reducer, arg) for arg in args[:-1]]), "", None))
        elif name == "Never":
            self.call.reply.append((where, term, "", None))


def value_name(next_field):
    """What a field's value is called behind it."""
    if not isinstance(next_field, Lam):
        return "x"
    name, body = next_field.names[0], next_field.body
    inner = body.args[0] if isinstance(body, App) and isinstance(body.head, Lam) else None
    return body.head.names[0] if isinstance(inner, App) and Var(name) in inner.args else name


def names_in(patterns):
    return {pattern.name for pattern in patterns if isinstance(pattern, Var)}


def plain(reducer, term, sums=()):
    """A term without records that are taken apart at once, and with one clause of a definition over all calls."""
    return Reducer((), used=reducer.used, sums=sums).deep(term)


def whole(reducer, term):
    """A record with its own fields and those that it takes of another, in each way of that."""
    while isinstance(term, Rec) and term.base is not None:
        base = reducer.record(term.base)
        if isinstance(base, If):
            return If(base.condition, Rec(base.yes, term.fields), Rec(base.no, term.fields))
        if isinstance(base, Case):
            return Case(base.of, [(pattern, Rec(way, term.fields)) for pattern, way in base.ways])
        if not isinstance(base, Rec):
            return term
        term = Rec(base.base, {**base.fields, **term.fields})
    return term


def refuse(reducer, term):
    told = reducer.record(term)
    if not isinstance(told, Rec):
        raise Faulty(f"what it is refused with, {text_of(term)[:100]}, is no code with a reply")
    code = plain(reducer, told.fields["code"])
    reply = plain(reducer, told.fields["reply"])
    return Refuse(code, None if text_of(reply).split(".")[-1] == "Empty" else reply)


def listed(reducer, term):
    """The items of a list that is written out."""
    term = reducer.head(term)
    while isinstance(term, Bin) and term.mark == "∷":
        yield term.left
        term = reducer.head(term.right)


def number_of(term):
    """The number that a term is, or that a definition gives it."""
    if isinstance(term, Name) and isinstance(term.word, Definition):
        clauses = Reducer.clauses(term.word)
        term = clauses[0].body if len(clauses) == 1 else term
    return int(term.text, 0) if isinstance(term, Lit) and term.text[0].isdigit() else None


def numbers_in(definition):
    return {number_of(term) for term in listed(Reducer(set()), Reducer.clauses(definition)[0].body)}


def leaves(reducer, term, refused, where=()):
    """What a term comes to, by the ways that lead there; those that were refused are left out."""
    term = whole(reducer, reducer.record(term))
    if isinstance(term, If):
        condition = plain(reducer, term.condition)
        yield from leaves(reducer, term.yes, refused, (*where, (condition, None)))
        yield from leaves(reducer, term.no, refused, (*where, (apply(Name("not", None), [condition]), None)))
    elif isinstance(term, Case):
        of = plain(reducer, term.of)
        for pattern, way in term.ways:
            if (text_of(of), taken_apart(pattern)[0] if taken_apart(pattern) else "") not in refused:
                with reducer.knowing(of, pattern):
                    yield from leaves(reducer, way, refused, (*where, (of, pattern)))
    else:
        yield where, term
