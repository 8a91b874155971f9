"""Terms are reduced as far as a question asks for it: definitions whose result is of the asked types are opened, and what is not known
parts the answer into cases."""
import contextlib

from bookparts.specs import Constructor, Declared, Definition
from bookparts.terms import Alias, App, Bin, Case, If, Lam, Let, Lit, Name, Proj, Rec, Tup, Var, clauses_of, is_constructor, text_of

ALWAYS = {"Option A", "List A", "A", "B"}
SECOND_FIRST = {"refused_else"}
ALL_WAYS = ({"None", "Some"}, {"Ok", "Err"}, {"true", "false"}, {"zero", "suc"}, {"[]", "∷"})
MOST_STEPS = 20000


class TooLong(Exception):
    """A term takes too many steps."""


def apply(head, args):
    if not args:
        return head
    return App(head.head, head.args + list(args)) if isinstance(head, App) else App(head, args)


def free(term):
    """The names of the variables of a term that it does not bind."""
    if isinstance(term, Var):
        return {term.name}
    if isinstance(term, Alias):
        return free(term.value)
    if isinstance(term, Lam):
        return free(term.body) - set(term.names)
    if isinstance(term, Let):
        return free(term.value) | (free(term.body) - {term.name})
    if isinstance(term, Case):
        return free(term.of).union(*(free(way) - free(pattern) for pattern, way in term.ways))
    return set().union(*(free(part) for part in parts(term)))


def parts(term):
    if isinstance(term, App):
        return [term.head, *term.args]
    if isinstance(term, If):
        return [term.condition, term.yes, term.no]
    if isinstance(term, Rec):
        return ([term.base] if term.base is not None else []) + list(term.fields.values())
    if isinstance(term, Proj):
        return [term.of]
    if isinstance(term, Bin):
        return [term.left, term.right]
    if isinstance(term, Tup):
        return term.items
    return []


def rebuilt(term, change):
    """A term that binds nothing itself, with its parts changed."""
    if isinstance(term, App):
        return apply(change(term.head), [change(arg) for arg in term.args])
    if isinstance(term, If):
        return If(change(term.condition), change(term.yes), change(term.no))
    if isinstance(term, Rec):
        return Rec(None if term.base is None else change(term.base), {name: change(value) for name, value in term.fields.items()})
    if isinstance(term, Proj):
        return Proj(change(term.of), term.field)
    if isinstance(term, Bin):
        return Bin(term.mark, change(term.left), change(term.right))
    if isinstance(term, Tup):
        return Tup(change(item) for item in term.items)
    if isinstance(term, Alias):
        return Alias(term.name, change(term.value))
    return term


def replaced(term, values):
    """A term with terms in place of variables. What it binds is renamed where it would catch one of theirs."""
    if not values:
        return term
    if isinstance(term, Var):
        return values.get(term.name, term)
    if isinstance(term, Lam):
        names, body = unbound(term.names, term.body, values)
        return Lam(names, replaced(body, {name: value for name, value in values.items() if name not in names}))
    if isinstance(term, Let):
        names, body = unbound([term.name], term.body, values)
        return Let(names[0], replaced(term.value, values), replaced(body, {name: value for name, value in values.items() if name not in names}))
    if isinstance(term, Case):
        return Case(replaced(term.of, values), [(pattern, replaced(way, {name: value for name, value in values.items() if name not in free(pattern)}))
                                                for pattern, way in term.ways])
    return rebuilt(term, lambda part: replaced(part, values))


def unbound(names, body, values):
    caught = set().union(*(free(value) for value in values.values())) & set(names)
    if not caught:
        return names, body
    new = [fresh(name, caught | free(body)) if name in caught else name for name in names]
    return new, replaced(body, {name: Var(other) for name, other in zip(names, new) if name != other})


def fresh(name, used):
    if name not in used:
        return name
    number = 2
    while f"{name}{number}" in used:
        number += 1
    return f"{name}{number}"


class Stuck(Exception):
    """A clause asks for more of an argument than is known."""

    def __init__(self, place):
        super().__init__(place)
        self.place = place


class Reducer:
    """Opens definitions whose result is one of `types`, but for those named in `closed`; and those in `sums`, where it is known which of their
    clauses holds."""

    def __init__(self, types, closed=(), used=(), sums=()):
        self.types, self.closed, self.used, self.sums = set(types) | (ALWAYS if types else set()), set(closed), set(used), set(sums)
        self.steps, self.known = 0, {}

    def head(self, term):
        """The term, reduced up to what it begins with: a constructor, a record, a list, a choice or a case, or what cannot be opened."""
        while True:
            self.steps += 1
            if self.steps > MOST_STEPS:
                raise TooLong
            new = self.step(term)
            if new is None:
                return term
            term = new

    def record(self, term):
        """The same, and a record itself where it goes by a name."""
        term = self.head(term)
        return term.value if isinstance(term, Alias) else term

    def step(self, term):
        if isinstance(term, Let):
            return replaced(term.body, {term.name: term.value})
        if isinstance(term, If):
            condition = self.head(term.condition) if isinstance(term.condition, (App, Name)) else term.condition
            if isinstance(condition, Name) and condition.text in ("true", "false"):
                return term.yes if condition.text == "true" else term.no
            return None
        if isinstance(term, Proj):
            return self.projected(term)
        if isinstance(term, Name):
            return self.opened_name(term, [])
        if not isinstance(term, App):
            return None
        if isinstance(term.head, App):
            return apply(term.head.head, term.head.args + term.args)
        if isinstance(term.head, Lam):
            return self.beta(term.head, term.args)
        if isinstance(term.head, Name):
            return self.opened_name(term.head, term.args)
        head = self.step(term.head)
        return None if head is None else apply(head, term.args)

    @staticmethod
    def beta(lam, args):
        count = min(len(lam.names), len(args))
        body = lam.body if count == len(lam.names) else Lam(lam.names[count:], lam.body)
        return apply(replaced(body, dict(zip(lam.names[:count], args))), args[count:])

    def projected(self, term):
        of = self.head_of_record(term.of)
        if isinstance(of, If):
            return If(of.condition, Proj(of.yes, term.field), Proj(of.no, term.field))
        if isinstance(of, Case):
            return Case(of.of, [(pattern, Proj(way, term.field)) for pattern, way in of.ways])
        if isinstance(of, Rec):
            if term.field in of.fields:
                return of.fields[term.field]
            return Proj(of.base, term.field) if of.base is not None else None
        if isinstance(of, Tup) and term.field in ("0", "1"):
            return of.items[int(term.field)]
        return None

    def head_of_record(self, term):
        """The record that a term is, where a definition of one clause says it."""
        term = self.head(term)
        if isinstance(term, Alias):
            return term.value
        head, args = (term.head, term.args) if isinstance(term, App) else (term, [])
        if isinstance(head, Name) and isinstance(head.word, Definition) and head.word.name not in self.closed:
            clauses = self.clauses(head.word)
            if len(clauses) == 1 and isinstance(clauses[0].body, Rec) and len(clauses[0].patterns) == len(args):
                return self.head(self.matched(head.word, args) or term)
        return term

    @staticmethod
    def clauses(definition):
        if not hasattr(definition, "clauses"):
            definition.clauses = clauses_of(definition)
        return definition.clauses

    def opened_name(self, name, args):
        word = name.word
        if not isinstance(word, Definition) or word.name in self.closed:
            return None
        if word.result not in self.types and word.key not in self.sums:
            return None
        clauses = self.clauses(word)
        if not clauses or len(args) < len(clauses[0].patterns):
            return None
        count = len(clauses[0].patterns)
        new = self.matched(word, args[:count])
        return None if new is None else apply(new, args[count:])

    def matched(self, word, args):
        """The body of the first clause that the arguments match, or the cases of one that is not known; `None` where neither can be told."""
        if word.name in SECOND_FIRST:
            pushed = self.pushed(word, args, 1)
            if pushed is not None:
                return pushed
        try:
            for clause in self.clauses(word):
                values = {}
                if all(self.matches(pattern, args, place, values) for place, pattern in enumerate(clause.patterns)):
                    return replaced(clause.body, values)
        except Stuck as stuck:
            return self.cases(word, args, stuck.place) if word.result in self.types else None
        return None

    def matches(self, pattern, args, place, values):
        if isinstance(pattern, Var):
            values[pattern.name] = aliased(pattern.name, args[place])
            return True
        args[place] = self.head(args[place])
        return self.fits(pattern, args[place], values, place)

    def fits(self, pattern, term, values, place):
        if isinstance(pattern, Var):
            values[pattern.name] = term
            return True
        if isinstance(pattern, Tup):
            if not isinstance(term, Tup):
                raise Stuck(place)
            return all(self.fits(inner, part, values, place) for inner, part in zip(pattern.items, term.items))
        made, wanted = taken_apart(term), taken_apart(pattern)
        if made is None:
            raise Stuck(place)
        if made[0] != wanted[0]:
            return False
        return all(self.fits(inner, self.head(part) if not isinstance(inner, Var) else part, values, place) for inner, part in zip(wanted[1], made[1]))

    @contextlib.contextmanager
    def knowing(self, of, pattern):
        """While it is known what a term is, and the pattern's names are taken."""
        text, used = text_of(of), self.used
        before, self.known[text] = self.known.get(text), pattern
        self.used = used | free(pattern)
        yield
        self.known[text], self.used = before, used

    def pushed(self, word, args, place):
        """The definition in each way of an argument that is a choice or a case."""
        of = args[place] = self.head(args[place])

        def of_way(way):
            return apply(Name(word.name, word), args[:place] + [way] + args[place + 1:])
        if isinstance(of, If):
            return If(of.condition, of_way(of.yes), of_way(of.no))
        if isinstance(of, Case):
            return Case(of.of, [(pattern, of_way(way)) for pattern, way in of.ways])
        return None

    def cases(self, word, args, place):
        pushed = self.pushed(word, args, place)
        if pushed is not None or word in word.cited or taken_apart(args[place]) is not None:
            return pushed
        known = self.known.get(text_of(Reducer(()).deep(args[place]))) if self.known else None
        if known is not None:
            return apply(Name(word.name, word), args[:place] + [known] + args[place + 1:])
        ways = self.ways(word, args, place)
        if len(ways) == 2 and {text_of_head(pattern) for pattern, _ in ways} == {"true", "false"}:
            yes, no = sorted(ways, key=lambda way: text_of_head(way[0]) != "true")
            return If(args[place], yes[1], no[1])
        return Case(args[place], ways) if ways else None

    def ways(self, word, args, place):
        """What the argument at a place may be, by the clauses of a definition, each with what comes of it."""
        ways, seen = [], set()
        for clause in self.clauses(word):
            pattern = clause.patterns[place]
            if not self.may_match(clause, args, place):
                continue
            if isinstance(pattern, Var):
                if not self.are_all(seen):
                    values = {inner.name: arg for inner, arg in zip(clause.patterns, args) if isinstance(inner, Var)}
                    if all(isinstance(inner, Var) for inner in clause.patterns):
                        ways.append((Lit("else"), replaced(clause.body, values)))
                break
            name, inner = taken_apart(pattern)
            if name not in seen:
                seen.add(name)
                made = self.made(pattern, [self.called(part, clause, args) for part in inner])
                ways.append((made, apply(Name(word.name, word), args[:place] + [made] + args[place + 1:])))
        return ways

    def may_match(self, clause, args, place):
        """Whether the arguments before a place match a clause."""
        try:
            return all(self.matches(pattern, args, at, {}) for at, pattern in enumerate(clause.patterns[:place]))
        except Stuck:
            return False

    @staticmethod
    def called(part, clause, args):
        """The name of a part of a constructor: what the function that it is handed to calls it, or else the clause."""
        if not isinstance(part, Var) or part.name == "_":
            return "x"
        body = clause.body
        if isinstance(body, App) and isinstance(body.head, Var) and part in body.args:
            for pattern, arg in zip(clause.patterns, args):
                if pattern == body.head and isinstance(arg, Lam) and body.args.index(part) < len(arg.names):
                    return arg.names[body.args.index(part)]
        return part.name

    @staticmethod
    def are_all(seen):
        return any(ways <= seen for ways in ALL_WAYS)

    def made(self, pattern, inner):
        """A constructor over new variables, named as in a pattern."""
        names = []
        for part in inner:
            names.append(fresh(part, self.used | set(names)))
        if isinstance(pattern, Bin):
            return Bin("∷", Var(names[0]), Var(names[1]))
        head = pattern.head if isinstance(pattern, App) else pattern
        return apply(head, [Var(name) for name in names])

    def deep(self, term):
        """The term with definitions of these types opened everywhere in it."""
        term = self.head(term)
        if isinstance(term, Lam):
            return Lam(term.names, self.deep(term.body))
        if isinstance(term, Case):
            return Case(self.deep(term.of), [(pattern, self.deep(way)) for pattern, way in term.ways])
        return rebuilt(term, self.deep)


def aliased(name, term):
    """A record that is written out goes by the name that a definition has for it."""
    return Alias(name, term) if isinstance(term, Rec) and term.base is None and len(term.fields) > 1 else term


def aliases(term, found=None):
    """The records in a term that go by a name."""
    found = {} if found is None else found
    if isinstance(term, Alias):
        found.setdefault(term.name, term.value)
    for part in [term.body] if isinstance(term, Lam) else parts(term):
        aliases(part, found)
    return found


def taken_apart(term):
    """The name of the constructor that a term begins with, and what it is over; or `None`."""
    if isinstance(term, Bin) and term.mark == "∷":
        return "∷", [term.left, term.right]
    head, args = (term.head, term.args) if isinstance(term, App) else (term, [])
    if isinstance(head, Lit):
        return head.text, args
    if is_constructor(head):
        word = head.word
        name = word.name if isinstance(word, Constructor) else (word.variant if isinstance(word, Declared) else word.name)
        return name, args
    return None


def text_of_head(term):
    apart = taken_apart(term)
    return apart[0] if apart else ""
