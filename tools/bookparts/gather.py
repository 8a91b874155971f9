"""Gathers all that the book is made of, and says on which page each definition stands."""
import re

from bookparts import plan
from bookparts.calls import SUM_TYPES, read_calls
from bookparts.code import Code, Paths, declared_text
from bookparts.evidence import Captures, Promises, summaries
from bookparts.reduce import Reducer, taken_apart
from bookparts.specs import Constructor, Declared, Definition, Kit, Library
from bookparts.terms import shown


def definition_of(word):
    """The definition that a word is, or that it is a constructor of."""
    if isinstance(word, Constructor):
        return word.of
    return word if isinstance(word, Definition) else None


class Closure:
    """What definitions are made of. Of one that says something of each call of the tree or of a volume, only what it says of the calls that
    are made is looked at."""

    def __init__(self, sums):
        self.sums = sums

    def of(self, roots):
        """The definitions in the order in which a reader meets them, behind those that cite them."""
        return self.walk(roots, self.made(roots))

    def made(self, roots):
        """The constructors by which the roots name a call of the tree or of a volume."""
        return {word.name for definition in self.walk(roots, set()) if definition.key not in self.sums
                for word in definition.cited if isinstance(word, Constructor) and word.of.name in SUM_TYPES}

    def walk(self, roots, made):
        order, seen, open_ = [], set(), list(reversed(roots))
        while open_:
            definition = open_.pop()
            if definition.key in seen:
                continue
            seen.add(definition.key)
            order.append(definition)
            open_ += reversed([found for found in map(definition_of, self.words(definition, made)) if found])
        return order

    def words(self, definition, made):
        clauses = Reducer.clauses(definition) if definition.key in self.sums else []
        if not clauses:
            return definition.cited
        words = []
        for clause in clauses:
            named = {apart[0] for apart in map(taken_apart, clause.patterns) if apart}
            if named & made:
                words += [word for _, word in shown(clause.body) if word is not None]
        return words


class Gathered:
    """All that the book is made of."""

    def __init__(self, top):
        self.top, self.library = top, Library(top)
        self.calls, self.without_group, self.specs = read_calls(self.library)
        self.code = Code(self.library)
        self.paths = Paths(self.code, self.calls, self.specs.definition(*plan.RUNS_ROW), plan.GIVES, plan.PUTS)
        self.captures, self.promises, self.summaries = Captures(top), Promises(top), summaries(top)
        self.closure = Closure(self.specs.sums)
        self.home, self.printed, self.missing_files = {}, {}, []
        self.own, self.arms, self.declared = {}, {}, {}
        self.settle()

    @property
    def chapters(self):
        return plan.FRONT + plan.RECORDS + plan.LAWS

    def settle(self):
        """Says of each definition on which page it stands."""
        in_chapters = []
        for name, _, _, files in self.chapters:
            for file in self.files(files):
                for definition in file.definitions.values():
                    in_chapters.append(definition)
                    self.put(definition, name)
        self.settle_calls()
        roots = in_chapters + [definition for call in self.calls for definition in self.roots(call)]
        for definition in Closure(set()).of(roots):
            self.put(definition, f"words-{definition.crate}")
        self.find_declared()

    def files(self, names):
        for crate, module in names:
            file = self.library.files.get((crate, module))
            if file is None:
                if (crate, module) not in self.missing_files:
                    self.missing_files.append((crate, module))
            else:
                yield file

    def put(self, definition, page):
        self.home.setdefault(definition.key, page)
        if self.home[definition.key] == page:
            self.printed.setdefault(page, {})[definition.key] = definition

    @staticmethod
    def roots(call):
        return [definition for definition in (call.layout, call.reader, call.row, call.reply_layout) if isinstance(definition, Definition)]

    def settle_calls(self):
        used = {call.name: self.closure.of(self.roots(call)) for call in self.calls}
        users = {}
        for call in self.calls:
            for definition in used[call.name]:
                users.setdefault(definition.key, []).append(call)
        chapters = set(self.home)
        for call in self.calls:
            own = [one for one in used[call.name] if one.key not in chapters and is_own(users[one.key])]
            self.own[call.name], self.arms[call.name] = own, [one for one in used[call.name] if one.key in self.specs.sums]
            for definition in own:
                self.home.setdefault(definition.key, call.title)
                self.printed.setdefault(call.title, {})[definition.key] = definition

    def find_declared(self):
        """The types of the code that the definitions of the book take."""
        for definitions in list(self.printed.values()):
            for definition in list(definitions.values()):
                for word in definition.cited:
                    if isinstance(word, Declared) and word.key not in self.declared:
                        self.declared[word.key] = declared_text(self.library, word)

    def anchor(self, word):
        if isinstance(word, Declared):
            return declared_anchor(word.key)
        if isinstance(word, Kit):
            return clean(word.name)
        definition = definition_of(word)
        return clean(".".join(definition.key)) if definition else ""

    def place(self, word, page):
        """The page and the anchor where a word stands, seen from a page; or `None`."""
        if isinstance(word, Declared):
            return "types", self.anchor(word)
        if isinstance(word, Kit):
            return ("kit", self.anchor(word)) if re.match(r"\w", word.name) else None
        definition = definition_of(word)
        if definition is None or definition.key not in self.home:
            return None
        here = definition.key in self.printed.get(page, {})
        return (page if here else self.home[definition.key]), self.anchor(definition)

    def functions(self, definition):
        return self.code.promising(definition)

    def kit_words(self):
        """The words of the kit that the definitions of the book cite, by name."""
        found = {}
        for definitions in self.printed.values():
            for definition in definitions.values():
                for word in definition.cited:
                    if isinstance(word, Kit) and re.match(r"\w", word.name):
                        found.setdefault(word.name, word)
        return [found[name] for name in sorted(found, key=str.lower)]


def is_own(calls):
    """Whether a word that these calls use stands on their pages: they are few, or of one family, whose rows stand in one file."""
    return len(calls) < plan.SHARED_FROM or len({call.row and call.row.path for call in calls}) == 1


def declared_anchor(key):
    return clean(".".join(part for part in key if part))


def clean(text):
    """A text as an anchor."""
    return re.sub(r"[^\w.-]", "_", text)
