"""The code: functions with the words that their contracts cite, the types that definitions take from it, and which function runs a call's row."""
import os
import re

from bookparts.specs import Declared, Definition

FUNCTION = re.compile(r"^( *)((?:pub(?:\([a-z]+\))? )?)(?:unsafe )?(?:const )?fn (\w+)", re.M)
GHOST = re.compile(r"^ *(?:pub )?ghost use ([^;]+);", re.M)
CLAUSE = re.compile(r"^ *(requires|ensures)\b", re.M)
CITED = re.compile(r"[A-Za-z_][\w'.]*")
ARM = re.compile(r"Call::(\w+)\s*(?:\{[^{}]*\})?\s*=>")


class Function:
    def __init__(self, source, name, public, line, requires, ensures, body):
        self.source, self.name, self.public, self.line = source, name, public, line
        self.requires, self.ensures, self.body = requires, ensures, body

    @property
    def path(self):
        return self.source.path

    @property
    def crate(self):
        return self.path.split("/")[1]


class Source:
    """One file of code: what its contracts may cite, and its functions."""

    def __init__(self, library, path, text):
        self.library, self.path, self.text = library, path, text
        self.imports, self.aliases = {}, {}
        for match in GHOST.finditer(text):
            self.read_import(" ".join(match[1].split()))

    def read_import(self, text):
        match = re.match(r"([\w.]+)\.\{(.*)\}$", text)
        if match:
            for part in match[2].split(","):
                name, _, alias = part.strip().partition(" as ")
                if name:
                    self.imports[alias or name] = (match[1], name)
            return
        module, _, alias = text.partition(" as ")
        if alias:
            self.aliases[alias] = module

    def functions(self):
        starts = list(FUNCTION.finditer(self.text))
        for at, match in enumerate(starts):
            end = starts[at + 1].start() if at + 1 < len(starts) else len(self.text)
            text = self.text[match.start():end]
            body = re.search(rf"^{match[1]}\{{|\{{$", text, re.M)
            head = text[:body.start()] if body else text
            clauses = [(clause.start(), clause[1]) for clause in CLAUSE.finditer(head)]
            parts = {"requires": "", "ensures": ""}
            for (start, kind), (stop, _) in zip(clauses, clauses[1:] + [(len(head), "")]):
                parts[kind] += head[start:stop]
            line = self.text.count("\n", 0, match.start()) + 1
            yield Function(self, match[3], match[2], line, parts["requires"], parts["ensures"], text[len(head):])

    def cited(self, clauses):
        """The words that clauses cite, each once, in order."""
        found = {}
        for token in CITED.findall(clauses):
            name, _, behind = token.partition(".")
            if name in self.imports:
                word = self.library.word(*self.imports[name])
            elif name in self.aliases and behind:
                word = self.library.word(self.aliases[name], behind.split(".")[0])
            else:
                continue
            found.setdefault(id(word), word)
        return list(found.values())


class Code:
    """The functions of all crates, and which of them speak of a definition."""

    def __init__(self, library):
        self.library, self.functions, self.of_definition = library, [], {}
        for crate in library.crates:
            self.read_crate(crate)

    def read_crate(self, crate):
        for at, folders, names in os.walk(os.path.join(self.library.top, "crates", crate, "src")):
            folders.sort()
            for name in sorted(names):
                if name.endswith(".rt"):
                    path = os.path.join(at, name)
                    with open(path, encoding="utf-8") as file:
                        text = file.read()
                    self.take(Source(self.library, os.path.relpath(path, self.library.top).replace(os.sep, "/"), text))

    def take(self, source):
        if not source.imports and not source.aliases:
            return
        for function in source.functions():
            if not function.requires and not function.ensures:
                continue
            self.functions.append(function)
            for word in source.cited(function.ensures):
                if isinstance(word, Definition):
                    self.of_definition.setdefault(word.key, []).append(function)

    def promising(self, definition, public=True):
        """The functions whose contracts promise something by a definition."""
        found = self.of_definition.get(definition.key, [])
        return [function for function in found if function.public.strip() == "pub"] if public else found


class Paths:
    """From each call to its code: its reader, its writer, what runs its row, and what else its own definitions are promised by."""

    def __init__(self, code, calls, running, gives, puts):
        self.code, self.running = code, running
        self.readers = {call.name: self.found(call.reader, gives) for call in calls}
        self.writers = {call.name: self.found(call.layout, puts) for call in calls}
        self.rows = self.row_functions({call.name for call in calls})

    def found(self, definition, beside):
        """The first function whose contract says a definition by another one of this name."""
        for function in self.code.of_definition.get(definition.key, []) if definition else []:
            if any(isinstance(word, Definition) and word.name == beside for word in function.source.cited(function.ensures)):
                return function
        return None

    def row_functions(self, names):
        running = self.code.of_definition.get(self.running.key, [])
        found, by_name = {}, {}
        for function in running:
            by_name.setdefault(function.name, function)
            call = self.named(function)
            if call:
                found.setdefault(call, function)
        for function in running:
            for call, other in self.arms(function, by_name):
                if call in names:
                    found.setdefault(call, other)
        return found

    @staticmethod
    def named(function):
        """The one call that a contract names, itself or by what it requires."""
        calls = {word.variant for word in function.source.cited(function.ensures) if is_call(word)}
        calls |= set(re.findall(r"\bCall\.(\w+)", function.ensures))
        if not calls:
            for word in function.source.cited(function.requires):
                if isinstance(word, Definition):
                    calls |= {inner.variant for inner in word.cited if is_call(inner)}
        return calls.pop() if len(calls) == 1 else None

    @staticmethod
    def arms(function, by_name):
        """Of a match over calls, which function each of them is handed to."""
        arms = list(ARM.finditer(function.body))
        for at, match in enumerate(arms):
            end = arms[at + 1].start() if at + 1 < len(arms) else len(function.body)
            for callee in re.findall(r"(\w+)\(", function.body[match.end():end]):
                if callee in by_name:
                    yield match[1], by_name[callee]
                    break


def is_call(word):
    return isinstance(word, Declared) and word.name == "Call" and word.variant is not None


def declared_text(library, declared):
    """Where a type is declared: path, line, comment and text; or `None`."""
    root = os.path.join("crates", declared.crate, "src")
    inner = declared.module.replace(".", "/")
    names = [f"{inner}.rt", f"{inner}/mod.rt", "lib.rt", "main.rt"] if inner else ["lib.rt", "main.rt"]
    for name in names:
        path = os.path.join(root, name)
        full = os.path.join(library.top, path)
        if not os.path.exists(full):
            continue
        with open(full, encoding="utf-8") as file:
            lines = file.read().split("\n")
        for at, line in enumerate(lines):
            if re.match(rf"(?:pub(?:\([a-z]+\))? )?(?:enum|struct|trait) {re.escape(declared.name)}\b", line):
                return path.replace(os.sep, "/"), at + 1, *declaration(lines, at)
    return None


def declaration(lines, at):
    """The comment and the text of a declaration that begins on a line."""
    first = at
    while first and re.match(r"(///|#\[)", lines[first - 1]):
        first -= 1
    comment = " ".join(line[3:].strip() for line in lines[first:at] if line.startswith("///"))
    end = at
    if not re.search(r"[;}]\s*$", lines[at]):
        while end + 1 < len(lines) and not lines[end].startswith("}"):
            end += 1
    return comment, "\n".join(lines[at:end + 1])
