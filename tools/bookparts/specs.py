"""The definitions of crates/*/specs: files, definitions with their comments and places, and what each word of a text stands for."""
import functools
import os
import re

DEFINITION = re.compile(r"((?:(?:abbrev|unfoldable|pub|record|data) )+)(?!mod |use )([^\s:(){}]+)")
IMPORT = re.compile(r"(pub )?use ([\w.]+)\.\{(.*)\}$")
ALIAS = re.compile(r"(pub )?use ([\w.]+) as (\w+)$")
TOKEN = re.compile(r'--.*|"(?:[^"\\]|\\.)*"|λ|[(){}\[\];,]|[^\s(){}\[\];,"λ]+')
WORD = re.compile(r"[A-Za-z_][\w?'-]*$|_$")
KIT_CONSTRUCTORS = {"zero", "suc", "pos", "negsuc", "true", "false", "tt", "less", "equal", "greater", "refl", "none", "some", "inl", "inr", "base"}
LANGUAGE = {"Type", "Unit", "tt", "record", "where", "let", "in", "if", "then", "else", "data", "pub", "abbrev", "unfoldable", "_", "unfolding"}


class Kit:
    """A word of the kit's libraries."""

    def __init__(self, module, name):
        self.module, self.name = module, name


class Declared:
    """A type that the code of a crate declares, or a variant of it."""

    def __init__(self, crate, module, name, variant):
        self.crate, self.module, self.name, self.variant = crate, module, name, variant

    @property
    def key(self):
        return self.crate, self.module, self.name


class Constructor:
    """A constructor of a `data` definition."""

    def __init__(self, of, name):
        self.of, self.name = of, name


class Missing:
    """A word that an import names and no file has."""

    def __init__(self, module, name):
        self.module, self.name = module, name


class Definition:
    """A definition. `unbound` are the names in it that stand for nothing, known once its pieces are read."""

    def __init__(self, file, kind, name, text, line, comment):
        self.file, self.kind, self.name, self.text, self.line, self.comment = file, kind, name, text, line, comment

    @property
    def crate(self):
        return self.file.crate

    @property
    def key(self):
        return self.file.crate, self.file.module, self.name

    @property
    def path(self):
        return self.file.path

    @property
    def place(self):
        return f"{self.path}:{self.line}"

    @functools.cached_property
    def said(self):
        """What is said of it: its comment, or, where it has none, the nearest one above in its file, with the name that it stands under, or none."""
        above, items = "", self.file.items
        if self.comment:
            return "", self.comment
        for item in reversed(items[:items.index(self)]):
            text = item if isinstance(item, str) else item.comment
            if text:
                above = "" if isinstance(item, str) else item.name
                return above, text
        return "", self.file.comment

    @property
    def is_lemma(self):
        return ".lemma." in f".{self.file.module}."

    @functools.cached_property
    def signature(self):
        """The text of its type, on one line."""
        lines = self.text.split("\n")
        end = next((at for at, line in enumerate(lines) if at and not line.startswith(" ")), len(lines))
        return " ".join(line.strip() for line in lines[:end]).partition(" : ")[2]

    @functools.cached_property
    def result(self):
        """The text of the type behind the last arrow."""
        return split_top(self.signature, "→")[-1].strip()

    @functools.cached_property
    def constructors(self):
        return re.findall(r"^  (\S+) :", self.text, re.M) if self.kind == "data" else []

    @property
    def fields(self):
        return re.findall(r"^  pub (\S+) :", self.text, re.M) if self.kind == "record" else []

    @functools.cached_property
    def pieces(self):
        """Its text in pieces, each with the word that it cites, or none; joined they are the text."""
        reading = Pieces(self)
        pieces = list(reading.read())
        self.unbound = list(dict.fromkeys(reading.unbound))
        return pieces

    @property
    def lines(self):
        """Its lines, each in pieces."""
        lines = [[]]
        for piece, word in self.pieces:
            for at, part in enumerate(piece.split("\n")):
                if at:
                    lines.append([])
                if part:
                    lines[-1].append((part, word))
        return lines

    @functools.cached_property
    def cited(self):
        """The words that it cites, in order, each once."""
        found = {}
        for _, word in self.pieces:
            if word is not None:
                found.setdefault(id(word), word)
        return list(found.values())


def split_top(text, mark):
    """The parts of a text between marks that stand in no brackets."""
    parts, depth, at = [""], 0, 0
    for char in text:
        depth += (char in "({[") - (char in ")}]")
        if char == mark and depth == 0:
            parts.append("")
        else:
            parts[-1] += char
    return parts


class SpecFile:
    """One file of definitions: its first comment, its imports, and its definitions and the comments between them, in order."""

    def __init__(self, library, crate, module, path, text):
        self.library, self.crate, self.module, self.path = library, crate, module, path
        self.lines = text.split("\n")
        self.imports, self.aliases, self.shown, self.definitions = {}, {}, {}, {}
        self.items, self.comment, self.words = [], "", {}
        self.read()

    def read(self):
        starts = [at for at, line in enumerate(self.lines) if DEFINITION.match(line)]
        head = self.above(starts[0] if starts else len(self.lines))
        if self.lines[0].startswith("--"):
            end = next((at for at, line in enumerate(self.lines) if not line.startswith("--")), len(self.lines))
            self.comment = plain_comment(self.lines[:end])
            head = max(head, end)
        for line in self.lines[:starts[0] if starts else len(self.lines)]:
            self.read_import(line)
        self.sections(starts[0] if starts else len(self.lines), after=head_end(self.lines))
        for at, start in enumerate(starts):
            end = starts[at + 1] if at + 1 < len(starts) else len(self.lines)
            self.take(start, end)

    def above(self, start):
        """The first line of the comment that stands on the line `start`."""
        while start and self.lines[start - 1].startswith("--"):
            start -= 1
        return start

    def take(self, start, end):
        body = end
        while body > start and (not self.lines[body - 1].strip() or self.lines[body - 1].startswith("--")):
            body -= 1
        first = self.above(start)
        comment = "" if first == 0 else plain_comment(self.lines[first:start])
        match = DEFINITION.match(self.lines[start])
        kind = next((word for word in ("record", "data", "unfoldable", "abbrev") if word in match[1].split()), "pub")
        definition = Definition(self, kind, match[2], "\n".join(self.lines[start:body]), start + 1, comment)
        self.definitions[match[2]] = definition
        self.items.append(definition)
        self.sections(end, after=body)

    def sections(self, end, after):
        """Keeps the comments between two definitions that belong to neither."""
        stop = self.above(end) if end < len(self.lines) else end
        block = []
        for line in self.lines[after:stop] + [""]:
            if line.startswith("--"):
                block.append(line)
            elif block:
                self.items.append(plain_comment(block))
                block = []

    def read_import(self, line):
        match = IMPORT.match(line)
        if match:
            for part in match[3].split(","):
                name, _, alias = part.strip().partition(" as ")
                if name:
                    self.imports[alias or name] = (match[2], name)
                    if match[1]:
                        self.shown[alias or name] = (match[2], name)
            return
        match = ALIAS.match(line)
        if match:
            self.aliases[match[3]] = match[2]

    def word(self, name, behind=None):
        """What a name stands for in this file, and `behind` that follows it behind a dot; `None` where it is a name of the file's own text alone."""
        key = (name, behind)
        if key not in self.words:
            self.words[key] = self.find(name, behind)
        return self.words[key]

    def find(self, name, behind):
        if name in self.definitions:
            return self.definitions[name]
        if name in self.imports:
            return self.library.word(*self.imports[name])
        for definition in self.definitions.values():
            if name in definition.constructors:
                return Constructor(definition, name)
        if name in self.aliases and behind is not None:
            return self.library.word(self.aliases[name], behind)
        return None


def head_end(lines):
    """The line behind the first comment and the imports."""
    end = 0
    while end < len(lines) and lines[end].startswith("--"):
        end += 1
    return end


def plain_comment(lines):
    return " ".join(line.lstrip("-").strip() for line in lines).strip(" -")


class Library:
    """All files of definitions of a repository."""

    def __init__(self, top):
        self.top = top
        self.crates = sorted(name for name in os.listdir(os.path.join(top, "crates")) if os.path.isdir(os.path.join(top, "crates", name)))
        self.files, self.declared, self.kit = {}, {}, {}
        for crate in self.crates:
            self.read_crate(crate)

    def read_crate(self, crate):
        root = os.path.join(self.top, "crates", crate, "specs")
        for at, folders, names in os.walk(root):
            folders.sort()
            for name in sorted(names):
                if name.endswith(".antt"):
                    path = os.path.join(at, name)
                    module = os.path.relpath(path, root)[:-5].replace(os.sep, ".")
                    with open(path, encoding="utf-8") as file:
                        text = file.read()
                    self.files[crate, module] = SpecFile(self, crate, module, os.path.relpath(path, self.top).replace(os.sep, "/"), text)

    def definitions(self):
        for file in self.files.values():
            yield from file.definitions.values()

    def word(self, module, name):
        """The word of a module of any crate."""
        match = re.match(r"Rattle\.(\w+)\.specs\.(.*)", module)
        if not match or match[1] not in self.crates:
            return self.kit.setdefault((module, name), Kit(module, name))
        crate, inner = match[1], match[2]
        if inner.startswith("declared."):
            return self.declared_word(crate, inner.split(".")[1:], name)
        file = self.files.get((crate, inner))
        if file is None:
            return Missing(module, name)
        if name in file.definitions:
            return file.definitions[name]
        for definition in file.definitions.values():
            if name in definition.constructors:
                return Constructor(definition, name)
        if name in file.shown:
            return self.word(*file.shown[name])
        return Missing(module, name)

    def declared_word(self, crate, parts, name):
        """`declared.a.b.Type.{Type}`, or `declared.a.b.Type.TheVariants.{Variant}`."""
        variant = None
        if parts[-1] == "TheVariants":
            parts, variant = parts[:-1], name
        key = (crate, ".".join(parts[:-1]), parts[-1], variant)
        return self.declared.setdefault(key, Declared(*key))


class Pieces:
    """Reads a definition's text piece by piece, and knows which names are bound by it."""

    def __init__(self, definition):
        self.file, self.definition, self.text = definition.file, definition, definition.text
        self.fields, self.unbound = set(), []

    def read(self):
        for start, end, kind in self.segments():
            yield from self.segment(self.text[start:end], kind)

    def segments(self):
        """The signature, each clause, field and constructor: start, end and kind."""
        starts, at = [], 0
        inner = self.definition.kind in ("record", "data")
        for line in self.text.split("\n"):
            if at == 0:
                starts.append((at, "head"))
            elif inner and re.match(r"  \S", line):
                starts.append((at, "field"))
            elif not inner and re.match(r"[^\s})\]-]", line):
                starts.append((at, "clause"))
            at += len(line) + 1
        ends = [start for start, _ in starts[1:]] + [len(self.text)]
        return [(start, end, kind) for (start, kind), end in zip(starts, ends)]

    def segment(self, text, kind):
        tokens = [(match.start(), match[0]) for match in TOKEN.finditer(text)]
        bound = set(self.fields)
        first = self.begin(tokens, kind, bound)
        at = 0
        for place, (start, token) in enumerate(tokens):
            word = None if place < first else self.cited(tokens, place, bound)
            if word is not None or token.startswith("--"):
                if at < start:
                    yield text[at:start], None
                yield token, word
                at = start + len(token)
        if at < len(text):
            yield text[at:], None
        if kind == "head":
            self.fields |= bound

    def begin(self, tokens, kind, bound):
        """Binds the names before the text of a segment, and gives the place of the first token that may cite."""
        texts = [token for _, token in tokens]
        if texts[:2] == ["pub", "open"]:
            self.open_field(texts[2])
            return len(texts)
        if kind == "field":
            name = texts[1] if texts[0] == "pub" else texts[0]
            if self.definition.kind == "record":
                self.fields.add(name)
            return texts.index(":") if ":" in texts else len(texts)
        if kind == "head":
            return texts.index(self.definition.name) + 1 if self.definition.name in texts else 0
        end = next((place for place, token in enumerate(texts) if token == "="), len(texts))
        for token in texts[1:end]:
            if WORD.match(token) and not self.is_constructor(token):
                bound.add(token)
        return 1

    def open_field(self, name):
        """`pub open NAME use *`: the fields of that field's record are in sight."""
        match = re.search(rf"^  pub {re.escape(name)} : (\w+)", self.text, re.M)
        word = self.file.word(match[1]) if match else None
        if isinstance(word, Definition):
            self.fields.update(word.fields)

    def is_constructor(self, token):
        word = self.file.word(token)
        if isinstance(word, Declared):
            return True
        if isinstance(word, Kit):
            return token in KIT_CONSTRUCTORS or token[0].isupper()
        return isinstance(word, (Constructor, Missing))

    def cited(self, tokens, place, bound):
        """The word that the token at a place cites. Names that it binds are put to the bound ones."""
        token = tokens[place][1]
        if token == "λ":
            self.bind_lambda(tokens, place, bound)
        elif token in "({" and len(token) == 1:
            self.bind_typed(tokens, place, bound)
        elif token == "let" and place + 1 < len(tokens):
            bound.add(tokens[place + 1][1])
        name, dot, behind = token.partition(".")
        if not WORD.match(name) or name in bound or name in LANGUAGE:
            return None
        if self.is_label(tokens, place) or (place and tokens[place - 1][1] == "pub"):
            return None
        word = self.file.word(name, behind.split(".")[0] if dot and behind else None)
        if word is None and name not in self.file.aliases:
            self.unbound.append(name)
        return word

    @staticmethod
    def is_label(tokens, place):
        before = tokens[place - 1][1] if place else ""
        return before in ("{", ";") and place + 1 < len(tokens) and tokens[place + 1][1] == "="

    @staticmethod
    def bind_lambda(tokens, place, bound):
        depth = 0
        for _, token in tokens[place + 1:]:
            if token in "({":
                depth += 1
            elif token in ")}":
                depth -= 1
            elif depth == 0 and WORD.match(token.rstrip(".")):
                bound.add(token.rstrip("."))
            if depth == 0 and token.endswith("."):
                return

    @staticmethod
    def bind_typed(tokens, place, bound):
        names = []
        for _, token in tokens[place + 1:]:
            if token == ":":
                bound.update(names)
                return
            if not WORD.match(token):
                return
            names.append(token)
