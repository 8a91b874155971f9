"""What pages are made of: text, links, terms, tables and definitions, before they are written as Markdown or HTML."""


class Term:
    """A piece of a definition's language: pieces, each with the word that it cites, or none."""

    def __init__(self, pieces):
        self.pieces = [pieces] if isinstance(pieces, tuple) else ([(pieces, None)] if isinstance(pieces, str) else list(pieces))

    @property
    def text(self):
        return "".join(piece for piece, _ in self.pieces)


class ToPage:
    """A link to a page of the book, or to a place of it."""

    def __init__(self, text, page, anchor=""):
        self.text, self.page, self.anchor = text, page, anchor


class ToWord:
    """A link to where a word stands."""

    def __init__(self, word, text=None):
        self.word, self.text = word, text


class ToFile:
    """A link to a file of the repository, and to a line or a heading of it."""

    def __init__(self, text, path, line=None, anchor=""):
        self.text, self.path, self.line, self.anchor = text, path, line, anchor


class Anchor:
    """A place that links lead to."""

    def __init__(self, anchor):
        self.anchor = anchor


class Indent:
    """How far a line of a table stands in."""

    def __init__(self, level):
        self.level = level


class Soft:
    """Text that says more in passing."""

    def __init__(self, parts):
        self.parts = parts if isinstance(parts, list) else [parts]


class Heading:
    def __init__(self, level, parts, anchor=""):
        self.level, self.parts, self.anchor = level, parts if isinstance(parts, list) else [parts], anchor


class Paragraph:
    def __init__(self, *parts):
        self.parts = list(parts)


class Bullets:
    """Items, each a list of parts."""

    def __init__(self, items):
        self.items = items


class Table:
    """Columns by name, and rows of cells, each a list of parts. A row with one cell goes over the whole width."""

    def __init__(self, columns, rows, kind=""):
        self.columns, self.rows, self.kind = columns, rows, kind


class Folded:
    """Blocks that are shown where a reader asks for them."""

    def __init__(self, title, blocks):
        self.title, self.blocks = title, blocks


class Definitions:
    """A definition in full: name, comment, text and place, and the functions that promise something by it."""

    def __init__(self, definition, functions=()):
        self.definition, self.functions = definition, list(functions)


class Arms:
    """Lines of definitions over all calls, of the one call: each with its definition, in pieces."""

    def __init__(self, lines):
        self.lines = lines


class Declarations:
    """A type that the code declares, in full."""

    def __init__(self, declared, path, line, comment, text):
        self.declared, self.path, self.line, self.comment, self.text = declared, path, line, comment, text


class Page:
    def __init__(self, name, title, group="", lead=""):
        self.name, self.title, self.group, self.lead = name, title, group, lead
        self.blocks = []

    def add(self, *blocks):
        self.blocks += [block for block in blocks if block is not None]
