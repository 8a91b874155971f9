"""Where links of a page lead to."""
import os

from bookparts.gather import definition_of


class Links:
    """The links of one page, written with a suffix in a folder; of the sample, which stands alone, to the repository's files."""

    def __init__(self, book, page, suffix, folder, alone=False):
        self.book, self.page, self.suffix, self.alone = book, page, suffix, alone
        self.words = {}
        self.prefix = os.path.relpath(book.top, folder).replace(os.sep, "/")

    def word(self, word):
        """Where a word stands, or `None`."""
        if id(word) not in self.words:
            self.words[id(word)] = self.found(word)
        return self.words[id(word)]

    def found(self, word):
        place = self.book.place(word, self.page)
        if place is None:
            return None
        name, anchor = place
        if self.alone and name != self.page:
            return self.source(word)
        return self.to(name, anchor)

    def source(self, word):
        """The file where a word stands, and the line."""
        definition = definition_of(word)
        if definition is not None:
            return self.file(definition.path, definition.line)
        found = self.book.declared.get(getattr(word, "key", None))
        return self.file(found[0], found[1]) if found else None

    def to(self, name, anchor=""):
        page = "" if name in ("", self.page) else f"{name}{self.suffix}"
        return f"{page}#{anchor}" if anchor else page or f"{self.page}{self.suffix}"

    def file(self, path, line=None, anchor=""):
        end = f"#L{line}" if line else (f"#{anchor}" if anchor else "")
        return f"{self.prefix}/{path}{end}"
