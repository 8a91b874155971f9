"""What is wrong with the definitions as a book: parts that calls lack, words that are missing, lemmas that are cited, links that lead nowhere."""
import os
import re
from urllib.parse import unquote

from bookparts import plan
from bookparts.specs import Definition, Missing

HTML_LINK = re.compile(r'href="([^"]*)"')
HTML_ANCHOR = re.compile(r' id="([^"]*)"')
MARKDOWN_LINK = re.compile(r"\]\(([^()\s]*)\)")
MARKDOWN_ANCHOR = re.compile(r'<a id="([^"]*)"></a>')


def calls(book):
    """What each call lacks."""
    for name in book.without_group:
        yield f"FP{name}: {book.specs.groups.name} ({book.specs.groups.place}) has no group for it"
    for key in plan.EXCEPTIONS:
        if key[0] not in {call.title for call in book.calls}:
            yield f"tools/bookparts/plan.py: {key[0]} is no call, and EXCEPTIONS names it"
    for call in book.calls:
        for fault in call.faults:
            yield f"{call.title}: {fault}"
        for part in parts(book, call):
            if (call.title, part[0]) not in plan.EXCEPTIONS:
                yield f"{call.title}: {part[1]}"
        if call.refusals and (call.title, "refusals") in plan.EXCEPTIONS:
            yield f"{call.title}: it is refused, and EXCEPTIONS says that it never is"
        yield from codes(book, call)


def parts(book, call):
    """The parts that a call has not, each with a sentence. What could not be read is told by its fault."""
    place = call.row.place if call.row is not None else "no row"
    row = bool(call.effects)
    found = {
        "refusals": (call.refusals or not row, f"its row {call.row and call.row.name} ({place}) has no refusals"),
        "reader": (call.reader is not None, "no reader of a request makes it"),
        "reply": (call.shape and (call.reply or call.shape == "Empty"), f"its reply of the shape {call.shape or 'of no row'} has no layout"),
        "group": (call.group in dict(plan.GROUPS), f"its group {call.group} is none of those of the book"),
        "code of the row": (book.paths.rows.get(call.name), "no function's contract runs its row"),
        "code that reads": (book.paths.readers[call.name], "no function's contract reads its request"),
        "code that writes": (book.paths.writers[call.name], "no function's contract writes its request"),
        "captures": (book.captures.naming(call.title), "no script of a capture names it"),
        "promise": (book.promises.of(call.title, book.paths.rows.get(call.name)), "docs/PROMISES.md has no line for it or for the function that runs its row"),
    }
    return [(part, text) for part, (there, text) in found.items() if not there]


def codes(book, call):
    """Codes that a capture tells for a call, and that none of its refusals has."""
    for code, (name, line) in sorted(book.captures.told.get(call.title, {}).items()):
        if code not in call.codes and code not in plan.OTHER_CODES and not call.faults:
            place = f"{call.row.name} ({call.row.place})" if call.row is not None else "no row"
            yield f"{call.title}: the capture {name}, line {line}, is told {code}, and no refusal of {place} has that code"


def words(book):
    """Words that are cited and not there, and lemmas that a definition cites."""
    for definition in book.library.definitions():
        for word in definition.cited:
            if isinstance(word, Missing):
                yield f"{definition.place}: {definition.name} cites {word.name}, which {word.module} has not"
            elif isinstance(word, Definition) and word.is_lemma and not definition.is_lemma:
                yield f"{definition.place}: {definition.name} cites the lemma word {word.name} ({word.place})"
        if not definition.is_lemma:
            for name in definition.unbound:
                yield f"{definition.place}: {definition.name} cites {name}, which neither it nor an import names"
    for file in book.library.files.values():
        for module, name in file.imports.values():
            if isinstance(file.library.word(module, name), Missing):
                yield f"{file.path}: it imports {name}, which {module} has not"
    for crate, module in book.missing_files:
        yield f"tools/bookparts/plan.py: crates/{crate}/specs/{module.replace('.', '/')}.antt is not there"
    for key, found in sorted(book.declared.items()):
        if found is None:
            yield f"crates/{key[0]}/src: no type {key[2]} is declared in {key[1] or 'lib'}, and definitions take it from there"


class Resolver:
    """Looks where links lead to. The lines and headings of files are read once."""

    def __init__(self, top, folder, texts, anchors):
        self.top, self.folder, self.texts = top, folder, texts
        self.anchors = {name: set(anchors.findall(text)) for name, text in texts.items()}
        self.files = {}

    def fault(self, page, href):
        """What is wrong with a link of a page, or `None`."""
        path, _, anchor = unquote(href).partition("#")
        if path in self.texts or not path:
            if anchor and anchor not in self.anchors[path or page]:
                return f"{page}: {href} leads to no place"
            return None
        full = os.path.normpath(os.path.join(self.folder, path))
        if not os.path.exists(full):
            return f"{page}: {href} leads to no file"
        if anchor and not self.has(full, anchor):
            return f"{page}: {href} leads to no line or heading of {os.path.relpath(full, self.top)}"
        return None

    def has(self, full, anchor):
        if full not in self.files:
            with open(full, encoding="utf-8") as file:
                lines = file.read().split("\n")
            headings = {re.sub(r"[^\w\- ]", "", line.lstrip("# ").lower()).replace(" ", "-") for line in lines if line.startswith("#")}
            self.files[full] = len(lines), headings
        count, headings = self.files[full]
        number = re.match(r"L(\d+)$", anchor)
        return int(number[1]) <= count if number else anchor in headings


def links(top, folder, texts, link, anchors):
    """Links of pages, by name, that lead nowhere."""
    resolver, seen = Resolver(top, folder, texts, anchors), set()
    for name, text in texts.items():
        for href in link.findall(text):
            if href.partition("#")[0] in ("book.css", "names.js", "book.js") or (name, href) in seen:
                continue
            seen.add((name, href))
            fault = resolver.fault(name, href.replace("&#x27;", "'").replace("&amp;", "&"))
            if fault:
                yield fault


def sample(top, text):
    """Whether the sample that is kept is what is printed now."""
    full = os.path.join(top, plan.SAMPLE)
    if not os.path.exists(full):
        yield f"{plan.SAMPLE} is not there; write it by tools/book --sample"
        return
    with open(full, encoding="utf-8") as file:
        kept = file.read().split("\n")
    for number, (left, right) in enumerate(zip(kept + [""] * len(text), text.split("\n")), 1):
        if left != right:
            yield f"{plan.SAMPLE}:{number} is not what is printed now ({right[:60]!r}); write it by tools/book --sample"
            return
    if len(kept) != len(text.split("\n")):
        yield f"{plan.SAMPLE} is longer than what is printed now; write it by tools/book --sample"
