"""Pages as HTML, one file each, with a search over names that needs no server."""
import json
import re
from html import escape

from bookparts.gather import declared_anchor
from bookparts.markdown import MOST_FUNCTIONS
from bookparts.model import Anchor, Declarations, Definitions, Heading, Indent, Soft, Term, ToFile, ToPage, ToWord
from bookparts.specs import Kit

MOST_TITLE = 140
PAGE = """<!DOCTYPE html>
<html lang="en">
<head>
<meta charset="utf-8">
<meta name="viewport" content="width=device-width, initial-scale=1">
<title>{title}</title>
<link rel="stylesheet" href="book.css">
<script src="names.js" defer></script>
<script src="book.js" defer></script>
</head>
<body class="{kind}">
<header>
<nav>{crumbs}</nav>
<form role="search">
<input id="search" type="search" placeholder="Search a name" aria-label="Search a name" autocomplete="off">
<ol id="found" hidden></ol>
</form>
</header>
<main>
<h1>{title}</h1>
{lead}
{toc}
{body}
</main>
<footer>{around}</footer>
</body>
</html>
"""


class Html:
    """Writes one page. `before` and `behind` are its neighbours."""

    def __init__(self, page, links, before=None, behind=None):
        self.page, self.links, self.before, self.behind = page, links, before, behind
        self.opened = {}

    def text(self):
        page = self.page
        return PAGE.format(title=escape(page.title), kind="call" if page.group else page.name.partition("-")[0], crumbs=self.crumbs(),
                           lead=f'<p class="lead">{self.plain(page.lead)}</p>' if page.lead else "", toc=self.toc(),
                           body="\n".join(self.block(block) for block in page.blocks), around=self.around())

    def crumbs(self):
        links = ['<a href="index.html">Contents</a>']
        if self.page.group:
            links.append(f'<a href="index.html#group-{self.page.group.lower()}">{self.page.group}</a>')
        links.append('<a href="names.html">Names</a>')
        return " ".join(links)

    def around(self):
        links = [f'<a rel="{rel}" href="{page.name}.html">{mark} {escape(page.title)}</a>'
                 for rel, mark, page in (("prev", "←", self.before), ("next", "→", self.behind)) if page is not None]
        return " ".join(links)

    def toc(self):
        """The headings of a long page, and on pages of definitions the names under each."""
        parts = [self.toc_item(block) for block in self.page.blocks]
        parts = [part for part in parts if part]
        if len(parts) < 4:
            return ""
        return f'<details class="toc"><summary>On this page</summary><p>{" ".join(parts)}</p></details>'

    def toc_item(self, block):
        if isinstance(block, Heading) and block.level == 2 and block.anchor:
            return f'<a class="part" href="#{block.anchor}">{self.parts(block.parts)}</a>'
        if isinstance(block, Definitions):
            return f'<a href="#{self.links.book.anchor(block.definition)}">{escape(block.definition.name)}</a>'
        if isinstance(block, Declarations):
            return f'<a href="#{declared_anchor(block.declared)}">{escape(block.declared[2])}</a>'
        return ""

    def block(self, block):
        return getattr(self, f"write_{type(block).__name__.lower()}")(block)

    # -- parts

    @staticmethod
    def plain(text):
        return "".join(f"<code>{escape(part)}</code>" if at % 2 else escape(part, quote=False) for at, part in enumerate(text.split("`")))

    def parts(self, parts):
        return "".join(self.part(part) for part in parts)

    def part(self, part):
        if isinstance(part, str):
            return self.plain(part)
        if isinstance(part, Term):
            return f"<code>{self.pieces(part.pieces)}</code>" if part.text else ""
        if isinstance(part, ToWord):
            return f"<code>{self.pieces([(part.text or part.word.name, part.word)])}</code>"
        if isinstance(part, ToPage):
            return f'<a href="{escape(self.links.to(part.page or self.page.name, part.anchor))}">{self.plain(part.text)}</a>'
        if isinstance(part, ToFile):
            return f'<a class="file" href="{escape(self.links.file(part.path, part.line, part.anchor))}">{self.plain(part.text)}</a>'
        if isinstance(part, Soft):
            return f'<span class="soft">{self.parts(part.parts)}</span>'
        return f'<span id="{part.anchor}"></span>' if isinstance(part, Anchor) else ""

    def pieces(self, pieces):
        return "".join(self.piece(piece, word) for piece, word in pieces)

    def piece(self, piece, word):
        text = escape(piece, quote=False)
        if word is None:
            return f'<span class="note">{text}</span>' if piece.startswith("--") else text
        if id(word) not in self.opened:
            self.opened[id(word)] = self.open_link(word)
        opened = self.opened[id(word)]
        return f"{opened}{text}</a>" if opened else text

    def open_link(self, word):
        """What begins a link to a word, with its comment, or nothing."""
        href = self.links.word(word)
        if href is None:
            return ""
        kind = ' class="kit"' if isinstance(word, Kit) else ""
        comment = getattr(word, "comment", "") or getattr(getattr(word, "of", None), "comment", "")
        title = f' title="{escape(comment[:MOST_TITLE])}"' if comment else ""
        return f'<a{kind} href="{escape(href)}"{title}>'

    # -- blocks

    def write_heading(self, block):
        anchor = f' id="{block.anchor}"' if block.anchor else ""
        return f"<h{block.level}{anchor}>{self.parts(block.parts)}</h{block.level}>"

    def write_paragraph(self, block):
        return f"<p>{self.parts(block.parts)}</p>"

    def write_bullets(self, block):
        return "<ul>" + "".join(f"<li>{self.parts(item)}</li>" for item in block.items) + "</ul>"

    def write_table(self, block):
        head = "".join(f"<th>{escape(name)}</th>" for name in block.columns)
        head = f"<thead><tr>{head}</tr></thead>" if any(block.columns) else ""
        rows = "".join(f"<tr>{''.join(self.cell(cell, name) for cell, name in zip(row, block.columns))}</tr>" for row in block.rows)
        return f'<table class="{block.kind}">{head}<tbody>{rows}</tbody></table>'

    def cell(self, parts, name):
        level = next((part.level for part in parts if isinstance(part, Indent)), 0)
        indent = f' style="padding-left:{1 + 1.5 * level}em"' if level else ""
        label = f' data-name="{escape(name)}"' if name else ""
        return f"<td{label}{indent}>{self.parts(parts)}</td>"

    def write_folded(self, block):
        return f"<details><summary>{self.plain(block.title)}</summary>{''.join(self.block(inner) for inner in block.blocks)}</details>"

    def write_definitions(self, block):
        one = block.definition
        place = self.place(one.place, one.path, one.line, block.functions)
        return self.section(self.links.book.anchor(one), one.name, self.comment(one), self.lines(one.lines), place)

    @staticmethod
    def section(anchor, name, comment, lines, place):
        return (f'<section class="definition" id="{anchor}"><h4><a href="#{anchor}">{escape(name)}</a></h4>{comment}'
                f"<pre>{lines}</pre>{place}</section>")

    def comment(self, one):
        above, text = one.said
        if one.comment or not text:
            return f'<p class="comment">{self.plain(text)}</p>' if text else ""
        return f'<p class="comment soft">{self.plain(f"With {above}: {text}" if above else text)}</p>'

    def lines(self, lines):
        """Lines of pieces, each of which is broken with what follows indented."""
        return "".join(f'<span class="line">{self.pieces(line)}</span>\n' for line in lines)

    def place(self, text, path, line, functions):
        links = ", ".join(f'<a class="file" href="{escape(self.links.file(one.path, one.line))}">{escape(one.name)}</a>' for one in functions[:MOST_FUNCTIONS])
        more = f" and {len(functions) - MOST_FUNCTIONS} more" if len(functions) > MOST_FUNCTIONS else ""
        promised = f" · in the contract of {links}{more}" if links else ""
        return f'<p class="place"><a class="file" href="{escape(self.links.file(path, line))}">{escape(text)}</a>{promised}</p>'

    def write_arms(self, block):
        lines = []
        for one, pieces in block.lines:
            first, word = pieces[0]
            lines.append([(first[:len(one.name)], one), (first[len(one.name):], word), *pieces[1:]])
        return f"<pre>{self.lines(lines)}</pre>"

    def write_declarations(self, block):
        comment = f'<p class="comment">{self.plain(block.comment)}</p>' if block.comment else ""
        lines = self.lines([[(line, None)] for line in block.text.split("\n")])
        place = self.place(f"{block.path}:{block.line}", block.path, block.line, [])
        return self.section(declared_anchor(block.declared), block.declared[2], comment, lines, place)


def names_script(book, pages):
    """The names that the search goes over: each with what it is and where it stands."""
    rows = [[page.title, "call" if page.group else "page", f"{page.name}.html"] for page in pages if not page.name.startswith("words-")]
    for name, definitions in book.printed.items():
        rows += [[one.name, f"{one.crate} {one.file.module}", f"{name}.html#{book.anchor(one)}"] for key, one in definitions.items() if book.home[key] == name]
    rows += [[key[2], f"type of {key[0]}", f"types.html#{declared_anchor(key)}"] for key, found in book.declared.items() if found]
    return "const NAMES = " + re.sub(r"\], \[", "],\n[", json.dumps(rows, ensure_ascii=False)) + ";\n"
