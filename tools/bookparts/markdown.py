"""Pages as Markdown."""
import re

from bookparts.model import Anchor, Indent, Soft, Term, ToFile, ToPage, ToWord
from bookparts.gather import declared_anchor
from bookparts.specs import Declared, Kit

SPECIAL = re.compile(r"([\\*_\[\]<>])")
MOST_FUNCTIONS = 4


class Markdown:
    """Writes one page."""

    def __init__(self, page, links):
        self.page, self.links = page, links

    def text(self):
        out = [f"# {self.page.title}", ""]
        if self.page.lead:
            out += [self.plain(self.page.lead), ""]
        for block in self.page.blocks:
            out += [*self.block(block), ""]
        return re.sub(r"\n{3,}", "\n\n", "\n".join(out).rstrip() + "\n")

    def block(self, block):
        return getattr(self, f"write_{type(block).__name__.lower()}")(block)

    # -- parts

    def plain(self, text):
        """A text with what Markdown would read marked as plain; what stands in backticks stays."""
        return "".join(part if at % 2 else SPECIAL.sub(r"\\\1", part) for at, part in enumerate(re.split(r"(`[^`]*`)", text)))

    def parts(self, parts):
        return "".join(self.part(part) for part in parts)

    def part(self, part):
        if isinstance(part, str):
            return self.plain(part)
        if isinstance(part, Term):
            return self.term(part)
        if isinstance(part, ToWord):
            href, name = self.links.word(part.word), part.text or part.word.name
            return f"[`{name}`]({href})" if href else f"`{name}`"
        if isinstance(part, ToPage):
            return f"[{self.plain(part.text)}]({self.links.to(part.page or self.page.name, part.anchor)})"
        if isinstance(part, ToFile):
            return f"[{self.plain(part.text)}]({self.links.file(part.path, part.line, part.anchor)})"
        if isinstance(part, Soft):
            return self.parts(part.parts)
        return f'<a id="{part.anchor}"></a>' if isinstance(part, Anchor) else ""

    def term(self, term):
        """A term, as a link where it is one word."""
        if not term.text:
            return ""
        word = term.pieces[0][1] if len(term.pieces) == 1 else None
        href = None if word is None or isinstance(word, Kit) else self.links.word(word)
        return f"[`{term.text}`]({href})" if href else f"`{term.text}`"

    def behind(self, parts):
        """Links to the words of terms, as they stand behind a text."""
        linked = self.word_links([word for part in parts if isinstance(part, Term) and len(part.pieces) > 1 for _, word in part.pieces])
        return f" ({linked})" if linked else ""

    def cell(self, parts):
        """A cell of a table: terms, and behind them links to their words."""
        text = ""
        for part in parts:
            if isinstance(part, Indent):
                text += "&emsp;" * part.level
            elif isinstance(part, Soft) and text:
                text += ("<br>" if text.endswith(("`", ")")) else " ") + self.part(part).strip()
            else:
                text += self.part(part)
        return (text + self.behind(parts)).replace("|", "\\|")

    def word_links(self, words):
        found = {}
        for word in words:
            if word is not None and not isinstance(word, Kit) and not (isinstance(word, Declared) and word.variant):
                href = self.links.word(word)
                if href:
                    found.setdefault(word.name, f"[{self.plain(word.name)}]({href})")
        return ", ".join(found.values())

    # -- blocks

    def write_heading(self, block):
        anchor = [f'<a id="{block.anchor}"></a>', ""] if block.anchor else []
        return [*anchor, f"{'#' * block.level} {self.parts(block.parts)}"]

    def write_paragraph(self, block):
        return [self.parts(block.parts) + self.behind(block.parts)]

    def write_bullets(self, block):
        return [f"- {self.parts(item)}{self.behind(item)}".rstrip() for item in block.items]

    def write_table(self, block):
        rule = "|".join("---" for _ in block.columns)
        return [f"| {' | '.join(block.columns)} |", f"|{rule}|"] + [f"| {' | '.join(self.cell(cell) for cell in row)} |" for row in block.rows]

    def write_folded(self, block):
        out = [f"{self.plain(block.title)}:", ""]
        for inner in block.blocks:
            out += [*self.block(inner), ""]
        return out

    def write_definitions(self, block):
        one = block.definition
        words = self.word_links([word for word in one.cited if word is not one])
        out = [f'<a id="{self.links.book.anchor(one)}"></a>', "", f"#### {self.plain(one.name)}", ""]
        out += [self.comment(one), ""] if one.said[1] else []
        out += ["```", one.text, "```", "", self.place(one.place, one.path, one.line, block.functions)]
        return out + (["", f"Words: {words}"] if words else [])

    def comment(self, one):
        above, text = one.said
        return self.plain(text) if one.comment else f"*{self.plain(f'With {above}: {text}' if above else text)}*"

    def place(self, text, path, line, functions):
        shown = ", ".join(f"[{self.plain(one.name)}]({self.links.file(one.path, one.line)})" for one in functions[:MOST_FUNCTIONS])
        more = f" and {len(functions) - MOST_FUNCTIONS} more" if len(functions) > MOST_FUNCTIONS else ""
        return f"[{self.plain(text)}]({self.links.file(path, line)})" + (f"; in the contract of {shown}{more}" if shown else "")

    def write_arms(self, block):
        texts = ["".join(piece for piece, _ in pieces) for _, pieces in block.lines]
        places = {one.key: f"[{self.plain(one.name)}]({self.links.word(one) or self.links.file(one.path, one.line)})" for one, _ in block.lines}
        return ["```", *texts, "```", "", ", ".join(places.values())]

    def write_declarations(self, block):
        anchor = declared_anchor(block.declared)
        comment = [self.plain(block.comment), ""] if block.comment else []
        return [f'<a id="{anchor}"></a>', "", f"#### {block.declared[2]}", "", *comment, "```rust", block.text, "```", "",
                self.place(f"{block.path}:{block.line}", block.path, block.line, [])]
