"""The pages of the book: contents, chapters, shared words, types of the code, words of the kit and the list of names."""
import os

from bookparts import plan
from bookparts.callpages import call_page, summary
from bookparts.gather import clean
from bookparts.model import Anchor, Bullets, Declarations, Definitions, Folded, Heading, Page, Paragraph, Soft, Table, Term, ToFile, ToPage, ToWord

TITLE = "The profile"


def all_pages(book):
    """Every page, in the order of the contents."""
    chapters = {chapter[0]: chapter_page(book, chapter) for chapter in book.chapters}
    front = [chapters[chapter[0]] for chapter in plan.FRONT]
    calls = [call_page(book, call) for call in in_order(book.calls)]
    behind = [chapters[chapter[0]] for chapter in plan.RECORDS + plan.LAWS]
    words = [words_page(book, crate) for crate in sorted(page[6:] for page in book.printed if page.startswith("words-"))]
    last = [types_page(book), kit_page(book), names_page(book)]
    return [index_page(book, words, last)] + front + calls + behind + words + last


def in_order(calls):
    """The calls in the groups of the AFP Reference."""
    return [call for group, _ in plan.GROUPS for call in calls if call.group == group]


def index_page(book, words, last):
    page = Page("index", TITLE, lead="What the file server does, as its definitions say it. Printed out of `crates/*/specs` by `tools/book`.")
    page.add(Paragraph(plan.INTRODUCTION))
    page.add(Folded("How definitions are written", [Table(["form", "what it is"], [[[Term(form)], [text]] for form, text in plan.FORMS], "forms")]))
    beside = [ToFile(path, path) for path in plan.BESIDE if os.path.exists(os.path.join(book.top, path))]
    page.add(Paragraph("Beside it: ", *[part for at, link in enumerate(beside) for part in ([", "] if at else []) + [link]], "."))
    page.add(Heading(2, "In front"), contents(plan.FRONT))
    page.add(Heading(2, "The calls"))
    for group, title in plan.GROUPS:
        page.add(Heading(3, title, f"group-{group.lower()}"), group_table(book, [call for call in in_order(book.calls) if call.group == group]))
    page.add(Heading(2, "Records"), contents(plan.RECORDS))
    page.add(Heading(2, "Laws"), contents(plan.LAWS))
    page.add(Heading(2, "Appendix: shared words"))
    page.add(Bullets([[ToPage(one.title, one.name), Soft(f" {one.lead}")] for one in words + last]))
    return page


def contents(chapters):
    return Bullets([[ToPage(title, name), Soft(f" {lead}")] for name, title, lead, _ in chapters])


def group_table(book, calls):
    rows = []
    for call in calls:
        function = book.paths.rows.get(call.name)
        code = [ToFile(function.name, function.path, function.line)] if function else ["–"]
        rows.append([[ToPage(call.title, call.title)], [str(call.number)], [summary(book, call)],
                     [ToPage(refusal_count(call), call.title, "refusals")], code])
    return Table(["call", "number", "what it does", "refusals", "code"], rows, "calls")


def refusal_count(call):
    count = sum(1 for line in call.refusals if line.told)
    return str(count) if count else "none"


def chapter_page(book, chapter):
    name, title, lead, files = chapter
    page = Page(name, title, lead=lead)
    for file in book.files(files):
        page.add(*file_head(file))
        for item in file.items:
            if isinstance(item, str):
                page.add(Heading(3, item))
            elif book.home[item.key] == name:
                page.add(Definitions(item, book.functions(item)))
    return page


def file_head(file):
    """The heading of a file's definitions, with its first comment."""
    title = f"{file.module.replace('.', ' ')} ({file.crate})"
    return Heading(2, [title], clean(f"{file.crate}.{file.module}")), Paragraph(f"{file.comment} ".lstrip(), Soft([ToFile(file.path, file.path)]))


def words_page(book, crate):
    definitions = sorted(book.printed[f"words-{crate}"].values(), key=lambda one: (one.file.module, one.line))
    page = Page(f"words-{crate}", f"Words of {crate}", lead=f"{len(definitions)} words that several pages share.")
    file = None
    for definition in definitions:
        if definition.file is not file:
            file = definition.file
            page.add(*file_head(file))
        page.add(Definitions(definition, book.functions(definition)))
    return page


def types_page(book):
    page = Page("types", "Types of the code", lead="Types that the code declares and definitions speak of: definitions see their numbers, lists and fields.")
    crate = None
    for key in sorted(book.declared):
        found = book.declared[key]
        if found is None:
            continue
        if key[0] != crate:
            crate = key[0]
            page.add(Heading(2, [crate], clean(f"types.{crate}")))
        page.add(Declarations(key, *found))
    return page


def kit_page(book):
    page = Page("kit", "Words of the kit", lead="Words of the kit's libraries, which have their definitions there.")
    rows = [[[Anchor(clean(word.name)), Term(word.name)], [word.module.replace("Rattle.", "").replace(".specs.", ": ")]] for word in book.kit_words()]
    page.add(Table(["word", "library"], rows, "kit"))
    return page


def names_page(book):
    page = Page("names", "All names", lead="Each definition of the book by its name.")
    found = {}
    for name, definitions in book.printed.items():
        for key, definition in definitions.items():
            if book.home[key] == name:
                found.setdefault(definition.name[0].upper(), []).append(definition)
    for letter in sorted(found):
        items = sorted(found[letter], key=lambda one: (one.name.lower(), one.key))
        page.add(Heading(2, [letter], clean(f"letter-{letter}")), Bullets([[ToWord(one), Soft(f" {one.crate} {one.file.module}")] for one in items]))
    return page
