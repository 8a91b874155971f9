"""The page of a call."""
import re

from bookparts import plan
from bookparts.calls import ASKED, numbers_in
from bookparts.evidence import CAPTURES, PROMISES, SCRIPTS
from bookparts.gather import definition_of
from bookparts.model import Arms, Bullets, Definitions, Folded, Heading, Indent, Page, Paragraph, Soft, Table, Term, ToFile, ToPage, ToWord
from bookparts.reduce import taken_apart
from bookparts.specs import Definition
from bookparts.terms import Lit, Name, shown, text_of

MOST_SCRIPTS = 12
MOST_WORDS = 120
OF_ONE_SIZE = {
    "Pad": ("1", "a pad of any value"), "LastPad": ("0 or 1", "a pad, which a block may end before"), "Even": ("0 or 1", "a pad where the place is odd"),
    "Signed32": ("4", "a number with a sign"), "Signed64": ("8", "a number with a sign"), "Pathname": ("a path", "its type, hint, count and names"),
    "Tail": ("all that remains", ""), "Flag": ("1", "whether it is a directory"), "Entry": ("an entry", "of the list"),
}
OF_ANY_SIZE = {"Number": "a number", "Count": "a count of what stands further on", "Plain": "bytes", "Raw": "bytes"}
PARTS = {"Option Code", "List Refusal", "List Edit", "VolumeState", "Effect", "Reply", "CallRow"}


def call_page(book, call):
    page = Page(call.title, call.title, call.group, lead=lead_of(book, call))
    if call.row is not None:
        page.add(Paragraph("Defined under: ", call.row.file.comment))
    page.add(Heading(2, "Where it stands", "places"), places(book, call))
    page.add(Heading(2, "Request", "request"), *request(call))
    page.add(Heading(2, "Before its row", "steps"), *steps(book, call))
    page.add(Heading(2, "Refusals", "refusals"), *refusals(call))
    page.add(Heading(2, "Effect", "effect"), *effects(call), *named(call))
    page.add(Heading(2, "Reply", "reply"), *reply(book, call))
    page.add(Heading(2, "What it commits", "commits"), *commits(call))
    page.add(Heading(2, "Its definitions", "definitions"))
    page.add(*[Definitions(definition, book.functions(definition)) for definition in book.own[call.name]])
    page.add(Heading(3, "Its lines in definitions over all calls", "lines"), Arms(arms(book, call)))
    page.add(*shared(book, call))
    page.add(Heading(2, "Captures", "captures"), *captures(book, call))
    return page


def lead_of(book, call):
    return f"{summary(book, call)} Command {call.number}."


def summary(book, call):
    text = book.summaries.get(call.title, "")
    return f"{text[:1].upper()}{text[1:]}"


def places(book, call):
    paths, rows = book.paths, []
    for what, function in (("read by", paths.readers[call.name]), ("written by", paths.writers[call.name]), ("run by", paths.rows.get(call.name))):
        if function is not None:
            rows.append([[what], function_link(function)])
    rows += [[["defined in"], [ToFile(f"{call.row.path}:{call.row.line}", call.row.path, call.row.line)]]] if call.row is not None else []
    others = promised_by(book, call)
    if others:
        rows.append([["further code"], between([function_link(function) for function in others])])
    for promise in book.promises.of(call.title, paths.rows.get(call.name)):
        rows.append([["promised in"], [ToFile(f"{PROMISES}, {promise.heading}", PROMISES, anchor=promise.anchor), Soft(f": {promise_text(promise)}")]])
    scripts = book.captures.naming(call.title)
    rows.append([["shown by"], [ToPage(f"{len(scripts)} captures", "", "captures")]])
    return Table(["", ""], rows, "places")


def promise_text(promise):
    return promise.text.split("|")[0].strip()


def promised_by(book, call):
    """Functions whose contracts say what the call's own definitions say, but for laws and for those that are named already."""
    named = {id(function) for function in (book.paths.readers[call.name], book.paths.writers[call.name], book.paths.rows.get(call.name))}
    found = []
    for definition in book.own[call.name]:
        if definition.result not in PARTS:
            continue
        for function in book.functions(definition):
            if id(function) not in named and "law" not in function.path.rpartition("/")[2] and function.crate != "afp_serial":
                named.add(id(function))
                found.append(function)
    return found


def function_link(function):
    return [ToFile(function.name, function.path, function.line), Soft(f" {function.path}:{function.line}")]


def between(items, mark=", "):
    parts = []
    for at, item in enumerate(items):
        parts += ([mark] if at else []) + (item if isinstance(item, list) else [item])
    return parts


# -- the request

def request(call):
    rows, place = [], 0
    for field, word in call.fields:
        size, what = field_words(word)
        at = str(place) if place is not None else ""
        rows.append([[at], size, [Term(shown(field))], what])
        place = place + int(size[0]) if place is not None and size in (["1"], ["2"], ["4"], ["8"]) else None
    blocks = [Table(["place", "bytes", "field", "what it is"], rows, "layout")]
    apart = taken_apart(call.enclosed) if call.enclosed is not None else None
    if apart and apart[0] == "Piece":
        blocks.append(Paragraph("It comes in a Write frame, whose data begin with ", Term(shown(apart[1][1])), ", of ", Term(shown(apart[1][0])), " bytes."))
    else:
        blocks.append(Paragraph("It comes in a Command frame."))
    return blocks


def field_words(word):
    """The size of a field in bytes, and what it is, as parts."""
    name, args = taken_apart(word) or (text_of(word), [])
    terms = [arg.text if isinstance(arg, Lit) else Term(shown(arg)) for arg in args]
    if name == "Literal":
        return ["1"], ["this value: ", terms[0]]
    if name == "Exactly":
        return [terms[0]], ["this number: ", terms[1]]
    if name == "Within":
        return [terms[0]], ["a number from ", terms[1], " to ", terms[2]]
    if name == "Optional":
        return [terms[1]], ["a number, there where ", terms[0]]
    if name == "Asked":
        return ["2"], ["the bits that were asked, ", terms[1], ", within ", terms[0]]
    if name == "Counted":
        return [terms[0], " and more"], ["a count, and as many bytes"]
    if name in OF_ONE_SIZE:
        return [OF_ONE_SIZE[name][0]], [OF_ONE_SIZE[name][1]]
    return terms[:1], [OF_ANY_SIZE.get(name, Term(shown(word)))]


# -- steps, refusals, effect

def steps(book, call):
    kept = call.number not in numbers_in(book.specs.not_kept)
    return [Paragraph("Of these steps the first that applies decides (", ToWord(book.specs.verdict), "). Here the block begins with the command."),
            lines_table(call.steps),
            Paragraph("Its answers are kept for a repeat of the request.") if kept
            else Paragraph("None of its answers is kept for a repeat (", ToWord(book.specs.not_kept), ").")]


def refusals(call):
    if not call.refusals:
        reason = plan.EXCEPTIONS.get((call.title, "refusals"))
        return [Paragraph("It is never refused", f": {reason}." if reason else ".")]
    names = Soft(["In these, ", Term("w"), " is the world, and ", Term("s"), " the session that calls."])
    return [Paragraph("The first that holds decides. ", names), lines_table(call.refusals)]


def lines_table(lines):
    rows, number = [], 0
    for line in lines:
        words = [Soft(f"{text[:1].upper()}{text[1:]}".rstrip(".") + ".") for text in line.words]
        where = [Indent(line.level), *as_parts(line.condition), *words]
        if line.told is None:
            rows.append([[""], where, [""]])
            continue
        number += 1
        told = as_parts(line.told) + ([Soft(["with ", Term(shown(line.reply))])] if line.reply else [])
        rows.append([[str(number)], where, told])
    return Table(["", "where", "told"], rows, "lines")


def as_parts(items):
    """Terms and plain texts as parts of a page."""
    return [item if isinstance(item, str) else Term(shown(item)) for item in items]


def where_parts(where):
    parts = []
    for at, (of, pattern) in enumerate(where):
        parts += [" and "] if at else []
        if pattern is None or text_of(pattern) == "true":
            parts.append(Term(shown(of)))
        elif text_of(pattern) == "false":
            parts += ["not ", Term(shown(of))]
        else:
            parts += as_parts([of, " is ", pattern])
    return parts


def effects(call):
    if len(call.effects) == 1 and not call.effects[0][0]:
        _, world, told = call.effects[0]
        return [Bullets([["The next world: ", Term(shown(world))], ["The reply: ", Term(shown(told))]])]
    rows = [[where_parts(where) or ["always"], [Term(shown(world))], [Term(shown(told))]] for where, world, told in call.effects]
    return [Table(["where", "the next world", "the reply"], rows, "effects")]


def named(call):
    """The records that the tables above have under a name."""
    if not call.named:
        return []
    items = [[Term(name), " is ", Term(shown(value))] for name, value in sorted(call.named.items())]
    return [Paragraph("In these tables:"), Bullets(items)]


def commits(call):
    if all(keeper is None for _, keeper in call.commits):
        return [Paragraph("Nothing.")]
    items = []
    for where, keeper in call.commits:
        what = ["nothing"] if keeper is None else ["to the keeper ", Term(shown(keeper))]
        items.append([*what, *([" where ", *where_parts(where)] if where else [])])
    return [Bullets(items)]


# -- the reply

def reply(book, call):
    shape = [Paragraph("Its shape is ", Term([(call.shape, None)]), ", with the layout ", ToWord(call.reply_layout) if call.reply_layout else "none", ".")]
    with_where = any(where for where, _, _, _ in call.reply)
    rows = []
    for where, word, value, rest in call.reply:
        size, what = reply_words(word, rest)
        rows.append([size, [Term(value)] if value else [""], what] + ([where_parts(where)] if with_where else []))
    if not rows:
        return [Paragraph("Its shape is ", Term(call.shape), ": it has no bytes.")]
    columns = ["bytes", "value", "what"] + (["where"] if with_where else [])
    kind = book.library.word("Rattle.afp_serial.specs.ReplyKinds", "reply_kind")
    note = [Paragraph(Soft([Term(ASKED), " is what the call asks for: ", ToWord(kind), "."]))] if any(f"{ASKED}." in cell_text(row) for row in rows) else []
    return shape + [Table(columns, rows, "layout")] + note


def cell_text(row):
    return " ".join(part.text for cell in row for part in cell if isinstance(part, Term))


def reply_words(word, rest):
    if word is None:
        head = rest.head if hasattr(rest, "head") else rest
        comment = head.word.comment if isinstance(head, Name) and isinstance(head.word, Definition) else ""
        return [""], [Term(shown(rest)), Soft(comment)]
    name, args = taken_apart(word) or ("", [])
    if name == "Params":
        return ["parameters"], ["of kind ", Term(shown(args[0])), ", by the bits ", Term(shown(args[1]))]
    if name == "Never":
        return [""], ["no bytes are a reply"]
    if name == "Remaining":
        return ["all that remains"], [""]
    return field_words(word)


# -- words and captures

def arms(book, call):
    """The lines of definitions over all calls that are about this one."""
    found = []
    for definition in [book.specs.layouts, book.specs.rows, *book.arms[call.name]]:
        for pieces in definition.lines:
            text = "".join(piece for piece, _ in pieces)
            if text.startswith(f"{definition.name} ") and re.search(rf"\b{call.name}\b", text.split(" = ")[0]):
                found.append((definition, pieces))
    return found


def shared(book, call):
    own = {definition.key for definition in book.own[call.name]}
    found = {}
    for word in words_of_page(book, call):
        definition = definition_of(word)
        if definition is not None and definition.key not in own and definition.key in book.home:
            found[definition.key] = definition
    items = [[ToWord(one), Soft(f" {first_sentence(one.said[1])}")] for one in sorted(found.values(), key=lambda one: one.name.lower())]
    return [Heading(2, "Shared words", "shared"), Folded(f"{len(items)} words of other pages that this page uses", [Bullets(items)])] if items else []


def first_sentence(comment):
    """The beginning of a comment, up to the end of a sentence or of a clause."""
    text = re.split(r"(?<=[.;:])\s", comment)[0].rstrip(".;:")
    return text if len(text) <= MOST_WORDS else text[:text.rfind(" ", 0, MOST_WORDS)] + " .."


def words_of_page(book, call):
    for definition in book.own[call.name]:
        yield from definition.cited
    for definition, pieces in arms(book, call):
        yield definition
        yield from (word for _, word in pieces if word is not None)
    for line in call.steps + call.refusals:
        for item in [*line.condition, *(line.told or []), *([line.reply] if line.reply else [])]:
            yield from (word for _, word in ([] if isinstance(item, str) else shown(item)))
    for where, world, told in call.effects:
        for term in (world, told, *(of for of, _ in where)):
            yield from (word for _, word in shown(term))


def captures(book, call):
    told, scripts = book.captures.told.get(call.title, {}), book.captures.naming(call.title)
    rows = [[[code], [ToFile(f"{name}:{line}", f"{CAPTURES}/{name}", line)], [ToFile("its script", f"{SCRIPTS}/{name}")]]
            for code, (name, line) in sorted(told.items())]
    blocks = [Table(["code", "first told in", ""], rows, "codes")] if rows else []
    links = [ToFile(name, f"{SCRIPTS}/{name}") for name in scripts]
    blocks.append(Paragraph("Scripts that name it: ", *between(links[:MOST_SCRIPTS]), "." if len(links) <= MOST_SCRIPTS else " and others."))
    if len(links) > MOST_SCRIPTS:
        blocks.append(Folded(f"{len(links) - MOST_SCRIPTS} others", [Paragraph(*between(links[MOST_SCRIPTS:]))]))
    blocks.append(Paragraph(Soft([Term("tools/capture explain"), " says what the lines of a capture are."])))
    return blocks
