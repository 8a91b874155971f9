"""Scripts of captures: readable lines, from which a capture is made, and which are made of one (tools/README.md)."""
import collections
import re
from struct import error

from afp.blocks import Unread
from afp.captures import Link, read_lines, status_of
from afp.frames import code_text, cut, frame_of, reply_of, show_payload, show_reply, status_block
from afp.rounds import LONGEST_ROUND, folded, rounds, value_at
from afp.tables import COMMAND, DSI_NAMES, WRITE
from afp.texts import BadText, data_of, data_text, tokens

LONGEST_SHOWN = 150
AT = re.compile(r"(\d+) (\d+) (?:cut (\d+(?:,\d+)*) )?(.*)")


class BadScript(Exception):
    def __init__(self, number, reason):
        super().__init__(f"line {number}: {reason}")


def statements(text):
    """The lines of a script with their numbers and indents: comments are left out, and lines that begin with + or -> are joined to those before them."""
    found = []
    for number, line in enumerate(text.split("\n"), 1):
        said = line.strip(" ")
        if found and said[:2] in ("+ ", "->"):
            found[-1][2] += " " + said
        elif said and said[0] != "#":
            found.append([number, len(line) - len(line.lstrip(" ")), said])
    return found


def without_rounds(lines, heads=rounds, put=value_at):
    """The lines with each round said in full: `heads` tells the name and the values of its first line, and `put` puts a value into a text."""
    at = 0
    while at < len(lines):
        number, indent, said = lines[at]
        at += 1
        if not said.startswith("for "):
            yield number, said
            continue
        end = at
        while end < len(lines) and lines[end][1] > indent:
            end += 1
        try:
            name, values = heads(said)
        except BadText as reason:
            raise BadScript(number, reason)
        for value in values:
            yield from without_rounds([[number, indent, put(said, name, value)] for number, indent, said in lines[at:end]], heads, put)
        at = end


def take_lines(writer, lines, wrong):
    """Has a writer take each line. A line that says nothing is told with its number, by its own reason or by `wrong`."""
    for number, said in lines:
        try:
            writer.line(said)
        except (BadText, Unread) as reason:
            raise BadScript(number, reason)
        except (ArithmeticError, AttributeError, LookupError, TypeError, ValueError, error):
            raise BadScript(number, f"{said} {wrong}")


def items(words):
    """The items of a line, which + parts, each round of one said in full."""
    parts = [[]]
    for word in words:
        if word == "+":
            parts.append([])
        else:
            parts[-1].append(word)
    for part in parts:
        if part[:1] == ["for"]:
            name, values = rounds(" ".join(part[:4]))
            for value in values:
                yield [value_at(word, name, value) for word in part[4:]]
        else:
            yield part


class Writer:
    """Makes the lines of a capture of those of a script."""

    def __init__(self):
        self.links, self.head, self.out = collections.defaultdict(Link), {}, []

    def line(self, said):
        if not said[0].isdigit():
            word, _, rest = said.partition(" ")
            self.head[word] = rest.encode("latin-1")
            self.out.append(said)
            return
        found = AT.fullmatch(said)
        if not found:
            raise BadText(f"{said} is no line of a script")
        self.event(f"at {found[1]} {found[2]}", self.links[int(found[1])], found[3], found[4])

    def event(self, at, link, cuts, said):
        if said in ("quiet", "lost"):
            self.out.append(f"{at} {said}")
            return
        words = tokens(said)
        arrow = words.index("->") if "->" in words else len(words)
        if arrow > 0 and words[0] != "out":
            self.feed(at, link, [0] + [int(it) for it in (cuts or "").split(",") if it], words[:arrow])
        if arrow < len(words) or words[0] == "out":
            data = self.replies(link, words[arrow + 1:] if arrow < len(words) else words)
            self.out.append(f"{at} out {data.hex()}")

    def feed(self, at, link, cuts, words):
        data = b""
        for item in items(words):
            part = data_of(item[1]) if item[0] == "in" else frame_of(item, link.next_id).data()
            link.take(part)
            data += part
        if sorted(set(cuts)) != cuts or cuts[-1] >= len(data):
            raise BadText("the cuts do not rise, or stand behind the last byte")
        for start, end in zip(cuts, cuts[1:] + [len(data)]):
            self.out.append(f"{at} in {data[start:end].hex()}")

    def replies(self, link, words):
        data = b""
        for item in items(words):
            part = data_of(item[1]) if item[:1] == ["out"] else self.reply(link, item).data()
            link.give(part)
            data += part
        return data

    def reply(self, link, item):
        if item[:1] in (["reply"], ["request"]):
            return frame_of(item[item[0] == "request":], 0)
        if not link.waiting:
            raise BadText("no request waits for this reply")
        status = status_block(self.head["server"], bytes.fromhex(self.head["signature"].decode()))
        return reply_of(item, link.waiting[0], status)


def write(text):
    """The capture that a script says."""
    writer = Writer()
    take_lines(writer, without_rounds(statements(text)), "says no line of a capture")
    return ("\n".join(writer.out) + "\n" * text.endswith("\n")).encode("latin-1")


def field_texts(shown):
    unnamed = ("path", "name", "")
    return [it.text if it.name in unnamed else f"{it.name}={it.text}" for it in shown if not it.usual]


def first_same(ways, data, make):
    """The first of the ways to say a frame by which its bytes are made, or nothing."""
    for words in map(" ".join, ways):
        try:
            if make(tokens(words)).data() == data:
                return words
        except (BadText, Unread):
            pass
    return None


def frame_text(frame, next_id, reasons):
    """A frame as words: by its fields where these make the same bytes, and else in hexadecimal, and why."""
    id, kind = [f"id={frame.id}"] * (frame.id != next_id), ["reply"] * frame.flags
    rare = [f"word={frame.word}"] * bool(frame.word) + [f"reserved={frame.reserved}"] * bool(frame.reserved)
    hex = [f"hex={data_text(frame.payload)}"] * bool(frame.payload)
    ways = [kind + [DSI_NAMES[frame.command]] + id + rare + hex]
    try:
        name, shown = show_payload(frame)
        reason = f"{name}: a pad is not 0"
        ways = [kind + [name] + id + more + field_texts(shown) for more in ([], rare)] + ways
    except Unread as fault:
        reason = str(fault)
    words = first_same(ways, frame.data(), lambda words: frame_of(words, next_id))
    if frame.command in (COMMAND, WRITE) and words == " ".join(ways[-1]):
        reasons[" ".join(hex)] = reason
    return words


def reply_text(frame, request, status):
    """A reply as words, in the same way; where no words make the same bytes, as bytes."""
    code = [code_text(frame.word)] * (frame.word != 0)
    ways = [(code or ["Ok"]) + [f"hex={data_text(frame.payload)}"]]
    try:
        ways.insert(0, code + field_texts(show_reply(frame, request, status)) or ["Ok"])
    except Unread:
        pass
    return first_same(ways, frame.data(), lambda words: reply_of(words, request, status)) or f"out {data_text(frame.data())}"


class Reader:
    """Makes the lines of a script of those of a capture."""

    def __init__(self, lines):
        self.lines, self.links, self.status, self.reasons = lines, collections.defaultdict(Link), status_of(lines), {}

    def texts(self):
        """The lines, each as the texts of what it says: what comes, and what is wanted."""
        at = 0
        while at < len(self.lines):
            line = self.lines[at]
            if line.word != "at" or not line.data:
                yield line.text[3:] if line.word == "at" else line.text
                at += 1
                continue
            head, link = f"{line.link} {line.moment}", self.links[line.link]
            came = self.run(at, line, "in")
            wanted = self.run(at + len(came), line, "out")[:1]
            at += len(came) + len(wanted)
            yield head + self.came_text(link, came) + self.wanted_text(link, wanted)

    def run(self, at, first, what):
        """The data of the lines from here on that say this of the same connection at the same moment."""
        end = at
        while end < len(self.lines) and self.lines[end].word == "at" and (self.lines[end].link, self.lines[end].moment, self.lines[end].what) == (
                first.link, first.moment, what):
            end += 1
        return [line.data for line in self.lines[at:end]]

    def came_text(self, link, came):
        if not came:
            return ""
        data, places = b"".join(came), [sum(map(len, came[:at])) for at in range(1, len(came))]
        cuts = f" cut {','.join(map(str, places))}" if places else ""
        frames, size, _ = ([], 0, "") if link.coming else cut(data)
        texts = []
        for frame in frames:
            texts.append(frame_text(frame, link.next_id, self.reasons))
            link.take(frame.data())
        if size < len(data):
            link.take(data[size:])
            texts.append(f"in {data_text(data[size:])}")
        return f"{cuts} {joined(texts)}"

    def wanted_text(self, link, wanted):
        if not wanted:
            return ""
        data = wanted[0]
        frames, size, _ = cut(data)
        if link.going or size < len(data):
            link.give(data)
            return f" -> out {data_text(data)}"
        texts = []
        for frame in frames:
            for given, request in link.give(frame.data())[0]:
                texts.append(reply_text(given, request, self.status) if request else f"out {data_text(given.data())}")
        return f" -> {joined(texts)}"


def joined(texts):
    """The items of a line, those that are alike folded."""
    return " + ".join(f"{head} {under[0]}".strip() for head, under in folded(texts, "J"))


def broken(text, indent):
    """A line of a script; a long one with each of its items on a line of its own."""
    if len(text) + indent > LONGEST_SHOWN:
        text = re.sub(r'("(?:[^"\\]|\\.)*")| (\+|->) ', lambda it: it[1] or f"\n{' ' * (indent + 4)}{it[2]} ", text)
    return " " * indent + text


def commented(text, reasons):
    """A line of a script, behind a comment where a call stands there in hexadecimal."""
    words = text.split(" ")
    return [f"# {reasons[word]}" for word in words if word in reasons] + [text]


def script(data):
    """The script of a capture."""
    reader, out = Reader(list(read_lines(data))), []
    texts = list(reader.texts())
    for head, under in folded(texts, "I", LONGEST_ROUND):
        lines = [line for text in under for line in commented(text, reader.reasons)]
        out += [head] * bool(head) + [broken(line, 4 if head else 0) for line in lines]
    said = "\n".join(out) + "\n" * data.endswith(b"\n")
    return said if write(said) == data else "\n".join(texts) + "\n" * data.endswith(b"\n")
