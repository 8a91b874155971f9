"""The lines of a capture (docs/CAPTURES.md), and what has come and gone on its connections."""
import re

from afp.frames import Request, cut, status_block

LONGEST_LINE = 300000
ORDER = ["afp-capture", "server", "signature", "user", "volume", "key", "at", "end"]
NAME = "[^ ]+"
FORMS = {
    "afp-capture": "1", "server": NAME, "signature": "[0-9a-f]{32}", "user": "[^ :]*:[\\x00-\\x1f\\x21-\\x7f]{0,8}", "volume": NAME,
    "key": "[0-9a-f]{64}", "at": "([1-9][0-9]{0,3}) (0|[1-9][0-9]{0,9}) (?:(quiet|lost)|(in|out) ((?:[0-9a-f]{2})+))",
}


class BadLine(Exception):
    """A line of no form, or out of its place; its number comes first."""

    def __init__(self, number, reason):
        super().__init__(f"line {number}: {reason}")


class Line:
    """A line of a capture: its word, what stands behind it, and of an `at` line the connection, the moment, what happened, and bytes."""

    def __init__(self, number, text):
        self.number, self.text = number, text
        self.word, _, self.rest = text.partition(" ")
        found = re.fullmatch(FORMS[self.word], self.rest) if self.word in FORMS else None
        if len(text) > LONGEST_LINE or not (found or text == "end"):
            raise BadLine(number, "has none of the forms")
        if self.word == "at":
            self.link, self.moment = int(found[1]), int(found[2])
            self.what, self.data = found[3] or found[4], bytes.fromhex(found[5] or "")
            if self.link > 1000 or self.moment > 0x7fffffff:
                raise BadLine(number, "has a number out of its range")


def read_lines(data):
    """The lines of a capture, up to its `end`, as they are asked for."""
    texts = data.decode("latin-1").split("\n")
    if texts[-1] == "":
        del texts[-1]
    last = ""
    for number, text in enumerate(texts, 1):
        line = Line(number, text)
        if not may_follow(last, line.word):
            raise BadLine(number, f"{line.word} may not stand here")
        yield line
        last = line.word
    if last != "end":
        raise BadLine(len(texts) + 1, "end is missing")


def may_follow(last, word):
    """Whether a line with this word may follow one with that."""
    at = ORDER.index(word)
    before = {0: [""], 3: ["signature", "user"], 4: ["signature", "user", "volume"], 6: ["key", "at"], 7: ["key", "at"]}
    return last in before.get(at, [ORDER[at - 1]])


def status_of(lines):
    """The status block of the server that the first lines name."""
    named = {line.word: line.rest for line in lines if line.word in ("server", "signature")}
    return status_block(named["server"].encode("latin-1"), bytes.fromhex(named["signature"]))


class Link:
    """A connection: the bytes of frames that are not whole yet, the requests without a reply, and the next id."""

    def __init__(self):
        self.coming, self.going, self.waiting, self.next_id = b"", b"", [], 0

    def take(self, data):
        """Bytes come: the frames that are whole now, and why the bytes behind them are no frame, where they are none."""
        frames, size, reason = cut(self.coming + data)
        self.coming = b"" if reason else (self.coming + data)[size:]
        for frame in frames:
            self.next_id = (frame.id + 1) % 65536
            self.waiting += [Request(frame)] * frame.is_asked()
        return frames, reason

    def give(self, data):
        """Bytes are answered: the frames that are whole now, each with the request that it answers, or with none."""
        frames, size, reason = cut(self.going + data)
        self.going = b"" if reason else (self.going + data)[size:]
        return [(frame, self.answered(frame)) for frame in frames], reason

    def answered(self, frame):
        if self.waiting and frame.flags == 1 and (self.waiting[0].command, self.waiting[0].id) == (frame.command, frame.id):
            return self.waiting.pop(0)
        return None
