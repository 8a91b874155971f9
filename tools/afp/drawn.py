"""What a client meets, drawn as it asks: links that answer, break, are silent or say what may not come, a script, and what fails."""
import random
import struct

from afp.client_model import ATTENTION, CLOSE, COMMAND, DENY_CONFLICT, EOF_ERR, NO_MEMORY, OBJECT_NOT_FOUND, OPEN, TICKLE, WRITE, Client, End, frame
from afp.tables import CODE_NAMES

# How many links there are at most; and bytes of what is printed, among which one may fail.
MOST_LINKS, MOST_PRINTED = 40, 100
QUIETS = (0, 1, 15, 29, 30, 31, 60, 89, 119, 120, 121, 600)
REFUSALS = [code for code in CODE_NAMES if code not in (0, NO_MEMORY)]
NAMES = [(b"a", b"a"), (b"b%20c", b"b c"), (b"%c3%a9", b"\xc3\xa9"), (b"d.e-_", b"d.e-_"), (b"%2f", b"/"), (b"n" * 40, b"n" * 40)]
BAD = [b"", b"mkdir", b"mkdir  a", b"mkdir a b", b"get a//b", b"ls /a", b"mv a /", b"lock 65536 0 1", b"drop -1", b"find 4294967296", b"note a", b"hold %",
       b"quit", b"bye ", b"mkdir " + b"a" * 256, b"get a%00b", b"put a " + b"b" * 4091]
COMMANDS = ["mkdir", "put", "get", "ls", "mv", "cp", "swap", "rm", "hold", "lock", "unlock", "drop", "id", "find", "note", "show"]


class Link:
    """A link: what comes is drawn at each read, and kept."""

    def __init__(self, draw, made, weather):
        self.draw, self.now, self.made, self.weather = draw, made, made, weather
        self.lines, self.takes, self.fails, self.calls, self.written, self.coming, self.asked = [], [], [], 0, b"", b"", None
        if draw.random() < 0.05:
            self.takes = [draw.randrange(1, 30) for _ in range(draw.randrange(1, 12))]
        self.left = list(self.takes)

    def case(self):
        return [f"link {self.made}"] + self.lines + [f"calls takes {it}" for it in self.takes] + [f"calls fails {it}" for it in self.fails]

    def happens(self, chance):
        return self.draw.random() < self.weather * chance

    def fails_now(self, chance):
        self.calls += 1
        if self.happens(chance):
            self.fails.append(self.calls - 1)
            return True
        return False

    def write(self, data):
        flags, command, id = struct.unpack(">BBH", data[:4])
        if flags == 0 and command in (OPEN, COMMAND, WRITE):
            self.asked = command, id, data[16:]
        while data:
            if self.fails_now(0.003):
                return False
            size = self.left.pop(0) if self.left else len(data)
            self.written, data = self.written + data[:size], data[size:]
        return True

    def read(self, room):
        if self.fails_now(0.005):
            return None
        if self.happens(0.02):
            return None
        if self.happens(0.04):
            self.now += self.draw.choice(QUIETS)
            self.lines.append(f"{self.now} quiet")
            return b""
        if not self.coming:
            self.coming = self.answers()
        size = min(room, len(self.coming), self.draw.randrange(1, 40) if self.draw.random() < 0.1 else len(self.coming))
        piece, self.coming = self.coming[:size], self.coming[size:]
        self.lines.append(f"{self.now} in {piece.hex()}")
        return piece

    def answers(self):
        """What comes next: the reply to what was asked, and perhaps something before it."""
        before = b""
        while self.happens(0.05):
            id = self.draw.randrange(65536)
            before += frame(0, *self.draw.choice([(TICKLE, id, 0, b""), (TICKLE, id, 9, b"\1"), (ATTENTION, id, 0, b"\x80\1"), (ATTENTION, id, 7, b"\0\0")]))
        if self.happens(0.004):
            return before + frame(0, CLOSE, 0, 0, b"")
        if self.happens(0.003):
            wrong = [(0, ATTENTION, 1, 0, b"\1"), (0, COMMAND, 1, 0, b"\x10\0"), (1, TICKLE, 1, 0, b""), (0, 9, 1, 0, b""), (2, COMMAND, 1, 0, b"")]
            return before + frame(*self.draw.choice(wrong))
        command, id, block = self.asked
        code, payload = self.reply(command, block)
        if self.happens(0.02):
            payload = self.spoilt(payload)
        if self.happens(0.003):
            command, id, code = self.draw.choice([(command, (id + 1) % 65536, code), (7 - command, id, code), (command, id, -5001), (command, id, 1)])
        return before + frame(1, command, id, code, payload)

    def spoilt(self, payload):
        """A payload with a byte less or more, or with another bit."""
        if not payload or self.draw.random() < 0.3:
            return payload + b"\0"
        at, bit = self.draw.randrange(len(payload)), 1 << self.draw.randrange(8)
        return self.draw.choice([payload[:-1], payload[:at] + bytes([payload[at] ^ bit]) + payload[at + 1:]])

    def reply(self, command, block):
        """A code and a payload that may come."""
        call = 0 if command == OPEN else block[0]
        opens = call in (0, 18, 64, 65)
        if self.happens(0.04):
            return NO_MEMORY, b""
        if self.happens(0.1 if not opens else 0.05 if call == 65 else 0.01):
            code = self.draw.choice(REFUSALS)
            return code, bytes(4) if call == 26 and code == DENY_CONFLICT else b""
        number = lambda size: self.draw.choice([self.draw.getrandbits(8 * size), self.draw.randrange(1, 100)]).to_bytes(size, "big")
        text = lambda most: bytes(self.draw.getrandbits(8) for _ in range(self.draw.randrange(most)))
        if call == 0:
            return 0, self.draw.choice([bytes.fromhex("00040001fc00020400000020"), b"", text(20)])
        if call in (18, 65):
            return 0, self.draw.choice([b"", b"", b"", text(5)])
        if call == 64:
            token = text(20)
            return 0, struct.pack(">I", len(token)) + token
        if call in (7, 4, 23, 5, 42, 8, 56, 20):
            return 0, b""
        if call == 27:
            return self.draw.choice([0, EOF_ERR, EOF_ERR]), text(30)
        if call == 68:
            return (OBJECT_NOT_FOUND, b"") if self.draw.random() < 0.5 else (0, self.entries())
        if call == 34:
            return 0, b"\1\0\1\0" + self.draw.choice([b"\0\0", b"\x80\0"]) + number(4)
        if call == 41:
            name = self.draw.choice(NAMES)[1]
            return 0, b"\x20\0\0\6" + bytes(8) + struct.pack(">H", len(name)) + name + bytes(len(name) % 2)
        if call == 58:
            comment = text(20)
            return 0, bytes([len(comment)]) + comment
        return 0, {24: b"\0\x20" + number(2), 6: number(4), 26: b"\0\0" + number(2), 33: number(4), 59: number(8), 48: number(2)}[call]

    def entries(self):
        block, count = b"", self.draw.randrange(1, 4)
        for _ in range(count):
            name, id = self.draw.choice(NAMES)[1], self.draw.getrandbits(32)
            pad = bytes(len(name) % 2)
            block += struct.pack(">HBBIHIIH", 20 + len(name + pad), self.draw.choice([0, 0x80]), 0, id, 10, 0, 0, len(name)) + name + pad
        return b"\x21\0\x21\0" + struct.pack(">H", count) + block


class World:
    """A script, and who dials, reads and prints."""

    def __init__(self, seed):
        self.draw = random.Random(seed)
        draw = self.draw
        # How often what is rare happens: never, as it is said below, or several times as often.
        self.weather = draw.choice([0, 0.3, 1, 1, 3, 8])
        self.user = (b"ann", b"secret\0\0") if draw.random() < 0.3 else None
        self.turns = draw.randrange(0, 1500) if draw.random() < 0.1 else 2 ** 32 - 1
        self.said, lines = {}, []
        for _ in range(draw.randrange(0, 14)):
            line, said = self.line()
            self.said[line] = said
            lines.append(line)
        self.script = b"\n".join(lines) + (b"\n" if lines and draw.random() < 0.8 else b"")
        self.source_takes = [draw.randrange(1, 30) for _ in range(draw.randrange(0, 20))] if draw.random() < 0.2 else []
        self.source_fails = [draw.randrange(0, 8)] if draw.random() < 0.03 else []
        self.sink_fails = [draw.randrange(0, MOST_PRINTED)] if draw.random() < 0.05 else []
        self.dial_fails = [draw.randrange(0, 4)] if draw.random() < 0.03 else []
        self.links, self.dials, self.reads, self.read_to, self.printed, self.name = [], 0, 0, 0, "", ""

    def path(self, deep):
        """A path of the script, its elements, and how a request spells them."""
        names = [self.draw.choice(NAMES) for _ in range(self.draw.randrange(1 if deep else 0, 4))]
        return b"/".join(it[0] for it in names) or b"/", [it[1] for it in names]

    @staticmethod
    def spelt(names):
        text = b"\0".join(names)
        return b"\3" + bytes(4) + struct.pack(">H", len(text)) + text

    def line(self):
        """A line, and its command with its words as they are read."""
        draw = self.draw
        if draw.random() < 0.02:
            return draw.choice(BAD), None
        if draw.random() < 0.02:
            return b"bye", ("bye",)
        name = "mount" if draw.random() < 0.15 else draw.choice(COMMANDS)
        word, names = self.path(False)
        path, text = self.spelt(names), draw.choice(NAMES)
        if name == "mount":
            return b"mount " + text[0], ("mount", text[1])
        if name in ("put", "note"):
            return f"{name} ".encode() + word + b" " + text[0], (name, path, text[1])
        if name in ("mv", "cp", "swap"):
            target, elements = self.path(True)
            words = (self.spelt(elements),) if name == "swap" else (self.spelt(elements[:-1]), self.spelt(elements[-1:]))
            return f"{name} ".encode() + word + b" " + target, (name, path) + words
        if name in ("lock", "unlock"):
            numbers = draw.randrange(65536), draw.getrandbits(63), draw.getrandbits(draw.choice([4, 63]))
            return " ".join([name] + [str(it) for it in numbers]).encode(), (name,) + numbers
        if name in ("drop", "find"):
            number = draw.getrandbits(16 if name == "drop" else 32)
            return f"{name} {number}".encode(), (name, number)
        return f"{name} ".encode() + word, (name, path)

    # What the client does.
    def dial(self):
        self.dials += 1
        if self.dials - 1 in self.dial_fails or len(self.links) == MOST_LINKS:
            return None
        made = (self.links[-1].now if self.links else 100) + self.draw.choice([0, 0, 0, 5, 700])
        self.links.append(Link(self.draw, made, self.weather))
        return self.links[-1]

    def source(self, room):
        self.reads += 1
        if self.reads - 1 in self.source_fails:
            return None
        done = self.reads - 1 - sum(it < self.reads - 1 for it in self.source_fails)
        size = min(room, self.source_takes[done]) if done < len(self.source_takes) else room
        piece = self.script[self.read_to:self.read_to + size]
        self.read_to += len(piece)
        return piece

    def print(self, text):
        """A sink that fails takes one byte at a time."""
        for character in text:
            if len(self.printed) in self.sink_fails:
                raise End("WriteFault")
            self.printed += character

    def end(self, name, text=""):
        try:
            self.print(f"{text}\n" if text else "")
        except End:
            name = "WriteFault"
        self.name = name

    # What is made.
    def run(self):
        Client(self, self.user, self.turns).run(lambda line: self.said.get(line))
        return self

    def case(self):
        user = [f"user {self.user[0].decode()} {self.user[1].hex()}"] if self.user else []
        takes = [f"source takes {it}" for it in self.source_takes] + ["sink takes 1"] * (MOST_PRINTED if self.sink_fails else 0)
        plans = {"source": self.source_fails, "sink": self.sink_fails, "dials": self.dial_fails}
        fails = [f"{name} fails {it}" for name, numbers in plans.items() for it in numbers]
        lines = user + [f"turns {self.turns}", f"bytes {self.script.hex()}"] + takes + fails + [line for link in self.links for line in link.case()]
        return "\n".join(lines) + "\n"

    def told(self, name):
        head = [name, f"printed {self.printed}".replace("\n", "/"), f"end {self.name}"]
        return "\n".join(head + [f"wrote {link.written.hex()}" for link in self.links]) + "\n"
