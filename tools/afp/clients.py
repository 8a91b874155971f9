"""Scripts of client runs: what a client is asked, what it writes and reads on its links, and what it prints (tools/README.md)."""
import re

from afp.frames import Request, frame_of, reply_of, status_block
from afp.scripts import items, statements, take_lines, without_rounds
from afp.tables import CODES
from afp.texts import BadText, data_of, number_of, tokens

HEAD = ["afp-capture 1", "server Mac", "signature 000102030405060708090a0b0c0d0e0f", "volume Share", "key " + "0" * 64]
STATUS = status_block(b"Mac", bytes(range(16)))
# The secrets of the first sessions under a token key of zeros.
SECRETS = {1: "ef3fdfd6c61578fb", 2: "d0c5b9b744287072", 3: "022f2bf076581743"}
LONGEST_READ, LONGEST_FRAME = 16384, 131088
# The requests by which a client opens a link: their ids count on each link, those of all others from link to link.
LAST_OF_OPENING = ("FPGetSessionToken", "FPDisconnectOldSession")
OPENING = ("DSIOpenSession", "FPLogin") + LAST_OF_OPENING
PLANS = ("source", "sink", "dials")


def token(session):
    """The token of a session, as the text of a field."""
    return '"' + "".join(f"\\x{byte:02x}" for byte in session.to_bytes(8, "big") + bytes.fromhex(SECRETS[session])) + '"'


def rounds_of_words(head):
    """The name and the values of `for NAME in WORD..:`."""
    found = re.fullmatch(r"for (\S+) in (.+):", head)
    if not found:
        raise BadText(f"{head} is no round")
    return found[1], found[2].split()


def word_in(text, name, word):
    """{NAME} is the word, and {NAME#} the number of the code."""
    return text.replace("{" + name + "}", word).replace("{" + name + "#}", str(CODES.get(word, word)))


class Link:
    """A link: the lines of when it was made and of what comes on it, the bytes that are written, how many calls there were, how many of them
    writes, and what is planned of them."""

    def __init__(self, made):
        self.lines, self.written, self.calls, self.writes, self.takes, self.fails = [f"link {made}"], b"", 0, 0, [], []

    def case(self):
        return self.lines + [f"calls takes {size}" for size in self.takes] + [f"calls fails {call}" for call in self.fails]


class Writer:
    """Makes the lines of a case, what is printed of it, and the lines of a capture, of those of a script."""

    def __init__(self):
        self.lines, self.links, self.printed, self.end, self.capture = [], [], "", "", []
        self.moment, self.pieces, self.user = 100, LONGEST_READ, None
        # Whether a server of this project answers so, and the name of its capture among those of test_captures.
        self.is_server, self.capture_name = False, ""
        # The next id, and the request that waits, of openings and of commands.
        self.ids, self.asked, self.is_opened = {"opening": 0, "command": 0}, {}, False

    # What stands before the first link.
    def head(self, word, rest):
        if word == "user":
            name, _, password = rest.partition(" ")
            self.user = name, password.encode()
            self.lines.append(f"user {name} {self.user[1].ljust(8, bytes(1)).hex()}")
        elif word == "turns" or word in PLANS:
            self.lines.append(f"{word} {rest}")
        elif word == "pieces":
            self.pieces = number_of(rest)
        elif word == "at":
            self.moment = number_of(rest)
        else:
            return False
        return True

    def login(self):
        if self.user is None:
            return 'FPLogin version="AFP3.3" uam="No User Authent"'
        password = "".join(f"\\x{byte:02x}" for byte in self.user[1])
        return f'FPLogin version="AFP3.3" uam="Cleartxt Passwrd" user="{self.user[0]}" password="{password}"'

    def opening(self, last):
        """A link with its opening, whose last request and reply these are."""
        for said in ("link", "DSIOpenSession quantum=1024 -> request=130048 replay=32", f"{self.login()} -> Ok", last):
            self.line(said)

    # A line.
    def line(self, said):
        word, _, rest = said.partition(" ")
        if word == "server":
            self.is_server, self.capture_name = True, rest
        elif word == ">":
            self.lines.append(f"script {rest}")
        elif word == ">>":
            self.lines.append(f"bytes {data_of(rest).hex()}")
        elif word in ("<", "<<"):
            self.printed += rest + "/" * (word == "<")
        elif word == "end":
            self.end = rest
        elif word == "session":
            self.opening(f"FPGetSessionToken type=0 -> token={token(number_of(rest))}")
        elif word == "rejoin":
            self.opening(f"FPDisconnectOldSession type=0 token={token(number_of(rest))} -> Ok")
        elif word == "link":
            self.link()
        elif not self.head(word, rest):
            self.on_link(word, rest, said)

    def link(self):
        """Another link, on which the ids of the opening begin anew; those of commands go on where they stood."""
        self.links.append(Link(self.moment))
        self.ids["opening"], self.is_opened = 0, False

    def on_link(self, word, rest, said):
        link = self.links[-1]
        if word == "quiet":
            self.moment = number_of(rest)
            link.lines.append(f"{self.moment} quiet")
            link.calls += 1
        elif word == "lost":
            self.tell("lost")
        elif word == "fails":
            self.fail(link, rest, 0)
        elif word == "part":
            size, _, rest = rest.partition(" ")
            link.takes += [LONGEST_FRAME] * (link.writes - len(link.takes)) + [number_of(size)]
            link.calls += 1
            self.fail(link, rest, number_of(size))
        elif word == "takes":
            link.takes.append(number_of(rest))
        elif word == "<-":
            self.come(b"".join(self.sent(item) for item in items(tokens(rest))))
        elif word == "again":
            words = tokens(rest)
            self.write(self.again(words[:1] == ["new"]), words[words.index("->") + 1:] if "->" in words else None)
        else:
            words = tokens(said)
            arrow = words.index("->") if "->" in words else len(words)
            self.write(self.request(words[:arrow]), words[arrow + 1:] if arrow < len(words) else None)

    def fail(self, link, said, size):
        """The next call fails: a read, or a write behind so many bytes of the request that is said."""
        if said:
            link.written += self.request(tokens(said)).data()[:size]
        link.fails.append(link.calls)
        link.calls += 1

    # What the client writes.
    def request(self, words):
        kind = "opening" if words[0] in OPENING else "command"
        frame = frame_of(words, self.ids[kind])
        if frame.is_asked():
            self.ids[kind] = (frame.id + 1) % 65536
            self.asked[kind] = frame
        return frame

    def again(self, new):
        """The request that waits, as it was, or under the next id."""
        kind = "command" if self.is_opened else "opening"
        if new:
            self.asked[kind].id, self.ids[kind] = self.ids[kind], (self.ids[kind] + 1) % 65536
        return self.asked[kind]

    def write(self, frame, reply):
        link = self.links[-1]
        link.written += frame.data()
        link.calls += 1
        link.writes += 1
        self.tell(f"in {frame.data().hex()}")
        if reply is not None:
            request = Request(frame)
            told = reply_of(reply, request, STATUS)
            self.come(told.data())
            self.opened(request.call.name if request.call else "", told.word)

    def opened(self, call, code):
        """An opening may be done: behind a token the ids of commands go on behind its own."""
        if code == 0 and call in LAST_OF_OPENING:
            self.is_opened = True
            if call == "FPGetSessionToken":
                self.ids["command"] = self.ids["opening"]

    # What comes.
    def sent(self, words):
        return data_of(words[1]) if words[0] == "in" else frame_of(words[words[0] == "request":], 0).data()

    def come(self, data):
        link = self.links[-1]
        for at in range(0, len(data), self.pieces):
            link.lines.append(f"{self.moment} in {data[at:at + self.pieces].hex()}")
            link.calls += 1
        self.tell(f"out {data.hex()}")

    def tell(self, what):
        self.capture.append(f"at {len(self.links)} {self.moment} {what}")

    # What is made.
    def case(self):
        return "\n".join(self.lines + [line for link in self.links for line in link.case()]) + "\n"

    def told(self, name):
        head = [name, f"printed {self.printed}", f"end {self.end}"]
        return "\n".join(head + [f"wrote {link.written.hex()}" for link in self.links]) + "\n"

    def whole_capture(self):
        user = ["user ann:secret"] * (self.user is not None)
        return "\n".join(HEAD[:3] + user + HEAD[3:] + self.capture + ["end"]) + "\n"


def read(text):
    """What a script makes."""
    writer = Writer()
    take_lines(writer, without_rounds(statements(text), rounds_of_words, word_in), "says nothing")
    return writer
