"""Frames of the Data Stream Interface, and what they say as words of a line, both ways."""
import struct

from afp.blocks import BY_NAME, BY_NUMBER, Block, Given, Shown, Unread, tail
from afp.tables import ANSWERED, CODES, CODE_NAMES, COMMAND, DSI, DSI_NAMES, GET_STATUS, OPEN_SESSION, WRITE
from afp.texts import BadText, data_of, data_text, number_of

HEADER = struct.Struct(">BBHiII")
LONGEST_PAYLOAD = 131072
# The options of OpenSession by their types: those that a client gives, and those of the answer.
CLIENT_OPTIONS, SERVER_OPTIONS = {1: "quantum"}, {0: "request", 2: "replay"}


class Frame:
    def __init__(self, flags, command, id, word, payload, reserved=0):
        self.flags, self.command, self.id, self.word, self.payload, self.reserved = flags, command, id, word, payload, reserved

    def data(self):
        word = self.word - (1 << 32) if self.word >= 1 << 31 else self.word
        return HEADER.pack(self.flags, self.command, self.id, word, len(self.payload), self.reserved) + self.payload

    def is_asked(self):
        """Whether it is a request that has a reply."""
        return self.flags == 0 and self.command in ANSWERED

    def parts(self):
        """The block of a call, and what is enclosed."""
        return (self.payload[:self.word], self.payload[self.word:]) if self.command == WRITE else (self.payload, None)


def fault(flags, command, word, length):
    """Why a header is bad, or nothing."""
    if flags > 1:
        return f"flags {flags}"
    if command not in DSI_NAMES:
        return f"command {command}"
    if length > LONGEST_PAYLOAD:
        return f"a length of {length}"
    return f"an offset of {word}, above the length" if command == WRITE and flags == 0 and word & 0xffffffff > length else ""


def cut(data):
    """The frames at the front of the bytes, how many bytes they have, and why the header behind them is bad, where it is."""
    frames, at = [], 0
    while len(data) - at >= HEADER.size:
        flags, command, id, word, length, reserved = HEADER.unpack_from(data, at)
        reason = fault(flags, command, word, length)
        if reason or len(data) - at - HEADER.size < length:
            return frames, at, reason
        at += HEADER.size + length
        frames.append(Frame(flags, command, id, word, bytes(data[at - length:at]), reserved))
    return frames, at, ""


def status_block(server, signature):
    """What DSIGetStatus is told of a server."""
    counted = lambda text: bytes([len(text)]) + text
    lists = [b"Macintosh", [b"AFP3.3", b"AFP3.2", b"AFP3.1"], [b"No User Authent", b"Cleartxt Passwrd"]]
    name = counted(server) + bytes((11 + len(server)) % 2)
    parts = [counted(lists[0])] + [bytes([len(it)]) + b"".join(map(counted, it)) for it in lists[1:]] + [signature, b"\0", b"\0"]
    places = [18 + len(name) + sum(map(len, parts[:at])) for at in range(len(parts) + 1)]
    head = struct.pack(">5H", *places[:3], 0, 0x02b9) + name + struct.pack(">4H", *places[3:])
    return head + b"".join(parts) + len(server).to_bytes(2, "big") + server


def read_words(words, block, more):
    """Reads a layout. Bytes behind it are shown where they are free."""
    block.fields["more"] = b""
    for word in words:
        word.read(block)
    if block.left():
        if not more:
            raise Unread(f"{block.left()} bytes stand behind the last field")
        block.fields["more"] = block.take(block.left(), "more")
    shown = [it for word in words for it in word.show(block.fields)]
    return shown + [Shown("more", data_text(block.fields["more"]))] * bool(block.fields["more"] and "more" not in [it.name for it in shown])


def write_words(words, given):
    for word in words:
        word.write(given)
    if "more" in given.named:
        given.block += data_of(given.take("more"))


class Options:
    """The options of an OpenSession, or of its reply, each with a length of 4."""

    def __init__(self, names):
        self.names = names

    def read(self, block):
        found = block.fields["options"] = []
        while block.left():
            kind, size = block.take(2, "an option")
            if kind not in self.names or size != 4:
                raise Unread("an option is another")
            found.append((self.names[kind], block.number(4, self.names[kind])))

    def write(self, given):
        for name in [it for it in given.named if it in self.names.values()]:
            given.block += bytes([min(kind for kind in self.names if self.names[kind] == name), 4])
            given.put(name, number_of(given.take(name)), 4)

    def show(self, fields):
        return [Shown(name, str(value)) for name, value in fields["options"]]


class Status:
    """The status block of the server that a capture names."""

    def read(self, block):
        if block.take(block.left(), "") != block.fields["status_block"]:
            raise Unread("another status block")

    def write(self, given):
        given.block += given.fields["status_block"] if given.take("status") else b""

    def show(self, fields):
        return [Shown("", "status")]


def read_call(frame):
    """A call and its fields as shown."""
    block, enclosed = frame.parts()
    if not block or block[0] not in BY_NUMBER:
        raise Unread(f"{block[0]} is the number of no call" if block else "the block is empty")
    call = BY_NUMBER[block[0]]
    if enclosed is not None and not call.is_write:
        raise Unread(f"{call.name} comes in no DSIWrite")
    source = Block(block, {}, enclosed)
    source.place = 1
    try:
        shown = read_words(call.request, source, True)
    except Unread as reason:
        raise Unread(f"{call.name}: {reason}")
    return call, shown, source.fields


def reply_words(request, code):
    """The layout of a reply to a request with this code."""
    name = request.call.name if request.call else ""
    if request.command == GET_STATUS or code == 0 and name == "FPGetSrvrInfo":
        return [Status()]
    if request.command == OPEN_SESSION and code == 0:
        return [Options(SERVER_OPTIONS)]
    if request.call and (code == 0 or code == CODES["DenyConflict"] and name == "FPOpenFork"):
        return request.call.reply
    return [tail("data")] if code == CODES["EOFErr"] and name in ("FPRead", "FPReadExt") else []


class Request:
    """A request that waits for its reply: its call, where it is one, and its fields."""

    def __init__(self, frame):
        self.command, self.id, self.call, self.fields = frame.command, frame.id, None, {}
        if frame.command in (COMMAND, WRITE):
            try:
                self.call, _, self.fields = read_call(frame)
            except Unread:
                block = frame.parts()[0]
                self.call = BY_NUMBER.get(block[0]) if block else None


def show_payload(frame):
    """The name and the fields of a frame that stands alone."""
    if frame.flags == 0 and frame.command in (COMMAND, WRITE):
        call, shown, _ = read_call(frame)
        return call.name, shown
    words = [Options(CLIENT_OPTIONS)] if frame.flags == 0 and frame.command == OPEN_SESSION else []
    return DSI_NAMES[frame.command], read_words(words, Block(frame.payload, {}), False)


def show_reply(frame, request, status):
    """The fields of a reply to a request."""
    return read_words(reply_words(request, frame.word), Block(frame.payload, dict(request.fields, status_block=status)), False)


def given_of(words, fields):
    """The words of a line by their names: NAME=TEXT, a text alone, `status`, and lists in brackets."""
    named, lists, at = {}, [], 0
    while at < len(words):
        name, equals, text = words[at].partition("=")
        if words[at] == "[":
            end = words.index("]", at)
            lists.append(words[at + 1:end])
            at = end
        elif words[at][:1] == '"' or words[at][:2] == 'u"':
            name, text = "path", words[at]
        elif words[at] != "status" and not equals:
            raise BadText(f"{words[at]} is no field")
        if name in named:
            raise BadText(f"{words[at]} is one too many")
        if name not in "[]":
            named[name] = text or name
        at += 1
    return Given(named, lists, fields)


def all_taken(given):
    left = list(given.named) + [" ".join(it) for it in given.lists]
    if left:
        raise BadText(f"{left[0]} is no field here")


def frame_of(words, next_id):
    """A frame by its words: reply NAME [id=N] [word=N] [reserved=N] and its fields."""
    flags = 1 if words[0] == "reply" else 0
    name, given = words[flags], given_of(words[flags + 1:], {})
    id, reserved = number_of(given.take("id", str(next_id))), number_of(given.take("reserved", "0"))
    word, call, command = given.named.pop("word", None), BY_NAME.get(name), DSI.get(name)
    if call:
        command = WRITE if call.is_write else COMMAND
        given.block.append(call.number)
        write_words(call.request, given)
    elif command:
        write_words([Options(CLIENT_OPTIONS)], given)
        given.block += data_of(given.take("hex", '""'))
    else:
        raise BadText(f"{name} is no frame")
    all_taken(given)
    usual = len(given.block) if call and call.is_write else 0
    return Frame(flags, command, id, usual if word is None else number_of(word), bytes(given.block) + given.enclosed, reserved)


def reply_of(words, request, status):
    """A reply to a request by its words: a code, where it is not Ok, and its fields."""
    is_code = bool(words) and (words[0] in CODES or words[0].lstrip("-").isdigit())
    code = 0 if not is_code else CODES[words[0]] if words[0] in CODES else number_of(words[0])
    given = given_of(words[is_code:], dict(request.fields, status_block=status))
    if "hex" in given.named:
        given.block += data_of(given.take("hex"))
    else:
        write_words(reply_words(request, code), given)
    all_taken(given)
    return Frame(1, request.command, request.id, code, bytes(given.block))


def code_text(code):
    return CODE_NAMES.get(code, str(code))
