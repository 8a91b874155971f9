"""A client of scripts in Python, over links that are drawn as it asks: what a client has to write and to print (docs/PROTOCOL.md)."""
import struct

from afp.tables import CODE_NAMES

LONGEST_PAYLOAD, BUFFER, ROOM, SOURCE_ROOM, LONGEST_LINE = 131072, 131088, 16384, 4096, 4096
CLOSE, COMMAND, OPEN, TICKLE, WRITE, ATTENTION = 1, 2, 4, 5, 6, 8
NO_MEMORY, OBJECT_NOT_FOUND, EOF_ERR, DENY_CONFLICT = -108, -5018, -5009, -5006
MOST_BROKEN, MOST_RETRIES, QUIET, SILENCE = 8, 3, 30, 120
GUEST, CLEARTEXT = b"\x12\x06AFP3.3\x0fNo User Authent", b"\x12\x06AFP3.3\x10Cleartxt Passwrd"


class End(Exception):
    """The client ends so; the text is its last line."""

    def __init__(self, name, text=""):
        super().__init__(name)
        self.name, self.text = name, text


class Broke(Exception):
    """The link broke."""


class Refused(Exception):
    """A call was refused."""


class BadReply(Exception):
    """A reply is none of its call."""


def frame(flags, command, id, word, payload):
    return struct.pack(">BBHIII", flags, command, id, word & 0xffffffff, len(payload), 0) + payload



def shown(text):
    """A text with %XX for bytes that are not shown."""
    plain = b"abcdefghijklmnopqrstuvwxyzABCDEFGHIJKLMNOPQRSTUVWXYZ0123456789.-_"
    return "".join(chr(it) if it in plain else f"%{it:02x}" for it in text)


class Client:
    """A client over a world: who dials, reads and prints (drawn.py)."""

    def __init__(self, world, user, turns):
        self.world, self.user, self.turns = world, user, turns
        self.link, self.token, self.waiting, self.next_id, self.cost, self.row = None, None, None, 0, 0, 0
        self.held, self.place, self.replied = b"", 0, False

    # Links.
    def may_go_on(self):
        if self.cost >= self.turns:
            raise End("Spent", "spent")

    def dial(self):
        """A link that is opened, over as many links as break."""
        while True:
            if self.row >= MOST_BROKEN:
                raise End("Broken", "broken")
            self.may_go_on()
            self.link = self.world.dial()
            if self.link is None:
                raise End("DialFault", "dial fault")
            self.cost += 1
            self.held, self.place, self.replied = b"", 0, False
            self.heard = self.wrote = self.link.now
            try:
                self.open()
                return
            except Broke:
                self.broke()

    def broke(self):
        self.row = 0 if self.replied else self.row + 1
        self.link = None

    def send(self, data):
        self.wrote = self.link.now
        if not self.link.write(data):
            raise Broke

    def read(self):
        """Bytes, or nothing at a quiet."""
        self.may_go_on()
        got = self.link.read(min(ROOM, BUFFER - len(self.held)))
        if got is None:
            raise Broke
        self.cost += len(got) or 1
        self.held += got
        if got:
            self.heard = self.link.now
        elif self.link.now - self.heard >= SILENCE:
            raise Broke
        elif self.link.now - self.wrote >= QUIET:
            self.send(frame(0, TICKLE, 0, 0, b""))

    def bad(self, place):
        raise End(f"BadReply {{ at: {place} }}", "bad reply")

    def next_frame(self):
        """The place, the flags, command, id and word, and the payload of the next frame."""
        while True:
            if len(self.held) >= 16:
                flags, command, id, word, length = struct.unpack(">BBHII", self.held[:12])
                if flags > 1 or command not in (1, 2, 3, 4, 5, 6, 8) or length > LONGEST_PAYLOAD or (command == WRITE and flags == 0 and word > length):
                    self.bad(self.place)
                if len(self.held) >= 16 + length:
                    payload, place = self.held[16:16 + length], self.place
                    self.held, self.place = self.held[16 + length:], place + 16 + length
                    return place, flags, command, id, word, payload
            self.read()

    def reply(self, command, id):
        """The place, the code and the payload of the reply to a request."""
        while True:
            place, flags, told, its_id, word, payload = self.next_frame()
            if flags == 0 and told == TICKLE:
                continue
            if flags == 0 and told == CLOSE:
                raise Broke
            if flags == 0 and told == ATTENTION and len(payload) == 2:
                self.send(frame(1, ATTENTION, its_id, 0, b""))
                continue
            code = word - (1 << 32) if word >= 1 << 31 else word
            if flags == 0 or (told, its_id) != (command, id) or code not in CODE_NAMES:
                self.bad(place)
            return place, code, payload

    # Openings.
    def ask_opening(self, command, id, payload):
        """The code, the payload and the id of the reply, behind retries."""
        retries = 0
        while True:
            self.send(frame(0, command, id, 0, payload))
            place, code, told = self.reply(command, id)
            if code != NO_MEMORY or retries == MOST_RETRIES:
                return place, code, told, id + 1
            retries, id = retries + 1, id + 1

    def login(self):
        if self.user is None:
            return GUEST
        name, password = self.user
        block = CLEARTEXT + bytes([len(name)]) + name
        return block + bytes(len(block) % 2) + password

    def open(self):
        id = 0
        for command, payload in ((OPEN, b"\x01\x04\0\0\x04\0"), (COMMAND, self.login())):
            _, code, _, id = self.ask_opening(command, id, payload)
            if code:
                raise End(f"Refused {{ code: {CODE_NAMES[code]} }}", f"refused {code}")
        if self.token is None:
            place, code, told, id = self.ask_opening(COMMAND, id, struct.pack(">BBHI", 64, 0, 0, 0))
            if code:
                raise End(f"Refused {{ code: {CODE_NAMES[code]} }}", f"refused {code}")
            if len(told) < 4 or struct.unpack(">I", told[:4])[0] != len(told) - 4:
                self.bad(place)
            self.token, self.next_id = told[4:], id
        else:
            _, code, _, _ = self.ask_opening(COMMAND, id, struct.pack(">BBHI", 65, 0, 0, len(self.token)) + self.token)
            if code:
                raise End(f"SessionLost {{ line: {self.line} }}", f"lost {self.line}")
        if self.waiting:
            self.send(self.waiting_frame())

    # Commands.
    def waiting_frame(self):
        command, id, block, data = self.waiting
        return frame(0, command, id, len(block) if command == WRITE else 0, block + data)

    def draw_id(self):
        id, self.next_id = self.next_id, (self.next_id + 1) % 65536
        return id

    def ask(self, block, data=None):
        """The code and the payload of a call's reply, over as many links as break."""
        self.waiting = [COMMAND if data is None else WRITE, self.draw_id(), block, data or b""]
        retries, is_sent = 0, False
        while True:
            try:
                if self.link is None:
                    self.dial()
                    is_sent = True
                if not is_sent:
                    self.send(self.waiting_frame())
                    is_sent = True
                self.last, code, payload = self.reply(self.waiting[0], self.waiting[1])
                self.replied = True
                if code != NO_MEMORY or retries == MOST_RETRIES:
                    self.waiting = None
                    return code, payload
                retries, is_sent = retries + 1, False
                self.waiting[1] = self.draw_id()
            except Broke:
                self.broke()

    def must(self, block, data=None, shape=b"", refused=b""):
        """The payload of an Ok reply; its size is that of the shape, and that of a refusal is the other's."""
        code, payload = self.ask(block, data)
        if len(payload) != len(shape if code == 0 else refused):
            raise BadReply
        if code:
            raise Refused(code)
        return payload

    def open_fork(self, mode, path):
        code, payload = self.ask(struct.pack(">BBHIHH", 26, 0, self.volume, 2, 0, mode) + path)
        if code in (0, DENY_CONFLICT):
            if len(payload) != 4 or payload[:2] != b"\0\0":
                raise BadReply
        elif payload:
            raise BadReply
        if code:
            raise Refused(code)
        return struct.unpack(">H", payload[2:])[0]

    def close_fork(self, fork):
        self.must(struct.pack(">BBH", 4, 0, fork))

    def refuse_in(self, fork, code):
        """A refusal, behind a fork that is closed."""
        _, payload = self.ask(struct.pack(">BBH", 4, 0, fork))
        if payload:
            raise BadReply
        raise Refused(code)

    def at(self, command, path, flag=0):
        return struct.pack(">BBHI", command, flag, self.volume, 2) + path

    def mount(self, name):
        block = self.must(b"\x18\0\0\x20" + bytes([len(name)]) + name, shape=bytes(4))
        if block[:2] != b"\0\x20":
            raise BadReply
        self.volume = struct.unpack(">H", block[2:])[0]
        return [f"mounted {self.volume}"]

    def mkdir(self, path):
        return [f"dir {int.from_bytes(self.must(self.at(6, path), shape=bytes(4)), 'big')}"]

    def put(self, path, data):
        self.must(self.at(7, path, 0x80))
        fork = self.open_fork(0x22, path)
        code, payload = self.ask(struct.pack(">BBHII", 33, 0, fork, 0, len(data)), data)
        if len(payload) != (4 if code == 0 else 0):
            raise BadReply
        if code:
            self.refuse_in(fork, code)
        self.close_fork(fork)
        return [f"put {len(data)}"]

    def get(self, path):
        fork, got = self.open_fork(1, path), b""
        while True:
            code, payload = self.ask(struct.pack(">BBHIIBB", 27, 0, fork, len(got), 65536, 0, 0))
            if code not in (0, EOF_ERR):
                if payload:
                    raise BadReply
                self.refuse_in(fork, code)
            got += payload
            if code:
                break
        self.close_fork(fork)
        return [f"got {len(got)}" + f" {got.hex()}" * bool(got)]

    def entries(self, block):
        """The lines of a list. The pad behind a flag is not looked at."""
        if len(block) < 6 or block[:4] != b"\x21\0\x21\0":
            raise BadReply
        count, at, lines = struct.unpack(">H", block[4:6])[0], 6, []
        for _ in range(count):
            if len(block) < at + 20:
                raise BadReply
            size, flag, _, id, place, zero, hint, name = struct.unpack(">HBBIHIIH", block[at:at + 20])
            whole = 20 + name + (name % 2)
            if flag not in (0, 0x80) or place != 10 or size != whole or len(block) < at + whole or zero or hint or (name % 2 and block[at + whole - 1]):
                raise BadReply
            lines.append(f"{'dir' if flag else 'file'} {id} {shown(block[at + 20:at + 20 + name])}")
            at += whole
        if at != len(block):
            raise BadReply
        return lines

    def ls(self, path):
        lines = []
        while True:
            block = struct.pack(">BBHIHHHII", 68, 0, self.volume, 2, 0x2100, 0x2100, 64, len(lines) + 1, 65536) + path
            code, payload = self.ask(block)
            if code:
                if payload:
                    raise BadReply
                return lines + [f"listed {len(lines)}" if code == OBJECT_NOT_FOUND else f"error {code}"]
            lines += self.entries(payload)

    def two(self, command, volumes, path, target, name):
        block = struct.pack(">BBHI", command, 0, self.volume, 2) + (struct.pack(">H", self.volume) if volumes else b"") + struct.pack(">I", 2)
        self.must(block + path + target + (name or b""))
        return ["ok"]

    def mv(self, path, target, name):
        return self.two(23, False, path, target, name)

    def cp(self, path, target, name):
        return self.two(5, True, path, target, name)

    def swap(self, path, other):
        return self.two(42, False, path, other, None)

    def rm(self, path):
        self.must(self.at(8, path))
        return ["ok"]

    def hold(self, path):
        return [f"ref {self.open_fork(3, path)}"]

    def lock(self, fork, start, size, flags=0):
        return [f"start {int.from_bytes(self.must(struct.pack('>BBHQQ', 59, flags, fork, start, size), shape=bytes(8)), 'big')}"]

    def unlock(self, fork, start, size):
        return self.lock(fork, start, size, 1)

    def drop(self, fork):
        self.close_fork(fork)
        return ["ok"]

    def id(self, path):
        block = self.must(struct.pack(">BBHIHH", 34, 0, self.volume, 2, 0x100, 0x100) + path, shape=bytes(10))
        if block[:4] != b"\x01\0\x01\0" or block[4] not in (0, 0x80):
            raise BadReply
        return [f"id {int.from_bytes(block[6:], 'big')}"]

    def find(self, id):
        code, block = self.ask(struct.pack(">BBHIH", 41, 0, self.volume, id, 0x2000))
        if code:
            if block:
                raise BadReply
            raise Refused(code)
        if len(block) < 14 or block[:2] != b"\x20\0" or block[2:8] != b"\0\x06\0\0\0\0" or block[8:12] != bytes(4):
            raise BadReply
        size = struct.unpack(">H", block[12:14])[0]
        if len(block) != 14 + size + size % 2 or (size % 2 and block[-1]):
            raise BadReply
        return [f"name {shown(block[14:14 + size])}"]

    def desk(self):
        return struct.unpack(">H", self.must(struct.pack(">BBH", 48, 0, self.volume), shape=bytes(2)))[0]

    def note(self, path, text):
        block = struct.pack(">BBHI", 56, 0, self.desk(), 2) + path
        self.must(block + bytes(len(block) % 2) + bytes([len(text)]) + text)
        return ["ok"]

    def show(self, path):
        code, block = self.ask(struct.pack(">BBHI", 58, 0, self.desk(), 2) + path)
        if code:
            if block:
                raise BadReply
            raise Refused(code)
        if not block or len(block) != 1 + block[0]:
            raise BadReply
        return [f"note {shown(block[1:])}"]

    def bye(self):
        self.must(b"\x14\0")
        return ["ok"]

    # Scripts.
    def next_line(self):
        """The next line of the script, or nothing at its end."""
        while b"\n" not in self.script and not self.script_ended:
            self.may_go_on()
            got = self.world.source(SOURCE_ROOM)
            if got is None:
                raise End("ReadFault", "source fault")
            self.script_ended = not got
            self.script += got
            self.cost += len(got)
        is_whole = b"\n" in self.script
        line, _, self.script = self.script.partition(b"\n")
        return line if line or is_whole else None

    def run_line(self, said):
        """Carries out a line: a command with its words as they are read, or nothing where it is none."""
        if said is None:
            raise End(f"BadLine {{ line: {self.line} }}", f"bad line {self.line}")
        name, *words = said
        if self.volume is None and name not in ("mount", "lock", "unlock", "drop", "bye"):
            return ["no volume"]
        try:
            return getattr(self, name)(*words)
        except Refused as refusal:
            self.was_refused = True
            return [f"error {refusal.args[0]}"]

    def run(self, read_line):
        """What is printed is told to the world; the end."""
        self.line, self.volume, self.script, self.script_ended = 1, None, b"", False
        try:
            self.dial()
            self.line = 0
            while True:
                line = self.next_line()
                if line is None:
                    if self.link:
                        self.link.write(frame(0, CLOSE, 0, 0, b""))
                    return self.world.end("Done")
                self.line += 1
                self.was_refused = False
                said = read_line(line)
                self.world.print("".join(f"{text}\n" for text in self.run_line(said)))
                if said[0] == "bye" and not self.was_refused:
                    return self.world.end("Done")
        except BadReply:
            return self.world.end(f"BadReply {{ at: {self.last} }}", "bad reply")
        except End as end:
            return self.world.end(end.name, end.text)
