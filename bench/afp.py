"""A client of the file server: frames of the Data Stream Interface and the calls on open forks, over a plain socket."""
import os
import socket
import struct
import subprocess
import time

TOP = os.path.dirname(os.path.dirname(os.path.abspath(__file__)))
SIGNATURE = "000102030405060708090a0b0c0d0e0f"

OK, DENY_CONFLICT, EOF_ERR, FILE_BUSY, LOCK_ERR = 0, -5006, -5009, -5010, -5013
PARAM_ERR, RANGE_NOT_LOCKED, RANGE_OVERLAP = -5019, -5020, -5021
ROOT, SHARE = 2, 1


def free_port():
    with socket.socket() as probe:
        probe.bind(("127.0.0.1", 0))
        return probe.getsockname()[1]


def start_server(port, links, program=None):
    """Starts the file server. Without a program it is `./run afpd`'s, which is built first."""
    if program is None:
        subprocess.run([os.path.join(TOP, "run"), "afpd"], stdin=subprocess.DEVNULL, stdout=subprocess.DEVNULL)
        program = os.path.join(TOP, ".run", "afpd")
    words = ["--server", "Mac", "--signature", SIGNATURE, "--port", str(port), "--workers", "1", "--links", str(links), "Share=memory"]
    return subprocess.Popen([program] + words, stdin=subprocess.DEVNULL, stdout=subprocess.PIPE)


def connect(port, seconds=20):
    """Connects to a program that was just started. Its first link is the one that is given."""
    until = time.monotonic() + seconds
    while True:
        try:
            link = socket.create_connection(("127.0.0.1", port), timeout=seconds)
        except OSError:
            if time.monotonic() > until:
                raise
            time.sleep(0.05)
            continue
        link.setsockopt(socket.IPPROTO_TCP, socket.TCP_NODELAY, 1)
        return link


class Link:
    """Frames on a link: a request is written, and its reply is read."""

    def __init__(self, link):
        self.link = link
        self.number = 0

    def take(self, count):
        out = bytearray(count)
        view = memoryview(out)
        while view:
            got = self.link.recv_into(view)
            if got == 0:
                raise EOFError("the link ended")
            view = view[got:]
        return bytes(out)

    def ask(self, command, block, data=b""):
        """The code and the payload of the reply."""
        word = len(block) if command == 6 else 0
        head = struct.pack(">BBHIII", 0, command, self.number, word, len(block) + len(data), 0)
        self.link.sendall(head + block + data)
        flags, command_, number, code, length, _ = struct.unpack(">BBHiII", self.take(16))
        if (flags, command_, number) != (1, command, self.number):
            raise ValueError("a reply to another request")
        self.number = (self.number + 1) % 65536
        return code, self.take(length)

    def close(self):
        self.link.close()


class Session(Link):
    """A session, logged in without a user, with the volume Share open."""

    def __init__(self, link):
        super().__init__(link)
        self.must(4, b"\x01\x04\x00\x00\x04\x00")
        self.must(2, b"\x12\x06AFP3.3\x0fNo User Authent")
        self.must(2, b"\x18\x00\x00\x20\x05Share")

    def must(self, command, block, data=b""):
        code, reply = self.ask(command, block, data)
        if code != OK:
            raise ValueError(f"call {block[0]} was refused with {code}")
        return reply

    @staticmethod
    def path(name):
        return bytes([2, len(name)]) + name

    def create_file(self, name, hard=False):
        return self.ask(2, struct.pack(">BBHI", 7, 0x80 * hard, SHARE, ROOT) + self.path(name))[0]

    def delete(self, name):
        return self.ask(2, struct.pack(">BBHI", 8, 0, SHARE, ROOT) + self.path(name))[0]

    def open_fork(self, name, mode, resource=False):
        """The code and the reference."""
        head = struct.pack(">BBHIHH", 26, 0x80 * resource, SHARE, ROOT, 0, mode)
        code, reply = self.ask(2, head + self.path(name))
        return code, struct.unpack(">H", reply[2:4])[0] if len(reply) >= 4 else 0

    def close_fork(self, fork):
        return self.ask(2, struct.pack(">BBH", 4, 0, fork))[0]

    def length(self, fork):
        return struct.unpack(">I", self.must(2, struct.pack(">BBHH", 14, 0, fork, 0x0200))[2:6])[0]

    def read(self, fork, at, count, mask=0, character=0):
        """The code and the bytes."""
        return self.ask(2, struct.pack(">BBHIIBB", 27, 0, fork, at, count, mask, character))

    def write(self, fork, at, data, from_end=False):
        """The code and the place behind the last byte."""
        code, reply = self.ask(6, struct.pack(">BBHiI", 33, 0x80 * from_end, fork, at, len(data)), data)
        return code, struct.unpack(">I", reply)[0] if len(reply) == 4 else None

    def lock(self, fork, at, count, unlock=False):
        """The code. A count of -1 is all that follows."""
        return self.ask(2, struct.pack(">BBHii", 1, int(unlock), fork, at, count))[0]

    def close_session(self):
        self.link.sendall(struct.pack(">BBHIII", 0, 1, self.number, 0, 0, 0))
        self.link.close()
