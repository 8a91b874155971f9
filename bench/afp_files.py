"""The file server over database files: starting and ending it, and a client of the calls on files and directories."""
import os
import select
import signal
import struct
import subprocess
import sys
import tempfile
import time

import afp

MISC_ERR, DISK_FULL, OBJECT_NOT_FOUND = -5014, -5008, -5018
PROGRAM = os.path.join(afp.TOP, ".run", "afpd")


def build():
    subprocess.run([os.path.join(afp.TOP, "run"), "afpd"], stdin=subprocess.DEVNULL, stdout=subprocess.DEVNULL, stderr=subprocess.DEVNULL)


def step(what, got, want):
    """Prints what was done and what came of it, and ends with status 1 where something else was wanted."""
    print(f"{what}: {got!r:.220}")
    if got != want:
        print(f"wanted {want!r:.220}")
        sys.exit(1)


class Server:
    """A file server that was started with these words. Its standard error goes to a file, its report to a pipe."""

    def __init__(self, words, program=PROGRAM):
        self.errors = tempfile.TemporaryFile()
        self.process = subprocess.Popen([program] + words, stdin=subprocess.DEVNULL, stdout=subprocess.PIPE, stderr=self.errors)

    def told(self):
        """What a person was told so far. The place in the file is the server's own: a read that moves it makes lines be lost."""
        return os.pread(self.errors.fileno(), 1 << 20, 0).decode()

    def wait_listening(self, seconds=60):
        """Waits until it listens; false where it ended before."""
        until = time.monotonic() + seconds
        while time.monotonic() < until:
            if "listens on" in self.told():
                return True
            if self.process.poll() is not None:
                return False
            time.sleep(0.002)
        raise TimeoutError("the server does not listen")

    def kill(self):
        self.process.send_signal(signal.SIGKILL)
        self.process.wait()

    def ended(self, seconds=60):
        """The status and the report of a server that ends by itself."""
        report, _ = self.process.communicate(timeout=seconds)
        return self.process.returncode, report.decode()


def words_for(port, *volumes, links=0):
    return ["--port", str(port), "--workers", "1", "--links", str(links)] + list(volumes)


class Files(afp.Session):
    """A session with the calls on files and directories of the root, and on their comments."""

    @staticmethod
    def name3(name):
        return struct.pack(">BIH", 3, 0, len(name)) + name

    def create_dir(self, name):
        return self.ask(2, struct.pack(">BBHI", 6, 0, afp.SHARE, afp.ROOT) + self.path(name))[0]

    def rename(self, old, new):
        return self.ask(2, struct.pack(">BBHI", 28, 0, afp.SHARE, afp.ROOT) + self.path(old) + self.path(new))[0]

    def set_length(self, fork, length):
        return self.ask(2, struct.pack(">BBHHI", 31, 0, fork, 0x0200, length))[0]

    def open_desk(self, volume):
        """The code, and the reference number of the volume's desktop database."""
        code, reply = self.ask(2, struct.pack(">BBH", 48, 0, volume))
        return code, struct.unpack(">H", reply)[0] if reply else 0

    def on_path(self, command, desk, name, middle=b""):
        return struct.pack(">BBHI", command, 0, desk, afp.ROOT) + middle + self.path(name)

    def add_comment(self, desk, name, text):
        block = self.on_path(56, desk, name)
        return self.ask(2, block + bytes(len(block) % 2) + bytes([len(text)]) + text)[0]

    def comment(self, desk, name):
        """The code, and the comment."""
        code, reply = self.ask(2, self.on_path(58, desk, name))
        return code, reply[1:1 + reply[0]] if reply else b""

    def names(self):
        """The long names of the root, and whether each is a directory."""
        found, start = {}, 1
        while True:
            head = struct.pack(">BBHIHHHII", 68, 0, afp.SHARE, afp.ROOT, 0x0040, 0x0040, 64, start, 60000)
            code, reply = self.ask(2, head + self.name3(b""))
            if code == OBJECT_NOT_FOUND:
                return found
            if code != afp.OK:
                raise ValueError(f"a listing was refused with {code}")
            count, at = struct.unpack(">H", reply[4:6])[0], 6
            for _ in range(count):
                size, is_dir = struct.unpack(">HB", reply[at:at + 3])
                name_at = at + 4 + struct.unpack(">H", reply[at + 4:at + 6])[0]
                found[reply[name_at + 1:name_at + 1 + reply[name_at]]] = bool(is_dir & 0x80)
                at += size
            start += count

    def content(self, name):
        """The bytes of a file's data fork."""
        code, fork = self.open_fork(name, 0x0001)
        if code != afp.OK:
            raise ValueError(f"{name} is not opened: {code}")
        parts, at = [], 0
        while True:
            code, part = self.read(fork, at, 65536)
            parts.append(part)
            at += len(part)
            if code == afp.EOF_ERR:
                break
            if code != afp.OK:
                raise ValueError(f"{name} is not read: {code}")
        self.close_fork(fork)
        return b"".join(parts)

    def state(self):
        """All that the root holds: None for a directory, else the bytes of the file."""
        return {name: None if is_dir else self.content(name) for name, is_dir in self.names().items()}


def session(port):
    return Files(afp.connect(port))


def show(shown, text):
    """Runs what the words of the command line name, or all, over the program behind `--program`, or else `./run afpd`'s. Other words print the text."""
    words = sys.argv[1:]
    program = PROGRAM
    if "--program" in words:
        at = words.index("--program")
        program = words[at + 1]
        del words[at:at + 2]
    if any(it not in shown for it in words):
        print(text)
        sys.exit(2)
    if program == PROGRAM:
        build()
    for it in words or shown:
        shown[it](program)
