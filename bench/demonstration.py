#!/usr/bin/env python3
"""Shows the calls on open forks over loopback: two sessions of one server, one after the other, on one history.

demonstration.py [--program PATH]

Each line is what was asked and the milliseconds that it took. It ends with status 1 at the first answer that is another.
"""
import argparse
import subprocess
import sys
import time

import afp

PIECE = 65536
SIZE = 1 << 20
CONTENT = b"".join(n.to_bytes(4, "big") for n in range(SIZE // 4))
LINES = [b"first\r", b"second\r", b"third"]


class Show:
    """Prints each step with its time, and ends the run where an answer is not what is wanted."""

    def __init__(self):
        self.since = time.perf_counter()

    def step(self, what, got, want):
        now = time.perf_counter()
        print(f"{(now - self.since) * 1000:9.2f} ms  {what}")
        if got != want:
            print(f"wanted {want!r:.100}, and it was {got!r:.100}")
            sys.exit(1)
        self.since = time.perf_counter()


def write_pieces(session, fork):
    return [session.write(fork, at, CONTENT[at:at + PIECE]) for at in range(0, SIZE, PIECE)]


def read_pieces(session, fork):
    """All bytes, and the codes of the reads: the last is that of the end."""
    content, codes = b"", []
    while not codes or codes[-1] == afp.OK:
        code, part = session.read(fork, len(content), PIECE)
        codes.append(code)
        content += part
    return content, codes


def show_bytes(show, session):
    show.step("a file is made", session.create_file(b"large"), afp.OK)
    show.step("it is opened to read and write", session.open_fork(b"large", 0x0003), (afp.OK, 1))
    ends = [(afp.OK, at + PIECE) for at in range(0, SIZE, PIECE)]
    show.step("1 MiB is written in 16 pieces", write_pieces(session, 1), ends)
    codes = [afp.OK] * (SIZE // PIECE) + [afp.EOF_ERR]
    show.step("it is read back, to the end of file", read_pieces(session, 1), (CONTENT, codes))
    show.step("the last 4 bytes and the end of file", session.read(1, SIZE - 4, 10), (afp.EOF_ERR, CONTENT[-4:]))
    show.step("a piece from the end, behind a gap", session.write(1, 16, b"end", from_end=True), (afp.OK, SIZE + 19))
    show.step("the gap has zeros", session.read(1, SIZE, 19), (afp.OK, bytes(16) + b"end"))
    show.step("its length", session.length(1), SIZE + 19)


def show_lines(show, session):
    show.step("a text is made", session.create_file(b"text"), afp.OK)
    show.step("it is opened", session.open_fork(b"text", 0x0003), (afp.OK, 2))
    text = b"".join(LINES)
    show.step("three lines are written", session.write(2, 0, text), (afp.OK, len(text)))
    at = 0
    for line in LINES:
        code = afp.OK if line.endswith(b"\r") else afp.EOF_ERR
        show.step("one line is read", session.read(2, at, 100, 0xFF, 0x0D), (code, line))
        at += len(line)
    show.step("the text is closed", session.close_fork(2), afp.OK)


def show_locks(show, session):
    show.step("the file is opened again", session.open_fork(b"large", 0x0003), (afp.OK, 2))
    show.step("bytes 100 to 199 are locked", session.lock(1, 100, 100), afp.OK)
    show.step("another reference reads them", session.read(2, 150, 1), (afp.LOCK_ERR, b""))
    show.step("and writes to them", session.write(2, 199, b"x"), (afp.LOCK_ERR, None))
    show.step("and locks one of them", session.lock(2, 199, 1), afp.LOCK_ERR)
    show.step("a lock meets one's own", session.lock(1, 150, 100), afp.RANGE_OVERLAP)
    show.step("a part is unlocked", session.lock(1, 100, 50, unlock=True), afp.RANGE_NOT_LOCKED)
    show.step("the whole is unlocked", session.lock(1, 100, 100, unlock=True), afp.OK)
    show.step("another reference reads them now", session.read(2, 150, 1), (afp.OK, CONTENT[150:151]))
    show.step("it locks all from byte 0 on", session.lock(2, 0, -1), afp.OK)


def show_deny_modes(show, session):
    show.step("an open that denies writing to a file with writers", session.open_fork(b"large", 0x0021), (afp.DENY_CONFLICT, 0))
    show.step("the text is opened, denying writing", session.open_fork(b"text", 0x0021), (afp.OK, 3))
    show.step("a second open that writes", session.open_fork(b"text", 0x0002), (afp.DENY_CONFLICT, 0))
    show.step("a second open that reads", session.open_fork(b"text", 0x0001), (afp.OK, 4))
    show.step("the open file is deleted", session.delete(b"text"), afp.FILE_BUSY)


def first_session(show, session):
    show_bytes(show, session)
    show_lines(show, session)
    show_locks(show, session)
    show_deny_modes(show, session)
    session.close_session()


def second_session(show, session):
    """The first session's forks and locks are given back, and its bytes are there."""
    show.step("a second session, after the first was closed", session.read(1, 0, 1), (afp.PARAM_ERR, b""))
    show.step("the file is opened, all else denied", session.open_fork(b"large", 0x0033), (afp.OK, 1))
    show.step("bytes that the first session locked", session.write(1, 0, CONTENT[:1]), (afp.OK, 1))
    codes = [afp.OK] * (SIZE // PIECE) + [afp.EOF_ERR]
    show.step("1 MiB and the rest are read", read_pieces(session, 1), (CONTENT + bytes(16) + b"end", codes))
    show.step("the text is deleted", session.delete(b"text"), afp.OK)
    show.step("the open file is deleted", session.delete(b"large"), afp.FILE_BUSY)
    show.step("it is closed", session.close_fork(1), afp.OK)
    show.step("it is deleted", session.delete(b"large"), afp.OK)
    session.close_session()


def main():
    words = argparse.ArgumentParser(description="the calls on open forks over loopback, from two sessions one after the other")
    words.add_argument("--program")
    words = words.parse_args()
    port = afp.free_port()
    server = afp.start_server(port, 2, words.program)
    try:
        first = afp.Session(afp.connect(port))
        first_session(Show(), first)
        second = afp.Session(afp.connect(port))
        second_session(Show(), second)
        server.wait(10)
        print(server.stdout.read().decode().strip(), "status", server.returncode)
    except subprocess.TimeoutExpired:
        print("the server did not end")
        return 1
    finally:
        if server.poll() is None:
            server.kill()
    return server.returncode


if __name__ == "__main__":
    sys.exit(main())
