#!/usr/bin/env python3
"""What a start over a large volume in a file costs, beside one query in order of the same file by Python's sqlite3, and what a small change costs beside the
commit of the same records, in one run.

loads.py [--rounds N] [--program PATH]

The volumes have 100,000 nodes: with no bytes, with forks of 256 MiB, and with forks of 1 GiB, which a start refuses. A start is timed from its first moment to
the line that says it listens, or to its end; it opens the file, which checks all of it, reads the records and loads the volume. A ratio is its time over that
of the query, in the same round; the median is printed, with the least and the largest. A small change is FPCreateFile, which puts three records; its ratio
is the time of 200 calls over loopback over that of 200 such commits (a log beside the file, `synchronous = full`), by turns. It ends with status 1 where a
start comes to something else.
"""
import argparse
import os
import resource
import sqlite3
import statistics
import struct
import tempfile
import time

import afp
import afp_files
from afp_files import step, words_for

TABLE = "CREATE TABLE records (key BLOB NOT NULL PRIMARY KEY, value BLOB NOT NULL) STRICT"
NODES, BLOCK = 100000, 4096
NEVER = bytes.fromhex("80000000")
# The version of records; owner, group and rights of a directory that is the guest's, and of a file.
VERSION = struct.pack(">H", 2)
GUEST, NONE = struct.pack(">II", 500, 500) + b"\7\7\7", bytes(11)
MIB = 1 << 20


def node(number, length):
    """The record of a file in the root."""
    value = struct.pack(">BIH", 0, 2, 0) + bytes(8) + NEVER + bytes(32) + b"\0" + struct.pack(">QQ", length, 0) + NONE + b"f%06d" % number
    return b"\1" + struct.pack(">I", number), value


def records_of(files, size, nodes):
    """The records of a volume of so many nodes, whose first files have that many bytes each."""
    yield b"\0", VERSION + bytes(8) + NEVER + struct.pack(">Q", nodes + 16)
    yield b"\1" + struct.pack(">I", 2), struct.pack(">BIH", 1, 1, 0) + bytes(8) + NEVER + bytes(32) + b"\0" + bytes(16) + GUEST + b"Share"
    for at in range(nodes - 1):
        yield node(17 + at, size if at < files else 0)
    for at in range(files):
        for index in range(size // BLOCK):
            yield b"\2" + struct.pack(">IBI", 17 + at, 0, index), struct.pack(">II", at, index) * (BLOCK // 8 - 1) + b"the end."


def make(path, files, size, nodes=NODES):
    database = sqlite3.connect(path)
    database.execute("PRAGMA journal_mode = WAL")
    database.execute(TABLE)
    database.executemany("INSERT INTO records VALUES (?, ?)", records_of(files, size, nodes))
    database.commit()
    database.close()


def query(path):
    """Seconds of one query in order, and how many records and bytes it gave."""
    begun = time.monotonic()
    database = sqlite3.connect(path)
    count = length = 0
    for key, value in database.execute("SELECT key, value FROM records ORDER BY key"):
        count, length = count + 1, length + len(key) + len(value)
    database.close()
    return time.monotonic() - begun, count, length


def start(program, path):
    """Seconds of a start, what it came to, and the most memory that it had, in bytes."""
    port = afp.free_port()
    begun = time.monotonic()
    server = afp_files.Server(words_for(port, "Share=" + path), program)
    listens = server.wait_listening(600)
    seconds = time.monotonic() - begun
    if not listens:
        came = server.ended()
        return seconds, came, None
    with open(f"/proc/{server.process.pid}/status") as status:
        memory = next(int(line.split()[1]) for line in status if line.startswith("VmHWM")) * 1024
    told = server.told()
    server.kill()
    return seconds, told[told.index("(nodes"):].split(")")[0] + ")", memory


def show(program, path, what, wanted, rounds):
    ratios, own = [], []
    for _ in range(rounds):
        theirs, count, length = query(path)
        seconds, came, memory = start(program, path)
        step(f"{what}, {count} records of {length / MIB:.1f} MiB", came if memory else (came[0], came[1].split()[:3] + came[1].split()[4:]), wanted)
        ratios.append(seconds / theirs)
        own.append(seconds)
    ratios.sort()
    print(f"  ratio {statistics.median(ratios):.2f} ({ratios[0]:.2f} to {ratios[-1]:.2f}); a start {statistics.median(own):.2f} s"
          + (f"; {memory / MIB:.0f} MiB at most, {memory / length:.1f} times the records" if memory else ""))


def commits(path, first, count):
    """Seconds of so many commits, each of a new node, its parent and the head."""
    database = sqlite3.connect(path, isolation_level=None)
    database.execute("PRAGMA synchronous = full")
    begun = time.monotonic()
    for at in range(first, first + count):
        head = b"\0", VERSION + bytes(8) + NEVER + struct.pack(">Q", 18 + at)
        root = b"\1" + struct.pack(">I", 2), struct.pack(">BIHI", 1, 1, 0, at) + bytes(4) + NEVER + bytes(32) + b"\0" + bytes(16) + GUEST + b"Share"
        database.execute("BEGIN IMMEDIATE")
        for record in (head, root, node(17 + at, 0)):
            database.execute("INSERT INTO records VALUES (?, ?) ON CONFLICT (key) DO UPDATE SET value = excluded.value", record)
        database.execute("COMMIT")
    seconds = time.monotonic() - begun
    database.close()
    return seconds


def show_commits(program, folder, rounds, count=200):
    """Small changes of a new volume in a file, by turns with the same commits to a file beside it."""
    theirs, port = os.path.join(folder, "theirs.db"), afp.free_port()
    make(theirs, 0, 0, 1)
    server = afp_files.Server(words_for(port, "Share=" + os.path.join(folder, "ours.db")), program)
    server.wait_listening()
    session, ratios, own = afp_files.session(port), [], []
    for turn in range(rounds):
        begun = time.monotonic()
        codes = {session.create_file(b"f%06d" % at) for at in range(turn * count, (turn + 1) * count)}
        seconds = time.monotonic() - begun
        step(f"{count} files are made, one call each", codes, {afp.OK})
        ratios.append(seconds / commits(theirs, turn * count, count))
        own.append(seconds / count)
    server.kill()
    ratios.sort()
    print(f"  ratio {statistics.median(ratios):.2f} ({ratios[0]:.2f} to {ratios[-1]:.2f}); a call {statistics.median(own) * 1000:.2f} ms")


def main():
    parser = argparse.ArgumentParser()
    parser.add_argument("--program", default=afp_files.PROGRAM)
    parser.add_argument("--rounds", type=int, default=3)
    words = parser.parse_args()
    with tempfile.TemporaryDirectory() as folder:
        show_commits(words.program, folder, words.rounds + 2)
        for what, files, size, wanted, rounds in [("no bytes", 0, 0, f"(nodes {NODES})", words.rounds), ("256 MiB", 16, 16 * MIB, f"(nodes {NODES})", words.rounds),
                                                  ("1 GiB", 64, 16 * MIB, (3, ["load", "1", "bad", "limit"]), 1)]:
            path = os.path.join(folder, "volume.db")
            make(path, files, size)
            show(words.program, path, what, wanted, rounds)
            os.remove(path)
    print(f"all as wanted; the most memory of a start: {resource.getrusage(resource.RUSAGE_CHILDREN).ru_maxrss // 1024} MiB")


if __name__ == "__main__":
    main()
