#!/usr/bin/env python3
"""Starts the file server over a database file with one bit turned, for many places of the bit, and says what comes of it.

turned_bits.py [--places N] [--pieces N] [--seed N] [--program PATH]

A start may be refused (`load 1 fault`, `load 1 bad KEY REASON`), or the volume is as it was; or it is the volume behind some first calls, which lacks the
last ones though they were acknowledged (lost calls); what is none of these is counted as another volume, and a server that ends in any other way as a crash.
It ends with status 1 where there was a crash, another volume or lost calls.
"""
import argparse
import collections
import os
import random
import shutil
import sys
import tempfile

import afp
import afp_files
from afp_files import Server, words_for


def make(program, path, pieces):
    """A file with a volume of some files and directories, and what it held behind each call; of each file so many pieces of 64 KiB are written."""
    port = afp.free_port()
    server = Server(words_for(port, "Share=" + path, links=1), program)
    server.wait_listening()
    client, state, states = afp_files.session(port), {}, [{}]
    for number in range(12):
        client.create_dir(b"directory %d" % number)
        state[b"directory %d" % number] = None
        states.append(dict(state))
        name, content = b"file %d" % number, b""
        client.create_file(name)
        state[name] = b""
        states.append(dict(state))
        code, fork = client.open_fork(name, 0x0003)
        for piece in range(pieces):
            part = bytes([number * 16 + piece]) * 65536
            client.write(fork, len(content), part)
            content += part
            state[name] = content
            states.append(dict(state))
        client.close_fork(fork)
    if client.state() != state:
        raise ValueError("the volume is not the one that was made")
    client.close_session()
    server.ended()
    return states


def turn(path, at, bit):
    with open(path, "r+b") as file:
        file.seek(at)
        byte = file.read(1)[0]
        file.seek(at)
        file.write(bytes([byte ^ (1 << bit)]))


def outcome(program, path, states):
    port = afp.free_port()
    server = Server(words_for(port, "Share=" + path), program)
    if not server.wait_listening():
        status, report = server.ended()
        if status == 3 and report == "load 1 fault\n":
            return "load 1 fault"
        if status == 3 and report.startswith("load 1 bad "):
            return "load 1 bad KEY " + report.split()[-1]
        return f"crash: {status} {report!r}"
    try:
        found = afp_files.session(port).state()
        what = "as it was" if found == states[-1] else "lost calls" if found in states else "another volume"
    except (OSError, EOFError, ValueError) as error:
        what = "another volume" if isinstance(error, ValueError) else f"crash: {error}"
    server.kill()
    return what


def is_bad(what):
    return "crash" in what or "another" in what or "lost" in what


def main():
    parser = argparse.ArgumentParser()
    parser.add_argument("--places", type=int, default=300)
    parser.add_argument("--pieces", type=int, default=8)
    parser.add_argument("--seed", type=int, default=1)
    parser.add_argument("--program", default=afp_files.PROGRAM)
    arguments = parser.parse_args()
    chance = random.Random(arguments.seed)
    outcomes = collections.defaultdict(list)
    with tempfile.TemporaryDirectory() as folder:
        path = os.path.join(folder, "share.db")
        states = make(arguments.program, path, arguments.pieces)
        parts = [name for name in (path, path + "-wal") if os.path.exists(name) and os.path.getsize(name)]
        for number in range(arguments.places):
            with tempfile.TemporaryDirectory() as trial:
                for part in parts:
                    shutil.copy(part, trial)
                part = parts[number % len(parts)]
                at, bit = chance.randrange(os.path.getsize(part)), chance.randrange(8)
                turn(os.path.join(trial, os.path.basename(part)), at, bit)
                what = outcome(arguments.program, os.path.join(trial, "share.db"), states)
                outcomes[(os.path.basename(part), what)].append((at, bit))
        for part in parts:
            print(f"{os.path.basename(part)}: {os.path.getsize(part)} bytes")
    bad = 0
    for (part, what), places in sorted(outcomes.items()):
        print(f"{part}: {what}: {len(places)}" + (f", as at byte {places[0][0]} bit {places[0][1]}" if is_bad(what) else ""))
        bad += len(places) * is_bad(what)
    sys.exit(bad > 0)


if __name__ == "__main__":
    main()
