#!/usr/bin/env python3
"""Hostile links beside one that works: the file server over memory is sent what no client sends, by links that come and go, while one session goes on with its calls.

hostile.py [--links N] [--at-once N] [--batch N] [--workers N] [--seed N] [--seconds N] [--program PATH]

Of the hostile links (10,000, in batches of 1,000, up to 100 at once) each is of one of these kinds, by a random number of its seed:

random   random bytes, up to 4,096 of them
cut      a session, and then a frame that is cut off, at any of its places
bad      a session, or none, and then a frame that no link may send: six sorts
calls    a session that is logged in, 20 calls of random bytes, and the session's close
deaf     a session that asks and asks, reads nothing, and breaks off a moment later

Each 250th is of another kind: `left` logs in and goes. The server keeps its session for 600 seconds, and has 64 at most.

One process sends them, another is the session that works, for 10 seconds before and then beside them: it writes a piece, reads it back, compares, and asks for the volume's values, again and again. Its times beside the hostile links are told as ratios over those before them. Then for each
kind is told how many links there were, and what they were told, with how the link ended. It ends with status 1 where a call of the session that works had another
answer, where the server ended, or where a link was told what it may not be told.
"""
import argparse
import collections
import json
import os
import random
import resource
import select
import socket
import statistics
import struct
import subprocess
import sys
import threading
import time

import afp
import afp_files

KINDS = ("random", "cut", "bad", "calls", "deaf")
LEFT = 250
SECONDS = 60
OPEN_SESSION = struct.pack(">BBHIII", 0, 4, 0, 0, 6, 0) + b"\x01\x04\x00\x00\x04\x00"
LOGIN = b"\x12\x06AFP3.3\x0fNo User Authent"
NO_MORE_SESSIONS = -1068
# The codes of docs/PROTOCOL.md that a call may be told; want of memory is none of them.
CODES = {0, NO_MORE_SESSIONS} | set(range(-5039, -4999))


def frame(number, block, command=2, word=0, flags=0, length=None):
    return struct.pack(">BBHIII", flags, command, number, word, len(block) if length is None else length, 0) + block


def bytes_of(chance, count):
    return bytes(chance.getrandbits(8) for _ in range(count))


# Each is the bytes that are sent, and how many replies are wanted.


def random_bytes(chance):
    return bytes_of(chance, chance.randint(1, 4096)), 0


def cut(chance):
    last = frame(1, LOGIN)
    return OPEN_SESSION + last[: chance.randrange(len(last))], 1


def bad(chance):
    opened = chance.random() < 0.5
    sorts = [
        frame(1, b"", flags=2),
        frame(1, b"", command=7),
        frame(1, b"", length=131073),
        frame(1, bytes(16), command=6, word=17),
        frame(1, b"", command=3, flags=1),
        OPEN_SESSION if opened else frame(1, LOGIN),
    ]
    return (OPEN_SESSION if opened else b"") + chance.choice(sorts) + bytes_of(chance, chance.randrange(64)), int(opened)


def calls(chance):
    asked = [frame(2 + n, bytes_of(chance, chance.randint(1, 64))) for n in range(20)]
    return OPEN_SESSION + frame(1, LOGIN) + b"".join(asked) + frame(22, b"", command=1), 22


def left(chance):
    return OPEN_SESSION + frame(1, LOGIN), 2


MADE = {"random": random_bytes, "cut": cut, "bad": bad, "calls": calls, "left": left}


def codes_in(told):
    """The codes of the whole replies in these bytes, and whether nothing stands behind them."""
    codes, at = [], 0
    while len(told) - at >= 16:
        flags, _, _, code, length, _ = struct.unpack(">BBHiII", told[at:at + 16])
        if flags != 1 or len(told) - at - 16 < length:
            break
        codes.append(code)
        at += 16 + length
    return codes, at == len(told)


def read_all(link):
    """All that comes, and how the link ended."""
    told = b""
    try:
        while True:
            piece = link.recv(65536)
            if not piece:
                return told, "closed"
            told += piece
    except ConnectionResetError:
        return told, "reset"
    except socket.timeout:
        return told, "not ended"


def connected(port):
    return socket.create_connection(("127.0.0.1", port), timeout=SECONDS)


def tell(port, sent):
    """What a link is told that sends these bytes and no more."""
    link = connected(port)
    try:
        link.sendall(sent)
        link.shutdown(socket.SHUT_WR)
    except (ConnectionResetError, BrokenPipeError):
        pass
    told, end = read_all(link)
    link.close()
    return told, end


def deaf(port, chance):
    """A link that asks, reads nothing, and breaks off. The server has begun to serve it."""
    link = connected(port)
    try:
        link.sendall(OPEN_SESSION)
        select.select([link], [], [], SECONDS)  # it is served now
        asked, at = b"".join(frame(1 + n, b"", command=3) for n in range(2000)), 0
        link.settimeout(0.05)
        for _ in range(128):
            at = (at + link.send(asked[at:])) % len(asked)
    except (socket.timeout, ConnectionResetError, BrokenPipeError):
        pass
    time.sleep(chance.random() * 0.05)
    link.setsockopt(socket.SOL_SOCKET, socket.SO_LINGER, struct.pack("ii", 1, 0))
    link.close()


def hostile(port, seed, number):
    """The kind of a link, what it was told, and what is wrong with that, if something is."""
    chance = random.Random(seed * 1_000_003 + number)
    kind = chance.choice(KINDS) if number % LEFT else "left"
    if kind == "deaf":
        deaf(port, chance)
        return kind, "it reads nothing", None
    sent, wanted = MADE[kind](chance)
    told, end = tell(port, sent)
    codes, whole = codes_in(told)
    refused = codes == [NO_MORE_SESSIONS]
    # A random call may be a logout, behind which the link ends.
    right = refused and wanted > 0 or len(codes) == wanted or kind == "calls" and 2 < len(codes) < wanted
    if kind != "calls":
        right = right and (refused or not any(codes))
    if not right or not whole or end == "not ended" or not set(codes) <= CODES:
        return kind, "WRONG", f"link {number} of kind {kind}, {end}, was told {codes}, {told[:100].hex()}"
    if refused:
        what = "no session more"
    elif kind == "calls":
        what = "a reply to each call" if len(codes) == wanted else "replies up to a logout"
    else:
        what = {0: "nothing", 1: "its session", 2: "its session and its login"}[wanted]
    return kind, f"{what}, {end}", None


def send(port, first, count, at_once, seed):
    """Sends these links, and prints what they were told."""
    told, faults, numbers, lock = collections.Counter(), [], iter(range(first, first + count)), threading.Lock()

    def one():
        while True:
            with lock:
                number = next(numbers, None)
            if number is None:
                return
            try:
                kind, what, fault = hostile(port, seed, number)
            except OSError as error:
                kind, what, fault = "not connected", str(error), f"link {number}: {error}"
            with lock:
                told[f"{kind}: {what}"] += 1
                if fault:
                    faults.append(fault)

    threads = [threading.Thread(target=one) for _ in range(at_once)]
    for it in threads:
        it.start()
    for it in threads:
        it.join()
    print(json.dumps([told, faults]))


class Worker:
    """The session that works."""

    def __init__(self, port):
        self.session = afp_files.session(port)
        assert self.session.create_file(b"worked on") == afp.OK
        code, self.fork = self.session.open_fork(b"worked on", 3)
        assert code == afp.OK
        self.turn, self.times = 0, []

    def timed(self, call):
        since = time.perf_counter()
        answer = call()
        self.times.append(time.perf_counter() - since)
        return answer

    def go(self):
        """Three calls; the first wrong answer, or None."""
        self.turn += 1
        piece = struct.pack(">Q", self.turn) * 64
        for what, got, want in (
            ("write", self.timed(lambda: self.session.write(self.fork, 0, piece)), (afp.OK, len(piece))),
            ("read", self.timed(lambda: self.session.read(self.fork, 0, len(piece))), (afp.OK, piece)),
            ("volume", self.timed(lambda: self.session.ask(2, struct.pack(">BBHH", 17, 0, afp.SHARE, 0x0020))), (afp.OK, b"\x00\x20\x00\x01")),
        ):
            if got != want:
                return f"turn {self.turn}: {what} was answered {got!r:.200}, and not {want!r:.200}"
        return None

    def taken(self):
        times, self.times = sorted(self.times), []
        return times


def print_times(before, beside):
    print(f"the session that works: {len(before):,} calls before, {len(beside):,} beside, each with the right answer")
    for what, at in (("median", 0.5), ("99 of 100", 0.99), ("slowest", 1.0)):
        one, other = (it[min(len(it) - 1, int(at * len(it)))] for it in (before, beside))
        print(f"  {what}: {one * 1e3:.3f} ms before, {other * 1e3:.3f} ms beside, ratio {other / one:.2f}")


def resident(server):
    with open(f"/proc/{server.process.pid}/status") as status:
        return int(next(it for it in status if it.startswith("VmRSS")).split()[1])


def main():
    parser = argparse.ArgumentParser(description=__doc__, formatter_class=argparse.RawDescriptionHelpFormatter)
    for name, least in (("links", 10000), ("at-once", 100), ("batch", 1000), ("workers", 8), ("seed", 1), ("seconds", 10)):
        parser.add_argument("--" + name, type=int, default=least)
    parser.add_argument("--program", default=afp_files.PROGRAM)
    parser.add_argument("--send", type=int, nargs=3, metavar=("PORT", "FIRST", "COUNT"), help=argparse.SUPPRESS)
    options = parser.parse_args()
    _, most = resource.getrlimit(resource.RLIMIT_NOFILE)
    wanted = 2 * options.at_once + 256
    resource.setrlimit(resource.RLIMIT_NOFILE, (wanted if most == resource.RLIM_INFINITY else min(most, max(wanted, 1024)), most))
    if options.send:
        return send(*options.send, options.at_once, options.seed)
    port = afp.free_port()
    server = afp_files.Server(["--port", str(port), "--workers", str(options.workers), "Share=memory"], options.program)
    if not server.wait_listening():
        print(server.told())
        return 1
    worker = Worker(port)
    until = time.monotonic() + options.seconds
    fault = None
    while time.monotonic() < until and not fault:
        fault = worker.go()
    before, held, since = worker.taken(), resident(server), time.monotonic()
    told, faults = collections.Counter(), []
    for first in range(0, options.links, options.batch):
        count = min(options.batch, options.links - first)
        words = [sys.executable, __file__, "--seed", str(options.seed), "--at-once", str(options.at_once), "--send", str(port), str(first), str(count)]
        sender = subprocess.Popen(words, stdout=subprocess.PIPE, text=True)
        while sender.poll() is None and not fault:
            fault = worker.go()
        lines, _ = sender.communicate()
        part, more = json.loads(lines)
        told.update(part)
        faults += more
    beside, took = worker.taken(), time.monotonic() - since
    fault = fault or worker.go()
    print(f"{sum(told.values()):,} hostile links in {took:.0f} s, {options.at_once} at once, on {options.workers} workers, seed {options.seed}")
    for what, count in sorted(told.items()):
        print(f"  {count:,} {what}")
    print_times(before, beside)
    print(f"the server holds {held:,} KiB before and {resident(server):,} KiB behind them")
    if server.process.poll() is not None:
        faults.append(f"the server ended with {server.process.returncode}")
    worker.session.close_session()
    server.kill()
    for it in faults[:10] + ([fault] if fault else []):
        print("WRONG", it)
    return 1 if faults or fault else 0


if __name__ == "__main__":
    sys.exit(main())
