#!/usr/bin/env python3
"""Sessions of the file server that keep all that they can, and links that are quiet.

sessions.py [caches] [quiet]    without words both; [--program PATH] starts another program than .run/afpd

caches  the memory of the server before and behind 64 sessions, each of which made 32 calls whose answers are kept: writes as long as a frame allows, and
        then, over another server, reads as long as one gives. No session is ended: their links are cut
quiet   two links that are quiet for 150 seconds: one sends nothing at all, the other a Tickle every 30 seconds. What each is sent, and when

Each line is what came. It ends with status 1 at the first answer that is another.
"""
import os
import select
import struct
import sys
import time

import afp
import afp_files
from afp_files import step

SESSIONS, KEPT = 64, 32
PAYLOAD, WRITE_BLOCK = 131072, 12
NO_MORE_SESSIONS = -1068
QUIET = 150


def start(workers, program):
    port = afp.free_port()
    server = afp_files.Server(["--port", str(port), "--workers", str(workers), "Share=memory"], program)
    if not server.wait_listening():
        print(server.told())
        sys.exit(1)
    return server, port


def resident(server):
    """The bytes of memory that the server holds."""
    with open(f"/proc/{server.process.pid}/status") as status:
        return int(next(it for it in status if it.startswith("VmRSS")).split()[1]) * 1024


def load():
    return "load " + " ".join(open("/proc/loadavg").read().split()[:2])


# caches


def fill(session, kind):
    """Makes 32 calls of the largest kind over one open fork; gives the bytes of their requests and replies."""
    code, fork = session.open_fork(b"large", 3)
    assert code == afp.OK
    kept = 0
    for _ in range(KEPT):
        if kind == "writes":
            data = bytes(PAYLOAD - WRITE_BLOCK)
            code, end = session.write(fork, 0, data)
            assert (code, end) == (afp.OK, len(data)), code
            kept += WRITE_BLOCK + len(data) + 4
        else:
            code, data = session.read(fork, 0, PAYLOAD)
            assert (code, len(data)) == (afp.OK, PAYLOAD), code
            kept += 14 + len(data)
    return kept


def show_caches(program):
    for kind in ("writes", "reads"):
        server, port = start(1, program)
        first = afp_files.session(port)
        assert first.create_file(b"large") == afp.OK
        code, fork = first.open_fork(b"large", 3)
        assert first.write(fork, 0, bytes(PAYLOAD // 2))[0] == afp.OK and first.write(fork, PAYLOAD // 2, bytes(PAYLOAD // 2))[0] == afp.OK
        first.close_session()
        before, kept = resident(server), 0
        for _ in range(SESSIONS):
            session = afp_files.session(port)
            kept += fill(session, kind)
            session.close()
        link = afp.Link(afp.connect(port))
        code, _ = link.ask(4, b"\x01\x04\x00\x00\x04\x00")
        link.close()
        step(f"{SESSIONS} sessions with {KEPT} kept {kind} each; one more session", code, NO_MORE_SESSIONS)
        behind = resident(server)
        mib = 1 << 20
        print(f"  {before / mib:.1f} MiB before, {behind / mib:.1f} MiB behind: {(behind - before) / mib:.1f} MiB for {kept / mib:.1f} MiB of requests and replies, "
              f"{(behind - before) / kept:.3f} of them; {(behind - before) / (SESSIONS * KEPT * 2 * PAYLOAD):.2f} of the bound, {load()}")
        server.kill()


# quiet


def heard(links, since):
    """What each link is sent in the time, as (seconds, what); `tickles` says which of them sends Tickles of its own."""
    told = {name: [] for name in links}
    open_ones, last, number = dict(links), since, 0
    while time.monotonic() - since < QUIET and open_ones:
        ready, _, _ = select.select([it.link for it in open_ones.values()], [], [], 1)
        for name, it in list(open_ones.items()):
            if it.link in ready:
                seconds = time.monotonic() - since
                try:
                    flags, command, _, _, length, _ = struct.unpack(">BBHiII", it.take(16))
                    it.take(length)
                    told[name].append((seconds, "a Tickle" if (flags, command) == (0, 5) else f"({flags}, {command})"))
                except (EOFError, ConnectionError):
                    told[name].append((seconds, "its end"))
                    del open_ones[name]
        if time.monotonic() - last >= 30 and "the one that tickles" in open_ones:
            last = time.monotonic()
            open_ones["the one that tickles"].link.sendall(struct.pack(">BBHIII", 0, 5, 1000 + number, 0, 0, 0))
            number += 1
    return told


def show_quiet(program):
    server, port = start(2, program)
    links = {"the one that sends nothing": afp_files.session(port), "the one that tickles": afp_files.session(port)}
    told = heard(links, time.monotonic())
    for name, all_told in told.items():
        print(f"{name}: " + ", ".join(f"{what} at {seconds:.1f} s" for seconds, what in all_told) + f"; {load()}")
    step("the one that sends nothing", [what for _, what in told["the one that sends nothing"]], ["a Tickle"] * 3 + ["its end"])
    step("the one that tickles", [what for _, what in told["the one that tickles"]][:4], ["a Tickle"] * 4)
    step("  and makes a file then", links["the one that tickles"].create_file(b"behind"), afp.OK)
    server.kill()


SHOWN = {"caches": show_caches, "quiet": show_quiet}


if __name__ == "__main__":
    afp_files.show(SHOWN, __doc__)
