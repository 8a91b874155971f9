#!/usr/bin/env python3
"""Shows the file server over many links at once, and what that costs.

side_by_side.py [right] [rates] [memory] [links] [silent]    without words all of them; [--program PATH] times another program than .run/afpd

right   16 sessions on 4 workers, each with files of its own, and then all on one directory: creates, renames, locks and deny modes, each answer
        compared with what one history of all calls allows
rates   calls in a second with 1, 4 and 16 links on 1, 2 and 4 workers, beside an echo of the same frames that is served in the same way and keeps its
        bytes in a store, by turns in one run: a table in Markdown
memory  what the server holds before and behind two million calls
links   5,000 links that come and go
silent  a peer that asks and reads nothing, beside three others on the same server
"""
import os
import statistics
import struct
import subprocess
import sys
import tempfile
import threading
import time

import afp
import afp_files
from afp_files import step

OBJECT_EXISTS = -5017


def start(workers, program, *volumes):
    port = afp.free_port()
    server = afp_files.Server(["--port", str(port), "--workers", str(workers)] + list(volumes or ("Share=memory",)), program)
    if not server.wait_listening():
        print(server.told())
        sys.exit(1)
    return server, port


def built(folder, name):
    program = os.path.join(folder, name)
    subprocess.run(["gcc", "-O2", "-pthread", "-o", program, os.path.join(afp.TOP, "bench", name + ".c")], check=True)
    return program


def resident(server):
    """The KiB of memory that the server holds."""
    return int(next(it for it in open(f"/proc/{server.process.pid}/status") if it.startswith("VmRSS")).split()[1])


# right


def at_once(count, run):
    """What `run(number)` gave in so many threads at once, in order."""
    given = [None] * count

    def one(number):
        given[number] = run(number)

    threads = [threading.Thread(target=one, args=(number,)) for number in range(count)]
    for it in threads:
        it.start()
    for it in threads:
        it.join()
    return given


def own_files(port, number):
    """A session's work on files of its own: the first answer that is not right, or None."""
    session = afp_files.session(port)
    for turn in range(10):
        name, other = b"own %d %d" % (number, turn), b"new %d %d" % (number, turn)
        text = bytes([number, turn]) * 3000
        wanted = [
            ("create", session.create_file(name), afp.OK),
            ("create again", session.create_file(name), OBJECT_EXISTS),
        ]
        code, fork = session.open_fork(name, 0x0003)
        wanted += [
            ("open", code, afp.OK),
            ("write", session.write(fork, 0, text), (afp.OK, len(text))),
            ("read", session.read(fork, 0, len(text)), (afp.OK, text)),
            ("lock", session.lock(fork, 0, 10), afp.OK),
            ("lock again", session.lock(fork, 5, 10), afp.RANGE_OVERLAP),
            ("rename", session.rename(name, other), afp.OK),
            ("close", session.close_fork(fork), afp.OK),
            ("delete of the old name", session.delete(name), afp_files.OBJECT_NOT_FOUND),
            ("content", session.content(other), text),
        ]
        if turn % 2:
            wanted.append(("delete", session.delete(other), afp.OK))
        for what, got, want in wanted:
            if got != want:
                session.close_session()
                return number, turn, what, got, want
    session.close_session()
    return None


def show_right(program):
    server, port = start(4, program)
    step("16 sessions on files of their own, the first wrong answer of each", at_once(16, lambda number: own_files(port, number)), [None] * 16)
    session = afp_files.session(port)
    names = sorted(session.state())
    step("what is left of them", names, sorted(b"new %d %d" % (number, turn) for number in range(16) for turn in range(0, 10, 2)))
    session.close_session()
    # Four at once are served, so these come in fours that meet.
    for what, does, one, others in (
        ("creates of one name", lambda s, n: s.create_file(b"one"), afp.OK, OBJECT_EXISTS),
        ("opens that deny others", lambda s, n: s.open_fork(b"one", 0x0033)[0], afp.OK, afp.DENY_CONFLICT),
        ("renames of one file", lambda s, n: s.rename(b"one", b"then %d" % n), None, None),
    ):
        meet = threading.Barrier(4)

        def in_four(number):
            s = afp_files.session(port)
            meet.wait()
            code = does(s, number)
            meet.wait()
            s.close_session()
            return code

        codes = at_once(4, in_four)
        if one is None:
            step(f"{what} by four at once: how many were done", codes.count(afp.OK), 1)
        else:
            step(f"{what} by four at once", sorted(codes), sorted([one] + [others] * 3))
    session = afp_files.session(port)
    session.create_file(b"locked")
    session.close_session()
    meet = threading.Barrier(4)

    def locks(number):
        s = afp_files.session(port)
        _, fork = s.open_fork(b"locked", 0x0003)
        meet.wait()
        codes = [s.lock(fork, at * 10, 10) for at in range(50)]
        meet.wait()
        s.close_session()
        return codes

    rows = at_once(4, locks)
    step("each of 50 ranges is locked by one of four", [sum(row[at] == afp.OK for row in rows) for at in range(50)], [1] * 50)
    step("and refused to the others", {row[at] for row in rows for at in range(50)} - {afp.OK}, {afp.LOCK_ERR})
    server.kill()


# rates


def load(program, port, links, calls, kind):
    ran = subprocess.run([program, str(port), str(links), str(calls), kind], capture_output=True, text=True)
    if ran.returncode != 0:
        print(f"{links} links of {calls} {kind}: {ran.stderr}")
        sys.exit(1)
    return float(ran.stdout)


def show_rates(program):
    kinds = (("status", "DSIGetStatus", 24000), ("parms", "a small call (FPGetVolParms)", 24000), ("read", "a read of 64 KiB", 6000), ("write", "a write of 64 KiB", 3000))
    with tempfile.TemporaryDirectory() as folder:
        loads, echoes = built(folder, "load"), built(folder, "echo")
        print("| call | workers | links | calls in a second, median of five (least, most) | over the echo's |")
        print("|---|---|---|---|---|")
        for kind, words, calls in kinds:
            for workers in (1, 2, 4):
                server, port = start(workers, program)
                echo_port = afp.free_port()
                echo = subprocess.Popen([echoes, str(echo_port), "131072", str(workers), "store"])
                afp.connect(echo_port).close()
                for links in (1, 4, 16):
                    rates, ratios = [], []
                    for _ in range(5):
                        each = max(1, calls // links)
                        ours, theirs = load(loads, port, links, each, kind), load(loads, echo_port, links, each, kind)
                        rates.append(each * links / ours)
                        ratios.append(theirs / ours)
                    print(f"| {words} | {workers} | {links} | {statistics.median(rates):,.0f} ({min(rates):,.0f}, {max(rates):,.0f}) | {statistics.median(ratios):.2f} |", flush=True)
                server.kill()
                echo.kill()


# memory, links, a peer that reads nothing


def grows(program, what, links, times, calls, kind):
    """Prints what a server of four workers holds before and behind so many loads, with a first one before; gives the server and its port."""
    with tempfile.TemporaryDirectory() as folder:
        loads = built(folder, "load")
        server, port = start(4, program)
        load(loads, port, links, min(calls, 1000), kind)
        before = resident(server)
        took = sum(load(loads, port, links, calls, kind) for _ in range(times))
        print(f"{what}, {took:.1f} s: {before:,} KiB before, {resident(server):,} KiB behind")
        return server, port


def show_memory(program):
    grows(program, "two million calls on four links", 4, 1, 500000, "parms")[0].kill()
    grows(program, "20,000 writes of 64 KiB on four links", 4, 1, 5000, "write")[0].kill()


def show_links(program):
    server, port = grows(program, "5,000 links that come and go, 50 at a time", 50, 100, 1, "parms")
    session = afp_files.session(port)
    step("a session behind them", session.create_file(b"behind"), afp.OK)
    session.close_session()
    server.kill()


def show_silent(program):
    server, port = start(4, program)
    silent = afp_files.session(port)
    silent.create_file(b"large")
    _, fork = silent.open_fork(b"large", 0x0003)
    silent.write(fork, 0, bytes(65536))
    silent.link.setblocking(False)
    head = struct.pack(">BBHIIBB", 27, 0, fork, 0, 65536, 0, 0)
    sent = 0
    try:
        while sent < 20000:
            silent.link.send(struct.pack(">BBHIII", 0, 2, (silent.number + sent) % 65536, 0, len(head), 0) + head)
            sent += 1
    except BlockingIOError:
        pass
    print(f"a peer sent {sent} reads of 64 KiB, and reads no reply")
    since = time.monotonic()
    step("three others beside it, the first wrong answer of each", at_once(3, lambda number: own_files(port, number)), [None] * 3)
    print(f"they took {time.monotonic() - since:.1f} s")
    held = [afp_files.session(port) for _ in range(3)]
    since = time.monotonic()
    fourth = afp_files.Files(afp.connect(port, 400))
    print(f"a fourth session beside three was served after {time.monotonic() - since:.0f} s: the server had ended the link that takes nothing")
    step("and makes a file", fourth.create_file(b"fourth"), afp.OK)
    for it in held + [fourth]:
        it.close_session()
    silent.link.close()
    server.kill()


SHOWN = {"right": show_right, "rates": show_rates, "memory": show_memory, "links": show_links, "silent": show_silent}


if __name__ == "__main__":
    afp_files.show(SHOWN, __doc__)
