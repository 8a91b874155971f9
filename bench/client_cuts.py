#!/usr/bin/env python3
"""The client of `afptool client` over links that are cut: it prints the same lines as over one that is not.

client_cuts.py AFPD AFPTOOL [--runs N] [--seed N] [--slow]

Between the client and the server stands a proxy that cuts links at bytes that are drawn. In each run every line of a script loses its link once, in one of
its requests or replies, and some links are cut while they are opened. Then every command is run over one link, and over cut ones; a server is killed and
started again on its file; users log in; addresses are tried. With --slow replies and lines are late too, which takes six minutes. It ends with status 1 at
the first line that is another than the wanted one.
"""
import argparse
import os
import random
import socket
import struct
import subprocess
import sys
import tempfile
import threading
import time

import afp
from afp_files import Server, step, words_for

SCRIPTS = os.path.join(afp.TOP, "crates", "test_clients", "scripts")
FIRST_ID = 3  # of a command, behind the three requests of an opening
COMMANDS, TICKLE = (2, 6), 5
# Behind eight links in a row without a reply to a command the client gives up. One of them may be cut at its command.
MOST_OPENINGS_CUT = 6
SECONDS = 60


def case(name):
    """A script of crates/test_clients (tools/README.md), what is printed of it, and how many requests each of its lines asks."""
    script, printed, counts = [], [], []
    with open(os.path.join(SCRIPTS, name), encoding="utf-8") as file:
        for line in file.read().splitlines():
            if line.startswith("> "):
                script.append(line[2:])
                counts.append(0)
            elif line.startswith("< "):
                printed.append(line[2:])
            elif line.startswith("FP"):
                counts[-1] += 1
    return "\n".join(script + [""]), "\n".join(printed + [""]), counts


class Cut(Exception):
    """The link is cut here."""


class Plan:
    """Where links are cut: by the id of a command's request, the bytes of its request and reply that pass; and openings, by bytes that are drawn. One reply
    is held, by its id: then something is done, and it passes where that says so. What passed is kept: the sizes of each request and its reply, by id, and
    how many Tickles the client sent."""

    def __init__(self, places=None, draw=None, hold=None):
        self.places, self.draw, self.hold, self.sizes, self.openings, self.in_a_row = dict(places or {}), draw, hold, {}, 0, 0
        self.tickles = 0
        self.lock = threading.Lock()

    def opening_budget(self):
        """How many bytes of this link's opening pass, where it is cut."""
        with self.lock:
            if self.draw is None or self.in_a_row >= MOST_OPENINGS_CUT or self.draw.random() > 0.3:
                return None
            self.in_a_row, self.openings = self.in_a_row + 1, self.openings + 1
            return self.draw.randrange(0, 150)

    def passes(self, id, size, is_reply):
        """How many bytes of a frame pass; None for all."""
        with self.lock:
            self.sizes.setdefault(id, [0, 0])[is_reply] = size
            if id in self.places:
                left = self.places[id] - (self.sizes[id][0] if is_reply else 0)
                if left < size or (not is_reply and left == size):
                    del self.places[id]
                    return left
            if is_reply:
                self.in_a_row = 0
            return None


class Proxy:
    """Passes frames between clients and the server of a port, as a plan says."""

    def __init__(self, server_port, plan, host="127.0.0.1"):
        self.server_port, self.plan, self.links = server_port, plan, 0
        self.listener = socket.socket(socket.AF_INET6 if ":" in host else socket.AF_INET)
        self.listener.setsockopt(socket.SOL_SOCKET, socket.SO_REUSEADDR, 1)
        self.listener.bind((host, 0))
        self.listener.listen(64)
        self.port = self.listener.getsockname()[1]
        self.address = f"[{host}]:{self.port}" if ":" in host else f"{host}:{self.port}"
        threading.Thread(target=self.accept, daemon=True).start()

    def accept(self):
        while True:
            try:
                client, _ = self.listener.accept()
            except OSError:
                return
            self.links += 1
            Passing(self, client)

    def close(self):
        # A thread that waits in accept is woken by shutdown alone.
        self.listener.shutdown(socket.SHUT_RDWR)
        self.listener.close()


class Passing:
    """A link of a client, and the one to the server that belongs to it."""

    def __init__(self, proxy, client):
        self.plan, self.client, self.opening, self.passed = proxy.plan, client, proxy.plan.opening_budget(), 0
        self.lock = threading.Lock()
        try:
            self.server = socket.create_connection(("127.0.0.1", proxy.server_port), timeout=SECONDS)
        except OSError:
            client.close()
            return
        for link in (self.client, self.server):
            link.settimeout(None)
            link.setsockopt(socket.IPPROTO_TCP, socket.TCP_NODELAY, 1)
        threading.Thread(target=self.run, args=(self.client, self.server, False), daemon=True).start()
        threading.Thread(target=self.run, args=(self.server, self.client, True), daemon=True).start()

    @staticmethod
    def take(link, size):
        data = b""
        while len(data) < size:
            piece = link.recv(size - len(data))
            if not piece:
                raise Cut
            data += piece
        return data

    def run(self, source, target, is_reply):
        try:
            while True:
                head = self.take(source, 16)
                frame = head + self.take(source, struct.unpack(">I", head[8:12])[0])
                self.frame(target, frame, is_reply)
        except (Cut, OSError):
            pass
        for link in (self.client, self.server):
            try:
                link.shutdown(socket.SHUT_RDWR)
            except OSError:
                pass

    def frame(self, target, frame, is_reply):
        flags, command, id = struct.unpack(">BBH", frame[:4])
        if command == TICKLE:
            self.plan.tickles += not is_reply
            target.sendall(frame)
            return
        if command not in COMMANDS or id < FIRST_ID:
            self.opens(target, frame)
            return
        if is_reply and self.plan.hold and id == self.plan.hold[0]:
            hold, self.plan.hold = self.plan.hold, None
            if not hold[1]():
                raise Cut
        size = self.plan.passes(id, len(frame), is_reply)
        target.sendall(frame if size is None else frame[:size])
        if size is not None:
            raise Cut

    def opens(self, target, frame):
        """A frame of an opening: of all that passes of it only so much, where it is cut."""
        with self.lock:
            left = len(frame) if self.opening is None else self.opening - self.passed
            self.passed += len(frame)
        target.sendall(frame[:max(left, 0)])
        if left < len(frame):
            raise Cut


def server(program, *more, place="memory", port=None):
    port = port or afp.free_port()
    words = words_for(port, "Share=" + place)
    words[words.index("--workers") + 1] = "4"
    started = Server(["--server", "Mac", "--signature", afp.SIGNATURE] + list(more) + words, program)
    if not started.wait_listening():
        raise RuntimeError(f"the server did not start: {started.told()}")
    return started, port


def run_client(program, address, script, *more):
    """What the client prints, and its status."""
    done = subprocess.run([program, "client", *more, address], input=script.encode(), stdout=subprocess.PIPE, timeout=SECONDS)
    return done.stdout.decode(), done.returncode


def over_proxy(programs, script, plan, *more, host="127.0.0.1", words=()):
    """What the client prints over a new server and a proxy, and its status."""
    afpd, afptool = programs
    started, port = server(afpd, *words)
    proxy = Proxy(port, plan, host)
    try:
        return run_client(afptool, proxy.address, script, *more) + (proxy.links,)
    finally:
        proxy.close()
        started.kill()


def requests_of(counts):
    """The ids of each line's requests, by how many it has."""
    at, found = FIRST_ID, []
    for count in counts:
        found.append(list(range(at, at + count)))
        at += count
    return found


def cut_places(draw, lines, sizes):
    """For each line one of its requests, and a number of bytes of it and its reply that pass."""
    places = {}
    for ids in lines:
        id = draw.choice(ids)
        places[id] = draw.randrange(0, sum(sizes[id]))
    return places


def show_cuts(programs, runs, seed):
    """Runs of the whole script, every line cut."""
    script, printed, counts = case("a_whole_script")
    whole = Plan()
    step("a whole script over a link that is not cut", over_proxy(programs, script, whole), (printed, 0, 1))
    lines = requests_of(counts)
    step("its requests", sorted(whole.sizes), [id for ids in lines for id in ids])
    last = lines[-1][0]
    lost = "".join(printed.splitlines(keepends=True)[:-1]) + f"lost {len(lines)}\n"
    told = {"requests": 0, "replies": 0, "openings": 0, "links": 0, "lost": 0}
    for number in range(runs):
        draw = random.Random(f"{seed} {number}")
        places = cut_places(draw, lines, whole.sizes)
        plan = Plan(places, draw)
        got, status, links = over_proxy(programs, script, plan)
        may_be_lost = places[last] >= whole.sizes[last][0]
        if (got, status) != (printed, 0) and not (may_be_lost and (got, status) == (lost, 9)) or plan.places:
            print(f"run {number} of seed {seed}, cut at {places}: status {status}, {links} links, not cut {plan.places}\n{got}wanted\n{printed}")
            sys.exit(1)
        told["lost"] += status == 9
        told["links"] += links
        told["openings"] += plan.openings
        for id, place in places.items():
            told["requests" if place < whole.sizes[id][0] else "replies"] += 1
    print(f"{runs} runs, every line cut once: {told['requests']} cuts in requests, {told['replies']} behind them or in replies, {told['openings']} openings cut, "
          f"{told['links']} links; the same lines each time, but {told['lost']} times the last one was lost with its session")


def show_commands(programs, runs, seed):
    """Every command, over one link and over cut ones."""
    script, printed, counts = case("every_command")
    whole = Plan()
    step("every command", over_proxy(programs, script, whole), (printed, 0, 1))
    lines = requests_of(counts)[:-1]
    for number in range(runs):
        draw = random.Random(f"every {seed} {number}")
        plan = Plan(cut_places(draw, lines, whole.sizes), draw)
        got, status, links = over_proxy(programs, script, plan)
        step(f"every command, each line but the last cut once, over {links} links: status, cuts that are left", (status, plan.places), (0, {}))
        step("  the same lines", got.splitlines(), printed.splitlines())


def show_kill(programs):
    """A server that is killed and started again on its file."""
    afpd, afptool = programs
    with tempfile.TemporaryDirectory() as folder:
        place = os.path.join(folder, "share.db")
        started, port = server(afpd, place=place)
        client = subprocess.Popen([afptool, "client", f"127.0.0.1:{port}"], stdin=subprocess.PIPE, stdout=subprocess.PIPE)
        for line, wanted in [(b"mount Share\n", b"mounted 1\n"), (b"mkdir d\n", b"dir 17\n")]:
            client.stdin.write(line)
            client.stdin.flush()
            step(line.decode().strip(), client.stdout.readline(), wanted)
        started.kill()
        started, port = server(afpd, place=place, port=port)
        print("the server is killed, and started again on its file")
        client.stdin.write(b"mkdir e\n")
        client.stdin.flush()
        step("mkdir e", (client.communicate(timeout=SECONDS)[0], client.returncode), (b"lost 3\n", 9))
        step("the first directory is there", run_client(afptool, f"127.0.0.1:{port}", "mount Share\nid d\nid e\n"), ("mounted 1\nid 17\nerror -5018\n", 0))

        def again():
            nonlocal started
            started.kill()
            started, _ = server(afpd, place=place, port=port)

        proxy = Proxy(port, Plan(hold=(FIRST_ID + 1, again)))
        step("killed behind a request, before its reply passes", run_client(afptool, proxy.address, "mount Share\nmkdir f\nls /\n"), ("mounted 1\nlost 2\n", 9))
        proxy.close()
        step("it was carried out", run_client(afptool, f"127.0.0.1:{port}", "mount Share\nmkdir f\n"), ("mounted 1\nerror -5017\n", 0))
        started.kill()


def show_users(programs):
    script, printed, _ = case("a_whole_script")
    users = ("--users", "ann:secret,bob:,o'neil:a b:c")
    for user in ("ann:secret", "bob:", "o'neil:a b:c"):
        step(f"--user {user}", over_proxy(programs, script, Plan(), "--user", user, words=users), (printed, 0, 1))
    for user in ("ann:secreT", "ann:", "eve:secret", "ann:secret2"):
        step(f"--user {user}", over_proxy(programs, script, Plan(), "--user", user, words=users), ("refused -5023\n", 1, 1))
    places = {FIRST_ID + 1: 20, FIRST_ID + 2: 3}
    step("a user's links are cut", over_proxy(programs, script, Plan(places), "--user", "ann:secret", words=users), (printed, 0, 3))


def show_addresses(programs):
    script, printed, _ = case("a_whole_script")
    step("an IPv4 address", over_proxy(programs, script, Plan()), (printed, 0, 1))
    try:
        step("an IPv6 address in brackets", over_proxy(programs, script, Plan(), host="::1"), (printed, 0, 1))
    except OSError as fault:
        print(f"no IPv6 here: {fault}")
    afpd, afptool = programs
    started, port = server(afpd)
    step("a host's name", run_client(afptool, f"localhost:{port}", script), (printed, 0))
    started.kill()
    step("nobody listens", run_client(afptool, f"127.0.0.1:{port}", script), ("dial fault\n", 7))
    for address in ("127.0.0.1:0548", "127.0.0.1:", "127.0.0.1:65536", "no.such.host.invalid:548", ":548x"):
        step(f"the address {address}", run_client(afptool, address, script), ("dial fault\n", 7))
    listener = socket.create_server(("127.0.0.1", 0))
    links = []

    def close_each():
        while True:
            try:
                link, _ = listener.accept()
            except OSError:
                return
            links.append(link.getpeername())
            link.close()

    threading.Thread(target=close_each, daemon=True).start()
    told = run_client(afptool, f"127.0.0.1:{listener.getsockname()[1]}", script)
    step("a peer that closes each link at once: what is printed, and the links", told + (len(links),), ("broken\n", 7, 8))
    listener.close()


def show_sizes(programs):
    """Bytes and lists that take several requests."""
    afpd, afptool = programs
    started, port = server(afpd)
    content = bytes(range(256)) * 600
    session = afp.Session(afp.connect(port))
    for size in (0, 65535, 65536, 65537, 131072, len(content)):
        name = b"%d" % size
        step(f"a file of {size} bytes", session.create_file(name), afp.OK)
        fork = session.open_fork(name, 3)[1]
        for at in range(0, size, 65536):
            session.write(fork, at, content[at:min(size, at + 65536)])
        session.close_fork(fork)
        told = run_client(afptool, f"127.0.0.1:{port}", f"mount Share\nget {size}\n")
        step("  got whole", told == (f"mounted 1\ngot {size} {content[:size].hex()}".strip() + "\n", 0), True)
        session.delete(name)
    listed = []
    for number in range(130):
        name = b"f%03d" % number
        session.create_file(name)
        listed.append(f"file {23 + number} {name.decode()}")
        if len(listed) in (1, 63, 64, 65, 127, 128, 129, 130):
            told = run_client(afptool, f"127.0.0.1:{port}", "mount Share\nls /\n")
            step(f"a list of {len(listed)}", told == ("\n".join(["mounted 1"] + listed + [f"listed {len(listed)}", ""]), 0), True)
    session.close_session()
    started.kill()


def show_late(programs):
    """Replies that are late, and lines."""
    afpd, afptool = programs
    script, printed = "mount Share\nmkdir d\nmkdir d\nbye\n", "mounted 1\ndir 17\nerror -5017\nok\n"

    def late(seconds):
        time.sleep(seconds)
        return True

    for seconds, tickles, links in [(20, 0, 1), (45, 1, 1), (125, 3, 2)]:
        started, port = server(afpd)
        plan = Plan(hold=(FIRST_ID + 1, lambda: late(seconds)))
        proxy = Proxy(port, plan)
        done = subprocess.run([afptool, "client", proxy.address], input=script.encode(), stdout=subprocess.PIPE, timeout=SECONDS + seconds)
        step(f"a reply that is {seconds} seconds late: Tickles of the client, links", (done.stdout.decode(), done.returncode, plan.tickles, proxy.links),
             (printed, 0, tickles, links))
        proxy.close()
        started.kill()
    started, port = server(afpd)
    client = subprocess.Popen([afptool, "client", f"127.0.0.1:{port}"], stdin=subprocess.PIPE, stdout=subprocess.PIPE)
    client.stdin.write(b"mount Share\nmkdir d\n")
    client.stdin.flush()
    step("two lines", (client.stdout.readline(), client.stdout.readline()), (b"mounted 1\n", b"dir 17\n"))
    time.sleep(130)
    step("a line 130 seconds later, when the server has given the link up", (client.communicate(b"mkdir d/e\nbye\n", timeout=SECONDS)[0], client.returncode),
         (b"dir 18\nok\n", 0))
    started.kill()


def show_ends(programs):
    """Other ends, with their statuses."""
    afpd, afptool = programs
    started, port = server(afpd)
    address = f"127.0.0.1:{port}"
    for script, wanted in [("", ("", 0)), ("mkdir d\n", ("no volume\n", 0)), ("mount Share", ("mounted 1\n", 0)), ("mount Share\nmount  Share\n", ("mounted 1\nbad line 2\n", 3)),
                           ("bye\nno line\n", ("ok\n", 0))]:
        step(f"the script {script!r}", run_client(afptool, address, script), wanted)
    for words in ([], ["--user", "ann", address], ["--user", "ann:123456789", address], [address, address], ["--nobody", address]):
        done = subprocess.run([afptool, "client", *words], stdin=subprocess.DEVNULL, stdout=subprocess.PIPE, timeout=SECONDS)
        step(f"the words {words}", (done.stdout.splitlines()[:1], done.returncode), ([b"bad words"], 2))
    with open("/dev/full", "wb") as full:
        done = subprocess.run([afptool, "client", address], input=b"mount Share\n", stdout=full, timeout=SECONDS)
        step("a full disk for what is printed", done.returncode, 5)
    folder = os.open("/", os.O_RDONLY)
    done = subprocess.run([afptool, "client", address], stdin=folder, stdout=subprocess.PIPE, timeout=SECONDS)
    os.close(folder)
    step("a script that cannot be read", (done.stdout, done.returncode), (b"source fault\n", 4))
    started.kill()


def main():
    parser = argparse.ArgumentParser(description=__doc__.split("\n", 1)[0])
    parser.add_argument("afpd")
    parser.add_argument("afptool")
    parser.add_argument("--runs", type=int, default=200)
    parser.add_argument("--seed", type=int, default=1)
    parser.add_argument("--slow", action="store_true")
    words = parser.parse_args()
    programs = words.afpd, words.afptool
    show_ends(programs)
    show_addresses(programs)
    show_users(programs)
    show_kill(programs)
    show_sizes(programs)
    show_commands(programs, max(1, words.runs // 20), words.seed)
    show_cuts(programs, words.runs, words.seed)
    if words.slow:
        show_late(programs)


if __name__ == "__main__":
    main()
