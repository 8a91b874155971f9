#!/usr/bin/env python3
"""Kills the file server at random moments under load over a real file, starts it again, and compares what is there with what was acknowledged.

kills.py [--kills N] [--seed N] [--program PATH]

Calls are sent up to four ahead of their replies. After each kill the volume must be the one behind all acknowledged calls and some first ones of those
that were on their way, whole. Each tenth kill falls into a start. It ends with status 1 at the first volume that is another.
"""
import argparse
import os
import random
import struct
import sys
import tempfile
import time

import afp
import afp_files
from afp_files import Server, words_for

NAMES = [b"f%d" % n for n in range(8)]
DIRS = [b"d%d" % n for n in range(4)]


class Load:
    """Makes calls, and keeps what each would make of the volume."""

    def __init__(self, client, state, chance):
        self.client, self.chance = client, chance
        self.acknowledged = dict(state)
        self.on_their_way = []
        self.forks = {}
        self.calls = 0

    def send(self, command, block, data, change):
        word = len(block) if command == 6 else 0
        client = self.client
        client.link.sendall(struct.pack(">BBHIII", 0, command, client.number, word, len(block) + len(data), 0) + block + data)
        self.on_their_way.append((client.number, change))
        client.number = (client.number + 1) % 65536

    def take(self):
        client = self.client
        flags, _, number, code, length, _ = struct.unpack(">BBHiII", client.take(16))
        reply = client.take(length)
        wanted, change = self.on_their_way[0]
        if number != wanted or code != afp.OK:
            raise ValueError(f"reply {number} to {wanted} with {code}")
        self.on_their_way.pop(0)
        change(self.acknowledged)
        self.calls += 1
        return reply

    def expected(self):
        """What the volume is to be behind all calls that were sent."""
        state = dict(self.acknowledged)
        for _, change in self.on_their_way:
            change(state)
        return state

    def drain(self):
        while self.on_their_way:
            self.take()

    def create(self, name):
        self.send(2, struct.pack(">BBHI", 7, 0, afp.SHARE, afp.ROOT) + self.client.path(name), b"", lambda state: state.__setitem__(name, b""))

    def create_dir(self, name):
        self.send(2, struct.pack(">BBHI", 6, 0, afp.SHARE, afp.ROOT) + self.client.path(name), b"", lambda state: state.__setitem__(name, None))

    def delete(self, name):
        self.send(2, struct.pack(">BBHI", 8, 0, afp.SHARE, afp.ROOT) + self.client.path(name), b"", lambda state: state.__delitem__(name))

    def rename(self, old, new):
        def change(state):
            state[new] = state.pop(old)
        self.send(2, struct.pack(">BBHI", 28, 0, afp.SHARE, afp.ROOT) + self.client.path(old) + self.client.path(new), b"", change)

    def write(self, name, at, data):
        def change(state):
            old = state[name].ljust(at, b"\0")
            state[name] = old[:at] + data + old[at + len(data):]
        self.send(6, struct.pack(">BBHiI", 33, 0, self.forks[name], at, len(data)), data, change)

    def open(self, name):
        self.drain()
        code, fork = self.client.open_fork(name, 0x0003)
        if code != afp.OK:
            raise ValueError(f"{name!r} is not opened: {code}")
        self.forks[name] = fork

    def close(self, name):
        self.drain()
        self.client.close_fork(self.forks.pop(name))

    def one(self):
        """One call or two, chosen at random."""
        state, chance = self.expected(), self.chance
        files = [name for name in NAMES if name in state]
        free = [name for name in NAMES if name not in state]
        what = chance.random()
        if what < 0.12 and free:
            self.create(chance.choice(free))
        elif what < 0.18:
            name = chance.choice(DIRS)
            self.delete(name) if name in state else self.create_dir(name)
        elif what < 0.24 and files and free:
            name = chance.choice(files)
            if name in self.forks:
                self.close(name)
            self.rename(name, chance.choice(free))
        elif what < 0.30 and files:
            name = chance.choice(files)
            if name in self.forks:
                self.close(name)
            self.delete(name)
        elif files:
            name = chance.choice(files)
            if name not in self.forks:
                self.open(name)
            size = chance.choice([1, 100, 5000, 40000, 65536])
            at = chance.choice([0, 3, 4096, 65536, len(state[name])])
            self.write(name, at, bytes([chance.randrange(256)]) * size)
        while len(self.on_their_way) > 4:
            self.take()

    def may_be(self):
        """The volumes that may be there: all acknowledged calls, and some first ones of the others."""
        state = dict(self.acknowledged)
        states = [dict(state)]
        for _, change in self.on_their_way:
            change(state)
            states.append(dict(state))
        return states


def start(path, port, program):
    server = Server(words_for(port, "Share=" + path), program)
    if not server.wait_listening():
        print(f"the server does not start: {server.ended()} {server.told()}")
        sys.exit(1)
    return server


def run_until_killed(server, load, seconds):
    """Makes calls until the time has passed; then the server is killed, in the middle of what it does."""
    until = time.monotonic() + seconds
    while time.monotonic() < until:
        load.one()
    server.kill()
    try:
        load.drain()
    except (OSError, EOFError):
        pass


def main():
    parser = argparse.ArgumentParser()
    parser.add_argument("--kills", type=int, default=200)
    parser.add_argument("--seed", type=int, default=1)
    parser.add_argument("--program", default=afp_files.PROGRAM)
    arguments = parser.parse_args()
    chance = random.Random(arguments.seed)
    calls = ahead = sent = in_start = 0
    with tempfile.TemporaryDirectory() as folder:
        path = os.path.join(folder, "share.db")
        states = [{}]
        for number in range(arguments.kills):
            port = afp.free_port()
            if number % 10 == 9:
                server = Server(words_for(port, "Share=" + path), arguments.program)
                time.sleep(chance.uniform(0, 0.05))
                server.kill()
                in_start += 1
                continue
            server = start(path, port, arguments.program)
            client = afp_files.session(port)
            found = client.state()
            if found not in states:
                print(f"kill {number}: the volume is none that may be")
                sys.exit(1)
            load = Load(client, found, chance)
            ahead += states.index(found)
            run_until_killed(server, load, chance.uniform(0.005, 0.3))
            calls += load.calls
            sent += len(load.on_their_way)
            states = load.may_be()
        server = start(path, port, arguments.program)
        found = afp_files.session(port).state()
        server.kill()
        if found not in states:
            print("behind the last kill: the volume is none that may be")
            sys.exit(1)
    print(f"{arguments.kills} kills, {in_start} of them in a start; {calls} calls acknowledged, none missing; {sent} on their way, {ahead} of them kept, whole")


if __name__ == "__main__":
    main()
