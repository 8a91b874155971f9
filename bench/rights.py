#!/usr/bin/env python3
"""A directory that is its owner's alone: a user makes it on a server over a file, and a guest may not enter, search or change it, until its owner says otherwise; then the server is killed and started again.

rights.py [--program PATH]

Each line is what was done. It ends with status 1 at the first answer that is another.
"""
import argparse
import os
import struct
import tempfile

import afp
import afp_files
from afp_files import Server, step

ACCESS_DENIED, ITEM_NOT_FOUND = -5000, -5012
SEARCH, READ, WRITE = 1, 2, 4


def path(*names):
    """A path of UTF-8 names; of none, the directory itself."""
    text = b"\0".join(names)
    return struct.pack(">BIH", 3, 0, len(text)) + text


class User(afp_files.Files):
    """A session with the volume Share open, of a user by name and password, or of the guest."""

    def __init__(self, port, name=None, password=b""):
        afp.Link.__init__(self, afp.connect(port))
        self.must(4, b"\x01\x04\x00\x00\x04\x00")
        login = b"\x12\x06AFP3.3"
        if name is None:
            login += b"\x0fNo User Authent"
        else:
            login += b"\x10Cleartxt Passwrd" + bytes([len(name)]) + name
            login += bytes(len(login) % 2) + password.ljust(8, b"\0")
        self.must(2, login)
        self.must(2, b"\x18\x00\x00\x20\x05Share")

    def on(self, command, names, middle=b"", flag=0):
        return self.ask(2, struct.pack(">BBHI", command, flag, afp.SHARE, afp.ROOT) + middle + path(*names))

    def make_dir(self, *names):
        code, reply = self.on(6, names)
        return code, struct.unpack(">I", reply)[0] if code == afp.OK else 0

    def make_file(self, *names):
        return self.on(7, names)[0]

    def remove(self, *names):
        return self.on(8, names)[0]

    def told(self, *names):
        """The owner, the group and the four bytes of rights of a directory."""
        code, reply = self.on(34, names, struct.pack(">HH", 0, 0x1C00))
        return struct.unpack(">II", reply[6:14]) + (reply[14:18].hex(),) if code == afp.OK else code

    def find(self, *names):
        return self.on(34, names, struct.pack(">HH", 0x0100, 0x0100))[0]

    def set_dir(self, bits, tail, *names):
        block = struct.pack(">BBHIH", 29, 0, afp.SHARE, afp.ROOT, bits) + path(*names)
        return self.ask(2, block + bytes(len(block) % 2) + tail)[0]

    def set_rights(self, everyone, group, owner, *names):
        return self.set_dir(0x1000, bytes([0, everyone, group, owner]), *names)

    def list(self, *names):
        """The names in a directory, or the code."""
        head = struct.pack(">BBHIHHHII", 68, 0, afp.SHARE, afp.ROOT, 0x0040, 0x0040, 64, 1, 60000)
        code, reply = self.ask(2, head + path(*names))
        if code != afp.OK:
            return code
        found, at = [], 6
        for _ in range(struct.unpack(">H", reply[4:6])[0]):
            size = struct.unpack(">H", reply[at:at + 2])[0]
            name = at + 4 + struct.unpack(">H", reply[at + 4:at + 6])[0]
            found.append(reply[name + 1:name + 1 + reply[name]])
            at += size
        return found

    def open(self, mode, *names):
        code, reply = self.on(26, names, struct.pack(">HH", 0, mode))
        return code, struct.unpack(">H", reply[2:4])[0] if code == afp.OK else 0


def started(program, file):
    port = afp.free_port()
    server = Server(["--users", "ann:secret", "--port", str(port), "--workers", "2", "--links", "0", "Share=" + file], program)
    if not server.wait_listening():
        raise SystemExit(f"the server ended: {server.ended()}")
    return server, port


def main():
    words = argparse.ArgumentParser(description=__doc__.splitlines()[0])
    words.add_argument("--program", default=None)
    program = words.parse_args().program
    if program is None:
        afp_files.build()
        program = afp_files.PROGRAM
    with tempfile.TemporaryDirectory() as folder:
        show(program, os.path.join(folder, "share.db"))
    print("all as wanted")


def show(program, file):
    server, port = started(program, file)
    ann, guest = User(port, b"ann", b"secret"), User(port)
    step("ann makes a directory", ann.make_dir(b"d"), (afp.OK, 17))
    step("it is hers, and open to all", ann.told(b"d"), (501, 500, "87070707"))
    step("the guest is told so", guest.told(b"d"), (501, 500, "07070707"))
    step("ann makes a file in it", ann.make_file(b"d", b"f"), afp.OK)
    step("the guest finds it", guest.find(b"d", b"f"), afp.OK)
    step("ann keeps it to herself", ann.set_rights(0, 0, 7, b"d"), afp.OK)
    step("the guest is told what there is", guest.told(b"d"), (501, 500, "00000007"))
    step("the guest does not enter it", guest.find(b"d", b"f"), ACCESS_DENIED)
    step("nor learns what is not there", guest.find(b"d", b"none"), ACCESS_DENIED)
    step("nor lists it", guest.list(b"d"), ACCESS_DENIED)
    step("nor makes a file in it", guest.make_file(b"d", b"g"), ACCESS_DENIED)
    step("nor opens one", guest.open(1, b"d", b"f")[0], ACCESS_DENIED)
    step("nor removes one", guest.remove(b"d", b"f"), ACCESS_DENIED)
    step("nor gives itself the rights", guest.set_rights(7, 7, 7, b"d"), ACCESS_DENIED)
    step("ann lists it", ann.list(b"d"), [b"f"])
    step("ann lets all search and read", ann.set_rights(SEARCH | READ, 0, 7, b"d"), afp.OK)
    step("the guest lists it", guest.list(b"d"), [b"f"])
    code, fork = guest.open(1, b"d", b"f")
    step("and reads the file", code, afp.OK)
    step("but does not write it", guest.open(2, b"d", b"f")[0], ACCESS_DENIED)
    step("nor makes one", guest.make_file(b"d", b"g"), ACCESS_DENIED)
    step("ann closes it again", ann.set_rights(0, 0, 7, b"d"), afp.OK)
    step("the guest's fork is open all the same", guest.length(fork), 0)
    step("but opens no more", guest.open(1, b"d", b"f")[0], ACCESS_DENIED)
    step("nobody is made an owner", ann.set_dir(0x0400, struct.pack(">I", 999), b"d"), ITEM_NOT_FOUND)
    server.kill()
    server, port = started(program, file)
    ann, guest = User(port, b"ann", b"secret"), User(port)
    step("behind a kill and a start the guest still does not enter it", guest.find(b"d", b"f"), ACCESS_DENIED)
    step("it is ann's", ann.told(b"d"), (501, 500, "87000007"))
    step("ann gives it away to the guest", ann.set_dir(0x0400, struct.pack(">I", 500), b"d"), afp.OK)
    step("and enters it no more", ann.find(b"d", b"f"), ACCESS_DENIED)
    step("the guest, who is its owner, does", guest.list(b"d"), [b"f"])
    server.kill()


if __name__ == "__main__":
    main()
