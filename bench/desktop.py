#!/usr/bin/env python3
"""Copies, exchanges, file ids and the desktop database over loopback: a file with both forks, a comment and an icon is copied within a volume and to another,
exchanged, and found by its id after it was renamed and moved; then the server is killed, started again over the same files, and all is there.

desktop.py [--program PATH] [--mib N]

Each line is what was asked and what came of it. It ends with status 1 at the first answer that is another. With --mib, two files of so many MiB (100 at most) in a
volume in memory are exchanged, and one of a third so many is copied, and each line has milliseconds and what the server has in memory.
"""
import argparse
import os
import struct
import tempfile
import time

import afp
import afp_files
from afp_files import Server, step, words_for

OTHER = 2
ITEM_NOT_FOUND, SAME_OBJECT, OBJECT_EXISTS, ID_EXISTS, ID_NOT_FOUND, BAD_ID = -5012, -5038, -5017, -5035, -5034, -5039
FINDER = b"TEXTWORD" + bytes(24)
DATA, RESOURCE = bytes(range(256)) * 40, b"resource " * 40
ICON = bytes(range(128))
SETTABLE = 0x003D
NEVER = -0x80000000


class Desk(afp_files.Files):
    """A session with both volumes open, and the calls on ids, copies, icons and applications."""

    def __init__(self, link):
        super().__init__(link)
        self.must(2, b"\x18\x00\x00\x20\x05Other")

    def done(self, command, head, block, data=b""):
        return self.ask(6 if data else 2, head + block, data)[0]

    def make_dir(self, name):
        code, reply = self.ask(2, struct.pack(">BBHI", 6, 0, afp.SHARE, afp.ROOT) + self.path(name))
        return code, struct.unpack(">I", reply)[0] if reply else 0

    def set_parms(self, name, created, modified):
        body = struct.pack(">HiiI", 0, created, modified, 0x80000000) + FINDER
        block = struct.pack(">BBHIH", 30, 0, afp.SHARE, afp.ROOT, SETTABLE) + self.path(name)
        return self.ask(2, block + bytes(len(block) % 2) + body)[0]

    def parms(self, volume, name):
        """The number, dates, Finder info and lengths of a file in the root."""
        bits = 0x0001 | 0x0004 | 0x0008 | 0x0010 | 0x0020 | 0x0100 | 0x0200 | 0x0400
        code, reply = self.ask(2, struct.pack(">BBHIHH", 34, 0, volume, afp.ROOT, bits, 0) + self.path(name))
        if code != afp.OK:
            return code
        _, created, modified, backup, finder, number, data, resource = struct.unpack(">Hiii32sIII", reply[6:64])
        return {"created": created, "modified": modified, "backup": backup, "finder": finder, "id": number, "lengths": (data, resource)}

    def copy_file(self, name, volume, new):
        head = struct.pack(">BBHIHI", 5, 0, afp.SHARE, afp.ROOT, volume, afp.ROOT)
        return self.ask(2, head + self.path(name) + self.path(b"") + self.path(new))[0]

    def exchange(self, one, two):
        return self.ask(2, struct.pack(">BBHII", 42, 0, afp.SHARE, afp.ROOT, afp.ROOT) + self.path(one) + self.path(two))[0]

    def create_id(self, name):
        code, reply = self.ask(2, struct.pack(">BBHI", 39, 0, afp.SHARE, afp.ROOT) + self.path(name))
        return code, struct.unpack(">I", reply)[0] if reply else 0

    def delete_id(self, number):
        return self.ask(2, struct.pack(">BBHI", 40, 0, afp.SHARE, number))[0]

    def resolve_id(self, number):
        """The code, and the number of the parent and the long name of the file."""
        code, reply = self.ask(2, struct.pack(">BBHIH", 41, 0, afp.SHARE, number, 0x0042))
        if code != afp.OK:
            return code, None
        parent, offset = struct.unpack(">IH", reply[2:8])
        name = reply[2 + offset:]
        return code, (parent, name[1:1 + name[0]])

    def move(self, name, to, new):
        head = struct.pack(">BBHII", 23, 0, afp.SHARE, afp.ROOT, to)
        return self.ask(2, head + self.path(name) + self.path(b"") + self.path(new))[0]

    def add_icon(self, desk, creator, kind, tag, bits):
        return self.ask(6, struct.pack(">BBH4s4sBBIH", 192, 0, desk, creator, kind, 1, 0, tag, len(bits)), bits)[0]

    def icon(self, desk, creator, kind, size):
        return self.ask(2, struct.pack(">BBH4s4sBBH", 51, 0, desk, creator, kind, 1, 0, size))

    def icon_info(self, desk, creator, index):
        code, reply = self.ask(2, struct.pack(">BBH4sH", 52, 0, desk, creator, index))
        return code, struct.unpack(">I4sBxH", reply) if reply else None

    def add_appl(self, desk, creator, tag, name):
        return self.ask(2, self.on_path(53, desk, name, creator + struct.pack(">I", tag)))[0]

    def remove_appl(self, desk, creator, name):
        return self.ask(2, self.on_path(54, desk, name, creator))[0]

    def appl(self, desk, creator, index):
        """The code, and the tag and the number of the file."""
        code, reply = self.ask(2, struct.pack(">BBH4sHH", 55, 0, desk, creator, index, 0x0100))
        return code, struct.unpack(">II", reply[2:10]) if reply else None

    def forks(self, volume, name):
        """The bytes of both forks of a file in the root."""
        found = []
        for resource in (False, True):
            head = struct.pack(">BBHIHH", 26, 0x80 * resource, volume, afp.ROOT, 0, 0x0001)
            fork = struct.unpack(">H", self.must(2, head + self.path(name))[2:4])[0]
            found.append(self.read(fork, 0, 65536)[1])
            self.close_fork(fork)
        return tuple(found)


def fill(session, name, data, resource):
    codes = [session.create_file(name)]
    for fork_bytes, is_resource in ((data, False), (resource, True)):
        code, fork = session.open_fork(name, 0x0003, is_resource)
        codes += [code, session.write(fork, 0, fork_bytes)[0], session.close_fork(fork)]
    return codes


def show_desktop(session):
    step("the desktop database of Share", session.open_desk(afp.SHARE), (afp.OK, afp.SHARE))
    step("a comment", session.add_comment(1, b"letter", b"the first letter"), afp.OK)
    step("is told", session.comment(1, b"letter"), (afp.OK, b"the first letter"))
    step("an icon", session.add_icon(1, b"WORD", b"TEXT", 7, ICON), afp.OK)
    step("is told in part", session.icon(1, b"WORD", b"TEXT", 5), (afp.OK, ICON[:5]))
    step("is told whole", session.icon(1, b"WORD", b"TEXT", 1000), (afp.OK, ICON))
    step("of another creator there is none", session.icon(1, b"XXXX", b"TEXT", 5)[0], ITEM_NOT_FOUND)
    step("what is told of it", session.icon_info(1, b"WORD", 1), (afp.OK, (7, b"TEXT", 1, len(ICON))))
    step("the second", session.icon_info(1, b"WORD", 2), (ITEM_NOT_FOUND, None))
    step("that of index 0", session.icon_info(1, b"WORD", 0), (afp.PARAM_ERR, None))
    step("an application", session.add_appl(1, b"WORD", 9, b"letter"), afp.OK)
    step("is found", session.appl(1, b"WORD", 1), (afp.OK, (9, 17)))
    step("a second is not", session.appl(1, b"WORD", 2), (ITEM_NOT_FOUND, None))


def show_copies(session):
    wanted = session.parms(afp.SHARE, b"letter")
    step("it is copied beside itself", session.copy_file(b"letter", afp.SHARE, b"copy"), afp.OK)
    step("and to another volume", session.copy_file(b"letter", OTHER, b""), afp.OK)
    step("and there again", session.copy_file(b"letter", OTHER, b""), OBJECT_EXISTS)
    for volume, name, number in ((afp.SHARE, b"copy", 18), (OTHER, b"letter", 17)):
        step(f"both forks of {name.decode()} in volume {volume} are those of the letter", session.forks(volume, name) == (DATA, RESOURCE), True)
        step("dates, Finder info, lengths are too", session.parms(volume, name) == {**wanted, "id": number, "backup": NEVER}, True)
    step("the comment is not", session.comment(1, b"copy"), (ITEM_NOT_FOUND, b""))
    code, fork = session.open_fork(b"letter", 0x0002)
    step("it is opened to write", code, afp.OK)
    step("and copied meanwhile", session.copy_file(b"letter", afp.SHARE, b"more"), afp.DENY_CONFLICT)
    step("and closed", session.close_fork(fork), afp.OK)


def show_exchange(session):
    step("a second file", fill(session, b"second", b"second", b""), [afp.OK] * 7)
    code, fork = session.open_fork(b"letter", 0x0003)
    step("the letter is opened", code, afp.OK)
    step("and its first bytes are locked", session.lock(fork, 0, 10), afp.OK)
    step("it is exchanged with the second", session.exchange(b"letter", b"second"), afp.OK)
    step("with itself", session.exchange(b"letter", b"letter"), SAME_OBJECT)
    step("the open fork has its bytes", session.read(fork, 0, 10), (afp.OK, DATA[:10]))
    number = struct.unpack(">I", session.must(2, struct.pack(">BBHH", 14, 0, fork, 0x0100))[2:6])[0]
    step("and is that of the second", number, 19)
    step("whose bytes stay locked", session.open_fork(b"second", 0x0003)[0], afp.OK)
    step("for others than itself", session.read(fork + 1, 0, 1)[0], afp.LOCK_ERR)
    step("it is closed", [session.close_fork(fork), session.close_fork(fork + 1)], [afp.OK, afp.OK])
    step("the letter has those of the second", session.forks(afp.SHARE, b"letter"), (b"second", b""))
    step("they are exchanged again", session.exchange(b"letter", b"second"), afp.OK)
    step("the letter has its own", session.forks(afp.SHARE, b"letter") == (DATA, RESOURCE), True)


def show_ids(session):
    step("the letter's id", session.create_id(b"letter"), (afp.OK, 17))
    step("once more", session.create_id(b"letter"), (ID_EXISTS, 0))
    step("a directory", session.make_dir(b"folder"), (afp.OK, 20))
    step("the letter is renamed", session.rename(b"letter", b"renamed"), afp.OK)
    step("and moved", session.move(b"renamed", 20, b"moved"), afp.OK)
    step("and found by its id", session.resolve_id(17), (afp.OK, (20, b"moved")))
    step("an id that nobody has", session.resolve_id(99), (ID_NOT_FOUND, None))
    step("an id below the first", session.resolve_id(3), (BAD_ID, None))
    step("the directory's", session.delete_id(20), ID_NOT_FOUND)


def show_kept(session):
    step("the letter is found by its id", session.resolve_id(17), (afp.OK, (20, b"moved")))
    step("the icon", session.icon(1, b"WORD", b"TEXT", 1000), (afp.OK, ICON))
    step("the application", session.appl(1, b"WORD", 1), (afp.OK, (9, 17)))
    step("the copies", [session.forks(afp.SHARE, b"copy") == (DATA, RESOURCE), session.forks(OTHER, b"letter") == (DATA, RESOURCE)], [True, True])
    step("the letter is moved back", session.ask(2, struct.pack(">BBHII", 23, 0, afp.SHARE, 20, afp.ROOT) + session.path(b"moved") + session.path(b"") + session.path(b"letter"))[0], afp.OK)
    step("with its comment", session.comment(1, b"letter"), (afp.OK, b"the first letter"))
    step("and both forks", session.forks(afp.SHARE, b"letter") == (DATA, RESOURCE), True)
    step("its id is given up", [session.delete_id(17), session.delete_id(17)], [afp.OK, ID_NOT_FOUND])
    step("the application is removed", [session.remove_appl(1, b"WORD", b"letter"), session.remove_appl(1, b"WORD", b"letter")], [afp.OK, ITEM_NOT_FOUND])
    step("the comment is taken away", [session.ask(2, session.on_path(57, 1, b"letter"))[0], session.comment(1, b"letter")[0]], [afp.OK, ITEM_NOT_FOUND])


def resident(server):
    """KiB that the server has in memory, and the most that it had."""
    with open(f"/proc/{server.process.pid}/status") as status:
        found = dict(line.split(":") for line in status)
    return tuple(int(found[name].split()[0]) for name in ("VmRSS", "VmHWM"))


def timed(server, what, call):
    before = resident(server)
    since = time.perf_counter()
    got = call()
    passed = (time.perf_counter() - since) * 1000
    print(f"{passed:9.1f} ms, from {before[0]} KiB to {resident(server)[0]}, at most {resident(server)[1]}: {what}")
    if got != afp.OK:
        raise ValueError(f"it was refused with {got}")


def write_mib(session, name, mib, seed):
    session.create_file(name)
    fork = session.open_fork(name, 0x0003)[1]
    piece = bytes((seed + n) % 251 for n in range(65536))
    for at in range(0, mib << 20, len(piece)):
        session.write(fork, at, piece)
    session.close_fork(fork)


def show_large(program, mib):
    port = afp.free_port()
    server = Server(words_for(port, "Share=memory", "Other=memory", links=1), program)
    server.wait_listening()
    session = Desk(afp.connect(port))
    write_mib(session, b"one", mib, 1)
    write_mib(session, b"two", mib, 2)
    for turn in ("once", "again"):
        timed(server, f"two files of {mib} MiB are exchanged {turn}", lambda: session.exchange(b"one", b"two"))
    write_mib(session, b"third", mib // 3, 3)
    timed(server, f"one of {mib // 3} MiB is copied to another volume", lambda: session.copy_file(b"third", OTHER, b"copy"))
    session.close_session()
    step("the server's end", server.ended()[0], 0)


def main():
    words = argparse.ArgumentParser(description="copies, exchanges, file ids and the desktop database over loopback")
    words.add_argument("--program", help="another file server than ./run afpd's")
    words.add_argument("--mib", type=int, help="exchange two files of so many MiB, and copy one of a third")
    asked = words.parse_args()
    program = asked.program
    if program is None:
        afp_files.build()
        program = afp_files.PROGRAM
    if asked.mib:
        show_large(program, asked.mib)
        return
    with tempfile.TemporaryDirectory() as folder:
        places = [f"{name}={os.path.join(folder, name)}.db" for name in ("Share", "Other")]
        port = afp.free_port()
        server = Server(words_for(port, *places), program)
        server.wait_listening()
        session = Desk(afp.connect(port))
        step("a file with both forks", fill(session, b"letter", DATA, RESOURCE), [afp.OK] * 7)
        step("its Finder info and dates", session.set_parms(b"letter", -1000, 1000), afp.OK)
        for show in (show_desktop, show_copies, show_exchange, show_ids):
            show(session)
        server.kill()
        print("the server is killed, and started again")
        port = afp.free_port()
        server = Server(words_for(port, *places, links=1), program)
        server.wait_listening()
        session = Desk(afp.connect(port))
        show_kept(session)
        session.close_session()
        step("the server's end", server.ended()[0], 0)


if __name__ == "__main__":
    main()
