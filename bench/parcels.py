#!/usr/bin/env python3
"""Parcels over loopback: a file with both forks, dates, Finder info and a comment is packed by a script, deleted, and unpacked under another name. Then the
parcel goes through tools that nobody here wrote: lsar and unar (Debian's unar) read it and write a header file of their own, hexbin (macutils) writes one.

parcels.py [--program AFPD] [--tool AFPTOOL]

Each line is what was asked and what came of it. It ends with status 1 at the first answer that is another. What is not installed is said and left out.
"""
import argparse
import json
import os
import shutil
import struct
import subprocess
import tempfile

import afp
import afp_files
from afp_files import Server, step

DATA = bytes(range(256)) + b"data fork"
RESOURCE = b"resource fork " * 9
FINDER = b"TEXTttxt" + bytes(range(24))
COMMENT = b"packed, deleted, unpacked"
CREATED, MODIFIED, BACKUP = 86400 * 365, 86400 * 366 + 7, -86400
# seconds from 1970 to 2000, from which the protocol counts
EPOCH = 946684800


class Desk(afp_files.Files):
    """A session with the calls on dates, Finder info and whole forks."""

    def set_parms(self, name):
        block = struct.pack(">BBHIH", 30, 0, afp.SHARE, afp.ROOT, 0x003C) + self.path(name)
        return self.ask(2, block + bytes(len(block) % 2) + struct.pack(">iii", CREATED, MODIFIED, BACKUP) + FINDER)[0]

    def parms(self, name):
        """The dates, the Finder info and the lengths of both forks."""
        code, reply = self.ask(2, struct.pack(">BBHIHH", 34, 0, afp.SHARE, afp.ROOT, 0x063C, 0) + self.path(name))
        return struct.unpack(">iii32sII", reply[6:58]) if code == afp.OK else code

    def put(self, name, data, resource):
        fork = self.open_fork(name, 0x0022, resource)[1]
        self.write(fork, 0, data)
        return self.close_fork(fork)

    def get(self, name, resource):
        fork = self.open_fork(name, 0x0001, resource)[1]
        data = self.read(fork, 0, 65536)[1]
        self.close_fork(fork)
        return data


def run(words, given=b"", where=None):
    """The status and the output of a program."""
    done = subprocess.run(words, input=given, stdout=subprocess.PIPE, stderr=subprocess.PIPE, cwd=where, timeout=60)
    return done.returncode, done.stdout


def script(tool, port, *lines):
    status, out = run([tool, "client", f"127.0.0.1:{port}"], "".join(f"{line}\n" for line in lines).encode())
    return status, out.decode().splitlines()


def parcel(tool, path):
    with open(path, "rb") as source:
        status, out = run([tool, "parcel"], source.read())
    return status, out.decode()


def through_unar(tool, folder, packed):
    """lsar names the file and its forks, unar takes them out; the header file that unar writes for the resource fork is a parcel that the tool reads."""
    if not (shutil.which("lsar") and shutil.which("unar")):
        print("unar is not installed: left out")
        return
    _, listed = run(["lsar", "-j", packed])
    found = json.loads(listed)
    step("lsar: format", found["lsarFormatName"], "AppleSingle")
    forks = [(it["XADFileName"], it["XADFileSize"], bool(it.get("XADIsResourceFork"))) for it in found["lsarContents"]]
    step("lsar: forks", forks, [("plain", len(DATA), False), ("plain", len(RESOURCE), True)])
    out = os.path.join(folder, "out")
    step("unar", run(["unar", "-q", "-f", "-D", "-k", "visible", "-o", out, packed])[0], 0)
    with open(os.path.join(out, "plain"), "rb") as data:
        step("unar: the data fork is the same", data.read() == DATA, True)
    step("unar: modified", int(os.stat(os.path.join(out, "plain")).st_mtime), EPOCH + MODIFIED)
    header = os.path.join(out, "plain.rsrc")
    step("parcel of the header file that unar wrote", parcel(tool, header), (0, f"double data 0 resource {len(RESOURCE)}\n"))


def through_macutils(tool, folder):
    """hexbin writes a header file of version 1, which is none of this profile's."""
    if not (shutil.which("binhex") and shutil.which("hexbin")):
        print("macutils is not installed: left out")
        return
    info = bytearray(128)
    info[1:6] = b"\x04note"
    info[65:73] = b"TEXTttxt"
    info[83:91] = struct.pack(">II", 5, 3)
    for name, text in (("note.info", bytes(info)), ("note.data", b"hello"), ("note.rsrc", b"RES")):
        with open(os.path.join(folder, name), "wb") as it:
            it.write(text)
    _, text = run(["binhex", "note"], where=folder)
    with open(os.path.join(folder, "note.hqx"), "wb") as it:
        it.write(text)
    inside = os.path.join(folder, "inside")
    os.makedirs(os.path.join(inside, ".AppleDouble"))
    run(["hexbin", "-a", "../note.hqx"], where=inside)
    header = os.path.join(inside, ".AppleDouble", "note")
    with open(header, "rb") as it:
        step("hexbin: magic and version", it.read(8).hex(), "0005160700010000")
    step("parcel of the header file that hexbin wrote", parcel(tool, header), (3, "bad parcel\n"))


def main():
    words = argparse.ArgumentParser(description=__doc__.splitlines()[0])
    words.add_argument("--program", help="the server; without it ./run builds one")
    words.add_argument("--tool", default=os.path.join(afp.TOP, ".run", "afptool"), help="the tool")
    words = words.parse_args()
    if words.program is None:
        afp_files.build()
    port = afp.free_port()
    # one link for this script's own session, and one for the tool's
    server = Server(["--port", str(port), "--workers", "2", "--links", "0", "Share=memory"], words.program or afp_files.PROGRAM)
    server.wait_listening()
    try:
        desk = Desk(afp.connect(port))
        step("create", desk.create_file(b"plain"), afp.OK)
        step("data fork", desk.put(b"plain", DATA, False), afp.OK)
        step("resource fork", desk.put(b"plain", RESOURCE, True), afp.OK)
        step("dates and Finder info", desk.set_parms(b"plain"), afp.OK)
        code, number = desk.open_desk(afp.SHARE)
        step("desktop database", code, afp.OK)
        step("comment", desk.add_comment(number, b"plain", COMMENT), afp.OK)
        was = desk.parms(b"plain")
        status, lines = script(words.tool, port, "mount Share", "pack plain", "rm plain", "pack plain")
        word, size, text = lines[1].split()
        packed = bytes.fromhex(text)
        step("pack, rm, pack", (status, lines[0], word, lines[2:]), (0, "mounted 1", "packed", ["ok", "error -5018"]))
        step("its length", int(size), len(packed))
        step("unpack", script(words.tool, port, "mount Share", f"unpack again {text}"), (0, ["mounted 1", f"unpacked {len(DATA) + len(RESOURCE)}"]))
        step("the data fork is the same", desk.get(b"again", False) == DATA, True)
        step("the resource fork is the same", desk.get(b"again", True) == RESOURCE, True)
        step("dates, Finder info and lengths are the same", desk.parms(b"again") == was, True)
        step("the comment is the same", desk.comment(number, b"again"), (afp.OK, COMMENT))
        status, lines = script(words.tool, port, "mount Share", "pack again", "unpack bad 00")
        step("packed again: as long as before", (status, len(bytes.fromhex(lines[1].split()[2]))), (0, len(packed)))
        step("no parcel", lines[2], "bad parcel")
        with tempfile.TemporaryDirectory() as folder:
            path = os.path.join(folder, "plain.as")
            with open(path, "wb") as out:
                out.write(packed)
            step("parcel", parcel(words.tool, path), (0, f"single data {len(DATA)} resource {len(RESOURCE)}\n"))
            through_unar(words.tool, folder, path)
            through_macutils(words.tool, folder)
    finally:
        server.kill()


if __name__ == "__main__":
    main()
