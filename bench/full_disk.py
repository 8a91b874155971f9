#!/usr/bin/env python3
"""The file server over a file on a disk that gets full, and has room again. It needs the right to mount a small disk in memory.

full_disk.py [--kib N] [--program PATH]

Each line is what was done. It ends with status 1 at the first answer that is another.
"""
import argparse
import os
import subprocess
import sys
import tempfile

import afp
import afp_files
from afp_files import Server, step, words_for


def fill(client):
    """Writes until the same piece was refused eight times: the codes of the refusals, and what was acknowledged."""
    content, codes, row = b"", set(), 0
    while row < 8:
        piece = bytes([len(content) // 65536 % 251]) * 65536
        code, _ = client.write(1, len(content), piece)
        row = 0 if code == afp.OK else row + 1
        if code == afp.OK:
            content += piece
        else:
            codes.add(code)
    return codes, content


def show(program, folder):
    path, port = os.path.join(folder, "share.db"), afp.free_port()
    filler = os.path.join(folder, "filler")
    with open(filler, "wb") as file:
        file.write(bytes(600 * 1024))
    server = Server(words_for(port, "Share=" + path), program)
    server.wait_listening()
    client = afp_files.session(port)
    step("a file is made", client.create_file(b"f"), afp.OK)
    step("it is opened", client.open_fork(b"f", 0x0003), (afp.OK, 1))
    codes, content = fill(client)
    step(f"{len(content)} bytes are written, and then a piece is refused eight times", codes, {afp_files.MISC_ERR})
    step("what was acknowledged is read", client.content(b"f") == content, True)
    os.remove(filler)
    print("there is room again")
    step("the next piece is written", client.write(1, len(content), bytes(65536)), (afp.OK, len(content) + 65536))
    step("a file is made", client.create_file(b"g"), afp.OK)
    server.kill()
    server = Server(words_for(port, "Share=" + path), program)
    server.wait_listening()
    step("started again, all is there", afp_files.session(port).state() == {b"f": content + bytes(65536), b"g": b""}, True)
    server.kill()


def main():
    parser = argparse.ArgumentParser()
    parser.add_argument("--kib", type=int, default=2048)
    parser.add_argument("--program", default=afp_files.PROGRAM)
    arguments = parser.parse_args()
    with tempfile.TemporaryDirectory() as folder:
        subprocess.run(["mount", "-t", "tmpfs", "-o", f"size={arguments.kib}k", "tmpfs", folder], check=True)
        try:
            show(arguments.program, folder)
        finally:
            subprocess.run(["umount", "-l", folder])
    print("all as wanted")


if __name__ == "__main__":
    main()
