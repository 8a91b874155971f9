#!/usr/bin/env python3
"""The file server as a new user meets it: wrong words, a volume in a file, kill -9, two servers on one file, a port in use.

first_use.py [--program PATH]

Each line is what was done. It ends with status 1 at the first answer that is another.
"""
import argparse
import os
import shutil
import sqlite3
import sys
import tempfile

import afp
import afp_files
from afp_files import Server, step, words_for


def contains(what, text, part):
    print(f"{what}: {text.strip()!r:.400}")
    if part not in text:
        print(f"wanted {part!r} in it")
        sys.exit(1)


def show_words(program):
    for words, part in [([], "VOLUME=PLACE"), (["--port", "99999", "Share=memory"], "--port"), (["--signature", "12", "Share=memory"], "32 hexadecimal digits"),
                        (["--links", "1000001", "Share=memory"], "--links"), (["--users", "ann", "Share=memory"], "NAME:PASSWORD"), (["Share"], "NAME=PLACE"),
                        (["--workers", "0", "Share=memory"], "--workers"), (["Share=memory", "Share=memory"], "no two volumes"), (["--prot", "1", "Share=memory"], "--prot")]:
        server = Server(words, program)
        step(f"words {words}", server.ended(), (2, "bad words\n"))
        contains("  a person is told", server.told(), part)
    for word, part in [("--help", "--workers"), ("--version", "0.1")]:
        server = Server([word], program)
        status, report = server.ended()
        step(f"{word}: status and standard error", (status, server.told()), (0, ""))
        contains("  standard output", report, part)


def show_file(program, folder):
    path, port = os.path.join(folder, "share.db"), afp.free_port()
    server = Server(words_for(port, "Share=" + path), program)
    server.wait_listening()
    contains("a server on a new file", server.told(), f"listens on port {port}: Share={path} (nodes 1)")
    client = afp_files.session(port)
    step("a directory is made", client.create_dir(b"letters"), afp.OK)
    step("a file is made", client.create_file(b"text"), afp.OK)
    code, fork = client.open_fork(b"text", 0x0003)
    step("it is opened", code, afp.OK)
    content = bytes(range(256)) * 1024
    for at in range(0, len(content), 65536):
        step("64 KiB are written", client.write(fork, at, content[at:at + 65536]), (afp.OK, at + 65536))
    server.kill()
    print("the server is killed with kill -9")
    server = Server(words_for(port, "Share=" + path), program)
    server.wait_listening()
    contains("a server on the same file", server.told(), "(nodes 3)")
    client = afp_files.session(port)
    step("all is there", client.state() == {b"letters": None, b"text": content}, True)
    show_locked(program, path)
    show_port(program, port)
    step("the first server goes on", client.create_file(b"more"), afp.OK)
    server.kill()


def show_locked(program, path):
    other = Server(words_for(afp.free_port(), "Share=" + path), program)
    step("a second server on the file", other.ended(), (3, "load 1 fault\n"))
    contains("  a person is told", other.told(), "locked")


def show_port(program, port):
    other = Server(words_for(port, "Share=memory"), program)
    step("a server on the same port", other.ended(), (4, "entries 0 sessions 0\n"))
    contains("  a person is told", other.told(), f"port {port}")


def show_unopened(program, folder):
    for path in [os.path.join(folder, "none", "share.db"), folder]:
        server = Server(words_for(afp.free_port(), "Share=" + path), program)
        step(f"a file that cannot be opened, {path}", server.ended(), (3, "load 1 fault\n"))
        contains("  a person is told", server.told(), path)
    path = os.path.join(folder, "letter.txt")
    with open(path, "wb") as file:
        file.write(b"Dear reader, this is no database.\n" * 100)
    server = Server(words_for(afp.free_port(), "Two=memory", "Share=" + path), program)
    step("a file that is no database", server.ended(), (3, "load 2 fault\n"))
    contains("  a person is told", server.told(), path)
    with open(path, "rb") as file:
        step("it is as it was", file.read(), b"Dear reader, this is no database.\n" * 100)


def show_volumes(program, folder):
    port = afp.free_port()
    words = words_for(port, "Share=" + os.path.join(folder, "a.db"), "Two=memory", "Three=" + os.path.join(folder, "b.db"), links=1)
    server = Server(words, program)
    server.wait_listening()
    contains("three volumes, two in files", server.told(), "Two=memory (nodes 1)")
    client = afp_files.session(port)
    step("a file in the first", client.create_file(b"f"), afp.OK)
    client.close_session()
    status, report = server.ended()
    step("it ends behind one link", status, 0)
    contains("  its report", report, "sessions 1")
    step("  nodes in the first file, without the log beside it", nodes_alone(os.path.join(folder, "a.db")), 2)


def nodes_alone(path):
    """How many nodes a file has, read from a copy of it alone."""
    alone = path + ".alone"
    shutil.copy(path, alone)
    database = sqlite3.connect(alone)
    nodes = database.execute("SELECT count(*) FROM records WHERE substr(key, 1, 1) = x'01'").fetchone()[0]
    database.close()
    return nodes


def main():
    parser = argparse.ArgumentParser()
    parser.add_argument("--program", default=afp_files.PROGRAM)
    program = parser.parse_args().program
    with tempfile.TemporaryDirectory() as folder:
        show_words(program)
        show_file(program, folder)
        show_unopened(program, folder)
        show_volumes(program, folder)
    print("all as wanted")


if __name__ == "__main__":
    main()
