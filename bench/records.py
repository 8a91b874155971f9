#!/usr/bin/env python3
"""The records that the file server keeps of a volume in a file, and starts and calls that end at each call of the database in turn.

records.py [--program PATH]

It reads the records by Python's sqlite3 from copies of the file and its log. The part that ends the server at each call wants `strace`.
Each line is what was done. It ends with status 1 at the first answer that is another.
"""
import argparse
import os
import shutil
import sqlite3
import tempfile

import afp
import afp_files
from afp_files import Server, step, words_for

TABLE = "CREATE TABLE IF NOT EXISTS records (key BLOB NOT NULL PRIMARY KEY, value BLOB NOT NULL) STRICT"
ROOT_KEY = bytes.fromhex("0100000002")
CALLS = ["pwrite64", "write", "fdatasync", "fsync", "ftruncate", "unlink", "openat"]


def records_of(path):
    """The records of a file with its log, read from copies, in order."""
    with tempfile.TemporaryDirectory() as folder:
        copy = os.path.join(folder, "copy.db")
        for name in ("", "-wal"):
            if os.path.exists(path + name):
                shutil.copyfile(path + name, copy + name)
        database = sqlite3.connect(copy)
        try:
            sound = database.execute("PRAGMA integrity_check").fetchone()[0]
            return sound, database.execute("SELECT key, value FROM records ORDER BY key").fetchall()
        finally:
            database.close()


def make(path, records, table=TABLE, more=()):
    """A database as another program makes it."""
    database = sqlite3.connect(path)
    database.execute("PRAGMA journal_mode = WAL")
    database.execute(table)
    for statement in more:
        database.execute(statement)
    database.executemany("INSERT INTO records (key, value) VALUES (?, ?)", records)
    database.commit()
    database.close()


def served_once(program, path):
    """Serves one link over a file; the number of nodes that a person is told, with the status."""
    port = afp.free_port()
    server = Server(words_for(port, "Share=" + path, links=1), program)
    if not server.wait_listening():
        return server.ended()
    told = server.told()
    afp_files.session(port).close_session()
    return told[told.index("(nodes"):].split(")")[0] + ")", server.ended()[0]


def show_load(program, folder):
    path = os.path.join(folder, "new.db")
    step("a server on a new file", served_once(program, path), ("(nodes 1)", 0))
    sound, records = records_of(path)
    step("the file is sound", sound, "ok")
    step("it has two records", [key.hex() for key, _ in records], ["00", "0100000002"])
    head = records[0][1].hex()
    step("the head: version 2, two equal dates, never backed up, the next id 17", (head[:4], head[4:12] == head[12:20], head[20:]), ("0002", True, "80000000" + "0000000000000011"))
    step("the root is the guest's, with all rights for all", records[1][1][68:], b"\0\0\1\xf4\0\0\1\xf4\7\7\7Share")
    step("a server on it again", served_once(program, path), ("(nodes 1)", 0))
    step("its records are the same", records_of(path)[1], records)
    return records


def show_older(program, folder, records):
    """Records of the version before, which has no owner, group and rights: a start turns them into those of this version."""
    older = [(key, b"\0\1" + value[2:] if key == b"\0" else value[:68] + value[79:]) for key, value in records]
    path = os.path.join(folder, "older.db")
    make(path, older)
    step("a server on records of the version before", served_once(program, path), ("(nodes 1)", 0))
    step("they are of this version then", records_of(path)[1], records)
    step("a server on them again", served_once(program, path), ("(nodes 1)", 0))
    bad = os.path.join(folder, "older_bad.db")
    make(bad, older + [(b"\6", b"")])
    step("the version before, with a record at 06", served_once(program, bad), (3, "load 1 bad 06 shape\n"))
    step("  nothing is changed", records_of(bad)[1], older + [(b"\6", b"")])


def show_bad(program, folder, records):
    stock = os.path.join(folder, "stock.db")
    make(stock, records)
    step("the same records in a file of another program", served_once(program, stock), ("(nodes 1)", 0))
    step("are the same afterwards", records_of(stock)[1], records)
    for at, (key, value, report) in enumerate([("02000000110000000000", "01", "load 1 bad 02000000110000000000 parent\n"), ("06", "", "load 1 bad 06 shape\n")]):
        bad = os.path.join(folder, f"bad{at}.db")
        make(bad, records + [(bytes.fromhex(key), bytes.fromhex(value))])
        step(f"with a record at {key}", served_once(program, bad), (3, report))
        step("  nothing is changed", records_of(bad)[1], records + [(bytes.fromhex(key), bytes.fromhex(value))])


def show_other(program, folder, records):
    others = [("another table beside it", TABLE, ["CREATE TABLE letters (id INTEGER PRIMARY KEY, text TEXT)"]),
              ("an index beside it", TABLE, ["CREATE INDEX by_value ON records (value)"]),
              ("a view beside it", TABLE, ["CREATE VIEW keys AS SELECT key FROM records"]),
              ("a third column", TABLE.replace("value BLOB NOT NULL)", "value BLOB NOT NULL, more BLOB)"), []),
              ("values that may be missing", TABLE.replace("value BLOB NOT NULL", "value BLOB"), []),
              ("texts for values", TABLE.replace("value BLOB", "value TEXT"), []),
              ("a table that is not strict", TABLE.replace(" STRICT", ""), [])]
    for at, (what, table, more) in enumerate(others):
        path = os.path.join(folder, f"other{at}.db")
        make(path, [], table, more)
        with open(path, "rb") as file:
            before = file.read()
        server = Server(words_for(afp.free_port(), "Share=" + path, links=1), program)
        step(f"a database with {what}", server.ended(), (3, "load 1 fault\n"))
        step("  a person is told", "OtherTables" in server.told() and path in server.told(), True)
        with open(path, "rb") as file:
            step("  it is as it was", file.read() == before, True)


class Stopped(Server):
    """A server that is killed as it enters the system call of that name for that time; the call is not made."""

    def __init__(self, words, program, call, at):
        stop = ["-f", "-qqq", "-o", "/dev/null", "-e", f"trace={call}", "-e", f"inject={call}:signal=SIGKILL:when={at}"]
        super().__init__([*stop, program, *words], "strace")


def make_directory(port):
    """Makes a directory, and says whether that was acknowledged."""
    try:
        client = afp_files.session(port)
        code = client.create_dir(b"d")
        client.close_session()
        return code == afp.OK
    except (OSError, EOFError):
        return False


def stopped_at(program, path, call, at):
    """Starts a server that is killed at a call, and makes a directory: whether that was acknowledged, and whether the server was killed."""
    port = afp.free_port()
    server = Stopped(words_for(port, "Share=" + path, links=1), program, call, at)
    acknowledged = server.wait_listening() and make_directory(port)
    server.process.wait(20)
    return acknowledged, server.process.returncode != 0


def show_stop(program, path, call, at):
    """What a stop left: whether the directory was acknowledged, and the number of nodes; None where there was no stop."""
    acknowledged, killed = stopped_at(program, path, call, at)
    nodes, status = served_once(program, path)
    if status != 0 or nodes not in ("(nodes 1)", "(nodes 2)") or acknowledged and nodes != "(nodes 2)":
        step(f"killed at {call} {at}, {'acknowledged' if acknowledged else 'not acknowledged'}", (nodes, status), "1 or 2 nodes, and 2 where it was acknowledged")
    if records_of(path)[0] != "ok":
        step(f"killed at {call} {at}: the file", records_of(path)[0], "ok")
    return (acknowledged, nodes) if killed else None


def show_stops(program, folder):
    total = 0
    for call in CALLS:
        found, at = {}, 1
        while True:
            came = show_stop(program, os.path.join(folder, f"{call}{at}.db"), call, at)
            if came is None:
                break
            found[came] = found.get(came, 0) + 1
            at += 1
        total += at - 1
        kinds = ", ".join(f"{count} {'acknowledged' if acknowledged else 'not acknowledged'} and then {nodes}" for (acknowledged, nodes), count in sorted(found.items()))
        print(f"killed at each {call}: {kinds or 'none'}")
    step("there were stops at which a call was on its way", total > 8, True)


def main():
    parser = argparse.ArgumentParser()
    parser.add_argument("--program", default=afp_files.PROGRAM)
    program = parser.parse_args().program
    with tempfile.TemporaryDirectory() as folder:
        records = show_load(program, folder)
        show_older(program, folder, records)
        show_bad(program, folder, records)
        show_other(program, folder, records)
        show_stops(program, folder)
    print("all as wanted")


if __name__ == "__main__":
    main()
