#!/usr/bin/env python3
"""Measures a start without proofs: the seconds from the command `./run --try afpd` to the first reply over loopback.

first_reply.py [--place PLACE]

The place is `memory` where none is said, or a file's name. It ends with status 1 where the server ends without a reply, or is not ended by its one link.
"""
import argparse
import os
import struct
import subprocess
import sys
import time

import afp

GET_STATUS = struct.pack(">BBHIII", 0, 3, 1, 0, 0, 0)


def first_reply(port, server):
    """The head of the first reply, or nothing where the server ends before it."""
    while server.poll() is None:
        try:
            link = afp.connect(port, 1)
        except OSError:
            continue
        with link:
            link.sendall(GET_STATUS)
            return link.recv(16, afp.socket.MSG_WAITALL)
    return None


def main():
    parser = argparse.ArgumentParser()
    parser.add_argument("--place", default="memory")
    place = parser.parse_args().place
    port, since = afp.free_port(), time.monotonic()
    words = [os.path.join(afp.TOP, "run"), "--try", "afpd", "--port", str(port), "--workers", "1", "--links", "1", f"Share={place}"]
    server = subprocess.Popen(words, stdin=subprocess.DEVNULL, start_new_session=True)
    head = first_reply(port, server)
    seconds = time.monotonic() - since
    load = os.getloadavg()[0]
    if head is None or head[:4] != struct.pack(">BBH", 1, 3, 1):
        print(f"no reply: {head!r}")
        sys.exit(1)
    print(f"first reply after {seconds:.1f} s; load {load:.1f} on {len(os.sched_getaffinity(0))} processors")
    sys.exit(1 if server.wait(60) else 0)


if __name__ == "__main__":
    main()
