#!/usr/bin/env python3
"""A session that is cut in the middle of a write, at each byte of it, and taken up again by its token on a new link: the write is sent again under its old id, is
told once what it was told, and is done once. Then sessions up to the limit, and one more. Prints what was seen; its status is 1 at the first answer that is another."""
import struct
import sys

import afp

PIECE = bytes(range(256)) * 2
NO_MORE_SESSIONS = -1068


def opened(port):
    """A link with a session that is logged in, and its token."""
    link = afp.Link(afp.connect(port))
    assert link.ask(4, b"\x01\x04\x00\x00\x04\x00")[0] == afp.OK
    assert link.ask(2, b"\x12\x06AFP3.3\x0fNo User Authent")[0] == afp.OK
    code, block = link.ask(2, struct.pack(">BBHI", 64, 0, 0, 0))
    assert code == afp.OK and struct.unpack(">I", block[:4])[0] == len(block) - 4
    return link, block[4:]


def rejoined(port, token):
    """A new link to the session of a token."""
    link, _ = opened(port)
    assert link.ask(2, struct.pack(">BBHI", 65, 0, 0, len(token)) + token)[0] == afp.OK
    return link


def write_frame(number, fork):
    """A write of the piece at the fork's end: what is done twice shows."""
    block = struct.pack(">BBHiI", 33, 0x80, fork, 0, len(PIECE))
    return struct.pack(">BBHIII", 0, 6, number, len(block), len(block) + len(PIECE), 0) + block + PIECE


def answer(link, frame):
    link.link.sendall(frame)
    head = link.take(16)
    return head + link.take(struct.unpack(">I", head[8:12])[0])


def cut_at(port, place, name):
    """What the write is told on the new link, told twice, and the fork's length then."""
    link, token = opened(port)
    assert link.ask(2, b"\x18\x00\x00\x20\x05Share")[0] == afp.OK
    assert link.ask(2, struct.pack(">BBHI", 7, 0, afp.SHARE, afp.ROOT) + afp.Session.path(name))[0] == afp.OK
    code, reply = link.ask(2, struct.pack(">BBHIHH", 26, 0, afp.SHARE, afp.ROOT, 0, 3) + afp.Session.path(name))
    assert code == afp.OK
    fork = struct.unpack(">H", reply[2:4])[0]
    number, frame = link.number, write_frame(link.number, fork)
    link.link.sendall(frame[:place])
    if place == len(frame):
        link.take(16)  # it was done, and its reply is lost here
    link.close()
    link = rejoined(port, token)
    told = [answer(link, frame), answer(link, frame)]
    link.number = number + 1
    code, reply = link.ask(2, struct.pack(">BBHH", 14, 0, fork, 0x0200))
    length = struct.unpack(">I", reply[2:6])[0]
    link.link.sendall(struct.pack(">BBHIII", 0, 1, link.number, 0, 0, 0))
    link.close()
    return told, length


def main(program):
    frame = len(write_frame(0, 0))
    places = list(range(0, 40)) + list(range(40, frame, 37)) + [frame - 1, frame]
    port = afp.free_port()
    server = afp.start_server(port, 2 * len(places) + 65, program)
    for count, place in enumerate(places):
        told, length = cut_at(port, place, b"f%d" % count)
        if told[0] != told[1] or struct.unpack(">i", told[0][4:8])[0] != afp.OK or length != len(PIECE):
            print(f"cut at {place}: told {told}, length {length}")
            server.kill()
            return 1
    print(f"{len(places)} writes of {len(PIECE)} bytes, each cut at another place of its {frame} bytes, each sent again twice: told the same, done once")
    for count in range(65):
        link = afp.Link(afp.connect(port))
        code, _ = link.ask(4, b"\x01\x04\x00\x00\x04\x00")
        if code != afp.OK:
            break
        link.ask(2, b"\x12\x06AFP3.3\x0fNo User Authent")
        link.close()
    print(f"{count} sessions wait for their clients; the next one is told {code}")
    link.close()
    report = server.communicate(timeout=60)[0].decode().strip()
    print(f"{report}, status {server.returncode}")
    return 0 if (count, code, server.returncode) == (64, NO_MORE_SESSIONS, 0) else 1


if __name__ == "__main__":
    sys.exit(main(sys.argv[1] if len(sys.argv) > 1 else None))
