"""A capture, explained: each line, and under it what each of its frames says."""
import collections
import struct

from afp.blocks import Unread
from afp.captures import Link, read_lines, status_of
from afp.frames import code_text, show_payload, show_reply
from afp.tables import DSI_NAMES, REFERENCE_WORDS
from afp.texts import data_text

LONGEST_SHOWN = 160


def shortened(text):
    return text if len(text) <= LONGEST_SHOWN else f"{text[:LONGEST_SHOWN]}.. ({len(text)} characters)"


def field_text(shown):
    """A field in the AFP Reference's words."""
    if not shown.name:
        return shown.text
    note = f" ({shown.note})" if shown.note else ""
    return f"{REFERENCE_WORDS.get(shown.name, shown.name.replace('_', ' '))} {shortened(shown.text)}{note}"


def fields_text(shown):
    return ": " * bool(shown) + ", ".join(map(field_text, shown))


def unread(frame, reason):
    return f": {len(frame.payload)} bytes, {shortened(data_text(frame.payload))} ({reason})"


def request_text(frame):
    """What a frame says that answers none."""
    name = f"{'reply' if frame.flags else 'request'} {frame.id} {DSI_NAMES[frame.command]}"
    code = f" {code_text(frame.word)}" if frame.flags else ""
    try:
        call, shown = show_payload(frame)
        return name + code + (f" {call}" if call != DSI_NAMES[frame.command] else "") + fields_text(shown)
    except Unread as reason:
        return name + code + unread(frame, reason)


def reply_text(frame, request, status):
    """What a reply says to the request that it answers."""
    call = f" {request.call.name}" if request.call else ""
    name = f"reply {frame.id} {DSI_NAMES[frame.command]}{call} {code_text(frame.word)}"
    try:
        shown = show_reply(frame, request, status)
    except Unread as reason:
        return name + unread(frame, reason)
    if [it.text for it in shown] == ["status"]:
        return name + ": " + status_text(frame.payload)
    return name + fields_text(shown)


def counted(block, at):
    return block[at + 1:at + 1 + block[at]], at + 1 + block[at]


def counted_list(block, at):
    found, place = [], at + 1
    for _ in range(block[at]):
        text, place = counted(block, place)
        found.append(text.decode("latin-1"))
    return ", ".join(found)


def status_text(block):
    """The parts of a status block."""
    machine, versions, uams, _, flags = struct.unpack(">5H", block[:10])
    name, place = counted(block, 10)
    signature = struct.unpack(">4H", block[place + place % 2:place + place % 2 + 8])[0]
    texts = [counted(block, machine)[0].decode("latin-1"), counted_list(block, versions), counted_list(block, uams)]
    named = zip(("machine type", "AFP versions", "UAMs"), texts)
    return f"server name {name.decode('latin-1')}, flags 0x{flags:04x}, " + "".join(f"{what} {text}, " for what, text in named) + (
        f"server signature {block[signature:signature + 16].hex()}")


def came(link, data):
    """What bytes that come say, by frame."""
    frames, reason = link.take(data)
    yield from map(request_text, frames)
    if reason:
        yield f"a bad header: {reason}; what follows on this connection is passed over"
    elif link.coming:
        yield f"{len(link.coming)} bytes of a frame so far"


def went(link, data, status):
    """What bytes that are answered say, by frame."""
    frames, reason = link.give(data)
    for frame, request in frames:
        yield reply_text(frame, request, status) if request else request_text(frame)
    if reason:
        yield f"no frame: {reason}"
    elif link.going:
        yield f"{len(link.going)} bytes of a frame so far"


def explained(data):
    """The lines of a capture and what they say."""
    links, head = collections.defaultdict(Link), []
    for line in read_lines(data):
        yield shortened(line.text)
        if line.word != "at":
            head.append(line)
        elif line.data:
            link = links[line.link]
            for text in came(link, line.data) if line.what == "in" else went(link, line.data, status_of(head)):
                yield "    " + text


def codes_told(data):
    """The call, the code and the line of each reply of a capture; a block that is no call's counts as DSICommand or DSIWrite."""
    links = collections.defaultdict(Link)
    for line in read_lines(data):
        if line.word == "at" and line.what == "in":
            links[line.link].take(line.data)
        elif line.word == "at" and line.what == "out":
            for frame, request in links[line.link].give(line.data)[0]:
                if request:
                    yield request.call.name if request.call else DSI_NAMES[request.command], code_text(frame.word), line.number
