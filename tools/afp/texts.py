"""Bytes, numbers and names as texts of a line, both ways."""
import re
import unicodedata

LONG_NAMES, UTF8_NAMES = 2, 3
CHARSETS = {LONG_NAMES: "mac_roman", UTF8_NAMES: "utf-8"}
NEVER = -0x80000000
TOKEN = re.compile(r'[\[\]]|(?:[^\s"\[\]]|"(?:[^"\\]|\\.)*")+')
SHORTEST_RUN = 16


class BadText(Exception):
    """A text that says nothing of what is asked; its words say why."""


def is_plain(character):
    """Whether a character stands in a quoted text as it is."""
    return character.isprintable() and character not in '"\\{}:' and not unicodedata.combining(character)


def unquoted(data, charset):
    """The bytes without their quotes: characters, and \\xNN for each byte that is none, or is not shown as it is."""
    try:
        text = data.decode(charset)
    except UnicodeDecodeError:
        text, charset = data.decode("latin-1"), "latin-1"
    shown = lambda it: is_plain(it) and (charset != "latin-1" or it < "\x7f")
    return "".join(it if shown(it) else "".join(f"\\x{byte:02x}" for byte in it.encode(charset)) for it in text)


def quoted(data, charset="utf-8"):
    return f'"{unquoted(data, charset)}"'


def bytes_of(text, charset="utf-8"):
    """The bytes of a text without its quotes."""
    out = bytearray()
    for part in re.split(r"(\\x[0-9a-f]{2})", text):
        if part.startswith("\\x"):
            out.append(int(part[2:], 16))
        else:
            out += part.encode(charset)
    return bytes(out)


def within_quotes(text):
    if len(text) < 2 or text[0] != '"' or text[-1] != '"':
        raise BadText(f"{text} has no quotes")
    return text[1:-1]


def unquote(text):
    return bytes_of(within_quotes(text))


def path_text(kind, data):
    """A path: its names, with a colon for each zero byte. A u before it says that the names are UTF-8, and else they are long names."""
    names = ":".join(unquoted(name, CHARSETS[kind]) for name in data.split(b"\0"))
    return ("u" if kind == UTF8_NAMES else "") + f'"{names}"'


def path_of(text):
    kind = UTF8_NAMES if text.startswith("u") else LONG_NAMES
    names = within_quotes(text[1:] if kind == UTF8_NAMES else text).split(":")
    return kind, b"\0".join(bytes_of(name, CHARSETS[kind]) for name in names)


def run_at(data, at):
    """The size of a piece that is repeated from here on, and how often: (0, 0) where none is."""
    for size in (1, 16):
        piece, end = data[at:at + size], at + size
        while len(piece) == size and data[end:end + size] == piece:
            end += size
        if end - at >= max(SHORTEST_RUN, 4 * size):
            return size, (end - at) // size
    return 0, 0


def data_text(data):
    """Bytes: quoted where all are printable ASCII and none is often repeated; else hexadecimal, with * and a number behind what is repeated."""
    parts, at, plain = [], 0, 0
    while at < len(data):
        size, times = run_at(data, at)
        if times:
            parts += [data[plain:at].hex()] * (plain < at) + [f"{data[at:at + size].hex()}*{times}"]
            at = plain = at + size * times
        else:
            at += 1
    parts += [data[plain:].hex()] * (plain < at)
    if len(parts) <= 1 and "*" not in "".join(parts) and all(0x20 <= byte < 0x7f for byte in data):
        return quoted(data)
    return ",".join(parts)


def data_of(text):
    if text.startswith('"'):
        return unquote(text)
    out = b""
    for part in text.split(","):
        digits, _, times = part.partition("*")
        if not re.fullmatch("([0-9a-f]{2})+", digits):
            raise BadText(f"{digits} is no hexadecimal")
        out += bytes.fromhex(digits) * int(times or 1)
    return out


def number_of(text):
    try:
        return int(text, 0)
    except ValueError:
        raise BadText(f"{text} is no number")


def tokens(line):
    """The words of a line; what stands in quotes is not parted, and brackets stand alone."""
    if TOKEN.sub("", line).strip():
        raise BadText("a quote is not closed")
    return TOKEN.findall(line)
