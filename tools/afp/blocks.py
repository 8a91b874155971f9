"""The words that requests and replies are made of: each is read from a block, written to one, and shown."""
from afp.tables import BITS, CALLS, CLEARTEXT, PASSWORD_SIZE, SIZES
from afp.texts import BadText, LONG_NAMES, NEVER, UTF8_NAMES, bytes_of, data_of, data_text, number_of, path_of, path_text, quoted, unquote


class Unread(Exception):
    """Bytes that have not the layout; its words say why."""


class Block:
    """Bytes that are read from the front, what is enclosed with them, and what was read by name."""

    def __init__(self, data, fields, enclosed=None):
        self.data, self.fields, self.enclosed, self.place = data, fields, enclosed, 0

    def left(self):
        return len(self.data) - self.place

    def take(self, size, name):
        if self.left() < size:
            raise Unread(f"{name} has {size} bytes, of which {self.left()} are there")
        self.place += size
        return self.data[self.place - size:self.place]

    def number(self, size, name, signed=False):
        return int.from_bytes(self.take(size, name), "big", signed=signed)


class Given:
    """The words of a line, by name, and where they go: the block, what is enclosed, and the values that were written."""

    def __init__(self, named, lists, fields):
        self.named, self.lists, self.fields, self.block, self.enclosed = named, lists, fields, bytearray(), b""

    def take(self, name, usual=None):
        """The text of a field. One that stands without a name is a path or a name."""
        text = self.named.pop("path" if name == "name" and name not in self.named else name, usual)
        if text is None:
            raise BadText(f"{name} is missing")
        return text

    def put(self, name, number, size, signed=False):
        try:
            self.block += number.to_bytes(size, "big", signed=signed)
        except OverflowError:
            raise BadText(f"{name} is out of its range")


class Shown:
    """A field as it is shown: its name, its text, what the text means, and whether a script leaves it out."""

    def __init__(self, name, text, note="", usual=False):
        self.name, self.text, self.note, self.usual = name, text, note, usual


class Word:
    """A field: how its value is read and put, its text both ways, the text that a script leaves out, what the value means, and where it stands at all."""

    def __init__(self, name, read, put, text=str, value=number_of, usual=None, note=lambda value: "", there=lambda fields: True):
        self.name, self.taken, self.put, self.text, self.value = name, read, put, text, value
        self.usual, self.note, self.there = usual, note, there

    def read(self, block):
        if self.there(block.fields):
            block.fields[self.name] = self.taken(block)

    def write(self, given):
        if self.there(given.fields):
            given.fields[self.name] = self.value(given.take(self.name, self.usual))
            self.put(given, given.fields[self.name])

    def show(self, fields):
        if not self.there(fields):
            return []
        text = self.text(fields[self.name])
        return [Shown(self.name, text, self.note(fields[self.name]), text == self.usual)]


def number(name, size, signed=False, within=None, **more):
    """A number, which spells no request where it is not within its range."""
    def read(block):
        value = block.number(size, name, signed)
        if within and value not in within:
            raise Unread(f"{name} is {value}, and not {within[0]} to {within[-1]}")
        return value
    return Word(name, read, lambda given, value: given.put(name, value, size, signed), **more)


def date(name):
    return number(name, 4, True, text=lambda it: "never" if it == NEVER else str(it), value=lambda it: NEVER if it == "never" else number_of(it))


def bits(name, kind):
    """Bits with names. Those of one byte are flags, which a script leaves out where they are 0."""
    size, names = SIZES[kind], BITS.get(kind, {})

    def note(value):
        return ", ".join(names[bit][0].replace("_", " ") if bit in names else f"bit {bit}" for bit in range(8 * size) if names and value >> bit & 1)
    return number(name, size, text=lambda value: f"0x{value:0{2 * size}x}", usual="0x00" if size == 1 else None, note=note)


def text(name, size, there=lambda fields: True):
    """A text behind its count, whose size may be a function of the fields before it."""
    size_of = size if callable(size) else lambda fields: size

    def read(block):
        return block.take(block.number(size_of(block.fields), f"the count of {name}"), name)

    def put(given, value):
        given.put(f"the count of {name}", len(value), size_of(given.fields))
        given.block += value
    return Word(name, read, put, quoted, unquote, there=there)


def plain(name, size, **more):
    """So many bytes as they are."""
    def put(given, value):
        if len(value) != size:
            raise BadText(f"{name} has {size} bytes")
        given.block += value
    return Word(name, lambda block: block.take(size, name), put, data_text, data_of, **more)


def tail(name):
    """All that remains."""
    def put(given, value):
        given.block += value
    return Word(name, lambda block: block.take(block.left(), name), put, data_text, data_of, '""')


def judge(name, kind, data):
    """Names that have too many bytes, or are no UTF-8, are none."""
    try:
        found = data.decode("utf-8" if kind == UTF8_NAMES else "latin-1")
    except UnicodeDecodeError:
        raise Unread(f"a name of {name} is not UTF-8")
    longest = max(len(it.encode("utf-8" if kind == UTF8_NAMES else "latin-1")) for it in found.split("\0"))
    if longest > (31 if kind == LONG_NAMES else 255):
        raise Unread(f"a name of {name} has {longest} bytes")


def path(name):
    def read(block):
        kind = block.number(1, "the path's type")
        if kind not in (LONG_NAMES, UTF8_NAMES):
            raise Unread(f"{name} has the type {kind}")
        block.take(4 if kind == UTF8_NAMES else 0, "the path's hint")
        data = block.take(block.number(1 if kind == LONG_NAMES else 2, "the path's count"), name)
        judge(name, kind, data)
        return kind, data

    def put(given, value):
        given.block += bytes([value[0]]) + bytes(4 if value[0] == UTF8_NAMES else 0)
        given.put("the path's count", len(value[1]), 1 if value[0] == LONG_NAMES else 2)
        given.block += value[1]
    return Word(name, read, put, lambda value: path_text(*value), path_of)


def kind(name):
    """The flag of a directory or a file."""
    def read(block):
        flag = block.number(1, "the flag")
        if flag not in (0, 0x80):
            raise Unread(f"the flag is {flag}")
        return "dir" if flag else "file"
    return Word(name, read, lambda given, value: given.block.append(0x80 if value == "dir" else 0), str, str)


def data(name):
    """What a Write frame encloses."""
    def read(block):
        if block.enclosed is None:
            raise Unread("it encloses data, and is no DSIWrite")
        if len(block.enclosed) < block.fields["counted"]:
            raise Unread(f"{block.fields['counted']} bytes of data are counted, of which {len(block.enclosed)} are there")
        return block.enclosed

    def put(given, value):
        given.enclosed = value
    return Word(name, read, put, data_text, data_of, note=lambda value: f"{len(value)} bytes")


class Pad(Word):
    """A byte without a value: a pad, or the type of a user name. A pad that is not 0 is read, and is not shown: such a block is not canonical."""

    def __init__(self, name):
        self.name = name

    def read(self, block):
        if self.stands(block.place, block.left()) and block.take(1, "a pad")[0] != UTF8_NAMES and self.name == "utf8":
            raise Unread("the user name is not of type 3")

    def write(self, given):
        given.block += bytes([UTF8_NAMES if self.name == "utf8" else 0] * self.stands(len(given.block), 1))

    def show(self, fields):
        return []

    def stands(self, place, left):
        return {"lastpad": left > 0, "even": place % 2 == 1}.get(self.name, True)


class Count:
    """A count of what stands further on, which a script leaves out where all of that counts."""

    def __init__(self, name, size, counts, signed=False):
        self.name, self.size, self.counts, self.signed = name, size, counts, signed

    def read(self, block):
        block.fields[self.name] = block.number(self.size, self.name, self.signed)
        block.fields["counted"] = max(block.fields[self.name], 0)

    def write(self, given):
        usual = str(len(data_of(given.named.get(self.counts, '""'))))
        given.put(self.name, number_of(given.take(self.name, usual)), self.size, self.signed)

    def show(self, fields):
        return [Shown(self.name, str(fields[self.name]), usual=fields[self.name] == len(fields[self.counts]))]


def password(name):
    """A password: 8 bytes, shown without the zeros at its end."""
    def put(given, value):
        if len(value) > PASSWORD_SIZE:
            raise BadText(f"{name} has more than {PASSWORD_SIZE} bytes")
        given.block += value.ljust(PASSWORD_SIZE, b"\0")
    return Word(name, lambda block: block.take(PASSWORD_SIZE, name).rstrip(b"\0"), put, quoted, unquote)


class LoginTail:
    """What stands behind the other fields of a log-in: by name and password these words, and bytes as they are by another UAM, or where they are cut."""

    def __init__(self, name, words):
        self.name, self.words, self.tail = name, words, tail(name)

    def read(self, block):
        place = block.place
        try:
            for word in self.words if block.fields["uam"] == CLEARTEXT else [self.tail]:
                word.read(block)
        except Unread:
            block.place = place
            self.tail.read(block)

    def write(self, given):
        for word in self.words if "password" in given.named else [self.tail]:
            word.write(given)

    def show(self, fields):
        return [it for word in ([self.tail] if self.name in fields else self.words) for it in word.show(fields)]


def identity(name):
    """The id of a session token, as many bytes as were counted."""
    def put(given, value):
        given.block += value
    return Word(name, lambda block: block.take(block.fields["counted"], name), put, data_text, data_of, '""')


def asked_fields(kind, bits):
    """The fields that the bits ask for, by rising bit."""
    unknown = [bit for bit in range(16) if bits >> bit & 1 and bit not in BITS[kind]]
    if unknown:
        raise Unread(f"a {kind} has no bit {unknown[0]}")
    return [BITS[kind][bit] for bit in sorted(BITS[kind]) if bits >> bit & 1]


def name_word(name, sort):
    """A name among parameters, as it stands behind them."""
    if sort == "name":
        word = text(name, 1)
        word.text, word.value = (lambda value: quoted(value, "mac_roman")), (lambda said: bytes_of(said[1:-1], "mac_roman"))
        return word
    return text(name, 2)


class Values:
    """Parameters: the fields of the bits, and behind them the names, first the volume's or the long one. Bytes that are written otherwise are no
    parameters."""

    def __init__(self, name, asked):
        self.name, self.asked = name, asked

    def words(self, fields):
        """The words of the fields, and of them those of the names as they stand behind the others."""
        asked = asked_fields(*self.asked(fields))
        words = [(name, sort, name_word(name, sort) if "name" in sort else word_of(name, sort)) for name, sort in asked]
        return words, sorted((it for it in words if "name" in it[1]), key=lambda it: it[1])

    def read(self, block):
        values, places, start = {}, {}, block.place
        words, names = self.words(block.fields)
        for name, sort, word in words:
            if "name" in sort:
                places[name] = block.number(2, f"the place of {name}")
                block.take(4 if sort == "utf8_name" else 0, name)
            else:
                values[name] = word.taken(block)
        for name, sort, word in names:
            if places[name] != block.place - start:
                raise Unread(f"{name} stands at {block.place - start}, and not at {places[name]}")
            block.take(4 if sort == "utf8_name" else 0, "the hint")
            values[name] = word.taken(block)
            block.take((block.place - start) % 2, "a pad")
        block.fields[self.name] = values

    def write(self, given):
        words, names = self.words(given.fields)
        fixed, size, places = Given(given.named, [], {}), sum(SIZES[sort] for _, sort, _ in words), {}
        behind = Given(given.named, [], {})
        for name, sort, word in names:
            places[name] = size + len(behind.block)
            behind.block += bytes(4 if sort == "utf8_name" else 0)
            word.write(behind)
            behind.block += bytes((size + len(behind.block)) % 2)
        for name, sort, word in words:
            if "name" in sort:
                fixed.block += places[name].to_bytes(2, "big") + bytes(4 if sort == "utf8_name" else 0)
            else:
                word.write(fixed)
        given.block += fixed.block + behind.block

    def show(self, fields):
        return [it for _, _, word in self.words(fields)[0] for it in word.show(fields[self.name])]


class Settings:
    """What a set call's tail holds, by rising bit, as far as the fields are there; and what is left."""

    def __init__(self, name, kind):
        self.name, self.kind = name, kind

    def words(self, fields):
        """The words up to a bit that has no field of a fixed size."""
        found = []
        for bit in (it for it in range(16) if fields["bits"] >> it & 1):
            name, sort = BITS[self.kind].get(bit, ("", "name"))
            if "name" in sort:
                break
            found.append((word_of(name, sort), SIZES[sort]))
        return found

    def read(self, block):
        values = block.fields[self.name] = {}
        for word, size in self.words(block.fields):
            if block.left() < size:
                break
            values[word.name] = word.taken(block)
        block.fields["more"] = block.take(block.left(), "more")

    def write(self, given):
        for word, _ in self.words(given.fields):
            if word.name not in given.named:
                break
            word.write(given)
        given.block += data_of(given.take("more", '""'))

    def show(self, fields):
        shown = [it for word, _ in self.words(fields) if word.name in fields[self.name] for it in word.show(fields[self.name])]
        return [Shown(it.name, it.text, it.note) for it in shown] + [Shown("more", data_text(fields["more"]), usual=not fields["more"])]


class Entries:
    """The entries of a list, each in brackets; their count stands before them."""

    def __init__(self, width):
        self.width = width
        self.flag, self.values = kind("kind"), Values("values", node_asked)

    def read(self, block):
        block.fields["entries"] = [self.read_entry(block) for _ in range(block.number(2, "the count of entries"))]

    def read_entry(self, block):
        size = block.number(self.width, "an entry's length")
        entry = Block(block.take(size - self.width, "an entry"), dict(block.fields))
        self.flag.read(entry)
        entry.take(self.width - 1, "a pad")
        self.values.read(entry)
        entry.take((entry.place + self.width) % 2, "a pad")
        if entry.left():
            raise Unread(f"an entry has {entry.left()} bytes too many")
        return entry.fields

    def write(self, given):
        given.put("the count of entries", len(given.lists), 2)
        for words in given.lists:
            entry = Given(dict(it.split("=", 1) for it in words[1:]), [], dict(given.fields, kind=words[0]))
            self.flag.put(entry, words[0])
            entry.block += bytes(self.width - 1)
            self.values.write(entry)
            entry.block += bytes((len(entry.block) + self.width) % 2)
            given.put("an entry's length", len(entry.block) + self.width, self.width)
            given.block += entry.block
        given.lists = []

    def show(self, fields):
        return [Shown("", f"[{' '.join([it['kind']] + [f'{s.name}={s.text}' for s in self.values.show(it)])}]") for it in fields["entries"]]


class Volumes:
    """The volumes of FPGetSrvrParms, each in brackets: its flags and its name."""

    def read(self, block):
        block.fields["volumes"] = [(block.number(1, "flags"), text("name", 1).taken(block)) for _ in range(block.number(1, "the count"))]

    def write(self, given):
        given.put("the count of volumes", len(given.lists), 1)
        for flags, name in given.lists:
            given.put("flags", number_of(flags), 1)
            text("name", 1).put(given, unquote(name))
        given.lists = []

    def show(self, fields):
        return [Shown("", f"[0x{flags:02x} {quoted(name)}]") for flags, name in fields["volumes"]]


def node_asked(fields):
    """The kind that the flag before the parameters says, and the bits that are asked of it."""
    return fields["kind"], fields[f"{fields['kind']}_bits"]


def has_bit(bit):
    return lambda fields: fields["bits"] >> bit & 1


SORTS = {
    "s4": lambda name: number(name, 4, True), "s8": lambda name: number(name, 8, True), "date": date, "path": path, "tail": tail, "kind": kind,
    "str": lambda name: text(name, 1), "long": lambda name: text(name, 2), "quad": lambda name: text(name, 4),
    "type": lambda name: plain(name, 4), "finder": lambda name: plain(name, 32), "data": data, "pad": Pad,
    "count4": lambda name: Count(name, 4, "data"), "count8": lambda name: Count(name, 8, "data", True), "count2": lambda name: Count(name, 2, "data"),
    "function": lambda name: number(name, 1, within=range(1, 5)), "token_type": lambda name: number(name, 2, within=range(5)),
    "path_type": lambda name: number(name, 1, within=range(2, 4)), "id_count": lambda name: Count(name, 4, "token_id"), "identity": identity,
    "stamp": lambda name: number(name, 4, there=lambda fields: fields["type"] in (3, 4)),
    "id_name": lambda name: text(name, lambda fields: 1 if fields["function"] <= 2 else 2),
    "name_of": lambda name: text(name, lambda fields: 2 if fields["function"] <= 2 else 1),
    "typed_path": lambda name: text(name, lambda fields: fields["path_type"] - 1),
    "message_text": lambda name: text(name, lambda fields: 2 if fields["bits"] & 2 else 1, there=has_bit(0)),
    "asked_user": lambda name: number(name, 4, there=has_bit(0)), "asked_group": lambda name: number(name, 4, there=has_bit(1)),
    "login": lambda name: LoginTail(name, [text("user", 1), Pad("even"), password("password")]),
    "login_ext": lambda name: LoginTail(name, [password("password")]),
    "narrow": lambda name: Entries(1), "wide": lambda name: Entries(2), "volumes": lambda name: Volumes(),
    "node_values": lambda name: Values(name, node_asked),
    "volume_values": lambda name: Values(name, lambda fields: ("volume", fields["bits"])),
    "file_values": lambda name: Values(name, lambda fields: ("file", fields["bits"])),
    "volume_settings": lambda name: Settings(name, "volume"), "file_settings": lambda name: Settings(name, "file"),
    "dir_settings": lambda name: Settings(name, "dir"),
}


def word_of(name, sort):
    """The word of a layout with this name."""
    if sort.isdigit():
        return number(name, int(sort))
    return SORTS[sort](name) if sort in SORTS else bits(name, sort)


class Call:
    """A call: its number, its name, and the words of its request and its reply."""

    def __init__(self, row):
        request, _, reply = row.partition(">")
        number, self.name, *words = request.split()
        self.number = int(number)
        self.request, self.reply = self.layout(words), self.layout(reply.split())
        self.is_write = "data:data" in words

    @staticmethod
    def layout(words):
        return [word_of(*it.split(":")) if ":" in it else Pad(it) for it in words]


ALL = [Call(row) for row in CALLS.strip().splitlines()]
BY_NUMBER = {call.number: call for call in ALL}
BY_NAME = {call.name: call for call in ALL}
