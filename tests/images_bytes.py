"""A second implementation of the image format, by docs/image.md: the bytes of a spelling, and the meaning of bytes or their first fault.

tests/README.md says how a spelling reads.
"""
import re
import struct

TABLE = """Const c, Load c, Store c, GLoad c, GStore c, Drop, Dup, Emit a, Data c, Jump c, JumpIfFalse c, JumpIfTrue c, Op a,
    Filter a b c, Test a b, MakeList c, MakeMap c, LoopStart, LoopNext c, LoopGet a c, LoopKeep c, LoopRewind, LoopEnd,
    CaptureBegin, CaptureEnd a, Unpack c, Call c, Return"""
INSTRUCTIONS = [row.split() for row in TABLE.split(",")]
FIELDS = {opcode: "".join(row[1:]) for opcode, row in enumerate(INSTRUCTIONS, 1)}
OPCODES = {row[0]: opcode for opcode, row in enumerate(INSTRUCTIONS, 1)}
PLAIN = {"undefined": 0, "none": 1, "false": 2, "true": 3}
MAX_BYTES, MAX_LOCALS, MAX_INSTRUCTIONS, MAX_LINE = 16_777_216, 4_096, 262_144, 1_048_577
CONSTANT = re.compile(r"""(m?)(["'])(.*?)\2(?:\*(\d+))?(?=\s|$)|(-?\d+)(?=\s|$)|(undefined|none|false|true)(?=\s|$)""")


class Malformed(Exception):
    """A spelling without a meaning."""


def number(word):
    if not re.fullmatch(r"\d+", word):
        raise Malformed(f"{word!r} is no number")
    return int(word)


def counted(size, items):
    """Returns spellings, after their number."""
    return struct.pack(size, len(items)) + b"".join(items)


def instruction(word):
    """The four fields of an instruction, and which of them are counted from its point."""
    name, *fields = word.split()
    if name == "op" and len(fields) == 4:
        return [number(field) for field in fields], []
    if name not in OPCODES or len(fields) != len(FIELDS[OPCODES[name]]):
        raise Malformed(f"no instruction: {word!r}")
    named = dict(zip(FIELDS[OPCODES[name]], fields))
    words = [named.get(field, "0") for field in "abc"]
    relative = [at for at, word in enumerate(words, 1) if word[0] in "+-"]
    return [OPCODES[name], *(int(word) if word[0] in "+-" else number(word) for word in words)], relative


def placed(fields, relative, point):
    """The eight bytes of an instruction at a point."""
    return struct.pack("<BBHI", *(value + point if at in relative else value for at, value in enumerate(fields)))


def code(text):
    """The instructions of a unit, as bytes."""
    found = []
    for word in filter(None, (word.strip() for word in text.split(","))):
        times, _, one = word.rpartition("*")
        fields, relative = instruction(one)
        times, point = number(times or "1"), len(found)
        found += [placed(fields, relative, point + more) for more in range(times)] if relative else [placed(fields, [], 0)] * times
    return found


def constant(found):
    """The bytes of a constant."""
    markup, _, text, times, digits, plain = found.groups()
    if plain:
        return bytes([PLAIN[plain]])
    if digits:
        return struct.pack("<Bq", 4, int(digits))
    text = text.replace("␤", "\n").encode() * int(times or "1")
    return struct.pack("<BI", 6 if markup else 5, len(text)) + text


def constants(text):
    found, at = [], 0
    while text[at:].strip():
        at += len(text[at:]) - len(text[at:].lstrip())
        one = CONSTANT.match(text, at)
        if not one:
            raise Malformed(f"no constant: {text[at:]!r}")
        found.append(constant(one))
        at = one.end()
    return found


def name(slot, text):
    return struct.pack("<HH", slot, len(text.encode())) + text.encode()


def names(count, words):
    """The table of names."""
    if words == ["all"]:
        return [name(slot, f"{slot:05}") for slot in range(count)]
    pairs = [word.split(":") for word in words]
    return [name(number(slot), text) for slot, text in pairs]


def templates(text):
    """The table of templates."""
    words = text.split()
    if words[1:] == ["all"]:
        return [name_only(f"{one:05}") for one in range(number(words[0]))]
    found, at = [], 0
    while text[at:].strip():
        at += len(text[at:]) - len(text[at:].lstrip())
        one = CONSTANT.match(text, at)
        if not one or one[3] is None or one[1]:
            raise Malformed(f"no template: {text[at:]!r}")
        found.append(name_only(one[3] * int(one[4] or "1")))
        at = one.end()
    return found


def name_only(text):
    return struct.pack("<H", len(text.encode())) + text.encode()


def places(words):
    """The places that words stand for."""
    found = []
    for word in words:
        times, _, one = word.rpartition("*")
        template, colon, line = one.partition(":")
        if not colon:
            raise Malformed(f"no place: {word!r}")
        found += [struct.pack("<HI", number(template), number(line))] * number(times or "1")
    return found


class Parts:
    """The parts of an image, and what is done to its bytes."""

    def __init__(self):
        self.globals, self.names, self.constants, self.units, self.whole, self.edits = 0, [], [], [], None, []
        self.version, self.templates, self.places = 1, [], None

    def unit(self, text, times=1):
        numbers, colon, rest = text.partition(":")
        header = [number(word) for word in numbers.split()] if colon else [0, 0, 0]
        self.units += [(header, code(rest if colon else text))] * times

    def add(self, part):
        word, _, rest = part.partition(" ")
        if word == "globals":
            self.globals = number(rest.split()[0])
            self.names += names(self.globals, rest.split()[1:])
        elif word == "constants":
            self.constants += constants(rest)
        elif word == "copies":
            times, _, text = rest.partition(" ")
            self.constants += constants(text) * number(times)
        elif word == "unit":
            self.unit(rest)
        elif word == "units":
            times, _, text = rest.partition(":")
            self.unit(text, number(times))
        elif word == "version":
            self.version = number(rest)
        elif word == "templates":
            self.templates += templates(rest)
        elif word == "places":
            self.places = (self.places or []) + places(rest.split())
        elif word == "bytes":
            self.whole = bytes.fromhex(rest)
        elif word in ("at", "cut", "and"):
            self.edits.append((word, rest))
        else:
            raise Malformed(f"no part: {part!r}")

    def spelled(self):
        if self.whole is not None:
            return self.whole
        header = struct.pack("<4sHH", b"JTBC", self.version, self.globals)
        units = [struct.pack("<BBHI", *numbers, len(lines)) for numbers, lines in self.units]
        lines = b"".join(b"".join(lines) for _, lines in self.units)
        front = header + counted("<H", self.names) + counted("<H", self.constants) + counted("<H", units) + lines
        return front if self.version == 1 else front + self.trailer()

    def trailer(self):
        """Returns the trailer of version 2."""
        found = places(["0:0"]) * sum(len(lines) for _, lines in self.units) if self.places is None else self.places
        return counted("<H", self.templates) + b"".join(found)


def edited(data, word, rest):
    if word == "cut":
        return data[:number(rest)]
    if word == "and":
        return data + bytes.fromhex(rest)
    at, _, new = rest.partition(" ")
    new = bytes.fromhex(new)
    if not new or number(at) + len(new) > len(data):
        raise Malformed(f"no bytes at {rest!r}")
    return data[:int(at)] + new + data[int(at) + len(new):]


def image(spelling, named):
    """The bytes that a spelling stands for."""
    parts = Parts()
    for part in expanded(spelling, named):
        parts.add(part)
    data = parts.spelled()
    for word, rest in parts.edits:
        data = edited(data, word, rest)
    return data


def expanded(spelling, named):
    """The parts of a spelling, with those of a name in its place."""
    found = []
    for part in (part.strip() for part in spelling.split(" | ")):
        found += expanded(named[part], named) if part in named else [part]
    return found


class Fault(Exception):
    """The first fault of bytes that are no image."""


class Reader:
    """Reads the fields of bytes from the front."""

    def __init__(self, data):
        self.data, self.at = data, 0

    def take(self, count):
        if self.at + count > len(self.data):
            raise Fault("I3 Truncated")
        self.at += count
        return self.data[self.at - count:self.at]

    def uint(self, size):
        return int.from_bytes(self.take(size), "little")

    def text(self, size):
        try:
            return self.take(size).decode("utf-8")
        except UnicodeDecodeError:
            raise Fault("I5 BadText") from None


def expect(holds, fault):
    if not holds:
        raise Fault(fault)


def read_names(reader, globals_):
    slots, last = set(), b""
    for _ in range(reader.uint(2)):
        slot = reader.uint(2)
        expect(slot < globals_ and slot not in slots, "I7 BadTable")
        slots.add(slot)
        text = reader.text(reader.uint(2)).encode()
        expect(text > last, "I7 BadTable")
        last = text


def read_constants(reader):
    for _ in range(reader.uint(2)):
        tag = reader.uint(1)
        expect(tag <= 6, "I7 BadTable")
        if tag == 4:
            reader.take(8)
        elif tag > 4:
            reader.text(reader.uint(4))


def read_units(reader):
    """How many units there are, and how many instructions they have together."""
    count = reader.uint(2)
    expect(count > 0, "I7 BadTable")
    total = 0
    for unit in range(count):
        parameters = reader.uint(1)
        expect(unit > 0 or parameters == 0, "I7 BadTable")
        kind = reader.uint(1)
        expect(kind == 0 or kind == 1 and unit > 0, "I7 BadTable")
        local = reader.uint(2)
        expect(local <= MAX_LOCALS, "I8 LimitPassed")
        expect(parameters <= local, "I7 BadTable")
        total += reader.uint(4)
        expect(total <= MAX_INSTRUCTIONS, "I8 LimitPassed")
    return count, total


def read_instruction(reader):
    opcode = reader.uint(1)
    expect(opcode in FIELDS, "I6 BadOpcode")
    for field, size in zip("abc", (1, 2, 4)):
        value = reader.uint(size)
        expect(value == 0 or field in FIELDS[opcode], "I6 BadOpcode")


def read_templates(reader):
    """How many templates there are."""
    count, last = reader.uint(2), b""
    for _ in range(count):
        text = reader.text(reader.uint(2)).encode()
        expect(text > last, "I7 BadTable")
        last = text
    return count


def read_place(reader, templates_):
    template = reader.uint(2)
    expect(template <= templates_, "I7 BadTable")
    line = reader.uint(4)
    expect(0 < line <= MAX_LINE if template else line == 0, "I7 BadTable")


def counts(data):
    """How many units and instructions the image has that bytes spell; else their first fault, as `Fault`."""
    expect(len(data) <= MAX_BYTES, "I8 LimitPassed")
    reader = Reader(data)
    expect(reader.take(4) == b"JTBC", "I1 BadMagic")
    version = reader.uint(2)
    expect(version in (1, 2), "I2 BadVersion")
    read_names(reader, reader.uint(2))
    read_constants(reader)
    units, instructions = read_units(reader)
    for _ in range(instructions):
        read_instruction(reader)
    if version == 2:
        templates_ = read_templates(reader)
        for _ in range(instructions):
            read_place(reader, templates_)
    expect(reader.at == len(data), "I4 Trailing")
    return units, instructions
