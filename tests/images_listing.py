#!/usr/bin/env python3
"""Checks `jt show` against a second implementation of listings, by docs/image.md: tests/images_listing.py PROGRAM [FILE ..]

The images are those of the rows of tests/images.py (without files tests/rows/images.txt and tests/rows/listings.txt). Each one that
decodes is verified and listed here, and `jt show` must print the same text. The last line is 'N passed, M failed', and the status is 1 if
one failed.
"""
import collections
import concurrent.futures
import os
import pathlib
import subprocess
import sys
import tempfile

import images
from images_bytes import INSTRUCTIONS, Fault, Reader, counts

OPERATORS = """+ 2, - 2, * 2, // 2, % 2, ** 2, sign - 1, sign + 1, not 1, ~ 2, ~ escaping 2, == 2, != 2, < 2, <= 2, > 2, >= 2, in 2, item 2,
    range to stop 1, range from start 2, range by step 3"""
FILTERS = """abs 1 1, attr 2 2, capitalize 1 1, default 1 3, dictsort 1 1, escape 1 1, first 1 1, forceescape 1 1, int 1 2, items 1 1,
    join 1 2, last 1 1, length 1 1, list 1 1, lower 1 1, map 2 255, max 1 1, min 1 1, reject 1 255, rejectattr 2 255, replace 3 3,
    reverse 1 1, safe 1 1, select 1 255, selectattr 2 255, sort 1 2, string 1 1, sum 1 1, trim 1 1, unique 1 1, upper 1 1,
    map by attribute 2 2"""
TESTS = """boolean 1, defined 1, divisibleby 2, eq 2, ne 2, escaped 1, even 1, odd 1, false 1, true 1, ge 2, gt 2, le 2, lt 2, in 2,
    integer 1, mapping 1, none 1, string 1, undefined 1"""
FIELDS = ["item", "index", "index0", "revindex", "revindex0", "first", "last", "length", "previtem", "nextitem"]
JUMPS = ("Jump", "JumpIfFalse", "JumpIfTrue", "LoopNext")
MOST_ENTRIES, MOST_MARKS, MOST_SHOWN = 1_024, 8, 60


def table(text, numbers):
    """The rows of a table by their ids: a name and its numbers."""
    rows = [row.split() for row in text.split(",")]
    return [(" ".join(row[:-numbers]), *map(int, row[-numbers:])) for row in rows]


OPERATORS, FILTERS, TESTS = table(OPERATORS, 1), table(FILTERS, 2), table(TESTS, 1)

Instruction = collections.namedtuple("Instruction", "name a b c")
Unit = collections.namedtuple("Unit", "parameters kind locals count code")
Code = collections.namedtuple("Code", "version globals names constants units places")


# ---- an image, which `counts` has accepted


def constant_in(reader):
    tag = reader.uint(1)
    if tag < 4:
        return ("undefined", "none", "false", "true")[tag]
    if tag == 4:
        return int.from_bytes(reader.take(8), "little", signed=True)
    return ("markup " if tag == 6 else "", reader.take(reader.uint(4)))


def instruction_in(reader):
    opcode = reader.uint(1)
    return Instruction(INSTRUCTIONS[opcode - 1][0], reader.uint(1), reader.uint(2), reader.uint(4))


def code_in(data):
    """The code that bytes spell; else their first fault, as `Fault`."""
    counts(data)
    reader = Reader(data)
    reader.take(4)
    version, globals_ = reader.uint(2), reader.uint(2)
    names = {}
    for _ in range(reader.uint(2)):
        slot = reader.uint(2)
        names[slot] = reader.take(reader.uint(2))
    constants = [constant_in(reader) for _ in range(reader.uint(2))]
    headers = [(reader.uint(1), reader.uint(1), reader.uint(2), reader.uint(4)) for _ in range(reader.uint(2))]
    units = [Unit(*header, [instruction_in(reader) for _ in range(header[3])]) for header in headers]
    places = []
    if version == 2:
        templates = [None] + [reader.take(reader.uint(2)) for _ in range(reader.uint(2))]
        places = [(templates[reader.uint(2)], reader.uint(4)) for _ in range(sum(unit.count for unit in units))]
    return Code(version, globals_, names, constants, units, places)


# ---- the verifier: a shape is a number of values on a mark, and a mark is a loop or a capture on a shape


class Refused(Exception):
    """The flaw of a unit: its code and name."""


class Mark:
    """A loop or a capture, with the shape below it and the number of entries up to it."""

    def __init__(self, kind, below):
        self.kind, self.below = kind, below
        self.height = height(below) + 1


def height(shape):
    values, mark = shape
    return values + (mark.height if mark else 0)


class Marks:
    """Each mark once, so that shapes are equal if their numbers and marks are."""

    def __init__(self):
        self.known = {}

    def on(self, kind, shape):
        return (0, self.known.setdefault((kind, *shape), None) or self.add(kind, shape))

    def add(self, kind, shape):
        mark = self.known[(kind, *shape)] = Mark(kind, shape)
        return mark


def require(holds, flaw):
    if not holds:
        raise Refused(flaw)


def entry_below(shape, above):
    """The kind of the entry below so many others, or nothing."""
    values, mark = shape
    while above >= values:
        if mark is None:
            return None
        if above == values:
            return mark.kind
        above, (values, mark) = above - values - 1, mark.below
    return "V"


def need(shape, above, kind):
    found = entry_below(shape, above)
    require(found is not None, "K1 MissingOperand")
    require(found == kind, "K2 WrongKind")


def values_off(shape, count):
    """The shape without its top values."""
    values, mark = shape
    if count > values:
        raise Refused("K2 WrongKind" if mark else "K1 MissingOperand")
    return values - count, mark


def mark_off(shape, kind):
    need(shape, 0, kind)
    return shape[1].below


def more(shape, count):
    return shape[0] + count, shape[1]


def row_at(rows, at):
    return rows[at] if at < len(rows) else None


def is_in_order(code, unit, one):
    """Whether the indices, the flags and the numbers of values of an instruction exist."""
    name, a, b, c = one
    if name == "Data":
        return c < len(code.constants) and isinstance(code.constants[c], tuple) and code.constants[c][0] == ""
    if name == "Filter":
        return a < len(FILTERS) and FILTERS[a][1] <= b <= FILTERS[a][2] and c < 2
    if name == "Test":
        return a < len(TESTS) and TESTS[a][1] == b
    limits = {"Const": (c, code.constants), "Op": (a, OPERATORS), "LoopGet": (a, FIELDS), "Call": (c, code.units)}
    numbers = {"Load": (c, unit.locals), "Store": (c, unit.locals), "GLoad": (c, code.globals), "GStore": (c, code.globals),
               "Emit": (a, 2), "CaptureEnd": (a, 2)}
    if name in limits:
        return limits[name][0] < len(limits[name][1])
    return name not in numbers or numbers[name][0] < numbers[name][1]


def taken(code, one):
    """How many values an instruction takes from the top, if it takes values."""
    name, a, b, c = one
    if name in ("Store", "GStore", "Drop", "Dup", "Emit", "JumpIfFalse", "JumpIfTrue", "LoopStart", "LoopKeep", "Unpack"):
        return 1
    counted = {"Op": lambda: OPERATORS[a][1], "Filter": lambda: b, "Test": lambda: b, "MakeList": lambda: c, "MakeMap": lambda: 2 * c,
               "Call": lambda: code.units[c].parameters}
    return counted[name]() if name in counted else 0


def shape_after(code, marks, one, shape):
    """The shape after an instruction whose indices exist."""
    name, a, b, c = one
    rest = values_off(shape, taken(code, one))
    if name in ("Const", "Load", "GLoad", "Op", "Filter", "Test", "MakeList", "MakeMap"):
        return more(rest, 1)
    if name == "Dup":
        return more(rest, 2)
    if name == "LoopStart":
        return marks.on("L", rest)
    if name in ("LoopNext", "LoopRewind"):
        mark_off(shape, "L")
        return shape
    if name == "LoopGet":
        need(shape, c, "L")
        return more(shape, 1)
    if name == "LoopKeep":
        need(rest, c, "L")
        return rest
    if name in ("LoopEnd", "CaptureEnd"):
        return more(mark_off(shape, "L" if name == "LoopEnd" else "C"), 1)
    if name == "CaptureBegin":
        return marks.on("C", shape)
    if name == "Unpack":
        return more(rest, c)
    if name == "Call":
        return more(rest, code.units[c].kind)
    return rest


def effect(code, unit, marks, point, shape):
    """The shape after the instruction at a point, and the points that it leads to, the next one first."""
    require(point < unit.count, "K8 FallsOff")
    one = unit.code[point]
    require(is_in_order(code, unit, one), "K6 BadIndex")
    if one.name == "Return":
        require(shape == (unit.kind, None), "K7 BadReturn")
        return shape, []
    after = shape_after(code, marks, one, shape)
    require(one.name not in JUMPS or one.c < unit.count, "K5 JumpOut")
    if one.name == "Jump":
        return after, [one.c]
    require(point + 1 < unit.count, "K8 FallsOff")
    return after, [point + 1] + ([one.c] if one.name in JUMPS else [])


Found = collections.namedtuple("Found", "shapes refused")
NOTHING = Found({}, None)


def found_in(code, unit):
    """The shapes of the points of a unit that are reached, and the refusal: its point, its flaw, and the other shape, if two clash."""
    marks, shapes, waiting = Marks(), {}, [(0, (0, None))]
    while waiting:
        point, shape = waiting.pop()
        if height(shape) > MOST_ENTRIES:
            return Found(shapes, (point, "K9 TooDeep", None))
        if point in shapes:
            if shapes[point] == shape:
                continue
            flaw = "K4 KindDiffers" if height(shapes[point]) == height(shape) else "K3 DepthDiffers"
            return Found(shapes, (point, flaw, shape))
        shapes[point] = shape
        try:
            after, leads = effect(code, unit, marks, point, shape)
        except Refused as refused:
            return Found(shapes, (point, refused.args[0], None))
        waiting += [(lead, after) for lead in reversed(leads)]
    return Found(shapes, None)


# ---- the lines


def escaped(byte):
    if byte in b'"\\':
        return b"\\" + bytes([byte])
    if byte == 10:
        return b"\\n"
    return b"\\u{%x}" % byte if byte < 32 or byte == 127 else bytes([byte])


def quoted(text):
    end = MOST_SHOWN
    while end < len(text) and text[end] & 0xC0 == 0x80:
        end -= 1
    shown = b'"' + b"".join(escaped(byte) for byte in text[:end]) + b'"'
    return shown + (b"... of %d bytes" % len(text) if len(text) > MOST_SHOWN else b"")


def constant_text(constant):
    if isinstance(constant, tuple):
        return constant[0].encode() + quoted(constant[1])
    return str(constant).encode()


def worded(value, word):
    return b" %d" % value + (b" (" + word + b")" if word is not None else b"")


def named(rows, at):
    row = row_at(rows, at)
    return row if row is None else (row if isinstance(row, str) else row[0]).encode()


def constant_at(code, at):
    return constant_text(code.constants[at]) if at < len(code.constants) else None


def operands(code, one):
    name, a, b, c = one
    if name in ("Const", "Data"):
        return worded(c, constant_at(code, c))
    if name in ("GLoad", "GStore"):
        return worded(c, quoted(code.names[c]) if c in code.names else None)
    if name in ("Emit", "CaptureEnd"):
        return worded(a, named(["plain", "escaped"] if name == "Emit" else ["text", "markup"], a))
    if name in JUMPS:
        return b" L%d" % c
    if name == "Op":
        return worded(a, named(OPERATORS, a))
    if name == "Filter":
        return worded(a, named(FILTERS, a)) + b", values %d, escaping %d" % (b, c)
    if name == "Test":
        return worded(a, named(TESTS, a)) + b", values %d" % b
    if name == "LoopGet":
        return worded(a, named(FIELDS, a)) + b", above %d" % c
    return b" %d" % c if name in ("Load", "Store", "MakeList", "MakeMap", "LoopKeep", "Unpack", "Call") else b""


def shape_text(shape):
    words, shown = [], 0
    while shown < MOST_MARKS:
        values, mark = shape
        words += [f" V{values}" if values > 1 else " V"] if values else []
        if mark is None:
            shape = (0, None)
            break
        words.append(f" {mark.kind}")
        shape, shown = mark.below, shown + 1
    if height(shape):
        words.append(f" {height(shape)} more")
    return ("[" + "".join(reversed(words)) + " ]").encode()


def lacked(one, shape):
    """The kind of the entry that an instruction lacks, and the number of entries above it."""
    if one.name in ("LoopNext", "LoopRewind", "LoopEnd"):
        return "L", 0
    if one.name == "LoopGet":
        return "L", one.c
    if one.name == "CaptureEnd":
        return "C", 0
    if one.name == "LoopKeep" and shape[0]:
        return "L", one.c + 1
    return "V", shape[0]


def mark_lines(unit, found, point):
    """The line of the refusal, if the unit is refused at the point."""
    if not found.refused or found.refused[0] != point:
        return []
    _, flaw, other = found.refused
    line = b"  refused " + flaw.encode()
    if other is not None:
        return [line + b": a path brings " + shape_text(other)]
    if flaw in ("K1 MissingOperand", "K2 WrongKind"):
        return [line + b": no %s below %d" % (kind.encode(), above) for kind, above in [lacked(unit.code[point], found.shapes[point])]]
    return [line]


def unit_lines(code, number, unit, found, places):
    kind = worded(unit.kind, named(["emits", "returns a value"], unit.kind))
    yield b"unit %d: parameters %d, kind%s, locals %d, instructions %d" % (number, unit.parameters, kind, unit.locals, unit.count)
    targets = {one.c for one in unit.code if one.name in JUMPS}
    before = None
    for point, one in enumerate(unit.code):
        place = places[point] if places and places[point][0] is not None else None
        if place and place != before:
            yield b"  in " + quoted(place[0]) + b" line %d" % place[1]
        before = place or before
        if point in targets:
            yield b"L%d:" % point
        shape = b"\t" + shape_text(found.shapes[point]) if point in found.shapes else b""
        yield b"  %d\t%s" % (point, one.name.encode()) + operands(code, one) + shape
        yield from mark_lines(unit, found, point)
    yield from mark_lines(unit, found, max(unit.count, 0)) if not unit.code else []


def lines(code):
    yield b"version %d" % code.version
    yield b"globals %d" % code.globals
    for slot, text in code.names.items():
        yield b"  %d\t" % slot + quoted(text)
    yield b"constants %d" % len(code.constants)
    for number, constant in enumerate(code.constants):
        yield b"  %d\t" % number + constant_text(constant)
    first, refused = 0, False
    for number, unit in enumerate(code.units):
        found = NOTHING if refused else found_in(code, unit)
        refused = refused or found.refused is not None
        yield from unit_lines(code, number, unit, found, code.places[first:first + unit.count])
        first += unit.count


def listing(data):
    """The listing of an image."""
    return b"".join(line + b"\n" for line in lines(code_in(data)))


# ---- the rows


def difference(program, named_, data):
    """What is wrong with the program's listing of an image, if something is."""
    try:
        wanted = listing(data)
    except Fault:
        return None
    with tempfile.NamedTemporaryFile() as file:
        file.write(data)
        file.flush()
        done = subprocess.run([program, "show", file.name], capture_output=True, timeout=120, check=False)
    if done.returncode == 0 and done.stdout == wanted and not done.stderr:
        return ""
    pairs = zip(done.stdout.split(b"\n"), wanted.split(b"\n"))
    first = next(((found, line) for found, line in pairs if found != line), (done.stdout[-80:], wanted[-80:]))
    return f"{named_}: status {done.returncode}, {first[0][:200]!r}, wanted {first[1][:200]!r}"


def images_of(path):
    """The images of the rows of a file, each with where it stands."""
    for where, row in images.rows_of(path):
        if not isinstance(row, str):
            yield from ((where, data) for data, _ in row[1])


def main(program, *files):
    files = files or [images.ROWS / "images.txt", images.ROWS / "listings.txt"]
    unique = {data: where for path in files for where, data in images_of(path)}
    with concurrent.futures.ThreadPoolExecutor(os.cpu_count()) as pool:
        found = list(pool.map(lambda item: difference(program, item[1], item[0]), unique.items()))
    compared = [text for text in found if text is not None]
    for text in filter(None, compared):
        print(text)
    failed = sum(bool(text) for text in compared)
    print(f"{len(compared) - failed} passed, {failed} failed")
    return 1 if failed or not compared else 0


if __name__ == "__main__":
    sys.exit(main(str(pathlib.Path(sys.argv[1]).resolve()), *map(pathlib.Path, sys.argv[2:])))
