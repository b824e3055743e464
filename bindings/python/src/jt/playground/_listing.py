"""Lists the instructions of an image, each with the template and the line that it comes from.

This reads images that the library made, by docs/image.md: their bytes are taken as they are.
"""
from typing import Any, Dict, Iterator, List, NamedTuple, Tuple

_NAMES = """Const Load Store GLoad GStore Drop Dup Emit Data Jump JumpIfFalse JumpIfTrue Op Filter
    Test MakeList MakeMap LoopStart LoopNext LoopGet LoopKeep LoopRewind LoopEnd CaptureBegin
    CaptureEnd Unpack Call Return""".split()
_OPERATORS = [
    it.strip()
    for it in """+, -, *, //, %, **, sign -, sign +, not, ~, ~ escaping, ==, !=, <, <=, >, >=, in,
    item, range to stop, range from start, range by step""".split(",")
]
_FILTERS = [
    it.strip()
    for it in """abs, attr, capitalize, default, dictsort, escape, first, forceescape, int, items,
    join, last, length, list, lower, map, max, min, reject, rejectattr, replace, reverse, safe,
    select, selectattr, sort, string, sum, trim, unique, upper, map by attribute""".split(",")
]
_TESTS = """boolean defined divisibleby eq ne escaped even odd false true ge gt le lt in integer
    mapping none string undefined""".split()
_FIELDS = "item index index0 revindex revindex0 first last length previtem nextitem".split()
_JUMPS = ("Jump", "JumpIfFalse", "JumpIfTrue", "LoopNext")
_PLAIN = ("Load", "Store", "MakeList", "MakeMap", "LoopKeep", "Unpack", "Call")
_MOST_SHOWN = 60


class Row(NamedTuple):
    """An instruction: its unit and point, its name with its fields, and its place if it has one."""

    unit: int
    point: int
    text: str
    template: str
    line: int


class _Reader:
    """The bytes of an image, as they are read."""

    def __init__(self, data: bytes) -> None:
        self.data, self.at = data, 0

    def take(self, count: int) -> bytes:
        self.at += count
        return self.data[self.at - count : self.at]

    def number(self, count: int) -> int:
        return int.from_bytes(self.take(count), "little")

    def text(self, count: int) -> str:
        return self.take(self.number(count)).decode()

    def constant(self) -> str:
        tag = self.number(1)
        if tag < 4:
            return ("undefined", "none", "false", "true")[tag]
        if tag == 4:
            return str(int.from_bytes(self.take(8), "little", signed=True))
        return ("markup " if tag == 6 else "") + _quoted(self.text(4))


def _quoted(text: str) -> str:
    cut = text if len(text) <= _MOST_SHOWN else text[:_MOST_SHOWN] + "…"
    return '"' + cut.replace("\\", "\\\\").replace('"', '\\"').replace("\n", "\\n") + '"'


def listing(data: bytes, most: int) -> Tuple[List[Row], int]:
    """Returns the first instructions of an image of version 2, and the number of all."""
    reader = _Reader(data)
    reader.take(8)
    names: Dict[int, str] = {}
    for _ in range(reader.number(2)):
        slot = reader.number(2)
        names[slot] = reader.text(2)
    constants = [reader.constant() for _ in range(reader.number(2))]
    counts = []
    for _ in range(reader.number(2)):
        reader.take(4)
        counts.append(reader.number(4))
    code = reader.take(8 * sum(counts))
    templates = ["", *(reader.text(2) for _ in range(reader.number(2)))]
    rows: List[Row] = []
    for at, (unit, point) in enumerate(_points(counts)):
        if at >= most:
            break
        text = _instruction(code[8 * at : 8 * at + 8], names, constants)
        place = templates[reader.number(2)], reader.number(4)
        rows.append(Row(unit, point, text, *place))
    return rows, sum(counts)


def _points(counts: List[int]) -> Iterator[Tuple[int, int]]:
    for unit, count in enumerate(counts):
        for point in range(count):
            yield unit, point


def _instruction(data: bytes, names: Dict[int, str], constants: List[str]) -> str:
    """Returns the name of an instruction with its fields."""
    name, a, b = _NAMES[data[0] - 1], data[1], int.from_bytes(data[2:4], "little")
    c = int.from_bytes(data[4:], "little")
    words: Dict[str, Any] = {
        "Const": lambda: f"{c} ({constants[c]})",
        "Data": lambda: f"{c} ({constants[c]})",
        "GLoad": lambda: f"{c} ({_quoted(names[c])})" if c in names else c,
        "GStore": lambda: f"{c} ({_quoted(names[c])})" if c in names else c,
        "Emit": lambda: f"{a} ({('plain', 'escaped')[a]})",
        "CaptureEnd": lambda: f"{a} ({('text', 'markup')[a]})",
        "Op": lambda: f"{a} ({_OPERATORS[a]})",
        "Filter": lambda: f"{a} ({_FILTERS[a]}), values {b}, escaping {c}",
        "Test": lambda: f"{a} ({_TESTS[a]}), values {b}",
        "LoopGet": lambda: f"{a} ({_FIELDS[a]}), above {c}",
    }
    if name in _JUMPS:
        return f"{name} L{c}"
    if name in words:
        return f"{name} {words[name]()}"
    return f"{name} {c}" if name in _PLAIN else name
