"""Converts places in a source to the positions of the protocol, which count UTF-16 units."""
import re
from bisect import bisect_right
from typing import Any, Dict

_LINE_END = re.compile(r"\r\n?|\n")
Json = Dict[str, Any]


class Lines:
    """The lines of a source. The library and the protocol end them alike: LF, CR LF or CR."""

    def __init__(self, source: str) -> None:
        self.source = source
        self.starts = [0, *(it.end() for it in _LINE_END.finditer(source))]

    def line_of(self, at: int) -> int:
        """Returns the line of a place, counted from 0."""
        return bisect_right(self.starts, at) - 1

    def position(self, at: int) -> Json:
        """Returns the position of a place."""
        line = self.line_of(at)
        before = self.source[self.starts[line] : at]
        return {"line": line, "character": units(before)}

    def range(self, start: int, end: int) -> Json:
        """Returns the range between two places."""
        return {"start": self.position(start), "end": self.position(end)}

    def offset(self, position: Json) -> int:
        """Returns the place of a position; one after the end of its line is that end."""
        line: int = position["line"]
        if line >= len(self.starts):
            return len(self.source)
        start = self.starts[line]
        after = self.starts[line + 1] if line + 1 < len(self.starts) else len(self.source)
        text = self.source[start:after].rstrip("\r\n")
        count: int = position["character"]
        if text.isascii():
            return start + min(count, len(text))
        left = count
        for at, character in enumerate(text):
            if left <= 0:
                return start + at
            left -= units(character)
        return start + len(text)

    def line_text(self, line: int) -> str:
        """Returns a line without its end."""
        after = self.starts[line + 1] if line + 1 < len(self.starts) else len(self.source)
        return self.source[self.starts[line] : after].rstrip("\r\n")


def units(text: str) -> int:
    """Returns the number of UTF-16 units of a text."""
    return len(text) if text.isascii() else sum(1 + (it > "\uffff") for it in text)
