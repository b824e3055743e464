"""Finds the tags of a source and the tokens in them, with their places.

This serves places alone: which characters to underline, and what stands before the cursor. Whether
a template compiles is what the library says. So a source that is being typed has tags and tokens
too: a tag that is never closed ends with the source, and a character that begins no token is a
sign.
"""
import re
from itertools import takewhile
from typing import Iterator, List, NamedTuple, Optional, Tuple

OPENER = re.compile(r"\{[{%#]")
RAW = re.compile(r"\{%[-+]?\s*raw\s*[-+]?%\}")
END_OF_RAW = re.compile(r"\{%[-+]?\s*endraw\s*[-+]?%\}")
TOKEN = re.compile(
    r"""(?P<space>[ \t\n\r\v\f]+)
    | (?P<name>[^\W\d]\w*)
    | (?P<number>0[bB](?:_?[01])+|0[oO](?:_?[0-7])+|0[xX](?:_?[\da-fA-F])+
        |[1-9](?:_?\d)*|0(?:_?0)*|\d+)
    | (?P<text>'(?:\\.|[^'\\])*(?:'|\Z)|"(?:\\.|[^"\\])*(?:"|\Z))
    | (?P<sign>\*\*|//|==|!=|<=|>=|\|\||&&|.)""",
    re.X | re.S,
)
WORD = re.compile(r"\{%[-+]?\s*([^\W\d]\w*)")
# What may change where a tag ends: a text, a brace, and outside of braces its closer.
PRINT_STEP = re.compile(r"""["'{]|\}\}""")
BLOCK_STEP = re.compile(r"""["'{]|%\}""")
STEP = re.compile(r"""["'{}]""")
SINGLE = re.compile(r"(?:\\.|[^'\\])*'", re.S)
DOUBLE = re.compile(r'(?:\\.|[^"\\])*"', re.S)


class Token(NamedTuple):
    """A token of a tag: `kind` is name, number, text or sign; a text has its quotes."""

    kind: str
    text: str
    start: int
    end: int

    @property
    def inner(self) -> str:
        """The text without its quotes."""
        return self.text[1:-1] if self.text[-1:] == self.text[:1] else self.text[1:]

    @property
    def span(self) -> Tuple[int, int]:
        """The first character and the one after the last; of a text, without its quotes."""
        if self.kind != "text":
            return self.start, self.end
        return self.start + 1, self.start + 1 + len(self.inner)


class Tag:
    """A tag: `kind` is print, block, comment or raw. Its tokens are between the delimiters."""

    __slots__ = ("kind", "start", "end", "is_closed", "_source", "_tokens")

    def __init__(self, kind: str, start: int, end: int, is_closed: bool, source: str) -> None:
        self.kind, self.start, self.end, self.is_closed = kind, start, end, is_closed
        self._source = source
        self._tokens: Optional[List[Token]] = None

    @property
    def tokens(self) -> List[Token]:
        """The tokens, which are read when they are first asked for."""
        if self._tokens is None:
            self._tokens = self._read() if self.kind in ("print", "block") else []
        return self._tokens

    def _read(self) -> List[Token]:
        start, end = self.start + 2, self.end - 2 if self.is_closed else self.end
        if self._source[start : start + 1] in ("-", "+") and start < end:
            start += 1
        signs = ("-",) if self.kind == "print" else ("-", "+")
        if self.is_closed and start < end and self._source[end - 1] in signs:
            end -= 1
        return [
            Token(found.lastgroup or "", found[0], found.start(), found.end())
            for found in TOKEN.finditer(self._source, start, end)
            if found.lastgroup != "space"
        ]

    @property
    def word(self) -> str:
        """The first word of a block tag, or the empty text."""
        if self.kind != "block":
            return ""
        found = WORD.match(self._source, self.start, self.end)
        return found[1] if found else ""


def read_tags(source: str, until: Optional[int] = None) -> List[Tag]:
    """Returns the tags of a source, in their order, up to a place if one is given."""
    end = len(source) if until is None else until
    return list(takewhile(lambda it: it.start < end, _tags(source)))


def _tags(source: str) -> Iterator[Tag]:
    at = 0
    while True:
        opener = OPENER.search(source, at)
        if opener is None:
            return
        tag = _tag_at(source, opener.start())
        yield tag
        at = tag.end


def _tag_at(source: str, start: int) -> Tag:
    """Returns the tag that begins at a character."""
    sign = source[start + 1]
    if sign == "#":
        end = source.find("#}", start + 2)
        return Tag("comment", start, len(source) if end < 0 else end + 2, end >= 0, source)
    raw = RAW.match(source, start) if sign == "%" else None
    if raw is not None:
        after = END_OF_RAW.search(source, raw.end())
        return Tag("raw", start, after.end() if after else len(source), after is not None, source)
    kind = "print" if sign == "{" else "block"
    closed = _end_of(source, start + 2, "}}" if kind == "print" else "%}")
    return Tag(kind, start, closed or len(source), closed is not None, source)


def _end_of(source: str, at: int, closer: str) -> Optional[int]:
    """Returns the end of the next closer that is outside of texts and of the braces of maps."""
    step = PRINT_STEP if closer == "}}" else BLOCK_STEP
    depth = 0
    while True:
        found = (STEP if depth else step).search(source, at)
        if found is None:
            return None
        sign, at = found[0], found.end()
        if sign == closer and depth == 0:
            return at
        if sign == "{":
            depth += 1
        elif sign == "}":
            depth -= 1
        elif sign in ("'", '"'):
            text = (SINGLE if sign == "'" else DOUBLE).match(source, at)
            if text is None:
                return None
            at = text.end()


def tag_around(tags: List[Tag], at: int) -> Optional[Tag]:
    """Returns the tag between whose delimiters a place is, or `None`."""
    low, high = 0, len(tags)
    while low < high:
        middle = (low + high) // 2
        if tags[middle].start < at:
            low = middle + 1
        else:
            high = middle
    if low == 0:
        return None
    tag = tags[low - 1]
    last = tag.end - 2 if tag.is_closed else tag.end
    return tag if tag.start + 2 <= at <= last else None
