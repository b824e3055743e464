"""Finds the token that a refusal is about.

The library says which template, line, code and name. Several tags may begin on that line, and the
name may be there several times, so this looks for the token of the right form. Where only the tag
is sought, the library decides: it reads the source with each tag on a line of its own.
"""
import re
from typing import Callable, Iterator, List, Optional, Tuple

from .._errors import NoMemory, Refused
from .._templates import Options, Templates
from ._outline import LINKS
from ._positions import Lines
from ._tokens import Tag, Token

Span = Tuple[int, int]
_MOST = 9223372036854775807
_BAD_ESCAPE = re.compile(
    r"\\(?:N|x(?![\da-fA-F]{2})|u(?![\da-fA-F]{4})|U(?![\da-fA-F]{8}))"
)
_COMPARISONS = ("==", "!=", "<", "<=", ">", ">=")
# The methods of Python's values of which the library says what to write in their place.
METHODS = frozenset(
    """append capitalize copy count decode encode endswith extend find format get index insert
    isdigit isoformat items join keys lower lstrip pop replace reverse rstrip sort split splitlines
    startswith strftime strip title update upper values""".split()
)
_OPERATORS = frozenset("+ - * ** // % ~ == != < <= > >= = . , : | ( ) [ ] { }".split())


def tags_of_line(tags: List[Tag], lines: Lines, line: int) -> List[Tag]:
    """Returns the tags of which a part is on a line, counted from 0."""
    if line >= len(lines.starts):
        return []
    start, end = _line_span(lines, line)
    return [tag for tag in tags if tag.start < end and start < max(tag.end, tag.start + 1)]


def _line_span(lines: Lines, line: int) -> Span:
    """Returns the start of a line, counted from 0, and that of the next one."""
    is_last = line + 1 == len(lines.starts)
    return lines.starts[line], len(lines.source) + 1 if is_last else lines.starts[line + 1]


def mark(refused: Refused, name: str, tags: List[Tag], lines: Lines, options: Options) -> Span:
    """Returns the characters that a refusal of a template is about: a token, a tag or a line."""
    line = (refused.line or 1) - 1
    here = tags_of_line(tags, lines, line)
    found = _token(refused, here, lines, line) if here else None
    if found is not None:
        return found
    tag = _tag(refused, name, here, lines, options)
    if tag is not None:
        return _in_tag(refused, tag) or (tag.start, _end_of_line(tag, lines))
    start = lines.starts[min(line, len(lines.starts) - 1)]
    return start, start + len(lines.line_text(min(line, len(lines.starts) - 1)))


def sentence_of(refused: Refused) -> str:
    """Returns the sentence of an explanation, with what it says to write."""
    said = (refused.explanation or "").rstrip("\n").split("\n")
    return said[-1].strip() if len(said) > 1 else refused.reason


def reason_of(code: str, sentence: str) -> str:
    """Returns what a sentence says beside the rule. The reason of an error of syntax stands alone."""
    return sentence if code == "P1" else sentence.partition("; ")[2]


def _end_of_line(tag: Tag, lines: Lines) -> int:
    """Returns the end of a tag, or of its first line if it is not closed."""
    if tag.is_closed:
        return tag.end
    line = lines.line_of(tag.start)
    return lines.starts[line] + len(lines.line_text(line))


def _token(refused: Refused, tags: List[Tag], lines: Lines, line: int) -> Optional[Span]:
    """Returns the token of the name that a refusal is about, on its line if it is there."""
    start, end = _line_span(lines, line)
    found = list(_tokens_of(refused, tags))
    return next((it for it in found if start <= it[0] < end), found[0] if found else None)


def _tokens_of(refused: Refused, tags: List[Tag]) -> Iterator[Span]:
    """Returns the tokens that a refusal may be about, those of the right form first."""
    if refused.code in ("S3", "S4", "S5"):
        for tag in tags:
            yield from _bad_tokens(refused.code, tag)
        return
    if refused.subject is None:
        if refused.code == "V3":
            yield from _methods(tags)
        return
    name = refused.subject
    if refused.code in ("V1", "V3", "V4"):
        name = name.rpartition(".")[2]
    elif refused.code == "C7":
        name = "super"
    fits = _FITS.get(refused.code, _any)
    for test in (fits, _any):
        for tag in tags:
            for at, token in enumerate(tag.tokens):
                said = token.inner if token.kind == "text" else token.text
                if said == name and test(tag.tokens, at):
                    yield token.span
    if fits is _is_link:
        yield from _escaped_names(tags)


def _methods(tags: List[Tag]) -> Iterator[Span]:
    """Returns the methods of Python's values that are called."""
    for tag in tags:
        for at in range(1, len(tag.tokens) - 1):
            dot, name, after = tag.tokens[at - 1 : at + 2]
            if dot.text == "." and name.text in METHODS and after.text == "(":
                yield name.span


def _escaped_names(tags: List[Tag]) -> Iterator[Span]:
    """Returns the names of templates that are written with escapes, so not as they are said."""
    for tag in tags:
        for at, token in enumerate(tag.tokens):
            if "\\" in token.text and _is_link(tag.tokens, at):
                yield token.span


def _bad_tokens(code: str, tag: Tag) -> Iterator[Span]:
    """Returns the tokens of a tag that the scanner refuses with a code."""
    for token in tag.tokens:
        if code == "S3" and token.kind == "sign" and token.text not in _OPERATORS:
            if token.text != "||":
                yield token.span
        elif code == "S5" and token.kind == "number" and _value(token.text) > _MOST:
            yield token.span
        elif code == "S4" and token.kind == "text":
            yield from _bad_escapes(token)


def _bad_escapes(token: Token) -> Iterator[Span]:
    """Returns the escapes of a text that have no meaning."""
    at = 0
    while True:
        at = token.text.find("\\", at)
        if at < 0:
            return
        found = _BAD_ESCAPE.match(token.text, at)
        if found:
            yield token.start + found.start(), token.start + found.end()
        at += 2


def _value(text: str) -> int:
    try:
        return int(text, 0) if text.strip("0_") else 0
    except ValueError:
        return 0


Fits = Callable[[List[Token], int], bool]


def _any(tokens: List[Token], at: int) -> bool:
    return True


def _before(*signs: str) -> Fits:
    """Returns a test whether one of these tokens stands before, or the token is a text."""

    def fits(tokens: List[Token], at: int) -> bool:
        if tokens[at].kind == "text":
            return True
        return at > 0 and tokens[at - 1].text in signs

    return fits


def _is_test(tokens: List[Token], at: int) -> bool:
    words = [it.text for it in tokens[max(0, at - 2) : at]]
    return tokens[at].kind == "text" or words[-1:] == ["is"] or words == ["is", "not"]


def _is_link(tokens: List[Token], at: int) -> bool:
    return at > 0 and tokens[at].kind == "text" and tokens[at - 1].text in LINKS


def _is_called(tokens: List[Token], at: int) -> bool:
    return at + 1 < len(tokens) and tokens[at + 1].text == "("


def _is_named(tokens: List[Token], at: int) -> bool:
    return tokens[at].kind == "name" and at > 0 and tokens[0].kind == "name"


# Which form the token of a refusal's name has, by its code.
_FITS = {
    "P3": _before("|", "filter"),
    "P4": _is_test,
    "C1": _is_link,
    "C2": _is_link,
    "C3": _is_link,
    "C4": _is_link,
    "C8": _is_link,
    "C12": _is_link,
    "C5": _is_named,
    "C6": _is_named,
    "C9": _is_named,
    "C11": _is_named,
    "C7": _is_called,
    "V1": _before("."),
    "V3": _is_called,
}


def _tag(
    refused: Refused, name: str, tags: List[Tag], lines: Lines, options: Options
) -> Optional[Tag]:
    """Returns the tag that a refusal is about, of those that begin on its line."""
    if len(tags) < 2:
        return tags[0] if tags else None
    if refused.code in ("S1", "S2", "S6"):
        return next((tag for tag in tags if not tag.is_closed), tags[-1])
    # Each of the tags on a line of its own: the line that the library names is that of the tag.
    pieces, at = [], 0
    for tag in tags[1:]:
        pieces.append(lines.source[at : tag.start])
        at = tag.start
    pieces.append(lines.source[at:])
    try:
        Templates({name: "\n".join(pieces)}, options).template(name).compile().close()
    except Refused as error:
        step = (error.line or 0) - (refused.line or 0)
        if error.code == refused.code and 0 <= step < len(tags):
            return tags[step]
    except (NoMemory, ValueError):
        pass
    return tags[0]


def _in_tag(refused: Refused, tag: Tag) -> Optional[Span]:
    """Returns the token of a tag that a sentence speaks of."""
    said = reason_of(refused.code, sentence_of(refused))
    for words, find in _FINDERS:
        if said.startswith(words):
            at = find(tag.tokens)
            return at and (tag.tokens[at[0]].start, tag.tokens[at[1]].end)
    return None


Finder = Callable[[List[Token]], Optional[Tuple[int, int]]]


def _sign(*signs: str, number: int = 1) -> Finder:
    """Returns what finds the first of some tokens, or the one of a number."""

    def find(tokens: List[Token]) -> Optional[Tuple[int, int]]:
        found = [at for at, it in enumerate(tokens) if it.text in signs]
        return (found[number - 1], found[number - 1]) if len(found) >= number else None

    return find


def _kinds(*kinds: str) -> Finder:
    """Returns what finds the first tokens in a row of some kinds or texts."""

    def find(tokens: List[Token]) -> Optional[Tuple[int, int]]:
        for at in range(len(tokens) - len(kinds) + 1):
            row = tokens[at : at + len(kinds)]
            if all(kind in (it.kind, it.text) for kind, it in zip(kinds, row)):
                return at, at + len(kinds) - 1
        return None

    return find


def _first_word(tokens: List[Token]) -> Optional[Tuple[int, int]]:
    return (0, 0) if tokens else None


def _else_if(tokens: List[Token]) -> Optional[Tuple[int, int]]:
    words = [it.text for it in tokens[:2]]
    return (0, 1) if words == ["else", "if"] else (0, 0) if words else None


_FINDERS: List[Tuple[str, Finder]] = [
    ("there are no slices", _sign(":")),
    ("there are no tuples", _sign(",")),
    ("there are no fractions", _kinds("number", ".", "number")),
    ("a name follows a dot", _kinds(".", "number")),
    ("comparisons are not chained", _sign(*_COMPARISONS, number=2)),
    ("= belongs to set", _sign("=")),
    ("set gives a value by =", _sign("==")),
    ("autoescape takes", _first_word),
    ("there are no comprehensions", _sign("for")),
    ("arguments are written one by one", _sign("*", "**")),
    ("|| is no operator", _sign("||")),
    ("texts side by side", _kinds("text", "text")),
    ("% does not format", _sign("%")),
    ("a key of a map", _kinds("name", ":")),
    ("the word is elif", _else_if),
    ("no statement begins", _first_word),
    ("a value is printed by", _first_word),
    ("imported macros see", _kinds("with", "context")),
    ("loops are not recursive", _sign("recursive")),
    ("set binds a plain name", _sign(".")),
    ("this statement is never closed", _first_word),
    ("this tag closes or continues", _first_word),
]
