"""Finds what to write in place of what is refused: a fix is a title and the changes of a source."""
import difflib
import re
from typing import Callable, List, NamedTuple, Optional, Tuple

from ._marks import Span, reason_of
from ._tokens import Tag, Token
from ._words import STATEMENTS

Change = Tuple[int, int, str]
_MEANT = re.compile(r'did you mean "(.*)"\?$')
# What is written in place of a method without arguments.
_METHODS = {
    "items": "|items", "keys": "|list", "values": '|items|map("last")', "upper": "|upper",
    "lower": "|lower", "capitalize": "|capitalize", "strip": "|trim", "lstrip": "|trim",
    "rstrip": "|trim", "reverse": "|reverse", "sort": "|sort", "copy": "",
}  # fmt: skip
# The texts of a sentence and what replaces the characters that are marked then.
_MARKED = [
    ("the word is elif", "elif"),
    ("= belongs to set and to named arguments: == compares", "=="),
    ("|| is no operator: write or", "or"),
    ("set gives a value by =, and == compares", "="),
]
# What a character that begins no token is replaced by.
_SIGNS = {"&&": "and", "&": "and", "!": "not ", "/": "//"}


class Fix(NamedTuple):
    """What to write, in words, and the changes of the source that write it."""

    title: str
    changes: List[Change]


def fixes_of(code: str, sentence: str, source: str, tag: Optional[Tag], span: Span) -> List[Fix]:
    """Returns the fixes of a refusal that is marked in a source."""
    start, end = span
    marked = source[start:end]
    meant = _MEANT.search(sentence)
    if meant:
        return [_replace(span, meant[1])]
    said = reason_of(code, sentence)
    for words, text in _MARKED:
        if said == words:
            return [_replace(span, text)]
    if code == "S3" and marked in _SIGNS:
        return [_replace(span, _SIGNS[marked])]
    if tag is None:
        return []
    fix = _of_method(source, tag, span) if code == "V3" else _of_form(said, source, tag, span)
    return [] if fix is None else [fix]


def null_fix(source: str, tokens: List[Token], at: int) -> Fix:
    """Returns the fix of `== null`: `at` is the operator's token."""
    text = "is none" if tokens[at].text == "==" else "is not none"
    return Fix(f"write {text}", [(tokens[at].start, tokens[at + 1].end, text)])


def _replace(span: Span, text: str) -> Fix:
    return Fix(f"write {text.strip()}", [(*span, text)])


def _of_method(source: str, tag: Tag, span: Span) -> Optional[Fix]:
    """Returns the fix of a call of a method: `.items()` is `|items`."""
    tokens = tag.tokens
    at = next((at for at, it in enumerate(tokens) if it.start == span[0]), None)
    if at is None or at < 2 or at + 2 >= len(tokens) or tokens[at - 1].text != ".":
        return None
    name, dot = tokens[at].text, tokens[at - 1].start
    if tokens[at + 1].text != "(":
        return None
    close = _closing(tokens, at + 1)
    if close is None:
        return None
    inside = source[tokens[at + 1].end : tokens[close].start]
    if name in _METHODS and not inside.strip():
        text = _METHODS[name]
        return Fix(f"write {text or 'the value alone'}", [(dot, tokens[close].end, text)])
    if name == "replace":
        return Fix("write |replace(..)", [(dot, tokens[at].end, "|replace")])
    if name == "append":
        return Fix("write + [..]", [(dot, tokens[close].end, f" + [{inside}]")])
    if name == "extend":
        return Fix("write + ..", [(dot, tokens[close].end, f" + {inside}")])
    if name == "join" and tokens[at - 2].kind == "text":
        text = f"{inside}|join({tokens[at - 2].text})"
        return Fix(f"write {text}", [(tokens[at - 2].start, tokens[close].end, text)])
    if name == "get":
        key, _, rest = inside.partition(",")
        text = f"[{key.strip()}]" + (f"|default({rest.strip()})" if rest else "")
        return Fix(f"write {text}", [(dot, tokens[close].end, text)])
    return None


def _closing(tokens: List[Token], at: int) -> Optional[int]:
    """Returns the parenthesis that closes the one at a place."""
    depth = 0
    for close in range(at, len(tokens)):
        if tokens[close].kind == "sign":
            depth += (tokens[close].text in "([{") - (tokens[close].text in ")]}")
            if depth == 0:
                return close
    return None


def _of_form(said: str, source: str, tag: Tag, span: Span) -> Optional[Fix]:
    """Returns the fix of a form that the language does not have."""
    for words, fix in _FORMS:
        if said.startswith(words):
            return fix(source, tag, span)
    return None


Form = Callable[[str, Tag, Span], Optional[Fix]]


def _number_after_dot(source: str, tag: Tag, span: Span) -> Optional[Fix]:
    text = f"[{source[span[0] + 1 : span[1]].strip()}]"
    return _replace(span, text)


def _texts(source: str, tag: Tag, span: Span) -> Optional[Fix]:
    tokens = [it for it in tag.tokens if span[0] <= it.start and it.end <= span[1]]
    if len(tokens) != 2:
        return None
    return Fix("write ~ between them", [(tokens[0].end, tokens[1].start, " ~ ")])


def _key(source: str, tag: Tag, span: Span) -> Optional[Fix]:
    name = source[span[0] : span[1]].rstrip(": \t\r\n")
    return Fix(f'write "{name}"', [(span[0], span[0] + len(name), f'"{name}"')])


def _print(source: str, tag: Tag, span: Span) -> Optional[Fix]:
    if not tag.is_closed or len(tag.tokens) < 2:
        return None
    text = "{{ " + source[tag.tokens[1].start : tag.tokens[-1].end] + " }}"
    return Fix(f"write {text}", [(tag.start, tag.end, text)])


def _statement(source: str, tag: Tag, span: Span) -> Optional[Fix]:
    word = source[span[0] : span[1]]
    words = [*STATEMENTS, *(f"end{it}" for it in STATEMENTS)]
    near = difflib.get_close_matches(word, words, 3)
    if not near or word in ("raw", "endraw"):
        return None
    # (`fro` is `for` rather than `from`.)
    return _replace(span, min(near, key=lambda it: abs(len(it) - len(word))))


def _removed(source: str, tag: Tag, span: Span) -> Optional[Fix]:
    start = span[0] - 1 if source[span[0] - 1] == " " else span[0]
    return Fix(f"remove {source[span[0]:span[1]]}", [(start, span[1], "")])


_FORMS: List[Tuple[str, Form]] = [
    ("a name follows a dot", _number_after_dot),
    ("texts side by side", _texts),
    ("a key of a map", _key),
    ("a value is printed by", _print),
    ("no statement begins", _statement),
    ("imported macros see", _removed),
    ("loops are not recursive", _removed),
]
