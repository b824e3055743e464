"""Writes a mapping as the JSON that a context is read from, and names what cannot be written."""
import json
import re
import reprlib
from collections.abc import Mapping as AnyMapping
from typing import Any, Callable, List, Mapping, Optional, Set, Union

from ._errors import ContextError, Refused

# The reader of the library refuses deeper JSON.
DEEPEST = 127
_encode = json.JSONEncoder(
    ensure_ascii=False, separators=(",", ":"), check_circular=False
).encode
_SCALARS = frozenset((str, bool, type(None)))
_KEYS = frozenset((str,))
# What a host gives to write a value of another kind: the value that is written in its place.
Default = Optional[Callable[[Any], Any]]
_IDENTIFIER = re.compile(r"[^\W\d]\w*")
# A path has at most `_MOST_PARTS` parts in a message.
_MOST_PARTS = 16
# `default` is called at most this often for one value.
_MOST_DEFAULTS = 16


class _Unfit(Exception):
    """A value that cannot be written. Each level that it passes appends its part of the path."""

    def __init__(self, reason: str, what: str) -> None:
        super().__init__(reason, what)
        self.reason, self.what = reason, what
        self.parts: List[Union[str, int]] = []


class _NoKind(_Unfit):
    """A value of a kind that has no JSON here: `default` may return another one for it."""


def to_json(context: Mapping[str, Any], reason: str = "", default: Default = None) -> bytes:
    """Returns the JSON of a mapping. Its maps keep the order of their keys.

    A value that has no JSON is replaced by what `default` returns for it, as `json.dumps` does it.

    # Errors
    `ContextError` for a value or a key that cannot be written, with its path. Its reason is
    `reason`, or else the one with which the library would refuse it. What `default` raises.
    """
    writer = _Writer(default)
    try:
        if type(context) is dict and _is_plain(context, 1):
            return _encode(context).encode()
    except UnicodeEncodeError:
        pass  # (The writer finds the place.)
    try:
        if not isinstance(context, AnyMapping):
            raise _Unfit("X2 NotObject", _kind(context))
        writer.write_map(context, 1)
    except _Unfit as unfit:
        path = _path(unfit.parts[::-1])
        error = ContextError(reason or unfit.reason, path, unfit.what)
    else:
        return "".join(writer.pieces).encode()
    raise error


def encode_json(text: str) -> bytes:
    """Returns the UTF-8 of a text.

    # Errors
    `ContextError` if the text has a lone surrogate.
    """
    try:
        return text.encode()
    except UnicodeEncodeError as error:
        at = error.start
    raise ContextError("X1 NotJson", "the context", f"a lone surrogate at character {at}")


def explain(data: bytes, refused: Refused) -> Refused:
    """Returns why JSON was refused: with the path or the position, if Python's reader finds it."""
    try:
        to_json(json.loads(data.decode()), refused.reason)
    except ContextError as error:
        return error
    except json.JSONDecodeError as error:
        what = f"{error.msg} at line {error.lineno} column {error.colno}"
    except UnicodeDecodeError as error:
        what = f"no UTF-8 at byte {error.start}"
    except (ValueError, RecursionError):
        return refused
    else:
        return refused
    return ContextError(refused.reason, "the context", what)


def _is_plain(value: Any, level: int) -> bool:
    """Returns whether a dict, list or tuple can be written by Python's own writer.

    That one is much faster than `_Writer`, which does the rest and names what is wrong.
    """
    if level > DEEPEST:
        return False
    if type(value) is dict:
        if not _KEYS.issuperset(map(type, value)):
            return False
        value = value.values()
    if _SCALARS.issuperset(map(type, value)):
        return True
    for item in value:
        kind = type(item)
        if kind is int:
            if not -(2**63) <= item < 2**63:
                return False
        elif kind is dict or kind is list or kind is tuple:
            if not _is_plain(item, level + 1):
                return False
        elif kind not in _SCALARS:
            return False
    return True


class _Writer:
    """The JSON of a value, as it is written piece by piece."""

    def __init__(self, default: Default) -> None:
        self.pieces: List[str] = []
        self.put = self.pieces.append
        self.default = default

    def write(self, value: Any, level: int) -> None:
        """Writes a value whose lists and maps are at this level of nesting."""
        for _ in range(_MOST_DEFAULTS):
            try:
                self.write_known(value, level)
                return
            except _NoKind as error:
                if self.default is None:
                    raise
                # (The error itself would keep this frame, and all that it refers to.)
                reason, what = error.reason, error.what
            value = self.default(value)
        raise _Unfit(reason, f"{what}, which `default` returns again and again")

    def write_known(self, value: Any, level: int) -> None:
        """Writes a value of a kind that JSON has, and that the library takes."""
        if isinstance(value, str):
            self.put(_text(value))
        elif value is None or value is True or value is False:
            self.put({None: "null", True: "true", False: "false"}[value])
        elif isinstance(value, int):
            if not -(2**63) <= value < 2**63:
                raise _NoKind("X4 OutOfRange", "an int of more than 64 bits")
            self.put(int.__repr__(value))
        elif isinstance(value, (dict, AnyMapping)):
            self.write_map(value, level)
        elif isinstance(value, (list, tuple)):
            self.write_list(value, level)
        elif isinstance(value, float):
            is_finite = value - value == 0
            raise _NoKind("X3 NotWhole", "a float" if is_finite else f"a float ({value})")
        else:
            raise _NoKind("X1 NotJson", _kind(value))

    def write_map(self, value: Mapping[Any, Any], level: int) -> None:
        """Writes a map. Its keys have to be texts that differ."""
        _check_level(level)
        seen: Set[str] = set()
        self.put("{")
        for key, item in value.items():
            if not isinstance(key, str):
                raise _Unfit("X1 NotJson", f"a key that is no text: {reprlib.repr(key)}")
            text = _text(key)
            if text in seen:
                raise _Unfit("X1 NotJson", f"two keys that are both {text}")
            self.put(("," if seen else "") + text + ":")
            seen.add(text)
            try:
                self.write(item, level + 1)
            except _Unfit as unfit:
                unfit.parts.append(str.__str__(key))
                raise
        self.put("}")

    def write_list(self, value: Any, level: int) -> None:
        """Writes a list or a tuple."""
        _check_level(level)
        self.put("[")
        for at, item in enumerate(value):
            if at:
                self.put(",")
            try:
                self.write(item, level + 1)
            except _Unfit as unfit:
                unfit.parts.append(at)
                raise
        self.put("]")


def _check_level(level: int) -> None:
    """Refuses a list or a map that is nested too deep, as one that contains itself is."""
    if level > DEEPEST:
        raise _Unfit("X1 NotJson", f"nested deeper than {DEEPEST} levels")


def _text(value: str) -> str:
    """Returns a text in quotes, as JSON has it."""
    if not value.isascii():
        try:
            value.encode()
        except UnicodeEncodeError:
            raise _Unfit("X1 NotJson", "a text with a lone surrogate") from None
    return _encode(value)


def _kind(value: Any) -> str:
    """Returns the name of a value's type, with its article."""
    name = type(value).__name__
    if name == "bytes":
        return name
    return ("an " if name[0].lower() in "aeio" else "a ") + name


def _path(parts: List[Union[str, int]]) -> str:
    """Returns a path as templates write it: `order.lines[3].price`, or `order["a b"]`."""
    if not parts:
        return "the context"
    path = ""
    for part in parts[:_MOST_PARTS]:
        if isinstance(part, str) and _IDENTIFIER.fullmatch(part):
            path += f".{part}" if path else part
        else:
            path += f"[{json.dumps(part)}]"
    return path + ("" if len(parts) <= _MOST_PARTS else "...")
