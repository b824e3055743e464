"""The exceptions of the package. docs/errors.md describes each code, with a remedy.

The arguments of each exception are those of its constructor, so all of them can be pickled.
"""
import builtins
import re
from dataclasses import dataclass
from typing import Optional

FAULTS = {
    1: "BadType",
    2: "Undefined",
    3: "Overflow",
    4: "ZeroDivide",
    5: "Unprintable",
    6: "NotIterable",
    7: "Unpack",
    8: "Range",
    9: "BadArgument",
}
_REASON = re.compile(
    r"(?P<code>[A-Z]\d+) (?P<name>\w+)(?: in (?P<template>.*) line (?P<line>\d+))?", re.S
)
# The first line of an explanation: `page:2: P3 UnknownFilter "uper"`.
_HEADING = re.compile(
    r"(?:(?P<template>.*?):(?P<line>\d+): )?(?P<code>[A-Z]\d+) (?P<name>\w+)"
    r'(?: "(?P<subject>.*)")?',
    re.S,
)


@dataclass(frozen=True)
class Used:
    """What a run has used of its budget, by the fields of `Budget`.

    For a run that ended with a text, these are the least numbers with which it ends so.
    """

    fuel: int
    output: int
    depth: int
    size: int
    nesting: int

    def __str__(self) -> str:
        return (
            f"fuel {self.fuel} depth {self.depth} output {self.output}"
            f" size {self.size} nesting {self.nesting}"
        )


class JtError(Exception):
    """The reason why there is no text or no image."""


class Fault(JtError):
    """A fault of the template: `code` and `name`, and `template` and `line` if they are known."""

    number: int
    code: str
    name: str
    template: Optional[str]
    line: Optional[int]

    def __init__(
        self, number: int, template: Optional[str] = None, line: Optional[int] = None
    ) -> None:
        super().__init__(number, template, line)
        self.number, self.template, self.line = number, template, line
        self.code, self.name = f"F{number}", FAULTS.get(number, "Unknown")

    def __str__(self) -> str:
        place = f" in {self.template} line {self.line}" if self.line else ""
        return f"fault {self.code} {self.name}{place}"


class Spent(JtError):
    """A number of the budget that did not suffice: `name` is the field of `Budget`."""

    name: str

    def __init__(self, name: str) -> None:
        super().__init__(name)
        self.name = name

    def __str__(self) -> str:
        return f"spent {self.name}"


class Refused(JtError):
    """A template that does not compile, or bytes that are no image or no context.

    `reason` is the line of the program, as `P1 Syntax in page line 2`, and begins with `code` and
    `name`. `template`, `line` and `subject`, the name that the refusal is about, are `None` where
    they are not known. The line is that of the name, or else of its tag; the reason has that of the
    tag. `entry` is the template that was compiled, if one was, and `explanation` is what `jt explain`
    prints of it: `str(error)` is that, or the reason if there is none.
    """

    reason: str
    code: str
    name: str
    template: Optional[str]
    line: Optional[int]
    subject: Optional[str]
    entry: Optional[str]
    explanation: Optional[str]

    def __init__(
        self, reason: str, entry: Optional[str] = None, explanation: Optional[str] = None
    ) -> None:
        super().__init__(reason, entry, explanation)
        self.reason, self.entry, self.explanation = reason, entry, explanation
        found = _REASON.match(reason)
        self.code, self.name = (found["code"], found["name"]) if found else ("", "")
        self.template = found["template"] if found else None
        self.line = int(found["line"]) if found and found["line"] else None
        self.subject = None
        heading = _HEADING.fullmatch((explanation or "").partition("\n")[0])
        if heading and (heading["code"], heading["name"]) == (self.code, self.name):
            self.subject = heading["subject"]
            if heading["line"]:
                self.template, self.line = heading["template"], int(heading["line"])

    def __str__(self) -> str:
        if self.explanation is not None:
            return self.explanation.rstrip("\n")
        said = self.entry is None or self.template is not None
        return f"refused {self.reason}" + ("" if said else f", compiling {self.entry}")


class ContextError(Refused):
    """A context that cannot be JSON: `path` names the value, `what` says what it is."""

    path: str
    what: str

    def __init__(self, reason: str, path: str, what: str) -> None:
        super().__init__(reason)
        self.args = (reason, path, what)
        self.path, self.what = path, what

    def __str__(self) -> str:
        return f"{self.path}: {self.what}"


class _Stopped(JtError):
    """A run that its host stopped: `used` is what it had used until then."""

    used: Used
    _how: str

    def __init__(self, used: Used) -> None:
        super().__init__(used)
        self.used = used

    def __str__(self) -> str:
        return f"{self._how} after {self.used}"


class TimeoutError(_Stopped, builtins.TimeoutError):
    """A run that was stopped at its deadline: `used` is what it had used until then."""

    _how = "timed out"


class Cancelled(_Stopped):
    """A run that was stopped by `cancel`: `used` is what it had used until then."""

    _how = "cancelled"


class NoMemory(JtError, MemoryError):
    """The library was refused memory."""

    def __str__(self) -> str:
        return "no memory"
