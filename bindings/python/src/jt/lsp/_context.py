"""The context that a workspace names: its keys, the names that it lacks, and a run for it."""
import difflib
import json
import os
from dataclasses import dataclass
from typing import Any, Iterator, List, Optional, Set, Tuple

from .._contexts import Context
from .._errors import Fault, JtError, NoMemory, Refused, Spent
from .._images import Budget, Image
from ._fixes import Fix
from ._folder import Folder
from ._limited import Ended, run_limited
from ._marks import Span, tags_of_line
from ._outline import Name, Outline
from ._tokens import Tag
from ._verdicts import WARNING, Finding, link_to

# The budget of a run in the editor, which a second ends too.
BUDGET = Budget(fuel=10_000_000, output=4_194_304, memory=268_435_456)
_GUARDS = ("defined", "undefined")
FAULT_SENTENCES = {
    "F1": "an operator, a filter or a test here does not take this kind of value",
    "F2": "a value is needed here and is undefined: is a name misspelled or not in the context?",
    "F3": "a number here is outside of -9223372036854775808 to 9223372036854775807",
    "F4": "a number is divided by 0 here",
    "F5": "a list or a map is needed as printed text here: join its items",
    "F6": "the items of a number, a truth value or none are asked for here: they have none",
    "F7": "a value here has another number of items than there are names for them",
    "F8": "range is called with a step of 0 here",
    "F9": "a filter here does not take an argument of this kind",
}


class Names:
    """The values of a context, by their names."""

    def __init__(self, path: str) -> None:
        self.path = path
        self.value: Any = None
        self.error: Optional[str] = None
        self._stamp: Optional[Tuple[int, int]] = None
        self._json = b""
        self.read()

    def read(self) -> bool:
        """Reads the file if it changed, and returns whether it did."""
        try:
            state = os.stat(self.path)
            stamp = (state.st_mtime_ns, state.st_size)
            if stamp == self._stamp:
                return False
            with open(self.path, "rb") as file:
                self._json = file.read()
            self._stamp, self.value, self.error = stamp, json.loads(self._json), None
            Context(self._json).close()
        except (OSError, ValueError, JtError) as error:
            self.value, self.error = None, str(error)
        return True

    def at(self, path: List[str]) -> Tuple[bool, Any]:
        """Returns whether a path of names is known, and its value."""
        value = self.value
        for name in path:
            if not isinstance(value, dict) or name not in value:
                return False, None
            value = value[name]
        return True, value

    def keys(self, path: List[str]) -> List[Tuple[str, str]]:
        """Returns the keys of the map at a path, with the kinds of their values."""
        _, value = self.at(path)
        return [(it, kind_of(value[it])) for it in value] if isinstance(value, dict) else []

    def describe(self, path: List[str]) -> Optional[str]:
        """Returns what is said of the value at a path."""
        is_known, value = self.at(path)
        if not is_known:
            return None
        shown = json.dumps(value, ensure_ascii=False)
        cut = shown if len(shown) <= 80 else shown[:77] + "..."
        return f"context: {kind_of(value)} `{cut}`"

    def run(self, image: Image) -> Ended:
        """Runs an image for the context, for a second at most.

        # Errors
        `ContextError` for a context that is refused.
        """
        return run_limited(image, self._json, BUDGET)


def kind_of(value: Any) -> str:
    """Returns the kind of a value of JSON, in the words of the language."""
    if value is None:
        return "none"
    if isinstance(value, bool):
        return "truth value"
    if isinstance(value, dict):
        return "map"
    if isinstance(value, list):
        return f"list of {len(value)}"
    return "text" if isinstance(value, str) else "number"


def missing(folder: Folder, name: str, context: Names) -> Iterator[Finding]:
    """Returns the names that a template reads and that neither it nor the context has."""
    if not isinstance(context.value, dict):
        return
    outline = folder.outline(name)
    own = _bound_anywhere(folder, name)
    tested = _tested(outline)
    for read, path in outline.reads:
        if read.text in own or read.text in tested or _is_local(outline, read):
            continue
        whole = [read.text, *path]
        depth = next((at for at in range(1, len(whole) + 1) if not context.at(whole[:at])[0]), 0)
        if depth == 0 or (depth > 1 and not isinstance(context.at(whole[: depth - 1])[1], dict)):
            continue
        if depth > 1 and _is_method(outline, read, depth):
            continue
        span = _part(outline, read, depth - 1)
        wanted = whole[depth - 1]
        known = [it for it, _ in context.keys(whole[: depth - 1])]
        near = difflib.get_close_matches(wanted, known, 1)
        fixes = [Fix(f"write {near[0]}", [(*span, near[0])])] if near else []
        message = f"the context has no {'.'.join(whole[:depth])}"
        message += f': did you mean "{near[0]}"?' if near else ""
        yield Finding(name, span, "undefined", message, WARNING, fixes)


def _is_local(outline: Outline, read: Name) -> bool:
    """Returns whether a name is bound where it is read."""
    return any(
        it.name.text == read.text and it.start <= read.start <= it.end for it in outline.bindings
    )


def _bound_anywhere(folder: Folder, name: str) -> Set[str]:
    """Returns the names that other templates of a run may bind, and the names of macros."""
    around = {*folder.chain(name), *folder.dependents(name)}
    for other in list(around):
        around.update(folder.chain(other))
    found: Set[str] = set()
    for other in around:
        outline = folder.outline(other)
        found.update(it.name.text for it in outline.macros)
        found.update(it.bound.text for it in outline.imports)
        if other != name:
            found.update(it.name.text for it in outline.bindings)
        else:
            found.update(it.name.text for it in outline.bindings if it.kind == "set")
    return found


def _tested(outline: Outline) -> Set[str]:
    """Returns the names whose absence a template handles, by a test or by `default`."""
    found: Set[str] = set()
    for tag in outline.tags:
        words = [it.text for it in tag.tokens]
        for at, word in enumerate(words):
            after = words[at + 1 : at + 4]
            is_asked = after[:1] == ["is"] and any(it in _GUARDS for it in after[1:3])
            if is_asked or after[:2] in (["|", "default"], ["|", "d"]):
                while at > 1 and words[at - 1] == ".":
                    at -= 2
                found.add(words[at])
    return found


def _tag_of(outline: Outline, read: Name) -> Optional[Tag]:
    return next((it for it in outline.tags if it.start <= read.start < it.end), None)


def _part(outline: Outline, read: Name, part: int) -> Tuple[int, int]:
    """Returns the characters of a part of a path: `b` of `a.b` is part 1."""
    tag = _tag_of(outline, read)
    if tag is None or part == 0:
        return read.start, read.end
    first = next(at for at, it in enumerate(tag.tokens) if it.start == read.start)
    return tag.tokens[first + 2 * part].span


def _is_method(outline: Outline, read: Name, depth: int) -> bool:
    """Returns whether what is missing is called: that is another refusal."""
    tag = _tag_of(outline, read)
    if tag is None:
        return False
    end = _part(outline, read, depth - 1)[1]
    return any(it.start == end and it.text == "(" for it in tag.tokens)


@dataclass
class Ran:
    """What a run in the editor showed: a line for the lens, and a finding if there is no text."""

    said: str
    finding: Optional[Finding]


def run(folder: Folder, name: str, context: Names) -> Optional[Ran]:
    """Runs a template for the context, or returns `None` if it does not compile."""
    if context.error is not None:
        return Ran(f"{os.path.basename(context.path)}: {context.error}", None)
    try:
        image = folder.templates.template(name).compile()
    except (Refused, NoMemory):
        return None
    with image:
        try:
            ended = context.run(image)
        except JtError as error:
            return Ran(str(error), None)
    outcome, file = ended.outcome, os.path.basename(context.path)
    if isinstance(outcome, Fault):
        return _fault(folder, name, outcome)
    if isinstance(outcome, Spent):
        said = f"spent {outcome.name}: {getattr(BUDGET, outcome.name):,}"
        first = folder.lines(name).line_text(0)
        return Ran(said, Finding(name, (0, len(first)), outcome.name, said, WARNING))
    if isinstance(outcome, str):
        size = f"{len(outcome.encode('utf-8', 'replace')):,} bytes of text for {file}"
        used = [f"{key} {ended.used[key]:,}" for key in ("fuel", "depth") if key in ended.used]
        return Ran(", ".join([size, *used]), None)
    return Ran(str(outcome), None)


def fault_span(folder: Folder, fault: Fault) -> Optional[Span]:
    """Returns the characters of the tags of a fault's line."""
    if fault.template not in folder.sources or fault.line is None:
        return None
    lines = folder.lines(fault.template)
    tags = tags_of_line(folder.outline(fault.template).tags, lines, fault.line - 1)
    tags = [it for it in tags if it.kind in ("print", "block")]
    return (tags[0].start, tags[-1].end) if tags else None


def _fault(folder: Folder, name: str, fault: Fault) -> Ran:
    """Returns a fault with the tag that it names."""
    said = f"{fault.code} {fault.name}: {FAULT_SENTENCES.get(fault.code, '')}"
    if fault.template is None or fault.template not in folder.sources or fault.line is None:
        return Ran(said, None)
    span = fault_span(folder, fault) or (0, 0)
    message = f"{FAULT_SENTENCES.get(fault.code, fault.name)} (a run for the context)"
    if fault.template == name:
        return Ran(said, Finding(name, span, fault.code, message, WARNING))
    link = link_to(folder, name, fault.template)
    here = (link.name.start, link.name.end) if link else (0, 0)
    message = f"{fault.template}:{fault.line}: {message}"
    place = (fault.template, span)
    return Ran(said, Finding(name, here, fault.code, message, WARNING, elsewhere=place))
