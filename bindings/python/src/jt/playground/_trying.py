"""Compiles and runs what a page asks for, and returns what the page shows, as values of JSON."""
import time
from dataclasses import fields
from typing import Any, Dict, List, Mapping, Tuple

from .._errors import ContextError, Fault, JtError, NoMemory, Refused, Spent
from .._images import Budget, Image
from .._library import library
from .._templates import Options
from ..lsp._context import FAULT_SENTENCES, fault_span
from ..lsp._folder import Folder
from ..lsp._limited import Ended, run_limited
from ..lsp._marks import sentence_of
from ..lsp._positions import units
from ..lsp._verdicts import WARNING, Finding, check, nulls
from ._listing import listing

Json = Dict[str, Any]
# The bytes of all sources together, and of the context.
MOST_SOURCES, MOST_CONTEXT = 1_048_576, 1_048_576
# What the library may hold for a compilation, and for a run.
_COMPILING, _RUNNING = 402_653_184, 134_217_728
_MOST_ROWS, _MOST_TEMPLATES = 3_000, 200
# The seconds in which the other templates are checked too.
_OTHERS = 0.2
_SPENT_SENTENCES = {
    "fuel": "the instructions of the run would cost more than this number",
    "depth": "more calls of macros, blocks and includes would be open at the same time",
    "output": "more bytes would be written, with those of texts that are kept",
    "size": "a value would be larger than this number",
    "nesting": "lists and maps would be nested deeper in a value than this number",
}
NUMBERS = ("fuel", "output", "depth", "size", "nesting")


class Misuse(ValueError):
    """What a page asked for and cannot have, in words."""


class Asked:
    """What a page asks for. Everything in it is checked.

    # Errors
    `Misuse` for what is no request.
    """

    def __init__(self, given: object) -> None:
        if not isinstance(given, dict):
            raise Misuse("the request is no object")
        templates = given.get("templates")
        if not isinstance(templates, dict) or not _are_texts(templates):
            raise Misuse("the templates are no object of texts")
        if len(templates) > _MOST_TEMPLATES:
            raise Misuse(f"there are more than {_MOST_TEMPLATES} templates")
        self.templates: Dict[str, str] = templates
        size = sum(_size(name) + _size(text) for name, text in templates.items())
        if size > MOST_SOURCES:
            raise Misuse(f"the sources have more than {MOST_SOURCES:,} bytes together")
        self.entry = _text(given, "entry")
        _size(self.entry)
        self.context = _text(given, "context")
        if _size(self.context) > MOST_CONTEXT:
            raise Misuse(f"the context has more than {MOST_CONTEXT:,} bytes")
        self.options = _options(given.get("options"))
        self.budget = _budget(given.get("budget"))
        self.has_listing = given.get("listing") is True


def _are_texts(given: Mapping[Any, Any]) -> bool:
    return all(isinstance(it, str) for pair in given.items() for it in pair)


def _size(text: str) -> int:
    try:
        return len(text.encode())
    except UnicodeEncodeError:
        raise Misuse("a text has half of a character") from None


def _text(given: Mapping[Any, Any], name: str) -> str:
    text = given.get(name, "")
    if not isinstance(text, str):
        raise Misuse(f"{name} is no text")
    return text


def _options(given: object) -> Options:
    chosen = given if isinstance(given, dict) else {}
    names = {it.name for it in fields(Options)}
    return Options(**{str(key): value is True for key, value in chosen.items() if key in names})


def _budget(given: object) -> Budget:
    chosen = given if isinstance(given, dict) else {}
    numbers = {str(key): value for key, value in chosen.items() if key in NUMBERS}
    try:
        return Budget(**{**numbers, "memory": _RUNNING})
    except (TypeError, ValueError) as error:
        raise Misuse(str(error)) from None


def try_out(asked: Asked) -> Json:
    """Compiles and runs a template, and returns what a page shows of it."""
    folder = Folder("/", asked.options, asked.templates)
    begin = time.perf_counter()
    before = library.jt_memory_limit(_COMPILING)
    try:
        answer = _answer(folder, asked)
        answer["marks"] = answer.get("marks", []) + _marks(folder, asked.entry)
    except NoMemory:
        answer = {"status": "memory", "said": "the templates need too much memory", "marks": []}
    finally:
        library.jt_memory_limit(before)
    answer["milliseconds"] = round((time.perf_counter() - begin) * 1000, 1)
    return answer


def _answer(folder: Folder, asked: Asked) -> Json:
    """Compiles the entry, and runs it."""
    try:
        image = folder.templates.template(asked.entry).compile()
    except Refused as error:
        said = {"code": error.code, "name": error.name, "sentence": sentence_of(error)}
        return {"status": "refused", "said": str(error), **said}
    except ValueError as error:
        return {"status": "misuse", "said": str(error)}
    with image:
        try:
            answer = _run(folder, image, asked)
        except ContextError as error:
            answer = {"status": "context", "code": error.code, "said": f"{error.code}: {error}"}
        except JtError as error:
            answer = {"status": "context", "said": str(error)}
        if asked.has_listing:
            rows, count = listing(image.data, _MOST_ROWS)
            answer["listing"] = {"rows": rows, "count": count}
        answer["image"] = len(image.data)
    return answer


def _run(folder: Folder, image: Image, asked: Asked) -> Json:
    """Runs the image, and returns how the run ended and what it used."""
    ended: Ended = run_limited(image, asked.context or "{}", asked.budget)
    outcome = ended.outcome
    answer: Json = {"used": ended.used}
    if isinstance(outcome, str):
        return {**answer, "status": "text", "text": outcome}
    if isinstance(outcome, Fault):
        sentence = FAULT_SENTENCES.get(outcome.code, "")
        place: Json = {"template": outcome.template, "line": outcome.line}
        said: Json = {"code": outcome.code, "name": outcome.name, "sentence": sentence, **place}
        span = fault_span(folder, outcome)
        if span is not None:
            finding = Finding(str(outcome.template), span, outcome.code, sentence, WARNING)
            answer["marks"] = [_mark(folder, finding)]
        return {**answer, "status": "fault", "said": f"{outcome}\n  {sentence}", **said}
    if isinstance(outcome, Spent):
        sentence = _SPENT_SENTENCES[outcome.name]
        spent = {"name": outcome.name, "sentence": sentence}
        return {**answer, "status": "spent", "said": f"{outcome}\n  {sentence}", **spent}
    if isinstance(outcome, TimeoutError):
        return {**answer, "status": "deadline", "said": str(outcome) or "the run took too long"}
    return {**answer, "status": "memory", "said": "the run needs too much memory"}


def _marks(folder: Folder, entry: str) -> List[Json]:
    """Returns what is found in the templates, the entry first, as far as the time allows."""
    end = time.monotonic() + _OTHERS
    marks: List[Json] = []
    for name in [entry, *(it for it in folder.sources if it != entry)]:
        if name not in folder.sources or (name != entry and time.monotonic() > end):
            continue
        findings = check(folder, name, 0.05).findings
        if len(folder.sources[name]) < 100_000:
            findings += nulls(name, folder.sources[name], folder.outline(name))
        marks += [_mark(folder, it) for it in findings]
    return marks


def _mark(folder: Folder, finding: Finding) -> Json:
    """Returns a finding: the page counts its characters in UTF-16, as its language does."""
    source = folder.sources[finding.template]
    start, end = _units(source, finding.span)
    fixes = [
        {"title": it.title, "changes": [[*_units(source, one[:2]), one[2]] for one in it.changes]}
        for it in finding.fixes
    ]
    return {
        "template": finding.template, "start": start, "end": end, "code": finding.code,
        "line": folder.lines(finding.template).line_of(finding.span[0]) + 1,
        "message": finding.message, "severity": finding.severity, "fixes": fixes,
    }  # fmt: skip


def _units(source: str, span: Tuple[int, int]) -> Tuple[int, int]:
    start = units(source[: span[0]])
    return start, start + units(source[span[0] : span[1]])

