"""Has the library compile a template, and finds what an editor shows of the answer."""
import re
import time
from dataclasses import dataclass, field
from typing import Dict, Iterator, List, Optional, Tuple

from .._errors import Refused
from .._templates import Templates
from ._fixes import Fix, fixes_of, null_fix
from ._folder import Folder
from ._marks import Span, mark, sentence_of, tags_of_line
from ._outline import Link, Outline
from ._positions import Lines
from ._tokens import Tag, read_tags

# The findings of a template that are shown at most.
MOST_FINDINGS = 20
# The severities of the protocol.
ERROR, WARNING, INFORMATION, HINT = 1, 2, 3, 4
# The code and the name in the first line of an explanation.
_CODE = re.compile(r"(?:^|:\d+: )([A-Z]\d+ \w+)(?: |$)")
# Names of other languages for none.
_NULLS = ("null", "nil", "NULL")


@dataclass
class Finding:
    """What is shown at a place of a template."""

    template: str
    span: Span
    code: str
    message: str
    severity: int = ERROR
    fixes: List[Fix] = field(default_factory=list)
    # The place in another template that a finding is about.
    elsewhere: Optional[Tuple[str, Span]] = None


def check(folder: Folder, name: str, seconds: float) -> "Verdict":
    """Returns what is found in a template. After some seconds no further finding is looked for."""
    begin = time.monotonic()
    source, templates = folder.sources[name], folder.templates
    findings: List[Finding] = []
    while True:
        refused = refusal(templates, name)
        if refused is None:
            return Verdict(findings, True)
        finding, tag = _finding(folder, name, source, refused)
        if finding is not None:
            findings.append(finding)
        mended = _mended(source, tag) if tag is not None else None
        if mended is None or len(findings) >= MOST_FINDINGS:
            return Verdict(findings, True)
        if time.monotonic() - begin > seconds:
            return Verdict(findings, False)
        source = mended
        templates = Templates({**folder.sources, name: source}, folder.options)


@dataclass
class Verdict:
    """The findings of a template, and whether all of them were looked for."""

    findings: List[Finding]
    is_whole: bool


def refusal(templates: Templates, name: str) -> Optional[Refused]:
    """Returns why a template is refused, or `None` if it compiles.

    The library explains it at once: so a refused template is compiled once, and not twice.
    """
    try:
        explanation = templates._explanation(name.encode())
    except UnicodeEncodeError:
        explanation = None
    if explanation is None:
        said = "G1 CodeTooLong\n  the library has no memory for it\n"
        return Refused("G1 CodeTooLong", name, said)
    heading = explanation.partition("\n")[0]
    if heading == "ok":
        return None
    found = _CODE.search(heading)
    return Refused(found[1] if found else heading, name, explanation)


def _finding(
    folder: Folder, name: str, source: str, refused: Refused
) -> Tuple[Optional[Finding], Optional[Tag]]:
    """Returns what is shown of a refusal of a template, and its tag if it is in this template."""
    message, where = sentence_of(refused), refused.template or name
    if refused.code == "C6" and folder.linked_from(name, "extends"):
        # (A layout with a required block is not meant to be rendered by itself.)
        return None, None
    if where == name or where not in folder.sources:
        lines = Lines(source)
        line = min(refused.line or 1, len(lines.starts))
        after = lines.starts[line] if line < len(lines.starts) else len(source)
        tags = read_tags(source, after)
        span = mark(refused, name, tags, lines, folder.options)
        here = tags_of_line(tags, lines, (refused.line or 1) - 1)
        tag = next((it for it in here if it.start <= span[0] < it.end), None)
        fixes = fixes_of(refused.code, message, source, tag, span)
        return Finding(name, span, refused.code, message, fixes=fixes), tag
    lines = folder.lines(where)
    other = mark(refused, where, folder.outline(where).tags, lines, folder.options)
    link = link_to(folder, name, where)
    span = (link.name.start, link.name.end) if link else (0, 0)
    text = f"{where}:{refused.line}: {message}"
    return Finding(name, span, refused.code, text, elsewhere=(where, other)), None


def link_to(folder: Folder, name: str, target: str) -> Optional[Link]:
    """Returns the tag of a template through which it reaches another one."""
    for link in folder.outline(name).links:
        seen, waiting = {name}, [link.name.text]
        while waiting:
            one = waiting.pop()
            if one == target:
                return link
            if one in folder.sources and one not in seen:
                seen.add(one)
                waiting += [it.name.text for it in folder.outline(one).links]
    return None


def _mended(source: str, tag: Tag) -> Optional[str]:
    """Returns a source without what is refused in a tag, so that the rest of it can be checked.

    What opens a statement stays. Lines and places stay too.
    """
    if not tag.is_closed or tag.kind == "raw":
        return None
    start, end, text = tag.start, tag.end, ""
    if tag.kind == "block":
        at = {"if": 1, "elif": 1, "set": 3, "for": 3}.get(tag.word)
        if tag.word in ("include", "do", "print", "debug", "break", "continue"):
            at = 0
        equals = [it.text for it in tag.tokens[2:3]]
        if tag.word in ("elseif", "elsif") or [it.text for it in tag.tokens[:2]] == ["else", "if"]:
            start, end, text = tag.tokens[0].start, tag.tokens[-1].end, "elif 1"
            at = 0
        elif at is None or (tag.word in ("set", "for") and equals not in (["="], ["in"])):
            return None
        elif at:
            if len(tag.tokens) <= at:
                return None
            start, end = tag.tokens[at].start, tag.tokens[-1].end
            text = "[]" if tag.word == "for" else "1"
    gone = "".join(it if it in "\r\n" else " " for it in source[start + len(text) : end])
    mended = source[:start] + text + gone + source[end:]
    return mended if mended != source and len(mended) == len(source) else None


def nulls(name: str, source: str, outline: Outline) -> Iterator[Finding]:
    """Returns what is said of comparisons with a name of other languages for none."""
    bound = {it.name.text for it in outline.bindings}
    for tag in outline.tags:
        for at in range(1, len(tag.tokens)):
            token = tag.tokens[at]
            is_compared = tag.tokens[at - 1].text in ("==", "!=")
            if is_compared and token.kind == "name" and token.text in _NULLS:
                if token.text not in bound:
                    fix = null_fix(source, tag.tokens, at - 1)
                    message = f"{token.text} is a name as any other, and no value of the language"
                    span = (tag.tokens[at - 1].start, token.end)
                    yield Finding(name, span, "null", message, WARNING, [fix])


def to_json(folder: Folder, finding: Finding) -> Dict[str, object]:
    """Returns a finding as the protocol has diagnostics."""
    lines = folder.lines(finding.template)
    said: Dict[str, object] = {
        "range": lines.range(*finding.span),
        "severity": finding.severity,
        "code": finding.code,
        "source": "jt",
        "message": finding.message,
    }
    if finding.elsewhere is not None:
        where, span = finding.elsewhere
        place = {"uri": folder.uri_of(where), "range": folder.lines(where).range(*span)}
        said["relatedInformation"] = [{"location": place, "message": finding.message}]
    return said
