"""What `jt explain` prints by the documents, for the rows of explanations of tests/run.py.

A row wants the first line of the text, and behind it in parentheses what the name is, if the sentence depends on that, and after `; ` what
follows the sentence (of S3 after `: ` its character), or for an error of syntax the reason in place of the sentence. This module adds the line of the template's file, the marks under the name, and the sentence of docs/errors.md, and
tells what `jt compile` says of the same templates.
"""
import functools
import pathlib
import re

ERRORS = pathlib.Path(__file__).resolve().parent.parent / "docs" / "errors.md"
FIRST = re.compile(
    r'(?P<first>(?:(?P<template>[^\n]+):(?P<line>[0-9]+): )?(?P<code>[A-Z][0-9]+) (?P<name>\w+)(?: "(?P<subject>[^"\n]*)")?)'
    r"(?P<kind> \(\w+\))?(?P<tail>[;,:] .+)?"
)
ROW = re.compile(r'(?m)^\| (?P<refusal>[A-Z][0-9]+ \w+(?: "NAME")?(?: \(\w+\))?) \| (?P<sentence>[^|]+) \|$')
# A template that compiles, with its notes.
NOTED = re.compile(r"ok(?:\nnote: [^\n]+)*")
# A character of a word: the name is marked where none is beside it.
WORD = "[A-Za-z0-9_\\x80-\U0010ffff]"
LINE_END = re.compile("\r\n|\r|\n")
OPENER = re.compile(r"\{[{%#]")
# The greatest number of bytes of a source, S7 beyond it.
MOST = 1 << 20


def table(text):
    """The sentences of docs/errors.md, by code and name. In some, NAME stands for the name that the refusal is about."""
    _, _, after = text.partition("\n## What `jt explain` says\n")
    section = re.split(r"\n## ", after)[0]
    return {row["refusal"]: row["sentence"] for row in ROW.finditer(section)}


@functools.lru_cache
def sentences():
    return table(ERRORS.read_text(encoding="utf-8"))


def line_of(folder, template, number):
    """A line of the file of a template, without its line end; that of a source that is too long is empty."""
    source = (folder / template).read_bytes()
    lines = LINE_END.split(source.decode("utf-8") if len(source) <= MOST else "")
    if not 0 < number <= len(lines):
        raise ValueError(f"{template} has no line {number}")
    return lines[number - 1]


def tag_line(folder, template, number, marks):
    """The line at which the tag begins that has a line, with its marks."""
    for tried in range(number, 0, -1):
        line = line_of(folder, template, tried)
        if OPENER.search(line[: marks[0].index("^") - 2] if marks and tried == number else line):
            return tried
    return number


def stray_marks(line, tail):
    """The marks under the character at which the scanner stops, or no line. The tag has it but once, or begins in another line."""
    found = re.match(r': "(.[^"]*)"', tail)
    opener = OPENER.search(line)
    at = line.find(found[1], opener.end() if opener else 0) if found else -1
    return [f"  {' ' * at}{'^' * len(found[1])}"] if at >= 0 else []


def is_in_tag(line, at):
    """Whether a place of a line is in a tag that begins in the line, or in no tag of it if none begins there, and outside of quotes."""
    found = OPENER.search(line)
    if not found:
        return True
    place = found.start()
    while place < at:
        opener = OPENER.match(line, place)
        if not opener:
            place += 1
            continue
        if opener[0] == "{#":
            closed = re.compile(".*?#}").match(line, place)
        else:
            closer = "}}" if opener[0] == "{{" else "%}"
            closed = re.compile(r"..(?:\"[^\"]*\"|'[^']*'|(?!" + closer + r")[^\"'])*" + closer).match(line, place)
        if not closed or at < closed.end():
            return opener[0] != "{#" and len(re.findall("[\"']", line[place:at])) % 2 == 0
        place = closed.end()
    return False


def marked(line, name):
    """The marks under the first place in the tags of a line, or else in the line, at which a name stands as a whole word, or no line."""
    places = [found.start() for found in re.finditer(f"(?<!{WORD}){re.escape(name)}(?!{WORD})", line)]
    at = next((place for place in places if is_in_tag(line, place)), places[0] if places else None)
    if at is None:
        return []
    # (control characters stay as they are)
    return [f"  {re.sub('[^' + chr(0) + '-' + chr(31) + chr(127) + ']', ' ', line[:at])}{'^' * len(name)}"]


def sentence(refusal, name, kind):
    """The sentence of docs/errors.md for a refusal, with the name that it is about."""
    key = refusal + (' "NAME"' if name is not None else "") + kind
    found = sentences().get(key) or (sentences().get(refusal) if not kind else None)
    if not found:
        raise ValueError(f"docs/errors.md has no sentence for {key}")
    return found.replace('"NAME"', f'"{name}"')


def answers(folder, wanted):
    """What `explain` and `compile` of the templates of a folder must come to, by the first line that `explain` prints."""
    if NOTED.fullmatch(wanted):
        return f"0 [{wanted}\n][]", "0 [][]"
    found = FIRST.fullmatch(wanted)
    if not found:
        raise ValueError(f"no first line of an explanation: {wanted[:80]!r}")
    refusal, place, lines = f"{found['code']} {found['name']}", "", [found["first"]]
    tail = found["tail"] or ""
    if found["template"]:
        line = line_of(folder, found["template"], int(found["line"]))
        # (a control character is shown by its code, and stands in the line as it is)
        name = re.sub(r"\\x([0-9a-f]{2})", lambda code: chr(int(code[1], 16)), found["subject"] or "")
        name = "super" if found["code"] == "C7" else name
        marks = marked(line, name) if name else stray_marks(line, tail) if found["code"] == "S3" else []
        lines += [f"  {line}", *marks]
        tag = tag_line(folder, found["template"], int(found["line"]), marks)
        place = f" in {found['template']} line {tag}" if found["code"][0] in "SP" else ""
    if refusal == "P1 Syntax" and tail:
        # (the reason of an error of syntax stands alone)
        lines.append(f"  {tail[2:]}")
    else:
        lines.append(f"  {sentence(refusal, found['subject'], found['kind'] or '')}{tail}")
    return "0 [" + "".join(f"{line}\n" for line in lines) + "][]", f"3 [][jt: refused {refusal}{place}\n]"
