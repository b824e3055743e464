#!/usr/bin/env python3
"""Checks the rules of style that a script can see: tests/style.py

CONTRIBUTING.md has all fifteen rules. This script reads the files of crates/*/src, specs and proofs, and the names of the edits in
crates/*/must-fail and more-edits, and reports

    a comment that begins with a participle (`Reading ..`, `Kept ..`), with `The same ..` or with `Those of ..`
    `so many`, `that many`, `as many as`, `want of memory`, `behind the others`, `in front of` and `carries out`, in a comment or in the
    name of an edit
    a line of more than 100 columns in code and of more than 120 in definitions and proofs

Four kinds of lines may be longer, since nothing can split them: one word without a space, one attribute (`rt fmt` joins it), a `use` of a
single name, and a line of a raw text (`r#"`), which is a row of a test. A noun or an adjective that looks like a participle is no finding: WORDS has those that occur.

Each finding is a line `FILE:LINE: what`. The last line is 'N passed, M failed', where N counts the files without a finding and M the
findings. The status is 1 if there is a finding. Arguments are ignored.
"""
import pathlib
import re
import sys

ROOT = pathlib.Path(__file__).resolve().parent.parent
COLUMNS = {".rt": 100, ".antt": 120}
COMMENT = {".rt": re.compile(r"\s*//[/!]?(?!/)\s?(.*)"), ".antt": re.compile(r"\s*--\s?(.*)")}
SAID = re.compile(r"\b(so many|that many|as many as|want of memory|behind the others|in front of|carries out)\b")
USE = re.compile(r"\s*(?:ghost |pub )*use\s+[^{}]*(?:\{[^,{}]*\})?[^{},]*;?$")
ATTRIBUTE = re.compile(r"\s*#!?\[.*\]$")
# participles that do not end with -ed or -ing
IRREGULAR = set(
    "bound built chosen drawn given gone held kept known laid left lent made meant met put read said seen sent set shown spelled spent "
    "split stood taken thrown told understood worn written".split()
)
# nouns, adjectives and verbs that end as participles do
WORDS = set(
    """anything being bring ceiling during encoding escaping everything exceed feed heading indeed king meaning morning need nesting nothing
    ordering proceed remaining rendering ring seed shed something speed spelling spring string succeed thing wing writing
    embed exceeding fixed mixed nested ordered resolved structured cached undefined unknown unnamed unused untyped typed""".split()
)


def is_participle(word, after):
    """Whether a comment that begins with a word begins with a participle; `Read x` is an order, `Set x` a noun or an order."""
    word = word.lower()
    if word in WORDS or (word in ("read", "set", "put", "split") and not after.lstrip().startswith(("by ", "from ", "out ", "in ", "as "))):
        return False
    return word in IRREGULAR or bool(re.fullmatch(r"[a-z]{2,}(?:ing|ed)", word))


def comments(lines, pattern):
    """The comments of a file: of each line its number, its text, and whether the comment begins there."""
    before = False
    for number, line in enumerate(lines, 1):
        found = pattern.match(line)
        text = found[1].strip() if found else ""
        if text:
            yield number, text, not before
        before = bool(text)


def of_head(text):
    """What is wrong with the first line of a comment, or nothing."""
    head = re.match(r"([A-Za-z]+)\b(?!['’_(])(.*)", text)
    same = re.match(r"(The same|Those of)\b", text, re.I)
    if same:
        return f"a comment begins with `{same[1]}`"
    return f"a comment begins with the participle `{head[1]}`" if head and is_participle(head[1], head[2]) else ""


def is_long(line, columns):
    """Whether a line has too many columns and could be split."""
    words = line.strip().removeprefix("///").removeprefix("//!").removeprefix("//").removeprefix("--").split()
    return len(line) > columns and len(words) > 1 and not USE.match(line) and not ATTRIBUTE.match(line)


def of_file(path):
    """The findings of a file of code, definitions or proofs: line numbers, and what is wrong there."""
    lines, columns = path.read_text(encoding="utf-8").splitlines(), COLUMNS[path.suffix]
    is_raw = False
    for number, line in enumerate(lines, 1):
        is_raw = is_raw or 'r#"' in line
        if is_long(line, columns) and not is_raw:
            yield number, f"more than {columns} columns: {len(line)}"
        is_raw = is_raw and '"#' not in line.rpartition('r#"')[2]
    tail = ""
    for number, text, begins in comments(lines, COMMENT[path.suffix]):
        # (a phrase may begin on the line before)
        tail = "" if begins else tail
        for words in SAID.finditer(tail + text):
            if words.end() > len(tail):
                yield number, f"`{words[1]}`"
        tail = " ".join(text.split()[-3:]) + " "
        wrong = of_head(text) if begins else ""
        if wrong:
            yield number, wrong


def of_edit(path):
    """The findings of an edit, in its name."""
    words = SAID.search(path.stem.replace("_", " "))
    if words:
        yield 1, f"`{words[1]}` in the name of an edit"


def main():
    crates = ROOT / "crates"
    files = [path for part in ("src", "specs", "proofs") for path in crates.glob(f"*/{part}/**/*") if path.suffix in COLUMNS]
    edits = [path for folder in ("must-fail", "more-edits") for path in crates.glob(f"*/{folder}/*.edit")]
    found = {path: [*(of_edit if path.suffix == ".edit" else of_file)(path)] for path in sorted([*files, *edits])}
    for path, wrong in found.items():
        for number, what in wrong:
            print(f"{path.relative_to(ROOT)}:{number}: {what}")
    failed = sum(map(len, found.values()))
    print(f"{sum(not wrong for wrong in found.values())} passed, {failed} failed")
    sys.exit(1 if failed else 0)


if __name__ == "__main__":
    main()
