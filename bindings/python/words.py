#!/usr/bin/env python3
"""Compares the words of the language server with docs/language.md: bindings/python/words.py [--write]

src/jt/lsp/_words.py has each filter, test, call, field of `loop` and statement with its arguments and
its sentence, as the tables of docs/language.md have them. `--write` writes that file anew. The last
line is 'N passed, M failed', and the status is 1 if a word differs.
"""
import json
import pathlib
import re
import sys
import textwrap

HERE = pathlib.Path(__file__).resolve().parent
LANGUAGE = HERE.parent.parent / "docs" / "language.md"
WORDS = HERE / "src" / "jt" / "lsp" / "_words.py"
HEAD = '''"""What docs/language.md says of each filter, test, call, field of `loop` and statement.

bindings/python/words.py writes this file from the tables there, and compares it with them.
"""
from typing import Dict, List, Tuple

# Each word has its forms, with their arguments, and its sentences.
Words = Dict[str, Tuple[List[str], List[str]]]

'''
CODE = re.compile(r"`([^`]*)`")
LINK = re.compile(r"\[([^\]]*)\]\([^)]*\)")
# The headings under which a statement is described, and by which words.
SECTIONS = {
    "Macros": ["macro"], "`extends`": ["extends"], "Blocks": ["block"], "`include`": ["include"],
    "`import` and `from`": ["import", "from"],
}


def section(text, heading):
    """Returns the text below a heading, up to the next one."""
    found = re.search(rf"^#+ {re.escape(heading)}\n(.*?)(?=^#+ |\Z)", text, re.M | re.S)
    return found[1]


def rows(text):
    """Returns the cells of the rows of a section's first table, without its head."""
    lines = re.search(r"(?:^\|.*\n)+", text, re.M)[0].splitlines()
    return [[cell.strip() for cell in re.split(r"(?<!\\)\|", line)[1:-1]] for line in lines[2:]]


def plain(cell):
    """Returns a cell or a paragraph as one line, without links."""
    return LINK.sub(r"\1", " ".join(cell.split())).replace("\\|", "|").strip(" |")


def put(words, name, form, sentence):
    """Adds a form of a word and its sentence."""
    if sentence:
        is_word = "_" not in sentence.split()[0]
        sentence = (sentence[0].upper() if is_word else sentence[0]) + sentence[1:].rstrip(".") + "."
    forms, sentences = words.setdefault(name, ([], []))
    if form not in forms:
        forms.append(form)
    if sentence and sentence not in sentences:
        sentences.append(sentence)


def name_of(form):
    return re.match(r"\w+", form)[0]


def filters(text):
    words = {}
    for heading in ("Filters", "Filters that go over Items"):
        for forms, sentence in rows(section(text, heading)):
            spelled = CODE.findall(forms)
            # `default(..)`, `d`: the second one has the arguments of the first one.
            rest = spelled[0][len(name_of(spelled[0])):] if "(" not in "".join(spelled[1:]) else None
            for form in spelled:
                put(words, name_of(form), form if rest is None else name_of(form) + rest, plain(sentence))
    return words


def parts(cell):
    """Returns the parts of a cell between semicolons, or between commas if there is none."""
    return [it.strip() for it in cell.split(";")]


def tests(text):
    words = {}
    for forms, sentence in rows(section(text, "Tests")):
        spelled, meant = CODE.findall(forms), parts(sentence)
        argument = ""
        for at, form in enumerate(spelled):
            argument = re.sub(r"^\w+", "", form) or (argument if "or `" in forms else "")
            full = form if "(" in form else form + argument
            is_split = len(meant) == len(spelled) and not re.search(r"\bF\d", sentence)
            put(words, name_of(form), full, "true for " + plain(meant[at] if is_split else sentence))
    return words


def fields(text):
    words = {}
    for forms, sentence in rows(section(text, "`loop`")):
        spelled, meant = CODE.findall(forms), parts(sentence)
        if len(spelled) == len(meant):
            pairs = list(zip(spelled, meant))
        else:
            pairs = [(form, sentence) for form in spelled]
        for form, one in pairs:
            put(words, name_of(form[len("loop."):]), form, "at turn p of n, from 1: " + plain(one))
    return words


def calls(text):
    words = {}
    for forms, sentence in rows(section(text, "Calls")):
        for form in CODE.findall(forms):
            if name_of(form) in ("range", "super", "self"):
                put(words, name_of(form), form, plain(sentence))
    return words


def statements(text):
    words = {}
    for form, end in rows(section(text, "Statements") + "\n"):
        name = name_of(CODE.findall(form)[0])
        closing = f" Ends with {plain(end)}." if plain(end) else ""
        put(words, name, CODE.findall(form)[0], plain(form) + "." + closing)
    for name, sentence in re.findall(r"\*\*`(\w+)`\.\*\* (.*?)\n\n", text, re.S):
        put(words, name, words[name][0][0], plain(sentence))
    for heading, names in SECTIONS.items():
        first = re.split(r"\n\n|\n- ", section(text, heading).strip().lstrip("- "))[0]
        for name in names:
            put(words, name, words[name][0][0], plain(first))
    for name in ("elif", "else"):
        put(words, name, f"{name} e" if name == "elif" else name, "A part of an `if` statement." if name == "elif"
            else "The last part of an `if` or a `for` statement.")
    return words


def entry(word):
    """Returns the lines of a word with its forms and sentences."""
    name, (forms, sentences) = word
    lines = [f"    {spelled(name)}: (", f"        [{', '.join(map(spelled, forms))}],", "        ["]
    for sentence in sentences:
        pieces = textwrap.wrap(sentence, 78, drop_whitespace=False, break_long_words=False)
        lines += [f"            {spelled(piece)}" for piece in pieces]
        lines[-1] += ","
    return "\n".join([*lines, "        ],", "    ),", ""])


def spelled(text):
    return json.dumps(text, ensure_ascii=False)


def wanted():
    """Returns the text of _words.py."""
    text = LANGUAGE.read_text(encoding="utf-8")
    tables = {
        "FILTERS": filters(text), "TESTS": tests(text), "FIELDS": fields(text), "CALLS": calls(text),
        "STATEMENTS": statements(text),
    }
    pieces = [HEAD]
    for name, words in tables.items():
        pieces.append(f"{name}: Words = {{\n" + "".join(map(entry, words.items())) + "}\n\n")
    return "".join(pieces).rstrip("\n") + "\n"


def main():
    text = wanted()
    if "--write" in sys.argv[1:]:
        WORDS.write_text(text, encoding="utf-8")
    is_right = WORDS.exists() and WORDS.read_text(encoding="utf-8") == text
    if not is_right:
        print("src/jt/lsp/_words.py differs from docs/language.md: bindings/python/words.py --write")
    print("1 passed, 0 failed" if is_right else "0 passed, 1 failed")
    sys.exit(not is_right)


if __name__ == "__main__":
    main()
