#!/usr/bin/env python3
"""Checks that each row of a refusal of templates has its explanation: tests/explained.py [--write] PROGRAM

The rows of rows/ that want a code of S, P, C, V or G are read, but for those of explanations. For each of them a row of explanations must
have the same templates and options, and its code. With --write the missing rows are appended to rows/explained.txt, as PROGRAM explains
them: READ THEM before you commit them, for the line must be the one to which a person would point. The last line is 'N passed, M failed'.
"""
import pathlib
import re
import sys
import tempfile

import explanations
import run

EXPLAINED = run.HERE / "rows" / "explained.txt"
CODE = re.compile(r"(?:.*: )?([SPCVG][0-9]+)\b.*")


def rows(kind):
    """Yields the rows of a kind: the place, what is asked and what is wanted."""
    for file in sorted(EXPLAINED.parent.glob("*.txt")):
        found = "commands" if file.name in ("images.txt", "listings.txt", "reference.txt") else "templates"
        for number, line in enumerate(file.read_text(encoding="utf-8").splitlines(), 1):
            header = re.fullmatch("== ([a-z]+): .* ==", line.strip())
            found = header[1] if header else found
            asked, is_row, wanted = line.strip().partition(" => ")
            if found == kind and is_row and not line.startswith("# "):
                yield f"{file.name}:{number}", asked, wanted


def asked_of(asked):
    """Returns what a row asks of `explain`: its templates, and the options with which they are read."""
    *parts, source = asked.split("¦")
    kept = []
    for part in parts:
        if part.startswith("--"):
            part = " ".join(word for word in part.split() if word in run.READING)
        if part and not part.startswith(("{", "[")):
            kept.append(part)
    return "¦".join([*kept, source])


def code_of(wanted):
    """Returns the code of templates that a row wants, if it wants one."""
    found = re.fullmatch(r"([SPCVG][0-9]+)(?: .*)?", wanted) or re.match(r"3 \[\]\[jt: refused ([SPCVG][0-9]+) ", wanted)
    return found[1] if found else None


def wanted_of(text):
    """Returns the wanted part of a row whose explanation is this text."""
    first, *_, last = text.splitlines()
    found = explanations.FIRST.fullmatch(first)
    if not found:
        raise ValueError(f"no first line of an explanation: {first[:80]!r}")
    name = found["subject"]
    keys = re.compile(re.escape(f"{found['code']} {found['name']}") + r'(?P<name> "NAME")?(?P<kind> \(\w+\))?')
    fitting = []
    for key, sentence in explanations.sentences().items():
        fits = keys.fullmatch(key)
        sentence = "  " + sentence.replace('"NAME"', f'"{name}"')
        if fits and (not fits["name"] or name is not None) and last.startswith(sentence):
            fitting.append((len(sentence), fits["kind"] or "", last[len(sentence) :]))
    if not fitting:
        raise ValueError(f"docs/errors.md has no such sentence: {last[:120]!r}")
    _, kind, tail = max(fitting)
    return first + kind + tail


def explained(program, asked):
    """Returns the row of explanations of what a row asks, as the program explains it."""
    with tempfile.TemporaryDirectory(prefix="jt-rows-") as made:
        room = pathlib.Path(made, "room")
        room.mkdir()
        words, options, limits = run.furnished(room, asked)
        found = run.sent(*run.limited(program, ["explain", *words, *options], limits), room)
    text = re.fullmatch(r"0 \[(.+)\]\[\]", found, re.S)
    if not text:
        raise ValueError(f"explain ends with {found[:120]!r}")
    return f"{asked} => {wanted_of(text[1])}"


def main():
    known = {asked_of(asked): CODE.sub(r"\1", wanted) for _, asked, wanted in rows("explanations")}
    missing, passed, wrong = {}, 0, []
    for place, asked, wanted in rows("templates"):
        code, asked = code_of(wanted), asked_of(asked)
        if code and asked not in known:
            missing.setdefault(asked, place)
        elif code and known[asked] != code:
            wrong.append(f"{place}: the explanation of {run.cut(asked)} is one of {known[asked]}, not of {code}")
        elif code:
            passed += 1
    if sys.argv[1:2] == ["--write"]:
        with open(EXPLAINED, "a", encoding="utf-8") as file:
            for asked, place in missing.items():
                try:
                    print(explained(sys.argv[2], asked), file=file)
                except (run.Malformed, ValueError) as error:
                    wrong.append(f"{place}: {run.cut(asked)}: {error}")
    else:
        wrong += [f"{place}: no row explains {run.cut(asked)}" for asked, place in missing.items()]
    run.end(passed, wrong)


if __name__ == "__main__":
    main()
