#!/usr/bin/env python3
"""Runs the images of all rows beside the reference machine: tests/reference.py PROGRAM [TRIALS]

TRIALS is the program of jt_trials, which is found beside PROGRAM's crate; its plain.rt describes the letters of the results. The images are
those that PROGRAM compiles of the rows of templates, those of images.txt, and those of reference.txt, which no other script runs. Refused
and changed images are left out, and those of which 600 runs take too long: of more than MOST bytes, and of rows with a bound on the time.
A line names these. Each image runs for its row's context with every fuel from 0 to 200, under ample, narrow and tiny limits, as an image
and in place. Each run must end as the reference machine does.

A row is an image. The last line is 'N passed, M failed', and the status is 1 if one failed.
"""
import collections
import concurrent.futures
import os
import pathlib
import re
import subprocess
import sys
import tempfile

import images
import programs
import run

ROWS = pathlib.Path(__file__).resolve().parent / "rows"
# the contexts of an image of reference.txt
CONTEXTS = (b"{}", b'{"n": 7}', b'{"n": [1]}')
FLAGS = ("--trim-blocks", "--lstrip-blocks", "--keep-trailing-newline", "--no-autoescape", "--strict")
MOST = 1 << 18
PARTS = 32
SECONDS = 600
ENDED = re.compile("[tfs]{3}")


def of_templates(program, place, row):
    """The image of a row of templates with its context, if there are both; no bytes if the row has a bound on the time."""
    asked, _, wanted = row.partition(" => ")
    if wanted and run.answer_of(run.unfolded(wanted)).startswith("3"):
        return None
    with tempfile.TemporaryDirectory(prefix="jt-plain-") as made:
        room = pathlib.Path(made)
        words, options, limits = run.furnished(room, asked)
        if limits:
            return place, b"", None
        flags = [word for word in options if word in FLAGS]
        found = run.sent(program, ["compile", "d", "t", "image", *flags], room)
        if found != "0 [][]":
            raise run.Malformed(f"{place}: {found[:200]}")
        context = (room / "context").read_bytes() if "context" in words else b"{}"
        return place, context.replace(b"\n", b" "), (room / "image").read_bytes()


def of_bytes(place, row):
    """An image that a row spells, with each of the contexts."""
    name, _, digits = row.removeprefix("image ").rpartition(": ")
    return [(f"{place}: {name}", context, bytes.fromhex(digits)) for context in CONTEXTS]


def all_of_templates(program):
    """Returns the images of all rows of templates, and those of reference.txt."""
    with tempfile.TemporaryDirectory(prefix="jt-plain-") as rooms, concurrent.futures.ThreadPoolExecutor(os.cpu_count()) as pool:
        files = [name for name in run.FILES if name != "commands.txt"] + ["reference.txt"]
        rows = [(place, row) for name in files
                for place, row, kind, _ in run.rows_of(program, ROWS / name, rooms) if kind == "templates"]
        spelled = [case for row in rows if row[1].startswith("image ") for case in of_bytes(*row)]
        compiled = [row for row in rows if not row[1].startswith("image ")]
        return [*filter(None, pool.map(lambda row: of_templates(program, *row), compiled)), *spelled]


def all_of_images():
    """The images of images.txt, with their contexts."""
    for place, found in images.rows_of(ROWS / "images.txt"):
        if isinstance(found, str):
            raise run.Malformed(f"{place}: {found}")
        row, cases = found
        is_refused = images.REFUSAL.fullmatch(row.wanted) or row.wanted == "any"
        if not is_refused and not row.spelling.startswith(tuple(images.SWEEPS)):
            yield place, row.context, cases[0][0]


def tried(trials, part):
    """What is wrong with some images, and the letters of all of them."""
    lines = b"".join(b"plain %s\xc2\xa6%s\n" % (context, data.hex().encode()) for _, context, data in part)
    ran = subprocess.run([trials], input=lines, capture_output=True, timeout=SECONDS)
    letters = ran.stdout.decode().splitlines()
    if ran.returncode or len(letters) != len(part):
        return [f"status {ran.returncode}, {len(letters)} lines of {len(part)}, the first of {part[0][0]}"] * len(part), []
    return [f"{place}: {found}" for (place, _, _), found in zip(part, letters) if not ENDED.fullmatch(found)], letters


def main():
    program, trials = programs.asked(sys.argv[1:])
    found = [*all_of_templates(program), *all_of_images()]
    cases = [case for case in found if case[2] is not None and len(case[2]) <= MOST]
    timed = sorted({place for place, _, data in found if data is None})
    large = sorted({place for place, _, data in found if data is not None and len(data) > MOST})
    print(f"left out: {len(timed)} rows with a bound on the time: {', '.join(timed)}")
    print(f"left out: {len(large)} rows with an image of more than {MOST} bytes: {', '.join(large)}")
    cases.sort(key=lambda case: len(case[2]))
    parts = [cases[at::PARTS] for at in range(PARTS) if cases[at::PARTS]]
    wrong, letters = [], collections.Counter()
    with concurrent.futures.ThreadPoolExecutor(os.cpu_count()) as pool:
        for more, found in pool.map(lambda part: tried(trials, part), parts):
            wrong += more
            letters.update(found)
    print(", ".join(f"{ends} {count}" for ends, count in sorted(letters.items())))
    for text in wrong[:20]:
        print(text)
    print(f"{len(cases) - len(wrong)} passed, {len(wrong)} failed")
    sys.exit(1 if wrong or not cases else 0)


if __name__ == "__main__":
    main()
