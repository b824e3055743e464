#!/usr/bin/env python3
"""Changes images and sources byte by byte, as a stranger would: tests/hostile.py PROGRAM [TRIALS]

TRIALS is the program of jt_trials, which is found beside PROGRAM's crate. Its main.rt describes how a trial is requested, and its images.rt
and sources.rt the letters of the results.

Images: X, N, Z and Y of images.txt, Y with Drop in place of its jump, and those that PROGRAM compiles of the sources below, in each
version of the format. Every proper prefix is Truncated. Every change of one byte to each of its 255 other values has one of two results.
Either the bytes are no image, and images_bytes.py finds the same first fault. Or they are an image, `encode` returns the bytes, and the
verifier refuses it or it runs with every fuel from 0 to 20; more fuel only replaces spent fuel by another outcome, and with most fuel the
reference machine ends alike. Reading in place gives the same. COUNTS has the number of accepted changes and of each outcome, by a model
that was written from the documents alone.

Sources: those of examples/. Every prefix and every change of one byte of each template is no text, or the compiler refuses it, or its image
is accepted and its run under a small budget ends with a text, a fault or a spent number. No call reports lack of memory.

A row is an image or a template. The last line is 'N passed, M failed', and the status is 1 if one failed.
"""
import collections
import concurrent.futures
import json
import os
import pathlib
import subprocess
import sys
import tempfile

import images_bytes
import programs
from images_bytes import Fault, Reader

HERE = pathlib.Path(__file__).resolve().parent
ROWS = HERE / "rows"
EXAMPLES = HERE.parent / "examples"
# The numbers of processes that share the places of an image, and a row of sources.
IMAGE_STEP, SOURCE_STEP = 8, 32
SECONDS = 600
DEFINED = ("X", "N", "Z", "Y", "DROPPED")
SOURCES = {
    "greeting": ["{}", "Hello {{ name }}!\n"],
    "loop with a condition": ['{"xs": [6, 1, 7]}', "{% for x in xs if x > 5 %}{{ loop.index }}:{{ x }} {% else %}none{% endfor %}"],
    "super": ["base: [{% block t %}base{% endblock %}]", '{% extends "base" %}{% block t %}{{ super() }}+child{% endblock %}'],
    "recursion": ["{% macro m() %}{{ m() }}{% endmacro %}{{ m() }}"],
    "macro defaults": ["{% macro f(a, b=2) %}{{ a }}-{{ b }};{% endmacro %}{{ f(1) }}{{ f(1, b=3) }}{{ f() }}"],
}
# Of the changes of an image, by its name: how many are accepted, refused by the verifier, end with a text, with a fault, with spent fuel.
COUNTS = {"X": (912, 1071, 909, 0, 3), "N": (925, 3421, 922, 0, 3), "Z": (784, 1071, 1, 0, 783), "Y": (7, 5195, 6, 0, 1)}
REFUSED, ENDED, COMPILED = "ABCDEFGHI", "tfs", "SPCVGtfs"


def read(data):
    """The digit of the first fault of bytes, or none of an image."""
    try:
        images_bytes.counts(data)
        return None
    except Fault as fault:
        return str(fault)[1]


def front(data):
    """An image without its places: how many of its bytes both versions have, and how many instructions."""
    reader = Reader(data)
    reader.take(6)
    images_bytes.read_names(reader, reader.uint(2))
    images_bytes.read_constants(reader)
    _, instructions = images_bytes.read_units(reader)
    reader.take(8 * instructions)
    return reader.at, instructions


def in_version(data, version):
    """An image in a version, without places where it had none or that one has none."""
    length, instructions = front(data)
    places = data[length:] or bytes(2 + 6 * instructions)
    return data[:4] + bytes([version, 0]) + data[6:length] + (places if version == 2 else b"")


def defined():
    """Returns the named images of images.txt."""
    named = {}
    for line in (ROWS / "images.txt").read_text(encoding="utf-8").splitlines():
        name, equals, spelling = line.removeprefix("def ").partition(" = ")
        if line.startswith("def ") and equals:
            named[name] = spelling.strip()
    return {name: images_bytes.image(named[name], named) for name in DEFINED}


def compiled(program, parts):
    """The image of a row of sources."""
    with tempfile.TemporaryDirectory(prefix="jt-hostile-") as room:
        os.mkdir(f"{room}/d")
        *front, entry = parts
        sources = dict(part.split(": ", 1) for part in front if not part.startswith("{"))
        for name, source in {**sources, "t": entry}.items():
            pathlib.Path(room, "d", name).write_text(source, encoding="utf-8")
        subprocess.run([program, "compile", "d", "t", "out"], cwd=room, check=True, timeout=SECONDS)
        return pathlib.Path(room, "out").read_bytes()


def knows(program, data):
    """Whether the program accepts an image."""
    with tempfile.NamedTemporaryFile(prefix="jt-hostile-") as file:
        file.write(data)
        file.flush()
        return subprocess.run([program, "check", file.name], capture_output=True, timeout=SECONDS).returncode == 0


def images(program):
    """The images by name, each with its context."""
    found = {name: ("{}", data) for name, data in defined().items()}
    found["N for 7"] = ('{"n": 7}', found["N"][1])
    for name, parts in SOURCES.items():
        context = next((part for part in parts if part.startswith("{\"")), "{}")
        found[name] = (context, compiled(program, parts))
    versions = [version for version in (1, 2) if knows(program, in_version(found["X"][1], version))]
    return {f"{name} in version {version}": (context, in_version(data, version))
            for name, (context, data) in found.items() for version in versions}


def examples():
    """The rows of the examples' sources, by the example's name, and the templates of each."""
    found = {}
    for example in sorted(EXAMPLES.iterdir()):
        if (example / "command").is_file():
            entry, *options = (example / "command").read_text(encoding="utf-8").split()
            templates = {file.name: file.read_text(encoding="utf-8") for file in sorted((example / "templates").iterdir())}
            context = json.dumps(json.loads((example / "context.json").read_text(encoding="utf-8")), ensure_ascii=False)
            parts = [f"{name}: {source}" for name, source in templates.items() if name != entry]
            row = "¦".join([*parts, " ".join(["--", *options]), context, templates[entry]]).replace("\n", "␤")
            templates["t"] = templates.pop(entry)
            found[example.name] = (row, templates)
    return found


def asked(trials, line):
    """The lines that a trial answers with."""
    ran = subprocess.run([trials], input=line.encode() + b"\n", capture_output=True, timeout=SECONDS)
    if ran.returncode or ran.stderr:
        raise ValueError(f"status {ran.returncode}, {ran.stderr.decode(errors='replace')[:200]}, of {line[:60]}")
    return ran.stdout.decode().splitlines()


def changed(data, place):
    """The bytes with each other value at a place."""
    return [data[:place] + bytes([value]) + data[place + 1:] for value in range(256) if value != data[place]]


def judged_image(trials, name, context, data, at):
    """What is wrong with some changes of an image, and the letters of all of them."""
    wrong, letters = [], collections.Counter()
    lines = asked(trials, f"image {at} {IMAGE_STEP} {context}¦{data.hex()}")
    if [int(line.split()[0]) for line in lines] != list(range(at, len(data), IMAGE_STEP)):
        wrong.append(f"{name}: other places than those from {at} on")
    for line in lines:
        place, _, begun, found = line.split()
        place = int(place)
        if begun != "3":
            wrong.append(f"{name}: its first {place} bytes: {begun}")
        if len(found) != 255:
            wrong.append(f"{name}: at {place}: {found}")
        for letter, other in zip(found, changed(data, place)):
            wanted = read(other)
            if letter != wanted if wanted else letter not in REFUSED + ENDED:
                wrong.append(f"{name}: {other[place]:02x} at {place}: {letter}, wanted {wanted or 'an image'}")
        letters.update(found)
    return wrong, letters


def is_text(data):
    try:
        data.decode("utf-8")
        return True
    except UnicodeDecodeError:
        return False


def judged_source(trials, name, row, templates, at):
    """What is wrong with some changes of the templates of a row, and the letters of all of them."""
    wrong, letters = [], collections.Counter()
    lines = asked(trials, f"sources {at} {SOURCE_STEP} {row}")
    met = collections.Counter(line.split()[0] for line in lines)
    for template, source in templates.items():
        if met[template] != len(range(at, len(source.encode()), SOURCE_STEP)):
            wrong.append(f"{name}: other places of {template} than those from {at} on")
    for line in lines:
        template, place, _, *found = line.split()
        data, place = templates[template].encode(), int(place)
        if [len(it) for it in found] != [1, 255]:
            wrong.append(f"{name}: {template} at {place}: {found}")
        for letter, other in zip("".join(found), [data[:place], *changed(data, place)]):
            if letter not in COMPILED if is_text(other) else letter != "-":
                wrong.append(f"{name}: {template} with {other[place:place + 1].hex()} at {place}: {letter}")
        letters.update("".join(found))
    return wrong, letters


def summed(letters):
    """How many were accepted, refused, and ended so."""
    ends = [letters[end] for end in ENDED]
    return (sum(ends), sum(letters[it] for it in REFUSED), *ends)


def told(letters):
    return " ".join(f"{letter} {count}" for letter, count in sorted(letters.items()))


def gathered(jobs):
    """What is wrong with a row, and its letters, of all its jobs."""
    wrong, letters = [], collections.Counter()
    for job in jobs:
        try:
            more, found = job.result()
            wrong += more
            letters += found
        except (ValueError, subprocess.SubprocessError) as error:
            wrong.append(str(error)[:400])
    return wrong, letters


def main():
    program, trials = programs.asked(sys.argv[1:])
    passed = failed = 0
    with concurrent.futures.ProcessPoolExecutor(os.cpu_count()) as pool:
        rows = {name: [pool.submit(judged_image, trials, name, *image, at) for at in range(IMAGE_STEP)]
                for name, image in images(program).items()}
        of_sources = {name: [pool.submit(judged_source, trials, name, *example, at) for at in range(SOURCE_STEP)]
                      for name, example in examples().items()}
        for name, jobs in [*rows.items(), *of_sources.items()]:
            wrong, letters = gathered(jobs)
            counts = COUNTS.get(name.partition(" in version")[0])
            if counts and summed(letters) != counts:
                wrong.append(f"{name}: {summed(letters)} are accepted, refused, end so, wanted {counts}")
            if not letters["t"] and not letters["s"]:
                wrong.append(f"{name}: no change ends with a text or a spent number")
            print(f"{name}: {sum(letters.values())} changes: {told(letters)}")
            for text in wrong[:5]:
                print(f"    {text}")
            passed, failed = passed + (not wrong), failed + bool(wrong)
    print(f"{passed} passed, {failed} failed")
    sys.exit(1 if failed or not passed else 0)


if __name__ == "__main__":
    main()
