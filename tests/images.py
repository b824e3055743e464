#!/usr/bin/env python3
"""Checks a built `jt` against rows of images: tests/images.py PROGRAM [FILE ..] (without files tests/rows/images.txt)

tests/README.md says how a row reads. The images are made here, by images_bytes.py, and no other part of the project is needed.

`jt check` must report the units and instructions of an accepted image, and `jt run` and `jt turns` (in slices) how it ends. A refusal is
compared with one of the first two, which read the bytes in place, and with the last one, which decodes them. The status and both outputs
are compared. images_bytes.py also reads the bytes, and the program and each row must agree with its result.

A line that is no row, a file without rows and a missing program are failures. The last line is 'N passed, M failed', and the status is 1
if one failed.
"""
import concurrent.futures
import itertools
import json
import os
import pathlib
import re
import struct
import subprocess
import sys
import tempfile

import images_bytes
from images_bytes import Fault, Malformed

ROWS = pathlib.Path(__file__).resolve().parent / "rows"
SPENT = ("Fuel", "Depth", "Output", "Size", "Nesting")
NUMBERS = ("fuel", "depth", "output", "size", "nesting")
SLICES = ("1", "2", "3", "7", "100", "1000000")
COMMANDS = ("check", "run", "turns")
REFUSAL = re.compile(r"I[1-8] \w+|K[1-9] \w+ unit \d+ point \d+")
FAULT = re.compile(r"F[1-9] \w+( in .+ line \d+)?")
VALUES = re.compile(r"values of (Op|Filter|Test) (\d+)")
TO = re.compile(r"(\d+) to (\d+)")


class Row:
    """A row: its images, their budget and context, and the wanted result."""

    def __init__(self, text, named):
        asked, arrow, self.wanted = text.rpartition(" => ")
        if not arrow or not self.wanted:
            raise Malformed("a row has no answer")
        spelling, *rest = asked.split(" ¦ ")
        self.spelling, self.named = spelling.strip(), named
        contexts = [part for part in rest if part.lstrip().startswith("{")]
        if len(contexts) > 1 or len(rest) > len(contexts) + 1:
            raise Malformed("a row has too many parts")
        self.context = context_of(contexts[0]) if contexts else b"{}"
        self.budget = [word for part in rest if part not in contexts for word in budget(part.split())]

    def image(self, spelling):
        return images_bytes.image(spelling, self.named)

    def cases(self):
        """Returns its images, each with the wanted result."""
        for begins, sweep in SWEEPS.items():
            if self.spelling.startswith(begins):
                found = list(sweep(self, self.spelling.removeprefix(begins)))
                if not found:
                    raise Malformed("no images")
                return found
        return [(self.image(self.spelling), self.wanted)]


def context_of(text):
    """Returns the JSON of a context, with repeated texts expanded."""
    text = re.sub(r'"([^"])"\*(\d+)', lambda found: json.dumps(found[1] * int(found[2])), text.strip())
    json.loads(text)
    return text.encode()


def budget(words):
    """Returns the numbers of a budget as words of the program's line."""
    if not words or len(words) % 2 or any(word not in NUMBERS for word in words[::2]):
        raise Malformed(f"no numbers: {words}")
    return [word if at % 2 else f"--{word}" for at, word in enumerate(words)]


def beginnings(row, spelling):
    data = row.image(spelling)
    return [(data[:count], row.wanted) for count in range(len(data))]


def changes(row, spelling):
    """Changes the lowest bit, the highest bit and all bits of each byte."""
    data = row.image(spelling)
    if row.wanted != "any":
        raise Malformed("changed bytes have any answer")
    for at, byte in enumerate(data):
        for value in (byte ^ 1, byte ^ 128, byte ^ 255):
            yield data[:at] + bytes([value]) + data[at + 1:], "any"


def unused_fields(row, _):
    """Sets each field of each instruction, after the only one that is reached."""
    for opcode, used in images_bytes.FIELDS.items():
        yield row.image(f"unit Return, op {opcode} 0 0 0"), "ok"
        for field, values in zip("abc", ((1, 128), (1, 256), (1, 1 << 8, 1 << 16, 1 << 31))):
            for value in values:
                words = " ".join(str(value if field == one else 0) for one in "abc")
                yield row.image(f"unit Return, op {opcode} {words}"), "ok" if field in used else row.wanted


def values(row, _):
    """Puts an instruction after one value less than it takes, and after all."""
    found, wanted = VALUES.fullmatch(row.spelling), TO.fullmatch(row.wanted)
    if not found or not wanted:
        raise Malformed("no numbers of values")
    word, least, most = f"{found[1]} {found[2]}", int(wanted[1]), int(wanted[2])
    for count in (least, most) if found[1] == "Op" else sorted({0, least - 1, least, most, most + 1, 256}):
        last = {"Op": word, "Filter": f"{word} {count} 0", "Test": f"{word} {count}"}[found[1]]
        for there in (count - 1, count) if least <= count <= most else (count,):
            flaw = "K6 BadIndex" if not least <= count <= most else "K1 MissingOperand" if there < count else None
            answer = f"{flaw} unit 0 point {there}" if flaw else "ok"
            yield row.image(f"constants undefined | unit {there}*Const 0, {last}, Drop, Return"), answer


SWEEPS = {"each beginning of ": beginnings, "each change of ": changes, "each unused field": unused_fields, "values of ": values}


class Bench:
    """Runs the program over files of one folder."""

    def __init__(self, program, folder):
        self.program, self.folder, self.numbers = program, pathlib.Path(folder), itertools.count()

    def path(self, data):
        """A new file with these bytes."""
        path = self.folder / f"{os.getpid()}-{next(self.numbers)}"
        path.write_bytes(data)
        return str(path)

    def run(self, *words):
        """The status, the output and the line on standard error."""
        done = subprocess.run([self.program, *words], stdin=subprocess.DEVNULL, capture_output=True, timeout=100)
        return done.returncode, done.stdout, done.stderr.decode(errors="replace")

    def answers(self, commands, data, context, words):
        """Returns the results of commands for an image."""
        image, context = self.path(data), self.path(context)
        slices = ["--slice", SLICES[len(data) % len(SLICES)]]
        rest = {"check": [], "run": [context, *words], "turns": [context, *slices, *words]}
        found = {command: self.run(command, image, *rest[command]) for command in commands}
        os.remove(image)
        return found


def refused(fault):
    return 3, b"", f"jt: refused {fault}\n"


def read(data):
    """Returns the wanted result of `jt check` for bytes, if the verifier accepts them; and whether they are an image."""
    try:
        return (0, b"ok units=%d instructions=%d\n" % images_bytes.counts(data), ""), True
    except Fault as fault:
        return refused(fault), False


def text_ending(data):
    return (0, data, ""), b"1 text %d:%s\n" % (len(data), data)


def ended(wanted, found):
    """Returns the wanted results of `jt run` and `jt turns` for this ending."""
    if wanted.startswith("[") and wanted.endswith("]"):
        return text_ending(wanted[1:-1].replace("␤", "\n").encode())
    if re.fullmatch(r"\d+ bytes", wanted):
        return text_ending(found[1] if found[0] == 0 and len(found[1]) == int(wanted.split()[0]) else b"another text")
    if wanted in SPENT:
        return (4, b"", f"jt: spent {wanted}\n"), f"1 spent {wanted}\n".encode()
    if FAULT.fullmatch(wanted):
        return (1, b"", f"jt: fault {wanted}\n"), f"1 fault {wanted}\n".encode()
    raise Malformed(f"no answer: {wanted!r}")


def as_it_ended(run):
    """Returns the wanted result of `jt turns` for a run that ended with a text, a fault or a spent number."""
    status, text, line = run
    if status == 0:
        return text_ending(text)[1]
    return ("1" + line.removeprefix("jt:")).encode() if status in (1, 4) else b"no other status"


def differing(named, found, wanted):
    return [] if found == wanted else [f"{named} {str(found)[:300]}, wanted {str(wanted)[:300]}"]


def commands_of(wanted, data, is_image):
    """Returns the commands that show a result: `jt check` and `jt run` read bytes in place, `jt turns` decodes them."""
    if wanted == "ok":
        return ("check",)
    if is_image and not REFUSAL.fullmatch(wanted):
        return COMMANDS
    return (COMMANDS[len(data) % 2], "turns")


def wanted_of(wanted, counted, is_image, found):
    """Returns the wanted results of the commands."""
    if REFUSAL.fullmatch(wanted):
        return dict.fromkeys(COMMANDS, refused(wanted))
    if wanted == "ok" or not is_image:
        return dict.fromkeys(COMMANDS, counted)
    if wanted == "any" and found["check"][2].startswith("jt: refused K"):
        return dict.fromkeys(COMMANDS, found["check"])
    ends, line = (found["run"], as_it_ended(found["run"])) if wanted == "any" else ended(wanted, found["run"])
    return {"check": counted, "run": ends, "turns": (0, line, "")}


def misread(wanted, counted, is_image):
    """Returns whether a row wants another refusal of the bytes than images_bytes.py finds."""
    return wanted != "any" and (counted != refused(wanted) if wanted.startswith("I") else not is_image)


def differences(bench, data, context, words, wanted):
    """Returns the differences between the results for an image and the wanted ones."""
    counted, is_image = read(data)
    found = bench.answers(commands_of(wanted, data, is_image), data, context, words)
    answers = wanted_of(wanted, counted, is_image, found)
    different = [text for command in found for text in differing(command, found[command], answers[command])]
    if misread(wanted, counted, is_image):
        different.append(f"by the reading here {counted}")
    return [f"{data[:200].hex()}: {text}" for text in different]


def judged(*case):
    try:
        return differences(*case)
    except (ValueError, Malformed, subprocess.TimeoutExpired) as error:
        return [str(error)]


def row_of(line, named):
    """The row of a line with its cases, or what is wrong with it; none of a comment and a name."""
    if not line or line.startswith("#"):
        return None
    try:
        if line.startswith("def "):
            name, equals, spelling = line[4:].partition(" = ")
            if not equals or name in named:
                raise Malformed("a name has no spelling, or has one already")
            named[name] = spelling.strip()
            return None
        row = Row(line, named)
        return row, row.cases()
    except (ValueError, struct.error, Malformed) as error:
        return str(error)


def rows_of(path):
    """The rows of a file: where each stands, and the row with its cases or what is wrong with it."""
    named, found = {}, []
    for count, line in enumerate(pathlib.Path(path).read_text(encoding="utf-8").splitlines(), 1):
        row = row_of(line.strip(), named)
        if row is not None:
            found.append((f"{path}:{count}: {line.strip()[:200]}", row))
    return found or [(str(path), "no rows")]


def all_judged(program, rows):
    """Returns the differences of each row."""
    with tempfile.TemporaryDirectory() as folder, concurrent.futures.ProcessPoolExecutor(os.cpu_count()) as pool:
        bench = Bench(program, folder)
        asked = [[] if isinstance(row, str) else
                 [pool.submit(judged, bench, data, row[0].context, row[0].budget, wanted) for data, wanted in row[1]] for _, row in rows]
        return [[row] if isinstance(row, str) else [text for case in cases for text in case.result()]
                for (_, row), cases in zip(rows, asked)]


def main(words):
    if not words or not os.path.isfile(words[0]) or not os.access(words[0], os.X_OK):
        print(f"tests/images.py: no program {words[:1]}\n0 passed, 1 failed")
        return 1
    rows = [row for path in words[1:] or [ROWS / "images.txt"] for row in rows_of(path)]
    found = all_judged(os.path.abspath(words[0]), rows)
    for (line, _), different in zip(rows, found):
        for text in [line, *different[:5]] if different else []:
            print(text)
    failed = sum(1 for different in found if different)
    print(f"{len(rows) - failed} passed, {failed} failed")
    return 1 if failed else 0


if __name__ == "__main__":
    sys.exit(main(sys.argv[1:]))
