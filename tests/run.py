#!/usr/bin/env python3
"""Runs rows over a built `jt` and prints those that fail: tests/run.py PROGRAM [FILE ..]

Without files it runs FILES, in rows/ beside this script. The last line is 'N passed, M failed', and the status is 1 if one failed. A
missing program, a file without a row and a row that cannot be read are failures too.

tests/README.md says how a row reads. A line `== KIND: TITLE ==` begins a section of rows of that kind, `templates`, `explanations` or
`commands`; rows before the first section are templates.
"""
import concurrent.futures
import itertools
import os
import pathlib
import re
import resource
import shutil
import stat
import subprocess
import sys
import tempfile

import explanations
import run_explanations

HERE = pathlib.Path(__file__).resolve().parent
FILES = ["templates.txt", "imports.txt", "values.txt", "refusals.txt", "explain.txt", "explained.txt", "faults.txt", "documents.txt", "hostile.txt", "commands.txt"]
SECONDS = 60
SIGNS = str.maketrans({**dict(zip("␇␈␉␤␋␌␍␠⍽␀", "\a\b\t\n\v\f\r \u00a0\0")), "⌧": "\udcff", "∅": ""})
NAMES = dict(
    word.split(":")
    for word in """
    F1:BadType F2:Undefined F3:Overflow F4:ZeroDivide F5:Unprintable F6:NotIterable F7:Unpack F8:Range F9:BadArgument
    S1:UnclosedTag S2:UnclosedText S3:BadCharacter S4:BadEscape S5:NumberTooLarge S6:UnclosedRaw S7:SourceTooLong
    P1:Syntax P2:TooDeep P3:UnknownFilter P4:UnknownTest
    C1:Missing C2:BadName C3:ExtendsCycle C4:ChainTooLong C5:DoubleBlock C6:RequiredNotGiven C7:NoSuper C8:IncludeCycle C9:MacroTwice C11:NoMacro
    C12:NotALibrary
    V1:LoopOutside V2:MacroAsValue V3:NotCallable V4:BadArguments V5:TooManySlots
    G1:CodeTooLong G3:StackTooDeep X1:NotJson X2:NotObject X3:NotWhole X4:OutOfRange
    """.split()
)
FRONT = re.compile("(memory|output)=[0-9]+|shut=.+|2>full|[<>].+")
NOBODY = 65534
HUGE = 1_000_000_000
SPENT = ("Fuel", "Depth", "Output", "Size", "Nesting")
# The options with which templates are read.
READING = ("--trim-blocks", "--lstrip-blocks", "--keep-trailing-newline", "--no-autoescape", "--strict")


class Malformed(Exception):
    """A row or a line of a file that cannot be read."""


def repeated(found):
    """Returns the expansion of ⟨N×piece⟩. `№№` becomes the sign of the repetition around it."""
    piece = found[2]
    if "№" not in piece:
        return piece * int(found[1])
    number = lambda n: lambda sign: "№" if sign[0] == "№№" else str(n + int(sign[1] or 0))
    return "".join(re.sub(r"№№|№(?:\+([0-9]))?", number(n), piece) for n in range(int(found[1])))


def spread(text):
    """Returns a text with its repetitions expanded, the inner ones first."""
    while (more := re.sub("⟨([0-9]+)×([^⟨⟩]*)⟩", repeated, text)) != text:
        text = more
    return text


def unfolded(text):
    """Returns a text with its signs and repetitions expanded."""
    return spread(text).translate(SIGNS)


def bytes_of(text):
    return text.encode("utf-8", "surrogateescape")


def text_of(octets):
    return octets.decode("utf-8", "surrogateescape")


def answer_of(wanted):
    """Returns the wanted result of a row of templates, in full."""
    if re.match(r"[0-9] \[", wanted):
        return wanted
    if wanted.startswith("[") and wanted.endswith("]"):
        return f"0 {wanted}[]"
    if wanted in SPENT:
        return f"4 [][jt: spent {wanted}\n]"
    found = re.fullmatch(r"([A-Z][0-9]+)((?: in \S+)?)((?: line [0-9]+)?)", wanted)
    if not found or found[1] not in NAMES:
        raise Malformed(f"nothing is wanted by {wanted[:80]!r}")
    code, where, line = found.groups()
    named = f"{code} {NAMES[code]}"
    place = f"{where or ' in t'}{line or ' line 1'}" if code[0] in "FSP" else ""
    if code[0] == "F":
        return f"1 [][jt: fault {named}{place}\n]"
    return f"3 [][jt: refused {named}{place}\n]"


def is_wanted(found, wanted):
    """Whether an answer is the one that is wanted."""
    if wanted.endswith("…]"):
        return found.startswith(wanted[:-2])
    return found == wanted


def read_from(room, front):
    """The open file that is standard input."""
    paths = [word[1:] for word in front if word.startswith("<")]
    return open(room / unfolded(paths[0]) if paths else os.devnull, "rb")


def written_to(room, front):
    """The open file that is standard output."""
    paths = [word[1:] for word in front if word.startswith(">")]
    if paths == ["shut"]:
        reading, writing = os.pipe()
        os.close(reading)
        return open(writing, "wb")
    if paths == ["full"]:
        return open("/dev/full", "wb")
    return open(room / unfolded(paths[0]) if paths else room / ".out", "wb")


def sent(program, words, room, front=()):
    """The status of a run in a room, what it printed and what it said, as one text."""
    out = room / ".out"
    with read_from(room, front) as given, written_to(room, front) as printed, open("/dev/full", "wb") as full:
        errors = full if "2>full" in front else subprocess.PIPE
        run = subprocess.run(
            [program, *map(bytes_of, words)], cwd=room, env={}, stdin=given, stdout=printed, stderr=errors, timeout=SECONDS
        )
    text = text_of(out.read_bytes()) if out.exists() else ""
    out.unlink(missing_ok=True)
    return f"{run.returncode} [{text}][{text_of(run.stderr or b'')}]"


def shut(file):
    """Has this process, which may be root's, not read a file."""
    os.chmod(file, 0)
    os.chmod(".", 0o755)
    if os.getuid() == 0:
        os.setgroups([])
        os.setgid(NOBODY)
        os.setuid(NOBODY)


def within(limits, line):
    """Sets limits for this process, which then becomes the program."""
    kinds = {"memory": resource.RLIMIT_AS, "output": resource.RLIMIT_FSIZE, "seconds": resource.RLIMIT_CPU}
    program = os.open(line[0], os.O_RDONLY | os.O_CLOEXEC)
    for limit in limits:
        kind, most = limit.split("=")
        if kind == "shut":
            shut(most)
        else:
            resource.setrlimit(kinds[kind], (int(most), int(most)))
    os.execve(program, line, {})


def put(room, path, octets):
    file = room / unfolded(path)
    file.parent.mkdir(parents=True, exist_ok=True)
    file.write_bytes(octets)


def furnish(program, room, line):
    """Executes a line that describes a folder; returns whether it was one."""
    word, _, rest = line.partition(" ")
    if word == "make":
        found = sent(program, [unfolded(w) for w in rest.split()], room)
        if found != "0 [][]":
            raise Malformed(f"{line}: {found[:200]}")
        return True
    if word not in ("file", "bytes", "zeros", "link", "fifo", "mode"):
        return False
    path, is_there, text = rest.partition(" = ")
    if not is_there:
        raise Malformed(f"{line}: no file")
    if word == "link":
        os.symlink(unfolded(text), room / unfolded(path))
    elif word == "fifo":
        os.mkfifo(room / unfolded(path))
    elif word == "mode":
        os.chmod(room / unfolded(path), int(text, 8))
    elif word == "zeros":
        put(room, path, b"")
        os.truncate(room / path, int(text))
    else:
        put(room, path, bytes.fromhex(unfolded(text)) if word == "bytes" else bytes_of(unfolded(text)))
    return True


def looked_at(room, path):
    """What stands in a file of a room."""
    file = room / path
    if not file.is_file():
        return "none"
    octets = file.read_bytes()
    text = text_of(octets)
    is_text = text.isprintable() or text.replace("\n", "").isprintable()
    return f"[{text}]" if is_text else f"{len(octets)} bytes"


def stepped(program, room, step):
    """What a step of a row of commands comes to."""
    words = spread(step).split() if step.strip() != "∅" else []
    if words[:1] and words[0].startswith("?"):
        return looked_at(room, unfolded(words[0][1:]))
    if words[:1] and words[0].startswith("%"):
        return f"{stat.S_IMODE(os.stat(room / unfolded(words[0][1:])).st_mode):o}"
    front = list(itertools.takewhile(FRONT.fullmatch, words))
    words = [word.translate(SIGNS) for word in words[len(front) :]]
    limits = [word for word in front if "=" in word]
    return sent(*limited(program, words, limits), room, front)


def limited(program, words, limits):
    """The program and the words of a run within limits."""
    if not limits:
        return program, words
    return sys.executable, [str(HERE / "run.py"), "--within", str(len(limits)), *limits, program, *words]


def in_order(program, room, asked, wanted):
    """What the steps of a row of commands come to, and what is wanted of them."""
    steps, answers = asked.split(" ; "), [unfolded(answer) for answer in wanted.split(" ; ")]
    if len(steps) != len(answers):
        raise Malformed("a row has as many answers as steps")
    return [(stepped(program, room, step), answer) for step, answer in zip(steps, answers)]


def furnished(room, asked):
    """Writes the files of a row of templates; returns the words after the command, the options, and the limits."""
    *parts, source = unfolded(asked).split("¦")
    words, options, limits = ["d", "t"], [], []
    put(room, "d/t", bytes_of(source))
    for part in parts:
        name, is_template, other = part.partition(": ")
        if part.startswith(("{", "[")):
            put(room, "context", bytes_of(part))
            words.append("context")
        elif part.startswith("--"):
            options += part.split()
        elif re.fullmatch("seconds=[0-9]+", part):
            limits.append(part)
        elif is_template and name not in ("", "t") and "/" not in name:
            put(room, f"d/{name}", bytes_of(other))
        else:
            raise Malformed(f"no part of a row: {part[:80]!r}")
    return words, options, limits


def rendered(program, room, asked, wanted):
    """What a row of templates comes to, and what is wanted of it."""
    words, options, limits = furnished(room, asked)
    line = limited(program, ["render", *words, *options], limits)
    return [(sent(*line, room), answer_of(unfolded(wanted)))]


def explained(program, room, asked, wanted):
    """What `explain` of a row of explanations comes to, and beside it `compile`, or `render` for a context; and what is wanted of both."""
    words, options, limits = furnished(room, asked)
    line = limited(program, ["explain", *words, *options], limits)
    if "context" in words:
        explanation, other = run_explanations.answers(room / "d", unfolded(wanted))
        beside = ["render", *words, *options]
    else:
        explanation, other = explanations.answers(room / "d", unfolded(wanted))
        beside = ["compile", *words, "image", *(option for option in options if option in READING)]
    return [(sent(*line, room), explanation), (sent(program, beside, room), other)]


KINDS = {"templates": rendered, "explanations": explained, "commands": in_order}


def cut(text, most=400):
    return text if len(text) <= most else f"{text[:most]}.. ({len(text)} characters)"


def copied(file, to):
    """Copies a file; a huge one, which no row writes, has the same bytes under two names."""
    if stat.S_ISFIFO(os.stat(file).st_mode):
        return os.mkfifo(to)
    return os.link(file, to) if os.stat(file).st_size > HUGE else shutil.copy(file, to)


def judged(program, place, row, kind, template):
    """Returns the failure of a row, or nothing."""
    asked, is_row, wanted = row.partition(" => ")
    with tempfile.TemporaryDirectory(prefix="jt-rows-") as made:
        room = pathlib.Path(made, "room")
        try:
            if not is_row:
                raise Malformed("a row has no =>")
            shutil.copytree(template, room, symlinks=True, copy_function=copied)
            found = KINDS[kind](program, room, asked, wanted)
        except (Malformed, OSError, ValueError, subprocess.TimeoutExpired) as error:
            return f"{place}: {cut(row)}\n    {cut(str(error))}"
    wrong = [f"\n    found  {cut(it)!r}\n    wanted {cut(was)!r}" for it, was in found if not is_wanted(it, was)]
    return f"{place}: {cut(row)}{''.join(wrong)}" if wrong else ""


def rows_of(program, file, rooms):
    """The rows of a file, each with its place, its kind and the room that it runs in a copy of."""
    kind, room = "templates", pathlib.Path(tempfile.mkdtemp(dir=rooms))
    for number, line in enumerate(pathlib.Path(file).read_text(encoding="utf-8").splitlines(), 1):
        line = line.strip()
        header = re.fullmatch("== ([a-z]+): .* ==", line)
        if header:
            kind, room = header[1], pathlib.Path(tempfile.mkdtemp(dir=rooms))
            if kind not in KINDS:
                raise Malformed(f"{file}:{number}: no kind of rows: {kind}")
        elif line and not line.startswith("# ") and line != "#":
            if kind != "commands" or not furnish(program, room, line):
                yield f"{file}:{number}", line, kind, room


def all_rows(program, file, rooms):
    """The rows of a file, or what is wrong with it."""
    try:
        rows = list(rows_of(program, file, rooms))
    except (Malformed, OSError, ValueError, subprocess.TimeoutExpired) as error:
        return [], [f"{file}: {cut(str(error))}"]
    return rows, [] if rows else [f"{file}: no row"]


def failures(program, files):
    """Returns the number of rows that pass, and the failures of rows and files."""
    if not os.access(program, os.X_OK) or not os.path.isfile(program):
        return 0, [f"{program}: no program"]
    with tempfile.TemporaryDirectory(prefix="jt-rows-") as rooms:
        found = [all_rows(program, file, rooms) for file in files]
        rows = [row for of_file, _ in found for row in of_file]
        wrong = [it for _, of_file in found for it in of_file]
        with concurrent.futures.ThreadPoolExecutor(os.cpu_count()) as pool:
            judgements = list(pool.map(lambda row: judged(program, *row), rows))
    failed = [it for it in judgements if it]
    return len(rows) - len(failed), wrong + failed


def end(passed, wrong):
    """Prints what failed and the numbers, and ends the script; the status is 1 if something failed or nothing passed."""
    for it in wrong:
        print(it)
    print(f"{passed} passed, {len(wrong)} failed")
    sys.exit(1 if wrong or not passed else 0)


def main():
    if sys.argv[1:2] == ["--within"]:
        count = int(sys.argv[2])
        within(sys.argv[3 : 3 + count], sys.argv[3 + count :])
    if len(sys.argv) < 2:
        sys.exit("usage: tests/run.py PROGRAM [FILE ..]")
    passed, wrong = failures(os.path.realpath(sys.argv[1]), sys.argv[2:] or [HERE / "rows" / name for name in FILES])
    end(passed, wrong)


if __name__ == "__main__":
    main()
