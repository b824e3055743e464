#!/usr/bin/env python3
"""Refuses each single growth of memory, and lets each read and each write fail: tests/growths.py PROGRAM [TRIALS] [--table]

TRIALS is the program of jt_trials, which is found beside PROGRAM's crate; its main.rt describes its trials. `cc` or a clang builds
refuse.c, which is preloaded and refuses the requested growth. growth_cases.py has the cases.

Lines of the program: for N from 1, until the line needs no Nth growth, growth N is refused, and in a second run growth N and all later
ones. The result is status 6, `jt: no memory`, nothing on standard output, and OUT unchanged. If growth N alone is refused, the result may
also be that of ample memory, since the kit's vector asks for less after a refusal.

Calls: with growth N refused, exactly one call returns NoMemory. The next call of the same kind, on what the first one left, and all other
calls return what they return with ample memory. A run that writes has written a prefix of its text. A lost session stays lost until it is
closed, which gives no outcome, and each other session ends as it does alone. With ample memory no call returns NoMemory.

Writes: a run into a writer that fails at its Nth call leaves exactly the bytes that were taken before. If standard output is closed, full,
without a reader or short of room, the status is 5, and a prefix of the text is written. Without a reader nothing is said of it.

Reads: a line that reads files in pieces of 16 bytes meets a failing first read, second read, and so on: status 5 with that file's name,
nothing on standard output, and OUT unchanged.

Renaming: if OUT cannot be replaced by a renamed file, it is written in place. Its mode stays, and no other file is left.

A row is a line, a call of a trial, a way of writing, a way of reading or a renaming; --table prints the number of refused growths of each. The last
line is 'N passed, M failed', and the status is 1 if one failed.
"""
import collections
import concurrent.futures
import contextlib
import json
import mmap
import os
import pathlib
import re
import shutil
import struct
import subprocess
import sys
import tempfile

import programs
from growth_cases import CALLS, MORE_CALLS, TEMPLATES, WRITES, X, cases, in_folder

HERE = pathlib.Path(__file__).resolve().parent
NO_MEMORY = (6, b"", b"jt: no memory\n")
LIMIT = 1 << 22
PART = 400
# The way of writing in which the reading end of a pipe is closed.
UNREAD = "nobody reads"
# The line of a trial of writes: the pieces, the failing call, the calls, whether the sink has failed, the result, the text.
WRITTEN = re.compile(r'(\d+) (\d+) (\d+) (true|false) (.*) (".*")')
LONG = "{% for i in range(20000) %}{{ i }},{% endfor %}"


def built(folder):
    """Builds the shim by the first compiler that is installed."""
    kit = pathlib.Path(os.path.realpath(shutil.which("rt") or "/rt")).parent.parent / "toolchain/bin/clang"
    for compiler in ("cc", "clang", str(kit)):
        if shutil.which(compiler):
            for more in ([], ["-nostdlib", "-fuse-ld=lld"]):
                words = [compiler, "-O2", "-shared", "-fPIC", "-fno-builtin", *more, "-o", f"{folder}/refuse.so", str(HERE / "refuse.c")]
                if subprocess.run(words, capture_output=True).returncode == 0:
                    return f"{folder}/refuse.so"
    return None


class Runner:
    """Runs a program in the folder that this process is in, with a growth refused."""

    def __init__(self, program, shim, stdin="/dev/null"):
        self.program, self.shim, self.stdin = program, shim, stdin
        self.out, self.err = os.memfd_create("out"), os.memfd_create("err")
        file, self.counts = tempfile.mkstemp(prefix="jt-growths-")
        os.ftruncate(file, 16)
        self.map = mmap.mmap(file, 16)
        os.close(file)

    def run(self, words, refuse):
        """The status and both outputs; how many growths there were, and how many were refused."""
        self.map[:] = bytes(16)
        for file in (self.out, self.err):
            os.ftruncate(file, 0)
            os.lseek(file, 0, os.SEEK_SET)
        given = os.open(self.stdin, os.O_RDONLY)
        env = {"LD_PRELOAD": self.shim, "REFUSE": str(refuse), "GROWTHS": self.counts}
        actions = [(os.POSIX_SPAWN_DUP2, given, 0), (os.POSIX_SPAWN_DUP2, self.out, 1), (os.POSIX_SPAWN_DUP2, self.err, 2)]
        ended = os.waitpid(os.posix_spawn(self.program, [self.program, *words], env, file_actions=actions), 0)[1]
        os.close(given)
        said = [os.pread(file, LIMIT, 0) for file in (self.out, self.err)]
        return (os.waitstatus_to_exitcode(ended), *said), struct.unpack("2Q", self.map[:])

    def close(self):
        os.unlink(self.counts)
        os.close(self.out)
        os.close(self.err)


class Room:
    """A folder with the files of a case, and what stands in its OUT."""

    def __init__(self, program, shim, case):
        self.case, self.folder = case, tempfile.TemporaryDirectory(prefix="jt-growths-")
        for name, data in case.files.items():
            path = pathlib.Path(self.folder.name, name)
            path.parent.mkdir(parents=True, exist_ok=True)
            path.write_bytes(data)
        self.out = pathlib.Path(self.folder.name, case.out) if case.out else None
        self.before = b"kept" if case.kept else None
        self.back = os.getcwd()
        os.chdir(self.folder.name)
        self.runner = Runner(program, shim)

    def run(self, refuse):
        """The answer, what then stands in OUT, and the counts."""
        if self.out and self.case.kept:
            self.out.write_bytes(self.before)
        elif self.out:
            self.out.unlink(missing_ok=True)
        answer, counts = self.runner.run(self.case.words, refuse)
        return answer, self.out.read_bytes() if self.out and self.out.is_file() else None, counts

    def close(self):
        self.runner.close()
        os.chdir(self.back)
        self.folder.cleanup()


def tried_line(program, shim, case, numbers):
    """What is wrong with a line of the program where these growths are refused, and how many of them had no effect."""
    wrong, same = [], 0
    with contextlib.closing(Room(program, shim, case)) as room:
        ample, made, _ = room.run(0)
        for n in numbers:
            answer, left, counts = room.run(n)
            if answer == NO_MEMORY and left == room.before:
                pass
            elif answer == ample and left == made:
                same += 1
            else:
                wrong.append(f"{case.name}: growth {n}: {str(answer)[:200]}, OUT {str(left)[:60]}")
            if counts[1] != 1:
                wrong.append(f"{case.name}: growth {n}: {counts[1]} were refused")
            answer, left, _ = room.run(f"{n}..")
            if answer != NO_MEMORY or left != room.before:
                wrong.append(f"{case.name}: growth {n} and all later ones: {str(answer)[:200]}, OUT {str(left)[:60]}")
    return wrong, same


def ample_line(program, shim, case):
    """How many growths a line makes with ample memory, and what is wrong with its answer."""
    with contextlib.closing(Room(program, shim, case)) as room:
        ample, made, (growths, _) = room.run(0)
        wrong = [f"{case.name}: {ample[2][:100]} of ample memory"] if ample[0] == 6 or b"no memory" in ample[2] else []
        beyond, left, (_, refused) = room.run(growths + 1)
        if (beyond, left, refused) != (ample, made, 0):
            wrong.append(f"{case.name}: other answers of ample memory")
    return growths, wrong


def wanted_of_session(ample, at, lost):
    """Lines of ample memory, but for the session that is lost at one of them."""
    wanted = list(ample)
    for n in range(at, len(ample)):
        name = ample[n].partition(": ")[0]
        if name in (f"turn {lost}", f"outcome {lost}"):
            wanted[n] = f"{name}: Err(NoMemory)"
        elif name == f"close {lost}":
            wanted[n] = f"{name}: Ok(None)"
    return wanted


def answer_wanted(found, ample, at):
    """Returns the wanted line of a call that returns NoMemory and then, repeated, its usual result."""
    name, _, answer = ample[at].partition(": ")
    if name == "run_to":
        begun = re.match(r"run_to: NoMemory behind \[(.*?)\], then ", found)
        text = re.search(r"\[(.*)\]$", answer)[1]
        return f"{begun[0]}{answer}" if begun and text.startswith(begun[1]) else "a beginning of the text"
    if name == "advance":
        return f"advance: NoMemory, lost true, Err(NoMemory), Err(NoMemory), None, then {answer}"
    if name in ("insert", "escape_into"):
        before = ample[at - 1].partition(": ")
        behind = before[2] if before[0] == name else {"insert": "0 names", "escape_into": "[]"}[name]
        return f"{name}: NoMemory behind {behind}, then {answer}"
    return f"{name}: NoMemory, then {answer}"


def judged_call(found, ample):
    """Returns the call that returned NoMemory, or `outside` or `no effect`; and the failure, if any."""
    status, out, err = found[0], found[1].decode(errors="replace"), found[2]
    if status == 6 and "\n".join(ample).startswith(out.rstrip("\n")) and not err:
        return "outside of the calls", None
    lines = out.splitlines()
    if status or err or len(lines) != len(ample):
        return "wrong", f"status {status}, {len(lines)} lines, {err[:100]}"
    at = next((n for n, line in enumerate(lines) if line != ample[n]), None)
    if at is None:
        return "no effect", None
    turn = re.fullmatch(r"turn ([0-9]+)", ample[at].partition(": ")[0])
    wanted = wanted_of_session(ample, at, turn[1]) if turn else [*ample[:at], answer_wanted(lines[at], ample, at), *ample[at + 1:]]
    other = next((n for n, line in enumerate(lines) if line != wanted[n]), None)
    if other is not None:
        return "wrong", f"{lines[other]!r}, wanted {wanted[other]!r}"
    return "turn" if turn else ample[at].partition(": ")[0], None


def tried_calls(trials, shim, stdin, numbers):
    """Returns how often each call returned NoMemory when these growths were refused, and the failures."""
    by, wrong = collections.Counter(), []
    with contextlib.closing(Runner(trials, shim, stdin)) as runner:
        ample = runner.run([], 0)[0][1].decode().splitlines()
        for n in numbers:
            found, counts = runner.run([], n)
            name, fault = judged_call(found, ample)
            by[name] += 1
            if fault or counts[1] != 1:
                wrong.append(f"calls: growth {n}: {fault or f'{counts[1]} were refused'}")
    return wrong, by


def ample_calls(trials, shim, stdin):
    """Returns the number of growths of a trial with ample memory, and its failures."""
    with contextlib.closing(Runner(trials, shim, stdin)) as runner:
        (status, out, err), (growths, _) = runner.run([], 0)
    return growths, [f"calls: {it}" for it in (status, err, b"NoMemory" in out and "NoMemory with ample memory") if it]


def written(trials):
    """Returns the failures of the writes of each row."""
    for row in WRITES:
        ran = subprocess.run([trials], input=f"writes {row}\n".encode(), capture_output=True, timeout=60)
        found = [WRITTEN.fullmatch(line) for line in ran.stdout.decode().splitlines()]
        lines = [line.groups() for line in found if line]
        wrong = [] if ran.returncode == 0 and len(lines) > 5 and all(found) else [f"status {ran.returncode}, {len(lines)} lines"]
        for piece in sorted({line[0] for line in lines}, key=int):
            wrong += wrong_pieces(int(piece), [line[1:] for line in lines if line[0] == piece])
        yield f"writes, {row[:40]}", [f"writes, {row[:40]}: {it}" for it in wrong]


def wrong_pieces(piece, lines):
    """What is wrong where a writer that takes such pieces fails at its first call, at its second one and so on."""
    *failing, (_, calls, has_failed, answer, text) = lines
    text = json.loads(text)
    if not re.match(r"Ok\((Whole|Fault)", answer) or has_failed != "false" or int(calls) != len(failing):
        yield f"pieces of {piece}: {answer}, {calls} calls of {len(failing)}"
    before = -1
    for n, (fails_at, calls, has_failed, answer, taken) in enumerate(failing, 1):
        taken = json.loads(taken)
        if (int(fails_at), int(calls), has_failed, answer) != (n, n, "true", "Err(Write)"):
            yield f"pieces of {piece}, call {n}: {calls} calls, {has_failed}, {answer}"
        exact = len(taken) == n - 1 if piece == 1 else before < len(taken) <= piece * (n - 1)
        if not text.startswith(taken) or not exact:
            yield f"pieces of {piece}, call {n}: {taken!r} of {text!r}"
        before = len(taken)


def outputs():
    """Ways in which standard output fails: a file, and how many bytes it takes at most."""
    def broken():
        reads, writes = os.pipe()
        os.close(reads)
        return writes, 0

    def full_pipe():
        reads, writes = os.pipe()
        os.set_blocking(writes, False)
        return writes, reads

    yield "full", lambda: (os.open("/dev/full", os.O_WRONLY), 0)
    yield "that cannot be written", lambda: (os.open("/dev/null", os.O_RDONLY), 0)
    yield UNREAD, broken
    yield "with little room", full_pipe
    yield "closed", lambda: (-1, 0)


def ends(program):
    """What is wrong where standard output fails."""
    lines = {"run": ["run", "x"], "render": ["render", "d", "long"], "explain": ["explain", "d", "long"], "check": ["check", "x"],
             "show": ["show", "x"], "turns": ["turns", "x", "c"]}
    with tempfile.TemporaryDirectory(prefix="jt-growths-") as room:
        os.mkdir(f"{room}/d")
        for name, data in (("d/long", LONG.encode()), ("x", X), ("c", b"{}")):
            pathlib.Path(room, name).write_bytes(data)
        for how, opened in outputs():
            for name, words in lines.items():
                yield f"{name}, output {how}", wrong_end(program, room, words, how, opened)


def wrong_end(program, room, words, how, opened):
    whole = subprocess.run([program, *words], cwd=room, capture_output=True, env={}, timeout=60).stdout
    out, reads = opened()
    closing = (lambda: os.close(1)) if out < 0 else None
    ran = subprocess.run([program, *words], cwd=room, env={}, stdin=subprocess.DEVNULL, stdout=None if out < 0 else out,
                         stderr=subprocess.PIPE, preexec_fn=closing, timeout=60)
    if out >= 0:
        os.close(out)
    taken = b""
    while reads and (more := os.read(reads, LIMIT)):
        taken += more
    if reads:
        os.close(reads)
    small = how == "with little room" and len(whole) < 4096
    wanted = (0, b"") if small else (5, b"" if how == UNREAD else b"jt: file -\n")
    is_begun = taken == whole if small else whole.startswith(taken) and len(taken) < len(whole)
    return [] if (ran.returncode, ran.stderr) == wanted and is_begun else [
        f"{' '.join(words)}, output {how}: {ran.returncode} {ran.stderr[:100]}, {len(taken)} of {len(whole)} bytes"]


def reads(program, shim):
    """What is wrong where the files of a line fail while they are read."""
    files = {"d/a": b"a" * 40, "d/t": b"{{ x }}" * 8, "x": X, "y": X, "c": b'{"x": "a longer text"}', "e": b" " * 20 + b"{}"}
    lines = {"run x c": "x c", "check x": "x", "show x": "x", "render d t c": "d/a d/t c", "compile d t out": "d/a d/t",
             "explain d t": "d/a d/t", "needs d t": "d/a d/t", "turns x c y e": "x c y e", "upgrade x out": "x"}
    with tempfile.TemporaryDirectory(prefix="jt-growths-") as room:
        os.mkdir(f"{room}/d")
        for name, data in files.items():
            pathlib.Path(room, name).write_bytes(data)
        for line, paths in lines.items():
            yield f"{line}, its reads", wrong_reads(program, shim, room, line.split(), paths.split())


def wrong_reads(program, shim, room, words, paths):
    """Goes through the reads of a line until none fails: each file has three at least, and they are read in this order."""
    out, failed = pathlib.Path(room, "out"), []
    for n in range(1, 100):
        out.write_bytes(b"kept")
        ran = subprocess.run([program, *words], cwd=room, env={"LD_PRELOAD": shim, "UNREAD": str(n)}, stdin=subprocess.DEVNULL,
                             capture_output=True, timeout=60)
        if ran.returncode == 0:
            break
        path = re.fullmatch(rb"jt: file (.*)\n", ran.stderr)
        if ran.returncode != 5 or ran.stdout or not path or out.read_bytes() != b"kept":
            return [f"read {n}: {ran.returncode} {ran.stderr[:100]}, OUT {out.read_bytes()[:60]}"]
        failed.append(path[1].decode())
    found = [path for at, path in enumerate(failed) if at == 0 or failed[at - 1] != path]
    few = [path for path in paths if failed.count(path) < 3]
    return [f"{' '.join(failed)}"] if found != paths or few else []


def renamings(program, shim):
    """What is wrong where OUT can be written, but not replaced by a renamed file."""
    with tempfile.TemporaryDirectory(prefix="jt-growths-") as room:
        os.mkdir(f"{room}/d")
        pathlib.Path(room, "d/t").write_text("x")
        subprocess.run([program, "compile", "d", "t", "image"], cwd=room, check=True, timeout=60)
        image, out = pathlib.Path(room, "image").read_bytes(), pathlib.Path(room, "out")
        for line in ("compile d t out", "upgrade image out"):
            out.write_bytes(b"kept")
            out.chmod(0o600)
            ran = subprocess.run([program, *line.split()], cwd=room, env={"LD_PRELOAD": shim, "UNRENAMED": "1"},
                                 stdin=subprocess.DEVNULL, capture_output=True, timeout=60)
            found = (ran.returncode, ran.stderr, out.read_bytes(), out.stat().st_mode & 0o777, sorted(os.listdir(room)))
            wanted = (0, b"", image, 0o600, ["d", "image", "out"])
            yield f"{line}, without renaming", [] if found == wanted else [str(found)]


def image_maker(program):
    """What compiles templates to an image."""
    def image_of(templates):
        with tempfile.TemporaryDirectory(prefix="jt-growths-") as room:
            for name, source in in_folder(templates).items():
                path = pathlib.Path(room, name)
                path.parent.mkdir(exist_ok=True)
                path.write_text(source)
            subprocess.run([program, "compile", "d", "t", "out"], cwd=room, check=True, timeout=60)
            return pathlib.Path(room, "out").read_bytes()

    return image_of


def chunks(growths):
    return [range(at, min(at + PART, growths + 1)) for at in range(1, growths + 1, PART)]


class Rows:
    """The numbers of rows that passed and failed."""

    def __init__(self, table):
        self.passed = self.failed = 0
        self.table = table

    def tell(self, name, wrong, said=""):
        self.passed, self.failed = self.passed + (not wrong), self.failed + bool(wrong)
        if self.table or wrong:
            print(f"{name}{': ' if said else ''}{said}")
        for text in wrong[:5]:
            print(f"    {text}")


def lines_refused(pool, rows, program, shim):
    """Refuses each growth of each line, and returns their number."""
    found = cases(image_maker(program))
    ample = [(case, pool.submit(ample_line, program, shim, case)) for case in found]
    tried = [(case, *job.result()) for case, job in ample]
    jobs = [(case, growths, wrong, [pool.submit(tried_line, program, shim, case, part) for part in chunks(growths)])
            for case, growths, wrong in tried]
    total = 0
    for case, growths, wrong, parts in jobs:
        same = 0
        for part in parts:
            more, had_none = part.result()
            wrong, same = wrong + more, same + had_none
        total += growths
        rows.tell(case.name, wrong, f"{growths} growths, {same} refused without effect")
    return total


def calls_refused(pool, rows, trials, shim, folder):
    """Refuses each growth of the calls, and returns their number."""
    stdin = pathlib.Path(folder, "calls")
    stdin.write_text("\n".join([*CALLS, *MORE_CALLS]) + "\n", encoding="utf-8")
    growths, wrong = ample_calls(trials, shim, str(stdin))
    by = collections.Counter()
    for part in [pool.submit(tried_calls, trials, shim, str(stdin), part) for part in chunks(growths)]:
        more, found = part.result()
        wrong, by = wrong + more, by + found
    for name, count in sorted(by.items()):
        if name not in ("wrong", "no effect", "outside of the calls"):
            rows.tell(name, [], f"{count} growths")
    rows.tell("all calls", wrong, f"{growths} growths; {by['no effect']} refused without effect, {by['outside of the calls']} outside")
    return growths


def main():
    program, trials = programs.asked([word for word in sys.argv[1:] if word != "--table"], " [--table]")
    with tempfile.TemporaryDirectory(prefix="jt-growths-") as folder:
        shim = built(folder)
        if not shim:
            print("tests/growths.py: no compiler of C\n0 passed, 1 failed")
            sys.exit(1)
        rows = Rows("--table" in sys.argv)
        with concurrent.futures.ProcessPoolExecutor(os.cpu_count()) as pool:
            total = lines_refused(pool, rows, program, shim) + calls_refused(pool, rows, trials, shim, folder)
        for name, wrong in [*written(trials), *ends(program), *reads(program, shim), *renamings(program, shim)]:
            rows.tell(name, wrong)
    print(f"{total} growths were refused, each by itself")
    print(f"{rows.passed} passed, {rows.failed} failed")
    sys.exit(1 if rows.failed or not rows.passed else 0)


if __name__ == "__main__":
    main()
