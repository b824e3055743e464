"""The command `python -m jt each`: runs an image for each line of a file."""
import argparse
import contextlib
import os
import sys
import time
from concurrent.futures import BrokenExecutor
from dataclasses import fields
from typing import IO, Iterator, List, NoReturn

from ._each import Result
from ._errors import NoMemory, Refused
from ._images import Budget, Image

# The statuses of the program `jt`, where they apply. FAULT states that a line is no text.
DONE, FAULT, USAGE, REFUSED, FILE, MEMORY = 0, 1, 2, 3, 5, 6
DIED, INTERRUPTED = 7, 130
_HELP = """\
CONTEXTS has a JSON object on each line; - is standard input. The output has a line for each of
them, in their order, with one of

    {"text": TEXT}
    {"fault": {"code": "F2", "name": "Undefined", "template": NAME, "line": NUMBER}}
    {"spent": FIELD OF THE BUDGET}
    {"refused": {"code": "X3", "name": "NotWhole", "path": PATH, "what": WORDS}}
    {"no_memory": true}

The status is 0 if each line that was run is a text, 1 if not, 2 for a misuse, 3 if the image is
refused, 5 if a file cannot be read or written, 6 if memory is refused, 7 if a process dies. What is
written then is whole and in order, and the message has the line to go on with.
"""
# The seconds between two states of the progress bar, and its width.
_TICK, _WIDTH = 0.1, 30


class _End(Exception):
    """The end of the command, with its status and what is said of it."""

    def __init__(self, status: int, said: str) -> None:
        super().__init__(status, said)
        self.status, self.said = status, said


class Lines:
    """The lines of the contexts, from one of them on. It counts the bytes that were read."""

    def __init__(self, path: str, first: int) -> None:
        self.name, self.first, self.read = path, first, 0
        try:
            self.file: IO[bytes] = sys.stdin.buffer if path == "-" else open(path, "rb")
            self.size = os.fstat(self.file.fileno()).st_size
        except OSError as error:
            raise _End(FILE, f"file {path}: {error.strerror}") from None

    def __iter__(self) -> Iterator[bytes]:
        try:
            for number, line in enumerate(self.file, 1):
                self.read += len(line)
                if number >= self.first:
                    yield line.rstrip(b"\r\n")
        except OSError as error:
            raise _End(FILE, f"file {self.name}: {error.strerror}") from None


class Bar:
    """A progress bar on standard error, if that is a terminal."""

    def __init__(self, lines: Lines) -> None:
        self.lines, self.begin, self.shown = lines, time.monotonic(), 0.0
        self.is_shown = sys.stderr.isatty()

    def show(self, done: int, is_last: bool = False) -> None:
        """Shows the number of lines that are done, if it is time for that."""
        now = time.monotonic()
        if not self.is_shown or (now - self.shown < _TICK and not is_last):
            return
        self.shown = now
        part = min(1.0, self.lines.read / self.lines.size) if self.lines.size else 1.0
        bar = ("#" * round(part * _WIDTH)).ljust(_WIDTH)
        rate = done / max(now - self.begin, 0.001)
        state = f"[{bar}] {part:4.0%} {done:,} lines, {rate:,.0f} in a second"
        print(f"\r{state}\x1b[K", end="\n" if is_last else "", file=sys.stderr, flush=True)


def _parsed(words: List[str]) -> argparse.Namespace:
    """Returns the arguments. A misuse ends the process with status 2."""
    each = argparse.ArgumentParser(
        prog="python -m jt each",
        description="Runs an image for each line of a file.",
        epilog=_HELP,
        formatter_class=argparse.RawDescriptionHelpFormatter,
    )
    each.add_argument("image", metavar="IMAGE", help="a file of `jt compile`, or of `Image.save`")
    each.add_argument("contexts", metavar="CONTEXTS", help="a file of JSON lines")
    each.add_argument("--workers", type=_number, metavar="N", help="how many run at a time")
    each.add_argument("--processes", action="store_true", help="run in processes, not in threads")
    each.add_argument("--out", default="-", metavar="FILE", help="where the lines are written")
    start = each.add_mutually_exclusive_group()
    start.add_argument(
        "--from", dest="first", type=_number, default=1, metavar="N",
        help="go on with line N of CONTEXTS: keep N - 1 lines of FILE, and drop what follows",
    )
    start.add_argument(
        "--resume", action="store_true", help="go on after the last whole line of FILE"
    )
    for field in fields(Budget):
        each.add_argument(f"--{field.name}", type=int, metavar="N", default=field.default)
    return each.parse_args(words)


def _number(word: str) -> int:
    """Returns a number from 1 on."""
    number = int(word)
    if number < 1:
        raise ValueError(word)
    return number


def _budget(given: argparse.Namespace) -> Budget:
    try:
        return Budget(**{field.name: getattr(given, field.name) for field in fields(Budget)})
    except ValueError as error:
        raise _End(USAGE, str(error)) from None


def _image(path: str) -> Image:
    try:
        return Image.load(path)
    except OSError as error:
        raise _End(FILE, f"file {path}: {error.strerror}") from None
    except Refused as error:
        raise _End(REFUSED, str(error)) from None


def _output(given: argparse.Namespace) -> IO[bytes]:
    """Opens the output with the lines that are kept. `given.first` is the line to go on with."""
    if given.out == "-":
        if given.resume:
            raise _End(USAGE, "--resume needs --out FILE")
        return sys.stdout.buffer
    try:
        if not given.resume and given.first == 1:
            return open(given.out, "wb")
        out = open(given.out, "r+b" if os.path.exists(given.out) else "w+b")
        kept, end = 0, 0
        for line in out:
            if not line.endswith(b"\n") or (not given.resume and kept == given.first - 1):
                break
            kept, end = kept + 1, end + len(line)
    except OSError as error:
        raise _End(FILE, f"file {given.out}: {error.strerror}") from None
    if given.resume:
        given.first = kept + 1
    elif kept < given.first - 1:
        raise _End(USAGE, f"{given.out} has {kept} whole lines: go on with --from {kept + 1}")
    out.seek(end)
    out.truncate()
    return out


def each(given: argparse.Namespace) -> int:
    """Runs the command `each` and returns its status."""
    budget, image, out = _budget(given), _image(given.image), _output(given)
    lines = Lines(given.contexts, given.first)
    bar, done, failed = Bar(lines), 0, 0
    results = image.run_each(lines, budget, workers=given.workers, processes=given.processes)
    try:
        for result in results:
            out.write(_line(result))
            done += 1
            failed += result.error is not None
            bar.show(done)
        out.flush()
        bar.show(done, is_last=True)
    except BaseException as error:
        results.close()
        _stop(error, out, given, done)
    if failed:
        raise _End(FAULT, f"{failed} of {done} lines are no text")
    return DONE


def _line(result: Result) -> bytes:
    return (result.to_json() + "\n").encode("utf-8", "backslashreplace")


def _stop(error: BaseException, out: IO[bytes], given: argparse.Namespace, done: int) -> NoReturn:
    """Raises the end of a command that `error` stopped after some lines."""
    if isinstance(error, OSError):
        if out is not sys.stdout.buffer:
            # (What cannot be written is left out.)
            with contextlib.suppress(OSError):
                out.close()
        raise _End(FILE, f"file {given.out}: {error.strerror}") from None
    try:
        out.flush()
    except OSError:
        raise error from None
    rest = f"go on with --from {given.first + done}"
    if isinstance(error, KeyboardInterrupt):
        raise _End(INTERRUPTED, f"interrupted: {rest}") from None
    if isinstance(error, BrokenExecutor):
        raise _End(DIED, f"a process has died: {rest}") from None
    if isinstance(error, _End):
        raise _End(error.status, f"{error.said}: {rest}") from None
    raise error


def main(words: List[str]) -> int:
    """Runs the command of these words and returns its status."""
    given = _parsed(words)
    try:
        return each(given)
    except _End as end:
        print(f"jt: {end.said}", file=sys.stderr)
        return end.status
    except NoMemory:
        print("jt: no memory", file=sys.stderr)
        return MEMORY
