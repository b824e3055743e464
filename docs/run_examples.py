#!/usr/bin/env python3
"""Runs the examples of documents and compares what they show: docs/run_examples.py PROGRAM [DOCUMENT ..]

Without documents these are DOCUMENTS, beside this script or above it. The last line is 'N passed, M failed', and the status is 1 if
one failed. A document without an example, and a fenced block that is neither of the two below, are failures too.

A fenced block is an example of one of two kinds:

    console      lines that begin with `$ ` are commands; the lines after a command are all that it prints, on both outputs
    other words  a file: the line before the block ends with its name in backquotes and a colon

A heading of level 2 begins a fresh folder, if it has no number. So the steps of a tutorial (`## 2. A loop`) share one folder, and
each recipe has its own. The commands of a block run in one bash, in that folder. There `jt` is PROGRAM, and Python finds
bindings/python/src and a shared library of the tree in which PROGRAM was built, or the one beside PROGRAM, where
`tools/try.sh --keep` leaves it. JT_LIBRARY names another library, PYTHONPATH another folder.

One line end at the end of an output is not compared: a text of `jt` has none, and a document cannot show that. Nor is `-unproved`,
with which the version of a program without a proof ends.
"""
import difflib
import os
import pathlib
import re
import subprocess
import sys
import tempfile

HERE = pathlib.Path(__file__).resolve().parent
TOP = HERE.parent
DOCUMENTS = [TOP / "README.md", HERE / "tutorial.md", HERE / "cookbook.md", HERE / "versions.md", TOP / "SECURITY.md"]
DOCUMENTS.append(TOP / "examples" / "README.md")
SECONDS = 60
FENCE = re.compile(r"^(?P<fence>```+)(?P<words>[^`\n]*)\n(?P<body>.*?)^(?P=fence)$", re.M | re.S)
NAME = re.compile(r"`([^`\n]+)`:\n\n\Z")
FRESH = re.compile(r"^## (?!\d)", re.M)
MARK = "\x1eend of a command\x1e"


class Malformed(Exception):
    """A block that is neither commands nor a file."""


def blocks(text):
    """The fenced blocks of a document, as their line, whether a fresh folder begins before them, kind, file name and body."""
    end = 0
    for found in FENCE.finditer(text):
        before = text[end : found.start()]
        named = NAME.search(before)
        line = text.count("\n", 0, found.start()) + 1
        yield line, bool(FRESH.search(before)), found["words"].strip(), named[1] if named else None, found["body"]
        end = found.end()


def commands(body):
    """The commands of a console block, each with the lines that it prints."""
    shown = []
    for line in body.splitlines():
        if line.startswith("$ "):
            shown.append((line[2:], []))
        elif shown:
            shown[-1][1].append(line)
        else:
            raise Malformed("its first line is no command")
    if not shown:
        raise Malformed("it has no command")
    return shown


def printed(lines, folder, settings):
    """The outputs of commands that run one after another in one bash."""
    # (if a command ends the shell, the later ones print nothing)
    after = f"s=$?; printf %s '{MARK}'; (exit $s)"
    script = "exec 2>&1\n" + "".join(f"{line}\n{after}\n" for line in lines)
    words = ["bash", "-c", script]
    options = {"stdin": subprocess.DEVNULL, "stdout": subprocess.PIPE, "stderr": subprocess.STDOUT}
    ran = subprocess.run(words, cwd=folder, env=settings, timeout=SECONDS, **options)
    found = ran.stdout.decode("utf-8", "replace").split(MARK)
    return [*found, *[""] * len(lines)][: len(lines)]


def without_end(text):
    """A text without one line end at its end."""
    return text[:-1] if text.endswith("\n") else text


class Trials:
    """The examples that passed and failed."""

    def __init__(self, room, settings):
        self.room, self.settings, self.passed, self.failed = room, settings, 0, 0

    def fails(self, where, why):
        self.failed += 1
        print(f"{where}: {why}")

    def folder(self, path):
        """A fresh folder. That of examples/README.md has examples/ in it, as a checkout has."""
        folder = pathlib.Path(tempfile.mkdtemp(dir=self.room))
        if path.resolve().parent.name == "examples":
            (folder / "examples").symlink_to(path.resolve().parent)
        return folder

    def document(self, path):
        """Runs the examples of one document."""
        folder, shown = self.folder(path), 0
        for line, is_fresh, words, name, body in blocks(path.read_text(encoding="utf-8")):
            folder = self.folder(path) if is_fresh else folder
            where = f"{path.name}:{line}"
            try:
                if words == "console":
                    self.console(where, folder, commands(body))
                    shown += 1
                else:
                    self.file(folder, name, body)
            except (Malformed, OSError, subprocess.TimeoutExpired) as error:
                self.fails(where, error)
        if not shown:
            self.fails(path.name, "no example")

    def file(self, folder, name, body):
        """Writes a file that a document shows."""
        if name is None:
            raise Malformed("it is no console, and the line before it names no file")
        to = folder / name
        to.parent.mkdir(parents=True, exist_ok=True)
        to.write_bytes(body.encode())

    def console(self, where, folder, shown):
        """Runs the commands of a block, and counts each."""
        found = printed([command for command, _ in shown], folder, self.settings)
        for (command, lines), text in zip(shown, found):
            wanted, text = "\n".join(lines), without_end(text).replace("-unproved", "")
            if text == wanted:
                self.passed += 1
            else:
                self.fails(where, f"$ {command}")
                print(*difflib.unified_diff(wanted.split("\n"), text.split("\n"), "shown", "printed", lineterm=""), sep="\n")


def prepared(program, room):
    """The settings of the commands: the program is called `jt`, and Python finds its module and library."""
    bin_folder = room / "bin"
    bin_folder.mkdir()
    (bin_folder / "jt").symlink_to(program)
    settings = {**os.environ, "PATH": f"{bin_folder}:{os.environ['PATH']}", "LC_ALL": "C.UTF-8", "PYTHONDONTWRITEBYTECODE": "1"}
    settings.setdefault("PYTHONPATH", str(TOP / "bindings" / "python" / "src"))
    if "-unproved" in subprocess.run([program, "--version"], capture_output=True, text=True).stderr:
        # (a library without a proof warns)
        settings.setdefault("PYTHONWARNINGS", "ignore")
    if "JT_LIBRARY" not in settings and (program.parent / "libjt.so").exists():
        settings["JT_LIBRARY"] = str(program.parent / "libjt.so")
    for crates in (program.parent / "../..", TOP / "crates"):
        archive = crates / "jt_ffi" / "out" / "libjt_ffi.a"
        if "JT_LIBRARY" not in settings and archive.exists():
            build = ["bash", str(TOP / "bindings" / "build.sh"), str(archive), str(room)]
            # (without a library the examples in Python fail, and say why)
            if subprocess.run(build, stdout=subprocess.DEVNULL).returncode == 0:
                settings["JT_LIBRARY"] = str(room / "libjt.so")
    return settings


def main():
    if len(sys.argv) < 2:
        sys.exit("usage: docs/run_examples.py PROGRAM [DOCUMENT ..]")
    program = pathlib.Path(sys.argv[1]).resolve()
    documents = [pathlib.Path(name) for name in sys.argv[2:]] or DOCUMENTS
    with tempfile.TemporaryDirectory() as name:
        room = pathlib.Path(name)
        trials = Trials(room, prepared(program, room))
        for path in documents:
            trials.document(path)
    print(f"{trials.passed} passed, {trials.failed} failed")
    sys.exit(1 if trials.failed else 0)


if __name__ == "__main__":
    main()
