#!/usr/bin/env python3
"""Explains the templates below a folder, and counts the refusals by code: bench/real_templates.py PROGRAM FOLDER

FOLDER has the files of packages, as `dpkg -x` unpacks them. A template is a text with a tag of Jinja that is no source of a program and no
document; the files of its folder are its library. Each template that does not compile is reported with its explanation. The last lines are
the counts.
"""
import collections
import pathlib
import re
import subprocess
import sys

TAG = re.compile(r"\{%.*?%\}|\{\{.*?\}\}", re.S)
OTHERS = {
    *(".py", ".js", ".css", ".sh", ".go", ".ps1", ".psm1", ".cs", ".sty", ".cls", ".ist"),
    *(".yml", ".yaml", ".json", ".ini", ".cfg", ".md", ".rst", ".po", ".ipynb"),
}
CODE = re.compile(r"(?:.*: )?([A-Z][0-9]+ \w+|ok)(?: \".*)?")


def is_template(path):
    """Returns whether a file is a text with a tag, and no source of a program and no document."""
    if path.suffix in OTHERS or path.is_symlink() or not path.is_file():
        return False
    try:
        text = path.read_text(encoding="utf-8")
    except UnicodeDecodeError:
        return False
    return "\0" not in text and TAG.search(text) is not None


def explained(program, path):
    """Returns what the program says of a template, and the code of its refusal."""
    run = subprocess.run([program, "explain", path.parent, path.name], capture_output=True, text=True, timeout=60)
    found = CODE.fullmatch(run.stdout.split("\n")[0])
    if run.returncode or not found:
        return run.stdout + run.stderr, f"status {run.returncode}"
    return run.stdout, found[1]


def main():
    if len(sys.argv) != 3:
        sys.exit("usage: bench/real_templates.py PROGRAM FOLDER")
    program, folder, counts = sys.argv[1], pathlib.Path(sys.argv[2]), collections.Counter()
    for path in sorted(filter(is_template, folder.rglob("*"))):
        text, code = explained(program, path)
        counts[code] += 1
        if code != "ok":
            print(path.relative_to(folder), *text.rstrip("\n").split("\n"), sep="\n    ")
    print(f"{sum(counts.values())} templates", *(f"{count:5} {code}" for code, count in counts.most_common()), sep="\n")


if __name__ == "__main__":
    main()
