#!/usr/bin/env python3
"""Counts the lines of sources, definitions and proofs by crate, without blank lines and comments: tools/lines.py [COMMIT]

With a commit it prints the counts of that commit, so that two trees can be compared.
"""
import collections, pathlib, subprocess, sys

PARTS = {"src": ".rt", "specs": ".antt", "proofs": ".antt"}
ROOT = pathlib.Path(__file__).resolve().parent.parent


def texts(commit):
    """Returns the path and the text of each file of the crates, as they are in the folder or in a commit."""
    names = ["ls-tree", "-r", "--name-only", commit, "crates"] if commit else ["ls-files", "crates"]
    for name in git(*names).splitlines():
        part = name.split("/")
        if len(part) > 3 and name.endswith(PARTS.get(part[2], "/")):
            yield part[1], part[2], git("show", f"{commit}:{name}") if commit else (ROOT / name).read_text(encoding="utf-8")


def git(*words):
    return subprocess.run(["git", "-C", ROOT, *words], check=True, capture_output=True, text=True).stdout


def counted(text):
    """Returns the number of lines that are neither blank nor a comment."""
    return sum(1 for line in text.split("\n") if line.strip() and not line.strip().startswith(("//", "--")))


if __name__ == "__main__":
    counts = collections.Counter()
    for crate, part, text in texts(sys.argv[1] if len(sys.argv) > 1 else None):
        for row in (crate, "all"):
            counts[row, part] += counted(text)
    print(f"{'':22} {'src':>7} {'specs':>7} {'proofs':>7} {'all':>8}")
    for crate in [*sorted({row for row, _ in counts} - {"all"}), "all"]:
        row = [counts[crate, part] for part in PARTS]
        print(f"{crate:22} {row[0]:7} {row[1]:7} {row[2]:7} {sum(row):8}")
