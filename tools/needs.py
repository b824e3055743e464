#!/usr/bin/env python3
"""Measures what a rendering needs of each number of a budget: the least number with which it ends as it does with ample ones.

    tools/needs.py [--jt PATH]                                       each folder of examples/, and these with longer lists
    tools/needs.py [--jt PATH] render DIR NAME [CONTEXT] [OPTION ..]   a rendering, or `run IMAGE [CONTEXT]`

Without --jt it runs the program that `rt run` keeps, crates/jt_cli/out/jt_cli. Of a rendering that ends with a text, one run with --report
states each number. If it ends otherwise, each number is found by bisection, in some 20 runs of the program. The figures do not depend on
the machine, nor on how the program was built.
"""
import argparse, json, pathlib, re, subprocess, tempfile

ROOT = pathlib.Path(__file__).resolve().parent.parent
AMPLE = {"fuel": 10**9, "depth": 10**4, "output": 2**30, "size": 2**30, "nesting": 255}
EXAMPLES = ROOT / "examples"
USED = re.compile(rb"jt: used fuel ([0-9]+) depth ([0-9]+) output ([0-9]+) size ([0-9]+) nesting ([0-9]+)\n")


def ended(jt, words, budget):
    """How a rendering ends under a budget: its status, its text and its line."""
    numbers = [word for name, number in budget.items() for word in (f"--{name}", str(number))]
    ran = subprocess.run([jt, *words, *numbers], capture_output=True)
    return ran.returncode, ran.stdout, ran.stderr


def reported(jt, words):
    """What a rendering that ends with a text used, by the program's own line."""
    status, _, line = ended(jt, [*words, "--report"], AMPLE)
    used = USED.fullmatch(line)
    return dict(zip(AMPLE, map(int, used.groups()))) if status == 0 and used else {}


def needed(jt, words):
    """The least of each number, where all others are ample, and the text."""
    whole = ended(jt, words, AMPLE)
    found = reported(jt, words)
    for name, most in AMPLE.items():
        if name in found:
            continue
        high = 1
        while high < most and ended(jt, words, {**AMPLE, name: high}) != whole:
            high *= 4
        low, high = high // 4, min(high, most)
        while low < high:
            middle = (low + high) // 2
            if ended(jt, words, {**AMPLE, name: middle}) == whole:
                high = middle
            else:
                low = middle + 1
        found[name] = high
    return found, whole


def longer(folder, room, title, change):
    """The words of a rendering of an example whose context is changed."""
    name, *options = (EXAMPLES / folder / "command").read_text().split()
    context = json.loads((EXAMPLES / folder / "context.json").read_text())
    change(context)
    file = f"{room}/{title}.json"
    with open(file, "w", encoding="utf-8") as out:
        json.dump(context, out)
    return title, ["render", str(EXAMPLES / folder / "templates"), name, file, *options]


def examples(room):
    """Each example, and the same with lists of 100 items."""
    line = {"name": "Sencha <first flush>", "count": 2, "cents": 1295}
    yield longer("site", room, "page", lambda c: None)
    yield longer("site", room, "page, 100 tags", lambda c: c["page"].update(tags=["How-to"] * 100))
    yield longer("mail", room, "mail", lambda c: None)
    yield longer("mail", room, "mail, 100 lines", lambda c: c["order"].update(lines=[line] * 100))
    yield longer("config", room, "configuration", lambda c: None)
    yield longer("config", room, "configuration, 100 servers", lambda c: c["host"].update(ports=[443] * 100))


def main():
    parser = argparse.ArgumentParser(description=__doc__, formatter_class=argparse.RawDescriptionHelpFormatter)
    parser.add_argument("--jt", default=str(ROOT / "crates/jt_cli/out/jt_cli"), type=lambda path: str(pathlib.Path(path).resolve()))
    asked, words = parser.parse_known_args()
    with tempfile.TemporaryDirectory() as room:
        for title, line in [(" ".join(words), words)] if words else examples(room):
            found, (status, text, _) = needed(asked.jt, line)
            numbers = "  ".join(f"{name} {found[name]:,}" for name in AMPLE)
            print(f"{title}: {numbers}  (status {status}, {len(text):,} bytes)", flush=True)


if __name__ == "__main__":
    main()
