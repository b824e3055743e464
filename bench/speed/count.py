#!/usr/bin/env python3
"""Counts the processor's instructions of `jt` on four workloads, by valgrind's callgrind.

    bench/speed/count.py [--jt PATH] [--keep FOLDER] [--times N] [--strict] [NAME ..]

Without --jt it runs the program that `rt run` keeps, crates/jt_cli/out/jt_cli. The workloads are the folders of templates/ beside this
file: a table of 2,000 rows, a page with blocks and an include, a letter that is mostly plain text, and a configuration of 300 hosts;
make_contexts.py makes their contexts. For each the script prints the cost of `jt run` without that of a template of one letter over the
same context, the cost of `jt compile` without that of the letter, and the cost of the letter's run, which is the start of the program, the
reading of the context and the end of the process. Other load on the machine hardly changes counts. --times N multiplies the rows of the
contexts. --keep writes the contexts, the images and callgrind's files to a folder. --strict compiles the templates with this option.
"""
import pathlib, re, subprocess, sys, tempfile

HERE = pathlib.Path(__file__).resolve().parent
sys.path.insert(0, str(HERE.parent))
from timing import flags
from make_contexts import write

WORKLOADS = ("table", "page", "mail", "config")
# a budget that is enough for each workload
BUDGET = ["--fuel", "100000000000", "--output", "4000000000", "--size", "4000000000"]


def count(out, words):
    """Returns the number of instructions of a run of the program."""
    ran = subprocess.run(["valgrind", "--tool=callgrind", f"--callgrind-out-file={out}", *map(str, words)], capture_output=True, text=True)
    found = re.search(r"Collected : (\d+)", ran.stderr)
    if ran.returncode or not found:
        sys.exit(f"bench/speed/count.py: {words}: {ran.stderr}")
    return int(found[1])


def main():
    words = flags(__doc__)
    words.add_argument("--keep")
    words.add_argument("--times", type=int, default=1)
    words.add_argument("--strict", action="store_true")
    words.add_argument("names", nargs="*")
    given = words.parse_args()
    reading = ["--strict"] if given.strict else []
    with tempfile.TemporaryDirectory(prefix="jt-speed-") as room:
        folder = pathlib.Path(given.keep or room).resolve()
        letter = folder / "letter"
        letter.mkdir(parents=True, exist_ok=True)
        (letter / "main").write_text("x")
        write(folder, given.times)
        least = count(folder / "compile.letter", [given.jt, "compile", letter, "main", folder / "letter.jtbc"])
        for name in given.names or WORKLOADS:
            context, image = folder / f"{name}.json", folder / f"{name}.jtbc"
            compiling = count(folder / f"compile.{name}", [given.jt, "compile", HERE / "templates" / name, "main", image, *reading]) - least
            start = count(folder / f"start.{name}", [given.jt, "run", folder / "letter.jtbc", context, *BUDGET])
            run = count(folder / f"run.{name}", [given.jt, "run", image, context, *BUDGET]) - start
            print(f"{name:7} run {run:>11,}  compile {compiling:>9,}  context and start {start:>11,}", flush=True)


if __name__ == "__main__":
    main()
