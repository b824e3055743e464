#!/usr/bin/env python3
"""Counts the processor's instructions of `jt turns` on 64 sessions of one workload, in turns and one after the other, by callgrind.

    bench/slices.py [--jt PATH] [--sessions N] [--slice N] [--most RATIO] [--keep FOLDER] [NAME ..]

Without --jt it runs the program that `rt run` keeps, crates/jt_cli/out/jt_cli. The workloads are those of bench/speed: the letter by default
(`mail`), whose contexts are read in little time. Each of the sessions, at most 64, runs the image for its own copy of the context. In the
first count they take turns of --slice (100) instructions; in the second a turn is so long that they run one after the other. The cost of the
same sessions with a template of one letter, which is the start, the contexts and the end, is taken from both. The status is 1 if the turns
take more than --most (1.3) times as much.
"""
import pathlib, subprocess, sys, tempfile

HERE = pathlib.Path(__file__).resolve().parent
sys.path.insert(0, str(HERE / "speed"))
from timing import flags
from count import BUDGET, count
from make_contexts import write

# the longest turn that the program permits
LONG = 1_000_000


def main():
    words = flags(__doc__)
    words.add_argument("--sessions", type=int, default=64)
    words.add_argument("--slice", type=int, default=100)
    words.add_argument("--most", type=float, default=1.3)
    words.add_argument("--keep")
    words.add_argument("names", nargs="*")
    given = words.parse_args()
    worst = 0
    with tempfile.TemporaryDirectory(prefix="jt-slices-") as room:
        folder = pathlib.Path(given.keep or room).resolve()
        letter = folder / "letter"
        letter.mkdir(parents=True, exist_ok=True)
        (letter / "main").write_text("x")
        write(folder)
        subprocess.run([given.jt, "compile", letter, "main", folder / "letter.jtbc"], check=True)
        for name in given.names or ["mail"]:
            image, context = folder / f"{name}.jtbc", folder / f"{name}.json"
            subprocess.run([given.jt, "compile", HERE / "speed" / "templates" / name, "main", image], check=True)

            def taken(image, size):
                pairs = [image, context] * given.sessions
                return count(folder / f"slices.{name}", [given.jt, "turns", *pairs, "--slice", str(size), *BUDGET])

            start = taken(folder / "letter.jtbc", LONG)
            alone, turns = (taken(image, size) - start for size in (LONG, given.slice))
            worst = max(worst, turns / alone)
            print(f"{name:7} one after the other {alone:>13,}  in turns of {given.slice} {turns:>13,}  {turns / alone:.2f} times", flush=True)
    return worst > given.most


if __name__ == "__main__":
    sys.exit(main())
