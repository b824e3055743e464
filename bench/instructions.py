#!/usr/bin/env python3
"""Counts the cost of Jump, Const and Drop of a number in `jt run`, in instructions of the processor.

    bench/instructions.py [--jt PATH] [--most N] [--keep FOLDER]

Without --jt it runs the program that `rt run` keeps, crates/jt_cli/out/jt_cli. One image, written by docs/image.md, has 2,000 Jumps, each
to the next point, then 1,000 Consts, then 1,000 Drops. It runs until its fuel is spent, under valgrind's callgrind, which counts how often
the program executes each address. Two fuels within the same kind of instruction give two runs. They differ in the instructions between
both fuels, and in the entries that are left at the end and dropped. An address that is executed less often after more drops belongs to
the end, and does not count. The status is 1 if an instruction costs more than --most (40), or if a run ends otherwise than with spent fuel.
--keep writes the image and callgrind's files to a folder.
"""
import collections, os, pathlib, struct, subprocess, sys, tempfile
from timing import flags

CONST, DROP, JUMP, RETURN = 0x01, 0x06, 0x0A, 0x1C
JUMPS, VALUES = 2_000, 1_000
# the two fuels for each kind; a stack that grows by doubling does not grow between those of Const
FUELS = {"Jump": (1_100, 1_900), "Const": (JUMPS + 600, JUMPS + 990), "Drop": (JUMPS + 1_100, JUMPS + 1_490)}


def image():
    """An image of one unit, whose only constant is the number 7."""
    code = [(JUMP, 0, 0, point + 1) for point in range(JUMPS)]
    code += [(CONST, 0, 0, 0)] * VALUES + [(DROP, 0, 0, 0)] * VALUES + [(RETURN, 0, 0, 0)]
    parts = [b"JTBC", struct.pack("<HHH", 1, 0, 0), struct.pack("<HBq", 1, 4, 7)]
    parts += [struct.pack("<H", 1), struct.pack("<BBHI", 0, 0, 0, len(code))]
    return b"".join(parts + [struct.pack("<BBHI", *i) for i in code])


def counts(program, path, fuel, out):
    """Returns how often a run with this fuel executes each address of each object."""
    words = ["valgrind", "--tool=callgrind", "--dump-instr=yes", "--dump-line=no", "--compress-strings=no", "--compress-pos=no"]
    words += [f"--callgrind-out-file={out}", program, "run", "--fuel", str(fuel), path]
    ran = subprocess.run(words, capture_output=True)
    if b"jt: spent Fuel" not in ran.stderr or ran.stdout:
        sys.exit(f"bench/instructions.py: fuel {fuel}: {ran.stderr.decode(errors='replace')}")
    met, of_call, place = collections.Counter(), False, ""
    for line in pathlib.Path(out).read_text().splitlines():
        if line.startswith("calls="):
            # (the next line is the whole cost of the call, which its own lines have too)
            of_call = True
        elif line.startswith("ob="):
            place = line
        elif line.startswith("0x"):
            if not of_call:
                address, cost = line.split()
                met[place, address] += int(cost)
            of_call = False
    return met


def between(program, path, folder, fuels):
    """Returns, by address, the difference of both runs for each instruction between the two fuels."""
    less, more = (counts(program, path, fuel, f"{folder}/callgrind.{fuel}") for fuel in fuels)
    return {it: (more[it] - less[it]) / (fuels[1] - fuels[0]) for it in less | more}


def main():
    words = flags(__doc__)
    words.add_argument("--most", type=float, default=40)
    words.add_argument("--keep")
    given = words.parse_args()
    with tempfile.TemporaryDirectory(prefix="jt-instructions-") as room:
        folder = given.keep or room
        os.makedirs(folder, exist_ok=True)
        path = f"{folder}/stretches.jtbc"
        pathlib.Path(path).write_bytes(image())
        met = {name: between(given.jt, path, folder, fuels) for name, fuels in FUELS.items()}
    at_the_end = -sum(it for it in met["Drop"].values() if it < 0)
    costs = {name: sum(found.values()) for name, found in met.items()}
    costs["Const"] -= at_the_end
    costs["Drop"] += at_the_end
    for name, cost in costs.items():
        print(f"{name:6} {cost:6.1f}{'   TOO MUCH' if cost > given.most else ''}")
    print(f"an entry that is dropped when the run ends, beside: {at_the_end:.1f}")
    return 1 if max(costs.values()) > given.most else 0


sys.exit(main())
