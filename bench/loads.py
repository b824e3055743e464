#!/usr/bin/env python3
"""Times `jt run` on images that load one value a million times: a number, and a list of 100,000 items.

    bench/loads.py [--jt PATH] [--loads N] [--items N] [--runs N] [--most RATIO] [--keep FOLDER]

Without --jt it runs the program that `rt run` keeps, crates/jt_cli/out/jt_cli. The images are written byte by byte, by docs/image.md: a loop
loads the value from a local, from a global, by Dup, or as a loop's item, ten times in each turn, and drops it. Each image runs --runs
times (3), and the script prints the shortest processor time. A value is shared and not copied, so a list costs what a number costs. The
status is 1 if a list takes more than --most (2) times as long, or if a run does not end with the text `True`. --keep writes the images to a
folder.
"""
import os, pathlib, struct, sys, tempfile
from timing import flags, timed

CONST, LOAD, STORE, GLOAD, GSTORE, DROP, DUP, EMIT = range(0x01, 0x09)
JUMP, OP, LOOP_START, LOOP_NEXT, LOOP_GET, LOOP_END, MAKE_LIST, RETURN = 0x0A, 0x0D, 0x12, 0x13, 0x14, 0x17, 0x10, 0x1C
RANGE, EQUAL = 19, 11
A_TURN = 10


def image(globals_count, constants, locals_count, code):
    """An image of one unit, with numbers as constants; an instruction is (opcode, a, b, c)."""
    parts = [b"JTBC", struct.pack("<HHH", 1, globals_count, 0), struct.pack("<H", len(constants))]
    parts += [struct.pack("<Bq", 4, n) for n in constants]
    parts += [struct.pack("<H", 1), struct.pack("<BBHI", 0, 0, locals_count, len(code))]
    parts += [struct.pack("<BBHI", *i) for i in code]
    return b"".join(parts)


def value(of_list):
    """Returns the instructions that make the value: the number of constant 0, or the list of `items` numbers; three in both cases."""
    return [(CONST, 0, 0, 0), (OP, RANGE, 0, 0) if of_list else (JUMP, 0, 0, 2)]


def looped(front, load, turns, items, behind):
    """Returns the first part, a loop of `turns` turns that loads ten times, and the last part."""
    start = front + [(CONST, 0, 0, 1), (OP, RANGE, 0, 0), (LOOP_START, 0, 0, 0)]
    head = len(start)
    turn = (load + [(DROP, 0, 0, 0)]) * A_TURN + [(JUMP, 0, 0, head)]
    end = head + 1 + len(turn)
    code = start + [(LOOP_NEXT, 0, 0, end)] + turn + [(LOOP_END, 0, 0, 0), (DROP, 0, 0, 0)] + behind
    # it prints True, since the constant equals itself
    code += [(CONST, 0, 0, 0), (CONST, 0, 0, 0), (OP, EQUAL, 0, 0), (EMIT, 0, 0, 0), (RETURN, 0, 0, 0)]
    return image(1, [items, turns], 1, code)


def images(loads, items):
    """Returns, for each way of loading, an image for a number and one for a list."""
    turns = loads // A_TURN
    drop = [(DROP, 0, 0, 0)]

    def item(of_list):
        # inside a loop of one item, whose item is loaded
        front = value(of_list) + [(MAKE_LIST, 0, 0, 1), (LOOP_START, 0, 0, 0)]
        return front + [(LOOP_NEXT, 0, 0, len(front) + 1)]

    ways = {
        "Load": (lambda v: value(v) + [(STORE, 0, 0, 0)], [(LOAD, 0, 0, 0)], []),
        "GLoad": (lambda v: value(v) + [(GSTORE, 0, 0, 0)], [(GLOAD, 0, 0, 0)], []),
        # the value is below the loop, so a copy on top is doubled again
        "Dup": (lambda v: value(v) + [(STORE, 0, 0, 0)], [(LOAD, 0, 0, 0), (DUP, 0, 0, 0), (DROP, 0, 0, 0)], []),
        "LoopGet": (item, [(LOOP_GET, 0, 0, 1)], [(LOOP_END, 0, 0, 0)] + drop),
    }
    return {name: [looped(front(v), load, turns, items, behind) for v in (False, True)] for name, (front, load, behind) in ways.items()}


def run(program, path):
    """Returns the output of a run and its processor time."""
    budget = ["--fuel", str(10**12), "--size", str(2**32 - 1), "--nesting", "255", "--output", "1000"]
    took, ran = timed([program, "run", path, *budget])
    return ran.stdout or ran.stderr, took


def main():
    words = flags(__doc__)
    words.add_argument("--loads", type=int, default=1_000_000)
    words.add_argument("--items", type=int, default=100_000)
    words.add_argument("--runs", type=int, default=3)
    words.add_argument("--most", type=float, default=2.0)
    words.add_argument("--keep")
    given = words.parse_args()
    bad = False
    with tempfile.TemporaryDirectory(prefix="jt-loads-") as room:
        folder = given.keep or room
        os.makedirs(folder, exist_ok=True)
        for name, pair in images(given.loads, given.items).items():
            times = []
            for kind, data in zip(("number", "list"), pair):
                path = f"{folder}/{name.lower()}-{kind}.jtbc"
                pathlib.Path(path).write_bytes(data)
                if given.keep:
                    continue
                runs = [run(given.jt, path) for _ in range(given.runs)]
                wrong = next((said for said, _ in runs if said != b"True"), None)
                if wrong is not None:
                    print(f"{name:8} {kind}: {wrong.decode(errors='replace').strip()!r}")
                    bad = True
                times.append(min(t for _, t in runs))
            if len(times) == 2:
                ratio = times[1] / max(times[0], 0.001)
                bad |= ratio > given.most
                print(f"{name:8} number {times[0]:7.3f} s   list {times[1]:7.3f} s   ratio {ratio:5.2f}{'   TOO MUCH' if ratio > given.most else ''}")
    return 1 if bad else 0


sys.exit(main())
