#!/usr/bin/env python3
"""Times `jt check` on images of 262,144 instructions that could be slow to verify: long shapes that meet, are made and are searched; and on
images of 16 MiB with full tables.

    bench/verify.py [--jt PATH] [--runs N] [--most SECONDS] [--room MB] [--keep FOLDER] [NAME ..]

Without --jt it runs the program that `rt run` keeps, crates/jt_cli/out/jt_cli. The images are written byte by byte, by docs/image.md. Each
is checked --runs times (3). The script prints the shortest processor time, without that of an image of one instruction, and the greatest
memory. The status is 1 if an image takes more than --most (0.1 seconds) or --room (40 MB), or if the result is not the wanted one. --keep
writes the images to a folder.
"""
import os, pathlib, struct, subprocess, sys, tempfile
from timing import flags

CONST, DROP, DUP, JUMP_IF_FALSE, MAKE_LIST, RETURN = 0x01, 0x06, 0x07, 0x0B, 0x10, 0x1C
LOOP_START, LOOP_GET, LOOP_END, CAPTURE_BEGIN, CAPTURE_END, UNPACK = 0x12, 0x14, 0x17, 0x18, 0x19, 0x1A
MOST = 262_144
TALL = 1_000


def of(opcode, c=0, a=0):
    return (opcode, a, 0, c)


def image(units, names=(), constants=(b"\0",)):
    """Returns an image of these units; its constants, as bytes, are by default one, undefined; an instruction is (opcode, a, b, c)."""
    parts = [b"JTBC", struct.pack("<HHH", 1, len(names), len(names))]
    parts += [struct.pack("<HH", slot, len(name)) + name for slot, name in enumerate(names)]
    parts += [struct.pack("<H", len(constants)), *constants, struct.pack("<H", len(units))]
    parts += [struct.pack("<BBHI", 0, 0, 0, len(unit)) for unit in units]
    parts += [struct.pack("<BBHI", *i) for unit in units for i in unit]
    return b"".join(parts)


def filled(front, piece, back):
    """Returns the greatest number of pieces that fits."""
    return front + piece * ((MOST - len(front) - len(back)) // len(piece)) + back


def joins():
    """Brings the same 1,000 values to one point 130,000 times."""
    front, back = [of(CONST)] * TALL, [of(DROP)] * TALL + [of(RETURN)]
    piece = [of(DUP), of(JUMP_IF_FALSE)]
    count = (MOST - len(front) - len(back)) // 2
    end = len(front) + 2 * count
    return front + [of(DUP), of(JUMP_IF_FALSE, end)] * count + back


def captured():
    """Brings 1,000 captures to one point, which are opened again for each join."""
    back = ([of(CAPTURE_END), of(DROP)]) * TALL + [of(RETURN)]
    piece = [of(CONST), of(JUMP_IF_FALSE)]
    opened = [of(CAPTURE_BEGIN)] * TALL
    # a round: one path opens the captures here, the other one later, and both meet after that
    rounds, code = [], []
    while len(code) + 2 * (2 * TALL + 4) + len(back) + 2 * TALL < MOST:
        start = len(code)
        other = start + 2 + TALL + 1
        meet = other + TALL
        code += [of(CONST), of(JUMP_IF_FALSE, other)] + opened + [of(0x0A, meet)] + opened
        code += [of(CAPTURE_END), of(DROP)] * TALL
    return code + [of(RETURN)]


def unpacked():
    """Puts a thousand values on ten thousand different shapes."""
    code, number = [], 0
    while len(code) + 80 < MOST:
        bits = [number >> i & 1 for i in range(14)]
        code += [of(CAPTURE_BEGIN) if bit else of(CONST) for bit in bits]
        code += [of(CONST), of(UNPACK, TALL), of(MAKE_LIST, TALL), of(DROP)]
        for bit in reversed(bits):
            code += [of(CAPTURE_END), of(DROP)] if bit else [of(DROP)]
        number += 1
    return code + [of(RETURN)]


def spread():
    """Pushes and pops a thousand values repeatedly."""
    return filled([of(CONST)], [of(UNPACK, TALL), of(MAKE_LIST, TALL)], [of(DROP), of(RETURN)])


def marked():
    """Makes the greatest number of different shapes with a loop or capture at the top."""
    code, depth = [], 0
    while len(code) + 2 * 850 + 3 + 2 * depth + 3 < MOST:
        code += [of(CAPTURE_BEGIN), of(CAPTURE_END)] * 850 + [of(MAKE_LIST, 850), of(DROP), of(CAPTURE_BEGIN)]
        depth += 1
    return code + [of(CAPTURE_END), of(DROP)] * depth + [of(RETURN)]


def searched():
    """Reads a field of the outermost of 1,000 loops repeatedly."""
    front, back = [of(CONST), of(LOOP_START)] * TALL, [of(LOOP_END), of(DROP)] * TALL + [of(RETURN)]
    return filled(front, [of(LOOP_GET, TALL - 1, 1), of(DROP)], back)


def waiting():
    """Makes a hundred thousand paths wait at the same time."""
    count = (MOST - 1) // 2
    return [i for _ in range(count) for i in (of(CONST), of(JUMP_IF_FALSE, 2 * count))] + [of(RETURN)]


def units():
    """Makes the greatest number of units."""
    return [[of(CONST), of(DROP), of(RETURN)]] * 65_535


def scattered():
    """Jumps forwards to all points, from points with the same value on the stack."""
    count = (MOST - 3) // 2
    targets = [2 * n + 1 + 2 * (n * 48_271 % (count - n)) for n in range(count)]
    return [of(CONST)] + [i for target in targets for i in (of(DUP), of(JUMP_IF_FALSE, target + 2))] + [of(DROP), of(RETURN)]


def entries():
    """Pushes and pops the greatest number of entries repeatedly."""
    return filled([], [of(CONST)] * 1_024 + [of(DROP)] * 1_024, [of(RETURN)])


def full_of_names():
    """Makes the greatest number of names, of 16 MiB together."""
    return image([[of(RETURN)]], names=[f"{n:05}".encode() + b"n" * 246 for n in range(65_535)])


def full_of_texts():
    """Makes the greatest number of constants, equal texts of 16 MiB together."""
    return image([[of(RETURN)]], constants=[b"\5" + struct.pack("<I", 250) + b"t" * 250] * 65_535)


def one_text():
    """Makes one constant of 16 MiB."""
    return image([[of(RETURN)]], constants=[b"\5" + struct.pack("<I", 16_777_000) + b"t" * 16_777_000])


# the images of 16 MiB
LARGE = {"names": full_of_names, "texts": full_of_texts, "one text": one_text}

IMAGES = {
    "joins": lambda: [joins()],
    "captured": lambda: [captured()],
    "unpacked": lambda: [unpacked()],
    "spread": lambda: [spread()],
    "marked": lambda: [marked()],
    "searched": lambda: [searched()],
    "waiting": lambda: [waiting()],
    "scattered": lambda: [scattered()],
    "entries": lambda: [entries()],
    "units": units,
}


def check(program, path):
    """Returns the output, the processor time in seconds and the greatest memory in MB."""
    read, write = os.pipe()
    process = subprocess.Popen([program, "check", path], stdout=write, stderr=write)
    os.close(write)
    with open(read, "rb") as said:
        text = said.read()
    _, _, used = os.wait4(process.pid, 0)
    process.returncode = 0
    return text.decode(errors="replace").strip(), used.ru_utime + used.ru_stime, used.ru_maxrss / 1024


def keep(folder, names):
    """Writes the images, each with the line that `jt check` must print."""
    pathlib.Path(folder, "small.jtbc").write_bytes(image([[of(RETURN)]]))
    for name in names:
        if name in LARGE:
            pathlib.Path(folder, f"{name}.jtbc").write_bytes(LARGE[name]())
            pathlib.Path(folder, f"{name}.line").write_text("ok units=1 instructions=1")
            continue
        code = IMAGES[name]()
        count = sum(len(unit) for unit in code)
        assert count <= MOST, (name, count)
        pathlib.Path(folder, f"{name}.jtbc").write_bytes(image(code))
        pathlib.Path(folder, f"{name}.line").write_text(f"ok units={len(code)} instructions={count}")


def least(program, path, runs):
    """Returns the outputs of some runs, the shortest time and the least memory."""
    told = [check(program, path) for _ in range(runs)]
    return {it[0] for it in told}, min(it[1] for it in told), min(it[2] for it in told)


def main():
    words = flags(__doc__)
    words.add_argument("--runs", type=int, default=3)
    words.add_argument("--most", type=float, default=0.1)
    words.add_argument("--room", type=float, default=40)
    words.add_argument("--keep")
    words.add_argument("names", nargs="*", metavar="NAME")
    given = words.parse_args()
    names = given.names or [*IMAGES, *LARGE]
    if given.keep:
        os.makedirs(given.keep, exist_ok=True)
        return keep(given.keep, names)
    bad = False
    with tempfile.TemporaryDirectory(prefix="jt-verify-") as folder:
        # (another process writes them, since the memory of this one, some 14 MB, counts as that of the programs that it starts)
        subprocess.run([sys.executable, __file__, "--keep", folder, *names], check=True)
        _, base, _ = least(given.jt, f"{folder}/small.jtbc", given.runs)
        for name in names:
            line = pathlib.Path(folder, f"{name}.line").read_text()
            told, took, held = least(given.jt, f"{folder}/{name}.jtbc", given.runs)
            took, wrong = took - base, told - {line}
            much = took > given.most or held > given.room
            bad |= much or bool(wrong)
            print(f"{name:9} {line:40} {took:7.3f} s {held:7.1f} MB{'   TOO MUCH' if much else ''}{f'   {wrong}' if wrong else ''}", flush=True)
    return 1 if bad else 0


if __name__ == "__main__":
    sys.exit(main())
