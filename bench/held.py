#!/usr/bin/env python3
"""Measures the memory of `jt run` on images of 16 MiB.

    bench/held.py [--jt PATH] [--most RATIO] [--keep FOLDER] [NAME ..]

Without --jt it runs the program that `rt run` keeps, crates/jt_cli/out/jt_cli. The images are written byte by byte, by docs/image.md, and
have 16,777,216 bytes, the most that are permitted: one text; 16 texts, of which one is printed; 65,535 texts, with 262,143 jumps. The
script prints, in KB, the greatest resident memory without that of an image of one instruction, by GNU time, and the greatest allocated
memory, by valgrind's massif. The status is 1 if one of the two is more than --most (2) times the image's bytes, or if a run prints another
text than the wanted one. --keep writes the images to a folder.
"""
import os, pathlib, re, struct, subprocess, sys, tempfile
from timing import flags

DATA, JUMP, RETURN = 0x09, 0x0A, 0x1C
BYTES = 16_777_216
END = [(RETURN, 0, 0, 0)]


def image(texts, code):
    """Returns an image of one unit whose constants are texts of the given lengths; an instruction is (opcode, a, b, c)."""
    parts = [b"JTBC", struct.pack("<HHH", 1, 0, 0), struct.pack("<H", len(texts))]
    for size in texts:
        parts += [struct.pack("<BI", 5, size), b"a" * size]
    parts += [struct.pack("<H", 1), struct.pack("<BBHI", 0, 0, 0, len(code))]
    return b"".join(parts + [struct.pack("<BBHI", *i) for i in code])


def filled(count, code):
    """Returns an image of 16 MiB with `count` texts, and their lengths, which are equal but for the last one."""
    room = BYTES - len(image([0] * count, code))
    texts = [room // count] * (count - 1) + [room - room // count * (count - 1)]
    return image(texts, code), texts


def one():
    return filled(1, END)[0], 0


def sixteen():
    made, texts = filled(16, [(DATA, 0, 0, 0)] + END)
    return made, texts[0]


def many():
    return filled(65_535, [(JUMP, 0, 0, point + 1) for point in range(262_143)] + END)[0], 0


# by name: an image, and the number of bytes that its run prints
IMAGES = {"one text": one, "16 texts": sixteen, "65,535 texts": many}


def resident(program, path):
    """Returns the greatest resident memory in KB, and the output. GNU time starts the program, since the memory of this process would count."""
    ran = subprocess.run(["/usr/bin/time", "-f", "%M", program, "run", path], capture_output=True)
    return int(ran.stderr.split()[-1]), ran.stdout


def allocated(program, path, out):
    """Returns the greatest allocated memory in KB."""
    words = ["valgrind", "--tool=massif", "--peak-inaccuracy=0.0", f"--massif-out-file={out}", program, "run", path]
    subprocess.run(words, capture_output=True, check=True)
    found = zip(*(re.findall(rf"{it}=(\d+)", pathlib.Path(out).read_text()) for it in ("mem_heap_B", "mem_heap_extra_B")))
    return max(int(bytes_) + int(extra) for bytes_, extra in found) // 1024


def main():
    words = flags(__doc__)
    words.add_argument("--most", type=float, default=2.0)
    words.add_argument("--keep")
    words.add_argument("names", nargs="*", metavar="NAME")
    given = words.parse_args()
    bad, names = False, given.names or [*IMAGES]
    with tempfile.TemporaryDirectory(prefix="jt-held-") as room:
        folder = given.keep or room
        os.makedirs(folder, exist_ok=True)
        small = f"{folder}/small.jtbc"
        pathlib.Path(small).write_bytes(image([], END))
        base, _ = resident(given.jt, small)
        for name in names:
            path = f"{folder}/{re.sub('[ ,]+', '-', name)}.jtbc"
            made, printed = IMAGES[name]()
            assert len(made) == BYTES, name
            pathlib.Path(path).write_bytes(made)
            held, text = resident(given.jt, path)
            heap = allocated(given.jt, path, f"{room}/massif")
            much = max(held - base, heap) * 1024 > given.most * BYTES
            wrong = text != b"a" * printed
            bad |= much or wrong
            told = f"{name:13} resident {held - base:6} KB   allocated {heap:6} KB"
            print(f"{told}{'   TOO MUCH' if much else ''}{'   ANOTHER TEXT' if wrong else ''}", flush=True)
    print(f"an image has {BYTES // 1024} KB; on a small one {base} KB are resident")
    return 1 if bad else 0


sys.exit(main())
