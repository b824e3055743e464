#!/usr/bin/env python3
"""Builds crates/NAME/out/libNAME.a, a static library, over what `rt ci` has just proved below it: tools/static_library.py NAME [FILE OPTION ..]

`rt ci` proves a static library and builds none, and `rt lib` would prove every library below it once more. This script proves the crate
itself again, over the libraries in the tree, and builds it. If they are missing, the status is 2, and `rt lib` is needed.

With FILE and options of clang, the library is FILE, and the proved code is compiled with these options too. In this way it counts the
branches that it takes (bench/fuzz/run.sh).
"""
import os, shlex, sys, tempfile
from kit import rt

rtlib = rt.rtlib


def toolchain(room, options):
    """Makes a copy of the kit's toolchain whose clang gets more options, by links; returns its folder."""
    for folder in ("", "/bin"):
        os.makedirs(room + folder, exist_ok=True)
        for it in os.listdir(f"{rt.KIT}/toolchain{folder}"):
            if it not in ("bin", "clang"):
                os.symlink(f"{rt.KIT}/toolchain{folder}/{it}", f"{room}{folder}/{it}")
    with open(f"{room}/bin/clang", "w", encoding="utf-8") as file:
        file.write(f'#!/bin/sh\nexec {rt.KIT}/toolchain/bin/clang "$@" {shlex.join(options)}\n')
    os.chmod(f"{room}/bin/clang", 0o755)
    return room


def main(name, file=None, *options):
    crate = next((it for it in rtlib.crates_below(os.getcwd()) if it.name == name), None)
    if crate is None or not crate.is_static:
        print(f"there is no static library {name}", file=sys.stderr)
        return 2
    lacking = [it.name for it in crate.below() if not os.path.isdir(it.rlib)]
    if lacking:
        print(f"{lacking[0]} is not built: rt lib in {crate.folder} makes all", file=sys.stderr)
        return 2
    os.makedirs(f"{crate.folder}/out", exist_ok=True)
    # as in rt ci, a crate above a library loads its statements
    rtlib.Crate.cuts_libraries = True
    words = [*crate.words(["--jobs", "1"], keeps=False), "--backend", "llvm", "-o", os.path.abspath(file) if file else f"out/lib{name}.a"]
    with tempfile.TemporaryDirectory() as room:
        return crate.call(rtlib.RATTLE, "build", *words, "--toolchain", toolchain(room, options) if options else f"{rt.KIT}/toolchain")


if __name__ == "__main__":
    sys.exit(main(*sys.argv[1:]) if len(sys.argv) != 1 else print(__doc__, file=sys.stderr) or 2)
