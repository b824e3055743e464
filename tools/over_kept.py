#!/usr/bin/env python3
"""Runs a command of rt in a crate over the libraries that `rt ci` kept on this machine: tools/over_kept.py CRATE COMMAND, where COMMAND is
`check`, `plant --minutes 30` or any other.

A developer's tool: no crate below is proved again. It works in a copy of the tree below TMPDIR and brings nothing back; the output of the
command is the result. A check is faster than by rt alone, since `rt ci` keeps only the statements of a library. The status is that of the
command. It is 2 if a library below the crate is not kept as it is now (`rt ci CRATE` makes it), or if the kit keeps none.
"""
import os, shutil, subprocess, sys, tempfile
from kit import copied, give, keeps, rt


def refused(why):
    print(why, file=sys.stderr)
    return 2


def main(name, *words):
    if not keeps():
        return refused("this kit keeps nothing of what rt ci proved: rt check in the crate proves what is below it")
    with tempfile.TemporaryDirectory(prefix="over-kept-") as room:
        root = os.path.realpath(room)
        copied(root)
        crate = next((it for it in rt.crates_of(root) if it.name == name), None)
        if crate is None:
            return refused(f"there is no crate {name}")
        below = {it.name for it in crate.below()}
        lacking = give(root, lambda it: it.name in below)
        if lacking:
            return refused(f"{lacking} is not kept as it stands: rt ci {name} makes it")
        return subprocess.run([shutil.which("rt"), *words], cwd=crate.folder).returncode


if __name__ == "__main__":
    if len(sys.argv) < 3:
        sys.exit(refused(__doc__))
    sys.exit(main(*sys.argv[1:]))
