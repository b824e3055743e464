#!/usr/bin/env python3
"""Shows where the time of a crate's check goes: tools/profile.py [--rows N] CRATE ..

A developer's tool. A check over kept work writes each module when it is done, so the times of the files in out/incremental show how long
each module took. The script prints, in seconds, the sums by kind of module and the N (20) most expensive functions and files. The kinds are
Lts (the function's code, with the drops at each exit), Proof, Tie and Answers (its proof), and lemma (files of proofs/ and specs/).

The figures are right only after a check from nothing with one job (remove out/incremental, then `rt check --jobs 1`). With more jobs modules
are written at the same time, and after an edit only the modules that were checked again have a time.
"""
import argparse, collections, pathlib, re

CRATES = pathlib.Path(__file__).resolve().parent.parent / "crates"
PART = re.compile(r"(Lts|Proof|Answers|Tie|Invariants|Kinds|Symbol|Statement|Met|Code|Main|Borrow|Term|Step|Front|Fits|Facts)")
LONGEST = 60


def modules(crate):
    """Returns the kept modules of a crate, each with the time at which it was written, in this order."""
    kept = (CRATES / crate / "out/incremental").glob("**/*.oantt")
    return sorted((file.stat().st_mtime, file.name.removesuffix(".oantt").replace(".decls", "")) for file in kept)


def place(crate, module):
    """Returns the function or file of a module, and its kind."""
    own = re.match(rf"Rattle-{crate}[-.](proofs|specs)\.(.*)", module)
    if not own:
        return "libraries", "libraries"
    parts = own[2].split(".")
    at = max((at for at, part in enumerate(parts) if PART.match(part)), default=None)
    if at is None:
        return f"{own[1]}: {own[2]}", "lemma"
    return f"{own[1]}: {'.'.join(parts[:at])}", PART.match(parts[at])[1]


def printed(crate, rows):
    """Prints the sums of one crate."""
    found, kinds, places = modules(crate), collections.Counter(), collections.Counter()
    for (before, _), (time, module) in zip(found, found[1:]):
        # (a longer time is a pause between two checks)
        if time - before < LONGEST:
            where, kind = place(crate, module)
            kinds[kind] += time - before
            places[where] += time - before
    print(f"{crate}: {sum(kinds.values()):.0f} s; " + ", ".join(f"{kind} {time:.0f}" for kind, time in kinds.most_common(6)))
    for where, time in places.most_common(rows):
        print(f"  {time:6.1f} {where}")


if __name__ == "__main__":
    words = argparse.ArgumentParser(description=__doc__, formatter_class=argparse.RawDescriptionHelpFormatter)
    words.add_argument("--rows", type=int, default=20)
    words.add_argument("crates", nargs="+")
    asked = words.parse_args()
    for crate in asked.crates:
        printed(crate, asked.rows)
