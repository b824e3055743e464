"""The arguments of a script of rows: PROGRAM [TRIALS]."""
import os
import pathlib
import sys


def asked(words, more=""):
    """Returns PROGRAM and TRIALS, the program of jt_trials, which by default is beside PROGRAM's crate.

    Ends the script with its usage, or with one failure if one of them cannot be executed."""
    script = f"tests/{pathlib.Path(sys.argv[0]).name}"
    if not 1 <= len(words) <= 2:
        sys.exit(f"usage: {script} PROGRAM [TRIALS]{more}")
    program = os.path.realpath(words[0])
    trials = os.path.realpath(words[1] if len(words) == 2 else f"{program}/../../../jt_trials/out/jt_trials")
    if not all(os.access(it, os.X_OK) for it in (program, trials)):
        print(f"{script}: no program {program} or {trials}\n0 passed, 1 failed")
        sys.exit(1)
    return program, trials
