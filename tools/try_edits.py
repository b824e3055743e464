#!/usr/bin/env python3
"""Tries crates' must-fail edits many at a time, over the work that `rt check` kept: tools/try_edits.py [--compile] CRATE [CRATE ..]

A developer's tool: an early estimate of the gate's result, in a few checks instead of one for each edit. THE KIT'S OWN RUN IS THE VERDICT:
`rt ci`, or `rt must-fail CRATE`, which try each edit alone.

A proof depends only on the contracts of other functions, so edits of the bodies of different functions can share a check. Each edit must be
refused by a goal of its own function; every other edit is named, to be tried by `rt must-fail`. Edits outside a function's body are named
too, and two edits of one function, or of one cycle of functions, never share a check. The edits are those of must-fail/ and of more-edits/.
The status is 0 if every edit was refused.

With --compile the edits are only compiled, and those that do not compile are named: they say nothing of a contract. Nothing is
proved, and no library needs to be. The status is 0 if every edit compiles.
"""
import os, re, shutil, subprocess, sys, tempfile
from kit import rt

FLAGS = ["--jobs", "1"]
HEAD = re.compile(r"(?m)^( *)(?:pub(?:\([a-z]+\))? )?(?:const )?fn (\w+)")
CYCLE = re.compile(r"#\[cycle\((\w+)\)\]")
GOAL = re.compile(r"(?m)^(?:note: )?(?:\./)?(\S+?):(\d+):\d+: (?:error(?!\[)|it is not proved)")


class Place:
    """The function whose body an edit changes: its file, its name, its lines, and its cycle, if any."""

    def __init__(self, crate, path, text, head, end):
        before = re.split(r"\n\s*\n", text[: head.start()])[-1]
        said = CYCLE.search(before)
        self.path, self.name = path, head[2]
        # a goal at a return is reported at the function's first attribute
        self.lines = range(text.count("\n", 0, head.start()) + 1 - before.count("\n"), text.count("\n", 0, end) + 2)
        self.cycle = said[1] if said else cycle_by_proof(f"{crate.folder}/proofs/{path[4:-3]}", head[2])
        self.key = (path, f"+{self.cycle}" if self.cycle else self.name)

    def has(self, file, line):
        """Returns whether a goal is the function's own."""
        folders = (f"/{self.name}/", f"/+{self.cycle}/")
        return file == self.path and line in self.lines or file.startswith("proofs/") and any(it in file for it in folders)


def cycle_by_proof(folder, name):
    """Returns the cycle of functions whose proof names the function, if such a folder exists."""
    for cycle in os.listdir(folder) if os.path.isdir(folder) else []:
        files = os.listdir(f"{folder}/{cycle}") if cycle.startswith("+") else []
        texts = [rt.rtlib.text_of(f"{folder}/{cycle}/{it}") for it in files if it.endswith(".antt")]
        if cycle == f"+{name}" or any(re.search(rf"\b{name}\b", it) for it in texts):
            return cycle[1:]
    return None


def place(crate, path, old):
    """Returns the place of a text, if it is in the body of a function."""
    text = rt.rtlib.text_of(f"{crate.folder}/{path}") if path.startswith("src/") else ""
    at = (text or "").find(old)
    heads = [it for it in HEAD.finditer(text or "") if it.start() <= at]
    if not heads:
        return None
    head = heads[-1]
    # in rt fmt's layout a body begins after the first line at the head's indent that ends with a brace, and ends at the next line there with a brace alone
    begin = re.compile(rf"(?m)^{head[1]}(?! ).*\{{$").search(text, head.start())
    end = begin and re.compile(rf"(?m)^{head[1]}\}}").search(text, begin.end())
    return Place(crate, path, text, head, end.start()) if end and begin.end() <= at < end.start() else None


def places(crate, edit):
    """Returns the places of the texts that an edit changes, or none if one is outside a body."""
    found, path = [], ""
    for line in open(edit, encoding="utf-8"):
        if line.startswith("file: "):
            path = line[6:].strip()
        elif line.startswith("old: "):
            found.append(place(crate, path, line[5:].rstrip("\n")))
    return found if all(found) else []


def batches(crate, edits):
    """Returns the edits in the fewest checks that their functions permit, and the edits that must be tried alone."""
    found, alone = [], []
    for edit in edits:
        where = places(crate, edit)
        keys = {it.key for it in where}
        if not where or rt.read_edit(edit, crate.folder)[1]:
            alone.append(edit)
            continue
        batch = next((it for it in found if not any(keys & others for _, _, others in it)), None)
        if batch is None:
            found.append(batch := [])
        batch.append((edit, where, keys))
    return found, alone


def edited(crate, edits, room):
    """Copies the crate to a folder and makes the edits there."""
    for part in rt.rtlib.PARTS:
        if os.path.isdir(f"{crate.folder}/{part}"):
            shutil.copytree(f"{crate.folder}/{part}", f"{room}/{part}")
    for edit in edits:
        # (an edit that another edit of this check prevents is tried alone)
        for path, text in (rt.read_edit(edit, room)[0] or {}).items():
            with open(f"{room}/{path}", "w", encoding="utf-8") as file:
                file.write(text)


def checked(room, words):
    """Returns what rattle prints for the crate in a folder."""
    how = {"stdin": subprocess.DEVNULL, "stdout": subprocess.PIPE, "stderr": subprocess.STDOUT, "errors": "replace"}
    return subprocess.run([*rt.rtlib.guarded(), rt.rtlib.RATTLE, "check", *words], cwd=room, **how).stdout


def refused(crate, batch):
    """Checks a copy of the crate with all edits of a batch, and returns those that are refused by a goal of their own."""
    with tempfile.TemporaryDirectory(prefix="try-edits-") as room:
        edited(crate, [edit for edit, _, _ in batch], room)
        kept = f"{room}/kept"
        if os.path.isdir(f"{crate.folder}/out/incremental"):
            shutil.copytree(f"{crate.folder}/out/incremental", kept)
        said = checked(room, [*crate.words(FLAGS, keeps=False), "--incremental", kept])
    if any(rt.unread(line, {it.path for _, where, _ in batch for it in where}) for line in said.split("\n")):
        return []
    goals = [(it[1], int(it[2])) for it in GOAL.finditer(said)]
    return [edit for edit, where, _ in batch if any(it.has(*goal) for it in where for goal in goals)]


def edits_of(crate):
    """Returns the edits of both folders, and the files of must-fail/ that are no edits."""
    more = f"{crate.folder}/more-edits"
    good, bad = rt.edits_of(crate)
    return good + [f"{more}/{it}" for it in sorted(os.listdir(more) if os.path.isdir(more) else []) if it.endswith(".edit")], bad


def compilation(crate, edits):
    """Returns what rattle prints for a copy of the crate with all of the edits if it proves nothing."""
    with tempfile.TemporaryDirectory(prefix="compile-edits-") as room:
        edited(crate, edits, room)
        return checked(room, crate.words([*FLAGS, "--only", ""], as_source=True))


def compile_errors(crate, edits):
    """Compiles a copy of the crate with all of the edits, and returns those that do not compile or change no text; nothing is proved."""
    changes = not any(rt.read_edit(edit, crate.folder)[1] for edit in edits)
    # rattle ends with this line if the crate compiles
    if changes and compilation(crate, edits).rstrip().split("\n")[-1].startswith("only="):
        return []
    return edits if len(edits) == 1 else [it for edit in edits for it in compile_errors(crate, [edit])]


def compiled(crate):
    """Compiles the edits of one crate, and returns whether each compiles."""
    good, bad = edits_of(crate)
    groups, alone = batches(crate, good)
    together = [[edit for edit, _, _ in batch] for batch in groups] + [[edit] for edit in alone]
    lacking = [it for edits in together for it in compile_errors(crate, edits)]
    print(f"{crate.name}: {len(good) - len(lacking)} of {len(good)} edits compile")
    for edit in [*lacking, *bad]:
        print(f"  does not compile: {os.path.basename(edit)}")
    return not lacking and not bad


def tried(crate):
    """Tries the edits of one crate, and returns whether each was refused."""
    if any(dep.build_rlib(FLAGS, anew=False) for dep in crate.below()):
        sys.exit("tools/try_edits.py: a library below is not proved")
    good, bad = edits_of(crate)
    groups, alone = batches(crate, good)
    for batch in groups:
        own = refused(crate, batch)
        alone += [edit for edit, _, _ in batch if edit not in own]
    print(f"{crate.name}: {len(good) - len(alone)} of {len(good)} edits refused in {len(groups)} checks (the verdict is rt must-fail's)")
    for edit in [*alone, *bad]:
        print(f"  try alone: {os.path.basename(edit)}")
    return not alone and not bad


if __name__ == "__main__":
    names = [it for it in sys.argv[1:] if it != "--compile"]
    if not names:
        sys.exit(__doc__)
    rt.rtlib.guarded()
    judge = tried if names == sys.argv[1:] else compiled
    crates = [it for it in rt.rtlib.crates_below(os.getcwd()) if it.name in names]
    sys.exit(0 if all([judge(it) for it in crates]) and len(crates) == len(names) else 1)
