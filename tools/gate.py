#!/usr/bin/env python3
"""Measures the cost of the gate, crate by crate, and prints it as Markdown: tools/gate.py [--edits N] [--keep FILE] [CRATE ..]

All figures are seconds of processor time, at one job, in a copy of the repository, as in `rt ci`: each crate's proof from nothing, its tests
from nothing, and its must-fail edits. N (3) edits are tried and the cost of all is computed: the first costs a check from nothing, each
further one the mean of the tried ones, and one check without an edit ends them. With names only these crates are measured, over all crates
below them. --keep writes the figures to FILE, and figures that FILE has already are not measured again.

Below the table are the sums, and the time of the gate on 4 and on 2 processors. It comes from a replay of rt's order of work with these
figures, on an idle machine, without the short time of the tests and the program.
"""
import argparse, glob, heapq, json, os, resource, shutil, subprocess, sys, tempfile
from kit import rt

FLAGS = ["--jobs", "1"]
TURNS = 10


def seconds(call):
    """Returns the processor time of a call's processes; the call returns whether they succeeded."""
    before = resource.getrusage(resource.RUSAGE_CHILDREN)
    if not call():
        sys.exit("tools/gate.py: a step failed, so what follows would measure nothing")
    after = resource.getrusage(resource.RUSAGE_CHILDREN)
    return round(after.ru_utime + after.ru_stime - before.ru_utime - before.ru_stime, 1)


def proof(crate, tests):
    """Proves the crate, or its tests, from nothing, as rt ci does; returns whether that succeeded."""
    with tempfile.TemporaryFile("a+", errors="replace") as crate.out:
        os.makedirs(f"{crate.folder}/out", exist_ok=True)
        status = crate.ci(FLAGS, tests)
        if status:
            crate.out.seek(0)
            print(crate.out.read()[-2000:], file=sys.stderr)
        return not status


def edits(crate, most):
    """Returns the cost of the first check, of one edit over what it kept, and of a last check without an edit."""
    good = rt.edits_of(crate)[0]
    sample = good[:: max(1, -(-len(good) // most))]
    with tempfile.TemporaryDirectory(prefix="gate-edits-") as kept:
        first = seconds(lambda: rt.checked(crate, {}, FLAGS, kept).returncode == 0)
        tried = [seconds(lambda: rt.must_fail(crate, it, FLAGS, kept)[0]) for it in sample]
        last = seconds(lambda: rt.checked(crate, {}, FLAGS, kept).returncode == 0)
    return {"edits": len(good), "first": first, "edit": round(sum(tried) / len(tried), 1), "last": last}


def measured(crate, most):
    """Returns the cost of one crate; the crates below it are built."""
    sources = sum(open(file, "rb").read().count(b"\n") for file in glob.glob(f"{crate.folder}/src/*.rt"))
    found = {"lines": crate.count(rb"\n"), "sources": sources, "below": [it.name for it in crate.below()], "proof": seconds(lambda: proof(crate, False))}
    if crate.has_tests():
        found["tests"] = seconds(lambda: proof(crate, True))
    if rt.edits_of(crate)[0]:
        found |= edits(crate, most)
    return found


def all_edits(costs):
    """Returns the cost of all edits of a crate."""
    if costs.get("edits", 0) < 2:
        return costs.get("first", 0)
    return costs["first"] + (costs["edits"] - 1) * costs["edit"] + costs["last"]


def dealt(crates):
    """Returns the crates of each turn, as .ci/run divides them."""
    turns = [[] for _ in range(TURNS)]
    weight = {it: 100 * costs["edits"] + costs["sources"] for it, costs in crates.items() if costs.get("edits")}
    for name in sorted(weight, key=lambda it: (-weight[it], it)):
        min(turns, key=lambda turn: sum(weight[it] for it in turn)).append(name)
    return turns


def replayed(crates, turn, lanes):
    """Returns the seconds of rt's order of work: the task with the longest chain of work after it comes first, one task for each lane."""
    tasks = {}
    for name, costs in crates.items():
        waits = [(it, "proof") for it in costs["below"] if it in crates]
        own = [(name, "proof"), (name, "tests")]
        tasks[name, "proof"] = waits, costs["lines"], costs["proof"]
        tasks[name, "tests"] = waits, costs["lines"] * ("tests" in costs), costs.get("tests", 0)
        tasks[name, "edits"] = own, costs["lines"] * (name in turn), all_edits(costs) * (name in turn)
    after = {it: 0 for it in tasks}
    for key in reversed(tasks):
        after[key] += tasks[key][1]
        for it in tasks[key][0]:
            after[it] = max(after[it], after[key])
    left, running, done, now = sorted(tasks, key=lambda it: -after[it]), [], set(), 0
    while left or running:
        for key in [it for it in left if done.issuperset(tasks[it][0])][: lanes - len(running)]:
            left.remove(key)
            heapq.heappush(running, (now + tasks[key][2], key))
        now, key = heapq.heappop(running)
        done.add(key)
    return now


def table(crates):
    """Returns the table, the sums and the replay, as lines of Markdown."""
    yield "| crate | lines | proof s | tests s | edits | first s | one edit s | all edits s |"
    yield "|---|---|---|---|---|---|---|---|"
    for name, costs in crates.items():
        cells = [costs.get(it, "") for it in ("lines", "proof", "tests", "edits", "first", "edit")]
        yield f"| {' | '.join(str(it) for it in [name, *cells, round(all_edits(costs)) or ''])} |"
    proofs, tests = (sum(it.get(what, 0) for it in crates.values()) / 60 for what in ("proof", "tests"))
    every = sum(map(all_edits, crates.values())) / 60
    yield ""
    yield f"Proofs {proofs:.0f}, tests {tests:.0f} and all edits {every:.0f} minutes of processor time: {proofs + tests + every:.0f}."
    turns = [("all edits", list(crates)), *((f"turn {at}", turn) for at, turn in enumerate(dealt(crates))), ("no edits", [])]
    for what, turn in turns:
        cost = proofs + tests + sum(all_edits(crates[it]) for it in turn) / 60
        times = " and ".join(f"{replayed(crates, turn, lanes) / 60:.0f} on {lanes}" for lanes in (4, 2))
        yield f"- {what}: {cost:.0f} minutes of processor time, {times} processors"


def main():
    words = argparse.ArgumentParser(description=__doc__, formatter_class=argparse.RawDescriptionHelpFormatter)
    words.add_argument("--edits", type=int, default=3)
    words.add_argument("--keep")
    words.add_argument("crates", nargs="*")
    asked = words.parse_args()
    keep = os.path.abspath(asked.keep) if asked.keep else os.devnull
    known = json.load(open(keep)) if os.path.isfile(keep) else {}
    with tempfile.TemporaryDirectory(prefix="gate-") as room:
        top = subprocess.check_output(["git", "rev-parse", "--show-toplevel"], text=True).strip()
        shutil.copytree(f"{top}/crates", f"{room}/crates", ignore=shutil.ignore_patterns("out"))
        for file in ("crates.txt", "HANDLES"):
            shutil.copy(f"{top}/{file}", room)
        os.mkdir(f"{room}/.git")
        os.chdir(room)
        rt.rtlib.guarded()
        rt.rtlib.Crate, rt.Crate.cuts_libraries, rt.Crate.allowed = rt.Crate, True, rt.handles_of(room)
        crates = sorted(rt.rtlib.crates_below(room), key=lambda it: len(it.below()))
        asked.crates = asked.crates or [it.name for it in crates]
        for crate in crates:
            needed = [it for it in crates if it.name in asked.crates and it.name not in known and crate in [it, *it.below()]]
            if needed and crate.name in asked.crates and crate.name not in known:
                known[crate.name] = measured(crate, asked.edits)
                with open(keep, "w") as file:
                    json.dump(known, file, indent=1)
                print(f"{crate.name}: {known[crate.name]}", file=sys.stderr, flush=True)
            elif needed and not proof(crate, False):
                sys.exit(f"tools/gate.py: {crate.name} is not proved")
        print("\n".join(table({it.name: known[it.name] for it in crates if it.name in known})))


if __name__ == "__main__":
    main()
