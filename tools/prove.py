#!/usr/bin/env python3
"""Proves the crates over the work that earlier runs kept in their out/ folders, several side by side: tools/prove.py [--lanes N] [CRATE ..]

A developer's tool: what did not change is not proved again, so that a change is tried in minutes. It takes what checks in other checkouts
on this machine kept, and lets them take what it proves, if the kit shares work (13f does). THE KIT'S OWN RUN IS THE VERDICT: `rt ci` proves
all from nothing. Like the verdict, this tool stops at what rattle only warns of: a tactic that chose a term of a contract, a pattern
that binds a variable spelled like a constructor, and a contract that no call can meet.

A crate begins when its libraries are proved, the crate with the longest chain of crates above it first. The named crates are proved, or
else all, each with its tests; the libraries of a named crate have to be proved already. A line reports each crate; what rattle printed
stands in out/prove.log, or out/prove_tests.log, of the crate. Without --lanes there are as many lanes as processors. The status is 0 if
all were proved.
"""
import argparse, os, pathlib, shutil, subprocess, sys, threading, time
from kit import rt

lib = rt.rtlib


class Task:
    """The proof of a crate, or that of its tests."""

    def __init__(self, crate, is_tests):
        self.crate, self.is_tests, self.key = crate, is_tests, (crate.name, is_tests)
        self.makes_library = crate.makes_rlib() and not is_tests
        suffix = "_tests" if is_tests else ""
        self.kept, self.log = f"out/incremental{suffix}", f"{crate.folder}/out/prove{suffix}.log"
        self.stamp = f"{crate.folder}/out/{'rlib/stamp' if self.makes_library else f'stamp{suffix}'}"

    def __str__(self):
        return f"{self.crate.name}{', its tests' if self.is_tests else ''}"

    def is_proved(self):
        """Returns whether the crate was proved as it stands now."""
        return lib.text_of(self.stamp) == self.crate.stamp() and (not self.makes_library or self.crate.is_built())

    def command(self, jobs):
        words = self.crate.words(["--jobs", str(jobs)], tests=self.is_tests) + ["--incremental", self.kept, "--empty-contracts"]
        if self.makes_library:
            return [lib.RATTLE, "build", *words, "-o", self.crate.rlib]
        return [lib.RATTLE, "check", *words]

    def stop(self, said):
        """Returns why a verdict would not pass what rattle accepted, if it would not."""
        last = [it for it in said.split("\n") if it.startswith("logic=")][-1]
        if lib.chose_a_term(said, self.makes_library):
            return "a tactic chose a term that a contract may read"
        if lib.CATCHES_ALL.search(said):
            return "a pattern binds a variable that is spelled like a constructor"
        if lib.EMPTY.search(said):
            return "no call can meet a contract"
        if any(self.crate.says_search(*it) for it in lib.FILLED_IN.findall(said)):
            return "a clause or a definition has the word of a tactic"
        if not lib.VERDICT.search(last.replace(" incremental=trusted", "") + "\n") or " bugs=" in last:
            return f"the last line has a word that no verdict may have: {last}"
        return None

    def begin(self):
        """Takes what other checkouts on this machine kept of the crate, if the kit shares that and it serves better than what is here."""
        if hasattr(rt, "adopt") and not self.is_tests:
            rt.adopt(self.crate)
            if self.makes_library:
                rt.take_rlib(self.crate)

    def prove(self, jobs):
        """Proves the crate, and returns why not, if not."""
        if self.is_proved():
            return None
        self.begin()
        if self.is_proved():
            return None
        stamp = self.crate.stamp()
        pathlib.Path(self.stamp).unlink(missing_ok=True)
        if self.makes_library:
            shutil.rmtree(self.crate.rlib, ignore_errors=True)
        os.makedirs(os.path.dirname(self.stamp), exist_ok=True)
        how = {"cwd": self.crate.folder, "stdin": subprocess.DEVNULL, "stdout": subprocess.PIPE, "stderr": subprocess.STDOUT, "text": True, "errors": "replace"}
        ran = subprocess.run([*lib.guarded(), *self.command(jobs)], **how)
        pathlib.Path(self.log).write_text(ran.stdout, encoding="utf-8")
        why = self.stop(ran.stdout) if ran.returncode == 0 else "it is not proved"
        if why and ran.returncode == 0:
            # (rattle warns only of what it checks, so the next run has to check it again)
            shutil.rmtree(f"{self.crate.folder}/{self.kept}", ignore_errors=True)
        if not why and stamp != self.crate.stamp():
            why = "its files changed meanwhile"
        if not why:
            pathlib.Path(self.stamp).write_text(stamp, encoding="utf-8")
            if hasattr(rt, "offer") and not self.is_tests:
                rt.offer(self.crate, stamp)
        return f"{why}: {os.path.relpath(self.log)}" if why else None


def chains(crates):
    """Returns for each crate the lines of the longest chain of crates from it upwards, by which the order goes."""
    longest = {}
    for crate in reversed(crates):
        above = [longest[it.name] for it in crates if crate.name in {dep.name for dep in it.deps}]
        longest[crate.name] = crate.count(rb"\n") + 300 + max(above, default=0)
    return longest


class Run:
    """All tasks: what waits, what runs, and how each one ended."""

    def __init__(self, tasks, crates, lanes):
        self.waiting, self.running, self.ended, self.lanes = tasks, set(), {}, lanes
        self.named, self.longest = {it.crate.name for it in tasks}, chains(crates)
        self.changed, self.begun = threading.Condition(), time.monotonic()

    def below(self, task):
        """Returns how the libraries of a task ended: None for one that has not."""
        return [self.ended.get((it.name, False)) for it in task.crate.deps if it.name in self.named]

    def end(self, task, why, since):
        self.ended[task.key] = why or ""
        minutes, seconds = (time.monotonic() - self.begun) / 60, time.monotonic() - since
        print(f"{minutes:5.1f}  {task} {f'NOT PROVED: {why}' if why else 'proved'} ({seconds:.0f} s)", flush=True)

    def work(self, task, jobs):
        since = time.monotonic()
        try:
            why = task.prove(jobs)
        except BaseException as error:
            why = repr(error)
        with self.changed:
            self.running.discard(task)
            self.end(task, why, since)
            self.changed.notify_all()

    def start(self):
        """Starts what can run now."""
        for task in [it for it in self.waiting if any(self.below(it))]:
            self.waiting.remove(task)
            self.end(task, "a library is not proved", time.monotonic())
        ready = [it for it in self.waiting if all(state == "" for state in self.below(it))]
        ready.sort(key=lambda it: (it.is_tests, -self.longest[it.crate.name]))
        while ready and len(self.running) < self.lanes:
            task = ready.pop(0)
            idle = self.lanes - len(self.running) - len(ready)
            self.waiting.remove(task)
            self.running.add(task)
            threading.Thread(target=self.work, args=(task, max(1, min(idle, 3)))).start()

    def all(self):
        """Runs all tasks, and returns whether each was proved."""
        with self.changed:
            while self.waiting or self.running:
                self.start()
                if self.running:
                    self.changed.wait()
        return not any(self.ended.values())


def main():
    parser = argparse.ArgumentParser(description=__doc__.split("\n")[0])
    parser.add_argument("--lanes", type=int, default=os.cpu_count())
    parser.add_argument("crates", nargs="*")
    args = parser.parse_args()
    lib.guarded()
    crates = lib.crates_below(os.getcwd())
    unknown = set(args.crates) - {it.name for it in crates}
    if unknown:
        parser.error(f"there is no crate {', '.join(sorted(unknown))}")
    wanted = [it for it in crates if not args.crates or it.name in args.crates]
    names = {it.name for it in wanted}
    lacking = {it.name for crate in wanted for it in crate.below() if it.name not in names and not it.is_built()}
    if lacking:
        parser.error(f"not proved as they stand now: {', '.join(sorted(lacking))}")
    for crate in wanted:
        os.makedirs(f"{crate.folder}/out", exist_ok=True)
    # (held until this run ends)
    _lock = lib.lock(wanted)
    tasks = [Task(it, False) for it in wanted] + [Task(it, True) for it in wanted if it.has_tests()]
    return 0 if Run(tasks, crates, args.lanes).all() else 1


if __name__ == "__main__":
    sys.exit(main())
