#!/usr/bin/env python3
"""Shortens a crate's proofs: tools/shorten.py [--lines N] [--rounds N] CRATE ..

A developer's tool. In place of each body of a lemma or an answer that has N lines or more (3), it tries a tactic with the lemmas that the body
cites: `search`, then `grind` if the body calculates, then `cc`. Whatever is not proved, also at half the limits of the searches, gets its old
body back. Imports that nothing uses any more are dropped. The tool works on a copy of the crate over the work that `rt check` or
tools/prove.py kept, so it changes nothing until all is proved; its libraries have to be proved already. THE KIT'S OWN RUN IS THE VERDICT.

A check reports the errors of many bodies at once, and those that depend on a refused lemma in a later round. Prove the crate again
afterwards, and compare the time: a search may take longer than the term that it replaces.
"""
import argparse, os, pathlib, re, shutil, subprocess, sys, tempfile
from kit import rt

lib = rt.rtlib
WIDTH = 120
# how many characters a body must save if it saves no line
MARGIN = 12
SIGNATURE = re.compile(r"^(\s*)(?:pub )?([^\s:(){}]+) : ")
DEFINITION = re.compile(r"\s*(?:abbrev|unfoldable|data|record)\b")
ERROR = re.compile(r"(?m)^\./proofs/(\S+\.antt):(\d+):\d+: error: (.*)$")
GOAL = re.compile(r"(?m)^\./proofs/(\S+\.antt):(\d+):\d+: goal \? in .*\n((?:(?!\./proofs/).*\n)*)")
REFUSED = re.compile(r"the term in the hole does not fit|probe not judged|undetermined")
WORD = re.compile(r"[A-Za-z_][\w-]*'?")
# words of the language and of the library that are no lemmas for a tactic
NO_LEMMA = set(
    "refl sym ap subst absurd let in cc omega grind search rw simp arith rules elim as tt inl inr record where at transport cond if then else"
    " unfolding not pos Some None Ok Err true false zero suc".split()
)


def indent(line):
    return len(line) - len(line.lstrip())


class Equation:
    """One equation of a lemma: its lines, its head up to the sign of equality, its body, and the bodies to try."""

    def __init__(self, lines, first, head, name, body):
        self.first, self.end, self.name, self.head = first, first + 1, name, head
        at = indent(lines[first])
        while self.end < len(lines) and lines[self.end].strip():
            line = lines[self.end]
            if indent(line) <= at and not (indent(line) == at and line.strip()[0] in ")}]"):
                break
            self.end += 1
        self.body = "\n".join([*([body] if body else []), *lines[first + 1 : self.end]])
        self.lines, self.tries = self.end - first, []

    def with_body(self, tactic):
        """Returns the lines of the equation with another body."""
        whole = f"{self.head} {tactic}"
        return [whole] if len(whole) <= WIDTH else [self.head, f"{' ' * (indent(self.head) + 4)}{tactic}"]


def cut(line):
    """Cuts the first line of an equation at its sign of equality, outside brackets; returns its head, its name and the rest."""
    named = re.match(r"^\s*([^\s(){}=]+)", line)
    depth = 0
    for at in range(named.end() if named else len(line), len(line)):
        depth += (line[at] in "([{") - (line[at] in ")]}")
        if line[at] == "=" and depth == 0 and line[at - 1] == " " and line[at + 1 : at + 2] in ("", " "):
            return line[: at + 1], named[1], line[at + 2 :]
    return None


def equations(text):
    """Returns the equations of the lemmas of a file; definitions that unfold are left out."""
    lines, known, found, at, inside = text.split("\n"), set(), [], 0, None
    while at < len(lines):
        line = lines[at]
        at += 1
        if not line.strip() or line.strip().startswith("--"):
            continue
        if inside is not None and indent(line) > inside:
            continue
        inside = indent(line) if DEFINITION.match(line) else None
        parts, signature = cut(line), SIGNATURE.match(line)
        if inside is not None:
            continue
        if signature and not parts:
            known.add((indent(line), signature[2]))
            while at < len(lines) and lines[at].strip() and indent(lines[at]) > indent(line) and not lines[at].strip().startswith("--"):
                at += 1
        elif parts and (indent(line), parts[1]) in known:
            found.append(Equation(lines, at - 1, *parts))
            at = found[-1].end
    return found


def lemmas_of(text):
    """Returns the names of the lemmas that a file imports or states."""
    found, renamed = set(), {name: module for module, name in re.findall(r"(?m)^use (\S+) as (\S+)$", text)}
    for module, names in re.findall(r"(?m)^use (\S+)\.\{([^}]*)\}", text):
        module = renamed.get(module, module)
        for name in [it.split(" as ")[-1].strip() for it in names.split(",")]:
            is_common = module.endswith("proofs.Common")
            if WORD.fullmatch(name) and not name[0].isupper() and ".proofs." in f"{module}." and (not is_common or re.search("[-_]", name)):
                found.add(name)
    found |= {it[1] for it in re.findall(r"(?m)^(\s*)(?:pub )?([a-z][\w-]*) : ", text)}
    return found - set(re.findall(r"(?m)^\s*(?:abbrev|unfoldable) (?:pub )?(\S+) :", text))


def cycle_of(lines, equation):
    """Returns the lemmas that an equation may call on smaller arguments only: its own, and those of its mutual block."""
    at = equation.first
    while at >= 0 and not (lines[at].strip() == "mutual" and indent(lines[at]) < indent(lines[equation.first])):
        at -= 1
    names = {equation.name}
    for line in lines[at + 1 :] if at >= 0 else []:
        if line.strip() and indent(line) <= indent(lines[at]):
            break
        names |= {it[1] for it in re.findall(r"^(\s*)(?:pub )?([a-z][\w-]*) : ", line)}
    return names


def cited(lines, lemmas, equation):
    """Returns the lemmas that a body cites, those of its own cycle with the arguments that are variables."""
    cycle, body = cycle_of(lines, equation), equation.body
    variables = set(WORD.findall(equation.head)) - {equation.name}
    bound = set(re.findall(r"let ([a-z]\w*)", body)) | {it for names in re.findall(r"λ ([^.]*)\.", body) for it in names.split()}
    found = []
    for word in WORD.finditer(body):
        name = word[0]
        if name in NO_LEMMA | bound or body[word.start() - 1 : word.start()] == "." or (name in variables and name not in cycle):
            continue
        if name in cycle:
            given = re.match(r"(?:\s+[a-z]\w*)*", body[word.end() :])[0].split()
            stop = next((at for at, it in enumerate(given) if it not in variables), len(given))
            name = " ".join([name, *given[:stop]]) if stop else None
        elif name not in lemmas:
            name = None
        if name and name not in found:
            found.append(name)
    return found


def bodies(lines, lemmas, equation):
    """Returns the shorter bodies to try for an equation."""
    names = cited(lines, lemmas, equation)
    if len(names) > 7 or re.search(r"\bwhere\b", equation.body):
        return []
    tactics = [f"search ({', '.join(['arith', 'rules', *names])})"]
    if names and len(names) < 5 and re.search(r"\b(omega|grind)\b", equation.body):
        tactics.append(f"grind ({', '.join(['arith', *names])})")
    if re.search(r"∙|\b(cc|ap|sym|rw|simp)\b", equation.body):
        tactics.append("cc")
    forms = {it: equation.with_body(it) for it in tactics}
    return [it for it, form in forms.items() if is_shorter(form, equation) and max(map(len, form)) <= WIDTH]


def is_shorter(form, equation):
    """Returns whether a form has fewer lines than an equation, or fewer characters by MARGIN."""
    return len(form) < equation.lines or characters(form) + MARGIN <= characters([equation.head, equation.body])


def characters(lines):
    """Returns the number of characters that are no white space."""
    return sum(len(it) for line in lines for it in line.split())


class File:
    """A proof file: its text, and the equations that are tried."""

    def __init__(self, path, least):
        self.path, self.text = path, path.read_text(encoding="utf-8")
        lines, lemmas, self.equations = self.text.split("\n"), lemmas_of(self.text), []
        for equation in equations(self.text):
            if equation.lines >= least:
                equation.tries = bodies(lines, lemmas, equation)
                self.equations += [equation] if equation.tries else []
        self.places = []

    def write(self, probing=False):
        """Writes the file with the bodies that are tried now, or with probes of them, and keeps where each begins and ends."""
        lines, made, at, self.places = self.text.split("\n"), [], 0, []
        for equation in self.equations:
            made += lines[at : equation.first]
            new = lines[equation.first : equation.end]
            if equation.tries:
                new = equation.with_body(f"{{! {equation.tries[0]} !}}" if probing else equation.tries[0])
            self.places.append((len(made) + 1, len(made) + len(new), equation))
            made, at = made + new, equation.end
        self.path.write_text("\n".join(made + lines[at:]), encoding="utf-8")

    def tried_at(self, line):
        """Returns the equation at a line if a new body is tried there."""
        return next((it for first, last, it in self.places if first <= line <= last and it.tries), None)


def checked(words, room, *flags):
    """Checks the copy of the crate, and returns its status and what was printed."""
    how = {"cwd": room, "stdin": subprocess.DEVNULL, "stdout": subprocess.PIPE, "stderr": subprocess.STDOUT, "text": True, "errors": "replace"}
    ran = subprocess.run([*lib.guarded(), lib.RATTLE, "check", *words, "--incremental", "kept", *flags], **how)
    return ran.returncode, ran.stdout


def refuse(files, said):
    """Goes on to the next body of each equation with an error, and returns how many there are."""
    refused = set()
    for path, line, message in ERROR.findall(said):
        if path in files and "is not admitted" not in message and "that depend" not in message:
            refused.add(files[path].tried_at(int(line)))
    for equation in refused - {None}:
        equation.tries.pop(0)
    return len(refused - {None})


def probe(files, words, room):
    """Leaves each equation the bodies from the first one on that fits by itself, or none."""
    open_, fits = {it for file in files.values() for it in file.equations if it.tries}, set()
    while open_:
        waiting = {it: it.tries for file in files.values() for it in file.equations if it not in open_}
        for it in waiting:
            it.tries = []
        for file in files.values():
            file.write(probing=True)
        said = checked(words, room, "--allow-holes")[1]
        goals = {}
        for path, line, told in GOAL.findall(said):
            equation = files[path].tried_at(int(line)) if path in files else None
            if equation:
                goals[equation] = bool(REFUSED.search(told))
        for it in waiting:
            it.tries = waiting[it]
        fits |= {it for it in open_ if goals.get(it) is False}
        print(f"  {len(open_)} bodies tried, {len(fits)} fit so far, {len(open_ - set(goals))} not judged", flush=True)
        for it in open_ - fits:
            it.tries = it.tries[1:] if it in goals else []
        open_ = {it for it in open_ - fits if it.tries}


def settle(files, words, room, rounds):
    """Proves all bodies that fit, also at half the limits, until nothing is refused, and returns whether that is so."""
    probe(files, words, room)
    margin = []
    for number in range(rounds):
        for file in files.values():
            file.write()
        status, said = checked(words, room, *margin)
        count = refuse(files, said)
        left = sum(1 for file in files.values() for it in file.equations if it.tries)
        print(f"  round {number}: {count} refused, {left} left{', at half the limits' if margin else ''}", flush=True)
        if status == 0 and margin:
            return True
        if status == 0:
            margin = ["--margin"]
        elif count == 0:
            print(said[-2000:])
            return False
    return False


def shorten(crate, least, rounds):
    """Shortens the proofs of one crate, and returns whether that succeeded."""
    words = crate.words(["--jobs", "1"], keeps=False)
    with tempfile.TemporaryDirectory(prefix="shorten-") as folder:
        room = pathlib.Path(folder)
        for part in (it for it in lib.PARTS if os.path.isdir(f"{crate.folder}/{it}")):
            shutil.copytree(f"{crate.folder}/{part}", room / part)
        if os.path.isdir(f"{crate.folder}/out/incremental"):
            shutil.copytree(f"{crate.folder}/out/incremental", room / "kept")
        # (a lemma module may stand in the folder of the module that passes its words on)
        paths = [it for it in (room / "proofs").glob("**/*.antt") if it.name not in ("Invariants.antt", "Proof.antt")]
        files = {str(it.relative_to(room / "proofs")): File(it, least) for it in sorted(set(paths))}
        print(f"{crate.name}: {sum(len(it.equations) for it in files.values())} bodies", flush=True)
        if not settle(files, words, room, rounds):
            return False
        checked(words, room, "--fix-imports")
        # (that drops imports of definitions too, which a tactic of a function may need)
        shutil.rmtree(room / "specs", ignore_errors=True)
        if os.path.isdir(f"{crate.folder}/specs"):
            shutil.copytree(f"{crate.folder}/specs", room / "specs")
        status, said = checked(words, room)
        if status != 0:
            print(said[-2000:])
            return False
        changed = [name for name, file in files.items() if file.path.read_text(encoding="utf-8") != file.text]
        before = sum(files[it].text.count("\n") for it in changed)
        after = sum(files[it].path.read_text(encoding="utf-8").count("\n") for it in changed)
        for name in changed:
            shutil.copy(files[name].path, f"{crate.folder}/proofs/{name}")
        print(f"{crate.name}: {before - after} lines fewer in {len(changed)} files")
        return True


if __name__ == "__main__":
    asked = argparse.ArgumentParser(description=__doc__, formatter_class=argparse.RawDescriptionHelpFormatter)
    asked.add_argument("--lines", type=int, default=3)
    asked.add_argument("--rounds", type=int, default=150)
    asked.add_argument("crates", nargs="+")
    given = asked.parse_args()
    found = [it for it in lib.crates_below(os.getcwd()) if it.name in given.crates]
    sys.exit(0 if all([shorten(it, given.lines, given.rounds) for it in found]) and len(found) == len(given.crates) else 1)
