#!/usr/bin/env python3
"""Checks the documents against the tree: docs/check.py [PROGRAM]

The gate passes a program, which this script does not need. The documents are README.md, CONTRIBUTING.md, CHANGELOG.md, SECURITY.md,
tests/README.md, examples/README.md and all of docs/. The script checks

    each link                      the file exists, and so does the heading if one is named
    each `crates/..`, `tests/..` and the like      the file or folder exists; a path with capitals or a * is a pattern
    each file with a line (`runs.rt:36` and a word after it)     the word is on that line
    each jt_.. name                it is a crate or a call of bindings/c/jt.h; of `jt_..::name` the crate has an item of this name
    each `Type::call`              a crate with a type of this name has the call
    each call, and each file of code without a link, of contracts.md      the crate of its heading has it
    each module of definitions.md  it is in specs/ of the crate
    each sentence of errors.md that `jt explain` prints     the code of jt_host has it, and each refusal of templates there has one
    each sentence of errors.md of a fault or a spent number     the same
    each example of errors.md, from-jinja.md and tests/README.md (a line with ` => ` in a code block or a table)     it is a row of tests/rows/
    each code block after a line that ends with a link to a file of code and a colon      the file has these lines
    README.md                      it has at most 9,000 bytes
    each name of Jinja (tests/jinja_names.py)      the language has it, or jt_hints names it as left out
    docs/architecture.md           it lists the crates of crates.txt, in the same order, each after those that it names
    each place of the version      it has the version of jt_version
    each document                  links lead to it from README.md

It prints each failure. The last line is 'N passed, M failed', and the status is 1 if one failed.
"""
import pathlib
import re
import sys
import textwrap

ROOT = pathlib.Path(__file__).resolve().parent.parent
sys.path.insert(0, str(ROOT / "tests"))
sys.dont_write_bytecode = True
import explanations
import jinja_names
import run_explanations

MOST = 9000
LINK = re.compile(r"(?<!!)\[[^\]]*\]\(([^)\s]+)\)")
QUOTED = re.compile(r"\[[^\]]*\]\(([^)\s]+\.(?:rt|rs|c|py))\):\n\n((?: {4}.*\n|\n(?= {4}))+)")
FOLDERS = "crates|tests|tools|docs|bench|examples|bindings"
PATH = re.compile(rf"(?<![\w/.])(?:\.ci/\w+|(?:{FOLDERS})/[\w./*+-]*[\w*/])")
PLACED = re.compile(r"((?:crates)/[\w./-]+\.rt):(\d+) `(\w+)`")
CRATE = re.compile(r"\bjt_[a-z_]+\b")
NAMED = re.compile(r"`([\w]+)`")
IN_CRATE = re.compile(r"`(?:(jt_[a-z_]+)::)([\w:]+)`")
CALL = re.compile(r"`([A-Z]\w*)::([a-z]\w*)`")
HEADING = re.compile(r"^#+ (.*)$", re.M)
ITEM = r"\b(?:fn|struct|enum|trait|type|const|mod)\s+{0}\b|\bpub use [^;]*\b{0}\b"
SHOWING = ("docs/errors.md", "docs/from-jinja.md", "tests/README.md")
# the examples that embedding.md quotes
HOSTS = ("main.rt", "example.c", "hello.rs", "example.py")
# a refusal of templates in a text of Rust, and the end of a line inside of a text
REFUSAL = re.compile(r'"([SPCVG]\d+ (?!NoMemory)\w+)"')
SPLIT = re.compile(r"\\\n\s*")
# the places of the version, that of jt_version first
VERSIONS = {
    "crates/jt_version/src/lib.rt": r'VERSION: &str = "([^"]*)"',
    "bindings/c/jt.h": r'#define JT_VERSION "([^"]*)"',
    "bindings/python/src/jt/__init__.py": r'__version__ = "([^"]*)"',
    "bindings/rust/Cargo.toml": r'version = "([^"]*)"',
}
# the kit's types with calls that documents name
KIT = {"Rc", "Vec", "String", "Write"}


def documents():
    """The documents, README.md first."""
    top = [ROOT / name for name in ("README.md", "CONTRIBUTING.md", "CHANGELOG.md", "SECURITY.md", "tests/README.md", "examples/README.md")]
    return [*top, *sorted((ROOT / "docs").rglob("*.md"))]


def anchor(heading):
    """The name of a heading in links."""
    return re.sub(r"[^\w\- ]", "", heading.strip().lower().replace("`", "")).replace(" ", "-")


def anchors(text):
    return {anchor(heading) for heading in HEADING.findall(text)}


def crates():
    """The crates of crates.txt, in its order."""
    lines = (ROOT / "crates.txt").read_text(encoding="utf-8").splitlines()
    return [line.split(":")[0].split()[0] for line in lines if line.strip() and not line.startswith("#")]


def sources():
    """The code of each crate, and of the crate for Rust hosts."""
    folders = {crate: (ROOT / "crates" / crate / "src", "*.rt") for crate in crates()}
    folders["jt"] = (ROOT / "bindings" / "rust" / "src", "*.rs")
    return {
        crate: "\n".join(file.read_text(encoding="utf-8") for file in sorted(folder.rglob(ending)))
        for crate, (folder, ending) in folders.items()
    }


def rows():
    """The rows of tests/rows/: each line of a file."""
    return {line.strip() for file in (ROOT / "tests" / "rows").glob("*.txt") for line in file.read_text(encoding="utf-8").splitlines()}


def examples(text):
    """The lines of code blocks that are rows, and the cells of tables that are."""
    for line in text.splitlines():
        if line.startswith("    ") and " => " in line:
            yield line.strip()
        elif line.startswith("|"):
            for cell in re.findall(r"`([^`]* => [^`]*)`", line):
                yield cell.replace("\\|", "|")


def stands_in(block, text):
    """Whether a text has these lines in sequence, at any indent."""
    wanted, lines = textwrap.dedent(block).strip().splitlines(), text.splitlines()
    slices = (lines[at : at + len(wanted)] for at in range(len(lines)))
    return any(textwrap.dedent("\n".join(it)).splitlines() == wanted for it in slices)


def declared():
    """The names that bindings/c/jt.h declares."""
    return set(CRATE.findall((ROOT / "bindings" / "c" / "jt.h").read_text(encoding="utf-8")))


class Checks:
    """The number of checks that passed, and the failures."""

    def __init__(self):
        self.passed, self.wrong = 0, []

    def holds(self, is_so, where, what):
        self.passed += bool(is_so)
        if not is_so:
            self.wrong.append(f"{where.relative_to(ROOT)}: {what}")

    def links(self, file, text):
        """Checks the links of a document, and returns the documents that it leads to."""
        reached = set()
        for link in LINK.findall(text):
            if "://" in link:
                continue
            path, _, heading = link.partition("#")
            to = (file.parent / path).resolve() if path else file
            self.holds(to.exists(), file, f"no file: {link}")
            if heading and to.suffix == ".md" and to.exists():
                self.holds(heading in anchors(to.read_text(encoding="utf-8")), file, f"no heading: {link}")
            reached.add(to)
        return reached

    def paths(self, file, text):
        """Checks the files, folders and lines that a document names."""
        for path in set(PATH.findall(LINK.sub("", text))):
            # (the gate leaves out edits that have another turn)
            path = re.sub("/(must-fail|more-edits).*", "", path)
            there = any(ROOT.glob(path)) if "*" in path else (ROOT / path).exists()
            self.holds(there or "/out/" in path or re.search("[A-Z]{4}|/NAME", path), file, f"no file: {path}")
        for path, number, word in PLACED.findall(text):
            lines = (ROOT / path).read_text(encoding="utf-8").splitlines() if (ROOT / path).exists() else []
            on_line = lines[int(number) - 1 : int(number)]
            self.holds(any(re.search(rf"\b{word}\b", line) for line in on_line), file, f"{path}:{number} has no {word}")

    def names(self, file, text, code):
        """Checks the crates, and the calls of types and crates, that a document names."""
        for crate in set(CRATE.findall(text)):
            self.holds(crate in code or crate in declared(), file, f"no crate: {crate}")
        for crate, name in set(IN_CRATE.findall(text)):
            last = name.split("::")[-1]
            self.holds(re.search(ITEM.format(last), code.get(crate, "")), file, f"{crate} has no {name}")
        for kind, call in set(CALL.findall(text)):
            known = any(re.search(ITEM.format(call), it) and re.search(rf"\b{kind}\b", it) for it in code.values())
            self.holds(known or kind in KIT, file, f"no call: {kind}::{call}")

    def promised(self, file, text, code):
        """Checks the calls and the files of code of contracts.md: each belongs to the crate of its heading."""
        for crate, part in re.findall(r"^### (jt_\w+)(.*?)(?=^##|\Z)", text, re.M | re.S):
            for name in (it for calls in re.findall(r"\*\*(`[^*]*`)\*\*", part) for it in NAMED.findall(calls)):
                self.holds(re.search(ITEM.format(name), code.get(crate, "")), file, f"{crate} has no {name}")
            for name in set(re.findall(r"\b\w+\.rt\b", LINK.sub("", part))):
                there = any((ROOT / "crates" / crate / "src").rglob(name))
                self.holds(there, file, f"{crate} has no file {name}")

    def quoted(self, file, text):
        """Checks the lines that a document quotes from files of code; embedding.md quotes each host."""
        named = set()
        for path, block in QUOTED.findall(text):
            to = (file.parent / path).resolve()
            named.add(to.name)
            there = to.exists() and stands_in(block, to.read_text(encoding="utf-8"))
            self.holds(there, file, f"{path} has no lines as {block.strip().splitlines()[0]}")
        for host in HOSTS if file.name == "embedding.md" else ():
            self.holds(host in named, file, f"it quotes nothing from {host}")

    def defined(self, file, text):
        """Checks the tables of definitions.md: each module is in specs/ of its crate."""
        for line in text.splitlines():
            cells = [cell.strip() for cell in line.strip("|").split(" | ")]
            place = cells[1] if len(cells) == 3 else " ".join(cells)
            if len(cells) in (2, 3) and "jt_" in place:
                crate = None
                for word in re.findall(r"jt_[a-z_]+|`\w+`", place):
                    crate = word if word.startswith("jt_") else crate
                    if word.startswith("`"):
                        specs = ROOT / "crates" / str(crate) / "specs"
                        there = any((specs / part / f"{word[1:-1]}.antt").exists() for part in ("", "internal"))
                        self.holds(there, file, f"no module: {crate}, {word}")

    def explained(self, file, text, code):
        """Checks the sentences of errors.md: the code of jt_host has each of them, and each refusal of templates has one."""
        sentences, source = explanations.table(text), SPLIT.sub("", code["jt_host"])
        refusals = set(REFUSAL.findall(source))
        self.holds(refusals and sentences, file, "it has no sentence of `jt explain`")
        for refusal in sorted(refusals):
            self.holds(refusal in sentences, file, f"no sentence of `jt explain` for {refusal}")
        for row, sentence in sorted(sentences.items()):
            words = sentence.removesuffix(' "NAME"')
            self.holds(re.match(r"\w+ \w+", row)[0] in refusals, file, f"jt_host has no {row}")
            self.holds(f'"{words}"' in source, file, f"jt_host does not say of {row}: {words}")

    def runs_explained(self, file, text, code):
        """Checks the sentences of errors.md on runs: jt_host has each, and each fault and number of a budget has one."""
        sentences, source = run_explanations.table(text), SPLIT.sub("", code["jt_host"])
        endings = {*re.findall(r"(?m)^### (F\d \w+)$", text), *run_explanations.SPENT}
        for ending in sorted(endings | set(sentences)):
            self.holds(ending in endings, file, f"no fault and no number of a budget: {ending}")
            self.holds(ending in sentences, file, f"no sentence of `jt explain` for {ending}")
            sentence = sentences.get(ending, "")
            self.holds(f'"{sentence}"' in source, file, f"jt_host does not say of {ending}: {sentence}")

    def order(self):
        """crates.txt lists each crate after those that it names, and docs/architecture.md lists the same crates in the same order."""
        above = set()
        for line in (ROOT / "crates.txt").read_text(encoding="utf-8").splitlines():
            if line.strip() and not line.startswith("#"):
                crate, _, named = line.partition(":")
                below = [it for it in named.split() if it in crates() and it not in above]
                self.holds(not below, ROOT / "crates.txt", f"{crate} is listed before {' '.join(below)}")
                above.add(crate.split()[0])
        listing = ROOT / "docs/architecture.md"
        found = re.findall(r"(?m)^\| (jt_[a-z_]+) \|", listing.read_text(encoding="utf-8"))
        for crate in crates():
            self.holds(crate in found, listing, f"the table does not list {crate}")
        self.holds(found == crates(), listing, "the table lists other crates than crates.txt, or in another order")

    def versions(self):
        """Each place of the version has that of jt_version."""
        wanted = None
        for name, form in VERSIONS.items():
            file = ROOT / name
            found = re.search(rf"(?m)^(?:pub const )?{form}", file.read_text(encoding="utf-8"))
            version = found and found[1]
            wanted = wanted or version
            self.holds(version and version == wanted, file, f"its version is {version}, and that of jt_version {wanted}")


def main():
    checks, code, known = Checks(), sources(), rows()
    leads = {}
    for file in documents():
        text = file.read_text(encoding="utf-8")
        leads[file] = checks.links(file, text)
        checks.paths(file, text)
        checks.names(file, text, code)
        checks.quoted(file, text)
        if str(file.relative_to(ROOT)) in SHOWING:
            shown = list(examples(text))
            checks.holds(shown, file, "it shows no row")
            for row in shown:
                checks.holds(row in known, file, f"no row: {row}")
        if file.name == "errors.md":
            checks.explained(file, text, code)
            checks.runs_explained(file, text, code)
        if file.name == "contracts.md":
            checks.promised(file, text, code)
        if file.name == "definitions.md":
            checks.defined(file, text)
    readme = ROOT / "README.md"
    checks.holds(len(readme.read_bytes()) <= MOST, readme, f"it has more than {MOST} bytes")
    checks.order()
    checks.versions()
    wrong = jinja_names.failures()
    checks.holds(not wrong, ROOT / "tests/jinja_names.py", "; ".join(wrong))
    reached, waiting = set(), [readme]
    while waiting:
        file = waiting.pop()
        if file not in reached:
            reached.add(file)
            waiting += leads.get(file, ())
    for file in documents():
        checks.holds(file in reached, file, "no links lead here from README.md")
    for it in checks.wrong:
        print(it)
    print(f"{checks.passed} passed, {len(checks.wrong)} failed")
    sys.exit(1 if checks.wrong else 0)


if __name__ == "__main__":
    main()
