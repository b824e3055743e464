#!/usr/bin/env python3
"""Lists the modules of definitions that nobody must believe: tools/believed.py [--check | CALL ..]

With names of public functions, as `compile run perform`, it prints how much their clauses rest on: for each clause, and for all
together, the definitions of `specs/` that they reach, directly or through others, and the lines of these without comments. It is more
than a reader needs rather than less, since it goes by names (reached.py). `CRATE::CALL` names one of several functions.

A module of `crates/*/specs` must be believed if a clause of a public call cites it, in any crate, or if such a module imports it.
Without a flag the script prints, as Markdown, the other modules of each crate: private clauses and proofs alone cite them. With
`--check` it compares them with the modules in `specs/internal/`, and fails if the two differ. The script goes by names and imports,
and uses no prover.
"""
import pathlib, re, sys

sys.dont_write_bytecode = True
import reached

CRATES = pathlib.Path(__file__).resolve().parent.parent / "crates"
USE = re.compile(r"(?m)^ *(?:ghost |pub |unfoldable )*use\s+Rattle\.(\w+)\.specs((?:\.\w+)*)(?:\.\{([^}]*)\})?(?:\s+as\s+(\S+?))?;?\s*$")
PATH = re.compile(r"(?<!use )\bRattle\.(\w+)\.specs\.((?:internal\.)?[A-Z]\w*)\.")
KEYWORDS = {"pub", "use", "mod", "fn", "const", "struct", "enum", "trait"}
PUBLIC = re.compile(r'(?m)^pub (?:use [^;]*|(?:(?:const|unsafe|extern "C") )*(?:mod|fn|struct|enum|trait|type) \w+)')
CALL = re.compile(r'(?m)^(?:pub )?(?:(?:const|unsafe|extern "C") )*fn (\w+)')
METHOD = re.compile(r'(?m)^ +pub (?:(?:const|unsafe|extern "C") )*fn ')
HEADS = {"Lib", "internal"}


def imports(text):
    """The words that a file imports, each with the crate and the module that it comes from."""
    for said in USE.finditer(text):
        module = said[2].lstrip(".")
        names = said[3].split(",") if said[3] else [said[4] or module.rpartition(".")[2]]
        for item in names:
            yield item.split(" as ")[-1].strip(), (said[1], module)


def cited(text):
    """The modules that a file names, by imports or by whole paths."""
    return {module for _, module in imports(text)} | {(it[1], it[2]) for it in PATH.finditer(text)}


def exported(top):
    """The names that a crate's root passes on."""
    return set(re.findall(r"\w+", " ".join(PUBLIC.findall(top.read_text(encoding="utf-8"))))) - KEYWORDS


def clauses(text, public):
    """The clauses of a file's public calls, and the ghost items of its public types and traits."""
    kept, owner, own = [], False, False
    for block in re.split(r"\n\n", text):
        head = re.search(r"(?m)^(?:pub )?(impl|trait|struct|enum)\b[^{]*", block)
        if head:
            own = head[1] == "impl" and " for " not in head[0]
            owner = bool(set(re.findall(r"\w+", bare(head[0]))) & public)
        elif not block.startswith("    "):
            owner = False
        call = CALL.search(block)
        hidden = own and not METHOD.search(block)
        if owner and not hidden or call and call[1] in public:
            kept += re.findall(r"(?s)\b(?:requires|ensures|ghost)\b.*?(?=\n *\{\n|\n *(?:pub )?fn |\Z)", block)
    return "\n".join(kept)


def bare(head):
    """The text before a block, without the text in angle brackets."""
    left, depth = "", 0
    for at, it in enumerate(head):
        depth += (it == "<") - (it == ">" and head[at - 1] != "-")
        left += it if depth == 0 else " "
    return left


def begun(crate):
    """The modules that the public clauses of a crate cite."""
    top = next(it for it in (CRATES / crate / "src/lib.rt", CRATES / crate / "src/main.rt") if it.exists())
    public = exported(top)
    for path in (CRATES / crate / "src").rglob("*.rt"):
        text = path.read_text(encoding="utf-8")
        said = clauses(text, public)
        words = set(re.findall(r"[^\s(){}\[\],;.]+", said))
        yield from (module for word, module in imports(text) if word in words)
        yield from ((it[1], it[2]) for it in PATH.finditer(said))


def modules():
    """The file of each module of definitions, by its crate and its name."""
    found = {}
    for path in sorted(CRATES.glob("*/specs/**/*.antt")):
        crate, _, *names = path.relative_to(CRATES).with_suffix("").parts
        if ".".join(names) not in HEADS:
            found[crate, ".".join(names)] = path
    return found


def believed_of(held):
    """The modules that must be believed."""
    below = {key: cited(path.read_text(encoding="utf-8")) for key, path in held.items()}
    left = [it for crate in sorted(it.name for it in CRATES.iterdir() if (it / "src").is_dir()) for it in begun(crate)]
    believed = set()
    while left:
        module = left.pop()
        if module in below and module not in believed:
            believed.add(module)
            left += below[module]
    return believed


def check(held, believed):
    """Compares the modules in `specs/internal/` with those that nobody must believe, and returns the exit status."""
    failed = 0
    for crate, name in held:
        inside = name.startswith("internal.")
        if inside == ((crate, name) in believed):
            failed += 1
            why = "a public clause cites it: move it out of specs/internal/" if inside else "no public clause cites it: move it into specs/internal/"
            print(f"{crate}: {name}: {why}")
    print(f"{len(held) - failed} passed, {failed} failed")
    return 1 if failed else 0


def show_reached(calls):
    """Prints, as Markdown, how much the clauses of public functions rest on."""
    print("| Call | Clause | Definitions | Lines |\n|---|---|---|---|")
    for call in calls:
        for name, clause, definitions, lines in reached.rows(call):
            print(f"| {name} | {clause} | {definitions:,} | {lines:,} |")
    return 0


def main():
    calls = [it for it in sys.argv[1:] if it.isidentifier() or "::" in it]
    if calls:
        return show_reached(calls)
    held = modules()
    believed = believed_of(held)
    if "--check" in sys.argv[1:]:
        return check(held, believed)
    print("| Crate | Modules that private clauses and proofs alone cite |\n|---|---|")
    for crate in sorted({it for it, _ in held}):
        private = [name.removeprefix("internal.") for it, name in held if it == crate and (it, name) not in believed]
        if private:
            print(f"| {crate} | {', '.join(f'`{it}`' for it in private)} |")
    return 0


if __name__ == "__main__":
    sys.exit(main())
