#!/usr/bin/env python3
"""Lists the files of each recipe of CONTRIBUTING.md: tools/recipes.py [NAME ..]

A recipe is a section `To add a NAME`, with a line `Use `WORD` as the example`. Its files are those of crates/*/src, specs and proofs
that have the word, or one of the words if there are several. Files that only show examples do not count (EXAMPLES). The script prints
the number of files of each recipe, in src, specs and proofs, and each file of src and specs that the section does not name. Proofs are
listed for a recipe that is asked for by its name.

A section may name a file or a folder. The status is 1 if a section lacks a file of src or specs.
"""
import pathlib
import re
import sys

ROOT = pathlib.Path(__file__).resolve().parent.parent
SECTION = re.compile(r"(?ms)^## To add (?:a|an) ([^\n]*)\n(.*?)(?=^## |\Z)")
WORDS = re.compile(r"[Uu]se\s+((?:`\w+`(?:,?\s+(?:and|or)\s+|,\s+)?)+)\s+as\s+the\s+example")
NAMED = re.compile(r"crates/[\w./+-]*\w/?")
EXAMPLES = ("Examples.antt", "Row.antt", "Rows.antt", "TestTemplates.antt")
PARTS = ("src", "specs", "proofs")


def files_with(words):
    """The files of code, definitions and proofs that have one of the words outside comments, by their part."""
    wanted = re.compile(rf"\b(?:{'|'.join(words)})\b")
    found = {part: [] for part in PARTS}
    for part in PARTS:
        for path in sorted((ROOT / "crates").glob(f"*/{part}/**/*")):
            if path.suffix in (".rt", ".antt") and not path.name.endswith(EXAMPLES):
                text = re.sub(r"(?m)(?://|--(?=\s)).*$", "", path.read_text(encoding="utf-8"))
                if wanted.search(text):
                    found[part].append(str(path.relative_to(ROOT)))
    return found


def main(asked):
    text = (ROOT / "CONTRIBUTING.md").read_text(encoding="utf-8")
    lacking = False
    for name, section in SECTION.findall(text):
        example = WORDS.search(section)
        if not example or asked and name not in asked:
            continue
        found = files_with(re.findall(r"\w+", re.sub(r"\b(?:and|or)\b", "", example[1])))
        print(f"{name}: {sum(map(len, found.values()))} files, " + ", ".join(f"{len(found[part])} in {part}" for part in PARTS))
        named = NAMED.findall(section)
        for path in found["src"] + found["specs"]:
            if not any(path == it or it.endswith("/") and path.startswith(it) for it in named):
                lacking = True
                print(f"  the recipe does not name {path}")
        if asked:
            for path in found["proofs"]:
                print(f"  {path}")
    return 1 if lacking else 0


if __name__ == "__main__":
    sys.exit(main(sys.argv[1:]))
