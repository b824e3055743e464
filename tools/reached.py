"""Counts the definitions that the clauses of a public function reach. tools/believed.py prints the counts.

A definition counts if a clause names it, directly or through other definitions. So do the definitions that the ghost items of the
signature's types and traits name. The module goes by names and imports, and uses no prover.
"""
import functools, pathlib, re

CRATES = pathlib.Path(__file__).resolve().parent.parent / "crates"
USE = re.compile(r"^ *(?:ghost |pub |unfoldable )*use\s+Rattle\.(jt_\w+)\.specs\.([\w.]+?)(?:\.\{([^}]*)\})?(?:\s+as\s+([^\s;]+))?;?\s*$", re.M)
FOREIGN = re.compile(r"^ *(?:ghost |pub |unfoldable )*(?:use|mod) ")
HEAD = re.compile(r"(?:abbrev|unfoldable|pub|def|record|data|syntax|mutual)\b")
NAMED = re.compile(r"(?:(?:abbrev|unfoldable|pub|def|syntax) )*(record |data )?([^\s(){}\[\],;:]+)")
INNER = re.compile(r"(  |    )(?:pub )?(?:(?:abbrev|unfoldable|def|record|data|syntax) )*([^\s(){}\[\],;:]+) (?:[({][^=]*)?:(?: |$)")
WORD = re.compile(r"[^\s(){}\[\],;]+")
CLAUSE = re.compile(r"^ +(?:ensures|requires) (\w+) ", re.M)


class Item:
    """A definition, several mutual ones, or the head of a section."""

    def __init__(self, line, section):
        self.lines, self.section, self.names, self.inner = [line], section, [], []
        head = NAMED.match(line)
        self.is_data = bool(head and head[1] == "data ")
        self.is_mutual = bool(re.match(r"(?:abbrev )?mutual\b", line))
        if head and not self.is_mutual and not line.startswith("module "):
            self.names.append(head[2])

    def add(self, line):
        self.lines.append(line)
        name = INNER.match(line)
        if name and self.is_mutual and name[1] == "  ":
            self.names.append(name[2])
        elif name and (self.is_mutual or self.is_data):
            self.inner.append(name[2])


def items(lines, section=None):
    """The definitions of a module or of a section; a section's lines stand two columns further in."""
    last, at = None, 0
    while at < len(lines):
        line, at = lines[at], at + 1
        if line.startswith("module "):
            last = Item(line, section)
            yield last
            first = at
            while at < len(lines) and lines[at].startswith("  "):
                at += 1
            yield from items([it[2:] for it in lines[first:at]], last)
        elif HEAD.match(line):
            last = Item(line, section)
            yield last
        elif last:
            last.add(line)


def written(text):
    """The lines of definitions, without comments, imports and empty lines."""
    return [it for it in text.splitlines() if it.strip() and not it.lstrip().startswith("--") and not FOREIGN.match(it)]


def imports(text):
    """The words that a file imports, each with the crate, the module, and the name there or nothing for the module itself."""
    found = {}
    for crate, module, names, alias in USE.findall(text):
        for name in names.split(",") if names else ():
            old, _, new = name.strip().partition(" as ")
            found[new or old] = (crate, module, old)
        if not names:
            found[alias or module.rpartition(".")[2]] = (crate, module, None)
    return found


class Module:
    """A module of definitions: which definition has a name, and what it imports."""

    def __init__(self, path):
        text = path.read_text(encoding="utf-8")
        self.imported, self.owner = imports(text), {}
        found = list(items(written(text)))
        for names in ("names", "inner"):
            for item in found:
                for name in getattr(item, names):
                    for sign in (name, *filter(None, name.split("◌") if "◌" in name else ())):
                        self.owner.setdefault(sign, item)


@functools.lru_cache(maxsize=None)
def module(crate, name):
    path = CRATES / crate / "specs" / (name.replace(".", "/") + ".antt")
    return Module(path) if path.exists() else None


def parts(word):
    """The names that a word may be: as it stands, up to a dot, and an operator between holes."""
    yield word.rstrip(".")
    yield word.partition(".")[0]


def found(word, imported, own):
    """The definition that a word means in a file, with its module, if it is one of `jt`."""
    for name in parts(word):
        if own and name in own.owner:
            return own, own.owner[name]
        if name in imported:
            crate, at, old = imported[name]
            after = word.partition(".")[2].partition(".")[0]
            there = module(crate, at)
            if there and (old or after):
                return found(old or after, there.imported, there)
    return None


def reach(texts):
    """The definitions that texts reach; each text has its imports."""
    left = [(text, with_holes(imported), None) for text, imported in texts]
    reached = {}
    while left:
        text, imported, own = left.pop()
        for word in WORD.findall(text):
            meant = found(word, imported, own)
            if meant and meant[1] not in reached:
                there, item = meant
                reached[item] = there
                left.append(("\n".join(item.lines), with_holes(there.imported), there))
                while item.section and item.section not in reached:
                    item = item.section
                    reached[item] = there
                    left.append(("\n".join(item.lines), with_holes(there.imported), there))
    return reached


def with_holes(imported):
    """Imports in which an operator is also found by the signs between its holes."""
    signs = {sign: meant for word, meant in imported.items() if "◌" in word for sign in word.split("◌") if sign}
    return {**signs, **imported}


def files(crate):
    return sorted((CRATES / crate / "src").rglob("*.rt"))


def ghosts(name, crate):
    """The ghost items of a type or trait, with the imports of their file; `crate` is where the name is imported from."""
    kinds = [it.name for it in CRATES.iterdir() if any(re.search(rf"(?m)^pub (?:struct|enum|trait) {name}\b", file.read_text()) for file in files(it.name))]
    for owner in kinds if len(kinds) == 1 or crate not in kinds else [crate]:
        for file in files(owner):
            text = file.read_text(encoding="utf-8")
            for block in re.findall(rf"(?ms)^(?:pub trait {name}\b|impl[^\n]* Model for {name}\b).*?^}}", text):
                for ghost in re.findall(r"(?ms)^    ghost .*?;$", block):
                    yield ghost, imports(text)


def clauses(name, crate=None):
    """The file and the clauses of a public function, by their names, and the ghost items of its signature."""
    for folder in sorted(CRATES.iterdir()):
        for file in files(folder.name) if crate in (None, folder.name) else ():
            text = file.read_text(encoding="utf-8")
            head = re.search(rf"(?ms)^pub fn {name}\b(.*?)^\{{$", text)
            if not head:
                continue
            said = re.sub(r"(?m)^ *//.*", "", head[1])
            pieces = CLAUSE.split(said)
            used = dict(re.findall(r"(?m)^use (jt_\w+)::.*?\b(\w+)\};$", text))
            types = set(re.findall(r"\b[A-Z]\w+", pieces[0]))
            texts = [it for kind in sorted(types) for it in ghosts(kind, next((c for c, w in used.items() if w == kind), folder.name))]
            return file, {word: (clause, imports(text)) for word, clause in zip(pieces[1::2], pieces[2::2])}, texts
    return None, {}, []


def counted(reached):
    """The number of definitions, and of their lines."""
    return sum(len(it.names) for it in reached), sum(len(it.lines) for it in reached)


def rows(call):
    """The rows of a table: the function, a clause or `all`, the number of definitions, and of their lines."""
    crate, _, name = call.rpartition("::")
    file, named, ghost = clauses(name, crate or None)
    if file is None:
        raise SystemExit(f"no public function {call}")
    for clause, text in named.items():
        yield f"`{name}`", f"`{clause}`", *counted(reach([text, *ghost]))
    yield f"`{name}`", "all", *counted(reach([*named.values(), *ghost]))
