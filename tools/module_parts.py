"""Splits a module of LLVM, as text, into parts that compile side by side. tools/unproved.py uses it.

Each part holds some of the large functions, and its own copy of each small function and constant that it needs. So a part can be
inlined and optimized alone. A large function is visible to other parts and to nothing else.
"""
import re

DEFINED = re.compile(r'^define (internal )?(.*?)@("[^"]*"|[\w.$-]+)\(.*$', re.M)
GLOBAL = re.compile(r'^@("[^"]*"|[\w.$-]+) = .*$', re.M)
DECLARED = re.compile(r'^declare .*?@("[^"]*"|[\w.$-]+)\(.*$', re.M)
NAME = re.compile(r'@("[^"]*"|[\w.$-]+)')
SMALL = 1500


class Function:
    """A function of the module: its text, the names that it uses, and whether each part may have a copy."""

    def __init__(self, text):
        head = DEFINED.search(text)
        self.name, self.text = head[3], text[head.start() :] + "\n}\n"
        self.uses = set(NAME.findall(self.text)) - {self.name}
        self.is_small = bool(head[1]) and len(self.text) < SMALL
        self.is_root = not head[1]

    def whole(self):
        """Returns the function as its part defines it."""
        return self.text if self.is_small or self.is_root else self.text.replace("define internal ", "define hidden ", 1)

    def declared(self):
        """Returns the declaration of the function, as another part needs it."""
        head = self.text[: self.text.index("\n")].rstrip("{ ")
        return re.sub("^define (internal )?", "declare " if self.is_root else "declare hidden ", head).replace(" noinline", "") + "\n"


class Module:
    """The functions, constants, declarations and other lines of a module."""

    def __init__(self, text):
        pieces = text.split("\n}\n")
        self.functions = {it.name: it for it in map(Function, pieces[:-1])}
        ends = pieces[0][: DEFINED.search(pieces[0]).start()] + "\n" + pieces[-1]
        self.known = {it[1]: it[0] + "\n" for it in [*GLOBAL.finditer(ends), *DECLARED.finditer(text)]}
        self.below = {name: set(NAME.findall(line)) - {name} for name, line in self.known.items()}
        rest = ends.splitlines()
        self.head = "\n".join(it for it in rest if it.startswith(("source_filename", "target "))) + "\n"
        self.tail = "\n".join(it for it in rest if it.startswith(("attributes ", "!"))) + "\n"

    def used(self, names, through):
        """Returns what names lead to, through the functions for which `through` holds, and through constants."""
        left, found = list(names), {}
        while left:
            name = left.pop()
            if name in found or name not in self.functions and name not in self.known:
                continue
            found[name] = True
            function = self.functions.get(name)
            if function is None:
                left += self.below[name]
            elif through(function):
                left += function.uses
        return found

    def part(self, own):
        """Returns the text of the part that has these large functions."""
        lines = [self.head]
        placed, outside = {it.name for it in own}, []
        for name in sorted(self.used(set().union(*(it.uses for it in own)), lambda it: it.is_small)):
            function = self.functions.get(name)
            if function is None:
                lines.append(self.known[name])
            elif function.is_small:
                outside.append(function.whole())
            elif name not in placed:
                lines.append(function.declared())
        return "".join([*lines, *(it.whole() for it in own), *outside, self.tail])

    def parts(self, count):
        """Returns the texts of the parts, which have about equal lengths."""
        roots = [it.name for it in self.functions.values() if it.is_root]
        reached = self.used(roots, lambda it: True)
        large = [it for name, it in self.functions.items() if name in reached and not it.is_small]
        whole, done, groups = sum(len(it.text) for it in large), 0, [[] for _ in range(count)]
        for it in large:
            groups[min(count - 1, done * count // whole)].append(it)
            done += len(it.text)
        return [self.part(it) for it in groups if it]
