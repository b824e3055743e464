#!/usr/bin/env python3
"""Renders random templates by the program and by Jinja2, and prints those whose texts differ: bench/beside_jinja.py PROGRAM SECONDS [SEED]

A template is drawn from the forms of docs/language.md: operators, filters, tests, loops, scopes, captures, macros, blocks, includes, an
import, marks and options. What docs/language.md lists under 'What differs from Jinja' is not drawn. Where the program ends with a text,
Jinja has to end with the same one; a fault or a refusal of the program is counted and not compared, since Jinja has no such rule.

Each difference is made small before it is printed, the smallest first. The last line counts what was rendered. The status is 1 if a text
differs, and 2 if Jinja2 is missing. Two differences that it prints are known: Jinja computes `~` of constants without their markup, and
`include .. without context` in a captured body prints before the body.
"""
import argparse
import collections
import json
import pathlib
import random
import subprocess
import sys
import tempfile
import time

try:
    from jinja2 import DictLoader, Environment
except ImportError:
    print("bench/beside_jinja.py needs Jinja2", file=sys.stderr)
    sys.exit(2)

CONTEXT = {
    "a": 1, "b": -3, "f": False, "t": True, "n": None, "e": "", "s": "Hello World", "sp": "  x y\n ", "h": "<b>Hi & \"you\"'</b>",
    "l": [3, 1, 2], "ls": ["b", "A", "c", "a<"], "ll": [[1, 2], [3, 4]], "el": [], "em": {},
    "m": {"k": 1, "n": "x<y", "z": [1, 2]}, "mm": [{"k": 1, "n": "q"}, {"k": 2, "n": "p"}, {"k": 1}],
}
# The forms of each kind of expression: N is a number, S a text, L a list, C a condition, A one of N, S and C, each behind an @. One of
# the words between [[ and ]], which a bar of its own separates, is drawn.
LEAVES = {
    "N": ["a", "b", "0", "2", "3", "7", "-1", "10", "m.k", "l[0]", "mm[0].k"],
    "S": ["s", "h", "e", "sp", "m.n", "ls[0]", "ls[3]", '"x"', '"<i>"', "'a&b'", '"Ab"', "mm[1].n"],
    "L": ["ls", "l", "['b', 'a']", "[s, h]", "[h|safe, 'q<']", "'abc'|list", "['x', 'X', 'y']", "[1, 'a']", "m|list", "[]", "el", "u"],
    "C": ["t", "f", "u", "e", "el", "em", "n", "a", "s", "l", "m", "true", "false"],
}
LOOP = {
    "N": ["loop.index", "loop.index0", "loop.length", "loop.revindex", "loop.revindex0"],
    "S": ["loop.cycle('p', 'q')"],
    "L": [],
    "C": ["loop.first", "loop.last", "loop.previtem", "loop.nextitem"],
}
FORMS = {
    "N": [
        "(@N [[+¦-¦*¦//¦%]] @N)", "(@S)|length", "(@L)|length", "(@N)|abs", "(l|[[sum¦max¦min¦first¦last]])", "(range(4)|[[sum¦max¦last]])",
        "(@N if @C else @N)", "(-@N)", "(+@N)", "('12'|int)", "(@S)|int([[0¦4]])", "([[u¦v¦m.q¦n]])|default(@N)|int", "(2 ** [[0¦1¦3]])",
        "(@N [[or¦and]] @N)", "(-2 ** 2)", "(2 - 1 - @N)",
    ],
    "S": [
        "(@S + @S)", "(@A ~ s ~ @A)", "(@S * [[0¦1¦2]])", "(@S)|[[upper¦lower¦trim¦capitalize¦escape¦e¦safe¦string¦forceescape]]",
        "(@S)|replace([['l'¦'<'¦'x'¦'&']], [['<'¦'zz'¦'']])", "(@L)|join", "(@L)|join(@S)", "(@S if @C else @S)", "(@S if @C)|string",
        "(@S or @S)", "([[u¦e¦n¦m.q]])|default(@S)", "([[u¦e¦n¦m.q¦f]])|default(@S, true)", "(@S)|first", "(@A)|string",
        "(@L)|map([['upper'¦'escape'¦'string'¦'safe'¦'length'¦'trim']])|join([[','¦'<'¦'']])", "(@S)|list|join('-')",
        "((@S)|safe ~ s ~ @A)", "((@S)|safe + @S)", "(@S + (@S)|escape)", "[@S, (@S)|safe]|join(@S)", "(@S|upper ~ s ~ @S|lower)",
        "(@N)|[[upper¦escape¦trim¦string]]",
    ],
    "L": [
        "(@L)|[[reverse|list¦list¦unique|list¦select|list¦reject|list]]", "([[ls¦[s, e]¦s|list]])|sort[[¦(reverse=true)]]", "[@S, @S]",
        "(@L|list + @L|list)", "mm|map(attribute='[[k¦n]]')|list", "(@L)|select([['string'¦'in', s¦'defined'¦'escaped']])|list",
        "(@L if @C else @L)", "l|[[select¦reject]]([['odd'¦'even'¦'gt', 1¦'le', 2¦'divisibleby', 2]])|list",
        "mm|[[selectattr('n')¦rejectattr('n')¦selectattr('k', 'eq', 1)¦rejectattr('k', 'gt', 1)]]|map(attribute='k')|list",
        "range([[3¦1, 4¦5, 0, -2]])|list", "m|dictsort|map('first')|list", "mm|map(attribute='n')|map('default', 'D')|list",
        "(@L)|map([['string'¦'default'¦'escape']])|list", "(@S)|list",
    ],
    "C": [
        "(@N [[<¦<=¦>¦>=¦==¦!=]] @N)", "(@S [[<¦<=¦>¦>=¦==¦!=¦in¦not in]] @S)", "(@A [[==¦!=]] @A)", "(@S [[in¦not in]] [[m¦ls¦@L]])",
        "(not @C)", "(@C [[and¦or]] @C)", "(not @C and @C)", "([@A] == [@A])", "(@L == @L)",
        "(@A is [[¦not ]][[defined¦undefined¦none¦boolean¦integer¦string¦mapping¦true¦false¦escaped]])",
        "([[u¦v¦m.q]] is [[defined¦undefined]])", "(@N is [[odd¦even¦divisibleby(2)¦divisibleby 3¦eq(1)¦gt(1)¦in(l)¦not odd]])",
        "(@S is [[in(ls)¦eq(s)¦lt(s)¦ne('x')]])",
    ],
}
MACRO = "{% macro mac(x, y='<d>') %}[{{ x }}|{{ y }}|{{ a }}]{% endmacro %}"
LIBRARY = "{% macro q(x) %}({{ x }}){% endmacro %}"
IMPORT = '{% import "lib" as lib %}'
CALLS = ["{{ mac(1) }}", "{{ mac(h, y=2) }}", "{{ mac() }}", '{% include "inc" %}', "{{ lib.q(h) }}"]
TEXTS = ["", " ", "\n", "x", " y \n ", "<p>", "a\n"]
FILTERS = ["upper", "lower", "trim", "escape", "capitalize", "replace('a', '<')", "trim|upper", "string", "safe"]
OPTIONS = ["trim_blocks", "lstrip_blocks", "keep_trailing_newline"]


class Writer:
    """Draws templates."""

    def __init__(self, rnd):
        self.rnd, self.calls = rnd, True

    def one(self, *words):
        return self.rnd.choice(words)

    def expression(self, kind, depth, in_loop):
        if depth <= 0:
            return self.rnd.choice(LEAVES[kind] + (LOOP[kind] if in_loop else []))
        form = self.rnd.choice(FORMS[kind])
        while "[[" in form:
            before, _, rest = form.partition("[[")
            words, _, rest = rest.partition("]]")
            form = before + self.rnd.choice(words.split("¦")) + rest
        first, *parts = form.split("@")
        return first + "".join(self.part(it, depth, in_loop) for it in parts)

    def part(self, text, depth, in_loop):
        kind = self.one("N", "S", "S", "C") if text[0] == "A" else text[0]
        return self.expression(kind, depth - 1, in_loop) + text[1:]

    def value(self, depth, in_loop):
        return self.expression(self.one("N", "S", "S", "C"), depth, in_loop)

    def tag(self, words):
        return f"{{%{self.one('', '', '', '-', '+')} {words} {self.one('', '', '', '-')}%}}"

    def text(self):
        return self.rnd.choice(TEXTS)

    def body(self, depth, in_loop=False):
        statements = (self.text() + self.statement(depth, in_loop) for _ in range(self.one(1, 1, 2, 3)))
        return "".join(statements) + self.text()

    def statement(self, depth, in_loop):
        forms = [self.printed] * 6 if depth <= 0 else [self.printed, self.printed, self.chosen, self.looped, self.set, self.captured,
                                                        self.scoped, self.filtered, self.escaped, self.raw, self.called]
        return self.rnd.choice(forms)(depth, in_loop)

    def printed(self, depth, in_loop):
        return f"{{{{{self.one('', '', '-')} {self.value(self.one(1, 2, 2, 3), in_loop)} {self.one('', '', '-')}}}}}"

    def chosen(self, depth, in_loop):
        made = self.tag(f"if {self.value(2, in_loop)}") + self.body(depth - 1, in_loop)
        if self.rnd.random() < 0.3:
            made += self.tag(f"elif {self.value(1, in_loop)}") + self.body(depth - 1, in_loop)
        if self.rnd.random() < 0.5:
            made += self.tag("else") + self.body(depth - 1, in_loop)
        return made + self.tag("endif")

    def looped(self, depth, in_loop):
        over = self.one("l", "ls", "mm", "m", "s", "el", "u", "range(3)", "ll", self.expression("L", 2, in_loop))
        condition = f" if {self.expression('C', 1, False)}" if self.rnd.random() < 0.25 else ""
        made = self.tag(f"for {self.one('i', 'j', 'a')} in {over}{condition}") + self.body(depth - 1, True)
        if self.rnd.random() < 0.3:
            made += self.tag("else") + self.body(depth - 1, in_loop)
        return made + self.tag("endfor")

    def set(self, depth, in_loop):
        name = self.one("v", "w")
        return self.tag(f"set {name} = {self.value(2, in_loop)}") + self.text() + f"{{{{ {name}|string }}}}"

    def captured(self, depth, in_loop):
        # (a captured body that reads its own name differs from Jinja)
        return self.tag("set zz") + self.body(depth - 1, in_loop) + self.tag("endset") + "{{ zz }}{{ zz|length }}"

    def scoped(self, depth, in_loop):
        return self.tag(f"with v = {self.value(2, in_loop)}, w = v") + self.body(depth - 1, in_loop) + self.tag("endwith")

    def filtered(self, depth, in_loop):
        return self.tag(f"filter {self.rnd.choice(FILTERS)}") + self.body(depth - 1, in_loop) + self.tag("endfilter")

    def escaped(self, depth, in_loop):
        return self.tag(f"autoescape {self.one('true', 'false')}") + self.body(depth - 1, in_loop) + self.tag("endautoescape")

    def raw(self, depth, in_loop):
        return "{# c #}" + self.text() + "{%- raw -%} {{ a }} {% endraw %}"

    def called(self, depth, in_loop):
        return self.rnd.choice(CALLS) if self.calls else ""

    def library(self):
        """Returns the sources of a page, of what it includes, and of what it extends, if it does."""
        self.calls = False
        made = {"lib": LIBRARY, "inc": self.body(1)}
        self.calls = True
        if self.rnd.random() < 0.7:
            return {**made, "main": MACRO + IMPORT + self.body(3)}
        blocks = ("{% block one %}" + self.body(1) + "{% endblock %}", "{% block two scoped %}" + self.body(1) + "{% endblock %}")
        base = MACRO + IMPORT + self.text() + self.text().join(blocks) + self.text()
        main = '{% extends "base" %}{% block one %}' + self.body(2) + "{{ super() }}{% endblock %}"
        return {**made, "base": base, "main": main}


class Trials:
    """Renders by both, in a folder."""

    def __init__(self, program, folder):
        self.program, self.folder = program, pathlib.Path(folder)
        self.context = self.folder / "context.json"
        self.context.write_text(json.dumps(CONTEXT))
        (self.folder / "t").mkdir()

    def ending(self, sources, options, escapes):
        """Returns a word for the ending, and the texts of both."""
        for file in (self.folder / "t").iterdir():
            file.unlink()
        for name, source in sources.items():
            (self.folder / "t" / name).write_bytes(source.encode())
        words = [f"--{it.replace('_', '-')}" for it in options] + ([] if escapes else ["--no-autoescape"])
        ran = subprocess.run([self.program, "render", self.folder / "t", "main", self.context, *words], capture_output=True)
        if ran.returncode != 0:
            return ran.stderr.decode().split(" in ")[0].strip(), "", ""
        own = ran.stdout.decode()
        try:
            theirs = Environment(loader=DictLoader(sources), autoescape=escapes, **{it: True for it in options}).get_template("main").render(CONTEXT)
        except TypeError as error:
            # (a list or a map that is looked up in a map)
            return f"Jinja: {error}", own, ""
        return ("same" if own == theirs else "differs"), own, theirs

    def smaller(self, rnd, sources, options, escapes):
        """Returns sources that still differ after parts of them were taken away."""
        since = 0
        while since < 150:
            since += 1
            name = rnd.choice(list(sources))
            begin, length = rnd.randrange(len(sources[name]) + 1), rnd.choice([1, 2, 5, 10, 20, 40, 80])
            less = {**sources, name: sources[name][:begin] + sources[name][begin + length:]}
            try:
                if less != sources and self.ending(less, options, escapes)[0] == "differs":
                    sources, since = less, 0
            except Exception:
                continue
        return sources


def main():
    parser = argparse.ArgumentParser(description=__doc__.split("\n")[0])
    parser.add_argument("program")
    parser.add_argument("seconds", type=float)
    parser.add_argument("seed", type=int, nargs="?", default=1)
    args = parser.parse_args()
    rnd = random.Random(args.seed)
    writer, counts, found = Writer(rnd), collections.Counter(), []
    until = time.monotonic() + args.seconds
    with tempfile.TemporaryDirectory() as folder:
        trials = Trials(args.program, folder)
        while time.monotonic() < until:
            sources, options, escapes = writer.library(), [it for it in OPTIONS if rnd.random() < 0.3], rnd.random() < 0.75
            ending = trials.ending(sources, options, escapes)[0]
            counts[ending] += 1
            if ending == "differs":
                small = trials.smaller(rnd, sources, options, escapes)
                found.append((small, options, escapes, *trials.ending(small, options, escapes)[1:]))
    for small, options, escapes, own, theirs in sorted(found, key=lambda it: sum(map(len, it[0].values()))):
        print(json.dumps({"sources": small, "options": options, "escapes": escapes, "jt": own, "Jinja": theirs}, ensure_ascii=False))
    print(", ".join(f"{count} {ending}" for ending, count in counts.most_common()))
    return 1 if found else 0


if __name__ == "__main__":
    sys.exit(main())
