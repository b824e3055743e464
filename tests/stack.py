#!/usr/bin/env python3
"""Runs the program with little stack over the deepest inputs of every form: tests/stack.py [--measure] PROGRAM

A case is a template, a chain of templates, a value or an image as deep as the limits of docs/language.md permit, or one past the limit.
The program compiles, explains, checks, runs (at once and in turns) and renders it within LIMIT, and again without a limit. Both must end
alike: with the same status, the same outputs and the same image, as the case wants. What is refused is rendered within LIMIT alone, since
its refusal is known in full. A signal that ends the program is a failure.

The cases are

    each form of expressions nested to the limit, and each pair of forms in turn
    each form of statements, and each pair of them; each expression in the deepest statements and in each place of a statement
    macros, blocks, includes, imports and parents to their limits, and macros that call each other to the end of the budget
    values that nest 255 deep, each printed, compared, sorted, joined, passed and dropped; JSON that nests 127 deep
    images with the deepest stacks
    sources that are long, and sources that open a form twenty thousand times

With --measure the script prints the least stack that each case needs, in steps of STEP KiB, as tables in Markdown.
That of `explain` is not measured.

A case that fails is a line. The last line is 'N passed, M failed', and the status is 1 if one failed.
"""
import collections
import concurrent.futures
import itertools
import json
import os
import pathlib
import re
import subprocess
import sys
import tempfile

import images_bytes

# The stack that each case has, in KiB, and the kinds of cases that need more today, with the stack that they have.
LIMIT = 144
MORE = {"contexts": 224}
LEVELS, NESTING, JSON_NESTING, CHAINS, PARENTS = 100, 255, 127, 1024, 64
SECONDS, STEP, MOST = 60, 16, 4096
# The levels of a tag that makes a part of a deep value, which are few, so that the value is what needs the stack.
PART = 15
# How often a source without end opens a form.
REPEATED = 20000
LARGE = "--depth 4294967295 --size 4294967295 --nesting 255 --output 100000000".split()
AMPLE, LITTLE_FUEL = [*LARGE, "--fuel", "100000000"], [*LARGE, "--fuel", "1000000"]
DEEP = "3 jt: refused P2 TooDeep in t line 1\n"
LEGAL = "[01] .*"

# A form: its name, its level, the loosest level of its part, how many levels it adds, and its text, in which § is the part.
RANKS = "primary sign postscript power product joined sum comparison not and or if".split()
EXPRESSIONS = """
parentheses: primary if 1 (§)
lists: primary if 1 [§]
later items of lists: primary if 1 [a, §]
maps: primary if 1 {"k": §}
later values of maps: primary if 1 {"k": a, "l": §}
values with an item: primary primary 1 §[0]
items: primary if 1 a[§]
attributes: primary primary 1 §.k
calls: primary if 1 range(§)
later arguments of calls: primary if 1 range(a, §)
calls of macros: primary if 1 m(§)
keyword arguments of macros: primary if 1 m(b=§)
calls of imported macros: primary if 1 n(§)
calls of macros of a library: primary if 1 f.n(§)
calls of loop.cycle: primary if 1 loop.cycle(§)
minus: sign sign 1 -§
plus: sign sign 1 +§
filters: postscript postscript 1 §|string
filters with an argument: postscript postscript 1 §|default(a)
arguments of filters: postscript if 1 a|default(§)
keyword arguments of filters: postscript if 1 a|default(default_value=§)
arguments of map: postscript if 1 a|map("default", §)
arguments of select: postscript if 1 a|select("eq", §)
tests: postscript postscript 1 §is defined
negated tests: postscript postscript 1 §is not none
arguments of tests: postscript if 1 a is eq(§)
arguments of tests without parentheses: postscript if 2 a is eq [§]
left operands of **: power power 1 § ** a
right operands of **: power postscript 1 a ** §
left operands of *: product product 1 § * a
right operands of //: product power 1 a // §
left operands of ~: joined joined 1 § ~ a
right operands of ~: joined product 1 a ~ §
left operands of +: sum sum 1 § + a
right operands of -: sum joined 1 a - §
left operands of ==: comparison sum 1 § == a
right operands of <: comparison sum 1 a < §
left operands of in: comparison sum 1 § in a
right operands of not in: comparison sum 1 a not in §
not: not not 1 not §
left operands of and: and and 1 § and a
right operands of and: and not 1 a and §
left operands of or: or or 1 § or a
right operands of or: or and 1 a or §
values of an inline if: if or 1 § if a else a
values of an inline if without else: if or 1 § if a
conditions of an inline if: if or 1 a if § else a
else of an inline if: if if 1 a if a else §
"""
# A statement: its name and its text, in which § is its body and № a number of its own.
STATEMENTS = """
if: {% if a %}§{% endif %}
elif: {% if a %}{% elif a %}§{% endif %}
else of if: {% if a %}{% else %}§{% endif %}
for: {% for x in a %}§{% endfor %}
for with a condition: {% for x in a if x %}§{% endfor %}
else of for: {% for x in a %}{% else %}§{% endfor %}
set: {% set x %}§{% endset %}
with: {% with x = a %}§{% endwith %}
filter: {% filter upper %}§{% endfilter %}
autoescape: {% autoescape true %}§{% endautoescape %}
block: {% block b№ %}§{% endblock %}
scoped block: {% block b№ scoped %}§{% endblock %}
"""
# A place of an expression in a statement: its name, how many levels it adds, and the statement, in which § is the expression.
PLACES = """
print: 1 {{ § }}
if: 1 {% if § %}{% endif %}
elif: 1 {% if a %}{% elif § %}{% endif %}
for: 2 {% for x in (§) %}{% endfor %}
condition of for: 1 {% for x in a if § %}{% endfor %}
set: 1 {% set x = § %}
with: 1 {% with x = § %}{% endwith %}
argument of filter: 2 {% filter default(§) %}{% endfilter %}
"""
HEAD = '{% import "l" as f %}{% from "l" import n %}{% macro m(a, b) %}{% endmacro %}'
LIBRARY = "{% macro n(a, b) %}{% endmacro %}"
# What is done with v, which is as deep as it may be, with w, which equals it, and with u, which differs at the end.
USES = """
print: 1 {{ v }}
equal: 0 {{ v == w }}
not equal: 0 {{ v == u }}
in: 0 {{ v[0] in w }}
not in: 0 {{ u[0] not in w }}
order: 1 {{ v < w }}
test: 0 {{ v is eq(w) }}
test in a list: 0 {{ v[0] is in(w) }}
unique: 0 {{ [v[0], w[0], u[0]]|unique|length }}
select: 0 {{ [v[0], u[0]]|select("eq", w[0])|length }}
reject: 0 {{ [v[0], u[0]]|reject("ne", w[0])|length }}
map: 0 {{ [v[0], u[0]]|map("default", 1)|list|length }}
sort: 1 {{ [v[0], w[0]]|sort }}
max: 1 {{ [v[0], w[0]]|max }}
sum: 1 {{ [v[0], w[0]]|sum }}
join: 1 {{ v|join }}
join texts: 1 {{ v ~ w }}
string: 1 {{ v|string }}
reverse: 0 {{ v|reverse == w }}
list: 0 {{ v|list == w }}
first: 0 {{ v|first == w|last }}
sum of lists: 0 {{ (v + w)|length }}
default: 0 {{ v|default(w) == w }}
and: 0 {{ (v and w) == v }}
loop: 0 {% for x in v %}{{ x == w[0] }}{{ loop.cycle(x, x) == w[0] }}{% endfor %}
loop with a condition: 0 {% for x in v if x == w[0] %}{{ loop.length }}{% endfor %}
macro: 0 {% macro m(x, y) %}{{ x == y }}{% set x = 1 %}{% endmacro %}{{ m(v, w) }}
with: 0 {% with x = v, y = w %}{{ x == y }}{% endwith %}
unpack: 0 {% set x, y = [v[0], w[0]] %}{{ x == y }}
include: 0 {% include "p" %}
drop: 0 {% set v = 1 %}{% set w = v %}{{ v == w }}
"""
MAP_USES = """
items: 0 {{ v.k|items|length }}{{ v.k|items == w.k|items }}
dictsort: 0 {{ v.k|dictsort == w.k|dictsort }}
attribute of each: 0 {{ [v.k]|map(attribute="k")|list|length }}
selectattr: 0 {{ [v.k]|selectattr("k", "eq", w.k.k)|list|length }}
unique: 0 {{ [v.k, w.k, u.k]|unique|length }}
equal: 0 {{ v == w }}
not equal: 0 {{ v == u }}
print: 1 {{ v }}
include: 0 {% include "p" %}
"""
# An image: its name, how it ends, and its spelling for images_bytes.py, in which 900×(..) is a part that stands 900 times.
IMAGES = """
calls without end: 4 jt: spent Fuel ¦ unit Call 0, Return
calls that keep entries: 4 jt: spent Fuel ¦ constants 1 | unit 900*Const 0, Call 0, 900*Drop, Return
calls with loops: 4 jt: spent Fuel ¦ constants 'ab' | unit Const 0, LoopStart, LoopNext 5, Call 0, Jump 2, LoopEnd, Drop, Return
1,024 entries: 0 ¦ constants 1 | unit 1024*Const 0, 1024*Drop, Return
1,025 entries: 3 jt: refused K9 TooDeep ¦ constants 1 | unit 1025*Const 0, 1025*Drop, Return
1,024 loops: 0 ¦ constants 'a' | unit 1023×(Const 0, LoopStart, LoopNext +1, )1023×(LoopEnd, Drop, )Return
1,024 captures: 0 ¦ unit 1024×(CaptureBegin, )1024×(CaptureEnd 0, Drop, )Return
a list of 1,024 items: 1 jt: fault F5 Unprintable ¦ constants 1 | unit 1024*Const 0, MakeList 1024, Emit 0, Return
lists in lists: 1 jt: fault F5 Unprintable ¦ constants 1 | unit Const 0, 255*MakeList 1, Emit 0, Return
lists past the limit: 4 jt: spent Nesting ¦ constants 1 | unit Const 0, 256*MakeList 1, Emit 0, Return
a list nested in a loop: 4 jt: spent Nesting ¦ constants 1 | unit 0 0 1: Const 0, Store 0, Load 0, MakeList 1, Store 0, Jump 2, Return
jumps: 0 ¦ unit 200000×(Jump +1, )Return
"""
# Sources that are long and not deep: a name, how the run ends, a text and how often it stands, in which № is the number of the turn.
# ¦ divides the text into one part that stands before, one that is repeated, and one that stands after.
LONG = """
elif: 0 50000 {% if a %}¦{% elif a %}¦{% endif %}
statements: 0 30000 ¦{% if a %}{% endif %}¦
filters of a tag: 0 50000 {% filter upper¦|upper¦ %}a{% endfilter %}
filters of a tag with arguments: 0 15000 {% filter upper¦|default("b", true)|default(default_value="b", boolean=true)¦ %}a{% endfilter %}
items of a list: 1 1000 {{ [¦a, ¦] }}
items of lists: 0 1000 {% set x = [¦[a]|length, ¦] %}
names of set: 1 1000 {% set x¦, x№¦ = a %}
names of with: 0 1000 {% with x = a¦, x№ = a¦ %}{% endwith %}
numbers: 0 30000 ¦{{ № }}¦
names: 0 30000 ¦{{ x№ }}¦
globals: 0 4000 ¦{% set x№ = № %}¦
macros that call the next one: 0 10000 {% macro m0() %}{% endmacro %}¦{% macro m№+() %}{{ m№() }}{% endmacro %}¦{{ m10000() }}
blocks: 0 10000 ¦{% block b№ %}{% endblock %}¦
numbers in order: 0 1 {% set x = range(50000) %}¦{{ x|sort|first }}{{ x|unique|last }}{{ x|max }}¦
numbers in reverse: 0 1 {% set x = range(50000)|reverse %}¦{{ x|sort|first }}{{ x|unique|last }}{{ x|min }}¦
texts in order: 0 1 {% set x = range(50000)|map("string")|list %}¦{{ x|sort|first }}{{ x|unique|last }}{{ x|join|length }}¦
"""
# The cases that fail today, with the reason.
OPEN = {}


class Form(collections.namedtuple("Form", "name own hole levels text")):
    """A form of expressions."""


class Case(collections.namedtuple("Case", "kind name sources context options wanted")):
    """What the program is given, and a pattern of the status and the messages of its run. Sources may be an image in their place."""

    @property
    def limit(self):
        return MORE.get(self.kind, LIMIT)


def rows(table, count):
    """Returns the rows of a table: of each its name, `count` words and its text."""
    for line in table.strip().splitlines():
        name, _, rest = line.partition(": ")
        yield (name, *rest.split(" ", count))


def forms():
    return [Form(name, own, hole, int(levels), re.sub("^§(?=is)", "§ ", text)) for name, own, hole, levels, text in rows(EXPRESSIONS, 3)]


def nested(used, levels):
    """Returns an expression of `levels` levels that takes the forms in turn, from the inside."""
    # (the name of a call such as f.n takes two levels)
    leaf, deep = ("a.k", 2) if any("." in form.text.partition("(")[0] for form in used) else ("a", 1)
    text, rank = leaf, "primary"
    for form in itertools.cycle(used):
        is_loose = RANKS.index(rank) > RANKS.index(form.hole)
        if deep + form.levels + is_loose > levels:
            return "(" * (levels - deep) + text + ")" * (levels - deep)
        text = form.text.replace("§", f"({text})" if is_loose else text)
        rank, deep = form.own, deep + form.levels + is_loose
    return text


def around(statements, count, body):
    """Returns `count` nested statements, which are taken in turn, around a body."""
    for number, text in zip(range(count), itertools.cycle(statements)):
        body = text.replace("№", str(number)).replace("§", body)
    return body


def printed(used, more=0):
    """Returns a tag that prints an expression of all levels, in a loop if it needs one, with `more` levels than there may be."""
    if any("loop." in form.text for form in used):
        return "{% for x in a %}{{ " + nested(used, LEVELS - 2 + more) + " }}{% endfor %}"
    return "{{ " + nested(used, LEVELS - 1 + more) + " }}"


def template(kind, name, source, wanted=LEGAL, context=None):
    """Returns the case of a template that may use the macros of HEAD, with a text of one character as `a`."""
    return Case(kind, name, {"t": HEAD + source, "l": LIBRARY}, context or {"a": "x"}, AMPLE, wanted)


def expressions():
    """Yields each form nested to the limit and past it, and each form in turn with each other form."""
    for form in forms():
        yield template("expressions", form.name, printed([form]))
        yield template("expressions", f"{form.name}, too deep", printed([form], 1), DEEP)
        tags = [printed([form, other]) for other in forms()]
        yield template("expressions in pairs", f"{form.name} with each other form", "".join(tags))
    for one, other in itertools.combinations(forms(), 2):
        yield template("expressions in pairs", f"{one.name} with {other.name}, too deep", printed([one, other], 1), DEEP)


def statements():
    """Yields each statement nested to the limit and past it, each pair, and each expression in them."""
    texts = dict(rows(STATEMENTS, 0))
    for name, text in texts.items():
        yield template("statements", name, around([text], LEVELS - 2, "{{ a }}"))
        yield template("statements", f"{name}, too deep", around([text], LEVELS - 1, "{{ a }}"), DEEP)
        bodies = ["{{ " + nested([form], LEVELS // 2 - 1) + " }}" for form in forms() if "loop." not in form.text]
        whole = "".join(around([text], LEVELS // 2, body).replace("block b", f"block b{at}_") for at, body in enumerate(bodies))
        yield template("expressions in statements", f"each form in {name}", whole)
        others = [around([text, other], LEVELS - 2, "x").replace("block b", f"block b{at}_") for at, other in enumerate(texts.values())]
        yield template("statements", f"{name} with each other statement", "".join(others))
    for name, levels, text in rows(PLACES, 1):
        for deep in (1, LEVELS // 2):
            found = [text.replace("§", nested([form], LEVELS - deep - int(levels))) for form in forms() if "loop." not in form.text]
            yield template("expressions in statements", f"each form in {name}, in {deep} ifs", around([texts["if"]], deep, "".join(found)))
    for name in ("if", "for", "set", "with"):
        body = around([texts[name]], LEVELS - 3, "{{ x }}")
        yield template("statements", f"{name} in a macro", "{% macro o(x) %}" + body + "{% endmacro %}{{ o(a) }}")


def long_sources():
    """Yields sources that are long and not deep, and sources that open forms without end."""
    kind = "long sources"
    for name, status, count, text in rows(LONG, 2):
        before, middle, after = text.split("¦")
        turns = [middle.replace("№+", str(n + 1)).replace("№", str(n)) for n in range(int(count))]
        yield template(kind, name, before + "".join(turns) + after, f"{status} .*")
    yield template(kind, "filters of a tag, 100,000 times", "{% filter e" + "|e" * 100000 + " %}a{% endfilter %}")
    keys = ",".join(f'"k{n}":{n}' for n in range(50000))
    yield Case(kind, "keys of JSON", {"t": "{{ a|length }}{{ a == b }}{{ a|dictsort|first|first }}"}, f'{{"a":{{{keys}}},"b":{{{keys}}}}}', AMPLE, "0 ")
    for form in forms():
        before, _, after = form.text.partition("§")
        for text in dict.fromkeys((before * REPEATED, before * REPEATED + "a" + after * REPEATED)):
            if text:
                yield template(kind, f"{form.name}, without end", "{{ " + text + " }}", "3 .*")
    for name, text in rows(STATEMENTS, 0):
        before, _, after = text.partition("§")
        for source in (before * REPEATED, before * REPEATED + after * REPEATED):
            yield template(kind, f"{name}, without end", source, "3 .*")


def chained(count, link, last, **more):
    """Returns the sources of `count` templates, each of which has a link to the next one, in which № is that one's number."""
    names = ["t", *(f"t{n}" for n in range(1, count))]
    texts = [link.replace("№", str(n)) for n in range(1, count)] + [last]
    return {**dict(zip(names, texts)), **more}


def templates():
    """Yields macros, blocks, includes, imports and parents to their limits and past them."""
    def case(name, sources, wanted="0 .*", options=AMPLE):
        return Case("templates", name, sources, {"a": "x"}, options, wanted)

    include, parent = '{% include "t№" %}', '{% extends "t№" %}{% block b %}{{ super() }}x{% endblock %}'
    library = '{% from "l№" import m %}{% include "t№" %}{{ m() }}'
    libraries = {f"l{n}": "{% macro m() %}{% for x in range(3) %}{{ x }}{% endfor %}{% endmacro %}" for n in range(1, CHAINS)}
    yield case("includes", chained(CHAINS, include, "x"))
    yield case("includes, too long", chained(CHAINS + 1, include, "x"), "3 jt: refused C4 ChainTooLong\n")
    yield case("includes in a circle", chained(CHAINS, include, '{% include "t" %}'), "3 jt: refused C8 IncludeCycle\n")
    yield case("includes and libraries", chained(CHAINS, library, "x", **libraries))
    yield case("includes, each in 98 ifs", chained(200, around(["{% if a %}§{% endif %}"], LEVELS - 2, include), "x"))
    yield case("parents", chained(PARENTS, parent, "{% block b %}y{% endblock %}"))
    yield case("parents, too long", chained(PARENTS + 1, parent, "{% block b %}y{% endblock %}"), "3 jt: refused C4 ChainTooLong\n")
    yield case("parents in a circle", chained(PARENTS, parent, '{% extends "t" %}'), "3 jt: refused C3 ExtendsCycle\n")
    yield case("parents and an include", chained(PARENTS, parent, '{% block b %}{% include "p" %}{% endblock %}', p="{{ a|length }}"))
    recursive = "{% macro m(n) %}{% if n %}{{ m(n - 1) }}{% else %}x{% endif %}{% endmacro %}"
    yield case("a macro that calls itself 10,000 times", {"t": recursive + "{{ m(10000) }}"})
    endless = "{% macro m() %}{{ m() }}{% endmacro %}{{ m() }}"
    yield case("a macro without end", {"t": endless}, "4 jt: spent Fuel\n", LITTLE_FUEL)
    yield case("a macro to the end of its depth", {"t": endless}, "4 jt: spent Depth\n", ["--depth", "64"])
    yield case("a block without end", {"t": "{% block b %}{{ self.b() }}{% endblock %}"}, "4 jt: spent Fuel\n", LITTLE_FUEL)


def made(name, shape, deep, leaf):
    """Returns tags that set a name to a value that nests `deep` deep, a part at a time."""
    text = "{% set " + name + " = " + leaf + " %}"
    while deep > 0:
        part = min(deep, PART)
        text += "{% set " + name + " = " + around([shape], part, name) + " %}"
        deep -= part
    return text


def values():
    """Yields values that are as deep as they may be, with each of their uses."""
    def case(name, source, wanted):
        page = "{{ v == w }}{% set v = 1 %}{{ v }}"
        return Case("values", name, {"t": source, "p": page}, {}, AMPLE, f"{wanted}.*")

    for shape, uses in (("[§]", USES), ('{"k": §}', MAP_USES)):
        three = [made(name, shape, NESTING, leaf) for name, leaf in (("v", "1"), ("w", "1"), ("u", "2"))]
        for name, status, use in rows(uses, 1):
            macro, _, use = use.rpartition("{% endmacro %}")
            yield case(f"{shape}: {name}", macro + "{% endmacro %}" * bool(macro) + "".join(three) + use, status)
        yield case(f"{shape}: past the limit", made("v", shape, NESTING + 1, "1"), "4 jt: spent Nesting")
    recursive = "{% macro m(x, n) %}{% if n %}{{ m([x], n - 1) }}{% else %}{{ x == x }}{% endif %}{% endmacro %}"
    yield case("a list nested by a macro", recursive + "{{ m(1, 255) }}", "0")
    yield case("a list nested by a macro, past the limit", recursive + "{{ m(1, 256) }}", "4 jt: spent Nesting")


def contexts():
    """Yields JSON that is as deep as it may be, and one past the limit."""
    source = "{{ a == b }}{{ [a, b]|unique|length }}{% set c = a %}{{ [c] == [b] }}{{ a }}"
    for name, opened, closed in (("lists", "[", "]"), ("maps", '{"k":', "}"), ("lists and maps", '[{"k":', "}]")):
        for more, wanted in ((0, "1 jt: fault F5 .*"), (1, "3 jt: refused X1 NotJson\n")):
            count = (JSON_NESTING - 1) // len(closed) + more
            text = opened * count + "1" + closed * count
            context = '{"a":' + text + ',"b":' + text + "}"
            yield Case("contexts", name + ", too deep" * more, {"t": source}, context, AMPLE, wanted)
    for opened in ("[", '{"k":', "[[],"):
        context = '{"a":' + opened * 100000
        yield Case("contexts", f"{opened}, 100,000 times", {"t": source}, context, AMPLE, "3 jt: refused X1 NotJson\n")


def images():
    """Yields images that no compiler made."""
    for line in IMAGES.strip().splitlines():
        head, _, spelling = re.sub(r"(\d+)×\(([^)]*)\)", lambda it: int(it[1]) * it[2], line).partition(" ¦ ")
        name, _, wanted = head.partition(": ")
        yield Case("images", name, images_bytes.image(spelling, {}), {}, LITTLE_FUEL, f"{wanted.strip()}.*")


def cases():
    """Returns all cases, in the order of the documentation of this script."""
    found = (expressions, statements, templates, values, contexts, images, long_sources)
    return [case for cases_of in found for case in cases_of()]


def furnish(room, case):
    """Writes the files of a case into a folder."""
    os.mkdir(f"{room}/d")
    if isinstance(case.sources, bytes):
        pathlib.Path(room, "image").write_bytes(case.sources)
    else:
        for name, source in case.sources.items():
            pathlib.Path(room, "d", name).write_text(source, encoding="utf-8")
    context = case.context if isinstance(case.context, str) else json.dumps(case.context)
    pathlib.Path(room, "context").write_text(context, encoding="utf-8")


def steps(case):
    """Returns the command lines of a case, of which the last one shows how it ends."""
    run = [["check", "image"], ["turns", *case.options, "image", "context"], ["run", "image", "context", *case.options]]
    if isinstance(case.sources, bytes):
        return run
    explain, render = ["explain", "d", "t"], ["render", "d", "t", "context", *case.options]
    return [explain, render] if case.wanted.startswith("3 ") else [["compile", "d", "t", "image"], explain, *run, render]


def sent(program, words, room, limit):
    """Returns the status, both outputs and the image of a command line, with a limit of the stack in KiB, or without one."""
    line = [program, *words] if limit is None else ["/bin/sh", "-c", 'ulimit -s "$0" && exec "$@"', str(limit), program, *words]
    ran = subprocess.run(line, cwd=room, env={}, stdin=subprocess.DEVNULL, capture_output=True, timeout=SECONDS)
    is_made = words[0] == "compile" and ran.returncode == 0
    return ran.returncode, ran.stdout, ran.stderr, pathlib.Path(room, "image").read_bytes() if is_made else b""


def told(answer):
    """Returns the status and the messages of an answer."""
    return f"{answer[0]} {answer[2].decode(errors='replace')}"


def wrong_steps(program, case, room):
    """Yields what is wrong with the steps of a case in its folder."""
    for words in steps(case):
        found = sent(program, words, room, case.limit)
        # (each refusal is wanted in full, and the image is that of the second run)
        ample = sent(program, words, room, None) if words[0] != "render" or not case.wanted.startswith("3 ") else found
        if found != ample:
            yield f"{words[0]} within {case.limit} KiB: {told(found)[:200]!r}, without a limit {told(ample)[:200]!r}"
        elif words[0] == "explain" and found[0] != 0:
            yield f"explain: {told(found)[:200]!r}"
        elif words[0] in ("render", "run") and not re.fullmatch(case.wanted, told(found), re.S):
            yield f"{words[0]}: {told(found)[:200]!r}, wanted {case.wanted!r}"


def judged(program, case):
    """Returns the failures of a case, as lines."""
    try:
        with tempfile.TemporaryDirectory(prefix="jt-stack-") as room:
            furnish(room, case)
            wrong = list(wrong_steps(program, case, room))
    except (OSError, subprocess.SubprocessError) as error:
        wrong = [str(error)[:200]]
    return [f"{case.kind}: {case.name}: {it}" for it in wrong]


def least(program, words, room):
    """Returns the least stack in KiB with which a command line ends as without a limit."""
    ample, low, high = sent(program, words, room, None), 0, MOST
    while high - low > STEP:
        middle = (low + high) // 2 // STEP * STEP
        # (the kernel moves the start of a stack by up to 8 KiB)
        is_enough = all(sent(program, words, room, middle) == ample for _ in range(3))
        low, high = (low, middle) if is_enough else (middle, high)
    return high


def needs(program, case):
    """Returns the least stacks of a case: to compile it and to run its image; 0 for one that it does not do."""
    with tempfile.TemporaryDirectory(prefix="jt-stack-") as room:
        furnish(room, case)
        found = {words[0]: least(program, words, room) for words in steps(case) if words[0] != "explain"}
    compiles = found.get("compile", found.get("render", 0) if len(found) == 1 else 0)
    return compiles, max([found.get(it, 0) for it in ("check", "turns", "run")])


def is_measured(case):
    """Returns whether --measure prints a case: neither a refused pair, of which there are a thousand, nor one that fails today."""
    return (case.kind, case.wanted) != ("expressions in pairs", DEEP) and f"{case.kind}: {case.name}" not in OPEN


def measure(program, pool):
    """Prints the least stacks as one table for each kind. Cases with the same figures are one row, and one past a limit is a column."""
    found = [case for case in cases() if is_measured(case)]
    by = collections.defaultdict(lambda: collections.defaultdict(lambda: [0, 0, 0]))
    for case, (compiles, runs) in zip(found, pool.map(lambda case: needs(program, case), found)):
        name = re.sub(", (too deep|too long|past the limit)$", "", case.name)
        row = by[case.kind][name]
        for at, need in enumerate((compiles, runs, 0) if name == case.name else (0, 0, compiles or runs)):
            row[at] = max(row[at], need)
    for kind, of_kind in by.items():
        alike = collections.defaultdict(list)
        for name, row in of_kind.items():
            alike[tuple(row)].append(name)
        print(f"### {kind.capitalize()}\n\n| Cases | compile | run | refused past the limit |\n|---|---|---|---|")
        for row, names in sorted(alike.items(), key=lambda it: (-max(it[0]), it[1])):
            print(f"| {'; '.join(names)} | {' | '.join(str(need or '') for need in row)} |".replace("  ", " "))
        print()


def main():
    words = [word for word in sys.argv[1:] if word != "--measure"]
    if len(words) != 1 or not os.access(words[0], os.X_OK):
        print("usage: tests/stack.py [--measure] PROGRAM\n0 passed, 1 failed")
        sys.exit(1)
    program = os.path.realpath(words[0])
    with concurrent.futures.ThreadPoolExecutor(os.cpu_count()) as pool:
        if "--measure" in sys.argv:
            return measure(program, pool)
        tried = cases()
        found = list(zip(tried, pool.map(lambda case: judged(program, case), tried)))
    passed = failed = 0
    for case, wrong in found:
        reason = OPEN.get(f"{case.kind}: {case.name}")
        if reason:
            print(f"{case.kind}: {case.name}: {f'open, since {reason}' if wrong else 'passes, and is no longer open'}")
            continue
        print("".join(f"{line}\n" for line in wrong), end="")
        passed, failed = passed + (not wrong), failed + bool(wrong)
    print(f"{passed} passed, {failed} failed")
    sys.exit(1 if failed or not passed else 0)


if __name__ == "__main__":
    main()
