#!/usr/bin/env python3
"""Times `jt compile` on sources of 1 MiB that could be slow to compile: long chains, deep nesting, marks, raw text, unclosed tags, and sets
of templates with many blocks or includes, of 1 MiB together.

    bench/compile.py [--jt PATH] [--bytes N] [--steps N] [--runs N] [--most SECONDS] [NAME ..]

Without --jt it runs the program that `rt run` keeps, crates/jt_cli/out/jt_cli. It compiles each source --runs times (3) and prints the
shortest processor time of the program, with its result. --steps N compiles each source in N sizes, each twice the one before, up to --bytes
(1 MiB): times that grow faster than the sizes show a cost that is not linear. The status is 1 if a source took longer than --most (1
second), or if the result is none that its kind of source may have.
"""
import os, pathlib, tempfile
from timing import Rows, sized, timed

MIB = 1_048_576


def repeat(head, piece, tail, size):
    """Returns the head, the greatest number of pieces that fits, and the tail."""
    return head + piece * ((size - len(head) - len(tail)) // len(piece)) + tail


# name, head, piece, tail, the permitted results
SOURCES = [
    ("data", "", "a", "", ["ok"]),
    ("sum", "{{ 1", "+1", " }}", ["P2"]),
    ("every operator", "{{ 1", "+1-1*1//1%1**1~1", " }}", ["P2"]),
    ("comparison", "{{ 1", "<1", " }}", ["P1"]),
    ("and", "{{ a", " and a", " }}", ["P2"]),
    ("or", "{{ a", " or a", " }}", ["P2"]),
    ("not", "{{ ", "not ", "a }}", ["P2"]),
    ("signs", "{{ ", "-", "1 }}", ["P2"]),
    ("inline if", "{{ 1", " if a else 1", " }}", ["P2"]),
    ("inline if, no else", "{{ 1", " if a", " }}", ["P1"]),
    ("attributes", "{{ a", ".a", " }}", ["P2"]),
    ("items", "{{ a", "[0]", " }}", ["P2"]),
    ("calls", "{{ f", "()", " }}", ["P2"]),
    ("filters", "{{ a", "|upper", " }}", ["P2"]),
    ("unknown filters", "{{ a", "|f", " }}", ["P2"]),
    ("tests", "{{ a", " is none", " }}", ["P2"]),
    ("list", "{{ [", "1,", "] }}", ["ok", "G1", "G3"]),
    ("map", "{{ {", '"a":1,', "} }}", ["ok", "G1", "G3"]),
    ("arguments", "{{ range(", "1,", ") }}", ["V4"]),
    ("keywords", "{{ range(", "a=1,", ") }}", ["V4"]),
    ("closed parentheses", None, ("(", "1", ")"), None, ["P2"]),
    ("closed lists", None, ("[", "1", "]"), None, ["P2"]),
    ("closed maps", None, ('{"a":', "1", "}"), None, ["P2"]),
    ("open parentheses", "{{ ", "(", "", ["S1", "P1", "P2"]),
    ("open lists", "{{ ", "[", "", ["S1", "P1", "P2"]),
    ("open maps", "{{ ", '{"a":', "", ["S1", "P1", "P2"]),
    ("open braces", "{{ ", "{", "", ["S1", "P1", "P2"]),
    ("unclosed parentheses", "{{ ", "(", " }}", ["P1", "P2"]),
    ("unclosed lists", "{{ ", "[", " }}", ["P1", "P2"]),
    ("closing brackets", "{{ ", ")", " }}", ["P1"]),
    ("open tags", "", "{{ ", "", ["S1"]),
    ("open comments", "", "{#", "", ["S1"]),
    ("open texts", "", '{{ " }}', "", ["ok", "S2", "G1"]),
    ("open ifs", "", "{% if x %}", "", ["P1", "P2"]),
    ("elifs", "{% if x %}", "{% elif x %}", "{% endif %}", ["ok", "G1"]),
    ("ifs in a row", "", "{% if x %}{% endif %}", "", ["ok", "G1"]),
    ("prints", "", "{{ 1 }}", "", ["ok", "G1"]),
    ("names", "", "{{ a }}", "", ["ok", "G1"]),
    ("comments", "", "{##}", "", ["ok"]),
    ("one text", '{{ "', "a", '" }}', ["ok"]),
    ("one text of escapes", '{{ "', "\\n", '" }}', ["ok"]),
    ("one number", "{{ ", "1", " }}", ["S5"]),
    ("one number of zeros", "{{ ", "0", " }}", ["ok"]),
    ("one hexadecimal number", "{{ 0x", "0", "1 }}", ["ok"]),
    ("one name", "{{ ", "a", " }}", ["ok", "G1"]),
    ("spaces", "{{ ", " ", "a }}", ["ok"]),
    ("line ends", "", "\r\n", "", ["ok"]),
    ("marks", "", "{{- 1 -}}", "", ["ok", "G1"]),
    ("marks between whitespace", "", " \n{%- if x -%}\t {%- endif -%} ", "", ["ok", "G1"]),
    ("whitespace between tags", "", "{{ 1 -}}            \n", "", ["ok", "G1"]),
    ("whitespace before one mark", "", " ", "{{- 1 }}", ["ok"]),
    ("comments with marks", "", " {#--#} ", "", ["ok"]),
    ("raw tags", "", "{% raw %}{{{% endraw %}", "", ["ok"]),
    ("tags in raw text", "{% raw %}", "{% if x %}{{ y }}", "{% endraw %}", ["ok"]),
    ("open raw text", "{% raw %}", "{% endraw", "", ["S6"]),
    ("loops in a row", "", "{% for i in x %}{% endfor %}", "", ["ok", "G1", "V5"]),
    ("open loops", "", "{% for i in x %}", "", ["P1", "P2"]),
    ("set in a row", "", "{% set a = 1 %}", "", ["ok", "G1", "V5"]),
    ("filter blocks", "", "{% filter upper %}{% endfilter %}", "", ["ok", "G1"]),
    ("unknown tags", "", "{% nope %}", "", ["P1"]),
]


def distinct_names(size):
    """Returns print tags of different names, the greatest number that fits."""
    source, count = [], 0
    while size > 0:
        tag = f"{{{{ a{count} }}}}"
        size -= len(tag)
        if size >= 0:
            source.append(tag)
        count += 1
    return "".join(source)


def many_blocks(size):
    """Returns the greatest number of blocks that fits."""
    return {"t": "".join(f"{{% block b{n:05} %}}{{% endblock %}}" for n in range(size // 33))}


def fan(size):
    """Returns a template that includes 1,023 others, which share the rest of the size equally."""
    tags = "".join(f'{{% include "p{n}" %}}' for n in range(1_023))
    part = "{{ a }}" * ((size - len(tags)) // 1_023 // 7)
    return {"t": tags, **{f"p{n}": part for n in range(1_023)}}


def mesh(size):
    """Returns 64 templates, each of which includes all later ones, repeatedly while that fits."""
    tags = lambda n: "".join(f'{{% include "p{m}" %}}' for m in range(n + 1, 64)) or "x"
    times = max(1, size // sum(len(tags(n)) for n in range(64)))
    return {"t": tags(0) * times, **{f"p{n}": tags(n) * times for n in range(1, 64)}}


def tall(size):
    """Returns 64 templates that extend one another, each with all blocks, which call those of the parent."""
    count = min(200, size // 64 // 42)
    blocks = "".join(f"{{% block b{n:03} %}}{{{{ super() }}}}{{% endblock %}}" for n in range(count))
    base = blocks.replace("{{ super() }}", "")
    chain = {f"p{n}": f'{{% extends "p{n + 1}" %}}{blocks}' for n in range(1, 63)}
    return {"t": f'{{% extends "p1" %}}{blocks}', **chain, "p63": base}


def numbered(count, piece):
    """Returns `count` pieces, each with its number instead of #."""
    return "".join(piece.replace("#", f"{n:05}") for n in range(count))


MACRO = "{% macro m#() %}{% endmacro %}"


def asked_one_by_one(size):
    """Returns a library of macros, each with a `from` tag and a call of its own."""
    count, tags = size // 76, '{% from "l" import m# %}{{ m#() }}'
    return {"t": numbered(count, tags), "l": numbered(count, MACRO)}


def asked_at_once(size):
    """Returns a library of macros that one `from` tag names, each with a call."""
    count = size // 56
    names = numbered(count, "m#,")[:-1]
    return {"t": f'{{% from "l" import {names} %}}' + numbered(count, "{{ m#() }}"), "l": numbered(count, MACRO)}


def called_by_library(size):
    """Returns a library of macros, which are called by the name of an `import`."""
    count = size // 51
    return {"t": '{% import "l" as f %}' + numbered(count, "{{ f.m#() }}"), "l": numbered(count, MACRO)}


def imported_again(size):
    """Returns a library that is imported once for each of its macros, under different names, each with a call."""
    count, tags = size // 82, '{% import "l" as f# %}{{ f#.m#() }}'
    return {"t": numbered(count, tags), "l": numbered(count, MACRO)}


def many_libraries(size):
    """Returns the greatest number of libraries of one macro that fits, each with a tag and a call."""
    count, tags = size // 82, '{% from "l#" import m as f# %}{{ f#() }}'
    return {"t": numbered(count, tags), **{f"l{n:05}": "{% macro m() %}{% endmacro %}" for n in range(count)}}


def shared_library(size):
    """Returns a library that 1,000 chains import, each of which calls one of its macros."""
    tags = {f"p{n}": f'{{% import "l" as f %}}{{{{ f.m{n:05}() }}}}' for n in range(1_000)}
    left = size - sum(map(len, tags.values())) - 22 * len(tags)
    return {"t": "".join(f'{{% include "{name}" %}}' for name in tags), "l": numbered(max(1_000, left // 34), MACRO), **tags}


# name, the templates, the permitted results
SETS = [
    ("many blocks", many_blocks, ["ok", "G1"]),
    ("a fan of includes", fan, ["ok", "G1", "C4"]),
    ("a mesh of includes", mesh, ["ok", "G1", "C4"]),
    ("64 templates of 200 blocks", tall, ["ok", "G1"]),
    ("macros asked for one by one", asked_one_by_one, ["ok", "G1"]),
    ("macros asked for at once", asked_at_once, ["ok", "G1"]),
    ("macros called by their library", called_by_library, ["ok", "G1"]),
    ("a library imported again", imported_again, ["ok", "G1"]),
    ("many libraries", many_libraries, ["ok", "G1"]),
    ("a library that 1,000 chains import", shared_library, ["ok", "G1"]),
]


def nested(opener, inner, closer, size):
    depth = (size - len(inner) - 6) // (len(opener) + len(closer))
    return "{{ " + opener * depth + inner + closer * depth + " }}"


def sources(size):
    for name, head, piece, tail, answers in SOURCES:
        yield name, {"t": nested(*piece, size) if head is None else repeat(head, piece, tail, size)}, answers
    yield "distinct names", {"t": distinct_names(size)}, ["ok", "V5", "G1"]
    for name, templates, answers in SETS:
        yield name, templates(size), answers


def compile_once(jt, folder):
    """Returns the seconds that the program took, and its result: ok, the refusal's code, or its line."""
    took, ran = timed([jt, "compile", "d", "t", "out"], cwd=folder)
    if ran.returncode == 0:
        return took, "ok"
    line = ran.stderr.decode(errors="replace").strip()
    words = line.split()
    return took, words[2] if words[:2] == ["jt:", "refused"] else line or f"status {ran.returncode}"


def compile_sources(jt, templates, runs):
    """Returns the shortest of some runs, and the result."""
    with tempfile.TemporaryDirectory() as folder:
        os.mkdir(f"{folder}/d")
        for name, source in templates.items():
            pathlib.Path(folder, "d", name).write_bytes(source.encode())
        found = [compile_once(jt, folder) for _ in range(runs)]
    return min(took for took, _ in found), found[0][1]


def main():
    asked = sized(__doc__, "bytes", MIB, runs=3, most=1.0)
    rows = Rows(asked)
    for row in zip(*map(sources, asked.sizes)):
        name, answers = row[0][0], row[0][2]
        if rows.wants(name):
            found = [compile_sources(asked.jt, templates, asked.runs) for _, templates, _ in row]
            rows.tell(name, [took for took, _ in found], found[-1][1], all(answer in answers for _, answer in found))
    rows.end()


if __name__ == "__main__":
    main()
