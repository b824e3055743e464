#!/usr/bin/env python3
"""Times `jt render` on filters whose input is a text of 1,000,000 letters or a list of 1,000,000 items.

    bench/filters.py [--jt PATH] [--items N] [--steps N] [--runs N] [--most SECONDS] [NAME ..]

Without --jt it runs the program that `rt run` keeps, crates/jt_cli/out/jt_cli. Each row is a template over `text`, letters in both cases,
`numbers`, `texts` and `pairs`, a map, each of --items (1,000,000) letters, items or entries. It is rendered --runs times (1). The script
prints the shortest processor time of the program, without the time of a template that only reads the same context. --steps N renders each
row in N sizes, each twice the one before, up to --items, which shows a cost that grows faster than n log n.

After the filters there are rows within the default budget, and calls of macros, chains of includes, and a join whose text would be too
large. The status is 1 if a row took longer than --most (2 seconds), or one within the default budget longer than half of that, or if the
result is not the wanted one.
"""
import json, os, pathlib, tempfile
from timing import Rows, sized, timed

MILLION = 1_000_000
BUDGET = ["--fuel", "4000000000000", "--output", "4000000000", "--size", "4000000000"]

# name, the content of the context, the template, and its text or the first words of its line, for n items
ROWS = [
    ("abs", "numbers", "{{ numbers|first|abs }}", lambda n: "0"),
    ("capitalize", "text", "{{ text|capitalize|length }}", str),
    ("default", "numbers", "{{ numbers|default(1)|length }}", str),
    ("dictsort", "pairs", "{{ pairs|dictsort|length }}", str),
    ("escape", "text", "{{ text|escape|length }}", str),
    ("first", "text", "{{ text|first }}", lambda n: "a"),
    ("last", "numbers", "{{ numbers|last }}", lambda n: str(n - 1)),
    ("forceescape", "text", "{{ text|forceescape|length }}", str),
    ("int", "text", "{{ text|int }}", lambda n: "0"),
    ("items", "pairs", "{{ pairs|items|length }}", str),
    ("join", "texts", "{{ texts|join(',')|length }}", lambda n: str(8 * n - 1)),
    ("join of markup", "texts", "{{ texts|join('<b>'|safe)|length }}", lambda n: str(10 * n - 3)),
    ("length", "text", "{{ text|length }}", str),
    ("list of a text", "text", "{{ text|list|length }}", str),
    ("lower", "text", "{{ text|lower|length }}", str),
    ("upper", "text", "{{ text|upper|length }}", str),
    ("map", "numbers", "{{ numbers|map('abs')|length }}", str),
    ("max", "numbers", "{{ numbers|max }}", lambda n: str(n - 1)),
    ("max of texts", "texts", "{{ texts|max }}", lambda n: f"{n - 1:07}"),
    ("min", "numbers", "{{ numbers|min }}", lambda n: "0"),
    ("replace", "text", "{{ text|replace('a', 'bb')|length }}", lambda n: str(n + (n + 3) // 4)),
    ("replace of nothing", "text", "{{ text|replace('zz', '')|length }}", str),
    ("reverse of a text", "text", "{{ text|reverse|length }}", str),
    ("reverse", "numbers", "{{ numbers|reverse|first }}", lambda n: str(n - 1)),
    ("safe", "text", "{{ text|safe|length }}", str),
    ("sort", "numbers", "{{ numbers|sort(true)|first }}", lambda n: str(n - 1)),
    ("sort of texts", "texts", "{{ texts|sort|first }}", lambda n: "0000000"),
    ("string", "text", "{{ text|string|length }}", str),
    ("sum", "numbers", "{{ numbers|sum }}", lambda n: str(n * (n - 1) // 2)),
    ("trim", "text", "{{ (' ' ~ text ~ ' ')|trim|length }}", str),
    ("unique", "numbers", "{{ numbers|unique|length }}", str),
    ("unique of texts", "texts", "{{ texts|unique|length }}", str),
    ("a loop", "numbers", "{% for x in numbers %}{% endfor %}{{ numbers|length }}", str),
    ("a loop with a condition", "numbers", "{% for x in numbers if x < 3 %}{{ x }}{% endfor %}", lambda n: "012"),
    ("a loop over range", None, "{% for x in range(N) %}{% endfor %}", lambda n: ""),
]

# Rows within the default budget.
WITHIN = [
    ("join, by default", "numbers", "{{ numbers|join|length }}", lambda n: "jt: spent Size"),
    ("map, by default", "numbers", "{{ numbers|map('abs')|length }}", str),
    ("replace, by default", "text", "{{ text|replace('a', '')|length }}", lambda n: str(n - (n + 3) // 4)),
    ("replace to more, by default", "text", "{{ text|replace('a', 'bb')|length }}", lambda n: "jt: spent Size"),
    ("sort, by default", "numbers", "{{ numbers|sort(true)|first }}", lambda n: str(n - 1)),
    ("unique, by default", "numbers", "{{ numbers|unique|length }}", str),
    ("a loop, by default", "numbers", "{% for x in numbers %}{% endfor %}", lambda n: "jt: spent Fuel"),
]


def held(kind, n):
    """Returns the value of a name in the context."""
    if kind == "text":
        return ("aBcD" * (n // 4 + 1))[:n]
    if kind == "numbers":
        return list(range(n))
    if kind == "texts":
        return [f"{i:07}" for i in range(n)]
    return {f"{i:07}": i for i in range(n)}


def rendered(jt, folder, name, options=BUDGET):
    """Returns the processor time of the program, and its text or its line."""
    took, ran = timed([jt, "render", "d", name, "context.json", *options], cwd=folder)
    told = ran.stderr if ran.returncode else ran.stdout
    return took, told.decode(errors="replace").strip()


def row(jt, kind, template, n, runs, options=BUDGET):
    """Returns the shortest of some runs, without reading the context, and the result."""
    with tempfile.TemporaryDirectory() as folder:
        os.mkdir(f"{folder}/d")
        pathlib.Path(folder, "context.json").write_text(json.dumps({kind: held(kind, n)} if kind else {}))
        pathlib.Path(folder, "d", "t").write_text(template.replace("N", str(n)))
        pathlib.Path(folder, "d", "empty").write_text("")
        found = [rendered(jt, folder, "t", options) for _ in range(runs)]
        read = min(rendered(jt, folder, "empty")[0] for _ in range(runs))
    return max(min(took for took, _ in found) - read, 0), found[0][1]


def others(jt):
    """Returns the rows that are no filters: a name, the seconds, the result and its wanted first words."""
    with tempfile.TemporaryDirectory() as folder:
        os.mkdir(f"{folder}/d")
        pathlib.Path(folder, "context.json").write_text(json.dumps({"a": "a" * 100_000}))
        write = lambda name, text: pathlib.Path(folder, "d", name).write_text(text)
        write("join", "{{ range(100000)|join(a) }}")
        write("calls", "{% macro m(n) %}{% if n > 0 %}{{ m(n - 1) }}{% endif %}{{ n }}{% endmacro %}{{ m(40) }}")
        for i in range(1023):
            write(f"c{i}", f'{{% include "c{i + 1}" %}}')
        write("c1023", "end")
        yield "a join that is too large", *rendered(jt, folder, "join", []), "jt: spent Size"
        yield "m(40) within 1,000 calls", *rendered(jt, folder, "calls", ["--depth", "1000"]), "0123456789"
        yield "1,024 templates that include one another", *rendered(jt, folder, "c0", ["--depth", "2000"]), "end"


def main():
    asked = sized(__doc__, "items", MILLION, runs=1, most=2.0)
    rows = Rows(asked)
    for name, kind, template, wanted in [*ROWS, *WITHIN]:
        if rows.wants(name):
            options = BUDGET if (name, kind, template, wanted) in ROWS else []
            found = [row(asked.jt, kind, template, n, asked.runs, options) for n in asked.sizes]
            is_right = all(told == wanted(n) for (_, told), n in zip(found, asked.sizes))
            most = asked.most if options else asked.most / 2
            rows.tell(name, [took for took, _ in found], found[-1][1], is_right, most)
    for name, took, answer, begins in others(asked.jt):
        if rows.wants(name):
            rows.tell(name, [took], answer, answer.startswith(begins))
    rows.end()


if __name__ == "__main__":
    main()
