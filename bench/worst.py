#!/usr/bin/env python3
"""Prints how long a unit of fuel can last: each operator, filter, test and statement over the operands that are worst for it.

    bench/worst.py [--jt PATH] [--fuel N] [--size N] [--rows N] [--chains N] [--most SECONDS] [WORD ..]

Without --jt it takes the program that `rt run` keeps, crates/jt_cli/out/jt_cli. Each form stands in a loop that --fuel (100,000) ends.
A row has the microseconds of processor time for a unit, the seconds that the default budget of 1,000,000 units lasts at that rate, how
many ready runs of the table of bench/speed last as long, by which machines compare, and the form with the names of its operands (OPERANDS
below). Reading the context is measured apart and taken off. A run is ended after --cap (5) seconds; its row then has a `>`. The --rows (40)
slowest forms are printed, the slowest first; with words, all forms that have one of them. With --size N the run has that limit of sizes,
and lists have a quarter of it as items. --chains N adds N chains of two or three filters, chosen at random. Forms in turns share the fuel
among 64 sessions, whose turns are one instruction. The status is 1 if a form is slower than --most (15 seconds for the default budget).
"""
import json, os, pathlib, random, resource, subprocess, sys, tempfile
from typing import List, NamedTuple

from timing import flags, timed

sys.path.insert(0, str(pathlib.Path(__file__).resolve().parent / "speed"))
from count import BUDGET
from count import HERE as SPEED
from make_contexts import write

MILLION = 1_000_000
DEFAULT = 1_000_000

# How many items a list has: a unit of fuel pays for 64 of a size, so more items only make a run longer.
ITEMS = 250_000


def fibonacci(length):
    """The first letters of the Fibonacci word, whose suffixes have much in common."""
    last, word = "a", "ab"
    while len(word) < length:
        last, word = word, word + last
    return word[:length]


def operands(items, length):
    """The values of the context, with lists of so many items and texts of so many bytes."""
    random.seed(1)
    return {
        "zero": 0,
        "one": 1,
        "letter": "a",
        "word": "abcdefghij",
        "text": "a" * length,
        "text2": "a" * (length - 1) + "b",
        "half": "a" * (length // 2 - 1) + "b",
        "blank": " " * length,
        "letters": "".join(random.choices("abcdefghijklmnopqrstuvwxyzABCDEFGHIJKLMNOPQRSTUVWXYZ", k=length)),
        "marks": "<" * length,
        "greek": "".join(chr(random.randrange(0x80, 0x800)) for _ in range(length // 2)),
        "han": "".join(chr(random.randrange(0x4E00, 0x9FFF)) for _ in range(length // 3)),
        "numbers": list(range(items)),
        "numbers2": list(range(items - 1)) + [-1],
        "shuffled": random.sample(range(items), items),
        "equal": [7] * items,
        "great": random.sample(range(2**62, 2**62 + 2**40), items),
        "wide": [random.randrange(-(2**63), 2**63) for _ in range(items)],
        "truths": [random.random() < 0.5 for _ in range(items)],
        "mixed": list(range(items - 1)) + ["a"],
        "nones": [None] * items,
        "empties": [""] * items,
        "lists": [[] for _ in range(items)],
        "pairs": [[i, i] for i in range(items // 3)],
        "short": [f"{random.randrange(10**4):04}" for _ in range(items // 5)],
        "words": [f"{random.randrange(10**9):09}" for _ in range(items // 10)],
        "distinct": random.sample([f"{i:05}" for i in range(10**5)], min(items // 6, 10**5)),
        "alike": ["a" * 990 + f"{i:09}" for i in range(items // 1000)],
        "nearly": "a" * 990 + "b",
        "heads": {"a" * 990 + f"{i:09}": i for i in random.sample(range(items // 1000), items // 1000)},
        "heads2": {"a" * 990 + f"{i:09}": i for i in range(items // 1000)},
        "rows": [[0] * 20 + [i] for i in random.sample(range(items // 22), items // 22)],
        "tables": [[["a", [i]]] for i in random.sample(range(items // 5), items // 5)],
        "keys": {f"{i:06}": i for i in range(items // 8)},
        "turned": {f"{i:06}": i for i in reversed(range(items // 8))},
        "scattered": {f"{i:06}": i for i in random.sample(range(items // 8), items // 8)},
        "voids": [{} for _ in range(items)],
        "maps": [{"a": i, "b": "x"} for i in range(items // 10)],
        "alone": {"a": 1},
        "deep": json.loads("[" * 31 + "]" * 31),
        "binary": "".join(random.choices("ab", k=length)),
        "fibonacci": fibonacci(length),
        "falling": [[2, 1] for _ in range(items // 3)],
        "seventeen": [random.sample(range(1000), 17) for _ in range(items // 18)],
        "few": ["".join(random.choices("ab", k=60)) for _ in range(23)],
        "slices": ["".join(random.choices("ab", k=60)) for _ in range(items // 60)],
    }


OPERANDS = operands(ITEMS, MILLION)
TEXTS = ["letter", "word", "text", "blank", "letters", "marks", "greek", "han"]
LISTS = ["numbers", "shuffled", "equal", "great", "wide", "truths", "mixed", "nones", "empties", "lists", "voids", "pairs", "short", "words", "distinct", "alike", "maps", "falling", "seventeen"]
MAPS = ["keys", "turned", "scattered", "alone"]
ALL = ["zero", *TEXTS, *LISTS, *MAPS, "deep"]

ONE = ["abs", "capitalize", "default", "dictsort", "escape", "first", "forceescape", "int", "items", "join", "last", "length", "list", "lower", "map('abs')", "map('string')", "map('upper')", "map('length')", "map('list')", "map('default', 1)", "map('escape')", "map('unique')", "map('sort')", "max", "min", "reject", "reverse", "safe", "select", "sort", "sort(true)", "string", "sum", "trim", "unique", "upper"]
JUDGED = ["select('in', letters)", "select('lt', text)", "select('eq', text)", "map('default', text)", "map('replace', text, 'b')", "map('replace', 'b', text)", "select('odd')", "reject('odd')", "select('defined')", "select('eq', word)", "select('in', letters)", "select('in', short)", "select('eq', keys)", "map('join', text)", "select('divisibleby', 3)", "select('gt', 3)", "selectattr('a')", "rejectattr('a', 'eq', 2)", "map(attribute='a')", "map('replace', 'a', 'b')"]
INNER = ["abs", "capitalize", "dictsort", "first", "forceescape", "int", "items", "join", "join', ',", "last", "lower", "max", "min", "reverse", "safe", "sum", "trim", "attr', 'a", "replace', '0', '<<<"]
SOUGHT = ["keys", "scattered", "words", "distinct", "shuffled", "wide", "maps", "binary", "fibonacci"]
TESTS = ["defined", "undefined", "none", "boolean", "integer", "string", "mapping", "escaped", "true", "false"]


def expressions():
    """Expressions over the operands, each with the names that it reads."""
    for x in ALL:
        for name in ONE:
            yield f"{x}|{name}"
        yield from [x, f"not {x}", f"{x}[0]", f"{x}[-1]", f"{x}['a']", f"{x}.a", f"{x} ~ letter", f"letter ~ {x}", f"{x}|attr('a')", f"{x}|default(word)", f"[{x}, {x}, {x}]", f"{{'a': {x}}}", f"{x} if {x} else word", f"{x} and word", f"{x} or word", f"{x} * 1", f"{x} == {x}"]
    for x in ["text", "numbers", "words", "scattered", "deep"]:
        yield from [f"{x} is {test}" for test in TESTS]
    for x in LISTS:
        yield from [f"{x}|{name}" for name in JUDGED]
        yield from [f"{x}|map('{name}')" for name in INNER]
        yield from [f"{x}|select('in', {sought})" for sought in SOUGHT]
        yield from [f"{x} + [1]", f"[1] + {x}", f"{x} + {x}", f"'zzz' in {x}", f"-1 in {x}", f"{x}|join(text)", f"{x}|join(',')", f"{x}[999999]"]
    for x in TEXTS:
        yield from [f"{x}|replace('a', 'b')", f"{x}|replace('a', 'bb')", f"{x}|replace('aa', '')", f"{x}|replace('b', 'c')", f"letter|replace(letter, {x})", f"{x}|replace({x}, letter)", f"{x}|replace(half, letter)", f"half in {x}", f"'b' in {x}", f"'ab' in {x}", f"{x} in {x}", f"{x}[999999]", f"{x} < {x}", f"{x}|join(',')", f"{x}|safe|upper", f"{x}|safe ~ {x}"]
        yield from [f"{x}|map('{name}')" for name in INNER]
        yield from [f"{x}|select('in', {sought})" for sought in SOUGHT]
        yield from [f"{x}|list|join", f"{x}|list|sort|join(',')", f"{x}|join(','|safe)", f"{x}|join('<')", f"{x}|reverse|list"]
    for x in MAPS:
        yield from [f"'zzz' in {x}", f"{x} in maps", f"{x} in voids", f"{x} in pairs", f"[{x}]|unique", f"[{x}, keys, scattered]|unique", f"{x}['000001']", f"{x}.zzz", f"keys == {x}", f"{x} == scattered", f"{x} is eq turned"]
    yield from ["text == text2", "text < text2", "text is eq text2", "text is lt text2", "numbers == numbers2", "numbers < numbers2", "-1 in numbers", "999999 in numbers", "word in words", "deep == deep", "keys in voids", "alike|unique", "letters|unique", "greek|unique|sort", "shuffled|sort|unique", "(great + ['a'])|unique", "(shuffled + [true])|unique", "[text, text, text, text]|join", "[keys, turned]|unique", "[numbers, numbers2]|unique", "[scattered, turned]|unique", "[text, text2]|sort", "[text, text2]|unique"]
    for x in ["short", "words", "slices", "few", "keys", "letter"]:
        yield from [f"{x}|select('in', {whole})" for whole in ["text", "letters", "binary", "fibonacci", "greek", "half"]]
    # texts that are almost equal, keys with long common beginnings, lists of lists
    for x in ["alike", "heads", "[text, text2]", "[text, half, text2]"]:
        yield from [f"{x}|map('replace', {part}, letter)" for part in ["nearly", "half", "alike[0]", "alike[1]"]]
    for part in ["nearly", "half", "text", "text2", "alike[0]"]:
        yield from [f"{x}|replace({part}, {new})" for x in ["text", "text2", "fibonacci"] for new in ["''", "letter", part]]
    for x in ["alike", "heads", "heads|list", "heads|items"]:
        yield from [f"{x}|sort", f"{x}|sort(true)", f"{x}|unique", f"{x}|unique|sort", f"{x}|max", f"{x}|select('in', alike)", f"{x}|select('in', heads)"]
    yield from ["heads|dictsort", "heads == heads2", "[heads, heads2]|unique", "heads in [heads2]", "nearly in heads"]
    for x in ["rows", "tables", "(rows + rows)", "(tables + rows)", "[rows, rows]", "[rows, tables]", "rows|map('reverse')"]:
        yield from [f"{x}|unique", f"{x}|sort", f"{x}|unique|length", f"{x}|select('in', rows)", f"{x}|select('in', tables)", f"{x} == rows", f"[0] in {x}"]
    # little that is read and much that is made
    for n in ["10", "100", "1000", "10000", "100000", "1000000"]:
        yield from [f"letter * {n}", f"range({n})", f"range(0, -{n}, -1)", f"range({n})|length", f"range({n})[0]", f"3 in range({n})", f"range({n}) == range({n})", f"range({n})|sum", f"(letter * {n})|length", f"(letter|safe) * {n}"]
    yield from ["word * 100000", "'' * 1000000", "'ab' * 500000", "text * 1", "half * 2", "'é' * 500000", "letter * 1048575", "range(1048575)", "one // one", "7 % 3", "2 ** 62", "-5 // 3", "one + one", "-one", "+one", "one < one", "zero == one", "one ~ one"]


STATEMENTS = {
    "for over a list": ("numbers", "{% for x in numbers %}{% endfor %}"),
    "for over a text": ("greek", "{% for x in greek %}{% endfor %}"),
    "for over a map": ("scattered", "{% for x in scattered %}{% endfor %}"),
    "for over a list that faults none": ("numbers", "{% for x in numbers if false %}{% endfor %}"),
    "for over the empty list": ("", "{% for x in [] %}{% endfor %}"),
    "for with else": ("", "{% for x in [] %}{% else %}{% endfor %}"),
    "for that unpacks": ("", "{% for a, b in [[1, 2]] %}{% endfor %}"),
    "for that unpacks a text": ("", "{% for a, b in ['ab', 'cd'] %}{% endfor %}"),
    "for over a range": ("", "{% for x in range(1000) %}{% endfor %}"),
    "fields of the loop": ("", "{% for x in range(3) %}{% if loop.index and loop.last and loop.nextitem %}{% endif %}{% endfor %}"),
    "loop.nextitem of a text": ("greek", "{% for x in greek %}{{ loop.nextitem }}{% endfor %}"),
    "set": ("", "{% set q = 1 %}"),
    "set of a list": ("", "{% set q = [1, 2, 3, 4, 5, 6, 7, 8] %}"),
    "set of a map": ("", '{% set q = {"a": 1, "b": 2, "c": 3} %}'),
    "set of a range": ("", "{% set q = range(1000000) %}"),
    "set of a repeated text": ("", "{% set q = 'a' * 1000000 %}"),
    "set that unpacks": ("", "{% set a, b = [1, 2] %}"),
    "set of a block": ("text", "{% set c %}{{ text }}{% endset %}"),
    "set of an empty block": ("", "{% set c %}{% endset %}"),
    "filter": ("text", "{% filter upper %}{{ text }}{% endfilter %}"),
    "filter of nothing": ("", "{% filter upper %}{% endfilter %}"),
    "emit of nothing": ("", "{{ '' }}"),
    "escaped emit": ("marks", "{% set c %}{{ marks }}{% endset %}"),
    "include": ("", '{% include "empty" %}'),
    "include of 1000 tags": ("", '{% include "tags" %}'),
    "include without context": ("", '{% include "empty" without context %}'),
    "block": ("", "{{ self.k() }}"),
    "macro": ("", "{{ m(1) }}"),
    "macro with defaults": ("", "{{ d() }}"),
    "macro with 100 defaults": ("", "{{ h() }}"),
    "macro with keywords": ("", "{{ d(c=1, b=2) }}"),
    "macro that fails to find a name": ("", "{{ m(undefined_name) }}"),
    "if": ("", "{% if 1 %}{% endif %}"),
    "if with elif": ("", "{% if 0 %}{% elif 0 %}{% else %}{% endif %}"),
    "text": ("", "x"),
}


def within(count, begin, inside, end):
    """A statement in itself, a number of times."""
    return begin * count + inside + end * count


# Captures in captures: each level copies what is in it. (A long text spends the output at once.)
for deep in (2, 10, 90):
    for operand, inside in (("word", "{{ word }}"), ("", "x"), ("", "")):
        named = f"of {operand or inside or 'nothing'}, nested {deep} deep"
        STATEMENTS[f"set of a block {named}"] = operand, within(deep, "{% set c %}", inside, "{% endset %}")
        STATEMENTS[f"set of a block that is printed {named}"] = operand, within(deep, "{% set c %}", inside, "{% endset %}{{ c }}")
        STATEMENTS[f"filter upper {named}"] = operand, within(deep, "{% filter upper %}", inside, "{% endfilter %}")
        STATEMENTS[f"filter trim {named}"] = operand, within(deep, "{% filter trim %}", inside, "{% endfilter %}")
FRAME = (
    "{% macro m(x) %}{% endmacro %}{% macro d(a=1, b='y', c='x') %}{% endmacro %}"
    + "{% macro h(" + ", ".join(f"a{i}={i}" for i in range(100)) + ") %}{% endmacro %}{% block k %}{% endblock %}"
)


def chains(count):
    """A number of chains of two or three filters over an operand, chosen at random."""
    filters = ONE + JUDGED + [f"map('{name}')" for name in INNER] + [f"select('in', {sought})" for sought in SOUGHT]
    chosen = random.Random(2)
    for _ in range(count):
        yield "|".join([chosen.choice(ALL), *chosen.choices(filters, k=chosen.randint(2, 3))])


# Loops around a form, which the least budget has the size for.
LOOPS = "{% for i in range(1000) %}{% for j in range(1000) %}", "{% endfor %}{% endfor %}"


def names_of(form):
    """The operands that a form names."""
    words = "".join(c if c.isalnum() else " " for c in form).split()
    return sorted({word for word in words if word in OPERANDS})


class Form(NamedTuple):
    """A form with its operands, and the number of sessions that run it in turns of one instruction."""

    name: str
    operands: List[str]
    source: str
    sessions: int = 1


# What sessions in turns do: little in each instruction, or much.
TURNS = ["text", "emit of nothing", "set of a list", "macro", "include", "block", "set of an empty block", "for over the empty list", "set of a range", "filter"]
SESSIONS = 64


def forms(count=0):
    """All forms. A number of chains of filters is among them."""
    for text in dict.fromkeys([*expressions(), *chains(count)]):
        yield Form(text, names_of(text), "{% if " + text + " %}{% endif %}")
    for name, (operands, source) in STATEMENTS.items():
        yield Form(name, operands.split(), source)
    for name in TURNS:
        operands, source = STATEMENTS[name]
        yield Form(f"{name}, in turns", operands.split(), source, SESSIONS)


class Bench:
    """A folder with one context for each set of operands, and the seconds that reading it takes."""

    def __init__(self, jt, asked, folder):
        self.jt, self.fuel, self.cap, self.folder, self.read = jt, asked.fuel, asked.cap, folder, {}
        self.limits = ["--size", str(asked.size)] if asked.size else []
        os.mkdir(f"{folder}/d")
        pathlib.Path(folder, "d", "empty").write_text("")
        pathlib.Path(folder, "d", "tags").write_text("{{ '' }}" * 1000)

    def timed(self, *words):
        limit = lambda: resource.setrlimit(resource.RLIMIT_CPU, (self.cap, self.cap))
        return timed([self.jt, *map(str, words)], cwd=self.folder, stdin=subprocess.DEVNULL, preexec_fn=limit)

    def run(self, form, source, fuel):
        """Runs a source with the operands of a form, in its sessions."""
        pathlib.Path(self.folder, "d", "t").write_text(source)
        context = f"{'+'.join(form.operands) or 'none'}.json"
        if form.sessions == 1:
            return self.timed("render", "d", "t", context, "--fuel", fuel, *self.limits)
        subprocess.run([self.jt, "compile", "d", "t", "image"], cwd=self.folder, check=True)
        pairs = ["image", context] * form.sessions
        return self.timed("turns", *pairs, "--slice", 1, "--fuel", fuel // form.sessions, *self.limits)

    def base(self, form):
        """The seconds that a template takes which only names the operands."""
        key = "+".join(form.operands) or "none", form.sessions
        if key not in self.read:
            pathlib.Path(self.folder, f"{key[0]}.json").write_text(json.dumps({name: OPERANDS[name] for name in form.operands}))
            source = FRAME + "".join("{% if false %}{{ " + name + " }}{% endif %}" for name in form.operands)
            self.read[key] = min(self.run(form, source, DEFAULT)[0] for _ in range(3))
        return self.read[key]

    def unit(self, form):
        """The microseconds for a unit of fuel, and how the run ended."""
        base = self.base(form)
        took, ran = self.run(form, FRAME + LOOPS[0] + form.source + LOOPS[1], self.fuel)
        told = (ran.stderr or ran.stdout).decode(errors="replace").strip().split("\n")[0]
        if ran.returncode < 0:
            told = "still going"
        return max(took - base, 0) / self.fuel * MILLION, told

    def ready(self):
        """The seconds of a ready run of the table: those of 64 sessions, without reading their contexts."""
        folder = pathlib.Path(self.folder, "speed")
        (folder / "letter").mkdir(parents=True)
        (folder / "letter" / "main").write_text("x")
        write(folder)
        took = []
        for source in (folder / "letter", SPEED / "templates" / "table"):
            subprocess.run([self.jt, "compile", source, "main", folder / "image"], check=True)
            pairs = [folder / "image", folder / "table.json"] * SESSIONS
            took.append(min(self.timed("turns", *pairs, "--slice", MILLION, *BUDGET)[0] for _ in range(3)))
        return max(took[1] - took[0], 1e-9) / SESSIONS


def measure(bench, asked, found, others):
    """Adds the forms that have one of the words, if there are words, to those that were spent or to the others."""
    words = asked.words
    for form in forms(asked.chains):
        if words and not any(word in form.name for word in words):
            continue
        micros, told = bench.unit(form)
        if told == "still going" or "spent Fuel" in told:
            found.append((micros, told == "still going", form.name))
        else:
            others.setdefault(told.split(" at ")[0][:40], []).append(form.name)


def main():
    parser = flags(__doc__)
    parser.add_argument("--fuel", type=int, default=100_000)
    parser.add_argument("--size", type=int, default=0)
    parser.add_argument("--cap", type=int, default=5)
    parser.add_argument("--rows", type=int, default=40)
    parser.add_argument("--chains", type=int, default=0)
    parser.add_argument("--most", type=float, default=15.0)
    parser.add_argument("words", nargs="*")
    asked = parser.parse_args()
    if asked.size:
        OPERANDS.update(operands(asked.size // 4, asked.size - 1000))
    found, others = [], {}
    with tempfile.TemporaryDirectory() as folder:
        bench = Bench(asked.jt, asked, folder)
        ready = bench.ready()
        try:
            measure(bench, asked, found, others)
        except KeyboardInterrupt:
            print("(interrupted: these forms were measured)")
    found.sort(reverse=True)
    print(f"a ready run of the table takes {ready * 1000:.2f} milliseconds")
    print("us a unit | seconds for the default budget | ready runs of the table | form")
    for micros, is_going, name in found if asked.words else found[: asked.rows]:
        sign, seconds = ">" if is_going else " ", micros * DEFAULT / MILLION
        print(f"{sign}{micros:9.2f} | {sign}{seconds:9.2f} | {sign}{seconds / ready:9.0f} | {name}")
    print(f"{len(found)} forms were spent")
    for told, names in sorted(others.items()):
        print(f"{len(names)} forms ended with {told}" + (f": {', '.join(names)}" if asked.words else f", as {names[0]}"))
    slow = [name for micros, _, name in found if micros > asked.most]
    sys.exit(f"slower than {asked.most} seconds: {', '.join(slow)}" if slow else 0)


if __name__ == "__main__":
    main()
