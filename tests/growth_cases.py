"""The cases of tests/growths.py: lines of the program, each with its files, and trials of calls.

They cover each command, each way in which it ends, and each kind of statement and of filter once.
"""
import json
import pathlib

EXAMPLES = pathlib.Path(__file__).resolve().parent.parent / "examples"
X = bytes.fromhex("4a54424301000000000001000501000000780100000000000200000009000000000000001c00000000000000")
N = bytes.fromhex("4a544243010001000100000001006e0000010000000000050000000400000000000000"
                  "0b00000004000000040000000000000008000000000000001c00000000000000")
Z = bytes.fromhex("4a5442430100000000000000010000000000020000001b000000000000001c00000000000000")
Y = bytes.fromhex("4a5442430100000000000200030501000000610100000000000900000001000000000000000b00000005000000010000000100000012"
                  "000000000000000a0000000600000018000000000000001700000000000000" "06000000000000001c00000000000000")
LOOP = "{% for x in xs if x > 5 %}{{ loop.index }}:{{ x }} {% else %}none{% endfor %}"
BASE = "[{% block t %}base{% endblock %}]"
SUPER = '{% extends "base" %}{% block t %}{{ super() }}+child{% endblock %}'
MACRO = "{% macro f(a, b=2) %}{{ a }}-{{ b }};{% endmacro %}{{ f(1) }}{{ f(1, b=3) }}{{ f() }}"
XS = {"xs": [6, 1, 7]}
# Templates, each with its context.
TEMPLATES = {
    "greeting": ({"t": "Hello {{ name }}!\n"}, {"name": "World"}),
    "loop": ({"t": LOOP}, XS),
    "loop of none": ({"t": LOOP}, {"xs": [1]}),
    "super": ({"t": SUPER, "base": BASE}, {}),
    "recursion": ({"t": "{% macro m() %}{{ m() }}{% endmacro %}{{ m() }}"}, {}),
    "macro": ({"t": MACRO}, {}),
    "set": ({"t": "{% set x = 1 %}{% for i in [1, 2] %}{{ x }}{% set x = 9 %}{% endfor %}{{ x }}"}, {}),
    "fault": ({"t": "a{{ nope.x }}"}, {}),
    "include": ({"t": '{% for i in [1, 2] %}{% include "p" %}{% endfor %}', "p": "<{{ i }}>"}, {}),
    "filters": ({"t": '{{ [3, 1, 2]|sort|join(",") }} {{ ["b", "A", "a"]|unique|join }} {{ -1|abs }} {{ xs|map("abs")|list|length }}'}, XS),
    "captures": ({"t": '{% filter upper %}a{{ "<" }}{% endfilter %}{% set c %}zz{% endset %}{{ c|replace("z", "yy") }}'}, {}),
    "values": ({"t": '{{ {"a": [1, "b"]}.a[1] ~ "c" * 9 ~ [1, 2][-1] }}{% set a, b = [1, 2] %}{{ a + b }}{{ "a" in {"a": 1} }}'}, {}),
}
# What jt turns is given of the templates above, and how; a number of files alone for its limit.
TURNS = {
    "three": "turns a ca b e c e",
    "three in slices of one": "turns --slice 1 a ca b e c e",
    "a fault": "turns --slice 1 s e f e",
    "a context refused": "turns a ca b list",
    "a file missing": "turns a ca b no",
    "65": "turns" + " x e" * 65,
}
USAGES = ["", "--help", "-h", "help", "help run", "nope", "run", "run --help", "compile -h", "turns", "turns a", "turns a b c",
          "run i --fuel x", "run i --nope", "run i --fuel 1 --fuel 2", "turns --slice 0 i c", "check i j", "rnder d t", "run i --fule 1"]
REFUSED = {"S1": "{{ x", "S2": '{{ "x }}', "S3": "a\n{{ ? }}", "S4": '{{ "\\x" }}', "S5": "{{ 9223372036854775808 }}", "P1": "{% if %}",
           "P3": "{{ 1|nope }}", "P4": "{{ 1 is nope }}", "C1": '{% extends "no" %}', "C3": '{% extends "t" %}', "V1": "{{ loop }}",
           "V2": "{% macro f() %}{% endmacro %}{{ f }}", "V3": "{{ f(1) }}", "V4": "{{ range() }}"}
FAULTS = {"F1": "{{ 1 + 'a' }}", "F3": "{{ 9223372036854775807 + 1 }}", "F4": "{{ 1 // 0 }}", "F5": "{{ [1] }}", "F7": "{% set a, b = [1] %}"}
CONTEXTS = {"X1": "{", "X2": "[1]", "X3": '{"n":1.5}', "X4": '{"n":9223372036854775808}', "deep": '{"a":' * 127 + "1" + "}" * 127,
            "twice": '{"a":1,"a":{"b":[1,"x",null,true]}}', "escapes": '{"a":"\\u00e9\\n\\"x"}', "half of a pair": '{"a":"\\ud800"}',
            "too large": '{"a":1e400}', "many digits": '{"a":12345678901234567890123}'}
# The lines of a trial of calls, whose three first rows are those of the sessions too.
CALLS = ["calls " + json.dumps(XS) + "¦" + LOOP, "calls base: " + BASE + "¦" + SUPER, "calls " + MACRO, "turns"]
MORE_CALLS = ["calls a{{ nope.x }}", "calls {% macro m() %}{{ m() }}{% endmacro %}{{ m() }}", "calls {{ x", "calls {{ f(1) }}",
              'calls {"n": 1.5}¦x', "calls {¦x", "values"]
WRITES = ["a{% set c %}zz{% endset %}{{ c }}b", "Hello", "a{{ nope.x }}", "{% for i in range(20) %}{{ i }},{% endfor %}", MACRO,
          "base: " + BASE + "¦" + SUPER]


class Case:
    """A line of the program in a room with these files; OUT is a file that it writes, which may be there before."""

    def __init__(self, name, words, files, out=None, kept=False):
        self.name, self.words = name, words.split() if isinstance(words, str) else words
        self.files = {path: text if isinstance(text, bytes) else text.encode() for path, text in files.items()}
        self.out, self.kept = out, kept


def in_folder(templates):
    return {f"d/{name}": source for name, source in templates.items()}


def of_templates(image_of):
    """Each command over the templates and their images."""
    for name, (templates, context) in TEMPLATES.items():
        files, text = in_folder(templates), json.dumps(context)
        image = image_of(templates)
        yield Case(f"render, {name}", "render d t c", {**files, "c": text})
        yield Case(f"compile, {name}", "compile d t out", files, out="out")
        yield Case(f"explain, {name}", "explain d t", files)
        yield Case(f"explain, {name}, with a context", "explain d t c", {**files, "c": text})
        yield Case(f"run, {name}", "run i c", {"i": image, "c": text})
        yield Case(f"check, {name}", "check i", {"i": image})
        yield Case(f"show, {name}", "show i", {"i": image})
    yield Case("compile, over a file", "compile d t out", in_folder(TEMPLATES["super"][0]), out="out", kept=True)


def of_images():
    for name, image in (("X", X), ("N", N), ("Z", Z), ("Y", Y), ("X cut", X[:-1])):
        yield Case(f"run, {name}", "run i c", {"i": image, "c": '{"n": 7}'})
        yield Case(f"check, {name}", "check i", {"i": image})
        yield Case(f"show, {name}", "show i", {"i": image})
    yield Case("run, without a context", "run i", {"i": X})
    yield Case("run, fuel 1", "run i --fuel 1", {"i": X})
    yield Case("run, N of a list", "run i c", {"i": N, "c": '{"n": [1]}'})
    yield Case("run, no image", "run no", {})
    yield Case("run, a directory", "run d", in_folder({"t": ""}))


def of_turns(image_of):
    named = {"a": "loop", "b": "super", "c": "macro", "s": "set", "f": "fault"}
    files = {file: image_of(TEMPLATES[name][0]) for file, name in named.items()}
    files |= {"x": X, "e": "{}", "ca": json.dumps(XS), "list": "[1]"}
    for name, words in TURNS.items():
        yield Case(f"turns, {name}", words, files)


def of_examples():
    for example in sorted(EXAMPLES.iterdir()):
        if (example / "command").is_file():
            files = {f"d/{file.name}": file.read_bytes() for file in (example / "templates").iterdir()}
            entry, *options = (example / "command").read_text().split()
            yield Case(f"render, example {example.name}", ["render", "d", entry, "c", *options],
                       {**files, "c": (example / "context.json").read_bytes()})
            yield Case(f"compile, example {example.name}", ["compile", "d", entry, "out", *options], files, out="out")


def of_sources():
    for code, source in REFUSED.items():
        yield Case(f"render, {code}", "render d t", in_folder({"t": source}))
        yield Case(f"compile, {code}", "compile d t out", in_folder({"t": source}), out="out", kept=True)
        yield Case(f"explain, {code}", "explain d t", in_folder({"t": source}))
    for code, source in FAULTS.items():
        yield Case(f"render, {code}", "render d t", in_folder({"t": source}))
        yield Case(f"explain, {code}", "explain d t c", {**in_folder({"t": source}), "c": "{}"})
    for words in ("--fuel 3", "--output 1", "--depth 0", "--size 2", "--nesting 0"):
        for command in ("render", "explain"):
            yield Case(f"{command}, {words}", f"{command} d t c {words}", {**in_folder({"t": MACRO + LOOP}), "c": json.dumps(XS)})
    for name, text in CONTEXTS.items():
        yield Case(f"render, context {name}", "render d t c", {**in_folder({"t": "{{ a }}"}), "c": text})
    yield Case("render, context not UTF-8", "render d t c", {**in_folder({"t": "{{ a }}"}), "c": b'{"a":"\xff"}'})
    yield Case("render, no directory", "render no t", {})
    yield Case("render, a file not UTF-8", "render d t", {**in_folder({"t": "x"}), "d/b": b"\xff"})
    yield Case("explain, no directory", "explain no t", {})
    yield Case("needs, names and templates", "needs d t",
               in_folder({"t": '{{ a }}{% include "p" %}{% include "q" ignore missing %}', "p": "{{ b }}"}))
    yield Case("needs, P3", "needs d t", in_folder({"t": "{{ x|nope }}"}))
    yield Case("needs, no directory", "needs no t", {})
    yield Case("explain, another template", "explain d t", in_folder({"t": '{% include "p" %}', "p": "a\r\n\n{{ f.m(1) }}\n"}))
    yield Case("compile, no directory for OUT", "compile d t no/out", in_folder({"t": "x"}), out="no/out")


def of_usages():
    for words in USAGES:
        yield Case(f"usage, {words or 'no words'}", words, {"i": X})


def of_upgrades():
    for name, image in (("X", X), ("Y", Y), ("X cut", X[:-1])):
        yield Case(f"upgrade, {name}", "upgrade i out", {"i": image}, out="out")
    yield Case("upgrade, over a file", "upgrade i out", {"i": X}, out="out", kept=True)


def cases(image_of):
    """All lines; `image_of` compiles templates."""
    return [
        *of_templates(image_of),
        *of_images(),
        *of_turns(image_of),
        *of_examples(),
        *of_sources(),
        *of_usages(),
        *of_upgrades(),
    ]
