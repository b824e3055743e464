#!/usr/bin/env python3
"""Tests of the language server: bindings/test.sh runs them, with JT_LIBRARY and PYTHONPATH set.

Those of an editor are in test_editor.py. The last line is 'N passed, M failed'.
"""
import json
import os
import pathlib
import queue
import subprocess
import sys
import tempfile
import threading
import time
import unittest

import jt
from jt.lsp import _answers, _context, _tokens, _verdicts
from jt.lsp._folder import Folder
from jt.lsp._outline import read_outline
from jt.lsp._positions import Lines

HERE = pathlib.Path(__file__).resolve().parent
ROOT = HERE.parent.parent
sys.path[:0] = [str(ROOT / "tests"), str(HERE)]
sys.dont_write_bytecode = True
import run as rows  # noqa: E402

# The seconds that a test waits for a message, and the most of the processor that a keystroke may take. An idle machine takes a fifth.
PATIENCE, KEYSTROKE = 60, 0.25
READING = {
    "--trim-blocks": ("trim_blocks", True), "--lstrip-blocks": ("lstrip_blocks", True),
    "--keep-trailing-newline": ("keep_trailing_newline", True),
    "--no-autoescape": ("autoescape", False),
}
PAGE = """\
{% extends "base.html" %}
{% import "forms.html" as forms %}
{% block body %}
{% for item in items %}
  {{ item.name|uper }} {{ loop.indx }}
  {{ forms.price(item.cents) }} {{ usr.name }}
{% endfor %}
{% endblock %}
"""
SITE = {
    "base.html": "{# The page around all others. #}\n<title>{% block title %}Shop{% endblock %}</title>\n"
    "{% block body %}{% endblock %}\n",
    "forms.html": "{# An amount with its currency. #}\n"
    '{% macro price(amount, currency="EUR") %}{{ amount }} {{ currency }}{% endmacro %}\n',
    "page.html": PAGE,
}
CONTEXT = {"items": [{"name": "Tea", "cents": 350}], "user": {"name": "Noor"}}


def finished():
    """Runs the tests of the calling script, prints the line for the gate and ends the process."""
    result = unittest.main(module="__main__", exit=False, argv=[sys.argv[0]]).result
    wrong = len(result.failures) + len(result.errors)
    for test, reason in result.skipped:
        print(f"skipped: {test}: {reason}")
    print(f"{result.testsRun - wrong - len(result.skipped)} passed, {wrong} failed")
    sys.exit(bool(wrong))


def a_folder(test, sources):
    """Returns the path of a folder with templates, which the test removes."""
    room = tempfile.TemporaryDirectory()
    test.addCleanup(room.cleanup)
    for name, source in sources.items():
        path = pathlib.Path(room.name, name)
        path.parent.mkdir(parents=True, exist_ok=True)
        path.write_bytes(source.encode())
    return room.name


class Client:
    """A client of `python -m jt lsp` over its standard input and output."""

    def __init__(self, test, root, settings=None):
        words = [sys.executable, "-W", "ignore", "-m", "jt", "lsp"]
        self.process = subprocess.Popen(words, stdin=subprocess.PIPE, stdout=subprocess.PIPE)
        test.addCleanup(self.end)
        self.number, self.root, self.messages, self.last = 0, root, queue.Queue(), {}
        self.reader = threading.Thread(target=self.read_all, daemon=True)
        self.reader.start()
        uri = pathlib.Path(root).resolve().as_uri()
        self.begin = self.ask("initialize", {"rootUri": uri, "initializationOptions": settings or {}})
        self.tell("initialized", {})

    def end(self):
        if self.process.poll() is None:
            self.process.kill()
        self.process.wait()
        self.reader.join()
        self.process.stdin.close()
        self.process.stdout.close()

    def send(self, message):
        data = json.dumps({"jsonrpc": "2.0", **message}).encode()
        self.process.stdin.write(b"Content-Length: %d\r\n\r\n" % len(data) + data)
        self.process.stdin.flush()

    def read_all(self):
        """Reads all messages, in a thread of its own."""
        length = 0
        for line in iter(self.process.stdout.readline, b""):
            if line.strip():
                length = int(line.split(b":")[1])
            else:
                self.messages.put(json.loads(self.process.stdout.read(length)))

    def read(self):
        """Returns the next message, and keeps what it says of a template."""
        message = self.messages.get(timeout=PATIENCE)
        if message.get("method") == "textDocument/publishDiagnostics":
            self.last[message["params"]["uri"]] = message["params"]["diagnostics"]
        return message

    def tell(self, method, params):
        self.send({"method": method, "params": params})

    def answer(self, method, params):
        """Returns the whole answer of a request."""
        self.number += 1
        self.send({"id": self.number, "method": method, "params": params})
        while True:
            message = self.read()
            if message.get("id") == self.number:
                return message

    def ask(self, method, params):
        return self.answer(method, params)["result"]

    def uri(self, name):
        return pathlib.Path(self.root, name).resolve().as_uri()

    def open(self, name):
        """Opens a template as it is on the disk."""
        self.text = pathlib.Path(self.root, name).read_bytes().decode()
        self.name = name
        document = {"uri": self.uri(name), "languageId": "jinja", "version": 1, "text": self.text}
        self.tell("textDocument/didOpen", {"textDocument": document})

    def change(self, text, **more):
        """Changes the open template, all of it or a range."""
        document = {"uri": self.uri(self.name), "version": 2}
        changes = {"textDocument": document, "contentChanges": [{"text": text, **more}]}
        self.tell("textDocument/didChange", changes)

    def shown(self, name, until=lambda it: True):
        """Returns the diagnostics of a template, when they are as a test wants them."""
        while self.uri(name) not in self.last or not until(self.last[self.uri(name)]):
            self.read()
        return self.last[self.uri(name)]

    def position(self, text, step=0):
        return Lines(self.text).position(self.text.index(text) + step)

    def at(self, method, text, step=1, **more):
        """Asks about a place of the open template, by a text that stands there."""
        document = {"uri": self.uri(self.name)}
        asked = {"textDocument": document, "position": self.position(text, step), **more}
        return self.ask(f"textDocument/{method}", asked)


def codes(diagnostics):
    return sorted(it["code"] for it in diagnostics)


def explained_rows(*files):
    """Returns rows of templates: sources, options and what is wanted; without files of refusals."""
    for file in files or ("explain.txt", "explained.txt"):
        for line in (ROOT / "tests" / "rows" / file).read_text(encoding="utf-8").splitlines():
            asked, is_row, wanted = line.strip().partition(" => ")
            if not is_row or line.startswith(("# ", "== ")) or "explain " in asked:
                continue
            *parts, source = rows.unfolded(asked).split("¦")
            sources, options, is_plain = {"t": source}, {}, True
            for part in parts:
                name, is_template, text = part.partition(": ")
                if part.startswith("--"):
                    chosen = [READING[it] for it in part.split() if it in READING]
                    options.update(dict(chosen))
                elif is_template and not part.startswith(("{", "[")):
                    sources[name] = text
                else:
                    is_plain = False
            if is_plain and not any("\udc80" <= it <= "\udcff" for it in "".join(sources.values())):
                yield asked, sources, options, rows.unfolded(wanted)


def refused_folders():
    """Returns the rows of refused templates of usual length: sources, a folder of them, and what is wanted."""
    for asked, sources, options, wanted in explained_rows():
        if wanted.partition("\n")[0] != "ok" and len("".join(sources.values())) <= 20_000:
            folder = Folder("/nowhere", jt.Options(**options))
            for name, source in sources.items():
                folder.put(name, source)
            yield asked, sources, folder, wanted


class Places(unittest.TestCase):
    def test_tags_and_tokens(self):
        source = '{%- if a -%}{{ {"}}": {}}.a -}}{# {{ #}{% raw %}{{ x {% endraw %}{{ "%}" }}'
        tags = _tokens.read_tags(source)
        self.assertEqual([it.kind for it in tags], ["block", "print", "comment", "raw", "print"])
        self.assertEqual("".join(source[it.start : it.end] for it in tags), source)
        self.assertEqual(
            [it.text for it in tags[1].tokens], ["{", '"}}"', ":", "{", "}", "}", ".", "a"]
        )

    def test_what_is_half_typed_has_tokens(self):
        for source in ("{{ x|", "{% if", '{{ "a', "{#", "{% raw %}x", "{{", "{%", "{{ x.", "{{ \\ ?"):
            with self.subTest(source):
                self.assertEqual(_tokens.read_tags(source)[0].end, len(source))
                read_outline(source)

    def test_positions_count_utf16(self):
        lines = Lines("a\r\n😀b\rc\n")
        self.assertEqual(lines.position(4), {"line": 1, "character": 2})
        for at in (0, 3, 4, 5, 6, 7, 8):
            self.assertEqual(lines.offset(lines.position(at)), at)
        self.assertEqual(lines.offset({"line": 0, "character": 99}), 1)
        self.assertEqual(lines.offset({"line": 9, "character": 0}), 8)

    def test_the_tokens_are_those_of_compiled_templates(self):
        """Each name that an image reads is a name of the outline, in the templates that compile."""
        outline = read_outline(
            "{% set a = b %}{% for c, d in e if f %}{{ c.g|h(i) is j(k) }}{% endfor %}"
            "{% with l = m %}{{ l }}{% endwith %}{{ n(o, p=q) }}{{ {'r': s} }}"
        )
        self.assertEqual([it.text for it, _ in outline.reads], list("befcikmlnoqs"))
        self.assertEqual([it.name.text for it in outline.bindings], list("cdla"))

    def test_each_refusal_of_the_rows_has_its_token(self):
        seen = named = 0
        for asked, sources, folder, wanted in refused_folders():
            refused = _verdicts.refusal(folder.templates, "t")
            with self.subTest(asked):
                self.assertIsNotNone(refused)
                with self.assertRaises(jt.Refused) as other:
                    folder.templates.template("t").compile()
                for one in ("code", "name", "template", "line", "subject", "explanation"):
                    self.assertEqual(getattr(refused, one), getattr(other.exception, one), one)
                self.assertTrue(wanted.startswith(str(refused).partition("\n")[0]), wanted)
                where = refused.template if refused.template in sources else "t"
                lines = Lines(sources[where])
                tags = _tokens.read_tags(sources[where])
                start, end = _verdicts.mark(refused, where, tags, lines, folder.options)
                self.assertTrue(0 <= start <= end <= len(sources[where]))
                seen += 1
                if refused.line is None:
                    continue
                tag = next((it for it in tags if it.start <= start < it.end), None)
                first = tag.start if tag else start
                self.assertIn(refused.line, (lines.line_of(first) + 1, lines.line_of(start) + 1))
                if refused.subject and refused.code not in ("C7", "V5"):
                    last = refused.subject.rpartition(".")[2]
                    found = sources[where][start:end]
                    self.assertTrue(found in (refused.subject, last) or "\\" in found, found)
                    named += 1
        self.assertGreater(seen, 500)
        self.assertGreater(named, 200)

    def test_each_fix_of_the_rows_removes_what_it_fixes(self):
        tried = {}
        for asked, sources, folder, wanted in refused_folders():
            for finding in _verdicts.check(folder, "t", 1).findings[:1]:
                for fix in finding.fixes:
                    source = sources["t"]
                    for start, end, text in sorted(fix.changes, reverse=True):
                        source = source[:start] + text + source[end:]
                    folder.put("t", source)
                    after = _verdicts.check(folder, "t", 1).findings
                    same = [it for it in after if (it.code, it.message, it.span) == (
                        finding.code, finding.message, finding.span)]
                    with self.subTest(asked, fix=fix.title):
                        self.assertEqual(same, [])
                    tried[fix.title] = tried.get(fix.title, 0) + 1
        for title in ("write elif", "write |upper", "write upper", "write ==", "write button"):
            self.assertIn(title, tried)
        self.assertGreater(sum(tried.values()), 40)

    def test_fixes_of_methods_and_forms(self):
        for source, wanted in (
            ("{{ a.items() }}", "{{ a|items }}"), ("{{ a.b.keys() }}", "{{ a.b|list }}"),
            ('{{ ", ".join(a) }}', '{{ a|join(", ") }}'), ("{{ a.strip().upper() }}", None),
            ('{{ a.get("k", 1) }}', '{{ a["k"]|default(1) }}'), ('{{ a.replace("b", "c") }}', '{{ a|replace("b", "c") }}'),
            ("{% if a %}{% else if b %}{% endif %}", "{% if a %}{% elif b %}{% endif %}"),
            ("{{ a.0 }}", "{{ a[0] }}"), ("{{ a || b }}", "{{ a or b }}"), ("{{ a && b }}", "{{ a and b }}"),
            ("{{ !a }}", "{{ not a }}"), ("{% print a %}", "{{ a }}"), ('{{ "a" "b" }}', '{{ "a" ~ "b" }}'),
            ("{{ {a: 1}|length }}", '{{ {"a": 1}|length }}'), ("{% fro x in y %}{% endfor %}", "{% for x in y %}{% endfor %}"),
            ("{% for a in b recursive %}{% endfor %}", "{% for a in b %}{% endfor %}"),
        ):
            folder = Folder("/nowhere")
            folder.put("t", source)
            finding = _verdicts.check(folder, "t", 0).findings[0]
            with self.subTest(source):
                if wanted is None:
                    continue
                mended = source
                for start, end, text in sorted(finding.fixes[0].changes, reverse=True):
                    mended = mended[:start] + text + mended[end:]
                self.assertEqual(mended, wanted)
                folder.put("t", mended)
                self.assertEqual(_verdicts.check(folder, "t", 0).findings, [])

    def test_several_findings_of_a_template(self):
        folder = Folder("/nowhere")
        folder.put("t", "{{ a|uper }}{{ b is evn }}{% if c|lowr %}{% endif %}{% for d in e|lst %}{% endfor %}"
                        '{% include "u" %}{{ f == null }}')
        verdict = _verdicts.check(folder, "t", 1)
        self.assertTrue(verdict.is_whole)
        self.assertEqual(sorted(it.code for it in verdict.findings), ["C1", "P3", "P3", "P3", "P4"])
        found = list(_verdicts.nulls("t", folder.sources["t"], folder.outline("t")))
        self.assertEqual([it.fixes[0].title for it in found], ["write is none"])

    def test_a_layout_with_a_required_block_is_no_mistake(self):
        folder = Folder("/nowhere")
        folder.put("base", "{% block b required %}{% endblock %}")
        self.assertEqual([it.code for it in _verdicts.check(folder, "base", 1).findings], ["C6"])
        folder.put("page", '{% extends "base" %}{% block b %}x{% endblock %}')
        self.assertEqual(_verdicts.check(folder, "base", 1).findings, [])

    def test_hostile_sources(self):
        for source in ("{{" * 5_000, "{% if a %}" * 2_000, "{#" + "x" * 100_000, "{{ '" * 3_000,
                       "{{ a." * 3_000, "\\" * 10_000, "{{ " + "(" * 20_000, "{% macro " * 2_000):
            folder = Folder("/nowhere")
            folder.put("t", source)
            begin = time.monotonic()
            _verdicts.check(folder, "t", 0.1)
            _answers.completion(folder, "t", len(source), None)
            _answers.symbols(folder, "t")
            self.assertLess(time.monotonic() - begin, PATIENCE, source[:20])


class Contexts(unittest.TestCase):
    def context(self, value):
        path = pathlib.Path(a_folder(self, {"c.json": json.dumps(value)}), "c.json")
        return _context.Names(str(path))

    def missing(self, source, value, **others):
        folder = Folder("/nowhere")
        for name, text in {"t": source, **others}.items():
            folder.put(name, text)
        return [
            (source[slice(*it.span)], it.message)
            for it in _context.missing(folder, "t", self.context(value))
        ]

    def test_missing_names(self):
        found = self.missing("{{ usr }}{{ user.nam }}{{ user.name }}", {"user": {"name": "N"}})
        self.assertEqual(found[0][0], "usr")
        self.assertEqual(found[1], ("nam", 'the context has no user.nam: did you mean "name"?'))
        self.assertEqual(len(found), 2)

    def test_names_that_are_bound_or_asked_for(self):
        source = (
            "{% set a = 1 %}{{ a }}{% for b in xs %}{{ b.c }}{{ loop.index }}{% endfor %}"
            "{% macro m(d) %}{{ d }}{% endmacro %}{{ m(1) }}{% if e is defined %}{{ e }}{% endif %}"
            '{{ f|default("") }}{% with g = 1 %}{{ g }}{% endwith %}{% include "i" %}'
        )
        self.assertEqual(self.missing(source, {"xs": []}, i="{{ a }}"), [])

    def test_names_that_an_including_template_binds(self):
        self.assertEqual(self.missing("{{ a }}", {}, u='{% set a = 1 %}{% include "t" %}'), [])

    def test_runs(self):
        folder = Folder("/nowhere")
        folder.put("t", "{{ a.b }}")
        folder.put("p", '\n{% include "t" %}')
        self.assertIn("bytes of text", _context.run(folder, "t", self.context({"a": {}})).said)
        ran = _context.run(folder, "p", self.context({}))
        self.assertEqual((ran.finding.code, ran.finding.template), ("F2", "p"))
        self.assertEqual(ran.finding.elsewhere, ("t", (0, 9)))
        folder.put("t", "{% for a in range(100000) %}{% for b in range(100000) %}{% endfor %}{% endfor %}")
        begin = time.monotonic()
        ran = _context.run(folder, "t", self.context({}))
        self.assertLess(time.monotonic() - begin, PATIENCE)
        self.assertIsNotNone(ran.finding or ran.said)


class Talking(unittest.TestCase):
    def client(self, sources=SITE, **settings):
        files = {f"templates/{name}": source for name, source in sources.items()}
        folder = a_folder(self, {**files, "context.json": json.dumps(CONTEXT)})
        client = Client(self, folder, settings)
        return client

    def opened(self, **settings):
        client = self.client(**settings)
        client.open("templates/page.html")
        client.shown("templates/page.html", lambda it: len(it) >= 2)
        return client

    def test_the_beginning_and_the_end(self):
        client = self.client()
        self.assertEqual(client.begin["serverInfo"]["version"], jt.library_version)
        self.assertIn("error", client.answer("jt/nothing", {}))
        client.tell("jt/nothing", {})
        self.assertIsNone(client.ask("shutdown", {}))
        client.tell("exit", {})
        self.assertEqual(client.process.wait(PATIENCE), 0)

    def test_an_end_without_a_shutdown(self):
        client = self.client()
        client.process.stdin.close()
        self.assertEqual(client.process.wait(PATIENCE), 1)
        client.process.stdin = open("/dev/null", "wb")

    def test_bytes_that_are_no_message(self):
        client = self.client()
        client.process.stdin.write(b"nothing\r\n\r\n")
        client.process.stdin.flush()
        self.assertEqual(client.process.wait(PATIENCE), 1)

    def test_a_request_that_cannot_be_answered(self):
        client = self.opened()
        self.assertIn("error", client.answer("textDocument/hover", {"textDocument": {"uri": client.uri("templates/page.html")}}))
        client.tell("textDocument/didChange", {"textDocument": {}})
        self.assertIsNotNone(client.at("hover", "price(item"))

    def test_diagnostics(self):
        client = self.opened()
        found = client.ask("textDocument/codeAction", {
            "textDocument": {"uri": client.uri("templates/page.html")},
            "range": {"start": {"line": 0, "character": 0}, "end": {"line": 9, "character": 0}},
            "context": {"diagnostics": []},
        })
        self.assertEqual([it["title"] for it in found], ["write upper", "write index"])
        edit = found[0]["edit"]["changes"][client.uri("templates/page.html")][0]
        self.assertEqual(edit["newText"], "upper")
        self.assertEqual(edit["range"]["start"], client.position("uper"))
        self.assertEqual(edit["range"]["end"], client.position("uper", 4))

    def test_diagnostics_as_one_types(self):
        client = self.opened()
        start, end = client.position("uper"), client.position("uper", 4)
        client.change("upper", range={"start": start, "end": end})
        found = client.shown("templates/page.html", lambda it: len(it) == 1)
        self.assertEqual(found[0]["code"], "V1")
        self.assertEqual(found[0]["range"]["start"], {"line": 4, "character": 32})
        client.change(PAGE.replace("uper", "upper").replace("indx", "index"))
        self.assertEqual(client.shown("templates/page.html", lambda it: not it), [])

    def test_what_a_change_means_for_other_templates(self):
        client = self.client({**SITE, "page.html": '{% extends "base.html" %}'})
        client.open("templates/base.html")
        client.change("{% block body %}{{ x|uper }}{% endblock %}")
        found = client.shown("templates/page.html", lambda it: it)
        self.assertEqual(found[0]["code"], "P3")
        self.assertEqual(found[0]["range"], {"start": {"line": 0, "character": 12}, "end": {"line": 0, "character": 21}})
        place = found[0]["relatedInformation"][0]["location"]
        self.assertEqual(place["uri"], client.uri("templates/base.html"))
        client.change(SITE["base.html"])
        client.shown("templates/page.html", lambda it: not it)

    def test_a_closed_template_is_that_of_the_disk(self):
        client = self.opened()
        client.change("fine")
        client.shown("templates/page.html", lambda it: not it)
        client.tell("textDocument/didClose", {"textDocument": {"uri": client.uri("templates/page.html")}})
        client.shown("templates/page.html", lambda it: len(it) == 2)

    def test_a_context(self):
        client = self.opened(context="context.json")
        found = client.shown("templates/page.html", lambda it: len(it) == 3)
        self.assertEqual(codes(found), ["P3", "V1", "undefined"])
        self.assertIn("user", [it["label"] for it in client.at("completion", "usr.name", 2)])
        client.change(PAGE.replace("uper", "upper").replace("indx", "index").replace("usr", "user"))
        client.shown("templates/page.html", lambda it: not it)
        asked = {"textDocument": {"uri": client.uri("templates/page.html")}}
        end = time.monotonic() + PATIENCE
        while not client.ask("textDocument/codeLens", asked) and time.monotonic() < end:
            time.sleep(0.05)
        lens = client.ask("textDocument/codeLens", asked)[0]
        self.assertIn("context.json", lens["command"]["title"])

    def test_settings(self):
        client = self.opened(context="context.json")
        for settings in (None, {}, [], {"other": 1}):
            client.tell("workspace/didChangeConfiguration", {"settings": settings})
        self.assertIn("context: list", client.at("hover", "items %}", 1)["contents"]["value"])
        client.tell("workspace/didChangeConfiguration", {"settings": {"jt": {"options": {"trim_blocks": True}}}})
        self.assertIsNone(client.at("hover", "items %}", 1))
        client.tell("workspace/didChangeConfiguration", {"settings": {"jt": {"folder": "nowhere"}}})
        self.assertEqual(client.ask("workspace/symbol", {"query": ""}), [])

    def test_nothing_runs_without_a_context(self):
        client = self.opened()
        asked = {"textDocument": {"uri": client.uri("templates/page.html")}}
        self.assertEqual(client.ask("textDocument/codeLens", asked), [])

    def test_completion(self):
        client = self.opened()
        labels = lambda *place: [it["label"] for it in client.at("completion", *place)]  # noqa: E731
        self.assertEqual(set(labels("|uper", 1)), set(_answers.FILTERS))
        self.assertEqual(labels("forms.price", 6), ["price"])
        self.assertEqual(set(labels("loop.indx", 5)), set(_answers.FIELDS))
        self.assertEqual(set(labels('"base.html"', 3)), set(SITE))
        self.assertEqual(labels("block body", 6)[:2], ["title", "body"])
        for name in ("item", "loop", "forms", "range"):
            self.assertIn(name, labels("item.name", 0))
        self.assertEqual(labels("{% endfor", 3)[0], "endfor")
        self.assertEqual(set(it["textEdit"]["newText"] for it in client.at("completion", "|uper", 3)), set(_answers.FILTERS))

    def test_hover(self):
        client = self.opened()
        said = lambda *place: client.at("hover", *place)["contents"]["value"]  # noqa: E731
        self.assertIn('macro price(amount, currency="EUR")', said("price(item"))
        self.assertIn("An amount with its currency.", said("price(item"))
        self.assertIn("replaces the block of base.html", said("block body", 7))
        self.assertIn("The page around all others.", said('"base.html"', 2))
        self.assertIn("first tag of a template", said("extends", 1))
        client.change(PAGE.replace("uper", "upper"))
        client.text = PAGE.replace("uper", "upper")
        self.assertIn("works on the printed text", said("upper", 1))
        self.assertIsNone(client.at("hover", "\n  {{ item", 1))

    def test_definition_and_references(self):
        client = self.opened()
        place = client.at("definition", "price(item")
        self.assertEqual(place["uri"], client.uri("templates/forms.html"))
        self.assertEqual(place["range"]["start"], {"line": 1, "character": 9})
        self.assertEqual(client.at("definition", "body")["uri"], client.uri("templates/base.html"))
        self.assertEqual(client.at("definition", '"forms')["uri"], client.uri("templates/forms.html"))
        self.assertEqual(client.at("definition", "item.name")["range"]["start"], {"line": 3, "character": 7})
        self.assertEqual(client.at("definition", "forms.price")["range"]["start"]["line"], 1)
        found = client.at("references", "price(item", context={"includeDeclaration": True})
        self.assertEqual([pathlib.Path(it["uri"]).name for it in found], ["forms.html", "page.html"])
        self.assertEqual(len(client.at("references", "body", context={})), 2)
        self.assertEqual(len(client.at("references", '"base', context={})), 1)

    def test_symbols_and_folding(self):
        client = self.opened()
        asked = {"textDocument": {"uri": client.uri("templates/page.html")}}
        found = client.ask("textDocument/documentSymbol", asked)
        self.assertEqual([it["name"] for it in found], ["body", "forms"])
        folds = client.ask("textDocument/foldingRange", asked)
        self.assertEqual([(it["startLine"], it["endLine"]) for it in folds], [(2, 7), (3, 6)])
        self.assertEqual([it["name"] for it in client.ask("workspace/symbol", {"query": "pri"})], ["price"])

    def test_a_keystroke_in_a_large_folder(self):
        line = "<tr><td>{{ row.name|upper }}</td>{% if row.x is defined %}<b>x</b>{% endif %}</tr>\n"
        sources = {f"t{at}.html": line * 20 for at in range(499)}
        client = self.client({**sources, "page.html": line * 1000})
        client.open("templates/page.html")
        used = -1.0
        while used != self.processor_time(client):
            used = self.processor_time(client)
            time.sleep(1.5)
        times, before = [], self.processor_time(client)
        for at, text in enumerate(["u", "up", "upe", "uper", "upper"] * 4):
            text = "{{ x|" + text + " }}\n" + line * 999
            begin = time.perf_counter()
            client.change(text + str(at))
            client.ask("textDocument/hover", {"textDocument": {"uri": client.uri("x")}, "position": {"line": 0, "character": 0}})
            times.append(time.perf_counter() - begin)
        middle = sorted(times)[len(times) // 2]
        own = (self.processor_time(client) - before) / len(times)
        figures = [f"{it * 1000:.0f} ms" for it in (middle, max(times), own)]
        print("a keystroke: {} of the clock, {} at most, {} of the processor".format(*figures), file=sys.stderr)
        # (The clock depends on what else the machine does. Without a proof the library is slower.)
        self.assertLess(own, KEYSTROKE * (3 if jt.library_version.endswith("unproved") else 1))

    def processor_time(self, client):
        """Returns the seconds of processor time that a server has used."""
        fields = pathlib.Path(f"/proc/{client.process.pid}/stat").read_text().rpartition(")")[2].split()
        return (int(fields[11]) + int(fields[12])) / os.sysconf("SC_CLK_TCK")


class Commands(unittest.TestCase):
    def runs(self, *words):
        done = subprocess.run([sys.executable, "-W", "ignore", "-m", "jt", *words], capture_output=True, text=True)
        return done.returncode, done.stdout, done.stderr

    def test_the_list(self):
        status, out, _ = self.runs("--help")
        self.assertEqual(status, 0)
        self.assertIn("lsp", out)
        for words in ((), ("nothing",)):
            status, out, err = self.runs(*words)
            self.assertEqual((status, out), (2, ""))
            self.assertIn("usage", err)

    def test_the_words_are_those_of_the_document(self):
        done = subprocess.run([sys.executable, str(HERE / "words.py")], capture_output=True, text=True)
        self.assertEqual(done.stdout, "1 passed, 0 failed\n")


if __name__ == "__main__":
    finished()
