#!/usr/bin/env python3
"""Tests of the server of the playground, without a browser: bindings/test.sh runs them.

The last line is 'N passed, M failed'.
"""
import http.client
import json
import pathlib
import subprocess
import sys
import threading
import time
import unittest
import urllib.parse

import jt
from jt.playground import Playground, first_state
from jt.playground._listing import listing

sys.dont_write_bytecode = True
HERE = pathlib.Path(__file__).resolve().parent
sys.path[:0] = [str(HERE), str(HERE.parent.parent / "tests")]
from test_lsp import a_folder, explained_rows, finished  # noqa: E402

LOOPS = "{% for a in range(100000) %}{% for b in range(100000) %}{% endfor %}{% endfor %}"


class Served(unittest.TestCase):
    def setUp(self):
        self.server = Playground(first_state())
        self.addCleanup(self.server.server_close)
        thread = threading.Thread(target=self.server.serve_forever, args=(0.05,), daemon=True)
        thread.start()
        self.addCleanup(thread.join)
        self.addCleanup(self.server.shutdown)
        self.own = {"X-Jt-Token": self.server.token}

    def ask(self, method, path, body=None, headers=None, host=None):
        """Returns the status, the headers and the bytes of an answer."""
        connection = http.client.HTTPConnection("127.0.0.1", self.server.server_port, timeout=60)
        connection.putrequest(method, path, skip_host=True)
        connection.putheader("Host", host or f"127.0.0.1:{self.server.server_port}")
        for name, value in (headers or {}).items():
            connection.putheader(name, value)
        data = None if body is None else body if isinstance(body, bytes) else json.dumps(body).encode()
        if data is not None and "Content-Length" not in (headers or {}):
            connection.putheader("Content-Length", str(len(data)))
        connection.endheaders()
        if data is not None:
            try:
                connection.send(data)
            except OSError:
                pass
        answer = connection.getresponse()
        found = answer.status, dict(answer.getheaders()), answer.read()
        connection.close()
        return found

    def tried(self, source, context="{}", wanted=200, **more):
        templates = source if isinstance(source, dict) else {"t": source}
        asked = {"templates": templates, "entry": "t", "context": context, **more}
        status, _, data = self.ask("POST", "/try", asked, self.own)
        self.assertEqual(status, wanted, data[:300])
        return json.loads(data)


class Guarded(Served):
    def test_the_address_is_this_machine(self):
        self.assertEqual(self.server.server_address[0], "127.0.0.1")
        self.assertTrue(self.server.address.startswith("http://127.0.0.1:"))
        self.assertGreaterEqual(len(self.server.token), 32)
        self.assertNotEqual(self.server.token, Playground(first_state()).token)

    def test_the_page_needs_its_token(self):
        path = f"/?token={self.server.token}"
        status, headers, data = self.ask("GET", path)
        self.assertEqual(status, 200)
        self.assertIn(b"jt playground", data)
        self.assertIn("script-src 'nonce-", headers["Content-Security-Policy"])
        self.assertIn("default-src 'none'", headers["Content-Security-Policy"])
        self.assertEqual(headers["Referrer-Policy"], "no-referrer")
        for wrong in ("/", "/?token=", "/?token=" + "x" * 43, f"/?token={self.server.token[:-1]}", f"/?token={self.server.token}x"):
            status, _, data = self.ask("GET", wrong)
            self.assertEqual(status, 403, wrong)
            self.assertNotIn(self.server.token.encode(), data)
        self.assertEqual(self.ask("GET", f"/other?token={self.server.token}")[0], 404)

    def test_each_request_needs_its_token(self):
        for path in ("/state", "/try", "/nothing"):
            for headers in ({}, {"X-Jt-Token": ""}, {"X-Jt-Token": "x"}, {"Cookie": f"token={self.server.token}"}):
                self.assertEqual(self.ask("POST", path, {}, headers)[0], 403)
        self.assertEqual(self.ask("POST", f"/state?token={self.server.token}", {})[0], 403)
        self.assertEqual(self.ask("POST", "/state", {}, self.own)[0], 200)

    def test_no_other_origin(self):
        here = f"http://127.0.0.1:{self.server.server_port}"
        self.assertEqual(self.ask("POST", "/state", {}, {**self.own, "Origin": here})[0], 200)
        for origin in ("http://127.0.0.1", "http://localhost:1", "https://example.org", "null", ""):
            self.assertEqual(self.ask("POST", "/state", {}, {**self.own, "Origin": origin})[0], 403, origin)
        for site in ("cross-site", "same-site"):
            self.assertEqual(self.ask("POST", "/state", {}, {**self.own, "Sec-Fetch-Site": site})[0], 403)
        for host in ("example.org", "127.0.0.1", f"example.org:{self.server.server_port}"):
            self.assertEqual(self.ask("POST", "/state", {}, self.own, host=host)[0], 403, host)
        self.assertEqual(self.ask("OPTIONS", "/try", None, self.own)[0], 501)

    def test_what_is_no_request(self):
        for body in (b"", b"x", b"[]", b"{}", b'{"templates": []}', b'{"templates": {"t": 1}}', b"\xff", b"[" * 100_000,
                     b'{"templates": {"t": ""}, "entry": 1}', b'{"templates": {}, "budget": {"fuel": -1}}',
                     b'{"templates": {}, "budget": {"fuel": 1.5}}', b'{"templates": {}, "context": 1}'):
            status, _, data = self.ask("POST", "/try", body, self.own)
            self.assertEqual(status, 400, body[:40])
            self.assertEqual(json.loads(data)["status"], "misuse")
        self.assertEqual(self.ask("POST", "/nothing", {}, self.own)[0], 404)
        self.assertEqual(self.ask("POST", "/try", None, self.own)[0], 411)

    def test_sources_of_at_most_a_mebibyte(self):
        self.assertEqual(self.tried("x" * (1_048_576 - 1))["status"], "text")
        self.assertEqual(self.tried("x" * 1_048_576, wanted=413)["status"], "misuse")
        self.assertEqual(self.tried({"t": "", "u": "é" * 600_000}, wanted=413)["status"], "misuse")
        self.assertEqual(self.tried("", context=" " * 1_048_577, wanted=413)["status"], "misuse")
        length = {**self.own, "Content-Length": "100000000"}
        self.assertEqual(self.ask("POST", "/try", b"", length)[0], 413)

    def test_a_connection_that_sends_nothing_holds_nobody_up(self):
        idle = [http.client.HTTPConnection("127.0.0.1", self.server.server_port) for _ in range(20)]
        for connection in idle:
            connection.connect()
            self.addCleanup(connection.close)
        begin = time.monotonic()
        self.assertEqual(self.tried("x")["text"], "x")
        self.assertLess(time.monotonic() - begin, 10)


class Tried(Served):
    def test_a_text(self):
        found = self.tried("Hello {{ name }}!", '{"name": "<World>"}')
        self.assertEqual((found["status"], found["text"]), ("text", "Hello &lt;World&gt;!"))
        self.assertEqual(found["used"]["output"], len(found["text"]))
        self.assertEqual(found["marks"], [])
        found = self.tried("{{ name }}", '{"name": "<"}', options={"autoescape": False})
        self.assertEqual(found["text"], "<")

    def test_a_refusal_with_its_token(self):
        found = self.tried({"t": '😀{{ x|uper }}{% include "u" %}', "u": "{{ y is evn }}"})
        self.assertEqual((found["status"], found["code"]), ("refused", "P3"))
        mark = next(it for it in found["marks"] if it["code"] == "P3")
        self.assertEqual((mark["start"], mark["end"], mark["line"]), (7, 11, 1))
        self.assertEqual(mark["fixes"], [{"title": "write upper", "changes": [[7, 11, "upper"]]}])
        self.assertIn("u", [it["template"] for it in found["marks"]])

    def test_a_fault_and_a_spent_number(self):
        found = self.tried("a\n{{ b.c.d }}")
        self.assertEqual((found["status"], found["code"], found["line"]), ("fault", "F2", 2))
        self.assertEqual((found["marks"][0]["start"], found["marks"][0]["end"]), (2, 13))
        found = self.tried("{{ a }}b", budget={"output": 0})
        self.assertEqual((found["status"], found["name"]), ("spent", "output"))

    def test_a_context_that_is_refused(self):
        for context in ("[]", "{", '{"a": 1.5}', '{"a": ' * 200 + "1" + "}" * 200, "x"):
            found = self.tried("{{ a }}", context)
            self.assertEqual(found["status"], "context", context[:20])

    def test_hostile_templates_end(self):
        for source in (LOOPS, "{% macro m() %}{{ m() }}{{ m() }}{% endmacro %}{{ m() }}",
                       "{{ 'x' * 1000000000 }}", "{{ '" * 100_000, "{% if a %}" * 50_000, "{{ [[[[" * 50_000,
                       "{% set x = 'x' * 1000000 %}" * 1_000 + "{{ x }}", "{{a}}" * 200_000):
            begin = time.monotonic()
            found = self.tried(source, budget={"fuel": 2**40, "depth": 4000})
            self.assertIn(found["status"], ("text", "refused", "spent", "deadline", "memory", "fault"))
            print(f"{source[:24]!r}: {found['status']} in {time.monotonic() - begin:.1f} s", file=sys.stderr)
        self.assertEqual(self.tried("x")["text"], "x")

    def test_half_of_a_character(self):
        data = b'{"templates": {"t": "\\ud800"}, "entry": "t", "context": ""}'
        status, _, data = self.ask("POST", "/try", data, self.own)
        self.assertEqual((status, json.loads(data)["status"]), (400, "misuse"))

    def test_several_pages_at_a_time(self):
        found = []
        threads = [threading.Thread(target=lambda: found.append(self.tried("{{ a }}", '{"a": 1}')["text"])) for _ in range(12)]
        for thread in threads:
            thread.start()
        for thread in threads:
            thread.join()
        self.assertEqual(found, ["1"] * 12)

    def test_the_listing(self):
        found = self.tried("a\n{% if n %}one{% else %}{{ n|upper }}{% endif %}", listing=True)["listing"]
        texts = [(row[2], row[3], row[4]) for row in found["rows"]]
        self.assertIn(('GLoad 0 ("n")', "t", 2), texts)
        self.assertIn(("Filter 30 (upper), values 1, escaping 1", "t", 2), texts)
        self.assertEqual(found["count"], len(texts))


class Listed(unittest.TestCase):
    def test_listings_of_the_rows(self):
        """The instructions are those of the second implementation of `jt show` in tests/."""
        import images_listing

        count = 0
        for _, sources, options, _ in explained_rows("templates.txt", "values.txt", "imports.txt"):
            try:
                data = jt.Templates(sources, jt.Options(**options)).template("t").compile().data
            except jt.Refused:
                continue
            rows, number = listing(data, 10**6)
            if len(data) > 100_000:
                continue
            shown = [line.split("\t") for line in images_listing.listing(data).decode().splitlines()]
            texts = [it[1] for it in shown if len(it) == 3]
            found = [it.text for it in rows]
            self.assertEqual(number, len(found))
            # (Long texts, and characters that have no picture, are shown in another way.)
            plain = [(a, b) for a, b in zip(found, texts) if "…" not in a and "\\u{" not in b]
            for one, other in plain if len(found) == len(texts) else []:
                self.assertEqual(one, other)
                count += 1
        self.assertGreater(count, 5_000)


class Started(unittest.TestCase):
    def start(self, *words):
        command = [sys.executable, "-W", "ignore", "-m", "jt", "playground", *words]
        process = subprocess.Popen(command, stdout=subprocess.PIPE, stderr=subprocess.PIPE, text=True)
        self.addCleanup(process.stderr.close)
        self.addCleanup(process.stdout.close)
        self.addCleanup(process.wait)
        self.addCleanup(process.kill)
        return process

    def test_the_address_and_the_folder(self):
        folder = a_folder(self, {"a.html": '{% include "b.html" %}', "b.html": "x", "c.json": '{"a": 1}'})
        process = self.start(folder, "--context", f"{folder}/c.json")
        address = urllib.parse.urlsplit(process.stdout.readline().strip())
        connection = http.client.HTTPConnection(address.netloc)
        connection.request("POST", "/state", b"{}", {"X-Jt-Token": urllib.parse.parse_qs(address.query)["token"][0]})
        state = json.loads(connection.getresponse().read())
        connection.close()
        self.assertEqual((state["entry"], state["context"]), ("a.html", '{"a": 1}'))
        self.assertEqual(set(state["templates"]), {"a.html", "b.html", "c.json"})

    def test_a_folder_that_is_missing(self):
        process = self.start("/nowhere/at/all")
        self.assertEqual(process.wait(60), 5)


if __name__ == "__main__":
    finished()
