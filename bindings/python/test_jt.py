"""Tests of the package, by unittest: bindings/test.sh runs them, and test_install.py in a venv."""
import copy
import ctypes
import datetime
import decimal
import enum
import gc
import inspect
import json
import os
import pathlib
import pickle
import re
import signal
import tempfile
import threading
import types
import unittest

import jt
from jt import (
    Budget,
    Context,
    ContextError,
    Fault,
    Image,
    JtError,
    Needs,
    NoMemory,
    Options,
    Refused,
    Spent,
    Template,
    Templates,
)
from jt._library import library

ROOT = pathlib.Path(__file__).resolve().parents[2]


def text(source, context=None, **more):
    return Template("t", {"t": source}, **more).render(context)


class Held:
    """The bytes that the library holds for all threads together, since it was made.

    The library counts each thread by itself, and again from 0 when a limit is set. So this adds
    what a thread held before each limit, and what a thread held that has ended.
    """

    now = None

    def __init__(self):
        self.elsewhere, self.lock = 0, threading.Lock()
        self.limit = library.jt_memory_limit
        gc.collect()
        self.limit(jt._library.NO_LIMIT)
        library.jt_memory_limit = self.limited
        Held.now = self

    def limited(self, bytes):
        """Sets a limit of this thread, as `jt_memory_limit` does."""
        self.add()
        return self.limit(bytes)

    def add(self):
        """Adds what this thread holds."""
        with self.lock:
            self.elsewhere += library.jt_memory_held()

    def all(self):
        """Returns what is held, when no other thread runs, and ends the count."""
        library.jt_memory_limit = self.limit
        gc.collect()
        return self.elsewhere + library.jt_memory_held()


class Holding(unittest.TestCase):
    """Tests after each of which the library holds nothing."""

    def setUp(self):
        self.held = Held()

    def tearDown(self):
        self.assertEqual(self.held.all(), 0, "the library holds memory after the test")


class Raising(threading.Thread):
    """A thread whose `join` raises what its work raised. At its end it frees what it holds."""

    error = None

    def run(self):
        try:
            super().run()
        except BaseException as error:
            self.error = error
        # (That would be dropped at the end of the thread, when nothing can be counted any more.)
        jt._contexts._here.__dict__.pop("end", None)
        Held.now.add()

    def join(self, timeout=None):
        super().join(timeout)
        if self.error is not None:
            raise self.error


def in_threads(count, work):
    """Runs `work` in threads and raises what one of them raised."""
    threads = [Raising(target=work) for _ in range(count)]
    for thread in threads:
        thread.start()
    for thread in threads:
        threading.Thread.join(thread)
    for thread in threads:
        thread.join()


class Counted:
    """Counts the calls of the library, and follows each kept handle while it is filled.

    What breaks a rule of jt.h is in `wrong`: a handle that two calls use at a time, and a context
    or an outcome that another thread uses or frees.
    """

    def __enter__(self):
        self.counts, self.busy, self.wrong = {}, set(), []
        # the filled handles by their ids: of those of one thread the thread, and the others
        self.owners, self.shared = {}, set()
        self.lock = threading.RLock()
        self.calls = {name: getattr(library, name) for name in jt._library._CALLS}
        for name, call in self.calls.items():
            setattr(library, name, self.wrapped(name, call))
        return self

    def __exit__(self, *_):
        for name, call in self.calls.items():
            setattr(library, name, call)

    def wrapped(self, name, call):
        def made(*given):
            here = threading.get_ident()
            handles = [it for it in given if isinstance(it, ctypes.Structure) and hasattr(it, "at")]
            with self.lock:
                self.counts[name] = self.counts.get(name, 0) + 1
                for handle in handles:
                    key = id(handle)
                    if key in self.busy:
                        self.wrong.append(f"{name}: a handle is used twice at a time")
                    self.busy.add(key)
                    if self.owners.get(key, here) != here:
                        self.wrong.append(f"{name}: a handle of another thread")
            answer = call(*given)
            with self.lock:
                for handle in handles:
                    key = id(handle)
                    self.busy.discard(key)
                    self.owners.pop(key, None)
                    self.shared.discard(key)
                    kinds = (jt._library.ImageHandle, jt._library.LibraryHandle)
                    if handle.full and isinstance(handle, kinds):
                        self.shared.add(key)
                    elif handle.full:
                        self.owners[key] = here
            return answer

        return made

    def of(self, name):
        return self.counts.get(name, 0)

    def left(self):
        """What is wrong, and the handles that nothing freed."""
        gc.collect()
        return self.wrong, self.owners, self.shared


class Calls(Holding):
    def test_a_text_longer_than_the_first_buffer(self):
        self.assertEqual(text("{% for i in range(5000) %}ab{% endfor %}"), "ab" * 5000)

    def test_a_text_as_long_as_the_first_buffer(self):
        for length in (4095, 4096, 4097):
            self.assertEqual(text("é" + "a" * (length - 2)), "é" + "a" * (length - 2))

    def test_an_empty_text(self):
        self.assertEqual(text(""), "")

    def test_a_fault_has_its_place(self):
        with self.assertRaises(Fault) as caught:
            text("a\n{{ nope + 1 }}")
        fault = caught.exception
        self.assertEqual((fault.number, fault.template, fault.line), (2, "t", 2))
        self.assertEqual((fault.code, fault.name), ("F2", "Undefined"))
        self.assertEqual(str(fault), "fault F2 Undefined in t line 2")

    def test_each_number_of_a_budget(self):
        source = "{% macro m(x) %}{{ x }}{% endmacro %}{{ m('abc') }}{% set s = [[1, 2], 3] %}"
        for name, least in {"fuel": 0, "depth": 0, "output": 0, "size": 1, "nesting": 1}.items():
            with self.assertRaises(Spent) as caught:
                Template("t", {"t": source}).render(None, Budget(**{name: least}))
            self.assertEqual(caught.exception.name, name)
            self.assertEqual(str(caught.exception), f"spent {name}")

    def test_a_budget_beyond_its_type(self):
        beyond = ({"nesting": 256}, {"fuel": -1}, {"size": 2**32}, {"output": 2**64})
        for given in (*beyond, {"memory": -1}, {"memory": 2**63}):
            with self.assertRaises(ValueError):
                Budget(**given)
        wrong = ({"nesting": True}, {"fuel": 1.0}, {"depth": "8"}, {"size": None})
        for given in (*wrong, {"memory": "1 MB"}, {"memory": True}):
            with self.assertRaises(TypeError):
                Budget(**given)
        image = Template("t", {"t": ""}).compile()
        for budget in (None, 7, {"fuel": 8}):
            with self.assertRaises(TypeError):
                image.run({}, budget)

    def test_refusals_by_their_codes(self):
        for code, call in {
            "C1 ": lambda: Template("t", {}).compile(),
            "S1 ": lambda: Template("t", {"t": "{{"}).compile(),
            "P1 Syntax in t line 2": lambda: text("a\n{{ 1 + }}"),
            "X1 ": lambda: text("", "{"),
            "X2 ": lambda: text("", "[]"),
            "X3 ": lambda: text("", {"a": 1.5}),
            "I": lambda: Image(b"no image"),
        }.items():
            with self.assertRaises(Refused) as caught:
                call()
            self.assertTrue(caught.exception.reason.startswith(code), caught.exception.reason)

    def test_the_reason_of_a_refusal(self):
        jump_out = "4a5442430100000000000100050100000078010000000000020000000a000000020000001c"
        for reason, call in {
            "S1 UnclosedTag in a b line 2": lambda: Template("a b", {"a b": "\n{{"}).compile(),
            "P4 UnknownTest in t line 1": lambda: Template("t", {"t": "{{ 1 is no }}"}).compile(),
            "C8 IncludeCycle": lambda: Template("t", {"t": "{% include 't' %}"}).compile(),
            "V3 NotCallable": lambda: Template("t", {"t": "{{ self }}"}).compile(),
            "X3 NotWhole": lambda: Context('{"a": 1.5}'),
            "I3 Truncated": lambda: Image(bytes.fromhex(jump_out)),
            "K5 JumpOut unit 0 point 0": lambda: Image(bytes.fromhex(jump_out) + bytes(7)),
        }.items():
            with self.assertRaises(Refused) as caught:
                call()
            self.assertEqual(caught.exception.reason, reason)

    def test_the_parts_of_a_refusal(self):
        for refused, wanted in (
            (Refused("P1 Syntax in a line 2 in b line 3"), ("P1", "Syntax", "a line 2 in b", 3)),
            (Refused("K5 JumpOut unit 0 point 7"), ("K5", "JumpOut", None, None)),
            (Refused("C1 Missing", "page"), ("C1", "Missing", None, None)),
            (Refused("odd"), ("", "", None, None)),
        ):
            found = (refused.code, refused.name, refused.template, refused.line)
            self.assertEqual(found, wanted)
        with self.assertRaises(Refused) as caught:
            Template("a b", {"a b": '{% include "c" %}', "c": "x\n\n{{ 1|nope }}"}).compile()
        error = caught.exception
        self.assertEqual((error.code, error.template, error.line), ("P3", "c", 3))
        self.assertEqual((error.name, error.subject), ("UnknownFilter", "nope"))
        self.assertEqual(error.reason, "P3 UnknownFilter in c line 3")
        self.assertEqual(error.entry, "a b")
        self.assertEqual(str(Refused(error.reason)), "refused P3 UnknownFilter in c line 3")
        self.assertEqual(str(Refused("C1 Missing", "page")), "refused C1 Missing, compiling page")

    def test_the_explanation_of_a_refusal(self):
        for source, code, line, subject in (
            ("a\n{{ x|uper }}", "P3", 2, "uper"),
            ("\n\n{{ 1 is no }}", "P4", 3, "no"),
            ("{{ f(1) }}", "V3", 1, "f"),
            ("\n{{ x.y() }}", "V3", 2, "x.y"),
            ("{{ loop.index }}", "V1", 1, "index"),
            ("a\n{{ 1 + }}", "P1", 2, None),
        ):
            with self.assertRaises(Refused) as caught:
                Template("a:1: b", {"a:1: b": source}).compile()
            error, lines = caught.exception, str(caught.exception).split("\n")
            found = (error.code, error.template, error.line, error.subject)
            self.assertEqual(found, (code, "a:1: b", line, subject))
            told = f' "{subject}"' if subject else ""
            self.assertEqual(lines[0], f"a:1: b:{line}: {code} {error.name}{told}")
            self.assertEqual(lines[1], "  " + source.split("\n")[line - 1])
            self.assertEqual(error.explanation, str(error) + "\n")
        for call in (
            lambda: Template("page", {"page": '{% include "no" %}'}).compile(),
            lambda: Templates({"page": "a"}).template("no"),
        ):
            with self.assertRaises(Refused) as caught:
                call()
            self.assertIn("C1 Missing", str(caught.exception).split("\n")[0])
            self.assertEqual(caught.exception.reason, "C1 Missing")
        for call in (lambda: Image(b"no image"), lambda: Context("[]")):
            with self.assertRaises(Refused) as caught:
                call()
            self.assertIsNone(caught.exception.explanation)

    def test_a_template_that_compiles_is_not_explained(self):
        calls, real = [], jt._templates.explain
        jt._templates.explain = lambda *given: calls.append(1) or real(*given)
        try:
            Template("t", {"t": "{{ n }}"}).render({"n": 1})
            self.assertEqual(len(calls), 0)
            with self.assertRaises(Refused):
                Template("t", {"t": "{{ n|uper }}"}).compile()
            self.assertEqual(len(calls), 1)
        finally:
            jt._templates.explain = real

    def test_an_image_travels_as_bytes(self):
        image = Template("t", {"t": "{{ n }}"}).compile()
        self.assertEqual(Image(image.data).run({"n": 7}), "7")
        self.assertEqual(Image(bytearray(image.data)).run({"n": 7}), "7")
        self.assertEqual(image.run('{"n": "<"}'), "&lt;")
        self.assertEqual(image.run(b'{"n": "<"}'), "&lt;")
        for wrong in (4, "text", None):
            with self.assertRaises(TypeError):
                Image(wrong)

    def test_each_damaged_image_is_refused_or_runs(self):
        data = Template("t", {"t": "{% if n %}{{ n }}{% endif %}"}).compile().data
        for at in range(len(data)):
            for byte in (0, 255, data[at] ^ 1):
                try:
                    Image(data[:at] + bytes([byte]) + data[at + 1 :]).run({"n": 7})
                except (Refused, Fault, Spent):
                    pass
            with self.assertRaises(Refused):
                Image(data[:at])

    def test_an_image_in_a_file(self):
        image = Template("t", {"t": "{{ n }}"}).compile()
        with tempfile.TemporaryDirectory() as folder:
            path = pathlib.Path(folder) / "page.image"
            path.write_bytes(b"old")
            link = pathlib.Path(folder) / "link"
            link.symlink_to(path)
            image.save(link)
            self.assertTrue(link.is_symlink())
            image.save(str(path))
            self.assertEqual(Image.load(path).run({"n": 7}), "7")
            self.assertEqual(sorted(os.listdir(folder)), ["link", "page.image"])
            (pathlib.Path(folder) / "bad").write_bytes(image.data[:-1])
            with self.assertRaises(Refused):
                Image.load(pathlib.Path(folder) / "bad")
            with self.assertRaises(FileNotFoundError):
                Image.load(pathlib.Path(folder) / "none")
        image.save(os.devnull)

    def test_options(self):
        for source, options, wanted in (
            ("{{ '<' }}\n", Options(), "&lt;"),
            ("{{ '<' }}\n", Options(autoescape=False), "<"),
            ("{{ '<' }}\n", Options(keep_trailing_newline=True), "&lt;\n"),
            ("{% if true %}\na{% endif %}", Options(trim_blocks=True), "a"),
            ("  {% if true %}a{% endif %}", Options(lstrip_blocks=True), "a"),
        ):
            self.assertEqual(text(source, options=options), wanted)
        self.assertEqual(text("{{ nope }}x"), "x")
        with self.assertRaises(Fault) as caught:
            text("x\n{{ nope }}", options=Options(strict=True))
        self.assertEqual((caught.exception.number, caught.exception.line), (2, 2))
        for name in Options.__dataclass_fields__:
            for value in (1, 0, None, "yes"):
                with self.assertRaisesRegex(TypeError, name):
                    Options(**{name: value})
        with self.assertRaises(TypeError):
            Template("t", {"t": ""}, {"autoescape": False})

    def test_sources_that_are_no_text(self):
        for entry, sources, kind in (
            ("t", {"t": b"x"}, TypeError),
            ("t", {"t": None}, TypeError),
            (7, {"t": "x"}, TypeError),
            ("t", {7: "x"}, TypeError),
            ("t", {"t": "\ud800"}, ValueError),
            ("\ud800", {"t": ""}, ValueError),
        ):
            with self.assertRaises(kind):
                Template(entry, sources)

    def test_options_by_keywords(self):
        sources = {"t": "{% if true %}\n<{{ '<' }}\n{% endif %}\n"}
        wanted = "<<\n\n"
        self.assertEqual(
            Template("t", sources, Options(trim_blocks=True), autoescape=False).render(), "<<\n"
        )
        chosen = {"trim_blocks": True, "autoescape": False, "keep_trailing_newline": True}
        self.assertEqual(Template("t", sources, **chosen).render(), "<<\n")
        self.assertEqual(
            Templates(sources, autoescape=False, keep_trailing_newline=True)["t"].render(),
            "\n" + wanted,
        )
        self.assertEqual(Templates(sources, **chosen).options, Options(**chosen))
        with tempfile.TemporaryDirectory() as folder:
            (pathlib.Path(folder) / "t").write_text(sources["t"])
            templates = Templates.from_folder(folder, **chosen)
        self.assertEqual(templates.options, Options(**chosen))
        for call in (
            lambda: Templates(sources, autoescap=False),
            lambda: Template("t", sources, trim_blocks=1),
        ):
            with self.assertRaises(TypeError):
                call()

    def test_values_by_keywords(self):
        template = Template("t", {"t": "{{ name }}{{ self_ }}{{ n }}"})
        for run in (template.render, template.compile().run):
            self.assertEqual(run(name="World", n=1), "World1")
            self.assertEqual(run({"name": "a", "n": 1}, name="b"), "b1")
            self.assertEqual(run({"n": 1}, Budget(fuel=1000), name="b"), "b1")
            self.assertEqual(run(self=1, name="a"), "a")
            for context in (Context({"n": 1}), '{"n": 1}', b"{}"):
                with self.assertRaisesRegex(TypeError, type(context).__name__):
                    run(context, name="a")
            with self.assertRaises(ContextError):
                run(name=1.5)

    def test_a_text_without_a_name(self):
        template = Template("Hello {{ name }}!")
        self.assertEqual(template.render(name="World"), "Hello World!")
        self.assertEqual(pickle.loads(pickle.dumps(template)).render(name="a"), "Hello a!")
        self.assertEqual(Template("{{ '<' }}", autoescape=False).render(), "<")
        with self.assertRaises(Refused) as caught:
            Template("a\n{{ x|uper }}").render()
        self.assertEqual((caught.exception.template, caught.exception.line), ("<template>", 2))
        with self.assertRaises(Fault) as fault:
            Template("{{ 1 // 0 }}").render()
        self.assertEqual(str(fault.exception), "fault F4 ZeroDivide in <template> line 1")
        for wrong in (7, None, b"x"):
            with self.assertRaises(TypeError):
                Template(wrong)

    def test_templates_are_a_collection(self):
        templates = Templates({"b": "{{ n }}", "a": ""})
        self.assertEqual(templates["b"].render(n=1), "1")
        self.assertIs(templates["b"], templates.template("b"))
        self.assertEqual(("a" in templates, "c" in templates, 7 in templates), (True, False, False))
        self.assertEqual((list(templates), len(templates), len(Templates({}))), (["b", "a"], 2, 0))
        with self.assertRaisesRegex(KeyError, "'c'"):
            templates["c"]
        with self.assertRaises(Refused):
            templates.template("c")

    def test_sources_are_copied(self):
        sources = {"t": "a"}
        template = Template("t", sources)
        sources["t"] = "b"
        self.assertEqual(template.render(), "a")
        templates = Templates(sources)
        sources["new"] = ""
        self.assertEqual(dict(templates.sources), {"t": "b"})


class Needed(Holding):
    """What templates need."""

    site = {
        "home": "{% extends 'base' %}{% from 'forms' import field %}{% block body %}{{ title }}"
        "{% include 'ad' ignore missing %}{{ field(1) }}{% include 'menu' %}{% endblock %}",
        "base": "{{ site.name }}{% block body %}{% endblock %}",
        "menu": "{% for link in links %}{{ link }}{% endfor %}",
        "forms": "{% macro field(x) %}{{ x }}.{% endmacro %}",
        "other": "{{ nobody }}",
    }

    def test_names_templates_and_missing_ones(self):
        templates = Templates(self.site)
        needs = templates.needs("home")
        self.assertEqual(needs, templates["home"].needs())
        self.assertEqual(needs.templates, ("base", "forms", "home", "menu"))
        self.assertEqual(needs.missing, ("ad",))
        self.assertLessEqual({"links", "site", "title"}, set(needs.names))
        self.assertNotIn("nobody", needs.names)
        self.assertEqual(templates.needs("other"), Needs(("nobody",), ("other",), ()))
        self.assertEqual(Template("text").needs(), Needs((), ("<template>",), ()))
        self.assertEqual(pickle.loads(pickle.dumps(needs)), needs)
        self.assertEqual(len({needs, templates.needs("home"), templates.needs("menu")}), 2)

    def test_what_is_needed_decides_the_image(self):
        image = Templates(self.site)["home"].compile().data
        for name in self.site:
            changed = {**self.site, name: self.site[name].replace("}}", "}}x", 1)}
            is_needed = name in Templates(self.site).needs("home").templates
            self.assertEqual(Templates(changed)["home"].compile().data != image, is_needed, name)
        changed = {**self.site, "ad": "", "more": ""}
        self.assertNotEqual(Templates(changed)["home"].compile().data, image)
        self.assertEqual(Templates(changed).needs("home").missing, ())

    def test_names_of_any_kind(self):
        odd = ("a b", "name x", " ", "é", "n" * 255, "\x7f", "\x85", "\u2028", "template")
        tags = "".join(f'{{% include "{name}" ignore missing %}}' for name in odd)
        wanted = tuple(sorted(odd))
        self.assertEqual(Templates({"t": tags}).needs("t"), Needs((), ("t",), wanted))
        needs = Templates({**{name: "" for name in odd}, "t": tags}).needs("t")
        self.assertEqual(needs, Needs((), tuple(sorted([*odd, "t"])), ()))
        # a name with a line end would be two lines
        for name, sources in (("a\nname b", {"a\nname b": ""}), ("t", {"t": "{% include 'a\nb' %}"})):
            with self.assertRaisesRegex(Refused, "C2 BadName"):
                Templates(sources).needs(name)

    def test_needs_longer_than_the_first_buffer(self):
        names = sorted(f"name_{at}" for at in range(900))
        source = "".join(f"{{{{ {name} }}}}" for name in names)
        self.assertEqual(Template("t", {"t": source}).needs(), Needs(tuple(names), ("t",), ()))

    def test_needs_of_a_refused_template(self):
        templates = Templates({"t": "\n{{ x|uper }}", "u": "{% include 'none' %}"})
        for name in ("t", "u", "none"):
            with self.assertRaises(Refused) as caught:
                templates.needs(name)
            with self.assertRaises(Refused) as other:
                templates.template(name).compile()
            self.assertEqual(vars(caught.exception), vars(other.exception))
            self.assertIsNotNone(caught.exception.explanation)
        with self.assertRaises(ValueError):
            Template("\ud800", {}).needs()

    def test_needs_for_lack_of_memory(self):
        templates, refused = Templates(self.site), 0
        wanted = templates.needs("home")
        for memory in range(0, 65536, 256):
            before = library.jt_memory_limit(memory)
            try:
                self.assertEqual(templates.needs("home"), wanted)
            except NoMemory:
                refused += 1
            finally:
                library.jt_memory_limit(before)
        self.assertGreater(refused, 10)
        self.assertLess(refused, 256)

    def test_threads(self):
        templates = Templates(self.site)
        wanted = templates.needs("home")

        def work():
            for _ in range(20):
                self.assertEqual(templates.needs("home"), wanted)

        with Counted() as counted:
            in_threads(4, work)
            self.assertEqual((counted.of("jt_library_needs"), counted.wrong), (80, []))


class Contexts(Holding):
    def test_each_type_of_json(self):
        class Number(int):
            def __repr__(self):
                return "no"

        class Word(str):
            def __str__(self):
                return "no"

        class Level(enum.IntEnum):
            LOW = 3

        class Name(str, enum.Enum):
            A = "a"

        for value, wanted in (
            ("é\"\\\n\u2028<\x00\x7f\U0001f600", None),
            (2**63 - 1, "9223372036854775807"),
            (-(2**63), "-9223372036854775808"),
            (True, "True"),
            (Number(7), "7"),
            (Level.LOW, "3"),
            (Word("w"), "w"),
            (Name.A, "a"),
        ):
            # (A proxy is no dict, which is written in another way.)
            for context in ({"n": value}, types.MappingProxyType({"n": value})):
                found = text("{{ n }}", context, options=Options(autoescape=False))
                self.assertEqual(found, value if wanted is None else wanted)
        nested = types.MappingProxyType({"b": [1, (2, None), types.MappingProxyType({"": "x"})]})
        source = "{{ a.b[0] }}{{ a.b[1][0] }}{{ a.b[1][1] is none }}{{ a.b[2][''] }}"
        self.assertEqual(text(source, {"a": nested}), "12Truex")
        self.assertEqual(text("{{ a is defined }}"), "False")

    def test_what_cannot_be_json_is_named(self):
        class Key(str):
            __hash__ = object.__hash__

            def __eq__(self, other):
                return self is other

        class Order:
            def __repr__(self):
                raise RuntimeError("a bad repr")

        endless = []
        endless.append(endless)
        for context, wanted, code in (
            ({"order": {"lines": [0, 1, {"price": 1.5}]}}, "order.lines[2].price: a float", "X3"),
            ({"a": float("nan")}, "a: a float (nan)", "X3"),
            ({"a": float("-inf")}, "a: a float (-inf)", "X3"),
            ({"a": datetime.date(2024, 1, 1)}, "a: a date", "X1"),
            ({"a": datetime.datetime(2024, 1, 1)}, "a: a datetime", "X1"),
            ({"a": decimal.Decimal("1.5")}, "a: a Decimal", "X1"),
            ({"a": [b"x"]}, "a[0]: bytes", "X1"),
            ({"a": bytearray(b"x")}, "a: a bytearray", "X1"),
            ({"a": {1}}, "a: a set", "X1"),
            ({"a": Order()}, "a: an Order", "X1"),
            ({"a": Order}, "a: a type", "X1"),
            ({"a": iter([])}, "a: a list_iterator", "X1"),
            ({"a": 1j}, "a: a complex", "X1"),
            ({"a": [2**63]}, "a[0]: an int of more than 64 bits", "X4"),
            ({"a": -(2**63) - 1}, "a: an int of more than 64 bits", "X4"),
            ({"a": 10**5000}, "a: an int of more than 64 bits", "X4"),
            ({"a": {"b c": "x\ud800"}}, 'a["b c"]: a text with a lone surrogate', "X1"),
            ({"a": {"\ud800": 1}}, "a: a text with a lone surrogate", "X1"),
            ({"a": {1: 2}}, "a: a key that is no text: 1", "X1"),
            ({1: 2}, "the context: a key that is no text: 1", "X1"),
            ({"a": {None: 2}}, "a: a key that is no text: None", "X1"),
            ({"a": [{True: 2}]}, "a[0]: a key that is no text: True", "X1"),
            ({"a": {(1, 2): 2}}, "a: a key that is no text: (1, 2)", "X1"),
            ({"a": {b"b": 2}}, "a: a key that is no text: b'b'", "X1"),
            ({"a": {Key("k"): 1, Key("k"): 2}}, 'a: two keys that are both "k"', "X1"),
            ({"a": {Key("k"): 1, "k": 2}}, 'a: two keys that are both "k"', "X1"),
            ({"": {"é": 1.5}}, '[""].é: a float', "X3"),
            ({"a": endless}, "a" + "[0]" * 15 + "...: nested deeper than 127 levels", "X1"),
            ([1], "the context: a list", "X2"),
            (7, "the context: an int", "X2"),
            ("\ud800", "the context: a lone surrogate at character 0", "X1"),
        ):
            for make in (Context, Template("t", {"t": ""}).render):
                with self.assertRaises(ContextError) as caught:
                    make(context)
                error = caught.exception
                self.assertEqual(str(error), wanted)
                self.assertEqual(f"{error.path}: {error.what}", wanted)
                self.assertEqual(error.code, code)
                self.assertIsInstance(error, Refused)
                self.assertIsNone(error.__context__)

    def test_a_default_replaces_what_has_no_json(self):
        class Whole:
            """A number as of numpy: no int, with a method that returns one."""

            def item(self):
                return 7

        def chosen(value):
            return value.item() if isinstance(value, Whole) else str(value)

        day = datetime.date(2024, 2, 29)
        given = {"a": [1.5, day], "b": decimal.Decimal("1.50"), "c": 2**64, "d": float("nan")}
        source = "{{ a[0] }} {{ a[1] }} {{ b }} {{ c }} {{ d }} {{ e + 1 }}"
        context = Context({**given, "e": Whole()}, default=chosen)
        self.assertEqual(text(source, context), "1.5 2024-02-29 1.50 18446744073709551616 nan 8")
        # what has JSON is never replaced
        calls = []
        plain = {"t": "é", "n": [1, True, None, (2,)], "m": types.MappingProxyType({"k": {}})}
        self.assertEqual(Context(plain, default=calls.append), Context(plain))
        self.assertEqual(calls, [])
        # what it returns may be a list or a map, and may be replaced again
        self.assertEqual(
            text("{{ a[0].day }}", Context({"a": {day}}, default=lambda it: (
                list(it) if isinstance(it, set) else {"day": it.day}
            ))),
            "29",
        )
        twice = Context({"a": 1j}, default=lambda it: it.real if it == 1j else str(it))
        self.assertEqual(text("{{ a }}", twice), "0.0")
        deep = Context({"a": [[1.5]]}, default=lambda it: [[]])
        self.assertEqual(text("{{ a[0][0] == [[]] }}", deep), "True")

    def test_a_default_that_does_not_help_is_named(self):
        for default, wanted in (
            (lambda it: it, "a[1].b: a float, which `default` returns again and again"),
            (lambda it: {1: 2}, "a[1].b: a key that is no text: 1"),
            (lambda it: "\ud800", "a[1].b: a text with a lone surrogate"),
        ):
            with self.assertRaises(ContextError) as caught:
                Context({"a": [0, {"b": 1.5}]}, default=default)
            self.assertEqual(str(caught.exception), wanted)
            self.assertIsNone(caught.exception.__context__)
        endless = (lambda it: [it])
        with self.assertRaisesRegex(ContextError, "nested deeper than 127 levels"):
            Context({"a": 1.5}, default=endless)
        with self.assertRaises(ZeroDivisionError):
            Context({"a": 1.5}, default=lambda it: 1 // 0)
        # a key is no value
        with self.assertRaisesRegex(ContextError, "a key that is no text: 1"):
            Context({1: 2}, default=str)

    def test_equal_contexts(self):
        first = Context({"a": [1, {"b": "é", "c": None}], "d": True})
        for equal in (
            {"d": True, "a": (1, {"c": None, "b": "é"})},
            ' {"d":true, "a": [1, {"c": null, "b": "\\u00e9"}]}',
            first._json,
        ):
            other = Context(equal)
            self.assertEqual(first, other)
            self.assertEqual(hash(first), hash(other))
            self.assertEqual(len({first, other}), 1)
        for different in (
            {"a": [1, {"b": "é", "c": None}], "d": 1},
            {"a": [{"b": "é", "c": None}, 1], "d": True},
            {"a": [1, {"b": "é", "c": None}], "d": "True"},
            {},
        ):
            self.assertNotEqual(first, Context(different))
        self.assertNotEqual(Context({}), {})
        self.assertEqual(Context(), Context("{}"))
        self.assertEqual(pickle.loads(pickle.dumps(first)), first)
        first.close()
        self.assertEqual(first, first)

    def test_the_deepest_nesting_is_that_of_the_library(self):
        def nested(levels):
            return {"a": json.loads("[" * (levels - 1) + "]" * (levels - 1))}

        Context(nested(127))
        Context(json.dumps(nested(127)))
        with self.assertRaisesRegex(ContextError, "nested deeper"):
            Context(nested(128))
        with self.assertRaises(Refused) as caught:
            Context(json.dumps(nested(128)))
        self.assertEqual(caught.exception.code, "X1")

    def test_json_that_is_refused_is_explained(self):
        for given, wanted, code in (
            ('{"a": [1, 1.5]}', "a[1]: a float", "X3"),
            (b'{"a": {"b": 9223372036854775808}}', "a.b: an int of more than 64 bits", "X4"),
            ('{"a": 1e400}', "a: a float (inf)", "X1"),
            ('{"a":\n 1,}', "the context: ", "X1"),
            (b'{"a": "\xff"}', "the context: no UTF-8 at byte 7", "X1"),
            ('{"a": "\\ud800"}', "a: a text with a lone surrogate", "X1"),
            ("[]", "the context: a list", "X2"),
        ):
            with self.assertRaises(ContextError) as caught:
                Context(given)
            self.assertTrue(str(caught.exception).startswith(wanted), caught.exception)
            self.assertEqual(caught.exception.code, code)
        with self.assertRaisesRegex(ContextError, "at line 2 column 4$"):
            Context('{"a":\n 1 2}')
        with self.assertRaises(Refused) as caught:
            Context('{"a": -0}')
        self.assertEqual(caught.exception.code, "X3")
        for given in ('{"a": ' + "9" * 9999 + "}", '{"a": ' + "[" * 99999):
            with self.assertRaises(Refused):
                Context(given)

    def test_a_context_is_used_often(self):
        context = Context({"n": "<"})
        pages = [Template("t", {"t": "{{ n }}" * count}).compile() for count in (1, 2)]
        for image in pages * 2:
            self.assertIn(image.run(context), ("&lt;", "&lt;&lt;"))
        self.assertEqual(Template("t", {"t": "{{ n }}"}).render(context), "&lt;")

    def test_a_closed_context_raises(self):
        image = Template("t", {"t": "{{ n }}"}).compile()
        with Context({"n": 7}) as context:
            self.assertEqual(image.run(context), "7")
        context.close()
        with self.assertRaisesRegex(ValueError, "closed"):
            image.run(context)
        with self.assertRaisesRegex(ValueError, "closed"):
            in_threads(1, lambda: image.run(context))
        with self.assertRaisesRegex(ValueError, "the context is closed"):
            context.__enter__()
        self.assertIn("closed", repr(context))


class Lives(Holding):
    """Images and contexts: how often the library runs, and how their handles end."""

    def test_a_closed_image_raises(self):
        image = Template("t", {"t": "{{ n }}"}).compile()
        other = image.share()
        with image:
            self.assertEqual(image.run({"n": 7}), "7")
        image.close()
        for use in (
            lambda: image.run({"n": 7}),
            image.share,
            image.__enter__,
            lambda: image.save(os.devnull),
        ):
            with self.assertRaisesRegex(ValueError, "closed"):
                use()
        self.assertIn("closed", repr(image))
        self.assertEqual(other.run({"n": 7}), "7")

    def test_a_template_outlives_its_images(self):
        template = Template("t", {"t": "{{ n }}"})
        template.compile().close()
        with template.compile() as image:
            self.assertEqual(image.run({"n": 7}), "7")
        self.assertEqual(template.render({"n": 8}), "8")

    def test_one_run_for_each_rendering(self):
        source = "{% for i in range(n) %}ab{% endfor %}"
        with Counted() as counted:
            template = Template("t", {"t": source})
            for times, n in enumerate((0, 10, 2048, 2049, 5000), 1):
                self.assertEqual(template.render({"n": n}), "ab" * n)
                self.assertEqual(counted.of("jt_image_run"), times)
            self.assertEqual(counted.of("jt_outcome_read"), 2)
            self.assertEqual(counted.of("jt_context_load"), 5)
            context = Context({"n": 3000})
            image = template.compile()
            for _ in range(4):
                image.run(context)
            self.assertEqual(counted.of("jt_image_run"), 9)
            self.assertEqual(counted.of("jt_context_load"), 6)
            # a handle for the runs of each image, and one for the second image
            self.assertEqual(counted.of("jt_image_share"), 3)
            # read and compiled once, and never read as bytes
            self.assertEqual(counted.of("jt_library_load"), 1)
            self.assertEqual(counted.of("jt_library_compile"), 1)
            self.assertEqual(counted.of("jt_image_load"), 0)
            for given in ({"n": []}, {"n": 10**7}):
                with self.assertRaises((Fault, Spent)):
                    template.render(given)
            self.assertEqual(counted.of("jt_image_run"), 11)
            Image(image.data).run(context)
            self.assertEqual(counted.of("jt_image_load"), 1)
            del template, context, image
            self.assertEqual(counted.left(), ([], {}, set()))

    def test_an_image_of_any_size_is_compiled_once(self):
        for part in ("b", "{{ a }}b" * 12_000, "b" * 1_000_000):
            sources = {f"t{at}": f"{part}{at}" for at in range(5)}
            sources["t"] = "".join(f"{{% include '{name}' %}}" for name in sources)
            with Counted() as counted:
                template = Template("t", sources)
                budget = Budget(fuel=10**7, output=10**7)
                wanted = "".join("b" * part.count("b") + str(at) for at in range(5))
                self.assertEqual(template.render(None, budget), wanted)
                self.assertEqual(counted.of("jt_library_compile"), 1)
                image = template.compile()
                self.assertEqual(counted.of("jt_image_save"), 0)
                data = image.data
                self.assertIs(image.data, data)
                self.assertLessEqual(counted.of("jt_image_save"), 2)
                self.assertEqual(Image(data).run(None, budget), template.render(None, budget))
                self.assertEqual(counted.of("jt_library_compile"), 1)
                self.assertEqual(counted.of("jt_library_load"), 1)
        self.assertGreater(len(data), 4 << 20)

    def test_a_site_is_read_once(self):
        sources = {f"page{at}": f"{{% extends 'layout{at % 5}' %}}" for at in range(100)}
        sources.update({f"layout{at}": f"{at}:{{{{ n }}}}" for at in range(5)})
        with Counted() as counted:
            templates = Templates(sources)
            for turn in range(2):
                for at in range(100):
                    found = templates.template(f"page{at}").render({"n": turn})
                    self.assertEqual(found, f"{at % 5}:{turn}")
            self.assertEqual(counted.of("jt_library_load"), 1)
            self.assertEqual(counted.of("jt_library_compile"), 100)
            del templates
            self.assertEqual(counted.left(), ([], {}, set()))

    def test_templates_are_compiled_by_many_threads(self):
        templates = Templates({f"t{at}": f"{at}{{{{ n }}}}" for at in range(40)})
        with Counted() as counted:

            def all_of_them():
                for at in range(40):
                    found = templates.template(f"t{at}").render({"n": 7})
                    self.assertEqual(found, f"{at}7")

            in_threads(6, all_of_them)
            self.assertEqual(counted.of("jt_library_compile"), 40)
            self.assertEqual(counted.wrong, [])

    def test_the_bytes_of_a_closed_image(self):
        first, second = Template("t", {"t": "a"}).compile(), Template("t", {"t": "a"}).compile()
        data = first.data
        first.close()
        second.close()
        self.assertEqual(first.data, data)
        for call in (lambda: second.data, lambda: pickle.dumps(second)):
            with self.assertRaisesRegex(ValueError, "closed"):
                call()

    def test_nothing_is_kept_after_an_error(self):
        with Counted() as counted:
            for call in (
                lambda: Context("{"),
                lambda: Image(b"no image"),
                lambda: text("{{", {}),
                lambda: text("{{ n + 1 }}", {"n": []}),
                lambda: text("", {"n": 1.5}),
                lambda: Template("t", {"t": "a"}).render({}, Budget(fuel=0)),
            ):
                with self.assertRaises(JtError):
                    call()
            self.assertEqual(counted.left(), ([], {}, set()))

    def test_refused_memory_is_raised(self):
        image = Template("t", {"t": ""}).compile()
        for name, answer in (
            ("jt_image_run", jt._library.Answer(6)),
            ("jt_image_share", 6),
            ("jt_context_load", jt._library.Answer(6)),
            ("jt_library_load", jt._library.Answer(6)),
            ("jt_library_share", 6),
            ("jt_library_compile", jt._library.Answer(6)),
        ):
            call = getattr(library, name)
            setattr(library, name, lambda *_: answer)
            try:
                with self.assertRaises(NoMemory) as caught:
                    Template("t", {"t": ""}).render()
            finally:
                setattr(library, name, call)
            self.assertIsInstance(caught.exception, MemoryError)
        self.assertEqual(image.run(), "")

    def test_memory_is_limited(self):
        template = Template("t", {"t": "{% for x in xs %}{{ x ~ '!' }}{% endfor %}"})
        image, context = template.compile(), Context({"xs": ["a", 1] * 20})
        wanted, refused = "a!1!" * 20, 0
        limit, held = library.jt_memory_limit, []

        def watched(memory):
            held.append(library.jt_memory_held())
            return limit(memory)

        library.jt_memory_limit = watched
        try:
            for given in (context, {"xs": ["a", 1] * 20}):
                for memory in range(0, 65536, 64):
                    try:
                        self.assertEqual(image.run(given, Budget(memory=memory)), wanted)
                    except NoMemory:
                        refused += 1
                        last = memory
                self.assertEqual(image.run(given), wanted)
                self.assertLess(last, 65536 - 64)
        finally:
            library.jt_memory_limit = limit
        self.assertGreater(refused, 10)
        # what each run took is freed when its limit ends, and then there is none (the collector of
        # Python may free what was there before)
        self.assertEqual(max(held[1::2]), 0)
        self.assertEqual(limit(jt._library.NO_LIMIT), jt._library.NO_LIMIT)
        # a second run within a run, as of a finalizer, leaves the limit of the first one
        call, inner = library.jt_image_run, []

        def nested(*words):
            library.jt_image_run = call
            inner.append(image.run(context, Budget(memory=65536)))
            return call(*words)

        library.jt_image_run = nested
        try:
            with self.assertRaises(NoMemory):
                image.run(context, Budget(memory=16))
        finally:
            library.jt_image_run = call
        self.assertEqual(inner, [wanted])
        lists = "".join(f"{{% set a{i} = range(65535)|map('abs') %}}" for i in range(300))
        with self.assertRaises(NoMemory):
            Template("t", {"t": lists}).render(None, Budget(fuel=10**9, memory=8_000_000))

    def test_threads(self):
        image = Template("t", {"t": "{% for i in range(n) %}{{ i }},{% endfor %}"}).compile()
        wanted = {n: "".join(f"{i}," for i in range(n)) for n in range(40)}
        contexts = {n: Context({"n": n}) for n in wanted}

        def many():
            own = image.share()
            for n in wanted:
                self.assertEqual(image.run({"n": n}), wanted[n])
                self.assertEqual(image.run(contexts[n]), wanted[n])
                self.assertEqual(own.run(contexts[n]), wanted[n])

        with Counted() as counted:
            in_threads(6, many)
            # read once in each thread, beside once here
            self.assertEqual(counted.of("jt_context_load"), 6 * 40 * 2)
            contexts.clear()
            image.close()
            self.assertEqual(counted.left(), ([], {}, set()))

    def test_a_template_is_compiled_once_for_all_threads(self):
        templates = Templates({"t": "{{ n }}"})
        with Counted() as counted:
            in_threads(6, lambda: templates.template("t").render({"n": 7}))
        self.assertEqual(counted.of("jt_library_compile"), 1)

    def test_a_context_is_freed_by_the_threads_that_read_it(self):
        image = Template("t", {"t": "{{ n }}"}).compile()
        turn = [threading.Event() for _ in range(4)]
        held = []
        with Counted() as counted:

            def other():
                own = Context({"n": 6})
                held.append(Context({"n": 7}))
                image.run(held[0])
                image.run(Context({"n": 8}))
                turn[0].set()
                turn[1].wait(10)
                # closed elsewhere, and freed at the next call here
                before = len(counted.owners)
                image.run(own)
                self.assertEqual(len(counted.owners), before - 1)
                held.append(Context({"n": 1}))
                turn[2].set()
                turn[3].wait(10)

            thread = Raising(target=other)
            thread.start()
            turn[0].wait(10)
            image.run(held[0])
            held[0].close()
            turn[1].set()
            turn[2].wait(10)
            kept = held.pop()
            turn[3].set()
            thread.join()
            # the other thread has ended: here it is still usable, and then freed
            self.assertEqual(image.run(kept), "1")
            self.assertEqual(set(counted.owners.values()), {threading.get_ident()})
            kept = image = None
            self.assertEqual(counted.left(), ([], {}, set()))

    def test_a_context_in_a_cycle_is_freed(self):
        image = Template("t", {"t": "{{ n }}"}).compile()
        with Counted() as counted:
            cycle = [Context({"n": 7})]
            cycle.append(cycle)
            in_threads(3, lambda: self.assertEqual(image.run(cycle[0]), "7"))
            # (the threads have ended: one more thread drops them)
            in_threads(1, lambda: self.assertEqual(image.run(cycle[0]), "7"))
            self.assertEqual(len(cycle[0]._threads), 2)
            del cycle
            image.close()
            self.assertEqual(counted.left(), ([], {}, set()))

    def test_a_context_is_closed_just_before_it_runs(self):
        image, context = Template("t", {"t": "{{ n }}"}).compile(), Context({"n": 7})
        call = library.jt_image_run

        def closing(*given):
            context.close()
            return call(*given)

        library.jt_image_run = closing
        try:
            with self.assertRaisesRegex(ValueError, "closed"):
                image.run(context)
        finally:
            library.jt_image_run = call

    def test_an_image_is_closed_while_it_runs(self):
        image = Template("t", {"t": "{% for i in range(20000) %}a{% endfor %}"}).compile()
        with Counted() as counted:

            def work():
                try:
                    while True:
                        self.assertEqual(len(image.run()), 20000)
                except ValueError:
                    pass

            def close():
                image.close()
                self.held.add()

            closer = threading.Timer(0.2, close)
            closer.start()
            in_threads(4, work)
            closer.join()
            self.assertEqual(counted.left(), ([], {}, set()))

    def test_a_signal_handler_may_render(self):
        if threading.current_thread() is not threading.main_thread():
            self.skipTest("signals reach the main thread alone")
        image, context = Template("t", {"t": "{{ n }}"}).compile(), Context({"n": 7})
        found = []

        def render(*_):
            found.append(image.run(context))
            # (A signal that comes again by itself could come within this handler, if that is slow.)
            signal.setitimer(signal.ITIMER_REAL, 0.001)

        before = signal.signal(signal.SIGALRM, render)
        signal.setitimer(signal.ITIMER_REAL, 0.001)
        try:
            while len(found) < 50:
                self.assertEqual(image.run(context), "7")
                Context({"n": 8}).close()
        finally:
            signal.setitimer(signal.ITIMER_REAL, 0)
            signal.signal(signal.SIGALRM, before)
        self.assertEqual(set(found), {"7"})

    def test_pickling(self):
        context = Context({"n": "<"})
        template = Template("t", {"t": "{{ n }}\n"}, Options(keep_trailing_newline=True))
        for protocol in range(2, pickle.HIGHEST_PROTOCOL + 1):

            def again(it, protocol=protocol):
                return pickle.loads(pickle.dumps(it, protocol))

            self.assertEqual(again(template.compile()).run(again(context)), "&lt;\n")
            self.assertEqual(again(template).render({"n": 7}), "7\n")
            templates = again(Templates({"t": "{{ n }}"}))
            self.assertEqual(templates.template("t").render({"n": 7}), "7")
            self.assertEqual(again(Budget(fuel=7)), Budget(fuel=7))
            for error in (
                Fault(2, "page", 3),
                Fault(5, None, None),
                Spent("fuel"),
                Refused("P1 Syntax in t line 2", "t"),
                Refused("V3 NotCallable", "t", 't:2: V3 NotCallable "f"\n  {{ f() }}\n  no\n'),
                ContextError("X3 NotWhole", "a.b", "a float"),
                NoMemory(),
                JtError("x"),
            ):
                other = again(error)
                self.assertEqual(type(other), type(error))
                self.assertEqual(str(other), str(error))
                self.assertEqual(vars(other), vars(error))
                self.assertEqual(vars(type(error)(*error.args)), vars(error))
        self.assertEqual(copy.copy(template.compile()).run({"n": 7}), "7\n")


class Folders(Holding):
    def test_a_folder(self):
        with tempfile.TemporaryDirectory() as folder:
            for name, data in {
                "page.html": b"{% extends 'parts/base.html' %}"
                b"{% block b %}{{ n }}\r\n{% endblock %}",
                "parts/base.html": "é{% block b %}{% endblock %}".encode(),
                "parts/.hidden": b"h",
                ".git/config": b"x",
                "logo.png": b"\x89PNG\xff",
                "large": b"a" * 1_048_577,
                "most": b"a" * 1_048_576,
                "wide": b"a" + "é".encode() * 600_000,
                "cut": b"a\xc3",
                "long.bin": b"a" * 1_048_570 + b"\xff" * 20,
            }.items():
                path = pathlib.Path(folder) / name
                path.parent.mkdir(exist_ok=True)
                path.write_bytes(data)
            os.symlink("/etc/passwd", os.path.join(folder, "link"))
            os.symlink("/etc", os.path.join(folder, "links"))
            os.mkfifo(os.path.join(folder, "pipe"))
            (pathlib.Path(os.fsdecode(os.fsencode(folder) + b"/\xff"))).write_bytes(b"x")
            templates = Templates.from_folder(pathlib.Path(folder))
            also = Templates.from_folder(folder, Options(keep_trailing_newline=True))
        wanted = ["large", "most", "page.html", "parts/.hidden", "parts/base.html", "wide"]
        self.assertEqual(sorted(templates.sources), wanted)
        # (the folder is gone)
        self.assertEqual(templates.template("page.html").render({"n": 7}), "é7\n")
        self.assertEqual(len(templates.template("most").render(None, Budget(output=2**21))), 2**20)
        self.assertTrue(also.options.keep_trailing_newline)
        self.assertIs(templates.template("most"), templates.template("most"))
        codes = {"large": "S7", "wide": "S7", "no": "C1", "link": "C1", "logo.png": "C1"}
        for name, code in codes.items():
            with self.assertRaises(Refused) as caught:
                templates.template(name).compile()
            self.assertEqual(caught.exception.code, code)
        with self.assertRaises(FileNotFoundError):
            Templates.from_folder(folder)
        with self.assertRaises(TypeError):
            templates.sources["x"] = "y"


@unittest.skipUnless((ROOT / "examples").is_dir(), "no examples/")
class Examples(Holding):
    def cases(self):
        for folder in sorted(file.parent for file in (ROOT / "examples").glob("*/command")):
            entry, *words = (folder / "command").read_text().split()
            chosen = {
                word.replace("--no-", "").replace("--", "").replace("-", "_"): "--no-" not in word
                for word in words
            }
            context = json.loads((folder / "context.json").read_text())
            wanted = (folder / "expected").read_bytes().decode()
            yield folder / "templates", entry, Options(**chosen), context, wanted

    def test_each_example(self):
        for folder, entry, options, context, wanted in self.cases():
            template = Templates.from_folder(folder, options).template(entry)
            self.assertEqual(template.render(context), wanted)
            self.assertEqual(template.compile().run(Context(context)), wanted)

    def test_each_example_in_jinja(self):
        try:
            import jinja2
        except ImportError:
            self.skipTest("jinja2 is not installed")
        count = 0
        for folder, entry, options, context, wanted in self.cases():
            chosen = {name: getattr(options, name) for name in Options.__dataclass_fields__}
            # (Jinja has a class for strict templates.)
            chosen["undefined"] = jinja2.StrictUndefined if chosen.pop("strict") else jinja2.Undefined
            loader = jinja2.FileSystemLoader(folder)
            page = jinja2.Environment(loader=loader, **chosen).get_template(entry)
            self.assertEqual(page.render(context), wanted)
            found = Templates.from_folder(folder, options).template(entry).render(context)
            self.assertEqual(page.render(context), found)
            count += 1
        self.assertEqual(count, 3)

    def test_the_names_of_faults_and_spent_numbers_are_those_of_the_documents(self):
        page = (ROOT / "docs" / "errors.md").read_text(encoding="utf-8")
        faults = re.findall(r"^### F(\d) (\w+)$", page, re.M)
        self.assertEqual({int(number): name for number, name in faults}, jt._errors.FAULTS)


class Surface(Holding):
    def test_names(self):
        self.assertRegex(jt.__version__, r"^\d+\.\d+\.\d+$")
        self.assertIn(jt.library_version, (jt.__version__, jt.__version__ + "-unproved"))
        with self.assertRaises(ImportError):
            jt._library.check_version("0.0.9")
        for name in jt.__all__:
            if name != "library_version":
                self.assertTrue(inspect.isclass(getattr(jt, name)), name)
        self.assertTrue((pathlib.Path(jt.__file__).parent / "py.typed").exists())

    def test_each_call_has_its_types_and_a_sentence(self):
        kinds = (getattr(jt, name) for name in jt.__all__)
        for kind in filter(inspect.isclass, kinds):
            self.assertTrue(kind.__doc__, kind)
            for name, call in vars(kind).items():
                call = getattr(call, "__func__", getattr(call, "fget", call))
                code = getattr(call, "__code__", None)
                if code and code.co_filename.startswith(os.path.dirname(jt.__file__)):
                    hints = call.__annotations__
                    names = set(inspect.signature(call).parameters) - {"self", "cls"}
                    self.assertEqual(names - set(hints), set(), f"{kind.__name__}.{name}")
                    self.assertIn("return", hints, f"{kind.__name__}.{name}")
                    if not name.startswith("_"):
                        self.assertTrue(call.__doc__, f"{kind.__name__}.{name}")

    def test_errors_have_one_base(self):
        for kind in (Fault, Spent, Refused, ContextError, NoMemory):
            self.assertTrue(issubclass(kind, JtError))


if __name__ == "__main__":
    unittest.main()
