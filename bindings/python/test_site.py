"""Tests of examples/site/build.py, by unittest: it builds what has changed, and misses nothing."""
import contextlib
import importlib.util
import io
import json
import pathlib
import tempfile
import unittest

SITE = pathlib.Path(__file__).resolve().parents[2] / "examples" / "site"
COUNT = 60


def module(name):
    """Returns a module of the example."""
    spec = importlib.util.spec_from_file_location(name, SITE / f"{name}.py")
    found = importlib.util.module_from_spec(spec)
    spec.loader.exec_module(found)
    return found


build, generate = module("build"), module("generate")


def pages(is_one):
    """Returns the names of the pages whose numbers a function picks."""
    return {f"{at:03}.html" for at in range(COUNT) if is_one(at)}


class Sites(unittest.TestCase):
    def setUp(self):
        room = tempfile.TemporaryDirectory()
        self.addCleanup(room.cleanup)
        self.room, self.others = pathlib.Path(room.name), 0
        self.site, self.out = self.room / "site", self.room / "out"
        self.templates = self.site / "templates"
        generate.main(self.site, COUNT)
        self.assertEqual(self.built(), pages(lambda at: True))

    def run_it(self, out):
        """Runs the builder. Returns its status and what it prints, but for the last line."""
        said = io.StringIO()
        with contextlib.redirect_stdout(said):
            status = build.main(self.site, out)
        *lines, last = said.getvalue().splitlines()
        self.assertRegex(last, rf"^{len(lines)} of \d+ pages were built in \d+\.\d\d s$")
        return status, lines

    def built(self, why=None):
        """Builds, and returns the pages that were built, for this reason if one is given.

        Then all files are those of a build from nothing.
        """
        status, lines = self.run_it(self.out)
        self.assertEqual(status, 0)
        found = dict(line.split(": ", 1) for line in lines)
        if why is not None:
            self.assertLessEqual(set(found.values()), {why})
        self.others += 1
        other = self.room / str(self.others)
        self.assertEqual(self.run_it(other)[0], 0)
        self.assertEqual(self.files(self.out), self.files(other))
        return set(found)

    @staticmethod
    def files(folder):
        """Returns the files of a folder, but for what pages were built of."""
        found = {it.relative_to(folder): it for it in folder.rglob("*") if it.is_file()}
        del found[pathlib.Path(".built.json")]
        return {name: it.read_bytes() for name, it in found.items()}

    def change(self, name, source):
        (self.templates / name).write_text(source)

    def values(self, **changed):
        path = self.site / "site.json"
        path.write_text(json.dumps({**json.loads(path.read_text()), **changed}))

    def test_nothing_has_changed(self):
        self.assertEqual(self.built(), set())
        # the sources were written again, and the values in another order
        generate.main(self.site, COUNT)
        path = self.site / "site.json"
        path.write_text(json.dumps(dict(reversed(json.loads(path.read_text()).items()))))
        self.assertEqual(self.built(), set())

    def test_a_part(self):
        self.change("parts/07.html", "<p>Boil it.</p>")
        wanted = pages(lambda at: at % generate.PARTS == 7)
        self.assertEqual(self.built("template parts/07.html"), wanted)
        # a value that it did not need before
        self.change("parts/07.html", "<p>{{ grams }}</p>")
        self.assertEqual(self.built("template parts/07.html"), wanted)
        self.values(grams=3)
        self.assertEqual(self.built("value grams"), wanted)

    def test_a_layout(self):
        self.change("layout.html", "{% block title %}{% endblock %}{% block content %}{% endblock %}")
        self.assertEqual(self.built("template layout.html"), pages(lambda at: True))
        # no page prints it any more
        self.values(year=2027)
        self.assertEqual(self.built(), set())

    def test_a_value(self):
        self.values(offer="Assam")
        self.assertEqual(self.built("value offer"), pages(lambda at: at % generate.OFFERS == 0))
        self.values(nobody="reads it")
        self.assertEqual(self.built(), set())
        # the order of keys counts: a loop shows it
        self.values(site={"language": "en", "name": "Tea & Toast"})
        self.assertEqual(self.built("value site"), pages(lambda at: True))

    def test_a_template_that_was_missing(self):
        wanted = pages(lambda at: at % generate.NOTICES == 0)
        for source in ("{{ notice }}", "closed"):
            self.change("notice.html", source)
            self.assertEqual(self.built("template notice.html"), wanted)
        (self.templates / "notice.html").unlink()
        self.assertEqual(self.built("template notice.html"), wanted)

    def test_pages_come_and_go(self):
        (self.templates / "pages/010.html").unlink()
        (self.templates / "pages/more").mkdir()
        self.change("pages/more/new.html", "{{ year }}")
        self.assertEqual(self.built("not built yet"), {"more/new.html"})
        self.assertFalse((self.out / "010.html").exists())

    def test_files_that_somebody_changed(self):
        (self.out / "001.html").write_text("")
        (self.out / "002.html").unlink()
        self.assertEqual(self.built("its file"), {"001.html", "002.html"})

    def test_a_page_that_fails(self):
        before = (self.out / "001.html").read_bytes()
        for source, said in (("{{ 1 + }}", "P1 Syntax"), ("{{ nope + 1 }}", "fault F2 Undefined")):
            self.change("pages/001.html", source)
            for _ in range(2):
                status, lines = self.run_it_failing()
                self.assertEqual((status, len(lines)), (1, 1))
                self.assertRegex(lines[0], f"^001.html: failed: .*{said}")
                self.assertEqual((self.out / "001.html").read_bytes(), before)
        self.change("pages/001.html", "well")
        self.assertEqual(self.built("not built yet"), {"001.html"})

    def run_it_failing(self):
        """Runs the builder where no page is built."""
        said = io.StringIO()
        with contextlib.redirect_stdout(said):
            status = build.main(self.site, self.out)
        *lines, last = said.getvalue().splitlines()
        self.assertTrue(last.startswith("0 of "), last)
        return status, [line for line in lines if not line.startswith(" ")]

    def test_other_rules(self):
        self.addCleanup(setattr, build, "BUDGET", build.BUDGET)
        build.BUDGET = build.Budget(fuel=50_000)
        self.assertEqual(self.built("not built yet"), pages(lambda at: True))


if __name__ == "__main__":
    unittest.main()
