#!/usr/bin/env python3
"""Tries the playground in a Chromium without a screen: bindings/python/test_browser.py [--pictures DIR]

bindings/test.sh runs it, with JT_LIBRARY and PYTHONPATH set. `--pictures` writes the pictures of
docs/editors.md into a folder. Without a Chromium it is skipped. The last line is 'N passed, M failed'.
"""
import pathlib
import re
import subprocess
import sys
import unittest

sys.dont_write_bytecode = True
sys.path.insert(0, str(pathlib.Path(__file__).resolve().parent))
import chromium  # noqa: E402
from test_lsp import finished  # noqa: E402

# What the server's process may hold at most, in KiB.
MOST_MEMORY = 1_500_000
LOOPS = "{% for a in range(100000) %}{% for b in range(100000) %}{% endfor %}{% endfor %}"
PICTURES = None


@unittest.skipUnless(chromium.find(), "Chromium is not installed")
class Page(unittest.TestCase):
    """One server and one browser for all tests; each test begins with the page anew."""

    @classmethod
    def setUpClass(cls):
        words = [sys.executable, "-W", "ignore", "-m", "jt", "playground"]
        cls.server = subprocess.Popen(words, stdout=subprocess.PIPE, text=True)
        cls.address = cls.server.stdout.readline().strip()
        cls.browser = chromium.Browser()

    @classmethod
    def tearDownClass(cls):
        cls.browser.__exit__()
        cls.server.kill()
        cls.server.wait()
        cls.server.stdout.close()

    def setUp(self):
        self.browser.open("about:blank")
        self.browser.wait("location.href === 'about:blank'")
        self.browser.open(self.address)
        self.wait("document.getElementById('status').className === 'good'")

    def tearDown(self):
        """The page and the server live, the server within its memory."""
        self.assertEqual(self.browser.value("1 + 1"), 2)
        self.assertIsNone(self.server.poll())
        status = pathlib.Path(f"/proc/{self.server.pid}/status").read_text()
        self.assertLess(int(re.search(r"VmHWM:\s*(\d+)", status)[1]), MOST_MEMORY)
        wrong = [it["params"] for it in self.browser.notes if it.get("method") == "Runtime.exceptionThrown"]
        self.assertEqual(wrong, [])

    def wait(self, code, seconds=chromium.PATIENCE):
        return self.browser.wait(code, seconds)

    def select(self, name):
        """Goes to the tab of a name, as a click does."""
        self.browser.value(f"[...document.querySelectorAll('#tabs button')].find(it => it.textContent.includes('{name}')).click()")

    def type(self, text):
        """Types a text in place of the one that is open."""
        self.browser.value("at('source').focus(); at('source').select()")
        self.browser.type(text)

    def status(self, kind):
        """Waits for a state of the answer, and returns what the page says."""
        self.wait(f"!isStale && !isBusy && answer && answer.status === '{kind}'", 60)
        return self.browser.value("at('status').textContent")

    def only(self, source, context="{}"):
        """Types one template and a context."""
        self.select("context")
        self.type(context)
        self.select("page.html")
        self.type(source)

    def keep(self, name):
        """Writes a picture, if pictures are wanted."""
        if PICTURES:
            self.browser.value("new Promise(done => setTimeout(done, 400))")
            pathlib.Path(PICTURES, name).write_bytes(self.browser.picture())

    def test_a_template_is_typed(self):
        self.only("Hello {{ name }}!", '{"name": "<World>"}')
        self.wait("at('text').textContent === 'Hello &lt;World&gt;!'")
        self.assertIn("bytes", self.status("text"))

    def test_a_mistake_is_marked_and_mended(self):
        self.only("a\n{{ name|uper }}", '{"name": "x"}')
        self.assertIn("P3 UnknownFilter", self.status("refused"))
        self.assertEqual(self.wait("document.querySelector('#behind u')?.textContent"), "uper")
        self.assertIn("no filter is called", self.browser.value("at('text').textContent"))
        self.assertEqual(self.browser.value("document.querySelector('#tabs .wrong').textContent"), "page.html")
        box = self.browser.value("JSON.stringify(document.querySelector('#behind u').getBoundingClientRect())")
        self.assertIn('"width"', box)
        self.browser.value("document.querySelector('[data-view=marks]').click()")
        self.browser.value("[...document.querySelectorAll('#list button')].find(it => it.textContent === 'write upper').click()")
        self.status("text")
        self.assertEqual(self.browser.value("at('source').value"), "a\n{{ name|upper }}")
        self.assertIsNone(self.browser.value("document.querySelector('#behind u')"))

    def test_a_fault_and_the_bars(self):
        self.only("{{ a.b }}")
        self.assertIn("F2", self.status("fault"))
        self.assertEqual(self.wait("document.querySelector('#behind u.warn')?.textContent"), "{{ a.b }}")
        self.type("abc")
        self.status("text")
        self.assertIn("3 of", self.wait("at('bar-output').title"))
        self.browser.value("at('budget-output').value = 1; at('budget-output').dispatchEvent(new Event('input'))")
        self.assertIn("spent output", self.status("spent"))
        self.assertTrue(self.browser.value("at('bar-output').classList.contains('spent')"))

    def test_options(self):
        self.only("{{ a }}", '{"a": "<"}')
        self.status("text")
        self.browser.value("document.querySelectorAll('#options input')[3].click()")
        self.wait("at('text').textContent === '<'")

    def test_the_instructions_with_their_lines(self):
        self.browser.value("document.querySelector('[data-view=listing]').click()")
        rows = self.wait("[...document.querySelectorAll('#listing tbody tr')].map(it => it.innerText)")
        self.assertTrue(any("base.html:3" in row and "self.title()" in row for row in rows), rows[:5])
        self.assertTrue(any("GLoad" in row and "lines" in row for row in rows), rows[:20])
        self.assertIn("instructions", self.browser.value("document.querySelector('#listing p').textContent"))

    def test_the_keyboard(self):
        self.browser.key("2", 1, 50)
        self.assertEqual(self.browser.value("current"), "base.html")
        self.assertEqual(self.browser.value("document.activeElement.id"), "source")
        self.browser.key("Escape", 0, 27)
        self.assertEqual(self.browser.value("document.activeElement.getAttribute('role')"), "tab")
        self.browser.key("ArrowRight", 0, 39)
        self.wait("current === 'shop.html'")
        self.browser.key("n", 1, 78)
        self.wait("current === 'new1.html'")
        self.browser.type("{{ x|uper }}")
        self.wait("document.querySelector('#behind u')?.textContent === 'uper'")
        self.browser.key("1", 1, 49)
        self.browser.key("F8", 0, 119)
        self.wait("current === 'new1.html' && at('source').selectionEnd - at('source').selectionStart === 4")
        names = self.browser.value("[...document.querySelectorAll('button, input:not([hidden]), textarea')].filter(it => !(it.textContent || it.ariaLabel || it.labels?.length || it.getAttribute('aria-label'))).length")
        self.assertEqual(names, 0, "a control has no name")

    def test_saved_and_opened(self):
        self.only("{{ a }}", '{"a": 7}')
        self.status("text")
        self.browser.value("""
            window.saved = null;
            const create = URL.createObjectURL;
            URL.createObjectURL = blob => { blob.text().then(it => { window.saved = it; }); return create(blob); };
        """)
        self.browser.key("s", 2, 83)
        self.wait("window.saved")
        self.type("other")
        self.wait("at('text').textContent === 'other'")
        self.browser.value("load(new File([window.saved], 'a.json'))")
        self.wait("at('text').textContent === '7'")
        self.browser.value("load(new File(['{}'], 'a.json'))")
        self.wait("at('status').textContent.startsWith('the file was not opened')")

    def test_ten_megabytes(self):
        self.browser.value("at('source').value = 'x{{ a }}'.repeat(1310720); at('source').dispatchEvent(new Event('input'))")
        self.assertIn("not asked", self.status("misuse"))
        self.type("small")
        self.wait("at('text').textContent === 'small'")

    def test_a_large_text(self):
        self.only("{% for a in range(100000) %}<b>xxxxx</b>\n{% endfor %}")
        self.browser.value("at('budget-output').value = 100000000; at('budget-output').dispatchEvent(new Event('input'))")
        self.wait("['text', 'deadline', 'spent'].includes(answer?.status) && !isStale && !isBusy", 60)

    def test_an_endless_loop(self):
        self.only(LOOPS)
        self.browser.value("at('budget-fuel').value = 1e15; at('budget-fuel').dispatchEvent(new Event('input'))")
        self.wait("['deadline', 'spent'].includes(answer?.status) && !isStale && !isBusy", 60)
        self.type("after")
        self.wait("at('text').textContent === 'after'")

    def test_a_script_never_runs(self):
        script = "<script>parent.document.title = document.title = 'run'</script><img src=x onerror=\"parent.document.title='run'\"><a href=\"javascript:parent.document.title='run'\">a</a>"
        self.only(script + "{{ a|safe }}", '{"a": "<svg onload=alert(1)>"}')
        self.status("text")
        self.browser.value("document.querySelector('[data-view=page]').click()")
        self.wait("at('page').srcdoc.includes('script')")
        self.browser.value("new Promise(done => setTimeout(done, 700))")
        self.assertEqual(self.browser.value("document.title"), "jt playground")
        self.assertEqual(self.browser.value("at('page').getAttribute('sandbox')"), "")
        self.assertEqual(self.browser.value("at('page').contentDocument"), None)
        # Names, texts and messages are shown as texts too.
        self.browser.value("state.templates['<img src=x onerror=document.title=1>'] = '{{ \"<b>\"|uper }}'; open('<img src=x onerror=document.title=1>'); later(0)")
        self.wait("!isStale && !isBusy && document.querySelectorAll('#list li').length")
        self.assertEqual(self.browser.value("document.querySelectorAll('#tabs img, #list img, #behind b, #said img').length"), 0)
        self.assertEqual(self.browser.value("document.title"), "jt playground")

    def test_nothing_is_asked_of_the_internet(self):
        asked = [it["params"]["request"]["url"] for it in self.browser.notes if it.get("method") == "Network.requestWillBeSent"]
        here = self.address.partition("/?")[0]
        self.assertTrue(asked)
        self.assertEqual([it for it in asked if not it.startswith((here, "data:", "about:", "blob:"))], [])

    def test_another_page_cannot_ask(self):
        token = self.address.partition("token=")[2]
        here = self.address.partition("/?")[0]
        self.browser.open("data:text/html,<title>other</title>")
        self.wait("document.title === 'other'")
        code = f"fetch('{here}/state', {{method: 'POST', headers: {{'X-Jt-Token': '{token}'}}, body: '{{}}'}}).then(it => 'answered', () => 'refused')"
        self.assertEqual(self.browser.value(code), "refused")
        code = f"fetch('{here}/try', {{method: 'POST', mode: 'no-cors', body: '{{}}'}}).then(it => it.type + it.status, () => 'refused')"
        self.assertIn(self.browser.value(code), ("opaque0", "refused"))

    def test_both_themes(self):
        self.select("page.html")
        source = self.browser.value("at('source').value").replace("|upper", "|uper")
        self.type(source)
        self.status("refused")
        backs = []
        for theme in ("dark", "light"):
            self.browser.theme(theme)
            self.wait(f"document.documentElement.dataset.theme === '{theme}'")
            backs.append(self.browser.value("getComputedStyle(document.body).backgroundColor"))
            self.assertGreater(len(self.browser.picture()), 10_000)
        self.assertNotEqual(*backs)
        self.keep("playground-light.png")
        self.browser.value("fix(answer.marks[0], answer.marks[0].fixes[0])")
        self.status("text")
        self.browser.theme("dark")
        self.browser.value("document.querySelector('[data-view=listing]').click()")
        self.wait("document.querySelectorAll('#listing tr').length")
        self.keep("playground-dark.png")
        self.browser.theme("light")


if __name__ == "__main__":
    if "--pictures" in sys.argv:
        PICTURES = sys.argv[sys.argv.index("--pictures") + 1]
    finished()
