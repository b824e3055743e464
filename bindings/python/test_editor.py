#!/usr/bin/env python3
"""Tries editors/ in the editors: bindings/python/test_editor.py

bindings/test.sh runs it, with JT_LIBRARY and PYTHONPATH set. Each editor opens a template with mistakes
by its own client, and what it shows is compared with what is wanted. One that is not installed is
skipped. The last line is 'N passed, M failed'.
"""
import json
import os
import pathlib
import re
import shutil
import subprocess
import sys
import unittest

sys.dont_write_bytecode = True
HERE = pathlib.Path(__file__).resolve().parent
sys.path.insert(0, str(HERE))
from test_lsp import CONTEXT, SITE, a_folder, finished  # noqa: E402

EDITORS = HERE.parent.parent / "editors"
SECONDS = 120
SERVER = [sys.executable, "-W", "ignore", "-m", "jt", "lsp"]

# What Neovim does: it opens a template, asks what a person would ask, mends and types.
NEOVIM = r"""
local found = {}
local wait = function(wanted)
  return vim.wait(20000, function() return wanted(vim.diagnostic.get(0)) end, 20)
end
local shown = function()
  local all = {}
  for _, it in ipairs(vim.diagnostic.get(0)) do
    table.insert(all, {it.lnum, it.col, it.end_lnum, it.end_col, it.code, it.severity, it.message})
  end
  table.sort(all, function(a, b) return a[1] * 1000 + a[2] < b[1] * 1000 + b[2] end)
  return all
end
local ask = function(method, line, column, more)
  local asked = vim.tbl_extend("force", {
    textDocument = {uri = vim.uri_from_bufnr(0)}, position = {line = line, character = column},
  }, more or {})
  local answers = vim.lsp.buf_request_sync(0, "textDocument/" .. method, asked, 20000)
  for _, answer in pairs(answers or {}) do return answer.result end
end
local labels = function(line, column)
  local all = {}
  for _, it in ipairs(ask("completion", line, column) or {}) do table.insert(all, it.label) end
  return all
end
local ok, wrong = pcall(function()
  vim.cmd("edit templates/page.html")
  found.filetype = vim.bo.filetype
  found.whole = wait(function(it) return #it == 3 end)
  found.diagnostics = shown()
  found.filters = labels(4, 15)
  found.macros = labels(5, 11)
  found.fields = labels(4, 31)
  found.hover = ask("hover", 5, 12).contents.value
  found.block = ask("hover", 2, 10).contents.value
  found.definition = ask("definition", 5, 12)
  found.references = ask("references", 5, 12, {context = {includeDeclaration = true}})
  found.symbols = ask("documentSymbol", 0, 0)
  found.folding = ask("foldingRange", 0, 0)
  local range = {start = {line = 4, character = 15}, ["end"] = {line = 4, character = 19}}
  local actions = ask("codeAction", 4, 15, {range = range, context = {diagnostics = {}}})
  found.action = actions[1].title
  vim.lsp.util.apply_workspace_edit(actions[1].edit, "utf-16")
  found.mended = wait(function(it) return #it == 2 end)
  found.line = vim.api.nvim_buf_get_lines(0, 4, 5, true)[1]
  -- The rest is typed as a person does it.
  vim.api.nvim_buf_set_lines(0, 4, 5, true, {"  {{ item.name|upper }} {{ loop.index }}"})
  vim.api.nvim_win_set_cursor(0, {6, 35})
  vim.cmd("normal! cwuser")
  found.typed = wait(function(it) return #it == 0 end)
  found.rest = shown()
  found.text = vim.api.nvim_buf_get_lines(0, 4, 6, true)
  vim.wait(20000, function()
    found.lens = ask("codeLens", 0, 0)
    return found.lens and #found.lens > 0
  end, 50)
  vim.cmd("normal! ggOA mistake: {{ 1 is evn }}")
  found.late = wait(function(it) return #it > 0 and it[1].code == "P1" or #it > 0 end)
  found.last = shown()
end)
found.wrong = not ok and tostring(wrong) or nil
local file = io.open("found.json", "w")
file:write(vim.fn.json_encode(found))
file:close()
vim.cmd("qa!")
"""


def a_site(test):
    """Returns the path of a project with templates and a context."""
    files = {f"templates/{name}": source for name, source in SITE.items()}
    return a_folder(test, {**files, "context.json": json.dumps(CONTEXT)})


def names(places):
    return sorted(pathlib.Path(it["uri"]).name for it in places)


@unittest.skipUnless(shutil.which("nvim"), "Neovim is not installed")
class Neovim(unittest.TestCase):
    def test_its_own_client(self):
        site = a_site(self)
        script = pathlib.Path(site, "try.lua")
        script.write_text(NEOVIM)
        command = ", ".join(json.dumps(it) for it in SERVER)
        words = [
            "nvim", "--headless", "-u", "NONE", "-i", "NONE", "-n",
            "--cmd", f"set runtimepath^={EDITORS / 'vim'} | filetype plugin on | syntax on",
            "-c", f'lua require("jt").setup{{cmd = {{{command}}}, context = "context.json"}}',
            "-c", f"luafile {script}",
        ]
        room = {"XDG_STATE_HOME": site, "XDG_DATA_HOME": site, "XDG_CONFIG_HOME": site, "XDG_CACHE_HOME": site}
        done = subprocess.run(words, cwd=site, env={**os.environ, **room}, capture_output=True, timeout=SECONDS)
        self.assertTrue(pathlib.Path(site, "found.json").exists(), done.stderr.decode()[-2000:])
        found = json.loads(pathlib.Path(site, "found.json").read_text())
        self.assertNotIn("wrong", found)
        self.compare(found)

    def compare(self, found):
        self.assertEqual(found["filetype"], "jinja")
        self.assertEqual([it[:6] for it in found["diagnostics"]], [
            [4, 15, 4, 19, "P3", 1], [4, 31, 4, 35, "V1", 1], [5, 35, 5, 38, "undefined", 2],
        ])
        self.assertEqual(found["diagnostics"][0][6], 'no filter is called "uper"; did you mean "upper"?')
        self.assertIn("upper", found["filters"])
        self.assertIn("selectattr", found["filters"])
        self.assertEqual(found["macros"], ["price"])
        self.assertIn("revindex0", found["fields"])
        self.assertIn('macro price(amount, currency="EUR")', found["hover"])
        self.assertIn("An amount with its currency.", found["hover"])
        self.assertIn("replaces the block of base.html", found["block"])
        self.assertEqual(pathlib.Path(found["definition"]["uri"]).name, "forms.html")
        self.assertEqual(found["definition"]["range"]["start"], {"line": 1, "character": 9})
        self.assertEqual(names(found["references"]), ["forms.html", "page.html"])
        self.assertEqual([it["name"] for it in found["symbols"]], ["body", "forms"])
        self.assertEqual([(it["startLine"], it["endLine"]) for it in found["folding"]], [(2, 7), (3, 6)])
        self.assertEqual(found["action"], "write upper")
        self.assertIn("|upper }}", found["line"])
        for name in ("whole", "mended", "typed", "late"):
            self.assertTrue(found[name], (name, found["rest"], found["text"], found["last"]))
        self.assertIn("context.json", found["lens"][0]["command"]["title"])


# What Vim does: it opens a template, and after some seconds writes what ALE shows.
VIM = """
set nocompatible nomore
set runtimepath^={editors}/vim
filetype plugin on
syntax on
packadd! ale
let g:jt_command = '{server}'
let g:jt_options = {{'context': 'context.json'}}
let g:ale_linters = {{'jinja': ['jt']}}
source {editors}/vim/ale.vim
let g:left = 100
function! Look(timer)
  let g:left -= 1
  let l:found = ale#engine#GetLoclist(bufnr(''))
  if len(l:found) >= 3 || g:left == 0
    call writefile([json_encode({{'filetype': &filetype, 'found': l:found}})], 'found.json')
    call timer_start(10, {{-> execute('qall!')}})
  else
    call timer_start(200, 'Look')
  endif
endfunction
call timer_start(200, 'Look')
"""

# What Emacs does: it opens a template and starts the server by eglot.
EMACS = r"""
(require 'package)
(package-initialize)
(require 'eglot)
(setq eglot-sync-connect 20 make-backup-files nil eglot-events-buffer-size 0)
(setq jt-command (split-string (getenv "SERVER") "\n") jt-context "context.json")
(find-file "templates/page.html")
(apply #'eglot (eglot--guess-contact))
(dotimes (at 400)
  (unless (>= (length (flymake-diagnostics)) 3)
    (when (= (% at 40) 39)
      (flymake-start))
    (accept-process-output nil 0.05)))
(dolist (it (sort (flymake-diagnostics) (lambda (a b) (< (flymake-diagnostic-beg a) (flymake-diagnostic-beg b)))))
  (princ (format "%s %s %s\n" (buffer-substring (flymake-diagnostic-beg it) (flymake-diagnostic-end it))
                 (flymake-diagnostic-type it) (flymake-diagnostic-text it))))
(goto-char (point-min))
(search-forward "price")
(backward-char 2)
(call-interactively #'xref-find-definitions)
(princ (format "%s %s\n" (file-name-nondirectory (buffer-file-name (window-buffer))) (buffer-substring (point) (+ (point) 5))))
"""


def vim_with_ale():
    """Returns the path of a Vim that can start a server and has the plugin ALE, or nothing."""
    for name in ("vim.nox", "vim.gtk3", "vim"):
        words = [name, "-Es", "-u", "NONE", "-c", "set nocompatible", "-c", "verbose echo has('job') has('timers')",
                 "-c", "packadd ale", "-c", "verbose echo exists(':ALEInfo')", "-c", "qa!"]
        if shutil.which(name):
            done = subprocess.run(words, stdin=subprocess.DEVNULL, capture_output=True, text=True)
            if (done.stdout + done.stderr).split() == ["1", "1", "2"]:
                return name
    return None


class Vim(unittest.TestCase):
    def test_ale(self):
        vim = vim_with_ale()
        if vim is None:
            self.skipTest("Vim with ALE is not installed")
        site = a_site(self)
        script = VIM.format(editors=EDITORS, server=" ".join(SERVER))
        pathlib.Path(site, "vimrc").write_text(script)
        # (Vim reads its timers only while it waits for keys of a terminal.)
        words = [vim, "-N", "-i", "NONE", "-n", "-u", f"{site}/vimrc", "templates/page.html"]
        spawn = f"import pty; pty.spawn({words!r})"
        room = {**os.environ, "TERM": "xterm", "HOME": site}
        subprocess.run([sys.executable, "-c", spawn], cwd=site, env=room, stdin=subprocess.DEVNULL,
                       stdout=subprocess.DEVNULL, timeout=SECONDS)
        found = json.loads(pathlib.Path(site, "found.json").read_text())
        self.assertEqual(found["filetype"], "jinja")
        wanted = [(5, 16, "P3", "E"), (5, 32, "V1", "E"), (6, 36, "undefined", "W")]
        self.assertEqual([(it["lnum"], it["col"], it["code"], it["type"]) for it in found["found"]], wanted)


@unittest.skipUnless(shutil.which("emacs"), "Emacs is not installed")
class Emacs(unittest.TestCase):
    def test_its_mode(self):
        """The mode reads a template, highlights it, and names its server to eglot."""
        site = a_site(self)
        code = (
            '(progn (find-file "templates/page.html") (font-lock-ensure) '
            '(princ (format "%S %S %S" major-mode (get-text-property 4 (quote face)) (jt--settings))))'
        )
        words = ["emacs", "--batch", "-Q", "-l", str(EDITORS / "emacs" / "jt.el"), "--eval", '(setq jt-context "c.json")', "--eval", code]
        done = subprocess.run(words, cwd=site, capture_output=True, text=True, timeout=SECONDS, env={**os.environ, "HOME": site})
        self.assertEqual(done.stdout, 'jt-mode font-lock-keyword-face (:context "c.json")', done.stderr)


    def test_eglot(self):
        """The server of eglot shows what it finds, and goes to a definition."""
        site = a_site(self)
        # (Without the site's files Emacs does not find Debian's packages.)
        command = ["emacs", "--batch", "-q", "-l", str(EDITORS / "emacs" / "jt.el")]
        asked = "(progn (require 'package) (package-initialize) (princ (locate-library \"eglot\")))"
        room = {**os.environ, "HOME": site, "SERVER": "\n".join(SERVER)}
        there = subprocess.run([*command, "--eval", asked], capture_output=True, text=True, env=room, timeout=SECONDS)
        if "eglot" not in there.stdout:
            self.skipTest("eglot is not installed")
        script = pathlib.Path(site, "try.el")
        script.write_text(EMACS)
        subprocess.run(["git", "init", "-q", site], check=True)
        done = subprocess.run([*command, "-l", str(script)], cwd=site, capture_output=True, text=True, env=room, timeout=SECONDS)
        lines = done.stdout.splitlines()
        marked = [it.split()[0] for it in lines]
        self.assertEqual(marked, ["uper", "indx", "usr", "forms.html"], done.stderr[-3000:])
        self.assertIn('did you mean "upper"?', lines[0])
        self.assertEqual(lines[-1], "forms.html price")


class Code(unittest.TestCase):
    """The extension for VS Code, which is not run here: its files are read, and its script is called."""

    FOLDER = EDITORS / "vscode"

    def test_its_grammar(self):
        grammar = json.loads((self.FOLDER / "syntaxes" / "jt.tmLanguage.json").read_text())
        package = json.loads((self.FOLDER / "package.json").read_text())
        self.assertEqual(package["contributes"]["grammars"][0]["scopeName"], grammar["scopeName"])
        for name in ("language-configuration.json", "extension.js", "syntaxes/jt.tmLanguage.json"):
            self.assertTrue((self.FOLDER / name).exists(), name)
        patterns = []

        def walk(value):
            if isinstance(value, dict):
                patterns.extend(value[it] for it in ("match", "begin", "end") if it in value)
                for one in value.values():
                    walk(one)
            elif isinstance(value, list):
                for one in value:
                    walk(one)

        walk(grammar)
        self.assertGreater(len(patterns), 15)
        for pattern in patterns:
            re.compile(pattern)
        blocks = re.compile(grammar["repository"]["block"]["begin"])
        self.assertEqual(blocks.match("{%- if x %}")[2], "if")

    @unittest.skipUnless(shutil.which("node"), "Node is not installed")
    def test_its_script(self):
        folder = a_folder(self, {
            "node_modules/vscode/index.js": """
                const values = {python: "py", context: "c.json", folder: null, options: {autoescape: false}};
                exports.workspace = {
                  getConfiguration: () => ({get: name => values[name]}),
                  createFileSystemWatcher: it => it,
                  onDidChangeConfiguration: call => { exports.change = call; return {}; },
                };""",
            "node_modules/vscode-languageclient/node.js": """
                exports.TransportKind = {stdio: 0};
                exports.LanguageClient = class {
                  constructor(...given) { console.log(JSON.stringify(given)); }
                  async start() { console.log("started"); }
                  async stop() { console.log("stopped"); }
                  sendNotification(...given) { console.log(JSON.stringify(given)); }
                };""",
            "extension.js": (self.FOLDER / "extension.js").read_text(),
            "try.js": """
                const one = require("./extension.js");
                one.activate({subscriptions: []}).then(() => {
                  require("vscode").change({affectsConfiguration: it => it === "jt"});
                  return one.deactivate();
                });""",
        })
        done = subprocess.run(["node", "try.js"], cwd=folder, capture_output=True, text=True, timeout=SECONDS)
        lines = done.stdout.splitlines()
        self.assertEqual(done.stderr, "")
        _, _, server, client = json.loads(lines[0])
        self.assertEqual((server["command"], server["args"]), ("py", ["-m", "jt", "lsp"]))
        wanted = {"options": {"autoescape": False}, "context": "c.json"}
        self.assertEqual(client["initializationOptions"], wanted)
        self.assertEqual(lines[1], "started")
        self.assertEqual(json.loads(lines[2])[1], {"settings": {"jt": wanted}})
        self.assertEqual(lines[3], "stopped")


if __name__ == "__main__":
    finished()
