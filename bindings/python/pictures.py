#!/usr/bin/env python3
"""Makes the pictures of docs/editors.md: bindings/python/pictures.py FOLDER

It needs Neovim, Vim with ALE, Emacs with eglot, tmux and Chromium, and JT_LIBRARY and PYTHONPATH as
the tests do. What tmux shows of an editor is drawn by Chromium; test_browser.py makes the others.
"""
import html
import json
import pathlib
import re
import subprocess
import sys
import tempfile
import time

sys.dont_write_bytecode = True
HERE = pathlib.Path(__file__).resolve().parent
sys.path.insert(0, str(HERE))
import chromium  # noqa: E402
from test_editor import EDITORS, SERVER, VIM, vim_with_ale  # noqa: E402
from test_lsp import CONTEXT, SITE  # noqa: E402

COLUMNS, ROWS = 108, 20
COLOURS = "#1c2029 #ff8a80 #7fd6a0 #ffc66d #7db0ff #d59bf0 #7fd0d6 #e4e8f0".split()
BRIGHT = "#6b7280 #ff8a80 #9fe6b8 #ffe08a #9cc4ff #e3b8ff #a0e3e8 #ffffff".split()
INIT = """
vim.opt.termguicolors = false
vim.opt.background = "dark"
vim.opt.number = true
vim.opt.signcolumn = "yes"
vim.opt.laststatus = 0
vim.cmd("highlight SignColumn ctermbg=NONE")
vim.cmd("highlight NormalFloat ctermbg=237 ctermfg=15")
vim.cmd("highlight DiagnosticUnderlineError cterm=underline")
vim.cmd("highlight DiagnosticUnderlineWarn cterm=underline")
require("jt").setup{cmd = %s, context = "context.json"}
"""


def colour(number):
    """Returns a colour of 256 in the notation of CSS."""
    if number < 8:
        return COLOURS[number]
    if number < 16:
        return BRIGHT[number - 8]
    if number > 231:
        return "#" + f"{8 + 10 * (number - 232):02x}" * 3
    levels = (0, 95, 135, 175, 215, 255)
    number -= 16
    return "#%02x%02x%02x" % (levels[number // 36], levels[number // 6 % 6], levels[number % 6])


class Style:
    """How the characters of a terminal look."""

    def __init__(self):
        self.front = self.back = None
        self.is_bold = self.is_italic = self.is_under = self.is_reverse = False

    def take(self, numbers):
        """Takes the numbers of an escape."""
        numbers = iter(numbers)
        for number in numbers:
            if number == 0:
                self.__init__()
            elif number in (1, 22):
                self.is_bold = number == 1
            elif number in (3, 23):
                self.is_italic = number == 3
            elif number in (4, 24):
                self.is_under = number == 4
            elif number in (7, 27):
                self.is_reverse = number == 7
            elif 30 <= number < 38 or 90 <= number < 98:
                self.front = colour(number - 30 if number < 90 else number - 82)
            elif 40 <= number < 48 or 100 <= number < 108:
                self.back = colour(number - 40 if number < 100 else number - 92)
            elif number in (38, 48):
                kind = next(numbers)
                found = colour(next(numbers)) if kind == 5 else "#%02x%02x%02x" % tuple(next(numbers) for _ in range(3))
                self.front, self.back = (found, self.back) if number == 38 else (self.front, found)
            elif number == 39:
                self.front = None
            elif number == 49:
                self.back = None

    def css(self):
        front, back = self.front or "#e4e8f0", self.back or "#14171d"
        if self.is_reverse:
            front, back = back, front
        words = [f"color:{front}", f"background:{back}"]
        words += ["font-weight:bold"] * self.is_bold + ["font-style:italic"] * self.is_italic
        return ";".join(words + ["text-decoration:underline wavy #ff8a80"] * self.is_under)


def drawn(text):
    """Returns what tmux captured as HTML."""
    style, pieces = Style(), []
    for piece in re.split(r"(\x1b\[[0-9;:]*m)", text):
        if piece.startswith("\x1b["):
            numbers = [int(it or 0) for it in re.split("[;:]", piece[2:-1])]
            style.take(numbers)
        elif piece:
            pieces.append(f'<span style="{style.css()}">{html.escape(piece)}</span>')
    return (
        '<meta charset="utf-8"><body style="margin:0;background:#14171d"><pre style="margin:0;padding:12px;'
        'font:14px/1.3 DejaVu Sans Mono">' + "".join(pieces)
    )


def tmux(*words):
    return subprocess.run(["tmux", "-L", "jt-pictures", *words], check=True, capture_output=True, text=True).stdout


def a_site(room):
    """Writes a project with templates and a context into a folder."""
    for name, source in SITE.items():
        path = pathlib.Path(room, "templates", name)
        path.parent.mkdir(exist_ok=True)
        path.write_text(source)
    pathlib.Path(room, "context.json").write_text(json.dumps(CONTEXT))
    subprocess.run(["git", "init", "-q", room], check=True)


def shown_by(room, command, *keys):
    """Returns what a program shows in a terminal after some keys. A number is a pause."""
    try:
        environment = ["-e", f"HOME={room}", "-e", "TERM=tmux-256color"]
        size = ["-x", str(COLUMNS), "-y", str(ROWS)]
        tmux("-f", "/dev/null", "new-session", "-d", *size, *environment, "-c", room, command)
        for key in keys:
            if isinstance(key, (int, float)):
                time.sleep(key)
            else:
                tmux("send-keys", key)
        return tmux("capture-pane", "-e", "-p")
    finally:
        subprocess.run(["tmux", "-L", "jt-pictures", "kill-server"], capture_output=True)


def of_neovim(room):
    server = ", ".join(json.dumps(it) for it in SERVER)
    pathlib.Path(room, "init.lua").write_text(INIT % ("{" + server + "}"))
    begin = f"--cmd 'set rtp^={EDITORS}/vim' --cmd 'filetype plugin on' --cmd 'syntax on'"
    command = f"nvim -u NONE -i NONE -n {begin} -c 'luafile init.lua' templates/page.html"
    hover = [":lua vim.lsp.buf.hover()", "Enter"]
    return shown_by(room, command, 6, "/price", "Enter", ":nohlsearch", "Enter", *hover, 3)


def of_vim(room):
    script = VIM.partition("function! Look")[0].replace("let g:left = 100\n", "")
    more = "set number laststatus=0 signcolumn=yes background=dark\nhighlight SignColumn ctermbg=NONE\n"
    more += "let g:ale_virtualtext_cursor = 2\n"
    pathlib.Path(room, "vimrc").write_text(script.format(editors=EDITORS, server=" ".join(SERVER)) + more)
    return shown_by(room, f"{vim_with_ale()} -N -i NONE -n -u vimrc templates/page.html", 8, "/uper", "Enter", ":nohlsearch", "Enter", 3)


def of_emacs(room):
    words = " ".join(json.dumps(it) for it in SERVER)
    pathlib.Path(room, "init.el").write_text(f"""
(setq native-comp-async-report-warnings-errors nil warning-minimum-level :error inhibit-startup-screen t make-backup-files nil jt-context "context.json" jt-command '({words})
      eglot-events-buffer-size 0 frame-background-mode 'dark)
(menu-bar-mode -1) (package-initialize) (require 'eglot)
(add-hook 'jt-mode-hook #'eglot-ensure)
(find-file "templates/page.html")
(search-forward "uper") (backward-char 2)
""")
    command = f"emacs -nw -q -l {EDITORS}/emacs/jt.el -l init.el"
    return shown_by(room, command, 16, "Right", 5)


def main():
    if len(sys.argv) != 2:
        sys.exit("usage: bindings/python/pictures.py FOLDER")
    folder = pathlib.Path(sys.argv[1])
    for name, draw in (("neovim", of_neovim), ("vim", of_vim), ("emacs", of_emacs)):
        with tempfile.TemporaryDirectory() as room:
            a_site(room)
            page = pathlib.Path(room, "shown.html")
            page.write_text(drawn(draw(room)), encoding="utf-8")
            with chromium.Browser(940, 430) as browser:
                browser.open(page.as_uri())
                browser.wait("document.querySelectorAll('span').length > 3")
                (folder / f"{name}.png").write_bytes(browser.picture())
    words = [sys.executable, str(HERE / "test_browser.py"), "--pictures", str(folder)]
    subprocess.run(words, check=True)


if __name__ == "__main__":
    main()
