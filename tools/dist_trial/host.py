"""Renders the page of the tutorial: host.py PAGES CONTEXT."""
import pathlib
import sys

import jt

pages = jt.Templates.from_folder(sys.argv[1])
print(pages.template("page.html").render(pathlib.Path(sys.argv[2]).read_text()), end="")
