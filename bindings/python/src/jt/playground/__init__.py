"""A page to try templates: `python -m jt playground [DIR]`, for this machine alone.

Read _server.py (who may ask), _trying.py (what is compiled and run) and page.html.
"""
import argparse
import sys
from dataclasses import fields
from typing import Dict, List, Optional

from .._images import Budget
from .._library import LIBRARY_VERSION
from .._templates import Options, _read_folder
from ..lsp._folder import Folder
from ._server import Playground
from ._trying import MOST_CONTEXT, MOST_SOURCES, NUMBERS, Json

__all__ = ["Playground", "first_state", "main"]

_FILE, _INTERRUPTED = 5, 130
_EXAMPLE = {
    "page.html": """\
{% extends "base.html" %}
{% from "shop.html" import price %}
{% block title %}Order of {{ name }}{% endblock %}
{% block body %}
<ul>
{% for line in lines %}
  <li>{{ loop.index }}. {{ line.count }} x {{ line.name|upper }}: {{ price(line.cents) }}</li>
{% else %}
  <li>nothing</li>
{% endfor %}
</ul>
{% endblock %}
""",
    "base.html": """\
<!doctype html>
<title>{% block title %}Shop{% endblock %}</title>
<h1>{{ self.title() }}</h1>
{% block body %}{% endblock %}
""",
    "shop.html": """\
{# An amount with its currency. #}
{% macro price(cents, currency="EUR") %}
{{- cents // 100 }}.{{ "0" if cents % 100 < 10 }}{{ cents % 100 }} {{ currency }}
{%- endmacro %}
""",
}
_EXAMPLE_CONTEXT = """\
{
  "name": "<Noor>",
  "lines": [
    {"name": "tea", "count": 2, "cents": 350},
    {"name": "cake", "count": 1, "cents": 1205}
  ]
}
"""


def main(words: List[str]) -> int:
    """Serves the page until it is interrupted, and returns the status of the process."""
    parser = argparse.ArgumentParser(
        prog="python -m jt playground",
        description="Serves a page to try templates, for this machine alone.",
    )
    parser.add_argument("folder", metavar="DIR", nargs="?", help="the templates of a folder")
    parser.add_argument("--context", metavar="FILE", help="the context in JSON")
    parser.add_argument("--port", type=int, default=0, metavar="N", help="default: a free one")
    parser.add_argument("--open", action="store_true", help="open the page in a browser")
    given = parser.parse_args(words)
    try:
        state = first_state(given.folder, given.context)
        server = Playground(state, given.port)
    except (OSError, ValueError, OverflowError) as error:
        print(f"jt: {error}", file=sys.stderr)
        return _FILE
    with server:
        print(server.address, flush=True)
        if given.open:
            import webbrowser

            webbrowser.open(server.address)
        try:
            server.serve_forever()
        except KeyboardInterrupt:
            return _INTERRUPTED
    return 0


def first_state(folder: Optional[str] = None, context: Optional[str] = None) -> Json:
    """Returns what the page shows at first: the templates of a folder, or an example.

    # Errors
    `OSError` for a file; `ValueError` for more sources than the page takes.
    """
    templates: Dict[str, str] = dict(_EXAMPLE)
    text = _EXAMPLE_CONTEXT
    if folder is not None:
        templates, size = {}, 0
        for name, source in _read_folder(folder, ""):
            size += len(source.encode())
            if size > MOST_SOURCES:
                raise ValueError(f"{folder} has more than {MOST_SOURCES:,} bytes of templates")
            templates[name] = source
        text = "{}\n"
    if context is not None:
        with open(context, "rb") as file:
            text = file.read(MOST_CONTEXT + 1).decode()
    return {
        "templates": templates,
        "entry": _entry(templates),
        "context": text,
        "options": {it.name: it.default for it in fields(Options)},
        "budget": {it.name: it.default for it in fields(Budget) if it.name in NUMBERS},
        "version": LIBRARY_VERSION,
    }


def _entry(templates: Dict[str, str]) -> str:
    """Returns the template that is tried at first: one that no other one names, if there is one."""
    folder = Folder("/", sources=templates)
    free = [it for it in templates if not folder.linked_from(it)]
    linking = [it for it in free if folder.targets(it)]
    return next(iter([*linking, *free, *templates]), "")
