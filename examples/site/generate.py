"""Writes a site for build.py: generate.py SITE [COUNT], by default of 500 pages

All pages extend one layout. Each includes one of 20 parts, every tenth prints the value `offer`,
and every fiftieth includes a notice, which does not exist at first.
"""
import json
import sys
from pathlib import Path

LAYOUT = """<!doctype html>
<title>{% block title %}{% endblock %} - {{ site.name }}</title>
<nav>{% for it in menu %}<a href="{{ it.path }}">{{ it.title }}</a>{% endfor %}</nav>
{% block content %}{% endblock %}
<footer>{{ year }}</footer>
"""
PARTS, OFFERS, NOTICES = 20, 10, 50


def page(at):
    """Returns the template of a page."""
    offer = "<p>{{ offer }}</p>" if at % OFFERS == 0 else ""
    notice = '{% include "notice.html" ignore missing %}' if at % NOTICES == 0 else ""
    return (
        f'{{% extends "layout.html" %}}{{% block title %}}Tea {at}{{% endblock %}}\n'
        f'{{% block content %}}<h1>Tea {at}</h1>{offer}{notice}'
        f'{{% include "parts/{at % PARTS:02}.html" %}}{{% endblock %}}\n'
    )


def main(site, count="500"):
    """Writes the site."""
    templates = Path(site, "templates")
    for folder in ("pages", "parts"):
        (templates / folder).mkdir(parents=True, exist_ok=True)
    (templates / "layout.html").write_text(LAYOUT)
    for at in range(PARTS):
        (templates / f"parts/{at:02}.html").write_text(f"<p>Brew for {at} minutes.</p>\n")
    for at in range(int(count)):
        (templates / f"pages/{at:03}.html").write_text(page(at))
    menu = [{"path": f"{at:03}.html", "title": f"Tea {at}"} for at in range(5)]
    values = {"site": {"name": "Tea & Toast"}, "menu": menu, "year": 2026, "offer": "Sencha"}
    Path(site, "site.json").write_text(json.dumps(values, indent=1))


if __name__ == "__main__":
    main(*sys.argv[1:])
