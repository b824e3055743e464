"""Builds a site, and later only the pages whose needs have changed: build.py SITE OUT

SITE/templates/pages has a template for each page, SITE/templates what they extend, include and
import, and SITE/site.json the values of all pages. OUT gets a file for each page.

OUT/.built.json has what each page was built of: the sums of the templates and of the values that it
needs. A page is built again if one of them differs, if a template that it includes where it may be
missing has come, or if its file was changed. Each page that is built is printed, with the reason.

The status is 1 if a page fails. Its old file stays, and it is tried again the next time.
"""
import hashlib
import json
import os
import sys
import time
from pathlib import Path

from jt import Budget, Context, JtError, Templates, library_version

BUDGET = Budget(fuel=100_000, depth=16, output=262_144, size=262_144, nesting=16)
PAGES = "pages/"


def sum_of(data):
    """Returns the sum of bytes."""
    return hashlib.sha256(data).hexdigest()


def replace(file, data):
    """Writes a file, which is the old one or the new one at each moment."""
    file.parent.mkdir(parents=True, exist_ok=True)
    part = file.with_name(file.name + ".part")
    part.write_bytes(data)
    os.replace(part, file)


class Site:
    """Templates and values, and the sums of both by their names."""

    def __init__(self, folder):
        self.templates = Templates.from_folder(folder / "templates")
        values = json.loads((folder / "site.json").read_text(encoding="utf-8"))
        self.context = Context(values)
        self.sums = {
            "template": {it: sum_of(text.encode()) for it, text in self.templates.sources.items()},
            "value": {it: sum_of(json.dumps(value).encode()) for it, value in values.items()},
        }

    def pages(self):
        """Returns the names of the pages."""
        return [name[len(PAGES) :] for name in self.templates if name.startswith(PAGES)]

    def uses(self, page):
        """Returns the sums of all that a page needs; the sum of what is missing is None."""
        needs = self.templates.needs(PAGES + page)
        names = {"template": needs.templates + needs.missing, "value": needs.names}
        return {kind: {it: self.sums[kind].get(it) for it in names[kind]} for kind in names}

    def change(self, uses):
        """Returns what has changed of that, or None."""
        for kind, sums in uses.items():
            for name, before in sums.items():
                if self.sums[kind].get(name) != before:
                    return f"{kind} {name}"
        return None


class Built:
    """The files of pages, and what they were built of."""

    def __init__(self, folder):
        self.folder, self.record = folder, folder / ".built.json"
        self.rules = [library_version, repr(BUDGET)]
        self.pages = {}
        if self.record.exists():
            rules, pages = json.loads(self.record.read_text(encoding="utf-8"))
            self.pages = pages if rules == self.rules else {}

    def reason(self, page, site):
        """Returns why a page has to be built, or None."""
        file, known = self.folder / page, self.pages.get(page)
        if known is None:
            return "not built yet"
        if not file.is_file() or sum_of(file.read_bytes()) != known["sum"]:
            return "its file"
        return site.change(known["uses"])

    def build(self, page, site):
        """Builds a page."""
        self.pages[page] = None
        data = site.templates[PAGES + page].render(site.context, BUDGET).encode()
        replace(self.folder / page, data)
        self.pages[page] = {"sum": sum_of(data), "uses": site.uses(page)}

    def drop(self, pages):
        """Removes the files of all pages but these."""
        for page in set(self.pages) - set(pages):
            (self.folder / page).unlink(missing_ok=True)
            del self.pages[page]

    def keep(self):
        """Writes what the pages were built of."""
        replace(self.record, json.dumps([self.rules, self.pages]).encode())


def main(site, out):
    """Builds what has changed, and returns the status."""
    begin = time.monotonic()
    site, built = Site(Path(site)), Built(Path(out))
    pages, count, failed = site.pages(), 0, 0
    built.drop(pages)
    for page in pages:
        why = built.reason(page, site)
        if why is None:
            continue
        try:
            built.build(page, site)
        except JtError as error:
            failed += 1
            print(f"{page}: failed: {error}")
        else:
            count += 1
            print(f"{page}: {why}")
    built.keep()
    print(f"{count} of {len(pages)} pages were built in {time.monotonic() - begin:.2f} s")
    return 1 if failed else 0


if __name__ == "__main__":
    sys.exit(main(*sys.argv[1:]))
