"""Renders each folder of a directory in each way: examples.py DIRECTORY

A folder is as `tests/examples.sh` has it.
"""
import pathlib
import sys

from jt import Context, Options, Template, Templates


def options(words):
    """The options that the words of a command name."""
    chosen = {}
    for word in words:
        name = word.replace("--no-", "").replace("--", "").replace("-", "_")
        chosen[name] = not word.startswith("--no-")
    return Options(**chosen)


for folder in sorted(file.parent for file in pathlib.Path(sys.argv[1]).glob("*/command")):
    entry, *words = (folder / "command").read_text().split()
    sources = {file.name: file.read_bytes().decode() for file in (folder / "templates").iterdir()}
    template = Template(entry, sources, options(words))
    templates = Templates.from_folder(folder / "templates", options(words))
    context = (folder / "context.json").read_text()
    wanted = (folder / "expected").read_bytes().decode()
    assert template.render(context) == wanted, f"{folder}: render"
    assert template.compile().run(context) == wanted, f"{folder}: compile and run"
    assert templates.template(entry).render(Context(context)) == wanted, f"{folder}: from_folder"
