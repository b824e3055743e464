"""The templates of a workspace: those of a folder, with what is being typed in their place."""
import os
from pathlib import Path
from typing import Dict, Iterator, List, Mapping, Optional, Set
from urllib.parse import quote, unquote, urlsplit

from .._templates import _MOST_BYTES, Options, Templates, _read_folder
from ._outline import Block, Import, Macro, Outline, by_name, read_outline, read_targets
from ._positions import Lines

# What is read of a folder at most: a project's root may be one by mistake.
_MOST_TEMPLATES, _MOST_SOURCES = 20_000, 64 * _MOST_BYTES


class Folder:
    """The templates of a folder by their names, with their outlines and lines."""

    def __init__(
        self,
        path: str,
        options: Options = Options(),
        sources: Optional[Mapping[str, str]] = None,
    ) -> None:
        """Reads the folder, or takes sources in its place."""
        self.path = os.path.realpath(path)
        self.options = options
        self.sources: Dict[str, str] = dict(sources or {})
        # What an editor has open replaces what is on the disk.
        self.open: Dict[str, str] = {}
        self.is_whole = True
        self._outlines: Dict[str, Outline] = {}
        self._lines: Dict[str, Lines] = {}
        self._targets: Dict[str, Set[str]] = {}
        self._templates: Optional[Templates] = None
        if sources is None:
            self.read()

    def read(self) -> None:
        """Reads the folder."""
        found: Dict[str, str] = {}
        size = 0
        self.is_whole = True
        try:
            for name, source in _read_folder(self.path, ""):
                size += len(source)
                if len(found) >= _MOST_TEMPLATES or size > _MOST_SOURCES:
                    self.is_whole = False
                    break
                found[name] = source
        except OSError:
            pass
        found.update(self.open)
        for name in {*self.sources, *found}:
            if self.sources.get(name) != found.get(name):
                self._forget(name)
        self.sources = found

    def put(self, name: str, source: Optional[str]) -> None:
        """Puts what an editor has open in the place of a template, or for `None` the file."""
        if source is None:
            self.open.pop(name, None)
            on_disk = self._on_disk(name)
            if on_disk is None:
                self.sources.pop(name, None)
            else:
                self.sources[name] = on_disk
        else:
            self.open[name] = self.sources[name] = source
        self._forget(name)

    def reread(self, name: str) -> None:
        """Reads a template again that changed on the disk."""
        if name not in self.open:
            self.put(name, None)

    def _on_disk(self, name: str) -> Optional[str]:
        try:
            data = Path(self.path, name).read_bytes()[: _MOST_BYTES + 4]
            return data.decode("utf-8", "strict" if len(data) <= _MOST_BYTES else "ignore")
        except (OSError, UnicodeError):
            return None

    def _forget(self, name: str) -> None:
        self._outlines.pop(name, None)
        self._lines.pop(name, None)
        self._targets.pop(name, None)
        self._templates = None

    @property
    def templates(self) -> Templates:
        """The templates as the library reads them."""
        if self._templates is None:
            self._templates = Templates(self.sources, self.options)
        return self._templates

    def outline(self, name: str) -> Outline:
        """Returns the outline of a template."""
        if name not in self._outlines:
            self._outlines[name] = read_outline(self.sources[name])
        return self._outlines[name]

    def lines(self, name: str) -> Lines:
        """Returns the lines of a template."""
        if name not in self._lines:
            self._lines[name] = Lines(self.sources[name])
        return self._lines[name]

    def name_of(self, uri: str) -> Optional[str]:
        """Returns the name of the template of a file, or `None` if it is not in the folder."""
        parts = urlsplit(uri)
        if parts.scheme != "file":
            return None
        path = unquote(parts.path)
        path = os.path.join(os.path.realpath(os.path.dirname(path)), os.path.basename(path))
        if not path.startswith(self.path.rstrip("/") + "/"):
            return None
        return path[len(self.path.rstrip("/")) + 1 :]

    def uri_of(self, name: str) -> str:
        """Returns the address of a template's file."""
        return "file://" + quote(os.path.join(self.path, name))

    def parents(self, name: str) -> List[str]:
        """Returns the templates that a template extends, the nearest first."""
        found: List[str] = []
        parent = self.outline(name).parent
        while parent in self.sources and parent not in found and parent != name:
            assert parent is not None
            found.append(parent)
            parent = self.outline(parent).parent
        return found

    def chain(self, name: str) -> List[str]:
        """Returns a template and those that it extends."""
        return [name, *self.parents(name)]

    def linked_from(self, name: str, *words: str) -> Set[str]:
        """Returns the templates that name a template in tags of these words."""
        return {
            other
            for other in self.sources
            if name in self.targets(other)
            for link in self.outline(other).links
            if link.name.text == name and (not words or link.word in words)
        }

    def dependents(self, name: str) -> List[str]:
        """Returns the templates that reach a template, directly or through others."""
        found = {name}
        waiting = [name]
        while waiting:
            target = waiting.pop()
            for other in self.sources:
                if other not in found and target in self.targets(other):
                    found.add(other)
                    waiting.append(other)
        return sorted(found - {name})

    def targets(self, name: str) -> Set[str]:
        """Returns the templates that a template names."""
        if name not in self._targets:
            self._targets[name] = read_targets(self.sources[name])
        return self._targets[name]

    def macro(self, name: str, before: str, called: str) -> "Optional[FoundMacro]":
        """Returns the macro that a call in a template names: `before` is a library's name."""
        for template in self.chain(name):
            outline = self.outline(template)
            for macro in outline.macros:
                if not before and macro.name.text == called:
                    return FoundMacro(template, macro)
            for imported in outline.imports:
                wanted = imported.macro.text if imported.macro else called
                if imported.bound.text == (before if imported.macro is None else called):
                    if (imported.macro is None) == bool(before):
                        found = self.public_macro(imported.library, wanted)
                        if found is not None:
                            return found
        return None

    def public_macro(self, library: str, called: str) -> "Optional[FoundMacro]":
        """Returns a macro of a library."""
        if library not in self.sources or called.startswith("_"):
            return None
        macros = self.outline(library).macros
        found = next((it for it in macros if it.name.text == called), None)
        return None if found is None else FoundMacro(library, found)

    def imports(self, name: str) -> Iterator[Import]:
        """Returns the imports of a template and of those that it extends."""
        for template in self.chain(name):
            yield from self.outline(template).imports

    def blocks(self, templates: List[str], block: str) -> "List[FoundBlock]":
        """Returns the blocks of a name in some templates."""
        found = []
        for template in templates:
            one = by_name(self.outline(template).blocks).get(block)
            if one is not None:
                found.append(FoundBlock(template, one))
        return found


class FoundMacro:
    """A macro and its template."""

    def __init__(self, template: str, macro: Macro) -> None:
        self.template, self.macro = template, macro


class FoundBlock:
    """A block and its template."""

    def __init__(self, template: str, block: Block) -> None:
        self.template, self.block = template, block
