"""Templates: from sources to images."""
import codecs
import os
from dataclasses import dataclass, fields, replace
from types import MappingProxyType
from typing import Any, Dict, Iterator, List, Mapping, Optional, Tuple, Union

from . import _forks
from ._contexts import ContextLike
from ._errors import NoMemory, Refused
from ._images import Budget, Image
from ._library import FlagBytes, Lengths, LibraryHandle, explain, library, needs, tell

# The name of a template of a text alone.
_NAMELESS = "<template>"
# A source with more bytes is S7.
_MOST_BYTES = 1_048_576


@dataclass(frozen=True)
class Options:
    """How templates are read; the defaults are those of the program `jt`.

    With `strict` an undefined value is a fault where it is printed, iterated over, joined by `~`, or
    the input of a filter other than `default`.
    """

    trim_blocks: bool = False
    lstrip_blocks: bool = False
    keep_trailing_newline: bool = False
    autoescape: bool = True
    strict: bool = False

    def __post_init__(self) -> None:
        for field in fields(self):
            value = getattr(self, field.name)
            if not isinstance(value, bool):
                raise TypeError(f"{field.name} is no bool: {value!r}")


@dataclass(frozen=True)
class Needs:
    """What the image of a template depends on, each in ascending order.

    `names` are the names of a context that it reads, those that its templates set too. `templates`
    are those that it is made of: itself, and all that it extends, includes and imports, also
    through others. `missing` are those that an `include` names and that do not exist.

    While the sources of `templates` stay the same and those of `missing` do not exist, the image
    stays the same. While the values of `names` stay the same too, so does its text.
    """

    names: Tuple[str, ...]
    templates: Tuple[str, ...]
    missing: Tuple[str, ...]


class Templates:
    """Sources by their names, with options: what `Environment` and its loader are in Jinja.

    The sources are read here, once, and all templates are compiled from them. They are copied, so
    later changes of the mapping or the folder have no effect. Threads may share the templates.

    `templates["page"]` is the template of a name, `"page" in templates` whether there is one, and a
    loop goes over the names. Options may be given by keywords too:

        Templates({"page": "..."}, trim_blocks=True)
    """

    def __init__(
        self, sources: Mapping[str, str], options: Options = Options(), **chosen: bool
    ) -> None:
        if not isinstance(options, Options):
            raise TypeError(f"the options are no Options: {options!r}")
        self._sources = dict(sources)
        self._options = replace(options, **chosen)
        # This handle is only shared from: each compilation has one of its own.
        self._first = LibraryHandle()
        _load(self._sources, self._first)
        self._templates: Dict[str, Template] = {}

    @classmethod
    def from_folder(
        cls, path: Union[str, "os.PathLike[str]"], options: Options = Options(), **chosen: bool
    ) -> "Templates":
        """Reads a folder and its subfolders. A name is a path in the folder, as `mails/order.txt`.

        Links, files that are not UTF-8, and folders whose names begin with a dot are left out.
        """
        return cls(dict(_read_folder(os.fspath(path), "")), options, **chosen)

    @property
    def sources(self) -> Mapping[str, str]:
        """The sources by their names."""
        return MappingProxyType(self._sources)

    @property
    def options(self) -> Options:
        """The options with which the sources are read."""
        return self._options

    def template(self, name: str) -> "Template":
        """Returns the template of a name. It is compiled when it is first needed, and kept.

        # Errors
        `Refused` with the code C1 if there is no such name.
        """
        if name not in self._sources:
            # (A name that has no UTF-8 is missing too.)
            explanation = self._explanation(str(name).encode(errors="replace"))
            raise Refused("C1 Missing", name, explanation)
        with _forks.section:
            if name not in self._templates:
                self._templates[name] = Template._of(name, self)
            return self._templates[name]

    def needs(self, name: str) -> Needs:
        """Returns what the template of a name depends on.

        # Errors
        Those of `template` and of `Template.needs`.
        """
        return self.template(name).needs()

    def __getitem__(self, name: str) -> "Template":
        """Returns the template of a name, or raises `KeyError` if there is none."""
        if name not in self._sources:
            raise KeyError(name)
        return self.template(name)

    def __contains__(self, name: object) -> bool:
        return name in self._sources

    def __iter__(self) -> Iterator[str]:
        return iter(self._sources)

    def __len__(self) -> int:
        return len(self._sources)

    def _shared(self) -> LibraryHandle:
        """Returns a second handle of the sources."""
        handle = LibraryHandle()
        with _forks.section:
            if library.jt_library_share(self._first, handle) != 0:
                raise NoMemory()
        return handle

    def _flags(self) -> FlagBytes:
        """Returns the options as the library takes them."""
        return FlagBytes(*(getattr(self._options, name) for name, _ in FlagBytes._fields_))

    def _image(self, entry: bytes) -> Image:
        """Compiles a template."""
        return Image._compiled(self._shared(), entry, self._flags())

    def _needs(self, entry: bytes) -> Needs:
        """Returns what a template depends on."""
        found = needs(self._shared(), entry, self._flags())
        return Needs(tuple(found["name"]), tuple(found["template"]), tuple(found["missing"]))

    def _explanation(self, entry: bytes) -> Optional[str]:
        """Returns why a template was refused, in words. It is compiled again for that."""
        return explain(self._shared(), entry, self._flags())

    def __repr__(self) -> str:
        return f"<jt.Templates of {len(self._sources)} sources>"

    def __reduce__(self) -> Tuple[object, ...]:
        return type(self), (self._sources, self._options)


class Template:
    """A template of a name, with the sources of all that it may reach by their names.

    Without sources `entry` is the text of the template itself: `Template("Hello {{ name }}!")`. Its
    name is `<template>` then. Options may be given by keywords too.

    It is compiled and verified when it is first needed, once. Threads may share it.
    """

    def __init__(
        self,
        entry: str,
        sources: Optional[Mapping[str, str]] = None,
        options: Options = Options(),
        **chosen: bool,
    ) -> None:
        if sources is None:
            entry, sources = _NAMELESS, {_NAMELESS: entry}
        self._start(entry, Templates(sources, options, **chosen))

    @classmethod
    def _of(cls, entry: str, templates: Templates) -> "Template":
        template = cls.__new__(cls)
        template._start(entry, templates)
        return template

    def _start(self, entry: str, templates: Templates) -> None:
        self._entry = _encoded(entry, "the name of the template")
        self._name = entry
        self._templates = templates
        self._lock = _forks.LongLock()
        self._image: Optional[Image] = None

    @property
    def name(self) -> str:
        """The name of the template."""
        return self._name

    def compile(self) -> Image:
        """Returns the image, for many runs. It is the caller's to close.

        # Errors
        `Refused` for the sources, `NoMemory`.
        """
        return self._compiled().share()

    def needs(self) -> Needs:
        """Returns what the image of the template depends on. It is compiled again for that.

        # Errors
        `Refused` for the sources, `NoMemory`.
        """
        try:
            return self._templates._needs(self._entry)
        except Refused as error:
            reason = error.reason
        raise self._refused(reason)

    def render(
        self, /, context: ContextLike = None, budget: Budget = Budget(), **names: Any
    ) -> str:
        """Runs the template once and returns its text.

        Values may be given by keywords too, as for `Image.run`: `page.render(name="World")`. For a
        deadline, `compile` the template and `run` its image.

        # Errors
        Those of `compile` and of `Image.run`.
        """
        return self._compiled().run(context, budget, **names)

    def _compiled(self) -> Image:
        """Returns the image that is kept."""
        if self._image is not None:
            return self._image
        with self._lock.here():
            if self._image is not None:
                return self._image
            try:
                self._image = self._templates._image(self._entry)
                return self._image
            except Refused as error:
                reason = error.reason
        raise self._refused(reason)

    def _refused(self, reason: str) -> Refused:
        """Returns the refusal of the template with its explanation."""
        return Refused(reason, self._name, self._templates._explanation(self._entry))

    def __repr__(self) -> str:
        return f"<jt.Template {self._name!r}>"

    def __reduce__(self) -> Tuple[object, ...]:
        return type(self), (self._name, self._templates._sources, self._templates._options)


def _encoded(text: str, what: str) -> bytes:
    """Returns the UTF-8 of a name or a source."""
    if not isinstance(text, str):
        raise TypeError(f"{what} is no str: {text!r:.40}")
    try:
        return text.encode()
    except UnicodeEncodeError as error:
        at = error.start
    raise ValueError(f"{what} has a lone surrogate at character {at}")


def _load(sources: Mapping[str, str], handle: LibraryHandle) -> None:
    """Reads sources into a handle."""
    parts: List[bytes] = []
    for name, source in sources.items():
        parts.append(_encoded(name, "the name of a template"))
        parts.append(_encoded(source, f"the source of {name!r}"))
    # (An array of no elements has no address.)
    lengths = (Lengths * max(1, len(sources)))()
    for at in range(len(sources)):
        lengths[at] = Lengths(len(parts[2 * at]), len(parts[2 * at + 1]))
    texts = b"".join(parts)
    tell(library.jt_library_load, texts, len(texts), lengths, len(sources), handle)


def _read_folder(path: str, before: str) -> Iterator[Tuple[str, str]]:
    """Reads the templates of a folder, with `before` in front of their names."""
    with os.scandir(path) as entries:
        for entry in sorted(entries, key=lambda it: it.name):
            name = before + entry.name
            if entry.is_dir(follow_symlinks=False) and not entry.name.startswith("."):
                yield from _read_folder(entry.path, name + "/")
            elif entry.is_file(follow_symlinks=False):
                with open(entry.path, "rb") as file:
                    data = file.read(_MOST_BYTES + 4)
                try:
                    name.encode()
                    # (What is longer is cut: it is S7 either way.)
                    whole = len(data) <= _MOST_BYTES
                    yield name, codecs.getincrementaldecoder("utf-8")().decode(data, whole)
                except UnicodeError:
                    pass
