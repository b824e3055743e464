"""Finds what a template defines and what it names: macros, blocks, imports, bindings, calls, reads.

It follows docs/language.md, and takes what is half typed too. It serves places; see _tokens.py.
"""
from dataclasses import dataclass, field
from typing import Dict, Iterator, List, NamedTuple, Optional, Set, Tuple

from ._tokens import Tag, Token, read_tags

RESERVED = frozenset("and or not if else in is true false none True False None".split())
# The names that are never bound, and read in forms of their own alone.
OWN_FORMS = frozenset(("loop", "self", "super", "range"))
# The tags that name a template.
LINKS = ("extends", "include", "import", "from")
# The statements with an end, by the word of that end.
ENDS = {
    f"end{word}": word
    for word in ("if", "for", "set", "with", "filter", "autoescape", "macro", "block")
}
# The statements whose body is a scope of its own.
SCOPES = frozenset(("for", "set", "with", "filter", "autoescape", "macro", "block"))


class Name(NamedTuple):
    """A name and its place."""

    text: str
    start: int
    end: int


class Parameter(NamedTuple):
    """A parameter of a macro, and its default as it is written, if it has one."""

    name: Name
    default: Optional[str]


@dataclass
class Statement:
    """A statement with a body: its word, its first tag, and the first character after its end."""

    word: str
    tag: Tag
    end: int = 0
    # The end of the body, and where its last part begins: that after `else`.
    inner_end: int = 0


@dataclass
class Macro:
    """A macro: `comment` is what the comment before its tag says."""

    name: Name
    parameters: List[Parameter]
    comment: str
    statement: Statement

    @property
    def signature(self) -> str:
        """The macro's tag without its word: `price(amount, currency="EUR")`."""
        parts = [
            it.name.text + ("" if it.default is None else f"={it.default}")
            for it in self.parameters
        ]
        return f"{self.name.text}({', '.join(parts)})"


@dataclass
class Block:
    """A block, with the words after its name: `scoped` and `required`."""

    name: Name
    words: List[str]
    statement: Statement


class Link(NamedTuple):
    """A tag that names a template: `word` is extends, include, import or from."""

    word: str
    name: Name
    ignores_missing: bool


class Import(NamedTuple):
    """A name that an import tag binds: `macro` is the library's macro, or `None` for all of it."""

    library: str
    macro: Optional[Name]
    bound: Name


class Call(NamedTuple):
    """A call: `before` is what stands before the dot, `self` or a library, or the empty text."""

    before: str
    name: Name


class Binding(NamedTuple):
    """A name that a tag binds, and the part of the source in which it is visible."""

    name: Name
    kind: str
    start: int
    end: int


@dataclass
class Outline:
    """What a template defines and names."""

    tags: List[Tag]
    statements: List[Statement] = field(default_factory=list)
    macros: List[Macro] = field(default_factory=list)
    blocks: List[Block] = field(default_factory=list)
    links: List[Link] = field(default_factory=list)
    imports: List[Import] = field(default_factory=list)
    calls: List[Call] = field(default_factory=list)
    bindings: List[Binding] = field(default_factory=list)
    # Names that are read, each with the names of the attributes that follow.
    reads: List[Tuple[Name, List[str]]] = field(default_factory=list)
    # The first comment of the template.
    comment: str = ""

    @property
    def parent(self) -> Optional[str]:
        """The name of the template that this one extends."""
        return next((it.name.text for it in self.links if it.word == "extends"), None)

    def open_at(self, at: int) -> List[Statement]:
        """Returns the statements around a place, the innermost last."""
        around = [it for it in self.statements if it.tag.end <= at <= it.inner_end]
        return sorted(around, key=lambda it: it.tag.start)


def read_outline(source: str) -> Outline:
    """Returns the outline of a source."""
    return _Reader(source).read()


def read_targets(source: str) -> Set[str]:
    """Returns the templates that a source names, without its outline."""
    tags = (it for it in read_tags(source) if it.word in LINKS)
    return {it.tokens[1].inner for it in tags if it.tokens[1:2] and it.tokens[1].kind == "text"}


def comment_text(source: str, tag: Tag) -> str:
    """Returns what a comment tag says, line by line."""
    inner = source[tag.start + 2 : tag.end - 2 if tag.is_closed else tag.end].strip("-+ \t\r\n")
    return "\n".join(line.strip() for line in inner.splitlines())


class _Reader:
    """Reads the outline of a source tag by tag."""

    def __init__(self, source: str) -> None:
        self.source = source
        self.outline = Outline(read_tags(source))
        self.open: List[Statement] = []
        # The bindings whose scope is still open, with the statement that is their scope.
        self.pending: List[Tuple[Optional[Statement], Name, str, int]] = []

    def read(self) -> Outline:
        """Reads all tags."""
        before: Optional[Tag] = None
        for tag in self.outline.tags:
            if tag.kind == "comment" and not self.outline.comment:
                self.outline.comment = comment_text(self.source, tag)
            if tag.kind == "print":
                self.expression(tag.tokens)
            elif tag.kind == "block":
                self.block_tag(tag, before)
            before = tag
        end = len(self.source)
        while self.open:
            self.close(self.open[-1], end, end)
        for _, name, kind, start in self.pending:
            self.outline.bindings.append(Binding(name, kind, start, end))
        return self.outline

    def block_tag(self, tag: Tag, before: Optional[Tag]) -> None:
        """Reads a block tag. `before` is the tag before it."""
        word, rest = tag.word, tag.tokens[1:]
        if word in ENDS:
            self.end(ENDS[word], tag)
        elif word in ("if", "elif"):
            self.expression(rest)
            if word == "if":
                self.begin(word, tag)
        elif word == "for":
            self.for_tag(tag, rest)
        elif word == "set":
            self.set_tag(tag, rest)
        elif word == "with":
            self.with_tag(tag, rest)
        elif word == "filter":
            self.expression([Token("sign", "|", tag.start, tag.start), *rest])
            self.begin(word, tag)
        elif word == "autoescape":
            self.begin(word, tag)
        elif word == "macro":
            self.macro_tag(tag, rest, before)
        elif word == "block":
            self.named_block(tag, rest)
        elif word in LINKS:
            self.link_tag(word, rest)
        else:
            self.expression(rest)

    def begin(self, word: str, tag: Tag) -> Statement:
        """Opens a statement."""
        statement = Statement(word, tag)
        self.open.append(statement)
        return statement

    def end(self, word: str, tag: Tag) -> None:
        """Closes the innermost statement of a word, and those in it."""
        if any(it.word == word for it in self.open):
            while self.open[-1].word != word:
                self.close(self.open[-1], tag.start, tag.start)
            self.close(self.open[-1], tag.end, tag.start)

    def close(self, statement: Statement, end: int, inner_end: int) -> None:
        """Closes the innermost statement."""
        self.open.pop()
        statement.end, statement.inner_end = end, inner_end
        self.outline.statements.append(statement)
        left = []
        for entry in self.pending:
            if entry[0] is statement:
                self.outline.bindings.append(Binding(entry[1], entry[2], entry[3], inner_end))
            else:
                left.append(entry)
        self.pending = left

    def bind(self, scope: Optional[Statement], tokens: List[Token], kind: str, at: int) -> None:
        """Binds the names of targets in a scope from a place on."""
        for token in tokens:
            if token.kind == "name" and token.text not in RESERVED:
                self.pending.append((scope, _name(token), kind, at))

    def scope(self) -> Optional[Statement]:
        """Returns the innermost statement that is a scope; the template itself is `None`."""
        return next((it for it in reversed(self.open) if it.word in SCOPES), None)

    def for_tag(self, tag: Tag, rest: List[Token]) -> None:
        """Reads `for targets in e if c`."""
        at = next((at for at, it in enumerate(rest) if it.text == "in"), len(rest))
        self.expression(rest[at + 1 :])
        self.bind(self.begin("for", tag), rest[:at], "for", tag.start)

    def set_tag(self, tag: Tag, rest: List[Token]) -> None:
        """Reads `set targets = e`, or the tag of a block that is kept."""
        at = next((at for at, it in enumerate(rest) if it.text == "="), None)
        scope = self.scope()
        self.bind(scope, rest[:at], "set", tag.start)
        if at is None:
            self.begin("set", tag)
        else:
            self.expression(rest[at + 1 :])

    def with_tag(self, tag: Tag, rest: List[Token]) -> None:
        """Reads `with a = e, b = f`."""
        statement = self.begin("with", tag)
        for part in _split(rest):
            self.expression(part[2:])
            self.bind(statement, part[:1], "with", tag.end)

    def macro_tag(self, tag: Tag, rest: List[Token], before: Optional[Tag]) -> None:
        """Reads `macro m(a, b=1)`."""
        statement = self.begin("macro", tag)
        if not rest or rest[0].kind != "name":
            return
        parameters = []
        for part in _split(rest[2:-1] if rest[-1].text == ")" else rest[2:]):
            if part and part[0].kind == "name":
                is_given = len(part) > 2
                default = self.source[part[2].start : part[-1].end] if is_given else None
                parameters.append(Parameter(_name(part[0]), default))
                self.bind(statement, part[:1], "parameter", tag.start)
        is_near = (
            before is not None
            and before.kind == "comment"
            and not self.source[before.end : tag.start].strip()
        )
        comment = comment_text(self.source, before) if before and is_near else ""
        self.outline.macros.append(Macro(_name(rest[0]), parameters, comment, statement))

    def named_block(self, tag: Tag, rest: List[Token]) -> None:
        """Reads `block b scoped required`."""
        statement = self.begin("block", tag)
        if rest and rest[0].kind == "name":
            words = [it.text for it in rest[1:]]
            self.outline.blocks.append(Block(_name(rest[0]), words, statement))

    def link_tag(self, word: str, rest: List[Token]) -> None:
        """Reads a tag that names a template."""
        if not rest or rest[0].kind != "text":
            self.expression(rest)
            return
        library = rest[0].inner
        words = [it.text for it in rest[1:]]
        ignores = words[:2] == ["ignore", "missing"]
        self.outline.links.append(Link(word, Name(library, *rest[0].span), ignores))
        if word == "import" and words[:1] == ["as"] and len(rest) > 2:
            self.outline.imports.append(Import(library, None, _name(rest[2])))
        if word == "from" and words[:1] == ["import"]:
            for part in _split(rest[2:]):
                names = [it for it in part if it.kind == "name"]
                if names:
                    bound = names[2] if len(names) > 2 and names[1].text == "as" else names[0]
                    self.outline.imports.append(Import(library, _name(names[0]), _name(bound)))

    def expression(self, tokens: List[Token]) -> None:
        """Reads the names and the calls of an expression."""
        for at, token in enumerate(tokens):
            if token.kind != "name" or token.text in RESERVED or _is_word(tokens, at):
                continue
            path = list(_path(tokens, at))
            after = tokens[at + 1 + 2 * len(path)].text if at + 1 + 2 * len(path) < len(
                tokens
            ) else ""
            if after == "(" and len(path) < 2:
                last = tokens[at + 2 * len(path)]
                before = token.text if path else ""
                self.outline.calls.append(Call(before, _name(last)))
            if token.text not in OWN_FORMS:
                self.outline.reads.append((_name(token), path))


def _name(token: Token) -> Name:
    return Name(token.text, token.start, token.end)


def _path(tokens: List[Token], at: int) -> Iterator[str]:
    """Returns the attributes that follow a name: `b` and `c` of `a.b.c`."""
    while at + 2 < len(tokens) and tokens[at + 1].text == "." and tokens[at + 2].kind == "name":
        yield tokens[at + 2].text
        at += 2


def _is_word(tokens: List[Token], at: int) -> bool:
    """Returns whether a name is an attribute, a filter, a test or a keyword of a call."""
    before = tokens[at - 1].text if at else ""
    if before in (".", "|", "is"):
        return True
    if before == "not" and at > 1 and tokens[at - 2].text == "is":
        return True
    after = tokens[at + 1].text if at + 1 < len(tokens) else ""
    return after == "=" and before in ("(", ",")


def _split(tokens: List[Token]) -> List[List[Token]]:
    """Returns the parts between the commas that are outside of brackets."""
    parts: List[List[Token]] = [[]]
    depth = 0
    for token in tokens:
        if token.kind == "sign" and token.text in "([{":
            depth += 1
        elif token.kind == "sign" and token.text in ")]}":
            depth -= 1
        if token.kind == "sign" and token.text == "," and depth == 0:
            parts.append([])
        else:
            parts[-1].append(token)
    return [part for part in parts if part]


def by_name(blocks: List[Block]) -> Dict[str, Block]:
    """Returns the blocks by their names, of two the first."""
    return {block.name.text: block for block in reversed(blocks)}
