"""Answers what an editor asks about a place: completion, hover, definition, references, symbols."""
from typing import Dict, Iterable, Iterator, List, NamedTuple, Optional, Set, Tuple

from ._context import Names
from ._folder import Folder, FoundMacro
from ._outline import LINKS, Binding, Name, Outline
from ._positions import Json
from ._tokens import Tag, Token, tag_around
from ._words import CALLS, FIELDS, FILTERS, STATEMENTS, TESTS, Words

# The kinds of the protocol for completions and symbols.
_FUNCTION, _VARIABLE, _MODULE, _KEYWORD, _FILE, _FIELD = 3, 6, 9, 14, 17, 5
_SYMBOL_MODULE, _SYMBOL_CLASS, _SYMBOL_FUNCTION, _SYMBOL_VARIABLE = 2, 5, 12, 13
_GLOSSES = {
    "keeps kind": "*keeps kind*: works on the printed text; markup stays markup, and everything "
    "else becomes plain text.",
    "Items": "*Items* are what a `for` visits; a value without them is F6.",
    "by fold": "*fold* is ASCII lower case.",
}


class Place(NamedTuple):
    """A place in a template: the tag around it, the tokens before it, and the token at it."""

    name: str
    at: int
    tag: Optional[Tag]
    before: List[Token]
    here: Optional[Token]


class Target(NamedTuple):
    """What is named at a place: a macro, a block, a template or a variable of a template."""

    kind: str
    template: str
    text: str
    span: Tuple[int, int]
    # The place of its definition: a template and its characters.
    definition: Optional[Tuple[str, int, int]]


def place_at(folder: Folder, name: str, at: int) -> Place:
    """Returns a place in a template."""
    tag = tag_around(folder.outline(name).tags, at)
    if tag is None:
        return Place(name, at, None, [], None)
    before = [it for it in tag.tokens if it.end < at or (it.end == at and it.kind == "sign")]
    here = next((it for it in tag.tokens if it.start <= at <= it.end and it.kind != "sign"), None)
    if here is not None:
        before = [it for it in before if it.end <= here.start]
    return Place(name, at, tag, before, here)


# ---- completion


def completion(folder: Folder, name: str, at: int, context: Optional[Names]) -> List[Json]:
    """Returns what may be written at a place."""
    place = place_at(folder, name, at)
    if place.tag is None or place.tag.kind in ("comment", "raw"):
        return []
    lines = folder.lines(name)
    here = place.here
    start, end = (here.span if here and here.start < at else (at, at))
    items: Dict[str, Tuple[int, str, str]] = {}
    for label, kind, detail, said in _choices(folder, place, context):
        items.setdefault(label, (kind, detail, said))
    edited = lines.range(start, max(end, at) if here else at)
    return [
        {
            "label": label,
            "kind": kind,
            "detail": detail,
            "documentation": {"kind": "markdown", "value": said},
            "textEdit": {"range": edited, "newText": label},
        }
        for label, (kind, detail, said) in items.items()
    ]


Choice = Tuple[str, int, str, str]


def _choices(folder: Folder, place: Place, context: Optional[Names]) -> Iterator[Choice]:
    """Returns the names that may stand at a place."""
    tag, before = place.tag, place.before
    assert tag is not None
    last = before[-1].text if before else ""
    if place.here is not None and place.here.kind == "text":
        yield from _in_text(folder, before)
    elif tag.kind == "block" and not before:
        yield from _statements(folder, place)
    elif last == "|" or (tag.word == "filter" and len(before) == 1):
        yield from _words(FILTERS)
    elif last == "is" or (last == "not" and [it.text for it in before[-2:-1]] == ["is"]):
        yield from _words(TESTS)
    elif last == "." and len(before) > 1:
        yield from _after_dot(folder, place, context)
    elif tag.word in ("block", "endblock") and len(before) == 1:
        yield from _block_names(folder, place)
    elif tag.word == "from" and [it.text for it in before[2:3]] == ["import"]:
        yield from _macros_of(folder, before[1].inner)
    elif tag.word in LINKS and len(before) == 1:
        for name in folder.sources:
            yield f'"{name}"', _FILE, "template", ""
    else:
        yield from _expression(folder, place, context)


def _words(words: Words) -> Iterator[Choice]:
    for name in words:
        yield name, _FUNCTION, " or ".join(words[name][0]), _said(words, name)


def _in_text(folder: Folder, before: List[Token]) -> Iterator[Choice]:
    """Returns what may stand in a text: a template, or the name of a filter or a test."""
    words = [it.text for it in before]
    if words[:1] and words[0] in LINKS and len(before) == 1:
        for name in folder.sources:
            yield name, _FILE, "template", folder.outline(name).comment
    elif words[-2:] == ["map", "("]:
        yield from _words(FILTERS)
    elif words[-2:] in (["select", "("], ["reject", "("]):
        yield from _words(TESTS)
    elif words[-4:-2] in (["selectattr", "("], ["rejectattr", "("]) and words[-1] == ",":
        yield from _words(TESTS)


def _statements(folder: Folder, place: Place) -> Iterator[Choice]:
    """Returns the words that may begin a tag: first what ends the statements that are open."""
    assert place.tag is not None
    opened = [it.word for it in folder.outline(place.name).open_at(place.tag.start)]
    if opened:
        yield f"end{opened[-1]}", _KEYWORD, f"ends the {opened[-1]}", ""
        for word in {"if": ["elif", "else"], "for": ["else"]}.get(opened[-1], []):
            yield word, _KEYWORD, " or ".join(STATEMENTS[word][0]), _said(STATEMENTS, word)
    for word in STATEMENTS:
        if word not in ("elif", "else"):
            yield word, _KEYWORD, " or ".join(STATEMENTS[word][0]), _said(STATEMENTS, word)
    yield "raw", _KEYWORD, "raw .. endraw", "Literal text."


def _after_dot(folder: Folder, place: Place, context: Optional[Names]) -> Iterator[Choice]:
    """Returns what may follow a dot."""
    path = _path_before(place.before)
    if not path:
        return
    if path == ["loop"]:
        yield from _words(FIELDS)
    elif path == ["self"]:
        yield from _block_names(folder, place)
    else:
        for imported in folder.imports(place.name):
            if imported.macro is None and [imported.bound.text] == path:
                yield from _macros_of(folder, imported.library)
        if context is not None:
            for key, kind in context.keys(path):
                yield key, _FIELD, kind, ""


def _path_before(tokens: List[Token]) -> List[str]:
    """Returns the names before a dot: `a` and `b` before `a.b.`."""
    path: List[str] = []
    at = len(tokens) - 1
    while at > 0 and tokens[at].text == "." and tokens[at - 1].kind == "name":
        path.insert(0, tokens[at - 1].text)
        at -= 2
    return path


def _block_names(folder: Folder, place: Place) -> Iterator[Choice]:
    if place.tag is not None and place.tag.word == "endblock":
        around = folder.outline(place.name).open_at(place.tag.start)
        opened = [it for it in folder.outline(place.name).blocks if it.statement in around]
        for block in opened[-1:]:
            yield block.name.text, _MODULE, "block", ""
        return
    for template in reversed(folder.chain(place.name)):
        for block in folder.outline(template).blocks:
            yield block.name.text, _MODULE, f"block of {template}", ""


def _macros_of(folder: Folder, library: str) -> Iterator[Choice]:
    if library in folder.sources:
        for macro in folder.outline(library).macros:
            if not macro.name.text.startswith("_"):
                yield macro.name.text, _FUNCTION, macro.signature, macro.comment


def _expression(folder: Folder, place: Place, context: Optional[Names]) -> Iterator[Choice]:
    """Returns the names that an expression may begin with."""
    outline = folder.outline(place.name)
    for binding in visible(outline, place.at):
        yield binding.name.text, _VARIABLE, binding.kind, ""
    for template in folder.chain(place.name):
        for macro in folder.outline(template).macros:
            yield macro.name.text, _FUNCTION, macro.signature, macro.comment
        for imported in folder.outline(template).imports:
            detail = f"import of {imported.library}"
            kind = _MODULE if imported.macro is None else _FUNCTION
            yield imported.bound.text, kind, detail, ""
        for binding in folder.outline(template).bindings:
            if binding.kind == "set":
                yield binding.name.text, _VARIABLE, f"set in {template}", ""
    if context is not None:
        for key, what in context.keys([]):
            yield key, _VARIABLE, f"context: {what}", ""
    opened = [it.word for it in outline.open_at(place.at)]
    if "for" in opened:
        yield "loop", _VARIABLE, "the fields of the loop", ""
    yield "range", _FUNCTION, " or ".join(CALLS["range"][0]), _said(CALLS, "range")
    if "block" in opened:
        yield "super", _FUNCTION, "super()", _said(CALLS, "super")
    if folder.blocks(folder.chain(place.name), "") or outline.blocks:
        yield "self", _VARIABLE, "self.b()", _said(CALLS, "self")
    for word in ("true", "false", "none", "not", "and", "or", "in", "is", "if", "else"):
        yield word, _KEYWORD, "", ""


def visible(outline: Outline, at: int) -> List[Binding]:
    """Returns the bindings that are visible at a place, the innermost first."""
    found = [it for it in outline.bindings if it.start <= at <= it.end]
    return sorted(found, key=lambda it: it.end - it.start)


def _said(words: Words, name: str) -> str:
    """Returns the sentences of a word as Markdown."""
    sentences = words[name][1]
    said = " ".join(sentences)
    glosses = [it for key, it in _GLOSSES.items() if key in said or key in said.lower()]
    return "\n\n".join([*sentences, *glosses])


# ---- hover


def hover(folder: Folder, name: str, at: int, context: Optional[Names]) -> Optional[Json]:
    """Returns what is said of the name at a place."""
    place = place_at(folder, name, at)
    if place.tag is None or place.here is None:
        return None
    said = _hover_word(place) or _hover_target(folder, place, context)
    if said is None:
        return None
    lines = folder.lines(name)
    contents = {"kind": "markdown", "value": said}
    return {"contents": contents, "range": lines.range(*place.here.span)}


def _hover_word(place: Place) -> Optional[str]:
    """Returns what is said of a word of the language."""
    assert place.tag is not None and place.here is not None
    here, before = place.here, [it.text for it in place.before]
    word = here.inner if here.kind == "text" else here.text
    last = before[-1:]
    if last == ["|"] or (place.tag.word == "filter" and len(before) == 1) or (
        here.kind == "text" and before[-2:] == ["map", "("]
    ):
        return _entry(FILTERS, word, "filter")
    if last == ["is"] or before[-2:] == ["is", "not"] or (
        here.kind == "text" and before[-2:] in (["select", "("], ["reject", "("])
    ):
        return _entry(TESTS, word, "test")
    if before[-2:] == ["loop", "."]:
        return _entry(FIELDS, word, "field of loop")
    if here.kind == "text":
        return None
    if place.tag.kind == "block" and not before:
        return _entry(STATEMENTS, word, "statement")
    return _entry(CALLS, word, "call") if last != ["."] else None


def _entry(words: Words, name: str, kind: str) -> Optional[str]:
    if name not in words:
        return None
    forms = "\n".join(words[name][0])
    return f"```jinja\n{forms}\n```\n*{kind}*\n\n{_said(words, name)}"


def _hover_target(folder: Folder, place: Place, context: Optional[Names]) -> Optional[str]:
    """Returns what is said of a name that templates define."""
    target = target_at(folder, place)
    if target is None:
        return None
    if target.kind == "macro" and target.definition is not None:
        template, start, _ = target.definition
        macros = folder.outline(template).macros
        macro = next((it for it in macros if it.name.start == start), None)
        if macro is not None:
            comment = f"\n\n{macro.comment}" if macro.comment else ""
            return f"```jinja\nmacro {macro.signature}\n```\n*macro of {template}*{comment}"
    if target.kind == "block":
        return _hover_block(folder, place.name, target.text)
    if target.kind == "template":
        if target.text not in folder.sources:
            return f"**{target.text}**: no template is called so"
        comment = folder.outline(target.text).comment
        parents = folder.parents(target.text)
        chain = f"\n\nextends {', '.join(parents)}" if parents else ""
        return f"**{target.text}**{chain}" + (f"\n\n{comment}" if comment else "")
    if target.kind == "variable":
        where = ""
        if target.definition is not None:
            template, start, _ = target.definition
            line = folder.lines(template).line_of(start) + 1
            where = f"\n\nbound in {template}, line {line}"
        known = context.describe([target.text]) if context is not None else None
        if not where and known is None:
            return None
        return f"```jinja\n{target.text}\n```" + (f"\n{known}" if known else "") + where
    return None


def _hover_block(folder: Folder, name: str, block: str) -> str:
    lines = [f"```jinja\nblock {block}\n```"]
    parents = [it.template for it in folder.blocks(folder.parents(name), block)]
    lines.append(f"replaces the block of {parents[0]}" if parents else "no parent has this block")
    for template in parents[1:]:
        lines.append(f"and that of {template}")
    return "\n\n".join(lines)


# ---- definition and references


def target_at(folder: Folder, place: Place) -> Optional[Target]:
    """Returns what is named at a place."""
    tag, here, name = place.tag, place.here, place.name
    if tag is None or here is None:
        return None
    outline = folder.outline(name)
    for link in outline.links:
        if link.name.start <= place.at <= link.name.end:
            return _template(folder, name, link.name)
    for imported in outline.imports:
        for one in (imported.macro, imported.bound):
            if one is not None and one.start == here.start and imported.macro is not None:
                found = folder.public_macro(imported.library, imported.macro.text)
                return _macro(name, one, found)
        if imported.bound.start == here.start:
            return Target("import", name, here.text, here.span, (name, *here.span))
    for block in outline.blocks:
        if block.name.start == here.start:
            found_blocks = folder.blocks(folder.parents(name), block.name.text)
            to = found_blocks[0] if found_blocks else None
            where = (to.template, to.block.name.start, to.block.name.end) if to else None
            return Target("block", name, here.text, here.span, where or (name, *here.span))
    for macro in outline.macros:
        if macro.name.start == here.start:
            return _macro(name, macro.name, FoundMacro(name, macro))
    for call in outline.calls:
        if call.name.start == here.start:
            return _call(folder, place, call.before, call.name)
    if here.kind != "name" or [it.text for it in place.before[-1:]] in ([["."], ["|"], ["is"]]):
        return None
    return _variable(folder, place, here)


def _template(folder: Folder, name: str, link: Name) -> Target:
    where = (link.text, 0, 0) if link.text in folder.sources else None
    return Target("template", name, link.text, (link.start, link.end), where)


def _macro(name: str, at: Name, found: Optional[FoundMacro]) -> Target:
    where = None
    if found is not None:
        where = (found.template, found.macro.name.start, found.macro.name.end)
    text = found.macro.name.text if found else at.text
    return Target("macro", name, text, (at.start, at.end), where)


def _call(folder: Folder, place: Place, before: str, called: Name) -> Optional[Target]:
    """Returns what a call names."""
    span = (called.start, called.end)
    if before == "self" or (not before and called.text == "super"):
        return _called_block(folder, place, before, called)
    found = folder.macro(place.name, before, called.text)
    if found is not None:
        return _macro(place.name, called, found)
    return None if before else Target("macro", place.name, called.text, span, None)


def _called_block(
    folder: Folder, place: Place, before: str, called: Name
) -> Optional[Target]:
    """Returns the block of `self.b()` or `super()`."""
    outline = folder.outline(place.name)
    if before == "self":
        templates, block = folder.chain(place.name), called.text
    else:
        around = outline.open_at(place.at)
        opened = [it for it in outline.blocks if it.statement in around]
        if not opened:
            return None
        templates, block = folder.parents(place.name), opened[-1].name.text
    found = folder.blocks(templates, block)
    where = None
    if found:
        where = (found[0].template, found[0].block.name.start, found[0].block.name.end)
    return Target("block", place.name, block, (called.start, called.end), where)


def _variable(folder: Folder, place: Place, here: Token) -> Target:
    """Returns the variable of a name, with the place that binds it."""
    outline = folder.outline(place.name)
    bound = [it for it in visible(outline, place.at) if it.name.text == here.text]
    where: Optional[Tuple[str, int, int]] = None
    if bound:
        where = (place.name, bound[0].name.start, bound[0].name.end)
    else:
        for template in folder.chain(place.name):
            for one in folder.outline(template).imports:
                if one.bound.text == here.text:
                    where = where or (template, one.bound.start, one.bound.end)
            for it in folder.outline(template).bindings:
                if it.kind == "set" and it.name.text == here.text:
                    where = where or (template, it.name.start, it.name.end)
    return Target("variable", place.name, here.text, here.span, where)


def definition(folder: Folder, name: str, at: int) -> Optional[Json]:
    """Returns the place that defines what is named at a place."""
    target = target_at(folder, place_at(folder, name, at))
    if target is None or target.definition is None:
        return None
    return _location(folder, *target.definition)


def references(folder: Folder, name: str, at: int) -> List[Json]:
    """Returns the places that name what is named at a place, its definition included."""
    target = target_at(folder, place_at(folder, name, at))
    if target is None:
        return []
    found: Iterable[Tuple[str, int, int]]
    if target.kind == "template":
        found = _of_template(folder, target.text)
    elif target.kind == "block":
        found = _of_block(folder, name, target.text)
    elif target.kind == "macro" and target.definition is not None:
        found = _of_macro(folder, target.definition[0], target.text)
    else:
        outline = folder.outline(name)
        reads = [it for it, _ in outline.reads if it.text == target.text]
        names = reads + [it.name for it in outline.bindings if it.name.text == target.text]
        found = [(name, it.start, it.end) for it in names]
    return [_location(folder, *it) for it in sorted(set(found))]


def _of_template(folder: Folder, name: str) -> Iterator[Tuple[str, int, int]]:
    for template in folder.linked_from(name):
        for link in folder.outline(template).links:
            if link.name.text == name:
                yield template, link.name.start, link.name.end


def _family(folder: Folder, name: str) -> Set[str]:
    """Returns the templates that are in one chain with a template."""
    chain = folder.chain(name)
    return {*chain, *(it for it in folder.sources if set(folder.chain(it)) & {chain[-1]})}


def _of_block(folder: Folder, name: str, block: str) -> Iterator[Tuple[str, int, int]]:
    for template in _family(folder, name):
        outline = folder.outline(template)
        for one in outline.blocks:
            if one.name.text == block:
                yield template, one.name.start, one.name.end
        for call in outline.calls:
            if call.before == "self" and call.name.text == block:
                yield template, call.name.start, call.name.end


def _of_macro(folder: Folder, template: str, macro: str) -> Iterator[Tuple[str, int, int]]:
    """Returns the places that name a macro of a template."""
    for other in folder.sources:
        outline = folder.outline(other)
        if other == template:
            for one in outline.macros:
                if one.name.text == macro:
                    yield other, one.name.start, one.name.end
        for imported in outline.imports:
            if imported.library == template and imported.macro is not None:
                if imported.macro.text == macro:
                    yield other, imported.macro.start, imported.macro.end
        for call in outline.calls:
            found = folder.macro(other, call.before, call.name.text)
            if found and (found.template, found.macro.name.text) == (template, macro):
                yield other, call.name.start, call.name.end


def _location(folder: Folder, name: str, start: int, end: int) -> Json:
    return {"uri": folder.uri_of(name), "range": folder.lines(name).range(start, end)}


# ---- symbols and folding


def symbols(folder: Folder, name: str) -> List[Json]:
    """Returns the blocks, macros, imports and bindings of a template, in their order."""
    outline, lines = folder.outline(name), folder.lines(name)
    found: List[Tuple[Name, int, str, Tuple[int, int]]] = []
    for block in outline.blocks:
        whole = (block.statement.tag.start, block.statement.end)
        found.append((block.name, _SYMBOL_CLASS, "block", whole))
    for macro in outline.macros:
        whole = (macro.statement.tag.start, macro.statement.end)
        found.append((macro.name, _SYMBOL_FUNCTION, macro.signature, whole))
    for imported in outline.imports:
        whole = (imported.bound.start, imported.bound.end)
        found.append((imported.bound, _SYMBOL_MODULE, f"from {imported.library}", whole))
    for binding in outline.bindings:
        if binding.kind == "set":
            whole = (binding.name.start, binding.name.end)
            found.append((binding.name, _SYMBOL_VARIABLE, "set", whole))
    return [
        {
            "name": one.text,
            "detail": detail,
            "kind": kind,
            "range": lines.range(*whole),
            "selectionRange": lines.range(one.start, one.end),
        }
        for one, kind, detail, whole in sorted(found)
    ]


def workspace_symbols(folder: Folder, query: str) -> List[Json]:
    """Returns the blocks and macros of all templates whose names contain a text."""
    found = []
    for name in folder.sources:
        outline = folder.outline(name)
        named = [(it.name, _SYMBOL_CLASS) for it in outline.blocks]
        named += [(it.name, _SYMBOL_FUNCTION) for it in outline.macros]
        for one, kind in named:
            if query.lower() in one.text.lower():
                place = _location(folder, name, one.start, one.end)
                found.append(
                    {"name": one.text, "kind": kind, "location": place, "containerName": name}
                )
    return found


def folding(folder: Folder, name: str) -> List[Json]:
    """Returns the lines of statements and comments that can be folded."""
    outline, lines = folder.outline(name), folder.lines(name)
    ranges: Dict[int, Json] = {}
    for statement in outline.statements:
        first, last = lines.line_of(statement.tag.start), lines.line_of(statement.inner_end)
        if last > first:
            ranges.setdefault(first, {"startLine": first, "endLine": last})
    for tag in outline.tags:
        if tag.kind in ("comment", "raw"):
            first, last = lines.line_of(tag.start), lines.line_of(tag.end)
            if last > first:
                kind = "comment" if tag.kind == "comment" else "region"
                ranges.setdefault(first, {"startLine": first, "endLine": last, "kind": kind})
    return [ranges[first] for first in sorted(ranges)]
