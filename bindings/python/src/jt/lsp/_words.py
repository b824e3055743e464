"""What docs/language.md says of each filter, test, call, field of `loop` and statement.

bindings/python/words.py writes this file from the tables there, and compares it with them.
"""
from typing import Dict, List, Tuple

# Each word has its forms, with their arguments, and its sentences.
Words = Dict[str, Tuple[List[str], List[str]]]

FILTERS: Words = {
    "abs": (
        ["abs"],
        [
            "The number without its sign; F3 if it does not exist.",
        ],
    ),
    "attr": (
        ["attr(name)"],
        [
            "The value of `a[name]`; F9 if name is no text.",
        ],
    ),
    "capitalize": (
        ["capitalize"],
        [
            "The first character in upper case, the others in lower; keeps kind.",
        ],
    ),
    "default": (
        ["default(default_value=\"\", boolean=false)"],
        [
            "default_value for undefined, or for a false value if boolean is true; "
            "otherwise the input.",
        ],
    ),
    "d": (
        ["d(default_value=\"\", boolean=false)"],
        [
            "default_value for undefined, or for a false value if boolean is true; "
            "otherwise the input.",
        ],
    ),
    "dictsort": (
        ["dictsort"],
        [
            "Of a map: a list of `[key, value]`, by the fold of the keys, stable.",
        ],
    ),
    "escape": (
        ["escape"],
        [
            "Markup as it is, otherwise markup of the escaped printed text.",
        ],
    ),
    "e": (
        ["e"],
        [
            "Markup as it is, otherwise markup of the escaped printed text.",
        ],
    ),
    "first": (
        ["first"],
        [
            "Of Items; undefined if there are no Items.",
        ],
    ),
    "last": (
        ["last"],
        [
            "Of Items; undefined if there are no Items.",
        ],
    ),
    "forceescape": (
        ["forceescape"],
        [
            "Markup of the escaped printed text.",
        ],
    ),
    "int": (
        ["int(default=0)"],
        [
            "A number; 1 or 0 of a truth value; a text of a sign and digits as a number; "
            "undefined is F2; otherwise default.",
        ],
    ),
    "items": (
        ["items"],
        [
            "Of a map: a list of `[key, value]`; of undefined: the empty list.",
        ],
    ),
    "join": (
        ["join(d=\"\")"],
        [
            "Printed Items with d between them. While escaping is on and an item or d is "
            "markup: markup, the plain ones escaped.",
        ],
    ),
    "length": (
        ["length"],
        [
            "Characters, items or entries; undefined 0.",
        ],
    ),
    "count": (
        ["count"],
        [
            "Characters, items or entries; undefined 0.",
        ],
    ),
    "list": (
        ["list"],
        [
            "Items.",
        ],
    ),
    "lower": (
        ["lower"],
        [
            "Keeps kind.",
        ],
    ),
    "upper": (
        ["upper"],
        [
            "Keeps kind.",
        ],
    ),
    "max": (
        ["max"],
        [
            "Of Items, all numbers or all plain texts by fold; the first of equals; "
            "undefined if there are no Items.",
        ],
    ),
    "min": (
        ["min"],
        [
            "Of Items, all numbers or all plain texts by fold; the first of equals; "
            "undefined if there are no Items.",
        ],
    ),
    "replace": (
        ["replace(old, new)"],
        [
            "Of plain text: each old from the left by new; F9 if one is not plain or old is"
            " empty.",
        ],
    ),
    "reverse": (
        ["reverse"],
        [
            "A text backwards as plain text; Items backwards.",
        ],
    ),
    "safe": (
        ["safe"],
        [
            "Markup of the printed text.",
        ],
    ),
    "sort": (
        ["sort(reverse=false)"],
        [
            "Items, all numbers or all plain texts by fold; stable, also in reverse.",
        ],
    ),
    "string": (
        ["string"],
        [
            "The printed text; keeps kind.",
        ],
    ),
    "sum": (
        ["sum"],
        [
            "Of Items, all numbers, from the left; F3 if a partial sum overflows.",
        ],
    ),
    "trim": (
        ["trim"],
        [
            "Removes whitespace at both ends; keeps kind.",
        ],
    ),
    "unique": (
        ["unique"],
        [
            "The first of each in Items; texts are compared by fold, others by equality.",
        ],
    ),
    "map": (
        ["map(\"f\", a, ..)", "map(attribute=\"k\")"],
        [
            "The result of filter `f` on each item, with the arguments after its name.",
            "The value of `item[\"k\"]` for each item.",
        ],
    ),
    "select": (
        ["select(\"t\", a, ..)", "select"],
        [
            "The items that pass the test `t` with the arguments after its name, or those "
            "that fail it.",
            "The items that are true, or those that are false.",
        ],
    ),
    "reject": (
        ["reject(\"t\", a, ..)", "reject"],
        [
            "The items that pass the test `t` with the arguments after its name, or those "
            "that fail it.",
            "The items that are true, or those that are false.",
        ],
    ),
    "selectattr": (
        ["selectattr(\"k\", \"t\", a, ..)", "selectattr(\"k\")"],
        [
            "The items whose `item[\"k\"]` passes the test, or fails it.",
            "The items whose `item[\"k\"]` is true, or is false.",
        ],
    ),
    "rejectattr": (
        ["rejectattr(\"k\", \"t\", a, ..)", "rejectattr(\"k\")"],
        [
            "The items whose `item[\"k\"]` passes the test, or fails it.",
            "The items whose `item[\"k\"]` is true, or is false.",
        ],
    ),
}

TESTS: Words = {
    "defined": (
        ["defined"],
        [
            "True for every value but undefined.",
        ],
    ),
    "undefined": (
        ["undefined"],
        [
            "True for undefined.",
        ],
    ),
    "none": (
        ["none"],
        [
            "True for none.",
        ],
    ),
    "boolean": (
        ["boolean"],
        [
            "True for truth values.",
        ],
    ),
    "integer": (
        ["integer"],
        [
            "True for numbers.",
        ],
    ),
    "string": (
        ["string"],
        [
            "True for texts.",
        ],
    ),
    "mapping": (
        ["mapping"],
        [
            "True for maps.",
        ],
    ),
    "true": (
        ["true"],
        [
            "True for that truth value.",
        ],
    ),
    "false": (
        ["false"],
        [
            "True for that truth value.",
        ],
    ),
    "escaped": (
        ["escaped"],
        [
            "True for markup.",
        ],
    ),
    "even": (
        ["even"],
        [
            "True for such a number; other values are F1, undefined is F2.",
        ],
    ),
    "odd": (
        ["odd"],
        [
            "True for such a number; other values are F1, undefined is F2.",
        ],
    ),
    "divisibleby": (
        ["divisibleby(n)"],
        [
            "True for multiples of n; by 0 F4, other values as for `even`.",
        ],
    ),
    "eq": (
        ["eq(b)"],
        [
            "True for a value that equals b, or does not.",
        ],
    ),
    "equalto": (
        ["equalto(b)"],
        [
            "True for a value that equals b, or does not.",
        ],
    ),
    "ne": (
        ["ne(b)"],
        [
            "True for a value that equals b, or does not.",
        ],
    ),
    "lt": (
        ["lt(b)"],
        [
            "True for a value in this order to b.",
        ],
    ),
    "lessthan": (
        ["lessthan(b)"],
        [
            "True for a value in this order to b.",
        ],
    ),
    "le": (
        ["le(b)"],
        [
            "True for a value in this order to b.",
        ],
    ),
    "gt": (
        ["gt(b)"],
        [
            "True for a value in this order to b.",
        ],
    ),
    "greaterthan": (
        ["greaterthan(b)"],
        [
            "True for a value in this order to b.",
        ],
    ),
    "ge": (
        ["ge(b)"],
        [
            "True for a value in this order to b.",
        ],
    ),
    "in": (
        ["in(b)"],
        [
            "True for a value that is in b.",
        ],
    ),
}

FIELDS: Words = {
    "index": (
        ["loop.index"],
        [
            "At turn p of n, from 1: p.",
        ],
    ),
    "index0": (
        ["loop.index0"],
        [
            "At turn p of n, from 1: p - 1.",
        ],
    ),
    "revindex": (
        ["loop.revindex"],
        [
            "At turn p of n, from 1: n - p + 1: the number of remaining turns, this one "
            "included, so it is 1 at the last turn.",
        ],
    ),
    "revindex0": (
        ["loop.revindex0"],
        [
            "At turn p of n, from 1: n - p: the number of turns after this one, so it is 0 "
            "at the last turn.",
        ],
    ),
    "first": (
        ["loop.first"],
        [
            "At turn p of n, from 1: whether p is 1.",
        ],
    ),
    "last": (
        ["loop.last"],
        [
            "At turn p of n, from 1: whether p is n.",
        ],
    ),
    "length": (
        ["loop.length"],
        [
            "At turn p of n, from 1: n.",
        ],
    ),
    "previtem": (
        ["loop.previtem"],
        [
            "At turn p of n, from 1: the item of the previous turn, undefined at the first "
            "turn.",
        ],
    ),
    "nextitem": (
        ["loop.nextitem"],
        [
            "At turn p of n, from 1: that of the next turn, undefined at the last.",
        ],
    ),
    "cycle": (
        ["loop.cycle(a, ..)"],
        [
            "At turn p of n, from 1: the argument of the turn, starting again after the "
            "last.",
        ],
    ),
}

CALLS: Words = {
    "range": (
        ["range(stop)", "range(start, stop)", "range(start, stop, step)"],
        [
            "The list of the numbers from start (0) by step (1) before stop; a step of 0 is"
            " F8.",
        ],
    ),
    "super": (
        ["super()"],
        [
            "The text of the next body of this block on the path to the root, in the same "
            "scope.",
        ],
    ),
    "self": (
        ["self.b()"],
        [
            "The text of the nearest body of block b, which sees only the globals.",
        ],
    ),
}

STATEMENTS: Words = {
    "if": (
        ["if e"],
        [
            "`if e`, any number of `elif e`, at most one `else`. Ends with `endif`.",
            "Runs the first branch whose condition is true, or the `else` part, or nothing.",
        ],
    ),
    "for": (
        ["for a, b in e"],
        [
            "`for a, b in e`, optionally `if c`; at most one `else`. Ends with `endfor`.",
            "E is evaluated in the scope around the loop. A list gives its items, a map its"
            " keys, a text its characters as plain texts, undefined nothing (F2 in strict "
            "templates); another value is F6. All conditions are evaluated before the first"
            " turn, each with the targets bound, and `loop` counts the kept items. Several "
            "targets unpack each item (F7 for another length). If nothing is kept, the "
            "`else` part runs. `loop` is that of the innermost loop around it.",
        ],
    ),
    "set": (
        ["set a, b = e", "set a"],
        [
            "`set a, b = e`.",
            "`set a`. Ends with `endset`.",
            "Several targets unpack (F7). The block form keeps the text of its body: markup"
            " while escaping is on, otherwise plain.",
        ],
    ),
    "with": (
        ["with a = e, b = f"],
        [
            "`with a = e, b = f`. Ends with `endwith`.",
            "The right sides see the outer names only.",
        ],
    ),
    "filter": (
        ["filter f(..)"],
        [
            "`filter f(..)`, optionally more filters after a bar. Ends with `endfilter`.",
            "Sends the text of the body through the filters and prints the result.",
        ],
    ),
    "autoescape": (
        ["autoescape true"],
        [
            "`autoescape true`, `autoescape false`. Ends with `endautoescape`.",
            "Turns escaping on or off in its body; only `true` or `false`.",
        ],
    ),
    "macro": (
        ["macro m(a, b=1)"],
        [
            "`macro m(a, b=1)`. Ends with `endmacro`.",
            "Macros are at the top of a template (otherwise P1), known in the whole chain, "
            "and can only be called.",
        ],
    ),
    "block": (
        ["block b"],
        [
            "`block b`, optionally followed by `scoped`, `required`. Ends with `endblock`, "
            "optionally with the same name.",
            "A block prints the body that is nearest to the entry. It does not see the "
            "local names around it, unless its tag has the word `scoped`; an overriding "
            "body need not repeat that. A `required` block holds only whitespace and "
            "comments (P1), its nearest body must be another one (C6), and `super()` skips "
            "such bodies. `super()` without a next body is C7. Blocks inside macros are P1,"
            " two of one name in a template C5.",
        ],
    ),
    "extends": (
        ["extends \"x\""],
        [
            "`extends \"x\"`.",
            "`extends \"x\"` is the first tag of a template, after whitespace and comments "
            "alone. Outside blocks such a template has only text, comments, `set`, `block`,"
            " `macro`, `import` and `from` (P1), and its text there is not printed.",
        ],
    ),
    "include": (
        ["include \"x\""],
        [
            "`include \"x\"`, optionally followed by `ignore missing`, and by `with context` "
            "or `without context`.",
            "`include \"x\"` renders another chain with globals of its own: all names that "
            "can be read at the tag, with their values, or none `without context`. What it "
            "sets is not visible outside; `loop` and macros are not passed. It begins with "
            "the option's escaping.",
        ],
    ),
    "import": (
        ["import \"x\" as f"],
        [
            "`import \"x\" as f`, optionally followed by `without context`.",
            "`import` and `from` name macros of a library: a template of macros, comments "
            "and whitespace alone (otherwise C12), so it has no import either. They are at "
            "the top of a template, of a child too (otherwise P1).",
        ],
    ),
    "from": (
        ["from \"x\" import m, n as k"],
        [
            "`from \"x\" import m, n as k`, optionally followed by `without context`.",
            "`import` and `from` name macros of a library: a template of macros, comments "
            "and whitespace alone (otherwise C12), so it has no import either. They are at "
            "the top of a template, of a child too (otherwise P1).",
        ],
    ),
    "elif": (
        ["elif e"],
        [
            "A part of an `if` statement.",
        ],
    ),
    "else": (
        ["else"],
        [
            "The last part of an `if` or a `for` statement.",
        ],
    ),
}
