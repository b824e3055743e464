"""The names of Jinja 3.1, each of which the language has or jt_hints names as left out.

docs/check.py runs `failures`. If the package jinja2 of this version is installed, the lists are compared with it too.
"""
import pathlib
import re

ROOT = pathlib.Path(__file__).resolve().parent.parent
CRATES = ROOT / "crates"
CODES = re.compile(r'codes "([^"\\]+)"')
FILTERS = """
abs attr batch capitalize center count d default dictsort e escape filesizeformat first float forceescape format groupby indent int
items join last length list lower map max min pprint random reject rejectattr replace reverse round safe select selectattr slice sort
string striptags sum title tojson trim truncate unique upper urlencode urlize wordcount wordwrap xmlattr
""".split()
# without the six that are spelled by signs, which are no names
TESTS = """
boolean callable defined divisibleby eq equalto escaped even false filter float ge greaterthan gt in integer iterable le lessthan lower
lt mapping ne none number odd sameas sequence string test true undefined upper
""".split()
# the words of its parser and of the extensions that it brings, with what ends and continues them
STATEMENTS = """
autoescape block break call continue debug do elif else endautoescape endblock endcall endfilter endfor endif endmacro endset endtrans
endwith extends filter for from if import include macro pluralize print set trans with
""".split()
# those of each environment and of its extension for translations, and that of a call block
FUNCTIONS = "_ caller cycler dict gettext joiner lipsum namespace ngettext range".split()
# a function of Django and of many hosts, which jt_hints names beside those of Jinja
OTHER_FUNCTIONS = ["now"]


def names_of(path, start, end):
    """The names of the rows between two lines of a file of definitions: the first text of each row."""
    text = (CRATES / path).read_text(encoding="utf-8")
    _, found, after = text.partition(start)
    block = after.partition(end)[0] if found else ""
    return [row[1] for row in re.finditer(r'\(codes "([^"\\]+)",', block)]


def rows_of(path, word):
    """All names of the rows of a table of jt_ids."""
    text = (CRATES / path).read_text(encoding="utf-8")
    return [name for line in text.splitlines() if line.startswith(word) for name in CODES.findall(line)]


def left_out(plural):
    return names_of("jt_hints/specs/LeftOut.antt", f"\n{plural} =\n", "∷ []")


def statements():
    """The first words of the tags that the language has."""
    text = (CRATES / "jt_hints/specs/Forms.antt").read_text(encoding="utf-8")
    plain = text.partition("\nis_plain_word = ")[2].partition("∷ [])")[0]
    head = text.partition("\nhead_hint word tokens =")[2].partition("is_plain_word")[0]
    return CODES.findall(plain) + CODES.findall(head)


def tables():
    """For each kind of names: those of Jinja, those that the language has, and those that it leaves out."""
    forms = names_of("jt_hints/specs/Forms.antt", "\nunknown_words =\n", "∷ []")
    return {
        "filter": (FILTERS, rows_of("jt_ids/specs/FilterTable.antt", "filter_row filter."), left_out("filters")),
        "test": (TESTS, rows_of("jt_ids/specs/TestTable.antt", "test_row test."), left_out("tests")),
        "statement": (STATEMENTS, statements(), [word for word in forms if word not in ("elseif", "elsif")]),
        "function": (FUNCTIONS, ["range"], [name for name in left_out("functions") if name not in OTHER_FUNCTIONS]),
    }


def installed():
    """The filters and tests of the package, if it is one of this version."""
    try:
        import jinja2
        from jinja2 import defaults
    except ImportError:
        return {}
    if not jinja2.__version__.startswith("3.1."):
        return {}
    return {"filter": sorted(defaults.DEFAULT_FILTERS), "test": sorted(it for it in defaults.DEFAULT_TESTS if it.isidentifier())}


def failures():
    """What is wrong with the tables, a line for each."""
    wrong = []
    package = installed()
    for kind, (jinja, has, out) in tables().items():
        if package.get(kind, jinja) != jinja:
            wrong.append(f"the package jinja2 has other {kind}s")
        for name in jinja:
            if (name in has) == (name in out):
                wrong.append(f"the {kind} {name} is in {'both tables' if name in has else 'neither table'}")
        wrong += [f"Jinja has no {kind} {name}" for name in [*has, *out] if name not in jinja]
    return wrong


if __name__ == "__main__":
    print("\n".join(failures()) or "no failure")
