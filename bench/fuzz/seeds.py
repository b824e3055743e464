#!/usr/bin/env python3
"""Writes inputs for the targets of fuzz.c, of rows: seeds.py FOLDER

FOLDER/source gets the templates of a row, FOLDER/context the contexts, FOLDER/image the images whose bytes stand in a row,
FOLDER/compare contexts with templates, and FOLDER/handles calls with both; FOLDER/words gets the words of all of them, as a dictionary of libFuzzer.
"""
import collections
import json
import pathlib
import re
import sys

ROOT = pathlib.Path(__file__).resolve().parent.parent.parent
sys.path.insert(0, str(ROOT / "tests"))
import run  # noqa: E402

LONGEST = 2048
NAMED = re.compile(r"([\w.-]+): (.*)", re.S)
WORD = re.compile(r"\b[A-Za-z_]{2,16}\b|\{%-?|-?%\}|\{\{-?|-?\}\}|[=!<>]=|\*\*|//|\{#|#\}", re.A)
OFTEN = 3
OTHERS = "uv"


def rows(*names):
    """What is asked by the rows of some files, each part by itself."""
    for name in names:
        for line in (ROOT / "tests" / "rows" / name).read_text(encoding="utf-8").splitlines():
            asked, is_row, _ = line.partition(" => ")
            if is_row and not line.startswith(("#", "==")):
                yield [run.unfolded(part) for part in asked.split("¦")]


def templates(parts):
    """The input of a row's templates, whose names become those that the target knows, or none where there are too many."""
    *others, source = [part for part in parts if not part.startswith(("{\"", "{}", "[", "--"))] or [""]
    named = [NAMED.fullmatch(part) for part in others]
    if len(named) > len(OTHERS) or not all(named):
        return None
    sources = [source, *(it[2] for it in named)]
    for it, to in zip(named, OTHERS):
        sources = [re.sub(rf"(['\"]){re.escape(it[1])}\1", rf"\1{to}\1", text) for text in sources]
    return "\0".join(sources)


def put(folder, kind, inputs):
    """Writes inputs, each once, that are not too long."""
    (folder / kind).mkdir(parents=True, exist_ok=True)
    for number, data in enumerate(sorted(it for it in set(inputs) if len(it) <= LONGEST)):
        (folder / kind / f"{number:04}").write_bytes(data)


folder = pathlib.Path(sys.argv[1])
asked = list(rows("templates.txt", "values.txt", "imports.txt", "faults.txt", "refusals.txt", "documents.txt"))
sources = [run.bytes_of(text) for text in map(templates, asked) if text]
contexts = [run.bytes_of(part) for parts in asked for part in parts if part.startswith(("{\"", "{}", "["))]
contexts += [json.dumps({"a": value, "b": [value, "é<&>\n"]}).encode() for value in (None, True, -1, 9007199254740993, "", [], {}, {"k": [{}]})]
images = [re.match(r"bytes ([0-9a-f ]+)", parts[0]) for parts in rows("images.txt")]
put(folder, "source", sources)
put(folder, "context", contexts)
put(folder, "image", [bytes.fromhex(it[1]) for it in images if it and len(it[1].replace(" ", "")) % 2 == 0])
usual = b'{"a": "<&>", "b": [1, ["x"]], "c": {"k": true}, "n": -7}'
compared = [usual + b"\0" + source for source in sources]
put(folder, "compare", compared)
# load a library, compile t, load a context, run, read the outcome, save and load the image, run that one, share and free
CALLS = bytes([0x80, 0x01, 0x84, 0x05, 0x06, 0x46, 0x02, 0x25, 0x07, 0x08, 0x11, 0x09, 0x2A, 0x0B, 0x25, 0x0C, 0xED])
put(folder, "handles", [CALLS + b"\0" + it for it in compared])
counts = collections.Counter(word for it in sources if len(it) <= LONGEST for word in set(WORD.findall(run.text_of(it))))
(folder / "words").write_text("".join(f'"{word}"\n' for word, count in sorted(counts.items()) if count >= OFTEN))
