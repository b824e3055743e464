"""What `jt explain` prints of a run by the documents, for the rows of explanations with a context of tests/run.py.

A row wants the first line of the text alone, or `ok` with all lines of notes. This module adds the line of the template's file and the sentence of docs/errors.md,
and tells what `jt render` says of the same templates and context.
"""
import functools
import re

import explanations

SPENT = ("Fuel", "Depth", "Output", "Size", "Nesting")
FAULT = re.compile(r"(?P<template>[^\n]+):(?P<line>[0-9]+): (?P<fault>F[0-9] \w+)")
LIMIT = re.compile(rf"spent (?P<limit>{'|'.join(SPENT)}) (?P<number>[0-9]+)")
ROW = re.compile(rf"(?m)^\| (F[0-9] \w+|{'|'.join(SPENT)}) \| ([^|]+) \|$")


def table(text):
    """The sentences of docs/errors.md on faults and spent numbers, by their names."""
    _, _, after = text.partition("\n## What `jt explain` says of a run\n")
    return dict(ROW.findall(re.split(r"\n## ", after)[0]))


@functools.lru_cache
def sentences():
    return table(explanations.ERRORS.read_text(encoding="utf-8"))


def answers(folder, wanted):
    """What `explain` and `render` of the templates of a folder and a context must come to, by the first line that `explain` prints."""
    if explanations.NOTED.fullmatch(wanted):
        return f"0 [{wanted}\n][]", "0 […]"
    if found := FAULT.fullmatch(wanted):
        template, line, fault = found["template"], int(found["line"]), found["fault"]
        source = explanations.line_of(folder, template, line)
        told = f"{wanted}\n  {source}\n  {sentences()[fault]}\n"
        return f"0 [{told}][]", f"1 [][jt: fault {fault} in {template} line {line}\n]"
    if found := LIMIT.fullmatch(wanted):
        return f"0 [{wanted}\n  {sentences()[found['limit']]}\n][]", f"4 [][jt: spent {found['limit']}\n]"
    return explanations.answers(folder, wanted)
