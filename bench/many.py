#!/usr/bin/env python3
"""Times many contexts in one call: bench/many.py COUNT ROUNDS [WAY ..], with JT_LIBRARY the shared library of bindings/build.sh

It renders the mail of examples/ for COUNT contexts that differ, as JSON and as dictionaries, in each of WAYS or in those that are
named. Of each it prints how many mails are rendered in a second, in the best of the rounds and in the middle one, the microseconds of
processor time for each in this process, and the load of the machine. A round rests before each way, so that short ones are less
disturbed by other processes. The rates of processes leave out their start.

Jinja2 is its sandbox, which takes no JSON: this is read by `json`. All texts have to be equal.
"""
import itertools
import json
import os
import pathlib
import sys
import time

HERE = pathlib.Path(__file__).resolve().parent
sys.path.insert(0, str(HERE.parent / "bindings" / "python" / "src"))
from jt import Options, Templates  # noqa: E402

try:
    from jinja2 import DictLoader
    from jinja2.sandbox import SandboxedEnvironment
except ImportError:
    SandboxedEnvironment = None

MAIL, OPTIONS, REST = HERE.parent / "examples" / "mail", Options(autoescape=False), 0.3


def orders(count):
    """Returns contexts, no two of which are equal."""
    order = (MAIL / "context.json").read_text()
    contexts = [json.loads(order) for _ in range(count)]
    for number, context in enumerate(contexts):
        context["order"]["number"] = number
    return contexts


def ways(image, page):
    """Returns the ways by their names, each of which yields the texts of contexts."""

    def each(**how):
        return lambda contexts: (result.text for result in image.run_each(contexts, **how))

    known = {"run": lambda contexts: map(image.run, contexts)}
    for workers in (1, 2, 4):
        known[f"run_each, {workers} threads"] = each(workers=workers)
    for workers in (2, 4):
        known[f"run_each, {workers} processes"] = each(workers=workers, processes=True)
    if page:
        read = lambda it: json.loads(it) if isinstance(it, str) else it
        known["jinja"] = lambda contexts: (page.render(read(context)) for context in contexts)
    return known


def timed(way, contexts, wanted):
    """Returns how many contexts are rendered in a second, and microseconds of processor time for each."""
    time.sleep(REST)
    texts = way(itertools.chain(contexts, contexts[:1]))
    begin, used, count = time.perf_counter(), time.process_time(), len(contexts) + 1
    found = [next(texts)]
    if "processes" in way.name:
        begin, used, count = time.perf_counter(), time.process_time(), count - 1
    found += texts
    rate, micros = count / (time.perf_counter() - begin), (time.process_time() - used) / count * 1e6
    assert found[:-1] == wanted and found[-1] == wanted[0], way.name
    return rate, micros


class Way:
    """A way with its name and its measures."""

    def __init__(self, name, call, contexts):
        self.name, self.call, self.contexts, self.found = name, call, contexts, []

    def __call__(self, contexts):
        return self.call(contexts)

    def __str__(self):
        rates, micros = sorted(rate for rate, _ in self.found), min(micros for _, micros in self.found)
        return f"{self.name}: best {rates[-1]:,.0f} in a second, middle {rates[len(rates) // 2]:,.0f}, {micros:.0f} microseconds"


def main():
    if len(sys.argv) < 3:
        sys.exit("usage: bench/many.py COUNT ROUNDS [WAY ..]")
    count, rounds, chosen = int(sys.argv[1]), int(sys.argv[2]), sys.argv[3:]
    templates = Templates.from_folder(MAIL / "templates", OPTIONS)
    image, page = templates.template("order.txt").compile(), None
    if SandboxedEnvironment:
        page = SandboxedEnvironment(loader=DictLoader(templates.sources), autoescape=False).get_template("order.txt")
    contexts = orders(count)
    texts, wanted = [json.dumps(context) for context in contexts], [image.run(context) for context in contexts]
    tried = [
        Way(f"{name}, {kind}", call, given)
        for kind, given in (("JSON", texts), ("dictionaries", contexts))
        for name, call in ways(image, page).items()
        if not chosen or name in chosen
    ]
    for _ in range(rounds):
        for way in tried:
            way.found.append(timed(way, way.contexts, wanted))
    print(*tried, f"load {os.getloadavg()[0]:.1f} on {os.cpu_count()} processors", sep="\n")


if __name__ == "__main__":
    main()
