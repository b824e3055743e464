#!/usr/bin/env python3
"""Times renderings in one process: bench/hosts.py SECONDS, with JT_LIBRARY the shared library of bindings/build.sh

The workloads are the folders of examples/ and of speed/templates/. Of each it prints microseconds of processor time for a rendering,
of four kinds, and after a time of Jinja2 how many times that of `jt` it is:

    ready    of templates that were compiled before, for a context that was read before (for Jinja2 a dictionary)
    deadline as `ready`, with a deadline that is not reached
    run      of templates that were compiled before, for a context in JSON
    whole    of sources, for a context in JSON

Of `jt` it prints the memory too: the least limit in bytes with which a ready run ends, found by halving, within 1 %.

Jinja2 is its sandbox. The texts have to be those of `jt`, and of an example those that are expected. bench/engines does the like for
engines in Rust.
"""
import json
import pathlib
import sys
import time
from dataclasses import replace

HERE = pathlib.Path(__file__).resolve().parent
sys.path[:0] = [str(HERE.parent / "bindings" / "python" / "src"), str(HERE / "speed")]
from jt import Budget, Context, NoMemory, Options, Template  # noqa: E402
from make_contexts import contexts  # noqa: E402

try:
    from jinja2 import DictLoader
    from jinja2.sandbox import SandboxedEnvironment
except ImportError:
    SandboxedEnvironment = None

BUDGET = Budget(fuel=10**9, output=10**8, size=10**8)


def sources_of(folder):
    return {file.name: file.read_bytes().decode() for file in folder.iterdir()}


def workloads():
    """Each with its name, its entry, its sources, its options, its context in JSON and, of an example, its text."""
    for folder in sorted(file.parent for file in (HERE.parent / "examples").glob("*/command")):
        entry, *words = (folder / "command").read_text().split()
        names = {word.replace("--no-", "").replace("--", "").replace("-", "_"): not word.startswith("--no-") for word in words}
        wanted = (folder / "expected").read_bytes().decode()
        yield folder.name, entry, sources_of(folder / "templates"), Options(**names), (folder / "context.json").read_text(), wanted
    for name, context in contexts().items():
        yield f"large {name}", "main", sources_of(HERE / "speed" / "templates" / name), Options(), json.dumps(context), None


def took(call, wanted, seconds):
    """Returns microseconds of processor time for a call, over some seconds, or None if it does not return what is wanted."""
    if call() != wanted:
        return None
    count, begin = 0, time.process_time()
    while time.process_time() - begin < seconds:
        call()
        count += 1
    return (time.process_time() - begin) / count * 1e6


def beside(micros, own):
    """Returns microseconds, and how many times that of `jt` they are."""
    return f"{micros:.0f} (×{micros / own:.1f})" if micros else "differs"


def memory_of(image, context):
    """Returns the least limit of memory with which a run ends, within 1 %."""

    def ends(memory):
        try:
            image.run(context, replace(BUDGET, memory=memory))
        except NoMemory:
            return False
        return True

    high = 1024
    while not ends(high):
        high *= 2
    low = high // 2
    while high - low > high // 100:
        middle = (low + high) // 2
        low, high = (low, middle) if ends(middle) else (middle, high)
    return high


def by_jt(entry, sources, options, text):
    """Returns the calls of `jt` by their kinds, and the memory of a run."""
    image, context = Template(entry, sources, options).compile(), Context(text)
    return memory_of(image, context), {
        "ready": lambda: image.run(context, BUDGET),
        "deadline": lambda: image.run(context, BUDGET, timeout=60),
        "run": lambda: image.run(text, BUDGET),
        # (A template keeps its image, so each call makes one anew.)
        "whole": lambda: Template(entry, sources, options).render(text, BUDGET),
    }


def by_jinja(entry, sources, options, text):
    """Returns the calls of Jinja2 by their kinds."""
    chosen = {name: getattr(options, name) for name in Options.__dataclass_fields__}
    loaded = lambda: SandboxedEnvironment(loader=DictLoader(sources), **chosen).get_template(entry)
    page, ready = loaded(), json.loads(text)
    return {
        "ready": lambda: page.render(ready),
        "run": lambda: page.render(json.loads(text)),
        "whole": lambda: loaded().render(json.loads(text)),
    }


def main():
    seconds = float(sys.argv[1]) if len(sys.argv) > 1 else 1.0
    for name, *given, wanted in workloads():
        memory, calls = by_jt(*given)
        wanted = wanted or calls["ready"]()
        own = {kind: took(call, wanted, seconds) for kind, call in calls.items()}
        print(f"{name}: {len(wanted)} bytes, memory {memory};", ", ".join(f"{kind} {micros:.0f}" for kind, micros in own.items()), end="")
        if SandboxedEnvironment:
            others = {kind: took(call, wanted, seconds) for kind, call in by_jinja(*given).items()}
            print("; jinja", ", ".join(f"{kind} {beside(micros, own[kind])}" for kind, micros in others.items()), end="")
        print(flush=True)


if __name__ == "__main__":
    main()
