#!/usr/bin/env python3
"""Writes the contexts of the four workloads into a folder: bench/speed/make_contexts.py FOLDER [TIMES]

TIMES multiplies their rows. A fixed seed makes the files equal in each run.
"""
import json, pathlib, random, sys

WORDS = "alpha beta gamma delta <eps> zeta & eta 'theta' iota \"kappa\" lambda mu".split()


def contexts(times=1):
    """Returns the contexts by name: 2,000 rows, 300 of them as a page's items, 200 as a letter's orders, and 300 hosts, each number times `times`."""
    drawn = random.Random(7)
    rows = [
        {"name": " ".join(drawn.choices(WORDS, k=3)), "mail": f"user{i}@example.org", "n": drawn.randrange(1000), "tags": drawn.choices(WORDS, k=4), "on": drawn.random() < .7}
        for i in range(2000 * times)
    ]
    hosts = [{"name": f"web{i}", "port": 8000 + i, "up": [f"10.0.{i % 250}.{j}" for j in range(8)], "tls": i % 2 == 0} for i in range(300 * times)]
    return {
        "table": {"rows": rows},
        "page": {"title": "A <title>", "user": {"name": "Ann & Bob", "admin": True}, "items": rows[: 300 * times]},
        "mail": {"who": "Ann", "orders": rows[: 200 * times], "sender": "Shop"},
        "config": {"hosts": hosts},
    }


def write(folder, times=1):
    """Writes each context to NAME.json in a folder."""
    for name, context in contexts(times).items():
        (pathlib.Path(folder) / f"{name}.json").write_text(json.dumps(context))


if __name__ == "__main__":
    if len(sys.argv) not in (2, 3):
        sys.exit("usage: bench/speed/make_contexts.py FOLDER [TIMES]")
    write(sys.argv[1], int(sys.argv[2]) if sys.argv[2:] else 1)
