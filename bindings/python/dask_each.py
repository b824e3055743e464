"""Renders on many machines, by Dask: dask_each.py IMAGE CONTEXTS FOLDER [SCHEDULER]

CONTEXTS is a file of JSON lines, or more of them by a `*`. FOLDER gets a file for each part of the
contexts, with a line for each of them. All files in the order of their names are what
`python -m jt each IMAGE CONTEXTS` writes. The workers have to see both under the same path, as on
a file system that they share or by a URL as `s3://..`. Without SCHEDULER, two processes of this
machine are the workers.
"""
import sys

import dask
import dask.bag
from dask.distributed import Client

from jt import Budget, Image

BUDGET = Budget(fuel=10_000, depth=8, output=65_536, size=65_536, nesting=8)


def rendered(lines, image):
    """Yields the result of each line, in JSON. Dask calls it for each part of the contexts."""
    for result in image.run_each((line.rstrip("\r\n") for line in lines), BUDGET, workers=1):
        yield result.to_json()


def render(image, contexts, folder, part="1 MiB"):
    """Renders the contexts in parts of some bytes, and returns the names of the files."""
    # (`delayed` makes the image a value of the graph: each worker gets it once, and verifies it
    # then. It is sent again if a worker dies, which `scatter` does not promise.)
    image = dask.delayed(image)
    lines = dask.bag.read_text(contexts, blocksize=part)
    return lines.map_partitions(rendered, image).to_textfiles(
        f"{folder}/*.jsonl", last_endline=True
    )


if __name__ == "__main__":
    image, contexts, folder, *scheduler = sys.argv[1:]
    here = {"n_workers": 2, "threads_per_worker": 1, "dashboard_address": None}
    with Client(*scheduler, **({} if scheduler else here)):
        print(len(render(Image.load(image), contexts, folder)), "files")
