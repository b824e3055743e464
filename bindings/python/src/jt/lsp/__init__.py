"""The language server of the templates: `python -m jt lsp`, over standard input and output.

Read _server.py, then _verdicts.py (what is found in a template) and _answers.py (what is said of a
place). Whether a template compiles is always what the library says; the other modules find places.
"""
import argparse
import os
from typing import List

from ._server import Server, Stream

__all__ = ["Server", "Stream", "main"]


def main(words: List[str]) -> int:
    """Serves one client over standard input and output, and returns the status of the process."""
    parser = argparse.ArgumentParser(
        prog="python -m jt lsp",
        description="The language server: an editor starts it, see docs/editors.md.",
    )
    parser.add_argument("--stdio", action="store_true", help="the default; editors may name it")
    parser.parse_args(words)
    # (What else is printed would be no message of the protocol. Standard input has a second reader,
    # since Python ends by closing its own, which a thread may be waiting for.)
    source, target = os.fdopen(os.dup(0), "rb"), os.fdopen(os.dup(1), "wb")
    os.dup2(2, 1)
    return Server(Stream(source, target)).serve()
