"""The commands of `python -m jt`: one line for each in `COMMANDS`."""
import importlib
import os
import sys
from typing import Callable, Dict, List, NamedTuple, NoReturn

USAGE = 2


class Command(NamedTuple):
    """A command: the module whose `main` takes its words, and what the list says of it."""

    module: str
    summary: str


# (A module is imported when its command is called.)
COMMANDS: Dict[str, Command] = {
    "each": Command("jt._each_command", "runs an image for each line of a file"),
    "lsp": Command("jt.lsp", "the language server, over standard input and output"),
    "playground": Command("jt.playground", "a page on this machine to try templates"),
}


def main(words: List[str]) -> int:
    """Calls a command with its words and returns its status."""
    command = COMMANDS.get(words[0]) if words else None
    if command is None:
        is_help = words[:1] in (["-h"], ["--help"])
        print(_usage(), file=sys.stdout if is_help else sys.stderr)
        return 0 if is_help else USAGE
    call: Callable[[List[str]], int] = importlib.import_module(command.module).main
    return call(words[1:])


def end(status: int) -> NoReturn:
    """Ends the process. A standard output that is closed is no second failure."""
    try:
        sys.stdout.flush()
    except OSError:
        os.dup2(os.open(os.devnull, os.O_WRONLY), sys.stdout.fileno())
    sys.exit(status)


def _usage() -> str:
    """Returns the list of the commands."""
    width = max(map(len, COMMANDS))
    lines = [f"  {name:{width}}  {it.summary}" for name, it in sorted(COMMANDS.items())]
    return "\n".join(["usage: python -m jt COMMAND ..", *lines])
