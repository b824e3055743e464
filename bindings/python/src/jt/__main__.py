"""The command `python -m jt`: see _commands.py."""
import sys

from ._commands import end, main

# (A process that is started by `spawn` imports this module again.)
if __name__ == "__main__":
    end(main(sys.argv[1:]))
