"""The parts that the benchmarks of the program share: flags, the processor time of a run, and one line for each row."""
import argparse, pathlib, resource, subprocess, sys

sys.dont_write_bytecode = True
ROOT = pathlib.Path(__file__).resolve().parent.parent


def flags(doc):
    """Returns a parser of flags, with --jt: by default the program that `rt run` keeps."""
    parser = argparse.ArgumentParser(description=doc, formatter_class=argparse.RawDescriptionHelpFormatter)
    parser.add_argument("--jt", default=str(ROOT / "crates/jt_cli/out/jt_cli"), type=lambda path: str(pathlib.Path(path).resolve()))
    return parser


def processor_seconds():
    """Returns the processor time of the processes that this one has waited for."""
    used = resource.getrusage(resource.RUSAGE_CHILDREN)
    return used.ru_utime + used.ru_stime


def timed(words, **how):
    """Returns the processor time of a process in seconds, and its result."""
    begin = processor_seconds()
    ran = subprocess.run(words, capture_output=True, **how)
    return processor_seconds() - begin, ran


def sized(doc, flag, size, runs, most):
    """Returns the flags of a benchmark whose rows have several sizes, each twice the one before: --FLAG is the greatest."""
    parser = flags(doc)
    parser.add_argument(f"--{flag}", dest="size", type=int, default=size)
    parser.add_argument("--steps", type=int, default=1)
    parser.add_argument("--runs", type=int, default=runs)
    parser.add_argument("--most", type=float, default=most)
    parser.add_argument("names", nargs="*")
    asked = parser.parse_args()
    asked.sizes = [asked.size >> step for step in reversed(range(asked.steps))]
    return asked


class Rows:
    """The rows that a run wants, and the number of those that failed."""

    def __init__(self, asked):
        self.asked, self.failed = asked, 0

    def wants(self, name):
        return not self.asked.names or name in self.asked.names

    def tell(self, name, times, answer, is_right, most=None):
        """Prints a row: its times, the start of the result, its name, and its failure. Its bound is --most, unless it has its own."""
        wrong = [] if is_right else ["another answer"]
        wrong += ["slow"] if times[-1] > (most or self.asked.most) else []
        self.failed += bool(wrong)
        line = " ".join(f"{took:8.3f} s" for took in times) + f"  {answer[:12]:12}  {name}"
        print(line + "".join(f"  <-- {it}" for it in wrong), flush=True)

    def end(self):
        """Prints the number of rows that failed, and ends with 1 if one failed."""
        print(f"{self.failed} out of order")
        sys.exit(self.failed > 0)
