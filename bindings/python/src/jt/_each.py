"""Runs an image for many contexts in this thread; _pools.py does so in threads and processes.

Contexts are read in batches, since a call and a task for each would cost more than its run.
"""
import ctypes
import json
import os
import time
from dataclasses import dataclass
from typing import TYPE_CHECKING, Any, Callable, Generator, Iterable, Iterator, List, NamedTuple
from typing import Optional, Tuple, Union

from ._contexts import ContextLike, json_of, use_for, use_within
from ._errors import Cancelled, ContextError, Fault, JtError, NoMemory, Refused, Spent
from ._json import explain
from ._library import ImageHandle, Numbers, run_each
from ._runs import MOST_FUEL, MOST_RUNS, Ended, Watch

if TYPE_CHECKING:
    from ._images import Budget, Image

_encode = json.JSONEncoder(ensure_ascii=False, separators=(",", ":")).encode
# A batch ends with this number of contexts, with these bytes of JSON, or after these seconds.
_MOST_CONTEXTS = 64
_MOST_BYTES = 1 << 20
_MOST_SECONDS = 0.01

# The JSON of a context, or why there is none.
Given = Union[bytes, JtError]


class Packed(NamedTuple):
    """A dictionary of plain values for a process, by `marshal`. The process writes its JSON."""

    data: bytes


# How a run ends: with its text, or with the error that `Image.run` would raise.
Outcome = Union[str, JtError]


@dataclass(frozen=True)
class Result(Ended):
    """How the run for one context ended. `index` counts the contexts from 0.

    `outcome` is the text, or the error that `Image.run` would raise: a `Fault`, `Spent`,
    `ContextError` or another `Refused`, or `NoMemory`.
    """

    index: int
    outcome: Outcome

    def to_json(self) -> str:
        """Returns the outcome as a line of JSON without its end, as `python -m jt each` writes it.

        It is an object of one key: `text`, `fault`, `spent`, `refused` or `no_memory`.
        """
        return _encode(_as_object(self.outcome))


def _as_object(outcome: Outcome) -> Any:
    """Returns the value whose JSON is the line of an outcome."""
    if isinstance(outcome, str):
        return {"text": outcome}
    if isinstance(outcome, Fault):
        names: Tuple[str, ...] = ("code", "name", "template", "line")
        return {"fault": {name: getattr(outcome, name) for name in names}}
    if isinstance(outcome, Spent):
        return {"spent": outcome.name}
    if isinstance(outcome, Refused):
        names = ("code", "name") + (("path", "what") if isinstance(outcome, ContextError) else ())
        return {"refused": {name: getattr(outcome, name) for name in names}}
    if isinstance(outcome, NoMemory):
        return {"no_memory": True}
    raise outcome


class Source:
    """Reads contexts in batches.

    What their iterator raises is kept in `failure`, to be raised after the results before it.
    """

    def __init__(self, contexts: Iterable[ContextLike]) -> None:
        self.contexts = contexts
        self.failure: Optional[Exception] = None

    def batches(
        self, take: Callable[[ContextLike], Union[Given, Packed]]
    ) -> Iterator[Tuple[int, List[Any]]]:
        """Yields batches, each with the index of its first context.

        `take` copies a context when it is read, so the caller may change it afterwards.
        """
        first, size, begin = 0, 0, time.monotonic()
        batch: List[Union[Given, Packed]] = []
        try:
            for context in self.contexts:
                given = take(context)
                batch.append(given)
                if not isinstance(given, JtError):
                    size += len(given.data if isinstance(given, Packed) else given)
                is_full = len(batch) >= _MOST_CONTEXTS or size >= _MOST_BYTES
                if is_full or time.monotonic() - begin >= _MOST_SECONDS:
                    yield first, batch
                    first, batch, size = first + len(batch), [], 0
                    begin = time.monotonic()
        except Exception as error:
            self.failure = error
        if batch:
            yield first, batch

    def end(self) -> None:
        """Raises what the iterator raised."""
        if self.failure is not None:
            raise self.failure


def given_of(context: ContextLike) -> Given:
    """Returns the JSON of a context, or why there is none."""
    try:
        return json_of(context)
    except JtError as error:
        # (A traceback would keep all that its frames hold.)
        return error.with_traceback(None)


def in_turn(image: "Image", source: Source, budget: "Budget") -> Generator[Result, None, None]:
    """Yields the results of this thread, which runs a batch when its first result is wanted."""
    for first, batch in source.batches(given_of):
        for index, outcome in enumerate(run_batch(image, batch, budget, ctypes.c_bool()), first):
            yield Result(index, outcome)
    source.end()


def run_batch(
    image: "Image", batch: List[Given], budget: "Budget", stop: Any
) -> List[Outcome]:
    """Runs an image for each context of a batch, until `stop.value` is true.

    A run that takes long is made again in slices, so that `stop` ends it, and so are those after
    it.
    """
    outcomes: List[Outcome] = []
    flag = _StopFlag(stop)
    handle = image._take()
    try:
        while len(outcomes) < len(batch) and not stop.value:
            rest = batch[len(outcomes) :]
            if image._pace.long_runs:
                outcomes.append(_run_long(image, handle, rest[0], budget, flag))
            else:
                outcomes += _run_short(image, handle, rest, budget, stop)
    except Cancelled:
        pass
    finally:
        image._put_back(handle)
    return outcomes


def _run_short(
    image: "Image", handle: ImageHandle, batch: List[Given], budget: "Budget", stop: Any
) -> List[Outcome]:
    """Runs an image for the contexts of a batch until one takes long, whose outcome is left out."""
    contexts = [given for given in batch if isinstance(given, bytes)]
    fuel = min(budget.fuel, MOST_FUEL)
    numbers = Numbers(fuel, budget.output, budget.depth, budget.size, budget.nesting)
    ended = iter(run_each(handle, contexts, numbers, budget.memory, stop))
    outcomes: List[Outcome] = []
    for given in batch:
        outcome: Optional[Outcome]
        outcome = next(ended, None) if isinstance(given, bytes) else given
        if outcome is None:
            break
        if isinstance(outcome, Spent) and outcome.name == "fuel" and fuel < budget.fuel:
            image._pace.long_runs = MOST_RUNS
            break
        if type(outcome) is Refused and isinstance(given, bytes):
            # (A traceback would keep all that its frames hold.)
            outcome = explain(given, outcome).with_traceback(None)
        outcomes.append(outcome)
    return outcomes


def _run_long(
    image: "Image", handle: ImageHandle, given: Given, budget: "Budget", flag: "_StopFlag"
) -> Outcome:
    """Runs an image for a context in slices.

    # Errors
    `Cancelled` if the flag is set.
    """
    if isinstance(given, JtError):
        return given
    numbers = Numbers(budget.fuel, budget.output, budget.depth, budget.size, budget.nesting)
    use = Watch(image._pace, cancel=flag).run
    try:
        if budget.memory is None:
            return use_for(given, handle, numbers, use)
        return use_within(budget.memory, given, handle, numbers, use)
    except (Fault, Spent, Refused, NoMemory) as error:
        return error.with_traceback(None)


class _StopFlag:
    """A `ctypes.c_bool` as an event."""

    def __init__(self, stop: Any) -> None:
        self.stop = stop

    def is_set(self) -> bool:
        """Returns whether it is true."""
        return bool(self.stop.value)


def usual_workers() -> int:
    """Returns the number of processors that this process may use."""
    return len(os.sched_getaffinity(0))
