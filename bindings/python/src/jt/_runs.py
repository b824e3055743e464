"""Runs in slices, which a host stops when it wants, and what runs have used.

Between two slices Python handles signals, and the other tasks of an asyncio loop have their turns.
"""
import time
from dataclasses import dataclass
from typing import Any, Iterator, Optional, Protocol, Union

from ._closing import Closing
from ._contexts import numbers, this_thread
from ._errors import Cancelled, JtError, NoMemory, Spent, TimeoutError, Used
from ._library import DONE, GOING, MEMORY, NO_LIMIT, ContextHandle, ImageHandle, Numbers
from ._library import RunHandle, UsedNumbers, library, run, tell

# A run is made in one call if it needs at most this fuel: the first number if nothing but a signal
# may stop it. Usual templates take a tenth of a microsecond for each, the slowest known ones 21.
MOST_FUEL, _MOST_WATCHED_FUEL = 30_000, 10_000
# A run is in slices from its start if one of this number of runs before it was.
MOST_RUNS = 16
# The instructions of a first slice (the first ones may be slow), of a first slice of a run without a
# deadline or of an image whose slices were short, and of a longest.
FIRST_STEPS, MANY_STEPS, _MOST_STEPS = 4, 1_024, 8_192
# A slice takes from the first to the second number of seconds, unless it has `_MOST_STEPS`.
_SHORT, _LONG = 0.001, 0.004
_MOST_NUMBER = 2**32 - 1
_NEVER = float("inf")


class Flag(Protocol):
    """What stops a run: a `threading.Event`, or one of multiprocessing or asyncio."""

    def is_set(self) -> bool:
        """Returns whether the run is to be stopped."""


class Ended:
    """How a run ended: `outcome` is its text, or the error that `Image.run` would raise."""

    outcome: Union[str, JtError]

    @property
    def text(self) -> str:
        """The text.

        # Errors
        `error`, if there is one.
        """
        if isinstance(self.outcome, str):
            return self.outcome
        raise self.outcome

    @property
    def error(self) -> Optional[JtError]:
        """The error, or `None` if there is a text."""
        return None if isinstance(self.outcome, str) else self.outcome


@dataclass(frozen=True)
class Report(Ended):
    """How a run ended, and what it used of its budget."""

    outcome: Union[str, JtError]
    used: Used


class Run(Closing):
    """A run of an image in slices. `Image.start` returns it before its first instruction.

        with image.start({"name": "World"}) as run:
            while run.advance(10_000):
                print(run.used)
            text = run.outcome()

    The outcome is that of `Image.run`, whatever the slices are. Runs of one thread may take turns.
    Each stays on the thread that started it; only `close` is for any thread.
    """

    _kind = "run"

    def __init__(self, image: ImageHandle, context: ContextHandle, budget: Numbers) -> None:
        self._closed, self._ended = False, False
        # What is left of the memory of the budget.
        self._left = NO_LIMIT
        self._number, self._thread, self._handle = next(numbers), this_thread(), RunHandle()
        self._thread.free_dropped()
        self._thread.runs[self._number] = self._handle
        status = library.jt_run_start(image, context, budget, self._handle)
        if status != DONE:
            self.close()
            raise NoMemory() if status == MEMORY else ValueError("the image is closed")

    def advance(self, steps: int) -> bool:
        """Executes `steps` instructions, or fewer if the run ends. Returns whether it goes on.

        # Errors
        `NoMemory`, and then each later call raises it; `ValueError` if the run is closed, or on
        another thread.
        """
        if isinstance(steps, bool) or not isinstance(steps, int):
            raise TypeError(f"the number of steps is no int: {steps!r}")
        if not 0 <= steps <= _MOST_NUMBER:
            raise ValueError(f"the number of steps has to be from 0 to {_MOST_NUMBER}: {steps}")
        return self._advance(steps)

    def outcome(self) -> str:
        """Returns the text of a run that has ended.

        # Errors
        `Fault` and `Spent` if it ended so; `NoMemory` if `advance` raised it; `ValueError` if the
        run goes on, is closed, or is on another thread.
        """
        return tell(library.jt_run_outcome, self._held()).decode()

    @property
    def ended(self) -> bool:
        """Whether the run has ended, so that there is an outcome."""
        return self._ended

    @property
    def used(self) -> Used:
        """What the run has used until now. An instruction that ends it by an error is left out.

        # Errors
        `ValueError` if the run is closed, or on another thread.
        """
        found: UsedNumbers = library.jt_run_used(self._held())
        return Used(found.fuel, found.output, found.depth, found.size, found.nesting)

    def close(self) -> None:
        """Stops the run and frees it: on its thread now, else at its thread's next call or end."""
        if not self._closed:
            self._closed = True
            self._thread.dropped.append(self._number)
            if self._thread is this_thread():
                self._thread.free_dropped()

    def __del__(self) -> None:
        if not getattr(self, "_closed", True):
            self.close()

    def __repr__(self) -> str:
        state = "closed" if self._closed else "ended" if self._ended else "going"
        return f"<jt.Run, {state}>"

    def _held(self) -> RunHandle:
        self._check_open()
        if self._thread is not this_thread():
            raise ValueError("the run belongs to another thread")
        return self._handle

    def _advance(self, steps: int) -> bool:
        status = self._within(library.jt_run_advance, self._held(), steps)
        if status == GOING:
            return True
        if status == MEMORY:
            raise NoMemory()
        self._ended = True
        return False

    def _within(self, call: Any, *given: Any) -> int:
        """Makes a call within what is left of the run's memory."""
        if self._left == NO_LIMIT:
            return int(call(*given))
        before = NO_LIMIT
        try:
            before = library.jt_memory_limit(self._left)
            return int(call(*given))
        finally:
            self._left = library.jt_memory_limit(before)

    def _slices(self, watch: "Watch", steps: int = FIRST_STEPS) -> Iterator[None]:
        """Executes the run to its end, and yields after each slice, or after some short ones.

        The first slice has `steps` instructions, or what the pace of the image has, if that is more.

        # Errors
        Those of `Watch.check` and `advance`.
        """
        pace = watch.pace
        steps = max(steps, pace.steps)
        turn = begin = time.monotonic()
        while self._advance(steps):
            now = watch.check(self)
            took, begin = now - begin, now
            pace.see(steps, took)
            if took < _SHORT:
                steps = min(2 * steps, _MOST_STEPS)
            elif took > _LONG:
                steps = max(1, int(steps * _SHORT / took))
            if now - turn >= _SHORT:
                yield
                turn = begin = time.monotonic()
        pace.see(0, time.monotonic() - begin)


class Pace:
    """What the last runs of an image say of the next ones.

    `long_runs` of them are in slices from their start, and a first slice has `steps` instructions.
    """

    def __init__(self) -> None:
        self.long_runs, self.steps = 0, FIRST_STEPS

    def see(self, steps: int, took: float) -> None:
        """Keeps the instructions of a short slice, and forgets them after a long one."""
        if took > _LONG:
            self.steps = FIRST_STEPS
        elif took < _SHORT:
            self.steps = max(self.steps, min(steps, MANY_STEPS))


class Watch:
    """What stops a run of an image before its end: a deadline, a flag, or a signal.

    # Errors
    `TypeError` for a `timeout` that is no number of seconds, and for a `cancel` without `is_set`.
    `TimeoutError` for no time, `Cancelled` for a flag that is set.
    """

    def __init__(
        self, pace: Pace, timeout: Optional[float] = None, cancel: Optional[Flag] = None
    ) -> None:
        self.pace, self.cancel = pace, cancel
        is_watched = timeout is not None or cancel is not None
        self.fuel_at_once = _MOST_WATCHED_FUEL if is_watched else MOST_FUEL
        self.deadline = _NEVER if timeout is None else time.monotonic() + _seconds(timeout)
        if timeout is not None and timeout <= 0:
            raise TimeoutError(Used(0, 0, 0, 0, 0))
        if cancel is not None and _flag(cancel).is_set():
            raise Cancelled(Used(0, 0, 0, 0, 0))

    def check(self, run: Run) -> float:
        """Returns the time.

        # Errors
        `TimeoutError` after the deadline, `Cancelled` if the flag is set.
        """
        now = time.monotonic()
        if now >= self.deadline:
            raise TimeoutError(run.used)
        if self.cancel is not None and self.cancel.is_set():
            raise Cancelled(run.used)
        return now

    def run(self, image: ImageHandle, context: ContextHandle, budget: Numbers) -> str:
        """Runs an image once and returns its text, or raises.

        The run first gets little fuel, in one call. If that is spent, it is made again in slices,
        and so are the next runs of the image, from their start. The outcome is that of one call.

        # Errors
        Those of `Image.run`.
        """
        if self.pace.long_runs == 0:
            fuel = budget.fuel
            if fuel <= self.fuel_at_once:
                return run(image, context, budget)
            budget.fuel = self.fuel_at_once
            try:
                return run(image, context, budget)
            except Spent as spent:
                if spent.name != "fuel":
                    raise
            budget.fuel = fuel
        return self._run_in_slices(Run(image, context, budget))

    def _run_in_slices(self, run: Run) -> str:
        is_long = True
        with run:
            try:
                for _ in run._slices(self):
                    pass
                is_long = run.used.fuel > self.fuel_at_once
                return run.outcome()
            finally:
                self.pace.long_runs = MOST_RUNS if is_long else max(0, self.pace.long_runs - 1)


def _seconds(timeout: float) -> float:
    """Returns a timeout, if it is a number of seconds."""
    if isinstance(timeout, bool) or not isinstance(timeout, (int, float)) or timeout != timeout:
        raise TypeError(f"the timeout is no number of seconds: {timeout!r}")
    return timeout


def _flag(cancel: Flag) -> Flag:
    """Returns a flag, if it is one."""
    if not hasattr(cancel, "is_set"):
        raise TypeError(f"cancel is no event: {cancel!r}")
    return cancel
