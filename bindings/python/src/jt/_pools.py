"""Runs an image for many contexts in threads or in processes.

A bounded number of batches is under way, so the memory does not grow with the number of contexts.
Most hosts need none of this, so it is imported when it is first used.
"""
import contextlib
import ctypes
import marshal
import multiprocessing
import multiprocessing.connection
import os
import signal
import threading
from collections import deque
from concurrent.futures import (
    FIRST_COMPLETED,
    Executor,
    Future,
    ProcessPoolExecutor,
    ThreadPoolExecutor,
    wait,
)
from typing import TYPE_CHECKING, Any, Deque, Generator, Iterator, List, NamedTuple, Tuple
from typing import Union

from . import _forks
from ._contexts import ContextLike
from ._each import Given, Outcome, Packed, Result, Source, given_of, run_batch

if TYPE_CHECKING:
    from ._images import Budget, Image

# The batches that are under way for each worker: one that runs, and those that wait for it.
_AHEAD = 3
# The index of the first context of a batch, and the outcomes.
_Done = Tuple[int, List[Outcome]]


class _Pool(NamedTuple):
    """An executor with its workers, what they do with a batch, and what ends that if it is set."""

    executor: Executor
    workers: int
    work: Any
    stop: Any


def _packed(context: ContextLike) -> Union[Given, Packed]:
    """Returns a context for a process. To pack a dictionary is faster than to write its JSON."""
    if type(context) is dict:
        try:
            return Packed(marshal.dumps(context))
        except ValueError:
            pass  # (It has a value of another kind: its JSON is written, or its path is named.)
    return given_of(context)


def _unpacked(given: Union[Given, Packed]) -> Given:
    """Returns in a process what `given_of` returns for the context."""
    return given_of(marshal.loads(given.data)) if isinstance(given, Packed) else given


def in_threads(
    image: "Image", source: Source, budget: "Budget", workers: int, ordered: bool
) -> Generator[Result, None, None]:
    """Yields the results of threads of this process."""

    def work(first: int, batch: List[Given]) -> _Done:
        return first, run_batch(image, batch, budget, stop)

    stop = ctypes.c_bool()
    pool = _Pool(ThreadPoolExecutor(workers, thread_name_prefix="jt"), workers, work, stop)
    return _results(pool, source, source.batches(given_of), ordered)


def in_processes(
    image: "Image", source: Source, budget: "Budget", workers: int, ordered: bool
) -> Generator[Result, None, None]:
    """Yields the results of processes, each of which verifies the image once."""
    # (The child of a fork may not call the library if the parent has threads.)
    context = multiprocessing.get_context("spawn")
    stop = context.RawValue(ctypes.c_bool)
    executor = ProcessPoolExecutor(workers, context, _start_process, (image, budget, stop))
    pool = _Pool(executor, workers, _work_in_process, stop)
    return _results(pool, source, source.batches(_packed), ordered)


# What a process of `in_processes` works with.
_process: Tuple["Image", "Budget", Any]


def _start_process(image: "Image", budget: "Budget", stop: Any) -> None:
    """Keeps what all batches of this process need. Unpickling has verified the image."""
    global _process
    _process = image, budget, stop
    # (An interrupt reaches all processes of a terminal: the parent ends this one.)
    signal.signal(signal.SIGINT, signal.SIG_IGN)
    threading.Thread(target=_end_with_parent, daemon=True).start()


def _end_with_parent() -> None:
    """Ends this process if its parent is killed, which cannot end it then."""
    parent = multiprocessing.parent_process()
    if parent is not None:
        multiprocessing.connection.wait([parent.sentinel])
    os._exit(1)


def _work_in_process(first: int, batch: List[Union[Given, Packed]]) -> _Done:
    image, budget, stop = _process
    return first, run_batch(image, [_unpacked(given) for given in batch], budget, stop)


def _results(
    pool: _Pool, source: Source, batches: Iterator[Tuple[int, List[Any]]], ordered: bool
) -> Generator[Result, None, None]:
    """Yields the results of batches of the source, and ends the pool."""
    window: "Deque[Future[_Done]]" = deque()
    most, process = pool.workers * _AHEAD, _forks.count
    try:
        for first, batch in batches:
            window.append(pool.executor.submit(pool.work, first, batch))
            while window and (len(window) >= most or _is_next_done(window, ordered)):
                yield from _results_of(_take(window, ordered, process))
        while window:
            yield from _results_of(_take(window, ordered, process))
        source.end()
    finally:
        if _forks.count == process:
            pool.stop.value = True
            for future in window:
                future.cancel()
            # (If Python's collector ends the iterator in a thread of the pool, none can wait.)
            with contextlib.suppress(RuntimeError):
                pool.executor.shutdown()


def _is_next_done(window: "Deque[Future[_Done]]", ordered: bool) -> bool:
    """Returns whether a batch can be taken without waiting."""
    return window[0].done() if ordered else any(future.done() for future in window)


def _take(
    window: "Deque[Future[_Done]]", ordered: bool, process: int
) -> "Future[_Done]":
    """Takes the first batch out of the window, or the one that is done first.

    # Errors
    `RuntimeError` in a forked child, which has none of the workers: it would wait for ever.
    """
    if _forks.count != process:
        raise RuntimeError("the iterator belongs to the parent of this process")
    if ordered:
        return window.popleft()
    future = next(iter(wait(window, return_when=FIRST_COMPLETED).done))
    window.remove(future)
    return future


def _results_of(future: "Future[_Done]") -> Iterator[Result]:
    """Yields the results of a batch, for which it waits."""
    first, outcomes = future.result()
    for index, outcome in enumerate(outcomes, first):
        yield Result(index, outcome)
