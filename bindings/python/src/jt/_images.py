"""Images, which are verified once and run often, and the budgets of their runs."""
import os
import threading
from dataclasses import dataclass, fields, replace
from typing import Any, Generator, Iterable, List, Mapping, Optional, Tuple, Type, TypeVar, Union

from . import _each, _forks
from ._closing import Closing
from ._contexts import ContextLike, Use, use_for, use_within, with_names
from ._errors import Fault, JtError, NoMemory, Spent
from ._library import NO_LIMIT, FlagBytes, ImageHandle, LibraryHandle, Numbers, library, run, tell
from ._runs import FIRST_STEPS, MANY_STEPS, Flag, Pace, Report, Run, Watch

_Result = TypeVar("_Result")

_BITS = {"fuel": 64, "output": 64, "depth": 32, "size": 32, "nesting": 8, "memory": 63}


@dataclass(frozen=True)
class Budget:
    """What a run may use; the defaults are those of the program `jt`.

    docs/budgets.md says what each number bounds and how to choose it. `memory` bounds the bytes
    that the library holds for the run, and for a context that is no `Context`; `None` is no bound.
    A run that needs more ends with `NoMemory`.
    """

    fuel: int = 1_000_000
    output: int = 1_048_576
    depth: int = 64
    size: int = 1_048_576
    nesting: int = 32
    memory: Optional[int] = None

    def __post_init__(self) -> None:
        for field in fields(self):
            number, bits = getattr(self, field.name), _BITS[field.name]
            if number is None and field.name == "memory":
                continue
            if isinstance(number, bool) or not isinstance(number, int):
                raise TypeError(f"{field.name} is no int: {number!r}")
            if not 0 <= number < 2**bits:
                raise ValueError(f"{field.name} has to be from 0 to {2**bits - 1}: {number}")


class Image(Closing):
    """A compiled template. The bytes may come from anyone: they are verified here, once.

    Several threads may use one image at the same time. A pickled image is its bytes, which are
    verified again.

    # Errors
    `Refused` for bytes that are no image that the verifier accepts.
    """

    _kind = "image"

    def __init__(self, data: Union[bytes, bytearray, memoryview]) -> None:
        given = bytes(memoryview(data))
        self._start(given)
        tell(library.jt_image_load, given, len(given), self._first)

    @classmethod
    def _compiled(cls, templates: LibraryHandle, entry: bytes, flags: FlagBytes) -> "Image":
        """Returns the image of a template of a library that no other thread uses."""
        image = cls.__new__(cls)
        image._start(None)
        tell(library.jt_library_compile, templates, entry, len(entry), flags, image._first)
        return image

    def _start(self, data: Optional[bytes]) -> None:
        # (The bytes of a compiled image are written when they are first asked for.)
        self._data = data
        self._closed = False
        # This handle is only shared from. Each call takes one that is idle, or a new one.
        self._first = ImageHandle()
        self._idle: List[ImageHandle] = []
        self._pace = Pace()
        self._no_watch = Watch(self._pace)

    @property
    def data(self) -> bytes:
        """The bytes of the image, which may be stored.

        # Errors
        `NoMemory`; `ValueError` if the image was closed before its bytes were asked for.
        """
        if self._data is None:
            handle = self._take()
            try:
                data = tell(library.jt_image_save, handle)
            finally:
                self._put_back(handle)
            with _forks.section:
                self._data = data if self._data is None else self._data
        return self._data

    def run(
        self,
        /,
        context: ContextLike = None,
        budget: Budget = Budget(),
        *,
        timeout: Optional[float] = None,
        cancel: Optional[Flag] = None,
        **names: Any,
    ) -> str:
        """Runs the template once and returns its text.

        Values may be given by keywords too: `image.run(name="World")`. They replace those of a
        mapping. A value that the template calls `context`, `budget`, `timeout` or `cancel` has to
        be in a mapping.

        The run is stopped after `timeout` seconds, and once the event `cancel` is set. A signal of
        the main thread, as Ctrl-C, is handled while the run goes on. All of it waits for the
        instruction that is executed, and for a slice of some milliseconds.

        # Errors
        `Fault`, `Spent`, `ContextError` for the context, `NoMemory`, also for the `memory` of the
        budget; `TimeoutError`, `Cancelled`; `ValueError` if the image or the context is closed;
        `TypeError` for keywords beside a context that is no mapping.
        """
        if timeout is not None or cancel is not None:
            use = Watch(self._pace, timeout, cancel).run
        elif threading.get_ident() == _forks.main:
            # (Between slices Python handles signals.)
            use = self._no_watch.run
        else:
            use = run
        return self._use(context, budget, names, use)

    async def arun(
        self,
        /,
        context: ContextLike = None,
        budget: Budget = Budget(),
        *,
        timeout: Optional[float] = None,
        cancel: Optional[Flag] = None,
        **names: Any,
    ) -> str:
        """Runs the template once and returns its text, as `run`, in a loop of asyncio.

        The other tasks of the loop have their turns every millisecond or some. A task that is
        cancelled stops the run.

        # Errors
        Those of `run`, and what cancels the task.
        """
        import asyncio

        watch = Watch(self._pace, timeout, cancel)
        with self.start(context, budget, **names) as slices:
            for _ in slices._slices(watch):
                await asyncio.sleep(0)
            return slices.outcome()

    def start(
        self, /, context: ContextLike = None, budget: Budget = Budget(), **names: Any
    ) -> Run:
        """Returns a run in slices, before its first instruction. It is the caller's to close.

        The image and the context may be closed while it goes on.

        # Errors
        `ContextError` for the context, `NoMemory`; `ValueError` if the image or the context is
        closed; `TypeError` for keywords beside a context that is no mapping.
        """
        if not isinstance(budget, Budget) or budget.memory is None:
            return self._use(context, budget, names, Run)
        before = NO_LIMIT
        try:
            before = library.jt_memory_limit(budget.memory)
            started = self._use(context, replace(budget, memory=None), names, Run)
        finally:
            left = library.jt_memory_limit(before)
        started._left = left
        return started

    def run_report(
        self,
        /,
        context: ContextLike = None,
        budget: Budget = Budget(),
        *,
        timeout: Optional[float] = None,
        cancel: Optional[Flag] = None,
        **names: Any,
    ) -> Report:
        """Runs the template once, and returns how the run ended and what it used of its budget.

        # Errors
        Those of `run`, but for `Fault`, `Spent` and `NoMemory` of the run: they are in the report.
        """
        watch = Watch(self._pace, timeout, cancel)
        steps = MANY_STEPS if timeout is None and cancel is None else FIRST_STEPS
        with self.start(context, budget, **names) as slices:
            try:
                for _ in slices._slices(watch, steps):
                    pass
                outcome: Union[str, JtError] = slices.outcome()
            except (Fault, Spent, NoMemory) as error:
                # (A traceback would keep all that its frames hold.)
                outcome = error.with_traceback(None)
            return Report(outcome, slices.used)

    def run_each(
        self,
        contexts: Iterable[ContextLike],
        budget: Budget = Budget(),
        *,
        workers: Optional[int] = None,
        ordered: bool = True,
        processes: bool = False,
    ) -> Generator[_each.Result, None, None]:
        """Runs the template for each context, and yields a `Result` for each of them.

        `workers` threads, or processes, run at the same time, by default one for each processor.
        With one worker, a context is read after the result before it, in this thread. With more,
        some hundreds of contexts are read ahead, and no more than that. The results are in the
        order of the contexts unless `ordered` is false.

        Processes are started by `spawn`, so a script needs `if __name__ == "__main__":`. Each of
        them verifies the image once. `close` of the iterator stops the workers, as its end and its
        last reference do. A forked child cannot go on with the iterator of its parent.

        # Errors
        None for a context and for a run: these are in the results. What the iterator of the
        contexts raises comes after the results before it. `ValueError` if the image or a `Context`
        is closed; `concurrent.futures.BrokenExecutor` if a process dies.
        """
        if not isinstance(budget, Budget):
            raise TypeError(f"the budget is no Budget: {budget!r}")
        count = _each.usual_workers() if workers is None else workers
        if isinstance(count, bool) or not isinstance(count, int):
            raise TypeError(f"workers is no int: {count!r}")
        if count < 1:
            raise ValueError(f"workers has to be at least 1: {count}")
        self._check_open()
        source = _each.Source(contexts)
        if count == 1 and not processes:
            return _each.in_turn(self, source, budget)
        from . import _pools

        pool = _pools.in_processes if processes else _pools.in_threads
        return pool(self, source, budget, count, ordered)

    def share(self) -> "Image":
        """Returns another `Image` over the same verified image, without a copy.

        Each is closed by itself.
        """
        other = type(self).__new__(type(self))
        other._start(self._data)
        with _forks.section:
            self._share_to(other._first)
        return other

    def save(self, path: Union[str, "os.PathLike[str]"]) -> None:
        """Writes the image to a file. A file that exists is replaced when all bytes are written."""
        self._check_open()
        data, target = self.data, os.path.realpath(path)
        if os.path.exists(target) and not os.path.isfile(target):
            with open(target, "wb") as file:
                file.write(data)
            return
        part = f"{target}.{os.getpid()}.{threading.get_ident()}.part"
        try:
            with open(part, "xb") as file:
                file.write(data)
            os.replace(part, target)
        except BaseException:
            if os.path.exists(part):
                os.remove(part)
            raise

    @classmethod
    def load(cls, path: Union[str, "os.PathLike[str]"]) -> "Image":
        """Reads an image from a file and verifies it."""
        with open(path, "rb") as file:
            return cls(file.read())

    def close(self) -> None:
        """Frees the image. A run of another thread that has begun ends as it would."""
        with _forks.section:
            self._closed = True
            handles, self._idle = [self._first, *self._idle], []
        for handle in handles:
            handle.free()

    def __reduce__(self) -> Tuple[Type["Image"], Tuple[bytes]]:
        return type(self), (self.data,)

    def __repr__(self) -> str:
        of = "" if self._data is None else f" of {len(self._data)} bytes"
        return f"<jt.Image{of}{', closed' if self._closed else ''}>"

    def _use(
        self,
        context: ContextLike,
        budget: Budget,
        names: Mapping[str, Any],
        use: Use[_Result],
    ) -> _Result:
        """Uses a handle of the image for a context, within the memory of the budget."""
        if not isinstance(budget, Budget):
            raise TypeError(f"the budget is no Budget: {budget!r}")
        context = with_names(context, names)
        numbers = Numbers(budget.fuel, budget.output, budget.depth, budget.size, budget.nesting)
        handle = self._take()
        try:
            if budget.memory is None:
                return use_for(context, handle, numbers, use)
            return use_within(budget.memory, context, handle, numbers, use)
        finally:
            self._put_back(handle)

    def _share_to(self, other: ImageHandle) -> None:
        """Fills another handle. The caller is in a section."""
        self._check_open()
        if library.jt_image_share(self._first, other) != 0:
            raise NoMemory()

    def _take(self) -> ImageHandle:
        """Returns a handle that no other run uses."""
        with _forks.section:
            self._check_open()
            try:
                return self._idle.pop()
            except IndexError:
                handle = ImageHandle()
            self._share_to(handle)
            return handle

    def _put_back(self, handle: ImageHandle) -> None:
        """Keeps a handle for the next run, or frees it if the image was closed meanwhile."""
        with _forks.section:
            if not self._closed:
                self._idle.append(handle)
                return
        handle.free()
