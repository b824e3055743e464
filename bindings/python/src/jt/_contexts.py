"""Contexts that are read once, and kept for each thread that uses them.

The library wants a kept context to stay on the thread that filled it, also when it is freed. So a
`Context` is its JSON, and each thread that uses it keeps a handle of its own: see `Thread`.
"""
import itertools
import json
import threading
from collections import deque
from typing import Any, Callable, Deque, Dict, List, Mapping, Tuple, Type, TypeVar, Union

from . import _forks
from ._closing import Closing
from ._errors import Refused
from ._json import Default, encode_json, explain, to_json
from ._library import NO_LIMIT, ContextHandle, ImageHandle, Numbers, RunHandle, library, tell

_Result = TypeVar("_Result")
# The numbers of contexts and of runs in slices.
numbers = itertools.count()


class Context(Closing):
    """What a template is rendered for: a mapping, or the JSON of an object as `str` or `bytes`.

    It is read here, once for each thread that uses it, and can be used for many runs and images.
    Values are texts, whole numbers of 64 bits, truth values, `None`, lists, tuples and mappings.
    For each other value of a mapping, a float, a date or a larger number for example, `default`
    returns what stands in its place, as in `json.dumps`:

        Context({"price": Decimal("1.50"), "day": date.today()}, default=str)

    Two contexts are equal if each template has the same text for both. An order of keys is nothing.

    # Errors
    `ContextError` for what cannot be JSON, and for JSON that is refused; what `default` raises.
    """

    _kind = "context"

    def __init__(
        self, given: Union[Mapping[str, Any], str, bytes, None] = None, *, default: Default = None
    ) -> None:
        self._closed = False
        self._number = next(numbers)
        # (No weak references: of a context in a cycle the collector clears them before `__del__`.)
        self._threads: List[Thread] = []
        self._json = _encode(given, default)
        self._handle()

    def _handle(self) -> ContextHandle:
        """Returns the handle of this thread. It reads the JSON if the thread has none yet."""
        thread = this_thread()
        thread.free_dropped()
        self._check_open()
        if self._number not in thread.contexts:
            handle = ContextHandle()
            try:
                _keep(self._json, handle)
                self._take_part(thread, handle)
            finally:
                # (A finalizer that ran meanwhile may have read it too.)
                if thread.contexts.get(self._number) is not handle:
                    library.jt_context_free(handle)
        return thread.contexts[self._number]

    def _take_part(self, thread: "Thread", handle: ContextHandle) -> None:
        """Gives a thread its handle, unless it has one."""
        with _forks.section:
            self._check_open()
            if self._number not in thread.contexts:
                self._threads = [it for it in self._threads if self._number in it.contexts]
                self._threads.append(thread)
                thread.contexts[self._number] = handle

    def close(self) -> None:
        """Frees the handles: of this thread now, of another at its next call or its end."""
        with _forks.section:
            self._closed = True
            threads, self._threads = self._threads, []
        for thread in threads:
            thread.dropped.append(self._number)
        if threads:
            this_thread().free_dropped()

    def __del__(self) -> None:
        if getattr(self, "_threads", None):
            self.close()

    def __reduce__(self) -> Tuple[Type["Context"], Tuple[bytes]]:
        return type(self), (self._json,)

    def __eq__(self, other: object) -> bool:
        if not isinstance(other, Context):
            return NotImplemented
        return self._json == other._json or self._sorted() == other._sorted()

    def __hash__(self) -> int:
        return hash(self._sorted())

    def _sorted(self) -> str:
        """Returns the JSON with sorted keys, which equal contexts share."""
        return json.dumps(json.loads(self._json.decode()), sort_keys=True)

    def __repr__(self) -> str:
        return f"<jt.Context of {len(self._json)} bytes{', closed' if self._closed else ''}>"


# What a run takes as its context.
ContextLike = Union[Context, Mapping[str, Any], str, bytes, None]


def with_names(context: ContextLike, names: Mapping[str, Any]) -> ContextLike:
    """Returns a context with further values by their names, which replace those of the context.

    # Errors
    `TypeError` for names beside a context that is no mapping.
    """
    if not names:
        return context
    if isinstance(context, (Context, str, bytes)):
        kind = type(context).__name__
        raise TypeError(f"values by keywords do not go with a context that is a {kind}")
    return {**({} if context is None else context), **names}


# What uses an image and a context under a budget: it runs the image, or starts a run.
Use = Callable[[ImageHandle, ContextHandle, Numbers], _Result]


def use_within(
    memory: int, context: ContextLike, image: ImageHandle, budget: Numbers, use: Use[_Result]
) -> _Result:
    """Does what `use_for` does, and lets the library hold `memory` bytes for it."""
    before = NO_LIMIT
    try:
        before = library.jt_memory_limit(memory)
        return use_for(context, image, budget, use)
    finally:
        library.jt_memory_limit(before)


def use_for(
    context: ContextLike, image: ImageHandle, budget: Numbers, use: Use[_Result]
) -> _Result:
    """Uses an image for a context. What is no `Context` is read before, and freed after."""
    if isinstance(context, Context):
        return use(image, context._handle(), budget)
    handle = ContextHandle()
    try:
        _keep(_encode(context), handle)
        return use(image, handle, budget)
    finally:
        library.jt_context_free(handle)


def json_of(context: ContextLike) -> bytes:
    """Returns the JSON of a context, which the library may refuse.

    # Errors
    `ContextError` for what cannot be JSON, `ValueError` for a `Context` that is closed.
    """
    if isinstance(context, Context):
        context._check_open()
        return context._json
    return _encode(context)


def _encode(
    given: Union[Mapping[str, Any], str, bytes, None], default: Default = None
) -> bytes:
    """Returns the JSON of what a context is made from."""
    if isinstance(given, bytes):
        return given
    if isinstance(given, str):
        return encode_json(given)
    return to_json({} if given is None else given, default=default)


def _keep(data: bytes, handle: ContextHandle) -> None:
    """Reads JSON into a handle of this thread."""
    try:
        tell(library.jt_context_load, data, len(data), handle)
    except Refused as error:
        refused = error
    else:
        return
    raise explain(data, refused)


class Thread:
    """The handles of one thread, by the numbers of contexts and runs. Only this thread frees them.

    What is closed elsewhere puts its number into `dropped`, from any thread. This thread frees the
    handle at its next call, or at its end.
    """

    def __init__(self) -> None:
        self.ident = threading.get_ident()
        self.contexts: Dict[int, ContextHandle] = {}
        self.runs: Dict[int, RunHandle] = {}
        self.dropped: Deque[int] = deque()

    def free_dropped(self) -> None:
        """Frees what other threads dropped."""
        while self.dropped:
            try:
                number = self.dropped.popleft()
            except IndexError:  # (a finalizer that ran meanwhile has freed it)
                return
            handle = self.contexts.pop(number, None) or self.runs.pop(number, None)
            if handle is not None:
                handle.free()


class _End:
    """Frees the handles of a thread at its end, when its part of `_here` is dropped."""

    def __init__(self, thread: Thread) -> None:
        self.thread = thread

    def __del__(self) -> None:
        # (The end of the process drops what threads left that still run: that is left to it.)
        if threading.get_ident() == self.thread.ident:
            self.thread.dropped.extend([*self.thread.contexts, *self.thread.runs])
            self.thread.free_dropped()


_here = threading.local()


def this_thread() -> Thread:
    """Returns the handles of this thread."""
    try:
        end: _End = _here.end
    except AttributeError:
        end = _here.end = _End(Thread())
    return end.thread
