"""Finds the shared library and declares its calls; bindings/c/jt.h describes them.

Read _errors.py first: it has the exception for each answer.
"""
import ctypes
import os
import struct
import time
import warnings
from itertools import islice
from typing import Any, Dict, List, Optional, Tuple, Union

from ._errors import Fault, JtError, NoMemory, Refused, Spent

SPENT = {1: "fuel", 2: "depth", 3: "output", 4: "size", 5: "nesting"}
# The statuses of a call that returns no `Answer`.
DONE, MEMORY, GOING = 0, 6, 7
# The status and the code of a call whose handle holds nothing, and of a run that goes on.
NOT_HELD, NOT_ENDED = (2, 3), (2, 4)
FIRST_ROOM = 4096
# What `jt_memory_limit` takes for no limit.
NO_LIMIT = 2**64 - 1
# The room for the texts of many contexts: at first, and the most that is tried at once.
_EACH_ROOM, _MOST_EACH_ROOM = 2**16, 2**24
# The number of contexts of a first call, and the seconds that a later one may take.
_FIRST_RUNS, _CALL_SECONDS = 8, 0.05
# The fields of `Answer`.
_ANSWER = struct.Struct("=IIIIQ")

_U8, _U32, _U64 = ctypes.c_uint8, ctypes.c_uint32, ctypes.c_uint64
_Fields = List[Tuple[str, Any]]


class Answer(ctypes.Structure):
    """The answer of a call, as `struct jt_answer`."""

    _fields_: _Fields = [
        ("status", _U32),
        ("code", _U32),
        ("line", _U32),
        ("letter", _U32),
        ("length", _U64),
    ]


class Lengths(ctypes.Structure):
    """The lengths of a name and its source, as `struct jt_lengths`."""

    _fields_: _Fields = [("name", _U64), ("source", _U64)]


class FlagBytes(ctypes.Structure):
    """The options, as `struct jt_options`."""

    _fields_: _Fields = [
        ("trim_blocks", _U8),
        ("lstrip_blocks", _U8),
        ("keep_trailing_newline", _U8),
        ("autoescape", _U8),
        ("strict", _U8),
    ]


class Numbers(ctypes.Structure):
    """The budget, as `struct jt_budget`."""

    _fields_: _Fields = [
        ("fuel", _U64),
        ("output", _U64),
        ("depth", _U32),
        ("size", _U32),
        ("nesting", _U8),
    ]


class UsedNumbers(ctypes.Structure):
    """What a run has used, as `struct jt_used`."""

    _fields_: _Fields = [
        ("fuel", _U64),
        ("output", _U64),
        ("depth", _U32),
        ("size", _U32),
        ("nesting", _U8),
    ]


class _Handle(ctypes.Structure):
    """What a call fills and `free` empties."""

    _fields_: _Fields = [("at", ctypes.c_void_p), ("full", ctypes.c_bool)]
    _freeing = ""

    def free(self) -> None:
        """Frees what is held, if there is something."""
        if library is not None:  # (as it is at the end of the process)
            getattr(library, self._freeing)(self)


class LibraryHandle(_Handle):
    """A `struct jt_library`. Any thread may free it, so its finalizer does."""

    _freeing = "jt_library_free"
    __del__ = _Handle.free


class ImageHandle(_Handle):
    """A `struct jt_image`. Any thread may free it, so its finalizer does."""

    _freeing = "jt_image_free"
    __del__ = _Handle.free


class ContextHandle(_Handle):
    """A `struct jt_context`. Only the thread that filled it may use it or free it."""

    _freeing = "jt_context_free"


class RunHandle(_Handle):
    """A `struct jt_run`. Only the thread that filled it may use it or free it."""

    _freeing = "jt_run_free"


class OutcomeHandle(_Handle):
    """A `struct jt_outcome`. Only the thread that filled it may use it or free it."""

    _freeing = "jt_outcome_free"


_BYTES = [ctypes.c_char_p, ctypes.c_size_t]
_LIBRARY, _IMAGE = ctypes.POINTER(LibraryHandle), ctypes.POINTER(ImageHandle)
_CONTEXT, _OUTCOME = ctypes.POINTER(ContextHandle), ctypes.POINTER(OutcomeHandle)
_RUN = ctypes.POINTER(RunHandle)
_TEMPLATES = [*_BYTES, ctypes.POINTER(Lengths), ctypes.c_size_t]
_CALLS = {
    "jt_version": (Answer, _BYTES),
    "jt_library_load": (Answer, [*_TEMPLATES, _LIBRARY, *_BYTES]),
    "jt_library_compile": (Answer, [_LIBRARY, *_BYTES, FlagBytes, _IMAGE, *_BYTES]),
    "jt_library_explain": (Answer, [_LIBRARY, *_BYTES, FlagBytes, *_BYTES]),
    "jt_library_needs": (Answer, [_LIBRARY, *_BYTES, FlagBytes, *_BYTES]),
    "jt_image_load": (Answer, [*_BYTES, _IMAGE, *_BYTES]),
    "jt_image_save": (Answer, [_IMAGE, *_BYTES]),
    "jt_context_load": (Answer, [*_BYTES, _CONTEXT, *_BYTES]),
    "jt_image_run": (Answer, [_IMAGE, _CONTEXT, Numbers, _OUTCOME, *_BYTES]),
    "jt_image_run_each": (
        ctypes.c_size_t,
        [_IMAGE, *_BYTES, ctypes.POINTER(_U64), ctypes.c_size_t, Numbers, _OUTCOME]
        + [ctypes.POINTER(Answer), ctypes.c_size_t, *_BYTES],
    ),
    "jt_outcome_read": (Answer, [_OUTCOME, *_BYTES]),
    "jt_run_start": (_U32, [_IMAGE, _CONTEXT, Numbers, _RUN]),
    "jt_run_advance": (_U32, [_RUN, _U32]),
    "jt_run_outcome": (Answer, [_RUN, *_BYTES]),
    "jt_run_used": (UsedNumbers, [_RUN]),
    "jt_library_share": (ctypes.c_uint32, [_LIBRARY, _LIBRARY]),
    "jt_image_share": (ctypes.c_uint32, [_IMAGE, _IMAGE]),
    "jt_library_free": (None, [_LIBRARY]),
    "jt_image_free": (None, [_IMAGE]),
    "jt_context_free": (None, [_CONTEXT]),
    "jt_outcome_free": (None, [_OUTCOME]),
    "jt_run_free": (None, [_RUN]),
    "jt_memory_limit": (_U64, [_U64]),
    "jt_memory_held": (ctypes.c_int64, []),
}


def _load() -> Any:
    """Loads the library that `JT_LIBRARY` names, or the one in this folder."""
    here = os.path.dirname(os.path.abspath(__file__))
    path = os.environ.get("JT_LIBRARY") or os.path.join(here, "libjt.so")
    build = "in a checkout of jt run `bindings/build.sh crates/jt_ffi/out/libjt_ffi.a FOLDER`"
    advice = f"{build} and set JT_LIBRARY to FOLDER/libjt.so, or `pip install ./bindings/python`"
    if not os.path.exists(path):
        raise ImportError(f"jt: no shared library {path}: {advice}", name="jt", path=path)
    try:
        loaded = ctypes.CDLL(path)
        for name, (result, arguments) in _CALLS.items():
            call = getattr(loaded, name)
            call.restype, call.argtypes = result, arguments
    except (OSError, AttributeError) as error:
        raise ImportError(f"jt: unusable: {error}: {advice}", name="jt", path=path) from error
    return loaded


library: Any = _load()


_FirstBuffer = ctypes.c_char * FIRST_ROOM


def tell(call: Any, *given: Any, room: int = FIRST_ROOM) -> bytes:
    """Makes a call that runs no template and returns what it tells, or raises.

    It is made again if `room` bytes were too few.
    """
    while True:
        out = (ctypes.c_char * room)()
        answer = call(*given, out, room)
        if answer.length <= room:
            return outcome(answer, out)
        room = answer.length


def explain(templates: LibraryHandle, entry: bytes, flags: FlagBytes) -> Optional[str]:
    """Returns why a template does not compile, in words, or `None` if memory is refused."""
    try:
        return tell(library.jt_library_explain, templates, entry, len(entry), flags).decode()
    except NoMemory:
        return None


def needs(templates: LibraryHandle, entry: bytes, flags: FlagBytes) -> Dict[str, List[str]]:
    """Returns what a template needs, by the first words of the lines of `jt_library_needs`."""
    lines = tell(library.jt_library_needs, templates, entry, len(entry), flags).decode()
    found: Dict[str, List[str]] = {"name": [], "template": [], "missing": []}
    for line in lines.split("\n")[:-1]:
        kind, _, name = line.partition(" ")
        found[kind].append(name)
    return found


def run(image: ImageHandle, context: ContextHandle, budget: Numbers) -> str:
    """Runs an image once and returns its text, or raises.

    A text longer than the first buffer is read from the outcome, which is kept.
    """
    ended = OutcomeHandle()
    try:
        out: Any = _FirstBuffer()
        answer = library.jt_image_run(image, context, budget, ended, out, FIRST_ROOM)
        if answer.length > FIRST_ROOM:
            out = (ctypes.c_char * answer.length)()
            answer = library.jt_outcome_read(ended, out, answer.length)
        return outcome(answer, out).decode()
    finally:
        library.jt_outcome_free(ended)


def run_each(
    image: ImageHandle, contexts: List[bytes], budget: Numbers, memory: Optional[int], stop: Any
) -> List[Union[str, JtError]]:
    """Runs an image for each context in JSON, until `stop.value` is true.

    Returns for each context the text, or the error that `run` would raise. A call runs many, and
    holds no lock of Python meanwhile. A signal waits for its end, so slow runs share no call.
    """
    outcomes: List[Union[str, JtError]] = []
    room, most = _EACH_ROOM, _FIRST_RUNS
    while len(outcomes) < len(contexts) and not stop.value:
        rest, begin, before = contexts[len(outcomes) :][:most], time.monotonic(), NO_LIMIT
        try:
            if memory is not None:
                before = library.jt_memory_limit(memory)
            found, longest = _run_some(image, rest, budget, room)
        finally:
            if memory is not None:
                library.jt_memory_limit(before)
        outcomes += found
        # (The next texts may be as long.)
        room = max(room, min(_MOST_EACH_ROOM, 2 * longest * len(rest)))
        most = max(1, int(len(found) * _CALL_SECONDS / (time.monotonic() - begin + 1e-9)))
    return outcomes


def _run_some(
    image: ImageHandle, contexts: List[bytes], budget: Numbers, room: int
) -> Tuple[List[Union[str, JtError]], int]:
    """Runs an image for contexts in one call, until a text does not fit into `room` bytes.

    Returns the outcomes, and the length of that text, which is the last one, or 0.
    """
    outcomes: List[Union[str, JtError]] = []
    joined, count = b"".join(contexts), len(contexts)
    lengths, answers = (_U64 * count)(*map(len, contexts)), (Answer * count)()
    out, ended, longest = (ctypes.c_char * room)(), OutcomeHandle(), 0
    try:
        done = library.jt_image_run_each(
            image, joined, len(joined), lengths, count, budget, ended, answers, count, out, room
        )
        texts, left = memoryview(out), room
        for status, code, line, _, length in islice(_ANSWER.iter_unpack(answers), done):
            if length > left:
                longest, texts = length, memoryview((ctypes.c_char * length)())
                library.jt_outcome_read(ended, texts.obj, length)
            told, texts, left = str(texts[:length], "utf-8"), texts[length:], left - length
            outcomes.append(told if status == 0 else _error(status, code, line, told))
    finally:
        library.jt_outcome_free(ended)
    return outcomes, longest


def outcome(answer: Answer, out: Any) -> bytes:
    """Returns the bytes that a call told, or raises the exception for its status."""
    told = ctypes.string_at(out, answer.length)
    if answer.status == 0:
        return told
    if (answer.status, answer.code) == NOT_HELD:
        raise ValueError("the image or the context is closed")
    if (answer.status, answer.code) == NOT_ENDED:
        raise ValueError("the run has not ended")
    raise _error(answer.status, answer.code, answer.line, told.decode())


def _error(status: int, code: int, line: int, told: str) -> JtError:
    """Returns the exception for an answer that is not done."""
    if status == 1:
        return Fault(code, told, line) if line else Fault(code)
    if status == 3:
        return Refused(told)
    if status == 4:
        return Spent(SPENT[code])
    if status == 6:
        return NoMemory()
    return JtError(f"the library refused a call: status {status}, code {code}")


# The version of the library. It ends in `-unproved` if the library was built without a proof.
LIBRARY_VERSION = tell(library.jt_version).decode()


def check_version(version: str) -> None:
    """Checks that the library is of the version of the package, and warns if nothing is proved.

    # Errors
    `ImportError` for a library of another version.
    """
    if LIBRARY_VERSION.partition("-")[0] != version:
        message = f"jt: the library has version {LIBRARY_VERSION}, not {version}"
        raise ImportError(message, name="jt")
    if LIBRARY_VERSION != version:
        warnings.warn(f"jt: the library is {LIBRARY_VERSION}: it is only for trials", stacklevel=3)
