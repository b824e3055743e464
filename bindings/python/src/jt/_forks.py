"""Locks that a forked child finds free.

A forked child has one thread, so a lock that another thread of the parent had would never be
released there. And a handle that another thread used at that moment may look empty in the child.

So what threads share is used in short sections under `section`, and a fork waits until no other
thread is in one. Locks of long calls are made anew in the child: see `LongLock`.
"""
import os
import threading
from typing import Optional

# The lock of the short sections. A finalizer or a signal handler may render in the middle of one,
# so it is reentrant. (It is replaced in a child: use it as `_forks.section`.)
section = threading.RLock()
# A fork waits for at most these seconds. No section is that long, unless a finalizer makes it so.
_MOST_SECONDS = 1.0
# The number of forks from the first process to this one, and the thread that handles its signals.
count, main = 0, threading.main_thread().ident


class LongLock:
    """A lock of a long call. No handle that a child may use is in use under it."""

    def __init__(self) -> None:
        self._lock, self._count = threading.RLock(), count

    def here(self) -> threading.RLock:
        """Returns the lock of this process."""
        if self._count != count:
            with section:
                if self._count != count:
                    self._lock, self._count = threading.RLock(), count
        return self._lock


class _Forking(threading.local):
    """What the fork of a thread has locked, until it is made."""

    lock: Optional[threading.RLock] = None


_forking = _Forking()


def _before() -> None:
    _forking.lock = section if section.acquire(timeout=_MOST_SECONDS) else None


def _in_parent() -> None:
    lock, _forking.lock = _forking.lock, None
    if lock is not None:
        lock.release()


def _in_child() -> None:
    global section, count, main
    section = threading.RLock()
    count, main = count + 1, threading.get_ident()


os.register_at_fork(
    before=_before, after_in_parent=_in_parent, after_in_child=_in_child
)
