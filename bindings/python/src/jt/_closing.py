"""What images and contexts have in common: they are open until they are closed."""
from types import TracebackType
from typing import Optional, Type, TypeVar

_Kind = TypeVar("_Kind", bound="Closing")


class Closing:
    """A value that is used in a `with` statement, which closes it at its end.

    # Errors
    `ValueError` for a use after it was closed.
    """

    # The name of the kind in messages.
    _kind: str
    _closed: bool

    def close(self) -> None:
        """Frees what the library holds for the value."""
        raise NotImplementedError

    def __enter__(self: _Kind) -> _Kind:
        self._check_open()
        return self

    def __exit__(
        self,
        kind: Optional[Type[BaseException]],
        error: Optional[BaseException],
        trace: Optional[TracebackType],
    ) -> None:
        self.close()

    def _check_open(self) -> None:
        if self._closed:
            raise ValueError(f"the {self._kind} is closed")
