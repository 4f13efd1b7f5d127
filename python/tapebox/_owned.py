"""What a handle of the library is used and freed by."""

import threading
from collections.abc import Callable
from typing import Any, NoReturn, Self

from . import _library
from ._library import checked, library
from .refusals import Refused

# The refusal of a call on an object that another thread's call is using.
BUSY = 112


class Owned:
    """What the library holds behind a handle. It is freed by `free`, by the end of a `with`, or with the object, and cannot be copied. A call on
    it is refused by 112 as long as another thread's call uses it."""

    # What an error calls it.
    KIND: str
    _handle: _library.Handle
    _lock: threading.Lock

    def _begin(self) -> None:
        """Makes a handle that holds nothing."""
        self._lock, self._handle = threading.Lock(), _library.Handle()

    def _alone(self) -> threading.Lock:
        """What a `with` takes around calls of the handle. Only a `with` surely gives it back if a signal's handler raises an exception."""
        if self._lock.locked():
            raise Refused(BUSY)
        return self._lock

    def _call(self, call: Callable[..., int], *arguments: Any) -> int:
        """What a call with the handle returns."""
        with self._alone():
            return call(self._handle, *arguments)

    def free(self) -> None:
        """Frees it. Every later call is refused: a tape's by 101, a subscriber's by 102, a table's by 110."""
        checked(self._call(library.tapebox_free))

    def __del__(self) -> None:
        if hasattr(self, "_handle"):
            self.free()

    def __enter__(self) -> Self:
        return self

    def __exit__(self, *why: object) -> None:
        self.free()

    def __copy__(self) -> NoReturn:
        raise TypeError(f"{self.KIND} cannot be copied")

    def __deepcopy__(self, known: object) -> NoReturn:
        self.__copy__()

    def __reduce__(self) -> NoReturn:
        self.__copy__()
