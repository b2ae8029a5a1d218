"""What owns memory of the library: a parser, a map or bindings."""
from __future__ import annotations

import threading
import weakref
from typing import Any, Callable, Iterator, NoReturn, Optional, TypeVar

from ._calls import STATUS_OK, RawHandle
from ._library import closed, refused

_Self = TypeVar("_Self", bound="Owned")
_Item = TypeVar("_Item")


class Owned:
    """What owns memory of the library until it is closed."""

    def __init__(self, what: str, init: Callable[[RawHandle], Any], free: Any) -> None:
        handle = RawHandle()
        if init(handle) != STATUS_OK:
            raise refused()
        #: The struct of the library: for this package, which holds `lock` while it is passed.
        self.handle = handle
        self._what, self._free = what, weakref.finalize(self, free, handle)
        # At the exit a thread may still be in a call, and the system takes the memory anyway.
        self._free.atexit = False
        # A call holds the lock while it runs, but for code of the caller: values of arguments are
        # taken before it, and what a map lets go is let go after it.
        #: Held while the library has the struct: for this package.
        self.lock: Any = threading.RLock()

    def __enter__(self: _Self) -> _Self:
        self._check_open()
        return self

    def __exit__(self, *_: object) -> None:
        self.close()

    def __reduce__(self) -> NoReturn:
        raise TypeError(f"a {self._what} can't be copied or pickled")

    def _alone(self) -> Any:
        """The lock, for a call that leaves something half done between its calls of the library. A
        signal's handler or a finalizer may come in there, in the same thread, so it can't wait. One
        call of the library alone harms nothing there, and takes the lock itself."""
        if self.lock._is_owned():
            raise RuntimeError(f"the {self._what} is in the middle of a call of this thread")
        return self.lock

    def close(self) -> None:
        """Frees what the library holds, once no other thread is in a call. It may be called
        twice."""
        with self._alone():
            self._free()

    @property
    def closed(self) -> bool:
        """Whether it was closed."""
        return not self.handle.live

    def _check_open(self) -> None:
        """Raises ValueError if it was closed."""
        if not self.handle.live:
            raise closed(self._what)


class UntilNone(Iterator[_Item]):
    """What a function returns, one by one, until that is None. Threads may share it, unlike a
    generator: each item goes to one of them."""

    def __init__(self, call: Callable[[], Optional[_Item]]) -> None:
        self._call = call

    def __next__(self) -> _Item:
        item = self._call()
        if item is None:
            self._call = _no_more
            raise StopIteration
        return item


def _no_more() -> None:
    return None
