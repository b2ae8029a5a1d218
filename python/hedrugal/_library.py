"""The shared library: it is found and loaded, and its calls are declared. All modules of the
package call it by `library`."""
from __future__ import annotations

import ctypes
import ctypes.util
import os
import platform
import sys
from typing import Any, NoReturn, Optional, Tuple, Union

from . import __version__
from ._calls import CALLS, STATUS_NO_MEMORY, STATUS_NONE, STATUS_NOT_INITIALIZED, STATUS_OK

Bytes = Union[bytes, bytearray, memoryview]

_FOLDER = os.path.dirname(os.path.abspath(__file__))


def _library_file() -> str:
    """Returns the file of the library, or the name by which the system finds it."""
    named = os.environ.get("HEDRUGAL_LIBRARY")
    if named:
        named = os.path.abspath(named)
        file = os.path.join(named, "libhedrugal.so") if os.path.isdir(named) else named
        for path in (os.path.dirname(file), file):
            if _is_open_to_others(path):
                raise _not_loaded(f"another user may write to {path}")
        return file
    found = beside("libhedrugal.so") or ctypes.util.find_library("hedrugal")
    if found:
        return found
    raise ImportError(
        f"hedrugal: no libhedrugal.so in {_FOLDER} nor in the system's folders\n"
        "HEDRUGAL_LIBRARY can name its file or its folder."
    )


def beside(name: str) -> Optional[str]:
    """A file of this processor that comes with the package. A wheel has it in this folder, and a
    clone the prebuilt one beside the folder."""
    folders = _FOLDER, os.path.join(_FOLDER, f"../prebuilt/{platform.machine()}-linux")
    files = (os.path.normpath(os.path.join(it, name)) for it in folders)
    return next((it for it in files if os.path.exists(it)), None)


def _is_open_to_others(path: str) -> bool:
    """Whether a file or folder is there that a user who is neither root nor this one may change."""
    try:
        status = os.stat(path)
    except OSError:
        return False
    return status.st_uid not in (0, os.geteuid()) or bool(status.st_mode & 0o002)


def _load() -> ctypes.PyDLL:
    """Loads the library, and declares its calls."""
    machine, bits = platform.machine(), 8 * ctypes.sizeof(ctypes.c_void_p)
    if not (sys.platform == "linux" and machine in ("x86_64", "aarch64") and bits == 64):
        raise ImportError(
            "hedrugal: the library is for Linux on x86-64 and 64-bit ARM, "
            f"and this is a Python of {bits} bits for {machine} {sys.platform}"
        )
    file = _library_file()
    library = _opened(file)
    _declare(library)
    number = library.hed_version()
    major, *later = number >> 16, number >> 8 & 255, number & 255
    wanted, *least = map(int, __version__.split("."))
    if major != wanted or later < least:
        raise _not_loaded(
            f"{file} is version {major}.{later[0]}.{later[1]} of the library, "
            f"and this module is for version {__version__} or a later one of {wanted}"
        )
    return library


def _opened(file: str) -> ctypes.PyDLL:
    """A PyDLL keeps Python's lock while a call runs, so no two threads are in a call at once."""
    try:
        return ctypes.PyDLL(file)
    except OSError as error:
        raise _not_loaded(str(error)) from None


def _declare(library: ctypes.PyDLL) -> None:
    try:
        for name, (returned, taken) in CALLS.items():
            call = getattr(library, name)
            call.restype, call.argtypes = returned, taken
    except AttributeError as error:
        raise _not_loaded(str(error)) from None


def _not_loaded(why: str) -> ImportError:
    return ImportError(
        f"hedrugal: {why}\n"
        "HEDRUGAL_LIBRARY has to name a libhedrugal.so of this version or a later one, "
        "or its folder."
    )


library: ctypes.PyDLL = _load()


def compiled() -> ctypes.PyDLL:
    """Loads the part of the package that is compiled."""
    file = beside("libhedrugal-python.so")
    if file is None:
        raise ImportError(f"hedrugal: no libhedrugal-python.so in {_FOLDER}: get the package again")
    return _opened(file)


def fault() -> NoReturn:
    """Raises what no answer of this version of the library leads to."""
    raise RuntimeError(
        "libhedrugal.so answers what this module doesn't know: they are of different versions"
    )


def refused() -> MemoryError:
    return MemoryError("libhedrugal.so was refused memory")


def closed(what: str) -> ValueError:
    return ValueError(f"the {what} is closed")


def is_ok(answer: int, what: str) -> bool:
    """Whether a call did what it says. If not, it found nothing. Raises what else it answers."""
    if answer == STATUS_OK:
        return True
    if answer == STATUS_NONE:
        return False
    if answer == STATUS_NO_MEMORY:
        raise refused()
    if answer == STATUS_NOT_INITIALIZED:
        raise closed(what)
    fault()


def borrowed(data: Bytes) -> Tuple[Any, int]:
    """Returns what ctypes passes as the pointer to the bytes, and their number. Only a memoryview
    that is read-only or has gaps is copied, since ctypes can't borrow its bytes, and so is an
    object of a class over bytes.

    The number is that of the memory itself: such a class may answer anything to len(). The pointer
    keeps a bytearray from being resized."""
    if type(data) is bytes:
        return data, len(data)
    view = _view_of(data)
    if view.readonly or not view.c_contiguous or not view.nbytes:
        copied = view.tobytes()
        return copied, len(copied)
    return ctypes.byref(ctypes.c_char.from_buffer(view)), view.nbytes


def copied(data: Bytes) -> bytes:
    """The bytes themselves, of whatever class they are."""
    return data if type(data) is bytes else _view_of(data).tobytes()


def _view_of(data: Bytes) -> memoryview:
    if not isinstance(data, (bytes, bytearray, memoryview)):
        raise TypeError(
            f"bytes, a bytearray or a memoryview is required, not {type(data).__name__}"
        )
    return memoryview(data)


def borrowed_text(text: str) -> Tuple[Any, int]:
    """The UTF-8 of a text, as `borrowed` has bytes. A surrogate is passed on: the library refuses
    it."""
    return borrowed(str.encode(text, "utf-8", "surrogatepass"))
