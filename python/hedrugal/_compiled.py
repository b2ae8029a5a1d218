"""The functions of the part of the package that is compiled: they feed a parser, and make a list of
what it tells. What each takes is said in compiled/reader.c."""
from __future__ import annotations

import ctypes
from typing import Any, Callable, List

from ._library import compiled, library

_functions = compiled().hedrugal_functions
_functions.restype = ctypes.py_object

reader: Callable[..., Any]
feed: Callable[..., List[Any]]
tell: Callable[..., List[Any]]
keep: Callable[..., bool]
has_left: Callable[..., bool]
forget: Callable[..., bool]
reader, feed, tell, keep, has_left, forget = _functions(
    library.hed_parser_feed,
    library.hed_parser_next_events,
    library.hed_parser_text,
    library.hed_parser_drop_text,
)
