"""What the enums of the package are made of."""
from __future__ import annotations

import enum
import sys
from typing import Any, Dict


class Number(int):
    """The number of a member of an enum, and what the member means."""

    meaning: str


def numbered(number: int, meaning: str) -> int:
    it = Number(number)
    it.meaning = meaning
    return it


class Documented(enum.Enum):
    """An enum whose members have numbers, and docstrings of their own."""

    def __init__(self, number: int) -> None:
        assert isinstance(number, Number)
        self._value_, self.__doc__ = int(number), number.meaning


class Named(Documented):
    """An enum whose members are printed by name."""

    def __repr__(self) -> str:
        return f"{type(self).__name__}.{self.name}"


# The first versions of Python 3.11 drop a bit without a name, unless they are told to refuse it.
STRICT: Dict[str, Any] = {"boundary": enum.STRICT} if sys.version_info >= (3, 11) else {}


class Flags(Documented, enum.Flag, **STRICT):
    """A set of flags, printed by their names.

    Sets of different types are never equal and can't be combined, nor can a set and an int. A bit
    without a name raises ValueError."""

    def __repr__(self) -> str:
        names = [str(flag.name) for flag in type(self) if flag.value and flag.value & self.value]
        return f"{type(self).__name__}.{'|'.join(names) or 'NONE'}"

    __str__ = __repr__
