"""How a parser reads."""
from __future__ import annotations

import operator
from dataclasses import dataclass
from typing import Type, cast

from ._calls import RawReading
from ._enums import Named, numbered
from ._library import fault

__all__ = ["Dialect", "EraseByte", "NewlineByte", "Reading"]


class Dialect(Named):
    """By which grammar a Parser reads."""

    # hedrugal.h: dialect member
    EXTENDED = numbered(0, "What terminals send in any mode. For every program.")
    TERMWIZ = numbered(
        1,
        "What termwiz reads, and nothing else: the other fields of a reading say nothing then.",
    )
    # hedrugal.h: end


class EraseByte(Named):
    """Which byte the Backspace key sends, of 8 and 127. The other one is typed with Ctrl. A program
    takes it from its terminal's settings, the character VERASE of termios."""

    # hedrugal.h: erase member
    DELETE = numbered(0, "127, as most terminals send it. Byte 8 is Ctrl-H.")
    BACKSPACE = numbered(1, "8. Byte 127 is Ctrl-Backspace.")
    # hedrugal.h: end


class NewlineByte(Named):
    """What byte 10 is. A program takes it from its terminal's settings: whether they turn CR into
    byte 10, the flag ICRNL of termios. In raw mode they don't."""

    # hedrugal.h: newline member
    CTRL_J = numbered(0, "Ctrl-J. The Enter key sends the byte 13.")
    ENTER = numbered(
        1,
        "The Enter key: the terminal's settings turn CR into it (ICRNL), or the input is no "
        "terminal.",
    )
    # hedrugal.h: end


@dataclass(frozen=True)
class Reading:
    """How a Parser reads: by which grammar, whether X10 mouse reports are among what it reads, how
    many questions for the cursor's position are open, and what the terminal's settings say. See
    `Parser.reading`."""

    dialect: Dialect = Dialect.EXTENDED
    # ESC [M and three bytes are a report. Without it ESC [M is a Csi. A program that asks for the
    # mode 1006 leaves it off.
    x10_mouse: bool = False
    questions: int = 0  # From 0 to 255.
    erase: EraseByte = EraseByte.DELETE
    newline: NewlineByte = NewlineByte.CTRL_J


_dialects = {dialect.value: dialect for dialect in Dialect}
_erases = {byte.value: byte for byte in EraseByte}
_newlines = {byte.value: byte for byte in NewlineByte}


def number_of(kind: Type[Named], it: Named) -> int:
    """The number of a member of an enum, whose type is checked."""
    if not isinstance(it, kind):
        raise TypeError(f"a member of {kind.__name__} is required, not {type(it).__name__}")
    return cast(int, it.value)


def raw_reading(reading: Reading) -> RawReading:
    if not isinstance(reading, Reading):
        raise TypeError(f"a Reading is required, not {type(reading).__name__}")
    dialect = number_of(Dialect, reading.dialect)
    erase, newline = number_of(EraseByte, reading.erase), number_of(NewlineByte, reading.newline)
    questions = operator.index(reading.questions)
    if not 0 <= questions <= 255:
        raise ValueError("questions are a number from 0 to 255")
    return RawReading(dialect, erase, newline, bool(reading.x10_mouse), questions)


def reading_of(raw: RawReading) -> Reading:
    """The reading that has these numbers."""
    return Reading(
        _dialects.get(raw.dialect) or fault(),
        raw.x10_mouse,
        raw.questions,
        _erases.get(raw.erase) or fault(),
        _newlines.get(raw.newline) or fault(),
    )
