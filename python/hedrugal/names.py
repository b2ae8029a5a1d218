"""Presses and chords: what keys are called, whatever the terminal sends for them."""
from __future__ import annotations

import ctypes
import functools
from dataclasses import dataclass
from typing import Any, Callable, Iterable, Iterator, Optional, Tuple, Union

from . import _calls as numbers
from ._calls import CHORD_MOST, RawPress
from ._enums import Named, numbered
from ._library import borrowed, borrowed_text, fault, is_ok, library
from .events import KeyReport, raw_report
from .keys import KittyModifiers, ReportedKey, key_of, numbers_of_reported

__all__ = ["Chord", "KeyNameError", "KeyNameErrorKind", "KeyPress", "typed_text"]

# More bytes than the name of a press has.
_NAME_ROOM = 64


@dataclass(frozen=True)
class KeyPress:
    r"""A key that was pressed, and the modifiers held with it: one name for the key, whatever mode
    the terminal is in and whichever protocol it speaks. A program looks up by it what a key does.

        >>> with Parser() as parser:
        ...     events = parser.feed(b"\x1b[65;5u\x1b[97;70u\x1bOA")
        >>> for event in events:
        ...     press = KeyPress.of_event(event)
        ...     print(press, repr(press.key), press.held)
        ctrl+shift+a 'a' KittyModifiers.SHIFT|CTRL
        ctrl+shift+a 'a' KittyModifiers.SHIFT|CTRL
        up KeyCode.UP_ARROW KittyModifiers.NONE

    It is printed by its name, which `Chord.read` reads.

    Letters, digits and signs are the characters that they type: Shift with a is A. Where CTRL,
    SUPER, HYPER or META is held too, a letter that has a capital keeps SHIFT. So does a digit, or
    any other character, of which the terminal doesn't tell what it types with Shift. A sign such as
    ! never has it. A control character is its key, or a character with CTRL: U+0008 is ctrl+h, and
    U+000A ctrl+j. U+007F is ctrl+backspace. The keypad and the arrows in application mode are the
    keys of the main block, and the locks are never held.

    A program that turns Kitty's keyboard protocol on should ask for DISAMBIGUATE_ESCAPE_CODES and
    REPORT_ALTERNATE_KEYS, and with REPORT_ALL_KEYS_AS_ESCAPE_CODES for REPORT_ASSOCIATED_TEXT too.
    Otherwise Ctrl, Shift and 1 is 1 with CTRL and SHIFT, and not an exclamation mark."""

    key: ReportedKey
    held: KittyModifiers = KittyModifiers.NONE

    @staticmethod
    def of_event(event: object) -> Optional[KeyPress]:
        """Returns the press of a KeyReport, as `of_report` does, and None for any other event."""
        return KeyPress.of_report(event) if isinstance(event, KeyReport) else None

    @staticmethod
    def of_report(report: KeyReport) -> Optional[KeyPress]:
        """Returns the press of a key report. It is None for a release, for a modifier or a lock by
        itself, and for a report that types several characters: typed_text returns these. A repeat
        counts as a press."""
        return _press_typing(report, report.text)

    @staticmethod
    def second(report: KeyReport) -> Optional[KeyPress]:
        r"""Returns a second press of a key report, for a program in which the first one leads
        nowhere.

            >>> KeyPress.second(KeyReport("\u0441", KittyModifiers.CTRL, base="c"))
            KeyPress(key='c', held=KittyModifiers.CTRL)

        With ALT, CTRL, SUPER, HYPER or META, a character that isn't of ASCII has that of the key
        at the same place of a PC-101 keyboard, if the terminal told it as base. A digit or a sign
        whose character with Shift was told has the press with SHIFT: ctrl+! is tried as
        ctrl+shift+1. U+0008 is tried as ctrl+backspace, and U+000A as enter.

        Look at the press first: where the report types its text, this says nothing of it."""
        return _written(functools.partial(library.hed_event_second, raw_report(report)))

    @property
    def text(self) -> Optional[str]:
        """The character that the press types, or None. Nothing is then held, or SHIFT with the
        space alone. A program inserts it if the press does nothing else. Enter and Tab type
        none."""
        room = bytearray(4)
        pointer, size = borrowed(room)
        length = library.hed_press_text(raw_press(self), pointer, size)
        return room[:length].decode("utf-8") or None

    def __str__(self) -> str:
        """The name of the press, as ctrl+shift+up. A KeyPress that was made by hand may be the
        press of no key: its text is its repr.

        Raises MemoryError if memory is refused."""
        name = printed((self,))
        return repr(self) if name is None else name


class KeyNameErrorKind(Named):
    """What is wrong with a text that should name keys. Its text says so in words."""

    CONTROL_CHARACTER = numbered(
        numbers.STATUS_NAME_CONTROL_CHARACTER, "A control character but the tab is in the text."
    )
    MODIFIER_TWICE = numbered(
        numbers.STATUS_NAME_MODIFIER_TWICE, "A modifier is there twice, as in M-A-x."
    )
    UNKNOWN_MODIFIER = numbered(
        numbers.STATUS_NAME_UNKNOWN_MODIFIER, "A word before + or - is no modifier."
    )
    MISSING_KEY = numbered(
        numbers.STATUS_NAME_MISSING_KEY, "No key stands behind the modifiers, as in ctrl+."
    )
    BAD_NUMBER = numbered(
        numbers.STATUS_NAME_BAD_NUMBER, "A number names no key, as in f256 and f01."
    )
    UNKNOWN_NAME = numbered(numbers.STATUS_NAME_UNKNOWN_NAME, "No key has this name.")
    AMBIGUOUS = numbered(
        numbers.STATUS_NAME_AMBIGUOUS,
        "DEL in capitals is Backspace to Emacs, and Delete to others: write backspace or delete.",
    )
    NOT_A_KEY = numbered(
        numbers.STATUS_NAME_NOT_A_KEY, "The key makes no press by itself, as a modifier or a lock."
    )
    SHIFTED_CHARACTER = numbered(
        numbers.STATUS_NAME_SHIFTED_CHARACTER,
        "Shift with a sign that shows it, as in shift+!: write the sign alone.",
    )
    TOO_LONG = numbered(numbers.STATUS_NAME_TOO_LONG, "The text has more than 32 keys.")
    EMPTY = numbered(numbers.STATUS_NAME_EMPTY, "No key is in the text.")
    BAD_TEXT = numbered(
        numbers.STATUS_BAD_TEXT, "The text has a surrogate, which UTF-8 can't have."
    )

    def __str__(self) -> str:
        return _faults[self]


class KeyNameError(ValueError):
    """A text names no keys.

    kind says what is wrong, a KeyNameErrorKind. at is where the wrong part starts: that many bytes
    of the text's UTF-8 come before it."""

    def __init__(self, kind: KeyNameErrorKind, at: int) -> None:
        super().__init__(kind, at)
        self.kind = kind
        self.at = at

    def __str__(self) -> str:
        return f"{self.kind}, at byte {self.at}"


@dataclass(frozen=True)
class Chord:
    r"""A list of 1 to 32 presses, to which a program binds a command, as Ctrl-X and then Ctrl-S.

        >>> save = Chord.read("C-x C-s")
        >>> print(save)
        ctrl+x ctrl+s
        >>> save == Chord.read("<C-x> Ctrl-S")
        True
        >>> [press.key for press in save]
        ['x', 's']

    It is made of anything that gives its presses, and may be a key of a dict. Raises ValueError for
    no presses, for more than 32, and for a KeyPress that was made by hand and is the press of no
    key."""

    presses: Tuple[KeyPress, ...]

    def __init__(self, presses: Iterable[KeyPress]) -> None:
        object.__setattr__(self, "presses", tuple(presses))
        if not all(isinstance(press, KeyPress) for press in self.presses):
            raise TypeError("a Chord has KeyPresses")
        if not 1 <= len(self.presses) <= CHORD_MOST:
            raise ValueError(f"a Chord has 1 to {CHORD_MOST} presses, not {len(self.presses)}")
        for press in self.presses:
            if KeyPress.of_report(KeyReport(press.key, press.held)) != press:
                raise ValueError(f"{press!r} is the press of no key")

    @staticmethod
    def read(text: str) -> Chord:
        """Reads the name of a chord: its keys, parted by spaces or tabs.

            >>> Chord.read("shift+!")
            Traceback (most recent call last):
                ...
            hedrugal.names.KeyNameError: shift with a sign that shows it, at byte 6

        Modifiers stand before a key as words (ctrl+x, Ctrl-Shift-Up), or as the letters of Emacs
        (C-x, C-M-<f5>) or Vim (<C-x>). Words are read in any case. The page of the crate
        termwiz_bindings of the repository has all words and rules.

        Raises KeyNameError, which is a ValueError, if the text names no keys."""
        name, length = borrowed_text(text)
        keys = (RawPress * CHORD_MOST)()
        count, at = ctypes.c_size_t(), ctypes.c_size_t()
        answer = library.hed_key_read(name, length, keys, CHORD_MOST, count, at)
        if answer == numbers.STATUS_OK:
            return Chord(map(press_of, keys[: count.value]))
        raise KeyNameError(name_error_kinds.get(answer) or fault(), at.value)

    def __str__(self) -> str:
        """The name of the chord, as ctrl+x ctrl+s. `Chord.read` reads the same chord from it.

        Raises MemoryError if memory is refused."""
        return printed(self.presses) or fault()

    def __iter__(self) -> Iterator[KeyPress]:
        return iter(self.presses)

    def __len__(self) -> int:
        return len(self.presses)


# What names a chord.
Keys = Union[Chord, str]


def typed_text(report: KeyReport) -> str:
    """Returns the text of a report that has no press because it types several characters, as a
    compose key or an input method may. It is to be inserted as a paste is. The text of any other
    report is empty here.

        >>> typed_text(KeyReport("\\0", text="fi"))
        'fi'"""
    # With a text of one character such a report has a press. A release has none, and neither has a
    # modifier.
    types = KeyPress.of_report(report) is None and _press_typing(report, "a") is not None
    has_control = any(it < " " or "\x7f" <= it <= "\x9f" for it in report.text)
    return report.text if types and not has_control else ""


name_error_kinds = {kind.value: kind for kind in KeyNameErrorKind}
# What is wrong, in words.
_faults = {
    KeyNameErrorKind.CONTROL_CHARACTER: "a control character is in the text",
    KeyNameErrorKind.MODIFIER_TWICE: "a modifier is there twice",
    KeyNameErrorKind.UNKNOWN_MODIFIER: "no modifier has this name",
    KeyNameErrorKind.MISSING_KEY: "no key is behind the modifiers",
    KeyNameErrorKind.BAD_NUMBER: "no key has this number",
    KeyNameErrorKind.UNKNOWN_NAME: "no key has this name",
    KeyNameErrorKind.AMBIGUOUS: "DEL is either backspace or delete",
    KeyNameErrorKind.NOT_A_KEY: "the key makes no press by itself",
    KeyNameErrorKind.SHIFTED_CHARACTER: "shift with a sign that shows it",
    KeyNameErrorKind.TOO_LONG: "there are too many keys",
    KeyNameErrorKind.EMPTY: "there is no key",
    KeyNameErrorKind.BAD_TEXT: "a surrogate is in the text",
}


def _written(call: Callable[[RawPress], int]) -> Optional[KeyPress]:
    """The press that a call wrote, if it did."""
    press = RawPress()
    return press_of(press) if call(press) == numbers.STATUS_OK else None


def press_of(press: RawPress) -> KeyPress:
    """The press that has these numbers."""
    key = key_of(press.key, press.detail) if press.key else press.detail
    return KeyPress(key, KittyModifiers(press.held))


def raw_press(press: KeyPress) -> RawPress:
    """The numbers of a press."""
    if not isinstance(press.held, KittyModifiers):
        raise TypeError("a KeyPress has KittyModifiers")
    number, detail = numbers_of_reported(press.key)
    return RawPress(number, press.held.value, detail)


def raw_chord(keys: Keys) -> Any:
    """The numbers of a chord, or of the chord that a text names."""
    if isinstance(keys, str):
        keys = Chord.read(keys)
    if not isinstance(keys, Chord):
        raise TypeError(f"a Chord or a str is required, not {type(keys).__name__}")
    return (RawPress * len(keys))(*map(raw_press, keys))


def one_press(key: Union[KeyPress, str]) -> KeyPress:
    """A press, or the only one that a text names."""
    if isinstance(key, KeyPress):
        return key
    if not isinstance(key, str):
        raise TypeError(f"a KeyPress or a str is required, not {type(key).__name__}")
    presses = Chord.read(key).presses
    if len(presses) > 1:
        raise ValueError(f"{key!r} names {len(presses)} keys, and one is required")
    return presses[0]


def printed(presses: Tuple[KeyPress, ...]) -> Optional[str]:
    """The name of presses. There is none if one of them is the press of no key."""
    count = len(presses)
    keys = (RawPress * count)(*map(raw_press, presses))
    room, length = bytearray(_NAME_ROOM * count), ctypes.c_size_t()
    pointer, size = borrowed(room)
    answer = library.hed_key_print(keys, count, pointer, size, length)
    if answer == numbers.STATUS_BAD_NUMBER:
        return None
    return room[: length.value].decode("utf-8") if is_ok(answer, "name") else fault()


def _press_typing(report: KeyReport, typed: str) -> Optional[KeyPress]:
    """The press of a report with this text in place of its own."""
    text, length = borrowed_text(typed)
    raw = raw_report(report)
    return _written(functools.partial(library.hed_event_press, raw, text, length))
