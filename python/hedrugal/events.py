"""The events of a parser, and the structs by which the library has them."""
from __future__ import annotations

import ctypes
from dataclasses import dataclass, fields
from typing import Any, Dict, NamedTuple, Optional, Union

from . import _calls as numbers
from ._calls import NO_CODE, RawEvent
from ._enums import Flags, Named, numbered
from ._library import borrowed_text, library
from .keys import (
    HELD,
    EncodeError,
    KittyModifiers,
    Modifiers,
    ReportedKey,
    bytes_sent,
    kitty_bits,
    numbers_of_key,
    numbers_of_reported,
    whole,
)

__all__ = [
    "Apc",
    "Csi",
    "CursorPosition",
    "Dcs",
    "Event",
    "FocusGained",
    "FocusLost",
    "KeyboardFlags",
    "KeyEventKind",
    "KeyReport",
    "KittyKeyboardFlags",
    "MouseButtons",
    "MouseKind",
    "MouseReport",
    "Osc",
    "Paste",
    "PastePart",
    "Resized",
    "Size",
    "StringCut",
    "StringKind",
    "StringPart",
]


class MouseButtons(Flags):
    """A set of buttons and wheels of the mouse."""

    # hedrugal.h: button member
    NONE = numbered(0, "No button and no wheel.")
    LEFT = numbered(2, "The left button.")
    RIGHT = numbered(4, "The right button.")
    MIDDLE = numbered(8, "The middle button.")
    VERT_WHEEL = numbered(
        16,
        "The wheel that scrolls up and down. It was turned up if WHEEL_POSITIVE is set too, and "
        "down if not.",
    )
    HORZ_WHEEL = numbered(
        32,
        "The wheel that scrolls to the sides. It was turned left if WHEEL_POSITIVE is set too, "
        "and right if not.",
    )
    WHEEL_POSITIVE = numbered(64, "Set with a wheel that was turned up or left.")
    # hedrugal.h: end


class KittyKeyboardFlags(Flags):
    """A set of flags of kitty's keyboard protocol."""

    # hedrugal.h: kitty_flag member
    NONE = numbered(0, "Nothing is asked for.")
    DISAMBIGUATE_ESCAPE_CODES = numbered(
        1,
        "Keys whose plain text is ambiguous, as that of Escape, are reported as escape codes.",
    )
    REPORT_EVENT_TYPES = numbered(
        2,
        "Repeats and releases of a key are reported, and not presses alone.",
    )
    REPORT_ALTERNATE_KEYS = numbered(
        4,
        "A key is reported with its shifted code and with its code on the standard layout.",
    )
    REPORT_ALL_KEYS_AS_ESCAPE_CODES = numbered(
        8,
        "Keys that make text are reported as escape codes too.",
    )
    REPORT_ASSOCIATED_TEXT = numbered(16, "A key that makes text is reported with that text.")
    # hedrugal.h: end


class KeyEventKind(Named):
    """What happened to a key."""

    # hedrugal.h: key_event_kind member
    PRESS = numbered(1, "It was pressed.")
    REPEAT = numbered(2, "It was held down so long that it repeats.")
    RELEASE = numbered(3, "It was released.")
    # hedrugal.h: end


@dataclass(frozen=True)
class KeyReport:
    """A key was pressed, held down or released. It is the event of every key, typed or reported.

    shifted is the character that the key types with Shift, base the one that the key at this place
    types on the standard layout (PC-101). Each is None if the terminal didn't report it. text is
    the text that the key types, if the terminal reported it, and else empty."""

    key: ReportedKey
    modifiers: KittyModifiers = KittyModifiers.NONE
    kind: KeyEventKind = KeyEventKind.PRESS
    shifted: Optional[str] = None
    base: Optional[str] = None
    text: str = ""

    def __repr__(self) -> str:
        """Says the key, and of the rest what differs from a press with nothing else told."""
        told = [f"key={self.key!r}"]
        for it in fields(self)[1:]:
            value = getattr(self, it.name)
            if value != it.default:
                told.append(f"{it.name}={value!r}")
        return f"KeyReport({', '.join(told)})"

    def encode(self, flags: KittyKeyboardFlags) -> bytes:
        r"""Returns the bytes, in UTF-8, that a terminal sends for the key, if the program asked for
        these flags of Kitty's keyboard protocol: the other way from a Parser. A terminal
        or a multiplexer calls it.

            >>> released = KeyReport("a", KittyModifiers.CTRL, KeyEventKind.RELEASE)
            >>> released.encode(KittyKeyboardFlags.REPORT_EVENT_TYPES)
            b'\x1b[97;5:3u'
            >>> released.encode(KittyKeyboardFlags.NONE)
            b''

        There are none for a key that isn't sent. Of the report only what a flag asks for is sent,
        and a text with control characters counts as none. The rules are those of Kitty's page
        "Comprehensive keyboard handling in terminals",
        https://sw.kovidgoyal.net/kitty/keyboard-protocol/.

        Raises EncodeError, which is a ValueError, if the key's report would be sent and the
        protocol has no number for the key, for a text too long for a sequence of 256 bytes, and for
        what names nothing, as encode does. Raises MemoryError if memory is refused."""
        if not isinstance(flags, KittyKeyboardFlags):
            raise TypeError(f"KittyKeyboardFlags are required, not {type(flags).__name__}")
        report, (text, length) = raw_report(self), borrowed_text(self.text)

        def call(out: Any, size: int, sent: ctypes.c_size_t) -> int:
            bits = flags.value
            return int(library.hed_encode_kitty(report, text, length, bits, out, size, sent))

        faults = {
            numbers.STATUS_REFUSED_KEY: f"{self.key!r} has no bytes under these flags",
            numbers.STATUS_TOO_LONG: "the text is too long: a sequence has at most 256 bytes",
        }
        return bytes_sent(call, faults)


class MouseKind(Named):
    """What happened to the mouse."""

    # hedrugal.h: mouse_kind member
    PRESS = numbered(1, "A button was pressed.")
    RELEASE = numbered(2, "A button was released. Only SGR reports (mode 1006) tell which.")
    DRAG = numbered(3, "The mouse was moved while a button was down.")
    MOVE = numbered(4, "The mouse was moved, and no button is down.")
    WHEEL = numbered(5, "A wheel was turned.")
    # hedrugal.h: end


@dataclass(frozen=True)
class MouseReport:
    """The mouse was moved, one of its buttons was pressed or released, or a wheel was turned.

    x is the column and y the row, as the terminal sent them: the cell at the top left is 1, 1.
    Of the modifiers SHIFT, ALT and CTRL are reported. `buttons` is the button that is down, or the
    wheel that was turned. It is empty after a release, for a move, and for a side button.

    `button` is the number of the button that the report names, or None. 1 to 3 are the left, the
    middle and the right button, 4 to 7 the wheel up, down, left and right, and 8 to 11 the side
    buttons, of which 8 leads back and 9 leads on."""

    x: int
    y: int
    modifiers: Modifiers
    buttons: MouseButtons
    kind: MouseKind
    button: Optional[int] = None


@dataclass(frozen=True)
class Paste:
    """Text was pasted, in bracketed paste mode. Bytes that aren't UTF-8 are replaced by U+FFFD.
    After a PastePart it is the rest of the text, maybe none."""

    text: str


@dataclass(frozen=True)
class PastePart:
    """Text of a paste whose end is still to come: see `Parser.parts`. The next PastePart goes on
    with it, and the Paste has the rest."""

    text: str


@dataclass(frozen=True)
class FocusGained:
    """The terminal's window gained the focus (mode 1004)."""


@dataclass(frozen=True)
class FocusLost:
    """The terminal's window lost the focus."""


@dataclass(frozen=True)
class CursorPosition:
    """The reply to a question for the cursor's position. The first row and the first column are
    1."""

    row: int
    column: int


class Size(NamedTuple):
    """The size of a terminal, in characters and in pixels. What isn't known is 0."""

    columns: int
    rows: int
    width: int
    height: int


@dataclass(frozen=True)
class Resized:
    """The terminal has a new size (mode 2048)."""

    size: Size


@dataclass(frozen=True)
class KeyboardFlags:
    """The reply to a question for the flags of Kitty's keyboard protocol.

    unnamed has the bits of the reply that are no flag of KittyKeyboardFlags, as a later version of
    the protocol may send them."""

    flags: KittyKeyboardFlags
    unnamed: int = 0


@dataclass(frozen=True)
class Csi:
    """Any other control sequence: its bytes after ESC [."""

    data: bytes


@dataclass(frozen=True)
class Osc:
    """An operating system command, such as the reply to a question for a colour: its bytes after
    ESC ], without its end."""

    data: bytes


@dataclass(frozen=True)
class Dcs:
    """A device control string, such as the reply to a question for the terminal's version: its
    bytes after ESC P, without its end."""

    data: bytes


@dataclass(frozen=True)
class Apc:
    """An application program command, such as a reply of Kitty's graphics protocol: its bytes after
    ESC _, without its end."""

    data: bytes


class StringKind(Named):
    """The kind of a string, by what introduces it."""

    OSC = numbered(numbers.KIND_OSC, "An operating system command, after ESC ].")
    DCS = numbered(numbers.KIND_DCS, "A device control string, after ESC P.")
    APC = numbered(numbers.KIND_APC, "An application program command, after ESC _.")


@dataclass(frozen=True)
class StringPart:
    """The first bytes of a long string whose end is still to come: 65533 bytes after its
    introducer. The next such event, or the string's own, goes on with it. Its data begin with the
    bytes that opened the string once more, such as 52;."""

    kind: StringKind
    data: bytes


@dataclass(frozen=True)
class StringCut:
    """A string that was cut off: another sequence followed it, or nothing for too long. The data
    are its bytes after its introducer."""

    kind: StringKind
    data: bytes


Event = Union[
    KeyReport,
    MouseReport,
    Paste,
    PastePart,
    FocusGained,
    FocusLost,
    CursorPosition,
    Resized,
    KeyboardFlags,
    Csi,
    Osc,
    Dcs,
    Apc,
    StringPart,
    StringCut,
]

# The kinds of events, by which the library tells them apart.
KINDS: Dict[type, int] = {
    KeyReport: numbers.KIND_KEY,
    MouseReport: numbers.KIND_MOUSE,
    Paste: numbers.KIND_PASTE,
    PastePart: numbers.KIND_PASTE_PART,
    FocusGained: numbers.KIND_FOCUS_GAINED,
    FocusLost: numbers.KIND_FOCUS_LOST,
    CursorPosition: numbers.KIND_CURSOR_POSITION,
    Resized: numbers.KIND_RESIZED,
    KeyboardFlags: numbers.KIND_KEYBOARD_FLAGS,
    Csi: numbers.KIND_CSI,
    Osc: numbers.KIND_OSC,
    Dcs: numbers.KIND_DCS,
    Apc: numbers.KIND_APC,
    StringPart: numbers.KIND_STRING_PART,
    StringCut: numbers.KIND_STRING_CUT,
}


def _code(character: Optional[str]) -> int:
    if character is None:
        return NO_CODE
    if not isinstance(character, str):
        raise TypeError(f"a character or None is required, not {type(character).__name__}")
    return numbers_of_key(character)[1]


def raw_report(report: KeyReport) -> RawEvent:
    """The numbers of a report."""
    modifiers, kind = report.modifiers, report.kind
    if not isinstance(modifiers, KittyModifiers) or not isinstance(kind, KeyEventKind):
        raise TypeError("a KeyReport has KittyModifiers and a KeyEventKind")
    number, detail = numbers_of_reported(report.key)
    return RawEvent(
        kind=numbers.KIND_KEY,
        modifiers=modifiers.value,
        key_event_kind=kind.value,
        key=number,
        detail=detail,
        shifted=_code(report.shifted),
        base=_code(report.base),
    )


def _raw_mouse(report: MouseReport) -> RawEvent:
    """The numbers of a mouse report."""
    modifiers = report.modifiers
    if not isinstance(modifiers, Modifiers) or not isinstance(report.buttons, MouseButtons):
        raise TypeError("a MouseReport has Modifiers and MouseButtons")
    if not isinstance(report.kind, MouseKind):
        raise TypeError("a MouseReport has a MouseKind")
    if modifiers & ~HELD:
        raise EncodeError("no bytes are read as this MouseReport")
    x, y = (whole(place, 0, 65535) for place in (report.x, report.y))
    return RawEvent(
        kind=numbers.KIND_MOUSE,
        modifiers=kitty_bits(modifiers),
        mouse_kind=report.kind.value,
        # The number 0 says that there is none, and names no button.
        button=0 if report.button is None else whole(report.button, 1, 255),
        buttons=report.buttons.value,
        x=x,
        y=y,
    )


def raw_event(event: Event) -> RawEvent:
    """The numbers of an event. Its bytes are passed beside it."""
    if isinstance(event, KeyReport):
        return raw_report(event)
    if isinstance(event, MouseReport):
        return _raw_mouse(event)
    if type(event) not in KINDS:
        raise TypeError(f"an event is required, not {type(event).__name__}")
    raw = RawEvent(kind=KINDS[type(event)])
    if isinstance(event, CursorPosition):
        raw.row, raw.column = (whole(n, 0, 65535) for n in (event.row, event.column))
    elif isinstance(event, Resized):
        raw.columns, raw.rows, raw.width, raw.height = (whole(n, 0, 65535) for n in event.size)
    elif isinstance(event, KeyboardFlags):
        raw.flags = whole(event.flags.value | event.unnamed, 0, 255)
    elif isinstance(event, (StringPart, StringCut)):
        if not isinstance(event.kind, StringKind):
            raise TypeError(f"a {type(event).__name__} has a StringKind")
        raw.string_kind = event.kind.value
    return raw


def bytes_of(event: Event) -> bytes:
    """The bytes that an event brings."""
    if isinstance(event, (Paste, PastePart, KeyReport)):
        return event.text.encode("utf-8", "surrogatepass")
    if isinstance(event, (Csi, Osc, Dcs, Apc, StringPart, StringCut)):
        return event.data
    return b""
