r"""What a terminal's replies say, in values: its attributes, the state of a mode, a colour, its
name and version, its size, its colour scheme, and what is in the clipboard.

    >>> from hedrugal import Parser
    >>> with Parser() as parser:
    ...     for event in parser.feed(b"\x1b[?62;4c\x1b[8;24;80t\x1bP>|foot(1.13.1)\x1b\\"):
    ...         print(reply(event))
    DeviceAttributesReply(report=DeviceAttributes.PRIMARY, numbers=(62, 4))
    WindowSizeReply(rows=24, columns=80)
    VersionReply(text='foot(1.13.1)')

"Replies" of docs/EXTENDED.md says which bytes are a reply."""
from __future__ import annotations

import ctypes
from dataclasses import dataclass
from typing import Any, Optional, Tuple, Union

from ._calls import (
    REPLY_CLIPBOARD,
    REPLY_COLOUR,
    REPLY_COLOUR_SCHEME,
    REPLY_DEVICE_ATTRIBUTES,
    REPLY_MODE,
    REPLY_VERSION,
    REPLY_WINDOW_SIZE,
    RawReply,
)
from ._enums import Named, numbered
from ._library import borrowed, fault, is_ok, library
from .events import KINDS, Csi, Dcs, Event, Osc

__all__ = [
    "ClipboardReply",
    "Colour",
    "ColourName",
    "ColourReply",
    "ColourScheme",
    "ColourSchemeReply",
    "DeviceAttributes",
    "DeviceAttributesReply",
    "ModeReply",
    "ModeState",
    "Reply",
    "reply",
    "VersionReply",
    "WindowSizeReply",
]


class DeviceAttributes(Named):
    """Which report of a terminal's attributes it is."""

    # hedrugal.h: device_attributes member
    PRIMARY = numbered(
        1,
        "DA1: the class of the terminal, such as 62 for a VT220, and what it can do, such as 4 "
        "for sixels.",
    )
    SECONDARY = numbered(2, "DA2: the type of the terminal, its version, and 0.")
    TERTIARY = numbered(3, "DA3: the bytes of the unit's number, mostly four.")
    # hedrugal.h: end


class ModeState(Named):
    """The state of a mode."""

    # hedrugal.h: mode_state member
    NOT_RECOGNIZED = numbered(0, "The terminal doesn't know the mode.")
    SET = numbered(1, "The mode is on.")
    RESET = numbered(2, "The mode is off.")
    PERMANENTLY_SET = numbered(3, "The mode is on and can't be switched off.")
    PERMANENTLY_RESET = numbered(4, "The mode is off and can't be switched on.")
    # hedrugal.h: end


class ColourName(Named):
    """Which colour a reply is about."""

    # hedrugal.h: colour_name member
    PALETTE = numbered(4, "A colour of the palette, by its index.")
    FOREGROUND = numbered(10, "The colour of text.")
    BACKGROUND = numbered(11, "The colour behind text.")
    CURSOR = numbered(12, "The colour of the cursor.")
    # hedrugal.h: end


class ColourScheme(Named):
    """The colour scheme that the terminal's user prefers."""

    # hedrugal.h: colour_scheme member
    DARK = numbered(1, "Bright text on a dark background.")
    LIGHT = numbered(2, "Dark text on a bright background.")
    # hedrugal.h: end


@dataclass(frozen=True)
class DeviceAttributesReply:
    """The terminal's attributes (DA1, DA2, DA3), asked for by ESC [ c, ESC [ > c and ESC [ = c."""

    report: DeviceAttributes
    numbers: Tuple[int, ...]


@dataclass(frozen=True)
class ModeReply:
    """The state of a mode (DECRPM), asked for by ESC [ ? mode $ p, or without the question mark for
    an ANSI mode, which is not private."""

    mode: int
    is_private: bool
    state: ModeState


@dataclass(frozen=True)
class Colour:
    """A colour. Each part is from 0 to 65535, however many digits the terminal wrote."""

    red: int
    green: int
    blue: int


@dataclass(frozen=True)
class ColourReply:
    """A colour (OSC 4, 10, 11 and 12). The index is that of a colour of the palette."""

    name: ColourName
    colour: Colour
    index: Optional[int] = None


@dataclass(frozen=True)
class VersionReply:
    """The terminal's name and version (XTVERSION), asked for by ESC [ > q. What isn't UTF-8 is
    U+FFFD."""

    text: str


@dataclass(frozen=True)
class WindowSizeReply:
    """The size of the window in characters, asked for by ESC [ 18 t."""

    rows: int
    columns: int


@dataclass(frozen=True)
class ColourSchemeReply:
    """The preferred colour scheme, asked for by ESC [ ? 996 n or reported with mode 2031."""

    scheme: ColourScheme


@dataclass(frozen=True)
class ClipboardReply:
    """What is in the clipboard or in a selection (OSC 52). The selection is one of c, p, q, s and 0
    to 7, or None if the terminal left it out."""

    selection: Optional[str]
    data: bytes


Reply = Union[
    DeviceAttributesReply,
    ModeReply,
    ColourReply,
    VersionReply,
    WindowSizeReply,
    ColourSchemeReply,
    ClipboardReply,
]


def _reply(raw: RawReply, numbers: Any, out: bytearray) -> Reply:
    if raw.kind == REPLY_DEVICE_ATTRIBUTES:
        return DeviceAttributesReply(DeviceAttributes(raw.report), tuple(numbers[: raw.len]))
    if raw.kind == REPLY_MODE:
        return ModeReply(raw.mode, raw.is_private, ModeState(raw.state))
    if raw.kind == REPLY_COLOUR:
        name = ColourName(raw.name)
        index = raw.index if name is ColourName.PALETTE else None
        return ColourReply(name, Colour(raw.red, raw.green, raw.blue), index)
    if raw.kind == REPLY_VERSION:
        return VersionReply(out[: raw.len].decode("utf-8", "replace"))
    if raw.kind == REPLY_WINDOW_SIZE:
        return WindowSizeReply(raw.rows, raw.columns)
    if raw.kind == REPLY_COLOUR_SCHEME:
        return ColourSchemeReply(ColourScheme(raw.scheme))
    if raw.kind == REPLY_CLIPBOARD:
        selection = chr(raw.selection) if raw.selection else None
        return ClipboardReply(selection, bytes(out[: raw.len]))
    fault()


def reply(event: Event) -> Optional[Reply]:
    r"""Returns what a terminal's reply says, if the event is one: a Csi, an Osc or a Dcs. Returns
    None for any other event.

        >>> from hedrugal import Parser
        >>> with Parser() as parser:
        ...     events = parser.feed(b"\x1b[?2004;1$y\x1b]52;c;Y2xpcA==\x07q")
        >>> for event in events:
        ...     print(reply(event))
        ModeReply(mode=2004, is_private=True, state=ModeState.SET)
        ClipboardReply(selection='c', data=b'clip')
        None

    The position of the cursor, a new size and the flags of Kitty's keyboard protocol are events of
    their own. Raises MemoryError if memory is refused."""
    if not isinstance(event, (Csi, Osc, Dcs)):
        return None
    data, length = borrowed(event.data)
    # There are never more numbers or bytes than bytes of the event.
    out = bytearray(length)
    numbers = (ctypes.c_uint32 * length)()
    raw = RawReply()
    place, size = borrowed(out)
    answer = library.hed_read_reply(
        KINDS[type(event)], data, length, raw, numbers, length, place, size
    )
    return _reply(raw, numbers, out) if is_ok(answer, "reply") else None
