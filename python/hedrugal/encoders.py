r"""What a terminal sends: for a key, for a pasted text, for the mouse, and as a reply.

    >>> from hedrugal import KeyCode, KeyReport, KittyModifiers
    >>> encode(KeyCode.UP_ARROW, Modifiers.CTRL)
    b'\x1b[1;5A'
    >>> encode_paste(b"two\nlines", bracketed=True)
    b'\x1b[200~two\rlines\x1b[201~'
    >>> encode_event(KeyReport(KeyCode.UP_ARROW, KittyModifiers.CTRL), Parser())
    b'\x1b[1;5A'"""
from __future__ import annotations

import ctypes
from dataclasses import dataclass
from typing import Any, Optional, Sequence

from ._calls import (
    STATUS_BAD_NUMBER,
    STATUS_NO_TEXT,
    STATUS_REFUSED_KEY,
    STATUS_TOO_FAR,
    STATUS_TOO_LONG,
    RawModes,
    RawSentMouse,
)
from ._enums import Named, numbered
from ._library import Bytes, borrowed, borrowed_text, library
from .events import Event, KittyKeyboardFlags, PastePart, bytes_of, raw_event
from .keys import (
    EncodeError,
    Key,
    Modifiers,
    bytes_sent,
    kitty_bits,
    numbers_of_key,
    whole,
)
from .names import KeyNameError, name_error_kinds
from .parser import Parser
from .replies import ColourScheme

__all__ = [
    "encode",
    "encode_colour_scheme",
    "encode_cursor_position",
    "encode_device_attributes",
    "encode_event",
    "encode_paste",
    "KeyboardEncoding",
    "KeyCodeEncodeModes",
    "MouseButton",
    "MouseEncoding",
    "MouseTracking",
    "paste_lines",
    "send_names",
    "SentMouse",
]


class KeyboardEncoding(Named):
    """How a terminal encodes the keys that it sends."""

    # hedrugal.h: encoding member
    XTERM = numbered(0, "The characters themselves, and xterm's control sequences.")
    CSI_U = numbered(
        1,
        "The same, but a character with modifiers that it can't show is sent as ESC [ c ; m u "
        "(fixterms).",
    )
    WIN32 = numbered(2, "Records of the Windows console. Keys are encoded as with XTERM.")
    KITTY = numbered(3, "kitty's keyboard protocol. Keys are encoded as with XTERM.")
    # hedrugal.h: end


@dataclass(frozen=True)
class KeyCodeEncodeModes:
    """The modes of a terminal that change the text of a key. Without arguments it is xterm with
    every mode off.

    encoding: how keys are encoded.
    application_cursor_keys: the arrows, Home and End send ESC O in place of ESC [ (DECCKM).
    newline_mode: Enter sends a line feed after the carriage return (LNM).
    modify_other_keys: the level of xterm's modifyOtherKeys, or None if it is off.
    kitty_flags: what the program asked of kitty's protocol; read with its encoding alone.
    """

    encoding: KeyboardEncoding = KeyboardEncoding.XTERM
    application_cursor_keys: bool = False
    newline_mode: bool = False
    modify_other_keys: Optional[int] = None
    kitty_flags: KittyKeyboardFlags = KittyKeyboardFlags.NONE


def _raw_modes(modes: KeyCodeEncodeModes) -> RawModes:
    encoding, level, flags = modes.encoding, modes.modify_other_keys, modes.kitty_flags
    if not isinstance(encoding, KeyboardEncoding) or not isinstance(flags, KittyKeyboardFlags):
        raise TypeError("modes have a KeyboardEncoding and KittyKeyboardFlags")
    return RawModes(
        0 if level is None else whole(level, -(2**63), 2**63 - 1),
        encoding.value,
        flags.value,
        bool(modes.application_cursor_keys),
        bool(modes.newline_mode),
        level is not None,
    )


def encode(
    key: Key,
    modifiers: Modifiers = Modifiers.NONE,
    modes: KeyCodeEncodeModes = KeyCodeEncodeModes(),
    is_down: bool = True,
) -> bytes:
    """Returns the bytes, in UTF-8, that a terminal in these modes sends for a key, with the
    modifiers that are held. They are empty for a key that sends nothing, and for every key that is
    up (is_down is False).

    Raises EncodeError, which is a ValueError, for a function key other than F1 to F24 that is down.
    Whether the key is up or down, raises it for a text that isn't one character, a surrogate, or a
    number out of range. Raises MemoryError if memory is refused."""
    number, detail = numbers_of_key(key)
    if not isinstance(modifiers, Modifiers):
        raise TypeError(f"Modifiers are required, not {type(modifiers).__name__}")
    raw_modes = _raw_modes(modes)

    def call(out: Any, size: int, length: ctypes.c_size_t) -> int:
        return int(
            library.hed_encode(
                number, detail, modifiers.value, is_down, raw_modes, out, size, length
            )
        )

    return bytes_sent(call, {STATUS_REFUSED_KEY: f"F{detail} has no text: only F1 to F24 have one"})


def send_names(text: str, modes: KeyCodeEncodeModes = KeyCodeEncodeModes()) -> bytes:
    r"""Returns the bytes, in UTF-8, that a terminal in these modes sends for named keys, one after
    another, so that a program's keys are tested without a terminal. The text is the name of a
    Chord, as Chord.read reads it.

        >>> send_names("ctrl+x ctrl+s up")
        b'\x18\x13\x1b[A'
        >>> flags = KittyKeyboardFlags.DISAMBIGUATE_ESCAPE_CODES
        >>> kitty = KeyCodeEncodeModes(KeyboardEncoding.KITTY, kitty_flags=flags)
        >>> send_names("ctrl+i A", kitty)
        b'\x1b[105;5uA'

    With KeyboardEncoding.KITTY a key is sent as KeyReport.encode does, with the text that it types.
    A capital is its letter with Shift, as a keyboard has it, and a sign is a key of its own.
    Otherwise a key is sent as encode does.

    Many keys send the bytes of another one: ctrl+i those of tab. What follows an ESC may go on with
    it: the bytes of "escape x" are those of alt+x. So pass what comes after escape in a call of its
    own, and feed it later.

    Raises KeyNameError, which is a ValueError, if the text names no keys. Raises EncodeError, which
    is one too, for a key or a modifier that has no bytes in these modes, as hyper+x without Kitty's
    protocol. Its text says at which byte of the text's UTF-8 the name starts. Raises MemoryError if
    memory is refused."""
    name, name_len = borrowed_text(text)
    raw_modes, at = _raw_modes(modes), ctypes.c_size_t()

    def call(out: Any, size: int, length: ctypes.c_size_t) -> int:
        answer = int(library.hed_send_names(name, name_len, raw_modes, out, size, length, at))
        if answer in name_error_kinds:
            raise KeyNameError(name_error_kinds[answer], at.value)
        if answer == STATUS_REFUSED_KEY:
            raise EncodeError(f"the key at byte {at.value} has no bytes in these modes")
        return answer

    return bytes_sent(call, {})


class MouseButton(Named):
    """What happened to which button of the mouse, in a SentMouse."""

    # hedrugal.h: mouse member
    NONE = numbered(0, "The mouse was moved while no button was down.")
    BUTTON1_PRESS = numbered(1, "The left button was pressed.")
    BUTTON2_PRESS = numbered(2, "The middle button was pressed.")
    BUTTON3_PRESS = numbered(3, "The right button was pressed.")
    BUTTON4_PRESS = numbered(4, "A wheel was turned up.")
    BUTTON5_PRESS = numbered(5, "A wheel was turned down.")
    BUTTON6_PRESS = numbered(6, "A wheel was turned left.")
    BUTTON7_PRESS = numbered(7, "A wheel was turned right.")
    BUTTON1_RELEASE = numbered(8, "The left button was released.")
    BUTTON2_RELEASE = numbered(9, "The middle button was released.")
    BUTTON3_RELEASE = numbered(10, "The right button was released.")
    BUTTON4_RELEASE = numbered(11, "The end of turning a wheel up, which few terminals report.")
    BUTTON5_RELEASE = numbered(12, "The end of turning a wheel down, which few terminals report.")
    BUTTON6_RELEASE = numbered(13, "The end of turning a wheel left, which few terminals report.")
    BUTTON7_RELEASE = numbered(14, "The end of turning a wheel right, which few terminals report.")
    BUTTON1_DRAG = numbered(15, "The mouse was moved while the left button was down.")
    BUTTON2_DRAG = numbered(16, "The mouse was moved while the middle button was down.")
    BUTTON3_DRAG = numbered(17, "The mouse was moved while the right button was down.")
    # hedrugal.h: end


class MouseTracking(Named):
    """Which mouse reports a program asked for, by xterm's modes."""

    # hedrugal.h: mouse_tracking member
    X10 = numbered(0, "Mode 9: presses, of wheels too, without modifiers.")
    NORMAL = numbered(1, "Mode 1000: presses and releases.")
    BUTTON = numbered(2, "Mode 1002: also moves while a button is down.")
    ANY = numbered(3, "Mode 1003: also moves while none is.")
    # hedrugal.h: end


class MouseEncoding(Named):
    """How mouse reports are written."""

    # hedrugal.h: mouse_encoding member
    DEFAULT = numbered(0, "ESC [M and three bytes, which can't tell a place above 223.")
    URXVT = numbered(1, "Mode 1015, from urxvt: the same in decimal numbers.")
    SGR = numbered(
        2,
        "Mode 1006, and 1016 with a place in pixels: decimal numbers, and a release tells its "
        "button.",
    )
    # hedrugal.h: end


def encode_paste(data: Bytes, bracketed: bool) -> bytes:
    """Returns the bytes, in UTF-8, that a terminal sends for a pasted text: the other way from a
    Paste. bracketed is whether the program asked for bracketed pastes (mode 2004).

    The text is read as UTF-8, with U+FFFD for each piece that is none. Each end of a line becomes
    CR, which Enter sends, and HT stays. Any other control character becomes a character that does
    nothing. So no text can end its paste.

    Raises MemoryError if memory is refused."""
    text, text_len = borrowed(data)

    def call(out: Any, size: int, length: ctypes.c_size_t) -> int:
        return int(library.hed_encode_paste(text, text_len, bracketed, out, size, length))

    return bytes_sent(call, {})


def paste_lines(text: str) -> str:
    r"""Returns a pasted text with LF in the place of each CR and of each CR LF. Terminals send CR
    for the end of a line in a Paste. Every other character stays.

        >>> paste_lines("one\rtwo\r\nthree")
        'one\ntwo\nthree'

    Of a paste that comes in parts, join the parts first: a CR at the end of a part and an LF at the
    start of the next one become two LF."""
    pasted, pasted_len = borrowed_text(text)
    room = bytearray(pasted_len)
    out, size = borrowed(room)
    length = library.hed_paste_lines(pasted, pasted_len, out, size)
    return room[:length].decode("utf-8", "surrogatepass")


@dataclass(frozen=True)
class SentMouse:
    """A mouse report for a terminal to send. x is the column and y the row: the first is 1."""

    x: int
    y: int
    button: MouseButton
    modifiers: Modifiers = Modifiers.NONE

    def encode(self, tracking: MouseTracking, encoding: MouseEncoding) -> bytes:
        """Returns the bytes that a terminal sends for the report: the other way from a MouseReport.
        There are none for a report that the program doesn't get. Of the modifiers SHIFT, ALT and
        CTRL are sent.

        Raises EncodeError, which is a ValueError, if the program gets the report, and x or y is
        above 223 with MouseEncoding.DEFAULT. Raises MemoryError if memory is refused."""
        if not isinstance(tracking, MouseTracking) or not isinstance(encoding, MouseEncoding):
            raise TypeError("a MouseTracking and a MouseEncoding are required")
        report = _raw_sent_mouse(self)

        def call(out: Any, size: int, length: ctypes.c_size_t) -> int:
            return int(
                library.hed_encode_mouse(report, tracking.value, encoding.value, out, size, length)
            )

        return bytes_sent(call, {STATUS_TOO_FAR: f"the place {self.x}, {self.y} is too far"})


def _raw_sent_mouse(report: SentMouse) -> RawSentMouse:
    if not isinstance(report.button, MouseButton) or not isinstance(report.modifiers, Modifiers):
        raise TypeError("a SentMouse has a MouseButton and Modifiers")
    x, y = (whole(place, 0, 65535) for place in (report.x, report.y))
    return RawSentMouse(x, y, kitty_bits(report.modifiers), report.button.value)


def encode_event(event: Event, parser: Parser) -> bytes:
    """Returns bytes that the parser reads as the event, whatever the terminal sent. A multiplexer
    passes replies on by it, and a test writes what it feeds to a parser. The parser says how they
    are read, by its reading and its sequence table. What it has buffered doesn't matter, and stays.

    With no more to come the bytes are that event alone, and nothing stays buffered. That is so with
    more to come too, but for the Escape key and for Alt with [, O, P, ], _ or Escape, whose bytes
    begin a sequence. A KeyReport is written as what a terminal sends for the key, as its character,
    as a row of the sequence table, or else in the form of Kitty's protocol. A MouseReport is
    written in the form of the mode 1006. Keys as a terminal sends them are those of encode and of
    KeyReport.encode.

    Raises EncodeError, which is a ValueError, if no bytes are read as the event: a StringPart, a
    StringCut, a paste that has ESC [201~ in it, and an event that no parser makes, such as a
    position with a 0. It is also raised for a sequence of more than 256 bytes, and for a string of
    65535 before its end. Raises MemoryError if memory is refused."""
    if not isinstance(parser, Parser):
        raise TypeError(f"a Parser is required, not {type(parser).__name__}")
    raw = raw_event(event)
    text, text_len = borrowed(bytes_of(event))

    def call(out: Any, size: int, length: ctypes.c_size_t) -> int:
        with parser.lock:
            by = parser.handle
            return int(library.hed_encode_event(raw, text, text_len, by, out, size, length))

    name = type(event).__name__
    no_text = f"no bytes are read as this {name}"
    # A PastePart has no number here.
    faults = {STATUS_NO_TEXT: no_text, STATUS_TOO_LONG: f"{name} is too long"}
    if isinstance(event, PastePart):
        faults[STATUS_BAD_NUMBER] = no_text
    return bytes_sent(call, faults)


def encode_cursor_position(row: int, column: int, private: bool = False) -> bytes:
    """Returns what a terminal replies to a question for the position of its cursor. private says
    that the question was ESC [?6n, and not ESC [6n. The first row and the first column are 1: a
    reply with a 0 is read as a Csi.

    Not private, a reply for row 1 and the columns 1 to 256 has the bytes of F3 with modifiers. A
    program reads it as the position if it expects one.

        >>> encode_cursor_position(24, 80)
        b'\\x1b[24;80R'

    Raises MemoryError if memory is refused."""
    place = (whole(row, 0, 65535), whole(column, 0, 65535))

    def call(out: Any, size: int, length: ctypes.c_size_t) -> int:
        return int(library.hed_encode_cursor_position(*place, private, out, size, length))

    return bytes_sent(call, {})


def encode_colour_scheme(scheme: ColourScheme) -> bytes:
    """Returns what a terminal sends when its colours change, and replies to ESC [?996n.

        >>> encode_colour_scheme(ColourScheme.DARK)
        b'\\x1b[?997;1n'

    Raises MemoryError if memory is refused."""
    if not isinstance(scheme, ColourScheme):
        raise TypeError(f"a ColourScheme is required, not {type(scheme).__name__}")

    def call(out: Any, size: int, length: ctypes.c_size_t) -> int:
        is_dark = scheme is ColourScheme.DARK
        return int(library.hed_encode_colour_scheme(is_dark, out, size, length))

    return bytes_sent(call, {})


def encode_device_attributes(numbers: Sequence[int]) -> bytes:
    """Returns what a terminal replies to the question for its attributes, ESC [c. The first number
    is its class, such as 62.

        >>> encode_device_attributes([62, 22])
        b'\\x1b[?62;22c'

    Raises EncodeError, which is a ValueError, for a reply of more than 256 bytes. Raises
    MemoryError if memory is refused."""
    count = len(numbers)
    words = (ctypes.c_uint16 * count)(*(whole(number, 0, 65535) for number in numbers))

    def call(out: Any, size: int, length: ctypes.c_size_t) -> int:
        return int(library.hed_encode_device_attributes(words, count, out, size, length))

    return bytes_sent(call, {STATUS_TOO_LONG: "a reply is too long"})
