"""Keys, and the modifiers that are held with them."""
from __future__ import annotations

import ctypes
from dataclasses import dataclass
from typing import Any, Callable, Mapping, Tuple, Union

from ._calls import KEY_CHAR, KEY_FUNCTION, STATUS_BAD_NUMBER, STATUS_BAD_TEXT, STATUS_OK
from ._enums import Flags, Named, numbered
from ._library import borrowed, fault, is_ok

__all__ = [
    "EncodeError",
    "Function",
    "Key",
    "KeyCode",
    "KittyModifiers",
    "Modifiers",
    "ReportedKey",
]

# More bytes than most keys have.
_ROOM = 64


class Modifiers(Flags):
    """A set of modifier keys."""

    # hedrugal.h: termwiz_mod member
    NONE = numbered(0, "No modifier.")
    SHIFT = numbered(2, "Shift.")
    ALT = numbered(4, "Alt.")
    CTRL = numbered(8, "Ctrl.")
    SUPER = numbered(16, "Super: the key with the Windows logo, or Command.")
    LEFT_ALT = numbered(32, "The left Alt key.")
    RIGHT_ALT = numbered(64, "The right Alt key.")
    LEADER = numbered(128, "A leader key, for programs that define one.")
    LEFT_CTRL = numbered(256, "The left Ctrl key.")
    RIGHT_CTRL = numbered(512, "The right Ctrl key.")
    LEFT_SHIFT = numbered(1024, "The left Shift key.")
    RIGHT_SHIFT = numbered(2048, "The right Shift key.")
    # hedrugal.h: end


class KittyModifiers(Flags):
    """A set of modifiers, as Kitty's keyboard protocol reports them: keys that are held, and locks
    that are on."""

    # hedrugal.h: kitty_mod member
    NONE = numbered(0, "No modifier.")
    SHIFT = numbered(1, "Shift.")
    ALT = numbered(2, "Alt.")
    CTRL = numbered(4, "Ctrl.")
    SUPER = numbered(8, "Super: the key with the Windows logo, or Command.")
    HYPER = numbered(16, "Hyper.")
    META = numbered(32, "Meta.")
    CAPS_LOCK = numbered(64, "Caps Lock is on.")
    NUM_LOCK = numbered(128, "Num Lock is on.")
    # hedrugal.h: end


class KeyCode(Named):
    """A key that types no character and is no function key."""

    # hedrugal.h: key member
    HYPER = numbered(2, "Hyper, a modifier key.")
    SUPER = numbered(
        3,
        "Super, a modifier key: on most keyboards the one with the Windows logo, or Command.",
    )
    META = numbered(4, "Meta, a modifier key. The key that is labelled Alt is `Alt`.")
    CANCEL = numbered(5, "Cancel, which on PC keyboards is Ctrl-Break.")
    BACKSPACE = numbered(6, "Backspace, which deletes the character before the cursor.")
    TAB = numbered(7, "Tab. Shift-Tab is this key with SHIFT.")
    CLEAR = numbered(
        8,
        "Clear, which on PC keyboards is the 5 of the keypad while Num Lock is off.",
    )
    ENTER = numbered(9, "Enter, also called Return.")
    SHIFT = numbered(10, "Shift, where it isn't known which of the two.")
    ESCAPE = numbered(11, "Escape.")
    LEFT_SHIFT = numbered(12, "The left Shift key.")
    RIGHT_SHIFT = numbered(13, "The right Shift key.")
    CONTROL = numbered(14, "Ctrl, where it isn't known which of the two.")
    LEFT_CONTROL = numbered(15, "The left Ctrl key.")
    RIGHT_CONTROL = numbered(16, "The right Ctrl key.")
    ALT = numbered(17, "Alt, or Option, where it isn't known which of the two.")
    LEFT_ALT = numbered(18, "The left Alt key.")
    RIGHT_ALT = numbered(19, "The right Alt key, also called AltGr.")
    MENU = numbered(
        20,
        "Menu, Windows' name for Alt (`VK_MENU`). The key that opens a context menu is "
        "`Applications`.",
    )
    LEFT_MENU = numbered(21, "Windows' name for the left Alt key (`VK_LMENU`).")
    RIGHT_MENU = numbered(22, "Windows' name for the right Alt key (`VK_RMENU`).")
    PAUSE = numbered(23, "Pause.")
    CAPS_LOCK = numbered(24, "Caps Lock.")
    PAGE_UP = numbered(25, "Page Up.")
    PAGE_DOWN = numbered(26, "Page Down.")
    END = numbered(27, "End.")
    HOME = numbered(28, "Home.")
    LEFT_ARROW = numbered(29, "The left arrow key.")
    RIGHT_ARROW = numbered(30, "The right arrow key.")
    UP_ARROW = numbered(31, "The up arrow key.")
    DOWN_ARROW = numbered(32, "The down arrow key.")
    SELECT = numbered(33, "Select, as on the VT220's editing keypad.")
    PRINT = numbered(34, "Print (`VK_PRINT`), which few keyboards have. It isn't `PrintScreen`.")
    EXECUTE = numbered(35, "Execute (`VK_EXECUTE`), which few keyboards have.")
    PRINT_SCREEN = numbered(36, "Print Screen.")
    INSERT = numbered(37, "Insert.")
    DELETE = numbered(38, "Delete, which deletes the character at the cursor.")
    HELP = numbered(39, "Help.")
    LEFT_WINDOWS = numbered(40, "The left key with the Windows logo.")
    RIGHT_WINDOWS = numbered(41, "The right key with the Windows logo.")
    APPLICATIONS = numbered(42, "The Applications key, which opens a context menu.")
    SLEEP = numbered(43, "Sleep, which suspends the computer.")
    NUMPAD_0 = numbered(44, "The 0 of the numeric keypad, while Num Lock is on.")
    NUMPAD_1 = numbered(45, "The 1 of the numeric keypad, while Num Lock is on.")
    NUMPAD_2 = numbered(46, "The 2 of the numeric keypad, while Num Lock is on.")
    NUMPAD_3 = numbered(47, "The 3 of the numeric keypad, while Num Lock is on.")
    NUMPAD_4 = numbered(48, "The 4 of the numeric keypad, while Num Lock is on.")
    NUMPAD_5 = numbered(49, "The 5 of the numeric keypad, while Num Lock is on.")
    NUMPAD_6 = numbered(50, "The 6 of the numeric keypad, while Num Lock is on.")
    NUMPAD_7 = numbered(51, "The 7 of the numeric keypad, while Num Lock is on.")
    NUMPAD_8 = numbered(52, "The 8 of the numeric keypad, while Num Lock is on.")
    NUMPAD_9 = numbered(53, "The 9 of the numeric keypad, while Num Lock is on.")
    MULTIPLY = numbered(54, "The `*` of the numeric keypad.")
    ADD = numbered(55, "The `+` of the numeric keypad.")
    SEPARATOR = numbered(
        56,
        "The thousands separator of the numeric keypad, on keyboards that have one.",
    )
    SUBTRACT = numbered(57, "The `-` of the numeric keypad.")
    DECIMAL = numbered(58, "The decimal point of the numeric keypad.")
    DIVIDE = numbered(59, "The `/` of the numeric keypad.")
    NUM_LOCK = numbered(61, "Num Lock.")
    SCROLL_LOCK = numbered(62, "Scroll Lock.")
    COPY = numbered(63, "A key of its own for copying.")
    CUT = numbered(64, "A key of its own for cutting.")
    PASTE = numbered(
        65,
        "A key of its own for pasting. Text that was pasted comes as an event of its own kind.",
    )
    BROWSER_BACK = numbered(66, "Back, for a web browser.")
    BROWSER_FORWARD = numbered(67, "Forward, for a web browser.")
    BROWSER_REFRESH = numbered(68, "Refresh, for a web browser.")
    BROWSER_STOP = numbered(69, "Stop loading, for a web browser.")
    BROWSER_SEARCH = numbered(70, "Search, for a web browser.")
    BROWSER_FAVORITES = numbered(71, "Favorites, for a web browser.")
    BROWSER_HOME = numbered(72, "Home page, for a web browser.")
    VOLUME_MUTE = numbered(73, "Mute the sound.")
    VOLUME_DOWN = numbered(74, "Turn the volume down.")
    VOLUME_UP = numbered(75, "Turn the volume up.")
    MEDIA_NEXT_TRACK = numbered(76, "Skip to the next track.")
    MEDIA_PREV_TRACK = numbered(77, "Skip to the previous track.")
    MEDIA_STOP = numbered(78, "Stop playing.")
    MEDIA_PLAY_PAUSE = numbered(79, "Play, or pause.")
    APPLICATION_LEFT_ARROW = numbered(
        80,
        "The left arrow key while the terminal is in application cursor mode (DECCKM).",
    )
    APPLICATION_RIGHT_ARROW = numbered(81, "The right arrow key in application cursor mode.")
    APPLICATION_UP_ARROW = numbered(82, "The up arrow key in application cursor mode.")
    APPLICATION_DOWN_ARROW = numbered(83, "The down arrow key in application cursor mode.")
    KEY_PAD_HOME = numbered(84, "Home on the numeric keypad: the 7 while Num Lock is off.")
    KEY_PAD_END = numbered(85, "End on the numeric keypad: the 1 while Num Lock is off.")
    KEY_PAD_PAGE_UP = numbered(86, "Page Up on the numeric keypad: the 9 while Num Lock is off.")
    KEY_PAD_PAGE_DOWN = numbered(
        87,
        "Page Down on the numeric keypad: the 3 while Num Lock is off.",
    )
    KEY_PAD_BEGIN = numbered(88, "Begin on the numeric keypad: the 5 while Num Lock is off.")
    INTERNAL_PASTE_START = numbered(
        89,
        "The start of a bracketed paste. No event carries it: the paste comes as one event.",
    )
    INTERNAL_PASTE_END = numbered(90, "The end of a bracketed paste, where none was started.")
    # hedrugal.h: end


@dataclass(frozen=True)
class Function:
    """A function key, by its number: F1 is Function(1)."""

    number: int


# A key: the character that it types, as a text of one character, or a key without one. `"A"` is
# what Shift-A types.
Key = Union[str, KeyCode, Function]


# The key of a report: a key that has no name is its number in Kitty's table of functional keys. The
# number 0 stands for text that no key typed.
ReportedKey = Union[Key, int]


# Each of these is twice the same flag of Kitty's, which the library has in events.
HELD = Modifiers.SHIFT | Modifiers.ALT | Modifiers.CTRL | Modifiers.SUPER


_key_codes = {code.value: code for code in KeyCode}


def key_of(number: int, detail: int) -> Key:
    """The key that has this number, and its code point or the number of a function key."""
    if number == KEY_CHAR:
        return chr(detail)
    if number == KEY_FUNCTION:
        return Function(detail)
    return _key_codes.get(number) or fault()


def kitty_bits(modifiers: Modifiers) -> int:
    """The bits of Kitty's for these modifiers. It has no others of them."""
    return (modifiers & HELD).value >> 1


class EncodeError(ValueError):
    """A key has no text: it is a function key other than F1 to F24, or Kitty's protocol has no
    number for it. Or a number or a text names nothing."""


def numbers_of_key(key: Key) -> Tuple[int, int]:
    """The number of a key, and its code point or the number of a function key."""
    if isinstance(key, KeyCode):
        return key.value, 0
    if isinstance(key, Function):
        return KEY_FUNCTION, whole(key.number, 0, 255)
    if not isinstance(key, str):
        raise TypeError(
            f"a character, a KeyCode or a Function is required, not {type(key).__name__}"
        )
    if len(key) != 1:
        raise EncodeError(f"a key types one character, and {key!r} has {len(key)}")
    return KEY_CHAR, ord(key)


def whole(number: int, least: int, most: int) -> int:
    """The number, since ctypes would cut a larger one."""
    if not isinstance(number, int):
        raise TypeError(f"an int is required, not {type(number).__name__}")
    if not least <= number <= most:
        raise EncodeError(f"{number} isn't between {least} and {most}")
    return number


def numbers_of_reported(key: ReportedKey) -> Tuple[int, int]:
    """The number of a key and what it carries."""
    return (0, whole(key, 0, 0xFFFFFFFF)) if isinstance(key, int) else numbers_of_key(key)


def bytes_sent(
    call: Callable[[Any, int, ctypes.c_size_t], int], faults: Mapping[int, str]
) -> bytes:
    """The bytes that a call of the library writes. It is made again if the room was too short.

    Raises EncodeError for an answer that is among these faults, and for numbers and texts that name
    nothing."""
    length, room = ctypes.c_size_t(), bytearray(_ROOM)
    while True:
        pointer, size = borrowed(room)
        answer = call(pointer, size, length)
        if answer != STATUS_OK or length.value <= size:
            break
        room = bytearray(length.value)
    if answer in faults:
        raise EncodeError(faults[answer])
    if answer in (STATUS_BAD_NUMBER, STATUS_BAD_TEXT):
        raise EncodeError("a surrogate names nothing")
    return bytes(room[: length.value]) if is_ok(answer, "parser") else fault()
