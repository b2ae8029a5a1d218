"""Events of the structs that the library writes."""
from __future__ import annotations

import ctypes
import struct
from typing import Any, Callable, Dict, Optional, Union

from . import _calls as numbers
from ._calls import NO_CODE, RawEvent
from ._library import fault
from .events import (
    Apc,
    Csi,
    CursorPosition,
    Dcs,
    Event,
    FocusGained,
    FocusLost,
    KeyboardFlags,
    KeyEventKind,
    KeyReport,
    KittyKeyboardFlags,
    MouseButtons,
    MouseKind,
    MouseReport,
    Osc,
    Paste,
    PastePart,
    Resized,
    Size,
    StringCut,
    StringKind,
    StringPart,
)
from .keys import KittyModifiers, Modifiers, key_of

# The bytes of a struct, and how many bytes of text a key has whose event is found again.
RECORD = ctypes.sizeof(RawEvent)
_KEY_TEXT = 32
# What is found again, and how many of it.
_FOUND_AGAIN = frozenset((KeyReport, FocusGained, FocusLost, MouseReport))
_MOST_FOUND = 4096

_position_of = struct.Struct("@14xHH").unpack_from

_of_text: Dict[int, Callable[[str], Event]] = {
    numbers.KIND_PASTE: Paste,
    numbers.KIND_PASTE_PART: PastePart,
}
_of_data: Dict[int, Callable[[bytes], Event]] = {
    numbers.KIND_CSI: Csi,
    numbers.KIND_OSC: Osc,
    numbers.KIND_DCS: Dcs,
    numbers.KIND_APC: Apc,
}
_of_string: Dict[int, Callable[[StringKind, bytes], Event]] = {
    numbers.KIND_STRING_PART: StringPart,
    numbers.KIND_STRING_CUT: StringCut,
}
_kinds = {kind.value: kind for kind in KeyEventKind}
_mouse_kinds = {kind.value: kind for kind in MouseKind}
_string_kinds = {kind.value: kind for kind in StringKind}
# The bits of all flags that have names.
_NAMED_FLAGS = (~KittyKeyboardFlags.NONE).value


def _character(code: int) -> Optional[str]:
    return None if code == NO_CODE else chr(code)


def event_of(record: bytes, text: Union[bytes, bytearray, memoryview] = b"") -> Event:
    """The event of a struct, and of the bytes that it brings."""
    raw = RawEvent.from_buffer_copy(record)
    kind = raw.kind
    if raw.text_len != len(text):
        fault()
    if kind == numbers.KIND_KEY:
        return KeyReport(
            key_of(raw.key, raw.detail) if raw.key else raw.detail,
            KittyModifiers(raw.modifiers),
            _kinds.get(raw.key_event_kind) or fault(),
            _character(raw.shifted),
            _character(raw.base),
            str(text, "utf-8"),
        )
    if kind == numbers.KIND_MOUSE:
        return MouseReport(
            raw.x,
            raw.y,
            Modifiers(2 * raw.modifiers),
            MouseButtons(raw.buttons),
            _mouse_kinds.get(raw.mouse_kind) or fault(),
            raw.button or None,
        )
    if kind == numbers.KIND_CURSOR_POSITION:
        return CursorPosition(raw.row, raw.column)
    if kind in _of_text:
        return _of_text[kind](str(text, "utf-8"))
    if kind in _of_data:
        return _of_data[kind](bytes(text))
    if kind in _of_string:
        return _of_string[kind](_string_kinds.get(raw.string_kind) or fault(), bytes(text))
    if kind == numbers.KIND_RESIZED:
        return Resized(Size(raw.columns, raw.rows, raw.width, raw.height))
    if kind == numbers.KIND_KEYBOARD_FLAGS:
        return KeyboardFlags(
            KittyKeyboardFlags(raw.flags & _NAMED_FLAGS), raw.flags & ~_NAMED_FLAGS
        )
    if kind == numbers.KIND_FOCUS_GAINED:
        return FocusGained()
    if kind == numbers.KIND_FOCUS_LOST:
        return FocusLost()
    fault()


class Events(Dict[bytes, Any]):
    """The events of structs, each with the bytes that its event brings behind it. Those of keys and
    of the focus are found again.

    A mouse that is moved brings many reports, and a frozen dataclass is slow to make. So of a
    report at no place these are its fields, of which reports are made. They lie in a dict of their
    own: from Python 3.11 on, that of an object takes longer to copy."""

    def __missing__(self, record: bytes) -> Any:
        if record[0] == numbers.KIND_CURSOR_POSITION:
            return CursorPosition(*_position_of(record))
        event = event_of(record[:RECORD], memoryview(record)[RECORD:])
        found = dict(vars(event)) if type(event) is MouseReport else event
        if type(event) in _FOUND_AGAIN and len(record) <= RECORD + _KEY_TEXT:
            if len(self) >= _MOST_FOUND:
                self.clear()
            self[record] = found
        return found
