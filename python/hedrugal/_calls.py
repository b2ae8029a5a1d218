"""The structs, calls and numbers of c/hedrugal.h, which `make numbers` writes at marked places."""
from __future__ import annotations

import ctypes
from typing import Any, Dict, List, Tuple

U8, U16, U32, U64 = ctypes.c_uint8, ctypes.c_uint16, ctypes.c_uint32, ctypes.c_uint64
I32, I64, SIZE, BOOL = ctypes.c_int32, ctypes.c_int64, ctypes.c_size_t, ctypes.c_bool
# A pointer to bytes too, as which ctypes passes a bytes object without a copy.
POINTER = ctypes.c_void_p

# hedrugal.h: python numbers
ENTRY_MOST = 11
CHORD_MOST = 32
CODES_MOST = 160
QUESTIONS_MOST = 16
NO_CODE = 4294967295
NO_PARTS = 18446744073709551615
LIMIT_MOST = 2147418111
STATUS_OK = 0
STATUS_NONE = 1
STATUS_NO_MEMORY = 2
STATUS_BAD_NUMBER = 3
STATUS_BUSY = 4
STATUS_NOT_INITIALIZED = 5
STATUS_REFUSED_KEY = 6
STATUS_NO_TEXT = 7
STATUS_TOO_LONG = 8
STATUS_BAD_TEXT = 9
STATUS_TOO_FAR = 10
STATUS_AMBIGUOUS = 11
STATUS_NEED_DATA = 12
STATUS_FULL = 13
STATUS_NAME_CONTROL_CHARACTER = 20
STATUS_NAME_MODIFIER_TWICE = 21
STATUS_NAME_UNKNOWN_MODIFIER = 22
STATUS_NAME_MISSING_KEY = 23
STATUS_NAME_BAD_NUMBER = 24
STATUS_NAME_UNKNOWN_NAME = 25
STATUS_NAME_AMBIGUOUS = 26
STATUS_NAME_NOT_A_KEY = 27
STATUS_NAME_SHIFTED_CHARACTER = 28
STATUS_NAME_TOO_LONG = 29
STATUS_NAME_EMPTY = 30
KIND_OTHER = 0
KIND_KEY = 1
KIND_MOUSE = 2
KIND_PASTE = 3
KIND_FOCUS_GAINED = 5
KIND_FOCUS_LOST = 6
KIND_CURSOR_POSITION = 7
KIND_RESIZED = 8
KIND_KEYBOARD_FLAGS = 9
KIND_CSI = 10
KIND_OSC = 11
KIND_DCS = 12
KIND_APC = 13
KIND_PASTE_PART = 14
KIND_STRING_PART = 15
KIND_STRING_CUT = 16
KEY_CHAR = 1
KEY_FUNCTION = 60
OUTCOME_BOUND = 1
OUTCOME_UNBOUND = 2
REPLY_DEVICE_ATTRIBUTES = 1
REPLY_MODE = 2
REPLY_COLOUR = 3
REPLY_VERSION = 4
REPLY_WINDOW_SIZE = 5
REPLY_COLOUR_SCHEME = 6
REPLY_CLIPBOARD = 7
# hedrugal.h: end


def _fields(*groups: Tuple[Any, str]) -> List[Tuple[str, Any]]:
    """The fields of a struct, of groups that have one type."""
    return [(name, kind) for kind, names in groups for name in names.split()]


class RawHandle(ctypes.Structure):
    """A hed_parser, a hed_keymap or a hed_bindings."""

    _fields_ = _fields((BOOL, "live"), (POINTER, "state"))


# hedrugal.h: python structs


class RawEvent(ctypes.Structure):
    _fields_ = _fields(
        (U8, "kind modifiers key_event_kind mouse_kind button buttons flags string_kind"),
        (U16, "key x y row column rows columns height width"),
        (U32, "detail shifted base"),
        (SIZE, "text_len"),
    )


class RawReading(ctypes.Structure):
    _fields_ = _fields(
        (U32, "dialect erase newline"),
        (BOOL, "x10_mouse"),
        (U8, "questions"),
    )


class RawPolicy(ctypes.Structure):
    _fields_ = _fields(
        (I32, "escape alt_key sequence string character paste"),
    )


class RawEntries(ctypes.Structure):
    _fields_ = _fields(
        (SIZE, "first count"),
        (BOOL, "with_alt"),
    )


class RawPress(ctypes.Structure):
    _fields_ = _fields(
        (U16, "key"),
        (U8, "held"),
        (U32, "detail"),
    )


class RawMatcher(ctypes.Structure):
    _fields_ = _fields(
        (SIZE, "count"),
        (U8 * CODES_MOST, "codes"),
    )


class RawOutcome(ctypes.Structure):
    _fields_ = _fields(
        (SIZE, "keys"),
        (U64, "value"),
        (RawPress, "press"),
        (U32, "kind"),
    )


class RawSeen(ctypes.Structure):
    _fields_ = _fields(
        (I32, "limit"),
        (U8, "by"),
        (BOOL, "fed taken empty"),
    )


class RawTimer(ctypes.Structure):
    _fields_ = _fields(
        (U64, "last front noted millis"),
        (U8, "by"),
        (BOOL, "has_noted has_limit holds"),
    )


class RawMatch(ctypes.Structure):
    _fields_ = _fields(
        (SIZE, "len"),
        (U64, "value"),
    )


class RawSentMouse(ctypes.Structure):
    _fields_ = _fields(
        (U16, "x y"),
        (U8, "modifiers button"),
    )


class RawModes(ctypes.Structure):
    _fields_ = _fields(
        (I64, "modify_other_keys"),
        (U8, "encoding kitty_flags"),
        (BOOL, "application_cursor_keys newline_mode has_modify_other_keys"),
    )


class RawReply(ctypes.Structure):
    _fields_ = _fields(
        (U8, "kind report state"),
        (BOOL, "is_private"),
        (U8, "name scheme selection"),
        (U16, "index red green blue rows columns"),
        (U32, "mode"),
        (SIZE, "len"),
    )


class RawQuestion(ctypes.Structure):
    _fields_ = _fields(
        (U64, "number asked until"),
        (U32, "positions"),
    )


class RawQuestions(ctypes.Structure):
    _fields_ = _fields(
        (U64, "asked answered slowest"),
        (U32, "count"),
        (RawQuestion * QUESTIONS_MOST, "open"),
    )


# hedrugal.h: end


def _to(kind: Any) -> Any:
    return ctypes.POINTER(kind)


# The calls of the header: the type of the result, and those of the arguments.
CALLS: Dict[str, Tuple[Any, List[Any]]] = {
    # hedrugal.h: python calls
    "hed_version": (U32, []),
    "hed_key_name": (SIZE, [U16, POINTER, SIZE]),
    "hed_parser_init": (U32, [_to(RawHandle), U32]),
    "hed_parser_init_sharing": (U32, [_to(RawHandle), U32, _to(RawHandle)]),
    "hed_parser_free": (None, [_to(RawHandle)]),
    "hed_parser_feed": (U32, [_to(RawHandle), U64, POINTER, SIZE]),
    "hed_parser_next": (U32, [_to(RawHandle), _to(RawEvent)]),
    "hed_parser_next_events": (
        U32,
        [_to(RawHandle), _to(RawEvent), SIZE, POINTER, SIZE, _to(SIZE)],
    ),
    "hed_parser_text": (SIZE, [_to(RawHandle), POINTER, SIZE]),
    "hed_parser_drop_text": (None, [_to(RawHandle)]),
    "hed_paste_lines": (SIZE, [POINTER, SIZE, POINTER, SIZE]),
    "hed_parser_timeout": (I32, [_to(RawHandle), U64]),
    "hed_parser_idle": (None, [_to(RawHandle), U64]),
    "hed_parser_flush": (None, [_to(RawHandle)]),
    "hed_parser_end": (None, [_to(RawHandle)]),
    "hed_parser_interrupted": (U32, [_to(RawHandle), U64]),
    "hed_parser_set_parts": (None, [_to(RawHandle), SIZE]),
    "hed_parser_skip_paste": (U32, [_to(RawHandle), _to(SIZE)]),
    "hed_parser_reset": (SIZE, [_to(RawHandle)]),
    "hed_parser_shrink_to": (None, [_to(RawHandle), SIZE]),
    "hed_parser_waiting_len": (SIZE, [_to(RawHandle)]),
    "hed_parser_waiting": (U32, [_to(RawHandle)]),
    "hed_parser_set_reading": (U32, [_to(RawHandle), _to(RawReading)]),
    "hed_parser_reading": (U32, [_to(RawHandle), _to(RawReading)]),
    "hed_parser_expect_position": (None, [_to(RawHandle)]),
    "hed_parser_forget_positions": (None, [_to(RawHandle)]),
    "hed_parser_set_policy": (U32, [_to(RawHandle), _to(RawPolicy)]),
    "hed_parser_entry": (SIZE, [_to(RawHandle), SIZE, POINTER, SIZE, _to(RawEvent)]),
    "hed_parser_completions": (U32, [_to(RawHandle), _to(RawEntries)]),
    "hed_parser_press": (U32, [_to(RawHandle), _to(RawEvent), _to(RawPress)]),
    "hed_parser_second": (U32, [_to(RawHandle), _to(RawEvent), _to(RawPress)]),
    "hed_event_press": (U32, [_to(RawEvent), POINTER, SIZE, _to(RawPress)]),
    "hed_event_second": (U32, [_to(RawEvent), _to(RawPress)]),
    "hed_press_text": (SIZE, [_to(RawPress), POINTER, SIZE]),
    "hed_press_print": (U32, [_to(RawPress), POINTER, SIZE, _to(SIZE)]),
    "hed_key_read": (U32, [POINTER, SIZE, _to(RawPress), SIZE, _to(SIZE), _to(SIZE)]),
    "hed_key_print": (U32, [_to(RawPress), SIZE, POINTER, SIZE, _to(SIZE)]),
    "hed_bindings_init": (U32, [_to(RawHandle)]),
    "hed_bindings_free": (None, [_to(RawHandle)]),
    "hed_bindings_bind": (U32, [_to(RawHandle), _to(RawPress), SIZE, U64]),
    "hed_bindings_bind_name": (U32, [_to(RawHandle), POINTER, SIZE, U64, _to(SIZE)]),
    "hed_bindings_unbind": (U32, [_to(RawHandle), _to(RawPress), SIZE, _to(U64)]),
    "hed_bindings_lookup": (U32, [_to(RawHandle), _to(RawPress), SIZE, _to(U64)]),
    "hed_bindings_len": (SIZE, [_to(RawHandle)]),
    "hed_bindings_entry": (U32, [_to(RawHandle), SIZE, _to(RawPress), SIZE, _to(SIZE), _to(U64)]),
    "hed_bindings_continuations": (
        U32,
        [_to(RawHandle), _to(RawPress), SIZE, _to(SIZE), _to(SIZE)],
    ),
    "hed_matcher_press": (U32, [_to(RawMatcher), _to(RawPress)]),
    "hed_matcher_press_either": (U32, [_to(RawMatcher), _to(RawHandle), _to(RawPress), SIZE]),
    "hed_matcher_next": (U32, [_to(RawMatcher), _to(RawHandle), BOOL, _to(RawOutcome)]),
    "hed_matcher_on_pause": (U32, [_to(RawMatcher), _to(RawHandle), _to(RawOutcome)]),
    "hed_matcher_is_dead_end": (BOOL, [_to(RawMatcher), _to(RawHandle)]),
    "hed_matcher_pending": (SIZE, [_to(RawMatcher), _to(RawPress), SIZE]),
    "hed_matcher_cancel": (SIZE, [_to(RawMatcher), _to(RawPress), SIZE]),
    "hed_timer_note": (U32, [_to(RawTimer), U64, _to(RawSeen)]),
    "hed_timer_timeout": (I32, [_to(RawTimer), U64]),
    "hed_keymap_init": (U32, [_to(RawHandle)]),
    "hed_keymap_free": (None, [_to(RawHandle)]),
    "hed_keymap_insert": (U32, [_to(RawHandle), POINTER, SIZE, U64]),
    "hed_keymap_lookup": (U32, [_to(RawHandle), POINTER, SIZE, BOOL, _to(RawMatch)]),
    "hed_keymap_len": (SIZE, [_to(RawHandle)]),
    "hed_encode_kitty": (U32, [_to(RawEvent), POINTER, SIZE, U8, POINTER, SIZE, _to(SIZE)]),
    "hed_encode_paste": (U32, [POINTER, SIZE, BOOL, POINTER, SIZE, _to(SIZE)]),
    "hed_encode_mouse": (U32, [_to(RawSentMouse), U32, U32, POINTER, SIZE, _to(SIZE)]),
    "hed_encode_event": (
        U32,
        [_to(RawEvent), POINTER, SIZE, _to(RawHandle), POINTER, SIZE, _to(SIZE)],
    ),
    "hed_encode_cursor_position": (U32, [U16, U16, BOOL, POINTER, SIZE, _to(SIZE)]),
    "hed_encode_colour_scheme": (U32, [BOOL, POINTER, SIZE, _to(SIZE)]),
    "hed_encode_device_attributes": (U32, [_to(U16), SIZE, POINTER, SIZE, _to(SIZE)]),
    "hed_encode": (U32, [U16, U32, U16, BOOL, _to(RawModes), POINTER, SIZE, _to(SIZE)]),
    "hed_send_names": (U32, [POINTER, SIZE, _to(RawModes), POINTER, SIZE, _to(SIZE), _to(SIZE)]),
    "hed_read_reply": (U32, [U8, POINTER, SIZE, _to(RawReply), _to(U32), SIZE, POINTER, SIZE]),
    "hed_questions_ask": (
        U32,
        [_to(RawQuestions), _to(RawHandle), U64, U64, POINTER, SIZE, _to(U64)],
    ),
    "hed_questions_note": (
        U32,
        [_to(RawQuestions), _to(RawHandle), U64, _to(RawEvent), POINTER, SIZE, _to(U64)],
    ),
    "hed_questions_expire": (U32, [_to(RawQuestions), _to(RawHandle), U64]),
    "hed_questions_forget": (None, [_to(RawQuestions), _to(RawHandle)]),
    "hed_questions_timeout": (I32, [_to(RawQuestions), U64]),
    # hedrugal.h: end
}
