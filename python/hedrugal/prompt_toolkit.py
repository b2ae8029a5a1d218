r"""Input for prompt_toolkit 3, read by the library.

    from hedrugal.prompt_toolkit import Input
    from prompt_toolkit import PromptSession

    print(PromptSession(input=Input()).prompt("> "))

Its keys are those of prompt_toolkit: Keys.ControlUp, or a character; Alt with a key is Keys.Escape
and that key. Ten sequences are the opposite key in its table, and aren't here: those of Up and Down
with two modifiers or more, and of Page Up with Ctrl and Alt.

A lone ESC is the Escape key after 50 ms, and not after half a second (`ttimeoutlen`). ESC and one
byte that begin a sequence wait 100 ms for its end, and a longer beginning waits a second."""
from __future__ import annotations

import contextlib
import ctypes
import dataclasses
import functools
import re
import sys
from asyncio import TimerHandle, get_running_loop
from typing import Any, Callable, Iterator, List, Optional, TextIO, Tuple, Union, cast

from prompt_toolkit.input.ansi_escape_sequences import ANSI_SEQUENCES
from prompt_toolkit.input.vt100 import Vt100Input
from prompt_toolkit.input.vt100_parser import Vt100Parser
from prompt_toolkit.key_binding import KeyPress
from prompt_toolkit.keys import KEY_ALIASES, Keys

from ._calls import KIND_KEY, RawEvent
from ._library import is_ok, library
from ._records import RECORD, event_of
from .events import Csi, CursorPosition, Event, KeyReport, MouseReport, Paste, PastePart
from .keys import Function, KeyCode, KittyModifiers
from .names import KeyPress as Press, typed_text
from .parser import Parser as Reader
from .reading import Reading
from .timer import millis_of_now

__all__ = ["Input", "Parser"]

AnyKey = Union[Keys, str]

# What prompt_toolkit calls keys; it has aliases such as enter for c-m.
_NAMES = {
    KeyCode.BACKSPACE: "backspace",
    KeyCode.DELETE: "delete",
    KeyCode.DOWN_ARROW: "down",
    KeyCode.END: "end",
    KeyCode.ENTER: "enter",
    KeyCode.ESCAPE: "escape",
    KeyCode.HOME: "home",
    KeyCode.INSERT: "insert",
    KeyCode.LEFT_ARROW: "left",
    KeyCode.PAGE_DOWN: "pagedown",
    KeyCode.PAGE_UP: "pageup",
    KeyCode.RIGHT_ARROW: "right",
    KeyCode.TAB: "tab",
    KeyCode.UP_ARROW: "up",
}
# The same for characters.
_CHARACTERS = {" ": "space", "\x9b": "s-escape"}
# Shift with the function keys F1 to F12 is F13 to F24, as xterm's own keyboard has it.
_SHIFTED = 12
_IGNORED = (Keys.Ignore,)
# Text is parsed in runs of characters, and of control characters.
_RUNS = re.compile(r"[^\x00-\x1f\x7f-\x9f]+|[\x00-\x1f\x7f-\x9f]+")
# prompt_toolkit asks for the cursor's position at any time, so each report of one is a reply. Its
# programs bind c-j apart, and c-h is Backspace to them, whichever byte that key sends.
_READING = Reading(x10_mouse=True, questions=255)
# Calls that are given no types, which take less time.
_next, _waiting_len = library["hed_parser_next"], library["hed_parser_waiting_len"]
_next.restype, _waiting_len.restype = ctypes.c_uint32, ctypes.c_size_t


def _keys_of(press: Press) -> Tuple[AnyKey, ...]:
    """prompt_toolkit's keys of a press, Keys.Ignore if it has none."""
    if press.held & KittyModifiers.ALT:
        keys = _keys_of(dataclasses.replace(press, held=press.held & ~KittyModifiers.ALT))
        if keys == (Keys.ControlI,):
            return (Keys.BackTab,)
        return keys if keys == _IGNORED else (Keys.Escape, *keys)
    if press.text:
        return (press.text,)
    names = [KEY_ALIASES.get(name, name) for name in _names(press)]
    return next(((Keys(name),) for name in names if name in Keys._value2member_map_), _IGNORED)


def _names(press: Press) -> Iterator[str]:
    """The names that prompt_toolkit may have for a press: with its modifiers, and for a key that
    types no character also with fewer."""
    held, key = press.held, press.key
    if held & ~(KittyModifiers.SHIFT | KittyModifiers.CTRL):
        return
    shift = "s-" if held & KittyModifiers.SHIFT else ""
    ctrl = "c-" if held & KittyModifiers.CTRL else ""
    if isinstance(key, Function):
        number = key.number + (_SHIFTED if shift and key.number <= _SHIFTED else 0)
        yield f"{ctrl}f{number}"
    elif isinstance(key, KeyCode):
        name = _NAMES.get(key, "")
        yield from (f"{ctrl}{shift}{name}", f"{ctrl}{name}", f"{shift}{name}", name)
    elif isinstance(key, str):
        name = _CHARACTERS.get(key, key)
        yield from (f"{ctrl}{shift}{name}", f"{ctrl}{name}")


def _keys_sent(event: Event, sent: str) -> Tuple[AnyKey, ...]:
    """prompt_toolkit's keys of an event, which was sent so."""
    press = Press.of_event(event)
    keys = _keys_of(press) if press else ()
    if sent in ANSI_SEQUENCES and (keys == _IGNORED or _is_other_key(event)):
        found = ANSI_SEQUENCES[sent]
        return found if isinstance(found, tuple) else (found,)
    return keys


def _presses_sent(event: Event, sent: str) -> List[KeyPress]:
    """What prompt_toolkit gets for them. The text that was sent goes with the first key."""
    keys = _keys_sent(event, sent)
    if len(keys) == 2 and sent not in ANSI_SEQUENCES:
        return [KeyPress(keys[0], "\x1b"), KeyPress(keys[1], _data(keys[1], sent[1:]))]
    return [KeyPress(key, "" if at else _data(key, sent)) for at, key in enumerate(keys)]


@functools.lru_cache(maxsize=4096)
def _presses_of_key(record: bytes, sent: str) -> List[KeyPress]:
    """The same of the report of a key. It is found again, by the report's struct and text."""
    report = cast(KeyReport, event_of(record[:RECORD], record[RECORD:]))
    text = typed_text(report)
    return [KeyPress(it, it) for it in text] if text else _presses_sent(report, sent)


def _data(key: AnyKey, sent: str) -> str:
    """What goes with a key, and is inserted by one that is a character."""
    return sent if isinstance(key, Keys) else key


def _is_other_key(event: Event) -> bool:
    """Whether an event may be another key to prompt_toolkit: a control sequence that is no key to
    the library, as those that mintty sends for Ctrl with digits. Of these ESC [1;5u is a control
    character to the library."""
    if isinstance(event, KeyReport):
        return isinstance(event.key, str) and event.key < " "
    return isinstance(event, Csi)


class Parser(Vt100Parser):
    """A parser with the calls of prompt_toolkit's Vt100Parser, whose keys go to the same callback.
    The library reads the text."""

    def __init__(self, feed_key_callback: Callable[[KeyPress], None]) -> None:
        self.parser = Reader()
        # The text of an open paste is taken at each read.
        self.parser.parts = 0
        self._raw = RawEvent()
        self._handle, self._out = ctypes.byref(self.parser.handle), ctypes.byref(self._raw)
        super().__init__(feed_key_callback)

    def reset(self, request: bool = False) -> None:
        """Forgets what is buffered."""
        self.parser.reset()
        self.parser.reading = _READING
        # The reading may bring events, but none of no bytes.
        self.parser.feed(b"")
        # As many bytes as are buffered, and the text of an open paste in parts.
        self._rest = b""
        self._pasted: List[str] = []

    def feed(self, data: str) -> None:
        """Reads text, of which bytes that aren't UTF-8 are surrogates. No text means that none came
        in time: see `idle`."""
        if not data:
            self.idle()
        # However it is cut, the keys are the same. Runs are quicker, but not of short sequences or
        # of a paste.
        is_whole = self._rest or "\x1b" in data
        for run in [data] if is_whole else _RUNS.findall(data):
            self._feed_run(run)

    def _feed_run(self, data: str) -> None:
        came = data.encode("utf-8", "surrogateescape")
        if data.isprintable() and not self._rest:
            # Each event is the key of a character, and nothing stays buffered.
            for event in cast(List[Any], self.parser.feed(came)):
                self.feed_key_callback(KeyPress(event.key))
            return
        # What memory was refused for comes first.
        self._give()
        now, size = millis_of_now(None), len(came)
        is_ok(library.hed_parser_feed(self.parser.handle, now, came, size), "parser")
        self._rest += came
        self._give()

    def timeout(self) -> Optional[float]:
        """Returns how many seconds to wait for more text, None for ever. If none came, `idle` is
        called."""
        return self.parser.timeout()

    def idle(self) -> None:
        """Reads as keys what has waited for as long as `timeout` said."""
        library.hed_parser_idle(self.parser.handle, millis_of_now(None))
        self._give()

    def flush(self) -> None:
        """Reads all that is buffered as keys, but for an open paste."""
        library.hed_parser_flush(self.parser.handle)
        self._give()

    def end(self) -> None:
        """Reads all that is buffered. An open paste ends where it is."""
        library.hed_parser_end(self.parser.handle)
        self._give()

    def _give(self) -> None:
        """Gives the keys of all events, one by one: what each was sent as isn't buffered behind
        it."""
        while is_ok(_next(self._handle, self._out), "parser"):
            taken = len(self._rest) - _waiting_len(self._handle)
            sent = self._rest[:taken].decode("utf-8", "surrogateescape")
            self._rest = self._rest[taken:]
            for key_press in self._key_presses(self._record(), sent):
                self.feed_key_callback(key_press)

    def _record(self) -> bytes:
        """The struct of the event that the library told, and the bytes that it brings."""
        length = self._raw.text_len
        if not length:
            return bytes(self._raw)
        text = ctypes.create_string_buffer(length)
        library.hed_parser_text(self.parser.handle, text, length)
        return bytes(self._raw) + text.raw

    def _key_presses(self, record: bytes, sent: str) -> List[KeyPress]:
        """What prompt_toolkit gets for an event."""
        if record[0] == KIND_KEY:
            return _presses_of_key(record, sent)
        event = event_of(record[:RECORD], record[RECORD:])
        if isinstance(event, PastePart):
            self._pasted.append(event.text)
            return []
        if isinstance(event, Paste):
            text = "".join([*self._pasted, event.text])
            self._pasted.clear()
            return [KeyPress(Keys.BracketedPaste, text)]
        if isinstance(event, MouseReport):
            return [KeyPress(Keys.Vt100MouseEvent, sent)]
        if isinstance(event, CursorPosition):
            self.parser.expect_position()
            return [KeyPress(Keys.CPRResponse, f"\x1b[{event.row};{event.column}R")]
        return _presses_sent(event, sent)


class Input(Vt100Input):
    """An input for an Application or a PromptSession. stdin is sys.stdin if it is None.

    It is a Vt100Input with another parser. It also reads by itself once what is buffered has waited
    long enough."""

    def __init__(self, stdin: Optional[TextIO] = None) -> None:
        super().__init__(sys.stdin if stdin is None else stdin)
        self._parser = Parser(lambda key_press: self._buffer.append(key_press))
        self.vt100_parser = self._parser
        self._callback: Optional[Callable[[], None]] = None
        self._timer: Optional[TimerHandle] = None

    def read_keys(self) -> List[KeyPress]:
        """Returns the keys of what can be read, and those that are due."""
        keys = super().read_keys()
        if self.closed:
            # If memory is refused for the rest, these keys aren't lost.
            self._buffer = keys
            self._parser.end()
            return super().read_keys()
        self._call_in_time()
        return keys

    def flush_keys(self) -> List[KeyPress]:
        """Does what `read_keys` does: what came completes what is due. It doesn't break what may
        still become another key."""
        return self.read_keys()

    @contextlib.contextmanager
    def attach(self, input_ready_callback: Callable[[], None]) -> Iterator[None]:
        """Has the running loop call back once something can be read or is due."""
        with super().attach(input_ready_callback), self._calling(input_ready_callback):
            yield

    @contextlib.contextmanager
    def detach(self) -> Iterator[None]:
        """Has nothing read for a while."""
        with super().detach(), self._calling(None):
            yield

    @contextlib.contextmanager
    def _calling(self, callback: Optional[Callable[[], None]]) -> Iterator[None]:
        before, self._callback = self._callback, callback
        self._call_in_time()
        try:
            yield
        finally:
            self._callback = before
            self._call_in_time()

    def _call_in_time(self) -> None:
        """Calls back once what is buffered is due."""
        if self._timer:
            self._timer.cancel()
            self._timer = None
        seconds = self._parser.timeout()
        if self._callback and seconds is not None:
            self._timer = get_running_loop().call_later(seconds, self._callback)
