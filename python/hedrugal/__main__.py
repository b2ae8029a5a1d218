"""Shows the keys of this terminal: the name of each, by which programs bind it, and its bytes.

    python3 -m hedrugal

is what the command hedrugal does where the package is installed. Ctrl with the up arrow, é and a
paste are

    ctrl+up            ESC [ 1 ; 5 A
    é                  é
    Paste(text='hi')   ESC [ 2 0 0 ~ h i ESC [ 2 0 1 ~

ctrl+d twice in a row ends it, and so does the end of the input. The terminal is restored then, and
whenever a signal ends or stops the program."""
from __future__ import annotations

import sys
from typing import Iterable, List, NamedTuple, Optional, cast

from . import Event, Parser, __version__
from ._calls import RawEvent
from ._library import Bytes, borrowed, is_ok, library
from ._records import event_of
from .page.lines import press_name
from .terminal import Terminal
from .timer import millis_of_now

# The width of a name, and how many characters of an event or of its bytes are shown.
_WIDTH, _MOST = 16, 60


class Traced(NamedTuple):
    """An event, and the bytes that it consumed."""

    event: Event
    data: bytes


class TracingParser(Parser):
    """A parser whose events are Traced. It takes them from the library one by one, which then says
    how many bytes are left."""

    def __init__(self) -> None:
        super().__init__()
        self._fed = bytearray()

    def feed(self, data: Bytes, now: Optional[float] = None) -> List[Event]:
        # What was forgotten meanwhile is no byte of a later event.
        del self._fed[: len(self._fed) - self.waiting_len]
        (pointer, length), millis = borrowed(data), millis_of_now(now)
        with self._alone():
            # What memory was refused for comes first.
            left = self._tell()
            is_ok(library.hed_parser_feed(self.handle, millis, pointer, length), self._what)
            self._fed += data
            return left + self._tell()

    def _tell(self) -> List[Event]:
        told, raw = [], RawEvent()
        while is_ok(library.hed_parser_next(self.handle, raw), self._what):
            event = event_of(bytes(raw), self._text_of(raw.text_len))
            library.hed_parser_drop_text(self.handle)
            consumed = len(self._fed) - library.hed_parser_waiting_len(self.handle)
            told.append(cast(Event, Traced(event, bytes(self._fed[:consumed]))))
            del self._fed[:consumed]
        return told

    def _text_of(self, length: int) -> bytearray:
        """The bytes of the event that the library told last."""
        text = bytearray(length)
        library.hed_parser_text(self.handle, *borrowed(text))
        return text


def word(character: str) -> str:
    """How a character among the bytes is written: ESC, SP, ^M, é, or in hexadecimal."""
    code = ord(character)
    if code < 0x20 or code == 0x7F:
        return "ESC" if code == 0x1B else f"^{chr(code ^ 0x40)}"
    if code == 0x20:
        return "SP"
    return character if character.isprintable() else hexadecimal(character)


def hexadecimal(character: str) -> str:
    return character.encode("utf-8", "surrogateescape").hex(" ")


def cut(text: str) -> str:
    return text if len(text) <= _MOST else f"{text[:_MOST]}…"


def line(event: Event, data: bytes) -> str:
    """The name of a key, or the event of what is none, and the bytes."""
    words = " ".join(map(word, data.decode("utf-8", "surrogateescape")))
    return f"{press_name(event) or cut(repr(event)):{_WIDTH}}   {cut(words)}"


def show_keys() -> None:
    """Writes a line for each event, until ctrl+d comes twice in a row."""
    terminal = Terminal()
    terminal.parser = TracingParser()
    with terminal:
        terminal.write(f"hedrugal {__version__}: press keys; ctrl+d twice ends it\n")
        events: Iterable[object] = terminal
        before = ""
        for it in events:
            # Not a new size, which brings no bytes.
            if isinstance(it, Traced):
                terminal.write(f"{line(*it)}\n")
                name = press_name(it.event)
                if name == before == "ctrl+d":
                    return
                before = name


def main() -> int:
    words = sys.argv[1:]
    if words in (["-h"], ["--help"]):
        print(__doc__)
        return 0
    if words == ["--version"]:
        print(f"hedrugal {__version__}")
        return 0
    if words:
        print(f"hedrugal: what is '{words[0]}'? --help says more", file=sys.stderr)
        return 2
    try:
        show_keys()
    except OSError as error:
        print(f"hedrugal: {error}", file=sys.stderr)
        return 1
    return 0


if __name__ == "__main__":
    sys.exit(main())
