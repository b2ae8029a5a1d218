"""Reads bytes event by event, and knows how many of them each event consumed."""
from __future__ import annotations

import ctypes
from typing import Callable, Dict, Iterator, List, Optional, Sequence, Tuple

from hedrugal import Dialect, Event, Parser, StringKind, StringPart, Waiting
from hedrugal._calls import KIND_STRING_PART, STATUS_OK, RawEvent
from hedrugal._library import borrowed, library
from hedrugal._records import event_of

# How the bytes are read: by the sequence table alone, as termwiz reads them, or all that terminals
# send.
READINGS: Dict[str, Callable[[], Parser]] = {
    "table": lambda: Parser(Dialect.TERMWIZ),
    "extended": Parser,
}

# What introduces a string. An event has the bytes after it.
INTRODUCERS = {StringKind.OSC: b"\x1b]", StringKind.DCS: b"\x1bP", StringKind.APC: b"\x1b_"}

# How many events are skipped at once.
_ROOM = 64


def opening(part: StringPart) -> int:
    """How many bytes opened the string of a part: they are buffered once more before the rest."""
    string = iter(INTRODUCERS[part.kind] + part.data)
    with Parser() as parser:
        while parser.waiting is not Waiting.STRING:
            parser.feed(bytes([next(string)]))
        return parser.waiting_len


class Reader:
    """A parser whose events are told one by one. It calls the library by itself, since each call of
    a Parser returns all events."""

    def __init__(self, reading: str) -> None:
        self.parser = READINGS[reading]()
        self.array = (RawEvent * _ROOM)()
        # The last event, if it was the part of a string. It leaves the opening in the buffer.
        self.part: Optional[StringPart] = None

    def feed(self, data: bytes) -> None:
        library.hed_parser_feed(self.parser.handle, 0, data, len(data))

    def flush(self) -> None:
        library.hed_parser_flush(self.parser.handle)

    def end(self) -> None:
        library.hed_parser_end(self.parser.handle)

    def left(self) -> int:
        """How many of the buffered bytes belong to no event."""
        return self.parser.waiting_len - (opening(self.part) if self.part else 0)

    def items(self) -> Iterator[Tuple[int, Event]]:
        """The events that are next, each with the number of bytes that it consumed."""
        before, raw = self.left(), self.array[0]
        while library.hed_parser_next(self.parser.handle, raw) == STATUS_OK:
            event = self.event(raw)
            after = self.left()
            yield before - after, event
            before = after

    def skip(self, most: int) -> int:
        """Consumes at most so many events, without making them, and returns how many there were."""
        skipped, count = 0, ctypes.c_size_t()
        while skipped < most:
            room = min(most - skipped, _ROOM)
            library.hed_parser_next_events(self.parser.handle, self.array, room, None, 0, count)
            if not count.value:
                break
            # What brings bytes is the last one, so no other is a part of a string.
            last = self.array[count.value - 1]
            self.part = None
            if last.kind == KIND_STRING_PART:
                self.event(last)
            skipped += count.value
        return skipped

    def event(self, raw: RawEvent) -> Event:
        """The event that the library told last."""
        text = bytearray(raw.text_len)
        library.hed_parser_text(self.parser.handle, *borrowed(text))
        event = event_of(bytes(raw), text)
        self.part = event if isinstance(event, StringPart) else None
        return event


# What may come after the bytes: more bytes, nothing (a flush), or nothing and the end of an open
# paste.
ENDS = ("more", "flush", "paste")


def acts(end: str) -> Sequence[Callable[[Reader], None]]:
    """What a reader does at this end."""
    return (Reader.flush, Reader.end)[: ENDS.index(end)]


def finish(parser: Parser, end: str) -> List[Event]:
    """The events that come of the end of the input."""
    if end == "more":
        return []
    return [*parser.flush(), *(parser.end() if end == "paste" else [])]
