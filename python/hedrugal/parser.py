"""The parser: it reads events from the bytes that a terminal sends."""
from __future__ import annotations

import ctypes
import itertools
import sys
from dataclasses import dataclass
from typing import Any, Iterator, List, Optional, cast

from . import _compiled
from ._calls import (
    KIND_KEY,
    NO_PARTS,
    STATUS_BUSY,
    STATUS_OK,
    RawEntries,
    RawEvent,
    RawHandle,
    RawReading,
)
from ._enums import Named, numbered
from ._library import Bytes, borrowed, copied, fault, is_ok, library, refused
from ._owned import Owned, UntilNone
from ._records import Events
from .events import Event, MouseReport
from .keys import Key, Modifiers, key_of
from .reading import Dialect, Reading, number_of, raw_reading, reading_of
from .timer import Policy, millis_of_now, raw_policy, wait_of

__all__ = ["Completions", "Entry", "ParseError", "Parser", "Waiting"]

# More bytes than an entry has.
_ENTRY_ROOM = 16

# All events of keys that are found again.
_events = Events()


class Waiting(Named):
    """What stays buffered: see `Parser.waiting`."""

    # hedrugal.h: waiting member
    NOTHING = numbered(0, "Nothing is buffered.")
    ESCAPE = numbered(
        1,
        "ESC, or ESC ESC: the Escape key, alone or with Alt, unless more bytes follow.",
    )
    SEQUENCE = numbered(2, "A longer prefix of a sequence, after an ESC or not.")
    CHARACTER = numbered(3, "A prefix of a character in UTF-8, after an ESC or not.")
    PASTE = numbered(4, "An open paste: its start, and its text so far.")
    STRING = numbered(5, "An open string: its opening, and its bytes so far.")
    # hedrugal.h: end


@dataclass(frozen=True)
class Entry:
    """An entry of the sequence table: its bytes, and the key and the modifiers that they mean."""

    bytes: bytes
    key: Key
    modifiers: Modifiers = Modifiers.NONE


@dataclass(frozen=True)
class Completions:
    """The entries that would complete what stays buffered: see `Parser.completions`.

    `entries` are their places. If `with_alt` is true, they complete what follows the ESC, and their
    keys get ALT."""

    entries: range
    with_alt: bool = False


_waitings = {kind.value: kind for kind in Waiting}


class ParseError(MemoryError):
    """Memory was refused while a parser told its events. No event is lost, and the parser may be
    used again: the next call goes on.

    `events` are those that were told before that. `taken` is whether the call did what it says: if
    it is false, none of the bytes is buffered, and the call may be made again."""

    def __init__(self, events: List[Event], taken: bool) -> None:
        super().__init__(events, taken)
        self.events = events
        self.taken = taken

    def __str__(self) -> str:
        return f"out of memory: the bytes were {'' if self.taken else 'not '}taken"


# The idle parser whose sequence table all parsers share. It is never freed, so the table stays
# until the process ends.
_idle = RawHandle()


def _parser_with_table() -> RawHandle:
    """The idle parser, which is made with the first parser. If it is refused memory, the next
    parser tries again.

    A call of the library keeps Python's lock. Between two calls another thread may come in, and
    both may make the idle parser. The second call then frees the first's, whose table stays with
    the parsers that share it."""
    if not _idle.live and library.hed_parser_init(_idle, Dialect.EXTENDED.value) != STATUS_OK:
        raise refused()
    return _idle


def _not_negative(number: int) -> int:
    if not isinstance(number, int):
        raise TypeError(f"an int is required, not {type(number).__name__}")
    if number < 0:
        raise ValueError(f"{number} is negative")
    return number


class Parser(Owned):
    r"""Reads all that terminals send: keys and the mouse in any mode, pasted texts, replies, and
    reports. `feed` takes bytes and returns their events.

        >>> with Parser() as parser:
        ...     for event in parser.feed(b"\x03\x1b[1;9A\x1b[99;5:3u"):
        ...         print(event)
        KeyReport(key='c', modifiers=KittyModifiers.CTRL)
        KeyReport(key=KeyCode.UP_ARROW, modifiers=KittyModifiers.SUPER)
        KeyReport(key='c', modifiers=KittyModifiers.CTRL, kind=KeyEventKind.RELEASE)

    Every key is a KeyReport, whether it was typed or reported by Kitty's keyboard protocol. So a
    program needn't know what its terminal speaks, and may turn protocols on and off at any time.
    However the bytes are cut into calls, the events are the same.

    Bytes that are no event yet stay buffered. So does a lone ESC, since it may begin a sequence:
    only time tells that it is the Escape key. `timeout` says how long to wait for more bytes, and
    `idle` says that none came. The docstring of the package has the loop of a program.

    `now` is the time of time.monotonic(), which is read if it is None. Each call that takes it
    raises ValueError if it is negative or NaN, and TypeError if it is no number.

    `feed`, `idle`, `flush` and `end` raise ParseError, which is a MemoryError, if memory is
    refused. It has the events that were told before, and the next of these calls tells the rest.

    A parser owns memory outside of Python. `close` frees it; so do the end of a `with` block and
    the end of the parser's life. Every other call raises ValueError once the parser is closed. It
    can't be copied or pickled. All parsers share one sequence table, which the first of them makes
    and which stays. So a program may have thousands of them. Making one raises MemoryError if
    memory is refused.

    Threads may share a parser. Each call has it for itself while others wait, `close` too, and each
    event goes to one thread. A signal's handler or a finalizer that comes in the middle of a call
    of its own thread can't wait: there all raises RuntimeError but `shrink_to`, `expect_position`,
    `forget_positions` and what only reads."""

    def __init__(self, dialect: Dialect = Dialect.EXTENDED) -> None:
        number = number_of(Dialect, dialect)

        def init(handle: RawHandle) -> Any:
            return library.hed_parser_init_sharing(handle, number, _parser_with_table())

        super().__init__("parser", init, library.hed_parser_free)
        self._policy = Policy()
        self._parts: Optional[int] = None
        # It has the events that no call has returned yet.
        self._reader = _compiled.reader(
            ctypes.addressof(self.handle), self.lock, is_ok, ParseError, MouseReport
        )

    def __repr__(self) -> str:
        with self.lock:
            state = "closed" if self.closed else f"{self.waiting_len} bytes are buffered"
        return f"<{type(self).__name__}, {state}>"

    def feed(self, data: Bytes, now: Optional[float] = None) -> List[Event]:
        """Takes bytes, which came now, and returns their events in order. Bytes that are no event
        yet stay buffered."""
        # Most reads are bytes, and find the lock free: they are spared two calls.
        text = data if type(data) is bytes else copied(data)
        millis = None if now is None else millis_of_now(now)
        if self.lock._is_owned():
            self._alone()
        # It takes the lock itself.
        return _compiled.feed(self._reader, _events, text, millis)

    def idle(self, now: Optional[float] = None) -> List[Event]:
        r"""Says that nothing more came up to now: the program looked, as by a select that timed
        out. Returns the events of what has waited for as long as `timeout` said. ESC is the Escape
        key then, the beginning of a sequence is keys, a string is cut off, and an open paste is
        ended where it is. Before that time there are none.

            >>> with Parser() as parser:
            ...     events = parser.feed(b"\x1b", 7.0)
            ...     [*events, parser.timeout(7.0), *parser.idle(7.049), *parser.idle(7.05)]
            [0.05, KeyReport(key=KeyCode.ESCAPE)]"""
        millis = millis_of_now(now)
        with self._alone():
            library.hed_parser_idle(self.handle, millis)
            return self._tell()

    def flush(self) -> List[Event]:
        """Returns the events of what is buffered, with no more to come. An open paste stays open.
        It is for a program that knows by itself that nothing more came, as at its pauses."""
        with self._alone():
            library.hed_parser_flush(self.handle)
            return self._tell()

    def end(self) -> List[Event]:
        """Says that nothing will ever come. Returns the events of all that is buffered: an open
        paste ends where it is."""
        with self._alone():
            library.hed_parser_end(self.handle)
            return self._tell()

    def timeout(self, now: Optional[float] = None) -> Optional[float]:
        """Returns how many seconds to wait for more bytes, and None for ever. If none come, call
        `idle`. It is 0.0 if something is due, and while events are left, as after a ParseError or
        once `reading` or `parts` was assigned."""
        told = millis_of_now(now)
        with self.lock:
            self._check_open()
            if _compiled.has_left(self._reader):
                return 0.0
            return wait_of(library.hed_parser_timeout(self.handle, told))

    def interrupted(self, now: Optional[float] = None) -> None:
        """Says that another program had the terminal up to now. The beginning of a sequence that is
        buffered is forgotten, since its rest went there, and so are open questions for the
        cursor's position. An open paste or string stays, as the rest of it would be typed
        otherwise. It ends where it is once nothing came for a second.

        Events that are left, as after a ParseError, are told by the next call. Raises MemoryError
        if memory is refused for them: nothing is forgotten then, and the call may be made again."""
        told = millis_of_now(now)
        with self._alone():
            answer = library.hed_parser_interrupted(self.handle, told)
            if answer == STATUS_BUSY:
                _compiled.keep(self._reader, _events)
                answer = library.hed_parser_interrupted(self.handle, told)
            is_ok(answer, self._what)

    @property
    def waiting(self) -> Waiting:
        """What stays buffered. It tells a program what to show, or to log, of bytes that wait:
        `timeout` says how long they may."""
        with self.lock:
            self._check_open()
            return _waitings.get(library.hed_parser_waiting(self.handle)) or fault()

    @property
    def waiting_len(self) -> int:
        """The number of bytes that are buffered."""
        with self.lock:
            self._check_open()
            return cast(int, library.hed_parser_waiting_len(self.handle))

    @property
    def policy(self) -> Policy:
        """How long each kind of bytes may stay buffered, a Policy. Assign another to change it; of
        a limit whole milliseconds count.

            >>> with Parser() as parser:
            ...     parser.policy = Policy(paste=10)
            ...     parser.policy.paste
            10

        To assign raises TypeError or ValueError for what is no number of seconds from 0 on. The
        limits are those from before then."""
        with self.lock:
            self._check_open()
            return self._policy

    @policy.setter
    def policy(self, policy: Policy) -> None:
        raw = raw_policy(policy)
        with self._alone():
            is_ok(library.hed_parser_set_policy(self.handle, raw), self._what)
            self._policy = policy

    @property
    def parts(self) -> Optional[int]:
        """How many bytes of a paste are held, or None. With a limit such as 1 << 20 more of it
        comes as a PastePart, so a paste of any length needs little memory. With None, as at first,
        a paste is one event, and is buffered until its end arrives, whatever its length.

        To assign raises TypeError for what is no int, and ValueError for a negative one."""
        with self.lock:
            self._check_open()
            return self._parts

    @parts.setter
    def parts(self, limit: Optional[int]) -> None:
        most = NO_PARTS if limit is None else min(_not_negative(limit), NO_PARTS - 1)
        with self._alone():
            self._check_open()
            library.hed_parser_set_parts(self.handle, most)
            self._parts = limit

    @property
    def reading(self) -> Reading:
        r"""How it reads, a Reading. Assign another to change it; what is buffered is then read by
        the new one. A program takes `erase` and `newline` from its terminal's settings, as
        hedrugal.terminal does. For an input that is no terminal byte 10 is Enter:

            >>> import os, termios
            >>> def reading_of(descriptor):
            ...     if not os.isatty(descriptor):
            ...         return Reading(newline=NewlineByte.ENTER)
            ...     iflag, *_, characters = termios.tcgetattr(descriptor)
            ...     is_backspace = characters[termios.VERASE] == b"\b"
            ...     return Reading(
            ...         erase=EraseByte.BACKSPACE if is_backspace else EraseByte.DELETE,
            ...         newline=NewlineByte.ENTER if iflag & termios.ICRNL else NewlineByte.CTRL_J,
            ...     )
            >>> with Parser() as parser, open(os.devnull) as file:
            ...     parser.reading = reading_of(file.fileno())
            ...     [str(KeyPress.of_event(event)) for event in parser.feed(b"\b\x7f\n")]
            ['ctrl+h', 'backspace', 'enter']

        To assign raises TypeError for what is no Reading, and ValueError if questions is none of 0
        to 255. The reading is that from before then."""
        raw = RawReading()
        with self.lock:
            is_ok(library.hed_parser_reading(self.handle, raw), self._what)
        return reading_of(raw)

    @reading.setter
    def reading(self, reading: Reading) -> None:
        raw = raw_reading(reading)
        with self._alone():
            is_ok(library.hed_parser_set_reading(self.handle, raw), self._what)

    def expect_position(self) -> None:
        r"""Expects one more reply to a question for the cursor's position. Call it with each
        ESC [6n that is written; 255 may be open.

            >>> with Parser() as parser:
            ...     parser.expect_position()
            ...     for event in parser.feed(b"\x1b[1;5R\x1b[1;5R"):
            ...         print(event)
            CursorPosition(row=1, column=5)
            KeyReport(key=Function(number=3), modifiers=KittyModifiers.CTRL)

        While one is open, ESC [1;5R and the like are a CursorPosition, and not F3 with modifiers.
        Each such event answers one question, and `reset` forgets all."""
        with self.lock:
            self._check_open()
            library.hed_parser_expect_position(self.handle)

    def forget_positions(self) -> None:
        """Expects no reply any more to such questions. Call it when a reply is overdue, or when a
        later question was answered."""
        with self.lock:
            self._check_open()
            library.hed_parser_forget_positions(self.handle)

    def skip_paste(self) -> Optional[int]:
        """Forgets text of an open paste before its end arrives, and returns how many bytes these
        were, None if no paste is open. The paste stays open.

        To refuse a paste that is too long, call it after each `feed` until the Paste comes, and
        ignore that event. So no byte of the paste becomes a key."""
        count = ctypes.c_size_t()
        with self._alone():
            is_open = is_ok(library.hed_parser_skip_paste(self.handle, count), self._what)
            return count.value if is_open else None

    def reset(self) -> int:
        """Forgets all buffered bytes, those of an open paste too, and returns how many there were.
        Open questions for the cursor's position, and events that no call returned, are forgotten
        too."""
        with self._alone():
            self._check_open()
            _compiled.forget(self._reader)
            library.hed_parser_drop_text(self.handle)
            return cast(int, library.hed_parser_reset(self.handle))

    def shrink_to(self, min_capacity: int = 0) -> None:
        """Gives back memory that holds no buffered bytes, but for room for so many. What is
        buffered and all later events are unchanged.

        The buffer grows with what it has to hold, such as a long paste, and keeps that memory for
        what comes next. Call this for the parser of a session that is quiet. Raises ValueError if
        min_capacity is negative."""
        room = min(_not_negative(min_capacity), sys.maxsize)
        with self.lock:
            self._check_open()
            library.hed_parser_shrink_to(self.handle, room)

    def entry(self, place: int) -> Optional[Entry]:
        r"""Returns the entry of the sequence table at a place, in the order of the entries' bytes.
        Returns None from the end of the table on.

            >>> with Parser() as parser:
            ...     parser.entry(0)
            Entry(bytes=b'\x01', key='a', modifiers=Modifiers.CTRL)"""
        if not isinstance(place, int):
            raise TypeError(f"an int is required, not {type(place).__name__}")
        raw, room = RawEvent(), bytearray(_ENTRY_ROOM)
        pointer, size = borrowed(room)
        place = place if 0 <= place <= sys.maxsize else sys.maxsize
        with self.lock:
            self._check_open()
            length = library.hed_parser_entry(self.handle, place, pointer, size, raw)
        if not length:
            return None
        if length > size or raw.kind != KIND_KEY:
            fault()
        return Entry(
            bytes(room[:length]), key_of(raw.key, raw.detail), Modifiers(2 * raw.modifiers)
        )

    def entries(self) -> Iterator[Entry]:
        """Returns the entries of the sequence table one by one, in the order of their bytes."""
        places = itertools.count()
        return UntilNone(lambda: self.entry(next(places)))

    def completions(self) -> Completions:
        r"""Returns the entries that would complete what stays buffered: those that begin with it
        and are longer. If there are none, they are those that begin with what follows its ESC.
        Their keys then get ALT.

        Read it while `waiting` is Waiting.ESCAPE or Waiting.SEQUENCE. A mouse report or a character
        isn't in the table. So there may be no such entry. The start of a paste is no key event:
        after an ESC the Escape key is told, and the paste is open.

            >>> with Parser() as parser:
            ...     events = parser.feed(b"\x1b[1;5")
            ...     entries = [parser.entry(place) for place in parser.completions().entries]
            >>> events, entries[0]
            ([], Entry(bytes=b'\x1b[1;5A', key=KeyCode.UP_ARROW, modifiers=Modifiers.CTRL))"""
        found = RawEntries()
        with self.lock:
            self._check_open()
            is_ok(library.hed_parser_completions(self.handle, found), self._what)
        return Completions(range(found.first, found.first + found.count), bool(found.with_alt))

    def _tell(self) -> List[Event]:
        """Returns all events that are there, while the lock is held."""
        return _compiled.tell(self._reader, _events)
