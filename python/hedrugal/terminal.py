r"""The terminal of a program: raw mode and modes, what is typed as events, and questions.

    >>> def run():
    ...     with Terminal() as terminal:
    ...         for event in terminal:
    ...             press = KeyPress.of_event(event)
    ...             if press and str(press) == "ctrl+q":
    ...                 return
    ...             terminal.write(f"{press or event}\n")

The block sets raw mode and switches modes on. The terminal is restored at its end, by whatever way
the program leaves it: an exception, SystemExit, SIGHUP, SIGINT, SIGQUIT and SIGTERM. While SIGTSTP
stops the program, a shell has the terminal as it was."""
from __future__ import annotations

import atexit
import collections
import contextlib
import copy
import dataclasses
import functools
import os
import re
import select
import threading
import time
from dataclasses import dataclass
from typing import AsyncIterator, Callable, Deque, Dict, Iterator, List, Optional, Union

from ._tty import (
    ENDING,
    OTHERS,
    Signals,
    discard_input,
    erase_byte,
    find_terminal,
    is_ready,
    raw_settings,
    read_bytes,
    set_settings,
    settings_of,
    size_of,
    write_all,
    write_at_once,
)
from .encoders import MouseTracking
from .events import Event, KittyKeyboardFlags, Resized, Size
from .parser import ParseError, Parser
from .questions import Questions
from .reading import NewlineByte

__all__ = ["Resumed", "Terminal", "TerminalEvent"]


@dataclass(frozen=True)
class Resumed:
    """Another program had the terminal, while this one was stopped. All is to be drawn again. A
    Resized follows, since the size may be another."""


TerminalEvent = Union[Event, Resumed]

# The question that is asked last (DA1), and where its reply may end.
_ATTRIBUTES, _BEHIND_REPLY = b"\x1b[c", re.compile(rb"(?<=c)")
_TRACKING = {
    MouseTracking.X10: 9,
    MouseTracking.NORMAL: 1000,
    MouseTracking.BUTTON: 1002,
    MouseTracking.ANY: 1003,
}
_READ = 4096
# More bytes of a paste than these come in parts.
_PASTE = 1 << 20
# How many seconds it may take to leave the terminal, and a reply is awaited then at least.
_LEAVING, _LATE = 1.0, 0.2
# `ask` reads no more once so many events are there.
_MOST_EVENTS = 65536
# No call of the system waits for longer: 24 days.
_LONGEST = 24 * 86400.0

# The Terminal that is entered.
_entered: Optional[Terminal] = None


class Terminal:
    r"""A terminal in raw mode, for a `with` block, and its events, over which the program iterates.

    paste: a paste is one event (mode 2004).
    mouse: which mouse reports there are, a MouseTracking; None is none. They are asked for in SGR's
        form (mode 1006).
    focus: whether FocusGained and FocusLost are reported (mode 1004).
    kitty: the flags of Kitty's keyboard protocol, which are pushed. A terminal that doesn't know
        the protocol goes on as before, and keys are read in both cases.
    modify_other_keys: the level of xterm's modifyOtherKeys, 0 if it is off.
    enter, leave: what is written before all this is switched on, and after it is switched off.
    input, output: the descriptors of the terminal. If one is None, it is that of standard input or
        output, or else of /dev/tty.

    Raw mode passes each byte on: nothing is echoed, Enter is CR, and Ctrl-C and Ctrl-Z are keys. A
    line that is written still ends with a line feed. What was typed before is kept.

    As it is entered the parser's `reading` gets what the settings say. Backspace sends byte 8 if
    VERASE is 8, and else 127. Byte 10 is Ctrl-J, and so is an Enter that was typed before: `enter`
    is its second press. The rest of the reading is the program's.

    The events are those of the parser, Resized with another size, and Resumed after the program was
    stopped. Bytes wait for as long as `parser.policy` says. A paste of more than `parser.parts`
    bytes, at first a megabyte, comes in parts. The events end with the input, also if the terminal
    is gone: what was buffered is flushed then.

    SIGHUP, SIGINT, SIGQUIT and SIGTERM restore the terminal and end the process as ever, SIGTSTP
    restores it and stops the process, SIGCONT sets it again if another program had it, and SIGWINCH
    brings a Resized. This is so if the main thread enters the block, for each of these signals that
    isn't ignored and has no handler. So Ctrl-C from another process still raises KeyboardInterrupt,
    and a handler of the program's own is left alone. If a process is forked, only the parent
    restores the terminal. Reads, waits and writes go on after EINTR, and after EAGAIN where another
    program set the terminal not to wait.

    After another program had the terminal, half a sequence from before is forgotten. A paste or a
    string that was open goes on, so that its rest isn't typed. Once no byte of it came for a
    second, it ends where it is.

    What is typed ahead is left for the next program. But if a reply is still to come, or mouse
    reports were on, all that comes up to the last reply is lost. It is awaited for 0.2 seconds, or
    for twice as long as the slowest one took, and for a second at most. If it doesn't come, all
    that came by then is lost. So it is if another thread reads the events.

    A process enters one Terminal at a time, and one thread or task reads its events. The same
    Terminal may be entered again. To enter raises OSError if there is no terminal, and RuntimeError
    if one is entered already. Then nothing was changed."""

    def __init__(
        self,
        *,
        paste: bool = True,
        mouse: Optional[MouseTracking] = None,
        focus: bool = False,
        kitty: KittyKeyboardFlags = KittyKeyboardFlags.NONE,
        modify_other_keys: int = 0,
        enter: bytes = b"",
        leave: bytes = b"",
        input: Optional[int] = None,
        output: Optional[int] = None,
    ) -> None:
        #: The parser, for its `policy`, its `reading` and its `parts`.
        self.parser = Parser()
        self.parser.parts = _PASTE
        modes = [2004] * paste + [1004] * focus + ([_TRACKING[mouse], 1006] if mouse else [])
        self._on = enter + b"".join(b"\x1b[?%dh" % mode for mode in modes)
        self._off = b"".join(b"\x1b[?%dl" % mode for mode in reversed(modes)) + leave
        if modify_other_keys:
            self._on += b"\x1b[>4;%dm" % modify_other_keys
            self._off = b"\x1b[>4m" + self._off
        if kitty:
            self._on += b"\x1b[>%du" % kitty.value
            self._off = b"\x1b[<u" + self._off
        self._has_mouse = bool(mouse)
        self._descriptors = input, output
        self._signals = Signals(self._leave, self._resume, self._resize)
        self._questions = Questions()
        # Events that were read, and those that came of signals.
        self._events: Deque[TerminalEvent] = collections.deque()
        self._signalled: Deque[TerminalEvent] = collections.deque()
        # The question of the last call of `ask`, and its replies by their places among the events.
        self._asked: Optional[int] = None
        self._replies: Dict[int, Event] = {}
        # Bytes that are still to be fed. If there are none, all that was read is told.
        self._unfed: Deque[bytes] = collections.deque()
        # Whether raw mode is set, what switches the modes off is still to be written, another
        # program has the terminal, one had it and that isn't noted yet, and no event can come any
        # more.
        self._is_raw = self._is_switched = self._is_lent = self._was_away = False
        self._is_ended = True

    def __enter__(self) -> Terminal:
        global _entered
        if _entered is not None:
            raise RuntimeError("a Terminal is entered already")
        with contextlib.ExitStack() as stack:
            self._open(stack)
            _entered = self
            atexit.register(self._restore)
            stack.callback(self._restore)
            self._signals.handle(self._wakes)
            self._enter()
            self._stack = stack.pop_all()
        return self

    def __exit__(self, *_: object) -> None:
        self._stack.close()

    def __iter__(self) -> Iterator[TerminalEvent]:
        return self

    def __next__(self) -> TerminalEvent:
        event = self.read()
        if event is None:
            raise StopIteration
        return event

    def __aiter__(self) -> AsyncIterator[TerminalEvent]:
        """Returns the events one by one, in the running loop of asyncio. To cancel a wait loses no
        event."""
        return self

    async def __anext__(self) -> TerminalEvent:
        while not self._events and not self._is_ended:
            await self._wait(self._limit())
            self._advance(0)
        if not self._events:
            raise StopAsyncIteration
        return self._events.popleft()

    @property
    def ended(self) -> bool:
        """Whether no event can come any more: the input has ended, or the block was left."""
        return self._is_ended and not self._events

    def read(self, timeout: Optional[float] = None) -> Optional[TerminalEvent]:
        """Returns the next event. Returns None if none came in so many seconds, or if none can come
        any more, which `ended` tells. With None it waits for ever, and with 0 not at all.

        Raises MemoryError if memory is refused: no event is lost, and the call may be made again.
        So does the loop over the events."""
        if self._events:
            return self._events.popleft()
        end = None if timeout is None else time.monotonic() + timeout
        while not self._events and not self._is_ended:
            left = None if end is None else max(0.0, end - time.monotonic())
            if not self._advance(left) and left == 0:
                break
        return self._events.popleft() if self._events else None

    def ask(self, question: bytes, timeout: float = 1.0) -> List[Event]:
        r"""Writes a question, such as ESC ]11;? ESC \\ for the background's colour, and returns the
        replies that came within so many seconds. Several questions may be asked at once.
        `hedrugal.reply` says what a reply tells.

        The question for the terminal's attributes (DA1) is written last. Terminals answer in order,
        so the wait ends with that reply, which is the last of the list. If it isn't there, the list
        isn't whole. The time was too short, or another program had the terminal, or 65536 events
        are there, which are to be read first. A few terminals never answer, as dvtm and Emacs'
        ansi-term.

        What is typed meanwhile is an event, and so is the reply to an earlier question. If the call
        raises an exception, the replies so far are events too.

        A reply is awaited for two seconds, or for `timeout` if that is longer. One that comes later
        is an event, but within a later call it is taken for the reply to that one. While 16
        questions await theirs, no further one is written, and the list is empty.

        Raises OSError if the terminal is gone: then nothing is awaited."""
        end = self._write_question(question, timeout)
        while left := self._left(end):
            self._advance(left)
        return self._taken()

    async def ask_async(self, question: bytes, timeout: float = 1.0) -> List[Event]:
        """Does what `ask` does, in the running loop of asyncio."""
        end = self._write_question(question, timeout)
        while left := self._left(end):
            await self._wait(_earliest(left, self._limit()))
            self._advance(0)
        return self._taken()

    def write(self, data: Union[bytes, str]) -> None:
        """Writes bytes or a text, all of it: it waits while nobody reads what is written. Raises
        OSError if the terminal is gone."""
        write_all(self._output, data.encode() if isinstance(data, str) else data)

    def size(self) -> Size:
        """Returns the terminal's size, in characters and in pixels. What isn't known is 0."""
        return size_of(self._output)

    @contextlib.contextmanager
    def lend(self) -> Iterator[None]:
        """Restores the terminal for another program, such as an editor that is started, and sets it
        again at the end of the `with` block, whatever that program made of it."""
        self._is_lent = True
        try:
            self._leave()
            yield
        finally:
            self._is_lent, self._was_away = False, True
            self._enter()

    def fileno(self) -> int:
        """Returns a descriptor that is readable once bytes or a signal came: for a loop of another
        kind, which waits for it as long as `timeout` says, and calls `read(0)` until that is
        None."""
        return self._epoll.fileno()

    def timeout(self) -> Optional[float]:
        """Returns for how many seconds such a loop may wait, None for ever. It is 0.0 while events
        are there, such as those that came within `ask`."""
        return 0.0 if self._events else self._limit()

    # What was read.

    def _limit(self) -> Optional[float]:
        """How many seconds a wait for more may take, None for ever."""
        if self._unfed or self._was_away:
            return 0.0
        now = time.monotonic()
        return _earliest(self.parser.timeout(now), self._questions.timeout(now))

    def _advance(self, limit: Optional[float]) -> bool:
        """Waits for bytes or a signal, for so many seconds or as long as `_limit` says, and handles
        what came. Returns whether anything came."""
        self._reader = threading.current_thread()
        if self._unfed or self._was_away:
            self._catch_up()
            return True
        limit = _earliest(limit, self._limit())
        self._epoll.poll(None if limit is None else min(limit, _LONGEST))
        # A wait that ends in a signal's handler doesn't look again. So what is due now is due only
        # if nothing has come.
        now = time.monotonic()
        ready = [fd for fd, _ in self._epoll.poll(0)]
        if self._wake in ready:
            self._take_signals()
        elif ready:
            self._take_input()
        else:
            self._tell(lambda: self.parser.idle(now))
            self._questions.expire(self.parser, now)
        return bool(ready)

    async def _wait(self, limit: Optional[float]) -> None:
        """Waits as `_advance` does, in the running loop."""
        # The module is large, and not every program needs it.
        import asyncio

        loop = asyncio.get_running_loop()
        ready = loop.create_future()

        def wake() -> None:
            if not ready.done():
                ready.set_result(None)

        loop.add_reader(self, wake)
        timer = None if limit is None else loop.call_later(limit, wake)
        try:
            await ready
        finally:
            loop.remove_reader(self)
            if timer:
                timer.cancel()

    def _take_signals(self) -> None:
        with contextlib.suppress(BlockingIOError):
            os.read(self._wake, 64)
        while self._signalled:
            self._events.append(self._signalled.popleft())

    def _take_input(self) -> None:
        data = read_bytes(self._input, _READ)
        if data:
            # What is behind the reply to the last question is read as if no question were open.
            self._unfed.extend(_BEHIND_REPLY.split(data) if self._questions.count else [data])
            self._catch_up()
        elif data is not None:
            self._tell(self.parser.end)
            self._is_ended = True

    def _catch_up(self) -> None:
        """Tells all that was read, and then notes that another program had the terminal."""
        while self._unfed:
            data = self._unfed.popleft()
            self._tell(functools.partial(self.parser.feed, data), data)
        if self._was_away:
            # A signal that comes meanwhile may say so again.
            self._was_away = False
            try:
                self.parser.interrupted()
            except MemoryError:
                self._was_away = True
                raise
            self._questions.forget(self.parser)

    def _tell(self, call: Callable[[], List[Event]], data: bytes = b"") -> None:
        """Adds the events of a call of the parser. If memory is refused, a later feed tells the
        rest, of these bytes too if they weren't taken."""
        try:
            events = call()
        except ParseError as error:
            self._unfed.appendleft(b"" if error.taken else data)
            self._add(error.events)
            raise
        self._add(events)

    def _add(self, events: List[Event]) -> None:
        if not self._questions.count:
            self._events.extend(events)
            return
        for event in events:
            if self._questions.note(self.parser, event) == self._asked:
                self._replies[len(self._events)] = event
            self._events.append(event)

    # Questions.

    def _write_question(self, question: bytes, seconds: float) -> float:
        """Writes questions, and returns until when `ask` waits. If they can't be written, none of
        them is open."""
        self._catch_up()
        self._replies.clear()
        now, before = time.monotonic(), copy.copy(self._questions)
        self._asked = self._questions.ask(self.parser, question, seconds, now)
        if self._asked is not None:
            try:
                self.write(question + _ATTRIBUTES)
            except OSError:
                self._questions = before
                self._questions.expire(self.parser, now)
                raise
        return now + seconds

    def _left(self, end: float) -> float:
        """How many seconds `ask` still waits, 0 once its question isn't open."""
        is_open = self._asked is not None and self._questions.is_open(self._asked)
        if not is_open or self._is_ended or len(self._events) >= _MOST_EVENTS:
            return 0.0
        return max(0.0, end - time.monotonic())

    def _taken(self) -> List[Event]:
        """Takes the replies from the events."""
        replies = [*self._replies.values()]
        others = (it for place, it in enumerate(self._events) if place not in self._replies)
        self._events = collections.deque(others)
        return replies

    # The terminal's modes.

    def _open(self, stack: contextlib.ExitStack) -> None:
        """Finds the terminal, and opens what a wait needs."""
        self._input, self._output = (
            find_terminal(chosen, standard, stack)
            for standard, chosen in enumerate(self._descriptors)
        )
        self._saved = self._ours = settings_of(self._input)
        self.parser.reading = dataclasses.replace(
            self.parser.reading, erase=erase_byte(self._saved), newline=NewlineByte.CTRL_J
        )
        self._wake, self._wakes = os.pipe2(os.O_NONBLOCK | os.O_CLOEXEC)
        stack.callback(os.close, self._wake)
        stack.callback(os.close, self._wakes)
        self._epoll = stack.enter_context(select.epoll())
        self._epoll.register(self._input, select.EPOLLIN)
        self._epoll.register(self._wake, select.EPOLLIN)
        self._pid = os.getpid()
        self._reader = threading.current_thread()
        self._events.clear()
        self._signalled.clear()
        self._unfed.clear()
        self.parser.reset()
        self._questions.forget(self.parser)
        self._is_ended = self._was_away = self._is_lent = False

    def _enter(self) -> None:
        """Sets raw mode, and switches the modes on. If they were never left, as around SIGSTOP,
        they are left first, since some of them nest."""
        with self._signals.holding(OTHERS):
            self._is_raw = True
            set_settings(self._input, raw_settings(self._saved))
            self._ours = settings_of(self._input)
            self._switch_off(time.monotonic() + _LEAVING)
            # From the first byte on, since a signal may end the write.
            self._is_switched = True
            self.write(self._on)

    def _leave(self) -> None:
        """Switches the modes off, takes what the terminal sends too late, and restores the
        settings. A terminal that is gone can't be restored."""
        if not self._is_raw or self._is_forked():
            return
        with self._signals.holding(ENDING | OTHERS):
            end = time.monotonic() + _LEAVING
            is_all = False
            try:
                self._switch_off(end)
                with contextlib.suppress(OSError, MemoryError):
                    is_all = self._take_late(end)
            finally:
                with contextlib.suppress(OSError):
                    set_settings(self._input, self._saved)
                    if not is_all:
                        discard_input(self._input)
                self._is_raw = False

    def _switch_off(self, end: float) -> None:
        if self._is_switched:
            self._is_switched = False
            write_at_once(self._output, self._off, end)

    def _take_late(self, end: float) -> bool:
        """Reads what the terminal still sends for this program, and no byte behind it. Returns
        whether nothing of it is left for the next program."""
        if not self._questions.count and not self._has_mouse:
            return True
        # A signal's handler may be here in the middle of a call of the parser.
        with Parser() as parser:
            owed = Questions() if self._was_away else copy.copy(self._questions)
            now = time.monotonic()
            owed.expire(parser, now)
            if not owed.count and not self._has_mouse:
                return True
            return self._take_owed(parser, owed, now, end)

    def _take_owed(self, parser: Parser, owed: Questions, now: float, end: float) -> bool:
        """Reads up to the last reply that is owed by now."""
        slowest = self._questions.slowest
        if not owed.count and slowest is None:
            return False
        if self._reader is not threading.current_thread() and self._reader.is_alive():
            # It may read first, and this thread would wait for another byte.
            return False
        if not owed.count:
            # The reply comes behind all mouse reports.
            owed.ask(parser, b"", _LEAVING, now)
            write_at_once(self._output, _ATTRIBUTES, end)
        end = min(end, time.monotonic() + max(_LATE, 2 * (slowest or 0.0)))
        while owed.count and (left := end - time.monotonic()) > 0:
            if not is_ready(self._input, select.POLLIN, left):
                break
            byte = os.read(self._input, 1)
            if not byte:
                break
            for event in parser.feed(byte):
                owed.note(parser, event, now)
        return not owed.count

    def _restore(self) -> None:
        """Does at the end of the block, or else of the process, what undoes its beginning."""
        global _entered
        # A signal that comes meanwhile sets the terminal no more.
        self._is_lent = True
        try:
            self._leave()
        finally:
            self._is_ended = True
            atexit.unregister(self._restore)
            _entered = None
            self._signals.release()

    # Signals.

    def _resume(self) -> None:
        """Sets the terminal again, unless nobody else had it."""
        if self._is_lent or self._is_forked():
            return
        # If the terminal is gone, the next read tells.
        with contextlib.suppress(OSError):
            if self._is_raw and settings_of(self._input) == self._ours:
                return
            self._was_away = True
            self._enter()
            self._signal(Resumed(), Resized(self.size()))

    def _resize(self) -> None:
        with contextlib.suppress(OSError):
            self._signal(Resized(self.size()))

    def _is_forked(self) -> bool:
        """Whether the terminal is that of a parent, which this process is a copy of."""
        return os.getpid() != self._pid

    def _signal(self, *events: TerminalEvent) -> None:
        """Has the reader take these events."""
        self._signalled.extend(events)
        with contextlib.suppress(BlockingIOError):
            os.write(self._wakes, b"\0")


def _earliest(*limits: Optional[float]) -> Optional[float]:
    return min((limit for limit in limits if limit is not None), default=None)
