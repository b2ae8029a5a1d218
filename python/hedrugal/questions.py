"""The questions that a program has asked its terminal."""
from __future__ import annotations

import ctypes
from typing import Optional

from ._calls import STATUS_FULL, RawEvent, RawQuestions
from ._library import borrowed, is_ok, library
from .events import KINDS, Csi, Event
from .parser import Parser
from .timer import millis, millis_of_now, wait_of

_MOST_MILLIS = 2**64 - 1


class Questions:
    r"""Tells which events are replies to which question. A program keeps one beside its parser. It
    may be used by one thread.

    Behind a question the program writes ESC [c (DA1), which nearly every terminal answers. Replies
    come in the order of the questions. So a question is open until the reply to DA1 comes, or for
    so many seconds, at least 2: some terminals never answer.

        >>> questions, parser = Questions(), Parser()
        >>> questions.ask(parser, b"\x1b]11;?\x1b\\", 2.0)
        1
        >>> events = parser.feed(b"q\x1b]11;rgb:0/0/0\x07\x1b[?62c")
        >>> [questions.note(parser, event) for event in events], questions.answered
        ([0, 1, 1], 1)"""

    def __init__(self) -> None:
        self._raw = RawQuestions()

    def __copy__(self) -> Questions:
        other = Questions()
        other._raw = RawQuestions.from_buffer_copy(self._raw)
        return other

    def ask(
        self, parser: Parser, question: bytes, seconds: float, now: Optional[float] = None
    ) -> Optional[int]:
        """Notes that the program asks now, and returns the number of the question: 1 for the first,
        and 1 more for each further one. Returns None if 16 are open. For each ESC [6n of it the
        parser expects a position of the cursor."""
        (text, length), number = borrowed(question), ctypes.c_uint64()
        told, time = millis_of_now(now), millis(seconds, _MOST_MILLIS)
        with parser.lock:
            answer = library.hed_questions_ask(
                self._raw, parser.handle, told, time, text, length, number
            )
        return None if answer == STATUS_FULL or not is_ok(answer, "parser") else number.value

    def note(self, parser: Parser, event: Event, now: Optional[float] = None) -> int:
        """Notes an event of the parser. Returns which question it is a reply to, 0 if it is none.
        Pass each event, in the order in which they are told."""
        if not self._raw.count:
            return 0
        raw, number = RawEvent(kind=KINDS.get(type(event), 0)), ctypes.c_uint64()
        text, length = borrowed(event.data[:256] if isinstance(event, Csi) else b"")
        told = millis_of_now(now)
        with parser.lock:
            answer = library.hed_questions_note(
                self._raw, parser.handle, told, raw, text, length, number
            )
        is_ok(answer, "parser")
        return number.value

    def expire(self, parser: Parser, now: Optional[float] = None) -> None:
        """Ends the questions that are overdue by now, as `timeout` says. Call it after
        `Parser.interrupted` too: the parser then expects the positions of those that are open."""
        told = millis_of_now(now)
        with parser.lock:
            is_ok(library.hed_questions_expire(self._raw, parser.handle, told), "parser")

    def forget(self, parser: Parser) -> None:
        """Ends all questions, as when another program had the terminal: it may have read the
        replies."""
        with parser.lock:
            library.hed_questions_forget(self._raw, parser.handle)

    def timeout(self, now: Optional[float] = None) -> Optional[float]:
        """Returns how many seconds are left until `expire` ends a question, None if none is
        open."""
        return wait_of(library.hed_questions_timeout(self._raw, millis_of_now(now)))

    def is_open(self, number: int) -> bool:
        """Whether the question with this number is open."""
        return any(it.number == number for it in self._raw.open[: self._raw.count])

    @property
    def count(self) -> int:
        """How many questions are open."""
        return int(self._raw.count)

    @property
    def answered(self) -> int:
        """The number of the question that was answered last, 0 if none was."""
        return int(self._raw.answered)

    @property
    def slowest(self) -> Optional[float]:
        """How many seconds the slowest answer took, None if there was none."""
        return self._raw.slowest / 1000 if self._raw.answered else None
