"""Limits in time, of a program's own too."""
from __future__ import annotations

import enum
import time
from typing import NamedTuple, Optional

from ._calls import LIMIT_MOST, RawPolicy, RawSeen, RawTimer
from ._enums import Named, numbered
from ._library import is_ok, library

__all__ = ["Age", "Policy", "Timer"]


def millis(seconds: float, most: int) -> int:
    """A time in whole milliseconds, at most so many. Before that it is rounded to microseconds,
    since a float may lack a little: 1.001 s are 1001 ms."""
    if not isinstance(seconds, (int, float)):
        raise TypeError(f"a number of seconds is required, not {type(seconds).__name__}")
    if not seconds >= 0:
        raise ValueError(f"{seconds} isn't a number of seconds from 0 on")
    return min(round(min(seconds, most) * 1_000_000) // 1000, most)


def limit_millis(limit: Optional[float], most: int) -> int:
    """A limit in milliseconds, at most so many, below 0 if there is none."""
    return -1 if limit is None else millis(limit, most)


def wait_of(left: int) -> Optional[float]:
    """How many seconds something may wait, of milliseconds that are below 0 for ever."""
    return None if left < 0 else left / 1000


def millis_of_now(now: Optional[float]) -> int:
    """The time that a caller told, in milliseconds, or that of time.monotonic()."""
    return time.monotonic_ns() // 1_000_000 if now is None else millis(now, 2**64 - 1)


class Policy(NamedTuple):
    """How long each kind of bytes may stay buffered, in seconds; None is forever, and a millisecond
    the least. The defaults are the usual limits. See `Parser.policy`.

    escape: ESC or ESC ESC, since bytes last came. Then it is the Escape key.
    alt_key: ESC and one byte that may begin a sequence, such as ESC [, since the ESC came. Then it
        is a key with ALT.
    sequence: a longer beginning of a sequence, since its first byte came. Then its bytes are keys.
    string: a string without its end, since its first byte came, and a millisecond more for each
        byte that is buffered. A Parser of Dialect.TERMWIZ reads none.
    character: the beginning of a character, since its first byte came.
    paste: an open paste, since bytes last came. Then it is ended where it is.
    """

    escape: Optional[float] = 0.05
    alt_key: Optional[float] = 0.1
    sequence: Optional[float] = 1.0
    string: Optional[float] = 5.0
    character: Optional[float] = None
    paste: Optional[float] = None


class Age(Named, enum.IntEnum):
    """One of the two ages of what is pending, by which a Timer limits it."""

    # hedrugal.h: age member
    LAST = numbered(0, "How long ago something was fed last.")
    FRONT = numbered(1, "How long ago the first of what is pending came to the front.")
    # hedrugal.h: end


def raw_policy(policy: Policy) -> RawPolicy:
    """The limits in milliseconds."""
    if not isinstance(policy, Policy):
        raise TypeError(f"a Policy is required, not {type(policy).__name__}")
    return RawPolicy(*(limit_millis(limit, LIMIT_MOST) or 1 for limit in policy))


class Timer:
    """A timer, by which a program keeps a limit in time of its own beside its parser's.

    It knows what it was told, and may be copied by copy.copy. With it a program times the pause of
    a chord, after which it calls `Matcher.give_up`. Each press begins the pause again:

        >>> matcher, pause = Matcher(Bindings({"g": "go", "g g": "top"})), Timer()
        >>> taken = matcher.press("g")
        >>> limit = 1.0 if matcher.pending else None
        >>> pause.note(limit, fed=True, taken=bool(taken), empty=not matcher.pending, now=7.0)
        >>> pause.timeout(7.25), pause.is_due(7.25)
        (0.75, False)

    The program waits as long for a key, or as its parser says. Then the pause is over:

        >>> pause.timeout(8.0), pause.is_due(8.0), matcher.give_up()
        (0.0, True, [Bound(keys=1, value='go')])
        >>> pause.note(None, taken=True, empty=True, now=8.0)
        >>> print(pause.timeout(8.0))
        None

    `now` is the time of time.monotonic(), which is read if it is None."""

    def __init__(self) -> None:
        self._raw = RawTimer()

    def __copy__(self) -> Timer:
        other = Timer()
        other._raw = RawTimer.from_buffer_copy(self._raw)
        return other

    def note(
        self,
        limit: Optional[float],
        by: Age = Age.LAST,
        *,
        fed: bool = False,
        taken: bool = False,
        empty: bool = False,
        now: Optional[float] = None,
    ) -> None:
        """Notes the time and what was seen. Both ages grow by the time since the last note; if now
        is before that, no time has passed. Then Age.LAST is 0 if something was fed, and Age.FRONT
        if something was taken, or if nothing was pending at the last note.

        limit: how many seconds what is pending may wait, by this age; None is forever, and whole
            milliseconds count.
        fed, taken: whether something was fed, as a press to a matcher, or taken, as an outcome,
            since the last note.
        empty: whether nothing is pending now.

        Raises ValueError if limit or now is negative or NaN, and TypeError for another type."""
        if not isinstance(by, Age):
            raise TypeError(f"an Age is required, not {type(by).__name__}")
        seen = RawSeen(limit_millis(limit, 2**31 - 1), by, fed, taken, empty)
        is_ok(library.hed_timer_note(self._raw, millis_of_now(now), seen), "timer")

    def timeout(self, now: Optional[float] = None) -> Optional[float]:
        """Returns how many seconds what is pending may still wait: 0.0 if it is due, and None if it
        may wait forever.

        Raises ValueError if now is negative or NaN, and TypeError if it is no number."""
        return wait_of(library.hed_timer_timeout(self._raw, millis_of_now(now)))

    def is_due(self, now: Optional[float] = None) -> bool:
        """Returns whether what is pending has waited for as long as its limit. Raises what
        `timeout` raises."""
        return self.timeout(now) == 0
