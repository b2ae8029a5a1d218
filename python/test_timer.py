"""A timer for a limit in time of a program's own."""
import copy
import math
import random
import time

from hedrugal import Age, Timer
from helpers import assert_raises, assert_refused


def note(timer, now, limit, by, what):
    timer.note(limit, by, fed="f" in what, taken="t" in what, empty="e" in what, now=now)


def assert_left(timer, now, left):
    assert (timer.timeout(now), timer.is_due(now)) == (left, left == 0)


def test_limits_are_whole_milliseconds():
    """At most as many as the library has."""
    timer = Timer()
    assert_left(timer, 7, None)
    for limit, asked, left in [
        (math.inf, 3.35, 2147483.647),
        (1.0019, 3.35, 1.001),
        (1e99, math.inf, 0),
    ]:
        note(timer, 3.35, limit, Age.LAST, "f")
        assert_left(timer, asked, left)


def test_against_a_plain_timer():
    draw = random.Random(7)
    for _ in range(100):
        timer, began, now, was_empty = Timer(), {}, 0, True
        for _ in range(50):
            now += draw.choice([0, 1, 40, 900, 2000])
            limit, by = draw.choice([None, 0, 1, 50, 1000]), draw.choice(list(Age))
            what = {it for it in "fte" if draw.random() < 0.4}
            if "f" in what or not began:
                began[Age.LAST] = now
            if "t" in what or was_empty:
                began[Age.FRONT] = now
            was_empty = "e" in what
            note(timer, now / 1000, limit if limit is None else limit / 1000, by, what)
            later = now + draw.choice([0, 1, 49, 700])
            left = None if limit is None else max(0, limit - later + began[by]) / 1000
            assert_left(timer, later / 1000, left)


def test_time_is_read():
    """Without an argument it is that of time.monotonic()."""
    timer, before = Timer(), time.monotonic()
    timer.note(0.05, fed=True)
    while not timer.is_due():
        assert 0 <= timer.timeout() <= 0.05
        time.sleep(0.001)
    assert time.monotonic() - before >= 0.049


def test_copies():
    timer = Timer()
    timer.note(0.05, fed=True, now=1)
    others = copy.copy(timer), copy.deepcopy(timer)
    timer.note(None, empty=True, now=2)
    assert [it.timeout(1.02) for it in (timer, *others)] == [None, 0.03, 0.03]


def test_what_is_no_time():
    """A call that raises changes nothing."""
    timer = Timer()
    timer.note(0.05, fed=True, now=1)
    for call in (timer.timeout, timer.is_due, timer.note, lambda it: timer.note(None, now=it)):
        assert_refused(ValueError, call, -1, math.nan)
        assert_refused(TypeError, call, "1")
    assert_raises(TypeError, lambda: timer.note(1, 1), match="^an Age is required, not int$")
    assert timer.timeout(1.02) == 0.03


def test_ages_are_numbers():
    assert (repr(Age.FRONT), Age.FRONT, Age(0)) == ("Age.FRONT", 1, Age.LAST)
