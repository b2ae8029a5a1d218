"""Threads share a parser or a map, and a call comes in the middle of another of its own thread."""
import contextlib
import gc
import itertools
import signal
import sys
import threading
import time
from concurrent.futures import ThreadPoolExecutor
from unittest import mock

import pytest

import hedrugal
from hedrugal import Dialect, Exact, KeyMap, Parser, Waiting
from helpers import EVENTS, SECONDS, STREAM, all_of, assert_prints, assert_raises, cut, uses_of

THREADS = 4


@pytest.fixture
def often():
    """Python passes its lock on as often as it can."""
    interval = sys.getswitchinterval()
    sys.setswitchinterval(1e-6)
    yield
    sys.setswitchinterval(interval)


def run_all(work):
    """Runs it in several threads, and returns what each returned or raised."""
    threads = ThreadPoolExecutor(THREADS)
    works = [threads.submit(work) for _ in range(THREADS)]
    return [it.exception(SECONDS) or it.result() for it in works]


def test_feed(parser, often):
    """A call has the parser for itself: each gets the events of its own bytes."""
    data = STREAM[:-1]

    def work():
        return [parser.feed(data) for _ in range(100)]

    assert run_all(work) == [[EVENTS[:-1]] * 100] * THREADS
    assert parser.waiting is Waiting.NOTHING


def test_each_event_goes_to_one_thread(parser, often):
    """An ESC that one thread feeds may become the key of another's byte."""
    got = run_all(lambda: [it for _ in range(500) for it in parser.feed(b"\x1bq\x1b")])
    left = parser.flush()
    escapes = sum(it.key is hedrugal.KeyCode.ESCAPE for part in (*got, left) for it in part)
    assert sum(map(len, got)) + len(left) - escapes == 500 * THREADS


def test_entries(often):
    with Parser() as parser:
        wanted, entries = [*parser.entries()], parser.entries()
        got = run_all(lambda: [*entries])
        assert sorted(it.bytes for part in got for it in part) == [it.bytes for it in wanted]
        assert next(entries, None) is None


def test_map(often):
    """All threads insert the same keys, and each value is one that was inserted for its key."""
    with KeyMap() as keys:

        def work():
            for number in range(500):
                keys.insert(b"%d." % number, (number, threading.get_ident()))
                found = keys.lookup(b"%d." % number)
                assert (found.len, found.value[0]) == (len(str(number)) + 1, number)

        assert run_all(work) == [None] * THREADS
        assert len(keys) == len(keys._entries) == 500


def test_close_in_any_thread(often):
    """A call ends as if it came before the close or after it."""
    for _ in range(20):
        parser, keys, begun = Parser(), KeyMap(), threading.Barrier(THREADS)

        def work():
            closes = begun.wait(SECONDS) == 0
            with contextlib.suppress(ValueError):
                while True:
                    assert parser.feed(STREAM[:-1]) == EVENTS[:-1]
                    keys.insert(STREAM, 1)
                    assert keys.lookup(STREAM) == Exact(len(STREAM), 1)
                    if closes:
                        parser.close()
                        keys.close()

        assert run_all(work) == [None] * THREADS
        assert parser.closed and keys.closed


@pytest.mark.parametrize("dialect", Dialect)
def test_each_has_a_parser(dialect, often):
    stream = (STREAM + b"[A") * 20
    with Parser(dialect) as parser:
        wanted = all_of(parser, stream)

    def work():
        with Parser(dialect) as parser:
            return [all_of(parser, *cut(stream, 7)) for _ in range(50)]

    assert wanted and run_all(work) == [[wanted] * 50] * THREADS


@pytest.mark.skipif(
    not getattr(sys, "_is_gil_enabled", lambda: True)(), reason="this Python has no lock"
)
@pytest.mark.parametrize("dialect", Dialect)
def test_close_and_remake(dialect, often):
    """One thread closes what all use, and makes others: a call raises nothing but that they are
    closed."""
    stream, numbers, end = STREAM * 20, itertools.count(), time.monotonic() + 1
    parser, keys = Parser(dialect), KeyMap()

    def use():
        parser.feed(bytearray(stream))
        parser.feed(stream + b"\x1b[200~" + stream)
        parser.end()
        parser.reset()
        for length in range(50):
            keys.insert(stream[:length], object())
            keys.lookup(stream)

    def work():
        nonlocal parser, keys
        remakes = next(numbers) == 0
        while time.monotonic() < end:
            try:
                use()
                if remakes:
                    parser.close()
                    keys.close()
                    parser, keys = Parser(dialect), KeyMap()
            except ValueError as error:
                assert str(error) in ("the parser is closed", "the map is closed")

    assert run_all(work) == [None] * THREADS
    parser.close()


def in_the_middle(does):
    """Has it done while a parser makes its next event."""
    events, known, todo = mock.MagicMock(), hedrugal.parser._events, [does]

    def event_of(record):
        if todo:
            todo.pop()()
        return known[record]

    events.__getitem__.side_effect = event_of
    return mock.patch.object(hedrugal.parser, "_events", events)


def test_close_waits(parser):
    inside, goes_on, closed = (threading.Event() for _ in range(3))
    events = []
    one = threading.Thread(target=lambda: events.extend(parser.feed(STREAM)))
    other = threading.Thread(target=lambda: (parser.close(), closed.set()))
    with in_the_middle(lambda: (inside.set(), goes_on.wait(SECONDS))):
        one.start()
        assert inside.wait(SECONDS)
    other.start()
    assert not closed.wait(0.1) and not parser.closed
    goes_on.set()
    for it in (one, other):
        it.join(SECONDS)
    assert (events, parser.closed) == (EVENTS[:-1], True)


def test_signals(parser):
    """A handler may ask. What would wait for its own thread is refused."""
    asks = "completions entries entry expect_position forget_positions parts policy reading"
    asks += " shrink_to timeout waiting waiting_len"
    refused = [use for name, use in uses_of(parser).items() if name not in asks.split()]
    refused.append(parser.close)
    seen = []

    def handle(*_):
        assert_raises(RuntimeError, *refused, match="^the parser is in the middle of a call of ")
        parser.shrink_to()
        parser.expect_position()
        assert parser.timeout() == 0
        seen.append((repr(parser), parser.waiting_len))

    before = signal.signal(signal.SIGUSR1, handle)
    try:
        with in_the_middle(lambda: signal.raise_signal(signal.SIGUSR1)):
            assert all_of(parser, STREAM) == EVENTS
        assert seen == [("<Parser, 1 bytes are buffered>", 1)]
    finally:
        signal.signal(signal.SIGUSR1, before)


def test_in_a_long_call(parser):
    """Other threads run meanwhile, and a signal's handler, whose exception loses nothing."""

    class Stopped(Exception):
        pass

    def stop(*_):
        if parser.lock._is_owned() and others:
            raise Stopped

    count, others, ends = 4 << 20, [], threading.Event()
    other = threading.Thread(target=lambda: [others.append(1) for _ in iter(ends.is_set, True)])
    before = signal.signal(signal.SIGALRM, stop)
    try:
        signal.setitimer(signal.ITIMER_REAL, 0.01, 0.01)
        with pytest.raises(Stopped):
            other.start()
            parser.feed(b"q" * count)
    finally:
        signal.setitimer(signal.ITIMER_REAL, 0)
        signal.signal(signal.SIGALRM, before)
        ends.set()
        other.join(SECONDS)
    assert len(parser.flush()) == count


def test_values_that_use_the_map_as_they_go():
    """They are let go once the call is over."""
    seen = []

    class Uses:
        def __del__(self):
            with contextlib.suppress(ValueError):
                keys.insert(b"other", len(keys))
            seen.append(keys.closed)

    keys = KeyMap()
    for value in (Uses(), Uses(), 1, Uses()):
        keys.insert(b"key", value)
    del value
    gc.collect()
    assert (seen, len(keys), keys.lookup(b"other")) == ([False, False], 2, Exact(5, 2))
    keys.close()
    assert seen == [False, False, True]


def test_map_in_the_middle_of_a_call():
    with KeyMap() as keys:
        with keys.lock:
            uses = (lambda: keys.insert(b"q", 1), keys.close)
            assert_raises(RuntimeError, *uses, match="^the map is in the middle of a call of ")
            assert (len(keys), repr(keys)) == (0, "<KeyMap, 0 keys>")


AT_EXIT = """
import sys, threading
from hedrugal import *
sys.setswitchinterval(1e-6)
parser, begun = Parser(), threading.Barrier(4)
def work():
    begun.wait()
    while True:
        parser.feed(b"\\x1b[200~ab\\x1b[201~" * 100)
for _ in range(3):
    threading.Thread(target=work, daemon=True).start()
begun.wait()
"""


def test_exit_in_the_middle_of_a_call():
    """The exit frees nothing that a thread still uses."""
    for _ in range(5):
        assert_prints(AT_EXIT, "")
