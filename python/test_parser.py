"""The calls of a parser, of each dialect."""
import ctypes
import functools
import math
import time

import pytest

import hedrugal
from hedrugal import KeyCode, KeyReport, Parser, Paste, PastePart, Policy, Waiting
from hedrugal._library import library
from helpers import all_of, assert_refused, assert_rest, cut, typed

START, END = b"\x1b[200~", b"\x1b[201~"
ESCAPE, UP = KeyReport(KeyCode.ESCAPE), KeyReport(KeyCode.UP_ARROW)


def test_many_pastes(parser):
    texts = ["", "a", "é" * 1000, "\n", "b" * 511, "c" * 512, "d"] * 30
    assert parser.feed(b"".join(START + it.encode() + END for it in texts)) == [*map(Paste, texts)]


def test_a_long_paste(parser):
    """The library keeps no text that was copied."""
    body = "é123456789abcdef" * 6400
    data = START + body.encode() + END
    for size in (len(data), 4096):
        assert all_of(parser, *cut(data, size)) == [Paste(body)]
        assert library.hed_parser_text(parser.handle, b"", 0) == 0


def test_parts_of_a_long_paste(parser):
    """None of it is a key, and the parts are its text."""
    assert parser.parts is None
    parser.parts = 100000
    body, events = "é\x1b[201 rm -rf ~\rq" * 50000, []
    data = START + body.encode() + END + b"x"
    for piece in cut(data, 4096):
        events += parser.feed(piece)
        assert parser.waiting_len <= 100006
    *parts, last, key = events
    assert (parser.parts, len(parts) > 5, key) == (100000, True, KeyReport("x"))
    assert {type(it) for it in parts} == {PastePart} and type(last) is Paste
    assert "".join(it.text for it in (*parts, last)) == body


def test_limits_of_parts(parser):
    """What is buffered is told by the next call."""
    assert parser.feed(START + b"abc") == []
    for limit in (1 << 80, 3, None):
        parser.parts = limit
        assert (parser.parts, parser.feed(b""), parser.timeout()) == (limit, [], None)
    parser.parts = 0
    assert parser.timeout() == 0
    assert parser.idle() == [PastePart("abc")]
    set_parts = functools.partial(setattr, parser, "parts")
    assert_refused(ValueError, set_parts, -1)
    assert_refused(TypeError, set_parts, 1.5, "1")
    assert (parser.parts, parser.end()) == (0, [Paste("")])


def test_wrong_bytes(parser):
    wrong = ("q", 65, None, [65], object(), ctypes.create_string_buffer(b"q"))
    assert_refused(TypeError, parser.feed, *wrong, match="is required, not")
    released = memoryview(b"q")
    released.release()
    assert_refused(ValueError, parser.feed, released)
    assert_rest(parser, 0, Waiting.NOTHING)


@pytest.mark.parametrize("count", [1, 71, 72, 73, 144, 35000])
def test_many_events(parser, count):
    assert parser.feed(b"\x1b[Aq" * count) == [UP, KeyReport("q")] * count
    paste = START + b"p" + END
    assert parser.feed((paste + b"q") * count) == [Paste("p"), KeyReport("q")] * count
    assert_rest(parser, 0, Waiting.NOTHING)


def test_many_different_keys(parser):
    text = "".join(map(chr, [*range(0xA0, 0xD800), *range(0xE000, 0x11000)]))
    assert parser.feed(text.encode()) == typed(text)
    # Of the events that were made, a bounded number is kept.
    assert len(hedrugal.parser._events) <= 4096


# Times, and the parser's life.


def test_time_is_read(parser):
    """Without an argument it is that of time.monotonic()."""
    assert parser.timeout() is None
    before = time.monotonic()
    assert parser.feed(b"\x1b") == []
    assert 0.04 < parser.timeout() <= 0.05
    while not (events := parser.idle()):
        time.sleep(0.001)
    assert events == [ESCAPE] and time.monotonic() - before >= 0.049
    assert parser.feed(START) == [] and parser.interrupted() is None
    assert 0.9 < parser.timeout() <= 1


def test_times_are_rounded(parser):
    """Whole milliseconds count, also those that a float just misses."""
    assert parser.feed(b"\x1b", 8.001) == []
    lefts = {0: 0.001, 0.0009: 0.001, 0.0019: 0.001, 1.001: 1.001, 3: 3.0}
    for limit, left in (lefts | dict.fromkeys((1e99, math.inf), 2147418.111)).items():
        parser.policy = Policy(escape=limit)
        assert parser.policy.escape == limit and parser.timeout(8) == left
    parser.policy = Policy(escape=2)
    for now, left in [(8.001, 2), (8.0019, 2), (9.001, 1), (9.999, 0.002), (1e99, 0), (0, 2)]:
        assert parser.timeout(now) == left
    assert len(parser.idle(math.inf)) == 1


def test_what_is_no_time(parser):
    uses = [parser.timeout, parser.idle, parser.interrupted, lambda now: parser.feed(b"q", now)]
    uses.append(lambda limit: setattr(parser, "policy", Policy(paste=limit)))
    for use in uses:
        assert_refused(ValueError, use, -1, math.nan)
        assert_refused(TypeError, use, "1")
    with pytest.raises(TypeError, match="^a Policy is required, not tuple$"):
        parser.policy = (1, 1, 1, 1, 1, 1)
    assert parser.policy == Policy()
    assert_rest(parser, 0, Waiting.NOTHING)


def test_parsers_are_apart():
    one, other = Parser(), Parser()
    assert one.feed(START + b"a") == []
    assert other.feed(b"q") == typed("q")
    other.close()
    assert one.feed(END) == [Paste("a")]
