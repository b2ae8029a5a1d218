"""Memory is refused or given back."""
import contextlib
import pickle
from unittest import mock

import pytest

import hedrugal
from hedrugal import Chord, Csi, Dialect, FocusGained, KeyCode, KeyMap, KeyPress, KeyReport
from hedrugal import KittyKeyboardFlags, KittyModifiers, MouseButton, MouseEncoding, MouseTracking
from hedrugal import ParseError, Parser, Paste, PastePart, SentMouse, Waiting, encode_event
from hedrugal import encode_paste, reply
from hedrugal._calls import STATUS_NO_MEMORY, RawHandle
from hedrugal._library import library
from helpers import EVENTS, LIMITS, STREAM, assert_prints, assert_raises, assert_refused
from helpers import assert_rest, needs_limits

REFUSED_FEED = """
body = b"x" * (16 * MB)
parser = Parser()
assert parser.feed(b"\\x1b[200~") == []
limit(100 * MB)
fed = 0
while True:
    error, _ = refused(lambda: parser.feed(body))
    if error: break
    fed += 1
assert 0 < fed < 8 and parser.waiting_len == 6 + fed * len(body) and parser.waiting is Waiting.PASTE
assert isinstance(error, ParseError) and not error.taken and "not taken" in str(error), error
assert error.events == []
limit(None)
assert parser.feed(b"\\x1b[201~q") == [Paste("x" * (fed * len(body))), KeyReport("q")]
print("good")
"""

# A list of three million events has 24 MB.
REFUSED_PLACES = """
count, parser = 3 << 20, Parser(dialect)
parser.feed(b"\\x1b[200~" + b"x" * count)
assert parser.skip_paste() == count
data = b"\\x1b[201~" + b"ab" * (count // 2)
limit(16 * MB)
error, _ = refused(lambda: parser.feed(data))
limit(None)
assert isinstance(error, ParseError) and error.taken and len(error.events) > MB
assert parser.timeout() == 0
told = error.events + parser.flush()
assert told == [Paste(""), *[KeyReport("a"), KeyReport("b")] * (count // 2)]
print("good")
"""

# The text of a paste is copied in the library, and by Python twice: each of these copies is refused
# in some round. Each call goes on after it.
REFUSED_TEXT = """
body = "x" * (8 * MB)
data = [b"\\x1b[200~" + body.encode(), b"\\x1b[201~ab"]
refusals = grants = 0
for more in range(0, 64, 2):
    parser = Parser()
    assert parser.feed(data[0], 0) == []
    parser.policy = Policy(paste=10)
    ask = {
        "feed": lambda: parser.feed(data[1], 1),
        "idle": lambda: parser.idle(10),
        "end": parser.end,
    }[how]
    rest = [KeyReport("a"), KeyReport("b")] if how == "feed" else []
    limit(more * MB)
    error, events = refused(ask)
    if error:
        refusals += 1
        assert isinstance(error, ParseError) and error.events == []
        assert how == "feed" or error.taken
        again, events = refused(parser.flush)
        limit(None)
        if again:
            assert again.events == []
            events = parser.flush() if error.taken else ask()
        elif not error.taken:
            assert events == []
            events = ask()
    else:
        grants += 1
        limit(None)
    assert events == [Paste(body), *rest]
    assert parser.feed(b"c") == [KeyReport("c")] and parser.waiting_len == 0
    parser.close()
assert refusals > 2 and grants > 2, (refusals, grants)
print("good")
"""


# Memory is refused by a limit on the process.


@needs_limits
def test_feed():
    assert_prints(LIMITS + REFUSED_FEED, "good\n", MALLOC_ARENA_MAX="1")


@needs_limits
@pytest.mark.parametrize("dialect", Dialect)
def test_places_in_the_list(dialect):
    text = f"{LIMITS}dialect = {dialect!r}\n{REFUSED_PLACES}"
    assert_prints(text, "good\n", MALLOC_ARENA_MAX="1")


@needs_limits
@pytest.mark.parametrize("how", ["feed", "idle", "end"])
def test_text_of_a_paste(how):
    # Memory that is freed goes back to the system at once, so a later round can be refused too.
    env = {"MALLOC_ARENA_MAX": "1", "MALLOC_MMAP_THRESHOLD_": "131072"}
    assert_prints(f"how = {how!r}\n{LIMITS}{REFUSED_TEXT}", "good\n", **env)


# Counts what malloc has given, so that every processor finds the same, under qemu too.
MEMORY = """
import ctypes, os
from hedrugal import *
MB = 1 << 20
NAMES = "arena ordblks smblks hblks hblkhd usmblks fsmblks uordblks fordblks keepcost"
class Given(ctypes.Structure):
    _fields_ = [(name, ctypes.c_size_t) for name in NAMES.split()]
mallinfo2 = ctypes.CDLL(None).mallinfo2
mallinfo2.restype = Given
def memory():
    given = mallinfo2()
    return given.hblkhd + given.uordblks
"""

# Two thousand parsers, which with a table each would have more than 300 MB. They are closed in both
# orders, and some are left open at the exit. A forked child makes one too.
MANY_PARSERS = """
before, up = memory(), [KeyReport(KeyCode.UP_ARROW, KittyModifiers.CTRL)]
parsers = [Parser(dialect) for _ in range(1000) for dialect in Dialect]
assert memory() - before < 16 * MB, memory() - before
assert all(parser.feed(b"\\x1b[1;5A") == up for parser in parsers)
for parser in parsers[:500] + parsers[:1500:-1]:
    parser.close()
for parser in (parsers[1000], Parser()):
    assert parser.feed(b"\\x1b[1;5A") == up
child = os.fork()
if child == 0:
    told = [it.feed(b"\\x1b[1;5A") for it in (Parser(), parsers[1001])]
    os._exit(0 if told == [up, up] else 1)
assert os.waitpid(child, 0)[1] == 0
print("good")
"""

SHRINK = """
parser = Parser()
paste = b"\\x1b[200~" + b"x" * (16 * MB) + b"\\x1b[201~\\x1b"
before = memory()
assert len(parser.feed(paste)) == 1
assert memory() - before > 15 * MB
for kept in (1 << 100, 16 * MB):
    parser.shrink_to(kept)
    assert memory() - before > 15 * MB
parser.shrink_to(4096)
assert memory() - before < 2 * MB, memory() - before
parser.shrink_to()
assert parser.waiting is Waiting.ESCAPE and parser.feed(b"[A") == [KeyReport(KeyCode.UP_ARROW)]
print("good")
"""


def test_one_table():
    assert_prints(MEMORY + MANY_PARSERS, "good\n")


def test_shrink_to():
    assert_prints(MEMORY + SHRINK, "good\n")


def test_capacities(parser):
    assert_refused(ValueError, parser.shrink_to, -1)
    assert_refused(TypeError, parser.shrink_to, None, 1.0)


# Calls of the library, and what makes each.
PRESS, MOUSE = KeyPress("a"), SentMouse(1, 1, MouseButton.NONE)
CALLS = {
    "hed_encode_event": [lambda: encode_event(FocusGained(), Parser())],
    "hed_encode_kitty": [lambda: KeyReport("a").encode(KittyKeyboardFlags(31))],
    "hed_encode_mouse": [lambda: MOUSE.encode(MouseTracking.ANY, MouseEncoding.SGR)],
    "hed_encode_paste": [lambda: encode_paste(b"a", True)],
    "hed_key_print": [lambda: str(PRESS), lambda: str(Chord([PRESS, PRESS]))],
    "hed_keymap_init": [KeyMap],
    "hed_parser_init_sharing": [Parser],
    "hed_read_reply": [lambda: reply(Csi(b"?62c"))],
}


@pytest.mark.parametrize("name", CALLS)
def test_refused_calls(name):
    """The next one succeeds. An answer that nobody knows is another error, but of what makes."""
    unknown = MemoryError if "init" in name else RuntimeError
    for answer, error in (STATUS_NO_MEMORY, MemoryError), (99, unknown):
        with mock.patch.object(library, name, lambda *_: answer):
            assert_raises(error, *CALLS[name])
        assert None not in [use() for use in CALLS[name]]


def test_refused_table():
    """The next parser makes it."""
    with mock.patch.object(hedrugal.parser, "_idle", RawHandle()) as idle:
        with mock.patch.object(library, "hed_parser_init", lambda *_: STATUS_NO_MEMORY):
            assert_raises(MemoryError, Parser)
        with Parser() as parser:
            assert idle.live
            library.hed_parser_free(idle)
            assert parser.feed(b"q") == [KeyReport("q")]


# Memory for an event, or for a place in the list, is refused in the middle of a call.


@contextlib.contextmanager
def refusal(count, error=MemoryError):
    """In its block the next events but so many are refused memory, or raise another error. A parser
    doesn't ask for one that it has told before."""
    granted, known, events = iter([True] * count), hedrugal.parser._events, mock.MagicMock()

    def event_of(record):
        event = known[record]
        if not next(granted, False):
            raise error
        return event

    events.__getitem__.side_effect = event_of
    with mock.patch.object(hedrugal.parser, "_events", events):
        yield


def refused(count, call, *words):
    """The error of a call that is refused memory behind so many events."""
    with refusal(count), pytest.raises(ParseError) as caught:
        call(*words)
    return caught.value


TEXTS = [b"a", b"b" * 500, b"c" * 512, b"d" * 5000]
PASTES = b"x" + b"".join(b"\x1b[200~%s\x1b[201~" % it for it in TEXTS) + b"\x1b[97;;65uy\x1b[I"
PASTED = [KeyReport("x"), *(Paste(it.decode()) for it in TEXTS)]
PASTED += [KeyReport("a", text="A"), KeyReport("y"), FocusGained()]
# Each of its events comes once.
ONCE = STREAM.replace(b"hello", b"helo") + b"\x1b"
EACH = [*EVENTS[:3], *EVENTS[4:-1], KeyReport(KeyCode.ESCAPE, KittyModifiers.ALT)]


@pytest.mark.parametrize("data, events", [(ONCE, EACH), (PASTES, PASTED)])
@pytest.mark.parametrize("again", ["feed", "idle", "flush", "end"])
def test_each_event(data, events, again):
    """The error has the events before that one, and the next call those from it on."""
    for count in range(len(events)):
        with Parser() as parser:
            is_last = data is ONCE and count == len(events) - 1
            with refusal(count), pytest.raises(ParseError) as caught:
                told = parser.feed(data)
                parser.flush()
            told = told if is_last else caught.value.events
            assert (told, caught.value.taken) == (events[:count], True)
            assert parser.timeout() == 0
            copied = pickle.loads(pickle.dumps(caught.value))
            assert (copied.events, copied.taken) == (caught.value.events, True)
            assert refused(0, parser.flush).events == []
            told += parser.feed(b"") if again == "feed" else getattr(parser, again)()
            assert told + parser.flush() == events
            assert_rest(parser, 0, Waiting.NOTHING)


@pytest.mark.parametrize("dialect", Dialect)
def test_bytes_come_behind_a_flush(dialect):
    """So do those that come after what is due."""
    flushed = [KeyReport("[", KittyModifiers.ALT), *map(KeyReport, "1;5")]
    for count in range(len(flushed)):
        with Parser(dialect) as parser:
            assert parser.feed(b"\x1b[1;5", 5) == []
            assert refused(count, parser.idle, 6).events == flushed[:count]
            assert parser.timeout(6) == 0
            assert parser.feed(b"A", 7) == [*flushed[count:], KeyReport("A")]
            assert parser.timeout(7) is None


def test_bytes_that_come_too_early():
    """While a flush is left, none are taken."""
    with Parser() as parser:
        assert parser.feed(b"\x1b[1" + b";1" * 100, 5) == []
        assert refused(0, parser.idle, 6).taken
        error = refused(0, parser.feed, b"A", 7)
        assert (error.events, error.taken) == ([], False)
        assert len(parser.feed(b"A", 7)) == 203


def test_interrupted_after_a_refusal(parser):
    """What is left is told by the next call, and is not what is forgotten."""
    error = refused(1, parser.feed, b"a" + b"b" * 200 + b"\x1b[1", 0)
    assert error.events == [KeyReport("a")]
    with refusal(0), pytest.raises(MemoryError):
        parser.interrupted(1)
    parser.interrupted(1)
    assert (parser.timeout(1), parser.waiting) == (0, Waiting.NOTHING)
    assert parser.feed(b"A") == [KeyReport(it) for it in "b" * 200 + "A"]


def test_reset_forgets_them(parser):
    refused(1, parser.feed, PASTES)
    parser.reset()
    assert (parser.idle(), parser.timeout(), parser.feed(b"q")) == ([], None, [KeyReport("q")])


def test_skip_paste_after_a_refusal(parser):
    parser.parts = 0
    refused(1, parser.feed, b"ab\x1b[200~cd\x1b[20")
    assert parser.skip_paste() == 0
    assert parser.feed(b"1~") == [KeyReport("b"), PastePart("cd"), Paste("")]


def test_an_exception_of_a_handler(parser):
    """What was told by then comes with the next call."""
    with refusal(2, KeyboardInterrupt), pytest.raises(KeyboardInterrupt):
        parser.feed(STREAM)
    assert parser.timeout() == 0
    assert parser.flush() == EVENTS
