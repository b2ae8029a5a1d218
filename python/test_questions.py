"""Which events are replies to which question."""
import functools

import pytest

from hedrugal import Csi, CursorPosition, FocusGained, Function, KeyReport, KittyModifiers, Osc
from hedrugal import Parser, Paste, PastePart
from hedrugal.questions import Questions
from helpers import assert_raises, assert_refused

COLOUR, POSITION, LAST = b"\x1b]11;?\x07", b"\x1b[6n", b"\x1b[?62;22c"
# The reply to a question for the position, and the key that it is else.
REPLY, KEY = b"\x1b[1;5R", KeyReport(Function(3), KittyModifiers.CTRL)


@pytest.fixture
def parser():
    with Parser() as it:
        yield it


@pytest.fixture
def questions():
    return Questions()


def state(questions):
    return questions.count, questions.answered, questions.slowest


def test_replies(parser, questions):
    """They come in the order of the questions, and what is typed isn't one."""
    assert state(questions) == (0, 0, None)
    assert questions.note(parser, Csi(b"?62c"), 0) == 0
    assert questions.ask(parser, COLOUR, 1, now=1) == 1
    assert questions.ask(parser, COLOUR + POSITION, 1, now=2) == 2
    assert (questions.is_open(1), questions.is_open(2), questions.is_open(3)) == (True, True, False)
    data = b"q\x1b]11;a\x07" + LAST + b"\x1b[I\x1b]11;b\x07" + REPLY + LAST + LAST
    events = parser.feed(data, 3)
    assert [questions.note(parser, event, 3) for event in events] == [0, 1, 1, 0, 2, 2, 2, 0]
    assert state(questions) == (0, 2, 2.0)
    assert not questions.is_open(1)


def test_positions(parser, questions):
    """They are expected as long as the question is open."""
    assert parser.feed(REPLY) == [KEY]
    for end in (
        lambda: [questions.note(parser, event, 0) for event in parser.feed(LAST)],
        lambda: questions.forget(parser),
        lambda: questions.expire(parser, 9),
    ):
        assert questions.ask(parser, POSITION * 2, 1, now=0)
        assert parser.reading.questions == 2
        assert parser.feed(REPLY) == [CursorPosition(1, 5)]
        end()
        assert (parser.reading.questions, questions.count) == (0, 0)
        assert parser.feed(REPLY) == [KEY]


def test_after_an_interruption(parser, questions):
    """What is asked meanwhile is expected again."""
    questions.ask(parser, POSITION, 5, now=0)
    parser.interrupted(1)
    assert parser.reading.questions == 0
    questions.expire(parser, 1)
    assert parser.reading.questions == 1


def test_times(parser, questions):
    """A question is open for two seconds at least."""
    assert questions.timeout(0) is None
    for seconds, open_for in ((0, 2), (1.5, 2), (2.5, 2.5), (1e99, 2147483.647)):
        number = questions.ask(parser, COLOUR, seconds, now=7)
        assert questions.timeout(7) == open_for
        questions.expire(parser, 6.999 + open_for)
        assert questions.is_open(number) and questions.timeout(1e300) == 0
        questions.forget(parser)
    assert state(questions) == (0, 0, None)


def test_most_questions(parser, questions):
    assert [questions.ask(parser, b"", 9, now=0) for _ in range(17)] == [*range(1, 17), None]
    assert (questions.count, questions.ask(parser, b"", 9, now=10)) == (16, 17)


def test_each_kind_of_event(parser, questions):
    questions.ask(parser, COLOUR, 1, now=0)
    for event in (KEY, FocusGained(), Paste("a"), PastePart("a"), object()):
        assert questions.note(parser, event, 0) == 0, event
    long = Csi(b"?" + b"1;" * 40000 + b"d")
    for event in (Osc(b"a" * 70000), long, CursorPosition(1, 1)):
        assert questions.note(parser, event, 0) == 1, event


def test_wrong_use(parser, questions):
    ask, expire = (functools.partial(it, parser) for it in (questions.ask, questions.expire))
    at_times = (lambda it: ask(b"", it), lambda it: ask(b"", 1, it), expire, questions.timeout)
    for use in at_times:
        assert_refused(ValueError, use, -1)
        assert_refused(TypeError, use, "1")
    assert_refused(TypeError, ask, "?", 1)
    ask(COLOUR, 1)
    parser.close()
    uses = (lambda: ask(b"", 1), lambda: questions.note(parser, Csi(b"?62c")), expire)
    assert_raises(ValueError, *uses, match="^the parser is closed$")
    questions.forget(parser)
    assert questions.count == 0
