"""What a parser reads, and key reports to bytes."""
import contextlib
import dataclasses
import functools
import itertools
import pickle

import pytest

from hedrugal import Apc, CursorPosition, Dcs, Dialect, EncodeError, EraseByte, FocusGained
from hedrugal import Function, KeyboardFlags, KeyCode, KeyEventKind, KeyPress, KeyReport
from hedrugal import KittyKeyboardFlags, KittyModifiers, Modifiers, MouseButtons, MouseKind
from hedrugal import MouseReport, NewlineByte, Osc, Parser, Paste, Reading, Resized, Size
from hedrugal import StringCut, StringKind, StringPart, Waiting, typed_text
from hedrugal._calls import STATUS_BAD_NUMBER, RawEvent, RawHandle, RawReading
from hedrugal._library import library
from hedrugal._records import event_of
from cases import cases_of, events_by
from helpers import all_of, assert_refused, assert_rest, cut, typed

CTRL, SHIFT, ALT = KittyModifiers.CTRL, KittyModifiers.SHIFT, KittyModifiers.ALT
NONE, RELEASE, UP = KittyModifiers.NONE, KeyEventKind.RELEASE, KeyCode.UP_ARROW


@pytest.fixture
def parser():
    with Parser() as it:
        yield it


def test_events_are_values():
    """All that the cases read."""
    cases = [line.split(" = ")[0].split(" ") for _, line in cases_of("events.txt")]
    seen = {repr(event): event for case in cases for event in events_by(*case)}
    assert len({*seen.values()}) == len(seen)
    assert len({type(event) for event in seen.values()}) >= 13
    for event in seen.values():
        again = pickle.loads(pickle.dumps(event))
        assert (again, hash(again)) == (event, hash(event))
        with pytest.raises(AttributeError):
            event.key = event.data = event.row = 1


TWO_FLAGS = "KittyKeyboardFlags.DISAMBIGUATE_ESCAPE_CODES|REPORT_EVENT_TYPES"


def test_reprs(parser):
    (event,) = parser.feed(b"\x1b[97:65;6:2;65u")
    assert repr(event) == (
        "KeyReport(key='a', modifiers=KittyModifiers.SHIFT|CTRL, kind=KeyEventKind.REPEAT, "
        "shifted='A', text='A')"
    )
    for event, wanted in [
        (FocusGained(), "FocusGained()"),
        (CursorPosition(1, 2), "CursorPosition(row=1, column=2)"),
        (Resized(Size(80, 24, 0, 0)), "Resized(size=Size(columns=80, rows=24, width=0, height=0))"),
        (KeyboardFlags(KittyKeyboardFlags(3)), f"KeyboardFlags(flags={TWO_FLAGS}, unnamed=0)"),
        (Dcs(b"\xff"), "Dcs(data=b'\\xff')"),
        (KeyReport(57414), "KeyReport(key=57414)"),
        (KeyReport("a", base="b"), "KeyReport(key='a', base='b')"),
        (
            MouseReport(1, 2, Modifiers.NONE, MouseButtons.LEFT, MouseKind.PRESS, 1),
            "MouseReport(x=1, y=2, modifiers=Modifiers.NONE, buttons=MouseButtons.LEFT, "
            "kind=MouseKind.PRESS, button=1)",
        ),
    ]:
        assert repr(event) == wanted


# How a parser reads can be changed between any two calls.


def test_reading(parser):
    """A new parser has its dialect, and the rest is as at first. A reset forgets the questions
    alone."""
    assert parser.reading == Reading()
    first = Reading(Dialect.TERMWIZ, False, 0, EraseByte.DELETE, NewlineByte.CTRL_J)
    assert Parser(Dialect.TERMWIZ).reading == first
    for reading in (
        Reading(Dialect.TERMWIZ, True, 255, EraseByte.BACKSPACE, NewlineByte.ENTER),
        Reading(Dialect.EXTENDED, False, 1),
        Reading(erase=EraseByte.BACKSPACE),
        Reading(newline=NewlineByte.ENTER),
    ):
        parser.reading = reading
        assert parser.reading == reading
        parser.reset()
        assert parser.reading == dataclasses.replace(reading, questions=0)


def test_wrong_readings(parser):
    before = Reading(Dialect.TERMWIZ, True, 3, EraseByte.BACKSPACE, NewlineByte.ENTER)
    parser.reading = before
    wrong = [None, Dialect.EXTENDED, Reading(1), Reading(erase=8), Reading(questions=1.5)]
    wrong.append(Reading(newline=EraseByte.DELETE))
    set_reading = functools.partial(setattr, parser, "reading")
    assert_refused(TypeError, set_reading, *wrong)
    assert_refused(ValueError, set_reading, Reading(questions=-1), Reading(questions=256))
    for wrong in ((2, 0, 0), (0, 2, 0), (0, 0, 2)):
        raw = RawReading(*wrong, False, 0)
        assert library.hed_parser_set_reading(parser.handle, raw) == STATUS_BAD_NUMBER
    assert parser.reading == before


def test_wrong_dialects():
    wrong = (None, 0, "EXTENDED", KeyEventKind.PRESS)
    assert_refused(TypeError, Parser, *wrong, match="^a member of Dialect is required, not")
    raw = RawHandle()
    assert library.hed_parser_init(raw, 2) == STATUS_BAD_NUMBER
    assert not raw.live


def test_unknown_numbers():
    numbers = [{"kind": 0}, {"kind": 4}, {"kind": 17}, {"kind": 15, "string_kind": 3}]
    numbers.append({"kind": 1, "key_event_kind": 4, "key": 1, "detail": 97})
    numbers.append({"kind": 2, "mouse_kind": 6})
    assert_refused(RuntimeError, lambda it: event_of(bytes(RawEvent(**it))), *numbers)


# Input far past any small bound: by one call, and in pieces.


def check_long(parser, data, events):
    """Nothing is buffered after a flush."""
    for size in (len(data), 4096, 61):
        is_same = all_of(parser, *cut(data, size)) == events
        assert is_same, size
        assert_rest(parser, 0, Waiting.NOTHING)


def test_strings(parser):
    body = (b"0123456789abcd\r\xff" * 4000)[:60000]
    check_long(parser, b"\x1b]52;" + body + b"\x1b\\q", [Osc(b"52;" + body), KeyReport("q")])
    check_long(parser, b"\x1b]52;" + body + b"\x07q", [Osc(b"52;" + body), KeyReport("q")])
    check_long(parser, b"\x1bP>|" + body + b"\x1b\\q", [Dcs(b">|" + body), KeyReport("q")])
    check_long(parser, b"\x1b_Gi=" + body + b"\x1b\\q", [Apc(b"Gi=" + body), KeyReport("q")])


def string_parts(opening, body):
    """The bytes of the parts of a string, and those before its end."""
    most = 65533 - len(opening)
    return [opening + body[at : at + most] for at in range(0, len(body) + 1, most)]


@pytest.mark.parametrize("end", [b"\x07", b"\x1b\\", b"", b"\x1b"])
def test_a_clipboard_of_100_kb(parser, end):
    """It comes in parts, and none of it is typed."""
    body = (b"rm -rf ~\r\x03\0\x7f\n" * 10000)[:102400]
    *parts, last = string_parts(b"52;", body)
    assert len(parts) == 1
    ended = Osc(last) if end.strip(b"\x1b") else StringCut(StringKind.OSC, last)
    wanted = [*(StringPart(StringKind.OSC, part) for part in parts), ended]
    check_long(parser, b"\x1b]52;" + body + end, wanted)
    assert parser.feed(b"q") == [KeyReport("q")]


def test_limits(parser):
    """A string has at most 65534 bytes and an end, and a longer one comes in parts. A control
    sequence has at most 256, and what is longer is typed text."""
    for count in (65530, 65531, 131061, 131062):
        for begin, kind, end, of in [
            (b"\x1b]1;", StringKind.OSC, b"\x07", Osc),
            (b"\x1bP>|", StringKind.DCS, b"\x1b\\", Dcs),
        ]:
            *parts, last = string_parts(begin[2:], b"x" * count)
            wanted = [*(StringPart(kind, part) for part in parts), of(last)]
            assert len(parts) == count // 65531
            check_long(parser, begin + b"x" * count + end, wanted)
            check_long(parser, begin + b"x" * count, [*wanted[:-1], StringCut(kind, last)])
    title = [KeyReport("]", ALT), *typed("l" + "t" * 251)]
    check_long(parser, b"\x1b]l" + b"t" * 251 + b"\x1b[I", [*title, FocusGained()])
    check_long(parser, b"\x1b[" + b"1" * 254 + b"x", [KeyReport("[", ALT), *typed("1" * 254 + "x")])


def test_many_events(parser):
    data = b"a\x1b[I\x1b[97;5:3u\x1b]0;t\x07\x1b[200~p\x1b[201~\x1b[24;80R"
    events = [KeyReport("a"), FocusGained(), KeyReport("a", CTRL, RELEASE), Osc(b"0;t")]
    events += [Paste("p"), CursorPosition(24, 80)]
    check_long(parser, data * 3000, events * 3000)


def test_many_different_reports(parser):
    for code in range(0xA0, 0xD7FF, 5):
        event = KeyReport(chr(code), SHIFT, RELEASE, shifted=chr(code + 1), text=chr(code))
        assert parser.feed(b"\x1b[%d:%d;2:3;%du" % (code, code + 1, code)) == [event]


# A string whose line is slow, or dead.


def test_a_slow_line(parser):
    """60,000 bytes at 2 KB in a second: no limit passes, and nothing is typed."""
    body = b"52;" + b"c\r;0" * 15000
    data = b"\x1b]" + body
    for at in range(len(data) // 2 + 1):
        assert parser.feed(data[2 * at : 2 * at + 2], at / 1000) + parser.idle(at / 1000) == []
    assert parser.feed(b"\x07", 33) == [Osc(body)]


def test_a_dead_line(parser):
    """Keys that are held are data of the string, and end it in some six seconds."""
    assert parser.feed(b"\x1b]11;rgb", 0) == []
    for count in range(1, 173):
        assert parser.feed(b"\r", 30 * count / 1000) == []
    assert (parser.timeout(5.16), parser.idle(5.179)) == (0.02, [])
    assert parser.idle(5.18) == [StringCut(StringKind.OSC, b"11;rgb" + b"\r" * 172)]
    assert parser.feed(b"\r" * 28, 6) == [KeyReport(KeyCode.ENTER)] * 28


def test_held_after_alt_bracket(parser):
    assert parser.feed(b"\x1b]", 0) == []
    for count in range(1, 34):
        assert parser.feed(b"l", 30 * count / 1000) == []
    assert (parser.timeout(0.99), parser.idle(0.999)) == (0.01, [])
    assert parser.idle(1) == [KeyReport("]", ALT), *typed("l" * 33)]
    assert parser.feed(b"l" * 27, 1.02) == typed("l" * 27)


# Key reports to bytes, and back.


SHIFT_A = KeyReport("a", SHIFT, shifted="A", base="b", text="A€")
ALL = KittyKeyboardFlags(31)


def test_read_back(parser):
    keys = ["a", "\U0010ffff", KeyCode.ESCAPE, KeyCode.TAB, UP, KeyCode.DELETE]
    keys += [Function(1), Function(35), KeyCode.RIGHT_ALT, 57344, 63743]
    every = itertools.product(keys, map(KittyModifiers, range(256)), KeyEventKind)
    reports = itertools.starmap(KeyReport, every)
    for report in [SHIFT_A, KeyReport("é", CTRL, KeyEventKind.REPEAT, base="2"), *reports]:
        assert parser.feed(report.encode(ALL)) == [report]


def test_nothing_else_is_refused(parser):
    """Each key of Kitty's table is sent, whatever is held. Under flags that ask for no sequences
    some keys have no bytes, but the refusal is of the key and not of memory. A text of any length
    is sent as it is, and in a sequence of any length up to 256."""
    numbers = (27, 9, 13, 127, *range(57344, 57455))
    numbers = [parser.feed(b"\x1b[%du" % number)[0].key for number in numbers]
    keys = ["a", "é", UP, KeyCode.DELETE, Function(1), Function(35), 63743, *numbers]
    held = (0, 1, 2, 4, 8, 16, 32, 64, 128, 255)
    asking = KittyKeyboardFlags.DISAMBIGUATE_ESCAPE_CODES
    asking |= KittyKeyboardFlags.REPORT_ALL_KEYS_AS_ESCAPE_CODES
    for key, bits, kind in itertools.product(keys, held, KeyEventKind):
        for flags in map(KittyKeyboardFlags, range(32)):
            asks = flags & asking
            with contextlib.nullcontext() if asks else contextlib.suppress(EncodeError):
                KeyReport(key, KittyModifiers(bits), kind).encode(flags)
    for length in range(1, 300):
        assert KeyReport("x", text="x" * length).encode(KittyKeyboardFlags.NONE) == b"x" * length
    for threes, twos in itertools.product(range(61), range(4)):
        report = KeyReport("a", text="x" * threes + "A" * twos)
        assert parser.feed(report.encode(ALL)) == [report]


def test_keys_without_bytes():
    for key in (KeyCode.COPY, Function(0), Function(36), 1, 57343, 63744, 0xFFFFFFFF):
        encode = KeyReport(key).encode
        assert_refused(EncodeError, encode, ALL, match="has no bytes under these flags")
        assert_refused(EncodeError, encode, KittyKeyboardFlags.NONE, match="has no bytes")


def test_a_long_text():
    report = KeyReport("x", text="x" * 5000)
    assert report.encode(KittyKeyboardFlags.NONE) == b"x" * 5000
    assert_refused(EncodeError, report.encode, ALL, match="at most 256 bytes")


def test_what_names_nothing():
    # The last two would be keys of Kitty's table, if they were cut to 32 bits.
    keys = ("", "ab", "\ud800", Function(256), Function(-1), -1, 2**32)
    keys += (57358 + 2**32, 57358 - 2**32)
    assert_refused(EncodeError, lambda it: KeyReport(it).encode(ALL), *keys)
    for fields in (
        *({"shifted": wrong} for wrong in ("", "ab", "\udfff")),
        *({"base": wrong} for wrong in ("", "ab", "\ud800")),
        {"text": "a\ud800"},
    ):
        assert_refused(EncodeError, KeyReport("a", **fields).encode, ALL)


def test_wrong_types():
    wrong = "^KittyKeyboardFlags are required, not"
    assert_refused(TypeError, KeyReport("a").encode, None, 0, CTRL, match=wrong)
    for wrong in (("a", 1), ("a", NONE, 1), (None,), ("a", NONE, KeyEventKind.PRESS, 65)):
        assert_refused(TypeError, KeyReport(*wrong).encode, ALL)


# Presses.


def test_typed_texts():
    """The texts to insert of reports that have no press."""
    for report, text in [
        (KeyReport(KeyCode.INTERNAL_PASTE_END), ""),
        (KeyReport(0), ""),
        (KeyReport(0, SHIFT, text="fi"), "fi"),
        (KeyReport(0, text="a\t"), ""),
        (KeyReport("\0", text="fi"), "fi"),
        (KeyReport(KeyCode.LEFT_CONTROL, CTRL), ""),
        (KeyReport("a", CTRL, RELEASE), ""),
        (KeyReport("a", SHIFT, RELEASE, text="ab"), ""),
    ]:
        assert (KeyPress.of_report(report), typed_text(report)) == (None, text)


def test_presses_are_keys_of_a_dict():
    press = KeyPress.of_report(KeyReport("\t", CTRL))
    assert press == KeyPress(KeyCode.TAB, CTRL)
    assert {press: 1}[KeyPress.of_report(KeyReport(KeyCode.TAB, CTRL))] == 1


def test_texts_of_presses():
    for press, text in [
        (KeyPress("a"), "a"),
        (KeyPress(" ", SHIFT), " "),
        (KeyPress("1", SHIFT), None),
        (KeyPress("a", CTRL), None),
        (KeyPress("\x85"), None),
        (KeyPress(KeyCode.ENTER), None),
        (KeyPress(57428), None),
    ]:
        assert press.text == text


def test_what_has_no_press():
    for event in (Paste("a"), FocusGained(), None, KeyReport("\ud800")):
        assert KeyPress.of_event(event) is None
    assert KeyPress.of_report(KeyReport("a", text="a\ud800")) is None
    assert KeyPress.of_report(KeyReport(57343)) is None
    wrong = KeyReport("a", Modifiers.CTRL), KeyReport("a", kind=1)
    assert_refused(TypeError, KeyPress.of_event, *wrong)
    assert_refused(EncodeError, KeyPress.of_event, KeyReport("ab"))
