"""What a terminal sends: events that are written, and read back, replies, pastes and reports of the
mouse."""
import itertools

import pytest

from hedrugal import ColourScheme, Csi, CursorPosition, Dcs, Dialect, EncodeError, EraseByte
from hedrugal import FocusGained, KeyboardFlags, KeyCode, KeyEventKind, KeyReport
from hedrugal import KittyKeyboardFlags, KittyModifiers, Parser
from hedrugal import Modifiers, MouseButton, MouseButtons, MouseEncoding, MouseKind, MouseReport
from hedrugal import MouseTracking, NewlineByte, Osc, Paste, Reading, SentMouse, StringCut
from hedrugal import StringKind, StringPart, encode, encode_colour_scheme, encode_cursor_position
from hedrugal import encode_device_attributes, encode_event, encode_paste
from cases import parser_by
from helpers import all_of, assert_raises, assert_read_back, assert_refused

SHIFT, ALT, CTRL = KittyModifiers.SHIFT, KittyModifiers.ALT, KittyModifiers.CTRL
NONE, PRIVATE = MouseButtons.NONE, "\ue000"
READINGS = [
    Reading(),
    Reading(x10_mouse=True, questions=1),
    Reading(erase=EraseByte.BACKSPACE, newline=NewlineByte.ENTER),
]


def side(number, kind, x, y, modifiers=Modifiers.NONE):
    return MouseReport(x, y, modifiers, NONE, kind, number)


# Events that no bytes are read as, by every reading.
UNWRITTEN = [
    MouseReport(1, 1, Modifiers.NONE, MouseButtons.LEFT | MouseButtons.RIGHT, MouseKind.PRESS, 1),
    MouseReport(1, 1, Modifiers.SUPER, MouseButtons.LEFT, MouseKind.PRESS, 1),
    MouseReport(1, 1, Modifiers.NONE, MouseButtons.LEFT, MouseKind.PRESS, 2),
    MouseReport(1, 1, Modifiers.NONE, MouseButtons.LEFT, MouseKind.PRESS),
    MouseReport(1, 1, Modifiers.NONE, NONE, MouseKind.WHEEL, 4),
    Paste("a\x1b[201~b"),
    KeyReport(57358),
    KeyReport("\0", SHIFT),
    KeyReport("\r"),
    KeyReport(PRIVATE, kind=KeyEventKind.RELEASE),
    KeyReport(PRIVATE, text="a"),
    KeyReport(PRIVATE, shifted=PRIVATE),
    KeyReport(PRIVATE, SHIFT, shifted="a"),
    KeyReport(KeyCode.UP_ARROW, text="a"),
    KeyReport(KeyCode.COPY),
    CursorPosition(0, 5),
    CursorPosition(5, 0),
    side(7, MouseKind.PRESS, 1, 1),
    side(8, MouseKind.PRESS, 1, 1, Modifiers.SUPER),
    Csi(b"I"),
    Csi(b""),
    Osc(b"ab"),
    Osc(b"11;a\x07b"),
    Dcs(b"1$r0m\x1b"),
    StringPart(StringKind.OSC, b"52;a"),
]

# Events that are too long.
LONG = [Csi(b"1;" * 127 + b"c"), Osc(b"52;" + b"a" * 65530), KeyReport("a", text="a" * 100)]


def test_long_strings():
    event, sent = Osc(b"52;" + b"a" * 60000), b"\x1b]52;" + b"a" * 60000 + b"\x1b\\"
    for parser in map(parser_by, READINGS):
        assert encode_event(event, parser) == sent
        assert_read_back(parser, event, sent)


def test_flags_without_a_name():
    with Parser(Dialect.EXTENDED) as parser:
        for flags, unnamed in ((0, 128), (31, 96)):
            event = KeyboardFlags(KittyKeyboardFlags(flags), unnamed)
            sent = encode_event(event, parser)
            assert sent == b"\x1b[?%du" % (flags + unnamed)
            assert_read_back(parser, event, sent)


def test_events_of_another_reading():
    """What the bytes 8, 10 and 127 are depends on the reading."""
    for reading, *events in [
        (READINGS[0], KeyReport("\x7f")),
        (READINGS[2], KeyReport("\b"), KeyReport("\n"), KeyReport("\b", ALT)),
        (Reading(Dialect.TERMWIZ), FocusGained()),
    ]:
        for event in events:
            why = f"no bytes are read as this {type(event).__name__}"
            assert_raises(EncodeError, lambda: encode_event(event, parser_by(reading)), match=why)


def test_what_is_buffered_stays():
    with Parser() as parser:
        assert parser.feed(b"\x1b[1;") == []
        assert [encode_event(KeyReport("a"), parser) for _ in range(2)] == [b"a"] * 2
        assert parser.feed(b"5A") == [KeyReport(KeyCode.UP_ARROW, CTRL)]
    assert_raises(ValueError, lambda: encode_event(KeyReport("a"), parser))


@pytest.mark.parametrize("reading", READINGS)
@pytest.mark.parametrize("event", UNWRITTEN)
def test_no_bytes(event, reading):
    with pytest.raises(EncodeError, match="no bytes are read"):
        encode_event(event, parser_by(reading))


@pytest.mark.parametrize("event", LONG)
def test_too_long(event):
    with pytest.raises(EncodeError, match="is too long"):
        encode_event(event, Parser())


# Forms of sequences of every kind, and what each is filled with.
NUMBERS = (b"", b"0", b"1", b"27", b"97", b"57358", b"57427", b"0097", b"1114111")
PARAMETERS = (NUMBERS, (b"", b"1", b"5:2", b"300"), b"AEHPRSZu~cMt")
FORMS = [
    (b"%c%c", b"\x1ba\xc3\xff", range(256)),
    (b"\x1b[%b;%b%c", *PARAMETERS),
    (b"\x1b[%b;%b;98:99%c", *PARAMETERS),
    (b"\x1b[%b:65:66;%b%c", *PARAMETERS),
    (b"\x1b[<%d;3;4%c", range(200), b"Mm"),
    (b"\x1b[%d;3;4M", range(200)),
    (b"\x1bO%c%c", b"01;258PjMX", b"01;258PjMX"),
    (b"\x1b[%d%c", range(10), b"ADGPRSZ"),
    (b"\x1b[27;%d;%d~", (2, 5, 10), (0, 8, 65, 57344)),
    (b"\x1b[%d%c", range(40), b"^@$"),
    (b"\x1b[[%c", range(64, 96)),
    (b"\x1b]l%b%b", (b"", b"t" * 251, b"t" * 252), (b"\x07", b"\x1b\\")),
    (b"\x1b[200~a\xffb\x1b[201~",),
]


def texts():
    """Sequences of every kind, whole and broken off."""
    table = [entry.bytes for entry in Parser().entries()]
    yield from table
    yield from (b"\x1b" + it for it in table[::7])
    for form, *parts in FORMS:
        yield from (form % it for it in itertools.product(*parts))


def anew(parser, reading):
    """A parser that was reset, and reads so."""
    parser.reset()
    parser.reading = reading
    return parser


@pytest.mark.parametrize("reading", [*READINGS, Reading(Dialect.TERMWIZ)])
def test_what_is_read_is_written(reading):
    """Each event that a parser emits is written, and what is written is that event."""
    parser, seen = Parser(), set()
    for text in texts():
        seen.update(all_of(anew(parser, reading), text))
    whole = [event for event in seen if not isinstance(event, (StringPart, StringCut))]
    assert len(whole) > 1000
    anew(parser, reading)
    for event in whole:
        parser.reading = reading
        assert_read_back(parser, event, encode_event(event, parser))


def typed_text(key, held, reads):
    """What a terminal with every mode off sends for a key, or its character, if `reads` says so."""
    sent = b"" if isinstance(key, int) else encode(key, Modifiers(2 * held.value))
    character = key.encode() if isinstance(key, str) else b""
    return next((text for text in (sent, character) if text and reads(text)), None)


@pytest.mark.parametrize("reading", [*READINGS, Reading(Dialect.TERMWIZ)])
def test_first_rows(reading):
    """Of the rows that are read as a key the first is written, unless the key is typed."""
    parser, first = Parser(), {}

    def read(text):
        events = all_of(anew(parser, reading), text)
        return None if parser.waiting_len else events

    for entry in Parser().entries():
        events = read(entry.bytes)
        if events and isinstance(events[0], KeyReport):
            first.setdefault(events[0], entry.bytes)
    assert len(first) > 1000
    for event, row in first.items():
        typed = typed_text(event.key, event.modifiers, lambda text: read(text) == [event])
        assert encode_event(event, anew(parser, reading)) == (typed or row)


def test_replies():
    assert encode_cursor_position(1, 5) == b"\x1b[1;5R"
    assert encode_cursor_position(65535, 2, private=True) == b"\x1b[?65535;2R"
    assert Parser().feed(encode_cursor_position(0, 2)) == [Csi(b"0;2R")]
    assert encode_colour_scheme(ColourScheme.DARK) == b"\x1b[?997;1n"
    assert encode_colour_scheme(ColourScheme.LIGHT) == b"\x1b[?997;2n"
    assert encode_device_attributes([]) == b"\x1b[?c"
    assert encode_device_attributes([62, 4, 22]) == b"\x1b[?62;4;22c"
    assert len(encode_device_attributes([65535] * 42)) == 255
    long = [65535] * 43
    assert_refused(EncodeError, encode_device_attributes, long, match="is too long")


def test_bad_values():
    def write(event):
        return encode_event(event, Parser())

    wrong = [
        MouseReport(1, 1, None, NONE, MouseKind.MOVE),
        MouseReport(1, 1, Modifiers.NONE, None, MouseKind.MOVE),
        MouseReport(1, 1, Modifiers.NONE, NONE, 4),
    ]
    assert_refused(TypeError, write, None, "a", KeyReport("a", None), *wrong)
    assert_raises(TypeError, lambda: encode_event(FocusGained(), Dialect.EXTENDED))
    moved = MouseReport(-1, 1, Modifiers.NONE, NONE, MouseKind.MOVE)
    sides = (side(number, MouseKind.PRESS, 1, 1) for number in (0, 300))
    assert_refused(EncodeError, write, moved, *sides, CursorPosition(1, 65536), Paste("\ud800"))
    assert_raises(EncodeError, lambda: encode_cursor_position(-1, 1))
    assert_refused(TypeError, encode_colour_scheme, "dark")


def test_a_long_paste(parser):
    text = "␛" * 1000
    assert encode_paste(b"\x1b" * 1000, False) == text.encode()
    assert parser.feed(encode_paste(b"\x1b" * 1000, True)) == [Paste(text)]


def test_a_text_of_2_mb(parser):
    text = "x" * (2 << 20)
    sent = encode_paste(text.encode(), True)
    assert parser.feed(sent) == [Paste(text)]
    assert encode_event(Paste(text), parser) == sent
    assert KeyReport("x", text=text).encode(KittyKeyboardFlags.NONE) == text.encode()


def test_what_is_no_report():
    def send(report, encoding=MouseEncoding.SGR):
        return report.encode(MouseTracking.ANY, encoding)

    none, far = MouseButton.NONE, SentMouse(1, 224, MouseButton.BUTTON1_PRESS)
    too_far = "the place 1, 224 is too far"
    assert_raises(EncodeError, lambda: send(far, MouseEncoding.DEFAULT), match=too_far)
    assert_refused(EncodeError, send, SentMouse(65536, 1, none), SentMouse(1, -1, none))
    assert_refused(TypeError, send, SentMouse(1, 1, 0), SentMouse(1, 1, none, 2))
    assert_raises(TypeError, lambda: SentMouse(1, 1, none).encode(3, MouseEncoding.SGR))
