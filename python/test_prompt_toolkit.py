"""The parser for prompt_toolkit: its keys are those of prompt_toolkit's own table, but where
docs/python.md says why not."""
import os
import re
import termios
import time
import tty
from unittest import mock

import pytest

pytest.importorskip("prompt_toolkit")

from prompt_toolkit.input.ansi_escape_sequences import ANSI_SEQUENCES  # noqa: E402
from prompt_toolkit.input.vt100_parser import Vt100Parser  # noqa: E402
from prompt_toolkit.keys import Keys  # noqa: E402

from hedrugal import prompt_toolkit as for_prompt_toolkit  # noqa: E402
from hedrugal.prompt_toolkit import Input, Parser  # noqa: E402
from helpers import assert_documented, cut, read  # noqa: E402


def key_presses(make, *texts):
    """The key presses of texts, after which nothing comes."""
    pressed = []
    parser = make(pressed.append)
    for text in texts:
        parser.feed(text)
    parser.flush()
    return pressed


def keys(make, *texts):
    return [it.key for it in key_presses(make, *texts)]


def listed():
    """The sequences of the table of docs/python.md."""
    table = re.search(
        r"^\| Sequences of prompt_toolkit .*?\n\n", read("docs/python.md"), re.M | re.S
    )
    assert table
    cells = [line.split("|")[1] for line in table[0].split("\n")[2:-2]]
    return {
        text.replace("ESC ", "\x1b") for cell in cells for text in re.findall(r"`([^`]+)`", cell)
    }


def test_the_table():
    """Each sequence is the same key, or is listed."""
    assert len(ANSI_SEQUENCES) > 200
    others = {text for text in ANSI_SEQUENCES if keys(Parser, text) != keys(Vt100Parser, text)}
    assert others == listed()


def test_texts():
    """What is passed as the text of a key is the same, too."""
    for text in ANSI_SEQUENCES.keys() - listed() - {"\x1b[200~"}:
        assert key_presses(Parser, text) == key_presses(Vt100Parser, text), repr(text)


OTHERS = {
    # Each report of a position is a reply, since prompt_toolkit asks at any time.
    "\x1b[1;5R\x1b[24;80R": [Keys.CPRResponse] * 2,
    "\x1b[<0;3;4M\x1b[<0;3;4m\x1b[M !!\x1b[96;14;13M": [Keys.Vt100MouseEvent] * 4,
    # Reports and replies are no keys, and neither is what has no name.
    "\x1b[I\x1b[O\x1b]11;rgb:0/0/0\x07\x1b[?62;22ca": ["a"],
    "\x1b[27;5;59~a": [Keys.Ignore, "a"],
    # What prompt_toolkit has no name for is the key with fewer modifiers, unless it types text.
    "\x1b[27;6;9~\x1b[27;5;127~\x1b[97;6u": [Keys.BackTab, Keys.ControlH, Keys.ControlA],
    "\x1b[27;5;49~\x1b[49;5u": [Keys.Control1] * 2,
    "\x1b[1;5A\x1b[1;6A": [Keys.ControlUp, Keys.ControlShiftUp],
}


PRINTABLE = [*map(chr, range(0x20, 0x7F)), "é", "世"]
# The last characters of ESC O that are those of a keypad.
KEYPAD = dict(zip("jklmnopqrstuvwxyX", "*+,-./0123456789="))
ALT, CTRL = 2, 4


def reports(character, held=0):
    """A key of a character with modifiers, in the forms CSI u and modifyOtherKeys."""
    code, number = ord(character), 1 + held
    return f"\x1b[{code};{number}u", f"\x1b[27;{number};{code}~"


@pytest.mark.parametrize("character", [*map(chr, range(0x20)), "\x7f"], ids=ascii)
def test_control_characters(character):
    assert key_presses(Parser, character) == key_presses(Vt100Parser, character)


@pytest.mark.parametrize("character", PRINTABLE)
def test_characters_as_sequences(character):
    """They are inserted as the characters are, and not as sequences."""
    for text in (f"\x1b[{ord(character)}u", *reports(character)):
        assert key_presses(Parser, text) == key_presses(Vt100Parser, character), repr(text)
    for text in reports(character, ALT):
        assert key_presses(Parser, text) == key_presses(Vt100Parser, f"\x1b{character}")
    if "a" <= character <= "z":
        # With modifyOtherKeys the terminal tells the character that Shift made.
        for text in (f"\x1b[{ord(character)};2u", f"\x1b[27;2;{ord(character.upper())}~"):
            assert key_presses(Parser, text) == key_presses(Vt100Parser, character.upper())


@pytest.mark.parametrize("last, character", KEYPAD.items())
def test_characters_of_the_keypad(last, character):
    assert key_presses(Parser, f"\x1bO{last}") == key_presses(Vt100Parser, character)


@pytest.mark.parametrize("character", PRINTABLE)
def test_characters_with_ctrl(character):
    """Where one byte is Ctrl with a character, it is the same key. prompt_toolkit has names for
    digits with Ctrl. It has none for the others."""
    wanted = [Keys.Ignore]
    if character.isdigit():
        wanted = [Keys(f"c-{character}")]
    elif character.isascii() and (character.isalpha() or character in " @\\]^_"):
        wanted = keys(Vt100Parser, chr(ord(character) & 0x1F))
    for text in reports(character, CTRL):
        assert keys(Parser, text) == wanted


# Kitty's protocol sends these keys by their control characters.
CONTROLS = {
    "\x1b[9u": [Keys.ControlI],
    "\x1b[9;2u": [Keys.BackTab],
    "\x1b[13u": [Keys.ControlM],
    "\x1b[13;5u": [Keys.ControlM],
    "\x1b[27u": [Keys.Escape],
    "\x1b[27;2u": [Keys.ShiftEscape],
    "\x1b[27;3u": [Keys.Escape, Keys.Escape],
    "\x1b[127u": [Keys.ControlH],
    # It is in prompt_toolkit's table, since mintty sends it.
    "\x1b[1;5u": [Keys.Control5],
}


@pytest.mark.parametrize("text, wanted", (OTHERS | CONTROLS).items())
def test_beyond_the_table(text, wanted):
    """Whole, and character by character."""
    assert keys(Parser, text) == wanted
    assert keys(Parser, *text) == wanted


def test_texts_of_reports():
    """prompt_toolkit reads them."""
    for text in ("\x1b[24;80R", "\x1b[<0;3;4M", "\x1b[<64;85;12m", "\x1b[M !\udcff"):
        assert [it.data for it in key_presses(Parser, text)] == [text]


def test_pastes():
    text = "q\r\x1b[A" * 50000
    parts = ["a\x1b[200~", *cut(text, 1000), "\x1b[201~b"]
    pressed = key_presses(Parser, *parts, *parts)
    assert [it.key for it in pressed] == ["a", Keys.BracketedPaste, "b"] * 2
    assert pressed[1].data == pressed[4].data == text


def test_reset():
    parser = Parser(None)
    parser.feed("\x1b[200~abc")
    parser.reset()
    parser.feed("\x1b[1;")
    parser.reset()
    assert (parser.timeout(), parser.parser.waiting_len) == (None, 0)


@pytest.mark.parametrize("text", ["abc é世", "\x1bx", "\x1b\x1b[A", "a\x1b[Ab\x1bOPc\x1b[1;5D"])
def test_typed(text):
    assert key_presses(Parser, text) == key_presses(Vt100Parser, text)
    assert key_presses(Parser, *text) == key_presses(Parser, text)


@pytest.fixture
def terminal():
    """The end of a pseudo-terminal where keys are typed, and an input that reads them."""
    ours, theirs = os.openpty()
    tty.setraw(theirs)
    with open(ours, "wb", buffering=0) as typing, open(theirs) as stdin:
        yield typing, Input(stdin)


def let_end_input(typing):
    """Sets the terminal so that ^D ends the input."""
    settings = termios.tcgetattr(typing)
    settings[3] |= termios.ICANON
    settings[6][termios.VEOF] = b"\x04"
    termios.tcsetattr(typing, termios.TCSANOW, settings)


def test_keys_that_are_due(terminal):
    """What came meanwhile is read first."""
    typing, reader = terminal
    for call in (reader.flush_keys, reader.read_keys) * 2:
        typing.write(b"\x1b")
        assert reader.read_keys() == []
        time.sleep(0.1)
        typing.write(b"[A")
        assert [it.key for it in call()] == [Keys.Up]
    typing.write(b"\x1b")
    assert reader.read_keys() == []
    time.sleep(0.1)
    assert [it.key for it in reader.flush_keys()] == [Keys.Escape]


def test_end_of_the_input(terminal):
    """What is buffered is flushed."""
    typing, reader = terminal
    let_end_input(typing)
    # The first ^D ends a read, and the second the input.
    typing.write(b"a\x1b[1;\x04\x04")
    assert [it.key for it in reader.read_keys()] == ["a"] and not reader.closed
    assert [it.key for it in reader.read_keys()] == [Keys.Escape, *"[1;"] and reader.closed


def test_refused_memory_at_the_end(terminal):
    """What came before is told by the next call."""
    typing, reader = terminal
    let_end_input(typing)
    typing.write(b"\x04")
    reader.vt100_parser.feed("ab")
    with mock.patch.object(reader.vt100_parser, "end", side_effect=MemoryError):
        with pytest.raises(MemoryError):
            reader.read_keys()
    assert [it.key for it in reader.read_keys()] == ["a", "b"]


def test_every_call_says_what_it_does():
    assert_documented(for_prompt_toolkit, Parser, Input)
