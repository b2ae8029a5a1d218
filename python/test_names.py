"""The names of keys and of chords, read and printed."""
import copy
import pickle
import random

import pytest

from hedrugal import Chord, EncodeError, Function, KeyCode, KeyNameError, KeyNameErrorKind
from hedrugal import KeyPress, KeyReport, KittyModifiers
from cases import cases_of
from helpers import assert_refused

NONE, SHIFT, CTRL = KittyModifiers.NONE, KittyModifiers.SHIFT, KittyModifiers.CTRL


def test_what_is_no_name():
    said = "^no key has this name, at byte 2$"
    assert_refused(KeyNameError, Chord.read, "x gg", match=said)
    for kind in KeyNameErrorKind:
        error = KeyNameError(kind, 3)
        assert isinstance(error, ValueError) and str(error) == f"{kind}, at byte 3"
        again = pickle.loads(pickle.dumps(error))
        assert (again.kind, again.at, str(again)) == (kind, 3, str(error))


def test_each_kind_is_told():
    """By a text of the cases."""
    told = {line.split(" = ")[1].split(" ")[0] for _, line in cases_of("names.txt")}
    kinds = {f"NAME_{kind.name}" for kind in KeyNameErrorKind}
    assert kinds - told == {"NAME_BAD_TEXT"} and "BAD_TEXT" in told


def test_chords_are_values():
    chord = Chord.read("ctrl+x 5")
    assert list(chord) == [KeyPress("x", CTRL), KeyPress("5")]
    assert (len(chord), {chord: 1}[Chord.read("C-x 5")]) == (2, 1)
    assert chord == Chord([KeyPress("x", CTRL), KeyPress("5")]) != Chord.read("ctrl+x")
    assert pickle.loads(pickle.dumps(chord)) == copy.copy(chord) == chord
    with pytest.raises(AttributeError):
        chord.presses = ()
    wrong = (), [KeyPress("a")] * 33, [KeyPress("a", SHIFT)], [KeyPress(KeyCode.SHIFT)]
    assert_refused(ValueError, Chord, *wrong)
    assert_refused(EncodeError, Chord, [KeyPress("ab")])
    assert_refused(TypeError, Chord, "a", [KeyReport("a")], 1)
    assert_refused(TypeError, Chord.read, b"a", None)


def test_names_of_presses():
    for press, name in [
        (KeyPress("a", CTRL | SHIFT), "ctrl+shift+a"),
        (KeyPress(KeyCode.UP_ARROW), "up"),
        (KeyPress(Function(5), KittyModifiers.META), "meta+f5"),
        (KeyPress(" ", SHIFT), "shift+space"),
        (KeyPress(57428), "kitty57428"),
        (KeyPress("\U0010ffff"), "U+10FFFF"),
    ]:
        assert str(press) == f"{press}" == name
        assert Chord.read(name) == Chord([press])
    # What was made by hand, and is the press of no key.
    for press in (KeyPress("a", SHIFT), KeyPress(KeyCode.NUMPAD_5), KeyPress("a", ~NONE)):
        assert str(press) == repr(press)
        assert press.text is None
    assert_refused(EncodeError, str, KeyPress("ab"))
    assert_refused(TypeError, str, KeyPress("a", 0))


def test_names_are_read_back():
    draws = random.Random(1)
    keys = [key for key in KeyCode if KeyPress.of_report(KeyReport(key))]
    for _ in range(3000):
        press = None
        while press is None:
            character = draws.choice([draws.randrange(0x3000), draws.randrange(0xE000, 0x110000)])
            functions = draws.choice(keys), Function(draws.randrange(256))
            key = draws.choice([*functions, draws.randrange(57344, 63744), chr(character)])
            press = KeyPress.of_report(KeyReport(key, KittyModifiers(draws.randrange(256))))
        assert Chord.read(str(press)) == Chord([press])
