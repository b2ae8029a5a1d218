"""Keys to bytes, and sets of flags."""
import operator

import pytest

import hedrugal
from hedrugal import EncodeError, Function, KeyboardEncoding, KeyCode, KeyCodeEncodeModes
from hedrugal import KeyReport, KittyKeyboardFlags, KittyModifiers, Modifiers, MouseButtons, encode
from helpers import assert_raises, assert_refused


def test_wrong_types():
    wrong = (None, 65, b"q", Modifiers.ALT, KeyReport("q"), ["q"])
    assert_refused(TypeError, encode, *wrong, match="is required, not")
    wrong = (Function("1"), Function(None), Function(1.0))
    assert_refused(TypeError, encode, *wrong, match="an int is required")
    wrong = (None, 4, "ALT", MouseButtons.LEFT)
    assert_refused(TypeError, lambda it: encode("q", it), *wrong, match="Modifiers are required")
    wrong = (None, KeyCodeEncodeModes(encoding=0), KeyCodeEncodeModes(kitty_flags=1))
    assert_refused((TypeError, AttributeError), lambda it: encode("q", modes=it), *wrong)
    text = KeyCodeEncodeModes(modify_other_keys="1")
    assert_raises(TypeError, lambda: encode("q", modes=text), match="an int is required")


@pytest.mark.parametrize("size", range(8))
def test_short_rooms(monkeypatch, size):
    """A text that is longer than the room is asked for again."""
    monkeypatch.setattr(hedrugal.keys, "_ROOM", size)
    assert encode(KeyCode.LEFT_ARROW, Modifiers.ALT) == b"\x1b[1;3D"
    assert encode(KeyCode.HYPER) == b""


def test_function_keys_without_text():
    assert_refused(EncodeError, encode, Function(25), match="F25 has no text")


def test_what_names_nothing():
    keys = ("", "ab", "\ud800", "\udfff", *map(Function, (-1, 256, 2**32 + 1)))
    modes = [KeyCodeEncodeModes(modify_other_keys=it) for it in (2**63, -(2**63) - 1)]
    for down in (True, False):
        assert_refused(EncodeError, lambda it: encode(it, is_down=down), *keys)
        assert_refused(EncodeError, lambda it: encode("q", modes=it, is_down=down), *modes)


def test_every_key():
    for encoding in KeyboardEncoding:
        for key in ["a", *KeyCode]:
            assert isinstance(encode(key, Modifiers.SHIFT, KeyCodeEncodeModes(encoding)), bytes)
    for flag in Modifiers:
        assert encode(KeyCode.TAB, flag)[-1:] in (b"\t", b"u", b"Z")


SETS = [Modifiers, KittyModifiers, MouseButtons, KittyKeyboardFlags]


@pytest.mark.parametrize("flags", SETS)
def test_bits_without_a_name(flags):
    """They are refused, as in C: a set has none."""
    named = (~flags.NONE).value
    for bits in (1 << place for place in range(70)):
        if bits & named:
            assert flags(bits).value == bits
        else:
            assert_refused(ValueError, flags, bits, bits | named)


@pytest.mark.parametrize("flags", SETS)
@pytest.mark.parametrize("combine", [operator.or_, operator.and_, operator.xor])
def test_sets_are_not_mixed(flags, combine):
    """A set is never equal to one of another type or to a number, and isn't combined with it."""
    for flag in flags.__members__.values():
        others = [it for other in SETS if other is not flags for it in other.__members__.values()]
        for wrong in (*others, flag.value, None, flag.name):
            assert flag != wrong and hash(flag) == hash(flags(flag.value))
            assert_raises(TypeError, lambda: combine(flag, wrong), lambda: combine(wrong, flag))


def test_sets():
    none, shift, ctrl = Modifiers.NONE, Modifiers.SHIFT, Modifiers.CTRL
    both = ctrl | shift
    assert (both.value, both & ctrl, both ^ ctrl) == (10, ctrl, shift)
    assert both & ~ctrl is shift and ctrl in both and both not in ctrl
    assert [bool(it) for it in (both, none, both & Modifiers.ALT)] == [True, False, False]
    names = ["Modifiers.SHIFT|CTRL", "Modifiers.SHIFT|CTRL", "Modifiers.NONE"]
    assert [str(both), repr(both), str(Modifiers(0))] == names
