"""What a caller's own classes and buffers answer never parts a pointer from its length."""
import array
import contextlib
import ctypes
import sys

import pytest

from hedrugal import Exact, KeyCode, KeyMap, KeyReport, KittyKeyboardFlags, KittyModifiers, Parser
from hedrugal import Paste, encode
from helpers import EVENTS, STREAM, all_of, assert_refused, typed
from plain_map import LONG

UP, CTRL_UP = b"\x1b[1;5A", [KeyReport(KeyCode.UP_ARROW, KittyModifiers.CTRL)]

# Lengths that a class claims: fewer bytes than there are, and more.
CLAIMED = (0, 3, 199, 1 << 40)


def liar(kind, claimed):
    """A class over a kind of bytes that claims a length, and to have other bytes."""

    def other(*_):
        return b"x" * claimed if claimed < 1000 else b""

    calls = {"__len__": lambda _: claimed, "__iter__": lambda _: iter(other())}
    calls.update(dict.fromkeys(("__bytes__", "__getitem__", "tobytes"), other))
    return type(f"Other{kind.__name__}", (kind,), calls)


@pytest.mark.parametrize("claimed", CLAIMED)
@pytest.mark.parametrize("kind", [bytes, bytearray])
def test_classes_that_claim_a_length(parser, kind, claimed):
    data = liar(kind, claimed)(UP)
    assert len(data) == claimed
    assert (parser.feed(data), parser.waiting_len) == (CTRL_UP, 0)
    with KeyMap() as keys:
        keys.insert(data, 1)
        assert keys.lookup(UP, False) == keys.lookup(data, False) == Exact(len(UP), 1)


@pytest.mark.skipif(sys.version_info < (3, 12), reason="no class has a buffer of its own")
def test_classes_with_a_buffer_of_their_own(parser):
    calls = {"__buffer__": lambda *_: memoryview(UP), "__len__": lambda _: 199}
    assert parser.feed(type("Own", (bytes,), calls)(b"q")) == CTRL_UP


# What makes a value with these bytes: of each type, and a view whose items have several.
KINDS = [
    bytes,
    bytearray,
    memoryview,
    lambda text: memoryview(bytearray(text)),
    lambda text: memoryview(bytearray(b"xx" + text + b"x"))[2:-1],
    lambda text: memoryview(bytes(it for byte in text for it in (byte, 0)))[::2],
    lambda text: memoryview(bytearray(text)).cast("b"),
    lambda text: memoryview(array.array("I", text)),
    lambda text: memoryview(array.array("B", text)).cast("I"),
    lambda text: memoryview((ctypes.c_uint32 * (len(text) // 4)).from_buffer_copy(text)),
    lambda text: memoryview(text).cast("B", (2, len(text) // 2)),
    lambda text: memoryview(bytearray(text)).cast("H", (len(text) // 4, 2)),
]


@pytest.mark.parametrize("kind", KINDS)
def test_kinds_of_bytes(parser, kind):
    """A view's bytes are counted, and not its items."""
    more = -len(STREAM) % 4
    assert all_of(parser, kind(b"x" * more + STREAM)) == typed("x" * more) + EVENTS
    text = b"\x1b[1;5Aab"
    assert parser.feed(kind(text)) == [*CTRL_UP, *typed("ab")]
    with KeyMap() as keys:
        for key in (text, LONG[:300]):
            keys.insert(kind(key), 1)
            assert keys.lookup(kind(key), False) == Exact(len(key), 1)
            keys[kind(key)] = kind
            assert keys[kind(key)] is kind and kind(key) in keys
            del keys[kind(key)]
        assert len(keys) == 0


@pytest.mark.parametrize("kind", KINDS[:5])
def test_no_bytes(parser, kind):
    assert parser.feed(kind(b"")) == []
    with KeyMap() as keys:
        keys.insert(kind(b""), kind)
        assert keys.lookup(kind(b""), False) == Exact(0, kind)


def test_values_may_be_changed_after_the_call(parser):
    data = bytearray(b"ab")
    assert parser.feed(data) == typed("ab")
    with KeyMap() as keys:
        keys.insert(data, 1)
        data.clear()
        assert keys.lookup(b"ab") == Exact(2, 1)


@pytest.mark.parametrize("kind", [ctypes.c_uint32 * 2, ctypes.c_uint32])
def test_buffers_that_are_no_bytes(parser, kind):
    wrong = (kind(), array.array("B", b"q"))
    assert_refused(TypeError, parser.feed, *wrong, match="is required, not")


def test_resized_in_the_call():
    """By what is asked whether more may come. The bytes are those before or after that."""

    class Resizes:
        def __bool__(self):
            with contextlib.suppress(BufferError):
                data.extend(b"q" * (1 << 16))
            return False

    data = bytearray(UP)
    with KeyMap() as keys:
        keys.insert(UP, 1)
        assert keys.lookup(data, Resizes()) == Exact(len(UP), 1)
    data.clear()


def encode_report_of(text):
    """Under all flags, so with its text."""
    return KeyReport("a", text=text).encode(KittyKeyboardFlags(31))


def test_texts_that_encode_themselves():
    """The text of a report is a str, whatever its class makes of itself."""

    class Text(str):
        def encode(self, *_):
            return liar(bytes, 199)(b"other")

    assert encode_report_of(Text("é")) == b"\x1b[97;;233u"
    assert_refused(TypeError, encode_report_of, None, b"a", 97)


def test_nul_and_surrogates():
    """NUL ends nothing, and a surrogate is refused."""
    with Parser() as parser, KeyMap() as keys:
        assert parser.feed(b"\x1b[200~a\0b\x1b[201~") == [Paste("a\0b")]
        keys.insert(b"a\0b", 1)
        assert keys.lookup(b"a\0bc", False) == Exact(3, 1)
    assert encode("\0") == b"\0"
    for call in (encode, encode_report_of):
        assert_refused(ValueError, call, "\ud800", "\udfff")
