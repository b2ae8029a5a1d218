"""The key map, also against a plain dict."""
import copy
import pickle
import random
import re
from unittest import mock

import pytest

from hedrugal import Ambiguous, Exact, KeyMap, NeedData, Nothing
from hedrugal._calls import STATUS_NO_MEMORY
from hedrugal._library import library
from helpers import LIMITS, assert_prints, assert_refused, needs_limits
from plain_map import LONG, letters, long, nested, plain_lookup


@pytest.fixture
def keys():
    with KeyMap() as it:
        yield it


# The map against a plain dict.


def assert_alike(keys, pick, draw, entries):
    assert len(keys) == len(entries)
    for _ in range(10):
        text = draw(pick)
        for more in (True, False):
            assert keys.lookup(text, more) == plain_lookup(entries, text, more), (text, entries)


def test_maps_and_dicts_agree():
    pick, replaced = random.Random(1), 0
    for draw in (letters, nested, long):
        for _ in range(20):
            entries = {}
            with KeyMap() as keys:
                for _ in range(60):
                    key, value = draw(pick), object()
                    replaced += key in entries
                    entries[key] = value
                    keys.insert(key, value)
                    assert_alike(keys, pick, draw, entries)
    assert replaced > 100


def test_it_is_a_mapping(keys):
    """As a dict, but for the order of its keys."""
    pick, entries = random.Random(2), {}
    for _ in range(300):
        key, value = letters(pick), object()
        if pick.random() < 0.4 and key in entries:
            assert keys.pop(key) is entries.pop(key)
        elif pick.random() < 0.3:
            assert keys.get(key) is entries.get(key)
        else:
            keys[key] = entries[key] = value
        assert [*keys.items()] == sorted(entries.items())
        assert (key in keys) == (key in entries) and keys == entries
        assert_alike(keys, pick, letters, entries)
    keys.clear()
    assert (len(keys), bool(keys), [*keys], keys.lookup(b"a")) == (0, False, [], Nothing())
    assert repr(keys) == "<KeyMap, 0 keys>"
    keys[b"a"] = 1
    assert keys == {b"a": 1} and bool(keys)


def test_keys_that_are_not_there(keys):
    keys.insert(b"ab", 1)
    for missing in (b"a", b"abc", b"", b"x"):
        assert missing not in keys and keys.get(missing, 2) == 2
        for use in (keys.__getitem__, keys.pop, keys.__delitem__):
            assert_refused(KeyError, use, missing, match=re.escape(repr(missing)))
    assert [*keys] == [b"ab"]


def test_many_keys(keys):
    for number in range(20000):
        keys.insert(number.to_bytes(2, "big"), number)
    for number in range(20000):
        assert keys.lookup(number.to_bytes(2, "big")) == Exact(2, number)
    assert (keys.lookup((20000).to_bytes(2, "big")), len(keys)) == (Nothing(), 20000)


def test_a_long_key(keys):
    key = LONG * 400
    keys.insert(key, 1)
    keys.insert(key[:5000], 2)
    assert keys.lookup(key) == Exact(len(key), 1)
    assert keys.lookup(key[:6000], False) == Exact(5000, 2)


def test_a_value_is_any_object(keys):
    for value in (None, [1], "text", keys, Exact(1, 2), KeyMap.lookup):
        keys.insert(b"value", value)
        assert keys.lookup(b"value").value is value


def test_maps_are_apart(keys):
    with KeyMap() as other:
        keys.insert(b"q", 1)
        other.insert(b"q", 2)
        other.insert(b"qq", 3)
    assert (keys.lookup(b"qq"), len(keys)) == (Exact(1, 1), 1)


def test_answers_are_values(keys):
    answers = [Nothing(), NeedData(), Exact(1, 2), Ambiguous(1, 2)]
    for answer in answers:
        assert [answer == other for other in answers].count(True) == 1
        assert pickle.loads(pickle.dumps(answer)) == answer
        assert hash(copy.copy(answer)) == hash(answer)
        with pytest.raises(AttributeError):
            answer.value = 1
    shown = "[Nothing(), NeedData(), Exact(len=1, value=2), Ambiguous(len=1, value=2)]"
    assert repr(answers) == shown


def test_wrong_types(keys):
    for use in (lambda it: keys.insert(it, 1), keys.lookup):
        assert_refused(TypeError, use, "q", 65, None, [65], object(), match="is required, not")
    assert_refused(TypeError, keys.__setitem__, "ab", 1)
    assert len(keys) == 0


# Inserts keys of 16 MB until memory is refused, and looks all of them up.
REFUSED_INSERT = """
import gc, weakref
class Value: pass
key = bytearray(16 * MB)
def key_of(number):
    key[0] = number
    return key
keys, values = KeyMap(), []
def insert(value):
    return refused(lambda: keys.insert(key_of(len(values)), value))[0] is None
def check():
    assert len(keys) == len(values)
    for number, value in enumerate(values):
        assert keys.lookup(key_of(number)) == Exact(len(key), value)
    assert keys.lookup(key_of(len(values))) == Nothing()
limit(100 * MB)
while True:
    value = Value()
    if not insert(value): break
    values.append(value)
assert 0 < len(values) < 8, len(values)
check()
seen = weakref.ref(value)
del value
gc.collect()
assert seen() is None
other = Value()
assert not insert(other)
for number in range(len(values)):
    keys.insert(key_of(number), other)
    values[number] = other
check()
limit(None)
assert insert(other)
values.append(other)
check()
print("good")
"""


# Memory is refused by a limit on the process, or where a request is too small for one.


@needs_limits
def test_insert():
    assert_prints(LIMITS + REFUSED_INSERT, "good\n", MALLOC_ARENA_MAX="1")


def test_a_place_for_the_value():
    class Short(dict):
        """A dict that is refused memory once, when it has so many values."""

        def __setitem__(self, number, entry):
            if len(self) == count and not refused:
                refused.append(count)
                raise MemoryError
            super().__setitem__(number, entry)

    for count in range(4):
        refused, keys = [], KeyMap()
        keys._entries = Short()
        for length in range(4):
            if length == count:
                assert_refused(MemoryError, lambda it: keys.insert(bytes(it), it), length)
                before = Exact(length - 1, length - 1) if length else Nothing()
                assert (len(keys), keys.lookup(bytes(9))) == (length, before)
            keys.insert(bytes(length), length)
        assert (keys.lookup(bytes(9)), len(keys), refused) == (Exact(3, 3), 4, [count])
        keys.close()


@pytest.mark.parametrize("call, at", [("init", 0), ("insert", 0), ("insert", 1)])
def test_refused_delete(keys, call, at):
    """The map stays as it is, and what was made of the other is freed."""
    for key in (b"a", b"ab", b"abc"):
        keys[key] = key
    answers = [mock.DEFAULT] * at + [STATUS_NO_MEMORY]
    name, free = f"hed_keymap_{call}", mock.Mock(wraps=library.hed_keymap_free)
    refuse = mock.Mock(wraps=getattr(library, name), side_effect=lambda *_: answers.pop(0))
    with mock.patch.multiple(library, **{name: refuse, "hed_keymap_free": free}):
        assert_refused(MemoryError, keys.__delitem__, b"ab")
    assert [*keys.items()] == [(key, key) for key in (b"a", b"ab", b"abc")]
    assert keys.lookup(b"ab", False) == Exact(2, b"ab")
    assert free.call_count == (call == "insert") and mock.call(keys.handle) not in free.mock_calls
    del keys[b"ab"]
    assert [*keys] == [b"a", b"abc"]
