"""Bindings of chords, and matchers."""
import copy
import random

import pytest

from hedrugal import Bindings, Bound, Chord, KeyNameError, KeyPress, KittyModifiers, Matcher
from hedrugal import Unbound
from hedrugal._calls import STATUS_NO_MEMORY
from hedrugal._library import library
from helpers import assert_raises, assert_refused


def press(name):
    return Chord.read(name).presses[0]


def named(presses):
    return " ".join(map(str, presses))


def test_bindings_are_a_mapping():
    bindings = Bindings({"C-x C-s": "save"})
    save = Chord.read("ctrl+x ctrl+s")
    assert bindings[save] == bindings["<C-x> <C-s>"] == "save"
    assert save in bindings and "g" not in bindings and bindings.get("g") is None
    bindings["g"] = bindings["a"] = 1
    bindings["a"] = 2
    assert len(bindings) == 3 and [str(chord) for chord in bindings] == ["a", "g", "ctrl+x ctrl+s"]
    assert bindings.pop("g") == 1 and bindings.setdefault("a", 3) == 2
    assert bindings == {Chord.read("a"): 2, save: "save"} == Bindings(bindings)
    assert repr(bindings) == "Bindings({'a': 2, 'ctrl+x ctrl+s': 'save'})"
    bindings.update({"b": 4})
    bindings.clear()
    assert not bindings and list(bindings) == []


def test_many_chords():
    bindings = Bindings({chr(0x4E00 + place): place for place in range(20000)})
    assert len(bindings) == 20000 and bindings["U+9C1F"] == 19999


def test_no_such_chord_is_a_key_error():
    bindings = Bindings({"g g": 1})
    for keys in ("g", Chord.read("g g g")):
        with pytest.raises(KeyError) as error:
            bindings[keys]
        assert error.value.args == (keys,)
        assert_refused(KeyError, bindings.__delitem__, keys)
    assert len(bindings) == 1


def test_what_names_no_keys_is_refused():
    bindings = Bindings({"g": 1})
    for call in (bindings.__getitem__, bindings.__delitem__, bindings.continuations):
        assert_refused(KeyNameError, call, "foo+x")
        assert_refused(TypeError, call, ("g",))
    assert_refused(KeyNameError, lambda it: bindings.__setitem__(it, 1), "")
    matcher = Matcher(bindings)
    assert_refused(ValueError, matcher.press, "g g")
    assert_refused(TypeError, matcher.press, 1)
    shifted = KeyPress("a", KittyModifiers.SHIFT)
    assert_refused(ValueError, matcher.press, shifted, match="the press of no key")
    assert matcher.pending == ()


def test_continuations_are_what_may_follow():
    bindings = Bindings({"ctrl+x": 1, "ctrl+x 2": 2, "ctrl+x 1": 3, "ctrl+y 1": 4})
    after = bindings.continuations("ctrl+x")
    assert [(str(chord), it) for chord, it in after.items()] == [("ctrl+x 1", 3), ("ctrl+x 2", 2)]
    assert bindings.continuations("g") == {} == bindings.continuations("ctrl+x 1")


def test_modes_have_bindings_of_their_own():
    normal, insert = Bindings({"j k": "leave", "j": "down"}), Bindings({"j k": "normal"})
    matcher = Matcher(normal)
    assert matcher.press("j") == []
    matcher.bindings = insert
    other = copy.copy(matcher)
    assert matcher.press("k") == [Bound(2, "normal")] and matcher.pending == ()
    assert named(other.pending) == "j" and other.give_up() == [Unbound(press("j"))]
    assert repr(matcher) == "<Matcher, nothing pending>"


def test_a_full_matcher_refuses():
    matcher = Matcher(Bindings({"b": 1}))
    for _ in range(32):
        matcher.push("a")
    assert_refused(ValueError, matcher.push, "a", match="32 presses are pending")
    assert matcher.take() == Unbound(press("a")) and len(matcher.pending) == 31
    assert len(matcher.cancel()) == 31 and matcher.on_pause() is None


def test_a_matcher_of_closed_bindings():
    with Bindings({"g": 1}) as bindings:
        matcher = Matcher(bindings)
        matcher.push("g")
    uses = [matcher.take, matcher.on_pause, lambda: matcher.push("g"), lambda: matcher.is_dead_end]
    assert_raises(ValueError, *uses, match="the map of chords is closed")
    assert named(matcher.pending) == "g"


def test_memory_that_is_refused_leaves_them_unchanged(monkeypatch):
    bindings = Bindings({"g": 1})
    with monkeypatch.context() as patch:
        patch.setattr(library, "hed_bindings_bind", lambda *_: STATUS_NO_MEMORY)
        assert_refused(MemoryError, lambda it: bindings.__setitem__(it, 2), "x")
        bindings["g"] = 3
    assert bindings == {Chord.read("g"): 3}
    bindings["x"] = 4
    assert bindings["x"] == 4


def slow(chords, presses, more):
    """What the presses do, by the chords that are bound, and what is left: it tries everything."""
    outcomes = []
    while presses:
        begun = [chord for chord in chords if chord[: len(presses)] == presses]
        if more and any(len(chord) > len(presses) for chord in begun):
            break
        fits = [chord for chord in chords if presses[: len(chord)] == chord]
        longest = max(fits, key=len, default=None)
        outcomes.append(Bound(len(longest), chords[longest]) if longest else Unbound(presses[0]))
        presses = presses[len(longest or (1,)) :]
    return outcomes, presses


@pytest.mark.parametrize("seed", range(100))
def test_drawn_chords_are_read_as_the_slow_way_does(seed):
    draw = random.Random(seed)
    keys = [press(name) for name in ("a", "b", "ctrl+a", "up")]

    def drawn(most):
        return tuple(draw.choices(keys, k=draw.randint(1, most)))

    chords = {drawn(4): value for value in range(draw.randint(0, 9))}
    bindings = Bindings((Chord(chord), value) for chord, value in chords.items())
    assert {chord.presses: value for chord, value in bindings.items()} == chords
    matcher, pending = Matcher(bindings), ()
    for key in drawn(30):
        outcomes, pending = slow(chords, pending + (key,), True)
        assert matcher.press(key) == outcomes
        assert matcher.pending == pending
    assert matcher.give_up() == slow(chords, pending, False)[0]
