"""What parsers, key maps and bindings have in common. They own memory of the library until they are
closed, and maps keep their values until then."""
import copy
import functools
import gc
import pickle
import weakref
from unittest import mock

import pytest

from hedrugal import Bindings, Dialect, KeyMap, KeyReport, Parser
from hedrugal._library import library
from helpers import assert_raises, uses_of


def uses_of_parser(parser):
    assert parser.feed(b"q\x1b[200~ab") == [KeyReport("q")]
    yield from (parser.__enter__, lambda: parser.feed(b""), lambda: next(parser.entries()))
    yield from (use for name, use in uses_of(parser).items() if name != "entries")


def uses_of_map(key, map_):
    map_[key] = 1
    yield from (map_.__enter__, map_.clear, functools.partial(map_.__setitem__, key, 1))
    for call in (map_.__getitem__, map_.__delitem__, map_.__contains__):
        yield functools.partial(call, key)
    yield from (functools.partial(call, map_) for call in (iter, list, len, bool))


def uses_of_keys(keys):
    yield from uses_of_map(b"q", keys)
    yield from (lambda: keys.insert(b"q", 1), lambda: keys.insert(bytearray(), 1))
    yield from (lambda: keys.lookup(b"q"), lambda: keys.lookup(b"", False))


def uses_of_bindings(bindings):
    yield from uses_of_map("g", bindings)
    yield lambda: bindings.continuations("g")


# What makes one, what it is called, each of its calls but close, and how it is shown after these
# have put something into it.
PARSER = "parser", uses_of_parser, "<Parser, 8 bytes are buffered>"
OWNERS = [
    *((functools.partial(Parser, dialect), *PARSER) for dialect in Dialect),
    (KeyMap, "map", uses_of_keys, "<KeyMap, 1 keys>"),
    (Bindings, "map of chords", uses_of_bindings, "Bindings({'g': 1})"),
]
every_owner = pytest.mark.parametrize(
    "make, name", [it[:2] for it in OWNERS], ids=["extended", "termwiz", "keys", "bindings"]
)


@pytest.mark.parametrize("make, name, uses_of_it, shown", OWNERS)
def test_use_after_close(make, name, uses_of_it, shown):
    it = make()
    uses = [*uses_of_it(it)]
    assert (repr(it), it.closed) == (shown, False)
    for _ in range(2):
        it.close()
        assert (repr(it), it.closed) == (f"<{type(it).__name__}, closed>", True)
        assert_raises(ValueError, *uses, match=f"^the {name} is closed$")


@every_owner
def test_with(make, name):
    with pytest.raises(KeyError):
        with make() as it:
            raise KeyError
    assert it.closed


@every_owner
def test_end_of_life(make, name):
    it = make()
    handle, seen = it.handle, weakref.ref(it)
    if isinstance(it, KeyMap):
        it[b"itself"] = it
    del it
    gc.collect()
    assert (seen(), handle.live) == (None, False)


@every_owner
@pytest.mark.parametrize("copied", [copy.copy, copy.deepcopy, pickle.dumps])
def test_no_copies(make, name, copied):
    with make() as it:
        assert_raises(TypeError, lambda: copied(it), match=f"^a {name} can't be copied")


class Token:
    """A value whose end of life is seen."""


def put_token(map_, key):
    """Puts a new value into a map, and returns what tells whether it is alive."""
    map_[key] = token = Token()
    return weakref.ref(token)


def assert_alive(seen, *wanted):
    gc.collect()
    assert [it() is not None for it in seen] == [*wanted]


# Maps with three keys each.
MAPS = [(KeyMap, (b"a", b"ab", b"")), (Bindings, ("a", "a b", "c"))]


@pytest.mark.parametrize("make, keys", MAPS)
def test_replaced_values_are_let_go(make, keys):
    map_ = make()
    seen = [put_token(map_, key) for key in keys]
    assert_alive(seen, True, True, True)
    seen.append(put_token(map_, keys[0]))
    assert_alive(seen, False, True, True, True)
    seen.append(put_token(map_, keys[0]))
    assert_alive(seen, False, True, True, False, True)
    assert map_[keys[0]] is seen[4]() and len(map_) == 3


@pytest.mark.parametrize("make, keys", MAPS)
@pytest.mark.parametrize("lets_go", ["clear", "close"])
def test_deleted_values_are_let_go(make, keys, lets_go):
    map_ = make()
    seen = [put_token(map_, key) for key in keys]
    del map_[keys[1]]
    assert_alive(seen, True, False, True)
    kept = map_[keys[2]]
    getattr(map_, lets_go)()
    assert_alive(seen, False, False, True)
    assert kept is seen[2]()


@pytest.mark.parametrize("make, keys", MAPS)
def test_an_exception_of_a_handler_mixes_no_keys(make, keys):
    name = {KeyMap: "hed_keymap_insert", Bindings: "hed_bindings_bind"}[make]
    map_, call = make(), getattr(library, name)

    def interrupted(*words):
        call(*words)
        raise KeyboardInterrupt

    with mock.patch.object(library, name, interrupted):
        assert_raises(KeyboardInterrupt, lambda: map_.__setitem__(keys[0], 1))
    map_[keys[1]] = 2
    assert (map_[keys[0]], map_[keys[1]]) == (1, 2)
