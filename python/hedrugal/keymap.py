"""A map from byte strings to values."""
from __future__ import annotations

from dataclasses import dataclass
from typing import (
    Any,
    Dict,
    Generic,
    Iterator,
    MutableMapping,
    Optional,
    Tuple,
    TypeVar,
    Union,
    cast,
)

from ._calls import STATUS_AMBIGUOUS, STATUS_NEED_DATA, STATUS_OK, RawHandle, RawMatch
from ._library import Bytes, borrowed, is_ok, library, refused
from ._owned import Owned

__all__ = ["Ambiguous", "Exact", "Found", "KeyMap", "NeedData", "Nothing"]


Value = TypeVar("Value")


@dataclass(frozen=True)
class Nothing:
    """No key of the map is a prefix of the text, and the text is a prefix of no key."""


@dataclass(frozen=True)
class Exact(Generic[Value]):
    """The longest key that is a prefix of the text: its length and its value."""

    len: int
    value: Value


@dataclass(frozen=True)
class Ambiguous(Generic[Value]):
    """The same, but more of the text may follow, and the text is a prefix of a longer key too."""

    len: int
    value: Value


@dataclass(frozen=True)
class NeedData:
    """No key of the map is a prefix of the text, but the text is a prefix of some key."""


# What `KeyMap.lookup` returns.
Found = Union[Nothing, Exact[Value], Ambiguous[Value], NeedData]


# The answers of a lookup that say nothing of a key.
_nothing, _need_data = Nothing(), NeedData()


class KeyMap(Owned, MutableMapping[bytes, Value]):
    """Maps byte strings, the keys, to values, and finds the longest key that is a prefix of a text.

        >>> with KeyMap[str]() as keys:
        ...     keys[b"d"] = "delete"
        ...     keys[b"diw"] = "delete the word"
        ...     for text in (b"d", b"di", b"dx", b"diw", b"x"):
        ...         print(keys.lookup(text))
        Ambiguous(len=1, value='delete')
        Ambiguous(len=1, value='delete')
        Exact(len=1, value='delete')
        Exact(len=3, value='delete the word')
        Nothing()

    It is a mapping, as a dict is, and lists the keys in the order of their bytes. To delete a key
    takes as long as to insert the others again.

    A value may be any object. The map keeps it until its key has another one or none, or the map is
    closed.

    A map owns memory outside of Python. `close` frees it; so do the end of a `with` block and the
    end of the map's life. Every other call raises ValueError once the map is closed. It can't be
    copied or pickled. Threads may share a map, as a parser: in the middle of a call of its own
    thread a call that changes it raises RuntimeError.

    Making a map, inserting and deleting raise MemoryError if memory is refused. Then the map is
    unchanged, and the call may be made again."""

    def __init__(self) -> None:
        super().__init__("map", library.hed_keymap_init, library.hed_keymap_free)
        # The library maps a key to the number of its entry here.
        self._entries: Dict[int, Tuple[bytes, Value]] = {}
        self._number = 0

    def __len__(self) -> int:
        """The number of keys."""
        with self.lock:
            self._check_open()
            return cast(int, library.hed_keymap_len(self.handle))

    def __repr__(self) -> str:
        with self.lock:
            return f"<KeyMap, {'closed' if self.closed else f'{len(self)} keys'}>"

    def __iter__(self) -> Iterator[bytes]:
        """Returns an iterator over the keys that are there when it is made, in their order."""
        with self.lock:
            self._check_open()
            return iter(sorted(key for key, _ in self._entries.values()))

    def __getitem__(self, key: Bytes) -> Value:
        pointer, length = borrowed(key)
        with self.lock:
            number = self._number_of(pointer, length)
            if number is not None:
                return self._entries[number][1]
        raise KeyError(key)

    def __setitem__(self, key: Bytes, value: Value) -> None:
        """Does what `insert` does."""
        self.insert(key, value)

    def __delitem__(self, key: Bytes) -> None:
        pointer, length = borrowed(key)
        with self._alone():
            number = self._number_of(pointer, length)
            others = {at: entry for at, entry in self._entries.items() if at != number}
            before = {} if number is None else self._replace(others)
        del before
        if number is None:
            raise KeyError(key)

    def insert(self, key: Bytes, value: Value) -> None:
        """Maps a key to a value. A value that the key had before is let go."""
        pointer, length = borrowed(key)
        with self._alone():
            number = self._number_of(pointer, length)
            if number is None:
                # If a signal's handler raises anywhere here, no other key gets this number.
                number, self._number = self._number, self._number + 1
                kept = key if type(key) is bytes else memoryview(key).tobytes()
                self._entries[number] = kept, value
                if library.hed_keymap_insert(self.handle, pointer, length, number) != STATUS_OK:
                    del self._entries[number]
                    raise refused()
                return
            # The value that it had is let go as the call returns.
            before = self._entries[number]
            self._entries[number] = before[0], value
        del before

    def clear(self) -> None:
        """Deletes all keys."""
        with self._alone():
            self._check_open()
            before = self._replace({})
        before.clear()

    def lookup(self, text: Bytes, maybe_more: bool = True) -> Found[Value]:
        """Finds the longest key that is a prefix of the text, and returns an Exact with its length
        and its value.

        While more of the text may follow, pass maybe_more as True. The answer is then an Ambiguous
        if the text is a prefix of a longer key too, and an Exact holds however the text goes on.

        If no key is a prefix of the text, the answer is NeedData() if the text is a prefix of some
        key, and else Nothing().

            >>> with KeyMap[int]() as keys:
            ...     keys.insert(b"gg", 1)
            ...     keys.insert(b"ggx", 2)
            ...     [keys.lookup(b"g"), keys.lookup(b"gg"), keys.lookup(b"gg", False)]
            [NeedData(), Ambiguous(len=2, value=1), Exact(len=2, value=1)]"""
        pointer, length = borrowed(text)
        match, more = RawMatch(), bool(maybe_more)
        with self.lock:
            answer = library.hed_keymap_lookup(self.handle, pointer, length, more, match)
            if answer == STATUS_OK:
                return Exact(match.len, self._entries[match.value][1])
            if answer == STATUS_AMBIGUOUS:
                return Ambiguous(match.len, self._entries[match.value][1])
        if answer == STATUS_NEED_DATA:
            return _need_data
        is_ok(answer, self._what)
        return _nothing

    def close(self) -> None:
        """Frees what the library holds, and lets the values go, once no other thread is in a call.
        It may be called twice."""
        with self._alone():
            self._free()
            entries, self._entries = self._entries, {}
        entries.clear()

    # The rest is called while the lock is held.

    def _number_of(self, pointer: Any, length: int) -> Optional[int]:
        """The number of the entry that has this key."""
        self._check_open()
        match = RawMatch()
        is_found = (
            library.hed_keymap_lookup(self.handle, pointer, length, False, match) == STATUS_OK
        )
        return match.value if is_found and match.len == length else None

    def _replace(self, entries: Dict[int, Tuple[bytes, Value]]) -> Dict[int, Tuple[bytes, Value]]:
        """Makes the library's map anew, of these entries, and returns those that there were."""
        raw = RawHandle()
        if library.hed_keymap_init(raw) != STATUS_OK:
            raise refused()
        for number, (key, _) in entries.items():
            if library.hed_keymap_insert(raw, key, len(key), number) != STATUS_OK:
                library.hed_keymap_free(raw)
                raise refused()
        library.hed_keymap_free(self.handle)
        self.handle.live, self.handle.state = raw.live, raw.state
        before, self._entries = self._entries, entries
        return before
