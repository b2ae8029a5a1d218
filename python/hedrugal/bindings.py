"""What a program does at which chords."""
from __future__ import annotations

import ctypes
from dataclasses import dataclass
from typing import (
    Any,
    Callable,
    Dict,
    Generic,
    Iterable,
    Iterator,
    List,
    Mapping,
    MutableMapping,
    Optional,
    Tuple,
    TypeVar,
    Union,
    cast,
)

from ._calls import (
    CHORD_MOST,
    OUTCOME_BOUND,
    OUTCOME_UNBOUND,
    STATUS_BAD_NUMBER,
    STATUS_FULL,
    STATUS_OK,
    RawHandle,
    RawMatcher,
    RawOutcome,
    RawPress,
)
from ._library import closed, fault, is_ok, library
from ._owned import Owned
from .names import Chord, KeyPress, Keys, one_press, press_of, printed, raw_chord, raw_press

__all__ = ["Bindings", "Bound", "Matcher", "Unbound"]

Value = TypeVar("Value")


class Bindings(Owned, MutableMapping[Chord, Value]):
    """What a program does at which keys: a mapping from chords to values. One chord may begin
    another one.

        >>> bindings = Bindings({"C-x C-s": "save", "g": "go", "g g": "top"})
        >>> bindings["ctrl+x ctrl+s"]
        'save'
        >>> [str(chord) for chord in bindings]
        ['g', 'g g', 'ctrl+x ctrl+s']

    A Chord or a text that names one stands for it. A text that names none raises KeyNameError,
    which is a ValueError. The chords are listed in order: by the numbers of their keys in C, then
    by their characters, then by their modifiers.

    A value may be any object. The bindings keep it until its chord has another one or none, or
    until they are closed.

    Bindings own memory outside of Python. `close` frees it; so do the end of a `with` block and the
    end of their life. Every other call raises ValueError once they are closed. They can't be
    pickled, and `Bindings(others)` copies. Threads may share them, as a parser: in the middle of a
    call of its own thread a call that changes them raises RuntimeError.

    Making and binding raise MemoryError if memory is refused. Then the bindings are unchanged."""

    def __init__(
        self, chords: Union[Mapping[Any, Value], Iterable[Tuple[Keys, Value]]] = ()
    ) -> None:
        super().__init__("map of chords", library.hed_bindings_init, library.hed_bindings_free)
        # The library maps a chord to the number of its value here.
        self._values: Dict[int, Value] = {}
        self._number = 0
        entries = chords.items() if isinstance(chords, Mapping) else chords
        for keys, value in entries:
            self[keys] = value

    def __len__(self) -> int:
        """The number of chords."""
        with self.lock:
            self._check_open()
            return cast(int, library.hed_bindings_len(self.handle))

    def __iter__(self) -> Iterator[Chord]:
        """Returns an iterator over the chords that are there when it is made, in their order."""
        with self.lock:
            return iter([chord for chord, _ in self._entries(range(len(self)))])

    def __repr__(self) -> str:
        with self.lock:
            if self.closed:
                return "<Bindings, closed>"
            entries = self._entries(range(len(self)))
        return f"Bindings({dict((str(chord), value) for chord, value in entries)!r})"

    def __getitem__(self, keys: Keys) -> Value:
        raw, number = raw_chord(keys), ctypes.c_uint64()
        with self.lock:
            answer = library.hed_bindings_lookup(self.handle, raw, len(raw), number)
            if is_ok(answer, self._what):
                return self._values[number.value]
        raise KeyError(keys)

    def __setitem__(self, keys: Keys, value: Value) -> None:
        raw, number = raw_chord(keys), ctypes.c_uint64()
        with self._alone():
            self._check_open()
            if library.hed_bindings_lookup(self.handle, raw, len(raw), number) == STATUS_OK:
                # The value that it had is let go as the call returns.
                value, self._values[number.value] = self._values[number.value], value
                return
            # If a signal's handler raises anywhere here, no other chord gets this number.
            place, self._number = self._number, self._number + 1
            self._values[place] = value
            answer = library.hed_bindings_bind(self.handle, raw, len(raw), place)
            if answer != STATUS_OK:
                del self._values[place]
                is_ok(answer, self._what)

    def __delitem__(self, keys: Keys) -> None:
        raw, number = raw_chord(keys), ctypes.c_uint64()
        with self._alone():
            answer = library.hed_bindings_unbind(self.handle, raw, len(raw), number)
            value = self._values.pop(number.value) if answer == STATUS_OK else None
        del value
        if not is_ok(answer, self._what):
            raise KeyError(keys)

    def continuations(self, keys: Keys) -> Dict[Chord, Value]:
        """Returns the chords that begin with these keys and are longer, with their values: what may
        follow, as for a menu.

            >>> bindings = Bindings({"ctrl+x": "cut", "ctrl+x 1": "one", "ctrl+x ctrl+c": "quit"})
            >>> {str(chord): value for chord, value in bindings.continuations("ctrl+x").items()}
            {'ctrl+x 1': 'one', 'ctrl+x ctrl+c': 'quit'}"""
        raw, first, end = raw_chord(keys), ctypes.c_size_t(), ctypes.c_size_t()
        with self.lock:
            answer = library.hed_bindings_continuations(self.handle, raw, len(raw), first, end)
            is_ok(answer, self._what)
            return dict(self._entries(range(first.value, end.value)))

    def close(self) -> None:
        """Frees what the library holds, and lets the values go, once no other thread is in a call.
        It may be called twice."""
        with self._alone():
            self._free()
            values, self._values = self._values, {}
        values.clear()

    def _entries(self, places: Iterable[int]) -> List[Tuple[Chord, Value]]:
        """The chords at these places and their values."""
        keys, count, number = (RawPress * CHORD_MOST)(), ctypes.c_size_t(), ctypes.c_uint64()
        entries = []
        for place in places:
            answer = library.hed_bindings_entry(self.handle, place, keys, CHORD_MOST, count, number)
            is_ok(answer, self._what)
            entries.append((Chord(map(press_of, keys[: count.value])), self._values[number.value]))
        return entries


@dataclass(frozen=True)
class Bound(Generic[Value]):
    """A chord of so many keys was pressed, and this is its value."""

    keys: int
    value: Value


@dataclass(frozen=True)
class Unbound:
    """A press that begins no chord that was pressed. A program may insert its text."""

    press: KeyPress


class Matcher(Generic[Value]):
    """Reads presses as chords and as single keys. It holds those that aren't decided yet.

        >>> matcher = Matcher(Bindings({"g": "go", "g g": "top"}))
        >>> matcher.press("g"), matcher.pending
        ([], (KeyPress(key='g', held=KittyModifiers.NONE),))
        >>> matcher.press("x")
        [Bound(keys=1, value='go'), Unbound(press=KeyPress(key='x', held=KittyModifiers.NONE))]

    The longest chord counts. While a longer one is still possible the matcher waits, and a program
    whose user pauses for a second or so calls `give_up`.

    `bindings` may be set to others at any time, as for a mode of the program: what is pending is
    read by those of the call. A matcher may be copied by copy.copy."""

    def __init__(self, bindings: Bindings[Value]) -> None:
        self.bindings = bindings
        self._raw = RawMatcher()

    def __copy__(self) -> Matcher[Value]:
        other = Matcher(self.bindings)
        other._raw = RawMatcher.from_buffer_copy(self._raw)
        return other

    def __repr__(self) -> str:
        return f"<Matcher, {printed(self.pending) if self.pending else 'nothing'} pending>"

    def press(
        self, key: Union[KeyPress, str], second: Optional[KeyPress] = None
    ) -> List[Union[Bound[Value], Unbound]]:
        """Puts a press, or a text that names one, behind those that are pending. Returns what is
        decided by it: a Bound for each chord and an Unbound for each other press, in order.

        second is `KeyPress.second` of the report, if it has one. It is taken instead if only it
        leads on: some chord begins with what is pending and it. If neither does, the same is asked
        as if nothing were pending.

        Raises ValueError for a KeyPress that was made by hand and is the press of no key."""
        self.push(key, second)
        return self._all(True)

    def give_up(self) -> List[Union[Bound[Value], Unbound]]:
        """Decides all that is pending, and returns it. A program calls this when it waited long
        enough for another key."""
        return self._all(False)

    def push(self, key: Union[KeyPress, str], second: Optional[KeyPress] = None) -> None:
        """Does the first half of `press`: it decides nothing yet. `take` does the rest.

        Raises ValueError if 32 presses are pending, which isn't so once `take` returned None."""
        presses = [one_press(key)] if second is None else [one_press(key), second]
        raw = (RawPress * len(presses))(*map(raw_press, presses))
        with self.bindings.lock:
            answer = library.hed_matcher_press_either(
                self._raw, self.bindings.handle, raw, len(presses)
            )
        if answer == STATUS_FULL:
            raise ValueError(f"{CHORD_MOST} presses are pending")
        if answer == STATUS_BAD_NUMBER:
            raise ValueError(f"{' or '.join(map(repr, presses))} is the press of no key")
        is_ok(answer, "map of chords")

    def take(self, maybe_more: bool = True) -> Optional[Union[Bound[Value], Unbound]]:
        """Takes what comes first of what is pending: the longest chord, or else the first press.
        Returns None if nothing is pending. While more presses may come, pass maybe_more as True: it
        also returns None while what is pending may become a longer chord."""
        more = bool(maybe_more)
        return self._outcome(
            lambda raw, out: cast(int, library.hed_matcher_next(self._raw, raw, more, out))
        )

    def on_pause(self) -> Optional[Union[Bound[Value], Unbound]]:
        """Returns what `give_up` would decide first, and takes nothing. While that is an Unbound, a
        program may prefer to wait for ever: the press may still begin a chord."""
        return self._outcome(
            lambda raw, out: cast(int, library.hed_matcher_on_pause(self._raw, raw, out))
        )

    @property
    def is_dead_end(self) -> bool:
        """Whether more than one press is pending, no chord begins with them, and they begin with no
        chord. A program that takes such keys as one mistake, as Emacs does, asks this after `push`,
        and calls `cancel`."""
        with self.bindings.lock:
            if self.bindings.closed:
                raise closed("map of chords")
            return bool(library.hed_matcher_is_dead_end(self._raw, self.bindings.handle))

    @property
    def pending(self) -> Tuple[KeyPress, ...]:
        """The presses that are pending, in the order in which they were pressed."""
        return self._presses(library.hed_matcher_pending)

    def cancel(self) -> Tuple[KeyPress, ...]:
        """Returns what is pending, and leaves nothing."""
        return self._presses(library.hed_matcher_cancel)

    def _presses(self, call: Any) -> Tuple[KeyPress, ...]:
        keys = (RawPress * CHORD_MOST)()
        return tuple(map(press_of, keys[: call(self._raw, keys, CHORD_MOST)]))

    def _all(self, more: bool) -> List[Union[Bound[Value], Unbound]]:
        outcomes = []
        outcome = self.take(more)
        while outcome is not None:
            outcomes.append(outcome)
            outcome = self.take(more)
        return outcomes

    def _outcome(
        self, call: Callable[[RawHandle, RawOutcome], int]
    ) -> Optional[Union[Bound[Value], Unbound]]:
        """The outcome that a call wrote, if it did."""
        bindings, outcome = self.bindings, RawOutcome()
        with bindings.lock:
            if not is_ok(call(bindings.handle, outcome), "map of chords"):
                return None
            if outcome.kind == OUTCOME_BOUND:
                return Bound(outcome.keys, bindings._values[outcome.value])
        if outcome.kind == OUTCOME_UNBOUND:
            return Unbound(press_of(outcome.press))
        fault()
