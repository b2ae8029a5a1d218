"""A plain key map, a dict in which all is tried; and keys and texts that are drawn for it."""
from hedrugal import Ambiguous, Exact, NeedData, Nothing

# The first 300 bytes of a text are a key, and so are the first 100.
LONG = bytes(number % 251 for number in range(301))


def plain_lookup(entries, text, maybe_more):
    """The longest key that is a prefix of the text, and whether a longer key begins with it."""
    is_extended = any(key.startswith(text) and key != text for key in entries)
    for length in range(len(text), -1, -1):
        if text[:length] in entries:
            kind = Ambiguous if is_extended and maybe_more else Exact
            return kind(length, entries[text[:length]])
    return NeedData() if is_extended else Nothing()


def letters(draws):
    """At most six bytes, of three different ones."""
    return bytes(draws.choices(b"abc", k=draws.randrange(7)))


def nested(draws):
    """The beginning of one text, and at most three bytes more."""
    start = b"a common beginning"[: draws.randrange(19)]
    return start + bytes(draws.choices(b"\x00\x01\xfe\xff", k=draws.randrange(4)))


def long(draws):
    """Some 300 bytes."""
    start = LONG[: 298 + draws.randrange(4)]
    return start + bytes(draws.choices(b"\x00\xff", k=draws.randrange(3)))
