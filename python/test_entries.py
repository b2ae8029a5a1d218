"""The entries of the sequence table, and those that would complete what stays buffered."""
import sys

import pytest

from hedrugal import Completions, Dialect, Entry, Function, KeyCode, KeyReport, KittyModifiers
from hedrugal import Modifiers, Parser, Waiting
from helpers import all_of, assert_refused, assert_rest, constants


@pytest.fixture
def parser():
    """A parser that reads each entry as the table has it."""
    with Parser(Dialect.TERMWIZ) as it:
        yield it


def report_of(key, modifiers):
    return KeyReport(key, KittyModifiers(modifiers.value // 2))


def test_entries(parser):
    """They are as many and as long as the header says, in the order of their bytes, and each means
    its key. With EXTENDED it is a key, too."""
    entries = list(parser.entries())
    texts = [entry.bytes for entry in entries]
    counts = {"COUNT": len(entries), "MOST": max(map(len, texts))}
    assert counts == constants("HED_ENTRY_")
    assert texts == sorted({*texts})
    extended = Parser()
    for place, entry in enumerate(entries):
        assert parser.entry(place) == entry
        if entry.key is not KeyCode.INTERNAL_PASTE_START:
            assert all_of(parser, entry.bytes) == [report_of(entry.key, entry.modifiers)]
            (event,) = all_of(extended, entry.bytes)
            assert isinstance(event, KeyReport)
    assert Entry(b"\x1b[15;6~", Function(5), Modifiers.SHIFT | Modifiers.CTRL) in entries
    assert entries[0] == Entry(b"\x01", "a", Modifiers.CTRL)
    assert_rest(parser, 0, Waiting.NOTHING)


def test_places_outside_the_table(parser):
    count = constants("HED_ENTRY_")["COUNT"]
    for place in (count, sys.maxsize, 2**64 - 1, 2**64, 2**64 + 1, -1, -(2**64)):
        assert parser.entry(place) is None
    assert_refused(TypeError, parser.entry, None, "1", 1.0)


def test_reading_entries_changes_nothing(parser):
    assert parser.feed(b"\x1b[1;5") == []
    entries = [parser.entry(place) for place in parser.completions().entries]
    assert len(entries) == 12
    assert_rest(parser, 5, Waiting.SEQUENCE)
    assert parser.feed(b"A") == [KeyReport(KeyCode.UP_ARROW, KittyModifiers.CTRL)]


def completed(rest, texts):
    """Which of the texts begin with the rest and are longer."""
    return [
        place for place, text in enumerate(texts) if text.startswith(rest) and len(text) > len(rest)
    ]


def test_completions(parser):
    """They are those that a plain search finds, for each prefix of an entry, without an ESC before
    it and with one."""
    texts = [entry.bytes for entry in parser.entries()]
    prefixes = {text[:length] for text in texts for length in range(1, len(text))} - {b"\x1b[200~"}
    assert b"\x1b" in prefixes
    for prefix in sorted(prefixes):
        for rest in (prefix, b"\x1b" + prefix):
            assert parser.feed(rest) == []
            assert parser.waiting in (Waiting.ESCAPE, Waiting.SEQUENCE)
            found, alone = parser.completions(), completed(rest, texts)
            assert list(found.entries) == (alone or completed(rest[1:], texts)), rest
            assert (found.with_alt, len(found.entries) > 0) == (not alone, True), rest
            parser.reset()


def test_completions_tell_their_keys(parser):
    for rest in (b"\x1b[1", b"\x1bO", b"\x1b\x1b[1", b"\x1b\x1b[24;"):
        assert parser.feed(rest) == []
        found = parser.completions()
        assert len(found.entries) > 0
        for place in found.entries:
            entry = parser.entry(place)
            modifiers = entry.modifiers | (Modifiers.ALT if found.with_alt else Modifiers.NONE)
            text = (b"\x1b" if found.with_alt else b"") + entry.bytes
            assert text.startswith(rest)
            assert all_of(parser, text[len(rest) :]) == [report_of(entry.key, modifiers)]
            assert parser.feed(rest) == []
        parser.reset()


def test_no_entry_completes_a_mouse_report(parser):
    for rest in (b"\x1b[<", b"\x1b[<0;3", b"\x1b\x1b[<0"):
        assert parser.feed(rest) == []
        assert len(parser.completions().entries) == 0
        parser.reset()


def test_they_are_values(parser):
    entry, found = Entry(b"a", "a"), Completions(range(1, 3))
    assert (entry, hash(entry)) == (Entry(b"a", "a", Modifiers.NONE), hash(Entry(b"a", "a")))
    assert (found, hash(found)) == (Completions(range(1, 3), False), hash(Completions(range(1, 3))))
    assert repr(found) == "Completions(entries=range(1, 3), with_alt=False)"
    with pytest.raises(AttributeError):
        entry.key = found.entries = None
