"""What the page shows, as values for JSON. The library alone decides what bytes mean: this module
asks it, and names its answers as keyshow does."""
from __future__ import annotations

import itertools
import re
from typing import Any, Dict, Iterable, List, Optional, Set, Tuple

from hedrugal import (
    Apc,
    Chord,
    Completions,
    Csi,
    Dcs,
    EncodeError,
    Entry,
    Event,
    Function,
    Key,
    KeyboardEncoding,
    KeyCode,
    KeyCodeEncodeModes,
    KeyNameError,
    KeyPress,
    KeyReport,
    KittyKeyboardFlags,
    KittyModifiers,
    Modifiers,
    MouseReport,
    Osc,
    Parser,
    ReportedKey,
    StringCut,
    Waiting,
    __version__,
    encode,
    encode_event,
)

from .lines import KEY_NAMES, SHOWN, glyphs, key_line, key_name, line, press_name, set_name
from .lines import waiting_name
from .reader import READINGS, Reader, acts, finish
from .recorded import sent, terminals

# The items that one answer lists, the reads of one byte that it lists, and the events that it lists
# of a read.
ITEMS, STEPS, LINES = 300, 300, 40
# How many bytes are read in pieces too, to compare the events.
COMPARED = 1 << 14

# How many keys are named that bytes may become.
NAMED = 6

# A mouse report, whose ends are tried on what stays buffered.
REPORT = b"\x1b[<0;3;4M"

# What bytes may begin that begin no entry of the sequence table, by the event that they become; and
# what may end them. The end of a string may come after the rest of its opening.
BEGUN = {Csi: "csi", Osc: "osc", Dcs: "dcs", Apc: "apc", KeyReport: "report"}
STRINGS = (b"]0;\a", b"P>|\x1b\\", b"P@kitty-\x1b\\", b"P0$r\x1b\\", b"_Ga=\x1b\\")
ENDINGS = [b"\\", b"\x1b\\", b"\a", b"A", b"P", b"2P", b";2P"] + [
    it[at:] for it in STRINGS for at in range(len(it) - 1)
]

Json = Dict[str, Any]


class Wrong(ValueError):
    """A request names something that isn't there."""


def written(event: Event, reading: str) -> Json:
    """What an event is written as, to be read as it in this reading: the first of its bytes and
    their number, or why there are none."""
    try:
        with READINGS[reading]() as parser:
            data = encode_event(event, parser)
    except EncodeError as error:
        return {"why": str(error)}
    return {"bytes": data[:SHOWN].hex(), "length": len(data)}


def item(length: int, event: Event, reading: str) -> List[Any]:
    """How many bytes an event consumed, and what is shown of it."""
    return [length, line(event), glyphs(event), press_name(event), written(event, reading)]


def lines(data: bytes, reading: str) -> List[str]:
    """The lines of the events of these bytes, if no more come."""
    with READINGS[reading]() as parser:
        return [line(event) for event in (*parser.feed(data), *parser.flush())]


def became(
    rest: bytes, ends: Iterable[bytes], kind: Tuple[type, ...], reading: str
) -> Optional[Tuple[bytes, Event]]:
    """The rest and one of these ends, if the library reads an event of this kind from the rest on,
    and the event. None if it does so with none of the ends. Before the event there may be an Escape
    key, and nothing else."""
    reader = Reader(reading)
    with reader.parser as parser:
        for end in ends:
            reader.feed(rest + end)
            for length, event in itertools.islice(reader.items(), 2):
                if isinstance(event, kind) and length > len(end) and not parser.waiting_len:
                    return rest + end, event
            parser.reset()
    return None


def completions(rest: bytes) -> Completions:
    """The entries of the sequence table that would complete these bytes."""
    reader = Reader("table")
    with reader.parser as parser:
        reader.feed(rest)
        return parser.completions()


def key_of(name: str) -> Optional[Key]:
    """The key that keyshow calls so."""
    found = re.fullmatch(r"U\+([0-9A-F]{4,6})|F([0-9]{1,3})", name)
    code, number = (found and found[1]), (found and found[2])
    if number and int(number) < 256:
        return Function(int(number))
    if code and (int(code, 16) < 0xD800 or 0xDFFF < int(code, 16) < 0x110000):
        return chr(int(code, 16))
    return next((code for code, known in KEY_NAMES.items() if known == name), None)


def keys_of(name: str) -> List[Tuple[ReportedKey, KittyModifiers]]:
    """The keys that a text names, as keyshow or as people name them, and what is held with each."""
    key = key_of(name)
    if key is not None:
        return [(key, KittyModifiers.NONE)]
    try:
        return [(press.key, press.held) for press in Chord.read(name)]
    except KeyNameError as error:
        wrong = name.encode(errors="replace")[error.at :].decode(errors="replace")
        raise Wrong(f"{error}: {wrong!r}" if wrong else str(error)) from None


# The modifiers that keys may be asked for with.
HELD = ["SHIFT", "ALT", "CTRL", "SUPER"]


def held_of(names: str) -> KittyModifiers:
    """The set of modifiers with these names."""
    held = KittyModifiers.NONE
    for name in names.split("+"):
        if name not in ("NONE", *HELD):
            raise Wrong(f"no modifier is called {name!r}")
        held |= KittyModifiers[name]
    return held


# Each mode of a terminal in which the text of a key may be another, in the order in which
# `key_texts` lists them.
MODES = [
    KeyCodeEncodeModes(encoding, cursor, newline, level)
    for encoding in (KeyboardEncoding.XTERM, KeyboardEncoding.CSI_U)
    for cursor in (False, True)
    for newline in (False, True)
    for level in (None, 1, 2)
]


# The flags of Kitty's keyboard protocol for which the texts of a key are listed.
FLAGS = [KittyKeyboardFlags(bits) for bits in (1, 1 | 4, 1 | 8, 1 | 4 | 8 | 16)]


def encoded(key: ReportedKey, held: KittyModifiers, modes: KeyCodeEncodeModes) -> Optional[bytes]:
    """The bytes of a key in a mode, if it has such keys and modifiers."""
    modifiers = Modifiers.NONE
    for name in HELD:
        if held & KittyModifiers[name]:
            modifiers |= Modifiers[name]
    if isinstance(key, int) or set_name(modifiers) != set_name(held):
        return None
    try:
        return encode(key, modifiers, modes)
    except EncodeError:
        return None


def report_of(key: ReportedKey, held: KittyModifiers) -> KeyReport:
    """The report of a key. Letters have Shift, as on a keyboard; other characters have keys of
    their own."""
    press = KeyPress.of_report(KeyReport(key, held))
    text = press.text if press else None
    if not (isinstance(key, str) and key.isascii() and key.isalpha()):
        return KeyReport(key, held, text=text or "")
    held |= KittyModifiers.SHIFT if key.isupper() else KittyModifiers.NONE
    shifted = key.upper() if held & KittyModifiers.SHIFT else None
    return KeyReport(key.lower(), held, shifted=shifted, text=text or "")


def encoded_kitty(report: KeyReport, flags: KittyKeyboardFlags) -> Optional[bytes]:
    """The bytes of a key under these flags, if the protocol has a number for it."""
    try:
        return report.encode(flags)
    except EncodeError:
        return None


def presses_of(event: Event) -> Set[Optional[KeyPress]]:
    """The press of an event and its second one, or None alone."""
    first = KeyPress.of_event(event)
    second = KeyPress.second(event) if isinstance(event, KeyReport) else None
    return {first, second} - {None} or {None}


def read_back(
    data: Optional[bytes], parser: Parser, right: Set[Optional[KeyPress]]
) -> Optional[List[Any]]:
    """The bytes of a key, the lines of what the library reads in them, its name, and whether that
    is one of the right presses."""
    if data is None:
        return None
    events = [*parser.feed(data), *parser.flush()]
    names = [press_name(event) or "no press" for event in events]
    is_right = len(events) == 1 and not right.isdisjoint(presses_of(events[0]))
    parser.reset()
    return [data.hex(), ", ".join(map(line, events)), ", ".join(names), is_right]


# The signs that Shift makes of other characters on a keyboard of the United States.
SIGNS = dict(zip('~!@#$%^&*()_+{}|:"<>?', "`1234567890-=[]\\;',./"))


def recorded_texts(press: Optional[KeyPress], parser: Parser) -> List[List[Any]]:
    """What each recorded terminal sends for a press in some modes, with what the library reads in
    it, and the names of other presses for which it sends the same. A terminal may tell Shift in
    place of the sign that it makes."""
    right, told = {press}, []
    if press and press.held and isinstance(press.key, str) and press.key in SIGNS:
        right.add(KeyPress(SIGNS[press.key], press.held | KittyModifiers.SHIFT))
    for (terminal, reading, modes), data, others in sent(str(press)) if press else []:
        parser.reading = reading
        told.append([terminal, modes, read_back(data, parser, right), others])
    return told


def key_texts(key: ReportedKey, held: KittyModifiers) -> Json:
    """The bytes that a terminal sends for a key in each of MODES, and for each of FLAGS, and those
    that recorded terminals sent, with what the library reads in them."""
    report = report_of(key, held)
    wanted = KeyPress.of_report(report)
    with Parser() as parser:
        return {
            "line": key_line(key, held),
            "press": str(wanted) if wanted else "",
            "sent": [read_back(encoded(key, held, modes), parser, {wanted}) for modes in MODES],
            "kitty": [read_back(encoded_kitty(report, it), parser, {wanted}) for it in FLAGS],
            "recorded": recorded_texts(wanted, parser),
        }


def texts(name: str, names: str) -> Json:
    """What a terminal sends for each of the keys that a text names, with further modifiers."""
    held = held_of(names)
    return {"keys": [key_texts(key, own | held) for key, own in keys_of(name)]}


# The keys that are named first.
KNOWN: List[Key] = [
    KeyCode.UP_ARROW,
    KeyCode.DOWN_ARROW,
    KeyCode.RIGHT_ARROW,
    KeyCode.LEFT_ARROW,
    KeyCode.HOME,
    KeyCode.END,
    KeyCode.DELETE,
]
KNOWN += [
    KeyCode.INSERT,
    KeyCode.PAGE_UP,
    KeyCode.PAGE_DOWN,
    KeyCode.TAB,
    KeyCode.ENTER,
    KeyCode.BACKSPACE,
    KeyCode.ESCAPE,
]
KNOWN += [Function(number) for number in range(1, 25)]


def rank(entry: Entry) -> Tuple[bool, int, int, int, bytes]:
    """The order in which entries are named: known keys with few modifiers first, of these the
    shortest, and characters last."""
    place = KNOWN.index(entry.key) if entry.key in KNOWN else len(KNOWN)
    return (
        isinstance(entry.key, str),
        place,
        bin(entry.modifiers.value).count("1"),
        len(entry.bytes),
        entry.bytes,
    )


class Meanings:
    """Answers what bytes mean. The sequence table is read once."""

    def __init__(self) -> None:
        with Parser() as parser:
            self.entries: List[Entry] = list(parser.entries())
        self.start = next(
            entry.bytes for entry in self.entries if entry.key is KeyCode.INTERNAL_PASTE_START
        )
        self.end = next(
            entry.bytes for entry in self.entries if entry.key is KeyCode.INTERNAL_PASTE_END
        )

    def table(self) -> Json:
        """The entries, and the names of all keys that can be asked for and of all terminals that
        were recorded."""
        keys = [name for name in KEY_NAMES.values() if not name.startswith("Internal")]
        return {
            "version": __version__,
            "keys": keys + [f"F{number}" for number in range(1, 25)],
            "modifiers": HELD,
            "flags": [it.value for it in FLAGS],
            "terminals": terminals(),
            "rows": [
                [it.bytes.hex(), key_name(it.key), set_name(it.modifiers)] for it in self.entries
            ],
        }

    def read(self, data: bytes, reading: str, end: str, first: int) -> Json:
        """The items of the bytes from the first one on, how many there are, and what stays
        buffered."""
        reader = Reader(reading)
        with reader.parser:
            reader.feed(data)
            count = at = 0
            listed: List[Any] = []
            flushed = None
            for act in (None, *acts(end)):
                if act:
                    flushed = count if flushed is None else flushed
                    act(reader)
                count += reader.skip(max(0, first - count))
                if not listed:
                    at = len(data) - reader.left()
                for length, event in itertools.islice(reader.items(), ITEMS - len(listed)):
                    listed.append(item(length, event, reading))
                    count += 1
                count += reader.skip(len(data))
            waits = self.waits(reader, data, reading)
        return {
            "bytes": len(data),
            "events": count,
            "first": first,
            "at": at,
            "items": listed,
            "flushed": flushed,
            "waits": waits,
        }

    def waits(self, reader: Reader, data: bytes, reading: str) -> Optional[Json]:
        """What stays buffered, what it may become, and what a flush makes of it. The flush is made
        here."""
        kind, length = reader.parser.waiting, reader.left()
        if kind is Waiting.NOTHING:
            return None
        told: Json = {"kind": waiting_name(kind), "length": length}
        if kind is Waiting.PASTE:
            reader.end()
            ended = [line(event) for _, event in reader.items()]
            told.update(
                text=length - len(self.start),
                start=self.start.hex(),
                end=self.end.hex(),
                flushed=ended,
                emits=len(ended),
            )
            return told
        rest = data[len(data) - length :]
        if kind in (Waiting.ESCAPE, Waiting.SEQUENCE):
            told.update(self.may_become(rest, reading))
        if kind is Waiting.ESCAPE:
            told["alt"] = [(rest + b"q").hex(), *lines(rest + b"q", reading)]
        reader.flush()
        events = [event for _, event in itertools.islice(reader.items(), LINES)]
        if isinstance(events[0], StringCut):
            told["begins"] = events[0].kind.name.lower()
        flushed = [line(event) for event in events]
        told.update(flushed=flushed, emits=len(flushed) + reader.skip(length))
        return told

    def may_become(self, rest: bytes, reading: str) -> Json:
        """What the beginning of a sequence may become: entries of the table, of which some are
        named, what else it begins, a mouse report."""
        found = completions(rest)
        # What isn't in the table, the table's reading can't read.
        is_all = reading == "extended"
        begun = became(rest, ENDINGS, tuple(BEGUN), reading) if is_all else None
        mouse = became(rest, (REPORT[at:] for at in range(len(REPORT))), (MouseReport,), reading)
        return {
            "count": len(found.entries),
            "with_alt": found.with_alt,
            "named": self.named(found, rest, reading),
            "begins": begun and BEGUN[type(begun[1])],
            "mouse": mouse and [mouse[0].hex(), line(mouse[1])],
        }

    def named(self, found: Completions, rest: bytes, reading: str) -> List[List[str]]:
        """Bytes that complete the rest, and what they are read as: of some of these entries, each
        of another key. First are those that most readers know."""
        chosen: Dict[Key, Entry] = {}
        for entry in sorted(self.entries[found.entries.start : found.entries.stop], key=rank):
            chosen.setdefault(entry.key, entry)
            if len(chosen) == NAMED:
                break
        before, alt = (rest[:1], Modifiers.ALT) if found.with_alt else (b"", Modifiers.NONE)
        told = []
        for entry in chosen.values():
            data = before + entry.bytes
            # The start of a paste is no event.
            told.append(
                [
                    data.hex(),
                    *(lines(data, reading) or [key_line(entry.key, entry.modifiers | alt)]),
                ]
            )
        return told

    def reads(self, data: bytes, reading: str, end: str) -> Json:
        """The same bytes in reads of one byte, and whether the events are those of one read."""
        head, end = self.head(data, end)
        with READINGS[reading]() as parser:
            wanted = [*parser.feed(head), *finish(parser, end)]
            parser.reset()
            steps: List[List[Any]] = []
            events: List[Event] = []
            for at in range(len(head)):
                came = parser.feed(head[at : at + 1])
                events += came
                if at < STEPS:
                    steps.append([parser.waiting_len, *map(line, came)])
            last = finish(parser, end)
            events += last
        flushed = [line(event) for event in last] if len(steps) == len(head) else []
        return {
            "bytes": len(head),
            "events": len(events),
            "same": events == wanted,
            "steps": steps,
            "flushed": flushed,
        }

    def cut(self, data: bytes, reading: str, end: str, at: int) -> Json:
        """The same bytes in two reads, the first of so many bytes, and whether the events are those
        of one read."""
        head, end = self.head(data, end)
        at = min(at, len(head))
        with READINGS[reading]() as parser:
            wanted = [*parser.feed(head), *finish(parser, end)]
            parser.reset()
            first = [*parser.feed(head[:at])]
            kind, length = waiting_name(parser.waiting), parser.waiting_len
            second = [*parser.feed(head[at:]), *finish(parser, end)]
        reads = [
            {"events": len(it), "lines": [line(event) for event in it[:LINES]]}
            for it in (first, second)
        ]
        return {
            "bytes": len(head),
            "at": at,
            "same": first + second == wanted,
            "reads": reads,
            "kind": kind,
            "length": length,
        }

    def head(self, data: bytes, end: str) -> Tuple[bytes, str]:
        """The bytes that are compared. If they are not all, more bytes come after them."""
        return (data, end) if len(data) <= COMPARED else (data[:COMPARED], "more")
