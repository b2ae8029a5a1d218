"""The cases of tests/cases, which C and Rust run too. tests/cases/README.md has their forms."""
import dataclasses
import os
import random
import re

import pytest

from hedrugal import Age, Bindings, Bound, Chord, Dialect, EncodeError, KeyboardEncoding
from hedrugal import KeyCodeEncodeModes, KeyNameError, KeyPress, KeyReport, KittyKeyboardFlags
from hedrugal import Matcher, Modifiers, MouseButton, MouseEncoding, MouseTracking, Parser, Policy
from hedrugal import SentMouse, Timer, Unbound
from hedrugal import encode, encode_event, encode_paste, paste_lines, reply, send_names
from hedrugal import _calls as numbers
from hedrugal._library import borrowed, library
from cases import FILES, FOLDER, cases_of, cuts_of, event_by, events_by, events_line, key_of
from cases import line_of, parser_by, quoted, reading_of, set_of, text_of
from helpers import assert_read_back

START, END = b"\x1b[200~", b"\x1b[201~"
STATUSES = {
    number: name[len("STATUS_") :]
    for name, number in vars(numbers).items()
    if name.startswith("STATUS_")
}
# What an EncodeError says.
FAULTS = {
    "REFUSED_KEY": "has no (text|bytes)",
    "NO_TEXT": "no bytes are read as",
    "TOO_LONG": "is too long",
    "TOO_FAR": "is too far",
    "BAD_TEXT": "a surrogate names nothing",
}
MOST_MILLIS = 2**64 - 1


def read_by(parser, reading, pieces):
    """The events of pieces."""
    parser.reset()
    parser.reading = reading
    return [event for piece in pieces for event in parser.feed(piece)]


def check_events(words, told, *after):
    word, text = words
    now, bar, ended = told.partition(" | ")
    with Parser() as parser:
        for pieces in cuts_of(text_of(text)):
            assert events_line(read_by(parser, reading_of(word), pieces)) == now, pieces
            assert (parser.waiting_len > 0) == (bar != "")
            assert events_line(parser.end()) == (ended if bar else "nothing"), pieces
            assert parser.waiting_len == 0
            left = dataclasses.replace(reading_of(word), questions=parser.reading.questions)
            assert [parser.reading] == ([*map(reading_of, after)] or [left])


def limit(parser, limits):
    """Sets what `escape=25` and the like say."""
    for name, number in (it.split("=") for it in limits):
        if name == "parts":
            parser.parts = int(number)
            continue
        seconds = None if int(number) < 0 else int(number) / 1000
        parser.policy = parser.policy._replace(**{name: seconds})


def step_told(parser, name, words, start):
    """What a step of a run tells."""
    if name == "next":
        return events_line(parser._tell())
    if name == "waiting":
        return f"{parser.waiting.name.lower()} {parser.waiting_len}"
    if name == "skip":
        return str(parser.skip_paste()).lower()
    if name == "reset":
        return str(parser.reset())
    times = [min(start + int(it), MOST_MILLIS) / 1000 for it in words[:1]]
    told = getattr(parser, name)(*map(text_of, words[1:]), *times)
    if name == "timeout":
        return "forever" if told is None else str(round(1000 * told))
    if name == "interrupted":
        return step_told(parser, "next", [], start)
    return events_line(told)


def status_of(parser, name, words, start):
    """What the library answers to a step. No event is taken."""
    times = [min(start + int(it), MOST_MILLIS) for it in words[:1]]
    texts = [it for word in words[1:] for it in borrowed(text_of(word))]
    return getattr(library, f"hed_parser_{name}")(parser.handle, *times, *texts)


def check_reading(parser, name, words, told):
    """A step that asks for positions or forgets them, sets the reading, or tells it."""
    if name == "expect":
        for _ in range(int(*words)):
            parser.expect_position()
    elif name == "forget":
        parser.forget_positions()
    elif name == "set":
        parser.reading = reading_of(*words)
    else:
        assert parser.reading == reading_of(told)


def check_runs(words, steps):
    """They are made twice by one parser."""
    word, *limits = words
    with Parser() as parser:
        for start in (0, 10**6):
            parser.reading, parser.parts = reading_of(word), None
            # A new parser has the library's own limits.
            if parser.policy != Policy():
                parser.policy = Policy()
            limit(parser, limits)
            for step in steps.split(" | "):
                asked, colon, told = step.partition(": ")
                name, *words = asked.split(" ")
                if name == "policy":
                    limit(parser, words)
                elif name in ("expect", "forget", "set", "reading"):
                    check_reading(parser, name, words, told)
                elif colon and told != "busy":
                    assert step_told(parser, name, words, start) == told, step
                else:
                    status = status_of(parser, name, words, start)
                    # Most calls that take no bytes have no status.
                    assert STATUSES[status or numbers.STATUS_OK] == ("BUSY" if colon else "OK")
            parser.reset()


def check_timers(words, left):
    """A timer's notes, of five words each."""
    timer, told = Timer(), []
    for note in " ".join(words).split(" | "):
        noted, limit, by, what, asked = note.split(" ")
        seen = {it.lower(): True for it in what.split("+") if it != "NONE"}
        seconds = None if limit == "-1" else int(limit) / 1000
        timer.note(seconds, Age[by], now=int(noted) / 1000, **seen)
        told.append(timer.timeout(int(asked) / 1000))
        assert timer.is_due(int(asked) / 1000) == (told[-1] == 0)
    assert left == " | ".join("forever" if it is None else str(round(1000 * it)) for it in told)


def presses_of(event):
    """The press of an event, and the second one. Each is its own press."""
    second = KeyPress.second(event) if isinstance(event, KeyReport) else None
    presses = [it for it in (KeyPress.of_event(event), second) if it]
    for press in presses:
        assert {press: 1}[KeyPress.of_report(KeyReport(press.key, press.held))] == 1
    return " or ".join(map(str, presses)) or "none"


def check_presses(words, told):
    assert " ".join(map(presses_of, events_by(*words))) == told


def check_names(words, told):
    try:
        chord = Chord.read(text_of(*words).decode("utf-8", "surrogateescape"))
    except KeyNameError as error:
        assert f"{STATUSES[error.kind.value]} {error.at}" == told
        return
    assert quoted(str(chord).encode()) == told
    assert str(chord) == " ".join(map(str, chord))
    assert Chord.read(str(chord)) == chord == Chord(iter(chord))


def named(presses):
    return " ".join(map(str, presses))


def outcome_line(it):
    if isinstance(it, Bound):
        return str(it.value)
    return f"?{it.press}" if isinstance(it, Unbound) else f"cancelled {named(it)}"


def check_bindings(words, told):
    names, keys = " ".join(words).split(": ")
    chords = [] if names == "nothing" else names.split(", ")
    matcher, outcomes = Matcher(Bindings(zip(chords, range(1, 99)))), []
    for word in keys.split(" "):
        if word == "PAUSE":
            outcomes += [matcher.on_pause(), *matcher.give_up()[1:]]
            assert matcher.on_pause() is None
        elif word == "UNBIND":
            del matcher.bindings[chords[0]]
            outcomes += iter(matcher.take, None)
        elif word == "CANCEL":
            assert matcher.is_dead_end
            outcomes.append(matcher.cancel())
        elif keys.endswith("CANCEL"):
            assert not matcher.is_dead_end
            matcher.push(word)
        else:
            key, *second = word.split("/")
            outcomes += matcher.press(key, *(Chord.read(it).presses[0] for it in second))
    line = f"{', '.join(map(outcome_line, outcomes))} | {named(matcher.pending)}"
    assert line == told.replace("nothing", "")


def sent_line(call, *words):
    """What a call returns, or what is wrong."""
    try:
        return quoted(call(*words))
    except EncodeError as error:
        said = str(error)
        return next(it for it, fault in FAULTS.items() if re.search(fault, said))


def check_kitty(words, told):
    flags, event, *texts = words
    report = event_by("extended+x10", event)
    for it in texts:
        text = text_of(it).decode("utf-8", "surrogateescape")
        report = dataclasses.replace(report, text=text)
    assert sent_line(report.encode, KittyKeyboardFlags(int(flags))) == told


def modes_of(word):
    """The modes of an encoder."""
    modes = {}
    for it in () if word == "plain" else word.split("+"):
        level, flags = re.fullmatch(r"level(-?\d+)", it), re.fullmatch(r"kitty(\d+)", it)
        if level:
            modes["modify_other_keys"] = int(level[1])
        elif flags:
            modes["encoding"] = KeyboardEncoding.KITTY
            modes["kitty_flags"] = KittyKeyboardFlags(int(flags[1]))
        elif it in ("cursor", "newline"):
            modes[{"cursor": "application_cursor_keys", "newline": "newline_mode"}[it]] = True
        else:
            modes["encoding"] = KeyboardEncoding[it.upper().replace("-", "_")]
    return KeyCodeEncodeModes(**modes)


def check_encodings(words, told):
    """A key that is up sends nothing."""
    key, modifiers, modes = words
    asked = (key_of(key), set_of(Modifiers, modifiers), modes_of(modes))
    assert sent_line(encode, *asked) == told
    assert encode(*asked, is_down=False) == b""


def check_sent_names(words, told):
    modes, text = words
    try:
        assert quoted(send_names(text_of(text).decode(), modes_of(modes))) == told
    except KeyNameError as error:
        assert f"{STATUSES[error.kind.value]} {error.at}" == told
    except EncodeError as error:
        place = re.search(r"at byte (\d+) has no bytes", str(error))
        assert f"REFUSED_KEY {place[1]}" == told


def check_written(words, told):
    event = event_by(*words)
    with parser_by(reading_of(words[0])) as parser:
        assert sent_line(encode_event, event, parser) == told
        if told.startswith('"'):
            assert_read_back(parser, event, text_of(told))


def check_pastes(words, told):
    text, safe = text_of(*words), text_of(told)
    assert encode_paste(text, False) == safe
    assert encode_paste(memoryview(bytearray(text)), True) == START + safe + END
    for dialect in Dialect:
        with Parser(dialect) as parser:
            (paste,) = parser.feed(START + safe + END)
            assert (paste.text.encode(), parser.waiting_len) == (safe, 0)


def check_paste_lines(words, told):
    assert paste_lines(text_of(*words).decode()) == text_of(told).decode()


def check_mouse(words, told, *events):
    tracking, encoding, button, x, y, modifiers = words
    if told == "BAD_NUMBER":
        with pytest.raises(KeyError):
            set_of(Modifiers, modifiers)
        return
    report = SentMouse(int(x), int(y), MouseButton[button], set_of(Modifiers, modifiers))
    assert sent_line(report.encode, MouseTracking[tracking], MouseEncoding[encoding]) == told
    assert len(events) == told.startswith('"')
    for it in events:
        assert events_line(events_by("extended+x10", told)) == it


def check_replies(words, told):
    assert line_of(reply(event_by("extended", *words))) == told


LINES = [(file, number, line) for file in FILES for number, line in cases_of(file)]


@pytest.mark.parametrize(
    "file, line",
    [(file, line) for file, _, line in LINES],
    ids=[f"{file}:{number}" for file, number, _ in LINES],
)
def test_line(file, line):
    given, *told = line.split(" = ")
    globals()["check_" + file.removesuffix(".txt")](given.split(" "), *told)


def test_files():
    """Each that the page has is there, and has a case."""
    with open(os.path.join(FOLDER, "README.md"), encoding="utf-8") as page:
        files = re.findall(r"^\| `(\w+\.txt)`", page.read(), flags=re.M)
    assert sorted(files) == FILES == sorted({file for file, _, _ in LINES})


@pytest.mark.parametrize("word", ["extended", "termwiz"])
def test_events_in_a_row(word):
    """What leaves nothing buffered, one after another, in pieces of random lengths."""
    data, wanted = b"", []
    for _, line in cases_of("events.txt"):
        given, told, *_ = line.split(" = ")
        reading, text = given.split(" ")
        if reading == word and " | " not in told and told != "nothing":
            data += text_of(text)
            wanted.append(told)
    with parser_by(reading_of(word)) as parser:
        for seed in range(20):
            pick, pieces, at = random.Random(seed), [], 0
            while at < len(data):
                length = pick.randrange(1, 2 << pick.randrange(8))
                pieces.append(data[at : at + length])
                at += length
            events = read_by(parser, reading_of(word), pieces)
            assert events_line(events) == ", ".join(wanted), seed
