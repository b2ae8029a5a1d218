"""The recorded answers of termwiz 0.23.3, fed in every way that was recorded.
rust/plain/tests/recorded/README.md has their form."""
import functools
import re

import pytest

from hedrugal import Dialect, EncodeError, KeyboardEncoding, KeyCode, KeyCodeEncodeModes
from hedrugal import Modifiers, MouseReport, Parser, Paste, encode
from cases import cuts_of, key_of, line_of, set_of
from helpers import assert_raises, read


@functools.lru_cache(maxsize=None)
def recorded(event):
    """An event as it is recorded. Of a mouse report termwiz tells less."""
    if isinstance(event, Paste):
        text = event.text.encode()
        return f"paste {len(text)}:{text.hex()}"
    words = line_of(event).split(" ")
    return " ".join(words[:5] if isinstance(event, MouseReport) else words)


def check_file(file, check_line):
    """Checks each line by a call that returns how many comparisons it made. A second count tells
    that no line was left out."""
    text = read(f"rust/plain/tests/recorded/{file}")
    lines = [line for line in text.split("\n") if line and not line.startswith("#")]
    for line in lines:
        assert check_line(line) > 0, line
    assert len(lines) == len(re.findall("^[^#\n]", text, flags=re.M)) > 300


class Feeder:
    def __init__(self, parser):
        self.parser = parser

    def begin(self):
        self.parser.reset()
        self.fed = b""

    def feed(self, pieces, more):
        """Feeds pieces, the last with this flag. Returns the events, and the bytes that stay
        buffered, as they are recorded."""
        events = [event for piece in pieces for event in self.parser.feed(piece)]
        events += [] if more else self.parser.flush()
        self.fed += b"".join(pieces)
        rest = self.fed[len(self.fed) - self.parser.waiting_len :].hex()
        told = [",".join(map(recorded, events)), f"; {rest}" if rest else ""]
        return " ".join(filter(None, told)) or "nothing"

    def check(self, pieces, more, wanted):
        self.begin()
        assert self.feed(pieces, more) == wanted, pieces
        return 1

    def check_text(self, text, wanted):
        """Feeds a text cut in each way, with the last piece or an empty one before the flush."""
        ways = [[*pieces, *last] for pieces in cuts_of(text) for last in ([], [b""])]
        return sum(self.check(pieces, False, wanted) for pieces in ways)

    def check_steps(self, steps, answers):
        """Feeds texts one after another, each with a flag, and compares what each gives."""
        assert len(steps) == len(answers)
        self.begin()
        for step, wanted in zip(steps, answers):
            assert self.feed([bytes.fromhex(step[1:])], step[0] == "+") == wanted, self.fed
        return len(steps)

    def check_rows(self, line):
        """`ROW,ROW,.. = NEXT = ALONE = AFTER ESC = BEFORE NEXT`."""
        rows, after, *answers = line.split(" = ")
        assert len(answers) == 3
        count = 0
        for row in map(bytes.fromhex, rows.split(",")):
            for text, wanted in zip([row, b"\x1b" + row, row + bytes.fromhex(after)], answers):
                if wanted != "-":
                    count += self.check_text(text, wanted)
            for length in range(1, len(row)):
                for beginning in (row[:length], b"\x1b" + row[:length]):
                    count += self.check([beginning], True, f"; {beginning.hex()}")
        return count

    def check_line(self, line):
        asked, answers = line.split(" = ", 1)
        if asked.startswith("*"):
            return self.check_text(bytes.fromhex(asked[1:]), answers)
        if asked.startswith(("+", "-")):
            return self.check_steps(asked.split(" "), answers.split(" | "))
        return self.check_rows(line)


@pytest.mark.parametrize("file", ["parse-rows.txt", "parse-cases.txt"])
def test_events(file):
    with Parser(Dialect.TERMWIZ) as parser:
        check_file(file, Feeder(parser).check_line)


def check_encoding(key, modifiers, mode, text):
    modes = KeyCodeEncodeModes(
        encoding=KeyboardEncoding.CSI_U if mode & 16 else KeyboardEncoding.XTERM,
        application_cursor_keys=bool(mode & 1),
        newline_mode=bool(mode & 2),
        modify_other_keys=[None, 0, 1, 2][mode >> 2 & 3],
    )
    assert encode(key, modifiers, modes, is_down=False) == b""
    if text == "refused":
        assert_raises(EncodeError, lambda: encode(key, modifiers, modes))
    else:
        wanted = b"" if text == "-" else bytes.fromhex(text)
        assert encode(key, modifiers, modes) == wanted, (key, modifiers, mode)


def check_keys(others, line):
    """`KEY,.. MODIFIERS,.. = TEXT@MODES ..`: in all 32 modes if none is named. `*` are the other
    keys that have a name of their own."""
    asked, texts = line.split(" = ")
    names, sets = (names.split(",") for names in asked.split(" "))
    keys = [*others] if names == ["*"] else [*map(key_of, names)]
    others.difference_update(keys)
    for key in keys:
        for modifiers in [set_of(Modifiers, names) for names in sets]:
            seen = 0
            for text in texts.split(" "):
                text, _, mask = text.partition("@")
                mask = int(mask or "ffffffff", 16)
                for mode in (it for it in range(32) if mask >> it & 1):
                    check_encoding(key, modifiers, mode, text)
                seen |= mask
            assert seen == 0xFFFFFFFF
    return len(keys) * len(sets)


def test_encodings():
    others = set(KeyCode)
    check_file("encode.txt", functools.partial(check_keys, others))
    assert not others
