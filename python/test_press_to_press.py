"""Press to press: what comes through a pipe in random cuts and pauses is told as what was pressed,
typed, pasted, clicked and replied, in this order. Flags and modes change between any two things.
The keys are those that are sent as themselves under all of them."""
import os
import random
import re

import pytest

from hedrugal import ColourScheme, ColourSchemeReply, CursorPosition, DeviceAttributes
from hedrugal import DeviceAttributesReply, Function, KeyboardEncoding, KeyCode, KeyCodeEncodeModes
from hedrugal import KeyEventKind, KeyPress, KeyReport, KittyKeyboardFlags, KittyModifiers
from hedrugal import Modifiers, MouseButton, MouseEncoding, MouseTracking, Parser, Paste, SentMouse
from hedrugal import encode, encode_colour_scheme, encode_cursor_position
from hedrugal import encode_device_attributes, encode_paste, reply, typed_text

# Keys, and the bits of the modifiers that may be held with them: Shift is 1, Alt 2 and Ctrl 4.
KEYS = [
    ("abcdefghijklmnopqrstuvwxyz", 3),
    ("abcdefgnopqrstuvwxyz", 6),
    ("[]^_\\я日", 2),
    ([KeyCode.ESCAPE, KeyCode.ENTER, KeyCode.BACKSPACE], 2),
    ([KeyCode.TAB], 3),
    ([KeyCode.UP_ARROW, KeyCode.HOME, KeyCode.DELETE, *map(Function, range(1, 13))], 7),
]
# What texts that are pasted are made of.
PARTS = ["a", "é", "\r\n", "\n", "\x1b", "\x1b[201~", "\x1b[200~", "\x1b[20", "1~", "\x9b", "\x7f"]
TEXTS = (
    KittyKeyboardFlags.REPORT_ALL_KEYS_AS_ESCAPE_CODES | KittyKeyboardFlags.REPORT_ASSOCIATED_TEXT
)


def told(events):
    """What events tell a program: of a release, nothing."""
    for event in events:
        if isinstance(event, KeyReport):
            yield from filter(None, [KeyPress.of_report(event) or typed_text(event)])
        else:
            yield reply(event) or event


def safe(text):
    """What a text is pasted as."""
    text = text.replace("\r\n", "\r").replace("\n", "\r").replace("\x9b", "\ufffd")
    return text.replace("\x1b", "␛").replace("\x7f", "␡")


class Things:
    """Things that are drawn: the bytes of each, and what is told of it."""

    def __init__(self, seed):
        self.draws = random.Random(seed)
        self.asked = 0

    def key(self):
        keys, held = self.draws.choice(KEYS)
        key, held = self.draws.choice(keys), held & self.draws.randrange(8)
        return key, 0 if self.asked and key == Function(3) else held

    def flags(self):
        return KittyKeyboardFlags(self.draws.randrange(32))

    def kitty(self):
        key, held = self.key()
        report = KeyReport(key, KittyModifiers(held), self.draws.choice(list(KeyEventKind)))
        return report.encode(self.flags()), told([report])

    def port(self):
        key, held = self.key()
        newline = self.draws.random() < 0.5
        modes = KeyCodeEncodeModes(
            self.draws.choice([KeyboardEncoding.XTERM, KeyboardEncoding.CSI_U]),
            self.draws.random() < 0.5,
            newline,
            self.draws.choice([None, -1, 0, 1, 2, 3]),
        )
        more = [KeyReport("j", KittyModifiers.CTRL)] if newline and key is KeyCode.ENTER else []
        return encode(key, Modifiers(held << 1), modes), told(
            [KeyReport(key, KittyModifiers(held)), *more]
        )

    def text(self):
        report = KeyReport("\0", text=self.draws.choice(["fi", "да", "日本語"]))
        return report.encode(self.flags() | TEXTS), [report.text]

    def paste(self):
        text = "".join(self.draws.choices(PARTS, k=self.draws.randrange(12)))
        return encode_paste(text.encode(), True), [Paste(safe(text))]

    def mouse(self):
        """It is told as it is alone."""
        x, y = self.draws.randrange(65536), self.draws.randrange(65536)
        report = SentMouse(
            x, y, self.draws.choice(list(MouseButton)), Modifiers(self.draws.randrange(8) << 1)
        )
        sent = report.encode(MouseTracking.ANY, MouseEncoding.SGR)
        with Parser() as parser:
            return sent, parser.feed(sent)

    def position(self):
        """Without a question mark it comes only while a question is open."""
        row, column = self.draws.randrange(1, 3), self.draws.randrange(1, 300)
        private = not self.asked or self.draws.random() < 0.5
        self.asked = max(0, self.asked - 1)
        return encode_cursor_position(row, column, private), [CursorPosition(row, column)]

    def colours(self):
        scheme = self.draws.choice(list(ColourScheme))
        return encode_colour_scheme(scheme), [ColourSchemeReply(scheme)]

    def attributes(self):
        numbers = [self.draws.randrange(65536) for _ in range(self.draws.randrange(1, 9))]
        report = DeviceAttributesReply(DeviceAttributes.PRIMARY, tuple(numbers))
        return encode_device_attributes(numbers), [report]

    def up_to_a_rest(self):
        """Things after which nothing may come for a while. What waits may go on with a key, and
        doesn't with a paste, a mouse report or a reply."""
        replies = [self.paste, self.mouse, self.position, self.colours, self.attributes]
        kinds = [self.text, *replies, *[self.kitty] * 5, *[self.port] * 5]
        sent, tells, one = b"", [], b""
        for _ in range(self.draws.randrange(1, 12)):
            is_open = re.fullmatch(rb"\x1b[\x1b\[OP\]_]?", one)
            one, more = self.draws.choice(replies if is_open else kinds)()
            sent, tells = sent + one, [*tells, *more]
        return sent, tells


def read(parser, pipe, sent, draws, now):
    """The pauses between the cuts are too short for a flush, and the last one isn't."""
    events = []
    while sent:
        size = draws.randrange(1, 20)
        os.write(pipe[1], sent[:size])
        events += parser.feed(os.read(pipe[0], 20), now) + parser.idle(
            now + draws.randrange(3) / 1000
        )
        sent, now = sent[size:], now + 0.002
    return events + parser.idle(now + 0.1)


@pytest.mark.parametrize("seed", range(20))
def test_what_is_sent_is_told(seed):
    things, pipe = Things(seed), os.pipe()
    with Parser() as parser:
        for now in range(0, 40):
            if things.draws.random() < 0.3:
                parser.expect_position()
                things.asked += 1
            sent, tells = things.up_to_a_rest()
            assert list(told(read(parser, pipe, sent, things.draws, now))) == tells
    for end in pipe:
        os.close(end)
