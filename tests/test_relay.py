"""The program relay, rust/plain/examples/relay, on a pseudo-terminal. It runs
tests/relay_child.py, which sets modes and tells what it reads.

What the child gets has to be what a terminal sends in the child's modes, whatever the terminal of
relay sends. What the child writes is passed on, but for its modes, and relay restores its terminal
however it ends."""
import contextlib
import functools
import os
import re
import select
import signal
import socket
import sys
import threading
from dataclasses import replace
from pathlib import Path

import pytest
from conftest import check_refused, run_without_terminal
from relay_child import long_text
from terminal import END, ENDING_SIGNALS, LONG_PAUSE, PAUSE, SECONDS, START, Terminal
from terminal_data import recorded

from hedrugal import KeyPress, KeyReport, KittyKeyboardFlags, Parser, encode_paste

CHILD = Path(__file__).with_name("relay_child.py")
# What relay tells its terminal at the start, and at its end.
ON, OFF = "\033=\033[>31u\033[?2004h\033[>4;2m", "\033[>4m\033[?2004l\033[<u\033>"
# What it asks then. A terminal with Kitty's protocol replies to the first, and each to the second.
ASKS_ATTRIBUTES = "\033[c"
QUESTIONS = "\033[?u" + ASKS_ATTRIBUTES
HAS_KITTY, ATTRIBUTES = b"\033[?31u", b"\033[?62;22c"
# Which flags a child may ask for.
FLAGS = [1, 5, 15, 31]
MEGABYTES = 3 << 20
SH, REST = ["sh", "-c"], "[^\n]*\r\n"


class Child:
    """The child, at the other end of its socket."""

    def __init__(self, connection):
        self.socket = connection
        self.changed = threading.Condition()
        self.read, self.signals = bytearray(), []
        threading.Thread(target=self.receive, daemon=True).start()

    def receive(self):
        with contextlib.suppress(OSError):
            while packet := self.socket.recv(1 << 16):
                with self.changed:
                    if packet[:1] == b"i":
                        self.read += packet[1:]
                    else:
                        self.signals.append([int(it) for it in packet[1:].split()])
                    self.changed.notify()

    def do(self, letter, data=b""):
        self.socket.send(letter + (data if isinstance(data, bytes) else b"%d" % data))

    def wait_for(self, holds):
        with self.changed:
            assert self.changed.wait_for(holds, SECONDS), (self.read[-300:], self.signals)

    def take(self, end):
        """What it reads up to the end of these bytes."""
        self.wait_for(lambda: end in self.read)
        with self.changed:
            got, _, self.read = self.read.partition(end)
        return bytes(got)

    def gets(self, data):
        """The next bytes that it reads are these."""
        self.wait_for(lambda: len(self.read) >= len(data))
        with self.changed:
            got, self.read = self.read[: len(data)], self.read[len(data) :]
        assert got == data

    def is_told(self, *numbers):
        """It is sent this signal, and its terminal has this size."""
        self.wait_for(lambda: [*numbers] in self.signals)
        self.signals.remove([*numbers])


class Relay(Terminal):
    """A relay with the child."""

    def __init__(self, program, folder, has_kitty=False, words=(), replies=True, **how):
        path = folder / "socket"
        path.unlink(missing_ok=True)
        self.listener = socket.socket(socket.AF_UNIX, socket.SOCK_SEQPACKET)
        self.listener.bind(str(path))
        self.listener.listen()
        self.listener.settimeout(SECONDS)
        super().__init__([*program, *words, sys.executable, CHILD, path], **how)
        self.child = Child(self.listener.accept()[0])
        self.expect_exact(ON + QUESTIONS)
        if replies:
            self.send((HAS_KITTY if has_kitty else b"") + ATTRIBUTES)
        if words:
            self.expect_exact(ASKS_ATTRIBUTES)
            self.send(ATTRIBUTES)

    def __exit__(self, fault, *more):
        """It ends, if it is running and no case fails."""
        if self.is_running and not fault:
            self.end()
        super().__exit__(fault, *more)

    def close(self):
        super().close()
        self.child.socket.close()
        self.listener.close()

    def passes(self, written, passed=b""):
        """The child writes this, and of it the terminal gets that."""
        self.child.do(b"w", written + b"|")
        self.expect_exact("|")
        assert self.before == passed

    def tells(self, sent, got):
        """The terminal sends this, and the child gets that next."""
        self.send(sent)
        self.child.gets(got)

    def check_keys(self, sent, got):
        """The same, and it gets nothing more."""
        self.tells(sent + b"\033[?64c", got + b"\033[?64c")

    def check_end(self, status):
        super().check_end(status)
        assert not re.search(rb"\033\[\?u|\033\[[<>=]", self.output.split(OFF.encode())[-1])

    def check_left(self, left):
        """It ends, and this is left for the shell."""
        self.check_end(0)
        assert self.left() == left

    def end(self):
        self.child.do(b"x")
        self.check_end(0)


@pytest.fixture(scope="session")
def program(example):
    return example("rust", "relay")


@pytest.fixture
def start(program, tmp_path):
    return functools.partial(Relay, program, tmp_path)


@pytest.fixture(params=[False])
def relay(start, request):
    """A relay on a terminal without Kitty's protocol, or with it."""
    with start(request.param) as it:
        yield it


on_kitty = pytest.mark.parametrize("relay", [True], indirect=True)
on_both = pytest.mark.parametrize("relay", [True, False], indirect=True)


# Modes that the child sets, what the terminal sends by Kitty's protocol, and what the child gets.
# What kitty sends for its other keys without modes is in test_recorded_kitty.
KITTY_TO_LEGACY = {
    "a repeat": (b"", b"\033[97;1:2;97u", b"a"),
    "modifiers alone": (b"", b"\033[57441;2u\033[57442;5u\033[57358u", b""),
    "Alt": (b"", b"\033[97;3u\033[97:65;4u\033[233;3u", "\033a\033A\033é".encode()),
    "Super, Hyper, Meta": (b"", b"\033[97;9u\033[97;17u\033[97;33u\033[1;9A", b""),
    "locks": (b"", b"\033[97;65;65u\033[99;69u\033[1;129B", b"A\x03\033[B"),
    "arrows": (b"", b"\033[A\033[1;5A\033[1;1:2D\033[H", b"\033[A\033[1;5A\033[D\033[H"),
    "function keys": (b"", b"\033[P\033[13~\033[15;2~", b"\033OP\033OR\033[15;2~"),
    "F13, F25 and a key for volume": (b"", b"\033[57376u\033[57388u\033[57438u", b"\033[25~"),
    "a layout": (b"", "\033[1092::97;;1092u\033[1092::97;5u".encode(), "ф\1".encode()),
    "two characters": (b"", b"\033[0;;102:105u", b"fi"),
    "a character without a key": (b"", "\033[0;;229u\033[0u".encode(), "å".encode()),
    "the keypad": (b"", b"\033[57404;129;53u\033[57414u\033[57413;;43u", b"5\r+"),
    "cursor keys": (b"\033[?1h", b"\033[A\033[1;5A\033[H\033[F", b"\033OA\033[1;5A\033OH\033OF"),
    "cursor keys, reset": (b"\033[?1h\033[?1l", b"\033[A", b"\033[A"),
    "the keypad's mode": (b"\033=", b"\033[57414u\033[57404u\033[57404;;53u", b"\033OM\033Ou5"),
    "the keypad, Num Lock": (b"\033=", b"\033[57414;129u\033[57404;129;53u", b"\033OM5"),
    "the keypad, modifiers": (b"\033[?66h", b"\033[57414;5u\033[57413;3u", b"\r\033+"),
    "the keypad's mode, reset": (b"\033=\033>", b"\033[57414u", b"\r"),
    "modifyOtherKeys 1": (b"\033[>4;1m", b"\033[13;5u\033[105;5u", b"\033[27;5;13~\t"),
    "modifyOtherKeys 2": (b"\033[>4;2m", b"\033[105;5u\033[9;5u", b"\033[27;5;105~\033[27;5;9~"),
    "modifyOtherKeys, reset": (b"\033[>4;2m\033[>4m", b"\033[105;5u", b"\t"),
}
# The same from a terminal without the protocol, and with flags that the child asks for.
LEGACY = b"a\x03\033[1;5A\033OA\r\t\x7f\x08\n\0\033[Z\033x\xc3\xa9\033OP\033Ok"
LEGACY_TO_ANY = {
    "no modes": (b"", LEGACY, LEGACY.replace(b"\033OA", b"\033[A").replace(b"\033Ok", b"+")),
    "cursor keys": (b"\033[?1h", b"\033[A\033OA\033[1;5A", b"\033OA\033OA\033[1;5A"),
    "the keypad's mode": (b"\033=", b"\033Ok\033OM\033Ou", b"\033Ok\033OM\033Ou"),
    "flag 1": (b"\033[>1u", b"a\x03\r\n\033[A", b"a\033[99;5u\r\033[106;5u\033[A"),
    "flag 8": (b"\033[=8u", b"a\x03\r\033[A", b"\033[97u\033[99;5u\033[13u\033[A"),
    "all flags": (b"\033[>31u", b"aA\r\t", b"\033[97;;97u\033[65;;65u\033[13u\033[9u"),
    "modifyOtherKeys": (b"\033[>4;2m", b"\033[27;5;105~\t", b"\033[27;5;105~\t"),
}
# What the terminal sends is passed on, whether the child asked for it or not.
REPLIES = {
    "attributes": b"\033[?62;22c\033[>1;10;0c",
    "a mode": b"\033[?2026;2$y",
    "a colour": b"\033]11;rgb:1e1e/1e1e/1e1e\033\\",
    "a version": b"\033P>|XTerm(379)\033\\",
    "graphics": b"\033_Gi=31;OK\033\\",
    "a size": b"\033[48;24;80;480;800t\033[8;24;80t",
}
SAME = {name: (b"", reply, reply) for name, reply in REPLIES.items()}
KEYS = [
    pytest.param(has_kitty, *it, id=name)
    for has_kitty, table in ((True, KITTY_TO_LEGACY), (False, LEGACY_TO_ANY | SAME))
    for name, it in table.items()
]


@pytest.mark.parametrize("relay, modes, sent, got", KEYS, indirect=["relay"])
def test_keys(relay, modes, sent, got):
    relay.passes(modes)
    relay.check_keys(sent, got)


# What the child gets for these, where 127 erases and where 8 does. Ctrl-H sends 8 in both.
WITH_MODIFIERS = b"\033[127;5u\033[127;3u\033[104;5u"
BACKSPACE = b"\x08\x7f\033\x08\033[127u" + WITH_MODIFIERS
ERASED = {
    "127": (b"\x7f", b"", b"\x08\x7f\033\x08\x7f\x08\033\x7f\x08"),
    "8": (b"\x08", b"", b"\x08\x7f\033\x08\x08\x7f\033\x08\x08"),
    "127, flag 1": (b"\x7f", b"\033[>1u", b"\033[104;5u\x7f\033[104;7u\x7f" + WITH_MODIFIERS),
    "8, flag 1": (b"\x08", b"\033[>1u", b"\x08\033[127;5u\033[127;3u\x08" + WITH_MODIFIERS),
}


@pytest.mark.parametrize("erase, modes, got", ERASED.values(), ids=ERASED)
def test_backspace(start, erase, modes, got):
    """The child's terminal has the settings of the terminal outside, and the byte of these."""
    with start(True, erase=erase) as relay:
        relay.child.is_told(ord(erase), 80, 24)
        relay.passes(modes)
        relay.check_keys(BACKSPACE, got)


@on_kitty
def test_newline_mode(relay):
    """A terminal by Kitty's protocol tells the key alone. Another one adds the line feed itself."""
    relay.passes(b"\033[20h", b"\033[20h")
    relay.check_keys(b"\033[13u\033[13;3u", b"\r\n\033\r\n")
    relay.passes(b"\033[20l", b"\033[20l")
    relay.check_keys(b"\033[13u", b"\r")


def one_key(data):
    """The report of the key, with what it types, if these bytes are one press. A control character
    is the key that sends it."""
    with Parser() as parser:
        events = parser.feed(data) + parser.end()
    press = KeyPress.of_event(events[0]) if len(events) == 1 else None
    if press is None:
        return None
    [report] = events
    if isinstance(report.key, str) and not report.key.isprintable():
        report = KeyReport(press.key, press.held)
    return replace(report, text=press.text or "")


def relayed(relay, texts):
    """What the child gets for each of these texts of the terminal. A reply parts them."""
    ends = [b"\033[?64;%dc" % number for number in range(len(texts))]
    relay.send(b"".join(text + end for text, end in zip(texts, ends)))
    return [relay.child.take(end) for end in ends]


# tmux has other codes for Home and End, and sends Tab without modifiers, and any key without Super.
# kitty doesn't say that its key é has no capital.
OTHERS = r"home|end|(ctrl|alt)\+.*tab|super\+.*|(alt\+)?é"


@pytest.mark.timed
def test_recorded_kitty(start):
    """For what kitty sends by its protocol the child gets what another multiplexer, tmux, sends."""
    sent, wanted = recorded("kitty", "kitty31"), recorded("tmux-xterm", "default")
    with start(True) as relay:
        got = dict(zip(sent, relayed(relay, sent.values())))
        assert {*relayed(relay, recorded("kitty", "kitty31", "release").values())} == {b""}
    told = [press for press in sent if press in wanted and not re.fullmatch(OTHERS, press)]
    assert [it for it in told if got[it] != wanted[it]] == [] and len(told) > 600
    assert {got[press] for press in sent if press.startswith("super")} == {b""}


@pytest.mark.timed
def test_flags(start):
    """From a terminal without the protocol the child gets what `encode_kitty` writes."""
    presses = [it for it in recorded("xterm", "default").values() if one_key(it)]
    with start() as relay:
        for flags in FLAGS:
            relay.passes(b"\033[>%du" % flags)
            wanted = [one_key(it).encode(KittyKeyboardFlags(flags)) for it in presses]
            assert relayed(relay, presses) == wanted
        assert len(presses) > 500


# Reports of mode 1006: the left button is pressed, moved with Shift and released, the wheel is
# turned with Ctrl, and the mouse is moved. The last place is beyond what the oldest form can tell.
PRESS, DRAG, RELEASE = b"\033[<0;3;4M", b"\033[<36;5;4M", b"\033[<0;5;4m"
WHEEL, MOVE, FAR = b"\033[<80;3;4M", b"\033[<35;6;4M", b"\033[<2;300;4M\033[<2;300;4m"
CLICK, ALL = PRESS + RELEASE, PRESS + DRAG + RELEASE + WHEEL + MOVE + FAR
SIDE = b"\033[<128;3;4M\033[<128;3;4m"
NO_MOVES = CLICK + WHEEL + FAR + SIDE
FOCUS = b"\033[I\033[O"
# The modes of the child, those of the terminal, what it sends, and what the child gets.
REPORTS = {
    "9": ("9", "1000 1006", CLICK + WHEEL + SIDE, b"\033[M #$\033[M`#$"),
    "1000": ("1000", "1000 1006", CLICK + FAR + SIDE, b"\033[M #$\033[M#%$"),
    "1002": ("1002", "1002 1006", PRESS + DRAG + RELEASE, b"\033[M #$\033[MD%$\033[M#%$"),
    "1003": ("1003", "1003 1006", MOVE + FAR + WHEEL, b"\033[MC&$\033[Mp#$"),
    "1015": ("1000;1015", "1000 1006", CLICK + SIDE, b"\033[32;3;4M\033[35;5;4M"),
    "9 and 1006": ("9;1006", "1000 1006", CLICK + SIDE, PRESS + SIDE[:11]),
    "1000 and 1006": ("1006;1000", "1000 1006", NO_MOVES, NO_MOVES),
    "1002 and 1006": ("1002;1006", "1002 1006", ALL, ALL.replace(MOVE, b"")),
    "1003 and 1006": ("1000;1003;1006", "1003 1006", ALL, ALL),
    "1003 and 1016": ("1003;1016", "1003 1006 1016", ALL, ALL),
    "1005": ("1000;1005", "1000 1006", CLICK, b"\033[M #$\033[M#%$"),
    "the focus": ("1004", "1004", FOCUS, FOCUS),
}


def switches(modes):
    return b"".join(b"\033[?%sh" % it.encode() for it in modes.split())


@pytest.mark.parametrize("modes, told, sent, got", REPORTS.values(), ids=REPORTS)
def test_reports(relay, modes, told, sent, got):
    relay.check_keys(ALL + FOCUS, b"")
    relay.passes(f"\033[?{modes}h".encode(), switches(told))
    relay.check_keys(sent, got)
    relay.child.do(b"w", f"\033[?{modes}l|".encode())
    relay.expect_exact("|")
    assert not relay.modes() - {2004}
    relay.check_keys(ALL + FOCUS, b"")


def test_two_buttons(relay):
    """A release says of which of the two it is, unless it comes in an older form."""
    down, up = b"\033[<0;1;1M\033[<2;1;1M", b"\033[<0;1;1m\033[<2;1;1m"
    relay.passes(b"\033[?1002;1006h", switches("1002 1006"))
    relay.check_keys(down + up, down + up)
    relay.passes(b"\033[?1006l")
    relay.check_keys(down + up, b'\033[M !!\033[M"!!' + 2 * b"\033[M#!!")


# The text that is pasted, what of it the child gets, and what the terminal sends behind END.
PASTES = {
    "lines": (b"a\nb\r\nc\td", "a\rb\rc\td", b""),
    "the beginning of END": (b"rm\033[20", "rm␛[20", b"1~x"),
    "START and control characters": (b"a\033[200~\x03\xc2\x9b201~", "a␛[200~␃\ufffd201~", b""),
    "a terminal that passes END on": (b"a", "a", b"ls\r" + END + b"x"),
    "nothing": (b"", "", b""),
}


@pytest.mark.parametrize("text, got, behind", PASTES.values(), ids=PASTES)
def test_pastes(relay, text, got, behind):
    """The child gets the marks with mode 2004 alone."""
    sent, typed = START + text + END + behind, got.encode() + behind.replace(END, b"")
    relay.check_keys(sent, typed)
    relay.passes(b"\033[?2004h")
    relay.check_keys(sent, START + got.encode() + END + behind)
    relay.passes(b"\033[?2004l")
    relay.check_keys(sent, typed)


@pytest.mark.parametrize("bracketed", [True, False])
def test_long_paste(relay, bracketed):
    """It comes in parts, wherever these are cut, and is one paste."""
    text = "é\r\n\033[201\n".encode() * 50000
    relay.passes(b"\033[?2004h" if bracketed else b"")
    relay.check_keys(START + text + END, encode_paste(text, bracketed))


@pytest.mark.timed
def test_start_that_comes_too_slowly(start):
    """The child gets it as keys, and ends its paste at END."""
    with start() as relay:
        relay.passes(b"\033[?2004h")
        for _ in range(2):
            relay.play([START[:-1], LONG_PAUSE])
            relay.check_keys(START[-1:] + b"ls" + END + b"x", START + b"ls" + END + b"x")


def test_question_within_a_paste(relay):
    """The reply is no part of the pasted text."""
    text = b"a" * 200000
    relay.passes(b"\033[?2004h\033[>5u")
    relay.tells(START + text, START + text[: len(text) // 2])
    relay.passes(b"\033[?u")
    relay.check_keys(END, text[len(text) // 2 :] + END + b"\033[?5u")


@on_kitty
def test_modes_at_once(relay):
    """Several in one sequence, which is written byte by byte."""
    for byte in b"\033[?25;1;1002;1006;2004;1004h":
        relay.child.do(b"w", bytes([byte]))
    relay.passes(b"", switches("25 1002 1006 1004"))
    keys = b"\033[A" + START + b"a\n" + END + b"\033[I" + PRESS + DRAG
    got = keys.replace(b"\033[A", b"\033OA").replace(b"\n", b"\r")
    relay.check_keys(keys, got)
    relay.passes(
        b"\033[?25;1;1002;1006;2004;1004l", switches("25 1004 1006 1002").replace(b"h", b"l")
    )
    relay.check_keys(keys, b"\033[Aa\r")


@on_kitty
def test_flags_are_stacked(relay):
    """By pushes and pops, apart for each screen, and so are those of the terminal."""
    up = b"\033[1;1:2A"
    relay.passes(b"\033[>1u\033[>3u\033[?u")
    relay.check_keys(up, b"\033[?3u" + up)
    relay.passes(b"\033[?1049h", b"\033[?1049h\033[>31u")
    relay.check_keys(up, b"\033[A")
    relay.passes(b"\033[=8;2u")
    relay.check_keys(b"\033[97;;97u", b"\033[97u")
    relay.passes(b"\033[?1049l", b"\033[<u\033[?1049l")
    relay.check_keys(up, up)
    relay.passes(b"\033[<u")
    relay.check_keys(up + b"\033[27u", b"\033[A\033[27u")
    relay.passes(b"\033[<u\033[?u")
    relay.check_keys(b"\033[27u", b"\033[?0u\033")


@pytest.mark.parametrize("has_kitty", [True, False])
def test_relay_in_a_relay(start, program, has_kitty):
    """The inner one is a child as any other, and gets all that its terminal tells."""
    with start(has_kitty, words=program) as relay:
        relay.passes(b"\033[?1h\033[?2004;1002;1006h", switches("1002 1006"))
        keys = b"\033[A\r\x03" + START + b"a\033b" + END + PRESS + DRAG + RELEASE
        relay.check_keys(keys, keys.replace(b"\033[A", b"\033OA").replace(b"\033b", "␛b".encode()))
        relay.passes(b"\033[>31u\033[?u")
        relay.check_keys(b"\033[97;5u", b"\033[?31u\033[97;5u")
        if has_kitty:
            relay.check_keys(b"\033[97;5:3u\033[1;1:2A", b"\033[97;5:3u\033[1;1:2A")


@on_kitty
@pytest.mark.parametrize("reset", [b"\033c", b"\033[!p"])
def test_reset(relay, reset):
    """The terminal goes on to tell what it told before."""
    relay.passes(b"\033[?1h\033[>31u\033[>4;2m")
    relay.passes(reset, reset + b"\033=\033[?2004h\033[>4;2m\033[=31;1u")
    relay.check_keys(b"\033[A\033[97;;97u", b"\033[Aa")


@on_both
def test_position(relay):
    """The reply has the form that was asked for, and without a question it is a key."""
    relay.passes(b"\033[>31u\033[6n", b"\033[6n")
    relay.check_keys(b"\033[1;5R", b"\033[1;5R")
    relay.passes(b"\033[?6n", b"\033[?6n")
    relay.check_keys(b"\033[?1;5R", b"\033[?1;5R")
    relay.check_keys(b"\033[1;5R", b"\033[13;5~")


@pytest.mark.timed
def test_attributes(start):
    """The child gets the replies to its own questions, and relay's own if that comes too late."""
    question = ASKS_ATTRIBUTES.encode()
    with start() as relay:
        for _ in range(2):
            relay.passes(question, question)
            relay.check_keys(ATTRIBUTES, ATTRIBUTES)
    with start(replies=False) as relay:
        relay.play([2.1])
        relay.check_keys(ATTRIBUTES, ATTRIBUTES)


@pytest.mark.timed
def test_end_before_a_reply(start):
    """It is waited for, and what was typed behind it is the shell's."""
    with start(replies=False) as relay:
        relay.child.do(b"x")
        relay.play([OFF, 0.1, HAS_KITTY + ATTRIBUTES + b"ls\r"])
        relay.check_left(b"ls\r")


@pytest.mark.timed
def test_end_where_nothing_replies(start):
    """relay soon ends, and what came is discarded."""
    with start(replies=False) as relay:
        relay.child.do(b"x")
        relay.play([OFF, b"\033[?31"])
        relay.check_left(b"")


def test_end_with_keys_that_nobody_read(start):
    """They were typed for the shell."""
    with start() as relay:
        relay.child.do(b"f", 60000)
        relay.child.do(b"x")
        relay.play([PAUSE, b"ls\r"])
        screen(relay, 60000)
        relay.check_left(b"ls\r")


def test_end_with_a_mouse(start):
    """What reports it sends is read up to a last reply."""
    with start() as relay:
        relay.passes(b"\033[?1003h", switches("1003 1006"))
        relay.child.do(b"x")
        relay.play([OFF + ASKS_ATTRIBUTES, MOVE + ATTRIBUTES + b"ls\r"])
        relay.check_left(b"ls\r")


def test_long_reply(relay):
    """What is longer than the parser's limit isn't passed on, nor any part of it."""
    relay.check_keys(b"\033]52;c;" + b"QUJD" * 50000 + b"\033\\", b"")
    relay.check_keys(REPLIES["a colour"], REPLIES["a colour"])


@pytest.mark.timed
def test_escape(start):
    """It is the key once nothing followed it in time."""
    with start() as relay:
        relay.tells(b"\033", b"\033")
        relay.play([b"\033[1;", PAUSE])
        relay.tells(b"5A", b"\033[1;5A")


@pytest.mark.timed
def test_sequence_that_comes_while_it_is_stopped(start, late_poll):
    """Its limit has passed then. It is read before anything is flushed."""
    with start(env=os.environ | {"LD_PRELOAD": late_poll}) as relay:
        relay.passes(b"\033[?1h")
        for _ in range(2):
            relay.play([b"\033", PAUSE])
            relay.check_keys(b"[A", b"\033OA")


def test_new_size(relay):
    relay.child.is_told(127, 80, 24)
    relay.resize(100, 40)
    relay.child.is_told(signal.SIGWINCH, 100, 40)


@pytest.mark.parametrize("number", ENDING_SIGNALS, ids=lambda it: it.name)
def test_signal(start, number):
    """The child gets it too. Of both screens nothing is left, and the mouse is waited for."""
    with start() as relay:
        relay.child.do(b"w", b"\033[?1049h\033[?1003;1004h|")
        relay.expect_exact("|")
        relay.kill(number)
        relay.child.is_told(number)
        relay.check_end(-number)
        assert relay.output.endswith(b"\033[<u\033[?1049l" + (OFF + ASKS_ATTRIBUTES).encode())


# The commands of the child, and the status of relay.
ENDS = {f"status {status}": ([(b"x", status)], status) for status in (0, 3, 255)}
for it in (signal.SIGHUP, signal.SIGKILL, signal.SIGTERM):
    ENDS[it.name] = [(b"w", b"\033[?1049h\033["), (b"k", it)], 128 + it


@pytest.mark.parametrize("commands, status", ENDS.values(), ids=ENDS)
def test_end_of_the_child(start, commands, status):
    with start() as relay:
        for command in commands:
            relay.child.do(*command)
        relay.check_end(status)


def stop_and_continue(relay, number=signal.SIGTSTP, on=""):
    """Another program has the terminal meanwhile, as it was. Then it is told all again. It is asked
    nothing if a paste or a reply is open: its own would be a part of that."""
    relay.stop_and_continue(number)
    relay.expect_exact(ON + on)
    relay.child.is_told(signal.SIGWINCH, 80, 24)
    assert relay.is_raw()


@pytest.mark.timed
@on_kitty
@pytest.mark.parametrize("number", [signal.SIGTSTP, signal.SIGSTOP], ids=lambda it: it.name)
def test_stop(relay, number):
    """A paste of which the child has a part stays one."""
    on = b"\033[?1049h\033[>31u" + switches("1003 1006")
    relay.passes(b"\033[?1049;1003;2004h", on)
    relay.tells(START + b"a" * 100000, START + b"a" * 65536)
    stop_and_continue(relay, number, on.decode())
    relay.send(b"b" + END + MOVE)
    assert re.fullmatch(rb"a*b\033\[201~\033\[M..", relay.child.take(b"$"))


@pytest.mark.timed
def test_stop_within_a_paste(start):
    """It goes on, and ends where it is if nothing comes for a second. The next has no such end."""
    with start() as relay:
        relay.passes(b"\033[?2004h")
        for _ in range(2):
            relay.play([START + b"a\n", PAUSE, stop_and_continue, PAUSE])
            relay.check_keys(b"b\n" + END + b"x", START + b"a\rb\r" + END + b"x")
            relay.play([START + b"a\n", PAUSE, stop_and_continue])
            relay.child.gets(START + b"a\r" + END)
            relay.play([b"x" + START + b"b", LONG_PAUSE])
            relay.check_keys(b"c" + END, b"x" + START + b"bc" + END)


@pytest.mark.timed
def test_stop_within_a_reply(start):
    """It goes on, and is cut off if nothing comes for a second. A sequence is forgotten."""
    reply = REPLIES["a colour"]
    with start() as relay:
        for _ in range(2):
            relay.play([reply[:9], PAUSE, stop_and_continue])
            relay.check_keys(reply[9:] + b"x", reply + b"x")
            relay.play([reply[:9], PAUSE, stop_and_continue, LONG_PAUSE])
            relay.check_keys(b"x", b"x")
            relay.play([b"\033[1;", PAUSE, stop_and_continue, QUESTIONS, ATTRIBUTES])
            relay.check_keys(b"A", b"A")


@pytest.mark.timed
def test_stop_within_a_question(start):
    """It counts no more: what looks like the position is a key, and attributes are the child's."""
    with start(replies=False) as relay:
        relay.passes(b"\033[>31u\033[6n", b"\033[6n")
        relay.play([START + b"a", PAUSE, stop_and_continue])
        relay.check_keys(END + b"\033[1;5R", b"a\033[13;5~")


@pytest.mark.timed
@pytest.mark.parametrize("number", [signal.SIGCONT, signal.SIGSTOP], ids=lambda it: it.name)
def test_stop_where_nobody_has_the_terminal(start, number):
    """Nothing comes of it, within a paste or a sequence."""
    with start(True) as relay:
        relay.passes(b"\033[?2004h")
        for _ in range(2):
            for sent in [START, b"a\n", END, b"\033[1;", b"5A"]:
                relay.send(sent)
                relay.continue_with(number)
            relay.check_keys(b"", START + b"a\r" + END + b"\033[1;5A")
    assert relay.output.count(ON.encode()) == 1
    assert relay.child.signals == [[127, 80, 24]]


def test_sigtstp_where_no_shell_could_continue_it(start):
    with start(is_orphaned=True) as relay:
        relay.kill(signal.SIGTSTP)
        relay.play([ON + QUESTIONS, ATTRIBUTES])
        relay.check_keys(b"a", b"a")


def test_terminal_that_is_gone(start):
    with start() as relay:
        relay.hang_up()
        relay.wait_for_end()
        relay.child.is_told(signal.SIGHUP)


def most_memory(relay):
    return int(re.search(r"VmHWM:\s*(\d+)", Path(f"/proc/{relay.job}/status").read_text())[1]) << 10


def screen(relay, count):
    """So many bytes that the terminal gets."""
    got = bytearray()
    while len(got) < count and select.select([relay.child_fd], [], [], SECONDS)[0]:
        got += os.read(relay.child_fd, min(count - len(got), 1 << 16))
    return bytes(got)


def test_long_output(start):
    """Nothing is lost while the terminal takes nothing for a time, also at the child's end."""
    with start() as relay:
        relay.child.do(b"f", MEGABYTES)
        relay.child.do(b"x", 5)
        assert not relay.told.poll(PAUSE)
        assert screen(relay, MEGABYTES) == long_text(MEGABYTES)
        relay.check_end(5)


def test_both_ways(relay):
    """The child writes megabytes and reads nothing, while as many are pasted. Neither is kept."""
    text = b"0123456789abcde\r" * (MEGABYTES // 16)
    relay.passes(b"\033[?2004h")
    memory = most_memory(relay)
    relay.child.do(b"p")
    paste = threading.Thread(target=relay.send, args=[START + text + END])
    paste.start()
    relay.child.do(b"f", MEGABYTES)
    assert screen(relay, MEGABYTES) == long_text(MEGABYTES)
    relay.child.do(b"p")
    relay.child.gets(START + text + END)
    paste.join()
    assert most_memory(relay) - memory < MEGABYTES // 2


def test_questions_without_end(relay):
    """A child that asks and reads nothing gets some of the replies, and relay keeps few."""
    relay.child.do(b"p")
    for _ in range(20):
        relay.passes(b"\033[?u" * 10000)
    relay.child.do(b"p")
    relay.child.wait_for(lambda: len(relay.child.read) > 10000)
    assert most_memory(relay) < 64 << 20


# The words behind the program, the status, and what is on the terminal.
OTHER_CHILDREN = {
    "one that closes its terminal": (SH + ["exec <&- >&- 2>&-; sleep 0.2; exit 4"], 4, ".*"),
    "one that leaves a process": (SH + ["trap '' HUP; yes & exit 3"], 3, ".*"),
    "one that is interrupted": (SH + ["kill -INT $$"], 130, ".*"),
    "the shell": ([], 0, f".*{Path.cwd()}\r\n.*"),
    "the shell behind --": (["--"], 0, f".*{Path.cwd()}\r\n.*"),
    "no such program": (["--", "/no"], 127, f"relay: /no: No such file or directory{REST}"),
    "no program": (["--", "/"], 126, f"relay: /: Permission denied{REST}"),
}


@pytest.mark.parametrize("words, status, shown", OTHER_CHILDREN.values(), ids=OTHER_CHILDREN)
def test_other_children(program, words, status, shown):
    """Without a program it is the shell of the environment."""
    with Terminal([*program, *words], env=os.environ | {"SHELL": "/bin/pwd"}) as terminal:
        terminal.check_end(status)
        assert re.fullmatch(shown, terminal.output.decode(), re.DOTALL)


def test_without_terminal(program):
    says = "relay: standard input and output have to be a terminal\n"
    check_refused([*program, "true"], 1, says)


def test_help(program):
    done = run_without_terminal([*program, "--help"])
    usage, _, rest = done.stdout.partition(b"\n")
    assert done.returncode == 0 and rest
    check_refused([*program, "--foo"], 2, re.escape(usage.decode()) + "\n")
