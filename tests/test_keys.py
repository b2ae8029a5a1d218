"""hedrugal-keys on a pseudo-terminal, over pipes and on files.

Each mode has to be switched on and off again, and the terminal restored, however the program ends.
Nothing else may reach the terminal than characters that show and what screen.py lists."""
import json
import os
import random
import re
import signal
import subprocess
import time
from typing import NamedTuple, Optional
from unicodedata import east_asian_width

import pytest
from conftest import HEDRUGAL_KEYS, TOP, entries_after
from screen import Screen
from terminal import CONTINUE, END, ENDING_SIGNALS, LONG_PAUSE, PAUSE, SECONDS, START, STOP
from terminal import STOP_AND_CONTINUE, Terminal

WIDE = (200, 24)
HELLO = "hedrugal-keys: press keys; ^D twice ends it."
MODES = {
    "--application-cursor-keys": {"?1": True},
    "--modify-other-keys=1": {">4": 1},
    "--modify-other-keys=2": {">4": 2},
    "--mouse": {"?1003": True, "?1006": True},
    "--bracketed-paste": {"?2004": True},
    "--focus": {"?1004": True},
    "--kitty-keyboard": {"kitty": 31},
}
ALL_MODES = ["--application-cursor-keys", "--modify-other-keys=2", *list(MODES)[3:6]]
ALL_SWITCHED = {"?1": True, ">4": 2, "?1003": True, "?1006": True, "?2004": True, "?1004": True}
ESCAPE = "may begin a key; if nothing follows in 50 ms: escape"
ALT_ESCAPE = "may begin a key with Alt; if nothing follows in 50 ms: alt+escape"
UP_TO = "waits up to 1 s"
MOUSE = f"the beginning of a mouse report: {UP_TO}"
NO_SPACE = "hedrugal-keys: the output can't be written: No space left on device\n"


def row(name, typed, remark=""):
    """The row of an event: its bytes begin at column 10, or behind a longer name."""
    columns = sum(1 + (east_asian_width(it) == "W") for it in name)
    return f"{name}{' ' * (7 - columns)}   {typed}{f'   {remark}' if remark else ''}"


CTRL_D = row("ctrl+d", "^D")


class Keys(Terminal):
    """The program on a terminal. Its screen is what it has written so far. `output_to` is a file
    for its standard output. A variable None is unset."""

    FIRST = HELLO

    def __init__(self, *words, size=(80, 24), output_to=None, **how):
        if output_to:
            words = ["/bin/sh", "-c", f'exec "$0" "$@" > {output_to}', *words]
        variables = {name: how.pop(name) for name in [*how] if name.isupper()}
        env = os.environ | {"TERM": "xterm", "NO_COLOR": "1"} | variables
        env = {name: it for name, it in env.items() if it is not None}
        self.size = size
        super().__init__(words, size, env=env, **how)

    def screen(self):
        return Screen(*self.size).take(re.sub(rb"(\033\[?[0-9;?>]*|\r)\Z", b"", self.output))

    def lines(self):
        return self.screen().text()

    def wait_for_questions(self):
        self.wait_for(lambda: self.output.endswith(b"\033[c"), "questions")

    def modes(self):
        return {mode: to for mode, to in self.screen().modes.items() if to}

    def end(self, *lines):
        """Waits for these lines, if there are any, and ends it by ^D twice. They stay."""
        self.play([[*lines]] if lines else [])
        self.send(b"\x04\x04")
        self.check_end(0)
        assert self.lines()[: len(lines) + 1] == [HELLO, *lines]


def lines_come(count):
    """A step: so many lines are there."""
    return lambda it: it.wait_for(lambda: len(it.lines()) >= count, f"{count} lines")


@pytest.fixture
def start(on_terminal):
    """Starts it without its questions and what it switches on by itself."""
    return lambda *words, **how: on_terminal(Keys(HEDRUGAL_KEYS, "--plain", *words, **how))


@pytest.fixture
def ask(on_terminal):
    """Starts it with its questions, and waits for them. None is answered yet."""

    def start_and_wait(*words, size=WIDE, **how):
        keys = on_terminal(Keys(HEDRUGAL_KEYS, *words, size=size, **how))
        keys.wait_for_questions()
        return keys

    return start_and_wait


@pytest.fixture
def bound(tmp_path):
    """Writes a file of bindings, that of the page if no other is said, and returns its name."""

    def write(text=None):
        (tmp_path / "bindings").write_bytes(listings()[3].encode() if text is None else text)
        return str(tmp_path / "bindings")

    return write


@pytest.fixture
def show(start):
    """Plays steps, waits for their lines, and ends the program."""

    def play_and_end(steps, lines, *words, **how):
        keys = start(*words, **how)
        keys.play(steps)
        keys.end(*lines)
        return keys

    return play_and_end


def run(*words, typed=b"", program=HEDRUGAL_KEYS, out=subprocess.PIPE, **variables):
    """Runs the program without a terminal. Returns its status, its output and its errors."""
    how = {"stdout": out, "stderr": subprocess.PIPE, "timeout": SECONDS}
    done = subprocess.run([program, *words], input=typed, env=os.environ | variables, **how)
    return done.returncode, (done.stdout or b"").decode(), done.stderr.decode()


def listings():
    """The listings of docs/keys.md that are tested here."""
    page = (TOP / "docs/keys.md").read_text(encoding="utf-8")
    listing = r"<!-- not run: tests/test_keys[^>]*-->\n```(?:sh)?\n(.*?)\n```"
    return re.findall(listing, page, re.S)


def begins(count, *keys, up_to=UP_TO):
    """The reason of a sequence that may become so many, with the keys that are named."""
    text = f"the beginning of {count} sequence{'s' * (count > 1)}: {', '.join(keys)}"
    return f"{text}{f', .. ({count - 3} more)' * (count > 3)}: {up_to}"


def spelled(typed):
    return " ".join({27: "ESC", 7: "^G"}.get(it, chr(it)) for it in typed)


def characters(text):
    return [row(it, it) for it in text]


MANY = entries_after(b"\033[")
ARROWS = ["UpArrow", "DownArrow", "RightArrow"]
BRACKET = row("alt+[", "ESC [")
# What is typed, for which reason it stays buffered, and what a pause makes of it in its place.
FLUSHED = {
    "Escape": (b"\033", ESCAPE, [row("escape", "ESC")]),
    "Alt-Escape": (b"\033\033", ALT_ESCAPE, [row("alt+escape", "ESC ESC")]),
    "two bytes": (b"\033[", begins(MANY, *ARROWS, up_to="waits up to 100 ms"), [BRACKET]),
    "after ESC": (
        b"\033\033[",
        begins(MANY, *(f"Alt-{it}" for it in ARROWS)),
        [row("alt+[", "ESC ESC [")],
    ),
    "longer": (b"\033[15", begins(26, "F5", "Shift-F5", "Alt-F5"), [BRACKET, *characters("15")]),
    "two": (b"\033[15;5", begins(2, "Ctrl-F5", "Ctrl-U+000F"), [BRACKET, *characters("15;5")]),
    "the start of a paste": (b"\033[200", begins(1, "a paste"), [BRACKET, *characters("200")]),
    "a mouse report": (b"\033[<0", MOUSE, [BRACKET, *characters("<0")]),
}


@pytest.mark.parametrize("typed, reason, events", FLUSHED.values(), ids=FLUSHED)
def test_flushed_by_a_pause(show, typed, reason, events):
    keys = show([typed], events, size=WIDE)
    assert keys.screen().frames == [[HELLO, row("..", spelled(typed), reason)]]


OSC = "a string of 6 bytes so far: waits up to 6 s"
KEYPAD = f"the beginning of a key with modifiers: {UP_TO}"
# The words, what is typed in time, with texts to wait for, and the rows. Bytes of the first read
# are in parentheses.
IN_TIME = {
    "[ A": ("", [b"\033", ESCAPE, b"[A"], [row("up", "(ESC) [ A")]),
    "ESC": ("", [b"\033", ESCAPE, b"\033"], [row("alt+escape", "(ESC) ESC")]),
    "a key": ("--extended", [b"\033O2", KEYPAD, b"P"], [row("shift+f1", "(ESC O 2) P")]),
    "a string": (
        "--extended",
        [b"\033]11;r", OSC, b"\007\033[I"],
        [row('osc "11;r"', "(ESC ] 1 1 ; r) ^G"), row("focus gained", "ESC [ I")],
    ),
}


@pytest.mark.timed
@pytest.mark.parametrize("words, steps, rows", IN_TIME.values(), ids=IN_TIME)
def test_in_time(show, words, steps, rows):
    """A row of bytes that wait gives way to that of their event."""
    show(steps, rows, *words.split(), size=WIDE)


@pytest.mark.timed
def test_over_three_reads(show):
    steps = [b"a\033[1", UP_TO, PAUSE, b";5", "(ESC [ 1) ; 5", PAUSE, b"Ab"]
    rows = [row("a", "a"), row("ctrl+up", "(ESC [ 1 ; 5) A"), row("b", "b")]
    show(steps, rows, size=WIDE)


@pytest.mark.timed
def test_held_key(start):
    """Its bytes don't put off the end of what they follow."""
    keys = start("--extended", size=WIDE)
    keys.play([b"\033]l", f"the beginning of a command (OSC): {UP_TO}", *[b"j", 0.03] * 50])
    keys.expect_exact(row("alt+]", "(ESC ])"), timeout=0.3)
    keys.end()


def test_half_a_character(show):
    """No pause flushes it."""
    half = [row("..", "c3", "half a character: waits for the rest")]
    show([b"\xc3", half, LONG_PAUSE, half, b"\xa9"], [row("é", "(c3) a9")])


def so_far(count, typed, how="waits for its end"):
    return row("..", f"ESC [ 2 0 0 ~ {typed}", f"a paste of {count} bytes so far: {how}")


def test_open_paste(show):
    """No pause flushes it, and ^D twice is text of it."""
    begun, more = [so_far(3, "h ^D ^D")], "(ESC [ 2 0 0 ~ h ^D ^D) ESC [ 2"
    steps = [START + b"h\x04\x04", begun, LONG_PAUSE, begun, b"\033[2", f"{more}   a paste of 6"]
    pasted = row(r'paste "h\x04\x04"', "(ESC [ 2 0 0 ~ h ^D ^D ESC [ 2) 0 1 ~")
    show([*steps, b"01~q"], [pasted, row("q", "q")], "--bracketed-paste", size=WIDE)


# The words, what is typed in one read, and its rows.
CONTROL = [("ctrl+space", "^@"), ("ctrl+a", "^A"), ("enter", "^M"), ("backspace", "^?")]
CONTROL += [("space", "SP")]
BROKEN = [("U+FFFD", "ff"), ("U+FFFD", "c3"), ("a", "a"), ("U+FFFD", "9b")]
PASTED = r'paste "\x1b]0;x\x07\ufffd\r\n\tU+202E"'.replace(r"\ufffd", "\ufffd")
PASTED_BYTES = "ESC [ 2 0 0 ~ ESC ] 0 ; x ^G 9b ^M ^J ^I e2 80 ae ESC [ 2 0 1 ~"
# What a terminal's driver may obey: the keys of signals, and those that stop and start output.
DRIVER = [
    ("ctrl+c", "^C"),
    ("ctrl+z", "^Z"),
    ("ctrl+\\", "^\\"),
    ("ctrl+s", "^S"),
    ("ctrl+q", "^Q"),
]
SHOWN = {
    "control characters": ([], b"\x00\x01\r\x7f ", CONTROL),
    "bytes that aren't UTF-8": ([], b"\xff\xc3a\x9b", BROKEN),
    "a wide character": ([], "世x".encode(), [("世", "e4 b8 96"), ("x", "x")]),
    "what doesn't show in a paste": (
        [],
        START + b"\033]0;x\x07\x9b\r\n\t\xe2\x80\xae" + END,
        [(PASTED, PASTED_BYTES)],
    ),
    "^C, ^Z, ^\\, ^S and ^Q": ([], b"\x03\x1a\x1c\x13\x11", DRIVER),
    "hexadecimal": (["--hex"], b"a\033[A", [("a", "61"), ("up", "1b 5b 41")]),
}


@pytest.mark.parametrize("words, typed, rows", SHOWN.values(), ids=SHOWN)
def test_shown(show, words, typed, rows):
    show([typed], [row(*it) for it in rows], *words, size=WIDE)


# The bytes 8, 127, 10 and 13, as --extended reads them where Backspace sends 127 or 8, and as
# termwiz does.
DECIDED = b"\b\x7f\n\r"
BY_127 = [row("ctrl+h or ctrl+backspace", "^H"), row("backspace", "^?")]
BY_8 = [row("backspace", "^H"), row("ctrl+backspace", "^?")]
BY_TERMWIZ = [row("backspace", "^H"), row("backspace", "^?")]
CTRL_J = [row("ctrl+j or enter", "^J"), row("enter", "^M")]
BOTH_ENTER = [row("enter", "^J"), row("enter", "^M")]
SETTINGS = {
    "127": ("--extended", b"\x7f", BY_127 + CTRL_J),
    "8": ("--extended", b"\x08", BY_8 + CTRL_J),
    "8, termwiz": ("", b"\x08", BY_TERMWIZ + BOTH_ENTER),
}


@pytest.mark.parametrize("has_icrnl", [True, False], ids=["CR becomes LF", "CR stays"])
@pytest.mark.parametrize("words, erase, rows", SETTINGS.values(), ids=SETTINGS)
def test_settings_of_the_terminal(show, words, erase, rows, has_icrnl):
    """In raw mode CR stays, whatever the settings were before."""
    show([DECIDED], rows, *words.split(), size=WIDE, erase=erase, has_icrnl=has_icrnl)


def test_long_paste(start):
    """Of many bytes only the first and the last are shown, and of the text the first. No character
    is cut."""
    keys = start(size=WIDE)
    keys.send(START + "xé".encode() * 400 + END)
    name = f'paste "{"xé" * 16}.." of 1200 bytes'
    keys.wait_for(lambda: name in "".join(keys.lines()[-1:]), "event of the paste")
    shown = r"ESC \[ 2 0 0 ~ x c3 a9 .*\.\. 1184 more \.\.\)? .*ESC \[ 2 0 1 ~"
    assert re.fullmatch(shown, " ".join(" ".join(keys.lines()[1:]).split()).partition("bytes ")[2])
    keys.end()


HEAD = [row("a", "a"), row("b", "b")]
WAITING = [
    row("..", "ESC"),
    f"{'':10}may begin a key; if nothing follows in",
    f"{'':10}50 ms: escape",
]
SETTLED = [row("escape", "ESC")]


@pytest.mark.parametrize(
    "height, lines, frames",
    [(24, HEAD + SETTLED, [[HELLO, *HEAD, *WAITING]]), (3, HEAD + WAITING + SETTLED, [])],
    ids=["24 rows", "3 rows"],
)
def test_narrow_terminal(show, height, lines, frames):
    """The program breaks the rows itself, and the last column stays empty. What waits is written
    over, unless it begins above the screen."""
    keys = show([b"ab\033"], lines, size=(50, height))
    assert keys.screen().frames == frames


def test_terminal_of_twelve_columns(start):
    """Words longer than a row are cut. There is no room for an indent."""
    keys = start(size=(46, 24))
    keys.resize(12, 24)
    keys.play([PAUSE])
    skip = len(keys.output)
    keys.send(START + b"abcdefghijklm" + END)
    keys.wait_for(lambda: b"0 1 ~" in keys.output.replace(b"\r\n", b" "), "bytes of the paste")
    keys.end()
    rows = Screen(12, 24).take(keys.output[skip:]).text()
    text = 'paste "abcdefghijklm" ESC [ 2 0 0 ~ a b c d e f g h i j k l m ESC [ 2 0 1 ~'
    text += "ctrl+d ^D" * 2
    assert "".join(rows).replace(" ", "") == text.replace(" ", "")


@pytest.mark.timed
def test_new_size(start):
    """Terminals differ in how they move rows of another length: the line is written again below."""
    keys = start()
    keys.play([b"\033[1", UP_TO])
    keys.resize(100, 30)
    keys.wait_for(lambda: keys.lines()[-1] == row("1", "1"), "event after the resize")
    assert [len(keys.screen().frames), keys.lines()[-2]] == [0, BRACKET]
    keys.end()


A_AND_ESCAPE = [row("a", "a"), row("escape", "ESC")]


# By the convention of that name an empty variable counts as none.
@pytest.mark.parametrize("value", [None, ""], ids=["no NO_COLOR", "an empty NO_COLOR"])
def test_colours(show, value):
    keys = show([b"a\033"], A_AND_ESCAPE, NO_COLOR=value)
    assert keys.screen().styled()[1:3] == ["*a*         _a_", "*escape*    _ESC_"]
    # What is buffered is dimmed.
    dimmed = b"\033[2mESC\033[0m   \033[2mmay\033[0m \033[2mbegin"
    assert dimmed in keys.output


def test_no_colours(show):
    keys = show([b"a\033"], A_AND_ESCAPE, NO_COLOR="1")
    assert not re.search(rb"\033\[[0-9;]*m", keys.output)


@pytest.mark.parametrize("term", ["dumb", None], ids=["TERM=dumb", "no TERM"])
def test_without_moves(show, term):
    """Where the cursor can't be moved, the settled line comes below."""
    lines = [row("..", "ESC", ESCAPE), row("escape", "ESC")]
    keys = show([b"\033"], lines, TERM=term, NO_COLOR=None)
    assert b"\033" not in keys.output


@pytest.mark.parametrize("word, switched", {**MODES, "": {}}.items(), ids=[*MODES, "no mode"])
def test_mode(start, word, switched):
    keys = start(*word.split())
    assert keys.screen().modes == switched
    keys.end()
    assert keys.screen().modes == dict.fromkeys(switched, False)


def test_one_ctrl_d_is_no_end(show):
    """^D, another key and ^D are three keys."""
    lines = [CTRL_D, row("a", "a"), CTRL_D]
    show([b"\x04a\x04", lines, b"b"], [*lines, row("b", "b")])


def test_end_over_two_reads(start):
    keys = start()
    keys.play([b"\x04", [CTRL_D], b"\x04"])
    keys.ends_with(CTRL_D, CTRL_D)


def test_end_by_sequences(start):
    """Two ^D as the terminal sends them with modifyOtherKeys are two such keys too."""
    keys = start("--modify-other-keys=2")
    keys.send(b"\033[100;5u\033[100;5u")
    keys.check_end(0)


def test_kitty_keyboard(start):
    """In Kitty's protocol ^D is a report. Releases and modifier keys between two don't count."""
    keys = start("--kitty-keyboard", size=WIDE)
    rows = [row("ctrl+a release", "ESC [ 9 7 ; 5 : 3 u"), row("up", "ESC [ A")]
    keys.play([b"\033[97;5:3u\033[A", rows])
    keys.send(b"\033[100;5u\033[100;5:3u\033[57442;5u\033[100;69u")
    keys.check_end(0)


def test_flags_of_kitty_nest(start):
    """They are pushed again only after they were popped, also where SIGSTOP stopped it. A SIGCONT
    without a stop sets nothing."""
    keys = start("--kitty-keyboard", "--focus")
    keys.play([signal.SIGCONT, b"a", row("a", "a")])
    assert keys.output.count(b"\033[?1004h") == 1
    keys.stop_and_continue(signal.SIGSTOP)
    keys.wait_for(lambda: keys.output.count(b"\033[?1004h") == 2, "focus mode again")
    keys.play([*STOP_AND_CONTINUE, Keys.wait_for_modes])
    keys.end_by(signal.SIGTERM)
    assert re.findall(rb"\033\[(>31|<)u", keys.output) == [b">31", b"<"] * 3


@pytest.mark.parametrize("number", ENDING_SIGNALS, ids=lambda it: it.name)
def test_signal(start, number):
    keys = start(*ALL_MODES)
    assert keys.modes() == ALL_SWITCHED
    keys.play([b"a", [row("a", "a")]])
    keys.end_by(number)


def test_sigtstp_sigcont_sigterm(start):
    """The beginning that was buffered before the stop no longer counts."""
    keys = start(*ALL_MODES)
    first = row("..", "c3", "half a character: waits for the rest")
    second = row("..", "c3", "forgotten, since another program had the terminal")
    keys.play([b"\xc3", [first], *STOP_AND_CONTINUE])
    keys.wait_for(lambda: keys.modes() == ALL_SWITCHED, "modes")
    assert keys.is_raw()
    keys.play([b"b", [first, second, row("b", "b")], Terminal.stop])
    keys.end_by(signal.SIGTERM, signal.SIGCONT)


@pytest.mark.timed
def test_stops_in_a_paste(start):
    """The rest of it isn't typed, whoever had the terminal."""
    keys = start("--bracketed-paste", size=WIDE)
    before, after = so_far(1, "a"), so_far(1, "a", UP_TO)
    keys.play([START + b"a", [before], signal.SIGCONT, *STOP, CONTINUE, PAUSE, *STOP_AND_CONTINUE])
    keys.play([Keys.wait_for_modes, [before, after], b"\r" + END + b"b"])
    pasted = row(r'paste "a\r"', "(ESC [ 2 0 0 ~ a) ^M ESC [ 2 0 1 ~")
    keys.end(before, pasted, row("b", "b"))


@pytest.mark.timed
@pytest.mark.parametrize("word", ["", "--extended"])
def test_rest_that_never_comes(show, word):
    """The paste ends a second after the stop, or after its last byte. Later ones have no limit."""

    def is_open(keys):
        assert 'paste "' not in keys.lines()[-1]

    steps = [START + b"a", "so far", *STOP_AND_CONTINUE, UP_TO, 0.7, b"b", UP_TO, 0.7, is_open]
    steps += ['paste "ab"', START + b"a", "waits for its end", LONG_PAUSE, END]
    show([*steps, 'paste "a"'], [], "--bracketed-paste", *word.split(), size=WIDE)


@pytest.mark.timed
def test_stop_in_a_string(show):
    begun = [b"\033]11;r", "so far", *STOP_AND_CONTINUE, UP_TO]
    ended = [PAUSE, b"g\007", 'osc "11;rg"']
    show([*begun, *ended, *begun, 'osc cut "11;r"'], [], "--extended", size=WIDE)


class Long(NamedTuple):
    """What comes in parts: its kind, those of its parts, and what is around its text. Each part
    brings `begin` too."""

    kind: str
    part: str
    of: Optional[str]
    opening: bytes
    begin: bytes
    end: bytes


PASTE = Long("paste", "paste_part", None, START, b"", END)
COMMAND = Long("osc", "string_part", "osc", b"\033]", b"52;", b"\007")
# No two places have the same bytes around them.
PATTERN = b"".join(b"%06x" % it for it in range(1 << 18))


def check_parts(told, of, typed):
    """Each byte of two long texts belongs to the part that brings it, or to their end."""
    assert "".join(it["bytes"] for it in told) == typed.hex()
    assert {(it["kind"], it.get("of")) for it in told} == {(of.part, of.of), (of.kind, None)}
    assert [it["kind"] for it in told].count(of.kind) == 2 and told[-1]["kind"] == of.kind
    for it in told:
        brought = it["text"].encode() if "text" in it else bytes.fromhex(it["data"])
        whole = of.opening + brought + (of.end if it["kind"] == of.kind else b"")
        assert whole.endswith(bytes.fromhex(it["bytes"])), (it["read"], it["kind"])


@pytest.mark.timed
def test_stop_between_parts(start, tmp_path):
    """Each byte belongs to the part that brings it also when it came before a stop."""
    out = tmp_path / "out"
    keys = start("--json", "--extended", output_to=out)
    begun, rest = b"\033]52;" + PATTERN[:70000], PATTERN[70000:140000] + b"\007"
    for times in (1, 2):
        keys.send(begun)
        keys.wait_for(lambda: out.read_text().count("string_part") == 2 * times - 1, "part")
        keys.play([PAUSE, *STOP_AND_CONTINUE, Terminal.wait_for_raw, rest])
        keys.wait_for(lambda: out.read_text().count('"kind":"osc"') == times, "end")
    check_parts([*map(json.loads, out.read_text().splitlines())], COMMAND, 2 * (begun + rest))
    keys.end()


@pytest.mark.timed
def test_key_that_is_due_after_a_stop(show):
    """Bytes that came meanwhile go first, since they may complete it."""
    told = row("ctrl+up", "(ESC [ 1 ; 5) A")
    show([b"\033[1;5", UP_TO, *STOP, b"A", LONG_PAUSE, CONTINUE, told] * 2, [], size=WIDE)


@pytest.mark.timed
def test_bytes_that_come_before_it_looks(show, late_poll):
    """They may complete what is due."""
    told = row("up", "(ESC) [ A")
    show([b"\033", ESCAPE, 2 * PAUSE, b"[A", told] * 2, [], size=WIDE, LD_PRELOAD=late_poll)


def test_end_of_the_input(start):
    """What is buffered is flushed. The first ^D ends a read, and the second the input."""
    keys = start()
    keys.play([Keys.let_end_input, b"z\033[\x04\x04"])
    keys.ends_with(row("z", "z"), BRACKET)


def test_terminal_that_is_gone(start):
    keys = start()
    keys.hang_up()
    keys.wait_for_end()


def test_json_from_a_terminal(start, tmp_path):
    """The modes go to the terminal, and nothing but JSON to the output."""
    out = tmp_path / "out"
    keys = start("--json", "--mouse", output_to=out)
    assert keys.modes() == MODES["--mouse"]
    keys.send(b"\033")
    keys.wait_for(lambda: "Escape" in out.read_text(), "event")
    keys.end()
    assert keys.lines() == [HELLO]
    found = [json.loads(line) for line in out.read_text().splitlines()]
    shown = [(it["read"], it["key"], it["modifiers"]) for it in found]
    assert shown == [(1, "Escape", []), (2, "U+0064", ["CTRL"]), (2, "U+0064", ["CTRL"])]


def test_json_of_what_is_buffered_at_a_signal(start, tmp_path):
    out = tmp_path / "out"
    keys = start("--json", output_to=out)
    keys.send(b"a\xc3")
    keys.wait_for(lambda: "U+0061" in out.read_text(), "event")
    keys.end_by(signal.SIGTERM)
    half = b"\xc3", {"kind": "waiting", "reason": "half a character"}
    assert out.read_text().endswith(as_json([half]))


def test_signal_while_nobody_reads_json(start, tmp_path):
    """The terminal can be written, and its modes are switched off."""
    os.mkfifo(tmp_path / "out")
    with open(os.open(tmp_path / "out", os.O_RDONLY | os.O_NONBLOCK)):
        keys = start("--json", "--mouse", output_to=tmp_path / "out")
        keys.play([b"a" * 4096, PAUSE])
        keys.end_by(signal.SIGTERM)


def test_full_disk_on_a_terminal(start):
    """The terminal is restored."""
    keys = start(*ALL_MODES, output_to="/dev/full")
    keys.send(b"a")
    keys.ends_with(NO_SPACE.strip(), status=1)


def as_json(items):
    """The lines of JSON for bytes that one read brings, with what is told of them."""
    told = [{"read": 1, "bytes": typed.hex(), "earlier": 0, **words} for typed, words in items]
    lines = [json.dumps(it, separators=(",", ":")).replace("\x7f", "\\u007f") for it in told]
    return "".join(f"{it}\n" for it in lines)


def joined(items):
    return b"".join(it[0] for it in items)


TEXT = 'h\x1b"\U0001f600'
WHEEL = {"x": 3, "y": 4, "buttons": ["VERT_WHEEL", "WHEEL_POSITIVE"], "modifiers": []}
ALL_KINDS = [
    (b"a", {"kind": "key", "key": "U+0061", "modifiers": [], "press": "a"}),
    (b"\033[1;5A", {"kind": "key", "key": "UpArrow", "modifiers": ["CTRL"], "press": "ctrl+up"}),
    (b"\033[<64;3;4M", {"kind": "mouse", **WHEEL}),
    (b"\xc3\xa9", {"kind": "key", "key": "U+00E9", "modifiers": [], "press": "é"}),
    (START + TEXT.encode() + END, {"kind": "paste", "length": 7, "text": TEXT}),
    (START + b"x", {"kind": "waiting", "reason": "a paste of 1 bytes so far"}),
]
# The first and the last character of each length in UTF-8.
EDGES = "\0\x7f\x80\u07ff\u0800\uffff\U00010000\U0010ffff"
PASTED = {"kind": "paste", "length": len(EDGES.encode()), "text": EDGES}
ALL_EDGES = [(START + EDGES.encode() + END, PASTED)]
# What the table doesn't know, the line of each, and what is told of it in JSON.
A = {"kind": "key", "key": "U+0061", "modifiers": ["SHIFT"], "action": "repeat"}
A.update(shifted=65, base=99, length=1, text="A", press="A")
VOLUME = {"kind": "key", "key": "functional 57428", "modifiers": [], "action": "press"}
VOLUME.update(press="kitty57428")
BACK = {"kind": "mouse", "x": 3, "y": 4, "buttons": [], "modifiers": []}
BACK.update(action="press", button=8)
FORWARD = {**BACK, "button": 9, "action": "release", "modifiers": ["ALT"]}
NO_BUTTON = {"kind": "mouse", "x": 3, "y": 4, "buttons": [], "modifiers": []}
LEFT = {**BACK, "buttons": ["LEFT"], "button": 1}
SIZE = {"kind": "resized", "rows": 24, "columns": 80, "height": 480, "width": 800}
OSC_CUT = {"kind": "string_cut", "of": "osc", "length": 2, "data": "343b"}


def long_report(kind, opening, data, end=b""):
    """The row has the first 48 of its bytes, and JSON all."""
    told = {"kind": kind, "length": len(data), "data": data.hex()}
    return opening + data + end, f'{kind} "{data[:48].decode()}.." of {len(data)} bytes', told


A_NAME = "A repeat", 'shifted A, base c, text "A"'
REPORTS = [
    (b"\033[97:65:99;2:2;65u", A_NAME, A),
    (b"\033[24;80R", "cursor position 24 80", {"kind": "cursor_position", "row": 24, "column": 80}),
    (b"\033[?5u", "keyboard flags 5", {"kind": "keyboard_flags", "flags": 5}),
    (b"\033[48;24;80;480;800t", "resized 24 80 480 800", SIZE),
    (b"\033[I", "focus gained", {"kind": "focus_gained"}),
    (b"\033[O", "focus lost", {"kind": "focus_lost"}),
    (b"\033[?62c", 'csi "?62c"', {"kind": "csi", "length": 4, "data": "3f363263"}),
    (b"\033]0;a\007", 'osc "0;a"', {"kind": "osc", "length": 3, "data": "303b61"}),
    (b"\033P>|\033\\", 'dcs ">|"', {"kind": "dcs", "length": 2, "data": "3e7c"}),
    (b"\033_Gi=\033\\", 'apc "Gi="', {"kind": "apc", "length": 3, "data": "47693d"}),
    (b"\033]4;", 'osc cut "4;"', OSC_CUT),
    (b"\033[57428u", "kitty57428", VOLUME),
    (b"\033[<128;3;4M", "mouse 3 4 NONE NONE press 8", BACK),
    (b"\033[<137;3;4m", "mouse 3 4 NONE ALT release 9", FORWARD),
    (b"\033[162;3;4M", "mouse 3 4 NONE NONE press 10", {**BACK, "button": 10}),
    (b"\033[<163;3;4M", "mouse 3 4 NONE NONE drag 11", {**BACK, "button": 11, "action": "drag"}),
    (b"\033[<0;3;4M", "mouse 3 4 LEFT NONE press 1", LEFT),
    (b"\033[35;3;4M", "mouse 3 4 NONE NONE release", {**NO_BUTTON, "action": "release"}),
    (b"\033[<35;3;4M", "mouse 3 4 NONE NONE move", {**NO_BUTTON, "action": "move"}),
    long_report("csi", b"\033[", b"?1" + b";2" * 24 + b"c"),
    long_report("osc", b"\033]", b"52;c;" + b"YWJj" * 11, b"\007"),
    long_report("dcs", b"\033P", b">|" + b"abcd" * 12, b"\033\\"),
    long_report("apc", b"\033_", b"Gi=" + b"1234" * 12, b"\033\\"),
]


def shown(typed):
    """Of many bytes the first 20 and the last 8 are shown."""
    if len(typed) <= 32:
        return spelled(typed)
    return f"{spelled(typed[:20])} .. {len(typed) - 28} more .. {spelled(typed[-8:])}"


def lines(*rows):
    return "".join(f"{it}\n" for it in rows)


REPORT_ROWS = [(name if type(name) is tuple else (name, ""), typed) for typed, name, _ in REPORTS]
REPORTS_AS_ROWS = lines(*(row(name, shown(it), remark) for (name, remark), it in REPORT_ROWS))
REPORTS_AS_JSON = as_json((typed, told) for typed, _, told in REPORTS)
OPEN = lines(so_far(1, "x", "its end never came"))
QUIT = lines(row("q", "q"), row("up", "ESC [ A"), row("escape", "ESC"))
HEX = lines(row("a", "61"), row("up", "1b 5b 41"))
UP = b"\033[1;9A"
# Keys with their presses. A release has none, and neither has Shift alone, nor a key that types two
# characters.
NAMED = [
    ("ctrl+space", "^@"),
    ("A", "A"),
    ("alt+enter", "ESC ^M"),
    ("space", "SP"),
    ("ctrl+a release", "ESC [ 9 7 ; 5 : 3 u"),
    ("LeftShift", "ESC [ 5 7 4 4 1 u"),
    ("a", "ESC [ 9 7 ; ; 9 7 : 9 8 u", 'text "ab"'),
    ("ctrl+с or ctrl+c", "ESC [ 1 0 8 9 : : 9 9 ; 5 u", "base c"),
    ("ctrl+h or ctrl+backspace", "^H"),
    ("enter", "^J"),
]
NAMED = lines(*(row(*it) for it in NAMED))
ES = b"\033[1089::99;5u"
NAMED_KEYS = b"\0A\033\r \033[97;5:3u\033[57441u\033[97;;97:98u" + ES + b"\b\n"
TWO_NAMES = {"kind": "key", "key": "U+0441", "modifiers": ["CTRL"], "action": "press"}
TWO_NAMES |= {"base": 99, "press": "ctrl+\u0441", "second": "ctrl+c"}


def extended(told):
    """What --extended tells besides: what happened, and of which button."""
    more = {"key": {"action": "press"}, "mouse": {"action": "wheel", "button": 4}}
    press = {name: it for name, it in told.items() if name == "press"}
    rest = {name: it for name, it in told.items() if name != "press"}
    return rest | more.get(told["kind"], {}) | press


ALL_EXTENDED = [(typed, extended(told)) for typed, told in ALL_KINDS]
# The words, what is read, and what is printed of it.
PRINTED = {
    "keys": ("", b"q\033[A\033", QUIT),
    "nothing": ("", b"", ""),
    "an open paste at the end": ("", START + b"x", OPEN),
    "hexadecimal": ("--hex", b"a\033[A", HEX),
    "JSON": ("--json", joined(ALL_KINDS), as_json(ALL_KINDS)),
    "JSON of characters of each length": ("--json", joined(ALL_EDGES), as_json(ALL_EDGES)),
    "reports": ("--extended", joined(REPORTS), REPORTS_AS_ROWS),
    "reports as JSON": ("--extended --json", joined(REPORTS), REPORTS_AS_JSON),
    "Super": ("--extended", UP, lines(row("super+up", spelled(UP)))),
    "termwiz's Super": ("", UP, lines(row("alt+up", spelled(UP)))),
    "presses": ("--extended", NAMED_KEYS, NAMED),
    "bytes that settings decide": ("--extended", DECIDED, lines(*BY_127, *BOTH_ENTER)),
    "such bytes by termwiz": ("", DECIDED, lines(*BY_TERMWIZ, *BOTH_ENTER)),
    "two presses as JSON": ("--extended --json", ES, as_json([(ES, TWO_NAMES)])),
    "all events by --extended": ("--extended --json", joined(ALL_KINDS), as_json(ALL_EXTENDED)),
}


@pytest.mark.parametrize("words, typed, lines", PRINTED.values(), ids=PRINTED)
def test_printed(tmp_path, words, typed, lines):
    """Of a pipe, of a file, and of an input that is a file."""
    (tmp_path / "typed").write_bytes(typed)
    assert run(*words.split(), typed=typed) == (0, lines, "")
    assert run(*words.split(), tmp_path / "typed") == (0, lines, "")
    with open(tmp_path / "typed", "rb") as file:
        done = subprocess.run([HEDRUGAL_KEYS, *words.split()], stdin=file, capture_output=True)
    assert (done.returncode, done.stdout.decode(), done.stderr) == (0, lines, b"")


def test_ctrl_d_twice_in_a_file(tmp_path):
    """It ends nothing."""
    (tmp_path / "typed").write_bytes(2 * (b"\x04\x04" + b"a" * 4094) + b"q")
    status, out, errors = run(tmp_path / "typed")
    assert (status, errors, out.count(lines(row("a", "a")))) == (0, "", 2 * 4094)
    assert out.endswith(lines(row("q", "q")))


def test_reads_of_4096_bytes(tmp_path):
    """Bytes before the end of a read are in parentheses."""
    (tmp_path / "typed").write_bytes(b"a" * 4094 + b"\033[Ab\033")
    status, out, errors = run(tmp_path / "typed")
    assert (status, errors) == (0, "")
    wanted = [row("a", "a")] * 4094 + [row("up", "(ESC [) A"), row("b", "b"), row("escape", "ESC")]
    assert out == lines(*wanted)


CTRL_X, CTRL_S = row("ctrl+x", "^X"), row("ctrl+s", "^S")
CLICK = row("mouse 3 4 LEFT NONE", "ESC [ < 0 ; 3 ; 4 M")
# What is typed, with what the keys do by the bindings of the page. A key that is pending waits for
# others over a mouse report, and at the end no more.
DONE_BY = b"\x18\033[<0;3;4M\x13gz\x18"
DONE = ["ctrl+x ctrl+s -> save", "g -> down", "z -> unbound", "ctrl+x -> unbound"]


def did(keys, command):
    return {"keys": keys, "command": command}


AFTER_CTRL_X = {"pending": "ctrl+x"}
AFTER_CTRL_X["continuations"] = [did("ctrl+c", "quit"), did("ctrl+s", "save")]
DONE_AS_JSON = [
    {"kind": "key", **AFTER_CTRL_X},
    {"kind": "mouse"},
    {"kind": "key", "outcomes": [did("ctrl+x ctrl+s", "save")]},
    {"kind": "key", "pending": "g", "continuations": [did("g", "top")]},
    {"kind": "key", "outcomes": [did("g", "down"), did("z", None)]},
    {"kind": "key", **AFTER_CTRL_X},
    {"kind": "pause", "outcomes": [did("ctrl+x", None)]},
]


def did_rows(*texts):
    return [f"{'':10}{it}" for it in texts]


def test_what_keys_do(bound):
    """It stands below the row of the key that decided it."""
    first = [CTRL_X, CLICK, CTRL_S, *did_rows(DONE[0]), row("g", "g"), row("z", "z")]
    wanted = lines(*first, *did_rows(*DONE[1:3]), CTRL_X, *did_rows(DONE[3]))
    assert run("--bindings", bound(), typed=DONE_BY) == (0, wanted, "")


def test_what_keys_do_as_json(bound):
    status, out, errors = run("--json", f"--bindings={bound()}", typed=DONE_BY)
    told = [json.loads(line) for line in out.splitlines()]
    fields = ["kind", "outcomes", "pending", "continuations"]
    shown = [{name: it[name] for name in fields if name in it} for it in told]
    assert (status, errors, shown) == (0, "", DONE_AS_JSON)
    assert told[-1] == {"read": 1, "bytes": "", "earlier": 0} | DONE_AS_JSON[-1]


def test_chord_over_two_reads(bound, tmp_path):
    (tmp_path / "typed").write_bytes(b"a" * 4095 + b"\x18\x13")
    status, out, errors = run("--bindings", bound(), tmp_path / "typed")
    assert (status, errors) == (0, "")
    wanted = [row("a", "a"), *did_rows("a -> unbound")] * 4095
    assert out == lines(*wanted, CTRL_X, CTRL_S, *did_rows("ctrl+x ctrl+s -> save"))


# Bindings, the words, what is typed, and what the keys do.
EDIT_KEYS = (TOP / "docs/edit.keys").read_bytes()
DID = {
    "the example's file": (EDIT_KEYS, "", b"\x18\x13", ["ctrl+x ctrl+s -> save"]),
    "a second press": (b"copy ctrl+c", "--extended", ES, ["ctrl+c -> copy"]),
    "a first press": ("copy ctrl+с".encode(), "--extended", ES, ["ctrl+с -> copy"]),
    "a release": (b"copy a", "--extended", b"\033[97;1:3u", []),
    "no bindings": (b"", "", b"a", ["a -> unbound"]),
    "blanks": (b" \t\n  # a b\n\tcopy \t a \t b \n", "", b"ab", ["a b -> copy"]),
    "a chord twice": (b"copy C-a\nquit ctrl+a\n", "", b"\x01", ["ctrl+a -> quit"]),
    "a paste behind a key": (b"a g\nb g g", "", b"g" + START + b"x" + END + b"g", ["g -> a"] * 2),
    "an empty paste": (b"b g g", "", b"g" + START + END + b"g", ["g g -> b"]),
    "two characters behind a key": (b"b g g", "--extended", b"g\033[97;;97:98u", ["g -> unbound"]),
    "a #": (b"copy C-# #\n#copy a\n", "", b"\033[35;5u#", ["ctrl+# # -> copy"]),
}


@pytest.mark.parametrize("text, words, typed, done", DID.values(), ids=DID)
def test_bindings(bound, text, words, typed, done):
    status, out, errors = run("--bindings", bound(text), *words.split(), typed=typed)
    decided = [it for it in out.splitlines() if it.startswith(" " * 10)]
    assert (status, decided, errors) == (0, did_rows(*done), "")


# Lines of bindings, and what is said of them behind the file's name.
WRONG_LINES = {
    "no chord": (b"copy\n", ["1:5: no chord"]),
    "no key": (b"copy  ctrl+\n", ["1:12: no key is behind the modifiers"]),
    "no such key": (b"copy a\n\nquit ctrl+x foo", ["3:13: no key has this name"]),
    "bytes count": ("copy é foo".encode(), ["1:9: no key has this name"]),
    "a shifted character": (
        b"copy shift+!",
        ["1:12: shift with a sign that shows it: write the sign alone"],
    ),
    "no UTF-8": (b"copy a \xff", ["1:8: the name isn't UTF-8"]),
    "a zero": (b"copy a\0", ["1:7: a control character is in the name"]),
    "a command of other bytes": (
        "copié a".encode(),
        ["1:5: a command has printable characters of ASCII alone"],
    ),
    "several lines": (b"a\nb b\nc foo\n", ["1:2: no chord", "3:3: no key has this name"]),
}


@pytest.mark.parametrize("text, says", WRONG_LINES.values(), ids=WRONG_LINES)
def test_wrong_bindings(bound, text, says):
    name = bound(text)
    wanted = "".join(f"{name}:{it}\n" for it in says)
    assert run("--bindings", name, typed=b"a") == (2, "", wanted)


def test_wrong_bindings_on_a_terminal(bound):
    """The terminal isn't touched."""
    name = bound(b"copy\n")
    with Keys(HEDRUGAL_KEYS, "--mouse", "--bindings", name, size=WIDE) as keys:
        keys.check_end(2)
    assert keys.output.decode() == f"{name}:1:5: no chord\r\n"


@pytest.mark.timed
def test_bindings_of_the_page(show, bound):
    """The screens that docs/keys.md shows."""
    screen, following = (it.split("\n") for it in listings()[4:6])
    steps = [b"\x18", following, b"\x13", DONE[0], b"g", "top", LONG_PAUSE, b"z", screen]
    show(steps, [], "--bindings", bound())


@pytest.mark.timed
def test_pause_of_a_chord(start, bound):
    """Bytes that wait, and events without a press, don't put off its end."""
    keys = start("--bindings", bound(), "--mouse", size=WIDE)
    keys.play([b"g", "top", 0.4, b"\033[<0;3;4M", "mouse", 0.4, b"\xc3", "half"])
    keys.expect_exact("g -> down", timeout=0.5)
    keys.end()


@pytest.mark.timed
def test_pause_after_each_key_of_a_chord(show, bound):
    """It is as long after each, so that all keys together may take longer."""
    keys = [b"a", UP_TO, 0.3, b"b", UP_TO, 0.3, b"c", UP_TO, 0.3, b"d", UP_TO, 0.3, b"e"]
    steps = [*keys, "a b c d e -> copy\r\n"] * 2
    show(steps, [], "--bindings", bound(b"copy a b c d e\n"), size=WIDE)


def test_chord_without_moves(show, bound):
    """Where the cursor can't be moved, a list of keys stays, and what they did comes below."""
    listed = did_rows("ctrl+x -> waits up to 1 s for", "  ctrl+c -> quit", "  ctrl+s -> save")
    rows = [CTRL_X, *listed, *did_rows("ctrl+x -> unbound")]
    show([b"\x18"], rows, "--bindings", bound(), TERM="dumb")


def test_chord_before_a_stop(show, bound):
    """What is pending is forgotten when another program has the terminal."""
    steps = [b"\x18", "save", *STOP_AND_CONTINUE]
    steps += ["ctrl+x -> forgotten, since another program had the terminal"]
    show([*steps, b"\x13", "ctrl+s -> unbound"], [], "--bindings", bound(), size=WIDE)


LONGEST = b"# " + b"x" * ((1 << 20) - 12) + b"\ncopy x\n\n\n"
TOO_LONG = "hedrugal-keys: a file of bindings has at most 1048576 bytes\n"


def test_long_bindings(bound):
    """A file that never ends is refused, and what is a byte too long."""
    done = lines(row("x", "x"), *did_rows("x -> copy"))
    assert len(LONGEST) == 1 << 20
    assert run("--bindings", bound(LONGEST), typed=b"x") == (0, done, "")
    for name in (bound(LONGEST + b"\n"), "/dev/zero"):
        assert run(f"--bindings={name}", typed=b"x") == (2, "", TOO_LONG)


@pytest.mark.parametrize("word, it", [("", PASTE), ("--extended", PASTE), ("--extended", COMMAND)])
def test_parts(word, it):
    """Each byte of two long texts belongs to the part that brings it, or to their end."""
    typed = 2 * (it.opening + it.begin + PATTERN + it.end)
    told = run("--json", *word.split(), typed=typed)[1].splitlines()
    check_parts([*map(json.loads, told)], it, typed)


def test_part_decides_a_chord(bound):
    """A key that is pending is decided before the text behind it, also while the paste is open."""
    typed = 2 * (b"g" + START + PATTERN + END)
    told = map(json.loads, run("--json", "--bindings", bound(), typed=typed)[1].splitlines())
    decided = [(it["kind"], it["outcomes"]) for it in told if "outcomes" in it]
    assert decided == 2 * [("paste_part", [did("g", "down")])]


def test_file_on_a_terminal(tmp_path):
    """It is shown as on a terminal, and the terminal's settings and modes stay."""
    (tmp_path / "typed").write_bytes(b"abcd\033")
    with Keys(HEDRUGAL_KEYS, tmp_path / "typed") as keys:
        keys.check_end(0)
    screen = keys.screen()
    assert (screen.modes, screen.frames) == ({}, [])
    assert screen.text() == [*(row(it, it) for it in "abcd"), row("escape", "ESC")]


def test_file_on_a_terminal_with_settings(tmp_path):
    """These say nothing of its bytes."""
    (tmp_path / "typed").write_bytes(DECIDED)
    words = [HEDRUGAL_KEYS, "--extended", tmp_path / "typed"]
    with Keys(*words, size=WIDE, erase=b"\x08") as keys:
        keys.check_end(0)
    assert keys.lines() == BY_127 + BOTH_ENTER


def test_random_bytes():
    """Each byte belongs to exactly one group, and what is shown has no control character."""
    pieces = [START, END, b"\033", b"\033[", b"\033[A", b"\033[<0;3;4M", b"\033[1;5"]
    pieces += [b"\xc3", b"\xa9", b"\xff", b"\x00", b"\x9b", b"a", b"u", b"~"]
    chosen = random.Random(7)
    for _ in range(20):
        typed = b"".join(chosen.choice(pieces) for _ in range(chosen.randrange(3000)))
        status, out, errors = run("--json", typed=typed)
        groups = [bytes.fromhex(json.loads(line)["bytes"]) for line in out.splitlines()]
        assert (status, errors, b"".join(groups)) == (0, "", typed)
        status, out, errors = run(typed=typed)
        assert (status, errors, re.findall(r"[^ -~\n\u00a0-\U0010ffff]", out)) == (0, "", [])


@pytest.mark.parametrize("word", ["", "--json"])
def test_descriptors_that_do_not_block(word):
    """It waits where they have or take nothing more."""

    def unblock():
        for descriptor in (0, 1):
            os.set_blocking(descriptor, False)

    words, pipe = [HEDRUGAL_KEYS, *word.split()], subprocess.PIPE
    with subprocess.Popen(words, stdin=pipe, stdout=pipe, preexec_fn=unblock) as keys:
        for _ in range(2):
            time.sleep(PAUSE)
            os.write(keys.stdin.fileno(), b"a" * 4096)
        keys.stdin.close()
        time.sleep(PAUSE)
        text = keys.stdout.read().decode()
    assert (keys.returncode, len(text.splitlines())) == (0, 8192)


def test_closed_pipe():
    reader, writer = os.pipe()
    os.close(reader)
    with os.fdopen(writer, "wb") as out:
        wanted = (1, "", "hedrugal-keys: the output can't be written: Broken pipe\n")
        assert run(typed=b"a", out=out) == wanted


@pytest.mark.parametrize("words", [[], ["--json"], ["--help"]], ids=["lines", "JSON", "help"])
def test_full_disk(words):
    with open("/dev/full", "wb") as out:
        assert run(*words, typed=b"a", out=out) == (1, "", NO_SPACE)


@pytest.mark.parametrize("words", [[], ["--json"]], ids=["lines", "JSON"])
@pytest.mark.parametrize("has_bindings", [False, True], ids=["", "bindings"])
def test_memory_refused(compiled, tmp_path, bound, words, has_bindings):
    """Each request is refused in turn. The program says so, or needed no more than granted."""
    wraps = ["-Wl,--wrap=malloc", "-Wl,--wrap=realloc"]
    sources = [*TOP.glob("keys/*.c"), TOP / "c/hedrugal_terminal.c", TOP / "tests/refuse.c"]
    program = compiled("refusing", "c11", *wraps, f"-I{TOP}/c", *sources)
    (tmp_path / "typed").write_bytes(b"abc" * 50 + START + b"x" * 5000 + END)
    words = [*words, *["--bindings", bound()] * has_bindings, tmp_path / "typed"]
    for count in range(1000):
        found = run(*words, program=program, GRANTED=str(count))
        if found[0] == 0:
            break
        assert (found[0], found[2]) == (1, "hedrugal-keys: out of memory\n"), count
    assert count >= 5
    assert found == run(*words)


def told(name, kitty, level, mouse, background, keys):
    """What the program says of its terminal."""
    return [
        f"{name}: Kitty's protocol {kitty}, modifyOtherKeys {level}",
        f"mouse {mouse}, background {background}; {keys} here",
    ]


ASKED_MODES = b"".join(b"\033[?%d;2$y" % it for it in (1006, 1004, 2004))
BOTH = {"?2004": True, "?1004": True}
MANY_TWINS = "127 everyday keys can't be told apart"
ALL_APART = "all 539 everyday keys are told apart"
XTERM = b"\033P>|XTerm(379)\033\\\033[>4;0m" + ASKED_MODES
XTERM += b"\033]11;rgb:ffff/ffff/ffff\033\\\033[?64;1;2c"
KITTY = b"\033P>|kitty(0.26.5)\033\\\033[?0u" + ASKED_MODES
KITTY += b"\033]11;rgb:0000/0000/0000\033\\\033[?62;c"
TMUX = b"\033P>|tmux 3.3a\033\\\033[?1;2;4c"
# It has no mouse reports.
SMALL = b"\033[?1006;0$y\033[?1;2c"
KITTY_SAYS = told(
    "kitty(0.26.5)", "on", "unknown", "yes", "dark", "1 everyday key can't be told apart"
)
NOBODY_SAYS = told("xterm doesn't answer", *["unknown"] * 4, MANY_TWINS)
# What a terminal answers, what is said of it, and which modes are switched on then.
OPENINGS = {
    "xterm": (XTERM, told("XTerm(379)", "no", "on", "yes", "light", ALL_APART), {**BOTH, ">4": 2}),
    "kitty": (KITTY, KITTY_SAYS, {**BOTH, "kitty": 5}),
    "a small one": (SMALL, told("xterm", "no", "unknown", "no", "unknown", MANY_TWINS), BOTH),
    "nobody": (b"", NOBODY_SAYS, BOTH),
}


@pytest.mark.timed
@pytest.mark.parametrize("answers, says, modes", OPENINGS.values(), ids=OPENINGS)
def test_best_protocol(ask, answers, says, modes):
    keys = ask()
    keys.play([answers, says, b"a", [*says, row("a", "a")]])
    assert keys.modes() == modes
    keys.end()
    assert not keys.modes()


@pytest.mark.timed
def test_protocol_over_a_stop(ask):
    """It is switched off while the program is stopped, and then on again."""
    keys = ask()
    keys.play([KITTY, KITTY_SAYS, *STOP_AND_CONTINUE, Keys.wait_for_modes])
    keys.end()
    assert re.findall(rb"\033\[(>5|<)u", keys.output) == [b">5", b"<"] * 2


@pytest.mark.timed
def test_typed_before_the_answer(ask):
    """Nothing is lost, and none of the answer is a key."""
    keys = ask()
    rows = [row("a", "a"), row("up", "ESC [ A"), row("b", "b")]
    keys.play([b"a\033[A" + KITTY[:20], 0.02, KITTY[20:] + b"b", [*KITTY_SAYS, *rows]])
    keys.end()


@pytest.mark.timed
def test_late_answer(ask):
    """It counts, and is no key."""
    keys = ask()
    keys.play([b"a", [*NOBODY_SAYS, row("a", "a")], PAUSE, KITTY])
    keys.play([[*NOBODY_SAYS, row("a", "a"), *KITTY_SAYS]])
    assert keys.modes() == {**BOTH, "kitty": 5}
    keys.end()


@pytest.mark.timed
def test_end_before_the_answer(ask):
    """The next program doesn't get it."""
    keys = ask()
    keys.play([b"\x04\x04", 0.05, XTERM])
    keys.check_end(0)
    assert keys.left() == b""


@pytest.mark.parametrize("term", ["dumb", None], ids=["TERM=dumb", "no TERM"])
def test_terminal_that_is_not_asked(on_terminal, term):
    keys = on_terminal(Keys(HEDRUGAL_KEYS, TERM=term, size=WIDE))
    says = told(f"{term or 'no TERM'} isn't asked", *["unknown"] * 4, MANY_TWINS)
    keys.end(*says)
    assert b"\033" not in keys.output


# The words, what the terminal answers, what is said of the words, and which modes are on. What is
# asked for is switched on anyway.
MISSING = {
    "--kitty-keyboard": (SMALL, ["doesn't have Kitty's protocol"], {"kitty": 31}),
    "--modify-other-keys=2": (SMALL, ["doesn't say that it has modifyOtherKeys"], {">4": 2}),
    "--mouse": (SMALL, ["doesn't have mouse reports"], MODES["--mouse"]),
    "--focus": (XTERM, [], {">4": 2}),
}


@pytest.mark.timed
@pytest.mark.parametrize("word", MISSING)
def test_missing_protocol(ask, word):
    answers, says, modes = MISSING[word]
    keys = ask(word)
    keys.play([answers, lines_come(3 + len(says))])
    assert keys.lines()[3:] == [f"{word}: this terminal {it}" for it in says]
    assert keys.modes() == BOTH | modes
    keys.end()


APART = "modifyOtherKeys 2 or Kitty's protocol"
# Keys that the terminal sends as another one, by the two tables of crates/termwiz_binding_laws:
# each is told apart by what its column says there.
CONTROLS = {"i": "tab", "m": "enter"} | dict.fromkeys("[3{", "escape")
CONTROLS |= dict.fromkeys("8?", "backspace") | dict.fromkeys("@2`", "ctrl+space")
CONTROLS |= dict.fromkeys("4|", "ctrl+\\") | dict.fromkeys("5}", "ctrl+]")
CONTROLS |= dict.fromkeys("6~", "ctrl+^") | dict.fromkeys("7/", "ctrl+_")
CONTROLS |= {it: it for it in "019!\"#$%&'()*+,-.:;<=>"}
NAMED_TWINS = {
    "shift": {"enter": "enter", "escape": "escape", "backspace": "backspace", "space": "space"},
    "ctrl": {"enter": "enter", "escape": "escape", "backspace": "ctrl+h", "tab": "tab"},
    "ctrl+shift": {
        **{"enter": "enter", "escape": "escape", "backspace": "ctrl+h", "tab": "shift+tab"},
        **{"space": "ctrl+space"},
    },
}


def with_alt(name):
    return re.sub(r"^(ctrl\+)?", r"\1alt+", name)


def twins_by_hand():
    """Everyday keys with Alt have Ctrl or Shift besides, and not both."""
    twins = {f"ctrl+{it}": twin for it, twin in CONTROLS.items()}
    twins |= {f"{held}+{key}": it for held, keys in NAMED_TWINS.items() for key, it in keys.items()}
    twins |= {
        with_alt(name): with_alt(twin)
        for name, twin in twins.items()
        if not name.startswith("ctrl+shift+")
    }
    letters = map(chr, range(ord("a"), ord("z") + 1))
    return twins | {f"ctrl+shift+{it}": CONTROLS.get(it, f"ctrl+{it}") for it in letters}


def test_twins():
    twins = twins_by_hand()
    apart = {"shift+space": f"{APART} with all flags"}
    rows = [
        f"{it} comes as {twin} here; {apart.get(it, APART)} tells them apart"
        for it, twin in twins.items()
    ]
    status, out, errors = run("--twins")
    assert (status, errors, sorted(out.splitlines())) == (0, "", sorted(rows))
    assert MANY_TWINS.startswith(f"{len(rows)} ")
    says = "hedrugal-keys: takes one of --json and --twins; --help says more\n"
    assert run("--json", "--twins") == (2, "", says)


@pytest.mark.parametrize("word", ["--modify-other-keys=2", "--kitty-keyboard"])
def test_no_twins(word):
    assert run("--twins", word) == (0, "", "")


def test_twins_of_the_terminal(on_terminal, tmp_path):
    """They go to the output, and the terminal is only asked."""
    out = tmp_path / "out"
    keys = on_terminal(Keys(HEDRUGAL_KEYS, "--twins", output_to=out), Keys.wait_for_questions)
    keys.send(KITTY)
    keys.check_end(0)
    by = "Kitty's protocol with all flags"
    assert out.read_text() == f"shift+space comes as space here; {by} tells them apart\n"


TAB = "ctrl+i, ctrl+shift+i, ctrl+tab send the same here; "
ENTER = "ctrl+m, ctrl+shift+m, shift+enter and 2 more send the same here; "
SPACE = "shift+space sends the same here; Kitty's protocol with all flags tells them apart"
# What the terminal answers, what is typed, and its row.
REMARKS = {
    "tab": (SMALL, b"\t", row("tab", "^I", f"{TAB}{APART} tells them apart")),
    "an arrow": (SMALL, b"\033[A", row("up", "ESC [ A")),
    "tab in kitty": (KITTY, b"\t", row("tab", "^I")),
    "space in kitty": (KITTY, b" ", row("space", "SP", SPACE)),
    "enter": (SMALL, b"\r", row("enter", "^M", f"{ENTER}{APART} tells them apart")),
}


@pytest.mark.timed
@pytest.mark.parametrize("answers, typed, wanted", REMARKS.values(), ids=REMARKS)
def test_twins_of_a_key(ask, answers, typed, wanted):
    keys = ask()
    keys.play([answers, typed, lines_come(4)])
    assert keys.lines()[3:] == [wanted]
    keys.end()


CANNOT_COME = b"tab tab\nindent ctrl+i\nkill ctrl+backspace\n\nredo ctrl+x ctrl+shift+z\n"


@pytest.mark.timed
def test_bindings_that_cannot_come(ask, bound):
    """Ctrl-Backspace comes as a second press."""
    name = bound(CANNOT_COME)
    keys = ask("--bindings", name)
    keys.play([SMALL, lines_come(5)])
    wanted = [f"{name}:2: ctrl+i comes as tab here", f"{name}:5: ctrl+shift+z comes as ctrl+z here"]
    assert sorted(keys.lines()[3:]) == [f"{it}; {APART} tells them apart" for it in wanted]
    keys.end()


# What is typed, and the name of its first key.
ONCE = {
    "ctrl+up": b"\033[1;5A",
    "é": "é".encode(),
    "escape": b"\033",
    "ctrl+d": b"\x04",
    "a": START + b"x" + END + b"\033[97;1:3ua",
}


@pytest.mark.parametrize("name, typed", ONCE.items(), ids=ONCE)
def test_once(on_terminal, tmp_path, name, typed):
    """A script gets the name alone. What else is typed is left, and a paste is no key."""
    out, rest = tmp_path / "out", b"" if name == "escape" else b"\r"
    keys = on_terminal(Keys(HEDRUGAL_KEYS, "--once", output_to=out), Keys.wait_for_raw)
    keys.send(typed + rest)
    keys.check_end(0)
    assert (out.read_text(), keys.screen().text()) == (f"{name}\n", [])
    assert keys.left() == rest


# The words, what is read, the status, the output and the error.
ONCE_OF_A_PIPE = {
    "two keys": ("", b"\033[A\033[B", (0, "up\n", "")),
    "no key": ("", b"\033[<0;3;4M", (1, "", "hedrugal-keys: no key came\n")),
    "JSON": ("--json", b"\033[<0;3;4Mab", (0, as_json([ALL_KINDS[0]]), "")),
}


@pytest.mark.parametrize("word, typed, wanted", ONCE_OF_A_PIPE.values(), ids=ONCE_OF_A_PIPE)
def test_once_of_a_pipe(word, typed, wanted):
    status, out, errors = run("--once", *word.split(), typed=typed)
    assert (status, re.sub('"read":[0-9]+', '"read":1', out), errors) == wanted


def unknown(word):
    return word, 2, f"what is '{word}'? --help lists the words"


def two(what, words):
    return words, 2, f"wants one {what}, and '{words.split(' ')[-1]}' is another; --help says more"


# The words for which nothing is read, the status, and the one line that says why.
REFUSED = {
    "an unknown word": unknown("--foo"),
    "an unknown reading": unknown("--extended=vt52"),
    "an unknown level": unknown("--modify-other-keys=3"),
    "two files": two("file", "a b"),
    "a file and the input": two("file", "a -"),
    "two forms": ("--hex --json", 2, "takes one of --hex and --json; --help says more"),
    "no such file behind --": ("-- --hex", 1, "--hex: No such file or directory"),
    "hexadecimal names": ("--hex --once", 2, "takes one of --hex and --once; --help says more"),
    "what a key does": (
        "--bindings a --once",
        2,
        "takes one of --bindings and --once; --help says more",
    ),
    "a mode": ("--mouse", 2, "--mouse wants a terminal as the input; --help says more"),
    "no bindings": ("--bindings", 2, "--bindings wants a file behind it; --help says more"),
    "two files of bindings": two("file for --bindings", "--bindings a --bindings b"),
    "no such file of bindings": ("--bindings /no", 1, "/no: No such file or directory"),
    "bindings in a folder": ("--bindings /", 1, "/: Is a directory"),
    "no such file": ("/no/such", 1, "/no/such: No such file or directory"),
    "a folder": ("/", 1, "the input can't be read: Is a directory"),
}
# Names that would act on a terminal: control characters are printed by their bytes.
NAMES = {
    "\033]0;title\007": r"\x1b]0;title\x07",
    "a\nb\177\2332J": r"a\x0ab\x7f\xc2\x9b2J",
    "\udc9b2J\udce0\udc82\udc9b\udce2\udc82": r"\x9b2J\xe0\x82\x9b\xe2\x82",
    "\udcf0\udc80\udc82\udc9b\udced\udca0\udc80": r"\xf0\x80\x82\x9b\xed\xa0\x80",
    "\udcf4\udc90\udc80\udc80\udcf8": r"\xf4\x90\x80\x80\xf8",
    "café\u00a0世😀\\x1b": "café\u00a0世😀\\x1b",
}
for name, shown in NAMES.items():
    REFUSED[f"no file {shown}"] = name, 1, f"{shown}: No such file or directory"
    REFUSED[f"unknown {shown}"] = f"--{name}", *unknown(f"--{shown}")[1:]
    REFUSED[f"also {shown}"] = f"x {name}", *two("file", f"x {shown}")[1:]


@pytest.mark.parametrize("name, shown", NAMES.items(), ids=NAMES.values())
def test_wrong_bindings_in_a_file_of_this_name(tmp_path, name, shown):
    (tmp_path / name).write_bytes(b"copy\ncopy\n")
    wanted = "".join(f"{tmp_path}/{shown}:{line}:5: no chord\n" for line in (1, 2))
    assert run("--bindings", f"{tmp_path}/{name}") == (2, "", wanted)


@pytest.mark.parametrize("words, status, says", REFUSED.values(), ids=REFUSED)
def test_refused(words, status, says):
    assert run(*words.split(" "), typed=b"a") == (status, "", f"hedrugal-keys: {says}\n")


@pytest.mark.parametrize("words", [["-"], ["--", "-"], ["--"]], ids=" ".join)
def test_input_by_name(words):
    assert run(*words, typed=b"a") == run(typed=b"a")


def test_version():
    number = re.search(r'HED_VERSION "(.*)"', (TOP / "c/hedrugal.h").read_text())[1]
    assert run("--version") == (0, f"hedrugal-keys {number}\n", "")


@pytest.mark.parametrize("word", ["-h", "--help"])
def test_help(word):
    status, out, errors = run(word)
    assert (status, errors) == (0, "")
    assert max(map(len, out.splitlines())) < 80
    words = ["--extended", "--bindings", "--hex", "--json", "--once", "--plain", "--twins"]
    for word in [*MODES, *words, "--version"]:
        name, _, level = word.partition("=")
        assert (f"{name}=1|2" if level else name) in out


@pytest.mark.timed
def test_screen_of_the_page(ask):
    """The screen that docs/keys.md shows, and one of the lines of --twins."""
    before, screen, twin = listings()[:3]
    assert before == "hedrugal-keys" and f"{twin}\n" in run("--twins")[1]
    keys = ask(size=(80, 24))
    typed = [b"\033[1;5A", "é".encode(), b"\033", b"\t", START + b"hi\r" + END, b"\033[1"]
    begin = [TMUX, lambda it: it.wait_for(lambda: "127" in it.lines()[-1], "opening")]
    keys.play([*begin, *(step for it in typed for step in (it, PAUSE)), screen.split("\n")[1:]])
    keys.end()
