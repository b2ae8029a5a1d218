"""The programs edit: c/edit.c and those in rust/plain/examples/edit and python/examples. Their
commands have chords, which they read from a file, and all of them do the same.

Errors of the file are told before the terminal is touched. On a pseudo-terminal a program has to
print the right lines, restore the terminal's settings, and switch its modes off again."""
import re
import signal

import pytest
from conftest import TOP, check_refused, run_without_terminal
from terminal import END, ENDING_SIGNALS, PAUSE, START, Terminal, took
from terminal_data import recorded

KEYS = TOP / "docs/edit.keys"
ENTER, LEAVE = b"\033[?2004h\033[>4;2m\033[>5u", b"\033[<u\033[>4m\033[?2004l"
# How long the rest of a chord may take, in seconds, and a pause that is shorter.
CHORD_PAUSE, SHORT_PAUSE = 1.0, 0.6
PASTE_LIMIT = 1 << 20
AFTER_X = ["pending: ctrl+x", "  ctrl+c  quit", "  ctrl+s  save"]
AFTER_G = ["pending: g", "  g  top"]
AFTER_F10 = ["pending: f10", "  q  quit", "  s  save", "  t  top"]
A, AB = ["text: a|"], ["text: a|", "text: ab|"]
TOP_OF_AB = [*AB, *AFTER_G, "text: |ab"]


class Edit(Terminal):
    FIRST = "ctrl+x ctrl+c ends"
    SWITCH = re.compile(b"|".join(map(re.escape, (ENTER, LEAVE))))

    def ends_with(self, *lines, status=0, entered=1):
        """There is no control character in the lines."""
        super().ends_with(*lines, status=status)
        assert not re.search(r"[^\r\n -~\u00a0-\U0010ffff]", self.plain()), self.plain()
        assert self.output.startswith(ENTER) and self.output.endswith(LEAVE)
        assert self.output.count(ENTER) == self.output.count(LEAVE) == entered

    def quit(self, *lines, **how):
        """Ends it by the chord of docs/edit.keys."""
        self.send(b"\030\003")
        self.ends_with(*lines, *AFTER_X, **how)


@pytest.fixture(scope="session", params=["c", "rust", "python"])
def program(request, example):
    return example(request.param, "edit")


@pytest.fixture
def start(program, on_terminal):
    def run(keys=KEYS, first=Edit.FIRST, **how):
        edit = Edit([*program, keys], **how)
        edit.FIRST = first
        return on_terminal(edit)

    return run


@pytest.fixture
def write_keys(tmp_path):
    """Writes a file of bindings."""

    def write(*lines):
        path = tmp_path / "own.keys"
        path.write_bytes(b"\n".join(lines))
        return path

    return write


RIGHT = [b"# save\tno chord", b"  # \033", b"", b" \t ", b"save ctrl+s"]
# Wrong lines, and the column where each is wrong.
WRONG = [
    (b"sav ctrl+s", 1),
    (b" \t save2", 4),
    (b"save", 5),
    (b"\ttop  g\014", 8),
    (b"top x\0", 6),
    (b"top M-A-x", 7),
    (b"top foo+x", 5),
    (b"top x ctrl+", 12),
    (b"top f256", 5),
    (b"top gg", 5),
    ("top é DEL".encode(), 8),
    (b"top capslock", 5),
    (b"top shift+!", 11),
    (b"top" + 33 * b" g", 69),
    (b"top x\303", 6),
]
FIRST_WORDS = ["no such command", "no such command", "no chord"]


def test_wrong_lines(program, write_keys):
    """All of them are told, each kind in words of its own."""
    keys = write_keys(*RIGHT, *(line for line, _ in WRONG))
    done = run_without_terminal([*program, keys])
    assert (done.returncode, done.stdout) == (2, b"")
    told = [line.split(": ", 2) for line in done.stderr.decode().splitlines()]
    places = [f"{keys}:{at}:{column}" for at, (_, column) in enumerate(WRONG, len(RIGHT) + 1)]
    assert [it[:2] for it in told] == [["edit", place] for place in places]
    words = [it[2] for it in told]
    assert words[:3] == FIRST_WORDS and words[3] == words[4]
    assert len(set(words)) == len(words) - 2 and all(map(str.isprintable, words))


def test_wrong_line_on_a_terminal(program, write_keys):
    """The terminal is left alone."""
    keys = write_keys(b"save ctrl+s", b"quit shift+!")
    with Edit([*program, keys]) as edit:
        edit.check_end(2)
        assert re.fullmatch(rf"edit: {keys}:2:12: [ -~]+\r\n", edit.output.decode())


REFUSED = {
    "no file": ([], 2, "usage: edit FILE"),
    "two files": ([KEYS, KEYS], 2, "usage: edit FILE"),
    "a file that isn't there": ([TOP / "nothing"], 2, "No such file or directory"),
    "a folder": ([TOP], 2, "Is a directory"),
    "no terminal": ([KEYS], 1, "edit: standard input and output have to be a terminal"),
}


@pytest.mark.parametrize("words, status, says", REFUSED.values(), ids=REFUSED)
def test_refused(program, words, status, says):
    check_refused([*program, *words], status, rf".*{says}.*\n")


PASTED = b"a\033[31m\r\n\t\0\177\302\233\302\205|\\ \303\251"
SHOWN = "text: a\\x1b[31m\\n\\x09\\x00\\x7f\\u{9b}\\u{85}|\\ é|"
# Ctrl with keys of a Cyrillic layout, at the places of x, of s and of a.
CYRILLIC_X, CYRILLIC_S, CYRILLIC_A = b"\033[1095::120;5u", b"\033[1099::115;5u", b"\033[1092::97;5u"
# A release, the focus, the mouse, Shift alone and a reply.
OTHERS = b"\033[103;1:3u\033[I\033[O\033[<0;3;4M\033[<0;3;4m\033[57441u\033[?1;2c"
# What is typed, as bytes, pauses in seconds, and texts to wait for; then the lines that it prints.
TYPED = {
    "save": ([b"ab\030\023"], [*AB, *AFTER_X, "saved 2 characters"]),
    "quit": ([], []),
    "top": ([b"abgg"], TOP_OF_AB),
    "bottom, and a text": ([b"abgggx"], [*TOP_OF_AB, *AFTER_G, "text: ab|", "text: abx|"]),
    "no chord, and a text": ([b"\030z"], [*AFTER_X, "unbound: ctrl+x", "text: z|"]),
    "a menu": ([b"ab\033[21~", "  t  top\r\n", b"t"], [*AB, *AFTER_F10, "text: |ab"]),
    "keys without a command": ([b"\013\033[A"], ["unbound: ctrl+k", "unbound: up"]),
    "characters of several bytes": (
        ["éß€😀".encode() + b"\030\023"],
        ["text: é|", "text: éß|", "text: éß€|", "text: éß€😀|", *AFTER_X, "saved 4 characters"],
    ),
    "erase": (["é😀".encode() + b"\177"], ["text: é|", "text: é😀|", "text: é|"]),
    "erase at the cursor": ([b"abggx\177"], [*TOP_OF_AB, "text: x|ab", "text: |ab"]),
    "newline": ([b"a\rb"], [*A, "text: a\\n|", "text: a\\nb|"]),
    "nothing to do": ([b"\177gg" + START + END + b"g"], [*AFTER_G, *AFTER_G]),
    "a paste": ([START + PASTED + END], [SHOWN]),
    "a paste, cut by a pause": ([START + b"a\033", PAUSE, b"b" + END], ["text: a\\x1bb|"]),
    "a paste at the top": (
        [b"abgg" + START + b"cd" + END + b"\030\023"],
        [*TOP_OF_AB, "text: cd|ab", *AFTER_X, "saved 4 characters"],
    ),
    "a paste behind a key that is pending": (
        [b"abgg", "text: |ab\r\n", b"g" + START + b"cd" + END],
        [*TOP_OF_AB, *AFTER_G, "text: ab|", "text: abcd|"],
    ),
    "Escape alone": ([b"\033", "unbound: escape\r\n", b"a"], ["unbound: escape", *A]),
    "a Cyrillic layout": ([CYRILLIC_X + CYRILLIC_S], [*AFTER_X, "saved 0 characters"]),
    "a Cyrillic key without a command": (
        [CYRILLIC_X + CYRILLIC_A],
        [*AFTER_X, "unbound: ctrl+x", "unbound: ctrl+ф"],
    ),
    "a report of two characters": ([b"\033[0;;102:105u"], ["text: fi|"]),
    "two characters, and a chord": ([b"g\033[0;;102:105u"], [*AFTER_G, "text: fi|"]),
    "events that are no presses": ([b"abg" + OTHERS + b"g"], TOP_OF_AB),
    "keys of several protocols": (
        [b"\033[1;9A\033[107;5u\033[27;5;107~\033[1;5R\b\n"],
        ["unbound: super+up", *2 * ["unbound: ctrl+k"], "unbound: ctrl+f3", "unbound: ctrl+h"]
        + ["text: \\n|"],
    ),
}


@pytest.mark.timed
@pytest.mark.parametrize("steps, lines", TYPED.values(), ids=TYPED)
def test_typed(start, steps, lines):
    edit = start()
    edit.play(steps)
    edit.quit(*lines)


def test_backspace_that_sends_8(start):
    """Then byte 127 is Backspace with Ctrl."""
    edit = start(erase=b"\x08")
    edit.send(b"ab\b\x7f")
    edit.quit(*AB, "text: a|", "unbound: ctrl+backspace")


def test_long_paste(start):
    """Its parts are inserted as they come."""
    edit, part = start(), b"a" * (PASTE_LIMIT + 1)
    edit.play([START + part, "text: a", "a|\r\n", b"b" + END + b"\030\023"])
    edit.play([f"saved {len(part) + 1} characters\r\n", b"\030\003"])
    edit.check_end(0)


@pytest.mark.timed
def test_given_up(start):
    """A second after the last press, whatever else comes meanwhile."""
    edit = start()
    edit.play([b"abgg", "text: |ab\r\n", Edit.start_clock, b"g", SHORT_PAUSE, b"\033[I"])
    edit.play(["text: ab|\r\n", took(CHORD_PAUSE - 0.01, CHORD_PAUSE + SHORT_PAUSE)])
    edit.quit(*TOP_OF_AB, *AFTER_G, "text: ab|")


@pytest.mark.timed
def test_escape_behind_a_chord(start):
    """It has a limit of its own."""
    edit = start()
    edit.play([Edit.start_clock, b"g", "  g  top\r\n", b"\033", "unbound: escape\r\n"])
    edit.play([took(0, SHORT_PAUSE)])
    edit.quit(*AFTER_G, "unbound: escape")


@pytest.mark.timed
def test_slow_chord(start, write_keys):
    """Each press may take so long. Then two of three are given up at once."""
    edit = start(write_keys(b"save a b c", b"quit ctrl+x ctrl+c"))
    edit.play([b"a", SHORT_PAUSE, b"b", SHORT_PAUSE, b"c", "saved 0 characters\r\n"])
    edit.play([b"ab", "text: ab|\r\n"])
    pending = ["pending: a", "  b c  save", "pending: a b", "  c  save"]
    edit.send(b"\030\003")
    last = ["pending: ctrl+x", "  ctrl+c  quit"]
    edit.ends_with(*pending, "saved 0 characters", *pending, *AB, *last)


def test_bound_twice(start, write_keys):
    """The later line counts. The first chord is that of the order of the bindings."""
    keys = write_keys(b"quit f1", b"save ctrl+q", b"quit ctrl+q", b"quit f2")
    edit = start(keys, "ctrl+q ends")
    edit.send(b"\021")
    edit.ends_with()


def test_without_quit(program, write_keys):
    """No line says how it ends."""
    with Edit([*program, write_keys(b"save x")]) as edit:
        edit.FIRST = "saved 0 characters"
        edit.play([ENTER.decode(), b"x", "saved 0 characters\r\n", signal.SIGTERM])
        edit.ends_with(status=-signal.SIGTERM)


@pytest.mark.parametrize("number", ENDING_SIGNALS, ids=lambda it: it.name)
def test_signal(start, number):
    edit = start()
    edit.play([b"ab", "text: ab|\r\n", number])
    edit.ends_with(*AB, status=-number)


@pytest.mark.parametrize("number", [signal.SIGTSTP, signal.SIGSTOP], ids=lambda it: it.name)
def test_stop(start, number):
    """A paste stays open, and nothing is asked, since the replies would be text of it. Modes that
    nest are switched on once."""
    edit = start()
    edit.play([b"ab" + START + b"c", "text: ab|\r\n"])
    edit.stop_and_continue(number)
    edit.wait_for(lambda: edit.output.count(ENTER) == 2, "modes")
    assert edit.is_raw() and edit.output.count(LEAVE) == 1
    edit.send(b"\r" + END + b"x")
    edit.quit(*AB, "text: abc\\n|", "text: abc\\nx|", entered=2)


@pytest.mark.parametrize("last, lines", [(b"\033", ["unbound: escape"]), (b"g", AFTER_G)])
def test_end_of_the_input(start, last, lines):
    """What is buffered is flushed, and a chord is given up. The first ^D ends a read, and the
    second the input."""
    edit = start()
    edit.play([b"abgg", "text: |ab\r\n", Edit.let_end_input, last + b"\x04\x04"])
    edit.ends_with(*TOP_OF_AB, *lines, *(["text: ab|"] if last == b"g" else []))


def test_terminal_that_is_gone(start):
    edit = start()
    edit.hang_up()
    edit.wait_for_end()


def encoded(press):
    """The same under Kitty's flags 1 and 4, of which there is no recording."""
    from hedrugal import Chord, KeyReport, KittyKeyboardFlags

    flags = KittyKeyboardFlags.DISAMBIGUATE_ESCAPE_CODES
    [key] = Chord.read(press)
    report = KeyReport(key.key, key.held, text=key.text or "")
    return report.encode(flags | KittyKeyboardFlags.REPORT_ALTERNATE_KEYS)


# What is sent for a press.
PROTOCOLS = {
    "xterm": recorded("xterm", "default").get,
    "xterm, modifyOtherKeys": recorded("xterm", "mok2").get,
    "tmux": recorded("tmux-xterm", "default").get,
    "kitty, flag 1": recorded("kitty", "kitty1").get,
    "foot, flag 1": recorded("foot", "kitty1").get,
    "flags 1 and 4": encoded,
}
# Presses, and the lines that they print.
SCRIPT = [
    ("a b", AB),
    ("g g", [*AFTER_G, "text: |ab"]),
    ("g x", [*AFTER_G, "text: ab|", "text: abx|"]),
    ("ctrl+x ctrl+s", [*AFTER_X, "saved 3 characters"]),
    ("f10 t", [*AFTER_F10, "text: |abx"]),
    ("enter", ["text: \\n|abx"]),
    ("backspace", ["text: |abx"]),
    ("ctrl+k", ["unbound: ctrl+k"]),
    ("ctrl+x z", [*AFTER_X, "unbound: ctrl+x", "text: z|abx"]),
    ("f10 ctrl+x ctrl+c", [*AFTER_F10, "unbound: f10", *AFTER_X]),
]


@pytest.mark.timed
@pytest.mark.parametrize("sent", PROTOCOLS.values(), ids=PROTOCOLS)
def test_protocols(start, sent):
    edit = start()
    edit.send(b"".join(sent(press) for names, _ in SCRIPT for press in names.split()))
    edit.ends_with(*(line for _, lines in SCRIPT for line in lines))
