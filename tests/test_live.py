"""The live programs on a pseudo-terminal: c/live.c, those in rust/plain/examples/live and
python/examples, and those in rust/examples, which do the same on tokio's runtime and in a
loop of mio.

Each prints the right lines, leaves the terminal's settings as they were, and switches off the modes
that it switched on. What its terminal promises besides is in tests/scenarios."""
import re
import signal
import time

import pytest
from conftest import HEDRUGAL_KEYS, TOP, check_refused
from terminal import END, LONG_PAUSE, PAUSE, START, STOP_AND_CONTINUE, Terminal

LIMIT = 1 << 20
MODES = {1003, 1006, 2004}
SIZE = "size 80 x 24"
FOUR_KEYS = ["UpArrow", "Enter", "Function 5", "UpArrow ctrl"]
TWO_REPORTS = ["mouse at 3, 4, buttons 2", "mouse at 3, 4, buttons 0"]
# What is typed, and the lines that it prints.
TYPED = b"a\xc3\xa9\033[A\r\033[15~\033[1;5A\x03\x1a\033[<0;3;4M\033[<0;3;4m" + START + b"q\r" + END
LINES = ["Char U+0061", "Char U+00E9", *FOUR_KEYS, "Char U+0063 ctrl", "Char U+007A ctrl"]
LINES += [*TWO_REPORTS, "paste of 2 bytes"]


class Live(Terminal):
    FIRST = "q ends"
    SWITCH = re.compile(rb"\033\[\?\d+[hl]")

    def quit(self, *lines):
        """Ends it by q."""
        self.send(b"q")
        self.ends_with(*lines, "Char U+0071")


PROGRAMS = {"c": "live", "rust": "live", "python": "live", "tokio": "stream", "mio": "mio"}


@pytest.fixture(scope="session", params=PROGRAMS.items(), ids=PROGRAMS)
def program(request, example):
    return example(*request.param)


@pytest.fixture
def start(program, on_terminal):
    return lambda *words, **how: on_terminal(Live([*program, *words], **how))


def test_events(start):
    """Twice, with a stop and a new size between."""
    live = start("--mouse", erase=b"\b")
    for _ in range(2):
        live.play([TYPED, "paste of 2 bytes\r\n", b"\b", "Backspace\r\n", (100, 40)])
        live.play(["size 100 x 40\r\n", (80, 24), f"{SIZE}\r\n", *STOP_AND_CONTINUE, f"{SIZE}\r\n"])
        assert live.is_raw()
    live.quit(*[*LINES, "Backspace", "size 100 x 40", SIZE, SIZE] * 2)


@pytest.mark.parametrize("number", [signal.SIGTERM, signal.SIGINT], ids=lambda it: it.name)
def test_signal(start, number):
    live = start("--mouse")
    live.play([b"a", "Char U+0061\r\n", number])
    live.ends_with("Char U+0061", status=-number)


@pytest.mark.parametrize("word", ["", "--mouse"])
def test_modes(start, word):
    """Bracketed paste is always on."""
    live = start(*word.split())
    assert live.modes() == (MODES if word else {2004})
    live.quit()


@pytest.mark.timed
@pytest.mark.parametrize("pause", [0.0, PAUSE, LONG_PAUSE])
def test_paste_over_the_limit(start, pause):
    """A part of it is handled as soon as it is over the limit, and none of it is a key."""
    live, text, lines = start(), b"q" * (LIMIT + LIMIT // 2), []
    for _ in range(2):
        live.send(START + text)
        live.expect(rb"(part of a paste, (\d+) bytes)\r\n")
        line, taken = live.match[1].decode(), int(live.match[2])
        assert LIMIT < taken < LIMIT + 65536
        live.play([pause, b"rm -rf ~\rq\033", pause, b"[201~x"])
        rest = len(text + b"rm -rf ~\rq") - taken
        lines += [line, f"paste of {rest} bytes", "Char U+0078"]
    live.quit(*lines)


# The words behind each program.
PROGRAMS = {"c live": [], "c ask": [], "rust live": [], "rust ask": [], "python live": []}
PROGRAMS |= {"python ask": [], "keys": [], "rust relay": ["sleep", "1000"]}
PROGRAMS |= dict.fromkeys(["c edit", "rust edit", "python edit"], [TOP / "docs/edit.keys"])


@pytest.mark.parametrize("name, more", PROGRAMS.items(), ids=PROGRAMS)
@pytest.mark.parametrize("number", [signal.SIGHUP, signal.SIGTERM], ids=lambda it: it.name)
def test_signal_while_nobody_reads(example, name, more, number):
    """Each program on a terminal ends soon, although its output blocks."""
    words = [HEDRUGAL_KEYS] if name == "keys" else example(*name.split())
    with Terminal([*words, *more], is_stopped=True) as terminal:
        terminal.wait_for_raw()
        time.sleep(PAUSE)
        terminal.kill(number)
        assert terminal.told.poll(5)
        terminal.check_end(-number)


REFUSED = {
    "no terminal": ([], 1, "live: standard input and output have to be a terminal"),
    "an unknown word": (["--foo"], 2, r"usage: live \[--mouse\]"),
}


@pytest.mark.parametrize("words, status, says", REFUSED.values(), ids=REFUSED)
def test_without_terminal(program, words, status, says):
    check_refused([*program, *words], status, rf"{says}.*\n")
