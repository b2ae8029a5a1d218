"""Programs that ask, c/ask.c and those in rust/plain/examples/ask and python/examples, on a
pseudo-terminal that answers.

Each asks for the position of the cursor, for colours and for the flags of Kitty's keyboard
protocol, and last what the terminal is."""
import re
import signal
import time

import pytest
from conftest import check_refused, run_without_terminal
from terminal import CONTINUE, SECONDS, STOP, Terminal

# The last question, which nearly every terminal answers.
LAST_QUESTION = "\033[c"
POSITION, FLAGS, ATTRIBUTES = b"\033[12;40R", b"\033[?5u", b"\033[?62;22c"
TEXT, GROUND = b"\033]10;rgb:dada/dada/dada\033\\", b"\033]11;rgb:1e1e/1e1e/1e1e\007"
# It would be Ctrl-F3, if the program didn't expect a position.
FIRST_ROW = b"\033[1;5R"
REPLIES = POSITION + TEXT + GROUND + FLAGS + ATTRIBUTES
# Keys that are typed between the replies are no part of them.
WITH_KEYS = [b"q" + POSITION + b"\033[A" + TEXT + b"x", GROUND + FLAGS + ATTRIBUTES]
# What has to be printed of the replies. A program may ask for the colour of the background alone.
ALL = [b"12", b"40", b"rgb:1e1e/1e1e/1e1e", b"5", b"62;22"]
# Replies within a second, the pause before each, what has to be printed of them, and the status.
ANSWERED = {
    "all replies": ([REPLIES], 0, ALL, 0),
    "all replies, byte by byte": ([bytes([it]) for it in REPLIES], 0.002, ALL, 0),
    # A terminal that knows neither colours nor Kitty's protocol.
    "few replies": ([POSITION, ATTRIBUTES], 0, [b"12", b"40", b"62;22"], 0),
    "a cursor in the first row": ([FIRST_ROW, ATTRIBUTES], 0, [b"row 1, column 5", b"62;22"], 0),
    "keys between the replies": (WITH_KEYS, 0, ALL, 0),
    "half of the last reply": ([POSITION, b"\033[?62;"], 0, [b"12", b"40"], 1),
}
# Who owns a clipboard or a title chooses its text, which is no typed command.
COMMAND = b"\rrm -rf ~\r"
CLIPBOARD = b"\033]52;c;" + COMMAND * 10000
INJECTED = {
    "a reply, cut by pauses": ([POSITION[:3], POSITION[3:] + GROUND[:3], GROUND[3:] + FLAGS], 0.15),
    "100 KB of a clipboard and BEL": ([CLIPBOARD + b"\007"], 0),
    "100 KB of a clipboard and ST": ([CLIPBOARD + b"\033\\"], 0),
    "100 KB of a clipboard without an end": ([CLIPBOARD], 0),
    "a title": ([b"\033]l" + COMMAND + b"\033\\"], 0),
    "a device control string": ([b"\033P1$r" + COMMAND + b"\033\\"], 0),
    "urxvt's replies": ([b"\033]10;rgb:0/0/0\033" + GROUND[:-1] + b"\033"], 0),
}


@pytest.fixture(scope="session", params=["c", "rust"])
def program(request, example):
    return example(request.param, "ask")


def asked(program, replies, status, pause=0):
    """Answers the questions by these texts, and returns what was printed."""
    with Terminal(program) as terminal:
        terminal.play([LAST_QUESTION, *(it for text in replies for it in (pause, text))])
        terminal.check_end(status)
        return terminal.before


@pytest.mark.timed
@pytest.mark.parametrize("replies, pause, texts, status", ANSWERED.values(), ids=ANSWERED)
def test_replies(program, replies, pause, texts, status):
    printed = asked(program, replies, status, pause)
    assert [it for it in texts if it not in printed] == [], printed


@pytest.mark.timed
@pytest.mark.parametrize("replies, pause", INJECTED.values(), ids=INJECTED)
def test_nothing_is_typed(program, replies, pause):
    printed = asked(program, [*replies, ATTRIBUTES], 0, pause)
    assert not re.search(rb"a key|typed meanwhile: [1-9]", printed), printed


def test_no_reply(program):
    start = time.monotonic()
    asked(program, [], 1)
    assert time.monotonic() - start >= 0.9


def test_no_terminal(program):
    assert run_without_terminal(program).returncode in (1, 2)


# That in Python asks for the background alone, and waits as long as it is told.
PYTHON_ASKS = "\033[6n\033]11;?\033\\\033[?u\033[c"
ROW_1 = b"\033[1;8R"
OTHER_REPLIES = b"\033]11;rgb:1e1e/1e1e/2e2e\033\\" + FLAGS + ATTRIBUTES
LINES = [
    "cursor: row 1, column 8",
    "background: rgb:1e1e/1e1e/2e2e",
    "keyboard: KittyKeyboardFlags.DISAMBIGUATE_ESCAPE_CODES|REPORT_ALTERNATE_KEYS",
    "attributes: 62;22",
    "typed: 0",
]
SHORT, NO_ANSWER = ["attributes: 6", "typed: 0"], "no answer to the last question in 4 s"
BYTES = [it for byte in ROW_1 + OTHER_REPLIES for it in (bytes([byte]), 0.002)]
CUT = b"\033]11;rgb:1e\r" + b"q" * 70000 + b"\033[?6c"
CONTROLS = b"\033]11;r\red\x08\x0e\x7f\x9b1m\xc2\x9b2m\x07\033[?6c"
CONTROLS_SHOWN = r"background: r\x0ded\x08\x0e\x7f\x9b1m\xc2\x9b2m"
WITH_KEYS_AND_FOCUS = b"q\033[A" + ROW_1 + b"\033[I" + OTHER_REPLIES
HALF = b"\033[24;80R\033[?6"
# What comes, the lines that it prints, and the status. It waits long, if not in vain.
PYTHON = {
    "no reply": ([], ["typed: 0", NO_ANSWER], 1),
    "half of the last reply": ([HALF], ["cursor: row 24, column 80", "typed: 3", NO_ANSWER], 1),
    "all replies": ([ROW_1 + OTHER_REPLIES], LINES, 0),
    "all replies, byte by byte": (BYTES, LINES, 0),
    "the last reply alone": ([b"\033[?6c"], SHORT, 0),
    # No byte of a reply is taken for a key.
    "a string that is cut": ([CUT], SHORT, 0),
    # None of a reply reaches the terminal, as one byte or in UTF-8.
    "control characters": ([CONTROLS], [CONTROLS_SHOWN, *SHORT], 0),
    "keys between the replies": ([WITH_KEYS_AND_FOCUS], [*LINES[:-1], "typed: 2"], 0),
    "SIGTERM": ([signal.SIGTERM], [], -signal.SIGTERM),
    "SIGHUP": ([signal.SIGHUP], [], -signal.SIGHUP),
    # The second comes while the terminal is restored for the first.
    "two signals": ([*STOP, signal.SIGTERM, signal.SIGHUP, CONTINUE], [], -signal.SIGHUP),
}


def asked_by_python(example, steps, status):
    """What it prints of these steps, from raw mode on."""
    python, program = example("python", "ask")
    words = [python, "-W", "error", program, "4" if status == 1 else str(SECONDS)]
    with Terminal(words, erase=b"\x08") as terminal:
        terminal.expect_exact(PYTHON_ASKS)
        assert terminal.before == b"" and terminal.is_raw()
        terminal.play(steps)
        terminal.check_end(status)
        return terminal.before.decode()


@pytest.mark.parametrize("steps, lines, status", PYTHON.values(), ids=PYTHON)
def test_python(example, steps, lines, status):
    printed = asked_by_python(example, steps, status)
    assert printed == "".join(f"{line}\r\n" for line in lines)


def test_interrupt_of_python(example):
    """The modes are restored if the program ends by an exception."""
    printed = asked_by_python(example, [signal.SIGINT], -signal.SIGINT)
    assert "KeyboardInterrupt" in printed


def test_python_without_terminal(example):
    """Nothing is asked."""
    check_refused(example("python", "ask"), 1, r"ask: .*/dev/tty'\n")
