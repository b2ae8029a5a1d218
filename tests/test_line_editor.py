"""prompt_toolkit's line editor over the input of hedrugal.prompt_toolkit, on a pseudo-terminal."""
import re
import signal
import subprocess
import sys

import pytest
from conftest import SECONDS, TOP
from terminal import CONTINUE, END, START, STOP, Terminal

PROGRAM = """
import sys
from hedrugal.prompt_toolkit import Input
from prompt_toolkit import PromptSession
from prompt_toolkit.completion import WordCompleter
from prompt_toolkit.history import InMemoryHistory

words = WordCompleter(["alpha", "alphabet", "beta"])
history = InMemoryHistory(["first", "second line"])
session = PromptSession(
    "> ", input=Input(), history=history, completer=words, complete_while_typing=False, **{how}
)
while True:
    try:
        print("got", ascii(session.prompt()), flush=True)
    except (EOFError, KeyboardInterrupt) as error:
        print("raised", type(error).__name__, flush=True)
        break
"""
UP = b"\033[A"
# Nothing follows, so it is the key.
ESCAPE = [b"\033", 0.3]
# What is typed, as bytes and pauses; then the lines that the program gets.
EMACS = {
    "text": ([b"a b\xc3\xa9"], ["a bé"]),
    "keys of a line": ([b"bc\033[Ha\033[Fd\033[D\033[3~"], ["abc"]),
    "keys with Ctrl": ([b"bc\001a\005d\002\010"], ["abd"]),
    "a word back and forth": ([b"one two\033bX\033[1;5DY\033fZ"], ["one YXtwoZ"]),
    "history": ([UP, UP], ["first"]),
    "a search of the history": ([b"\022sec", 0.2, b"\r"], ["second line"]),
    "completion": ([b"be\t", "ta"], ["beta"]),
    "a menu of completions": ([b"al\t", "pha", b"\t", "alphabet", b"\033[B"], ["alphabet"]),
    "a paste": ([START + b"one\rtwo\033[A" + END], ["one\ntwo\x1b[A"]),
    "a paste, cut by a pause": ([START + b"on\033", 0.3, b"[De" + END], ["on\x1b[De"]),
    "an arrow, cut by a pause": ([b"ab\033[1;", 0.7, b"5Dc"], ["cab"]),
    "a position of the cursor": ([b"a\033[1;5Rb"], ["ab"]),
    "undo": ([b"a b\027\037"], ["a b"]),
    "characters as sequences": ([b"a\033[98u\033[27;1;99~\033Oq"], ["abc1"]),
    "pastes in parts": (
        [START + b"on", 0.1, b"e" + END + START + b" t", 0.1, b"wo" + END],
        ["one two"],
    ),
    "focus and mouse": ([b"a\033[I\033[<0;3;4M\033[<0;3;4m\005b"], ["ab"]),
}
VI = {
    "insert": ([b"abc"], ["abc"]),
    "Escape and commands": ([b"one two", *ESCAPE, b"0cethree", *ESCAPE, b"$aX"], ["three twoX"]),
    "replace": ([b"abc", *ESCAPE, b"r\xc3\xa9"], ["abé"]),
    "history": ([*ESCAPE, b"kk"], ["first"]),
    "a paste": ([START + b"one\rtwo" + END], ["one\ntwo"]),
    "Escape of Kitty's protocol": ([b"abc\033[27u0x"], ["bc"]),
    "Escape and an arrow at once": ([b"abc\033[D\033[Dx"], ["axbc"]),
}


# Answers the question for the cursor's position, which is written with each prompt.
ANSWER = ["\033[6n", b"\033[1;1R", "\033[?25h"]
LINE = re.compile(rb"(?:got|raised) [^\r\n]*")


@pytest.fixture
def prompt(on_terminal):
    """Starts a program, and waits for its prompt."""

    def start(text=PROGRAM.format(how={}), **how):
        words = [sys.executable, "-W", "error", "-c", text]
        return on_terminal(Terminal(words, **how), *ANSWER)

    return start


def check(program, steps, lines, enter=b"\r"):
    """Types a line, and then ends the program."""
    program.play([*steps, enter, "got ", *ANSWER])
    assert program.is_raw()
    program.play([b"\x04", "raised EOFError"])
    program.check_end(0)
    wanted = [f"got {ascii(line)}".encode() for line in lines] + [b"raised EOFError"]
    assert LINE.findall(program.output) == wanted


MODES = [pytest.param({}, *it, id=f"emacs, {name}") for name, it in EMACS.items()]
MODES += [pytest.param({"vi_mode": True}, *it, id=f"vi, {name}") for name, it in VI.items()]


@pytest.mark.timed
@pytest.mark.parametrize("how, steps, lines", MODES)
def test_lines(prompt, how, steps, lines):
    check(prompt(PROGRAM.format(how=how)), steps, lines)


@pytest.mark.parametrize("has_icrnl", [True, False], ids=["ICRNL", "no ICRNL"])
@pytest.mark.parametrize("erase", [b"\x7f", b"\b"], ids=["127", "8"])
@pytest.mark.parametrize("enter", [b"\r", b"\n"], ids=["CR", "byte 10"])
def test_settings(prompt, erase, has_icrnl, enter):
    """The bytes 8 and 127 are Backspace to prompt_toolkit, and CR and 10 end a line."""
    check(prompt(erase=erase, has_icrnl=has_icrnl), [b"abc\b\x7fd"], ["ad"], enter)


def test_pipe():
    """The same if the input is no terminal."""
    words = [sys.executable, "-W", "error", "-c", PROGRAM.format(how={})]
    done = subprocess.run(words, input=b"abc\b\x7fd\nxy\r", capture_output=True, timeout=SECONDS)
    wanted = [b"got 'ad'", b"got 'xy'", b"raised EOFError"]
    assert (done.returncode, LINE.findall(done.stdout)) == (0, wanted)


@pytest.mark.parametrize("number", [signal.SIGCONT, signal.SIGSTOP], ids=lambda it: it.name)
def test_paste_over_a_stop(prompt, number):
    """None of it is typed."""
    stop = [0.1, *(STOP if number == signal.SIGSTOP else [number]), CONTINUE]
    steps = [START + b"one\r", *stop, b"two\r", *stop, 0.1, b"three" + END]
    check(prompt(), steps, ["one\ntwo\nthree"])


def test_listing(prompt):
    """That of docs/python.md."""
    page = (TOP / "docs/python.md").read_text().split("\n### prompt_toolkit\n")[1]
    _, text, _, printed, *_ = re.split(r"^```(?:python)?\n", page, flags=re.M)
    program = prompt(text)
    program.play([b"abc\033[D\177\r", printed.strip()])
    program.check_end(0)


def test_interrupt(prompt):
    program = prompt()
    program.play([b"ab\x03", "raised KeyboardInterrupt"])
    program.check_end(0)


def test_end_of_the_input(prompt):
    """The terminal is gone."""
    program = prompt()
    program.play([*STOP, Terminal.hang_up, signal.SIGCONT])
    program.wait_for_end()
