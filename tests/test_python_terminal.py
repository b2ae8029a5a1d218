"""What only the module hedrugal.terminal has, by small programs on a pseudo-terminal: exceptions,
asyncio, threads, handlers in Python, and memory that is refused. And the command hedrugal.

No event is lost, and the terminal's settings and modes are restored. What the terminals of all
languages do is in test_scenarios.py."""
import select
import signal
import subprocess
import sys

import hedrugal
import pytest
from conftest import TOP, check_refused
from hedrugal import KeyReport
from hedrugal.__main__ import TracingParser
from pexpect import TIMEOUT
from terminal import END, ENDING_SIGNALS, START, Terminal, start_output


class Program(Terminal):
    FIRST = "ready"


@pytest.fixture
def run(on_terminal):
    """Runs a program of terminal_programs.py."""
    file = str(TOP / "tests/terminal_programs.py")

    def start(name, *words, **how):
        words = [sys.executable, "-W", "error", file, name, *map(str, words)]
        return on_terminal(Program(words, **how))

    return start


UP_KEY = "KeyCode.UP_ARROW"
FLAGS = "KeyboardFlags(flags=KittyKeyboardFlags.DISAMBIGUATE_ESCAPE_CODES, unnamed=0)"
CTRL_C = "KeyReport(key='c', modifiers=KittyModifiers.CTRL)"
ALT_UP, SUPER_UP = (
    f"KeyReport(key={UP_KEY}, modifiers=KittyModifiers.{it})" for it in ("ALT", "SUPER")
)
SIZE = "Resized(size=Size(columns=100, rows=40, width=0, height=0))"
MODE, ATTRIBUTES = "Csi(data=b'?1;2$y')", "Csi(data=b'?62c')"
DIGITS = [it for digit in b"0123456789" * 20 for it in (bytes([digit]), 0.002)]
# Programs, what is typed, and the lines that they show.
SHOWN = {
    # Ctrl-C is a key. A SIGINT from elsewhere is an exception, as ever.
    "sigint": (
        [b"a\x03b", "b\r\n", signal.SIGINT, "interrupted\r\n", b"cq"],
        ["a", "c", "b", "interrupted", "c", "q"],
    ),
    # The second is refused, and the first goes on.
    "two_at_once": (
        [b"a", b"q", "again\r\n", b"bq"],
        [*["a Terminal is entered already"] * 2, "a", "q", "again", "b", "q"],
    ),
    # It stays.
    "handler_set_inside": ([b"q"], ["q", "True", "SIG_DFL"]),
    # A beginning of a sequence counts no more once the call is made again.
    "refused_after_a_lend": ([b"a\033[", "refused\r\n", b"Aq"], ["a", "refused", "A", "q"]),
    # What it was refused for is told first, and a beginning of a sequence counts no more.
    **{
        f"refused_before_a_lend {taken}": (
            [*[b"a\033[", "refused\r\n", "again\r\n", b"A", "A\r\n"] * 2, b"q"],
            [*["refused", "again", "a", "A"] * 2, "q"],
        )
        for taken in (0, 1)
    },
    # A thread may enter it. The signals are then left alone.
    "thread": ([b"aq"], ["a", "q"]),
    # It is given up once so much was typed. The rest stays unread, and nothing is lost.
    "flood": (
        [*["\033[c", b"a" * 100000 + b"b", "0\r\n100000\r\n"] * 2, b"q"],
        [*["0", "100000"] * 2, "q"],
    ),
    # What came until then are events, in their order.
    "interrupted_question": (
        ["\033[c", b"\033[?1;2$ya\033[200~", 0.1, signal.SIGUSR1, "interrupted\r\n", END + b"q"],
        ["interrupted", MODE, "a", "Paste(text='')", "q"],
    ),
    # What the list can't hold are events, in their order.
    "replies_and_refused_memory": (
        ["\033[c", b"a\033[?1;2$yb\033[?62cq"],
        ["refused", "a", MODE, "b", ATTRIBUTES, "q"],
    ),
    # What came until then are events, in their order, and so is what memory was refused for.
    "question_and_refused_memory": (
        ["\033[c", b"a\033[?1;2$yb", 0.1, b"\033[?62cq"],
        ["refused", "a", MODE, "b", ATTRIBUTES, "q"],
    ),
    # The reads and the writes wait all the same.
    "no_blocking": ([b"a", 0.2, "a\r\n", b"b"], ["x" * 300000, "a", "b"]),
    # No event is lost.
    "cancelled_waits": ([*DIGITS, b"q"], ["0123456789" * 20 + "q"]),
    "long_waits": ([b"a", 0.1, b"bq"], ["a", "b", "q"]),
    # It stays, but for what the settings say, also where the terminal tells its own flags.
    "own_reading": (
        [b"\033[1;9A", "ALT)\r\n", b"\033[?1u\033[1;9Aq"],
        [ALT_UP, FLAGS, SUPER_UP, "KeyReport(key='q')"],
    ),
    # What came meanwhile is read first.
    "slow_handler": (
        [*[b"\033[1;", 0.2, signal.SIGUSR1, 0.2, b"5A", "UP_ARROW\r\n"] * 2, b"q"],
        [UP_KEY, UP_KEY, "q"],
    ),
    # Other tasks go on, and the limits and the sizes are those of the loop over events.
    "task": (
        [b"a\033", "KeyCode.ESCAPE\r\n", b"\033[1;", 0.2, b"5A", "UP_ARROW\r\n"]
        + [(100, 40), "Resized", b"q"],
        ["a", "KeyCode.ESCAPE", UP_KEY, SIZE, "q", "True"],
    ),
    # A task computes while the limit passes and the rest comes.
    "task_that_blocks": (
        [0.28, b"\033", 0.15, b"[200~a\r" + END, "Paste", b"q"],
        [r"Paste(text='a\r')", "q"],
    ),
}


KEYS = [sys.executable, "-W", "error", "-m", "hedrugal"]


class Keys(Terminal):
    FIRST = f"hedrugal {hedrugal.__version__}: press keys; ctrl+d twice ends it"


def test_keys(on_terminal):
    """The lines of docs/python.md, and bytes of other kinds."""
    page = (TOP / "docs/python.md").read_text(encoding="utf-8")
    first, *lines = page.partition("types the same -->\n```\n")[2].partition("\n```")[0].split("\n")
    program = on_terminal(Keys(KEYS))
    program.play(
        [b"\033[1;5A\xc3\xa9" + START + b"hi" + END, b"\x04 \033", "escape", b"\t\xff\x04\x04"]
    )
    rest = "ctrl+d ^D space SP escape ESC tab ^I U+FFFD ff ctrl+d ^D ctrl+d ^D".split()
    program.ends_with(*lines, *map("{:16}   {}".format, rest[::2], rest[1::2]))
    assert first == Keys.FIRST


def test_forgotten_bytes_of_keys():
    """They are no bytes of the next key."""
    with TracingParser() as parser:
        assert parser.feed(b"\033[1;") == []
        parser.interrupted()
        assert parser.feed(b"q") == [(KeyReport("q"), b"q")]


def test_words_of_keys():
    check_refused([*KEYS, "-x"], 2, "hedrugal: what is '-x'\\? --help says more\n")
    check_refused(KEYS, 1, "hedrugal: .*/dev/tty.*\n")
    for word in ("-h", "--help"):
        assert "python3 -m hedrugal" in subprocess.check_output([*KEYS, word], text=True)
    said = subprocess.check_output([*KEYS, "--version"], text=True)
    assert said == f"hedrugal {hedrugal.__version__}\n"


# What has to come in time.
TIMED = ["slow_handler", "task", "task_that_blocks"]
CASES = [pytest.param(it, marks=[pytest.mark.timed] * (it in TIMED)) for it in SHOWN]


@pytest.mark.parametrize("words", CASES)
def test_shown(run, words):
    steps, lines = SHOWN[words]
    program = run(*words.split())
    program.play(steps)
    program.ends_with(*lines)


@pytest.mark.timed
@pytest.mark.parametrize("words", ["feed 0 0", "feed 1 1", "idle 0 1"])
def test_refused_memory(run, words):
    """For the bytes, for the events, and for what is due. The same events come, and none twice."""
    program = run("refused_memory", *words.split())
    program.play([b"a\033[A\033", "refused\r\n", "ESCAPE\r\n", b"bq"])
    program.check_end(0)
    shown = [line for line in program.shown() if line != "refused"]
    assert shown == ["a", UP_KEY, "KeyCode.ESCAPE", "b", "q"]


def test_long_paste(run):
    """It comes in parts, and so does the second one."""
    program = run("long_paste")
    program.send(START + b"q\033" * 50000 + END + START + b"a" * 15000 + END + b"q")
    program.ends_with(str(1 << 20), "True", "True", "q")


MODES = {"paste=False": set()}
for name, mode in {"X10": 9, "NORMAL": 1000, "BUTTON": 1002, "ANY": 1003}.items():
    MODES[f"mouse=MouseTracking.{name}, focus=True"] = {2004, 1004, 1006, mode}


@pytest.mark.parametrize("options, modes", MODES.items(), ids=MODES)
def test_modes(run, options, modes):
    program = run("plain", options)
    assert program.modes() == modes
    program.send(b"q")
    program.ends_with("q")
    assert (b"\033" in program.output) == bool(modes)


def test_kitty(run):
    """The flags are pushed, and nothing is asked. Keys are read before and after them."""
    program = run("kitty")
    on, off = b"\033[?1049h\033[?2004h\033[>4;2m\033[>1u", b"\033[<u\033[>4m\033[?2004l"
    assert program.output == on + b"ready\r\n"
    program.send(b"\003\033[1;5R\033[?1u\033[99;5u\033[1;9Aq")
    f3 = "KeyReport(key=Function(number=3), modifiers=KittyModifiers.CTRL)"
    program.ends_with(CTRL_C, f3, FLAGS, CTRL_C, SUPER_UP, "KeyReport(key='q')")
    assert program.output.endswith(off + b"\033[?1049l")


# The settings are those of the terminal of the process if the input is a pipe, and they are read
# each time that the block is entered.
ERASES = {"pipe": [], "settings_that_change": ["DELETE", "BACKSPACE"] * 2}


@pytest.mark.parametrize("name", ERASES)
def test_settings(run, name):
    program = run(name, erase=b"\b")
    program.send(b"\b\x7fq")
    program.ends_with(*ERASES[name], "KeyCode.BACKSPACE", "\x7f", "q")


@pytest.mark.parametrize("name, status", [("exit_with_a_function", 3), ("no_end_of_the_block", 0)])
def test_ways_out(run, name, status):
    program = run(name)
    program.send(b"a")
    program.check_end(status)


@pytest.mark.parametrize("number", ENDING_SIGNALS, ids=lambda it: it.name)
def test_signals_of_the_program(run, number):
    """A handler of the program's own is left alone, and may raise what it likes."""
    program = run("own_handler", number.value)
    program.kill(number)
    program.ends_with("True", "SIG_DFL", status=7)


@pytest.mark.timed
def test_sigtstp_and_sigterm(run):
    """Both come while the terminal is left. It ends, and doesn't stop before."""
    program = run("lend_once")
    program.play([Terminal.stop_output, b"a", 0.2, signal.SIGTSTP, signal.SIGTERM])
    program.check_end(-signal.SIGTERM, has_output=False)


@pytest.mark.timed
@pytest.mark.parametrize("number", [signal.SIGCONT, signal.SIGINT], ids=lambda it: it.name)
def test_signal_while_it_is_left(run, number):
    """The settings are restored, and it may be entered again."""
    program = run("enter_again")
    program.play([Terminal.stop_output, b"a", 0.2, number, 0.2, start_output, "left\r\n"])
    program.play([Terminal.check_settings, b"\n", "\033[?2004h", b"q"])
    program.check_end(0)


def test_signal_while_a_thread_leaves_it(run):
    """The main thread handles it then."""
    program = run("thread_that_lends")
    program.play([Terminal.stop_output, b"a", 0.2, signal.SIGTERM, 0.2, start_output])
    program.check_end(-signal.SIGTERM)


def test_signals_in_the_middle(run):
    """Of a read, of a call of the parser, of a write: nothing is lost."""
    text = bytes(97 + at % 16 for at in range(20000))
    program = run("count_keys", len(text))
    for at in range(0, len(text), 500):
        program.send(text[at : at + 500])
        program.kill(signal.SIGUSR1)
        program.kill(signal.SIGWINCH)
        # Else both could wait for ever, each for the other to read.
        program.expect(TIMEOUT, timeout=0.001)
    program.send(b"q")
    program.check_end(0)
    assert program.lines()[-1].endswith("True True")


@pytest.mark.parametrize("number", [signal.SIGHUP, signal.SIGTERM], ids=lambda it: it.name)
def test_signal_while_output_is_blocked(run, number):
    """Nobody reads what is written. Then it ends soon, and the settings are restored."""
    program = run("long_write")
    program.send(b"a")
    assert select.select([program.child_fd], [], [], 30)[0]
    program.kill(number)
    assert program.told.poll(30)
    program.check_end(-number, has_output=False)


def test_terminal_that_is_gone(run, tmp_path):
    """With SIGHUP ignored the events end, after those of what was buffered. No question stays
    open."""
    program = run("gone", tmp_path / "events")
    program.play([b"a" + START + b"pasted", "a\r\n", Terminal.hang_up])
    assert program.wait_for_end() == 0
    told = (tmp_path / "events").read_text()
    assert told == "[Paste(text='pasted'), True, None, True, None]\n"


def test_not_a_terminal(run, tmp_path):
    """What isn't is refused, and nothing changes."""
    program = run("not_a_terminal", tmp_path / "file")
    program.send(b"q")
    program.ends_with(*["True"] * 3, "q")


@pytest.mark.parametrize("_", range(5))
def test_replies_that_another_thread_reads(run, _):
    """It may get a byte for which the end would wait."""
    program = run("thread_that_reads")
    program.play([b"a", "a\r\n", signal.SIGTERM, "\033[?2004l", b"\033[?62;"])
    program.check_end(-signal.SIGTERM)
