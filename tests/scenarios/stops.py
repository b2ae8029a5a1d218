"""Signals, children, and programs that have the terminal meanwhile."""
import re
from signal import SIGABRT, SIGCONT, SIGHUP, SIGINT, SIGQUIT, SIGSEGV, SIGSTOP, SIGTERM, SIGTSTP
from signal import SIGWINCH

from terminal import CONTINUE, END, LONG_PAUSE, PAUSE, START, STOP, Terminal, start_output, took

from scenarios.program import Program, continue_with, kill_child, stop_by
from scenarios.program import wait_for_state_of_child
from scenarios.questions import BACKGROUND, BACKGROUND_TOLD, SHOW_LINE
from scenarios.row import BACK, BUSY, CTRL_F3, CTRL_UP, LAYERS, SIZE_BACK, STOP_AND_CONTINUE, UP
from scenarios.row import Row, ended_by, in_time, key, press, stop_and_continue

BACK_AND_OPEN = [*BACK, Program.check_open]
# A shell sets the terminal as it likes while it is stopped.
BY_A_SHELL = {"SIGTSTP": Program.stop, "SIGSTOP": stop_by(SIGSTOP)}
HEARS_AT_ONCE = dict.fromkeys(["c", "rust"], "Python heeds no signal until system() returns")
WAIT_FOR_LINE = "echo waits; read -r line"
LEND_AND_WAIT = [*press("l"), "waits"]
TAKE_BACK = [b"\n", "lent 0", *BACK_AND_OPEN]
NO_ECHO = {"echoes": False}
FORK = [*press("p"), Program.expect_forked]
OPEN_AND_READ = [Program.check_open, *press("w")]
BEGINNINGS = {
    "ESC": b"\033",
    "ESC and a bracket": b"\033[",
    "OSC": b"\033]1",
    "a part of a character": b"\xc3",
}


def check_flags(it):
    """They are on once more than off."""
    assert it.output.count(b"\033[>1u") == it.output.count(b"\033[<u") + 1
    assert not re.search(rb"\033\[[?>]?\d*[cn]|\033\[\?u", it.output)


def stopped_by(name, stop):
    """The rows of a stop within something, while a shell has the terminal."""

    def stopped(begun):
        return [b"w" + begun, key("w"), stop, CONTINUE, *BACK]

    return {
        # A second after the resumption or the last byte it ends. Later ones have no limit.
        f"{name} in a paste without an end": in_time(
            [*stopped(START + b"ab"), 0.7, b"c", 0.7, Program.start_clock, 'paste "abc"']
            + [took(0.1, 0.8), START + b"ab", LONG_PAUSE, b"cd" + END, 'paste "abcd"', *press("w")]
        ),
        # Its rest belongs to it.
        f"{name} in a string": in_time(
            [*stopped(BACKGROUND[:9]), PAUSE, BACKGROUND[9:], BACKGROUND_TOLD]
        ),
        # It is cut off after a second.
        f"{name} in a string without an end": in_time(
            [*stopped(BACKGROUND[:9] + b"\033"), Program.start_clock, 'osc cut "11;rgb:"']
            + [took(0.8, 1.6), *press("w")]
        ),
    } | {
        # It is forgotten. The program is busy, so no limit ends it before.
        f"{name} behind {what}": in_time(
            [b"k" + begun, key("k"), "busy", stop, CONTINUE, *BACK, *press("D")]
        )
        for what, begun in BEGINNINGS.items()
    }


ROWS = {
    **{
        f"{it.name} in a paste": in_time(
            [b"w" + START + b"\ra", key("w"), *stop_and_continue(it) * 2, PAUSE]
            + [b"\rb" + END, r'paste "\ra\rb"']
        )
        for it in (SIGCONT, SIGSTOP, SIGTSTP)
    },
    **stopped_by("SIGTSTP", BY_A_SHELL["SIGTSTP"]),
    **stopped_by("SIGSTOP", BY_A_SHELL["SIGSTOP"]),
    **{
        f"{it.name} alone in a string": in_time(
            [b"w" + BACKGROUND[:9], key("w"), *[continue_with(it)] * 2, PAUSE]
            + [BACKGROUND[9:], BACKGROUND_TOLD]
        )
        for it in (SIGCONT, SIGSTOP)
    },
    "SIGSTOP and what Backspace sends": Row(
        [b"\b\x7f\n", "key Backspace NONE", key("\x7f"), key("\n"), stop_by(SIGSTOP), CONTINUE]
        + BACK,
        how={"erase": b"\b"},
        layers=LAYERS,
    ),
    # They are switched on and off, and nothing is asked. Keys are read in each form.
    "flags of Kittys protocol": Row(
        [b"\x03\033[99;5u\033[1;9A\033[1;5R\033[?1u", *["key U+0063 CTRL"] * 2, "key UpArrow SUPER"]
        + [CTRL_F3, "flags 1", *STOP_AND_CONTINUE, stop_by(SIGSTOP), CONTINUE, *BACK]
        + [b"\x03\033[99;5u", *["key U+0063 CTRL"] * 2, check_flags],
        words=["kitty"],
    ),
    **{
        f"{number.name} in a sequence": in_time(
            [b"w\033[1;5", key("w"), *stop_and_continue(number), b"A", told]
        )
        for number, told in [(SIGCONT, CTRL_UP), (SIGSTOP, CTRL_UP), (SIGTSTP, key("A"))]
    },
    "SIGTSTP in a character": in_time([b"w\xc3", key("w"), *STOP_AND_CONTINUE, *press("v")]),
    # Bytes that came meanwhile go first, since they may complete it.
    "a key that is due after a stop": in_time(
        [b"w\033[1;5", key("w"), *STOP, b"A", LONG_PAUSE, CONTINUE, CTRL_UP]
    ),
    "typed while it is stopped": Row([Program.stop, b"w", CONTINUE, *BACK, key("w")], how=NO_ECHO),
    "SIGSTOP while a shell sets the terminal": Row(
        [stop_by(SIGSTOP), CONTINUE, *BACK_AND_OPEN], words=["", "mouse screen"], layers=LAYERS
    ),
    "SIGTSTP": Row(
        [Program.stop, Program.check_restored, CONTINUE, *BACK_AND_OPEN],
        words=["", "own", "mouse screen focus"],
        layers=LAYERS,
    ),
    "SIGTSTP and a new size": Row(
        [Program.stop, (90, 30), CONTINUE, "resumed", "resized 30 90 0 0", *SIZE_BACK],
        words=["", "own", "device"],
        layers=LAYERS,
    ),
    "SIGSTOP and a new size": Row(
        [*STOP, (90, 30), SIGWINCH, CONTINUE, "resized 30 90 0 0", *SIZE_BACK], layers=["asyncio"]
    ),
    # Raw mode comes back at once.
    "SIGTSTP where no shell could continue it": Row(
        [SIGTSTP, *BACK_AND_OPEN], how={"is_orphaned": True}, layers=LAYERS
    ),
    # A program in the background that sets the terminal is stopped.
    "SIGCONT in the background": Row(
        [Program.stop, SIGCONT, Terminal.wait_for_stop, Program.check_restored]
        + [CONTINUE, *BACK_AND_OPEN],
        layers=LAYERS,
    ),
    "a signal that is ignored": Row([SIGTERM, SIGHUP, *press("w")], before='trap "" TERM HUP'),
    "a lent terminal": Row(
        [*press("l"), "icanon", Program.check_restored, b"hello\n", "line hello", "lent 0"]
        + [*BACK_AND_OPEN, *press("l"), "icanon", (75, 20), b"\n", "line ", "lent 0"]
        + ["resumed", "resized 20 75 0 0", Program.check_open, *SIZE_BACK],
        words=["", "own", "device", "mouse screen"],
        command=SHOW_LINE,
        how=NO_ECHO,
        layers=["bare"],
    ),
    # What came before is told, once the program knows that the terminal is back.
    **{
        f"lent after {name}": Row(
            [b"l" + before, key("l"), "icanon", b"hello\n", "line hello", "lent 0", *BACK]
            + [*told, Program.check_open, after, last],
            command=SHOW_LINE,
            how=NO_ECHO,
        )
        for name, before, told, after, last in [
            ("a beginning", b"\033[", [], b"A", key("A")),
            ("a part of a character", b"\xc3", [], b"A", key("A")),
            ("a paste", START + b"a\r", [], b"cd" + END, r'paste "a\rcd"'),
            ("a string", BACKGROUND[:9], [], BACKGROUND[9:], BACKGROUND_TOLD),
            ("keys", b"wy", [key("w"), key("y")], b"v", key("v")),
            ("a key and a paste", b"w" + START + b"ab", [key("w")], b"c" + END, 'paste "abc"'),
        ]
    },
    # They are for the child, and other signals do at once what they ask for.
    "SIGINT and SIGQUIT while it is lent": Row(
        [*LEND_AND_WAIT, SIGINT, SIGQUIT, *TAKE_BACK], command=WAIT_FOR_LINE, how=NO_ECHO
    ),
    "SIGTSTP while it is lent": Row(
        [*LEND_AND_WAIT, SIGTSTP, Terminal.wait_for_stop, CONTINUE, *TAKE_BACK],
        command=WAIT_FOR_LINE,
        how=NO_ECHO,
        only=HEARS_AT_ONCE,
    ),
    "SIGTERM while it is lent": ended_by(
        SIGTERM, LEND_AND_WAIT, command=WAIT_FOR_LINE, only=HEARS_AT_ONCE
    ),
    "a lent terminal whose settings are changed": Row(
        [*press("l"), "erase = ^H", Program.check_restored, b"text\n", "got text", "lent 0"]
        + [*BACK_AND_OPEN, b"\b", "key Backspace NONE"],
        command="stty -a | grep -o 'erase = ^H'; read -r line; stty erase y; echo got $line",
        how={"erase": b"\b", "echoes": False},
    ),
    "a child that changes the settings": Row(
        end=[*press("c"), "child 0", b"q\n", key("q")], command="stty sane -echo erase x kill y"
    ),
    "descriptors of a child": Row(
        [*press("c"), "4", "child 0"], command="ls /proc/self/fd | wc -l"
    ),
    "a second terminal": Row([*press("2"), "refused", *OPEN_AND_READ]),
    "a forked child": Row([*press("f"), "child 5", *OPEN_AND_READ]),
    # They do to it what they do to any program, and its end leaves the terminal alone.
    **{
        f"a forked child and {number.name}": Row(
            [*FORK, kill_child(SIGTSTP), wait_for_state_of_child("T"), kill_child(SIGCONT)]
            + [wait_for_state_of_child("S"), kill_child(number), f"child -{number.value}"]
            + OPEN_AND_READ
        )
        for number in (SIGTERM, SIGHUP, SIGABRT)
    },
    # Another program has set the terminal. The child doesn't set it again, and its parent does.
    "SIGCONT to a forked child": Row(
        [*FORK, Program.set_as_before, kill_child(SIGCONT), PAUSE, kill_child(SIGTERM)]
        + ["child -15", Program.check_settings, SIGCONT, *BACK_AND_OPEN],
        is_timed=True,
    ),
    "a forked child and SIGSEGV": Row(
        [*FORK, kill_child(SIGSEGV), "child -11", *OPEN_AND_READ],
        only=dict.fromkeys(
            ["c", "python"], "in Rust a handler of std's takes the first for its own"
        ),
    ),
    "errno": Row(
        [*press("e"), "errno 0", "resized 24 80 0 0"],
        only={"c": "in Rust no call fails in a handler that notes a signal"},
    ),
    "a handler that is set meanwhile": Row(
        [*press("w")],
        words=["inside"],
        only={"c": "Python has its case in test_python_terminal"},
    ),
    "an opening that fails": Row([*press("w"), Program.check_open], words=["retry"]),
    # What switches modes is written whole.
    "SIGTSTP while the output is stopped": Row(
        [*press("w"), Terminal.stop_output, SIGTSTP, PAUSE, start_output]
        + [Terminal.wait_for_stop, Program.check_restored, CONTINUE, *BACK_AND_OPEN],
        how={"blocks": False},
    ),
    "bytes and a signal while it is busy": Row(
        [*BUSY, b"\033[A", (90, 30), "resized 30 90 0 0", UP, *SIZE_BACK], is_timed=True
    ),
}
