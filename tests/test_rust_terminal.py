"""What only the Rust package's module for terminals has, on a pseudo-terminal: the guard alone,
what a program tells it, and programs over other crates. tests/scenarios has the rest."""
import contextlib
import signal

import pytest
from conftest import TOP
from scenarios.program import Program, stop_by
from scenarios.questions import ATTRIBUTES, ATTRIBUTES_TOLD, POSITION, QUESTION
from scenarios.row import key, press
from terminal import CONTINUE, END, ENDING_SIGNALS, PAUSE, STOP_AND_CONTINUE
from terminal import Terminal, start_output
from test_live import Live

# Sets the terminal of the program so that a read of nothing fails at once.
NO_WAIT = "python3 -c 'import os; os.set_blocking(0, False)'"
stopped = pytest.mark.parametrize(
    "number", [signal.SIGTSTP, signal.SIGSTOP], ids=lambda it: it.name
)


class Guard(Terminal):
    FIRST = "q ends"

    def check_raw(self):
        self.wait_for_raw()
        self.wait_for(lambda: self.modes() == self.turned_on, "modes")

    def play_to_end(self, steps):
        """It ends by q behind these steps."""
        self.play([*steps, b"q"])
        self.check_end(0)


@pytest.fixture
def start(example, on_terminal):
    """Starts the program over the guard alone."""

    def run(word="", **how):
        guard = Guard([*example("rust", "guard"), word], **how)
        guard.turned_on = {2004} if word == "plain" else {1003, 1004, 1006, 1049, 2004}
        on_terminal(guard).check_raw()
        return guard

    return run


def test_guard(start):
    start().play_to_end([b"a\x03\r", "byte 97\r\n", "byte 3\r\n", "byte 13\r\n"])


@pytest.mark.parametrize("number", ENDING_SIGNALS, ids=lambda it: it.name)
def test_guard_and_a_signal(start, number):
    """The guard acts on it at once."""
    start().end_by(number)


@stopped
def test_guard_and_a_stop(start, number):
    start().play_to_end([stop_by(number), CONTINUE, Guard.check_raw] * 2)


def test_guard_continued_where_nobody_had_the_terminal(start):
    guard = start()
    guard.play_to_end([*[signal.SIGCONT] * 20, b"a", "byte 97\r\n"])
    assert guard.output.count(b"\033[?2004h") == 1


@pytest.mark.timed
def test_guard_stopped_while_keys_come(start):
    """A thread reads, and no read fails, although a handler writes what must not wait."""
    once = [b"abc", signal.SIGTSTP, Terminal.wait_for_stop, CONTINUE, Terminal.wait_for_raw, 0.01]
    start("thread").play_to_end([*once * 100, Guard.check_raw])


def test_guard_where_no_shell_could_continue_it(start):
    start(is_orphaned=True).play_to_end([signal.SIGTSTP, "\033[?2004h", Guard.check_raw])


def test_guard_ended_while_it_is_stopped(start):
    """A shell has the terminal: a program that set it now would be stopped once more."""
    guard = start()
    guard.stop()
    guard.end_by(signal.SIGTERM, signal.SIGCONT)


def test_guard_and_blocked_output(start):
    """What the guard can't write is left out. The settings are restored, and the program ends."""
    guard = start()
    guard.play([Terminal.stop_output, b"x" * 100, signal.SIGTERM])
    guard.check_end(-signal.SIGTERM, has_output=False)


def test_guard_whose_handler_fails(example):
    """It keeps errno, as the program was in the middle of a call."""
    with Terminal([*example("rust", "guard"), "errno"]) as terminal:
        terminal.play(["q ends, errno 0\r\n", b"q"])
        terminal.check_end(0)


def check_left_at_stop(guard, left):
    """It stops while the program is in a write, and so much is left for the shell."""
    guard.play([Terminal.stop_output, b"xls\r", PAUSE, signal.SIGTSTP, Terminal.wait_for_stop])
    assert guard.left() == left
    guard.kill(signal.SIGKILL)
    guard.wait_for_end()


@pytest.mark.parametrize("word, left", [("plain", b"ls\r"), ("", b"")], ids=["plain", "mouse"])
def test_typed_ahead_at_a_stop_of_the_guard(start, word, left):
    """Its handler reads nothing: a mouse report may come, or all is kept."""
    check_left_at_stop(start(word), left)


def test_reply_that_is_owed_at_a_stop_of_the_guard(start):
    """It is discarded there, and so it isn't owed at the next stop."""
    guard = start("plain")
    guard.play([b"o", "byte 111\r\n"])
    check_left_at_stop(guard, b"")
    guard = start("plain")
    guard.play([b"o", "byte 111\r\n", *STOP_AND_CONTINUE, Guard.check_raw])
    check_left_at_stop(guard, b"ls\r")


def test_guards_dropped_while_signals_come(example):
    """Each leaves the terminal as it was."""
    with Terminal([*example("rust", "guard"), "storm"]) as terminal:
        terminal.expect_exact("q ends")
        with contextlib.suppress(ProcessLookupError):
            while True:
                terminal.kill(signal.SIGCONT)
        terminal.expect_exact("\r\n0 left raw\r\n")
        terminal.check_end(0)


@pytest.fixture
def start_program(example, on_terminal):
    """Starts the program of the scenarios, with its words and its command."""

    def run(words, command="", feature="rust"):
        return on_terminal(Program([*example(feature, "scenarios"), words, command], words))

    return run


def end_by_q(program):
    program.play(press("q"))
    program.check_end(0)


@stopped
def test_modes_of_the_program(start_program, number):
    """What was told to the guard last is turned off before its own modes, and on after them."""
    program, on, off = start_program("focus"), b"\033[?1004h\033[?2031h", b"\033[?2031l\033[?1004l"
    program.play([b"o", f"{key('o')}\r\nown\r\n"])
    assert b"2031" not in program.output
    program.play([stop_by(number), CONTINUE, on.decode()] * 2)
    end_by_q(program)
    assert (program.output.count(on), program.output.count(off)) == (2, 3)
    assert b"told" not in program.output and b"either" not in program.output


@pytest.mark.parametrize("word", ["", "hook"])
def test_panic(start_program, word):
    """With the hook its message comes behind what restores the terminal."""
    program = start_program(f"screen {word}")
    program.send(b"!")
    program.check_end(101)
    is_last = program.output.index(b"a panic") > program.output.index(b"\033[?1049l")
    assert is_last == (word == "hook")


@pytest.mark.parametrize("number", range(2, 10))
def test_question_and_refused_memory(start_program, number):
    """The replies and the other events then come in their order. The bytes of one need memory."""
    program, keys, many = start_program("", str(number)), b"w" * 50, "?1;2;3;4;5;6;7;8;9;10;11$y"
    sent = keys + POSITION + f"\033[{many}y".encode() + ATTRIBUTES
    steps = [b"m", QUESTION, sent, "OutOfMemory\r\n"]
    steps += [*[key("w")] * len(keys), "position 1 5", f'csi "{many}"', key("y"), ATTRIBUTES_TOLD]
    program.play(steps)
    end_by_q(program)


def test_flood_while_asking(start_program):
    """So many events are kept, and the rest stays where it is."""
    program = start_program("")
    program.play([b"b", "\033]11;?\033\\\033[c", b"w" * 70000, "asked: nothing\r\n"])
    program.wait_for(lambda: program.lines().count(key("w")) == 70000, "events")
    end_by_q(program)


@pytest.mark.parametrize("redirected", ["< /dev/null", "> /dev/null", "< /dev/null > /dev/null"])
def test_terminal_of_the_session(example, on_terminal, redirected):
    """Where standard input or output is none, /dev/tty is read or written, by its settings."""
    words = ["sh", "-c", f'"$0" {redirected}', *example("rust", "live")]
    live = on_terminal(Live(words, erase=b"\x08"))
    live.play([b"\x08\x7f", "Backspace\r\nChar U+007F\r\n"])
    live.quit("Backspace", "Char U+007F")


LAYERS = {"terminal": ("rust", "live"), "tokio": ("tokio", "stream"), "mio": ("mio", "mio")}


@pytest.mark.parametrize("layer", LAYERS.values(), ids=LAYERS)
def test_layer_whose_output_would_block(example, on_terminal, layer):
    """The terminal is set so that a write which has to wait fails. The program waits."""
    words = ["sh", "-c", f'{NO_WAIT}; exec "$0" "$@"', *example(*layer)]
    live = on_terminal(Live(words))
    live.play([Terminal.stop_output, b"x" * 100, PAUSE, start_output])
    live.quit(*["Char U+0078"] * 100)


def test_editor_whose_output_would_block(example):
    words = ["sh", "-c", f'{NO_WAIT}; exec "$0" "$@"', *example("rust", "edit")]
    with Terminal([*words, TOP / "docs/edit.keys"]) as edit:
        edit.play([" ends\r\n", Terminal.stop_output, b"ab", PAUSE, start_output])
        edit.play(["text: a|\r\ntext: ab|\r\n", b"\030\003"])
        edit.check_end(0)


@pytest.mark.parametrize(
    "begun, rest, line",
    [
        (b"\033", b"[200~rm -rf ~\rq" + END, r'paste "rm\s-rf\s~\rq"'),
        (b"\033[", b"1;5A", "key UpArrow CTRL"),
    ],
    ids=["ESC", "ESC and ["],
)
def test_stream_of_a_task_that_computes(start_program, begun, rest, line):
    """What came meanwhile is read before what is overdue is flushed."""
    program = start_program("tokio blocks", feature="tokio,mio")
    once = [b"w" + begun, f"{key('w')}\r\nblocked\r\n", rest, f"{line}\r\nblocked\r\n"]
    program.play(["blocked\r\n", *once * 2])
    end_by_q(program)
    assert program.lines().count("blocked") == 5


# What is typed and seen, and the status. The settings are those from before crossterm set them.
CROSSTERM = {
    "keys": ([b"\033[1;5A", "Up", b"\033", "Esc", (60, 20), "Resize", b"q"], 0),
    "a signal": ([b"x", "Char", signal.SIGTERM], -signal.SIGTERM),
    # A shell has those settings meanwhile.
    "a stop": (
        [b"x", "Char", signal.SIGTSTP, Terminal.wait_for_stop, Terminal.check_settings]
        + [CONTINUE, "(80, 24)", b"y", "Char", b"q"],
        0,
    ),
    # The program heeds no signal, as one that has turned raw mode off and reads no more.
    "blocked output": (
        [b"x", "Char", Terminal.stop_output, b"y", PAUSE, signal.SIGTERM],
        -signal.SIGTERM,
    ),
}


@pytest.mark.parametrize("steps, status", CROSSTERM.values(), ids=CROSSTERM)
def test_crossterm(example, steps, status):
    """A program over crossterm whose terminal is read by this package."""
    with Terminal(example("crossterm", "tui")) as tui:
        tui.play(["q", *steps])
        tui.check_end(status, has_output=False)
