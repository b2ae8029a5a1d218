"""What a program's terminal promises, as tests/scenarios/README.md has it: each row of the table
over the programs of all languages, on a pseudo-terminal."""
import functools
import signal
import sys

import pytest
from conftest import TOP
from scenarios import ROWS
from scenarios.program import Program
from scenarios.row import LAYERS
from terminal import Terminal

LANGUAGES = ["c", "rust", "python"]


@pytest.fixture(scope="session")
def words_of(example, compiled):
    """The words that run a language's program."""

    @functools.cache
    def words(language):
        if language == "rust":
            return example("rust", "scenarios")
        if language in ["tokio", "mio"]:
            return example("tokio,mio", "scenarios")
        if language in ["python", "asyncio"]:
            return [sys.executable, "-W", "error", str(TOP / "python/scenarios.py")]
        sources = [TOP / "c/scenarios.c", TOP / "c/hedrugal_terminal.c"]
        wrapped = [f"-Wl,--wrap={call}" for call in ("malloc", "realloc", "free", "poll")]
        return [compiled("scenarios", "c99", *wrapped, *sources)]

    return words


def cases():
    for name, row in ROWS.items():
        for language in row.only or LANGUAGES + row.layers:
            for words in row.words[: 1 if language in LAYERS else None]:
                case = "-".join(filter(None, [name, words, language])).replace(" ", "_")
                marks = [pytest.mark.timed] * row.is_timed
                yield pytest.param(row, words, language, id=case, marks=marks)


def layer_of(language):
    return language if language in LAYERS else ""


@pytest.mark.parametrize("row, words, language", cases())
def test_row(words_of, row, words, language):
    program = [*words_of(language), f"{words} {layer_of(language)}".strip(), row.command]
    if row.before:
        program = ["sh", "-c", f'{row.before}; exec "$0" "$@"', *program]
    steps = row.played()
    with Program(program, words, **row.how) as terminal:
        terminal.play([*row.ahead, "begun\r\n", Program.check_open])
        terminal.play(f"{it}\r\n" if is_line(it) else it for it in steps)
        terminal.end_with(row.status_of(language), row.left)
        assert terminal.lines() == ["begun", *filter(is_line, steps)]


def is_line(step):
    """Other texts are what switches modes, and what asks."""
    return isinstance(step, str) and not step.startswith("\033")


@pytest.mark.parametrize("language", LANGUAGES + LAYERS)
@pytest.mark.parametrize("before", ["true", 'trap "" HUP'])
def test_terminal_that_is_gone(words_of, language, before):
    """The input ends. SIGHUP may come before the program sees that, and a line that it prints then
    is an error in Rust and Python."""
    program = [*words_of(language), layer_of(language), "true"]
    words = ["sh", "-c", f'{before}; exec "$0" "$@"', *program]
    statuses = {0} if language in ["c", "bare"] else {0, 1}
    with Terminal(words) as terminal:
        terminal.play(["begun\r\n", Terminal.hang_up])
        assert terminal.wait_for_end() in statuses | (
            {-signal.SIGHUP} if before == "true" else set()
        )


@pytest.mark.parametrize("number", [signal.SIGTERM, signal.SIGSEGV], ids=lambda it: it.name)
def test_signal_while_nobody_reads(words_of, number):
    """It ends soon, although its output blocks, and the settings are restored."""
    with Terminal([*words_of("c"), "", "true"], is_stopped=True) as terminal:
        terminal.play([Terminal.wait_for_raw, number])
        assert terminal.told.poll(30)
        terminal.check_end(-number)


def test_output_that_cannot_be_written(words_of):
    """The program is told."""
    words = ["sh", "-c", 'exec "$0" "$@" > /dev/full', *words_of("c"), "device", "true"]
    with Terminal(words) as terminal:
        terminal.check_end(0)
