"""The programs that test_python_terminal.py runs on a pseudo-terminal, by their names. What has a
`terminal` runs in the block of one, and shows the events up to q in the end."""
import asyncio
import atexit
import contextlib
import errno
import inspect
import os
import signal
import sys
import termios
import threading
import time
from unittest import mock

from hedrugal import Dialect, EraseByte, KeyReport, KittyKeyboardFlags, MouseTracking, NewlineByte
from hedrugal import ParseError, Parser, Paste, PastePart, Reading, Resized
from hedrugal.terminal import Terminal

Q = KeyReport("q")


def show(*events):
    for event in events:
        print(event.key if isinstance(event, KeyReport) else event, flush=True)


def show_whole(event):
    show(repr(event))


def show_until_q(terminal, show=show):
    for event in terminal:
        show(event)
        if event == Q:
            return


async def show_async(terminal):
    async for event in terminal:
        show(event)
        if event == Q:
            return


@contextlib.contextmanager
def showing(error, says=None):
    try:
        yield
    except error as raised:
        show(says or raised)


@contextlib.contextmanager
def opened(it=None, **options):
    with it or Terminal(**options) as terminal:
        show("ready")
        yield terminal


def lend(terminal):
    with terminal.lend():
        pass


def in_thread(act, *words):
    thread = threading.Thread(target=act, args=words, daemon=True)
    thread.start()
    thread.join()


def plain(options=""):
    with opened(**eval(f"dict({options})")) as terminal:
        show_until_q(terminal)


def thread():
    in_thread(plain)


def sigint(terminal):
    signal.signal(signal.SIGINT, signal.default_int_handler)
    with showing(KeyboardInterrupt, "interrupted"):
        show_until_q(terminal)


def two_at_once():
    with opened() as terminal:
        for other in (Terminal(), terminal):
            with showing(RuntimeError), other:
                show("entered")
        show_until_q(terminal)
    with terminal:
        show("again")
        show_until_q(terminal)


def handler_set_inside():
    def end(*_):
        sys.exit(7)

    with opened() as terminal:
        signal.signal(signal.SIGTERM, end)
        show_until_q(terminal)
    show(signal.getsignal(signal.SIGTERM) is end, signal.getsignal(signal.SIGHUP).name)


def refused_after_a_lend(terminal):
    show(terminal.read())
    lend(terminal)
    interrupted = mock.patch.object(terminal.parser, "interrupted", side_effect=MemoryError)
    with showing(MemoryError, "refused"), interrupted:
        terminal.read(0)


def refused_before_a_lend(terminal, taken):
    def refuse(data, *_):
        raise ParseError(Parser.feed(terminal.parser, data[: int(taken)]), taken == "1")

    for _ in range(2):
        feed = mock.patch.object(terminal.parser, "feed", refuse)
        with showing(ParseError, "refused"), feed:
            terminal.read()
        lend(terminal)
        show("again", *iter(lambda: terminal.read(0), None))
        show(terminal.read())


def refused_memory(terminal, name, takes, is_taken):
    def refuse(*words):
        events = Parser.feed(terminal.parser, *words) if takes == "1" else []
        raise ParseError(events, is_taken == "1")

    for _ in range(2):
        call = mock.patch.object(terminal.parser, name, refuse)
        with showing(ParseError, "refused"), call:
            show_until_q(terminal)


def flood(terminal):
    for _ in range(2):
        replies = terminal.ask(b"", 600)
        count = 0
        while terminal.read() == KeyReport("a"):
            count += 1
        show(len(replies), count)


def interrupted_question(terminal):
    def interrupt(*_):
        raise KeyError

    signal.signal(signal.SIGUSR1, interrupt)
    with showing(KeyError, "interrupted"):
        terminal.ask(b"", 60)


def replies_and_refused_memory(terminal):
    with mock.patch("collections.deque", side_effect=MemoryError), showing(MemoryError, "refused"):
        show(*terminal.ask(b"", 60))


def question_and_refused_memory(terminal):
    def refuse(data):
        if b"c" in data:
            raise ParseError([], False)
        return Parser.feed(terminal.parser, data)

    feed = mock.patch.object(terminal.parser, "feed", refuse)
    with showing(ParseError, "refused"), feed:
        show(*terminal.ask(b"", 60))


def thread_that_lends(terminal):
    def act():
        terminal.read()
        with terminal.lend():
            time.sleep(60)

    in_thread(act)


def no_blocking():
    for descriptor in (0, 1):
        os.set_blocking(descriptor, False)
    with Terminal() as terminal:
        terminal.write("ready\n")
        event = terminal.read()
        terminal.write("x" * 300000 + "\n")
        terminal.write(f"{event.key}\n")
        terminal.write(f"{terminal.read().key}\n")


async def cancelled_waits():
    keys = []
    with opened() as terminal:
        while not keys or keys[-1] != Q:
            with contextlib.suppress(asyncio.TimeoutError):
                keys.append(await asyncio.wait_for(terminal.__anext__(), 0.001))
    show("".join(it.key for it in keys))


def long_waits(terminal):
    show(terminal.read(1e9), terminal.read(float("inf")))


def own_reading():
    terminal = Terminal()
    own = Reading(Dialect.TERMWIZ, True, 0, EraseByte.BACKSPACE, NewlineByte.ENTER)
    terminal.parser.reading = own
    with opened(terminal):
        assert terminal.parser.reading == Reading(Dialect.TERMWIZ, x10_mouse=True)
        show_whole(terminal.read())
        terminal.parser.reading = Reading(x10_mouse=True)
        show_until_q(terminal, show_whole)
        assert terminal.parser.reading == Reading(x10_mouse=True)


def slow_handler():
    signal.signal(signal.SIGUSR1, lambda *_: time.sleep(1.5))
    plain()


async def task():
    ticks = []

    async def tick():
        while True:
            await asyncio.sleep(0.01)
            ticks.append(time.monotonic())

    ticking = asyncio.ensure_future(tick())
    with opened() as terminal:
        await show_async(terminal)
    ticking.cancel()
    show(len(ticks) > 3)


async def task_that_blocks():
    with Terminal() as terminal:
        asyncio.get_running_loop().call_later(0.3, time.sleep, 0.3)
        show("ready")
        await show_async(terminal)


def kitty():
    flags = KittyKeyboardFlags.DISAMBIGUATE_ESCAPE_CODES
    enter, leave = b"\033[?1049h", b"\033[?1049l"
    with opened(kitty=flags, modify_other_keys=2, enter=enter, leave=leave) as terminal:
        show_until_q(terminal, show_whole)


def pipe():
    os.dup2(os.pipe()[0], 0)
    plain()


def settings_that_change():
    terminal, before, erases = Terminal(), termios.tcgetattr(0), []
    for character in (b"\x7f", b"\b", b"\x7f", b"\b"):
        settings = termios.tcgetattr(0)
        settings[6][termios.VERASE] = character
        termios.tcsetattr(0, termios.TCSANOW, settings)
        with terminal:
            erases.append(terminal.parser.reading.erase.name)
    with opened(terminal):
        show(*erases)
        show_until_q(terminal)
    termios.tcsetattr(0, termios.TCSANOW, before)


def long_paste(terminal):
    show(terminal.parser.parts)
    terminal.parser.parts = 10000
    for text in ["q\033" * 50000, "a" * 15000]:
        parts = []
        while not parts or isinstance(parts[-1], PastePart):
            parts.append(terminal.read())
        assert len(parts) > 1 and isinstance(parts[-1], Paste)
        assert "".join(it.text for it in parts) == text
        show(max(len(it.text) for it in parts) < 20000)


def exit_with_a_function():
    with opened(mouse=MouseTracking.ANY) as terminal:
        show(terminal.read())
        atexit.register(print)
        sys.exit(3)


def no_end_of_the_block():
    global terminal
    terminal = Terminal(mouse=MouseTracking.ANY).__enter__()
    show("ready")
    show(terminal.read())


def own_handler(number):
    def end(*_):
        sys.exit(7)

    signal.signal(int(number), end)
    try:
        plain("mouse=MouseTracking.ANY")
    finally:
        show(signal.getsignal(int(number)) is end, signal.getsignal(signal.SIGWINCH).name)


def lend_once(terminal):
    terminal.read()
    lend(terminal)


def enter_again():
    signal.signal(signal.SIGINT, signal.default_int_handler)
    terminal = Terminal()
    with contextlib.suppress(KeyboardInterrupt), opened(terminal):
        terminal.read()
    show("left")
    sys.stdin.readline()
    with terminal:
        show_until_q(terminal)


def count_keys(count):
    signal.signal(signal.SIGUSR1, lambda *_: None)
    with opened() as terminal:
        wanted = [KeyReport(chr(97 + at % 16)) for at in range(int(count))]
        keys, sizes = [], 0
        for event in terminal:
            if event == Q:
                break
            if isinstance(event, Resized):
                sizes += 1
            else:
                keys.append(event)
            if len(keys) % 1000 == 0:
                terminal.write("." * 1000)
    print("\n", keys == wanted, sizes > 0, flush=True)


def long_write(terminal):
    terminal.read()
    terminal.write("x" * 300000)


def gone(file):
    signal.signal(signal.SIGHUP, signal.SIG_IGN)
    with opened() as terminal:
        show(terminal.read())
        events = [*terminal]
        assert terminal.ended and terminal.read() is None
        for write, text in ((terminal.write, "more"), (terminal.ask, b"")):
            try:
                write(text)
            except OSError as error:
                events += [error.errno == errno.EIO, terminal.timeout()]
    with open(file, "w") as told:
        print(events, file=told)


def not_a_terminal(file):
    told, output = [], os.open(file, os.O_CREAT | os.O_WRONLY)
    for options in (
        {"output": output},
        {"input": os.open("/dev/null", os.O_RDONLY)},
        {"input": 99},
    ):
        try:
            with Terminal(**options):
                told.append("entered")
        except OSError as error:
            told.append(error.errno == errno.ENOTTY)
    with opened() as terminal:
        show(*told)
        show_until_q(terminal)


def thread_that_reads(terminal):
    terminal.ask(b"", 0.01)
    in_thread(show_until_q, terminal)


def main(name, *words):
    program = globals()[name]
    if inspect.iscoroutinefunction(program):
        asyncio.run(program())
    elif "terminal" in inspect.signature(program).parameters:
        with opened() as terminal:
            program(terminal, *words)
            show_until_q(terminal)
    else:
        program(*words)


main(*sys.argv[1:])
