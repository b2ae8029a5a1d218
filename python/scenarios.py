"""The program in Python of tests/scenarios/README.md, which says what its words and keys are.

A word of its own is `asyncio`: the events are awaited there."""
import asyncio
import contextlib
import os
import select
import signal
import sys
import time

from cases import events_line, line_of
from hedrugal import KeyReport, KittyKeyboardFlags, MouseTracking, Resized
from hedrugal.terminal import Resumed, Terminal

WORDS, COMMAND = sys.argv[1].split(), sys.argv[2]
POSITION, BACKGROUND = b"\033[6n", b"\033]11;?\033\\"
# What is asked at a key, and for how many seconds a reply is awaited.
QUESTIONS = {
    "6": (POSITION, 0),
    "9": (POSITION + POSITION + BACKGROUND, 0),
    "t": (POSITION, 1),
    "a": (POSITION, 600),
    "b": (BACKGROUND, 600),
}
DEVICE = os.open("/dev/tty", os.O_RDWR) if "device" in WORDS else None

terminal = Terminal(
    mouse=MouseTracking.ANY if "mouse" in WORDS else None,
    focus="focus" in WORDS,
    kitty=KittyKeyboardFlags(int("kitty" in WORDS)),
    enter=b"\033[?1049h" * ("screen" in WORDS),
    leave=b"\033[?1049l" * ("screen" in WORDS),
    input=DEVICE,
    output=DEVICE,
)


def tell(*lines):
    """Waits where a descriptor doesn't block, as print wouldn't."""
    terminal.write("".join(f"{line}\n" for line in lines))


def size_line(name="resized"):
    return line_of(Resized(terminal.size())).replace("resized", name)


def character_of(event):
    """The character of a key without modifiers."""
    is_command = isinstance(event, KeyReport) and event == KeyReport(event.key)
    return event.key if is_command and isinstance(event.key, str) else ""


def run_command():
    """It inherits the descriptors that aren't closed for it."""
    return os.waitstatus_to_exitcode(os.system(COMMAND))


def lend():
    """Another size is an event."""
    before = size_line()
    with terminal.lend():
        status = run_command()
    tell(f"lent {status}", "resumed", *[before] * (before == size_line()))


def fork(act):
    child = os.fork()
    if not child:
        act()
    tell(f"child {os.waitstatus_to_exitcode(os.waitpid(child, 0)[1])}")


def wait_for_signals():
    tell(f"forked {os.getpid()}")
    while True:
        signal.pause()


def open_second():
    try:
        with Terminal():
            tell("opened")
    except RuntimeError:
        tell("refused")


def be_busy(seconds, says):
    tell(says)
    time.sleep(seconds)


def crash():
    raise ArithmeticError("nobody handles it")


# What keys do. An exception leaves the terminal's block, also in a child.
ACTIONS = {
    "2": open_second,
    "c": lambda: tell(f"child {run_command()}"),
    "f": lambda: fork(lambda: sys.exit(5)),
    "g": lambda: be_busy(0.3, "ending"),
    "k": lambda: be_busy(0.3, "busy"),
    "l": lend,
    "p": lambda: fork(wait_for_signals),
    "s": lambda: be_busy(60, "asleep"),
    "x": lambda: sys.exit(3),
    "z": lambda: tell(size_line("size")),
    "!": crash,
}


async def ask(question, seconds):
    if "asyncio" in WORDS:
        replies = await terminal.ask_async(question, seconds)
    else:
        replies = terminal.ask(question, seconds)
    tell(f"asked: {events_line(replies)}")


async def next_event():
    """Waits for the next event. There is none at the end of the input."""
    if "asyncio" in WORDS:
        async for event in terminal:
            return event
    while "own" in WORDS and not terminal.ended:
        if event := terminal.read(0):
            return event
        select.select([terminal], [], [], terminal.timeout())
    return terminal.read()


async def obey(event):
    """Tells an event, and does what its key says. Returns the key."""
    tell("resumed" if isinstance(event, Resumed) else line_of(event))
    key = "6" if "asks" in WORDS and isinstance(event, Resized) else character_of(event)
    if key in QUESTIONS:
        await ask(*QUESTIONS[key])
    elif key in ACTIONS:
        ACTIONS[key]()
    elif key == "0":
        now = terminal.read(0)
        return await obey(now) if now else tell("nothing")
    return key


async def use():
    """Returns the key that ends the loop."""
    with terminal:
        tell("begun")
        while event := await next_event():
            key = await obey(event)
            if key in ("g", "q", "r"):
                return key
        tell("ended")


def run(coroutine):
    """What a coroutine returns that awaits nothing."""
    try:
        coroutine.send(None)
    except StopIteration as end:
        return end.value


def fail_to_open():
    """Nothing can be written to this output."""
    output = os.open("/dev/tty", os.O_RDONLY)
    with contextlib.suppress(OSError), Terminal(output=output):
        sys.exit("it can be written")
    os.close(output)


if signal.getsignal(signal.SIGINT) is signal.default_int_handler:
    signal.signal(signal.SIGINT, signal.SIG_DFL)
if "handle" in WORDS:
    signal.signal(signal.SIGUSR1, lambda *_: None)
if "retry" in WORDS:
    fail_to_open()
while (asyncio.run if "asyncio" in WORDS else run)(use()) == "r":
    continue
