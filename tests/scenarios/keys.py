"""What is typed, and what it is told as."""
import signal
import termios

from terminal import END, LONG_PAUSE, START

from scenarios.program import Program
from scenarios.row import BUSY, CTRL_UP, LAYERS, SIZE_BACK, STOP_AND_CONTINUE, UP, Row, key, press

BACKSPACE = "key Backspace NONE"
# What Backspace sends.
ERASES = {"127": b"\x7f", "8": b"\b", "another byte": b"\x15", "nothing": b"\0"}
ICRNL = {"ICRNL": True, "no ICRNL": False}
ENTER = [b"\n", key("\n"), b"\r", "key Enter NONE"]
NEW_SIZE = [(100, 40), "resized 40 100 0 0"]
EVERY_LOOP = ["", "own", "device"]
# Raw mode has none of them.
CHANGES_BYTES = termios.ISTRIP | termios.INLCR | termios.IGNCR | termios.INPCK | termios.IXON


def both_bytes(erase):
    """The bytes 8 and 127, and with Alt."""
    keys = [BACKSPACE, key("\x7f")] if erase == b"\b" else [key("\b"), BACKSPACE]
    return [b"\b\x7f", *keys, b"\033\b\033\x7f", *(it.replace("NONE", "ALT") for it in keys)]


def end_of_the_input(typed, *lines):
    """The first ^D ends a read, and the second the input."""
    steps = [Program.let_end_input, b"w" + typed + b"\x04\x04", key("w"), *lines, "ended"]
    return Row(end=steps, layers=LAYERS)


ROWS = {
    "keys and pastes": Row(
        [*press("w"), *press("é"), b"\033[A", UP, START + b"ab" + END, 'paste "ab"'],
        words=EVERY_LOOP,
        layers=LAYERS,
    ),
    "Escape": Row([b"\033", "key Escape NONE", *press("w")], words=["", "own"], layers=LAYERS),
    "reports of the focus": Row(
        [b"\033[I", "focus gained", b"\033[O", "focus lost"], words=["focus"]
    ),
    "a position of the cursor": Row([b"\033[24;80R", "position 24 80"]),
    **{
        f"Backspace sends {name}": Row(
            [*both_bytes(erase), *STOP_AND_CONTINUE],
            words=EVERY_LOOP,
            how={"erase": erase},
            layers=LAYERS,
        )
        for name, erase in ERASES.items()
    },
    **{
        f"Enter after {name}": Row(
            [*ENTER, *STOP_AND_CONTINUE], words=EVERY_LOOP, how={"has_icrnl": has}, layers=LAYERS
        )
        for name, has in ICRNL.items()
    },
    "settings that change bytes": Row(
        [*press("é"), *ENTER, b"\x13\x11", "key U+0073 CTRL", "key U+0071 CTRL"],
        how={"on_in_input": CHANGES_BYTES | termios.PARMRK},
    ),
    "a descriptor that does not block": Row(
        [*press("w"), b"\033[1;5", b"A", CTRL_UP, *STOP_AND_CONTINUE], how={"blocks": False}
    ),
    "typed ahead of the opening": Row(
        ahead=[b"w"], first=[key("w")], before="sleep 0.5", how={"echoes": False}
    ),
    # With ICRNL it was byte 10 before raw mode.
    **{
        f"Enter ahead of the opening with {name}": Row(
            ahead=[b"\r\n"],
            first=[key("\n") if has else "key Enter NONE", key("\n")],
            before="sleep 0.5",
            how={"echoes": False, "has_icrnl": has},
            is_timed=True,
        )
        for name, has in ICRNL.items()
    },
    "a look that does not wait": Row(
        [b"0\033[1;5", key("0"), "nothing", b"A", CTRL_UP], is_timed=True
    ),
    "a wait that looks at nothing": Row(
        [START + b"a", Program.start_processor_clock, LONG_PAUSE, Program.check_processor]
        + [b"b" + END, 'paste "ab"'],
        layers=LAYERS,
    ),
    # It reads them before it flushes anything.
    "bytes that come while it is busy": Row([b"k\033", key("k"), "busy", b"[A", UP], is_timed=True),
    "a new size": Row([*NEW_SIZE, *SIZE_BACK], layers=LAYERS),
    "a size in pixels": Row(
        [(100, 40, 800, 640), "resized 40 100 640 800", *press("z"), "size 40 100 640 800"]
        + SIZE_BACK
    ),
    "a new size in a sequence": Row(
        [b"\033[1;5", *NEW_SIZE, b"A", CTRL_UP, *SIZE_BACK], is_timed=True
    ),
    "a new size in a paste": Row(
        [START + b"ab", *NEW_SIZE, b"c" + END, 'paste "abc"', *SIZE_BACK], layers=LAYERS
    ),
    "signals of the program": Row(
        [*press("w"), *[Program.wait_for_sleep, signal.SIGUSR1] * 3, *press("w")]
        + [*BUSY, signal.SIGUSR1, *press("w")],
        words=["handle"],
    ),
    "the end of the input": end_of_the_input(START + b"ab", 'paste "ab"'),
    "the end of the input after Escape": end_of_the_input(b"\033", "key Escape NONE"),
    "the end of the input after ESC and a bracket": end_of_the_input(b"\033[", "key U+005B ALT"),
}
