"""Asks the terminal where its cursor is, which background colour it has and which flags of Kitty's
keyboard protocol are set, and prints what it replies:

    python3 python/examples/ask.py [SECONDS]

Every terminal that was recorded answers ESC [6n, and few ESC [?6n. A reply from the first row looks
like F3 with modifiers. So the program says that it expects one.

The last question is the one for the terminal's attributes (DA1). Nearly every terminal answers it,
and answers in order, so what wasn't answered before won't be. The program ends with that answer, or
after so many seconds, one if none are named. What is typed meanwhile is counted, and what is pasted
forgotten."""
import sys
from typing import Iterator, Optional

from hedrugal import (
    Csi,
    CursorPosition,
    Event,
    KeyboardFlags,
    KeyReport,
    MouseReport,
    Osc,
    Paste,
    PastePart,
)
from hedrugal.terminal import Terminal, TerminalEvent

CURSOR, BACKGROUND, KEYBOARD = b"\x1b[6n", b"\x1b]11;?\x1b\\", b"\x1b[?u"


def is_attributes(event: Event) -> bool:
    """Whether an event is the answer to the last question."""
    return isinstance(event, Csi) and event.data.startswith(b"?") and event.data.endswith(b"c")


def described(event: Event) -> Optional[str]:
    """Returns the line of an answer, None for any other event."""
    if isinstance(event, CursorPosition):
        return f"cursor: row {event.row}, column {event.column}"
    if isinstance(event, Osc) and event.data.startswith(b"11;"):
        # What isn't printable ASCII is printed as in \x9b, which would begin a control sequence.
        shown = (chr(byte) if 0x20 <= byte < 0x7F else f"\\x{byte:02x}" for byte in event.data[3:])
        return f"background: {''.join(shown)}"
    if isinstance(event, KeyboardFlags):
        return f"keyboard: {event.flags!r}"
    if isinstance(event, Csi) and is_attributes(event):
        return f"attributes: {event.data[1:-1].decode()}"
    return None


def typed(terminal: Terminal) -> Iterator[TerminalEvent]:
    """Returns what was typed or pasted meanwhile."""
    while event := terminal.read(0):
        if isinstance(event, (KeyReport, MouseReport, Paste, PastePart)):
            yield event


def main() -> int:
    seconds = float(sys.argv[1]) if len(sys.argv) > 1 else 1
    try:
        with Terminal(paste=False) as terminal:
            replies = terminal.ask(CURSOR + BACKGROUND + KEYBOARD, seconds)
            count = len([*typed(terminal)])
    except OSError as error:
        sys.exit(f"ask: {error}")
    for line in filter(None, map(described, replies)):
        print(line)
    print(f"typed: {count}")
    if not replies or not is_attributes(replies[-1]):
        print(f"no answer to the last question in {seconds:g} s")
        return 1
    return 0


if __name__ == "__main__":
    sys.exit(main())
