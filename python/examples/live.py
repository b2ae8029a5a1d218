"""Prints the events of a terminal as they come, one on a line. A program to start from:

    python3 python/examples/live.py [--mouse]

Bracketed paste is always on, or pasted text would count as typed. --mouse switches mouse reports on
too, which keep most terminals from selecting text. A new size of the terminal is printed as well.

q ends the program, and so does the end of the input. The terminal is restored then, and also
whenever a signal ends or stops the program."""
import os
import signal
import sys
from typing import Optional, Union

from hedrugal import (
    Function,
    KeyCode,
    KeyReport,
    KittyModifiers,
    Modifiers,
    MouseReport,
    MouseTracking,
    Paste,
    PastePart,
    Resized,
)
from hedrugal.terminal import Terminal, TerminalEvent


def described(event: TerminalEvent) -> Optional[str]:
    """Returns the line of an event, None if it has none."""
    if isinstance(event, KeyReport):
        return f"{key_name(event)}{held(event.modifiers)}"
    if isinstance(event, MouseReport):
        place = f"mouse at {event.x}, {event.y}, buttons {event.buttons.value}"
        return f"{place}{held(event.modifiers)}"
    if isinstance(event, Paste):
        return f"paste of {len(event.text.encode())} bytes"
    if isinstance(event, PastePart):
        return f"part of a paste, {len(event.text.encode())} bytes"
    if isinstance(event, Resized):
        return f"size {event.size.columns} x {event.size.rows}"
    return None


def key_name(event: KeyReport) -> str:
    if isinstance(event.key, KeyCode):
        return event.key.name.title().replace("_", "")
    if isinstance(event.key, Function):
        return f"Function {event.key.number}"
    if isinstance(event.key, int):
        return f"Functional {event.key}"
    return f"Char U+{ord(event.key):04X}"


def held(modifiers: Union[Modifiers, KittyModifiers]) -> str:
    names = (str(it.name) for it in type(modifiers) if it.value & modifiers.value)
    return "".join(f" {it.lower()}" for it in names if it in ("SHIFT", "ALT", "CTRL"))


def main() -> int:
    if sys.argv[1:] not in ([], ["--mouse"]):
        print("usage: live [--mouse]", file=sys.stderr)
        return 2
    if not os.isatty(0) or not os.isatty(1):
        print("live: standard input and output have to be a terminal", file=sys.stderr)
        return 1
    # As any other signal it ends the program, and raises no KeyboardInterrupt.
    signal.signal(signal.SIGINT, signal.SIG_DFL)
    with Terminal(mouse=MouseTracking.ANY if sys.argv[1:] else None) as terminal:
        print("q ends", flush=True)
        for event in terminal:
            line = described(event)
            if line:
                print(line, flush=True)
            if event == KeyReport("q"):
                break
    return 0


if __name__ == "__main__":
    sys.exit(main())
