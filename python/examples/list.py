"""A list whose commands have chords: shows the words that it is given, and prints the one that is
picked.

    python3 python/examples/list.py one two three"""
import os
import signal
import sys
from typing import List, Optional

from hedrugal import Bindings, Bound, KeyPress, KeyReport, Matcher
from hedrugal.terminal import Terminal

BINDINGS = Bindings(
    {"up": "up", "k": "up", "down": "down", "j": "down", "home": "first", "g g": "first"}
    | {"end": "last", "shift+g": "last", "enter": "pick", "space": "pick"}
    | {"q": "quit", "ctrl+x ctrl+c": "quit"}
)
# A screen of its own, no cursor, and no wrap of long rows.
ENTER, LEAVE = b"\x1b[?1049h\x1b[?25l\x1b[?7l", b"\x1b[?7h\x1b[?25h\x1b[?1049l"


def draw(terminal: Terminal, words: List[str], at: int) -> None:
    height = terminal.size().rows or 24
    start = max(0, at + 1 - height)
    rows = (f"\x1b[7m{it}" if place == at else it for place, it in enumerate(words))
    shown = "\x1b[m\n".join([*rows][start : start + height])
    terminal.write(f"\x1b[H\x1b[J{shown}\x1b[m")


def pick(terminal: Terminal, words: List[str]) -> Optional[str]:
    """Returns the word that is picked, None if none is."""
    matcher, at, last = Matcher(BINDINGS), 0, len(words) - 1
    draw(terminal, words, at)
    for event in terminal:
        press = KeyPress.of_event(event)
        second = KeyPress.second(event) if isinstance(event, KeyReport) else None
        for outcome in matcher.press(press, second) if press else []:
            command = outcome.value if isinstance(outcome, Bound) else ""
            if command == "pick":
                return words[at]
            if command == "quit":
                return None
            to = {"up": max(0, at - 1), "down": min(at + 1, last), "first": 0, "last": last}
            at = to.get(command, at)
        draw(terminal, words, at)
    return None


if len(sys.argv) < 2:
    sys.exit("list: no words are given")
if not os.isatty(0) or not os.isatty(1):
    sys.exit("list: standard input and output have to be a terminal")
signal.signal(signal.SIGINT, signal.SIG_DFL)
with Terminal(enter=ENTER, leave=LEAVE) as terminal:
    picked = pick(terminal, sys.argv[1:])
if picked is None:
    sys.exit(1)
print(picked)
