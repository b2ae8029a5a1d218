"""A prompt with a history: prints each line entered, until Ctrl-C or Ctrl-D. A paste is text.

    python3 python/examples/prompt.py"""
import os
import signal
import sys
from typing import Optional

from hedrugal import KeyPress, Paste, PastePart, paste_lines
from hedrugal.terminal import Terminal, TerminalEvent

ROOM, MOST = 4096, 100
CONTROLS = {it: " " if it < 0x80 else "\xa0" for it in (*range(0x20), *range(0x7F, 0xA0))}


class Prompt:
    def __init__(self) -> None:
        # The last lines entered, behind them what Up left; and the one that is edited.
        self.lines, self.shown, self.before, self.behind = [""], 0, "", ""

    def next_event(self) -> Optional[TerminalEvent]:
        terminal.write(f"\r\x1b[K\x1b[?7l> {self.before}\x1b7{self.behind}\x1b8\x1b[?7h")
        return terminal.read()

    def handle(self, event: TerminalEvent) -> bool:
        press, line, last = KeyPress.of_event(event), self.before + self.behind, len(self.lines) - 1
        name, shown = str(press), self.shown
        if shown == last:
            self.lines[last] = line
        pasted = paste_lines(event.text) if isinstance(event, (Paste, PastePart)) else ""
        # Characters while there is room. A control character becomes a space.
        for it in (pasted or press and press.text or "")[:ROOM].translate(CONTROLS):
            if len((self.before + self.behind).encode()) + 4 < ROOM:
                self.before += it
        if name == "left":
            self.before, self.behind = self.before[:-1], self.before[-1:] + self.behind
        elif name == "right":
            self.before, self.behind = self.before + self.behind[:1], self.behind[1:]
        elif name == "backspace":
            self.before = self.before[:-1]
        elif name in ("up", "down"):
            self.shown = max(0, shown - 1) if name == "up" else min(shown + 1, last)
        elif name == "enter":
            terminal.write(f"\n{line}\n")
            self.lines = [*self.lines[1 - MOST : last], line, ""]
            self.shown, shown = len(self.lines) - 1, -1
        if self.shown != shown:
            self.before, self.behind = self.lines[self.shown], ""
        return name not in ("ctrl+c", "ctrl+d")


if not os.isatty(0) or not os.isatty(1):
    sys.exit("prompt: standard input and output have to be a terminal")
signal.signal(signal.SIGINT, signal.SIG_DFL)
with Terminal(leave=b"\n") as terminal:
    prompt = Prompt()
    while (event := prompt.next_event()) and prompt.handle(event):
        continue
