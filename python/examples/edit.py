"""Edits a text by commands that a file binds to chords, and prints what happens:

    python3 python/examples/edit.py docs/edit.keys

Nothing is saved. The program asks for bracketed paste, xterm's modifyOtherKeys and Kitty's flags 1
and 4, so that most keys can be told apart.

Two limits in time are apart. That of the parser says when ESC is the Escape key, and that of a
chord when no further key of it comes. The program waits for the shorter one.

The terminal is restored whenever the program ends, also by SIGHUP, SIGINT, SIGQUIT and SIGTERM, and
while it is stopped by SIGTSTP."""
import enum
import os
import re
import signal
import sys
from typing import List, NoReturn, Optional, Tuple, Union

from hedrugal import (
    Bindings,
    Bound,
    Chord,
    KeyNameError,
    KeyPress,
    KeyReport,
    KittyKeyboardFlags,
    Matcher,
    Paste,
    PastePart,
    Timer,
    Unbound,
    paste_lines,
    typed_text,
)
from hedrugal.terminal import Terminal, TerminalEvent

# How many seconds a chord waits for its next key.
PAUSE = 1.0
FLAGS = KittyKeyboardFlags.DISAMBIGUATE_ESCAPE_CODES | KittyKeyboardFlags.REPORT_ALTERNATE_KEYS
# A terminal would obey some control characters of a paste. They are shown as in a literal of Rust.
SHOWN = {
    **{code: f"\\x{code:02x}" for code in (*range(0x20), 0x7F)},
    **{code: f"\\u{{{code:x}}}" for code in range(0x80, 0xA0)},
    ord("\n"): "\\n",
}


class Command(enum.Enum):
    SAVE = "save"
    QUIT = "quit"
    TOP = "top"
    BOTTOM = "bottom"
    ERASE = "erase"
    NEWLINE = "newline"


class WrongLine(ValueError):
    """A line is no binding: what is wrong, and at which byte of it."""

    def __init__(self, what: str, at: int) -> None:
        super().__init__(what, at)
        self.what = what
        self.at = at


def binding(line: bytes) -> Optional[Tuple[Chord, Command]]:
    """Returns the binding of a line, None of a blank one or a comment. Raises WrongLine."""
    found = re.fullmatch(rb"[ \t]*([^ \t]*)[ \t]*(.*)", line, re.DOTALL)
    assert found
    name, chord = found.groups()
    if not name or name.startswith(b"#"):
        return None
    try:
        command = Command(name.decode())
    except ValueError:
        raise WrongLine("no such command", found.start(1)) from None
    if not chord:
        raise WrongLine("no chord", found.end(1))
    try:
        return Chord.read(chord.decode()), command
    except UnicodeDecodeError as error:
        raise WrongLine("the text isn't UTF-8", found.start(2) + error.start) from None
    except KeyNameError as error:
        raise WrongLine(str(error.kind), found.start(2) + error.at) from None


def read_bindings(path: str) -> Tuple[Bindings[Command], List[str]]:
    """Returns the bindings of a file, and an error for each wrong line. If a chord is bound twice,
    the later line counts."""
    bindings: Bindings[Command] = Bindings()
    errors: List[str] = []
    with open(path, "rb") as file:
        lines = file.read().split(b"\n")
    for number, line in enumerate(lines, 1):
        try:
            bindings.update(filter(None, [binding(line)]))
        except WrongLine as error:
            errors.append(f"{path}:{number}:{error.at + 1}: {error.what}")
    return bindings, errors


class Edit:
    """The program. Its functions raise SystemExit once it ends."""

    def __init__(self, terminal: Terminal, bindings: Bindings[Command]) -> None:
        self.terminal = terminal
        self.matcher = Matcher(bindings)
        self.timer = Timer()
        # The text, before the cursor and behind it.
        self.before, self.after = "", ""

    def step(self) -> None:
        """Waits for the next event or the end of a pause, and handles it."""
        event = self.terminal.read(self.timer.timeout())
        if event:
            self.handle(event)
        elif self.terminal.ended:
            # Nothing more can come, so what is pending is given up.
            self.run(self.matcher.give_up())
            sys.exit()
        elif self.timer.is_due():
            self.run(self.matcher.give_up())

    def handle(self, event: TerminalEvent) -> None:
        if isinstance(event, (Paste, PastePart)):
            self.insert_text(paste_lines(event.text))
        elif isinstance(event, KeyReport):
            self.handle_key(event)

    def handle_key(self, report: KeyReport) -> None:
        press = KeyPress.of_report(report)
        if not press:
            self.insert_text(typed_text(report))
            return
        self.run(self.matcher.press(press, KeyPress.second(report)), is_press=True)
        self.show_pending()

    def run(self, outcomes: List[Union[Bound[Command], Unbound]], is_press: bool = False) -> None:
        """Tells the timer what was decided, and does it."""
        is_pending = bool(self.matcher.pending)
        limit, taken = PAUSE if is_pending else None, bool(outcomes)
        self.timer.note(limit, fed=is_press, taken=taken, empty=not is_pending)
        for outcome in outcomes:
            if isinstance(outcome, Bound):
                self.run_command(outcome.value)
            elif outcome.press.text:
                self.insert(outcome.press.text)
            else:
                self.print(f"unbound: {outcome.press}")

    def run_command(self, command: Command) -> None:
        text = self.before + self.after
        if command is Command.QUIT:
            sys.exit()
        elif command is Command.SAVE:
            self.print(f"saved {len(text)} characters")
        elif command is Command.TOP:
            self.change("", text)
        elif command is Command.BOTTOM:
            self.change(text, "")
        elif command is Command.ERASE:
            self.change(self.before[:-1], self.after)
        else:
            self.insert("\n")

    def insert_text(self, text: str) -> None:
        """Inserts a text that comes behind what is pending, so that is decided first."""
        if text:
            self.run(self.matcher.give_up())
        self.insert(text)

    def insert(self, text: str) -> None:
        self.change(self.before + text, self.after)

    def change(self, before: str, after: str) -> None:
        """Sets the text before the cursor and behind it, and shows it if it is another."""
        if (before, after) != (self.before, self.after):
            self.before, self.after = before, after
            self.print(f"text: {before.translate(SHOWN)}|{after.translate(SHOWN)}")

    def print(self, line: str) -> None:
        self.terminal.write(f"{line}\n")

    def show_pending(self) -> None:
        """Shows what is pending, and each chord that continues it."""
        if not self.matcher.pending:
            return
        pending = Chord(self.matcher.pending)
        self.print(f"pending: {pending}")
        for chord, command in self.matcher.bindings.continuations(pending).items():
            self.print(f"  {Chord(chord.presses[len(pending):])}  {command.value}")


def edit(bindings: Bindings[Command]) -> NoReturn:
    """Runs the program. It raises SystemExit at the end."""
    with Terminal(kitty=FLAGS, modify_other_keys=2) as terminal:
        program = Edit(terminal, bindings)
        for chord, command in bindings.items():
            if command is Command.QUIT:
                program.print(f"{chord} ends")
                break
        while True:
            program.step()


def main() -> int:
    if len(sys.argv) != 2:
        print("usage: edit FILE", file=sys.stderr)
        return 2
    try:
        bindings, errors = read_bindings(sys.argv[1])
    except OSError as error:
        bindings, errors = Bindings(), [f"{sys.argv[1]}: {error.strerror}"]
    for line in errors:
        print(f"edit: {line}", file=sys.stderr)
    if errors:
        return 2
    if not os.isatty(0) or not os.isatty(1):
        print("edit: standard input and output have to be a terminal", file=sys.stderr)
        return 1
    # As any other signal it ends the program, and raises no KeyboardInterrupt.
    signal.signal(signal.SIGINT, signal.SIG_DFL)
    try:
        edit(bindings)
    except OSError as error:
        print(f"edit: {error.strerror}", file=sys.stderr)
    return 1


if __name__ == "__main__":
    sys.exit(main())
