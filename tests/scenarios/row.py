"""A row of the table, whose fields README.md has, and the steps that many have."""
import signal
from dataclasses import dataclass, field

from terminal import CONTINUE

from scenarios.program import Program, continue_with


def key(character):
    return f"key U+{ord(character):04X} NONE"


def press(character):
    """A key that is typed and seen."""
    return [character.encode(), key(character)]


QUIT = press("q")
UP, CTRL_UP, CTRL_F3 = "key UpArrow NONE", "key UpArrow CTRL", "key F3 CTRL"
# Other loops than that of the terminal, which are words of the programs.
LAYERS = ["bare", "tokio", "mio", "asyncio"]
# What is told where another program had the terminal.
BACK = ["resumed", "resized 24 80 0 0"]
SIZE_BACK = [(80, 24), "resized 24 80 0 0"]
STOP_AND_CONTINUE = [Program.stop, CONTINUE, *BACK, Program.check_open]
BUSY = [*press("k"), "busy"]


def stop_and_continue(number):
    """By SIGTSTP the terminal is the shell's meanwhile, by others nobody touches it."""
    return STOP_AND_CONTINUE if number == signal.SIGTSTP else [continue_with(number)]


@dataclass
class Row:
    steps: list = field(default_factory=list)
    first: list = field(default_factory=list)
    ahead: list = field(default_factory=list)
    words: list = field(default_factory=lambda: [""])
    command: str = "true"
    before: str = ""
    how: dict = field(default_factory=dict)
    end: list = field(default_factory=list)
    status: object = 0
    left: bytes = None
    only: dict = field(default_factory=dict)
    layers: list = field(default_factory=list)
    is_timed: bool = False

    def status_of(self, language):
        return self.status[language] if isinstance(self.status, dict) else self.status

    def played(self):
        """All steps: each row does its thing twice, and what ends it comes in a second opening."""
        again = [*press("r"), "begun"] if self.end else []
        return [*self.first, *self.steps, *self.steps, *again, *(self.end or QUIT)]


def ended_by(number, steps=(), then=(), **fields):
    """A signal behind these steps ends it."""
    return Row(end=[*steps, number, *then], status=-number, **fields)


def in_time(steps, **fields):
    """Time is the thing, over each loop."""
    return Row(steps, layers=LAYERS, is_timed=True, **fields)
