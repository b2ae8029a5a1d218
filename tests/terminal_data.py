"""The lines of tests/terminals: what terminals sent. Its README.md says what the columns mean."""
import functools
import re
from pathlib import Path
from typing import NamedTuple

FOLDER = Path(__file__).resolve().parent / "terminals"
KEY_MODES = "default decckm deckpam decckm+deckpam mok1 mok2 kitty1 kitty3 kitty5 kitty31".split()
COLUMNS = "kind layout modes bytes what also details why count everyday".split()


class Line(NamedTuple):
    kind: str
    layout: str
    modes: str
    bytes: bytes
    what: str
    also: str
    details: str
    why: str
    count: int
    everyday: int

    @property
    def right(self):
        """The names of the presses that are right."""
        return {*self.what.split(), *self.also.split()}

    def fields(self):
        return self._replace(bytes=self.bytes.hex())


def is_kitty(mode):
    """Whether a program in this mode turned Kitty's protocol on."""
    return mode.startswith("kitty")


def data_files():
    return sorted(FOLDER.glob("*.tsv"))


def load(path):
    """The first line of a file, which names the terminal's version, and its lines."""
    head, columns, *lines = path.read_text().splitlines()
    assert columns.split("\t") == COLUMNS, path
    found = []
    for text in lines:
        kind, layout, modes, digits, *rest, count, everyday = text.split("\t")
        numbers = int(count), int(everyday)
        found.append(Line(kind, layout, modes, bytes.fromhex(digits), *rest, *numbers))
    return head + "\n", found


def recorded(name, mode, kind="press"):
    """The presses of a terminal in a mode, and the bytes that it sent for each."""
    _, lines = load(FOLDER / f"{name}.tsv")
    told = [it for it in lines if it.kind == kind and mode in it.modes.split(",") and not it.layout]
    return {press: it.bytes for it in told for press in it.what.split()}


@functools.cache
def load_all():
    """The version of each terminal, and its lines."""
    found = {}
    for path in data_files():
        head, lines = load(path)
        found[path.stem] = (re.fullmatch(r"# \S+: (\S+) .*\n", head)[1], lines)
    return found


def lines_of(kind, *terminals):
    """The lines of a kind of these terminals or of all, each with its terminal."""
    names = terminals or load_all()
    return [(name, it) for name in names for it in load_all()[name][1] if it.kind == kind]


def mouse_done(line):
    """The modifiers that were held, the button, and what was done with it."""
    pressed, _, what = line.what.replace("-corner", "").rpartition(" ")
    *held, button = pressed.split("+")
    return held, button, what


def left_out(test):
    """Of a test how many lines it leaves out or compares in part, by the reasons: README.md has
    them."""
    text = (FOLDER / "README.md").read_text()
    rows = re.findall(rf"^\| {test} \| (\d+) \| (.*) \|$", text, re.M)
    return {why: int(count) for count, why in rows}
