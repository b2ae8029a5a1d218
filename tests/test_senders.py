"""What is written for a paste, a mouse report or a change of the focus is what real terminals sent
for it: the recordings of tests/terminals. The rule for pastes is VTE's."""
import re
from collections import Counter

import pytest
from cases import set_of
from terminal_data import left_out, lines_of, load_all, mouse_done

from hedrugal import FocusGained, FocusLost, Modifiers, MouseButton, MouseEncoding, MouseTracking
from hedrugal import Parser, SentMouse, encode_event, encode_paste

TRACKING = {
    "x10": MouseTracking.X10,
    "1000": MouseTracking.NORMAL,
    "1002": MouseTracking.BUTTON,
    "1003": MouseTracking.ANY,
}
# Of a mode the encoding, and one report in it: a place in two bytes or in decimals. A terminal that
# hasn't the mode sends another form.
ENCODING = {
    "": (MouseEncoding.DEFAULT, rb"\x1b\[M.(.)(.)"),
    "1015": (MouseEncoding.URXVT, rb"\x1b\[\d+;(\d+);(\d+)M"),
    "1006": (MouseEncoding.SGR, rb"\x1b\[<\d+;(\d+);(\d+)[Mm]"),
}
BUTTONS = ["Left", "Middle", "Right", "WheelUp", "WheelDown", "WheelLeft", "WheelRight"]
# What a terminal sends otherwise: of which encodings and reports, and how.
OTHERWISE = {
    "dvtm": (r" .*", "few reports are sent, and the middle and right button are a release"),
    "foot": (r"(1015)? .*\+.* release", "a release has no modifiers"),
    "gnome-terminal": (r" .*Left drag", "the press comes with the drag"),
    "kitty": (r"1015 .*release", "a release tells its button"),
    "konsole": (r"\d* (Shift|.*Alt).*Wheel", "Shift is dropped, and Alt turns the wheel"),
    "putty": (r"\d* Alt\+", "Alt is dropped"),
    "qterminal": (r"\d* (.*\+|.* drag)", "modifiers are dropped, and mode 1000 has drags"),
    "tmux-xterm": (r" .*\+.* release", "a release has no modifiers"),
    "vim-terminal": (r"\d* (Alt|Ctrl)\+|1015 ", "modifiers are dropped, and 1015 lacks 32"),
    "xfce4-terminal": (r"\d* Middle drag", "a drag after a paste is a move"),
    "xterm": (r"1006 Alt\+WheelUp press", "the mouse was also moved"),
    "xtermjs5": (r" Ctrl\+Left|1006 Alt\+WheelLeft", "the mouse was also moved"),
}


# The rule for pastes is that of VTE, which two terminals have.
VTE = ("gnome-terminal", "xfce4-terminal")
NOT_VTE = "all: another terminal than VTE makes other texts of it"
OTHER_TEXT = "all: VTE pasted a selection of before, or a text cut at its first U+0080"
UP_TO_NUL = "the text from its NUL on: the program that held the text ended it there"


def less_of_paste(terminal, line):
    """Why less is compared than the whole text, in the words of README.md."""
    if terminal not in VTE:
        return NOT_VTE
    text = bytes.fromhex(line.details)
    if line.bytes in (b"\x1b[200~clip\x1b[201~", b"a") and b"\0" not in text:
        return OTHER_TEXT
    return UP_TO_NUL if b"\0" in text else ""


@pytest.mark.parametrize("terminal", VTE)
def test_pastes(terminal):
    for _, line in lines_of("paste", terminal):
        if less_of_paste(terminal, line) != OTHER_TEXT:
            text = bytes.fromhex(line.details).split(b"\0")[0]
            assert encode_paste(text, line.modes == "2004") == line.bytes, line


def test_pastes_left_out():
    counts = Counter(less_of_paste(*it) for it in lines_of("paste"))
    assert counts.pop("") == 39
    assert counts == left_out("test_senders.py, pastes")


def coordinate(part, encoding):
    return part[0] - 32 if encoding is MouseEncoding.DEFAULT else int(part)


def written(line, mode):
    """What is written for a recorded report, as a press or as what it was. A wheel that is released
    counts as turned once more in some terminals. Or why it isn't compared, in the words of
    README.md."""
    tracking, _, form = mode.partition("+")
    held, name, done = mouse_done(line)
    if form not in ENCODING:
        return "all: the modes 1005 and 1016, which `SentMouse` doesn't have"
    if name not in BUTTONS:
        return "all: moves and side buttons, which `SentMouse` doesn't have"
    encoding, pattern = ENCODING[form]
    found = re.fullmatch(pattern, line.bytes, re.DOTALL)
    if not found:
        return "all: several reports, or none in the form of the mode"
    x, y = (coordinate(part, encoding) for part in found.groups())
    modifiers = set_of(Modifiers, "+".join(held or ["none"]).upper())
    actions = {done, "press"} if name.startswith("Wheel") else {done}
    button = BUTTONS.index(name) + 1
    reports = (MouseButton[f"BUTTON{button}_{action.upper()}"] for action in actions)
    return {SentMouse(x, y, it, modifiers).encode(TRACKING[tracking], encoding) for it in reports}


def test_mouse_reports():
    """The reports of each terminal and mode."""
    counts = Counter()
    for terminal in load_all():
        same, others = 0, []
        for _, line in lines_of("mouse", terminal):
            for mode in line.modes.split(","):
                sent = written(line, mode)
                if isinstance(sent, str):
                    counts[sent] += 1
                elif line.bytes in sent:
                    same += 1
                else:
                    others.append(f"{mode.partition('+')[2]} {line.what}")
        pattern, why = OTHERWISE.get(terminal, ("nothing", ""))
        assert [it for it in others if not re.match(pattern, it)] == []
        assert same >= (1 if terminal == "dvtm" else 60) and bool(others) == bool(why)
        counts[f"{terminal}: {why}"] += len(others)
    assert +counts == left_out("test_senders.py, mouse")


FOCUS = {"gained": FocusGained(), "lost": FocusLost()}


def test_focus():
    """Eleven terminals told of both changes, and foot only that it lost the focus."""
    lines = [line for _, line in lines_of("focus")]
    assert Counter(line.what for line in lines) == {"gained": 11, "lost": 12}
    for line in lines:
        assert encode_event(FOCUS[line.what], Parser()) == line.bytes
