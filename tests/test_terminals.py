#!/usr/bin/python3
"""What real terminals sent, read by both dialects: tests/terminals has it.

    tests/test_terminals.py --write    makes the tables of docs/TERMINALS.md anew, and what the
                                       page of python/hedrugal/page shows

tests/terminal_judge.py says what is read exactly."""
import collections
import functools
import itertools
import re
import sys

import pytest
from conftest import TOP  # first, since it says where the package is
from cases import set_of
from hedrugal import CursorPosition, FocusGained, FocusLost, KeyCode, KeyPress, KeyReport
from hedrugal import Modifiers, MouseButtons, MouseKind, Paste
from terminal_data import left_out, lines_of, load_all, mouse_done
from terminal_judge import is_exact, read, reader_of, told
from terminal_tables import DOCUMENT, PAGE_DATA, page_data, peers, set_up, tables, with_table

sys.path.append(str(TOP / "tools/terminals"))
import collect  # noqa: E402

FILES = load_all()
TERMINALS = sorted(FILES)
BUTTONS = {
    **{"Left": "LEFT", "Middle": "MIDDLE", "Right": "RIGHT", "Move": "NONE"},
    **{"WheelUp": "VERT_WHEEL+WHEEL_POSITIVE", "WheelDown": "VERT_WHEEL"},
    **{"WheelLeft": "HORZ_WHEEL+WHEEL_POSITIVE", "WheelRight": "HORZ_WHEEL"},
}
NUMBERS = dict(zip("Left Middle Right WheelUp WheelDown WheelLeft WheelRight".split(), range(1, 8)))
SIDE_BUTTONS = {"Back": 8, "Forward": 9}
# urxvt reports these as a wheel, and VTE as the left button.
WITHOUT_SIDE_BUTTONS = ("urxvt", "xfce4-terminal", "gnome-terminal")
# dvtm tells some buttons as a release, and Vim doesn't add 32 to those of the mode 1015.
WRONG_REPORTS = {"dvtm": rb"\x1b\[M.*", "vim-terminal": rb"\x1b\[\d.*"}
# Modifiers of the mouse that a terminal doesn't report.
UNTOLD = {"qterminal": ("Ctrl", "Alt"), "putty": ("Alt",), "vim-terminal": ("Ctrl", "Alt")}
# Of everyday presses at least so many percent are read exactly: of all, and of those without a
# reason.
LEAST_OF_ALL, LEAST_WITHOUT_REASON = 95.2, 100
# At most so many pairs of byte strings of a terminal in a mode share a press.
MOST_PAIRS = 98
# In at most so many modes of a terminal another parser reads more.
MOST_FEWER = 0


def presses():
    """The lines of all presses, each with its terminal and one mode."""
    for terminal, line in lines_of("press"):
        for mode in line.modes.split(","):
            yield terminal, line, mode


@functools.cache
def judged():
    """Of each terminal with its layout and mode how many presses there are, how many both dialects
    read exactly, and how many have a reason; the same of everyday presses."""
    found = collections.defaultdict(collections.Counter)
    for terminal, line, mode in presses():
        counts = found[set_up(terminal, line), mode]
        facts = {"presses": True, "port": is_exact("port", line)}
        facts |= {"extended": is_exact(reader_of(terminal), line), "reason": has_reason(line)}
        for name, holds in facts.items():
            counts[name] += line.count * holds
            counts["everyday " + name] += line.everyday * holds
    return dict(found)


def has_reason(line):
    return bool(line.why) and not line.why.startswith("open: ")


@functools.cache
def with_reasons():
    files = {terminal: lines for terminal, (_, lines) in FILES.items()}
    collect.with_reasons(files)
    return files


@pytest.mark.parametrize("terminal", TERMINALS)
def test_keys(terminal):
    """The column `why` is empty where a press or a release is read exactly. Else it has the reason
    that collect.py finds."""
    assert with_reasons()[terminal] == FILES[terminal][1]


def test_everyday_presses():
    """Most everyday presses are read exactly, of all terminals with all layouts."""
    counts = sum(judged().values(), collections.Counter())
    all_, exact, reason = (counts[f"everyday {it}"] for it in ("presses", "extended", "reason"))
    assert 100 * exact / all_ >= LEAST_OF_ALL
    assert 100 * exact / (all_ - reason) >= LEAST_WITHOUT_REASON


def test_pairs():
    """Few pairs of different byte strings of a terminal in a mode share a press."""
    strings = collections.defaultdict(set)
    for terminal, line, mode in presses():
        if line.everyday and not line.layout:
            for name in told(reader_of(terminal), line.bytes)[1]:
                strings[terminal, mode, name].add(line.bytes)
    pairs = {
        (terminal, mode, pair)
        for (terminal, mode, _), them in strings.items()
        for pair in itertools.combinations(sorted(them), 2)
    }
    assert len(pairs) <= MOST_PAIRS


def test_port():
    """What termwiz's dialect reads as the key that was pressed, the extended one reads so, too."""
    for terminal, line, mode in presses():
        if is_exact("port", line):
            assert is_exact(reader_of(terminal), line), (terminal, mode, line)


# A report of the modes 1006 and 1016, one of 1015, and one of the others.
ONE_REPORT = rb"\x1b\[<[\d;]+[Mm]|\x1b\[[\d;]+M|\x1b\[M[ -\xff]{3}"
NOT_ONE = "all: it is more or less than one report"
WRONG = "all: dvtm tells a release, and Vim doesn't add 32 in the mode 1015"


def less_of_mouse(terminal, line):
    """Why less is compared than the button and the modifiers, in the words of README.md."""
    held, button, what = mouse_done(line)
    if not re.fullmatch(ONE_REPORT, line.bytes):
        return NOT_ONE
    if re.fullmatch(WRONG_REPORTS.get(terminal, b""), line.bytes, re.S):
        return WRONG
    if "1000" not in line.modes:
        return "button, modifiers: 1002 and 1003 report moves too, and mode 9 no modifiers"
    if what == "release" and (not line.bytes.endswith(b"m") or "Wheel" in button):
        return "button, modifiers: the release names no button, or is that of a wheel"
    if what == "drag":
        return "button, modifiers: the mode 1000 has no drags"
    if button in SIDE_BUTTONS and terminal in WITHOUT_SIDE_BUTTONS:
        return "button, modifiers: urxvt tells a side button as a wheel, and VTE as the left button"
    if not {*held}.isdisjoint(UNTOLD.get(terminal, ())):
        return "modifiers: QTerminal and Vim don't tell Ctrl and Alt, and PuTTY doesn't tell Alt"
    return ""


@pytest.mark.parametrize("terminal", TERMINALS)
def test_mouse(terminal):
    """A report tells the button and the modifiers. None is a key. The short form of a report is
    read by a parser that was told so."""
    for _, line in lines_of("mouse", terminal):
        less = less_of_mouse(terminal, line)
        if less in (NOT_ONE, WRONG):
            continue
        held, button, what = mouse_done(line)
        held = [it.upper() for it in held if it not in UNTOLD.get(terminal, ())]
        reader = "x10" if line.bytes.startswith(b"\x1b[M") else "extended"
        ((event,), rest) = read(reader, line.bytes)
        assert not isinstance(event, KeyReport) and not rest, line
        if less.startswith("button"):
            continue
        kind = MouseKind.WHEEL if "Wheel" in button else MouseKind[what.upper()]
        buttons = BUTTONS[button] if what == "press" and button in BUTTONS else "NONE"
        number = NUMBERS.get(button) or SIDE_BUTTONS[button]
        assert (event.kind, event.button) == (kind, number), line
        assert event.buttons == set_of(MouseButtons, buttons), line
        assert event.modifiers == set_of(Modifiers, "+".join(held) or "NONE"), line


@pytest.mark.parametrize("terminal", TERMINALS)
def test_focus(terminal):
    for _, line in lines_of("focus", terminal):
        wanted = {"gained": FocusGained(), "lost": FocusLost()}[line.what]
        assert read("extended", line.bytes) == ([wanted], 0), line


@pytest.mark.parametrize("terminal", TERMINALS)
def test_pastes(terminal):
    """A paste is one event. What follows an END in its text is typed, and then comes the other
    END, a key of its own. Without an END it stays open."""
    for _, line in lines_of("paste", terminal):
        if "2004" not in line.modes:
            continue
        start, end = b"\x1b[200~", b"\x1b[201~"
        assert line.bytes.startswith(start), line
        text, *typed = line.bytes[len(start) :].split(end)
        for reader in ("port", "extended"):
            events, rest = read(reader, line.bytes)
            if not typed:
                assert (events, rest) == ([], len(line.bytes)), line
                continue
            assert events[0] == Paste(text.decode("utf-8", "replace")) and not rest, line
            is_forged = typed != [b""]
            last = getattr(events[-1], "key", None)
            assert is_forged == (last is KeyCode.INTERNAL_PASTE_END), line
            assert is_forged or len(events) == 1, line


def less_of_reply(terminal, line):
    """Why less is compared than that it is no key, in the words of README.md."""
    if line.bytes == b"PuTTY":
        return "all: PuTTY answers ENQ with its name, which is typed"
    if terminal == "dvtm" and line.what == "DSR6":
        return "that it is a position: dvtm counts rows from 0"
    return ""


@pytest.mark.parametrize("terminal", TERMINALS)
def test_replies(terminal):
    """Replies aren't keys. The cursor's position in the first row is F3, unless the program asked
    for it."""
    for _, line in lines_of("reply", terminal):
        less = less_of_reply(terminal, line)
        if less.startswith("all"):
            continue
        for reader in ("extended", "asked"):
            events, _ = read(reader, line.bytes)
            keys = [str(it) for it in map(KeyPress.of_event, events) if it]
            is_third = all(it.endswith("f3") for it in keys) and b"R" in line.bytes
            assert not keys or is_third and reader != "asked", (line, reader, keys)
            if line.what == "DSR6" and reader == "asked" and not less:
                assert any(isinstance(it, CursorPosition) for it in events), line


@pytest.mark.parametrize(
    "kind, name, less_of", [("mouse", "mouse", less_of_mouse), ("reply", "replies", less_of_reply)]
)
def test_left_out_in_part(kind, name, less_of):
    counts = collections.Counter(less_of(*it) for it in lines_of(kind))
    assert counts.pop("") > 500
    assert counts == left_out(f"test_terminals.py, {name}")


def test_left_out():
    plain = sum("2004" not in line.modes for _, line in lines_of("paste"))
    assert {"all: it isn't bracketed": plain} == left_out("test_terminals.py, pastes")
    rare = sum(not line.everyday or line.layout != "" for _, line in lines_of("press"))
    why = "all: it is no everyday press, or of another layout"
    assert {why: rare} == left_out("test_terminals.py, pairs")


def test_every_line_is_read():
    kinds = collections.Counter(it.kind for _, lines in FILES.values() for it in lines)
    assert set(kinds) == {"press", "release", "mouse", "focus", "paste", "reply"}
    assert kinds["press"] > 8000


def test_other_parsers():
    """No terminal in a mode has fewer presses that are read exactly than before, and few have fewer
    than another parser reads, but for those with a reason."""
    assert set(peers()[1]) == set(judged())
    fewer = []
    for of, (all_, least, *others) in peers()[1].items():
        counts = judged()[of]
        assert counts["presses"] == all_ and counts["extended"] >= least, (of, counts)
        fewer += [(of, counts, others)] * (counts["extended"] + counts["reason"] < max(others))
    assert len(fewer) <= MOST_FEWER, "\n".join(map(str, fewer))


@pytest.mark.parametrize("name", ["everyday", "exact", "reasons", "apart", "pastes", "replies"])
def test_document(name):
    """The tables of docs/TERMINALS.md are those of the data and the parsers."""
    text = DOCUMENT.read_text()
    assert with_table(text, name, tables(FILES, judged())[name]) == text


def test_page_data():
    assert PAGE_DATA.read_text() == page_data(FILES)


def write_tables():
    text = DOCUMENT.read_text()
    for name, made in tables(FILES, judged()).items():
        text = with_table(text, name, made)
    DOCUMENT.write_text(text)
    PAGE_DATA.write_text(page_data(FILES))


if __name__ == "__main__":
    if sys.argv[1:] != ["--write"]:
        sys.exit(__doc__)
    write_tables()
