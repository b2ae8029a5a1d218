#!/usr/bin/env python3
"""Makes the data of tests/terminals from what record.py recorded: the distinct byte strings of each
terminal, with what was pressed and the presses that are right.

    tools/terminals/collect.py FOLDER    reads FOLDER/*.tsv, writes tests/terminals/NAME.tsv of each
    tools/terminals/collect.py           makes the column `why` of all files anew

What a terminal sent for the keys of other layouts stays. tests/terminals/README.md says what the
columns mean. The reasons are those of the library of out/lib."""
import argparse
import collections
import re
import sys
from pathlib import Path

TOP = Path(__file__).resolve().parent.parent.parent
sys.path.insert(0, str(TOP / "tests"))
sys.dont_write_bytecode = True

import conftest  # noqa: E402, F401, which finds the library
from hedrugal import KeyPress  # noqa: E402
from terminal_data import COLUMNS, FOLDER, KEY_MODES, Line, data_files, load  # noqa: E402
from terminal_judge import is_exact, reader_of, told  # noqa: E402

HELD = {"Super": 8, "Ctrl": 4, "Alt": 2, "Shift": 1}
SUPER, CTRL, ALT, SHIFT = HELD.values()
STRONG = CTRL | SUPER
# What Shift makes of a key in the layout of the United States.
SHIFTED = dict(zip("`1234567890-=[]\\;',./", '~!@#$%^&*()_+{}|:"<>?'))
SIGNS = "".join(SHIFTED.values())
NAMED = {f"F{it}": f"f{it}" for it in range(1, 25)}
for it in """Up Down Left Right Enter Tab Backspace Escape Home End PageUp PageDown Insert Delete
        Pause Menu""".split():
    NAMED[it] = it.lower()
NAMED |= {"Space": " ", "Print": "printscreen"}
# No press by themselves.
MODIFIERS = "Shift_L Control_L Alt_L Super_L Caps_Lock Num_Lock Scroll_Lock".split()
# The keys of the keypad by their names without Num Lock and with it: what is on them.
KEYPAD = {}
for off, on in zip(
    "Home Up PageUp Left Begin Right End Down PageDown Insert Delete".split(),
    "7 8 9 4 5 6 1 2 3 0 Decimal".split(),
):
    key = NAMED.get(off, "begin")
    KEYPAD[on] = KEYPAD[off] = [key, on.replace("Decimal", ".")]
for it in {"Add": "+", "Subtract": "-", "Multiply": "*", "Divide": "/", "Equal": "="}.items():
    KEYPAD[it[0]] = [it[1]]
KEYPAD["Enter"] = ["enter"]

# Why a press isn't read: the names of the terminals, the bytes, and the reason. What a terminal
# makes of a key beside its name:
GARBLED = [
    ("konsole|qterminal", r"\x18@s.*", "Konsole writes Ctrl-X, @, s before a key with Super"),
    ("konsole|qterminal", r"\x1b\[\d+;1[AH~]", "Konsole tells no modifier for Super"),
    ("konsole|qterminal|urxvt", r"\x1b\x1bOM", "Shift-Enter is the keypad's Enter"),
    ("xfce4-terminal|gnome-terminal", r"\x1bO3~", "VTE joins ESC O and half of a sequence"),
    ("putty", r"\x1b?\x1bO[QRSl]", "PuTTY's keypad is that of a VT100, with PF2 to PF4"),
    ("putty", r"\x1b?\xa0", "PuTTY types a no-break space for Ctrl-Shift-Space"),
    ("kitty", r"\udca7", "kitty sends half a character"),
    ("vim-terminal", r"\udcfd.*|\x1b[\udc80-\udcff]", "Vim writes its numbers of keys as bytes"),
    ("vim-terminal", r"\x1b\[(27;\d;)?-\d+(;\d)?[u~]", "Vim tells its numbers of keys"),
    ("vim-terminal", r"\x1b\[(27;[57];(64|94|95)~|(64|94|95);[57]u)", "Vim tells Ctrl-2 as Ctrl-@"),
    ("vim-terminal", r"\x1b\x03", "Vim writes ESC and byte 3 for Alt, Shift and F1 to F12"),
    ("vim-terminal", r"\x1b\[8;5u", "Vim drops Shift"),
    ("vim-terminal", r"\x1b\[(27u.+|21~\dE)", "Vim cuts a sequence"),
    ("kitty", r"\x1b\[246:214:59;2u", "a key was repeated as it was released"),
]
# What nobody else sends:
UNIQUE = [
    ("st", r"\x1b\[(2?[JK]|4[hl]|[LM])", "st, where keypad mode or DECCKM is off"),
    ("foot", r"\x1b\[27;\d+;6\d{4}~", "foot tells X11's numbers of keypad keys as characters"),
    ("qterminal", r"\x1b\[OE", "QTerminal's keypad 5, which begins as a focus report"),
    ("kitty", r"\x1b\[\d{3,4}::\d+;2(:3)?u", "kitty tells Shift with AltGr, and no text"),
    ("foot|kitty", r"\x1b\[\d\d;2:3u", "a release tells Shift, and not what it types"),
    ("kitty", r"\x1b\[0:.*u", "kitty tells a dead key with Shift as no key"),
]


def printed(press):
    """The name of a press: of a character and what is held, or of a key's name and that."""
    key, held = press
    prefix = "".join(f"{name.lower()}+" for name, bit in HELD.items() if held & bit)
    return prefix + (str(KeyPress(key)) if len(key) == 1 else key)


def names(key, held, shifted=None):
    """The names of a press and of its second one. `shifted` is what Shift makes of the key, if that
    is told."""
    first, second = (key, held), None
    is_letter = key != key.upper() and len(key) == len(key.upper()) == 1
    if len(key) == 1 and key != " " and held & SHIFT:
        shown = key.upper() if shifted is None and is_letter else shifted
        if shown is None:
            first = key, held & ~SHIFT if key in SIGNS else held
        elif not (is_letter and shown == key.upper() and held & STRONG):
            first = shown, held & ~SHIFT
            if shown != key and held & ~SHIFT and not is_letter and key not in SIGNS:
                second = key, held
    return [printed(it) for it in (first, second) if it]


def same_names(key, held):
    """The same of a key that types the same with Shift, which may be told or not."""
    return [*names(key, held, key if len(key) == 1 else None), *names(key, held)]


def shifted_in_us(key):
    return SHIFTED.get(key, key.upper())


def held_by(mods):
    return sum(HELD[it] for it in {*mods.split("+")} - {"-"})


def key_presses(name, mods):
    """The names of the presses that a key with modifiers is. A key of the keypad with two labels
    counts as both: in keypad mode most terminals send the same with Num Lock and without, and
    Shift turns Num Lock around."""
    held = held_by(mods)
    if name in MODIFIERS:
        return ["none"]
    if name.startswith("KP_"):
        keys = KEYPAD[name[3:]]
        sets = {held, held & ~SHIFT} if keys[1:] else {held}
        return [it for key in keys for held in sets for it in same_names(key, held)]
    key = NAMED.get(name, name)
    if not key.isascii():
        return same_names(key, held)
    return names(key, held, shifted_in_us(key) if len(key) == 1 else None)


def is_everyday(name, mods):
    """Whether a key is none of F13 to F24, of the keypad, or a modifier or lock alone, and neither
    is Super held nor the character beyond ASCII."""
    is_other = re.match(r"KP_|F1[3-9]|F2\d", name) or name in MODIFIERS or "Super" in mods
    return not is_other and name.isascii()


def presses_of(recorded):
    """Of each key and modifiers the presses, and whether it is an everyday key."""
    keys = {(name, mods) for mode, name, mods, *_ in recorded if mode in KEY_MODES}
    return {it: (key_presses(*it), is_everyday(*it)) for it in keys}


def pressed_name(name, mods):
    return name if mods == "-" else f"{mods}+{name}"


def is_pasted(name, data):
    """Whether the terminal pasted the selection, or ran a command of its menu."""
    if b"PASTED" in data or b"PS1=" in data:
        return True
    pastes = name in ("Insert", "KP_Insert", "KP_0", "v", "p")
    return pastes and len(data) > 1 and data[:1] != b"\x1b" and data.isascii()


def joined(field):
    return bytes.fromhex(field.replace("|", ""))


def is_odd(terminal, name, data, note):
    """Whether the bytes aren't those of the key."""
    # With Ctrl and Shift held urxvt composes a character by its number (ISO 14755). It comes when
    # they are up. The recorder presses z to see whether a terminal lives.
    return note == "late" and (terminal == "urxvt" or data == b"z" != name.encode())


def key_lines(terminal, recorded):
    """The lines of presses and releases, without reasons."""
    presses = presses_of(recorded)
    sent = collections.defaultdict(dict)
    for mode, name, mods, down, up, note in recorded:
        if mode in KEY_MODES and note != "skipped" and (name, mods) in presses:
            for kind, field in (("press", down), ("release", up)):
                data = joined(field)
                is_left_out = is_pasted(name, data) or is_odd(terminal, name, data, note)
                if data and not is_left_out:
                    sent[kind, mode].setdefault((name, mods), data)
    for mode in ("mok1", "mok2"):
        # Some terminals accept the mode without a difference.
        default = sent["press", "default"]
        if sum(default.get(it) != data for it, data in sent["press", mode].items()) < 5:
            del sent["press", mode]
    classes = collections.defaultdict(lambda: (set(), set()))
    for (kind, mode), keys in sent.items():
        for (name, mods), data in keys.items():
            main, other = classes[kind, mode, data]
            first, *more = presses[name, mods][0]
            (other if "KP_" in name else main).add(first)
            other.update(more)
    found = collections.OrderedDict()
    for (kind, mode), keys in sent.items():
        pressed = collections.OrderedDict()
        for it, data in keys.items():
            pressed.setdefault(data, []).append(it)
        for data, them in pressed.items():
            main, other = map(set, classes[kind, mode, data])
            if mode.startswith("dec"):
                # Few keys are pressed in these modes: the others are as without them.
                main |= classes[kind, "default", data][0]
                other |= classes[kind, "default", data][1]
            keypad = " ".join(pressed_name(*it) for it in them if "KP_" in it[0])
            also = " ".join(sorted(other - main))
            everyday = sum(presses[it][1] for it in them)
            key = (kind, data, " ".join(sorted(main)), also, keypad, (len(them), everyday))
            found.setdefault(key, []).append(mode)
    return lines_of(found)


def lines_of(found):
    return [
        Line(kind, "", ",".join(modes), *more, "", *numbers)
        for (kind, *more, numbers), modes in found.items()
    ]


def other_lines(recorded):
    """The lines of mouse and focus reports, pastes and replies."""
    found = collections.OrderedDict()

    def add(kind, mode, data, what, details=""):
        modes = found.setdefault((kind, joined(data), what, "", details, (1, 0)), [])
        modes += [mode] * (mode not in modes)

    for mode, name, mods, first, second, note in recorded:
        if mode.startswith("mouse"):
            drag = note if re.fullmatch(r"[0-9a-f|]+", note) else ""
            for what, field in (("press", first), ("drag", drag), ("release", second)):
                if field:
                    add("mouse", mode[5:], field, f"{pressed_name(name, mods)} {what}")
        elif mode == "focus1004" and first and name != "on":
            add("focus", "1004", first, name)
        elif mode.startswith("paste") and not name.startswith("long"):
            # Shift-Insert is a key in some terminals.
            if joined(first).startswith(b"\x1b[200~") or first and mods == "middle":
                add("paste", mode[5:].lstrip("-"), first, name, note.split("; ")[-1])
        elif mode == "query" and first:
            add("reply", mode, first, name)
    return lines_of(found)


def is_eight_bit_meta(text, right):
    """Whether it is a key with Alt as one character from U+0080 to U+00FF, or as its report without
    Alt."""
    report = re.fullmatch(r"\x1b\[(?:27;[1256];)?(\d{3})(?:;[1256])?[u~]", text)
    text = chr(int(report[1])) if report else text
    return "\x80" <= text <= "\xff" and len(text) == 1 and any("alt+" in it for it in right)


def reason(terminal, line, mode, elsewhere):
    """Why the parser reads no right press, or nothing if it reads one. `elsewhere` has of bytes the
    terminals, layouts, modes and right presses for which they are sent."""
    reader = reader_of(terminal)
    if is_exact(reader, line):
        return ""
    text = line.bytes.decode("utf-8", "surrogateescape")
    for of, pattern, why in GARBLED:
        if re.fullmatch(of, terminal) and re.fullmatch(pattern, text, re.S):
            return "garbled: " + why
    for of, pattern, why in UNIQUE:
        if re.fullmatch(of, terminal) and re.fullmatch(pattern, text, re.S):
            assert all(re.fullmatch(of, it[0]) for it in elsewhere[line.bytes]), line
            return "unique: " + why
    if is_eight_bit_meta(text, line.right):
        return "meta: Alt and a key as one character"
    kind, found = told(reader, line.bytes)
    if kind == "press":
        # What most terminals that send these bytes mean by them is read.
        them, others = [], []
        for it in sorted(elsewhere[line.bytes]):
            (others if it[3].isdisjoint(found) else them).append(it)
        if them and len({it[0] for it in them}) >= len({it[0] for it in others}):
            name, of, right = " ".join(them[0][:2]).rstrip(), *them[0][2:]
            return f"same: {min(right.intersection(found))} in {name}, {of}"
    return f"open: {' or '.join(found) or 'no key'}"


def with_reasons(files):
    """Makes the column `why` of the lines of all terminals."""
    elsewhere = collections.defaultdict(set)
    for terminal, lines in files.items():
        for line in lines:
            for mode in line.modes.split(",") if line.kind == "press" else ():
                sent = terminal, line.layout, mode, frozenset(line.right)
                elsewhere[line.bytes].add(sent)
    for terminal, lines in files.items():
        # Modes with the same reason are one line.
        merged = {}
        for line in lines:
            merged.setdefault(line._replace(modes="", why=""), []).extend(line.modes.split(","))
        made = []
        for line, modes in merged.items():
            reasons = {}
            is_key = line.kind in ("press", "release")
            for mode in sorted(modes, key=KEY_MODES.index) if is_key else modes:
                why = reason(terminal, line, mode, elsewhere) if is_key else ""
                reasons.setdefault(why, []).append(mode)
            made += [line._replace(modes=",".join(of), why=why) for why, of in reasons.items()]
        files[terminal] = made


def write(terminal, head, lines):
    text = "".join("\t".join(map(str, it.fields())) + "\n" for it in lines)
    (FOLDER / f"{terminal}.tsv").write_text(head + "\t".join(COLUMNS) + "\n" + text)


def recordings(folder):
    """The recordings by terminals: the version, and the rows."""
    found = {}
    for path in sorted(Path(folder).glob("*.tsv")):
        for text in path.read_text().splitlines():
            name, version, *row = (text + "\t" * 7).split("\t")[:8]
            found.setdefault(name, (version, []))[1].append(row)
    return found


def main():
    parser = argparse.ArgumentParser(
        description=__doc__, formatter_class=argparse.RawTextHelpFormatter
    )
    parser.add_argument("folder", nargs="?", help="where the recordings are")
    folder = parser.parse_args().folder
    heads, files = {}, {}
    for path in data_files():
        heads[path.stem], files[path.stem] = load(path)
    if folder and not recordings(folder):
        parser.error(f"there is no recording in {folder}")
    for name, (version, recorded) in recordings(folder).items() if folder else ():
        heads[name] = f"# {name}: {version.split()[-1]} of Debian\n"
        others = [it for it in files.get(name, ()) if it.layout]
        files[name] = key_lines(name, recorded) + others + other_lines(recorded)
    with_reasons(files)
    for name, lines in files.items():
        write(name, heads[name], lines)
        print(f"{name}: {len(lines)} lines")
    for name, lines in files.items():
        for line in lines:
            if line.why.startswith("open"):
                print(f"no reason why it isn't read: {name}: {line}")


if __name__ == "__main__":
    main()
