"""What is made from the data of tests/terminals: the tables of docs/TERMINALS.md, and what the page
of python/hedrugal/page shows."""
import collections
import itertools
import re
from pathlib import Path

from terminal_data import FOLDER, KEY_MODES, is_kitty
from terminal_judge import SEND_8

DOCUMENT = Path(__file__).resolve().parent.parent / "docs/TERMINALS.md"
PAGE_DATA = DOCUMENT.parent.parent / "python/hedrugal/page/terminals.tsv"
TITLES = {
    "gnome-terminal": "gnome-terminal (VTE)",
    "putty": "PuTTY",
    "screen-xterm": "screen in xterm",
    "tmux-xterm": "tmux in xterm",
    "vim-terminal": "Vim's terminal",
    "xfce4-terminal": "xfce4-terminal (VTE)",
    "xtermjs5": "xterm.js 5",
}
LAYOUTS = {"de": "German", "ru": "Russian", "us_intl": "US international"}
END = b"\x1b[201~"

# What is pressed, and the press from which it is to be told apart.
PAIRS = """shift+enter enter | ctrl+enter enter | ctrl+m enter | ctrl+tab tab | ctrl+i tab
    ctrl+[ escape | ctrl+backspace ctrl+h | shift+space space | ctrl+shift+a ctrl+a | ctrl+1 1
    ctrl+, , | ctrl+é é | super+a a | ctrl+up up | ctrl+home home | ctrl+delete delete
    ctrl+f5 f5 | f13 shift+f1 | KP_Enter enter | KP_7 7 | KP_Home home"""
PAIRS = [tuple(it.split()) for it in re.split(r" \| |\n", PAIRS)]

# Why a press isn't read exactly: the beginnings of the column `why`. Those with a text in it have a
# row for each.
REASONS = {
    "garbled": "garbled",
    "unique": "sent by nobody else",
    "meta": "8-bit Meta: Alt and a key as one character from U+0080 to U+00FF",
    "same": "told as the same bytes: most terminals mean by them what is read",
    "open": "none: the parser could read it",
}

QUESTIONS = {
    "cursor, ESC `[6n`": "DSR6",
    "cursor, ESC `[?6n`": "DECXCPR",
    "is it there, ESC `[5n`": "DSR5",
    "DA1, ESC `[c`": "DA1",
    "DA2, ESC `[>c`": "DA2",
    "DA3, ESC `[=c`": "DA3",
    "name, ESC `[>q`": "XTVERSION",
    "a mode, ESC `[?2004$p`": "DECRQM2004",
    "Kitty's flags, ESC `[?u`": "KITTY?u",
    "modifyOtherKeys, ESC `[?4m`": "MOK?4m",
    "text's colour, OSC 10": "OSC10",
    "background, OSC 11": "OSC11",
    "a colour of the palette, OSC 4": "OSC4;1",
    "clipboard, OSC 52": "OSC52;c",
    "terminfo, DCS `+q`": "XTGETTCAP-TN",
    "settings, DCS `$q`": "DECRQSS-SGR",
    "cells, ESC `[18t`": "XTWINOPS18",
    "pixels, ESC `[14t`": "XTWINOPS14",
    "graphics, APC `G`": "KITTY-graphics",
}


def set_up(terminal, line):
    """A terminal with a layout, if it isn't that of the United States."""
    return f"{terminal} {line.layout}".strip()


def title(name):
    terminal, _, layout = name.partition(" ")
    return TITLES.get(terminal, terminal) + (f", {LAYOUTS[layout]}" if layout else "")


def row(*cells):
    return f"| {' | '.join(map(str, cells))} |\n"


def table(head, rows):
    return row(*head) + "|" + "---|" * len(head) + "\n" + "".join(row(*it) for it in rows)


def peers():
    """The names of other parsers. Of each terminal with its layout and mode how many presses there
    were when they were measured, how many this library has to read exactly at least, and how many
    each of them read."""
    lines = (FOLDER / "peers.txt").read_text().splitlines()
    rows = [it.split("\t") for it in lines if not it.startswith("#")]
    found = {(f"{it[0]} {it[1]}".strip(), it[2]): list(map(int, it[3:])) for it in rows[1:]}
    return rows[0][5:], found


def exact(judged):
    """`judged` has the counts of each terminal and mode. Modes with the same numbers are one
    row."""
    names, others = peers()
    found = {}
    for name, mode in sorted(judged, key=lambda it: (it[0], KEY_MODES.index(it[1]))):
        counts = judged[name, mode]
        measured, _, *goods = others.get((name, mode), [None, None])
        # Those that were measured on other presses are left out.
        goods = goods if measured == counts["presses"] else [None] * len(names)
        goods = [counts[it] for it in ("port", "extended", "reason")] + goods
        cells = ["" if it is None else 100 * it // counts["presses"] for it in goods]
        found.setdefault((name, counts["presses"], *cells), []).append(mode)
    rows = ([title(name), ", ".join(modes), *cells] for (name, *cells), modes in found.items())
    head = ("Terminal", "Modes", "Presses", "Termwiz", "Extended", "Reason", *names)
    return table(head, rows)


def everyday(judged):
    """The figures of all terminals."""
    rows = []
    for name, start in (("all", ""), ("everyday", "everyday ")):
        kinds = (start + kind for kind in ("presses", "extended", "reason"))
        presses, good, reason = (sum(it[kind] for it in judged.values()) for kind in kinds)
        shares = f"{100 * good / presses:.1f}", f"{100 * good / (presses - reason):.1f}"
        rows.append([name, presses, good, reason, *shares])
    head = ("", "Presses", "Exact", "With a reason", "Percent exact", "of those without a reason")
    return table(head, rows)


def reasons(files):
    """Of each reason how many byte strings it has, how many presses, and in which terminals."""
    found = {it: {} for it in REASONS}
    for terminal, (_, lines) in files.items():
        for line in (it for it in lines if it.kind == "press" and it.why):
            kind, _, text = line.why.partition(": ")
            text = text if kind in ("garbled", "unique") else ""
            strings, counts, terminals = found[kind].setdefault(text, (set(), [], {}))
            strings.add(line.bytes)
            counts.append(line.count * len(line.modes.split(",")))
            terminals[title(terminal)] = True
    rows = []
    for kind, texts in found.items():
        for text, (strings, counts, terminals) in sorted(texts.items()):
            few = len(terminals) < 5
            of = ", ".join(terminals) if few else f"{len(terminals)} of {len(files)}"
            rows.append([REASONS[kind] + (text and f": {text}"), len(strings), sum(counts), of])
    return table(("What isn't read exactly, and why", "Byte strings", "Presses", "Terminals"), rows)


def is_told(lines, mode, pressed, other):
    """Whether two presses send other bytes in a mode; None if one of them sends none."""

    def sent(name):
        return {
            it.bytes
            for it in lines
            if it.kind == "press" and not it.layout and mode in it.modes.split(",")
            if name in (it.details if name.startswith("KP_") else it.what).split()
        }

    first, second = sent(pressed), sent(other)
    return not first & second if first and second else None


def apart(files):
    """In which modes a terminal tells presses apart."""

    def cell(lines, pair):
        told = {mode: is_told(lines, mode, *pair) for mode in KEY_MODES}
        if told["default"]:
            return "always"
        names = ["keypad"] * bool(told["deckpam"] or told["decckm+deckpam"])
        names += [it for it in ("mok1", "mok2") if told[it]]
        kitty = [it for it in told if is_kitty(it) and told[it]]
        names += ["kitty" if it == "kitty1" else it for it in kitty[:1]]
        return " ".join(names) or ("?" if told["default"] is None else "-")

    rows = ([*it, *(cell(lines, it) for _, lines in files.values())] for it in PAIRS)
    return table(("Press", "and not", *map(title, files)), rows)


def pastes(files):
    """What becomes of bytes inside a bracketed paste."""
    rows = []
    for terminal, (version, lines) in files.items():
        came = {it.what: it.bytes for it in lines if it.kind == "paste" and "2004" in it.modes}

        def end_of(name):
            if name not in came:
                return "nothing" if came else "?"
            inside = came[name][len(END) :]
            if not inside.endswith(END):
                return "**loses the end**"
            return "**passes END**" if END in inside[: -len(END)] else "one END"

        def escape():
            if "escape" not in came:
                return "nothing" if came else "?"
            after = came["escape"][len(END) :].decode()[1]
            return {"\x1b": "ESC", " ": "a space", "[": "no byte"}.get(after, after)

        cells = [end_of(it) for it in ("end", "splitend", "controls")]
        rows.append([title(terminal), version, escape(), *cells])
    head = ("", "Version", "ESC", "END", "END in END", "Control characters")
    return table(head, rows)


def replies(files):
    rows = []
    for name, question in QUESTIONS.items():
        asked = [{it.what for it in lines if it.kind == "reply"} for _, lines in files.values()]
        rows.append([name, *("yes" if question in it else "" for it in asked)])
    return table(("", *map(title, files)), rows)


def pressed(lines):
    """The presses of the usual layout, without keys that are none by themselves: their bytes and
    names, and in which modes a terminal sends these bytes for them, by their places."""
    sent, presses, found = (collections.defaultdict(list) for _ in range(3))
    for line in lines:
        if line.kind == "press" and not line.layout:
            for mode, name in itertools.product(line.modes.split(","), line.what.split()):
                sent[mode, name].append(line.bytes.hex())
    for (mode, name), texts in sent.items():
        # In modes of cursor keys the lines also have what is sent without them.
        usual = sent.get(("default", name)) if mode.startswith("dec") and len(texts) > 1 else None
        for text in texts:
            if name != "none" and text not in (usual or []):
                presses[mode, text].append(name)
    for (mode, text), names in presses.items():
        found[text, " ".join(names)].append(KEY_MODES.index(mode))
    return {it: tuple(sorted(modes)) for it, modes in found.items()}


def page_data(files):
    """Lines of a terminal, what its Backspace key sends, and some modes. Then lines of bytes, the
    presses that send them, and the places of such terminals and modes from 0 on."""
    rows = {}
    for terminal, (_, lines) in files.items():
        for it, modes in pressed(lines).items():
            rows.setdefault(it, []).append((terminal, modes))
    setups = sorted({setup for them in rows.values() for setup in them})
    places = {it: str(place) for place, it in enumerate(setups)}
    heads = []
    for terminal, modes in setups:
        erase = "BACKSPACE" if terminal in SEND_8 else "DELETE"
        heads.append((title(terminal), erase, ",".join(KEY_MODES[it] for it in modes)))
    texts = [(*it, " ".join(places[setup] for setup in them)) for it, them in rows.items()]
    parts = ("\n".join(map("\t".join, it)) for it in (heads, texts))
    return "\n\n".join(("# Made by tests/test_terminals.py --write", *parts)) + "\n"


def with_table(text, name, made):
    """The document with this table below its marker."""
    marker = f"<!-- table: {name} -->\n"
    assert marker in text, marker
    return re.sub(rf"(?<={re.escape(marker)})(\|.*\n)*", lambda _: made, text, count=1)


def tables(files, judged):
    """The tables by their names in the document."""
    by_counts = {it.__name__: it(judged) for it in (everyday, exact)}
    return by_counts | {it.__name__: it(files) for it in (reasons, apart, pastes, replies)}
