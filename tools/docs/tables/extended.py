"""The tables of docs/EXTENDED.md."""
import re
import string

import hedrugal
from hedrugal import Csi, CursorPosition, Dialect, EraseByte, Function, KeyboardFlags
from hedrugal import KeyCode, KeyEventKind, KeyReport, KittyKeyboardFlags, KittyModifiers
from hedrugal import MouseReport, NewlineByte, Osc, Parser, Reading, Resized, Size, Waiting, reply

from .notation import COUNTS, bytes_of, expanded, filled, is_one, key_of, keys_by_letters, keys_of
from .notation import letters_of, numbers, parts, quoted, read, shown

EXTENDED = Reading(Dialect.EXTENDED)
READINGS = {
    "as at first": [EXTENDED],
    "one question": [Reading(questions=1)],
    "either": [EXTENDED, Reading(questions=1)],
    "`erase` `Backspace`": [Reading(erase=EraseByte.BACKSPACE)],
    "`newline` `Enter`": [Reading(newline=NewlineByte.ENTER)],
    "`dialect` `Termwiz`": [Reading(Dialect.TERMWIZ)],
}


def played(text, reading):
    """What the calls tell of a text: ESC `]11;a`, and a flush; or: ESC `]4;1;a`, and then BEL."""
    with Parser() as parser:
        parser.reading = reading
        told = []
        for call in re.split(r", and then |, and (?=a flush)", text):
            events = parser.flush() if call == "a flush" else parser.feed(bytes_of(call), 0)
            told.append("; ".join(map(shown, events)) or "nothing")
        left = f"; {COUNTS[parser.waiting_len]} bytes stay buffered" if parser.waiting_len else ""
        return " / ".join(told) + left


def examples(rows):
    for reading, text, wanted in rows:
        for it in READINGS[reading]:
            yield text, wanted, "; ".join(played(each, it) for each in parts(text))


def string_examples(rows):
    return examples(("as at first", *row) for row in rows)


def at_first(value):
    """A value as the table of the fields writes it."""
    if isinstance(value, int):
        return str(value).lower()
    return f"`{type(value).__name__}::{value.name.title().replace('_', '')}`"


def fields_of_reading(rows):
    """Each with its value at first. A parser is made with a dialect."""
    found = {f"`{name}`": at_first(value) for name, value in vars(EXTENDED).items()}
    found["`dialect`"] = "what `new` was given"
    yield "all", {field: value for field, value, _ in rows}, found
    says = {field: cell for field, _, cell in rows}
    for name, number in re.findall(r"`(\w+)` (\d+)", says["`erase`"]):
        (report,) = read(bytes([int(number)]), Reading(erase=EraseByte[name.upper()]))
        yield name, KeyCode.BACKSPACE, report.key
    with Parser() as parser:
        for _ in range(1000):
            parser.expect_position()
        yield "questions", numbers(says["`questions`"]), [parser.reading.questions]


TERMWIZ = Reading(Dialect.TERMWIZ)
BYTES = range(256)


def fitting(form, reading=EXTENDED):
    """The bytes that make one event of a form."""
    return {it for it in BYTES if is_one(form.replace(b"?", bytes([it])), reading)}


def extra(form):
    """Those with which it is no sequence of the port."""
    return fitting(form) - fitting(form, TERMWIZ)


def span(cell):
    """The bytes of a range: from 0x20 to 0x3f."""
    first, last = (int(it, 16) for it in re.findall("0x[0-9a-f]{2}", cell))
    return set(range(first, last + 1))


def codes(cell):
    return set(map(ord, letters_of(cell)))


def front(cell):
    """The bytes with which a form begins: ESC `[M`."""
    return bytes_of(re.match("ESC `[^`]+`", cell)[0])


def forms(rows):
    (_, control, most), (_, x10, _), (_, console, _), (_, keypad, _), (_, modified, _), *_ = rows
    start, inner, final = control.split(", ")
    yield inner, span(inner), fitting(front(start) + b"?p")
    yield final, span(final), fitting(front(start) + b"5;?")
    lengths = [it for it in range(200, 300) if is_one(front(start) + b"1" * (it - 3) + b"p")]
    yield most, numbers(most), [max(lengths)]
    yield x10, span(x10), fitting(front(x10) + b"???", Reading(x10_mouse=True))
    yield console, codes(console), extra(front(console) + b"?")
    yield keypad, codes(keypad.partition(" and ")[2]), extra(front(keypad) + b"?")
    plain, one = parts(modified)
    start, zero, digits, letters = plain.split(", ", 3)
    yield plain, codes(letters), extra(front(start) + b"6?")
    yield plain, codes(letters), extra(front(start) + quoted(zero)[0].encode() + b"6?")
    yield digits, {ord(str(it)) for it in numbers(digits)}, extra(front(start) + b"?P")
    start, letters = one.split(", such a digit, and ")
    yield one, codes(letters), extra(front(start) + b"6?")


def opens(data):
    with Parser() as parser:
        return not parser.feed(data, 0) and parser.waiting is Waiting.STRING


def opening(form):
    """The bytes with which a form opens a string."""
    return {it for it in BYTES if opens(form.replace(b"?", bytes([it])))}


def openings(rows):
    (_, osc, _), (_, title, _), (_, names, _), (_, dcs, _), (_, apc, _) = rows
    yield "kinds", ["OSC", "OSC", "DCS", "DCS", "APC"], [row[0] for row in rows]
    for cell, end in ((osc, quoted(osc)[1].encode()), (dcs, b"$r")):
        digits = [it for it in range(1, 20) if opens(front(cell) + b"1" * it + end)]
        yield cell, numbers(re.sub(r"0x\w+", "", cell)), digits
    length = next(it for it in range(1000) if opens(front(title) + b"l" + b"a" * it))
    yield title, numbers(title), [length]
    yield title, codes(title.partition(", ")[2]), opening(front(title) + b"?" + b"a" * length)
    for text in (front(names) + name.encode() for name in quoted(names)[1:]):
        yield text, (True, False), (opens(text), opens(text[:-1]))
    yield dcs, set(map(ord, quoted(dcs)[1:])), opening(front(dcs) + b"1?r")
    yield dcs, span(dcs), opening(front(dcs) + b"1$?")
    yield apc, set(string.ascii_letters.encode()), opening(front(apc) + b"?=")


# What stands for the words of a form, and what a report has if they are there.
WORDS = {"c": 97, "shifted": 65, "base": 98, "mods": 6, "type": 3, "text": 99, "n": 15, "m": 6}
TOLD = {
    "mods": {"modifiers": KittyModifiers.SHIFT | KittyModifiers.CTRL},
    "type": {"kind": KeyEventKind.RELEASE},
    "shifted": {"shifted": "A"},
    "base": {"base": "b"},
    "text": {"text": "c"},
}


def reports(form, key, **values):
    """Each text of a form, and the report of the key that it is."""
    for text in expanded(form):
        told = {}
        for word in re.findall(r"\w+", re.sub("`[^`]*`", "", text)):
            told.update(TOLD.get(word, {}))
        yield b"\x1b[" + filled(text, **{**WORDS, **values}), KeyReport(key, **told)


def compared(pairs, reading=EXTENDED):
    for data, event in pairs:
        yield ascii(data.decode()), [event], read(data, reading)


def by_letters(form, keys):
    for letter, key in keys_by_letters(keys):
        yield from compared(reports(form.replace("a letter", f"`{letter}`"), key))


ASKED = Reading(questions=1)
SIZE = Size(columns=80, rows=24, width=640, height=480)
PLACES = {"row": 5, "column": 7, "page": 1, "x": 3, "y": 4, "flags": 5, **SIZE._asdict()}


def focus(forms, events):
    for form, event in zip(parts(forms), parts(events), strict=True):
        yield form, event, "; ".join(map(shown, read(b"\x1b[" + bytes_of(form))))


def character_keys(forms, _):
    """The first field isn't `c:`."""
    pairs = reports(parts(forms)[0], "a")
    yield from compared(it for it in pairs if not re.match(rb"\x1b\[97:[;u]", it[0]))


def numbered_keys(form, _):
    """The rules have their rows, and the numbers after them stand for other keys."""
    form, codes = parts(form)
    yield from compared(reports(form, Function(5)))
    low, high = codes.split(", or ")[1:]
    told = {it: read(b"\x1b[%d~" % it)[0] for it in [*range(30, 45), *range(57340, 63750)]}
    reported = {it for it, event in told.items() if isinstance(event, KeyReport)}
    rows = {31, 32, 33, 34, 42, 43, 44}
    yield codes, {*numbers(low), *numbers(high)}, reported - rows
    yield "35 to 38", [Function(it) for it in range(21, 25)], [told[it].key for it in numbers(low)]


def other_keys(form, _):
    """With Shift the character is also what the key types with Shift."""
    (data, report), *_ = reports(parts(form)[0], "a")
    yield form, [report.modifiers, "a"], [read(data)[0].modifiers, read(data)[0].shifted]
    for code, key in ((9, KeyCode.TAB), (0, 0), (228, "ä")):
        data = b"\x1b[" + filled(parts(form)[0], **{**WORDS, "c": code})
        yield data, key, read(data)[0].key


def f3(form, key):
    return compared(reports(form.split(", if")[0], key_of(key)))


def positions(forms, _):
    """With a 0 a position is a Csi."""
    event = CursorPosition(5, 7)
    for form in parts(forms):
        texts = [filled(it, **PLACES) for it in expanded(form)]
        yield from compared(((b"\x1b[" + it, event) for it in texts), ASKED)
        zero = filled(form, **{**PLACES, "column": 0})
        yield from compared([(b"\x1b[" + zero, Csi(zero))], ASKED)


def flags(form, _):
    form, most = form.split(", up to ")
    told = {
        it
        for it in range(500)
        if read(b"\x1b[" + filled(form, flags=it)) != [Csi(filled(form, flags=it))]
    }
    yield form, set(range(int(most) + 1)), told
    event = KeyboardFlags(KittyKeyboardFlags(5))
    yield from compared([(b"\x1b[" + filled(form, flags=5), event)])


def resized(form, _):
    return compared([(b"\x1b[" + filled(form, **PLACES), Resized(SIZE))])


def rxvt_keys(forms, told):
    """n with each end is the key of n with `~`, and what the end says."""
    ends = parts(told.partition(" with `~`, ")[2])
    for form, bits in zip(parts(forms), ends, strict=False):
        held = sum(KittyModifiers[it].value for it in re.findall("[A-Z]+", bits))
        data = b"\x1b[" + filled(form, n=15)
        yield from compared([(data, KeyReport(Function(5), KittyModifiers(held)))])


def mice(form, told):
    """The codes of a form, and that less than each is the code of SGR's report."""
    form, codes = form.split(", b from ")
    less = int(re.search(r"b - (\d+)", told)[1])
    first, last = re.findall(r"\d+", codes)
    place = int(re.search(r"x - (\d+)|$", told)[1] or 0)
    is_bytes, is_side = "bytes" in form, int(last) > 127
    values = {"x": 3 + place, "y": 4 + place}
    found = set()
    for code in range(256):
        given = {**values, "b": code}
        given = {it: chr(value) if is_bytes else value for it, value in given.items()}
        text = filled(form.split(" or ")[0], **given).decode()
        data = b"\x1b[" + text.encode("latin-1" if is_bytes else "utf-8")
        events = read(data, Reading(x10_mouse=is_bytes))
        if [type(it) for it in events] == [MouseReport] and is_side == (
            (events[0].button or 0) > 7
        ):
            found.add(code)
            if code - less & 3 != 3 or is_side:
                sgr = read(f"\x1b[<{code - less + 128 * is_side};3;4M".encode())
                yield ascii(data.decode("latin-1")), sgr, events
    yield codes, set(range(int(first), int(last) + 1)), found


def console_keys(forms, keys):
    first, last = quoted(forms)
    letters = [chr(it) for it in range(ord(first[-1]), ord(last[-1]) + 1)]
    for letter, key in zip(letters, keys_of(keys), strict=True):
        yield from compared([(b"\x1b[[" + letter.encode(), KeyReport(key))])


def tabs(form, _):
    for data, report in reports(form, KeyCode.TAB):
        held = report.modifiers | KittyModifiers.SHIFT
        yield from compared([(data, KeyReport(KeyCode.TAB, held, report.kind))])


def digit_keys(forms, _):
    keys = dict(zip("ABCDEFH", keys_of("arrows, `KeyPadBegin`, `End`, `Home`")))
    keys.update(zip("PQRS", keys_of("F1 to F4")))
    letters = letters_of(forms)
    yield forms, "".join(keys), "".join(letters)
    for letter, key in keys.items():
        for bits in range(1, 8):
            report = KeyReport(key, KittyModifiers(bits))
            yield from compared([(f"\x1b[{bits + 1}{letter}".encode(), report)])


def begin(form, key):
    return compared([(b"\x1b[" + bytes_of(form), KeyReport(*keys_of(key)))])


def anything_else(_, __):
    return compared([(b"\x1b[31m", Csi(b"31m"))])


CONTROLS = [focus, character_keys, by_letters, numbered_keys, other_keys, f3, positions, flags]
CONTROLS += [resized, f3, rxvt_keys, mice, mice, mice, mice, mice, console_keys, tabs, digit_keys]
CONTROLS += [begin, anything_else]


def control_sequences(rows):
    """Each row by what its bytes are."""
    for (form, told), check in zip(rows, CONTROLS, strict=True):
        yield from check(form, told.removeprefix("`Key`: "))


def settings_bytes(rows):
    """What each setting makes of a byte, alone or after ESC."""
    for byte, cell in rows:
        key, field, value, other = quoted(cell)
        kind = {"erase": EraseByte, "newline": NewlineByte}[field]
        for setting in kind:
            wanted = key if setting.name == value.upper() else other
            wanted = chr(int(wanted[7:-1], 16)) if "Char" in wanted else key_of(wanted)
            (report,) = read(bytes([int(byte)]), Reading(**{field: setting}))
            yield f"{byte} with {setting}", wanted, report.key


def is_kind(cell, code, is_sgr, end):
    """Whether a row is about a code of a report without modifiers."""
    codes = numbers(re.sub(r" or (?=\d)", ", ", cell))
    if "SGR" in cell:
        return is_sgr and code in codes
    if "urxvt" in cell or "these" in cell:
        return not is_sgr and code in codes
    if cell == "any other `m`":
        return end == "m"
    if "any other code with" in cell:
        return bool(code & codes[0])
    return not codes or code in codes


def is_button(cell, code, button):
    if cell == "none":
        return button is None
    wanted = 8 + code - 128 if code > 127 else 4 + code - 64 if code > 63 else 1 + code
    return button == wanted & ~32 and (cell.startswith("that") or button in numbers(cell))


def mouse_kinds(rows):
    """The first row that is about a report says its kind and button."""
    for code in range(192):
        for is_sgr, end in ((True, "M"), (True, "m"), (False, "M")):
            text = f"\x1b[<{code};3;4{end}" if is_sgr else f"\x1b[{code + 32};3;4M"
            events = read(text.encode())
            if code & 28 or not isinstance(events[0], MouseReport):
                continue
            row, kind, button = next(it for it in rows if is_kind(it[0], code, is_sgr, end))
            yield f"{row}: {text[1:]}", kind, f"`{events[0].kind.name.title()}`"
            yield f"{row}: {text[1:]}", True, is_button(button, code, events[0].button)


def other_sequences(rows):
    (_, keypad), (modified, more), _ = rows
    *fronts, one = ["", *quoted(modified)[1:]]
    keypad = dict(keys_by_letters(re.sub(r" \(.*?\)", "", keypad.removeprefix("`Key`: "))))
    for letter, key in keypad.items():
        yield letter, [KeyReport(key)], read(b"\x1bO" + letter.encode())
    functions = dict(keys_by_letters(more.removeprefix("`Key`: ").split(", and")[0]))
    for letter, key in {**keypad, **functions}.items():
        for front in [*fronts, *([one] if letter in functions else [])] * (letter not in "EG"):
            report = KeyReport(key, KittyModifiers.SHIFT | KittyModifiers.CTRL)
            yield front + letter, [report], read(f"\x1bO{front}6{letter}".encode())
    yield "a title", [Osc(b"lab")], read(b"\x1b]lab\x1b\\")


# What stands for the words of a reply. The colours are told by two digits.
VALUES = {"type": 0, "version": 276, "pairs": "7e56", "mode": 2004, "state": 1, "index": 3}
VALUES.update(colour="rgb:12/34/56", text="foot", base64="YWI=", selection="c", n=62)


def reply_forms(kind, cell):
    """The events of a row's forms."""
    for form in parts(re.split("; selection|, state", cell)[0]):
        starts, _, end = form.partition(", and ")
        for start in re.findall("`[^`]+`", starts) if " or " in starts else [form]:
            for text in expanded(f"{start} {end}" if end and " or " in starts else form):
                yield kind(filled(text, **PLACES, **VALUES))


def said(it):
    """The names of a reply: its own, and of what it says."""
    of = [getattr(it, field, None) for field in ("report", "name", "scheme")]
    return {type(it).__name__.removesuffix("Reply"), *(value.name.title() for value in of if value)}


def replies(rows):
    for event, form, wanted, *_ in rows:
        kind = getattr(hedrugal, quoted(event)[0])
        found = [said(reply(it)) for it in reply_forms(kind, form)]
        yield form, set(quoted(wanted)) - {"?"}, set().union(*found)
        yield form, False, {"NoneType"} in found
        if states := re.search(r"state from (\d) to (\d)", form):
            known = {it for it in range(100) if reply(Csi(b"?7;%d$y" % it))}
            yield form, set(range(int(states[1]), int(states[2]) + 1)), known
        if letters := form.partition("selection is ")[2]:
            known = {chr(it) for it in range(33, 127) if reply(Osc(b"52;%c;" % it))}
            yield form, set(letters_of(letters)), known
