"""The tables of docs/GRAMMAR.md."""
import itertools
import re
import string
from pathlib import Path

from hedrugal import Dialect, KeyCodeEncodeModes, KeyReport, KittyModifiers, Modifiers
from hedrugal import MouseReport, Parser, Reading, Waiting, encode

from .notation import (
    COUNTS,
    bytes_of,
    filled,
    key_of,
    keys_by_letters,
    keys_of,
    letters_of,
    numbers,
)
from .notation import parts, quoted, read, shown

TERMWIZ = Reading(Dialect.TERMWIZ)


def shown_here(event):
    """An event as this page writes it."""
    if not isinstance(event, MouseReport):
        return shown(event)
    buttons = str(event.buttons).partition(".")[2].replace("|", "+")
    return f"a mouse event at column {event.x}, row {event.y}, {buttons}"


def shown_list(events):
    """Four characters or more are shown as one text."""
    text = "; ".join(map(shown_here, events))
    return re.sub(r"`\S`(?:; `\S`){3,}", shown_text, text)


def shown_text(run):
    return f"the characters `{''.join(quoted(run[0]))}`"


def shown_rest(parser):
    if parser.waiting is Waiting.PASTE:
        return "nothing, the open paste is buffered"
    if parser.waiting is Waiting.ESCAPE:
        return "nothing, ESC is buffered"
    return f"nothing, {COUNTS[parser.waiting_len]} bytes are buffered"


def examples(rows):
    """Each text has its flag, and each is read behind what the one before left."""
    for text, wanted in rows:
        told = []
        with Parser(Dialect.TERMWIZ) as parser:
            for step in text.split("; then "):
                data, _, flag = step.rpartition(", ")
                events = parser.feed(b"" if data == "no bytes" else bytes_of(data), 0)
                events += parser.flush() if flag == "no more" else []
                told.append(shown_list(events) or shown_rest(parser))
        yield text, wanted, "; then ".join(told)


def played(steps):
    """The events of bytes that come at times, and of the pauses, each with its time."""
    with Parser(Dialect.TERMWIZ) as parser:
        now = 0
        for step in [*steps, "1000000"]:
            time, _, data = step.partition(" ")
            while (left := parser.timeout(now / 1000)) is not None:
                due = now + round(left * 1000)
                if due >= int(time):
                    break
                now = due
                yield from ((now, it) for it in parser.idle(now / 1000))
            now = int(time)
            yield from ((now, it) for it in parser.feed(bytes_of(data), now / 1000))


def timed_examples(rows):
    for steps, wanted in rows:
        told = [f"{time} {shown_here(it)}" for time, it in played(parts(steps, ","))]
        yield steps, wanted, "; ".join(told)


# Bytes of each kind of rest, in the order of the table.
RESTS = [b"\x1b", b"\x1b[", b"\x1b[1", b"\x1b]0;ab", b"\xe2", b"\x1b[200~ab"]


def limits(rows):
    for data, (rest, since, cell) in zip(RESTS, rows, strict=True):
        with Parser() as parser:
            parser.feed(data[:1], 0)
            parser.feed(data[1:], 0.01 if data[1:] else 0)
            left = parser.timeout(0.01)
        told = None if cell == "no limit" else numbers(cell)[0]
        told = told and told + len(data) * ("each byte" in cell)
        told = told and told - 10 * (since == "its first byte came" or len(data) == 1)
        yield rest, told, left and round(left * 1000)


def suffixes(rows):
    """What each suffix adds to the up arrow."""
    for row in rows:
        for names, wanted in zip(row[::2], row[1::2]):
            for name in parts(names, ","):
                suffix = "" if name == "empty" else name.strip("`")
                (event,) = read(f"\x1b[{suffix and '1' + suffix}A".encode(), TERMWIZ)
                yield name, f"`UpArrow` {wanted}".removesuffix(" none"), shown(event)


def mouse_buttons(rows):
    for row in rows:
        for codes, wanted in zip(row[::2], row[1::2]):
            for code in numbers(codes):
                (event,) = read(b"\x1b[<%d;1;1M" % code, TERMWIZ)
                yield code, wanted, str(event.buttons).partition(".")[2].replace("|", "+")


# The bits of the modifiers of each suffix s, and of those of M that there are besides.
PLAIN = {"": 0, **{f";{number}": number - 1 for number in range(1, 9)}}
META = {f";{number}": number - 9 & 7 | KittyModifiers.ALT.value for number in range(9, 17)}


def bits_of(cell):
    return sum(KittyModifiers[it].value for it in re.findall("SHIFT|ALT|CTRL", cell))


def by_numbers(keys):
    """2 `Insert`, 1 and 7 `Home`: a key by each number."""
    return {it: key_of(quoted(part)[0]) for part in parts(keys, ",") for it in numbers(part)}


def by_codes(keys):
    """F1 to F5 are 11 to 15, F15 and F16 are 28 and 29: a key by each number."""
    for part in keys.split(", "):
        functions, codes = part.split(" are ")
        for number, code in zip(numbers(functions.replace("F", "")), numbers(codes), strict=True):
            yield code, key_of(f"F{number}")


def by_character(form, keys):
    first, last = map(int, re.search(r"c from (\d+) to (\d+)", form).groups())
    named = by_numbers(keys.partition(", else ")[0]) if ", else " in keys else {}
    return {c: named.get(c, chr(c)) for c in range(first, last + 1)}


def by_letters(form, keys, before):
    """Those of a row before, or a key for each letter of the form, or letters beside their keys."""
    if named := re.search(r"the keys of `(\w+)`", keys):
        return before[named[1]]
    letters = letters_of(form.partition(" and ")[2])
    if not letters:
        return dict(keys_by_letters(keys))
    return dict(zip(letters, letters if keys == "that letter" else keys_of(keys), strict=True))


def keys_of_word(word, form, keys, before):
    """What may stand for a word of a form, with the key that it tells."""
    if word == "c":
        return by_character(form, keys)
    if word == "letter":
        return by_letters(form, keys, before)
    return dict(by_codes(keys)) if word == "code" else by_numbers(keys)


def bits_of_word(word, form, modifiers):
    """What may stand for a word of a form, with the bits of the modifiers that it tells."""
    if word == "end":
        ends = modifiers.removeprefix("end ").split(", ")
        return {quoted(it)[0]: bits_of(it) for it in ends}
    found = PLAIN | META if word == "M" else PLAIN
    return {text: bits for text, bits in found.items() if text or "s not empty" not in form}


def fixed_rows(form, keys, modifiers):
    """The rows of a rule whose bytes are told one by one."""
    if form.startswith("bytes "):
        codes, others = (numbers(it) for it in form.split(" but "))
        return {bytes([it]): (chr(96 + it), bits_of(modifiers)) for it in codes if it not in others}
    key = key_of(quoted(keys)[0])
    return {bytes_of(it): (key, bits_of(modifiers)) for it in parts(form)}


def rows_of(form, keys, modifiers, before):
    """The rows of a rule: their bytes, each with the key and the bits of its modifiers. And the
    keys by their letters."""
    front, _, letters = form.partition(" and ")
    template = re.sub(", (s not|c from).*", "", front) + (letters and " letter")
    words = re.findall(r"\b(?:c|code|digit|letter|s|M|end)\b", re.sub("`[^`]*`", "", template))
    of_key = next((it for it in words if it in ("c", "code", "digit", "letter")), None)
    if not of_key or form.startswith("bytes "):
        return fixed_rows(form, keys, modifiers), {}
    told = keys_of_word(of_key, form, keys, before)
    of_bits = next((it for it in words if it in ("s", "M", "end")), None)
    bits = bits_of_word(of_bits, form, modifiers) if of_bits else {"": bits_of(modifiers)}
    return {
        filled(template, **{of_key: text, of_bits or "": more}): (key, held)
        for text, key in told.items()
        for more, held in bits.items()
    }, told


def rules(rows):
    """Each rule has as many rows as its last cell says, and all are those of the library."""
    all_rows, before = {}, {}
    for rule, form, keys, modifiers, count in rows:
        found, before[rule.strip("`")] = rows_of(form, keys, modifiers, before)
        yield rule, int(count), len(found)
        all_rows.update(found)
    with Parser() as parser:
        entries = {it.bytes: (it.key, it.modifiers.value >> 1) for it in parser.entries()}
    for data, key in entries.items():
        yield ascii(data.decode()), all_rows.pop(data, None), key
    yield "more than there is", all_rows, {}


LISTED = Path("crates/termwiz_grammar/specs/Listed.antt")


def defined(name):
    """The keys of a list in the definition."""
    body = re.search(rf"^{name} =\n(.*?)\[\]", LISTED.read_text(), re.MULTILINE | re.DOTALL)[1]
    return {key_of(it.replace("Function ", "F")) for it in re.findall(r"Function \d+|\w+", body)}


def lines_defined():
    """Of each line of the definition the sets of modifiers, and the level as it names it."""
    text = re.search(r"^pub data IsListedAt.*?\n\n", LISTED.read_text(), re.M | re.S)[0]
    for line in re.split(r"^  (?=\w+ :)", text, flags=re.MULTILINE)[1:]:
        line = " ".join(it for it in line.splitlines() if not it.startswith("  --"))
        bits, level = re.search(r"IsListedAt (?:\w+|\(Char c\)) (\w+) (.+)$", line.strip()).groups()
        named = re.search(r"Contains (any_of_three|\((?:[^()]|\([^()]*\))*\)) held", line)
        sets = re.split(" ∷ ", named[1]) if named else [bits]
        sets = EIGHT if sets == ["any_of_three"] else [bits_of(it) for it in sets if it[0] != "["]
        yield {*sets}, "any but 2" if "level ≢" in line else level


# Levels of modifyOtherKeys, by the words of the definition.
LEVELS = {
    "level": [None, 0, 1, 2, 3],
    "any but 2": [None, 0, 1, 3],
    "None": [None],
    "(Some n)": [0, 1, 2, 3],
    "(Some (pos 2))": [2],
}


def levels(cell):
    words = {"any": "level", "any but `Some(2)`": "any but 2", "`Some(2)`": "(Some (pos 2))"}
    words |= {"`None`": "None", "`None`, application cursor keys on": "None"}
    return LEVELS[words.get(cell, "(Some n)" if cell == "`Some(n)`, for every n" else cell)]


def characters(cell):
    """Those of a cell, of ASCII and two others."""
    given = [chr(it) for it in [*range(32, 128), 233, 0x1F600]]
    tests = {
        "U+0020 on": lambda it: True,
        "U+0020 to U+007E": lambda it: it < "\x7f",
        "lowercase letter": lambda it: it in string.ascii_lowercase,
        "a letter, digit or punctuation": lambda it: " " < it < "\x7f",
        "the space or a digit": lambda it: it in " 0123456789",
    }
    test = next(test for words, test in tests.items() if words in cell)
    left_out = {*letters_of(cell.partition(" but not ")[2]), "\x7f"}
    return [it for it in given if test(it) and it not in left_out]


def listed_keys(cell):
    cell = cell.replace("the four application arrows", ARROWS)
    return characters(cell) if "`Char(c)`" in cell else keys_of(cell.replace(";", ","))


ARROWS = ", ".join(f"`Application{it}Arrow`" for it in ("Left", "Right", "Up", "Down"))
EIGHT = range(8)


def held(cell):
    """The bits of each set of modifiers that a cell names: any of ALT, SHIFT; CTRL+SHIFT."""
    for part in cell.split("; "):
        most = bits_of(part)
        yield from (it for it in EIGHT if it & most == it) if part.startswith("any") else [most]


def keys_read_back(rows):
    """All that is named is read back, and the lists of keys are those of the definition."""
    named, held_sets = [], []
    for level_cell, cell, modifiers in rows:
        keys = listed_keys(cell)
        named.append(set(keys))
        modes = [
            KeyCodeEncodeModes(modify_other_keys=it, application_cursor_keys=" on" in level_cell)
            for it in levels(level_cell)
        ]
        held_sets.append((set(held(modifiers)), levels(level_cell)))
        for key, bits, mode in itertools.product(keys, held(modifiers), modes):
            sent = encode(key, Modifiers(bits << 1), mode)
            wanted = [KeyReport(key, KittyModifiers(bits))]
            yield f"{level_cell}, {cell}, {modifiers}", wanted, read(sent, TERMWIZ)
    lists = ["cursor_and_function_keys", "keys_without_modifiers", "edit_and_high_function_keys"]
    yield "lists", [defined(it) for it in lists], [named[0], named[1], named[7]]
    shared = re.search('codes "(\\w+)"', LISTED.read_text())[1]
    letters = {*string.ascii_lowercase} - {*shared}
    yield "letters", letters, named[5]
    found = [(sets, LEVELS[level]) for sets, level in lines_defined()]
    # Two lines of the definition are one of the table.
    found[6:8] = [(found[6][0] | found[7][0], found[6][1])]
    yield "modifiers", [*found, (set(EIGHT), [None])], held_sets
