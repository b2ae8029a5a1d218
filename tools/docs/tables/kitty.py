"""The tables of "Keys to bytes" in docs/EXTENDED.md."""
import re

from hedrugal import KeyReport, KittyKeyboardFlags, KittyModifiers

from .notation import bytes_of, expanded, filled, key_of, keys_of, letters_of, quoted

BEFORE = KittyKeyboardFlags.NONE
REPORTED = KittyKeyboardFlags.DISAMBIGUATE_ESCAPE_CODES
HELD = ["none", "Ctrl", "Alt", "Shift", "Ctrl+Shift", "Alt+Shift", "Ctrl+Alt"]


def bits(text):
    """The modifiers that a text such as Ctrl+Alt names."""
    names = [] if text == "none" else text.upper().split("+")
    return KittyModifiers(sum(KittyModifiers[it].value for it in names))


def text_key(cell):
    """What is sent for the key `b`, with which Shift types `B`, and Ctrl the byte 2."""
    words = {"text": "`b`", "key": "`b`", "s": "`B`", "c": "2", "ESC": "ESC"}
    return " ".join(words[it] for it in re.findall(r"\w+", cell))


def legacy_keys(rows):
    """A cell without bytes stands for the key's report."""
    for key, *cells in rows:
        is_text = key.startswith("a text key")
        name = {"Space": "` `", "F1 to F4": "F1"}.get(key, "`b`" if is_text else key)
        for held, cell in zip(HELD, cells, strict=True):
            cell = "`B`" if is_text and held == "Shift" else text_key(cell) if is_text else cell
            cell = re.sub(r" and `P` to `S`", "`P`", cell)
            report = KeyReport(key_of(name), bits(held), shifted="B" if is_text else None)
            wanted = bytes_of(cell) if cell else report.encode(REPORTED)
            yield f"{key} with {held}", wanted, report.encode(BEFORE)


def ctrl_characters(rows):
    """Letters have the place in the alphabet, and any other key is its own."""
    wanted = {chr(it): it - 96 if chr(it).islower() else it for it in range(32, 127)}
    wanted.update(
        {key: int(c) for cell, c in rows for key in [*quoted(cell), " " * ("space" in cell)] if key}
    )
    for key, code in wanted.items():
        if not key.isupper():
            yield key, bytes([code]), KeyReport(key, KittyModifiers.CTRL).encode(BEFORE)


def keypad(cell):
    """The keys of a cell, of which some are numbers in Kitty's table."""
    codes = [int(it) for it in re.findall(r"\b\d{5}\b", cell)]
    return [*keys_of(cell), *codes]


def main_keys(cell):
    return [key_of(it) for it in letters_of(cell) or quoted(cell)]


def keypad_keys(rows):
    for of_keypad, cell in rows:
        for key, main in zip(keypad(of_keypad), main_keys(cell), strict=True):
            for held in (KittyModifiers.NONE, KittyModifiers.CTRL):
                wanted = KeyReport(main, held).encode(BEFORE)
                yield key, wanted, KeyReport(key, held).encode(BEFORE)


SHIFT = KittyModifiers.SHIFT


def key_reports(rows):
    """The number of a key is that which is sent."""
    (lettered, letters), (numbered, form), (_, other) = rows
    front, letters = letters.split(" and a letter: ")
    for key, letter in zip(keys_of(lettered), letters_of(letters), strict=True):
        for text, held in zip(expanded(front), (KittyModifiers.NONE, SHIFT), strict=True):
            sent = KeyReport(key, held).encode(KittyKeyboardFlags(8))
            yield key, filled(text, mods=2) + letter.encode(), sent
    for key in keys_of(numbered):
        for text, held in zip(expanded(form), (KittyModifiers.NONE, SHIFT), strict=True):
            sent = KeyReport(key, held).encode(KittyKeyboardFlags(8))
            number = re.search(rb"\d+", sent)[0].decode()
            yield key, filled(text, mods=2, number=number), sent
    values = {"number": 97, "shifted": 65, "base": 98, "mods": 2, "text": 65}
    wanted = {filled(it, **values) for it in expanded(other)}
    report = KeyReport("a", SHIFT, shifted="A", base="b", text="A")
    for flags in (8, 12, 24, 28):
        sent = report.encode(KittyKeyboardFlags(flags))
        yield sent, True, sent in wanted
