"""How the pages write bytes, keys and events."""
import re

from hedrugal import CursorPosition, Function, KeyCode, KeyEventKind, KeyReport
from hedrugal import KittyModifiers, MouseKind, MouseReport, Parser, Paste, Reading, StringCut
from hedrugal import StringPart

NAMED = {
    **{"ESC": "\x1b", "CR": "\r", "LF": "\n", "HT": "\t", "DEL": "\x7f", "BS": "\b", "NUL": "\0"},
    **{"BEL": "\x07", "ST": "\x1b\\", "START": "\x1b[200~", "END": "\x1b[201~", "space": " "},
}
# In the order in which they are written.
MODIFIERS = ["SUPER", "HYPER", "META", "CTRL", "ALT", "SHIFT"]
COUNTS = "no one two three four five six seven eight nine ten eleven twelve thirteen fourteen"
COUNTS = [*COUNTS.split(), *"fifteen sixteen seventeen eighteen nineteen twenty".split()]
COUNTS += [f"twenty-{it}" for it in COUNTS[1:10]]
PARSER = Parser()


def parts(cell, mark=";"):
    """What a mark parts in a cell, but for those in backticks."""
    return [it.strip() for it in re.findall(rf"(?:`[^`]*`|[^{mark}])+", cell)]


def quoted(cell):
    return re.findall(r"`([^`]+)`", cell)


def numbers(cell):
    """The numbers of a cell: 1 to 3, 8."""
    pairs = re.findall(r"\b(\d+)(?: to (\d+))?", cell)
    return [it for first, last in pairs for it in range(int(first), int(last or first) + 1)]


def byte_word(word):
    if word[0] == "`":
        return word[1:-1].encode()
    if re.fullmatch(r"0x[0-9a-f]{2}|\d+", word):
        return bytes([int(word, 0)])
    return NAMED[word].encode()


def bytes_of(text):
    """The bytes that a text stands for: ESC `[A`, byte 9, 0xc3 0xa9, 3 times `A`."""
    words = re.findall(r"(?:(\d+) times )?(`[^`]+`|[^\s`]+)", text.replace("byte ", ""))
    return b"".join(byte_word(word) * int(times or 1) for times, word in words)


def filled(form, **values):
    """The bytes of a form, with values for its words: ESC `[` row `;` column `R`."""
    words = [it for it in re.findall(r"`[^`]+`|\w+", form) if it[0] == "`" or it in values | NAMED]
    return b"".join(str(values[it]).encode() if it in values else byte_word(it) for it in words)


def key_of(word):
    """A key: `a`, Enter, F5, U+0008, `Functional(0)`, up arrow."""
    word = word.strip("`")
    if len(word) == 1:
        return word
    if found := re.fullmatch(r"U\+([0-9A-F]+)", word):
        return chr(int(found[1], 16))
    if found := re.fullmatch(r"F(\d+)", word):
        return Function(int(found[1]))
    if found := re.fullmatch(r"Functional\((\d+)\)", word):
        return int(found[1])
    return KeyCode[re.sub(r"(?<=[a-z])(?=[A-Z0-9])| ", "_", word).upper()]


def report_of(text):
    """The report of a key: Ctrl, Shift and `1`; `a`, released."""
    released = text.endswith(", released")
    *held, key = re.split(r", | and ", text.removesuffix(", released"))
    bits = sum(KittyModifiers[it.upper()].value for it in held)
    kind = KeyEventKind.RELEASE if released else KeyEventKind.PRESS
    return KeyReport(key_of(key), KittyModifiers(bits), kind)


def functions(pair):
    """F5 to F12 one by one."""
    return ", ".join(f"F{it}" for it in range(int(pair[1]), int(pair[2]) + 1))


def numpad(pair):
    """`Numpad0` to `Numpad9` one by one."""
    return ", ".join(f"`Numpad{it}`" for it in range(int(pair[1]), int(pair[2]) + 1))


def keys_of(cell):
    """The keys that a cell names: arrows, `End`, F5 to F12, `Numpad0` to `Numpad9`."""
    cell = cell.replace("arrows", "`UpArrow`, `DownArrow`, `RightArrow`, `LeftArrow`")
    cell = re.sub(r"F(\d+) to F(\d+)", functions, cell)
    cell = re.sub(r"`Numpad(\d)` to `Numpad(\d)`", numpad, cell)
    return [key_of(it) for it in re.findall(r"F\d+|`[\w()]+`", cell)]


def letters_of(cell):
    """The letters that a cell names: `A` to `D`, `H`."""
    pairs = re.findall(r"`(\w)`(?: to `(\w)`)?", cell)
    return [chr(it) for one, last in pairs for it in range(ord(one), ord(last or one) + 1)]


def keys_by_letters(cell):
    """`A` `UpArrow`, `P` to `S` F1 to F4, `E` `G` `KeyPadBegin`: a key for each, or one for all."""
    for part in parts(cell, ","):
        letters = letters_of(part)
        keys = keys_of(re.sub(r"`\w`( to `\w`)?", "", part))
        yield from zip(letters, keys * len(letters) if len(keys) == 1 else keys, strict=True)


def expanded(form):
    """A form with and without each part that stands in [ ]."""
    texts, before = [""], []
    for token in re.findall(r"`[^`]*`|[\[\]]|[^`\[\]]+", form):
        if token == "[":
            before.append(texts)
            texts = [""]
        elif token == "]":
            texts = [one + it for one in before.pop() for it in ("", *texts)]
        else:
            texts = [it + token for it in texts]
    return texts


def read(data, reading=Reading()):
    """The events of bytes, with nothing to come."""
    PARSER.reading = reading
    return PARSER.feed(data, 0) + PARSER.end()


def is_one(data, reading=Reading()):
    """Whether bytes are one event while more may come, and nothing of them stays buffered."""
    PARSER.reading = reading
    told = PARSER.feed(data, 0)
    return (len(told), PARSER.reset()) == (1, 0)


def shown_key(key):
    if isinstance(key, Function):
        return f"F{key.number}"
    if isinstance(key, KeyCode):
        return f"`{key.name.title().replace('_', '')}`"
    if isinstance(key, int):
        return f"`Functional({key})`"
    return f"`{key}`" if key.isascii() and key.isprintable() else f"U+{ord(key):04X}"


def shown_bits(modifiers):
    flags = {it.name: it for it in type(modifiers)}
    return "+".join(it for it in MODIFIERS if it in flags and flags[it] & modifiers)


def shown_report(event):
    yield f"{shown_key(event.key)} {shown_bits(event.modifiers)}".strip()
    for name in ("shifted", "base", "text"):
        if getattr(event, name):
            yield f"{name} `{getattr(event, name)}`"


def shown_data(name, data):
    """The text of an event, shortened if it is long. Control characters are told by name."""
    data = data if len(data) < 30 else data[:9] + b".."
    controls = "".join(it for it in NAMED.values() if len(it) == 1 and it != " ")
    words = [it for it in re.split(f"([{controls}])", data.decode()) if it]
    if len(words) < 2:
        return f"`{name}({data.decode()})`"
    known = {value: name for name, value in NAMED.items()}
    return f"`{name}` of " + " ".join(known.get(it, f"`{it}`") for it in words)


def shown_codes(text):
    return "`Paste` of " + " ".join(map(shown_key, text))


def shown_mouse(event):
    kind = f"`{event.kind.name.title()}`"
    button = f"button {event.button}" if event.button else "no button"
    return kind if event.kind is MouseKind.MOVE else f"{kind} of {button}"


def shown(event):
    """An event as the pages write it."""
    name = type(event).__name__
    if isinstance(event, KeyReport):
        return ", ".join(shown_report(event))
    if isinstance(event, MouseReport):
        return shown_mouse(event)
    if isinstance(event, Paste):
        return f'`Paste("{event.text}")`' if event.text.isascii() else shown_codes(event.text)
    if isinstance(event, CursorPosition):
        return f"`CursorPosition({event.row}, {event.column})`"
    if isinstance(event, (StringCut, StringPart)):
        return shown_data(name, f"{event.kind.name.title()}, ".encode() + event.data)
    return shown_data(name, event.data) if hasattr(event, "data") else f"`{name}`"
