"""The words of the cases of tests/cases, whose forms tests/cases/README.md has."""
import functools
import os
import re

from hedrugal import Dialect, EraseByte, Function, KeyCode, KeyEventKind
from hedrugal import NewlineByte, Parser, Reading
from hedrugal._calls import RawReply
from hedrugal._enums import Named

HERE = os.path.dirname(os.path.abspath(__file__))
FOLDER = os.path.join(os.path.dirname(HERE), "tests", "cases")
FILES = sorted(name for name in os.listdir(FOLDER) if name.endswith(".txt"))

# The first form of each byte, and all forms.
_FORMS = [chr(byte) if 32 < byte < 127 else f"\\x{byte:02x}" for byte in range(256)]
for _byte, _letter in zip(b'\x1b\r\n\t"\\ ', 'ernt"\\s'):
    _FORMS[_byte] = f"\\{_letter}"
_BYTES = {f"\\x{byte:02x}": byte for byte in range(256)}
_BYTES.update((form, byte) for byte, form in enumerate(_FORMS))
_KEYS = {key: key.name.title().replace("_", "") for key in KeyCode}
_KEYS_BY_NAME = {name: key for key, name in _KEYS.items()}
_READINGS = {
    "backspace": {"erase": EraseByte.BACKSPACE},
    "enter": {"newline": NewlineByte.ENTER},
    "x10": {"x10_mouse": True},
}


def cases_of(file):
    """The cases of a file, each with the number of its line."""
    with open(os.path.join(FOLDER, file), encoding="utf-8") as opened:
        lines = opened.read().removesuffix("\n").split("\n")
    return [(number, line) for number, line in enumerate(lines, 1) if not line.startswith("#")]


def cuts_of(data):
    """The bytes whole, cut in two at each place, and byte by byte."""
    yield from ((data[:place], data[place:]) for place in range(len(data) + 1))
    yield [data[at : at + 1] for at in range(len(data))]


def quoted(data):
    """Bytes as a text in quotes."""
    return f'"{"".join(map(_FORMS.__getitem__, data))}"'


def text_of(word):
    """The bytes of a text in quotes."""
    assert re.fullmatch('".*"', word), word
    return bytes(_BYTES[form] for form in re.findall(r"\\x..|\\.|.", word[1:-1]))


def reading_of(word):
    dialect, *others = word.split("+")
    fields = {}
    for it in others:
        asked = re.fullmatch(r"asked(\d+)", it)
        fields.update({"questions": int(asked[1])} if asked else _READINGS[it])
    return Reading(Dialect[dialect.upper()], **fields)


def parser_by(reading):
    """A parser that reads so."""
    parser = Parser()
    parser.reading = reading
    return parser


def events_by(word, text):
    """The events of a text with nothing to come, by the word of a reading."""
    with parser_by(reading_of(word)) as parser:
        return parser.feed(text_of(text)) + parser.end()


def event_by(word, text):
    """The only one."""
    (event,) = events_by(word, text)
    return event


def key_of(word):
    if word.startswith("U+"):
        return chr(int(word[2:], 16))
    return Function(int(word[1:])) if re.fullmatch(r"F\d+", word) else _KEYS_BY_NAME[word]


def _key_word(key):
    if isinstance(key, str):
        return f"U+{ord(key):04X}"
    return f"F{key.number}" if isinstance(key, Function) else _KEYS.get(key) or str(key)


def set_of(flags, word):
    """The set of flags of a class, by their names."""
    return functools.reduce(flags.__or__, (flags[name] for name in word.split("+")))


def _set_word(flags):
    return str(flags).partition(".")[2].replace("|", "+")


def _name(it):
    """The name of a member of an enum."""
    return it.name.lower().replace("_", " ")


def _key_words(it):
    yield from ("key", _key_word(it.key), _set_word(it.modifiers))
    if it.kind is not KeyEventKind.PRESS:
        yield _name(it.kind)
    for name, character in (("shifted", it.shifted), ("base", it.base)):
        if character is not None:
            yield from (name, _key_word(character))
    if it.text:
        yield from ("text", quoted(it.text.encode()))


def _mouse_words(it):
    yield from ("mouse", it.x, it.y, _set_word(it.buttons), _set_word(it.modifiers))
    yield from (_name(it.kind), it.button or 0)


def _reply_words(it):
    """The kind, the fields that hed_reply has too, and the numbers or the bytes."""
    fields = {**vars(it), **vars(getattr(it, "colour", it))}
    yield re.sub(r"(?<=.)(?=[A-Z])", "_", type(it).__name__.removesuffix("Reply")).lower()
    for name in (name for name, _ in RawReply._fields_ if name in fields):
        value = fields[name]
        if isinstance(value, Named):
            value = value.name.lower()
        elif name == "selection":
            value = value or ""
        yield f"{name}={value if isinstance(value, str) else int(value or 0)}"
    data = fields.get("data") or fields.get("text", "").encode()
    yield from fields.get("numbers", [quoted(data)] if data else ())


# The words of events, by the names of their types. Replies have a rule.
_WORDS = {
    "KeyReport": _key_words,
    "MouseReport": _mouse_words,
    "Paste": lambda it: ("paste", quoted(it.text.encode())),
    "PastePart": lambda it: ("paste part", quoted(it.text.encode())),
    "FocusGained": lambda it: ("focus gained",),
    "FocusLost": lambda it: ("focus lost",),
    "CursorPosition": lambda it: ("position", it.row, it.column),
    "Resized": lambda it: ("resized", it.size.rows, it.size.columns, it.size.height, it.size.width),
    "KeyboardFlags": lambda it: ("flags", it.flags.value | it.unnamed),
    **dict.fromkeys(
        ("Csi", "Osc", "Dcs", "Apc"), lambda it: (type(it).__name__.lower(), quoted(it.data))
    ),
    "StringPart": lambda it: (_name(it.kind), "part", quoted(it.data)),
    "StringCut": lambda it: (_name(it.kind), "cut", quoted(it.data)),
    "NoneType": lambda it: ("none",),
}


@functools.lru_cache(maxsize=None)
def line_of(it):
    """The line of an event, or of a reply."""
    return " ".join(map(str, _WORDS.get(type(it).__name__, _reply_words)(it)))


def events_line(events):
    return ", ".join(map(line_of, events)) or "nothing"
