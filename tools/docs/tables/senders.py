"""The tables of docs/SENDERS.md."""
import bisect
import functools
import itertools
import re

import hedrugal
from hedrugal import Csi, CursorPosition, Dialect, EncodeError, FocusGained, FocusLost
from hedrugal import KeyboardFlags, KeyEventKind, KeyReport, KittyKeyboardFlags, KittyModifiers
from hedrugal import Apc, ColourScheme, Dcs, Modifiers, MouseButton, MouseEncoding
from hedrugal import MouseReport, MouseTracking, Osc, Parser, Paste, Resized, SentMouse
from hedrugal import Size, encode_event, encode_paste

from .notation import NAMED, bytes_of, filled, keys_of, letters_of, numbers, parts, quoted, read
from .notation import report_of


def is_of(cell, text):
    """Whether a cell names a text: `HT, CR`, `U+0080 to U+009F`, `any other below U+0020`."""
    if "CR LF" in (cell, text):
        return cell == text
    codes = [int(it, 16) for it in re.findall(r"U\+([0-9A-F]+)", cell)]
    if not codes:
        return cell == "any other" or text in map(NAMED.get, cell.split(", "))
    return ord(text) < codes[0] if "below" in cell else codes[0] <= ord(text) <= codes[-1]


def safe(cell, text):
    """What becomes of a text: `itself`, `CR`, `U+2421, ..` or `U+2400 and its number`."""
    if code := re.search(r"U\+([0-9A-F]+)( and its number)?", cell):
        return chr(int(code[1], 16) + (ord(text) if code[2] else 0))
    return text if cell == "itself" else NAMED[cell.split(",")[0]]


def safe_characters(rows):
    for text in ["CR LF", *map(chr, range(0x3000)), "\ufffd", "\U0010ffff"]:
        cell, becomes = next(row for row in rows if is_of(row[0], text))
        pasted = encode_paste(text.replace("CR LF", "\r\n").encode(), False)
        yield f"{cell}: {ascii(text)}", safe(becomes, text), pasted.decode()


def mouse_report(button, tracking=MouseTracking.ANY, encoding=MouseEncoding.SGR, x=3, bits=0):
    return SentMouse(x, 4, button, Modifiers(bits)).encode(tracking, encoding)


# One of each kind of reports.
REPORTS = {
    "presses": MouseButton.BUTTON1_PRESS,
    "wheels": MouseButton.BUTTON4_PRESS,
    "releases": MouseButton.BUTTON1_RELEASE,
    "drags": MouseButton.BUTTON1_DRAG,
    "moves": MouseButton.NONE,
}


def trackings(rows):
    """A row has what is in those before it, too."""
    told = set()
    for name, mode, cell in rows:
        tracking = MouseTracking[quoted(name)[0].upper()]
        told |= {it for it in REPORTS if it in cell}
        yield name, told, {it for it, button in REPORTS.items() if mouse_report(button, tracking)}
        shifted = mouse_report(REPORTS["presses"], tracking, bits=Modifiers.SHIFT.value)
        yield name, "without modifiers" in cell, shifted == mouse_report(REPORTS["presses"])
        yield name, f"Mode {mode}", tracking.__doc__.split(":")[0]


def is_refused(x, encoding):
    try:
        return not mouse_report(MouseButton.NONE, encoding=encoding, x=x)
    except EncodeError:
        return True


def largest_place(encoding):
    refused = functools.partial(is_refused, encoding=encoding)
    return bisect.bisect_left(range(65536), True, key=refused) - 1


def encodings(rows):
    """32 is added to a number that is sent so, which is a byte where a row says so."""
    for name, mode, cell, lost in rows:
        encoding = MouseEncoding[quoted(name)[0].upper()]
        sums = [int(it) for it in re.findall(r"(\d+) \+ ", cell)] + [0, 0, 0]
        values = {it: more + value for it, value, more in zip(("code", "x", "y"), (1, 3, 4), sums)}
        values = {it: chr(value) if "bytes" in cell else value for it, value in values.items()}
        press, release = MouseButton.BUTTON2_PRESS, MouseButton.BUTTON2_RELEASE
        form, *otherwise = re.sub(r"\d+ \+ ", "", cell).split(", or ")
        sent = filled(form, **values)
        yield name, sent, mouse_report(press, encoding=encoding)
        if otherwise:
            sent = sent[:-1] + quoted(otherwise[0])[0].encode()
            yield name, sent, mouse_report(release, encoding=encoding)
        yield name, numbers(mode), [int(it) for it in re.findall(r"\b1\d{3}\b", encoding.__doc__)]
        limit = re.search(r"above (\d+)", lost)
        yield name, int(limit[1]) if limit else 65535, largest_place(encoding)
        (event,) = read(mouse_report(release, encoding=encoding)) if otherwise else [None]
        yield name, "which button" in lost, event is None or event.button != 2


SIZE = Size(columns=80, rows=24, width=640, height=480)
EVENTS = {
    "Paste": Paste("ab"),
    "FocusGained": FocusGained(),
    "FocusLost": FocusLost(),
    "CursorPosition": CursorPosition(5, 7),
    "Resized": Resized(SIZE),
    "KeyboardFlags": KeyboardFlags(KittyKeyboardFlags(5)),
    "Csi": Csi(b"?1;2c"),
    "Osc": Osc(b"0;ab"),
    "Dcs": Dcs(b">|ab"),
    "Apc": Apc(b"Gi=1"),
}


def sent_events(rows):
    """Those that have one form."""
    for cell, form in rows:
        event = EVENTS.get(quoted(cell)[0])
        values = {"row": 5, "column": 7, "flags": 5, "text": "ab", **SIZE._asdict()}
        values["bytes"] = getattr(event, "data", b"").decode()
        with Parser() as parser:
            if event:
                yield cell, filled(form, **values), encode_event(event, parser)
    yield "all of one form", set(EVENTS), {quoted(cell)[0] for cell, _ in rows} & set(EVENTS)


def written(event, dialect):
    """What is written for an event, None if it is refused."""
    with Parser(dialect) as parser:
        try:
            return encode_event(event, parser)
        except EncodeError:
            return None


def sent_keys(rows):
    for keys, extended, termwiz in rows:
        termwiz = extended if termwiz == "the same" else termwiz
        for dialect, cell in ((Dialect.EXTENDED, extended), (Dialect.TERMWIZ, termwiz)):
            for key, wanted in zip(parts(keys), parts(cell), strict=True):
                wanted = None if wanted == "`NoText`" else bytes_of(wanted)
                yield key, wanted, written(report_of(key), dialect)


RELEASE = KeyEventKind.RELEASE
SHIFT = KittyModifiers.SHIFT
# Of each form of a key report but the first two an event.
REPORTED = [
    KeyReport("a", SHIFT, RELEASE),
    KeyReport("a", SHIFT, RELEASE, "A", "b", "c"),
    KeyReport("\ue000", KittyModifiers.CTRL),
]


def key_reports(rows):
    """The number of a key is that which is sent."""
    lettered, numbered, *others = rows
    letters = letters_of(lettered[1].partition(" and ")[2])
    events = [KeyReport(it, SHIFT, RELEASE) for it in keys_of(lettered[0])]
    for event, letter in zip(events, letters, strict=True):
        form = lettered[1].partition(" and ")[0] + f"`{letter}`"
        yield event, b"\x1b[" + filled(form, MODS=2, KIND=3), written(event, Dialect.EXTENDED)
    events = [(numbered[1], KeyReport(it, SHIFT, RELEASE)) for it in keys_of(numbered[0])]
    events += zip((form for _, form in others), REPORTED, strict=True)
    for form, event in events:
        sent = written(event, Dialect.EXTENDED)
        number = re.search(rb"(\d+)[:;~]", sent.removeprefix(b"\x1b[27;5;"))[1].decode()
        values = {"MODS": event.modifiers.value + 1, "KIND": event.kind.value, "number": number}
        yield event, b"\x1b[" + filled(form, **values, shifted=65, base=98, text=99), sent
    codes = [int(it, 16) for it in re.findall(r"U\+(\w+)", others[-1][0])]
    yield "codes", codes, [int(it) for it in re.findall(r"\b\d{5}\b", others[-1][0])]


def told_mice():
    """Of each kind of mouse event and each button the code, and how it is written."""
    forms = {"Sgr": "\x1b[<{};3;4{}", "Urxvt": "\x1b[{};3;4{}"}
    found = {}
    for form, code, end in itertools.product(forms.values(), range(256), "Mm"):
        for event in read(form.format(code, end).encode()):
            if isinstance(event, MouseReport) and event.modifiers is Modifiers.NONE:
                sent = written(event, Dialect.EXTENDED).decode()
                is_sgr = "<" in sent
                number = int(re.search(r"\d+", sent)[0]) - (0 if is_sgr else 32)
                how = f"`{'Sgr' if is_sgr else 'Urxvt'}` with `{sent[-1]}`"
                found[event.kind.name.lower(), event.button] = number, how
    return found


def mouse_events(rows):
    told = {}
    for kind, buttons, codes, how in rows:
        for button, code in zip(numbers(buttons) or [None], numbers(codes), strict=True):
            told[kind, button] = code, how
    for (kind, button), written in told_mice().items():
        yield f"{kind} of {button}", told.pop((kind, button), None), written
    yield "more than there is", told, {}


def device_attributes(length):
    """The numbers of a reply of so many bytes."""
    return [1] * ((length - 3) // 2 - 1) + [10 if length % 2 == 0 else 1]


def longest_reply():
    for length in range(5, 1000):
        try:
            assert len(hedrugal.encode_device_attributes(device_attributes(length))) == length
        except EncodeError:
            return length - 1
    return None


def replies(rows):
    position, scheme, attributes = (parts(row[-1]) for row in rows)
    place = {"row": 5, "column": 7}
    private = position[0].replace(" row", f" `{quoted(position[1])[0]}` row")
    yield "position", filled(position[0], **place), hedrugal.encode_cursor_position(5, 7)
    yield "private", filled(private, **place), hedrugal.encode_cursor_position(5, 7, True)
    for it in parts(scheme[0], ","):
        form, colours = it.removesuffix(" colours").removesuffix(" ones").split(" for ")
        sent = hedrugal.encode_colour_scheme(ColourScheme[colours.upper()])
        yield colours, bytes_of(form), sent
    form = attributes[0].replace("the numbers parted by `;`", "`62;22`")
    yield "attributes", filled(form), hedrugal.encode_device_attributes([62, 22])
    yield "above this length", numbers(attributes[1]), [longest_reply()]
