"""Sentences of the documents, with the numbers that the library, a definition or the header has.

Each function is of a paragraph, or of a file, and yields what has to stand in it."""
import re
from pathlib import Path

import hedrugal
from hedrugal import ColourName, ColourScheme, Dialect, EraseByte, Function, KeyCode, KeyPress
from hedrugal import KeyReport, KittyKeyboardFlags, KittyModifiers, ModeState, Modifiers
from hedrugal import MouseButton, MouseEncoding, MouseTracking, NewlineByte, Parser, Reading
from hedrugal import encode_event

from .notation import COUNTS, is_one, read, shown, shown_bits


def constant(name, file):
    """The number of a constant of a definition, a source or the header."""
    pattern = rf"\b{name}\b(?:[^=\n]*=)? *(?:Some )?(\d[\d_]*)(?: << (\d+))?"
    number, shift = re.search(pattern, Path(file).read_text()).groups()
    return int(number) << int(shift or 0)


def spec(name, file):
    return constant(name, f"crates/termwiz_{file}.antt")


TERMWIZ = Reading(Dialect.TERMWIZ)
LIMITS = [spec(it, "input/specs/Time") for it in ("escape", "alt_key", "sequence", "string")]
ESCAPE, ALT_KEY, SEQUENCE, STRING = LIMITS


def in_seconds(milliseconds):
    count = milliseconds // 1000
    return "a second" if count == 1 else f"{COUNTS[count]} seconds"


def ranges(found):
    """2, 3, 5 to 8: numbers, of which three or more in a row are written as a range."""
    runs = []
    for it in sorted(found):
        if runs and runs[-1][-1] == it - 1:
            runs[-1].append(it)
        else:
            runs.append([it])
    pairs = ([f"{it[0]} to {it[-1]}"] if len(it) > 2 else map(str, it) for it in runs)
    return ", ".join(text for pair in pairs for text in pair)


def listed(names):
    *before, last = names
    return f"{', '.join(before)} and {last}"


# README.md


def found_in(pattern, file):
    """What a pattern of a line finds in a file."""
    (found,) = re.findall(rf"^{pattern}", Path(file).read_text(), re.MULTILINE)
    return found


def readme():
    yield f"a port of the key-input layer of the Rust crate termwiz {port()} to Rattle"
    most = spec("most_control", "extended_grammar/specs/Forms")
    yield f"at most {most} undecided bytes"
    yield f"an open string of {spec('most_string', 'extended_grammar/specs/Forms')}"
    yield f"A lone ESC is Escape after [{ESCAPE} ms]"
    yield f"Version {hedrugal.__version__};"
    rust = found_in('rust-version = "(.*)"', "rust/Cargo.toml")
    python = found_in("Requires-Python: >=(.*)", "python/backend.py")
    yield f"Rust {rust} or later"
    yield f"Python {python} or later"


def kit():
    name = found_in(r"kit: (\S+)", "prebuilt/x86_64-linux/PROVENANCE")
    yield f"`rt` of {name} on the path"


def port():
    return re.search(r"termwiz (\d+\.\d+\.\d+)", Path("rust/Cargo.toml").read_text())[1]


# docs/GRAMMAR.md


def rules():
    text = Path("crates/termwiz_grammar/specs/Table.antt").read_text()
    yield f"its {COUNTS[len(re.findall(r'^unfoldable pub .*_rows', text, re.MULTILINE))]} rules"


def undecided():
    most = spec("most_undecided", "grammar/specs/Laws")
    yield f"at most {COUNTS[most]} bytes"
    yield f"ESC `[<00095;65535;65535` has {COUNTS[most]}"


def usual_limits():
    yield f"**ESC, {ESCAPE} ms.**"
    yield f"**ESC and one byte, {ALT_KEY} ms.**"
    yield f"**A longer beginning, {SEQUENCE} ms.**"
    yield f"**A string, {STRING // 1000} s and a millisecond for each byte.**"
    yield f"ends a string in some {COUNTS[STRING // 1000 + 1]} seconds"


def breaks():
    yield f"right after its ESC by more than {ESCAPE} ms"
    yield f"after ESC `[` or ESC `O` by more than {ALT_KEY} ms"
    yield f"come in more than {SEQUENCE} ms"
    yield f"what comes within {spec('a_second = record { millis', 'timed/specs/Timed')} ms"
    least = constant("LEAST_MILLIS", "crates/hedrugal/src/questions.rt")
    yield f"more than {in_seconds(least)}"
    yield f"takes more than {constant('LEAVE_MS', 'c/hedrugal_terminal.c')} ms there and back"


def longest_row():
    with Parser() as parser:
        entries = {it.bytes for it in parser.entries()}
    yield f"the longest {COUNTS[max(map(len, entries))]}"
    begin = [*entries & {it[:end] for it in entries for end in range(1, len(it))}]
    begin.sort(key=lambda it: (len(it), -it[-1]))
    texts = [f"ESC `{it[1:].decode()}`".removesuffix(" ``") for it in begin if it[:1] == b"\x1b"]
    yield f"Exactly {listed(texts)} properly begin other rows"


def meta():
    keys = {n: read(b"\x1b[1;%dA" % n, TERMWIZ)[0].modifiers for n in range(9, 17)}
    told = {}
    for number, bits in keys.items():
        told.setdefault(shown_bits(bits), []).append(f"`;{number}`")
    yield ", ".join(f"{' and '.join(it)} {bits}" for bits, it in told.items())


def modifier_bits():
    """The bits of a mouse report's code."""
    bits = {it: read(b"\x1b[<%d;1;1M" % it)[0].modifiers for it in (4, 8, 16)}
    yield f"bits {listed(map(str, bits))} are {listed(map(shown_bits, bits.values()))}"


def release_buttons():
    (event,) = read(b"\x1b[<0;1;1m", TERMWIZ)
    yield f"At `m` the buttons are {str(event.buttons).partition('.')[2]}."


def character_bits():
    found = {it: read(b"\x1b[97;%du" % (it + 1))[0].modifiers for it in (1, 2, 4)}
    one, two, four = (f"{bit} {shown_bits(it)}" for bit, it in found.items())
    yield f"Of m, {one.replace(' ', ' is ')}, {two} and {four}"
    fits = [c for c in range(200) if len(read(b"\x1b[%d;5u" % c, TERMWIZ)) == 1]
    yield f"for c from {fits[0]} to {fits[-1]} and m from 1 to 7"


def mouse_digits():
    digits = spec("most_digits", "grammar/specs/MouseReports")
    yield f"has one to {COUNTS[digits]} decimal digits"


def marks():
    start, end = hedrugal.encode_paste(b"", True).decode().split("\x1b")[1:]
    yield f"ESC is the byte 0x1b, START is ESC `{start}` and END is ESC `{end}`."


def flushed():
    """What ESC [ and half a character become, and what they become with what follows."""
    bracket, up = (shown(*read(it, TERMWIZ)) for it in (b"\x1b[", b"\x1b[A"))
    yield f"ESC `[`, flushed, is {bracket.replace(' ', ' with ')}; with `A` after it, it is {up}."
    half, whole = (shown(*read(it, TERMWIZ)) for it in (b"\xc3", b"\xc3\xa9"))
    yield f"0xc3, flushed, is {half}; with 0xa9 after it, it is {whole}."


def broken_character():
    """A flush decides half a character, and leaves a paste as it is."""
    with Parser(Dialect.TERMWIZ) as parser:
        flushed = [shown(it) for it in parser.feed(b"\xe2\x82", 0) + parser.flush()]
        third = [shown(it) for it in parser.feed(b"\xac", 0)]
    whole = shown(*read(b"\xe2\x82\xac", TERMWIZ))
    assert flushed == 2 * third
    yield f"0xe2 0x82, flushed, is {third[0]} twice, and if 0xac comes"
    yield f"the three bytes are one character, {whole}."


# docs/EXTENDED.md


def reading_fields():
    yield f"with {COUNTS[len(vars(Reading()))]} fields"


def rxvt_numbers():
    found = {n for n in range(100) if is_one(b"\x1b[%d$" % n)} - {1, 4}
    yield f"urxvt tells a key: {ranges(found)}."


def most_questions():
    with Parser() as parser:
        for _ in range(1000):
            parser.expect_position()
        yield f"up to {parser.reading.questions} of them"
    last = max(n for n in range(1, 500) if isinstance(read(b"\x1b[1;%dR" % n)[0], KeyReport))
    yield f"ESC `[1;1R` to ESC `[1;{last}R` are F3"


def kitty_bits():
    bits = [f"{it.value} {it.name.replace('_', ' ')}" for it in KittyModifiers if it.value]
    yield f"Kitty's bits: {', '.join(bits)} |"


def key_of_number():
    for key in (KeyCode.TAB, KeyCode.ENTER, KeyCode.ESCAPE, KeyCode.BACKSPACE):
        numbers = [str(c) for c in range(1, 128) if read(b"\x1b[%du" % c)[0].key is key]
        yield f"`{key.name.title()}` for {' and '.join(numbers)}"
    keys = {c: getattr(read(b"\x1b[%du" % c)[0], "key", "") for c in range(57000, 64000)}
    codes = [c for c, key in keys.items() if not isinstance(key, str)]
    yield f"From {codes[0]} to {codes[-1]} it is the key"


def side_buttons():
    """What is added to the code of the first one."""
    codes = [read(b"\x1b[<%d;3;4M" % (128 + bit))[0] for bit in (0, 4, 8, 16, 32)]
    yield f"is its number less {codes[0].button}"
    held = [f"{4 << place} for {shown_bits(it.modifiers)}" for place, it in enumerate(codes[1:4])]
    yield f"with {', '.join(held)} and 32 for a {codes[4].kind.name.lower()}"


def mode_states():
    states = [f"{it.value} {it.name.lower().replace('_', ' ')}" for it in ModeState]
    yield f"The states are {listed(states)}."


def a_colour():
    text = "rgb:f/80/fff"
    colour = hedrugal.reply(hedrugal.Osc(f"11;{text}".encode())).colour
    yield f"So `{text}` is {colour.red}, {colour.green}, {colour.blue}."
    yield f"from 0 to {hedrugal.reply(hedrugal.Osc(b'11;rgb:f/f/f')).colour.red}"


def clipboard():
    """What fits in a string is a reply."""
    most = spec("most_string", "extended_grammar/specs/Forms")
    groups = (most - 1 - len("\x1b]52;c;")) // 4
    yield f"a clipboard of more than {groups * 3} bytes"


def alone_without_flag():
    flags = KittyKeyboardFlags.DISAMBIGUATE_ESCAPE_CODES
    unsent = [n for n in range(57344, 57455) if not KeyReport(n).encode(flags)]
    runs = ranges(unsent).split(", ")
    yield f"({', '.join(runs)})"


def held_super():
    sent = KeyReport("q", KittyModifiers.SUPER).encode(KittyKeyboardFlags.NONE)
    yield f"`q` with it sends ESC `{sent[1:].decode()}`"


def unknown_shift():
    held = KittyModifiers.SHIFT | KittyModifiers.ALT
    sent = KeyReport("[", held).encode(KittyKeyboardFlags.NONE)
    yield f"the report is sent: ESC `{sent[1:].decode()}` for `[`"
    letters = [KeyReport(it, KittyModifiers.CTRL).encode(KittyKeyboardFlags.NONE) for it in "az"]
    yield f"{letters[0][0]} to {letters[1][0]} for `a` to `z`"


def is_bare(data):
    """Whether a sequence beyond the port's is one key with Alt behind an ESC."""
    told = read(b"\x1b" + data)
    return len(told) == 1 and isinstance(told[0], KeyReport) and not is_one(data, TERMWIZ)


def bare_keys():
    letters = [chr(it) for it in range(64, 127)]
    plain = [it for it in letters if is_bare(f"\x1b[{it}".encode())]
    yield " and ".join(f"ESC `[{it}`" for it in plain)
    numbers = [it for it in range(1, 100) if is_bare(b"\x1b[%d~" % it)]
    yield f"ESC `[{numbers[0]}~` to ESC `[{numbers[-1]}~`: urxvt's keys"
    digits = [it for it in range(10) if is_bare(b"\x1b[%dA" % it)]
    yield f"a digit from {digits[0]} to {digits[-1]}, and `A` to `F`, `H`, or `P` to `S`"
    held = {it for it in letters if it not in "^@Z" and is_bare(f"\x1b[5{it}".encode())}
    assert held == set("ABCDEFHPQRS"), held


def menu_key():
    sent = KeyReport(KeyCode.APPLICATIONS).encode(KittyKeyboardFlags.NONE).decode()
    yield f"`Applications`, the Menu key, sends ESC `{sent[1:-1]}` [`;` mods] `{sent[-1]}`"


def numbers_of_forms():
    digits = spec("most_digits", "extended_events/specs/Numbers")
    yield f"A *number* has one to {COUNTS[digits]} decimal digits."
    mods = [n for n in range(400) if isinstance(read(b"\x1b[97;%du" % n)[0], KeyReport)]
    yield f"mods is {mods[0]} to {mods[-1]}, one more than the bits."
    kinds = {n: read(b"\x1b[97;1:%du" % n)[0].kind.name.lower() for n in (1, 2, 3)}
    yield "type is " + listed([f"{n} for a {kind}" for n, kind in kinds.items()])
    digits = [n for n in range(1, 10) if is_one(b"\x1bO%dP" % n)]
    yield f"m is a digit from {digits[0]} to {digits[-1]}, one more than the bits."


def few_digits():
    digits = spec("few_digits", "extended_events/specs/Numbers")
    yield f"a number has at most {COUNTS[digits]} digits"


def numbers_of_replies():
    few, most = (spec(it, "extended_events/specs/Numbers") for it in ("few_digits", "most_digits"))
    yield f"have at most {COUNTS[few]} digits"
    yield f"The other numbers have at most {COUNTS[most]} digits."


def buttons_by_number():
    """The first three, the wheels and the side buttons."""
    names = {read(b"\x1b[<%d;1;1M" % code)[0].button: code for code in (0, 2, 64, 67, 128, 131)}
    first, third, up, right, side, last = names
    yield f"Buttons {first} to {third} are the left, the middle and the right one."
    yield f"{up} to {right} are the wheel: up, down, to the left and to the right."
    yield f"{side} to {last} are side buttons."


def held_digit():
    """Alt-O, a digit and a letter, and what isn't a key."""
    key = shown(*read(b"\x1bO5P")).replace(" ", " with ")
    yield f"Alt-O, `5`, `P` is {key}."
    assert len(read(b"\x1bO5~")) > 1
    yield "ESC `O5~` is typed text."


# docs/SENDERS.md


def mouse_codes():
    """What is added is told by SGR's reports."""

    def code(button, bits=0, encoding=MouseEncoding.SGR):
        report = hedrugal.SentMouse(3, 4, button, Modifiers(bits))
        return int(re.search(rb"\d+", report.encode(MouseTracking.ANY, encoding))[0])

    first = code(MouseButton.BUTTON1_PRESS)
    third = code(MouseButton.BUTTON3_PRESS)
    yield f"first three buttons is {first} to {third}"
    wheels = code(MouseButton.BUTTON4_PRESS), code(MouseButton.BUTTON7_PRESS)
    yield f"of the wheels {wheels[0]} to {wheels[1]}"
    yield f"A drag has {code(MouseButton.BUTTON1_DRAG) - first} more"
    yield f"a move without a button has {code(MouseButton.NONE)}"
    release = code(MouseButton.BUTTON1_RELEASE, encoding=MouseEncoding.URXVT) - 32
    yield f"a release has {release}."
    held = [code(MouseButton.BUTTON1_PRESS, bits) for bits in (2, 4, 8)]
    yield "Shift adds {}, Alt {} and Ctrl {}".format(*held)


def sizes():
    pasted = hedrugal.encode_paste(b"", True)
    yield f"{COUNTS[len(pasted)]} for the brackets"
    most = max(len(hedrugal.encode_paste(bytes([it]), False)) for it in range(256))
    yield f"At most {COUNTS[most]} bytes are sent for each byte"


def waiting_texts():
    """The keys whose bytes wait for more."""
    letters = [chr(it) for it in range(33, 127) if not is_told(b"\x1b%c" % it)]
    *before, last = (f"`{it}`" for it in sorted(letters, key="[OP]_".find))
    yield f"one of {COUNTS[len(letters) + 2]} texts that wait: ESC, ESC ESC"
    yield f"and ESC with {', '.join(before)} or {last}."


def is_told(data):
    with Parser() as parser:
        return bool(parser.feed(data, 0))


def refused_length():
    yield f"a sequence of more than {spec('most_control', 'extended_grammar/specs/Forms')} bytes"
    yield f"a string of {spec('most_string', 'extended_grammar/specs/Forms')} bytes or more"


def differing_terminals():
    text = Path("tests/test_senders.py").read_text()
    otherwise = re.search(r"^OTHERWISE = {\n(.*?)^}", text, re.MULTILINE | re.DOTALL)[1]
    yield f"names how {COUNTS[otherwise.count(': (')]} of them differ"


def text_and_shifted():
    for report in (KeyReport("a", text="a"), KeyReport("a", shifted="A"), KeyReport(0, text="å")):
        with Parser() as parser:
            yield f"ESC `{encode_event(report, parser)[1:].decode()}`"


def relay_limits():
    kilobytes = constant("MOST_PENDING", "rust/plain/examples/relay/main.rs") // 1024
    yield f"once some {kilobytes} KB wait"


def relay_modes():
    """The modes that relay keeps, as its source names them, but for DECCKM."""
    text = Path("rust/plain/examples/relay/modes.rs").read_text().partition("fn set(")[2]
    arms = [it.replace(" | ", ", ") for it in re.findall(r"^ +(\d[\d |]*\d) ", text, re.MULTILINE)]
    keypad, tracking, focus, _, encoding, _, paste, *_ = arms
    yield f"mode {keypad} |"
    yield f"| {tracking}; {encoding} |"
    yield f"| {focus} | the focus |"
    yield f"| {paste}, or not |"


# docs/BINDINGS.md


def chord_length():
    yield f"a list of 1 to {constant('HED_CHORD_MOST', 'c/hedrugal.h')} presses"


def two_limits():
    yield f"some {ESCAPE} ms"
    yield f"a limit of {constant('CHORD_MS', 'c/edit.c')} ms since the last press"


def arrow():
    texts = {shown(*read(it)): it for it in (b"\x1b[A", b"\x1bOA")}
    plain, application = (f"ESC `{it[1:].decode()}`" for it in texts.values())
    yield f"the up arrow is {plain}, in application mode {application}"


def backspace_bytes():
    """What the two bytes are where Backspace sends 8."""
    reading = Reading(erase=EraseByte.BACKSPACE)
    eight, other = (press(it, reading) for it in (b"\x08", b"\x7f"))
    yield f"Where Backspace sends 8, byte 8 is `{eight}` and byte 127 `{other}`."
    ten = press(b"\n", Reading(newline=NewlineByte.ENTER))
    yield f"Byte 10 may be `{ten}`."


def press(data, reading=Reading()):
    return str(KeyPress.of_event(*read(data, reading)))


def second_presses():
    data = [it for it in range(1, 128) if KeyPress.second(*read(bytes([it])))]
    yield f"The bytes {listed(map(str, data))} have one"
    second = KeyPress.second(*read(b"\x1b[49:33;6u"))
    yield f"With `!` and Ctrl it is `{second}`."


def refused_name():
    try:
        hedrugal.Chord.read("shift+!")
    except hedrugal.KeyNameError as fault:
        yield f"`shift+!` at `{'shift+!'[fault.at:]}`"
    yield f"`{hedrugal.Chord.read('shift+1')}` is the key `1` with Shift"


def shifted_space():
    """Shift-Space is told by the flags for all keys alone."""
    report = KeyReport(" ", KittyModifiers.SHIFT, text=" ")
    names = [press(report.encode(KittyKeyboardFlags(flags))) for flags in (5, 29)]
    assert names == ["space", "shift+space"]
    yield f"Under 5 a key that is sent as its text may lose Shift: Shift-Space is `{names[0]}`."


# docs/keys.md, and the manual pages of the programs


def shown_bytes():
    longest, head, tail = (constant(it, "keys/screen.c") for it in ("LONGEST", "HEAD", "TAIL"))
    yield f"Of more than {longest} bytes the first {head} and the last {tail} are shown"
    yield f"as that of a paste, up to {constant('TEXT_SHOWN', 'keys/line.h')} bytes are shown"


def file_of_bindings():
    yield f"A file of more than {constant('FILE_MOST', 'keys/bindings.c') >> 20} MB is refused"


def reads_of_files():
    yield f"reads have at most {constant('READ_SIZE', 'keys/main.c')} bytes"


def switched_modes():
    """Those that the terminal's layer in C switches on."""
    text = Path("c/hedrugal_terminal.h").read_text()
    for on in re.findall(r'HED_TERMINAL_(?:MOUSE|PASTE|FOCUS)_ON "(.*?)"', text):
        modes = re.findall(r"\?(\d+)h", on)
        yield f"mode{'s' * (len(modes) > 1)} {' and '.join(modes)})"


def keys_manual():
    yield f"After {ESCAPE} milliseconds without a byte it is Escape."
    yield f"{in_seconds(SEQUENCE)} after the first of them, or after {ALT_KEY} milliseconds"
    yield f"cut off {in_seconds(STRING)} after its first byte"
    yield f"It waits for {constant('OPENING_MS', 'keys/opening.h')} milliseconds for the replies."
    yield f"{constant('READ_SIZE', 'keys/main.c')} bytes at a time"
    yield f"A file of more than {constant('FILE_MOST', 'keys/bindings.c')} bytes is refused."
    yield from switched_modes()


def keyshow_manual():
    (default,) = re.findall(
        r"\[\] => Some\((\d+)\)", Path("crates/keyshow/src/main.rt").read_text()
    )
    (most,) = re.findall(r"value <= (\d+)", Path("crates/keyshow/src/main.rt").read_text())
    yield f"a number from 1 to {most}; {default} if there is none"
    yield f"no number from 1 to {most}, or not UTF-8"


# c/hedrugal.h, of which the manual pages of the calls are made


def header():
    file = "c/hedrugal.h"
    chord, questions = (constant(f"HED_{it}_MOST", file) for it in ("CHORD", "QUESTIONS"))
    yield f"No more fits: {chord} presses are pending, or {questions} questions are open."
    yield f"A chord has at most {chord} keys, and this is the {chord + 1}rd."
    place = spec("largest_place", "senders/specs/MouseTexts")
    yield f"The place of the mouse report is above {place}, which its encoding can't tell."
    yield f"x or y is above {place} with HED_MOUSE_ENCODING_DEFAULT"
    yield f"ESC [M and three bytes, which can't tell a place above {place}."
    most, string = (
        spec(it, "extended_grammar/specs/Forms") for it in ("most_control", "most_string")
    )
    yield f"A sequence has at most {most} bytes"
    yield f"HED_TOO_LONG if the sequence would have more than {most} bytes."
    yield f"the sequence would have more than {most} bytes, or the string {string} before its end"
    yield f"it is at most {most}, or an open string of at most {string} bytes"
    yield f"less than {string} bytes before that"
    for name, limit in zip(("escape", "alt_key", "sequence", "string"), LIMITS):
        (said,) = re.findall(rf"int32_t {name};.*: usually ", Path(file).read_text())
        yield f"{said}{limit}"
    yield f"#define HED_POLICY_USUAL \\ {{ {', '.join(map(str, LIMITS))}, -1, -1 }}"
    least = constant("LEAST_MILLIS", "crates/hedrugal/src/questions.rt")
    yield f"for so many milliseconds, at least {least}"
    yield f"are read, and the first {most} of them are enough"
    yield from most_of_header()
    yield from bytes_of_header()
    yield from modes_of_header()


def most_of_header():
    with Parser() as parser:
        for _ in range(1000):
            parser.expect_position()
        yield f"the cursor's position, up to {parser.reading.questions}: call it"
        entries = [it.bytes for it in parser.entries()]
    yield f"#define HED_ENTRY_COUNT {len(entries)} "
    yield f"#define HED_ENTRY_MOST {max(map(len, entries))} "
    brackets = COUNTS[len(hedrugal.encode_paste(b"", True))]
    yield f"at most three for each byte of the text and {brackets} more"
    last = max(n for n in range(1, 500) if isinstance(read(b"\x1b[1;%dR" % n)[0], KeyReport))
    yield f"a reply for row 1 and the columns 1 to {last} has the bytes of F3"
    yield "since only F1 to F{} have one".format(max(filter(has_text, range(1, 256))))


def bytes_of_header():
    longest = max(len(it.name.replace("_", "")) for it in KeyCode)
    yield f"so with {longest + 1} bytes every name is a string"
    yield f"of the whole name without the 0, at most {longest}."
    eight, other = press(b"\x08"), press(b"\x7f", Reading(erase=EraseByte.BACKSPACE))
    yield f"127, as most terminals send it. Byte 8 is {eight.title().replace('+', '-')}."
    yield f"8. Byte 127 is {other.title().replace('+', '-')}."
    (enter,) = hedrugal.encode(KeyCode.ENTER)
    yield f"Ctrl-J. The Enter key sends the byte {enter}."
    start = len("\x1b[200~")
    most = spec("most_held", "grammar/specs/PasteParts")
    yield f"at most {start} bytes and the limit stay buffered of it"
    yield f"or {start + most} if the limit is below {most}"
    dark, light = (hedrugal.encode_colour_scheme(it)[1:].decode() for it in ColourScheme)
    yield f"ESC {dark} if its colours are dark, and else ESC {light}."
    yield f"A colour (OSC {listed([str(it.value) for it in ColourName])})."


def modes_of_header():
    """The modes of mouse reports are those of the recordings, and others those of the terminal."""
    text = Path("tests/test_senders.py").read_text()
    for mode in re.findall(r'"(\d+)": \(?Mouse(?:Tracking|Encoding)\.', text):
        yield f"/* Mode {mode}"
    modes = Path("c/hedrugal_terminal.h").read_text()
    for name, sentence in (
        ("PASTE", "mode on (mode {}):"),
        ("FOCUS", "gained the focus (mode {})."),
    ):
        yield sentence.format(re.search(rf'HED_TERMINAL_{name}_ON ".*?(\d+)h"', modes)[1])


def has_text(number):
    try:
        return bool(hedrugal.encode(Function(number)))
    except hedrugal.EncodeError:
        return False
