"""Compares the header with what the proved crates have, and with other files that are written by
hand: numbers and names, the version, the usual limits, structs, and the types of calls. Rust and
Python make each call, or UNCALLED says why not."""

import re
from itertools import zip_longest
from typing import Dict, Iterator, List, Tuple

from header import HEADER, INTEGERS, Interface, Item, camel, is_handle, matches, named
from header import number_of, start_of
from rust import MACROS

LAWS = "crates/termwiz_grammar/specs/Laws.antt"
CHORD = "crates/termwiz_bindings/src/chord.rt"
SOURCES = "crates/hedrugal/src/**/*.rt"


def variants(enum: str) -> str:
    return rf"^ *(?P<number>\d+) => Some\({enum}::(?P<name>\w+)"


STATUS = r"^pub\(crate\) const (?P<name>\w+): u32 = (?P<number>\d+);$"
FLAG = r"^ *pub const (?P<name>[A-Z0-9_]+): \w+ = \w+\((?P<number>\d+)(?: << (?P<shift>\d+))?\);$"
KEY_NUMBER = r"^ *KeyCode::(?P<name>\w+)(?:\(_\))? => (?P<number>\d+),?$"
KEY_NAME = r'^ *KeyCode::(?P<name>\w+)(?:\(_\))? => "(?P<text>\w+)"'
KEY_NAME_DEFINED = r'^variant_name \(?(?P<name>\w+).* = codes "(?P<text>\w+)"'
FLAG_DEFINED = r'\(codes "(?P<name>\w+)", (?P<number>\d+)\)$'
FLAG_NAME = r'name: "(?P<text>\w+)",\n *value: \w+::(?P<name>\w+),$'
HELD = r"^pub\(crate\) const (?P<name>[A-Z]+): u8 = (?P<number>\d+);$"
HELD_DEFINED = r"^(?P<name>[A-Z]+) = (?P<number>\d+)$"

# What has an enum's numbers or the names that are printed of it: a file, and a pattern for all. Of
# other enums the library's sources have the constants.
PROVED = [
    ("key", "termwiz_bindings/src/numbers.rt", KEY_NUMBER),
    ("status", "hedrugal/src/status.rt", STATUS),
    ("encoding", "hedrugal/src/modes.rt", variants("KeyboardEncoding")),
    ("mouse", "hedrugal/src/sender_calls.rt", variants("MouseButton")),
    ("mouse_tracking", "hedrugal/src/sender_calls.rt", variants("MouseTracking")),
    ("mouse_encoding", "hedrugal/src/sender_calls.rt", variants("MouseEncoding")),
    ("termwiz_mod", "termwiz_base/src/modifiers.rt", FLAG),
    ("kitty_mod", "termwiz_bindings/src/press.rt", HELD),
    ("kitty_mod", "termwiz_bindings/specs/Presses.antt", HELD_DEFINED),
    ("kitty_flag", "termwiz_base/src/kitty.rt", FLAG),
    ("button", "termwiz_keys/src/types.rt", FLAG),
    ("key", "event_text/src/names.rt", KEY_NAME),
    ("key", "event_text/specs/Names.antt", KEY_NAME_DEFINED),
    ("termwiz_mod", "termwiz_base/src/modifiers.rt", FLAG_NAME),
    ("kitty_flag", "termwiz_base/src/kitty.rt", FLAG_NAME),
    ("button", "termwiz_keys/src/types.rt", FLAG_NAME),
    ("termwiz_mod", "event_text/specs/Names.antt", FLAG_DEFINED + r"(?=(?s:.*)^button_flags =)"),
    ("button", "event_text/specs/Names.antt", FLAG_DEFINED + r"(?!(?s:.*)^button_flags =)"),
]
# Those that no press has, so that the proved crates have no names for them.
UNNAMED = "HED_KITTY_MOD_NONE HED_KITTY_MOD_CAPS_LOCK HED_KITTY_MOD_NUM_LOCK".split()


def compare_numbers(interface: Interface) -> Iterator[str]:
    """What numbers and names the proved crates lack, and what they have otherwise."""
    places = [(group, f"crates/{file}", pattern) for group, file, pattern in PROVED]
    for enum in interface.enums.values():
        if all(enum.name != f"hed_{group}" for group, _, _ in places):
            constant = rf"const {start_of(enum)[4:]}(?P<name>\w+): u(?:8|32) = (?P<number>\d+);$"
            places.append((enum.name[4:], SOURCES, rf"^(?:pub\(crate\) )?{constant}"))
    for group, file, pattern in places:
        wanted = {it[0].replace("_", ""): it for it in named(interface.enums[f"hed_{group}"])}
        for place, found in matches(file, pattern):
            name, value = wanted.pop(found["name"].replace("_", "").upper(), ("", None))
            if value is None:
                yield f"{place}: {HEADER} has no {group} {found['name']}, or it is here twice"
            elif "text" not in found:
                number = int(found["number"]) << int(found.get("shift", 0))
                yield from differs(place, value.name, number, value.value, value.line)
            elif found["text"] != (camel(name) if group == "key" else name):
                yield f"{place}: {value.name} is called {found['text']}"
        for _, value in wanted.values():
            if value.name not in UNNAMED and (value.value or FLAG_DEFINED not in pattern):
                yield f"{HEADER}:{value.line}: no {value.name} in {file}"


def differs(place: str, what: str, there: object, here: object, line: int) -> Iterator[str]:
    if there != here:
        yield f"{place}: {what} is {there}, and in {HEADER}:{line} {here}"


# What the header defines, with another file and what has to be the same there.
VERSION = r"(?P<it>[0-9.]*[0-9])"
SAME = [
    ("HED_ENTRY_COUNT", LAWS, r"^row_count = (?P<it>\d+)$"),
    ("HED_ENTRY_MOST", LAWS, r"^  pub one_has_\w+_bytes .*length bytes ≡ (?P<it>\d+)\)$"),
    ("HED_CHORD_MOST", CHORD, r"MAX_KEYS: usize = (?P<it>\d+);$"),
    ("HED_CODES_MOST", CHORD, r"CODES_MOST: usize = (?P<it>\d+);$"),
    ("HED_QUESTIONS_MOST", "crates/hedrugal/src/questions.rt", r" MOST: usize = (?P<it>\d+);$"),
    ("HED_NO_CODE", "crates/hedrugal/src/events.rt", r" NO_CODE: u32 = (?P<it>\w+);$"),
    ("HED_NO_CODE", "crates/hedrugal/specs/Events.antt", r"^no_code = (?P<it>\w+)$"),
    ("HED_NO_PARTS", "crates/hedrugal/src/policy.rt", r"^    if limit == (?P<it>\S+) {$"),
    ("HED_NO_PARTS", "crates/hedrugal/specs/Limits.antt", r"^parts_in .* == (?P<it>\w+) then None"),
    ("HED_LIMIT_MOST", "crates/hedrugal/src/policy.rt", r"LONGEST_LIMIT: i32 = (?P<it>\w+);$"),
    ("HED_LIMIT_MOST", "crates/hedrugal/specs/Limits.antt", r"^is_long .*\(pos (?P<it>\d+)\)"),
    ("HED_VERSION", "c/hedrugal.pc", rf"^Version: {VERSION}$"),
    ("HED_VERSION", "c/hedrugal-config-version.cmake", rf"^set\(PACKAGE_VERSION {VERSION}\)$"),
    ("HED_VERSION", "CHANGELOG.md", rf"^## \[?{VERSION}"),
    ("HED_VERSION", "debian/changelog", rf"^hedrugal \({VERSION}-"),
    ("HED_VERSION", "rust/Cargo.toml", rf'^version = "{VERSION}"$'),
    ("HED_VERSION", "rust/plain/Cargo.lock", rf'^name = "hedrugal"\nversion = "{VERSION}"$'),
    ("HED_VERSION", "rust/plain/Cargo.toml", rf'^version = "{VERSION}"$'),
    ("HED_VERSION", "rust/crossterm/Cargo.toml", rf'^version = "{VERSION}"$'),
    ("HED_VERSION", "python/hedrugal/*.py", rf'^__version__ = "{VERSION}"$'),
    ("HED_VERSION", "README.md", rf"^Version {VERSION};"),
    ("HED_VERSION_MAJOR", "crates/hedrugal/src/lib.rt", r"VERSION_MAJOR: u32 = (?P<it>\d+);$"),
    ("HED_VERSION_MINOR", "crates/hedrugal/src/lib.rt", r"VERSION_MINOR: u32 = (?P<it>\d+);$"),
    ("HED_VERSION_PATCH", "crates/hedrugal/src/lib.rt", r"VERSION_PATCH: u32 = (?P<it>\d+);$"),
]


def compare_same(interface: Interface) -> Iterator[str]:
    """What files have otherwise than the header: the version, and other numbers."""
    macros = interface.macros
    whole = ".".join(macros[f"HED_VERSION_{it}"].text for it in ("MAJOR", "MINOR", "PATCH"))
    version = macros["HED_VERSION"]
    yield from differs(f"{HEADER}:{version.line}", "HED_VERSION", version.text, f'"{whole}"', 0)
    for name, file, pattern in SAME:
        place, found = next(matches(file, pattern), (file, {"it": "nothing"}))
        there, here = found["it"].replace("usize::MAX", "SIZE_MAX"), macros[name].text.strip('"')
        if name != "HED_VERSION" and there != "nothing":
            there, here = str(number_of(there)), str(number_of(here))
        yield from differs(place, name, there, here, macros[name].line)


# Where the usual limits are written by hand, and a limit there.
USUAL_IN_RUST = r"^    pub (?:const )?fn usual\(\)(?s:.)*? Policy {(?P<it>[^}]*)}"
USUAL = [
    ("crates/termwiz_input/specs/Time.antt", r"^usual = record {(?P<it>.*)}$"),
    ("crates/termwiz_input/src/time.rt", USUAL_IN_RUST),
    ("rust/src/policy.rs", USUAL_IN_RUST),
    ("python/hedrugal/timer.py", r"^class Policy\(NamedTuple\):\n(?P<it>(?:(?:    .*)?\n)+)"),
]
LIMIT = r"(\w+)(?:: Optional\[float\])?(?::| =) (?:Some\W(?:Duration::\w+\()?)?([\d.]+|None)"


def compare_usual(interface: Interface) -> Iterator[str]:
    """What else than HED_POLICY_USUAL files have. None is for ever; Python has seconds."""
    macro = interface.macros["HED_POLICY_USUAL"]
    fields = [field.name for field in interface.structs["hed_policy"].parts]
    usual = dict(zip(fields, map(int, macro.text.strip("{ }").split(","))))
    for file, pattern in USUAL:
        place, found = next(matches(file, pattern), (file, {"it": ""}))
        scale = 1000 if file.endswith(".py") else 1
        there = dict.fromkeys(usual if "..Policy::never()" in found["it"] else (), -1)
        for name, limit in re.findall(LIMIT, found["it"]):
            there[name] = -1 if limit == "None" else int(float(limit) * scale)
        for it, number in usual.items():
            yield from differs(place, f"the usual limit {it}", there.get(it), number, macro.line)


# The header's names by those of the library's sources: of types, and of the lengths of arrays. SAME
# has these lengths.
OWN = {
    **{own: name for name, own in INTEGERS.items()},
    **{"usize": "size_t", "bool": "bool", "0": "void"},
    **{"CODES_MOST": "HED_CODES_MOST", "MOST": "HED_QUESTIONS_MOST"},
    **{"ParserHandle": "hed_parser", "MapHandle": "hed_keymap", "BindingsHandle": "hed_bindings"},
    **dict.fromkeys(("ParserWord", "MapWord", "BindingsWord"), "void *"),
}
EXTERN = r'^pub extern "C" fn (?P<name>\w+)\((?P<params>[^{]*?),?\s*\)(?: -> (?P<returned>\w+))?$'
# Parameters that the header names otherwise than a crate.
OTHER_NAMES = {
    "hed_parser_completions rows": "entries",
    "hed_encode_cursor_position private": "private_reply",
    "hed_keymap_lookup found": "match",
    "hed_matcher_press_either keys": "presses",
}
STRUCT = r"^#\[repr\(C\)\]\n(?:#.*\n)*pub struct (?P<name>\w+) {\n(?P<fields>(?:.*\n)*?)}$"
FIELD = re.compile(r"^    (?:pub )?(\w+): \[?(.+?)(?:; (\w+)\])?,$", re.M)


def c_name(own: str) -> str:
    """The header's name: hed_key_press of CKeyPress."""
    return OWN.get(own) or "hed" + re.sub(r"(?=[A-Z])", "_", own[1:]).lower()


def c_types(own: str) -> str:
    """The header's types of a parameter: of a slice a pointer and a length. A handle is lent as
    one that changes."""
    lent = re.fullmatch(r"&(mut )?(\[?)(\w+)\]?", own)
    if not lent:
        return c_name(own)
    const = "" if lent[1] else "const "
    return f"{const}{c_name(lent[3])} *{', size_t' if lent[2] else ''}"


def parameter_names(call: Item, params: Dict[str, str]) -> Tuple[str, str]:
    """The names of a crate's parameters, and those of the header but for lengths of slices."""
    own = [(name, "[" in of) for name, of in params.items() if of != "Global"]
    parts, here = [part.name for part in call.parts], []
    for _, is_slice in own:
        here += parts[:1]
        del parts[: 1 + is_slice]
    there = [OTHER_NAMES.get(f"{call.name} {name}", name) for name, _ in own]
    return " ".join(there), " ".join(here)


def compare_calls(interface: Interface) -> Iterator[str]:
    """The calls that one side lacks, and those with other types."""
    handles = "|".join(name for name, it in interface.structs.items() if is_handle(it))
    left = dict(interface.calls)
    for place, found in matches(SOURCES, EXTERN):
        call = left.pop(found["name"], None)
        if not call:
            yield f"{place}: {HEADER} doesn't declare {found['name']}"
            continue
        params = dict(it.split(": ") for it in re.split(r",\s+", found["params"].strip()) if it)
        there = ", ".join(c_types(own) for own in params.values() if own != "Global")
        here = ", ".join(param.type for param in call.parts)
        here = re.sub(rf"const ({handles}) ", r"\1 ", here)
        returned = call.text.replace("hed_status", "uint32_t")
        ours, theirs = f"{returned} ({here})", f"{c_name(found['returned'])} ({there})"
        yield from differs(place, call.name, theirs, ours, call.line)
        yield from differs(place, call.name, *parameter_names(call, params), call.line)
    for call in left.values():
        yield f"{HEADER}:{call.line}: no crate exports {call.name}"


def compare_structs(interface: Interface) -> Iterator[str]:
    """The structs that one side lacks, and those with other fields."""
    left = dict(interface.structs)
    for place, found in matches(SOURCES, STRUCT):
        name = c_name(found["name"])
        struct = left.pop(name, None)
        if struct:
            fields = FIELD.findall(found["fields"])
            there = [f"{c_name(of)} {it}" + (n and f"[{c_name(n)}]") for it, of, n in fields]
            here = [f"{it.type} {it.declared()}" for it in struct.parts]
            for one, other in zip_longest(there, here, fillvalue="nothing"):
                yield from differs(place, f"a field of {name}", one, other, struct.line)
        elif name.startswith("hed_"):
            yield f"{place}: {HEADER} doesn't declare {name}"
    for struct in left.values():
        yield f"{HEADER}:{struct.line}: no crate has {struct.name}"


# A call as Rust and Python make it.
CALL = r'\b(?:raw::|library\.|library\[")(?P<name>hed_\w+)'
# The calls that neither makes, those that one of them doesn't make, and why.
NEITHER = {
    "hed_parser_press": "an event has its own text, which hed_event_press takes",
    "hed_parser_second": "hed_event_second takes any event",
    "hed_press_print": "hed_key_print takes one press too",
    "hed_bindings_bind_name": "a chord is read by itself",
    "hed_key_name": "members of an enum have names",
}
RUST, PYTHON = "rust/src/**/*.rs", "python/hedrugal/**/*.py"
UNCALLED = {
    RUST: {
        **NEITHER,
        "hed_parser_next_events": "an event owns its text, so events are taken one by one",
        "hed_keymap_len": "a map has a list of its keys and values",
        "hed_version": "rust/build.rs compares the version before it links the library",
    },
    PYTHON: {**NEITHER, "hed_matcher_press": "hed_matcher_press_either takes one press too"},
}


def uncalled(interface: Interface) -> Iterator[str]:
    """The calls that files make or not, otherwise than UNCALLED says."""
    here = "tools/interface/proved.py"
    for files, reasons in UNCALLED.items():
        left = {*interface.calls} - {it["name"] for _, it in matches(files, CALL)}
        for name in sorted(left - {*reasons}):
            yield f"{here}: no file of {files} calls {name}: call it, or add why to UNCALLED"
        for name in sorted({*reasons} - left):
            yield f"{here}: {name} is called, or isn't declared: take it off UNCALLED"


# Numbers of the header that Rust and Python need not have.
LEFT = "HED_ENTRY_COUNT HED_VERSION_MAJOR HED_VERSION_MINOR HED_VERSION_PATCH HED_VERSION_NUMBER"


def unmade(interface: Interface) -> Iterator[str]:
    """The numbers that the header defines, and nothing is made of."""
    for name, it in interface.macros.items():
        is_number = re.match(r"\(?[\w*+ ]+\)?$", it.text) and not it.brackets
        if is_number and name not in {*MACROS, *LEFT.split()}:
            yield f"{HEADER}:{it.line}: put {name} into MACROS of tools/interface/rust.py, or LEFT"


def compare(interface: Interface) -> List[str]:
    types = (compare_calls, compare_structs)
    every = (compare_numbers, compare_same, compare_usual, *types, uncalled, unmade)
    return [it for compared in every for it in compared(interface)]
