"""Makes what rust/src/raw.rs has of the header: its declarations in Rust."""

import re
import textwrap
from functools import partial
from typing import Dict, Iterator, Tuple

from header import INTEGERS, Interface, Item, Part, camel, first_sentence, is_handle
from header import number_of

# The groups whose numbers Rust's own enums and flags have.
OF_RUST = "key termwiz_mod button kitty_flag kitty_mod".split()
# No call returns this status to Rust, whose texts are UTF-8. A constant without a use is a warning.
UNUSED = "HED_BAD_TEXT"
# The keys that carry something: its type in Rust, and what stands in its place in a table.
CARRIED = {
    "CHAR": ("(char)", "('\\0')"),
    "FUNCTION": ("(u8)", "(0)"),
}

TYPES = {**INTEGERS, "bool": "bool", "void": "c_void", "size_t": "usize", "hed_status": "u32"}
SIZES = {"bool": 1, "u8": 1, "u16": 2, "i32": 4, "u32": 4}
# The macros with a number that Rust and Python use, and their types in Rust.
MACROS = {
    **dict.fromkeys(("HED_ENTRY_MOST", "HED_CHORD_MOST", "HED_CODES_MOST"), "usize"),
    "HED_QUESTIONS_MOST": "usize",
    **{"HED_NO_CODE": "u32", "HED_NO_PARTS": "usize", "HED_LIMIT_MOST": "i32"},
}
# The names that aren't made of the header's, and words that Rust has for itself.
NAMES = {"hed_keymap": "KeyMap"}
WORDS = {"match": "found"}

# A text in lines of at most 96 columns, which are cut only at spaces.
fill = partial(textwrap.fill, width=96, break_long_words=False, break_on_hyphens=False)


def cut(text: str) -> str:
    """The same, where a null stands for a blank at which no line is cut."""
    return fill(text, subsequent_indent="    ").replace("\0", " ")


def name_of(struct: str) -> str:
    return NAMES.get(struct) or camel(struct[4:])


def typed(it: Part) -> str:
    """A field or a parameter with its type, which isn't cut."""
    of = rust_type(it.type)
    of = f"[{of};\0{it.length.replace('HED_', '')}]" if it.length else of
    return f"{WORDS.get(it.name, it.name)}:\0{of}"


def rust_type(of: str) -> str:
    if of.endswith(" *"):
        to = "const" if of.startswith("const ") else "mut"
        return f"*{to}\0{rust_type(of[:-2].replace('const ', ''))}"
    return TYPES.get(of) or name_of(of)


def constants(interface: Interface) -> Iterator[str]:
    for name, of in MACROS.items():
        number = number_of(interface.macros[name].text)
        is_most = number == (2**64 - 1 if of == "usize" else 2**32 - 1)
        yield f"pub const {name[4:]}: {of} = {f'{of}::MAX' if is_most else f'{number:_}'};"
    said = [field for it in interface.structs.values() for field in it.parts]
    for enum in interface.enums.values():
        if enum.name[4:] not in OF_RUST:
            types = {it.type for it in said if re.search(rf"\ban enum {enum.name}\b", it.comment)}
            of = TYPES[types.pop()] if len(types) == 1 else "u32"
            yield "\n" + fill(f"// {first_sentence(enum.comment)}", subsequent_indent="// ")
            for value in (it for it in enum.parts if it.name != UNUSED):
                name = ("STATUS_" if enum.name == "hed_status" else "") + value.name[4:]
                yield f"pub const {name}: {of} = {value.value};"


def structs(interface: Interface) -> Iterator[str]:
    for it in interface.structs.values():
        yield fill(f"/// {first_sentence(it.comment)}", subsequent_indent="/// ")
        fields = "" if is_handle(it) else f" {', '.join(map(typed, it.parts))}\0"
        yield cut(f"{name_of(it.name)} {{{fields}}}")


def layout(interface: Interface, it: Item) -> Tuple[int, int, Dict[str, int]]:
    """The size and the alignment of a struct by C's rules, and where each of its fields is."""
    end, most, places = 0, 1, {}
    for field in it.parts:
        if field.type in interface.structs:
            size, step, _ = layout(interface, interface.structs[field.type])
        else:
            size = step = SIZES.get(rust_type(field.type), 8)
        count = number_of(interface.macros[field.length].text) if field.length else 1
        places[field.name] = -(-end // step) * step
        end, most = places[field.name] + count * size, max(most, step)
    return -(-end // most) * most, most, places


def layouts(interface: Interface) -> Iterator[str]:
    for it in interface.structs.values():
        size, _, places = layout(interface, it)
        fields = " ".join(f"{name}\0{at}" for name, at in places.items())
        yield cut(f"is_laid_out!({name_of(it.name)}\0{size} {fields});")


def calls(interface: Interface) -> Iterator[str]:
    """The calls, each in as many lines as it needs."""
    for it in interface.calls.values():
        returned = "" if it.text == "void" else f"\0->\0{rust_type(it.text)}"
        yield cut(f"pub\0fn\0{it.name}({', '.join(map(typed, it.parts))}){returned};")
