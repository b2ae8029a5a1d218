"""Makes what python/hedrugal/_calls.py has of the header: structs, calls and numbers for ctypes."""

from itertools import groupby
from typing import Iterator

from header import INTEGERS, Interface, camel, is_handle, named, number_of
from rust import CARRIED, MACROS, fill

# The groups whose numbers Python has as constants.
CONSTANTS = "status kind key outcome_kind reply_kind".split()

TYPES = {
    **{name: own.upper() for name, own in INTEGERS.items()},
    **{"bool": "BOOL", "size_t": "SIZE", "hed_status": "U32", "void": "None"},
    **dict.fromkeys(("void *", "uint8_t *", "const uint8_t *"), "POINTER"),
}
# The names of structs that aren't made of the header's.
NAMES = {"hed_key_press": "RawPress"}


def python_type(interface: Interface, of: str) -> str:
    if of in TYPES:
        return TYPES[of]
    if of.endswith(" *"):
        return f"_to({python_type(interface, of[:-2].replace('const ', ''))})"
    if is_handle(interface.structs[of]):
        return "RawHandle"
    return NAMES.get(of) or f"Raw{camel(of[4:])}"


def structs(interface: Interface) -> Iterator[str]:
    """The structs. Fields of one type that follow each other have one line, as far as it goes."""
    yield ""
    for it in interface.structs.values():
        if is_handle(it):
            continue
        yield f"\nclass {python_type(interface, it.name)}(ctypes.Structure):"
        yield "    _fields_ = _fields("
        for (of, length), fields in groupby(it.parts, lambda field: (field.type, field.length)):
            kind = python_type(interface, of) + (f" * {length[4:]}" if length else "")
            lines = fill(" ".join(field.name for field in fields), width=85 - len(kind))
            yield from (f'        ({kind}, "{names}"),' for names in lines.split("\n"))
        yield "    )\n"
    yield ""


def calls(interface: Interface) -> Iterator[str]:
    """The calls, as black lays them out."""
    for it in interface.calls.values():
        returned = python_type(interface, it.text)
        params = [python_type(interface, param.type) for param in it.parts]
        line = f'"{it.name}": ({returned}, [{", ".join(params)}]),'
        inner = f"    [{', '.join(params)}],"
        if len(inner) > 96:
            inner = "\n".join(["    [", *(f"        {param}," for param in params), "    ],"])
        yield line if len(line) <= 96 else f'"{it.name}": (\n    {returned},\n{inner}\n),'


def constants(interface: Interface) -> Iterator[str]:
    """The numbers that no enum of the package has: of keys, those of which none is a member."""
    for macro in MACROS:
        yield f"{macro[4:]} = {number_of(interface.macros[macro].text)}"
    for enum in interface.enums.values():
        group = enum.name[4:]
        for name, value in named(enum) if group in CONSTANTS else ():
            if group != "key" or name in CARRIED:
                yield f"{group.replace('_kind', '').upper()}_{name} = {value.value}"
