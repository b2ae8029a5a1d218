"""Writes what other files have of the header at marked places.

A place begins at a comment 'hedrugal.h: GROUP FORM' on a line of its own, and ends before the
comment 'hedrugal.h: end'. A group is the name of an enum without its hed_, or some such names. The
names of WHOLE are places too, each for one file."""

import re
import sys
import textwrap
from collections import Counter
from typing import Callable, Dict, Iterable, Iterator

import python
import rust
from header import Interface, Part, camel, files_of, named, read
from python import CONSTANTS
from rust import CARRIED, OF_RUST

# A number in each form.
FORMS = {
    "table": '{{ {it.name}, "{name}", {prefix} }},',
    "flag": "/// {it.comment}\nconst {name} = {it.value};",
    "variant": "/// {it.comment}\n{camel}{carried},",
    "raw": "/// {it.comment}\n{camel} = raw::{group}_{name},",
    "number": "KeyCode::{camel}{any_carried} => {it.value},",
    "of": "{it.value} => KeyCode::{camel}{made},",
    "named": "{name}",
    "plain": "{camel}",
    "member": '{name} = numbered({it.value}, "{it.comment}")',
    "last": "LAST_{group} = {it.name},",
}


def lines_of(form: str, group: str, name: str, it: Part) -> str:
    """A number in a form, which may leave it out."""
    carried, made = CARRIED.get(name, ("", "")) if group == "key" else ("", "")
    if (form in ("table", "named") and not it.value) or (form in ("plain", "member") and carried):
        return ""
    text = FORMS[form].format(
        it=it,
        name=name,
        camel=camel(name),
        group=group.upper(),
        prefix="NULL" if group == "button" else f'"{camel(name)}-"',
        carried=carried,
        any_carried=carried and "(_)",
        made=made,
    )
    # In Python what is too long at four more columns has a line for each part, as black has it.
    if form == "member" and len(text) > 96:
        parts = textwrap.wrap(it.comment, 88, drop_whitespace=False)
        said = "\n".join(f'    "{part}"' for part in parts)
        text = f"{name} = numbered(\n    {it.value},\n{said},\n)"
    return text


def reply_fields(interface: Interface) -> Iterator[str]:
    """How C's cases tell a reply: for each field, the kind that has it and the names of values."""
    for it in interface.structs["hed_reply"].parts:
        kind, enum = re.match(r"(HED_\w+): ", it.comment), re.search(r"an enum (\w+)", it.comment)
        values = named(interface.enums[enum[1]]) if enum else ()
        names = "".join(f" {value.value} {name.lower()}" for name, value in values)
        said = f'"{names} "' if enum or it.type != "uint8_t" else "NULL"
        front = (
            f'" {it.name}=", reply.{it.name}, {kind[1]}' if kind else '"", reply.kind, reply.kind'
        )
        if kind or enum:
            text = f"tell_field({front}, {said});"
            yield text if len(text) <= 138 else f"tell_field({front},\n           {said});"


def of_policy(form: str) -> Callable[[Interface], Iterator[str]]:
    return lambda it: (form.format(field.name) for field in it.structs["hed_policy"].parts)


WHOLE: Dict[str, Callable[[Interface], Iterator[str]]] = {
    "rust numbers": rust.constants,
    "rust structs": rust.structs,
    "rust layouts": rust.layouts,
    "rust calls": rust.calls,
    "rust limits": of_policy('("{0}", |it| &mut it.{0}),'),
    "python numbers": python.constants,
    "python structs": python.structs,
    "python calls": python.calls,
    "c calls": lambda it: (f"{name};" for name in sorted(it.calls)),
    "c limits": of_policy('"{}",'),
    "c replies": reply_fields,
}
FILES = "rust/src/**/*.rs rust/plain/tests/**/*.rs python/hedrugal/*.py keys/*.c c/*.*"

# A place: its first line, those that are written, and its end.
MARK = r" *(?:/\*|//|#) hedrugal\.h: "
PLACE = re.compile(
    rf"^(?P<head>{MARK}(?P<groups>\w[\w ]*) (?P<form>\w+)(?: \*/)?\n)(?:(?!{MARK}).*\n)*?"
    rf"(?P<end>(?P<space> *)\S+ hedrugal\.h: end(?: \*/)?)$",
    re.M,
)
MARKS = re.compile(rf"^{MARK}(\w[\w ]*?)(?: \*/)?$", re.M)


def places_of(groups: Iterable[str]) -> Iterator[str]:
    """The places that there have to be."""
    yield from (*WHOLE, "key variant", "key number", "key of", "key plain", "mouse raw")
    yield from ("button table", "kitty_mod table", "key mouse button last")
    yield from (f"{group} flag" for group in OF_RUST if group != "key")
    yield from ("termwiz_mod named", "button named")
    yield from (f"{it} member" for it in groups if it == "key" or it not in CONSTANTS)


def pages(interface: Interface) -> Dict[str, str]:
    """The files that have places, once these are all there."""
    enums = {enum.name[4:]: enum for enum in interface.enums.values()}

    def lines(groups: str, form: str) -> Iterator[str]:
        if f"{groups} {form}" in WHOLE:
            yield from WHOLE[f"{groups} {form}"](interface)
            return
        for group in groups.split():
            texts = [*filter(None, (lines_of(form, group, *it) for it in named(enums[group])))]
            if form in ("plain", "named"):
                texts = textwrap.wrap(" ".join(texts), 96)
            yield from texts[-1:] if form == "last" else texts

    def written(place: re.Match[str]) -> str:
        text = "\n".join(lines(place["groups"], place["form"])) + "\n"
        return place["head"] + textwrap.indent(text, place["space"]) + place["end"]

    texts = {file: read(file) for pattern in FILES.split() for file in files_of(pattern)}
    marks = Counter(mark for text in texts.values() for mark in MARKS.findall(text))
    wanted = Counter(places_of(enums))
    wanted["end"] = sum(wanted.values())
    for mark in sorted({*wanted, *marks}):
        if marks[mark] != wanted[mark]:
            sys.exit(f"{marks[mark]} places 'hedrugal.h: {mark}', and not {wanted[mark]}")
    found = {file: PLACE.subn(written, text) for file, text in texts.items()}
    for file, (_, count) in found.items():
        if 2 * count != len(MARKS.findall(texts[file])):
            sys.exit(f"{file}: has a place without its 'hedrugal.h: end'")
    return {file: text for file, (text, count) in found.items() if count}
