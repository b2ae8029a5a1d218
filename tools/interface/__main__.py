"""Writes what is made of c/hedrugal.h, the one description of the interface: `make numbers`.

Made whole are debian/libhedrugal0.symbols, and with the comments of c/hedrugal_terminal.h the
manual pages of section 3 in docs/man. Other files in Rust, Python and C have what is made between a
comment 'hedrugal.h: GROUP FORM' and the comment 'hedrugal.h: end'.

With --check nothing is written. What is made is compared with what the files have, and the header
with the proved crates: numbers and names, the usual limits, structs, and the types and names of
parameters. It is also compared with the version wherever it stands, and with the calls that Rust
and Python make. Each difference is told by file and line, and the status is then 1.
"""

import argparse
import re
import sys
from difflib import SequenceMatcher
from typing import Dict, Iterator, List

import man
import places
import proved
from header import HEADER, SYMBOLS, TERMINAL, TOP, Interface, files_of, read


def symbols(interface: Interface) -> str:
    """Debian's list of the calls, with the version that brought each: of a new one this version."""
    head, brought = re.split(r"(?<=\n)(?= )", read(SYMBOLS), maxsplit=1)
    there = dict(re.findall(r"^ (\w+)@Base (\S+)$", brought, flags=re.M))
    version = interface.macros["HED_VERSION"].text.strip('"')
    calls = sorted(interface.calls)
    return head + "".join(f" {it}@Base {there.get(it, version)}\n" for it in calls)


def pages(interface: Interface) -> Dict[str, str]:
    """The files that are made of the header, in whole or at places, and their texts."""
    paged = man.pages({HEADER: interface.items, TERMINAL: Interface(TERMINAL).items})
    return {**places.pages(interface), SYMBOLS: symbols(interface), **paged}


def call_at(lines: List[str], at: int) -> str:
    """The call of a line, which may be one of several lines of it."""
    for line in reversed(lines[: at + 1]):
        found = re.search(r"\bhed_\w+", line)
        if found or not line.startswith("        "):
            return f" of {found[0]}" if found else ""
    return ""


def compare_page(file: str, wanted: str) -> Iterator[str]:
    """Where a file differs from what is made of the header. A call that differs is named."""
    there, made = read(file).splitlines(), wanted.splitlines()
    pieces = SequenceMatcher(None, there, made, autojunk=False).get_opcodes()
    for _, one, one_end, other, other_end in pieces:
        has, gives = there[one:one_end], made[other:other_end]
        if has != gives:
            call = call_at(made, other) if gives else call_at(there, one)
            shown = [f"'{lines[0].strip()}'" if lines else "nothing" for lines in (has, gives)]
            yield f"{file}:{one + 1}: has {shown[0]}{call}, and {HEADER} gives {shown[1]}"


def write(interface: Interface) -> None:
    for file, text in pages(interface).items():
        if not (TOP / file).exists() or read(file) != text:
            (TOP / file).write_text(text, encoding="utf-8")
            print(f"wrote {file}")


def check(interface: Interface) -> None:
    made = pages(interface)
    differ = [it for file, text in made.items() for it in compare_page(file, text)]
    others = {*files_of("docs/man/*.3")} - {*made}
    differ += [f"{it}: no header has this page" for it in sorted(others)]
    if differ:
        differ.append("`make numbers` writes what the header gives")
    differ += proved.compare(interface)
    if differ:
        sys.exit("\n".join(differ))
    numbers = sum(len(enum.parts) for enum in interface.enums.values())
    print(
        f"interface: {len(interface.calls)} calls, {len(interface.structs)} structs and {numbers}"
        f" numbers of {HEADER} are the same wherever they stand"
    )


def main() -> None:
    form = argparse.RawDescriptionHelpFormatter
    parser = argparse.ArgumentParser("interface", description=__doc__, formatter_class=form)
    parser.add_argument("--check", action="store_true", help="compare, and write nothing")
    act = check if parser.parse_args().check else write
    act(Interface(HEADER))


main()
