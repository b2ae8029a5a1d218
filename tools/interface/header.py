"""Reads the files of this project, and of a C header the declarations in their order, each with its
comment."""

import re
import sys
from pathlib import Path
from typing import Dict, Iterator, List, NamedTuple, Optional, Tuple

TOP = Path(__file__).resolve().parents[2]
HEADER = "c/hedrugal.h"
TERMINAL = "c/hedrugal_terminal.h"
SYMBOLS = "debian/libhedrugal0.symbols"


def read(file: str) -> str:
    try:
        return (TOP / file).read_text(encoding="utf-8")
    except OSError as error:
        sys.exit(f"{file}: {error.strerror}")


def files_of(pattern: str) -> List[str]:
    return [str(path.relative_to(TOP)) for path in sorted(TOP.glob(pattern))]


def matches(files: str, pattern: str) -> Iterator[Tuple[str, Dict[str, str]]]:
    """Where files have the pattern, and the pattern's groups."""
    for file in files_of(files):
        text = read(file)
        for found in re.finditer(pattern, text, flags=re.M):
            yield f"{file}:{text.count(chr(10), 0, found.start()) + 1}", found.groupdict("0")


class Part(NamedTuple):
    """A value of an enum, a field or a parameter. A pointer's type ends with a star, as
    `const hed_parser *`. The length is what an array has in its brackets."""

    name: str
    line: int
    comment: str = ""
    value: int = 0
    type: str = ""
    length: str = ""

    def declared(self) -> str:
        return self.name + (self.length and f"[{self.length}]")


class Item(NamedTuple):
    """A declaration, or a comment that none takes. An enum without a name has that of the typedef
    right above it, or an empty one. The text is what a call returns, what a macro stands for, or an
    enum's own name. The brackets are a macro's."""

    kind: str
    name: str
    comment: str
    line: int
    parts: Tuple[Part, ...] = ()
    text: str = ""
    brackets: str = ""


TYPE = r"(?:const |enum )*\w+ \*?"
NOTE = r"(?: */\*(?P<note>.*?)\*/)?"
ITEM = re.compile(
    r"(?:(?:/\*(?P<said>(?:(?!\*/).)*)\*/\n)?(?:"
    r"#define (?P<macro>\w+)(?P<brackets>\([^)\n]*\))?(?P<text>(?:\\\n|[^\n])*)"
    r"|(?:typedef \w+ (?P<alias>\w+);\s*)?enum (?P<enum>\w*) ?\{(?P<values>.*?)\};"
    r"|typedef struct (?P<struct>\w+) \{\n(?P<fields>.*?)\n\} \w+;"
    rf"|(?P<returns>{TYPE})(?P<call>\w+)\((?P<params>[^)]*)\);)"
    r'|/\*(?P<free>.*?)\*/|#(?:\\\n|[^\n])*|extern "C" \{|\}|HED_IS\([^\n]*;)\s*',
    re.S,
)
VALUE = re.compile(rf"\s*(?P<name>\w+)(?: = (?P<number>\d+)\b(?: << (?P<shift>\d+))?)?,?{NOTE}\s*")
FIELD = re.compile(rf"\s*(?P<type>{TYPE})(?P<names>[\w\[\], ]+);{NOTE}\s*")
DECLARATOR = re.compile(r"(?P<name>\w+)(?:\[(?P<length>\w+)\])?")
PARAM = re.compile(rf"\s*(?P<type>{TYPE})(?P<name>\w+)(?:,\s*|$)|void$")


def plain(comment: Optional[str]) -> str:
    """The text of a comment, without its stars, what is before them, and what names its tests."""
    lines = (comment or "").strip().split("\n")
    text = "\n".join(re.sub(r"^ *\* ?", "", line).rstrip() for line in lines)
    return re.sub(r"\nScenarios: .*", "", text)


class Reader:
    def __init__(self, file: str) -> None:
        self.file, self.text = file, read(file)

    def line(self, at: int) -> int:
        return self.text.count("\n", 0, at) + 1

    def pieces(self, pattern: re.Pattern[str], at: int, end: int) -> Iterator[re.Match[str]]:
        """What a part of the header consists of."""
        while at < end:
            found = pattern.match(self.text, at, end)
            if not found or found.end() == at:
                sys.exit(f"{self.file}:{self.line(at)}: isn't laid out as the header's other lines")
            yield found
            at = found.end()

    def parts(self, found: re.Match[str]) -> Iterator[Part]:
        """The parts of a declaration. A value without a number is 1 more than that before it."""
        number = -1
        for it in self.pieces(VALUE, *found.span("values")) if found["values"] else ():
            number = int(it["number"]) << int(it["shift"] or 0) if it["number"] else number + 1
            yield Part(it["name"], self.line(it.start("name")), plain(it["note"]), number)
        for it in self.pieces(FIELD, *found.span("fields")) if found["struct"] else ():
            line, of = self.line(it.start("type")), it["type"].strip()
            for one in DECLARATOR.finditer(it["names"]):
                yield Part(one["name"], line, plain(it["note"]), 0, of, one["length"] or "")
        for it in self.pieces(PARAM, *found.span("params")) if found["call"] else ():
            if it["type"]:
                yield Part(it["name"], 0, type=it["type"].strip())

    def macro(self, found: re.Match[str], comment: str, line: int) -> Iterator[Item]:
        """A macro that stays defined. One with a comment on its own line leaves that above free."""
        text = re.sub(r"\s+", " ", found["text"].replace("\\\n", " ")).strip()
        cut = re.fullmatch(r"(.*?) /\*(.*)\*/", text)
        if cut and comment:
            yield Item("comment", "", comment, line - comment.count("\n") - 1)
        text, said = (cut[1], plain(cut[2])) if cut else (text, comment)
        if text and f"\n#undef {found['macro']}\n" not in self.text:
            yield Item("macro", found["macro"], said, line, (), text, found["brackets"] or "")

    def items(self) -> Iterator[Item]:
        for found in self.pieces(ITEM, 0, len(self.text)):
            said = found["said"]
            comment, line = plain(said), self.line(found.start() + (len(said) + 5 if said else 0))
            if found["free"]:
                yield Item("comment", "", plain(found["free"]), line)
            elif found["macro"]:
                yield from self.macro(found, comment, line)
            elif found["values"] or found["struct"] or found["call"]:
                kind = "struct" if found["struct"] else "call" if found["call"] else "enum"
                name = found["struct"] or found["call"] or found["enum"] or found["alias"] or ""
                text = (found["returns"] or found["enum"] or "").strip()
                yield Item(kind, name, comment, line, tuple(self.parts(found)), text)


class Interface:
    """What a header declares, by its names, in the header's order. Items are free comments too."""

    def __init__(self, file: str) -> None:
        items = self.items = list(Reader(file).items())
        self.enums, self.structs, self.calls, self.macros = (
            {it.name: it for it in items if it.kind == kind}
            for kind in ("enum", "struct", "call", "macro")
        )


# The types of integers, with their names in Rust.
BITS = (8, 16, 32, 64)
INTEGERS = {**{f"uint{n}_t": f"u{n}" for n in BITS}, **{f"int{n}_t": f"i{n}" for n in BITS}}


def is_handle(struct: Item) -> bool:
    """Whether a struct's fields are the library's, and lead to what it owns."""
    return [it.name for it in struct.parts] == ["live", "state"]


def number_of(text: str) -> int:
    """The number that a macro stands for."""
    return 2**64 - 1 if text == "SIZE_MAX" else int(text.rstrip("u"), 0)


def camel(name: str) -> str:
    """LeftArrow of LEFT_ARROW."""
    return "".join(part.capitalize() for part in name.split("_"))


def first_sentence(comment: str) -> str:
    return re.split(r"(?<=\.)\s", comment, maxsplit=1)[0].replace("\n", " ")


def named(enum: Item) -> Iterator[Tuple[str, Part]]:
    """The values of an enum, each with its name without what all of them begin with."""
    start = start_of(enum)
    return ((it.name[len(start) :], it) for it in enum.parts)


def start_of(enum: Item) -> str:
    whole = f"{enum.name.upper()}_"
    starts = (whole, whole.replace("_KIND_", "_"), "HED_")
    return next(it for it in starts if all(one.name.startswith(it) for one in enum.parts))
