"""Makes the manual pages of section 3 of the headers' comments.

A comment of one line, `---- NAME(3): WHAT ----`, begins a page, which has what follows it. A
header's first comment is the first text of its first page. In comments a name of the header, and
what is plainly a parameter or a field, is marked as such. Lines that are indented by four spaces
are code, a line that begins with a dash is an item of a list, and backquotes are quotes.
"""

import re
from itertools import groupby
from typing import Dict, Iterator, List, NamedTuple, Tuple

from header import Item

DATE = "November 29, 2026"
FIRST = "hedrugal"
BESIDE_FIRST = ["keyshow 1", "pkg-config 1", "clock_gettime 2", "poll 2"]
BEGINS = re.compile(r"---- (\w+)\(3\): (.*) ----")

# The macros of mdoc that a text may have as a word.
MDOC = set(
    "Ad An Ap Ar At Bd Bl Bx Cd Cm Dl Dt Dv Ed El Em En Er Ev Ex Fa Fl Fn Ft Ic In It Li Lk Ms Nd"
    " Nm No Ns Op Os Ox Pa Pf Pp Sh Sm So Ss St Sy Ta Tn Ud Ux Va Vt Xo Xr".split()
)
ESCAPES = str.maketrans({"\\": r"\e", "^": r"\(ha", "~": r"\(ti", "‘": r"\(oq", "’": r"\(cq"})
# A word: an opening bracket, what may have a macro, the owner's s, and signs.
WORD = re.compile(r"(\(?)([^\s(]\S*?(?:\(\w+\))?)('s)?([.,:;)]*)(?=\s|$)")
# What may stand before a word that is a parameter, and would be a noun with an article or a
# capital otherwise: a sentence or a condition begins, maybe with another parameter.
FRONT = re.compile(r"(^|[.:] |\b[Ii]f )(\w+ (and|or) )?$")


# The macro of each name. That of a parameter, which may be a word of the text too, has a mark.
Names = Dict[str, str]
# A name of a list, the macros by which it is written, and the text for it.
Row = Tuple[str, str, str]


class Page(NamedTuple):
    name: str
    what: str
    header: str
    items: List[Item]


def escaped(text: str) -> str:
    return re.sub(r"(?<!\w)-", r"\-", text.translate(ESCAPES))


def word(text: str) -> str:
    """A word of a line of macros that is none."""
    is_read = text in MDOC or (len(text) == 1 and text in ".,:;()[]?!|")
    return r"\&" * is_read + escaped(text).replace('"', r"\(dq")


def macro(it: str, names: Names, before: str) -> str:
    """A word with its macro, or nothing if it has none."""
    if re.fullmatch(r"HED_[A-Z0-9_]+\*?(\(\w+\))?", it):
        return f"Dv {it}"
    bare = re.fullmatch(r"(enum\0|\*?)(\w+)(->\w+)?", it)
    made = names.get(bare[2], "") if bare else ""
    if made == "Fa?":
        made = "Fa" if bare and (bare[1] or bare[3] or FRONT.search(before)) else ""
    return f"{made} {it}".replace("\0", " ") if made else ""


def words(text: str, names: Names) -> Iterator[str]:
    """The words of a line of macros."""
    in_text = False
    for found in WORD.finditer(re.sub(r"\benum (?=hed_)", "enum\0", text)):
        opening, it, owner, closing = found.groups("")
        made = macro(it, names, found.string[: found.start()])
        if (opening or not made) and not in_text:
            yield "No"
        in_text = not made or bool(owner)
        if made:
            yield from (*opening, made, *(["Ns No 's"] if owner else []), *closing)
        else:
            yield word(found[0])


def line(text: str, names: Names, before: str = "") -> str:
    """A paragraph as a line, of macros if it has some, several sentences, or a line before it."""
    text = re.sub(r"`([^`]*)`", r"‘\1’", " ".join(text.split()))
    text = re.sub(r"(HED_\w+_)\.\.", r"\1*", text)
    made = list(words(text, names))
    has_macros = made[0] != "No" or any(" " in it for it in made)
    if before or has_macros or re.search(r"[.?!]\W? ", text):
        return (before or ".") + " ".join(made)
    return re.sub(r"^(?=[.'])", r"\&", escaped(text))


def paragraphs(comment: str, names: Names) -> Iterator[str]:
    """The text of a comment."""
    chunks = re.split(r"\n\n(?! {4})|\n(?=- )", comment)
    for is_list, group in groupby(chunks, lambda it: it.startswith("- ")):
        if is_list:
            yield ".Bl -dash -compact"
        for chunk in group:
            text, *code = re.split(r"\n*\n {4}", chunk, maxsplit=1)
            yield ".It" if is_list else ".Pp"
            yield line(text.removeprefix("- "), names)
            if code:
                yield ".Bd -literal -offset indent"
                yield re.sub(r"^ {4}", "", escaped(code[0]), flags=re.M)
                yield ".Ed"
        if is_list:
            yield ".El"


def listed(rows: List[Row], names: Names) -> Iterator[str]:
    yield f'.Bl -column "{max((name for name, _, _ in rows), key=len)}"'
    yield from (line(text, names, before=f".It {macros} Ta ") for _, macros, text in rows)
    yield ".El"


def rows_of(item: Item) -> Iterator[Row]:
    """The values of an enum, or the fields that have a comment, those of a line as one."""
    if item.kind == "enum":
        yield from ((it.name, f"Dv {it.name}", it.comment) for it in item.parts)
        return
    for _, group in groupby((it for it in item.parts if it.comment), lambda it: it.line):
        some = list(group)
        of = some[0].type.rstrip(" *")
        stars = some[0].type.count("*") * "*"
        each = [stars + it.declared() for it in some]
        yield f"{of} {', '.join(each)}", f"Vt {of} Fa {' , '.join(each)}", some[0].comment


def prototype(call: Item) -> str:
    taken = [f"{one.type} {one.name}".replace("* ", "*") for one in call.parts] or ["void"]
    quoted = " ".join(f'"{one}"' for one in taken).replace(" ", r"\~").replace(r'"\~"', '" "')
    return f"Fn {call.name} {quoted}"


def described(it: Item, names: Names) -> Iterator[str]:
    """What a page has of an item. The comment of one with a heading begins without a break."""
    if it.kind == "comment":
        yield from paragraphs(it.comment, names)
    elif it.kind == "macro":
        value = f" = {it.text}" if it.text.isdigit() else ""
        yield from paragraphs(f"{it.name}{it.brackets}{value}: {it.comment}", names)
    elif it.kind == "call":
        yield f".Ss Ft {it.text} {prototype(it)}"
        params = {one.name: "Fa?" for one in it.parts}
        yield from list(paragraphs(it.comment, {**params, **names}))[1:]
    else:
        if it.name:
            yield f".Ss {'enum ' * bool(it.text)}{it.name}"
            yield from list(paragraphs(it.comment, names))[1:]
        rows = list(rows_of(it))
        if rows:
            yield from listed(rows, names)


def pages_of(header: str, items: List[Item]) -> List[Page]:
    """The pages of a header. A macro without a comment is in the name of the one before it."""
    first, *rest = items
    made: List[Page] = []
    for it in rest:
        begins = BEGINS.fullmatch(it.comment) if it.kind == "comment" else None
        if begins:
            made.append(Page(begins[1], begins[2], header, [] if made else [first]))
        elif made:
            there = made[-1].items
            if it.kind == "macro" and not it.comment and there[-1].kind == "macro":
                above = there.pop()
                name = f"{above.name}{above.brackets}, {it.name}"
                it = above._replace(name=name, brackets=it.brackets, text="")
            there.append(it)
    return made


def written(page: Page, pages: List[Page], names: Names) -> Iterator[str]:
    """The lines of a page."""
    others = [it for it in pages if it != page]
    calls = [it for it in page.items if it.kind == "call"]
    names_here = [page.name, *(it.name for it in calls)]
    yield f'.\\" tools/interface makes this page of {page.header}.'
    yield from (f".Dd {DATE}", f".Dt {page.name.upper()} 3", ".Os")
    yield from (".Sh NAME", f".Nm {' , '.join(names_here)}", f".Nd {page.what}")
    yield from (".Sh LIBRARY", r"Hedrugal (libhedrugal, \-lhedrugal)")
    yield from (".Sh SYNOPSIS", f".In {page.header.rsplit('/')[-1]}")
    yield from (line for it in calls for line in (f".Ft {it.text}", f".{prototype(it)}"))
    yield ".Sh DESCRIPTION"
    body = [list(described(it, names)) for it in page.items]
    if page.name == FIRST:
        rows = [(f"{it.name}(3)", f"Xr {it.name} 3", it.what) for it in others]
        body.insert(1, [".Pp", "These pages have the calls:", *listed(rows, names)])
    body[0] = body[0][1:] if body[0][0] == ".Pp" else body[0]
    yield from (it for some in body for it in some)
    beside = BESIDE_FIRST if page.name == FIRST else []
    yield ".Sh SEE ALSO"
    yield "." + " , ".join(f"Xr {it}" for it in [*beside, *sorted(f"{it.name} 3" for it in others)])


def pages(headers: Dict[str, List[Item]]) -> Dict[str, str]:
    """The files of the pages, of the items of these headers."""
    every = [it for items in headers.values() for it in items]
    variables = {part.name for it in every if it.kind != "enum" for part in it.parts}
    names = {it: "Fa" for it in variables if "_" in it or it == "len"}
    macros = {"call": "Fn", "struct": "Vt", "enum": "Vt"}
    names.update((it.name, macros[it.kind]) for it in every if it.kind in macros)
    all_pages = [page for file, items in headers.items() for page in pages_of(file, items)]
    return {
        f"docs/man/{it.name}.3": "".join(f"{one}\n" for one in written(it, all_pages, names))
        for it in all_pages
    }
