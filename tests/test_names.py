"""One thing has one name in C, Rust and Python: kinds of events and replies, fields, calls of a
parser, and sections of docs/rust.md and docs/python.md. Names in C are read from its headers, and
those in Rust from its sources."""
import inspect
import re
import typing

import hedrugal
import pytest
from conftest import TOP
from hedrugal.terminal import Terminal

HEADERS = "".join((TOP / "c" / it).read_text() for it in ("hedrugal.h", "hedrugal_terminal.h"))
# Without the declarations of what C has.
RUST = [it for it in sorted((TOP / "rust/src").rglob("*.rs")) if it.name != "raw.rs"]
RUST = "\n".join(it.read_text() for it in RUST)

# The calls of a parser that a language has for itself: to make and free one, and to take events.
ALONE = {
    "c": "init init_sharing free next next_events text drop_text press second",
    "rust": "new next",
    "python": "close closed entries",
}
# The sections that a page has for itself.
OWN_SECTIONS = {
    "rust": ["tokio", "mio", "crossterm", "termwiz's names"],
    "python": ["asyncio", "prompt_toolkit"],
}


def numbered(group):
    """The names of an enum of the header, but for one that stands for none of them."""
    names = re.findall(rf"^  HED_{group.upper()}_(\w+) = ", HEADERS, re.M)
    return {"".join(map(str.capitalize, it.split("_"))) for it in names} - {"Other"}


def fields_in_c(struct):
    body = re.search(rf"^typedef struct {struct} {{\n(.*?)^}} {struct};", HEADERS, re.M | re.S)[1]
    names = [re.search(r"([\w, ]+);", line)[1] for line in body.splitlines() if ";" in line]
    return [re.search(r"\w+$", it)[0] for line in names for it in line.split(",")]


def body_in_rust(head):
    return re.search(rf"^pub {head} {{\n(.*?)^}}", RUST, re.M | re.S)[1]


def fields_in_rust(struct):
    return re.findall(r"^    pub (\w+):", body_in_rust(f"struct {struct}"), re.M)


def variants_in_rust(enum):
    return set(re.findall(r"^    ([A-Z]\w*)", body_in_rust(f"enum {enum}"), re.M))


def fields_in_python(it):
    return list(getattr(it, "_fields", None) or getattr(it, "__dataclass_fields__"))


def classes(union):
    """The names of a union's classes, of which some end in what they are."""
    return {re.sub("(Report|Reply)$", "", it.__name__) for it in typing.get_args(union)}


def test_events():
    """A terminal in Rust and Python also tells that the program was continued."""
    kinds = numbered("kind")
    assert variants_in_rust("Event") == kinds | {"Resumed"}
    assert classes(hedrugal.Event) | {"Resumed"} == kinds | {"Resumed"}


def test_replies():
    assert variants_in_rust("Reply") == numbered("reply")
    assert classes(hedrugal.Reply) == numbered("reply")


@pytest.mark.parametrize("name", ["Size", "Policy", "Reading"])
def test_fields(name):
    in_c = fields_in_c(f"hed_{name.lower()}")
    assert sorted(fields_in_rust(name)) == sorted(in_c)
    assert sorted(fields_in_python(getattr(hedrugal, name))) == sorted(in_c)


def test_modes():
    """The fields of Modes in Rust are keywords of a terminal in Python. C has macros."""
    fields = fields_in_rust("Modes")
    assert set(fields) <= set(inspect.signature(Terminal).parameters)
    for name in set(fields) - {"enter", "leave"}:
        assert f"#define HED_TERMINAL_{name.upper()}_ON" in HEADERS


def calls(names, language):
    """The calls that are left, without what says that one sets something or may be refused."""
    alone = set(ALONE[language].split())
    found = {re.sub("^(set|try)_", "", it) for it in names}
    assert alone <= found
    return found - alone


def test_parser():
    in_c = calls(re.findall(r"\bhed_parser_(\w+)\(", HEADERS), "c")
    own = re.findall(r"^impl Parser {\n(.*?)^}", RUST, re.M | re.S)
    assert calls(re.findall(r"^    pub fn (\w+)", "".join(own), re.M), "rust") == in_c
    assert calls((it for it in dir(hedrugal.Parser) if it[0] != "_"), "python") == in_c


def sections(language):
    text = re.sub(r"^```.*?^```", "", (TOP / f"docs/{language}.md").read_text(), flags=re.M | re.S)
    found = re.findall(r"^##+ .*", text, re.M)
    own = [it for it in found if it.lstrip("# ") in OWN_SECTIONS[language]]
    assert len(own) == len(OWN_SECTIONS[language])
    return [it for it in found if it not in own]


def test_pages():
    assert sections("rust") == sections("python")
