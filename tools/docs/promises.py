"""What the documents promise of a program's terminal, and the scenarios that hold it.

A promise is a paragraph below "A program on a terminal" in docs/rust.md and docs/python.md, and in
c/hedrugal_terminal.h a paragraph or an item behind the example of its first comment, or the comment
of a call. Its last line names rows of tests/scenarios, by patterns too, or functions of tests/*.py
where one language has it alone: `Scenarios: NAME, NAME` in the header, and an HTML comment with the
same words in a document. Each row stands in tools/plants too."""
import fnmatch
import re
import sys
from pathlib import Path

TOP = Path(__file__).resolve().parents[2]
HEADER = "c/hedrugal_terminal.h"
DOCUMENTS = ["docs/rust.md", "docs/python.md"]
NAMES = re.compile(r"Scenarios: (.*?)(?: -->|$)", re.MULTILINE)


def read(file):
    return (TOP / file).read_text(encoding="utf-8")


def rows():
    sys.path.insert(0, f"{TOP}/tests")
    from scenarios import ROWS

    return ROWS


def tests():
    """The functions of the tests."""
    texts = (read(it) for it in (TOP / "tests").glob("test_*.py"))
    return {name for text in texts for name in re.findall(r"^def (test_\w+)", text, re.MULTILINE)}


def paragraphs(text):
    """Paragraphs and items. What leads to items promises nothing."""
    parts = (it.strip() for it in re.split(r"\n\s*\n|\n(?=- )", text))
    return [it for it in parts if it and not it.endswith("are restored")]


def of_header():
    comments = re.findall(r"/\*((?:(?!\*/)[^\0])*)\*/\n(.*)", read(HEADER))
    plain = [(re.sub(r"\n \* ?", "\n", said), declared) for said, declared in comments]
    first = paragraphs(plain[0][0].partition("hed_terminal_end();\n")[2])
    return first + [
        said for said, declared in plain[1:] if re.search(r"hed_terminal_\w+\(", declared)
    ]


def of_document(file):
    """The paragraphs of the section, without its listings, headings and other markers."""
    section = read(file).partition("\n## A program on a terminal\n")[2].partition("\n## ")[0]
    text = re.sub(r"^```[^`]*```$", "", section, flags=re.MULTILINE)
    return paragraphs(re.sub(r"^(#|<!-- (?!Scenarios)).*$", "", text, flags=re.MULTILINE))


def shown():
    """The rows that a plant of tools/plants was seen to fail."""
    texts = (read(it) for it in (TOP / "tools/plants").glob("scenarios_*.toml"))
    return {it.replace("_", " ") for text in texts for it in re.findall(r"_row\[([^]-]*)", text)}


def faults():
    """What is wrong: a promise without a row, a name without one, and a row without a promise or a
    plant."""
    names, unnamed = [], set(rows())
    for file, promises in [(HEADER, of_header()), *((it, of_document(it)) for it in DOCUMENTS)]:
        for text in promises:
            named = [name for line in NAMES.findall(text) for name in line.strip().split(", ")]
            names += [(file, name) for name in named]
            if not named:
                yield f"{file}: no scenario holds '{' '.join(text.split())[:60]}..'"
    for file, name in names:
        found = fnmatch.filter([*rows(), *tests()], name)
        unnamed -= set(found)
        if not found:
            yield f"{file}: there is no scenario '{name}'"
    yield from (f"tests/scenarios: no promise names '{name}'" for name in sorted(unnamed))
    yield from (f"tests/scenarios: no plant fails '{it}'" for it in sorted(set(rows()) - shown()))
