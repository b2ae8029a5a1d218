#!/usr/bin/env python3
"""Prints what a tree promises and tests: laws, contracts, definitions, wrong bodies, tests, and the
inputs of tests. Each is one line.

    inventory.py [TREE]            the lines of a tree, sorted
    inventory.py --against COMMIT  what this tree has less (-) and more (+) than a commit, each with
                                   a file that has it; fails if it has less

`case` is a string of a test or of recorded data, in hexadecimal. A short one of printable ASCII is
a `text`. It is listed of the layers' own tests, unless it has a form in which they tell events.
`row` is a line of a file of cases. `table` is a file of other data, with its number of lines and a
digest of them."""
import ast
import hashlib
import io
import re
import subprocess
import sys
import tarfile
import tempfile
from collections.abc import Iterator
from pathlib import Path

TOP = Path(__file__).resolve().parent.parent
STRING = r'"(?:\\.|[^"\\])*"'
CHARACTER = r"'(?:\\.[^'\n]*|[^'\\\n])'"

# The proved crates.
RT = re.compile(rf"//[^\n]*|{STRING}|{CHARACTER}|[{{}}]|[^\"'/{{}}]+|.", re.DOTALL)
CLAUSE = re.compile(
    r"^(?P<type>(?:unsafe )?impl\b[^{\n]*|(?:pub )?(?:trait|struct|enum) \w+)|^(?P<end>\})"
    r'|^\s*(?:pub(?:\([a-z]+\))? |const |unsafe |extern "C" )*fn (?P<function>\w+)'
    r"|\b(?P<kind>requires|ensures\*?|returns|ghost (?!use)\w+)[^{}\n;]*(?P<open>\{)",
    re.MULTILINE,
)
BODY = re.compile(r"\s*\{(\s*\})?")
DEFINITION = re.compile(
    r"^(?:  )?(?:(?:abbrev|unfoldable)(?: pub)?|(?:pub )?(?:record|data)|unfolding) ([^\s({]+)"
    r"|^(?:  )?(?:pub )?(?:use|mod|module)\b",
    re.MULTILINE,
)


def one_line(text: str) -> str:
    return " ".join(text.split())


def clauses(crate: str, module: str, source: str) -> Iterator[str]:
    """Those of contracts, and of laws, which are functions with an empty body."""
    source = "".join(it for it in RT.findall(source) if not it.startswith("//"))
    owner, function, head, texts, place = "", "", 0, list[str](), 0
    while match := CLAUSE.search(source, place):
        place = match.end()
        if match["function"]:
            function, head = match["function"], place
        elif not match["kind"]:
            owner = one_line(match["type"] or "")
        else:
            depth, start = 0, match.start("kind")
            for token in RT.finditer(source, match.start("open")):
                depth += {"{": 1, "}": -1}.get(token[0], 0)
                if depth == 0:
                    break
            place = token.end()
            if match["kind"].startswith("ghost"):
                yield f"contract {crate} {module} {owner} {one_line(source[start:place])}"
                continue
            if not texts:
                signature = one_line(source[head:start])
            texts.append(one_line(source[start:place]))
            body = BODY.match(source, place)
            if body and body[1]:
                yield from (f"law {crate} {module}::{function}{signature} {it}" for it in texts)
            elif body:
                yield from (f"contract {crate} {module} {owner}::{function} {it}" for it in texts)
            texts = [] if body else texts


def definitions(crate: str, module: str, source: str) -> Iterator[str]:
    source = re.sub(r"(?<!\S)--.*", "", source)
    starts = list(DEFINITION.finditer(source))
    for start, after in zip(starts, [it.start() for it in starts[1:]] + [len(source)]):
        if start[1]:
            yield f"definition {crate} {module} {one_line(source[start.start():after])}"


def wrong_body(crate: str, name: str, source: str) -> Iterator[str]:
    edit = " -> ".join(re.findall("^(?:file|old|new): .*", source, re.MULTILINE))
    yield f"wrong body {crate} {name} {edit}"


# Literals.
ESCAPES = {b"e": 27, b"a": 7, b"b": 8, b"f": 12, b"n": 10, b"r": 13, b"s": 32, b"t": 9, b"v": 11}
ESCAPE = re.compile(rb"(?s)\\(?:x([0-9a-fA-F]{2})|u\{([0-9a-fA-F]+)\}|([0-7]{1,3})|(\n\s*)|(.))")
TOLD = re.compile(
    r"; ?$|^; \d|%[a-z.0-9]|\{.*\}|[.?:] ?$|\w[ ,]+\w+[ ,]+\w+[ ,]|^ | $"
    r"|^(key|mouse|paste|osc|dcs|apc|csi|cursor|size|flags|focus|position|resized|nothing)\b"
)
C = re.compile(rf"(?s)/\*.*?\*/|//[^\n]*|{STRING}|{CHARACTER}|[A-Za-z_]\w*|\S")
RUST = re.compile(rf'(?s)/\*.*?\*/|//[^\n]*|\bb?r(#*)"(.*?)"\1|({STRING})|{CHARACTER}')
RUST_TEST = re.compile(r"#\[(?:\w+::)?test\b[^\]]*\]\s*(?:#.*\s*)*(?:async )?fn (\w+)")


def unescaped(literal: str) -> bytes:
    """What stands in quotes in C, in Rust or in a file of cases."""

    def byte(match: re.Match[bytes]) -> bytes:
        pair, point, octal, line, letter = match.groups()
        if pair or octal:
            return bytes([int(pair or octal, 16 if pair else 8) & 255])
        if point:
            return chr(int(point, 16)).encode()
        return b"" if line else bytes([ESCAPES.get(letter, letter[0])])

    return ESCAPE.sub(byte, literal.encode())


def of_c(source: str, macros: dict[str, bytes]) -> Iterator[bytes]:
    """The strings, each joined of the literals and the macros that stand together."""
    joined = list[bytes]()
    for token in C.findall(re.sub(r"(?m)^#include.*", "", source) + ";"):
        if token[0] == '"' or token in macros:
            joined.append(macros[token] if token in macros else unescaped(token[1:-1]))
        elif joined and token[:2] not in ("/*", "//"):
            yield b"".join(joined)
            joined.clear()


def of_rust(source: str) -> Iterator[bytes]:
    return (raw.encode() or unescaped(text[1:-1]) for _, raw, text in RUST.findall(source))


def folded(node: ast.AST, names: dict[str, bytes]) -> bytes | None:
    """A string that is written as a sum, a product or a name of others."""
    if isinstance(node, ast.Constant) and isinstance(value := node.value, str | bytes):
        return value.encode(errors="surrogatepass") if isinstance(value, str) else value
    if isinstance(node, ast.BinOp) and (left := folded(node.left, names)) is not None:
        if isinstance(node.op, ast.Mult) and isinstance(node.right, ast.Constant):
            return left * node.right.value if len(left) * node.right.value <= 4096 else None
        right = folded(node.right, names)
        return left + right if isinstance(node.op, ast.Add) and right is not None else None
    return names.get(node.id) if isinstance(node, ast.Name) else None


def of_python(tree: ast.AST, names: dict[str, bytes]) -> Iterator[bytes]:
    for node in ast.iter_child_nodes(tree):
        if isinstance(node, ast.Expr) and isinstance(node.value, ast.Constant):
            continue  # a documentation string
        if (data := folded(node, names)) is None:
            yield from of_python(node, names)
        elif not isinstance(node, ast.Name):
            yield data


def names_of(module: ast.Module) -> Iterator[tuple[str, bytes]]:
    """The names of strings at the top of a module."""
    for node in (it for it in module.body if isinstance(it, ast.Assign)):
        targets = getattr(node.targets[0], "elts", node.targets)
        for target, value in zip(targets, getattr(node.value, "elts", [node.value])):
            if isinstance(target, ast.Name) and (data := folded(value, {})) is not None:
                yield target.id, data


def python_tests(node: ast.Module | ast.ClassDef, owner: str = "") -> Iterator[str]:
    for it in node.body:
        if isinstance(it, ast.ClassDef):
            yield from python_tests(it, f"{it.name}::")
        elif isinstance(it, ast.FunctionDef) and it.name.startswith("test_"):
            yield owner + it.name


def of_recorded(name: str, line: str) -> Iterator[bytes]:
    """The bytes of a line of rust/plain/tests/recorded that are given, or written by an encoder."""
    fields = line.split(" = ")
    given = fields if name.endswith("/encode.txt") else fields[: 2 if len(fields) == 5 else 1]
    for word in re.split("[ ,]", " ".join(given)):
        if match := re.fullmatch(r"(?:[*+-]|\d+:)?((?:[0-9a-f]{2})+)(?:@[0-9a-f]+)?", word):
            yield bytes.fromhex(match[1])


def of_data(name: str, text: str) -> Iterator[bytes]:
    lines = [it for it in text.splitlines() if it and it[0] != "#"]
    if "/recorded/" in name:
        for line in lines:
            yield from of_recorded(name, line)
    elif name.endswith(".tsv"):
        head, *rows = [line.split("\t") for line in lines]
        if "bytes" in head:
            yield from (bytes.fromhex(row[head.index("bytes")]) for row in rows)
        else:
            yield from (unescaped(it) for row in [head, *rows] for it in row)
    else:
        yield from (unescaped(it[1:-1]) for it in re.findall(STRING, "\n".join(lines)))


def lines_of(tree: Path) -> Iterator[tuple[str, str]]:
    """The lines of a tree, each with its file."""

    def files(*patterns: str) -> Iterator[tuple[str, str]]:
        for path in (it for pattern in patterns for it in sorted(tree.glob(pattern))):
            yield str(path.relative_to(tree)), path.read_text()

    def cases(name: str, strings: Iterator[bytes]) -> Iterator[tuple[str, str]]:
        for data in strings:
            if any(byte < 32 or byte > 126 for byte in data):
                yield f"case {data.hex()}", name
            elif not name.startswith("tests/test_") and 0 < len(data) <= 32:
                if not TOLD.search(text := data.decode()):
                    yield f'text "{text}"', name

    proved = {
        "src/**/*.rt": clauses,
        "specs/**/*.antt": definitions,
        "must-fail/*.edit": wrong_body,
    }
    for pattern, made in proved.items():
        for name, text in files(f"crates/*/{pattern}"):
            parts = Path(name).with_suffix("").parts
            yield from ((line, name) for line in made(parts[1], "::".join(parts[3:]), text))

    macros = dict[str, bytes]()
    for _, text in files("c/*.[ch]"):
        for macro, strings in re.findall(rf"(?m)^#define (\w+)((?: {STRING})+)", text):
            macros[macro] = b"".join(unescaped(it[1:-1]) for it in re.findall(STRING, strings))
    for name, text in files("c/test_*.c"):
        main = "".join(re.findall(r"(?ms)^int main.*?^\}", text))
        yield from ((f"test {name}::{it}", name) for it in re.findall(r" (\w+)\(\);", main))
        yield from cases(name, of_c(text, macros))

    for name, text in files("rust/**/*.rs"):
        tests = RUST_TEST.findall(text)
        yield from ((f"test {name}::{it}", name) for it in tests)
        if tests or "/tests/" in name:
            yield from cases(name, of_rust(text))

    modules = [(name, ast.parse(text)) for name, text in files("python/*.py", "tests/*.py")]
    names = {name: data for _, module in modules for name, data in names_of(module)}
    for name, module in modules:
        yield from ((f"test {name}::{it}", name) for it in python_tests(module))
        yield from cases(name, of_python(module, names))

    recorded = ("rust/**/*.t[xs][tv]", "tests/*/*.t[xs][tv]")
    for name, text in files(*recorded):
        yield from cases(name, of_data(name, text))
    programs = (f"crates/*/{it}" for it in ("args", "stdin", "stdout"))
    for name, text in files(*recorded, "tools/fuzz/corpus/*.txt", *programs):
        lines, digest = text.splitlines(), hashlib.sha256(text.encode()).hexdigest()[:12]
        if name.startswith("tests/cases/"):
            yield from ((f"row {name} {line}", name) for line in lines if line[:1] != "#")
        else:
            yield f"table {name} {len(lines)} {digest}", name


def of_commit(commit: str) -> dict[str, str]:
    command = ["git", "-C", str(TOP), "archive", commit]
    archive = subprocess.run(command, stdout=subprocess.PIPE, check=True).stdout
    with tempfile.TemporaryDirectory() as folder:
        tarfile.open(fileobj=io.BytesIO(archive)).extractall(folder)
        return dict(lines_of(Path(folder)))


def main(words: list[str]) -> int:
    if words[:1] != ["--against"]:
        print(*sorted(dict(lines_of(Path(*words) if words else TOP))), sep="\n")
        return 0
    then, now = of_commit(words[1]), dict(lines_of(TOP))
    for sign, some, others in (("-", then, now), ("+", now, then)):
        for line in sorted(some.keys() - others.keys()):
            print(sign, line, f"({some[line]})")
    return 1 if then.keys() - now.keys() else 0


if __name__ == "__main__":
    sys.exit(main(sys.argv[1:]))
