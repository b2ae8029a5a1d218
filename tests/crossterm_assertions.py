"""crossterm's own assertions on its parser, of its installed source. Each is a case of
test_crossterm.py. None of them is copied here. They are compiled with each public name of the
modules that the package in crossterm's place has of its own."""
import glob
import os
import re
import subprocess
from pathlib import Path

from conftest import LIBRARY

SOURCE = "/usr/share/cargo/registry/crossterm-[0-9]*/src"
PUBLIC = re.compile(r"^pub (?:fn|struct|enum) (\w+)|^    pub struct (\w+): ", re.MULTILINE)
# What they call.
CALLED = (Path(__file__).parent / "crossterm_parser.rs").read_text()


def source_of(name):
    (folder,) = glob.glob(SOURCE)
    return Path(folder, name).read_text()


def tests_of_parser():
    """The module of tests, and the line before it."""
    source = source_of("event/sys/unix/parse.rs")
    begin = source.index("mod tests {")
    return source[begin:], source.count("\n", 0, begin)


def uses_of_names():
    for module in ("cursor", "event", "terminal"):
        names = ["".join(it) for it in PUBLIC.findall(source_of(f"{module}.rs"))]
        yield f"pub use crossterm::{module}::{{{', '.join(names)}}};\n"


def assertions():
    """The bytes of each assertion as they are written, by its line."""
    tests, before = tests_of_parser()
    found = {}
    for it in re.finditer(r'assert(?:_eq)?!\(\s*\w+\(([^")]*"[^"]*"[^)]*|&\[[^\]]*\])', tests):
        found[before + 1 + tests.count("\n", 0, it.start())] = it[1]
    assert len(found) == len(re.findall(r"assert(?:_eq)?!\(", tests))
    return found


def run_assertions(rust):
    """Runs them over a copy of the folder rust. Returns whether each holds, and what is told of its
    bytes, by its line."""
    tests, before = tests_of_parser()
    package = rust / "crossterm"
    program = package / "tests/parser.rs"
    program.parent.mkdir(exist_ok=True)
    program.write_text(f"{CALLED}{tests}pub mod names {{\n{''.join(uses_of_names())}}}\n")
    words = ["--manifest-path", package / "Cargo.toml", "--config", rust / "system.toml"]
    words += ["--quiet", "--offline", "--test", "parser", "--", "--nocapture", "--test-threads=1"]
    environment = os.environ | {
        "HEDRUGAL_LIBRARY": str(LIBRARY),
        "CARGO_TARGET_DIR": str(rust / "target"),
    }
    run = subprocess.run(["cargo", "test", *words], env=environment, capture_output=True, text=True)
    assert run.returncode == 0, run.stderr
    lines = re.findall(r"^(\d+) (true|false) (.*)$", run.stderr, re.MULTILINE)
    shift = before - CALLED.count("\n")
    return {int(line) + shift: (holds == "true", told) for line, holds, told in lines}
