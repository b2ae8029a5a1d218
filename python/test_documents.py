"""What the documents and the docstrings say is so, and the types hold."""
import doctest
import importlib
import os
import re
import shlex
import shutil
import subprocess
from pathlib import Path

import pytest

import hedrugal
from hedrugal import names, questions, terminal
from helpers import HERE, LIBRARY, SECONDS, TOP, assert_documented


MODULES = "bindings encoders events keymap names parser questions replies terminal timer".split()


@pytest.mark.parametrize("name", ["hedrugal", *(f"hedrugal.{it}" for it in MODULES)])
def test_docstrings(name):
    """Their listings import what they use but the names of the package."""
    public = {name: getattr(hedrugal, name) for name in hedrugal.__all__}
    failed, tried = doctest.testmod(importlib.import_module(name), extraglobs=public)
    assert (failed, tried > 0) == (0, True)


def test_every_call_says_what_it_does():
    classes = [it for it in vars(hedrugal).values() if isinstance(it, type)]
    classes = [it for it in classes if hasattr(it, "close") or it.__module__ == names.__name__]
    assert hedrugal.Parser in classes and hedrugal.Chord in classes
    assert_documented(hedrugal, terminal, terminal.Terminal, questions.Questions, *classes)


def test_modules():
    """None is long, and none imports a name of another that begins with an underscore."""
    pattern = r"^from (?:hedrugal)?\.\w+ import (?:\(([^)]*)\)|(.*))$"
    for file in Path(HERE, "hedrugal").rglob("*.py"):
        text = file.read_text(encoding="utf-8")
        assert len(text.splitlines()) <= 600, file
        imported = " ".join(map("".join, re.findall(pattern, text, flags=re.M)))
        assert not re.search(r"\b_\w", imported), file


ANSWERS_TOLD_APART = """
from hedrugal import *
with KeyMap[str]() as keys:
    found: Found[str] = keys.lookup(b'q')
    if isinstance(found, (Exact, Ambiguous)):
        length: int = found.len
        value: str = found.value
"""


LIMITS_IN_TIME = """
from typing import List, Optional
from hedrugal import *
with Parser() as parser:
    parser.policy = parser.policy._replace(paste=10, sequence=None)
    left: Optional[float] = parser.timeout()
    events: List[Event] = parser.feed(b"q", 1) + parser.idle(1.5)
"""


@pytest.mark.skipif(not shutil.which("mypy"), reason="no mypy")
@pytest.mark.parametrize(
    "words",
    [
        ["python/hedrugal"],
        sorted(map(str, Path(TOP, "python/examples").glob("*.py"))),
        ["-c", ANSWERS_TOLD_APART],
        ["-c", LIMITS_IN_TIME],
    ],
)
def test_types(words):
    """The package passes mypy --strict, and so do the examples and programs that use it."""
    words = ["mypy", "--strict", "--cache-dir=/dev/null", *words]
    how = {"cwd": TOP, "capture_output": True, "timeout": SECONDS, "check": False}
    done = subprocess.run(words, env={**os.environ, "MYPYPATH": HERE}, **how)
    assert (done.returncode, done.stderr) == (0, b""), done.stdout.decode()


@pytest.mark.skipif(not shutil.which("cc"), reason="no cc")
def test_example_in_c(tmp_path):
    """c/events.c prints no control character of a paste, and all else as it is."""
    events, folder = str(tmp_path / "events"), os.path.dirname(LIBRARY)
    strict = shlex.split("-std=c99 -Wall -Wextra -pedantic -Werror")
    words = [f"-I{TOP}/c", f"{TOP}/c/events.c", f"-L{folder}", "-lhedrugal", f"-Wl,-rpath,{folder}"]
    subprocess.run(["cc", *strict, *words, "-o", events], check=True, timeout=SECONDS)
    for text, shown in {
        "\x1b]0;title\x07": r"\x1b]0;title\x07",
        "é\x9b2J\x7f\r\n": r"é\xc2\x9b2J\x7f\x0d\x0a",
        "\x80\x9f\xa0\xdf世\0": "\\xc2\\x80\\xc2\\x9f\xa0\xdf世\\x00",
    }.items():
        data = text.encode()
        pasted = b"\x1b[200~" + data + b"\x1b[201~"
        printed = subprocess.check_output([events], input=pasted, timeout=SECONDS).decode()
        assert printed == f"paste of {len(data)} bytes: {shown}\n"


# What tells a reader or make to run commands.
COMMANDS = (
    ["*.md", "Makefile", "*.mk", "docs/*.md", "docs/man/*", "crates/*/README.md", "c/*", "keys/*"]
    + ["tools/*.sh", "tools/*/*.sh", "tools/package/*", "debian/rules"]
    + ["rust/build.rs", "rust/src/**/*.rs", "rust/examples/*.rs", "rust/plain/examples/**/*.rs"]
)


def test_no_names_that_another_user_may_take():
    """No command writes or runs a fixed name in a folder that all users share. A listing goes on
    only if it has a folder of its own, and if its program was built there."""
    files = {it for pattern in COMMANDS for it in Path(TOP).glob(pattern) if it.is_file()}
    assert len(files) > 100
    for file in files:
        text = file.read_text(encoding="utf-8")
        assert not re.search(r"(?<![\w.])/(var/)?tmp\b|/dev/shm|\$\{?TMPDIR", text), file
        for listing in re.findall(r"^```sh\n(.*?)^```", text, flags=re.M | re.S):
            if "mktemp" in listing:
                assert all(line.endswith("&&") for line in listing.splitlines()[:-1]), file
