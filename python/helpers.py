"""What several files of tests use."""
import functools
import os
import re
import resource
import subprocess
import sys
from pathlib import Path

import pytest

import hedrugal
from hedrugal import KeyCode, KeyReport, KittyModifiers, Modifiers, MouseButtons, MouseKind
from hedrugal import MouseReport, Parser, Paste
from hedrugal._library import library

HERE = os.path.dirname(os.path.abspath(__file__))
TOP = os.path.dirname(HERE)
# The file of the library.
LIBRARY = os.path.abspath(library._name)
# No test waits longer for another process, so that a machine with much to do fails none.
SECONDS = 300

STREAM = b"hello\x1b[A\x1b\x1b[200~ab\xc3\xa9cd\x1b[201~q\x1b[<0;3;4M\xff\x1b[27;5;13~\xc3\xa9\x1b"
EVENTS = [
    *map(KeyReport, "hello"),
    KeyReport(KeyCode.UP_ARROW),
    KeyReport(KeyCode.ESCAPE),
    Paste("abécd"),
    KeyReport("q"),
    MouseReport(3, 4, Modifiers.NONE, MouseButtons.LEFT, MouseKind.PRESS, 1),
    KeyReport("\ufffd"),
    KeyReport(KeyCode.ENTER, KittyModifiers.CTRL),
    KeyReport("é"),
    KeyReport(KeyCode.ESCAPE),
]


def read(path):
    with open(os.path.join(TOP, path), encoding="utf-8") as opened:
        return opened.read()


def constants(prefix):
    """The numbers of the header's constants that begin so, by the rest of their names."""
    found = re.findall(
        rf"^ *(?:#define )?{prefix}(\w+) (?:= )?(0x[0-9a-f]+|\d+)", read("c/hedrugal.h"), flags=re.M
    )
    return {name: int(number, 0) for name, number in found}


def typed(text):
    return [KeyReport(it) for it in text]


def cut(data, size):
    """The pieces of this size."""
    return [data[at : at + size] for at in range(0, len(data), size)]


def all_of(parser, *pieces):
    """The events of pieces, with no more to come."""
    return [*(event for piece in pieces for event in parser.feed(piece)), *parser.flush()]


def assert_raises(error, *uses, match=None):
    """Each use raises this error."""
    for use in uses:
        with pytest.raises(error, match=match):
            use()
            pytest.fail(f"{use} raises nothing")


def assert_refused(error, call, *given, match=None):
    """A call raises this error for each of these."""
    assert_raises(error, *(functools.partial(call, it) for it in given), match=match)


# The bytes of keys that may begin a sequence.
BEGINNINGS = (b"\x1b", b"\x1b\x1b", b"\x1b[", b"\x1bO", b"\x1bP", b"\x1b]", b"\x1b_")


def assert_read_back(parser, event, sent):
    """What was written is the event, also with more to come unless it may begin a sequence."""
    assert parser.feed(sent) + (parser.end() if sent in BEGINNINGS else []) == [event], sent
    assert parser.waiting_len == 0


# What a call of a parser needs.
NEEDED = {"feed": (b"q",), "entry": (0,)}


def uses_of(parser):
    """Each call of a parser but close, by its name. A property is read, and set to what it is."""
    uses = {}
    for name in {it for it in dir(Parser) if it[0] != "_"} - {"close", "closed"}:
        if not isinstance(getattr(Parser, name), property):
            uses[name] = functools.partial(getattr(parser, name), *NEEDED.get(name, ()))
            continue
        uses[name] = functools.partial(getattr, parser, name)
        if getattr(Parser, name).fset:
            uses[f"set {name}"] = functools.partial(setattr, parser, name, uses[name]())
    return uses


def assert_rest(parser, length, kind):
    """So many bytes are buffered, and they are this."""
    assert (parser.waiting_len, parser.waiting) == (length, kind)


def set_version(module, version):
    """Changes the version that a copy of the module has."""
    file = Path(module, "__init__.py")
    before, line = file.read_text(encoding="utf-8"), f'__version__ = "{hedrugal.__version__}"\n'
    assert before.count(line) == 1
    file.write_text(before.replace(line, f'__version__ = "{version}"\n'), encoding="utf-8")


def run_python(text, env=None, cwd=None):
    """Runs a program in another Python, and returns its status and what it printed."""
    env = {
        **{name: value for name, value in os.environ.items() if name != "HEDRUGAL_LIBRARY"},
        "PYTHONPATH": HERE,
        **(env or {}),
    }
    how = {"stdin": subprocess.DEVNULL, "capture_output": True, "timeout": SECONDS, "check": False}
    done = subprocess.run([sys.executable, "-B", "-c", text], env=env, cwd=cwd, **how)
    return done.returncode, done.stdout.decode(), done.stderr.decode()


def assert_prints(text, wanted, **env):
    """A program prints this with the library, and nothing else."""
    assert run_python(text, {"HEDRUGAL_LIBRARY": LIBRARY, **env}) == (0, wanted, "")


def heeds_limits():
    """Whether this system heeds a limit on the memory of a process. qemu drops it."""
    before = resource.getrlimit(resource.RLIMIT_AS)
    if before[0] != resource.RLIM_INFINITY:
        return True
    most = 1 << 46
    resource.setrlimit(resource.RLIMIT_AS, (most, before[1]))
    heeded = resource.getrlimit(resource.RLIMIT_AS)[0] == most
    resource.setrlimit(resource.RLIMIT_AS, before)
    return heeded


needs_limits = pytest.mark.skipif(not heeds_limits(), reason="no limit on memory holds here")

# Sets the most memory that this process may have to what it has, and some bytes more, or to all.
LIMITS = """
import resource
from hedrugal import *
def limit(more):
    pages = int(open("/proc/self/statm").read().split()[0])
    most = resource.RLIM_INFINITY if more is None else pages * resource.getpagesize() + more
    resource.setrlimit(resource.RLIMIT_AS, (most, resource.RLIM_INFINITY))
MB = 1 << 20
def refused(call):
    try:
        return None, call()
    except MemoryError as error:
        return error, None
"""


def assert_documented(*modules_and_classes):
    """Each public member that is ours has a docstring, which begins with a capital letter."""
    types = {"Event", "Found", "Key", "Reply", "ReportedKey", "TerminalEvent"}
    for it in modules_and_classes:
        ours = [
            base for base in getattr(it, "__mro__", ()) if base.__module__.startswith("hedrugal")
        ]
        names = {name for base in ours for name in vars(base) if name[0] != "_"}
        for name in {*getattr(it, "__all__", names)} - types:
            said = getattr(it, name).__doc__
            assert said and said[0].isupper(), name
