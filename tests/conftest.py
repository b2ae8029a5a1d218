"""What the tests share: the library, the programs over it, and the repeat of a case that was late.

The variables HEDRUGAL_LIBRARY (a file or a folder), KEYSHOW and HEDRUGAL_KEYS name what is tested.
Without them it is what make wrote to out/. Programs are compiled into a temporary folder, those in
Rust into CARGO_TARGET_DIR if it is set."""
import contextlib
import functools
import os
import re
import shutil
import signal
import subprocess
import sys
import threading
import time
from pathlib import Path

import pytest

TOP = Path(__file__).resolve().parent.parent
# No wait ends earlier, and no case: a machine with much to do takes ten times as long as another.
SECONDS, CASE_SECONDS = 120, 1800
# A timed case that fails is run again after so many seconds, each time: what kept the machine busy
# may be over by then.
REPEAT_AFTER, REPEATED = [0, 5, 20], []

LIBRARY = Path(os.environ.get("HEDRUGAL_LIBRARY") or TOP / "out/lib").absolute()
LIBRARY = LIBRARY.parent if LIBRARY.is_file() else LIBRARY

KEYSHOW = os.environ.get("KEYSHOW") or str(TOP / "out/bin/keyshow")
HEDRUGAL_KEYS = os.environ.get("HEDRUGAL_KEYS") or str(TOP / "out/bin/hedrugal-keys")

# For the Python package, here and in programs that the tests start.
sys.path.insert(0, str(TOP / "python"))
os.environ.update(PYTHONPATH=str(TOP / "python"), PYTHONDONTWRITEBYTECODE="1")
os.environ["HEDRUGAL_LIBRARY"] = str(LIBRARY / "libhedrugal.so")
pytest.register_assert_rewrite("scenarios", "screen", "terminal")


def header_constant(name):
    return int(re.search(rf"#define {name} (\d+)", (LIBRARY / "hedrugal.h").read_text())[1])


def entries_after(start):
    """How many entries of the sequence table begin with these bytes, and have more."""
    from hedrugal import Parser

    with Parser() as parser:
        return sum(it.bytes.startswith(start) and it.bytes != start for it in parser.entries())


def run_without_terminal(words, **how):
    how |= {"stdin": subprocess.DEVNULL, "capture_output": True, "timeout": SECONDS}
    how |= {"start_new_session": True}  # or /dev/tty would be one
    return subprocess.run(words, **how)


def check_refused(words, status, says):
    """Without a terminal it ends so, says this, and prints nothing."""
    done = run_without_terminal(words, text=True)
    assert (done.returncode, done.stdout) == (status, "")
    assert re.fullmatch(says, done.stderr), done.stderr


@pytest.fixture
def on_terminal():
    """Waits until a program has written its first line, or plays these steps, and has made the
    terminal raw. Closes the terminal at the end of the case."""
    with contextlib.ExitStack() as stack:

        def start(terminal, *steps):
            stack.enter_context(terminal).play(steps or [f"{terminal.FIRST}\r\n"])
            assert terminal.is_raw()
            return terminal

        yield start


@pytest.fixture(scope="session")
def compiled(tmp_path_factory):
    """Compiles sources in C over the library, and returns the program."""

    def compile_c(name, standard, *words):
        program = tmp_path_factory.mktemp("c") / name
        strict = f"-std={standard} -O1 -Wall -Wextra -pedantic -Werror".split()
        words = [*strict, f"-I{LIBRARY}", *words, LIBRARY / "libhedrugal.a", "-o", program]
        subprocess.run(["cc", *words], check=True)
        return str(program)

    return compile_c


@pytest.fixture(scope="session")
def late_poll(compiled):
    """What LD_PRELOAD is for a program that stands still where nothing came in time, as if it were
    stopped before it sees that."""
    return compiled("late.so", "c11", "-shared", "-fPIC", TOP / "tests/late_poll.c")


@pytest.fixture(scope="session")
def rust_copy(tmp_path_factory):
    """A copy of the folder rust: cargo writes a lock file beside its manifest. Each copy is built
    anew: cargo looks for changes of its sources where an earlier copy lay."""
    copy = tmp_path_factory.mktemp("rust") / "rust"
    return shutil.copytree(TOP / "rust", copy, ignore=shutil.ignore_patterns("target"))


@pytest.fixture(scope="session")
def example(compiled, rust_copy, tmp_path_factory):
    """Builds the example of a name in a language, of the package rust/crossterm, or in Rust by a
    feature of the package, and returns the words that run it. `-k "not rust"` leaves out those in
    Rust."""

    @functools.cache
    def build_example(language, name):
        if language == "python":
            return [sys.executable, str(TOP / f"python/examples/{name}.py")]
        if language == "c":
            return [compiled(name, "c99", TOP / f"c/{name}.c", TOP / "c/hedrugal_terminal.c")]
        if language == "rust":
            target = os.environ.get("CARGO_TARGET_DIR") or tmp_path_factory.mktemp("target")
            return [cargo_build(TOP / "rust/plain/Cargo.toml", target, name, "--locked")]
        folder, *words = [".", "--features", language]
        if language == "crossterm":
            folder, *words = ["crossterm", "--all-features"]
        words += ["--config", TOP / "rust/system.toml"]
        manifest = rust_copy / folder / "Cargo.toml"
        return [cargo_build(manifest, rust_copy / "target", name, *words)]

    def cargo_build(manifest, target, name, *words):
        env = os.environ | {"HEDRUGAL_LIBRARY": str(LIBRARY), "CARGO_TARGET_DIR": str(target)}
        words = ["--offline", "--manifest-path", manifest, "--example", name, *words]
        subprocess.run(["cargo", "build", "--quiet", *words], env=env, check=True)
        return f"{target}/debug/examples/{name}"

    return build_example


@pytest.fixture(scope="module")
def server():
    """The server of the page, in a thread."""
    from hedrugal.page.server import Server

    with Server() as it:
        thread = threading.Thread(target=it.serve_forever, args=[0.05])
        thread.start()
        yield it
        it.shutdown()
        thread.join()


def end_case(*_):
    raise AssertionError(f"not at its end after {CASE_SECONDS} seconds")


@pytest.hookimpl(tryfirst=True)
def pytest_pyfunc_call(pyfuncitem):
    """Runs a case, which has a limit in time. A timed one is repeated if it fails."""
    words = {it: pyfuncitem.funcargs[it] for it in pyfuncitem._fixtureinfo.argnames}
    pauses = REPEAT_AFTER[:] if pyfuncitem.get_closest_marker("timed") else []
    signal.signal(signal.SIGALRM, end_case)
    while True:
        signal.alarm(CASE_SECONDS)
        try:
            pyfuncitem.obj(**words)
            return True
        except Exception as fault:
            if not pauses:
                raise
            REPEATED.append(f"{pyfuncitem.nodeid}, after {str(fault).splitlines()[0]}")
        finally:
            signal.alarm(0)
        time.sleep(pauses.pop(0))


def pytest_terminal_summary(terminalreporter):
    for name in REPEATED:
        terminalreporter.write_line(f"repeated: {name}")
    terminalreporter.write_line(f"{len(REPEATED)} repeated")
