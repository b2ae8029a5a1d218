"""What tools/gate.sh makes of the cases of a part, and what a signal ends with it."""
import os
import re
import shutil
import signal
import subprocess

import pytest

from conftest import TOP

FLOORS = "# part  cases\nc       3\nrust    2+   with a reason\n"
FEWER = "fewer than the 3 of tests/floor.txt"
MORE = "more than the 3 of tests/floor.txt, which `tools/gate.sh floor c` mends"


@pytest.fixture
def gate(tmp_path):
    """Starts a copy of the script, which is in tmp_path, with these words."""
    (tmp_path / "tests").mkdir()
    (tmp_path / "tests/floor.txt").write_text(FLOORS)
    (tmp_path / "tools").mkdir()
    for name in ("gate.sh", "common.sh"):
        shutil.copy(TOP / "tools" / name, tmp_path / "tools")

    def start(*words, is_gate="", **how):
        how |= {"stdin": subprocess.DEVNULL, "stdout": subprocess.PIPE, "stderr": subprocess.STDOUT}
        how |= {"env": os.environ | {"GATE": is_gate}, "text": True}
        return subprocess.Popen([tmp_path / "tools/gate.sh", *words], **how)

    return start


def end_of(process):
    """The last line without the seconds, and the status."""
    last = process.communicate()[0].splitlines()[-1]
    return re.sub(r", \d+ s", "", last), process.returncode


def passing(count):
    return f"echo '{count} passed, 0 failed'"


@pytest.mark.parametrize(
    "part, command, result",
    {
        "as many": ("c", passing(3), "3 passed, 0 failed"),
        "fewer": ("c", passing(2), f"2 passed, 1 failed, {FEWER}"),
        "more": ("c", passing(4), f"4 passed, 1 failed, {MORE}"),
        "none": ("c", passing(0), "0 passed, 1 failed, no case was run"),
        "more is right": ("rust", passing(3), "3 passed, 0 failed"),
        "at least": (
            "rust",
            passing(1),
            "1 passed, 1 failed, fewer than the 2+ of tests/floor.txt",
        ),
        "no floor": ("d", passing(1), "1 passed, 1 failed, tests/floor.txt doesn't name this part"),
        "failed": ("c", "echo '1 passed, 2 failed'; exit 1", "1 passed, 2 failed"),
        "ends badly": ("c", f"{passing(3)}; exit 1", "3 passed, 1 failed"),
        "pytest's": ("c", "echo '== 3 passed, 1 skipped in 0.2s =='", "3 passed, 0 failed"),
    }.values(),
)
def test_part(gate, part, command, result):
    status = int(" 0 failed" not in result)
    assert end_of(gate("part", part, command)) == (f"gate: {part}: {result}", status)


@pytest.mark.parametrize("left_out", ["left out: a case", "2 passed, 1 skipped in 0.2s"])
def test_cases_that_are_left_out(gate, left_out):
    """They are none of the gate's."""
    words = "part", "c", f"echo '{left_out}'; {passing(2)}"
    assert end_of(gate(*words)) == ("gate: c: 2 passed, 0 failed", 0)
    assert end_of(gate(*words, is_gate="yes")) == (f"gate: c: 2 passed, 1 failed, {FEWER}", 1)


@pytest.mark.parametrize(
    "words, last, status",
    [
        (("test", "[ % = c ]; echo '3 passed, 0 failed'", "c rust", ""), "6 passed, 0 failed", 0),
        (("test", passing(2), "c rust", ""), "4 passed, 1 failed", 1),
        (("test", passing(2), "", "c rust"), "0 passed, 0 failed", 1),
        (("gate", f'tools/gate.sh part c "{passing(3)}"', "c", "rust"), "3 passed, 1 failed", 1),
        (("gate", f'tools/gate.sh part c "{passing(3)}"', "c"), "3 passed, 1 failed", 1),
    ],
)
def test_table(gate, words, last, status):
    """A part that isn't run has failed, and so have all that are none."""
    assert end_of(gate(*words)) == (last, status)


def test_what_was_left_out(gate):
    """One line says so, of parts and of cases."""
    left = "echo left out: a case; echo '3 passed, 1 skipped in 0.2s'"
    printed = gate("test", left, "c", "rust page").communicate()[0]
    said = "make: left out: rust page; of c a case; of c 1 skipped\n"
    assert [line for line in printed.splitlines(True) if "make:" in line] == [said]


def test_floor_is_written(gate, tmp_path):
    end_of(gate("part", "c", passing(14)))
    end_of(gate("part", "rust", passing(4)))
    assert end_of(gate("floor", "c", "rust", "d"))[1] == 2
    written = FLOORS.replace(" 3", " 14").replace("2+", "4+")
    assert (tmp_path / "tests/floor.txt").read_text() == written


SLEEPS = {
    "in a session": "setsid sleep 1000 & wait",
    "in groups": "timeout 900 timeout 800 sleep 1000",
    "stopped": "sleep 1000 & kill -STOP $!; wait",
    "deaf": "(trap '' TERM; sleep 1000; sleep 1000) & wait",
}
PART = "tools/gate.sh part c 'sleep 1000 & wait' & wait"


@pytest.mark.parametrize(
    "words, sent",
    [
        *((["part", "c", it], "TERM") for it in SLEEPS.values()),
        *((["part", "c", SLEEPS["in a session"]], it) for it in ("INT", "HUP")),
        (["gate", PART, "c"], "TERM"),
        (["run", "bash", "-c", PART], "TERM"),
    ],
)
def test_signal(gate, words, sent):
    """It ends all that was started: the pipe, which each of these has, is then at its end."""
    ours, theirs = os.pipe()
    words = [f"echo begun >&{theirs}; {it}" if "sleep" in it else it for it in words]
    with open(ours, "rb", 0) as ended, gate(*words, pass_fds=[theirs]) as process:
        os.close(theirs)
        assert ended.read(6) == b"begun\n"
        process.send_signal(signal.Signals[f"SIG{sent}"])
        assert ended.read() == b""
    assert process.returncode == -signal.Signals[f"SIG{sent}"]


@pytest.mark.parametrize(
    "version, is_there", [("1.63.0", False), ("1.77.0", True), ("1.100.1", True)]
)
def test_version_of_a_tool(tmp_path, version, is_there):
    """One that is too old is as none."""
    for name in ("needs.sh", "common.sh"):
        shutil.copy(TOP / "tools" / name, tmp_path)
    (tmp_path / "needs.txt").write_text("rustc>=1.77  rustc-web  rust\n")
    rustc = tmp_path / "rustc"
    rustc.write_text(f"#!/bin/sh\necho 'rustc {version} (of a day)'\n")
    rustc.chmod(0o755)
    env = {"PATH": f"{tmp_path}:{os.environ['PATH']}"}
    done = subprocess.run([tmp_path / "needs.sh", "rust"], capture_output=True, text=True, env=env)
    said = "" if is_there else "needs: not there: rustc>=1.77, install the packages rustc-web\n"
    assert (done.returncode == 0, done.stderr) == (is_there, said)


def test_two_empty_lists_of_functions(tmp_path):
    """They are none that are the same."""
    (tmp_path / "log").touch()
    words = [TOP / "tools/axioms.sh", "none", tmp_path / "log"]
    done = subprocess.run(words, capture_output=True, text=True)
    said = "axioms: docs/VERIFICATION.md lists no C function for 'none'\n"
    assert (done.returncode, done.stderr) == (1, said)


def test_script_without_a_case():
    script = f". {TOP}/tools/common.sh; print_counts"
    done = subprocess.run(["bash", "-c", script, "script"], capture_output=True, text=True)
    said = "0 passed, 0 failed\n", "script: no case was run\n"
    assert (done.returncode, done.stdout, done.stderr) == (1, *said)
