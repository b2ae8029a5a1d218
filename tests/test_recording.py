"""Recordings of hedrugal-keys: what --record keeps, --replay shows with its times."""
import html
import json
import os
import re
import subprocess
import time

import pytest
from conftest import HEDRUGAL_KEYS, TOP
from terminal import END, LONG_PAUSE, PAUSE, START
from test_keys import ESCAPE, KITTY, KITTY_SAYS, NOBODY_SAYS, WIDE, Keys, row, run

HEADER = '{"version": 2, "width": 80, "height": 24}'
NO_RECORDING = "is no recording of asciinema's version 2"
NO_EVENT = 'is no event, such as [1.5, "i", "a"]'
# What is typed, with pauses between reads: a lone ESC, a sequence on a slow line, a character in
# two reads, bytes that are none, and characters that stand for such bytes in a recording.
TYPED = [b"a", b"\033", 2 * PAUSE, b"\033[1", PAUSE / 2, b";5A", PAUSE, b"\xc3", PAUSE, b"\xa9"]
TYPED += [PAUSE, b"\xff\xf0\x9f", PAUSE, b"\b\x7f\n", PAUSE, "\uef80\uefff😀".encode(), PAUSE]
TYPED += [START + b"one\rtwo" + END, PAUSE, b"\033[15", LONG_PAUSE]


@pytest.fixture
def start(on_terminal):
    def start_plain(*words, **how):
        return on_terminal(Keys(HEDRUGAL_KEYS, "--plain", *words, size=WIDE, **how))

    return start_plain


@pytest.fixture
def file(tmp_path):
    return tmp_path / "file.cast"


def event(seconds, text, kind="i"):
    return json.dumps([seconds, kind, text])


@pytest.fixture
def write(file):
    """Writes a recording with these lines behind its header, and returns its name."""

    def write_lines(*lines, header=HEADER):
        file.write_text("\n".join([header, *lines]), errors="surrogateescape")
        return file

    return write_lines


def record(start, file, steps, *words, **how):
    """What the terminal shows of these steps, below the first line."""
    keys = start("--record", file, *words, **how)
    keys.play(steps)
    keys.end()
    return keys.lines()[1:]


def replayed(*words):
    status, shown, error = run(*words[:-1], "--replay", words[-1])
    assert (status, error) == (0, "")
    return shown.splitlines()


@pytest.mark.timed
@pytest.mark.parametrize("erase", [b"\b", b"\x7f"])
def test_same_lines(start, file, erase):
    shown = record(start, file, TYPED, erase=erase)
    assert replayed("--plain", file) == shown


@pytest.mark.parametrize("answers, says", [(KITTY, KITTY_SAYS), (b"", NOBODY_SAYS)])
def test_same_answers(on_terminal, file, answers, says):
    """A replay has what the terminal answered: which it is, and that none of it was typed. It says
    so of the recorded terminal, and not in JSON."""
    keys = on_terminal(Keys(HEDRUGAL_KEYS, "--record", file, size=WIDE))
    keys.play([Keys.wait_for_questions, answers, says, b"a", [*says, row("a", "a")]])
    keys.end()
    assert run("--replay", file, TERM="dumb")[1].splitlines() == keys.lines()[1:]
    assert presses(file) == ["a", "ctrl+d", "ctrl+d"]


@pytest.mark.timed
def test_same_lines_if_it_looks_late(start, file, late_poll):
    """What came before it saw that ESC is due goes on with it, in the recording too."""
    steps = [b"\033", ESCAPE, 2 * PAUSE, b"[A", row("up", "(ESC) [ A")] * 2
    shown = record(start, file, steps, LD_PRELOAD=late_poll)
    assert replayed("--plain", file) == shown


@pytest.mark.timed
def test_format(start, file):
    """The header has what others look for, and the events are in ASCII, with their times. Nobody
    else may read it."""
    before = time.time()
    record(start, file, [b"a", PAUSE, b"\033\xc3\xa9\xc3"], TERM="xterm")
    header, *events = map(json.loads, file.read_text(encoding="ascii").splitlines())
    assert [header[it] for it in ("version", "width", "height")] == [2, *WIDE]
    assert header["env"] == {"TERM": "xterm"} and header["title"].startswith("hedrugal-keys ")
    assert before - 1 < header["timestamp"] <= time.time()
    assert file.stat().st_mode & 0o777 == 0o600
    times, kinds, texts = zip(*events)
    assert sorted(times) == [*times] and times[1] - times[0] > PAUSE / 2
    assert {*kinds} == {"i"} and "".join(texts) == "a\033é\uefc3\x04\x04"


def presses(*words, typed=b""):
    """The names of the presses, in JSON, that a replay tells."""
    status, shown, error = run("--json", "--replay", *words, typed=typed)
    assert (status, error) == (0, "")
    return [it["press"] for it in map(json.loads, shown.splitlines())]


@pytest.mark.parametrize("pause, pressed", [(0.049, ["up"]), (0.05, ["escape", "[", "A"])])
def test_clock(write, pause, pressed):
    """The times are the clock: a lone ESC is Escape as it was, and nothing waits."""
    lines = [
        event(at, text) for at in (1e-5, 10, 1e6) for at, text in ((at, "\033"), (at + pause, "[A"))
    ]
    assert presses(write(*lines)) == 3 * pressed


@pytest.mark.parametrize("pause, done", [(0.9, ["save"]), (1.1, [None, None])])
def test_clock_of_chords(write, tmp_path, pause, done):
    (tmp_path / "bindings").write_text("save ctrl+x ctrl+s")
    words = ["--bindings", tmp_path / "bindings", "--json", "--replay"]
    shown = run(*words, write(event(1, "\x18"), event(1 + pause, "\x13")))[1].splitlines()
    assert [it["command"] for line in shown for it in json.loads(line).get("outcomes", [])] == done


def test_recordings_of_others(write):
    """Other events than input are skipped, and what else a header has. Two ^D end nothing."""
    theme = {"fg": "#fff", "palette": ["#000", {"a": [True, None, -1.5e3]}]}
    header = json.dumps({"env": {"SHELL": "/bin/sh", "LANG": None}, "theme": theme, "version": 2})
    kinds = [
        event(1, "$ \033[A", "o"),
        event(1, "80x24", "r"),
        event(1, "", "m"),
        event(1, {}, "x"),
    ]
    texts = [
        '[1.0e0,"i","\\ud83d\\ude00\\/"]  ',
        "",
        '\t[ 1 , "i" , "é" ]\r',
        event(2, "\x04\x04"),
        event(3, "\0"),
    ]
    pressed = ["U+1F600", "/", "é", "ctrl+d", "ctrl+d", "ctrl+space"]
    name = write(*kinds, *texts, header=header)
    assert presses(name) == pressed == presses("-", typed=name.read_bytes())
    assert presses(write()) == []


def test_picture():
    """It is one of the program as it is: `make picture` makes it anew."""
    drawn = (TOP / "docs/pictures/keys.svg").read_text()
    words = html.unescape(" ".join(re.findall(r">([^<]+)</text>", drawn))).split()
    shown = run("--replay", TOP / "docs/pictures/keys.cast")[1].split()
    assert len(shown) > 50 and {*shown} <= {*words} and len(drawn) < 300000


WRONG = {
    "a text": ("press q", [], f"1: {NO_RECORDING}"),
    "nothing": ("", [], f"1: {NO_RECORDING}"),
    "version 1": ('{"version": 1, "stdout": []}', [], f"1: {NO_RECORDING}"),
    "no version": ("{}", [], f"1: {NO_RECORDING}"),
    "half a header": ('{"version": 2, "env": {"TERM"', [], f"1: {NO_RECORDING}"),
    "a deep header": ('{"version": 2, "a": ' + "[" * 99999, [], f"1: {NO_RECORDING}"),
    "more behind it": (HEADER + HEADER, [], f"1: {NO_RECORDING}"),
    "no event": (HEADER, [event(1, "a"), "{}"], f"3: {NO_EVENT}"),
    "half an event": (HEADER, [event(1, "a")[:-1]], f"2: {NO_EVENT}"),
    "no text": (HEADER, ["", '[1, "i", 5]'], f"3: {NO_EVENT}"),
    "half a pair": (HEADER, [r'[1, "i", "\ud83d"]'], f"2: {NO_EVENT}"),
    "no UTF-8": (HEADER, ['[1, "i", "\udcff"]'], f"2: {NO_EVENT}"),
    "no time": (HEADER, ['["1", "i", "a"]'], f"2: {NO_EVENT}"),
    "no end": (HEADER, [event(1e99, "a")], f"2: {NO_EVENT}"),
    "a time before the start": (HEADER, [event(-1, "a")], "2: the time goes back"),
    "a time before another": (
        HEADER,
        [event(2, "$ ", "o"), event(1, "a")],
        "3: the time goes back",
    ),
}


@pytest.mark.parametrize("header, lines, says", WRONG.values(), ids=WRONG)
def test_wrong_recording(write, header, lines, says):
    """It is said before anything is shown."""
    name = write(*lines, header=header)
    assert run("--replay", name) == (2, "", f"hedrugal-keys: {name}:{says}\n")


MISSING = {
    "/no/such": "No such file or directory",
    "/": "Is a directory",
    "/dev/full": "No space left on device",
}


@pytest.mark.parametrize("name", ["/no/such", "/", "/dev/zero"])
def test_file_that_cannot_be_replayed(name):
    says = MISSING.get(name) or NO_RECORDING
    status, shown, error = run("--replay", name)
    assert (status, shown) == (2, "") and error.endswith(f": {says}\n") and error.count("\n") == 1


@pytest.mark.parametrize("name, says", MISSING.items(), ids=MISSING)
def test_file_that_cannot_be_written(on_terminal, name, says):
    """The terminal is as it was: nothing was switched."""
    keys = Keys(HEDRUGAL_KEYS, "--record", name)
    with keys:
        keys.check_end(2)
        assert keys.output.decode() == f"hedrugal-keys: {name}: {says}\r\n"


def test_disk_that_fills_up(start, file):
    """It ends at the first read that can't be kept, and restores the terminal."""
    os.mkfifo(file)
    reader = subprocess.Popen(["head", "-n1", file], stdout=subprocess.DEVNULL)
    keys = start("--record", file, "--mouse")
    reader.wait()
    keys.send(b"a")
    keys.check_end(2)
    assert keys.lines()[-1] == f"hedrugal-keys: {file}: Broken pipe"


def test_real_time(write):
    """A replay waits for nothing, unless it is to take as long as the recording did."""
    before = time.monotonic()
    run("--replay", write(event(0.3, "a"), event(100, "\033")))
    assert time.monotonic() - before < 100
    before = time.monotonic()
    run("--replay", write(event(0.3, "a"), event(1.3, "\033")), "--real-time")
    assert time.monotonic() - before >= 1.3


REFUSED = {
    "--record f": "--record wants a terminal as the input",
    "--record": "--record wants a file behind it",
    "--replay f --record f": "takes one of --record and --replay",
    "--replay f g": "wants one file, and 'f' is another",
    "--replay f --mouse": "--mouse wants a terminal as the input",
    "--real-time": "--real-time wants --replay",
}


@pytest.mark.parametrize("words, says", REFUSED.items(), ids=REFUSED)
def test_refused(words, says):
    assert run(*words.split()) == (2, "", f"hedrugal-keys: {says}; --help says more\n")
