"""Programs that nobody here wrote, over crossterm and over the package in its place: tui's examples
and demo, cursive's, and crossterm's own, from the sources that Debian's packages have. Their
manifest has one other line, that of a copy of cursive two.

A scenario is played to both at once, and in the end both show the same. Where crossterm reads other
events there is a reason, and other bytes of which crossterm shows the same."""
import contextlib
import dataclasses
import glob
import os
import re
import shutil
import signal
import subprocess
import time

import pytest
from conftest import LIBRARY, TOP
from pexpect import TIMEOUT
from screen import Display
from terminal import END, PAUSE, START, Terminal

ESCAPE = b"\033"
BUILDS = THEIRS, OURS = "crossterm", "hedrugal"
PLACE = f'package = "hedrugal-crossterm", path = "{TOP}/rust/crossterm"'
MANIFEST = """[package]
name = "{build}"
version = "0.0.0"
edition = "2021"
[features]
default = ["crossterm"]
[dependencies]
argh = "0.1"
crossterm = {{ {crossterm}, features = ["event-stream"], optional = true }}
cursive = {{ {cursive} }}
futures = "0.3"
futures-timer = "3"
rand = "0.8"
tokio = {{ version = "1", features = ["full"] }}
tui = "0.19"
unicode-width = "0.1"
"""
WORKSPACE = f"""[workspace]
members = ["{THEIRS}", "{OURS}"]
resolver = "2"
[profile.dev]
debug = false
"""


@dataclasses.dataclass
class Program:
    """An example of a crate: what is typed before a scenario, what behind it until all was read,
    and what then ends the program. What changes by itself is on other rows and columns."""

    crate: str
    quit: list
    read: list = dataclasses.field(default_factory=list)
    begin: list = dataclasses.field(default_factory=list)
    rows: range = range(30)
    columns: range = range(100)
    told_size: bytes = b"Resize(100, 30"

    @property
    def is_drawn(self):
        return self.crate != "crossterm"


BY_Q, BY_CTRL_C, BY_ESCAPE = [b"q"], [b"\003"], [ESCAPE]
A_BAR, A_KEY = [b"|", "|"], [b"|", "Char('|')"]
# Those that show what is typed, and those that show arrows.
TEXTS = {
    "user_input": Program("tui", [ESCAPE, "\033[?25l", b"q"], [b"e|", "|"], [b"e"]),
    "key_codes": Program("cursive", BY_CTRL_C, A_KEY),
    "edit": Program("cursive", BY_CTRL_C, [b"\033[A|", "|"]),
    # Behind a new size it drops what comes within 50 ms.
    "event-read": Program("crossterm", BY_ESCAPE, A_KEY, told_size=b"Resize from"),
    "event-poll-read": Program("crossterm", BY_ESCAPE, A_KEY),
    "event-stream-tokio": Program("crossterm", BY_ESCAPE, A_KEY),
}
MOVES = {
    "list": Program("tui", BY_Q, columns=range(40)),
    "demo": Program("tui", BY_Q, rows=range(3)),
    "tabs": Program("tui", BY_Q),
    "table": Program("tui", BY_Q),
}
NOTHING = range(0)
OTHERS = {
    **{it: Program("tui", BY_Q) for it in ["block", "custom_widget", "layout", "panic", "popup"]},
    **{it: Program("tui", BY_Q, rows=NOTHING) for it in ["barchart", "canvas", "chart", "gauge"]},
    **{it: Program("tui", BY_Q, rows=NOTHING) for it in ["paragraph", "sparkline"]},
    "text_area": Program("cursive", BY_CTRL_C, A_BAR, [b"\r"]),
}
# Those that set no raw mode, or read nothing.
LINES = ["event-match-modifiers", "event-read-char-line", "is_tty"]
PROGRAMS = TEXTS | MOVES | OTHERS | {it: Program("crossterm", []) for it in LINES}
EXAMPLES = {"demo": "demo/main"}


def source_of(crate):
    (found,) = glob.glob(f"/usr/share/cargo/registry/{crate}-[0-9]*")
    return found


def name_package(manifest):
    """Names the package in crossterm's place in cursive's manifest: two lines for one."""
    text, there = manifest.read_text(), '[dependencies.crossterm]\nversion = "0.25"\n'
    assert text.count(there) == 1
    named = "[dependencies.crossterm]\n" + PLACE.replace(", ", "\n") + "\n"
    manifest.write_text(text.replace(there, named))


@pytest.fixture(scope="session")
def built(tmp_path_factory):
    """Builds the programs over both. Returns their folder."""
    work = tmp_path_factory.mktemp("switch")
    cursive = shutil.copytree(source_of("cursive"), work / "cursive")
    name_package(cursive / "Cargo.toml")
    crates = {
        THEIRS: {"crossterm": 'version = "0.25"', "cursive": 'version = "0.20"'},
        OURS: {"crossterm": PLACE, "cursive": f'path = "{cursive}"'},
    }
    for build in BUILDS:
        folder = work / "programs" / build
        folder.mkdir(parents=True)
        programs = [
            f'[[bin]]\nname = "{build}-{name}"\n'
            f'path = "{source_of(it.crate)}/examples/{EXAMPLES.get(name, name)}.rs"\n'
            for name, it in PROGRAMS.items()
        ]
        text = MANIFEST.format(build=build, **crates[build]) + "".join(programs)
        (folder / "Cargo.toml").write_text(text)
    (work / "programs/Cargo.toml").write_text(WORKSPACE)
    return cargo_build(work / "programs")


def cargo_build(folder):
    env = os.environ | {"HEDRUGAL_LIBRARY": str(LIBRARY), "RUSTFLAGS": "-A warnings"}
    words = ["cargo", "build", "--quiet", "--offline", "--config", TOP / "rust/system.toml"]
    subprocess.run([*words, "--target-dir", folder / "target"], cwd=folder, env=env, check=True)
    return folder / "target/debug"


class Run(Terminal):
    """A program on its terminal."""

    def __init__(self, folder, build, name, words=(), **how):
        super().__init__([*words, f"{folder}/{build}-{name}"], **how)
        self.program = PROGRAMS[name]

    def begin(self):
        """Until it reads: either package handles SIGWINCH from then on."""
        self.play(["\033[?1049h" if self.program.is_drawn else "quit\r\n"])
        self.wait_for(lambda: self.handles(signal.SIGWINCH), "begin of reading")
        self.wait_for_raw()

    def handles(self, number):
        with open(f"/proc/{self.job}/status") as status:
            handled = re.search(r"SigCgt:\s*(\w+)", status.read())[1]
        return int(handled, 16) >> number - 1 & 1

    def shown(self):
        """What it showed when it was left: what it drew, or the lines of its events."""
        if self.program.is_drawn:
            frames = self.output.split(b"\033[?1049l")[0].split(b"\033[?1049h")[1]
            return Display().take(frames).styled(self.program.rows, self.program.columns)
        return [it for it in self.lines() if it.startswith(("Event", "Cursor", "Resize"))]


def play(runs, steps):
    """Plays steps to each, with the pauses once."""
    for step in steps:
        if isinstance(step, float):
            time.sleep(step)
        else:
            for run in runs:
                run.play([step])


@pytest.fixture
def begin(built):
    """Begins a program over both, or some."""
    with contextlib.ExitStack() as stack:

        def begin_runs(name, builds=BUILDS, **how):
            runs = [stack.enter_context(Run(built, it, name, **how)) for it in builds]
            for run in runs:
                run.begin()
            play(runs, PROGRAMS[name].begin)
            return runs

        yield begin_runs


def end(runs):
    """Each ends by itself, and leaves the terminal as it was. Returns what each showed."""
    for run in runs:
        run.check_end(0)
    return [run.shown() for run in runs]


@pytest.fixture
def shown(begin):
    """What a program shows over each after what is typed to it."""

    def run(name, steps, *builds, **how):
        runs, program = begin(name, builds, **how), PROGRAMS[name]
        play(runs, [*steps, *program.read, *program.quit])
        return end(runs)

    return run


def set_larger_size(run):
    """Waits until it begins to draw all anew, or tells of the size."""
    told = b"\033[2J" if run.program.is_drawn else run.program.told_size
    run.expect([TIMEOUT], timeout=0.05)  # what it drew before is read
    before = run.output.count(told)
    run.resize(100, 30)
    run.wait_for(lambda: run.output.count(told) > before, "new size")


@dataclasses.dataclass
class Scenario:
    """What is typed to some programs. Where crossterm reads other events of it there are bytes of
    which it shows what the package shows of these, and a reason."""

    steps: list
    programs: list = dataclasses.field(default_factory=lambda: [*TEXTS, *MOVES])
    alike: bytes = b""
    reason: str = ""


KEYS = ["key_codes", "event-read", "event-poll-read", "event-stream-tokio"]
# An Escape ends crossterm's examples, and cursive 0.20 panics at a paste.
STAY = ["user_input", "key_codes", "edit", *MOVES]
PASTES = [it for it in [*TEXTS, *MOVES] if PROGRAMS[it].crate != "cursive"]
TYPED_REPLY, CUT = "crossterm types a reply", "crossterm types the rest of a sequence"
LOST = "crossterm reads no such key"
SCENARIOS = {
    "typed fast": Scenario([b"h", b"e", b"l", b"l", b"o"]),
    "a text in one write": Scenario([b"hello"]),
    "three keys in one write": Scenario([b"\033[B\033[B\033[C"]),
    "some hundred keys in one write": Scenario([b"ab\033[B\033[A" * 25], [*TEXTS]),
    "characters of several bytes": Scenario(["\u00e9\u20ac".encode() + b"\x7f"]),
    "a character, cut by a pause": Scenario([b"\xc3", PAUSE, b"\xa9"]),
    "Escape, and then a key": Scenario([ESCAPE, PAUSE, b"x"], STAY),
    "Escape and a key at once": Scenario([b"\033x"]),
    "an arrow, cut by a short pause": Scenario([b"\033[", 0.02, b"C"]),
    "an arrow, cut late": Scenario([b"\033[1;", PAUSE, b"5C"]),
    "keys with names": Scenario([b"\033[3~\033[H\033[F\033[5~\033[6~\033OP\033[15~\t"]),
    "control characters": Scenario([b"\001\005\x7f\x1f"]),
    "modifiers": Scenario([b"\033[1;2A\033[1;5D\033[1;3B\033[3;5~\033[Z"]),
    "a paste": Scenario([START + b"one\rtwo" + END], PASTES),
    "a paste, cut by a pause": Scenario([START + b"one\033", PAUSE, b"[201~a"], PASTES),
    "mouse": Scenario([b"\033[<0;3;4M\033[<32;4;4M\033[<0;4;4m\033[<64;4;4M\033[<35;9;9M"]),
    "mouse as X10 reports it": Scenario([b"\033[M #$\033[M@$$\033[M#$$"]),
    "mouse as urxvt reports it": Scenario([b"\033[32;3;4M\033[64;4;4M\033[35;4;4M"]),
    "a new size": Scenario([set_larger_size, b"a"]),
    "focus": Scenario([b"a\033[I\033[Ob"]),
    "Kittys keys": Scenario([b"\033[97u\033[97;1:2u\033[97;1:3u\033[1089;5u\033[127u"]),
    "a position that nobody asked for": Scenario([b"a\033[5;7Rb"]),
    "a reply": Scenario([b"\033[B\033]11;rgb:0000/0000/0000\007\033[B"], [*MOVES]),
    "an arrow, cut behind ESC": Scenario(
        [b"a\033", 0.02, b"[B"], ["user_input", "list"], b"a\033[B", CUT
    ),
    "a mouse report, cut behind ESC": Scenario(
        [b"a\033", 0.02, b"[<35;1;1M"], ["user_input"], b"a\033[<35;1;1M", CUT
    ),
    "an arrow, cut by a pause": Scenario(
        [b"\033[", 3 * PAUSE, b"Cb"], [*TEXTS, "tabs"], b"\033[91;3uCb", "ESC [ waits for ever"
    ),
    "a colour": Scenario([b"a\033]11;rgb:0000/0000/0000\007b"], [*TEXTS], b"ab", TYPED_REPLY),
    "a colour that ST ends": Scenario(
        [b"a\033]11;rgb:0000/0000/0000\033\\b"], [*TEXTS], b"ab", TYPED_REPLY
    ),
    "attributes of a device": Scenario([b"a\033[?62;4;6cb"], [*TEXTS], b"ab", TYPED_REPLY),
    "a version": Scenario([b"a\033P>|foot(1.13)\033\\b"], [*TEXTS], b"ab", TYPED_REPLY),
    "the state of a mode": Scenario([b"a\033[?2026;2$yb"], [*TEXTS], b"ab", TYPED_REPLY),
    "modifyOtherKeys": Scenario([b"\033[27;2;98~"], [*TEXTS], b"\033[98;2u", LOST),
    "the keypad": Scenario([b"\033Oq"], [*TEXTS], b"\033[57400u", LOST),
    "urxvts keys": Scenario([b"\033[a"], KEYS, b"\033[1;2A", LOST),
    "F3 with Ctrl": Scenario([b"\033[1;5R"], KEYS, b"\033[13;5~", LOST),
    "Alt before an arrow": Scenario(
        [b"\033\033[A"], ["user_input", "key_codes"], b"\033[1;3A", "crossterm reads Escape"
    ),
    "a broken byte": Scenario([b"\xffa"], [*TEXTS], "\ufffda".encode(), "crossterm leaves it out"),
}
PLAYED = [(name, scenario) for scenario, it in SCENARIOS.items() for name in it.programs]


@pytest.mark.timed
@pytest.mark.parametrize("name, scenario", PLAYED)
def test_scenario(shown, name, scenario):
    it = SCENARIOS[scenario]
    theirs, ours = shown(name, it.steps, *BUILDS)
    assert (ours == theirs) == (not it.reason)
    if it.reason:
        assert [ours] == shown(name, [it.alike], THEIRS)


@pytest.mark.parametrize("name", OTHERS)
def test_others(shown, name):
    theirs, ours = shown(name, [b"x\033[B\033[<35;3;4M\033[I\033x", b"pe\xc3\xa9\t\r"], *BUILDS)
    assert ours == theirs


@pytest.mark.parametrize("name", LINES)
def test_lines(built, name):
    runs = [Run(built, build, name) for build in BUILDS]
    with contextlib.ExitStack() as stack:
        for run in runs:
            stack.enter_context(run)
            if name == "event-read-char-line":
                run.play(["read line:\r\n", b"ab\r", "read char:\r\n", b"xy\r"])
            run.check_end(0)
        assert runs[1].output == runs[0].output


@pytest.mark.timed
def test_kilobytes(begin):
    """Behind the first of what came at once crossterm waits for a further key."""
    theirs, ours = begin("key_codes")
    play([theirs, ours], [b"a" * 1100, b"|", PAUSE])
    play([ours], [*A_KEY, b"\003"])
    ours.check_end(0)
    assert theirs.expect_exact(["Char('|')", TIMEOUT], timeout=0.1) == 1
    play([theirs], [b"b", "Char('|')", b"\003"])
    theirs.check_end(0)


@pytest.mark.parametrize("name", ["event-read", "event-poll-read", "event-stream-tokio"])
def test_position(begin, name):
    """The program asks for it at c. What is typed meanwhile isn't lost."""
    runs = begin(name)
    play(runs, [b"c", "\033[6n", b"x\033[5;7Ry", "Char('y')", b"\033[A|", "Char('|')", ESCAPE])
    theirs, ours = end(runs)
    assert ours == theirs
    assert "Cursor position: Ok((6, 4))" in ours


def test_no_position(begin):
    """Both give up after two seconds, in words of their own."""
    runs = begin("event-read")
    play(runs, [b"cx", "Cursor position: Err", b"|", "Char('|')", ESCAPE])
    theirs, ours = [[line for line in it if "Err" not in line] for it in end(runs)]
    assert ours == theirs


@pytest.mark.parametrize("name", ["user_input", "event-read", "event-stream-tokio"])
def test_terminal_that_does_not_wait(shown, name):
    theirs, ours = shown(name, [b"ab\033[A", PAUSE, b"d"], *BUILDS, blocks=False)
    assert ours == theirs


def test_signal(begin):
    """It ends both. The package restores the terminal before, crossterm doesn't."""
    theirs, ours = begin("user_input")
    for it in (theirs, ours):
        it.kill(signal.SIGTERM)
        assert it.wait_for_end() == -signal.SIGTERM
    assert ours.settings() == ours.settings_before
    assert theirs.settings() != theirs.settings_before


def test_stop(begin):
    """The shell has its settings meanwhile, and the program goes on where it was."""
    theirs, ours = runs = begin("user_input")
    play(runs, [b"z", "z", signal.SIGTSTP, Terminal.wait_for_stop])
    assert ours.settings() == ours.settings_before
    assert theirs.settings() != theirs.settings_before
    play(
        runs,
        [Terminal.continue_in_foreground, Terminal.wait_for_raw, b"x", "x", *ours.program.quit],
    )
    ends = end(runs)
    assert ends[0] == ends[1]


def test_terminal_gone(begin):
    """The package has an error for it, at which the program ends. crossterm waits for ever."""
    theirs, ours = begin("event-read", words=["sh", "-c", 'trap "" HUP; exec "$0"'])
    for it in (theirs, ours):
        it.hang_up()
    assert ours.next_status() >= 0
    ours.is_running = False
    assert not theirs.told.poll(PAUSE)


PAGE = (TOP / "docs/SWITCH.md").read_text()


def test_page(tmp_path):
    """The program of docs/SWITCH.md, over what its line names now and over what it was."""
    (line,), (program,) = [
        re.findall(f"```{it}\n(.*?)```", PAGE, re.DOTALL) for it in ("toml", "rust")
    ]
    shown = re.findall("<!-- prints -->\n```\n(.*?)```", PAGE, re.DOTALL)
    now, _, before = line.partition("# it was: ")
    (tmp_path / "hedrugal").symlink_to(TOP)
    for crossterm, lines in zip([before, now], shown, strict=True):
        (tmp_path / "src").mkdir(exist_ok=True)
        (tmp_path / "src/main.rs").write_text(program)
        package = '[package]\nname = "keys"\nedition = "2021"\n[dependencies]\n'
        (tmp_path / "Cargo.toml").write_text(package + crossterm)
        with Terminal([str(cargo_build(tmp_path) / "keys")]) as terminal:
            terminal.play(["q ends", b"a\033[1;5A", "Up CONTROL", b"\033[?1;2cq"])
            terminal.check_end(0)
            assert terminal.lines() == lines.splitlines()


def test_page_has_each_difference():
    heading = "| What comes | crossterm 0.25 | The package | Run |\n|---|---|---|---|\n"
    table = PAGE.partition(heading)[2].partition("\n\n")[0]
    rows = [row.strip("| ").split(" | ")[-1] for row in table.splitlines()]
    assert sorted(rows) == sorted(name for name, it in SCENARIOS.items() if it.reason)
