"""The programs to copy first: prompt, list and server in C, Rust and Python, and the longer
c/many.c.

The three are short, and use only what the first pages name. On a pseudo-terminal a program has to
draw and print the same in each language, and to leave the terminal's settings and modes as they
were."""
import collections
import contextlib
import os
import re
import signal
import socket
import tempfile
import termios
import time

import pytest
from conftest import TOP, check_refused, run_without_terminal
from pexpect.fdpexpect import fdspawn
from terminal import END, ENDING_SIGNALS, LFLAG, LONG_PAUSE, PAUSE, SECONDS, START
from terminal import STOP_AND_CONTINUE, Terminal, change_settings

SHORT = ["prompt", "list", "server"]
MOST_LINES = 60
# Of each language where a program lies, and where it names what it uses of the library.
SOURCES = {
    "c": ("c/{}.c", r"\bhed_[a-z_]+(?=\()"),
    "rust": ("rust/plain/examples/{}.rs", r"^use hedrugal::([^;]+);"),
    "python": ("python/examples/{}.py", r"^from hedrugal[\w.]* import (\([^)]*\)|.*)"),
}
UP, DOWN, RIGHT, LEFT = b"\033[A", b"\033[B", b"\033[C", b"\033[D"
ROOM = 4096
PASTE_LIMIT = 1 << 20
# The limit of a lone ESC in seconds, and a pause that is shorter.
ESCAPE_LIMIT, SHORT_PAUSE = 0.05, 0.01


@pytest.fixture(scope="session", params=SOURCES)
def language(request):
    return request.param


def source(language, name):
    return (TOP / SOURCES[language][0].format(name)).read_text()


@pytest.mark.parametrize("name", SHORT)
def test_length(language, name):
    assert len(source(language, name).splitlines()) <= MOST_LINES


@pytest.mark.parametrize("name", SHORT)
def test_names(language, name):
    """README.md names what it uses, or the language's page up to the end of its first section."""
    page = (TOP / f"docs/{language}.md").read_text()
    first = (TOP / "README.md").read_text() + "\n## ".join(page.split("\n## ")[:2])
    uses = re.findall(SOURCES[language][1], source(language, name), re.M)
    used = set(re.findall(r"\w+", " ".join(uses)))
    assert used and not used - set(re.findall(r"\w+", first))


class Drawing(Terminal):
    """A program that draws. What it drew last is waited for."""

    def text(self):
        return self.output.decode("utf-8", "replace")


class Prompt(Drawing):
    LINE = re.compile(r"\r\033\[K\033\[\?7l> ([^\033]*)\0337([^\033]*)\0338\033\[\?7h")

    def shown(self):
        """The line, with the cursor in it."""
        return ["|".join(it) for it in self.LINE.findall(self.text())[-1:]]

    def entered(self):
        """The lines that were entered. Each stands between two ends of a line."""
        rest = re.sub(r"\033\[\?2004[hl]", "", self.LINE.sub("", self.text()))
        assert "\033" not in rest
        return rest.split("\r\n")[1::2]

    def quit(self, *lines, by=b"\x04"):
        self.send(by)
        self.check_end(0)
        assert self.entered() == [*lines, ""]


class List(Drawing):
    def shown(self):
        """The rows, with a star before the one at which the user is."""
        last = self.text().split("\033[H\033[J")[-1].split("\033[?7h")[0]
        rows = [row.removesuffix("\033[m") for row in last.split("\r\n")]
        return [re.sub("^\033\\[7m", "*", row) for row in rows]

    def end(self, keys, status, printed):
        """What it prints comes behind the last switch of a mode."""
        self.send(keys)
        self.check_end(status)
        assert re.split(r"\033\[\?\d+[hl]", self.text())[-1] == printed


ROWS = ["one", "two", "three"]
FIFTY = [str(it) for it in range(1, 51)]


def rows_at(at, rows=ROWS):
    return [f"*{row}" if place == at else row for place, row in enumerate(rows)]


@pytest.fixture
def start(example, language, on_terminal):
    """Starts a program, a list with these rows, and waits for the first thing that it draws."""

    def run(kind, rows=ROWS, **how):
        program = example(language, kind.__name__.lower())
        words, drawn = ([], ["|"]) if kind is Prompt else (rows, rows_at(0, rows)[:24])
        return on_terminal(kind([*program, *words], **how), drawn)

    return run


PASTED = START + b"one\rtwo\r\n\033[A\x7f" + END
# What is typed, as bytes with what is drawn then, and pauses.
TYPED = {
    "text": [b"a\xc3\xa9b", ["aéb|"], b"c", ["aébc|"]],
    "the cursor": ["aé€b".encode(), ["aé€b|"], LEFT * 2, ["aé|€b"], b"x", ["aéx|€b"]]
    + [LEFT * 9, ["|aéx€b"], b"y", ["y|aéx€b"], RIGHT * 2, ["yaé|x€b"], b"z", ["yaéz|x€b"]]
    + [RIGHT * 9, ["yaézx€b|"]],
    "Backspace": ["é€b".encode(), ["é€b|"], b"\x7f\x7f", ["é|"], b"\x7f\x7f", ["|"]]
    + [b"ab", ["ab|"], LEFT + b"\x7f", ["|b"], b"\x7f", ["|b"]],
    "lines": [b"one\r", ["|"], b"two" + LEFT + b"\r", ["|"], b"\r", ["|"]],
    "pastes": [PASTED, ["one two  [A |"], LEFT * 2, ["one two  [|A "]]
    + [PASTED, ["one two  [one two  [A |A "]],
    "a paste, cut by pauses": [START + b"a\033", ["|"], PAUSE, b"b\r" + END, ["a b |"]]
    + [START + b"c", ["a b |"], LONG_PAUSE, b"\r" + END, ["a b c |"]],
    "controls of two bytes": [START + b"a\xc2\x9b1m" + END, ["a\xa01m|"]]
    + [START + b"\xc2\x85b" + END, ["a\xa01m\xa0b|"]],
    "history": [b"one\rtwo\r", ["|"], UP, ["two|"], UP, ["one|"], UP, ["one|"], DOWN, ["two|"]]
    + [DOWN, ["|"], DOWN, ["|"], UP * 2, ["one|"], b"\r", ["|"], UP, ["one|"], UP, ["two|"]]
    + [b"\r", ["|"]],
    "what Up left": [b"one\rtw", ["tw|"], UP, ["one|"], DOWN, ["tw|"], b"o", ["two|"]]
    + [UP, ["one|"], DOWN, ["two|"], b"\r", ["|"], UP, ["two|"], UP, ["one|"]],
    "an earlier line, edited": [b"one\r", ["|"], UP + b"x\r", ["|"], UP, ["onex|"], UP, ["one|"]]
    + [b"y\r", ["|"], UP, ["oney|"], UP, ["onex|"], UP, ["one|"]],
    "keys that do nothing": [b"a\033", ["a|"], PAUSE, b"b\033[15~\t\033x", ["ab|"]],
}
# The lines that are entered, if there are any.
ENTERED = {
    "lines": ["one", "two", ""],
    "history": ["one", "two", "one", "two"],
    "what Up left": ["one", "two"],
    "an earlier line, edited": ["one", "onex", "oney"],
}


@pytest.mark.timed
@pytest.mark.parametrize("name", TYPED)
def test_prompt(start, name):
    prompt = start(Prompt)
    prompt.play(TYPED[name])
    prompt.quit(*ENTERED.get(name, []))


@pytest.mark.parametrize("by", [b"\x03", b"\x04", b"\033[99;5u", b"\033[27;5;100~"])
def test_end_of_the_prompt(start, by):
    """By Ctrl-C and Ctrl-D, also as other protocols report them."""
    prompt = start(Prompt)
    prompt.play([b"ab", ["ab|"]])
    prompt.quit(by=by)


def test_full_line(start):
    """Whole characters are taken while there is room, of a paste in parts too."""
    prompt = start(Prompt)
    fits = "é" * ((ROOM - 4) // 2)
    prompt.play([START + b"\xc3\xa9" * ROOM + END, [f"{fits}|"], START + b"x" + END, [f"{fits}|"]])
    prompt.play([b"\x7f" * 2, [f"{fits[:-2]}|"], b"abcdef", [f"{fits[:-2]}abcd|"], b"\r", ["|"]])
    prompt.play([START + b"q\r" * PASTE_LIMIT + END, ["q " * (ROOM // 2 - 2) + "|"]])
    prompt.quit(f"{fits[:-2]}abcd")


def test_long_history(start):
    """The last ones are kept."""
    prompt = start(Prompt)
    lines = [f"line {it}" for it in range(250)]
    prompt.play([b"".join(it.encode() + b"\r" for it in lines) + b"x", ["x|"]])
    prompt.play([UP * 300, ["line 151|"], DOWN * 300, ["x|"], UP * 2, ["line 248|"]])
    prompt.quit(*lines)


@pytest.mark.parametrize("erase, other", [(b"\x7f", b"\b"), (b"\b", b"\x7f")], ids=["127", "8"])
def test_backspace_of_the_settings(start, erase, other):
    prompt = start(Prompt, erase=erase)
    prompt.play([b"abc" + erase, ["ab|"], erase, ["a|"]])
    prompt.quit()


def test_stop(start):
    """Twice. A paste stays open meanwhile, and none of it is a key."""
    prompt = start(Prompt)
    prompt.play([b"a" + START + b"b", ["a|"]])
    for drawn in ("ab |", "ab b |"):
        prompt.play([*STOP_AND_CONTINUE, Terminal.wait_for_modes])
        prompt.play([b"\r" + END, [drawn], START + b"b", [drawn]])
    prompt.send(END + b"\x04")
    prompt.check_end(0)


# Keys, and the row at which the user is then.
MOVES = {
    "down and up": [(b"j", 1), (b"j", 2), (b"j", 2), (b"k", 1), (b"k", 0), (b"k", 0)],
    "arrows": [(DOWN, 1), (DOWN, 2), (DOWN, 2), (UP, 1), (UP, 0), (UP, 0), (b"\033OB", 1)],
    "Home and End": [(b"\033[F", 2), (b"\033[H", 0), (b"\033[4~", 2), (b"\033[1~", 0)],
    "G and g g": [(b"G", 2), (b"gg", 0), (b"\033[103;2u", 2), (b"g", 2), (b"g", 0), (b"jgg", 0)],
    "a slow chord": [(b"G", 2), (b"g", 2), LONG_PAUSE, (b"g", 0)],
    "no chord": [(b"gj", 1), (b"\x18j", 2), (b"\x18\x18k", 1), (b"ggj", 1), (b"gzj", 2)],
    "pastes": [(START + b"jq\r" + END + b"j", 1), (START + b"\x18\x03" + END + b"j", 2)],
    "keys without a command": [(b"z\x03\033[15~\033", 0), PAUSE, (b"j", 1), (b"\033", 1), PAUSE],
}


@pytest.mark.timed
@pytest.mark.parametrize("steps", MOVES.values(), ids=MOVES)
def test_moves(start, steps):
    it = start(List)
    for step in steps:
        it.play([step] if isinstance(step, float) else [step[0], rows_at(step[1])])
    it.end(b"q", 1, "")


@pytest.mark.parametrize("keys, at", [(b"\r", 0), (b"jj ", 2), (b"Ggg\033[B\r", 1)])
def test_picks(start, keys, at):
    start(List).end(keys, 0, f"{ROWS[at]}\r\n")


ENDS = {
    "q": b"q",
    "Ctrl-X Ctrl-C": b"\x18\x03",
    "after a chord that was given up": b"\x18j\x18\x18\x03",
    "modifyOtherKeys": b"\033[27;5;120~\033[27;5;99~",
    "a Cyrillic layout": b"\033[1095::120;5u\033[1089::99;5u",
}


@pytest.mark.parametrize("keys", ENDS.values(), ids=ENDS)
def test_end_of_the_list(start, keys):
    start(List).end(keys, 1, "")


def test_long_list(start):
    """What fits around the place is drawn, also by a new size."""
    it = start(List, FIFTY)
    it.play([b"G", rows_at(49, FIFTY)[26:], b"k", rows_at(48, FIFTY)[25:49]])
    it.play([b"gg", rows_at(0, FIFTY)[:24], b"j" * 24, rows_at(24, FIFTY)[1:25]])
    it.play([(80, 10), rows_at(24, FIFTY)[15:25], (80, 30), rows_at(24, FIFTY)[:30]])
    it.end(b"\r", 0, "25\r\n")


def test_list_on_a_terminal_without_a_size(start):
    """It is drawn as on one of 24 rows."""
    it = start(List, FIFTY, size=(0, 0))
    it.play([b"G", rows_at(49, FIFTY)[26:], b"gg", rows_at(0, FIFTY)[:24]])
    it.end(b"\r", 0, "1\r\n")


@pytest.mark.parametrize("number", ENDING_SIGNALS, ids=lambda it: it.name)
@pytest.mark.parametrize("kind", [Prompt, List])
def test_signal(start, kind, number):
    start(kind).end_by(number)


@pytest.mark.parametrize("kind, status", [(Prompt, 0), (List, 1)])
def test_end_of_the_input(start, kind, status):
    """The first ^D ends a read, and the second the input. No row is picked then."""
    it = start(kind)
    it.play([Terminal.let_end_input, b"j\x04\x04"])
    it.check_end(status)


NO_TERMINAL = "standard input and output have to be a terminal"
REFUSED = {
    "prompt": ([], 1, f"prompt: {NO_TERMINAL}\n"),
    "list": (["one"], 1, f"list: {NO_TERMINAL}\n"),
    "list of nothing": ([], 1, "list: no words are given\n"),
    "server": ([], 1, "server: Invalid argument\n"),
    "server, a long path": (["x" * 108], 1, "server: Invalid argument\n"),
    "server, no folder": ([TOP / "nothing/keys"], 1, "server: No such file or directory\n"),
    "server, a file": ([TOP / "README.md"], 1, "server: Address already in use\n"),
    "many": ([], 2, "usage: many TERMINAL..\n"),
    "many, no file": (["nothing"], 1, "nothing: No such file or directory\n"),
    "many, a file": (["/dev/zero"], 1, "/dev/zero: Inappropriate ioctl for device\n"),
}


@pytest.mark.parametrize("name", REFUSED)
def test_refused(example, name):
    words, status, says = REFUSED[name]
    program = example("c", re.match("[a-z]+", name)[0])
    check_refused([*program, *words], status, re.escape(says))


class Serving(Terminal):
    """A server, and the terminals that it serves: the names that it prints, and the descriptors
    that type."""

    def __init__(self, words):
        super().__init__(words)
        self.names, self.typing = [], []
        self.checked = collections.Counter()

    def type(self, place, typed):
        os.write(self.typing[place], typed)

    def printed(self, place):
        """The keys that were printed for one."""
        start = f"{self.names[place]}: "
        return [it.removeprefix(start) for it in self.lines() if it.startswith(start)]

    def check_all(self, count, keys, *names):
        """All of so many type keys, and they are printed for each."""
        for place in range(count):
            self.type(place, keys)
        for place in range(count):
            self.wait_for_printed(place, *names)

    def wait_for_printed(self, place, *keys):
        """They are the next ones."""
        begin = self.checked[place]
        end = self.checked[place] = begin + len(keys)
        self.wait_for(lambda: len(self.printed(place)) >= end, f"{keys!r}")
        assert self.printed(place)[begin:end] == [*keys]

    def check_escape(self, quiet, busy):
        """A lone Escape is told once its limit has passed, while another terminal types."""
        told, typed = self.checked[quiet], 0
        begin = time.monotonic()
        self.type(quiet, b"\033")
        while len(self.printed(quiet)) == told:
            assert time.monotonic() - begin < SECONDS
            self.type(busy, b"%d" % (typed % 10))
            self.wait_for_printed(busy, str(typed % 10))
            typed += 1
            time.sleep(SHORT_PAUSE)
        assert ESCAPE_LIMIT <= time.monotonic() - begin < 1 and typed > 1
        self.type(quiet, b"[A")
        self.wait_for_printed(quiet, "escape", "[", "A")

    def check_cut(self, cut, busy):
        """A sequence in two writes isn't broken, while another terminal types."""
        for pause, pieces in [(0.005, (b"\033", b"[A")), (PAUSE, (b"\033[1;", b"5A\xc3"))]:
            self.type(cut, pieces[0])
            self.type(busy, b"z")
            time.sleep(pause)
            self.type(cut, pieces[1])
        self.type(busy, b"y")
        self.wait_for_printed(busy, "z", "z", "y")
        self.type(cut, b"\xa9")
        self.wait_for_printed(cut, "up", "ctrl+up", "é")

    def check_pastes(self, place):
        """A paste is no key, however long it is."""
        for text in (b"a\r\033[A", b"q\r" * PASTE_LIMIT):
            typed = memoryview(START + text + END + b"b")
            while typed:
                typed = typed[os.write(self.typing[place], typed[:1024]) :]
            self.wait_for_printed(place, "b")


class Server(Serving):
    def __init__(self, program, folder):
        self.path = f"{folder}/keys"
        super().__init__([*program, self.path])
        self.sockets = []
        self.wait_for(lambda: os.path.exists(self.path), "socket")

    def connect(self):
        """Connects a terminal. Returns its place in the lists."""
        self.sockets.append(socket.socket(socket.AF_UNIX))
        self.wait_for(lambda: self.sockets[-1].connect_ex(self.path) == 0, "connection")
        self.typing.append(self.sockets[-1].fileno())
        return len(self.sockets) - 1

    def take_in(self):
        """Connects a terminal, and waits until it is served."""
        place = self.connect()
        self.wait_for_place(place)
        return place

    def wait_for_place(self, place):
        self.type(place, b"~")
        self.expect(rb"(terminal \d+): ~\r\n")
        self.names.insert(place, self.match[1].decode())
        self.checked[place] = len(self.printed(place))

    def close(self):
        super().close()
        for it in self.sockets:
            it.close()


class Many(Serving):
    """Over pseudo-terminals, whose other ends stay open here too."""

    def __init__(self, program, count, erase=b"\x7f"):
        pairs = [os.openpty() for _ in range(count)]
        self.hidden, self.ends = map(list, zip(*pairs))
        for end in self.ends:
            change_settings(end, {termios.VERASE: erase, termios.VKILL: b"\x14"})
        self.saved = [termios.tcgetattr(it) for it in self.ends]
        names = [os.ttyname(it) for it in self.ends]
        super().__init__([*program, *names])
        self.names, self.typing = names, self.hidden
        self.wait_for(lambda: all(map(self.is_served, range(count))), "raw mode")

    def is_served(self, place):
        """Raw mode is set."""
        return not termios.tcgetattr(self.ends[place])[LFLAG] & termios.ICANON

    def check_left(self, *places):
        """Their settings and modes are as they were."""
        for place in places:
            assert termios.tcgetattr(self.ends[place]) == self.saved[place]
            written = fdspawn(self.typing[place], timeout=SECONDS).read(16)
            assert written == b"\033[?2004h\033[?2004l"

    def close(self):
        super().close()
        for it in [*self.typing, *self.ends]:
            os.close(it)


@pytest.fixture
def server(example, language):
    with tempfile.TemporaryDirectory() as folder, Server(example(language, "server"), folder) as it:
        yield it


@pytest.fixture
def many(example):
    with contextlib.ExitStack() as stack:
        yield lambda *words: stack.enter_context(Many(example("c", "many"), *words))


def test_server(server):
    """Of ten terminals; keys of several of them, and twice."""
    for _ in range(10):
        server.take_in()
    assert {*server.names} == {f"terminal {it}" for it in range(1, 11)}
    server.check_all(10, b"\x18\033[A", "ctrl+x", "up")
    server.check_all(10, "é\r".encode(), "é", "enter")
    server.end_by(signal.SIGTERM)


@pytest.mark.timed
def test_free_places_of_the_server(server):
    """They take no time of the processor, whether a terminal had them or not."""
    for _ in range(2):
        place = server.take_in()
        server.sockets[place].shutdown(socket.SHUT_WR)
        assert server.sockets[place].recv(1) == b""
        server.take_in()
        before = server.processor_ticks()
        time.sleep(LONG_PAUSE)
        assert server.processor_ticks() - before <= 2


@pytest.mark.timed
def test_escape_and_cut_of_the_server(server):
    places = [server.take_in() for _ in range(3)]
    for quiet, busy in [places[:2], places[1:]]:
        server.check_escape(quiet, busy)
        server.check_cut(busy, quiet)


def test_paste_of_the_server(server):
    server.check_pastes(server.take_in())


def test_terminals_that_leave(server):
    """What they typed last is told, and each makes room for one that waits."""
    places = [server.take_in() for _ in range(10)]
    for left in places[2:4]:
        waiting = server.connect()
        server.type(left, b"a\033[1;5")
        server.sockets[left].shutdown(socket.SHUT_WR)
        server.wait_for_printed(left, "a", "alt+[", "1", ";", "5")
        server.wait_for_place(waiting)
        assert server.names[waiting] == server.names[left]
        server.type(waiting, b"A")
        server.wait_for_printed(waiting, "A")
        assert server.sockets[left].recv(1) == b""


def test_many(many):
    """Of a hundred pseudo-terminals; keys of all of them, and twice."""
    it = many(100)
    it.check_all(100, b"\x18\033[A", "ctrl+x", "up")
    it.check_all(100, "é\x7f".encode(), "é", "backspace")
    it.end_by(signal.SIGTERM)
    it.check_left(*range(100))


@pytest.mark.timed
def test_escape_and_cut_of_many(many):
    it = many(100)
    for quiet, busy in [(0, 99), (50, 0)]:
        it.check_escape(quiet, busy)
        it.check_cut(busy, quiet)


@pytest.mark.timed
def test_escape_of_all(many):
    """Limits of many that run at a time."""
    it = many(100)
    for _ in range(2):
        it.check_all(100, b"\033", "escape")


def test_settings_of_many(many):
    it = many(2, b"\b")
    for _ in range(2):
        it.type(0, b"\b\x7f\r\n")
        it.wait_for_printed(0, "backspace", "ctrl+backspace", "enter", "ctrl+j")
    it.end_by(signal.SIGHUP)
    it.check_left(0, 1)


def test_paste_of_many(many):
    many(2).check_pastes(1)


def test_terminals_that_hang_up(many):
    """The others are served on, and the server ends with the last one."""
    it = many(3)
    for place, rest in [(1, [0, 2]), (0, [2])]:
        it.hang_up(it.typing[place])
        for other in rest:
            it.type(other, b"a")
            it.wait_for_printed(other, "a")
    it.hang_up(it.typing[2])
    it.check_end(0)


@pytest.mark.parametrize("number", [signal.SIGHUP, signal.SIGINT, signal.SIGTERM])
def test_signal_of_many(many, number):
    it = many(3)
    it.type(2, b"a")
    it.wait_for_printed(2, "a")
    it.end_by(number)
    it.check_left(0, 1, 2)


def test_one_that_is_no_terminal(example):
    """The others are left as they were."""
    ours, theirs = os.openpty()
    before = termios.tcgetattr(theirs)
    for other in ("/dev/zero", "nothing"):
        done = run_without_terminal([*example("c", "many"), os.ttyname(theirs), other])
        assert done.returncode == 1 and done.stderr.startswith(f"{other}: ".encode())
        assert termios.tcgetattr(theirs) == before
    written, switched = b"", b"\033[?2004h\033[?2004l" * 2
    while len(written) < len(switched):
        written += os.read(ours, 64)
    assert written == switched
    os.close(ours)
    os.close(theirs)
