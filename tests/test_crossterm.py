"""What the package in crossterm's place reads of a terminal, beside what crossterm's own reader has
of it. The example `events` of rust/crossterm runs over each of the two, and `calls` makes all calls
that read. crossterm's own assertions on its parser are cases too.

They have the same events of most bytes. Where they differ a rule names the reason, and mostly other
bytes, of which crossterm has the events that this package has."""
import contextlib
import os
import re
import signal

import pytest
from crossterm_assertions import assertions, run_assertions
from terminal import CONTINUE, END, PAUSE, START, Terminal

# Codes of Kitty's protocol: some characters, and the numbers of its functional keys.
CHARACTERS, FUNCTIONAL = [32, 48, 97, 122, 160, 233, 1092, 0x1F600], range(57344, 57456)
# The numbers of modifiers, each alone and some together, and those of the locks.
WITH = ["", *(f";{number}" for number in [1, 2, 3, 4, 5, 6, 7, 8, 9, 17, 33])]
LOCKS = [";65", ";129", ";193"]
KINDS = [f";{number}:{kind}" for number in [1, 5] for kind in [1, 2, 3]]
# The keys of the keypad by their letters after ESC O, and their numbers in Kitty's table.
KEYPAD = dict(zip("pqrstuvwxynojmkMXl", range(57399, 57417))) | {"E": 57427}


def csi(*parts):
    return b"\033[" + "".join(map(str, parts)).encode()


C0 = [bytes([byte]) for byte in [*range(0x20), 0x7F]]
KEYS = {
    "C0": C0,
    "C0 with Alt": [b"\033" + byte for byte in C0],
    "CSI u": [csi(code, "u") for code in [*range(0x20), 0x7F, 65, *CHARACTERS, *FUNCTIONAL]],
    "CSI u with modifiers": [
        csi(code, more, "u")
        for code in [9, 13, 27, 65, 127, *CHARACTERS, 57358, 57399, 57414]
        for more in WITH + LOCKS
    ],
    "CSI u with kinds": [
        csi(code, kind, "u") for code in [9, 13, 27, 97, 127, 57358, 57399, 57442] for kind in KINDS
    ],
    "CSI u with more": [csi(it) for it in ["97:65;2u", "1092::97;5:3u", "97;;97u", "97;256u"]],
    "CSI u with a text": [csi("0;;102:105u"), csi("0;;229u")],
    "modifyOtherKeys": [
        csi("27", more, ";", code, "~")
        for code in [9, 13, 27, 127, *CHARACTERS]
        for more in WITH[2:8]
    ],
    "keypad": [f"\033O{letter}".encode() for letter in KEYPAD] + [csi("E")],
    "keypad with Ctrl": [f"\033O5{letter}".encode() for letter in "jpMX"] + [csi("1;5E")],
    "letters": [f"\033O{letter}".encode() for letter in "ABCDFHPQRS"]
    + [csi(letter) for letter in "ABCDFHPQRSZ"],
    "letters with modifiers": [csi(1, more, it) for it in "ABCDFHPQRS" for more in WITH[1:] + KINDS]
    + [b"\033O5P", csi("1;5Z"), csi("1;65A")],
    "Alt before a sequence": [b"\033" + it for it in [csi("A"), csi("5~"), b"\033OP"]],
    "urxvt": [csi("a"), b"\033Oa", csi("5^"), csi("5@")],
    "Linux's console": [csi("[", letter) for letter in "ABCDE"],
    "numbers": [csi(code, more, "~") for code in range(1, 36) for more in WITH],
    "numbers with kinds": [csi("3;5:1~"), csi("3;5:3~")],
    "others": [csi("I"), csi("O"), csi("200~a\n\033[b\033[201~"), csi("12;40R")],
    "replies": [csi("?62;22c"), csi("?1u"), csi("?2026;2$y"), b"\033]11;rgb:0/0/0\033\\"],
}
# Where this package has other events than crossterm: the reason, the bytes, and either others of
# which crossterm has these events, or the events themselves.
RULES = [
    ("ESC is Escape with Alt after ESC", r"\033\033", "\033[27;3u"),
    ("the number 8 is Backspace", r"\033\[8u", "\x7f"),
    ("the number 10 is Enter", r"\033\[10u", "\r"),
    ("the number 0 is text without a key", r"\033\[0u", []),
    ("the number 0 is text without a key", r"\033\[0;;229u", "å"),
    (
        "a control character is the key that sends it",
        r"\033\[([1-7]|11|12|1[4-9]|2[0-689]|3[01])u",
        lambda it: chr(int(it[1])),
    ),
    ("a letter in upper case has SHIFT", r"\033\[65(;1)?u", "A"),
    (
        "a letter in upper case has SHIFT",
        r"\033\[65;(3|5|7|9|17|33|65|129|193)u",
        lambda it: f"\033[65;{int(it[1]) + 1}u",
    ),
    (
        "a number of Kitty's table that is no key of crossterm's is no character",
        r"\033\[57(34[4-9]|35[0-7]|36[4-9]|37[0-5]|455)u",
        [],
    ),
    (
        "crossterm doesn't read what Shift or another layout types",
        r"\033\[(\d+):.*(;.*)",
        lambda it: f"\033[{it[1]}{it[2]}",
    ),
    ("a text of several characters is a paste", r"\033\[0;;102:105u", ['Paste("fi")']),
    (
        "crossterm reads no modifiers above 255",
        r"\033\[97;256u",
        ["Char('a') SHIFT | CONTROL | ALT | SUPER | HYPER | META Press CAPS_LOCK | NUM_LOCK"],
    ),
    (
        "crossterm reads no modifyOtherKeys",
        r"\033\[27;(\d+);(\d+)~",
        lambda it: f"\033[{it[2]};{it[1]}u",
    ),
    (
        "crossterm reads no keypad after ESC O",
        r"\033(?:O|\[1;)(5?)([j-yMXE])|\033\[(E)",
        lambda it: f"\033[{KEYPAD[it[2] or it[3]]};{it[1] or 1}u",
    ),
    (
        "crossterm reads no F1 to F4 as Kitty writes them",
        r"\033\[([PQRS])",
        lambda it: f"\033O{it[1]}",
    ),
    ("crossterm reads no Alt before a sequence", r"\033\033\[A", "\033[1;3A"),
    ("crossterm reads no Alt before a sequence", r"\033\033\[5~", "\033[5;3~"),
    ("crossterm reads no Alt before a sequence", r"\033\033OP", "\033[1;3P"),
    ("crossterm reads no modifiers of urxvt's", r"\033\[a", "\033[1;2A"),
    ("crossterm reads no modifiers of urxvt's", r"\033Oa", "\033[1;5A"),
    ("crossterm reads no modifiers of urxvt's", r"\033\[5\^", "\033[5;5~"),
    ("crossterm reads no modifiers of urxvt's", r"\033\[5@", "\033[5;6~"),
    ("crossterm reads no F1 with modifiers after ESC O", r"\033O5P", "\033[1;5P"),
    ("crossterm reads no Shift-Tab with more modifiers", r"\033\[1;5Z", "\033[9;6u"),
    (
        "F15 to F20 are those of terminals, which leave out numbers",
        r"\033\[(28|29|3[1-4])(;\d+)?~",
        lambda it: f"\033[{57378 + [28, 29, 31, 32, 33, 34].index(int(it[1]))}{it[2] or ''}u",
    ),
    ("crossterm reads no F21", r"\033\[35(;\d+)?~", lambda it: f"\033[57384{it[1] or ''}u"),
    (
        "crossterm reads no kinds before ~",
        r"\033\[3;5:(1|3)~",
        lambda it: [f"Delete CONTROL {KIND[it[1]]} NONE"],
    ),
    (
        "crossterm takes F3 by a letter for the cursor's position",
        r"\033\[1;(\d+)R",
        lambda it: f"\033[13;{it[1]}~",
    ),
    (
        "crossterm takes F3 by a letter for the cursor's position",
        r"\033\[1;(1|5):([123])R",
        lambda it: [f"F(3) {'CONTROL' if it[1] == '5' else 'NONE'} {KIND[it[2]]} NONE"],
    ),
    (
        "crossterm tells of locks in CSI u alone",
        r"\033\[1;65A",
        ["Up NONE Press CAPS_LOCK | NUM_LOCK"],
    ),
    ("a reply isn't typed", r"\033\[\?.*|\033].*", []),
]
KIND = {None: "Press", "1": "Press", "2": "Repeat", "3": "Release"}


ASSERTIONS = assertions()
# The only ones that don't hold: a mouse report with `;` before its last letter.
UNSENT = r"\[<?(\d+;){3}[Mm]"


class Reader(Terminal):
    """The program over one of the two."""

    def events(self, data):
        """What it has of these bytes, up to a key that ends them."""
        self.send(data)
        if data.endswith(b"\033"):
            self.play([PAUSE])
        self.send(b"|")
        self.expect_exact(
            "Key(KeyEvent { code: Char('|'), modifiers: NONE, kind: Press, state: NONE })\r\n"
        )
        key = r"Key\(KeyEvent \{ code: (.*), modifiers: (.*), kind: (.*), state: (.*) \}\)"
        return [
            re.sub(key, r"\1 \2 \3 \4", line) for line in self.before.decode().split("\r\n")[:-1]
        ]


@pytest.fixture(scope="module")
def program(example):
    return example("crossterm", "events")


@pytest.fixture(scope="module")
def readers(program):
    """This package's and crossterm's."""
    with Reader(program) as ours, Reader([*program, "own"]) as theirs:
        for reader in (ours, theirs):
            reader.expect_exact("q ends\r\n")
        yield ours, theirs


def rule_of(data):
    """The reason for which both have other events of these bytes, and what this package has."""
    for reason, pattern, other in RULES:
        if found := re.fullmatch(pattern, data.decode(), re.DOTALL):
            return reason, other(found) if callable(other) else other
    return None, data.decode()


@pytest.mark.parametrize("group", KEYS)
def test_keys(readers, group):
    ours, theirs = readers
    for data in KEYS[group]:
        reason, other = rule_of(data)
        wanted = theirs.events(other.encode()) if isinstance(other, str) else other
        assert ours.events(data) == wanted, (data, reason)
        assert (wanted == theirs.events(data)) == (reason is None), (data, reason)


def test_rules():
    """Each is needed."""
    told = [data for group in KEYS.values() for data in group]
    for reason, pattern, _ in RULES:
        assert any(re.fullmatch(pattern, data.decode(), re.DOTALL) for data in told), reason


@pytest.fixture(scope="module")
def outcomes(rust_copy):
    return run_assertions(rust_copy)


@pytest.mark.parametrize("line", ASSERTIONS)
def test_assertions_of_crossterm(outcomes, line):
    holds, told = outcomes[line]
    assert holds != bool(re.search(UNSENT, ASSERTIONS[line])), (ASSERTIONS[line], told)


def as_sgr(code, x, y, is_release):
    return csi("<", code, ";", x, ";", y, "m" if is_release else "M")


def as_urxvt(code, x, y, is_release):
    return csi((code | 3 if is_release else code) + 32, ";", x, ";", y, "M")


def as_x10(code, x, y, is_release):
    return b"\033[M" + bytes(it + 32 for it in [code | 3 if is_release else code, x, y])


@pytest.mark.parametrize("held", [0, 4, 8, 16, 28])
@pytest.mark.parametrize("button", [0, 1, 2])
@pytest.mark.parametrize("form", [as_sgr, as_urxvt, as_x10])
def test_mouse(readers, form, button, held):
    """Each form has the events that crossterm has of SGR's reports. Of the others it takes each
    release for that of the left button."""
    ours, theirs = readers
    steps = [(button, 3, 4, False), (button + 32, 100, 223, False), (button, 5, 6, True)]
    steps += [(code, 1, 2, False) for code in (64, 65, 35)]
    sent = [b"".join(it(code + held, *rest) for code, *rest in steps) for it in (form, as_sgr)]
    assert ours.events(sent[0]) == theirs.events(sent[1])
    is_same = form == as_sgr or button == 0
    assert (theirs.events(sent[0]) == theirs.events(sent[1])) == is_same


# What VERASE is, and the keys of the bytes 8 and 127.
ERASE = {
    "127": (b"\x7f", "Char('h') CONTROL", "Backspace NONE"),
    "8": (b"\x08", "Backspace NONE", "Backspace CONTROL"),
}


@pytest.fixture
def start(program):
    """Starts the program over this package's, and ends it after a case by q."""

    @contextlib.contextmanager
    def run(**how):
        with Reader(program, **how) as reader:
            reader.expect_exact("q ends\r\n")
            yield reader
            reader.send(b"q")
            assert reader.wait_for_end() == 0

    return run


@pytest.mark.parametrize("has_icrnl", [True, False], ids=["ICRNL", "no ICRNL"])
@pytest.mark.parametrize("erase, eight, last", ERASE.values(), ids=ERASE)
def test_settings(start, erase, eight, last, has_icrnl):
    """Which byte Backspace sends is taken from them. In raw mode LF is Ctrl-J."""
    with start(erase=erase, has_icrnl=has_icrnl) as reader:
        keys = [eight, last, "Char('j') CONTROL", "Enter NONE"]
        assert reader.events(b"\x08\x7f\n\r") == [f"{key} Press NONE" for key in keys]


@pytest.mark.parametrize("number", [signal.SIGSTOP, signal.SIGTSTP], ids=lambda it: it.name)
def test_stop_within_a_paste(start, number):
    """It stays one, and so does the next. No line of it is typed."""
    with start() as reader:
        for _ in range(2):
            reader.play([START + b"a\n", PAUSE, number, Terminal.wait_for_stop, CONTINUE])
            reader.wait_for_raw()
            told = reader.events(b"b\nc" + END)
            assert told[-1] == r'Paste("a\nb\nc")'
            assert told[:-1] == ([] if number == signal.SIGSTOP else ["Resize(80, 24)"])


def test_sequence_during_a_computation(start):
    """Its rest is read before ESC counts as having waited too long."""
    with start() as reader:
        for _ in range(2):
            reader.play([b"s\033", "Char('s')", PAUSE / 2, b"[A"])
            assert reader.events(b"")[-1:] == ["Up NONE Press NONE"]


class Calls(Terminal):
    """The program that makes all calls which read."""

    FIRST = "q ends"
    # The questions of a call, and the reply to the last of them.
    POSITION, FLAGS = "\033[6n\033[c", "\033[?u\033[c"
    ATTRIBUTES = b"\033[?62;22c"

    def expect_keys(self, *names):
        for name in names:
            self.expect_exact(f"code: {name},")

    def end_by_q(self):
        self.send(b"q")
        self.check_end(0)

    def check_refused(self, words):
        """It ends by a panic in these words, on a terminal as it was."""
        self.check_end(101)
        assert words in self.output.decode()


@pytest.fixture
def calls(example):
    with contextlib.ExitStack() as stack:

        def start(*words, **how):
            program = Calls([*example("crossterm", "calls"), *words], **how)
            stack.enter_context(program).play(["q ends", "\n"])
            return program

        yield start


BY = pytest.mark.parametrize("by", ["poll", "stream"])


@BY
def test_keys_around_the_position(calls, by):
    """None is lost. A key whose bytes are those of the reply comes before it, or after."""
    program = calls(by)
    for _ in range(2):
        reply = b"a\033[1;5Rb" + program.ATTRIBUTES + b"\033[1;5Rc"
        program.play([b"p", program.POSITION, reply, "position Ok((4, 0))\r\n"])
        program.expect_keys("Char('a')", "Char('b')", "F(3)", "Char('c')")
    program.end_by_q()


@BY
def test_no_position(calls, by):
    program = calls(by)
    program.play([b"p", program.POSITION, b"a", "position Err(TimedOut)\r\n"])
    program.expect_keys("Char('a')")
    program.play([b"p", program.POSITION, program.ATTRIBUTES, "position Err(TimedOut)\r\n"])
    program.end_by_q()


@BY
@pytest.mark.parametrize(
    "reply, told",
    [(b"\033[?1u" + Calls.ATTRIBUTES, "Ok(true)"), (Calls.ATTRIBUTES, "Ok(false)"), (b"", "Err")],
    ids=["has it", "has it not", "says nothing"],
)
def test_keyboard_enhancement(calls, by, reply, told):
    program = calls(by)
    program.play([b"k", program.FLAGS, b"a" + reply, f"Kitty's {told}"])
    program.expect_keys("Char('a')")
    program.end_by_q()


@BY
def test_escape_and_cuts(calls, by):
    program = calls(by)
    program.play([b"\033"])
    program.expect_keys("Esc")
    program.play([b"\033[1", PAUSE, b";5A"])
    program.expect_keys("Up")
    program.play([b"abc"])
    program.expect_keys("Char('a')", "Char('b')", "Char('c')")
    program.play([START + b"a\n", PAUSE, b"q" + END, r'Paste("a\nq")', (60, 20), "Resize(60, 20)"])
    program.end_by_q()


@BY
def test_lent_terminal(calls, by):
    """What the program runs has the terminal as it was, and ^Z stops both."""
    program = calls(by)
    program.play([b"exy", "lent\r\n"])
    assert program.settings() == program.settings_before
    program.play([b"\x1a", Terminal.wait_for_stop, (60, 20), CONTINUE])
    program.wait_for(lambda: program.state() != "T", "SIGCONT")
    os.killpg(program.job, signal.SIGCONT)
    program.play([b"line\n", "had line\r\n", "it is back: exit status: 0\r\n"])
    program.expect_keys("Char('x')", "Char('y')")
    program.play(["Resize(60, 20)", b"z"])
    program.expect_keys("Char('z')")
    program.end_by_q()


def test_without_raw_mode(calls):
    """It reads lines that the terminal edits. ^C and ^Z do at once what they do."""
    program = calls("cooked")
    program.play([b"ab\x7fc\n"])
    program.expect_keys("Char('a')", "Char('c')", "Enter")
    assert program.settings() == program.settings_before
    program.play([b"\x1a", Terminal.wait_for_stop, CONTINUE])
    program.play([b"d\n"])
    program.expect_keys("Char('d')", "Enter")
    program.send(b"\x07")
    program.check_end(-signal.SIGINT)


@BY
@pytest.mark.parametrize("blocks", [True, False], ids=["blocks", "O_NONBLOCK"])
def test_end_of_input(calls, by, blocks):
    program = calls(by, blocks=blocks)
    program.play([b"a"])
    program.expect_keys("Char('a')")
    program.play([PAUSE, Terminal.let_end_input, b"\x04"])
    assert program.wait_for_end() == (0 if by == "stream" else 1)
    end = "the stream is at its end" if by == "stream" else "UnexpectedEof"
    assert end in program.output.decode()


@BY
@pytest.mark.parametrize("number", [signal.SIGHUP, signal.SIGTERM])
def test_ended_by_a_signal(calls, by, number):
    program = calls(by)
    program.play([b"a"])
    program.expect_keys("Char('a')")
    program.end_by(number)


def test_stream_beside_a_poll(calls):
    """Either may read a key, and the stream tells it."""
    program = calls("polled")
    for letter in "abcd" * 20:
        program.play([letter.encode()])
        program.expect_keys(f"Char('{letter}')")
    program.end_by_q()


def test_end_while_a_thread_reads(calls):
    program = calls("thread")
    program.play([b"a"])
    program.expect_keys("Char('a')")
    program.end_by_q()


def test_a_terminal_beside(calls):
    program = calls()
    program.play([b"t", "a terminal Err(AlreadyExists)\r\n"])
    program.end_by_q()


def test_beside_a_guard(example):
    with Calls([*example("crossterm", "calls"), "guard"]) as program:
        program.check_refused("reads its terminal by a guard of hedrugal::terminal already")


@BY
def test_crossterms_reader_beside(calls, by):
    program = calls(by)
    program.play([b"o", "\033[6n", b"\033[5;7R", "own position Ok((6, 4))\r\n"])
    program.check_refused("reads the terminal by crossterm itself, so keys get lost")
