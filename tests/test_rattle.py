"""The calls that only a program in Rattle can make: that of crates/test_calls makes them, and
prints what they return.

The program is TEST_CALLS, else what rt has built. A command is a name, a number and bytes; a number
that says whether more bytes may come is 1 or 0."""
import os
import random
import re
import subprocess

import pytest
from conftest import SECONDS, TOP
from plain_map import LONG, letters, long, nested, plain_lookup

TEST_CALLS = os.environ.get("TEST_CALLS") or str(TOP / "crates/test_calls/out/test_calls")

CALLS = ["list", "callback", "event", "loop"]
EXTENDED_CALLS = ["list", "callback", "next_event", "loop"]
FLUSHES = ["expire", "next_flushed"]

PASTE_START = b"\033[200~"
PASTE_END = b"\033[201~"

# The bits of modifiers.
NONE, SHIFT, ALT, CTRL, SUPER, LEADER = 0, 1 << 1, 1 << 2, 1 << 3, 1 << 4, 1 << 7


def command(name, number=0, given=b""):
    return f"{name} {number} {given.hex()}"


def answers(mode, commands):
    """What a run of the program answers, a line each."""
    lines = "".join(f"{it}\n" for it in commands)
    done = subprocess.run([TEST_CALLS, mode], input=lines, stdout=subprocess.PIPE, text=True)
    assert done.returncode == 0
    return done.stdout.splitlines()


def check(mode, asked):
    """Asks the commands of pairs, and compares the answers with those of the pairs. None is any."""
    given = answers(mode, [it for it, _ in asked])
    assert len(given) == len(asked)
    for (words, wanted), line in zip(asked, given):
        assert wanted is None or line == wanted, words[:200]


def answer_of(mode, *words):
    (line,) = answers(mode, [command(*words)])
    return line


def pasted(text):
    return f"paste {len(text)}:{text.hex()}"


# Large input.

# Two keys in four bytes.
KEYS = b"\033[Aq"


@pytest.mark.parametrize("call", CALLS)
def test_70000_keys_in_one_call(call):
    wanted = "key UpArrow NONE, key U+0071 NONE, " * 35000 + "0 wait"
    assert answer_of("parser", call, 0, KEYS * 35000) == wanted


@pytest.mark.parametrize("call", CALLS)
def test_paste_of_100_kilobytes(call):
    body = b"0123456789abcdef" * 6400
    wanted = f"{pasted(body)}, 0 wait"
    assert answer_of("parser", call, 1, PASTE_START + body + PASTE_END) == wanted


def in_pieces(more, pieces):
    return f"pieces {more} " + "".join(f"{it.hex()}," for it in pieces)


def cut(text, length):
    return [text[start : start + length] for start in range(0, len(text), length)]


@pytest.mark.parametrize("length", [1, 999])
def test_70000_keys_in_pieces(length):
    """The first key of KEYS ends at the third byte, and the second at the fourth."""
    text = KEYS * 35000
    wanted = []
    for start in range(0, len(text), 4):
        wanted += [f"{(start + 2) // length} key UpArrow NONE"]
        wanted += [f"{(start + 3) // length} key U+0071 NONE"]
    line = ", ".join([*wanted, "0 wait"])
    assert answers("parser", [in_pieces(0, cut(text, length))]) == [line]


def test_paste_of_100_kilobytes_in_pieces():
    body = b"0123456789abcdef" * 6400
    pieces = cut(PASTE_START + body + PASTE_END, 999)
    line = f"{len(pieces) - 1} {pasted(body)}, 0 wait"
    assert answers("parser", [in_pieces(1, pieces)]) == [line]


# Pieces. The bytes that come before, the pieces, whether more may come, and what they give.
A, UP_ARROW = "key U+0061 NONE", "key UpArrow NONE"
BRACKET, ONE = "key U+005B ALT", "key U+0031 NONE"
PIECES = {
    "no pieces": (b"", [], 1, "0 wait"),
    "flush by no pieces": (b"\033", [], 0, "0 key Escape NONE, 0 wait"),
    "no pieces with more to come": (b"\033", [], 1, "1 wait"),
    "empty pieces": (b"", [b"", b"\033", b"", b"[", b"A"], 1, "4 key UpArrow NONE, 0 wait"),
    "mouse in pieces": (b"", [b"\033[", b"<0;1;2M"], 0, "1 mouse 1 2 LEFT NONE, 0 wait"),
    "ALT in pieces": (b"", [b"\033", b"["], 0, "1 key U+005B ALT, 0 wait"),
    "numbers": (b"", [b"a", b"\033", b"[Ab"], 0, f"0 {A}, 2 {UP_ARROW}, 2 key U+0062 NONE, 0 wait"),
    "paste in pieces": (b"", [b"\033[2", b"00~ab\033[", b"201~"], 1, "2 paste 2:6162, 0 wait"),
    "only the last piece is flushed": (
        *[b"", [b"\033", b"x\033", b"[1"], 0],
        f"1 key U+0078 ALT, 2 {BRACKET}, 2 {ONE}, 0 wait",
    ),
    "empty last piece": (b"", [b"\033[1", b""], 0, f"1 {BRACKET}, 1 {ONE}, 0 wait"),
    "held before": (b"\033[<0;1", [b";2", b"M"], 1, "1 mouse 1 2 LEFT NONE, 0 wait"),
    "an open paste": (b"\033[200~a", [b"b", b"c"], 0, "9 wait"),
}


@pytest.mark.parametrize("name", PIECES)
def test_pieces(name):
    before, pieces, more, wanted = PIECES[name]
    first = command("callback", 1, before)
    check("parser", [(first, f"{len(before)} wait"), (in_pieces(more, pieces), wanted)])


# The parser.
def test_loop_over_all_events():
    text, lines = b"a\033[A\033[200~b\033[201~\033", f"{A}, {UP_ARROW}, paste 1:62, 1 wait"
    asked = [(command("loop", 1), "0 wait"), (command("loop", 1, text), lines)]
    check("parser", [*asked, (command("loop", 0), "key Escape NONE, 0 wait")])


def test_has_item():
    asked = [(command("feed", 0, b"\033"), "")]
    check("parser", asked + [("has_item 1", "false"), ("has_item 0", "true")])


# Bytes, whether more may come, and what a lookup finds.
LOOKUPS = [
    (b"\033[Aq", 0, "Exact 3 UpArrow NONE"),
    (b"\033[1;5A", 0, "Exact 6 UpArrow CTRL"),
    (b"\033[1;5", 0, "Exact 2 U+005B ALT"),
    (b"\033[200~", 0, "Exact 6 InternalPasteStart NONE"),
    (b"\033q", 0, "Exact 1 Escape NONE"),
    (b"\033", 1, "Ambiguous 1 Escape NONE"),
    (b"\033q", 1, "Exact 1 Escape NONE"),
    (b"q", 1, "None"),
    (b"\xc3", 1, "None"),
    (b"", 1, "NeedData"),
]


def test_lookups_in_the_table():
    asked = [(command("lookup", more, given), wanted) for given, more, wanted in LOOKUPS]
    check("parser", asked + [("list 1", "0 wait")])


def test_each_row_is_found_whole():
    rows = answers("parser", [command("row", place) for place in [*range(4000), 2**64 - 1]])
    count = rows.index("None")
    assert count > 2000 and set(rows[count:]) == {"None"}
    asked = []
    for row in rows[:count]:
        given, key = row.split(" ", 1)
        asked.append((f"lookup 0 {given}", f"Exact {len(given) // 2} {key}"))
    check("parser", asked)


CLOSED = [b"\033[200~ab\033[201~", b"\033[200~\033[201~q", b"\033[200", b"q\033[200~", b""]
PASTES = dict.fromkeys([b"\033[200~", b"\033[200~ab\033[201"], "true")


@pytest.mark.parametrize("text, is_open", (PASTES | dict.fromkeys(CLOSED, "false")).items())
def test_pastes_without_an_end(text, is_open):
    asked = [(command("feed", 0, text), ""), ("awaits_paste_end", is_open)]
    check("parser", [*asked, ("reset", str(len(text))), ("awaits_paste_end", "false")])


def test_a_paste_of_300_kilobytes_awaits_its_end():
    body = b"x" * 300_000
    asked = []
    for part, is_open in (PASTE_START, "true"), (body, "true"), (PASTE_END, "false"):
        asked += [(command("feed", 0, part), ""), ("awaits_paste_end", is_open)]
    check("parser", [*asked, ("event 1", f"{pasted(body)}, 0 wait")])


# Limits in time.
END = 1_000_000


class Asked:
    """A program, asked one command after another."""

    def __init__(self, *words):
        pipes = {"stdin": subprocess.PIPE, "stdout": subprocess.PIPE, "text": True}
        self.process = subprocess.Popen(words, **pipes)

    def __enter__(self):
        return self

    def __exit__(self, *_):
        self.process.communicate(timeout=SECONDS)
        assert self.process.returncode == 0

    def ask(self, *words):
        self.process.stdin.write(command(*words) + "\n")
        self.process.stdin.flush()
        return self.process.stdout.readline()[:-1]


class Program(Asked):
    """The program in a mode."""

    def __init__(self, mode):
        super().__init__(TEST_CALLS, mode)

    def events(self, *words):
        """The events that a command gives, and how many bytes stay buffered."""
        *events, waiting = re.split(r", (?=[A-Z]|key |mouse |paste |\d+ wait$)", self.ask(*words))
        return events, waiting

    def read(self, call, more, given):
        """The events of bytes, by the calls of this name."""
        if call != "next_event":
            return self.events(call, more, given)
        self.ask("feed", 0, given)
        events = []
        while (next_event := self.events(call, more))[0]:
            events += next_event[0]
        return events, next_event[1]

    def read_at(self, now, given):
        events, waiting = self.events("list", 1, given)
        self.ask("fed-and-taken" if events else "fed", now)
        return events, waiting

    def flush(self, call, now):
        """What is due, by this call."""
        if call == "expire":
            return self.events("expire", now)
        events, waiting = [], self.ask("list", 1)
        if self.ask("nothing", now) == "true":
            while (next_event := self.events("next_flushed"))[0]:
                events += next_event[0]
            waiting = next_event[1]
            self.ask("taken", now)
        return events, waiting

    def due(self, now):
        """When what is buffered is due, if ever."""
        left = self.ask("timeout", now)
        return None if left == "None" else now + int(left)

    def over_time(self, call, reads):
        """The events of bytes, each with its time. What is due is flushed exactly then, after a try
        a millisecond earlier."""
        events, now = [], 0
        for time, given in [*reads, (END, None)]:
            due = self.due(now)
            tries = [max(now, due - 1), due] if due is not None and due < time else []
            for now in tries:
                events += [f"{now} {it}" for it in self.flush(call, now)[0]]
            if given is not None:
                now = time
                events += [f"{now} {it}" for it in self.read_at(now, given)[0]]
        return ", ".join(events + [self.ask("list", 1)])


# What comes, each with its time, and the events.
BIG_A = "key U+0041 NONE"
TIMES = [
    ([(0, b"\033"), (40, b"\033")], "90 key Escape ALT, 0 wait"),
    (
        [(0, b"\033"), (50, b"[A"), (99, b"\033"), (150, b"[A")],
        f"50 {UP_ARROW}, 149 key Escape NONE, 150 key U+005B NONE, 150 {BIG_A}, 0 wait",
    ),
    (
        [(0, b"\033["), (900, b"1"), (1300, b"A")],
        f"100 {BRACKET}, 900 {ONE}, 1300 {BIG_A}, 0 wait",
    ),
    ([(0, b"\033"), (40, b"["), (90, b"1;5A")], "90 key UpArrow CTRL, 0 wait"),
    (
        [(0, b"\033[1"), (900, b";5"), (1300, b"A")],
        f"1000 {BRACKET}, 1000 {ONE}, 1000 key U+003B NONE, 1000 key U+0035 NONE, 1300 {BIG_A}, "
        "0 wait",
    ),
    ([(0, b"\xe2"), (9000, b"\x82\xac")], "9000 key U+20AC NONE, 0 wait"),
    (
        [(0, b"\033[200~a"), (90000, b"\033[201~\033")],
        "90000 paste 1:61, 90050 key Escape NONE, 0 wait",
    ),
]


@pytest.mark.parametrize("call", FLUSHES)
def test_limits_in_time(call):
    for reads, wanted in TIMES:
        with Program("parser") as program:
            assert program.over_time(call, reads) == wanted


@pytest.mark.parametrize("call", FLUSHES)
def test_a_stalled_paste_of_1_megabyte(call):
    body = b"0123456789abcdef" * 65536
    waiting = f"{len(PASTE_START + body)} wait"
    with Program("parser") as program:
        program.ask("end-pastes")
        assert program.read_at(5, PASTE_START + body) == ([], waiting)
        assert program.ask("limit") == "10000 Last"
        assert program.flush(call, 10004) == ([], waiting)
        assert program.flush(call, 10005) == ([pasted(body)], "0 wait")
        assert program.due(END) is None


# The extended parser.
def key_report(key, modifiers=0, kind="Press", shifted="None", base="None", text=""):
    return (
        f"KeyReport {{ key: Named({key}), modifiers: {modifiers}, kind: {kind}, "
        f'shifted: {shifted}, base: {base}, text: KeyText {{ inner: "{text}" }} }}'
    )


def sequence_bytes(text):
    return f"SequenceBytes {{ inner: {list(text)} }}"


# The longest string that has one event, of 65536 bytes.
LONG_STRING = b"\033]52;" + b"x" * 65529 + b"\033\\"
# A key report with as long a text as fits in 256 bytes.
LONG_REPORT = b"\033[97;;" + b"65:" * 82 + b"229u"
LONG_KEY = key_report("Char('a')", text="A" * 82 + "å")

# Texts, and their events.
TEXTS = {
    b"a\033[I\033[200~p\033[201~\033[97;1:3u\033]0;t\a": [
        f"""Key({key_report("Char('a')")})""",
        "FocusGained",
        "paste 1:70",
        f"""Key({key_report("Char('a')", kind="Release")})""",
        f"Osc({sequence_bytes(b'0;t')})",
    ],
    PASTE_START + b"x" * 100000 + PASTE_END: [pasted(b"x" * 100000)],
    LONG_STRING: [f"Osc({sequence_bytes(LONG_STRING[2:-2])})"],
    b"\033_Gi=1;OK\033[I": [
        f"StringCut {{ kind: Apc, bytes: {sequence_bytes(b'Gi=1;OK')} }}",
        "FocusGained",
    ],
    LONG_REPORT: [f"Key({LONG_KEY})"],
    b"\033[I\033]4;a\a" * 35000: ["FocusGained", f"Osc({sequence_bytes(b'4;a')})"] * 35000,
}


@pytest.mark.parametrize("call", EXTENDED_CALLS)
def test_extended_texts(call):
    with Program("extended") as program:
        for text, events in TEXTS.items():
            assert program.read(call, 1, text) == (events, "0 wait")


# What the dialects read of the same bytes.
DIALECTS = {
    "extended": [("Char('\\u{8}')", 0), ("Char('\\n')", 0), ("Backspace", 0), ("UpArrow", 8)],
    "termwiz": [("Backspace", 0), ("Enter", 0), ("Backspace", 0), ("UpArrow", 2)],
}


@pytest.mark.parametrize("call", EXTENDED_CALLS)
@pytest.mark.parametrize("dialect, keys", DIALECTS.items())
def test_dialects(dialect, keys, call):
    with Program(dialect) as program:
        events = [f"Key({key_report(*key)})" for key in keys]
        assert program.read(call, 1, b"\b\n\x7f\033[1;9A") == (events, "0 wait")


# Texts, and the port's event of the event of each.
PORT_EVENTS = {
    "a typed key": (b"a", "key U+0061 NONE"),
    "a row": (b"\033[1;9A", "key UpArrow SUPER"),
    "a key with all modifiers of the port": (b"\033[97;16u", "key U+0061 SHIFT+ALT+CTRL+SUPER"),
    "Tab": (b"\033[1;6Z", "key Tab SHIFT+CTRL"),
    "byte 8": (b"\b", "key U+0008 NONE"),
    "byte 127": (b"\x7f", "key Backspace NONE"),
    "byte 10": (b"\n", "key U+000A NONE"),
    "another modifier": (b"\033[97;17u", "None"),
    "a lock": (b"\033[97;65u", "None"),
    "a repeat": (b"\033[97;1:2u", "None"),
    "a release": (b"\033[97;1:3u", "None"),
    "what Shift makes": (b"\033[97:65;2u", "None"),
    "the base": (b"\033[97::99u", "None"),
    "a text": (b"\033[97;;97u", "None"),
    "text without a key": (b"\033[0;;229u", "None"),
    "a key without a name": (b"\033[57428u", "None"),
    "a press of a button": (b"\033[<4;3;4M", "mouse 3 4 LEFT SHIFT"),
    "a release of a button": (b"\033[<0;3;4m", "mouse 3 4 NONE NONE"),
    "a wheel": (b"\033[<64;3;4M", "mouse 3 4 VERT_WHEEL+WHEEL_POSITIVE NONE"),
    "urxvt's release": (b"\033[35;3;4M", "mouse 3 4 NONE NONE"),
    "a side button": (b"\033[<128;3;4M", "None"),
    "a paste": (PASTE_START + b"ab" + PASTE_END, "paste 2:6162"),
    "the focus": (b"\033[I", "None"),
    "a position": (b"\033[24;80R", "None"),
    "a control sequence": (b"\033[?62c", "None"),
    "a string": (b"\033]0;a\a", "None"),
}


@pytest.mark.parametrize("text, of_port", PORT_EVENTS.values(), ids=PORT_EVENTS)
def test_events_of_the_port(text, of_port):
    asked = [(command("feed", 0, text), ""), ("next_port 1", of_port), ("next_port 1", "")]
    check("extended", asked)


@pytest.mark.parametrize("call", EXTENDED_CALLS)
def test_a_string_of_128_kilobytes_comes_in_parts(call):
    """Each part has the opening."""
    with Program("extended") as program:
        events, waiting = program.read(call, 1, b"\033]52;" + b"x" * 131070 + b"\a")
    assert [re.split(r"\W", it)[0] for it in events] == ["StringPart", "StringPart", "Osc"]
    assert all(f"[{', '.join(str(it) for it in b'52;')}, 120" in it for it in events)
    assert sum(it.count("120") for it in events) == 131070
    assert waiting == "0 wait"


# Whole sequences that are keys, and their reports.
SEQUENCES = [
    (b"\033[1;9A", key_report("UpArrow", modifiers=8)),
    (
        b"\033[97:65:99;2:3;65u",
        key_report("Char('a')", 1, "Release", "Some('A')", "Some('c')", "A"),
    ),
    (LONG_REPORT, LONG_KEY),
]


@pytest.mark.parametrize("text, report", SEQUENCES)
def test_sequences_that_are_keys(text, report):
    """The event, its key, and a clone of that."""
    for asks in (0, 1):
        assert answer_of("extended", "sequence", asks, text) == "true, " + f"Key({report}), " * 3


def test_a_sequence_that_may_be_a_position():
    text, report = b"\033[1;5R", key_report("Function(3)", modifiers=4)
    assert answer_of("extended", "sequence", 0, text) == "true, " + f"Key({report}), " * 3
    position = "true, CursorPosition { row: 1, column: 5 }, "
    assert answer_of("extended", "sequence", 1, text) == position


@pytest.mark.parametrize("text", [b"\033[O", b"\033[M0\x60\x70", b"\033[9D", LONG_STRING])
def test_sequences_that_are_neither_keys_nor_positions(text):
    for asks in (0, 1):
        assert answer_of("extended", "sequence", asks, text).startswith("false, ")


# The key map.
def found(kind, length, value):
    return f"{kind} {length} {value}"


def insert(key, value):
    return command("insert", value, key), ""


def lookups(rows):
    return [(command("lookup", more, text), wanted) for text, more, wanted in rows]


# Three keys of which each is a prefix of the next, and one that is apart.
NESTED = [(b"boa", 1), (b"boo", 2), (b"boom", 3), (b"boom!!", 4)]

# Entries whose keys are all different, and texts that are looked up among these, whether more of
# them may follow, and the answers. termwiz's own cases come first. rust/plain/tests/keymap.rs
# has them all, for maps that remember nothing.
MAPS = [
    ([], [(b"boo", 1, "None"), (b"boo", 0, "None")]),
    (
        [(b"boa", 1), (b"boo", 2), (b"boom", 3)],
        [(b"b", 1, "NeedData"), (b"bo", 1, "NeedData"), (b"boa", 1, "Exact 3 1")]
        + [(b"boo", 1, "Ambiguous 3 2"), (b"boom", 1, "Exact 4 3"), (b"boom!", 1, "Exact 4 3")]
        + [(b"bz", 1, "None")],
    ),
    (
        NESTED,
        [(b"boom!", 0, "Exact 4 3"), (b"boom!", 1, "Ambiguous 4 3"), (b"boom!x", 1, "Exact 4 3")]
        + [(b"boo", 0, "Exact 3 2"), (b"bo", 0, "NeedData"), (b"", 1, "NeedData")],
    ),
    (
        [(b"\x03", 1), (b"\x27", 2), (b"\x03XYZ", 3)],
        [(b"\x03", 1, "Ambiguous 1 1"), (b"\x03foo", 1, "Exact 1 1")]
        + [(b"\x03X", 1, "Ambiguous 1 1")],
    ),
    ([], [(b"", 1, "None")]),
    ([(b"", 1)], [(b"x", 1, "Exact 0 1")]),
    (
        [(b"", 1), (b"ab", 2)],
        [(b"x", 1, "Exact 0 1"), (b"", 1, "Ambiguous 0 1"), (b"", 0, "Exact 0 1")]
        + [(b"a", 1, "Ambiguous 0 1"), (b"ab", 1, "Exact 2 2")],
    ),
    (
        [(LONG[:300], 1), (LONG[:100], 2)],
        [(LONG[:99], 1, "NeedData"), (LONG[:100], 1, "Ambiguous 100 2")]
        + [(LONG[:299], 1, "Ambiguous 100 2"), (LONG[:300], 1, "Exact 300 1")]
        + [(LONG, 1, "Exact 300 1")],
    ),
]


@pytest.mark.parametrize("entries, rows", MAPS)
@pytest.mark.parametrize("order", [1, -1])
def test_lookups(entries, rows, order):
    """In a map whose keys are inserted in order or in reverse order, and in its clone, before and
    after it remembers its ranges."""
    asked = [insert(*it) for it in entries[::order]]
    answered = [("len", str(len(entries))), *lookups(rows)]
    for _ in range(2):
        asked += [*answered, ("clone", ""), ("exchange", ""), *answered, ("exchange", "")]
        asked += [("remember", "")]
    check("map", asked)


def entry(key, value):
    return f"{key.hex()} {value}"


def test_60000_keys():
    """256 keys begin with each byte. Each of the first 6000 is far from the one before."""

    def numbers_below(limit):
        asked = []
        for number in range(limit):
            key = number.to_bytes(2, "big")
            asked += lookups([(key, 1, found("Exact", 2, number))])
            asked += [(f"get_index {number}", entry(key, number))]
        asked += lookups([(limit.to_bytes(2, "big"), 1, "None")])
        return [*asked, (f"get_index {limit}", "None")]

    far_apart = [it for low in range(3000) for it in (low, 5999 - low)]
    asked = [("reserve 6000", "")]
    asked += [insert(it.to_bytes(2, "big"), it) for it in far_apart]
    asked += [("reserve 1", ""), *numbers_below(6000)]
    asked += [insert(it.to_bytes(2, "big"), it) for it in range(6000, 60_000)]
    asked += [("remember", ""), *numbers_below(60_000), ("extensions 0 03", "768..1024")]
    asked += [("clone", ""), ("exchange", ""), *numbers_below(60_000), ("exchange", "")]
    # a later value, where ranges are remembered
    asked += [insert((700).to_bytes(2, "big"), 1)]
    later = [(700, 1), (701, 701)]
    asked += lookups([(it.to_bytes(2, "big"), 1, found("Exact", 2, n)) for it, n in later])
    check("map", asked)


def test_places_and_extensions():
    asked = [("get_index 0", "None"), ("extensions 0 ", "0..0")]
    asked += [insert(it, 1) for it in [b"b", b"ab", b"", b"a", b"abc", b"\xff"]]
    in_order = [b"", b"a", b"ab", b"abc", b"b", b"\xff"]
    asked += [(f"get_index {place}", entry(key, 1)) for place, key in enumerate(in_order)]
    asked += [("get_index 6", "None")]
    for text, places in (b"", "1..6"), (b"a", "2..4"), (b"ab", "3..4"):
        asked += [(command("extensions", 0, text), places)]
    check("map", asked)
    without = [command("extensions", 0, text) for text in [b"abc", b"c", b"\xff"]]
    for places in answers("map", [it for it, _ in asked] + without)[-3:]:
        first, last = places.split("..")
        assert first == last


def test_a_clone_keeps_its_values():
    asked = [insert(b"a", 1), insert(b"ab", 2), ("clone", ""), insert(b"a", 3)]
    asked += [*lookups([(b"a", 0, found("Exact", 1, 3))]), ("exchange", "")]
    asked += lookups([(b"a", 0, found("Exact", 1, 1)), (b"ab", 0, found("Exact", 2, 2))])
    check("map", asked)


def test_removed_keys():
    asked = [*(insert(*it) for it in NESTED), (command("remove", 0, b"boom"), "3")]
    asked += [(command("remove", 0, it), "None") for it in [b"boom", b"bo", b""]]
    asked += [("len", "3"), *lookups([(b"boom!", 1, found("Ambiguous", 3, 2))])]
    asked += [("get_index 2", entry(b"boom!!", 4)), ("get_index 3", "None")]
    check("map", asked)


# Many keys, which are bound and unbound in several orders: the digits of numbers.
MANY_KEYS = 2500
ORDERS = ["rising", "falling", "drawn"]


def numbers_in(draws, order):
    numbers = list(range(0, 3 * MANY_KEYS, 3))
    if order == "drawn":
        draws.shuffle(numbers)
    return numbers[::-1] if order == "falling" else numbers


def digits(number):
    return f"{number:04}".encode()


def questions(draws, entries):
    """What a map with these entries answers about some places and texts."""
    keys = sorted(entries)
    yield "len", str(len(keys))
    for place in draws.sample(range(len(keys)), min(3, len(keys))):
        yield f"get_index {place}", entry(keys[place], entries[keys[place]])
    for number in draws.sample(range(3 * MANY_KEYS), 5):
        text = digits(number)[: draws.randrange(2, 5)]
        yield command("lookup", 1, text), found_among(entries, text, 1)
        longer = [place for place, key in enumerate(keys) if key.startswith(text) and key != text]
        if longer:
            yield command("extensions", 0, text), f"{longer[0]}..{longer[-1] + 1}"


@pytest.mark.parametrize("removed", ORDERS)
@pytest.mark.parametrize("inserted", ORDERS)
def test_many_keys(inserted, removed):
    """Far more keys than stand in one block of rows. Ranges are remembered half way, which makes
    one block of all."""
    draws, entries, asked = random.Random(1), {}, []
    for count, number in enumerate(numbers_in(draws, inserted)):
        entries[digits(number)] = number
        asked.append(insert(digits(number), number))
        if count % 250 == 0:
            asked += questions(draws, entries)
        if count == MANY_KEYS // 2:
            asked += [("remember", ""), *questions(draws, entries)]
    for count, number in enumerate(numbers_in(draws, removed)):
        asked.append((command("remove", 0, digits(number)), str(entries.pop(digits(number)))))
        if count % 250 == 0:
            asked += [(command("remove", 0, digits(number)), "None"), *questions(draws, entries)]
    check("map", [*asked, ("len", "0"), *lookups([(b"0000", 1, "None")])])


# Drawn keys and texts, looked up in a map and a plain one.
def five(draws):
    return b"\x00\xff" + bytes(draws.choices(b"\x00\x01\xfe\xff", k=3))


def found_among(entries, text, more):
    """What a lookup among these entries finds."""
    it = plain_lookup(entries, text, more)
    kind = type(it).__name__.replace("Nothing", "None")
    return found(kind, it.len, it.value) if hasattr(it, "len") else kind


def drawn_lookups(draws, kind, entries):
    """Ten texts, and what is found of each."""
    for _ in range(10):
        text, more = kind(draws), draws.randrange(2)
        yield command("lookup", more, text), found_among(entries, text, more)


def drawn_map(draws, kind, when):
    """The empty key and sixty others, with lookups after each, and at last in a clone too."""
    entries = {b"": 60}
    yield "new", ""
    if when == "before":
        yield "remember", ""
    yield insert(b"", 60)
    for value in range(60):
        key = kind(draws)
        entries[key] = value
        yield insert(key, value)
        if when == "between" and value % 7 < 4:
            yield "remember", ""
        yield from drawn_lookups(draws, kind, entries)
    if when == "after":
        yield "remember", ""
    yield from drawn_lookups(draws, kind, entries)
    yield from [("clone", ""), ("exchange", "")]
    yield from drawn_lookups(draws, kind, entries)


@pytest.mark.parametrize("when", ["never", "before", "between", "after"])
def test_drawn_keys(when):
    """A map that remembers its ranges then. rust/plain/tests/keymap.rs draws such texts for maps
    that remember nothing."""
    draws = random.Random(1)
    kinds = [letters, nested, five] * 8 + [long]
    asked = [it for kind in kinds for it in drawn_map(draws, kind, when)]
    assert {wanted.split(" ")[0] for _, wanted in asked} == {"", "Exact", "Ambiguous"}
    check("map", asked)


def test_decimal_keys_in_reverse_order():
    """Numbers are looked up without their last byte, and with a byte after it. Ranges are
    remembered half way, and once all keys are there."""
    entries = {f"#{299 - value}~".encode(): value for value in range(300)}
    texts = [f"#{number}{end}".encode() for number in range(310) for end in ("~#", "")]
    rows = [(it, more, found_among(entries, it, more)) for it in texts for more in (1, 0)]
    asked = [insert(*it) for it in entries.items()]
    asked.insert(151, ("remember", ""))
    asked += [*lookups(rows), ("remember", ""), *lookups(rows)]
    check("map", [*asked, ("clone", ""), ("exchange", ""), *lookups(rows)])


# The buffer.
def holds(text):
    yield "as_slice", text.hex()
    yield "len", str(len(text))
    yield "is_empty", "false" if text else "true"


def extend(text):
    return command("extend_with", 0, text), ""


def find(offset, needle, wanted):
    return command("find_subsequence", offset, needle), wanted


def advance(count):
    return f"advance {count}", ""


def test_appends_and_drops():
    asked = [*holds(b"")]
    steps = [(b"", 0, b""), (b"abc", 0, b"abc"), (b"de", 0, b"abcde"), (b"", 2, b"cde")]
    for text, count, left in [*steps, (b"", 0, b"cde"), (b"", 3, b"")]:
        asked += [extend(text), advance(count), *holds(left)]
    check("buffer", asked)


# Texts, and where from an offset on something is found in each.
SEARCHES = {
    b"abcabc": [(0, b"abc", "0"), (1, b"abc", "3"), (3, b"abc", "3"), (4, b"abc", "None")]
    + [(0, b"c", "2"), (6, b"c", "None"), (0, b"abcabcd", "None")],
    b"aaab": [(0, b"aab", "1")],
    b"\x00\xff\x00": [(1, b"\x00", "2")],
    b"": [(0, b"a", "None"), (0, b"", "0")],
    b"abc": [(0, b"", "0"), (2, b"", "2"), (3, b"", "3")],
}


@pytest.mark.parametrize(
    "text, search", [(text, it) for text, searches in SEARCHES.items() for it in searches]
)
def test_searches(text, search):
    """Also where other bytes were dropped before these."""
    asked = find(*search)
    check("buffer", [extend(text), asked, advance(len(text)), extend(text), asked])


def test_100_kilobytes():
    first, second = b"a" * 100_000, b"b" * 5000
    asked = [extend(first), *holds(first), extend(second), *holds(first + second)]
    asked += [find(0, b"ab", "99999"), find(100_000, b"ab", "None")]
    check("buffer", [*asked, advance(100_000), *holds(second)])


def test_bytes_that_are_left_make_room():
    """They move to the front, where all 100 have room again."""
    first = extend(b"a" * 100)
    (_, capacity) = answers("buffer", [first[0], "capacity"])
    asked = [first, advance(90), *holds(b"a" * 10), extend(b"b" * 90), ("capacity", capacity)]
    asked += [*holds(b"a" * 10 + b"b" * 90), advance(100), *holds(b"")]
    check("buffer", [*asked, ("capacity", capacity)])


def test_1000_reads_take_no_more_memory_than_two():
    commands, length = [], 0
    for _ in range(1000):
        length += 64
        commands += [command("extend_with", 0, b"a" * 64), f"advance {length - length % 5}"]
        commands += ["capacity"]
        length %= 5
    assert len(set(answers("buffer", commands)[5::3])) == 1


def test_room_for_twice_the_longest():
    """The length of each read, and how many bytes are left after it."""
    reads = [(100, 10), (90, 0), (64, 64), (64, 7), (4096, 4096), (1, 4097), (64, 1), (65536, 3)]
    commands, most, length, longest = [], [], 0, 0
    for read, left in reads * 20:
        length += read
        longest = max(longest, length)
        commands += [command("extend_with", 0, b"a" * read), f"advance {max(0, length - left)}"]
        commands += ["capacity"]
        length = min(length, left)
        most.append(longest)
    capacities = answers("buffer", commands)[2::3]
    assert all(int(capacity) // 2 <= it for capacity, it in zip(capacities, most))


# Values.
def test_events_and_their_clones_equal_themselves_alone():
    rows = answer_of("values", "equality").split()
    wanted = ["." * place + "=" + "." * (24 - place) for place in range(25)]
    assert rows[::2] == rows[1::2] == wanted


PASTED = b"two\nlines".hex()
# F1, Tab and !, each with a bit that no flag names: it counts as held, and is kept where SHIFT or
# ALT is dropped. ! at level 2 of modifyOtherKeys without and with that bit, Up in application
# cursor mode, and the longest text.
SENT = ["\033[1;1P", "\033\t", "!", "!", "\033[27;1;33~", "\033[1;2A", "\033[27;8;1114111~"]
OTHERS = " ".join(map(str, range(1, 256)))

# What these commands answer.
VALUES = {
    # Events that no bytes mean.
    "lines": "key U+000A CTRL, key U+10FFFF SUPER, key F0 LEADER, "
    "key Numpad0 LEFT_ALT+RIGHT_SHIFT, key InternalPasteEnd NONE, "
    "pixelmouse 65535 0 VERT_WHEEL+WHEEL_POSITIVE ALT, resized 80 24, wake, 0 wait",
    # A pasted text, as it is seen, and as it is taken out.
    "pasted": f"{PASTED} {PASTED}",
    # Of errors; and how sequences begin.
    "messages": "input not taken: out of memory / input taken: out of memory / "
    "out of memory after 3 pieces / unhandled fkey number 25 / out of memory / 1b5b / 1b4f",
    "is_modifier": "Hyper Super Meta Shift LeftShift RightShift Control LeftControl RightControl "
    "Alt LeftAlt RightAlt LeftWindows RightWindows U+0061 isn't CapsLock isn't NumLock isn't "
    "Menu isn't LeftMenu isn't ",
    # Shift makes capitals of small letters alone: of a, and of z with Ctrl too, and not of a
    # without Shift, 1, é and Tab.
    "shifted": "U+0041 U+005A U+0061 U+0031 U+00E9 Tab ",
    # Four keys that are up, and three that have no text, are behind the sent ones.
    "encode": " / ".join([*(it.encode().hex() for it in SENT), *[""] * 4, "F0", "F25", "F255", ""]),
    # Of a map of keys and of an answer.
    "clones": "Exact 1 Enter CTRL true",
    # A clone of 256 chords keeps the one that is unbound then, and all others.
    "bindings": f"0 255: None {OTHERS} 256: 0 {OTHERS} ",
    "print_press": "alt+left",
}


@pytest.mark.parametrize("name", VALUES)
def test_values(name):
    assert answer_of("values", name) == VALUES[name]


# Control characters, each with the characters of which Ctrl makes it; of others it makes none.
TYPED = {
    0x00: "@` 2",
    0x01: "aA",
    0x08: "hH",
    0x09: "iI",
    0x0D: "mM",
    0x1A: "zZ",
    0x1B: "[3{",
    0x1C: "\\4|",
    0x1D: "]5}",
    0x1E: "^6~",
    0x1F: "_7/",
    0x7F: "8?",
    None: "019!\"#$%&'()*+,-.:;<=>\x00\x1b\x7f\x80é\U0010ffff",
}


def test_ctrl_with_a_character():
    rows = [(c, control) for control, typed in TYPED.items() for c in typed]
    check("values", [(f"ctrl_mapping {ord(c)}", str(control)) for c, control in rows])


def test_modifiers_as_numbers_of_xterm():
    """One less than what follows the ; in xterm's key sequences."""
    wanted = {0: NONE, 1: SHIFT, 2: ALT, 3: SHIFT | ALT, 4: CTRL, 5: SHIFT | CTRL, 6: ALT | CTRL}
    wanted[7] = SHIFT | ALT | CTRL
    asked = [(f"encode_xterm {bits}", str(number)) for number, bits in wanted.items()]
    check("values", [*asked, (f"encode_xterm {SUPER | 1 << 5}", "0")])


def test_modifiers_without_left_and_right():
    """LEFT_ALT and the five beside it are bits 5 and 6 and 8 to 11."""
    kept = SHIFT | LEADER
    positional = [0, *(1 << bit for bit in (5, 6, 8, 9, 10, 11))]
    check("values", [(f"remove_positional_mods {kept | it}", str(kept)) for it in positional])


# Codes without modifiers as xterm sends them, with the buttons of their reports that end with M and
# with m.
BUTTONS = {
    0: ("Button1Press", "Button1Release"),
    1: ("Button2Press", "Button2Release"),
    2: ("Button3Press", "Button3Release"),
    3: ("None", "None"),
    32: ("Button1Drag", "Button1Release"),
    33: ("Button2Drag", "Button2Release"),
    34: ("Button3Drag", "Button3Release"),
    35: ("None", "None"),
    64: ("Button4Press", "Button4Release"),
    65: ("Button5Press", "Button5Release"),
    66: ("Button6Press", "Button6Release"),
    67: ("Button7Press", "Button7Release"),
}

# Presses of button 1 with Shift, Alt and Ctrl, and the largest code.
HELD = {
    4: "Button1Press SHIFT",
    8: "Button1Press ALT",
    16: "Button1Press CTRL",
    12: "Button1Press SHIFT+ALT",
    20: "Button1Press SHIFT+CTRL",
    24: "Button1Press ALT+CTRL",
    28: "Button1Press SHIFT+ALT+CTRL",
    95: "Button7Press SHIFT+ALT+CTRL",
}

# Codes of no button, among them those of xterm's buttons 8 to 11, and other final bytes.
NO_REPORTS = [
    *[(96, b"M"), (128, b"M"), (131, b"m"), (300, b"M"), (65535, b"m")],
    *[(0, b"A"), (0, b"\0"), (95, b"N")],
]


def reports(held):
    """A report at four columns and rows."""
    places = ["42 12", "0 1", "1 1", "65535 65535"]
    return "".join(f"{place} {held} / " for place in places)


def test_mouse_reports():
    asked = [(command("sgr_mouse", code, last), "None / " * 4) for code, last in NO_REPORTS]
    for code, buttons in BUTTONS.items():
        for last, button in zip([b"M", b"m"], buttons):
            asked += [(command("sgr_mouse", code, last), reports(f"{button} NONE"))]
    for code, held in HELD.items():
        asked += [(command("sgr_mouse", code, b"M"), reports(held))]
    check("values", asked)
