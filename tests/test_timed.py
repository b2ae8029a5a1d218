"""The parser with a clock. The program of crates/test_calls makes the calls of a run, and the slow
parser of rust/plain/tests/extended/plain/timed.rs says in the same words what each has to answer.

A call is a name, a number and bytes. Times are in milliseconds."""
import functools
import random
import re
import subprocess

import pytest
from cases import cases_of, reading_of, text_of
from conftest import TOP
from hedrugal import EraseByte
from test_rattle import TEST_CALLS, Asked, answers, command, pasted

LONGEST = 2**64 - 1
START, END = b"\x1b[200~", b"\x1b[201~"
# The limits of a policy, and one that is none, as a command has it.
LIMITS = ["escape", "alt_key", "sequence", "string", "character", "paste"]
NO_LIMIT = 2**32
BUSY, REFUSED = "busy", "refused"
# What waits, where not all is told: any answer is right.
UNTOLD = "?"


@pytest.fixture(scope="module")
def model(example):
    with Asked(*example("rust", "plain_answers")) as it:
        yield it


@pytest.fixture(scope="module")
def model_in_words(example):
    """The model, which tells events in the words of tests/cases."""
    with Asked(*example("rust", "plain_answers"), "words") as it:
        yield it


def check_runs(runs):
    """Makes the calls of runs, each with its answer by the model, and compares these."""
    calls = []
    for each in runs:
        calls += [("new", 0), *(call for call, _ in each)]
    given = iter(answers("timed", [command(*it) for it in calls]))
    for each in runs:
        next(given)
        for place, (call, wanted) in enumerate(each):
            found = next(given)
            assert found == wanted, "\n".join(
                f"{command(*it)}: {to}" for it, to in each[: place + 1]
            )


# The runs of tests/cases.
ANSWERED = ["timeout", "skip", "reset", "reading"]


def reading_calls(word):
    reading = reading_of(word)
    yield from (("dialect", reading.dialect.value), ("x10_mouse", int(reading.x10_mouse)))
    yield from (("questions", reading.questions), ("newline", reading.newline.value))
    yield ("erase", 8 if reading.erase is EraseByte.BACKSPACE else 127)


def limit_calls(words):
    for name, number in (it.split("=") for it in words):
        yield (name, NO_LIMIT if number == "-1" else int(number))


def step_calls(step):
    """The calls of a step. If it tells events, `next` is called for each, and once more."""
    asked, colon, told = step.partition(": ")
    name, *words = asked.split(" ")
    if name in ("policy", "set"):
        return [*(limit_calls(words) if name == "policy" else reading_calls(*words))]
    if name == "expect":
        return [(name,)] * int(*words)
    if name == "waiting":
        return [("waiting",), ("waiting_len",)]
    calls = [(name, *map(int, words[:1]), *map(text_of, words[1:]))] if name != "next" else []
    if colon and told != "busy" and name not in ANSWERED:
        calls += [("next",)] * (1 + len([it for it in told.split(", ") if it != "nothing"]))
    return calls


def is_shown(reading, text):
    """Whether this is what Debug prints of a reading."""
    fields = (str(getattr(it, "name", it)).replace("_", "") for it in vars(reading).values())
    return re.findall(r": (\w+)", text.lower()) == [*map(str.lower, fields)]


def step_told(step, answers):
    """What a step tells, as the runs write it, by the answers in words."""
    name, told = re.match(r"(\w+)(?:.*: (.*))?", step).groups()
    if name == "reading":
        return told if is_shown(reading_of(told), *answers) else answers[0]
    if name == "waiting":
        return " ".join(answers).lower()
    if name in ANSWERED:
        return answers[0].replace("None", "forever" if name == "timeout" else "none")
    if answers[-1:] != ["none"]:
        return "".join(answers)
    return ", ".join(filter(None, answers[:-1])) or "nothing"


def steps_of(line):
    """The steps of a run with their calls. At first the reading and the limits are set."""
    given, _, steps = line.partition(" = ")
    word, *limits = given.split(" ")
    dialect = reading_of(word).dialect.value
    yield "new", [("new", dialect), *reading_calls(word), *limit_calls(limits)]
    for step in steps.split(" | "):
        yield step, step_calls(step)


# What the other languages can't say: a limit of 0, and a clock that steps back from its last time.
OTHER_RUNS = [
    r'extended escape=0 = feed 7 "\e" | timeout 7: 0 | next: nothing | timeout 7: 0 | '
    "idle 7: key Escape NONE",
    r'extended = feed 18446744073709551615 "\e": nothing | idle 0: nothing | idle 49: nothing | '
    "idle 50: key Escape NONE",
]


def test_runs(model, model_in_words):
    """By the program and by the model."""
    runs = OTHER_RUNS + [line for _, line in cases_of("runs.txt")]
    steps = [it for line in runs for it in steps_of(line)]
    lines = iter(answers("timed", [command(*call) for _, calls in steps for call in calls]))
    for step, calls in steps:
        assert [next(lines) for _ in calls] == [model.ask(*it) for it in calls], step
        in_words = [model_in_words.ask(*it) for it in calls]
        assert step_told(step, in_words) == step.partition(": ")[2], step


# Random runs.
# What comes: texts of the cases, what may be a position of the cursor, and parts of a paste.
TEXTS = [text_of(line.split(" ")[1]) for _, line in cases_of("events.txt")]
QUESTIONS = [b"\x1b[1;5R", b"\x1b[1;2R", b"\x1b[1;2R\x1b[1;5R", b"\x1b[R", b"a"]
PASTED = [START, *b"a|bc|\r|\x1b|\x1b[20|[201|\xc3\xa9|\xe2\x82|\xff".split(b"|")]
TIMES = [0, 0, 1, 5, 30, 49, 50, 51, 99, 100, 101, 300, 999, 1000, 1001, 5000, 9000]


class Draws(random.Random):
    """What is drawn for a run: what comes, and which calls are made."""

    def piece(self, kinds):
        kind = self.choice(kinds)
        if kind:
            piece = self.choice(kind)
        else:
            body = b"".join(self.choices(PASTED, k=self.randrange(6)))
            piece = START + body + self.choice([END, END, END[:3], b""])
        if self.random() < 0.2:
            piece = piece[: self.randrange(len(piece) + 1)]
        return piece

    def chunks(self):
        """What comes, cut somehow. At some reads nothing does."""
        kinds = self.sample([TEXTS, TEXTS, TEXTS, QUESTIONS, None, None], self.randrange(1, 6))
        text = b"".join(self.piece(kinds) for _ in range(self.randrange(1, 12)))
        most = self.choice([1, 2, 5, 30, 400])
        while text:
            length = self.randrange(1, most + 1) if self.random() < 0.95 else 0
            yield text[:length]
            text = text[length:]

    def time(self, now):
        """A later time, or an earlier one."""
        if self.random() < 0.03:
            return self.choice([0, 7, LONGEST, LONGEST - 1, LONGEST - 60, 2**63])
        if self.random() < 0.08:
            return max(0, now - self.choice(TIMES))
        return min(LONGEST, now + self.choice(TIMES))

    def setting(self):
        """A call that sets or asks something."""
        limit = self.choice([0, 1, 20, 50, 300, 1000, NO_LIMIT - 1, NO_LIMIT])
        return self.choice(
            [
                *[(name, limit) for name in LIMITS],
                *[("parts", it) for it in (0, 1, 3, 4, 5, 9, LONGEST)],
                *[("no-parts",), ("skip",), ("skip",), ("shrink", self.randrange(9))],
                *[("reset",), ("reset",), ("expect",), ("expect",), ("expect",), ("forget",)],
                *[("questions", it) for it in (0, 1, 254, 255)],
                *[("dialect", it) for it in (0, 0, 1)],
                *[("x10_mouse", it) for it in (0, 1)],
                *[("erase", it) for it in (8, 127)],
                *[("newline", it) for it in (0, 1)],
            ]
        )


# How often a run makes calls between two feeds: it tells all events or one, waits, lends the
# terminal, flushes or ends, sets, and asks.
MANNERS = {
    "program": (60, 0, 30, 1, 0, 2, 4),
    "settings": (40, 10, 20, 3, 2, 25, 5),
    "lends": (50, 2, 25, 15, 0, 15, 4),
    "careless": (20, 20, 20, 10, 10, 10, 10),
}


class DrawnRun:
    """A run that is drawn, with the model's answers. It takes what is left to wait from the model,
    so that calls come just in time, and just too late."""

    def __init__(self, model, seed):
        self.draws = draws = Draws(seed)
        self.model = model
        model.ask("new")
        self.calls = []
        self.due = 0
        self.now = draws.choice([0, 0, 1000, LONGEST - 2000])
        self.weights = MANNERS[draws.choice([*MANNERS])]
        if draws.random() < 0.3:
            self.call(draws.choice(["new", "sharing"]), draws.randrange(2))
        if draws.random() < 0.4:
            self.call("parts", draws.choice([0, 1, 4, 9]))
        for _ in range(draws.randrange(3)):
            self.call(*draws.setting())
        for chunk in draws.chunks():
            self.steps()
            while self.call("feed", self.now, chunk) == BUSY:
                self.steps()
        for _ in range(4):
            self.steps()
        self.tell_all()

    def call(self, name, number=0, data=b""):
        is_told = name == "idle" and self.is_told()
        answer = self.model.ask(name, number, data)
        self.calls.append(((name, number, data), answer))
        self.due += is_told and not self.is_told()
        return answer

    def is_told(self):
        return self.model.ask("waiting") != UNTOLD

    def tell_all(self):
        while self.call("next") != "none":
            pass

    def tell_one(self):
        self.call("next")

    def wait(self):
        """Nothing comes until what is buffered is due, or somewhat longer or less."""
        if self.draws.random() < 0.8:
            self.tell_all()
        left = self.call("timeout", self.now)
        if left == "None" or self.draws.random() < 0.3:
            self.now = self.draws.time(self.now)
        else:
            later = self.now + int(left) + self.draws.choice([-1, 0, 0, 1])
            self.now = min(LONGEST, max(0, later))
        self.call("idle", self.now)

    def lend(self):
        self.now = self.draws.time(self.now)
        self.call("interrupted", self.now)

    def flush(self):
        self.call(self.draws.choice(["flush", "flush", "end"]))

    def set(self):
        self.call(*self.draws.setting())

    def ask(self):
        self.call(self.draws.choice(["waiting_len", "waiting_len", "reading", "policy"]))
        if self.is_told():
            self.call("waiting")

    def steps(self):
        """Some calls between two feeds."""
        steps = [self.tell_all, self.tell_one, self.wait, self.lend, self.flush, self.set, self.ask]
        for _ in range(self.draws.choice([0, 1, 1, 2, 4])):
            self.draws.choices(steps, self.weights)[0]()
        self.now = self.draws.time(self.now)


@functools.cache
def drawn_runs(model, seed):
    return [DrawnRun(model, seed * 1000 + it) for it in range(50)]


@pytest.mark.parametrize("seed", range(20))
def test_random_runs(model, seed):
    check_runs([it.calls for it in drawn_runs(model, seed)])


def by_model(model, calls):
    """Calls with the model's answers; and at last all is told."""
    model.ask("new")
    found = []
    for call in calls:
        found.append((call, model.ask(*call)))
    while not found or found[-1][1] != "none":
        found.append((("next",), model.ask("next")))
    return found


def kind_of(line):
    """What an event is, and which kind of string. A release is told apart."""
    return " ".join(re.findall(r"^part of paste|^\w+|Osc|Dcs|Apc|Release", line)).strip()


def test_runs_of_all_kinds_are_drawn(model):
    """What the random runs show: each event, each kind of what waits, what is due, and refusals."""
    drawn = [it for seed in range(20) for it in drawn_runs(model, seed)]
    calls = [it for run in drawn for it in run.calls]
    told = {kind_of(answer) for call, answer in calls if call[0] == "next"}
    names = """none, Key, Key Release, Mouse, Mouse Release, FocusGained, FocusLost, CursorPosition,
        Csi, KeyboardFlags, Resized, paste, part of paste, Osc, Dcs, Apc, StringCut Osc,
        StringCut Dcs, StringCut Apc"""
    assert told == set(re.split(r",\s+", names))
    kinds = {answer for call, answer in calls if call[0] == "waiting"}
    assert kinds == set("Nothing Escape Sequence Character Paste String".split())
    assert sum(it.due for it in drawn) > 1000
    for name in "feed", "interrupted":
        assert sum(call[0] == name and answer == BUSY for call, answer in calls) > 500


# Long texts.
@pytest.mark.parametrize("length", [100, 40_000, 65_535, 70_000])
def test_a_long_string_that_was_interrupted(model, length):
    """A part of it is told, and the rest is due a second later."""
    text = b"\x1b]52;c;" + b"Q" * 150_000
    calls = [("feed", 0, text[:100]), ("next",), ("interrupted", 5)]
    for place in range(100, len(text), length):
        now = 10 + place // 100
        calls += [("feed", now, text[place : place + length]), *[("next",)] * 3]
    calls += [("timeout", now), ("idle", now + 999), ("next",), ("idle", now + 1000)]
    run = by_model(model, calls)
    told = [kind_of(it) for call, it in run if call[0] == "next" and it != "none"]
    assert told == ["StringPart Osc", "StringPart Osc", "StringCut Osc"]
    check_runs([run])


def test_stalled_pastes_of_1_megabyte(model):
    """Each is told a limit after its last byte."""
    body = b"0123456789abcdef" * 65536
    calls = [("paste", 10_000)]
    for now in 5, 20_000:
        calls += [("feed", now, START + body), ("next",), ("timeout", now)]
        calls += [("idle", now + 9999), ("next",), ("idle", now + 10_000), *[("next",)] * 2]
    run = by_model(model, calls)
    assert [it for call, it in run if call[0] == "timeout"] == ["10000"] * 2
    told = [it for call, it in run if call[0] == "next"]
    assert told == ["none", "none", pasted(body), "none"] * 2
    check_runs([run])


@pytest.mark.parametrize("limit", [0, 1000, 100_000, 2**20])
def test_a_long_paste_in_parts(model, limit):
    body = bytes(range(32, 127)) * 3000 + "€".encode() * 5000
    calls = [("parts", limit)]
    text = START + body + END + b"q"
    for place in range(0, len(text), 8191):
        calls += [("feed", place, text[place : place + 8191]), *[("next",)] * 4, ("waiting_len",)]
    run = by_model(model, calls)
    told = [it for call, it in run if call[0] == "next" and it != "none"]
    assert "".join(it.partition(":")[2] for it in told[:-1]) == body.hex()
    assert [kind_of(it) for it in told] == ["part of paste"] * (len(told) - 2) + ["paste", "Key"]
    lengths = [int(it) for call, it in run if call[0] == "waiting_len"]
    assert max(lengths) <= 6 + max(limit, 5)
    check_runs([run])


# Memory.
@pytest.fixture(scope="module")
def requests(tmp_path_factory):
    """Makes calls, of which one request for memory may be refused. Returns the status, what was
    printed, and the size of each request."""
    folder = tmp_path_factory.mktemp("requests")
    library = folder / "requests.so"
    words = ["-O1", "-shared", "-fPIC", TOP / "tests/requests.c", "-o", library]
    subprocess.run(["cc", *words], check=True)

    def make_calls(calls, refused=0):
        lines = "".join(command(*it) + "\n" for it in calls)
        words = ["sh", "-c", 'exec env "$@" 3> "$0"', folder / "sizes", f"LD_PRELOAD={library}"]
        words += [f"REFUSE={refused}", TEST_CALLS, "timed"]
        done = subprocess.run(words, input=lines, stdout=subprocess.PIPE, text=True)
        sizes = [int(it) for it in (folder / "sizes").read_text().split()]
        return done.returncode, done.stdout.splitlines(), sizes

    return make_calls


# A run in which much has to be remembered: what comes, and what is asked then.
REFUSABLE = [("parts", 3), ("feed", 5, b"q\x1b[97;;98u" + START + b"ab"), *[("next",)] * 5]
REFUSABLE += [("timeout", 7), ("feed", 10, b"cdef\x1b[20"), *[("next",)] * 3, ("waiting_len",)]
REFUSABLE += [("feed", 11, b"1~\x1b]4;1\x07\x1b[?62c\x1bP>|foot"), *[("next",)] * 5]
REFUSABLE += [("timeout", 12), ("interrupted", 40), ("idle", 1039), *[("next",)] * 2]
REFUSABLE += [("idle", 1040), ("feed", 1041, b"x"), *[("next",)] * 3]
REFUSABLE += [("feed", 1050, START + b"z" * 300), ("end",), *[("next",)] * 4, ("waiting_len",)]
REFUSABLE += [("no-parts",), ("feed", 1060, START + b"abc"), *[("next",)] * 2]
REFUSABLE += [("end",), *[("next",)] * 3, ("timeout", 1070)]


def check_refused(model, calls, lines):
    """Checks what is answered where some calls are refused: these change nothing. Returns their
    places."""
    model.ask("new")
    places = []
    for place, (call, line) in enumerate(zip(calls, lines, strict=True)):
        if line == REFUSED and call[0] in ("next", "feed"):
            places.append(place)
        else:
            wanted = model.ask(*call)
            assert wanted in (line, UNTOLD), (call, line, wanted)
    return places


def test_each_request_refused(model, requests):
    """A `next` or a `feed` that is refused changes nothing, and the run goes on."""
    _, _, before = requests([])
    _, _, sizes = requests(REFUSABLE)
    refused = set()
    for number in range(len(before) + 1, len(sizes) + 1):
        status, lines, _ = requests(REFUSABLE, number)
        if status == 0:
            (place,) = check_refused(model, REFUSABLE, lines)
            refused.add(place)
        else:
            # A line of the program was refused.
            assert REFUSED not in lines
    names = [REFUSABLE[it][0] for it in refused]
    assert names.count("next") == 7 and names.count("feed") == 3


@pytest.mark.parametrize("seed", range(12))
def test_random_runs_with_a_refusal(model, requests, seed):
    calls = [it for it, _ in DrawnRun(model, seed).calls]
    _, _, before = requests([])
    _, _, sizes = requests(calls)
    draws = random.Random(seed)
    for _ in range(40):
        number = draws.randrange(len(before), len(sizes)) + 1
        status, lines, _ = requests(calls, number)
        if status == 0:
            assert len(check_refused(model, calls, lines)) == 1
        else:
            assert REFUSED not in lines


def test_a_parser_over_a_shared_table_asks_for_no_memory(requests):
    """Before its first byte."""
    _, _, sizes = requests([("sharing",)] * 50)
    # As many lines of the same length.
    _, _, others = requests([("shrink", "00")] * 50)
    assert sizes == others
