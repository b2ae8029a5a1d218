"""How a program ends, and what is left then."""
from signal import SIGABRT, SIGBUS, SIGCONT, SIGFPE, SIGILL, SIGPIPE, SIGSEGV, SIGSYS, SIGTERM
from signal import SIGTSTP, SIGUSR1, SIGUSR2, SIGXCPU

from terminal import CONTINUE, ENDING_SIGNALS, SLOW_LINE, Terminal, took

from scenarios.program import Program, check, expect
from scenarios.questions import ASK, ASKED, ATTRIBUTES, LAST, POSITION, REPLY
from scenarios.row import BACK, BUSY, CTRL_F3, LAYERS, Row, ended_by, key, press

# C's own handlers act on these at once.
AT_ONCE = [SIGABRT, SIGBUS, SIGFPE, SIGILL, SIGPIPE, SIGSEGV, SIGSYS, SIGUSR1, SIGUSR2, SIGXCPU]
ONLY_C = {"c": "its handlers act on these signals"}
MOUSE_REPORT = b"\033[<35;3;4M"
ANSWERED = [*ASK, *LAST]
LS = b"ls\r"
BUSY_AND_TYPED, ASLEEP_AND_TYPED = [*BUSY, LS], [*press("s"), "asleep", LS]
ENDING = [*press("g"), "ending"]


def replies(seconds):
    """Each question is answered after so many seconds, the last two once the program has ended."""
    steps = [it for pause in seconds[:-1] for it in (*ASK, pause, *LAST)]
    steps += [b"66q", key("6"), ASKED, key("6"), ASKED, key("q"), seconds[-1]]
    return [*steps, REPLY + b"\033[?6", 0.02, b"2;4cls\r"]


def no_reply(seconds, least, most):
    """One question was answered after so many seconds, and the last one isn't."""
    steps = [*ASK, seconds, *LAST] if seconds else []
    steps += [b"6q", key("6"), ASKED, key("q"), Program.start_clock, LS]
    return [*steps, Program.wait_for_end_of_job, took(least, most)]


# What has to come in time.
TIMED = {
    # The end goes before.
    "SIGTSTP and SIGTERM": ended_by(
        SIGTERM,
        [*BUSY, SIGTSTP],
        words=["", "own"],
        only=dict.fromkeys(["c", "bare", "rust"], "in Python each is handled as it comes"),
    ),
    "typed ahead": Row(end=[*ENDING, LS], left=LS, words=["", "focus", "kitty"]),
    "typed ahead at a signal": ended_by(SIGTERM, BUSY_AND_TYPED, left=LS),
    **{
        f"replies at the end after {' and '.join(map(str, seconds))} s": Row(
            end=replies(seconds), left=LS, words=["", "mouse"]
        )
        for seconds in ([0.08], [SLOW_LINE, SLOW_LINE], [0.5, 0.05, 0.6])
    },
    # At least 200 ms, at most a second, and what came is discarded.
    "no reply at the end": Row(
        end=no_reply(None, 0.15, 0.8), left=b"", words=["", "mouse", "kitty"]
    ),
    "no reply at the end of a slow line": Row(end=no_reply(1.3, 0.9, 1.9), left=b""),
    "mouse reports at a signal": ended_by(SIGTERM, BUSY_AND_TYPED, left=b"", words=["mouse"]),
    "no reply at a signal": ended_by(SIGTERM, ASK + BUSY_AND_TYPED, left=b""),
    "a reply at a signal": ended_by(
        SIGTERM,
        [*ASK, 0.3, *LAST, *ASK],
        ["\033[?2004l", 0.2, REPLY + LS],
        left=LS,
        words=["", "mouse"],
    ),
    # It is owed no longer, also if the program hasn't waited since.
    "a reply that is overdue at the end": Row(
        end=[b"6" + b"k" * 8 + b"g", key("6"), ASKED, *[key("k"), "busy"] * 8]
        + [key("g"), "ending", LS],
        left=LS,
    ),
    # They come before the reply to a question at the end.
    **{
        f"mouse reports under way{name}": Row(
            end=[*ANSWERED, *end, "\033[?2004l\033[c", MOUSE_REPORT + ATTRIBUTES + LS],
            status=status,
            left=LS,
            words=["mouse"],
        )
        for name, end, status in [("", press("q"), 0), (" at a signal", [SIGTERM], -SIGTERM)]
    },
    # It isn't asked then, and all that came is discarded.
    "mouse reports of a terminal that never answered": Row(
        end=[*ENDING, MOUSE_REPORT + LS], left=b"", words=["mouse"]
    ),
    # The shell gets what is typed behind it.
    "a reply at a stop": Row(
        [*ASK, SIGTSTP, "\033[?2004l", REPLY + LS, Terminal.wait_for_stop, check(Program.left, LS)]
        + [CONTINUE, *BACK, POSITION, CTRL_F3]
    ),
}
for row in TIMED.values():
    row.is_timed = True
ROWS = TIMED | {
    **{
        f"{it.name} ends it": ended_by(it, words=["", "own", "mouse screen"], layers=LAYERS)
        for it in ENDING_SIGNALS
    },
    **{f"{it.name} ends it at once": ended_by(it, only=ONLY_C) for it in AT_ONCE},
    "an end without a close": Row(end=press("x"), status=3, words=["", "mouse screen"]),
    "a crash": Row(
        end=press("!"), status={"c": -SIGABRT, "rust": 101, "python": 1}, before="exec 2> /dev/null"
    ),
    # It is written before the modes are switched off.
    "half a line before a signal": ended_by(
        SIGTERM,
        press("h"),
        [expect("half a line\033[?2004l\033[?1049l")],
        words=["screen"],
        only=dict.fromkeys(["c", "rust"], "in Python a handler may not write what is buffered"),
    ),
    # It is restored a second later, its modes too.
    "SIGTERM while it is busy": ended_by(SIGTERM, [*press("s"), "asleep"]),
    "SIGTERM while it is stopped": ended_by(SIGTERM, [Program.stop], [SIGCONT], layers=LAYERS),
    # A second later.
    "typed ahead at a signal while it sleeps": ended_by(SIGTERM, ASLEEP_AND_TYPED, left=LS),
    "typed ahead at a signal that ends it at once": ended_by(
        SIGSEGV, ASLEEP_AND_TYPED, left=LS, only=ONLY_C
    ),
    # A reply or a report may be among it, and a handler reads nothing.
    "a reply at a signal that ends it at once": ended_by(
        SIGSEGV, ASK + ASLEEP_AND_TYPED, left=b"", only=ONLY_C
    ),
    "mouse reports at a signal that ends it at once": ended_by(
        SIGSEGV, ASLEEP_AND_TYPED, left=b"", words=["mouse"], only=ONLY_C
    ),
    **{
        f"{it.name} while a reply is owed": ended_by(
            it,
            [*ASK, Program.start_clock],
            [Program.wait_for_end_of_job, took(0, 5)],
            words=["", "mouse"],
        )
        for it in ENDING_SIGNALS
    },
}
