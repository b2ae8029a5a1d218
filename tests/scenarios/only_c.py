"""What the program in C does alone, by keys of its own: it is refused memory, takes back what it
hasn't lent, and tells how many replies are owed."""
import signal

from terminal import CONTINUE, END, START

from scenarios.program import Program, check, expect
from scenarios.questions import ASK, ASKED, ATTRIBUTES_TOLD, LAST, OVER, POSITION
from scenarios.questions import POSITION_TOLD, QUESTION, REPLY, TOLD
from scenarios.row import BACK, CTRL_F3, CTRL_UP, UP, Row, key, press

NOT_WRITTEN = "the terminal can't be written"


def owed(count):
    return [*press("O"), f"owed {count}"]


# Longer than the place of a short paste's bytes.
LONG = "?62;22;28;29;30;31;32;33;34;35;36c"


def refused_reply(which):
    """The request of that key is refused. The failure is told once, and the reply is counted. The
    place of the last reply's bytes is kept for the next, but a paste has one of its own."""
    paste, reply = [START + b"a" + END, 'paste "a"'], f"\033[{LONG}".encode()
    return [*ASK, *paste, *press(which), reply, "failed", f'csi "{LONG}"', *owed(0)]


ROWS = {
    # The failure is told, and the next call has the event.
    "memory that is refused": Row(
        [*press("M"), START + b"aa" + END, "failed", 'paste "aa"']
        + [*press("M"), START + b"a" * 2000 + END, "failed", "paste of 2000 bytes"]
    ),
    "a reply while memory is refused": Row(refused_reply("M"), first=refused_reply("N")),
    "questions that are owed": Row(
        [*owed(0), *ASK, *ASK, *owed(2), POSITION, POSITION_TOLD, *LAST, *owed(1)]
        + [REPLY, *TOLD, *owed(0)]
    ),
    # It isn't open, and those from before are as they were.
    "a question that cannot be written": Row(
        [b"6V", key("6"), ASKED, key("V"), NOT_WRITTEN, *owed(1), POSITION * 2, POSITION_TOLD]
        + [CTRL_F3, *LAST, *press("V"), NOT_WRITTEN, *owed(0), *OVER]
    ),
    # It isn't forgotten with those of before, and no reply that came before answers it.
    **{
        f"a question at once when the terminal is back{name}": Row(
            [b"E" + before, key("E"), QUESTION, *BACK, *told, REPLY, *TOLD]
        )
        for name, before, told in [
            ("", b"", []),
            (" behind replies", REPLY, [CTRL_F3, ATTRIBUTES_TOLD]),
        ]
    },
    "a terminal that is taken back": Row(
        [*press("c"), "child 0", b"T\n", key("T"), *BACK, key("\n"), Program.check_open],
        command="stty sane -echo",
    ),
    # Nobody waits for the reply any more.
    "a question before the terminal is taken back": Row([*ASK, *press("T"), *BACK, *OVER]),
    # It reads them before it flushes anything.
    "bytes that come before a wake without a signal": Row(
        [b"W\033", key("W"), "busy", b"[A", UP], is_timed=True
    ),
    "bytes that come before it sees that none came": Row(
        [b"P\033", key("P"), "stands still", b"[A", UP], is_timed=True
    ),
    # While it is stopped, and at the end, it blocks again.
    "a descriptor that is set not to block": Row(
        [*press("c"), "child 0", check(Program.blocks, False), b"\033[1;5", b"A", CTRL_UP]
        + [Program.stop, check(Program.blocks, True), CONTINUE, *BACK],
        command="python3 -c 'import os; os.set_blocking(0, False)'",
        is_timed=True,
    ),
    "a read where nothing came": Row([*press("R"), "read 0", *press("w")], how={"blocks": False}),
    "a clock that nobody sets": Row([*press("C"), "monotonic"]),
    # It is written before the modes are switched off.
    **{
        f"half a line before {name}": Row(
            end=[*press(typed), expect("half a line"), "\033[?2004l"], status=status
        )
        for name, typed, status in [("a close", "H", 0), ("an end without one", "X", 3)]
    },
    "a stack that overflows": Row(end=press("S"), status=-signal.SIGSEGV),
}
for row in ROWS.values():
    row.only = {"c": "its program alone has the key"}
