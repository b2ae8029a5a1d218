"""Questions to the terminal, and their replies in time, late, and never."""
import signal

from terminal import CONTINUE, END, PAUSE, START

from scenarios.program import Program, stop_by
from scenarios.row import BACK, CTRL_F3, LAYERS, SIZE_BACK, STOP_AND_CONTINUE, Row, key, press

# Of the first row: without a question it is Ctrl-F3.
POSITION, ATTRIBUTES = b"\033[1;5R", b"\033[?62;22c"
BACKGROUND = b"\033]11;rgb:1e1e/1e1e/1e1e\007"
POSITION_TOLD, ATTRIBUTES_TOLD = "position 1 5", 'csi "?62;22c"'
BACKGROUND_TOLD = 'osc "11;rgb:1e1e/1e1e/1e1e"'
ASKED = "asked: nothing"
QUESTION, BACKGROUND_QUESTION = "\033[6n\033[c", "\033]11;?\033\\\033[c"
# Asks for the position of the cursor, and doesn't wait.
ASK = [*press("6"), QUESTION, ASKED]
REPLY, TOLD = POSITION + ATTRIBUTES, [POSITION_TOLD, ATTRIBUTES_TOLD]
# Asks for it, and waits. The last reply ends a question, and a key tells that none is open.
WAIT, LAST, OVER = [*press("a"), QUESTION], [ATTRIBUTES, ATTRIBUTES_TOLD], [POSITION, CTRL_F3]
SHOW_LINE = "stty -a | grep -o -e '-icanon' -e icanon; read -r line; echo \"line $line\""


def asked(*told):
    return f"asked: {', '.join(told)}"


def check_count(it):
    """16 questions are written each time, and no more."""
    assert it.output.count(QUESTION.encode()) in (16, 32)


# C's loop that reads by itself asks nothing.
ASKING = [it for it in LAYERS if it != "bare"]

LATE = {
    # A question is open until its last reply, and that to a later question is its own.
    "late replies": Row(
        [*ASK, *press("b"), BACKGROUND_QUESTION, REPLY + BACKGROUND + ATTRIBUTES]
        + [asked(BACKGROUND_TOLD, ATTRIBUTES_TOLD), *TOLD, *OVER]
    ),
    # Each call has its own reply, however late that of the first one is.
    "late replies to the same question": Row(
        [*ASK, *WAIT, b"w" + REPLY + b"\033[1;7R" + ATTRIBUTES]
        + [asked("position 1 7", ATTRIBUTES_TOLD), key("w"), *TOLD, *OVER]
    ),
    "late replies before the next question": Row(
        [*ASK, REPLY + POSITION, *TOLD, CTRL_F3, *press("b"), BACKGROUND_QUESTION]
        + [BACKGROUND + ATTRIBUTES, asked(BACKGROUND_TOLD, ATTRIBUTES_TOLD)]
    ),
    "a reply that does not come in time": Row(
        [*press("t"), QUESTION, b"w" + POSITION, asked(POSITION_TOLD), key("w"), *LAST, *OVER],
        is_timed=True,
    ),
    # It is given up after two seconds. A later reply to DA1 answers none.
    "a terminal that does not answer": Row(
        [*ASK, 1.7, REPLY, *TOLD, *ASK, 2.3, *OVER, *LAST, *ASK, REPLY, *TOLD], is_timed=True
    ),
    **{
        f"questions before a stop{name}": Row(
            [b"66" + begun, key("6"), ASKED, key("6"), ASKED, *STOP_AND_CONTINUE]
            + [rest + POSITION, *told, CTRL_F3, *LAST, *ASK]
        )
        for name, begun, rest, told in [
            ("", b"", b"", []),
            (" in a paste", START + b"ab", b"cd" + END, ['paste "abcd"']),
        ]
    },
    "a question that is waited for at a stop": Row(
        [*WAIT, b"w" + POSITION, PAUSE, *STOP_AND_CONTINUE[:2], asked(POSITION_TOLD), key("w")]
        + [*BACK, *OVER, *ASK, REPLY, *TOLD],
        is_timed=True,
    ),
}
for row in LATE.values():
    row.layers = ["asyncio"]
ROWS = LATE | {
    "replies that are waited for": Row(
        [*WAIT, b"w" + POSITION + b"y" + ATTRIBUTES, asked(*TOLD), key("w"), key("y"), *OVER],
        words=["", "own"],
        layers=ASKING,
    ),
    # It counts no more once the last reply is read, also for bytes that came with that.
    "a question that is over": Row(
        [*WAIT, ATTRIBUTES + b"\033[?1;2c" + POSITION, asked(ATTRIBUTES_TOLD)]
        + ['csi "?1;2c"', CTRL_F3],
        layers=ASKING,
    ),
    "replies that are not waited for": Row(
        [*ASK, POSITION, POSITION_TOLD, *LAST, *OVER], layers=ASKING
    ),
    # Each ends by its own reply to DA1, which is that of the oldest.
    "several questions": Row(
        [*ASK, *press("9"), "\033[6n\033[6n\033]11;?\033\\\033[c", ASKED, POSITION, POSITION_TOLD]
        + [*LAST, POSITION * 2 + BACKGROUND, *[POSITION_TOLD] * 2, BACKGROUND_TOLD, *LAST, *OVER]
    ),
    # The first stays open with its reply, and the second opens it anew.
    "a late question for the position": Row(
        [*ASK, *WAIT, ATTRIBUTES + b"\033[1;6R" + POSITION + ATTRIBUTES]
        + [asked("position 1 6", ATTRIBUTES_TOLD), ATTRIBUTES_TOLD, CTRL_F3]
    ),
    # What comes beside the replies is told by the loop.
    "a question and a new size": Row(
        [*WAIT, b"w" + POSITION, (100, 40), PAUSE, ATTRIBUTES, asked(*TOLD), key("w")]
        + ["resized 40 100 0 0", *SIZE_BACK],
        only=dict.fromkeys(["c", "rust"], "Python tells a new size before what was read"),
        is_timed=True,
    ),
    # Nobody waits for replies.
    "a question before SIGSTOP": Row(
        [*ASK, stop_by(signal.SIGSTOP), CONTINUE, *BACK, Program.check_open, *OVER]
    ),
    "a question when the terminal is back": Row(
        [*ASK, *STOP_AND_CONTINUE, ASKED, REPLY, *TOLD, *OVER], words=["asks"]
    ),
    "a question before the terminal is lent": Row(
        [*ASK, b"l", key("l"), "\033[?2004l", REPLY + b"hello\n", "icanon", "line hello", "lent 0"]
        + [*BACK, Program.check_open, *ASK, REPLY, *TOLD, *OVER]
        # The reply never comes.
        + [*ASK, *press("l"), "icanon", b"\n", "line ", "lent 0", *BACK, *OVER],
        command=SHOW_LINE,
        how={"echoes": False},
        is_timed=True,
    ),
    # The last one isn't written. Each reply makes room.
    "too many questions": Row(
        [b"6" * 17, *[key("6"), ASKED] * 17, check_count, ATTRIBUTES * 16, *[ATTRIBUTES_TOLD] * 16]
    ),
}
