"""What is cut by pauses: a key that is over is told in time, and what isn't over waits."""
from terminal import END, LONG_PAUSE, PAUSE, START

from scenarios.row import CTRL_UP, LAYERS, UP, Row, in_time, key, press

MOUSE_REPORTS = ["mouse 3 4 LEFT NONE press 1", "mouse 3 4 NONE NONE release 1"]
ALT_BRACKET = "key U+005B ALT"

ROWS = {
    "keys with names": Row(
        [b"\033[A\r\033[15~\033[1;5A", UP, "key Enter NONE", "key F5 NONE", CTRL_UP], layers=LAYERS
    ),
    "Ctrl with C and Z": Row([b"\x03\x1a", "key U+0063 CTRL", "key U+007A CTRL"], layers=LAYERS),
    "Alt and Escape": Row([b"\033\033", "key Escape ALT"], layers=LAYERS),
    "Alt and a character": Row([b"\033x", "key U+0078 ALT"], layers=LAYERS),
    "Alt and a bracket": Row([b"\033[", ALT_BRACKET, b"A", key("A")], layers=LAYERS),
    "Alt and a bracket before a held key": Row(
        [b"\033]", "key U+005D ALT", *[*press("j"), 0.03] * 20], layers=LAYERS
    ),
    **{
        name: in_time(steps, words=["mouse"])
        for name, steps in {
            "an arrow that is cut after ESC": [b"\033", 0.005, b"[A", UP],
            "a key that is cut": [b"\033[1;", PAUSE, b"5A", CTRL_UP],
            "a mouse report that is cut": [b"\033[<0;3", PAUSE, b";4M\033[<0;3;4m", *MOUSE_REPORTS],
            "a character that is cut": [b"\xc3", LONG_PAUSE, b"\xa9", key("é")],
            "a paste that is cut": [START + b"q\033", PAUSE, b"b\r", LONG_PAUSE, b"q" + END]
            + [r'paste "q\eb\rq"'],
        }.items()
    },
}
