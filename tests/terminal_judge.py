"""What the library reads of recorded bytes, and whether that is what was pressed.

Each press is read whole and byte by byte. Then nothing comes for a pause, after which a lone ESC
and ESC with one byte are due. It is read exactly if one key comes of it, and its press or its
second press is one of those that are right."""
import dataclasses
import functools


# In seconds: longer than the limits of these two, and shorter than those of all else.
PAUSE = 0.2
# The terminals whose Backspace sends byte 8.
SEND_8 = ("qterminal",)


def reader_of(terminal):
    """The reader of a program in this terminal, whose settings say which byte Backspace sends."""
    return "erase" if terminal in SEND_8 else "extended"


@functools.cache
def parsers():
    """The readers by name: `port` reads by termwiz's dialect, and the others by the extended one.
    `asked` is that of a program that asked for the cursor's position, and `erase` that of one whose
    terminal sends byte 8 for Backspace."""
    from hedrugal import Dialect, EraseByte, Parser, Reading

    readings = {
        "port": Reading(dialect=Dialect.TERMWIZ),
        "extended": Reading(),
        "x10": Reading(x10_mouse=True),
        "asked": Reading(questions=1),
        "erase": Reading(erase=EraseByte.BACKSPACE),
    }
    return {name: (Parser(reading.dialect), reading) for name, reading in readings.items()}


def read_pieces(reader, pieces):
    """The events of pieces, and how many bytes stay buffered after a pause."""
    parser, reading = parsers()[reader]
    parser.reading = reading
    events = [event for piece in pieces for event in parser.feed(piece, 0)]
    events += parser.idle(PAUSE)
    rest = parser.waiting_len
    parser.reset()
    return events, rest


@functools.cache
def read(reader, data):
    """The same of bytes, whole and byte by byte."""
    found = read_pieces(reader, [data])
    assert read_pieces(reader, [data[at : at + 1] for at in range(len(data))]) == found, data
    return found


@functools.cache
def told(reader, data):
    """What is told by bytes if they are one key: `press` or `release`, and the names of its press
    and of its second one. A key that is no press by itself is `none`."""
    from hedrugal import KeyEventKind, KeyPress, KeyReport

    events, rest = read(reader, data)
    event = events[0] if len(events) == 1 and not rest else None
    if not isinstance(event, KeyReport):
        return "", []
    report = event
    kind = "release" if report.kind is KeyEventKind.RELEASE else "press"
    report = dataclasses.replace(report, kind=KeyEventKind.PRESS)
    presses = KeyPress.of_report(report), KeyPress.second(report)
    return kind, [str(it) for it in presses if it] or ["none"]


def is_exact(reader, line):
    kind, names = told(reader, line.bytes)
    return kind == line.kind and not line.right.isdisjoint(names)
