#!/usr/bin/env python3
"""Types a file on a pseudo-terminal to a program that reads so many events of it: layers.py FILE
COUNT SIZE PROGRAM WORD.. It prints the nanoseconds of processor time that the program took, and
those of a run with one event. SIZE bytes are typed at once, and then the next once these were read.
With a size of 1 the program tells of each event, and the next is typed then. It ends after a
minute, even if the program still waits."""
import fcntl
import os
import signal
import struct
import sys
import termios
import time
from pathlib import Path

# The seconds that this may take.
LIMIT = 60


def unread(terminal):
    return struct.unpack("i", fcntl.ioctl(terminal, termios.FIONREAD, bytes(4)))[0]


def type_text(ours, terminal, text, size):
    for start in range(0, len(text), size):
        os.write(ours, text[start : start + size])
        if size == 1:
            os.read(ours, 1)
            continue
        # What was written arrives a little later. crossterm waits for a further key if more than a
        # kilobyte did.
        time.sleep(0.002)
        while unread(terminal):
            pass


def time_of(words, count, text, size):
    """The processor time of a program that reads the events of a text."""
    ours, terminal = os.openpty()
    child = os.fork()
    if not child:
        # It ends when this script does: crossterm reads on for ever once its terminal is gone.
        signal.alarm(LIMIT)
        os.login_tty(terminal)
        os.execvp(words[0], [*words, count, "each" if size == 1 else "all"])
    said = b""
    while not said.endswith(b"\n"):
        said += os.read(ours, 100)
    type_text(ours, terminal, text, size)
    _, status, used = os.wait4(child, 0)
    os.close(ours)
    os.close(terminal)
    if status:
        sys.exit(f"layers.py: {words} ended with {status}")
    return used.ru_utime + used.ru_stime


def main():
    file, count, size, *words = sys.argv[1:]
    signal.alarm(LIMIT)
    for events, text in (count, Path(file).read_bytes()), ("1", b"a"):
        print(int(time_of(words, events, text, int(size)) * 1e9))


main()
