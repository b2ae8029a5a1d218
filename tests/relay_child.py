"""The program that tests/test_relay.py runs on the terminal of a relay. It does what the test tells
it over a socket, and tells what comes from its terminal.

Each packet is a letter and what belongs to it. The test sends `w` and bytes to write, `f` and how
many bytes of a long text to write, `p` to read nothing from the terminal until the next `p`, `x`
and a status with which it ends, `k` and a signal by which it ends. It gets `i` and bytes that were
read, and `s` and a signal, with the terminal's columns and rows if the size is new. The first `s`
has in place of a signal the character that erases. The child ends when its terminal does."""
import contextlib
import os
import select
import signal
import socket
import sys
import termios
import tty

ENDING = [signal.SIGHUP, signal.SIGINT, signal.SIGQUIT, signal.SIGTERM]


def long_text(count):
    """Lines with numbers, of so many bytes in all."""
    lines = (b"%015d\n" % number for number in range(count // 16 + 1))
    return b"".join(lines)[:count]


def read():
    """What its terminal sent. It may be gone."""
    data = b""
    with contextlib.suppress(OSError):
        data = os.read(0, 4096)
    return data or sys.exit(0)


def write(data):
    while data:
        data = data[os.write(1, data) :]


def end_by(number):
    if number != signal.SIGKILL:
        signal.signal(number, signal.SIG_DFL)
    os.kill(os.getpid(), number)


def main(path):
    test = socket.socket(socket.AF_UNIX, socket.SOCK_SEQPACKET)

    def tell_end(number, _):
        test.send(b"s%d" % number)

    def tell_size(number, _):
        rows, columns = termios.tcgetwinsize(0)
        test.send(b"s%d %d %d" % (number, columns, rows))

    for number in ENDING:
        signal.signal(number, tell_end)
    signal.signal(signal.SIGWINCH, tell_size)
    erase = termios.tcgetattr(0)[6][termios.VERASE]
    tty.setraw(0)
    test.connect(path)
    tell_size(ord(erase), None)
    inputs = [test, 0]
    while True:
        ready, _, _ = select.select(inputs, [], [])
        if 0 in ready:
            test.send(b"i" + read())
        if test not in ready:
            continue
        packet = test.recv(1 << 18)
        letter, data = packet[:1], packet[1:]
        if letter == b"w":
            write(data)
        elif letter == b"f":
            write(long_text(int(data)))
        elif letter == b"p":
            inputs = [test] if 0 in inputs else [test, 0]
        elif letter == b"k":
            end_by(int(data))
        else:
            sys.exit(int(data or b"0"))


if __name__ == "__main__":
    main(sys.argv[1])
