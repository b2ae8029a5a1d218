"""keyshow with each kind of words and on texts in pieces: its output, its errors and its status.

The texts are files, or come through sockets: a byte at a time, with a failure after each number of
reads, or so that the test sees how much a read asks for, and what is written before the next."""
import contextlib
import functools
import os
import resource
import socket
import subprocess
import tempfile

import pytest
from conftest import KEYSHOW, SECONDS

PIECES = [1, 2, 3, 7, 64, 4096]
LINE_OF_Q = b"key U+0071 NONE\n"

# A key after a held Escape, a paste that isn't UTF-8, a mouse report, characters and an Escape.
TYPED = b"\033\033[A\033[200~a\xff\033[201~\033[<0;1;2M\xc3\xa9\x03\033"

# The lines of TYPED but the last, each with the number of bytes that decide it while more may come.
DECIDED = [
    (4, b"key UpArrow ALT\n"),
    (18, b"paste 4:61efbfbd\n"),
    (27, b"mouse 1 2 LEFT NONE\n"),
    (29, b"key U+00E9 NONE\n"),
    (30, b"key U+0063 CTRL\n"),
]

FIVE = b"".join(line for _, line in DECIDED)
# Texts, and the lines of each.
PRINTED = [
    (b"", b""),
    (TYPED, FIVE + b"key Escape NONE\n"),
    (TYPED[:-1] + b"\xff", FIVE + b"key U+FFFD NONE\n"),
    (b"\033[200~\xe2\x82a\033[201~", b"paste 4:efbfbd61\n"),
    (b"\033[200~\033[201~", b"paste 0:\n"),
    (b"\033[Aq", b"key UpArrow NONE\nkey U+0071 NONE\n"),
    (b"\xc3\xa9\033", b"key U+00E9 NONE\nkey Escape NONE\n"),
    (b"\xf0\x9f\x98\x80", b"key U+1F600 NONE\n"),
    (b"\033[", b"key U+005B ALT\n"),
    (b"\033[B\xff", b"key DownArrow NONE\nkey U+FFFD NONE\n"),
    (b"q\033[200~a\xff", b"key U+0071 NONE\nwaiting 8\n"),
    (b"\033[45;16~\033OF", b"key F24 SHIFT+ALT+CTRL\nkey End NONE\n"),
    (b"\033[24;8~", b"key F12 SHIFT+ALT+CTRL\n"),
]

# How many bytes of `ab`, the up arrow and `c` each read gives, and what is written after each.
A, B, C, UP = (b"key %s NONE\n" % it for it in (b"U+0061", b"U+0062", b"U+0063", b"UpArrow"))
WRITES = [(1, [A, B, b"", b"", UP, C]), (2, [A + B, b"", UP + C]), (4096, [A + B + UP + C])]

# The pieces, and words for them.
RIGHT = [(64,), (1, "1"), (2, "2"), (64, "64"), (64, "0064"), (4096, "4096"), (1, "0001"), (9, "9")]
WRONG = [[it] for it in "0 0000 4097 9999 00001 +5 -5 0x5 x 6x foo 5foo \u0664".split()]
WRONG += [[" 5"], [""], [b"\xff"], [b"5\xff"], ["5", b"\xff"], [b"\xff", "5"], ["", "5"], ["5", ""]]
WRONG += [
    it.split() for it in ("1 2", "5 foo", "foo 5", "x 2 3", "5 5", "5 5 5", "--help", "--help 5")
]


def run(words, source, target=subprocess.PIPE, **others):
    """Runs the program. Returns its standard output, its standard error and its status."""
    how = {"stdin": source, "stdout": target, "stderr": subprocess.PIPE, "timeout": SECONDS}
    ran = subprocess.run([KEYSHOW, *words], **how, **others)
    return ran.stdout, ran.stderr, ran.returncode


def file_of(text):
    """A file that has the text."""
    file = tempfile.TemporaryFile()
    file.write(text)
    file.seek(0)
    return file


def unread(source):
    """How many bytes of a file are unread."""
    return os.fstat(source.fileno()).st_size - os.lseek(source.fileno(), 0, os.SEEK_CUR)


def connection(kind=socket.SOCK_SEQPACKET):
    """Our end and the program's. A write is a packet; a read takes one, and loses its rest."""
    ours, theirs = socket.socketpair(socket.AF_UNIX, kind)
    ours.settimeout(SECONDS)
    return ours, theirs


def single_bytes(text):
    """A socket of which each read gives one byte of the text."""
    ours, theirs = connection()
    with ours:
        for byte in text:
            ours.send(bytes([byte]))
    return theirs


def failing(text):
    """A socket that fails after the text, since its other end was closed over an unread byte."""
    ours, theirs = connection(socket.SOCK_STREAM)
    with ours:
        theirs.send(b"x")
        ours.send(text)
    return theirs


@pytest.mark.parametrize("piece, words", [(piece, words) for piece, *words in RIGHT], ids=str)
def test_shows_its_input(piece, words):
    with file_of(b"\033[Aq\033[200~a") as source:
        assert run(words, source) == (b"key UpArrow NONE\nkey U+0071 NONE\nwaiting 7\n", b"", 0)
    # The first read decides a line, which can't be written. No more is read.
    with file_of(b"q" * 5000) as source, open("/dev/full", "wb") as full:
        assert run(words, source, full) == (None, b"keyshow: write failed\n", 1)
        assert unread(source) == 5000 - piece


@pytest.mark.parametrize("words", WRONG, ids=str)
def test_refuses(words):
    """It prints how it is called, and reads nothing."""
    with file_of(b"abc\n") as source:
        assert run(words, source) == (b"", b"usage: keyshow [PIECE]\n", 2)
        assert unread(source) == 4


@pytest.mark.parametrize("text, lines", PRINTED, ids=[repr(text) for text, _ in PRINTED])
def test_prints_the_lines(text, lines):
    """In pieces of several sizes, from a file and by single bytes."""
    for piece in PIECES:
        for source_of in (file_of, single_bytes):
            with source_of(text) as source:
                assert run([str(piece)], source) == (lines, b"", 0), piece


def test_long_texts():
    """A paste of 100 KB, and 70,000 keys."""
    pasted = b"0123456789abcdef" * 6400
    text = b"\033[200~" + pasted + b"\033[201~" + b"\033[15;5~" * 70000
    lines = b"paste 102400:%s\n" % pasted.hex().encode() + b"key F5 CTRL\n" * 70000
    with file_of(text) as source:
        assert run(["4096"], source) == (lines, b"", 0)


def test_million_reads():
    """Each of one byte, with a line of 16 bytes for each of them."""
    with file_of(b"q" * 1_000_000) as source:
        printed, *rest = run(["1"], source)
    assert rest == [b"", 0]
    assert len(printed) == 16_000_000 and printed == LINE_OF_Q * 1_000_000


def test_reads_fail():
    """The read after so many fails. What the pieces before it decide is written, and no more."""
    for piece in (1, 2, 3, 7, 64):
        for count in range(-(-len(TYPED) // piece) + 1):
            text = TYPED[: count * piece]
            lines = b"".join(line for needed, line in DECIDED if needed <= len(text))
            with failing(text) as source:
                found = run([str(piece)], source)
            assert found == (lines, b"keyshow: read failed\n", 1), (piece, count)


def limited(most):
    """What has a program's files have at most so many bytes, by which its writes are cut short and
    fail. (Python ignores the signal that comes then, and the program inherits that.)"""
    limit = (most, resource.getrlimit(resource.RLIMIT_FSIZE)[1])
    set_limit = functools.partial(resource.setrlimit, resource.RLIMIT_FSIZE, limit)
    return {"preexec_fn": set_limit, "restore_signals": False}


@pytest.mark.parametrize("piece", PIECES)
def test_writes_fail(piece):
    """After each number of bytes. A write that is cut short goes on, and none follows one that
    failed."""
    lines = FIVE + b"key Escape NONE\n"
    for most in range(len(lines) + 1):
        with file_of(TYPED) as source, tempfile.TemporaryFile() as target:
            _, *ended = run([str(piece)], source, target, **limited(most))
            target.seek(0)
            written = target.read()
        failed = [b"keyshow: write failed\n", 1] if most < len(lines) else [b"", 0]
        assert (written, ended) == (lines[:most], failed), most


@contextlib.contextmanager
def running(piece):
    """The program between two connections: each packet that it is sent is a read of it, and each
    write of it is a packet. Nothing more is written when the input ends."""
    ours, source = connection()
    target, theirs = connection()
    with ours, target:
        with source, theirs:
            process = subprocess.Popen([KEYSHOW, str(piece)], stdin=source, stdout=theirs)
        with process:
            try:
                yield ours.send, lambda: target.recv(1 << 17)
                ours.close()
                assert target.recv(1 << 17) == b""
                assert process.wait(SECONDS) == 0
            finally:
                process.kill()


@pytest.mark.parametrize("most, written", WRITES)
def test_writes_before_the_next_read(most, written):
    """The lines of each read are one write, which comes before the next read."""
    text = b"ab\033[Ac"
    with running(64) as (send, receive):
        for number, lines in enumerate(written):
            send(text[number * most :][:most])
            if lines:
                assert receive() == lines, number


@pytest.mark.parametrize("piece", PIECES)
def test_asks_for_a_piece(piece):
    """Each read asks for a whole piece."""
    with running(piece) as (send, receive):
        for _ in range(10):
            send(b"q" * 5000)
            assert receive() == LINE_OF_Q * piece
