"""The inputs of tools/performance.py and tools/growth.sh, the same bytes on every run. Each is a
generator of items: a key, a mouse report or a reply. What it yields without an ESC has an item for
each character.

    tools/measure/corpora.py FOLDER SIZE     writes each input, of at most so many bytes, to FOLDER
"""
import itertools
import random
import sys
from pathlib import Path

ESC = b"\x1b"
WORDS = (
    "the quick brown fox jumps over a lazy dog while editors wait for input from slow links and "
    "every key that was typed comes out once, in order: "
    "ls -la | grep foo; git commit -m fix {x[0]} let y = 42; // done"
).split()
CHARACTERS = list("éßñжΩλ中文字日本語한글€“”…😀🚀") + list(" a")
MODIFIERS = range(2, 9)
NUMBERED = [*range(11, 16), *range(17, 22), *range(23, 27), 28, 29, *range(31, 35)]


def typed(pick):
    while True:
        yield pick.choice(WORDS).encode()
        yield pick.choice([b" "] * 8 + [b"\r", b"\t", b"\x7f", b"\x03"])


def keys(pick):
    while True:
        kind = pick.random()
        if kind < 0.25:
            yield ESC + b"[%c" % pick.choice(b"ABCDHF")
        elif kind < 0.35:
            yield ESC + b"O%c" % pick.choice(b"ABCDPQRS")
        elif kind < 0.65:
            yield ESC + b"[1;%d%c" % (pick.choice(MODIFIERS), pick.choice(b"ABCDHFPQRS"))
        elif kind < 0.75:
            yield ESC + b"[%d~" % pick.choice([2, 3, 5, 6])
        elif kind < 0.85:
            yield ESC + b"[%d~" % pick.choice(NUMBERED)
        else:
            yield ESC + b"[%d;%d~" % (pick.choice(NUMBERED), pick.choice(MODIFIERS))


def csiu(pick):
    while True:
        code, modifiers = pick.randint(32, 126), pick.choice(MODIFIERS)
        one, other = b"[%d;%du" % (code, modifiers), b"[27;%d;%d~" % (modifiers, code)
        yield ESC + (one if pick.random() < 0.5 else other)


def utf8(pick):
    while True:
        yield pick.choice(CHARACTERS).encode()


def mouse(pick):
    while True:
        code = pick.choice([0, 0, 1, 2, 32, 32, 32, 35, 35, 64, 65, 4, 16])
        yield ESC + b"[<%d;%d;%dM" % (code, pick.randint(1, 200), pick.randint(1, 60))


def mixed(pick):
    sources = [typed(pick), utf8(pick), keys(pick), csiu(pick)]
    while True:
        (source,) = pick.choices(sources, [75, 10, 11, 4])
        for _ in range(pick.randint(1, 12)):
            yield next(source)
        if pick.random() < 0.004:
            yield paste(pick, pick.randint(30, 300))


def escapes(_):
    return itertools.repeat(ESC)


CUT = [ESC + front for front in b"|[|O|[1;|[27;5;12|O1;|[20|[11|[1;1".split(b"|")]


def cut(pick):
    while True:
        yield pick.choice(CUT)


def cursor(pick):
    while True:
        yield ESC + b"[%d;%dR" % (pick.randint(1, 60), pick.randint(1, 200))


def focus(pick):
    while True:
        yield ESC + b"[%c" % pick.choice(b"IO")


def device(pick):
    while True:
        yield ESC + b"[?%d;1;2;4;6;22c" % pick.choice([61, 62, 63, 64, 65])


def release(pick):
    while True:
        yield ESC + b"[%d;%d:3u" % (pick.randint(97, 122), pick.choice([1, *MODIFIERS]))


def fitting(items, size):
    """The first items, as many as fit into so many bytes."""
    for item in items:
        size -= len(item)
        if size < 0:
            return
        yield item


def paste(pick, size):
    lines = (
        b" ".join(pick.choice(WORDS).encode() for _ in range(10)) + b"\n" for _ in iter(int, 1)
    )
    return ESC + b"[200~" + b"".join(fitting(lines, size - 12)) + ESC + b"[201~"


TITLES = {
    "typed": "typed text",
    "utf8": "characters of one to four bytes",
    "keys": "arrow, editing and function keys",
    "csiu": "CSI u and modifyOtherKeys",
    "mouse": "mouse reports",
    "mixed": "mostly typed text, with keys and pastes",
    "escapes": "ESC again and again",
    "cut": "beginnings of keys that are cut off",
    "paste": "one paste, for each KB of it",
    "cursor": "positions of the cursor",
    "focus": "focus reports",
    "device": "device attributes (DA1)",
    "release": "releases of keys, by Kitty's protocol",
}


def corpus(name, size):
    """Returns an input of at most so many bytes, and the number of its items."""
    pick = random.Random(name)
    if name == "paste":
        return paste(pick, size), size / 1024
    items = list(fitting(globals()[name](pick), size))
    return b"".join(items), sum(1 if it.startswith(ESC) else len(it.decode()) for it in items)


if __name__ == "__main__":
    for title in TITLES:
        Path(sys.argv[1], title).write_bytes(corpus(title, int(sys.argv[2]))[0])
