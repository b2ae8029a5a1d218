"""What recorded terminals sent. `tests/test_terminals.py --write` makes terminals.tsv of the
recordings."""
from __future__ import annotations

import functools
import operator
import os
import re
from typing import Dict, List, NamedTuple, Tuple

from hedrugal import EraseByte, Reading

# The names of presses of a keyboard of the United States. Others are named beside them alone.
PRESS = re.compile(r"([a-z]+\+)*([!-~]|[a-z0-9]+)")

FILE = os.path.join(os.path.dirname(os.path.abspath(__file__)), "terminals.tsv")


class SetUp(NamedTuple):
    """A terminal and some of its modes. `reading` is what its settings say of the Backspace key."""

    terminal: str
    reading: Reading
    modes: List[str]


class Sent(NamedTuple):
    """The bytes that a terminal sends for a press in these modes, and the other presses for which
    it sends them too."""

    setup: SetUp
    bytes: bytes
    others: List[str]


class Row(NamedTuple):
    """Bytes, the presses for which they are sent, and the places of the set-ups."""

    bytes: bytes
    presses: List[str]
    places: List[int]


@functools.lru_cache(maxsize=None)
def load() -> Tuple[List[SetUp], Dict[str, List[Row]]]:
    """The set-ups of terminals, and the rows of each press."""
    with open(FILE, encoding="utf-8") as opened:
        _, heads, lines = opened.read().split("\n\n")
    setups = []
    for terminal, erase, modes in (it.split("\t") for it in heads.splitlines()):
        setups.append(SetUp(terminal, Reading(erase=EraseByte[erase]), modes.split(",")))
    rows: Dict[str, List[Row]] = {}
    for digits, names, places in (it.split("\t") for it in lines.splitlines()):
        row = Row(bytes.fromhex(digits), names.split(" "), [int(it) for it in places.split(" ")])
        for name in filter(PRESS.fullmatch, row.presses):
            rows.setdefault(name, []).append(row)
    return setups, rows


def terminals() -> List[str]:
    """The names of the terminals that were recorded."""
    return [*dict.fromkeys(it.terminal for it in load()[0])]


def sent(press: str) -> List[Sent]:
    """What each terminal sends for a press of this name, in all modes in which that was recorded.
    Presses with Super are named beside their like alone."""
    setups, rows = load()
    found: List[Tuple[int, Sent]] = []
    for row in rows.get(press, []):
        alike = [it for it in row.presses if "super+" in press or "super+" not in it]
        others = [it for it in alike if it != press]
        found += [(place, Sent(setups[place], row.bytes, others)) for place in row.places]
    return [it for _, it in sorted(found, key=operator.itemgetter(0))]
