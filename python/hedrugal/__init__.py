r"""Key, mouse and paste events, and replies, from the bytes that a terminal sends, and the bytes
that it sends for a key.

    >>> with Parser() as parser:
    ...     for event in parser.feed(b"q\x1b[1;5A"):
    ...         print(event)
    KeyReport(key='q')
    KeyReport(key=KeyCode.UP_ARROW, modifiers=KittyModifiers.CTRL)
    >>> encode(KeyCode.UP_ARROW, Modifiers.CTRL)
    b'\x1b[1;5A'

The parser does no input of its own: the program reads bytes, and passes them on. Its loop waits as
long as the parser says, since only time tells that an ESC is the Escape key:

    >>> import os, select
    >>> def run(terminal, handle):
    ...     def is_ready(seconds):
    ...         return bool(select.select([terminal], [], [], seconds)[0])
    ...     with Parser() as parser:
    ...         data = None
    ...         while data != b"":
    ...             # A wait that ends in a signal's handler doesn't look again.
    ...             if is_ready(parser.timeout()) or is_ready(0):
    ...                 data = os.read(terminal, 4096)
    ...                 events = parser.feed(data) if data else parser.end()
    ...             else:
    ...                 events = parser.idle()
    ...             for event in events:
    ...                 handle(event)
    >>> terminal, keyboard = os.pipe()
    >>> os.write(keyboard, b"q\x1b[A\x1b"), os.close(keyboard)
    (5, None)
    >>> run(terminal, lambda event: print(event.key))
    q
    KeyCode.UP_ARROW
    KeyCode.ESCAPE

hedrugal.terminal has this loop, and sets a terminal up for it. `KeyPress.of_event` tells which key
was pressed, a Chord is the name of keys, and Bindings tell what a program does at which chords.

The module calls the shared library libhedrugal.so by ctypes, and libhedrugal-python.so, which comes
with it, makes its events. The environment variable
HEDRUGAL_LIBRARY names the library's file, or the folder that has it. Both must belong to you or to
root, and not be writable by all users. If the variable isn't set, the library is looked for in this
package's folder, then in the folder prebuilt beside that, as a clone has it, and then where the
system has its libraries. The import raises ImportError if no library is found, or if it is older
than the module, or of another major version."""
__version__ = "0.1.0"

import typing as _typing

from . import bindings, encoders, events, keymap, keys, names, parser, reading, replies, timer
from .bindings import *
from .encoders import *
from .events import *
from .keymap import *
from .keys import *
from .names import *
from .parser import *
from .reading import *
from .replies import *
from .timer import *

# Checkers of types know what these imports bring, and not this sum.
if not _typing.TYPE_CHECKING:
    __all__ = [
        name
        for it in (bindings, encoders, events, keymap, keys, names, parser, reading, replies, timer)
        for name in it.__all__
    ]
