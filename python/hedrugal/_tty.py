"""The descriptors of a terminal, its settings, and the signals of its program."""
from __future__ import annotations

import contextlib
import errno
import fcntl
import os
import select
import signal
import struct
import termios
import threading
import time
from typing import Any, Callable, FrozenSet, Iterator, List, Optional, Set

from .events import Size
from .reading import EraseByte

ENDING = frozenset((signal.SIGHUP, signal.SIGINT, signal.SIGQUIT, signal.SIGTERM))
OTHERS = frozenset((signal.SIGTSTP, signal.SIGCONT, signal.SIGWINCH))


def find_terminal(chosen: Optional[int], standard: int, stack: contextlib.ExitStack) -> int:
    """The descriptor of a terminal: the chosen one, or the standard one, or that of /dev/tty."""
    if chosen is None and os.isatty(standard):
        return standard
    if chosen is None:
        chosen = os.open("/dev/tty", os.O_RDWR | os.O_NOCTTY | os.O_CLOEXEC)
        stack.callback(os.close, chosen)
    if not os.isatty(chosen):
        raise OSError(errno.ENOTTY, f"the descriptor {chosen} is no terminal")
    return chosen


def is_ready(terminal: int, for_what: int, seconds: Optional[float]) -> bool:
    """Waits until a byte can be read or written, at most so many seconds, and returns whether it
    can."""
    poll = select.poll()
    poll.register(terminal, for_what)
    return bool(poll.poll(None if seconds is None else 1000 * seconds))


def read_bytes(terminal: int, most: int) -> Optional[bytes]:
    """Reads bytes. There are none at the end, and it is None if there is nothing after all."""
    try:
        return os.read(terminal, most)
    except BlockingIOError:
        return None
    except OSError as error:
        # So a terminal says that it is gone.
        if error.errno != errno.EIO:
            raise
        return b""


def write_all(terminal: int, data: bytes) -> None:
    """Writes bytes, all of them."""
    rest = memoryview(data)
    while rest:
        try:
            rest = rest[os.write(terminal, rest) :]
        except BlockingIOError:
            is_ready(terminal, select.POLLOUT, None)


def write_at_once(terminal: int, data: bytes, end: float) -> None:
    """Writes bytes one by one as soon as there is room: so no write blocks. What can't be written
    by then is left out."""
    with contextlib.suppress(OSError):
        for at in range(len(data)):
            if not is_ready(terminal, select.POLLOUT, max(0.0, end - time.monotonic())):
                return
            os.write(terminal, data[at : at + 1])


def size_of(terminal: int) -> Size:
    rows, columns, width, height = struct.unpack(
        "HHHH", fcntl.ioctl(terminal, termios.TIOCGWINSZ, bytes(8))
    )
    return Size(columns, rows, width, height)


def settings_of(terminal: int) -> List[Any]:
    found: List[Any] = _call(termios.tcgetattr, terminal)
    return found


def set_settings(terminal: int, changed: List[Any]) -> None:
    """Sets them at once: to wait for what is still to be written would block if nobody reads it."""
    _call(termios.tcsetattr, terminal, termios.TCSANOW, changed)


def discard_input(terminal: int) -> None:
    _call(termios.tcflush, terminal, termios.TCIFLUSH)


def _call(call: Callable[..., Any], *words: Any) -> Any:
    """What a call of termios returns. It goes on after signals, and raises an OSError."""
    while True:
        try:
            return call(*words)
        except termios.error as error:
            if error.args[0] != errno.EINTR:
                raise OSError(*error.args) from None


def erase_byte(of: List[Any]) -> EraseByte:
    """Which byte the Backspace key sends by these settings."""
    is_backspace = of[-1][termios.VERASE] == b"\b"
    return EraseByte.BACKSPACE if is_backspace else EraseByte.DELETE


def raw_settings(of: List[Any]) -> List[Any]:
    """These settings in raw mode, which leaves CR as it is (ICRNL)."""
    iflag, oflag, cflag, lflag, *speeds, characters = of
    iflag &= ~(termios.BRKINT | termios.ICRNL | termios.IGNCR | termios.INLCR)
    iflag &= ~(termios.INPCK | termios.ISTRIP | termios.IXON)
    lflag &= ~(termios.ECHO | termios.ICANON | termios.IEXTEN | termios.ISIG)
    characters = [*characters]
    characters[termios.VMIN], characters[termios.VTIME] = 1, 0
    return [iflag, oflag, cflag, lflag, *speeds, characters]


def replace_wakeup_fd(old: int, new: int) -> None:
    """Has Python write to another descriptor as a signal comes, unless somebody else set one."""
    before = signal.set_wakeup_fd(new, warn_on_full_buffer=False)
    if before != old:
        signal.set_wakeup_fd(before)


class Signals:
    """The signals of a program on a terminal.

    One that ends the process does so once `leave` has restored the terminal. SIGTSTP stops it then,
    and when it goes on, as after any SIGCONT, `resume` is called. SIGWINCH calls `resize`."""

    def __init__(
        self, leave: Callable[[], None], resume: Callable[[], None], resize: Callable[[], None]
    ) -> None:
        self._leave, self._resume, self._resize = leave, resume, resize
        # Signals that came, those that have to wait, and those that are handled here.
        self._noted: Set[int] = set()
        self._held: FrozenSet[int] = frozenset()
        self._handled: List[int] = []

    def handle(self, wakes: int) -> None:
        """Handles those that nobody else handles, if this is the main thread. A byte is written to
        this descriptor as one comes, so that it ends a wait that is just about to begin."""
        if threading.current_thread() is not threading.main_thread():
            return
        for number in ENDING | OTHERS:
            if signal.getsignal(number) is signal.SIG_DFL:
                self._handled.append(number)
                signal.signal(number, self._note)
        self._wakes = wakes
        replace_wakeup_fd(-1, wakes)

    def release(self) -> None:
        """Leaves to the system those that are still handled here."""
        if self._handled:
            replace_wakeup_fd(self._wakes, -1)
        for number in self._handled:
            if signal.getsignal(number) == self._note:
                signal.signal(number, signal.SIG_DFL)
        self._handled.clear()

    @contextlib.contextmanager
    def holding(self, numbers: FrozenSet[int]) -> Iterator[None]:
        """Has these signals wait."""
        before, self._held = self._held, self._held | numbers
        try:
            yield
        finally:
            self._held = before
            self._heed()

    def _note(self, number: int, _: object) -> None:
        """Handles a signal, unless it has to wait until the terminal is switched."""
        self._noted.add(number)
        self._heed()

    def _heed(self) -> None:
        """Handles the signals that came and needn't wait, those that end the process first. Another
        thread than the main one sends them again, since only that one may handle them."""
        if threading.current_thread() is not threading.main_thread():
            for number in self._noted - self._held:
                os.kill(os.getpid(), number)
            return
        while numbers := self._noted - self._held:
            number = min(numbers)
            try:
                self._noted.remove(number)
            except KeyError:
                # A handler that came in between has handled it.
                continue
            if number in ENDING:
                self._end_by(number)
            elif number == signal.SIGTSTP:
                self._stop()
            elif number == signal.SIGCONT:
                self._resume()
            else:
                self._resize()

    def _end_by(self, number: int) -> None:
        """Ends the process as if the signal weren't handled."""
        self._held = ENDING | OTHERS
        try:
            self._leave()
        finally:
            signal.signal(number, signal.SIG_DFL)
            os.kill(os.getpid(), number)

    def _stop(self) -> None:
        """Stops the process. It goes on once a shell continues it, or at once if none could."""
        with self.holding(OTHERS):
            self._leave()
            signal.signal(signal.SIGTSTP, signal.SIG_DFL)
            os.kill(os.getpid(), signal.SIGTSTP)
            signal.signal(signal.SIGTSTP, self._note)
            self._noted.add(signal.SIGCONT)
