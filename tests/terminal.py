"""A program on a pseudo-terminal, as the job of a shell."""
import contextlib
import fcntl
import io
import multiprocessing
import os
import re
import signal
import struct
import subprocess
import termios
import time
import tty

from conftest import SECONDS
from pexpect import EOF, TIMEOUT
from pexpect.fdpexpect import fdspawn

# Longer than the 100 ms after which ESC and a byte are a key with Alt, and shorter than the second
# after which a longer prefix is flushed; and longer than both.
PAUSE, LONG_PAUSE = 0.2, 1.3
# The time of a reply over a line that takes 300 ms each way. It is longer than the 200 ms that a
# program waits at least when it ends, and leaves 400 of the second that it waits at most.
SLOW_LINE = 0.6
START, END = b"\033[200~", b"\033[201~"
END_OF_OUTPUT = b"\x1e\x1e"
ENDING_SIGNALS = [signal.SIGHUP, signal.SIGINT, signal.SIGQUIT, signal.SIGTERM]
IFLAG, LFLAG, CC = 0, 3, 6
# Linux's request that opens the other end of a pseudo-terminal.
TIOCGPTPEER = 0x5441


def change_settings(terminal, characters, on=0, off=0, on_in_input=0, off_in_input=0):
    settings = termios.tcgetattr(terminal)
    settings[IFLAG] = settings[IFLAG] & ~off_in_input | on_in_input
    settings[LFLAG] = settings[LFLAG] & ~off | on
    for place, character in characters.items():
        settings[CC][place] = character
    termios.tcsetattr(terminal, termios.TCSANOW, settings)


def set_unusual(terminal, erase=b"\x7f", has_icrnl=True, on_in_input=0, echoes=True, blocks=True):
    """Sets what is nobody's default, so that only a program that kept it can restore it."""
    unusual = {termios.VERASE: erase, termios.VKILL: b"\x14", termios.VINTR: b"\x07"}
    off = termios.ECHOE if echoes else termios.ECHOE | termios.ECHO
    icrnl = 0 if has_icrnl else termios.ICRNL
    change_settings(terminal, unusual, off=off, on_in_input=on_in_input, off_in_input=icrnl)
    os.set_blocking(terminal, blocks)


def stat_of(process):
    """What the system tells of a process, from its state on."""
    with open(f"/proc/{process}/stat") as stat:
        return stat.read().rpartition(")")[2].split()


def set_signals(handler):
    """Of those that a shell ignores. A job has them by default, also where the tests, as a job in
    the background, ignore some."""
    for number in (signal.SIGHUP, signal.SIGINT, signal.SIGQUIT, signal.SIGTTOU):
        signal.signal(number, handler)


def run_shell(words, env, group, told):
    """Runs a job in the foreground, and tells its id and each change of its status. When the job
    stops, the shell has the terminal; SIGUSR1 continues the job in the foreground. Both signals are
    waited for, since a handler may run just before the shell waits for the job. The terminal hangs
    up when the shell ends, and what wasn't read is lost then. So it marks the end of the job's
    output once it is told to, and ends when it is told again."""
    awaited = {signal.SIGCHLD, signal.SIGUSR1}

    def take_terminal():
        os.tcsetpgrp(0, os.getpgrp())
        set_signals(signal.SIG_DFL)
        signal.pthread_sigmask(signal.SIG_UNBLOCK, awaited)

    set_signals(signal.SIG_IGN)
    signal.pthread_sigmask(signal.SIG_BLOCK, awaited)
    job = subprocess.Popen(words, env=env, process_group=group, preexec_fn=take_terminal)
    told.send(job.pid)
    is_running = True
    while is_running:
        if signal.sigwait(awaited) == signal.SIGUSR1:
            os.tcsetpgrp(0, job.pid)
            os.kill(job.pid, signal.SIGCONT)
            continue
        changed, status = os.waitpid(job.pid, os.WUNTRACED | os.WNOHANG)
        if changed:
            is_running = os.WIFSTOPPED(status)
            if is_running:
                os.tcsetpgrp(0, os.getpgrp())
            told.send(status)
    told.recv()
    with contextlib.suppress(OSError):
        termios.tcflow(0, termios.TCOON)
        os.write(0, END_OF_OUTPUT)
    told.recv()


class Terminal(fdspawn):
    """A pseudo-terminal on which a program runs. An orphaned program stays in the group of the
    shell, as below a shell without job control. The system then never stops it by SIGTSTP, since no
    shell could continue it. A stopped terminal takes nothing of what the program writes. Its
    settings say which byte Backspace sends, whether CR that comes is turned into LF, which flags of
    the input are on, whether it echoes, and whether a read of nothing waits."""

    # Descriptors that the shell doesn't have.
    hidden = ()
    # The line that the program prints before all else; and what switches modes or asks.
    FIRST = None
    SWITCH = re.compile(rb"\033\[[?<>]?[\d;]*[hlnuc]|\033\[>4(;\d)?m|\033\]11;\?\033\\")

    def __init__(
        self, words, size=(80, 24), is_orphaned=False, env=None, is_stopped=False, **settings
    ):
        ours, terminal = os.openpty()
        super().__init__(ours, timeout=SECONDS)
        self.logfile_read = io.BytesIO()
        self.resize(*size)
        set_unusual(terminal, **settings)
        self.settings_before = self.settings()
        if is_stopped:
            termios.tcflow(terminal, termios.TCOOFF)
        self.told, told = multiprocessing.Pipe()
        self.shell = os.fork()
        if not self.shell:
            try:
                for it in (ours, *self.hidden):
                    os.close(it)
                self.told.close()
                os.login_tty(terminal)
                run_shell(words, env, None if is_orphaned else 0, told)
            finally:
                os._exit(0)
        os.close(terminal)
        told.close()
        self.job = self.told.recv()
        self.is_running = True

    def close(self):
        """Ends the program if it still runs, and with it the shell."""
        if self.is_running:
            with contextlib.suppress(ProcessLookupError):
                self.kill(signal.SIGKILL)
        for _ in range(2):
            self.tell_shell()
        super().close()
        self.told.close()
        os.waitpid(self.shell, 0)

    def tell_shell(self):
        with contextlib.suppress(OSError):
            self.told.send(None)

    @property
    def output(self):
        """What the program has written, as far as it was read."""
        return self.logfile_read.getvalue().removesuffix(END_OF_OUTPUT)

    def settings(self):
        return termios.tcgetattr(self.child_fd)

    def is_raw(self):
        off = termios.ICANON | termios.ECHO | termios.ISIG
        settings = self.settings()
        return not settings[LFLAG] & off and not settings[IFLAG] & (termios.ICRNL | termios.IXON)

    def modes(self):
        """The modes that the program switched on and not off again, without those that a terminal
        begins with: a line wraps, and the cursor is shown."""
        switched = dict(re.findall(rb"\033\[\?(\d+)([hl])", self.output))
        return {int(mode) for mode, to in switched.items() if to == b"h"} - {7, 25}

    def plain(self):
        """The output without what the program asked and switched."""
        return self.SWITCH.sub(b"", self.output).decode()

    def lines(self):
        return self.plain().split("\r\n")[:-1]

    def shown(self):
        """The lines below the first."""
        return self.lines()[1:]

    def let_end_input(self):
        """Sets the terminal so that ^D ends the input."""
        change_settings(self.child_fd, {termios.VEOF: b"\x04"}, on=termios.ICANON)

    def open_other_end(self):
        return fcntl.ioctl(self.child_fd, TIOCGPTPEER, os.O_RDWR | os.O_NOCTTY)

    def left(self):
        """What nobody has read, as another program reads it."""
        terminal = self.open_other_end()
        before = termios.tcgetattr(terminal)
        tty.setraw(terminal, termios.TCSANOW)
        os.set_blocking(terminal, False)
        with open(terminal, "rb", buffering=0) as rest:
            text = rest.read(4096) or b""
            termios.tcsetattr(terminal, termios.TCSANOW, before)
            return text

    def stop_output(self, action=termios.TCOOFF):
        """Nothing of what the program writes is taken from now on; with TCOON it is again."""
        terminal = self.open_other_end()
        termios.tcflow(terminal, action)
        os.close(terminal)

    def resize(self, columns, rows, width=0, height=0):
        size = struct.pack("4H", rows, columns, width, height)
        fcntl.ioctl(self.child_fd, termios.TIOCSWINSZ, size)

    def wait_for_raw(self):
        self.wait_for(self.is_raw, "raw mode")

    def wait_for_modes(self):
        self.wait_for(self.modes, "modes")

    def hang_up(self, descriptor=None):
        with open(os.devnull, "rb") as nothing:
            os.dup2(nothing.fileno(), descriptor or self.child_fd)

    def play(self, steps):
        """Types bytes, waits for a text that the program writes next, or until what it shows is a
        list of lines, sends a signal, sets a size, calls a function with the terminal, and
        pauses."""
        for step in steps:
            if isinstance(step, bytes):
                self.send(step)
            elif isinstance(step, str):
                self.expect_exact(step)
            elif isinstance(step, list):
                self.wait_for(lambda: self.shown() == step, f"lines {step!r}")
            elif isinstance(step, tuple):
                self.resize(*step)
            elif isinstance(step, signal.Signals):
                self.kill(step)
            elif callable(step):
                step(self)
            else:
                time.sleep(step)

    def wait_for(self, holds, what):
        end = time.monotonic() + SECONDS
        while not holds():
            if self.expect([TIMEOUT, EOF], timeout=0.02):
                time.sleep(0.02)
            assert time.monotonic() < end, f"no {what} in {SECONDS} s after {self.output[-300:]!r}"

    def start_clock(self):
        self.began = time.monotonic()

    def kill(self, number):
        os.kill(self.job, number)

    def end_by(self, *numbers):
        """It ends by the first of these signals."""
        for number in numbers:
            self.kill(number)
        self.check_end(-numbers[0])

    def continue_in_foreground(self):
        os.kill(self.shell, signal.SIGUSR1)

    def next_status(self):
        assert self.told.poll(SECONDS), f"it neither ends nor stops after {self.output[-300:]!r}"
        return self.told.recv()

    def wait_for_stop(self):
        assert os.WIFSTOPPED(self.next_status())

    def stop(self, number=signal.SIGTSTP):
        """Stops it. By SIGTSTP it restores the terminal. By SIGSTOP it can't, and a shell does."""
        self.kill(number)
        self.wait_for_stop()
        if number == signal.SIGSTOP:
            termios.tcsetattr(self.child_fd, termios.TCSANOW, self.settings_before)
            return
        self.check_settings()
        self.wait_for(lambda: not self.modes(), "end of the modes")

    def stop_and_continue(self, number=signal.SIGTSTP):
        self.stop(number)
        self.continue_in_foreground()

    def continue_with(self, number):
        """Sends SIGCONT, or SIGSTOP and then SIGCONT. Nobody else has the terminal."""
        self.kill(number)
        if number == signal.SIGSTOP:
            self.wait_for_stop()
            self.continue_in_foreground()
            self.wait_for(lambda: self.state() != "T", "SIGCONT")

    def state(self):
        """The letter of the system for what it does."""
        return stat_of(self.job)[0]

    def processor_ticks(self):
        """Of the processor, a hundred in a second."""
        return sum(map(int, stat_of(self.job)[11:13]))

    def wait_for_end(self):
        """The status with which the program ends, below zero for a signal. Its output is read."""
        self.wait_for(self.told.poll, "end")
        status = os.waitstatus_to_exitcode(self.next_status())
        self.is_running = False
        self.tell_shell()
        self.expect([END_OF_OUTPUT, EOF])
        return status

    def check_settings(self):
        assert self.settings() == self.settings_before

    def check_end(self, status, has_output=True):
        """It ends so, and restores the terminal: its modes too, unless nobody takes its output."""
        assert self.wait_for_end() == status
        self.check_settings()
        assert not has_output or not self.modes()

    def ends_with(self, *lines, status=0):
        """The same, and it has printed these lines behind its first."""
        self.check_end(status)
        assert self.lines() == [self.FIRST, *lines]


def took(least, most):
    """A step: so many seconds have passed since the clock was started."""

    def check(it):
        assert least < time.monotonic() - it.began < most

    return check


# Steps to play. SIGSTOP stops it, and nobody touches the terminal meanwhile.
STOP, CONTINUE = [signal.SIGSTOP, Terminal.wait_for_stop], Terminal.continue_in_foreground
STOP_AND_CONTINUE = [Terminal.stop, CONTINUE]


def start_output(terminal):
    """What was stopped by stop_output goes on."""
    terminal.stop_output(termios.TCOON)
