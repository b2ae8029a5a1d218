"""A program of the scenarios on its pseudo-terminal, and what a row asks of both."""
import os
import re
import termios
from pathlib import Path

from terminal import Terminal, stat_of

MODES = {"mouse": {1003, 1006}, "focus": {1004}, "screen": {1049}}


class Program(Terminal):
    FIRST = "begun"

    def __init__(self, words, modes, **how):
        self.own_modes = {2004}.union(*(MODES.get(it, ()) for it in modes.split()))
        super().__init__(words, **how)
        self.blocked_before = self.blocks()

    def lines(self):
        """Without those that name a child."""
        return [it for it in super().lines() if not it.startswith("forked ")]

    def blocks(self):
        """Whether a read blocks by the descriptor that the program has from the shell."""
        info = Path(f"/proc/{self.shell}/fdinfo/0").read_text()
        return not int(re.search(r"flags:\s*(\d+)", info)[1], 8) & os.O_NONBLOCK

    def check_open(self):
        """Raw mode is set, and so are the modes of the program's words."""
        self.wait_for_raw()
        self.wait_for(lambda: self.modes() == self.own_modes, f"modes {self.own_modes}")

    def set_as_before(self):
        termios.tcsetattr(self.child_fd, termios.TCSANOW, self.settings_before)

    def check_restored(self):
        self.wait_for(lambda: not self.modes(), "end of the modes")
        self.check_settings()
        assert self.blocks() == self.blocked_before

    def wait_for_end_of_job(self):
        self.wait_for(self.told.poll, "end")

    def end_with(self, status, left):
        """It ends so, and leaves the terminal as it was."""
        assert self.wait_for_end() == status
        self.check_restored()
        if left is not None:
            assert self.left() == left

    # Steps.

    def wait_for_sleep(self):
        """It has nothing to do."""
        self.wait_for(lambda: self.state() == "S", "sleep")

    def start_processor_clock(self):
        self.processor_began = self.processor_ticks()

    def check_processor(self):
        """It waited, and didn't look again and again."""
        assert self.processor_ticks() - self.processor_began < 10

    def expect_forked(self):
        self.expect(rb"forked (\d+)\r\n")
        self.child = int(self.match[1])


def kill_child(number):
    return lambda it: os.kill(it.child, number)


def wait_for_state_of_child(letter):
    return lambda it: it.wait_for(lambda: stat_of(it.child)[0] == letter, f"state {letter}")


def expect(text):
    """What is no line."""
    return lambda it: it.expect_exact(text)


def check(what, wanted):
    """What a method returns."""

    def check_now(it):
        assert what(it) == wanted

    return check_now


def stop_by(number):
    return lambda it: it.stop(number)


def continue_with(number):
    return lambda it: it.continue_with(number)
