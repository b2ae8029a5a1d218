"""terminal.py COUNT (each | all): reads so many events of its terminal by hedrugal.terminal, for
tools/performance.py. It says when it has begun, and with `each` tells of each event."""
import itertools
import sys

from hedrugal.terminal import Terminal


def main():
    _, count, how = sys.argv
    with Terminal(paste=False) as terminal:
        terminal.write("begun\n")
        for _ in itertools.islice(terminal, int(count)):
            if how == "each":
                terminal.write(".")


main()
