"""A server of ten terminals, whose parsers share one table: prints each key that is pressed, as
"terminal 3: ctrl+x".

    python3 python/examples/server.py keys
    socat -,raw,echo=0,escape=4 UNIX:keys       # in each of them, until Ctrl-D"""
import select
import socket
import sys
import time
from typing import Dict, Optional

from hedrugal import KeyPress, Parser

TERMINALS, PASTE = 10, 1 << 20


class Session:
    def __init__(self, number: int, connection: socket.socket) -> None:
        self.number, self.connection, self.parser = number, connection, Parser()
        self.parser.parts = PASTE

    def fileno(self) -> int:
        return self.connection.fileno()

    def serve(self) -> bool:
        """Prints the keys that came. Returns whether the terminal stays."""
        now = time.monotonic()  # before the look: what isn't there by then didn't come up to now
        data: Optional[bytes] = None
        try:
            data = self.connection.recv(4096, socket.MSG_DONTWAIT)
            events = self.parser.feed(data, now) if data else self.parser.end()
        except BlockingIOError:
            events = self.parser.idle(now)
        for press in filter(None, map(KeyPress.of_event, events)):
            print(f"terminal {self.number}: {press}", flush=True)
        return data != b""


def serve(listener: socket.socket) -> None:
    sessions: Dict[int, Session] = {}
    while True:
        limits = (session.parser.timeout() for session in sessions.values())
        wait = min((limit for limit in limits if limit is not None), default=None)
        free = sorted({*range(1, TERMINALS + 1)} - {*sessions})  # without one, a connection waits
        polled = [*sessions.values(), *[listener] * bool(free)]
        if listener in select.select(polled, [], [], wait)[0]:
            sessions[free[0]] = Session(free[0], listener.accept()[0])
        for session in [*sessions.values()]:
            if not session.serve():
                sessions.pop(session.number).connection.close()


with socket.socket(socket.AF_UNIX) as listener:
    try:
        listener.bind(sys.argv[1] if len(sys.argv) == 2 else "x" * 108)
        listener.listen(TERMINALS)
    except OSError as error:
        sys.exit(f"server: {error.strerror or 'Invalid argument'}")
    serve(listener)
