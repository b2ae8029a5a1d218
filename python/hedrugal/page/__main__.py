"""Serves a page that shows what bytes mean, for a browser on this machine.

    python3 -m hedrugal.page [--port N]

It prints the page's address. Open it in a browser. N is a port of 127.0.0.1, and a free one if it
is left out. No other machine reaches the server. It ends at Ctrl-C."""
from __future__ import annotations

import sys
from typing import List, Optional


def port_of(words: List[str]) -> Optional[int]:
    """The port that the words name, 0 if they name none. None if they can't be read: then it said
    why."""
    if not words:
        return 0
    if words[0] != "--port" or len(words) > 2:
        word = words[0] if words[0] != "--port" else words[2]
        print(f"hedrugal.page: what is '{word}'? --help lists the words", file=sys.stderr)
        return None
    text = words[1] if len(words) > 1 else ""
    if not (text.isascii() and text.isdigit() and len(text) < 6 and 0 < int(text) < 65536):
        print(
            "hedrugal.page: --port wants a number from 1 to 65535 after it; --help says more",
            file=sys.stderr,
        )
        return None
    return int(text)


def main() -> int:
    words = sys.argv[1:]
    if words == ["--help"]:
        print(__doc__)
        return 0
    port = port_of(words)
    if port is None:
        return 2
    from .server import at_port

    server, why = at_port(port)
    if server is None:
        print(f"hedrugal.page: port {port} can't be used: {why}", file=sys.stderr)
        return 1
    with server:
        try:
            print(server.url, flush=True)
            print("hedrugal.page: open this address in a browser; Ctrl-C ends it", file=sys.stderr)
            server.serve_forever()
        except KeyboardInterrupt:
            print(file=sys.stderr)
    return 0


if __name__ == "__main__":
    sys.exit(main())
