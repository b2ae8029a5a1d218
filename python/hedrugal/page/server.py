"""The server of the page. It is reached from this machine alone, by its own page alone, and serves
nothing but the page's files and the answers of `meanings`.

A request is answered only if its Host is this server's address, so that no other name can be bound
to the address. Its Origin, if there is one, has to be the page's. No file is named by a request:
the four files are read once."""
from __future__ import annotations

import io
import json
import os
import socket
import socketserver
import sys
import threading
import time
from http.server import BaseHTTPRequestHandler, ThreadingHTTPServer
from typing import Any, Dict, Iterable, List, Optional, Tuple
from urllib.parse import SplitResult, parse_qs, urlsplit

from .meanings import Meanings, Wrong, texts
from .reader import ENDS, READINGS

ADDRESS = "127.0.0.1"
# The bytes that a request may have, and the bytes and the seconds for which one that was refused is
# read on.
MOST, MOST_IGNORED, IGNORING = 1 << 20, 1 << 26, 2
# The requests that are computed at one time.
AT_ONCE = 4
# The seconds for which a connection may be idle, a request be read, and an answer be written.
SECONDS = 30
# The connections that may wait until they are accepted.
BACKLOG = 128

FILES = {
    "/": ("index.html", "text/html; charset=utf-8"),
    "/page.css": ("page.css", "text/css; charset=utf-8"),
    "/page.js": ("page.js", "text/javascript; charset=utf-8"),
    "/icon.svg": ("icon.svg", "image/svg+xml"),
}

# The answers, by path, and the method by which each is asked for.
ANSWERS = {
    "/api/table": "GET",
    "/api/encode": "GET",
    "/api/read": "POST",
    "/api/reads": "POST",
    "/api/cut": "POST",
}

# What the browser may do with the page: load the files above, ask this server, and run no other
# script.
POLICY = (
    "default-src 'none'; script-src 'self'; style-src 'self'; img-src 'self'; "
    "connect-src 'self'; base-uri 'none'; form-action 'none'; "
    "frame-ancestors 'none'; require-trusted-types-for 'script'; trusted-types 'none'"
)

HEADERS = {
    "Cache-Control": "no-store",
    "Content-Security-Policy": POLICY,
    "Cross-Origin-Opener-Policy": "same-origin",
    "Cross-Origin-Resource-Policy": "same-origin",
    "Referrer-Policy": "no-referrer",
    "X-Content-Type-Options": "nosniff",
    "X-Frame-Options": "DENY",
}


class Refused(Exception):
    """A request that isn't answered: its status, and why."""

    def __init__(self, status: int, why: str, **headers: str) -> None:
        super().__init__(why)
        self.status, self.why, self.headers = (
            status,
            why,
            {name.title(): value for name, value in headers.items()},
        )


class Server(ThreadingHTTPServer):
    """The server, on a port of 127.0.0.1. Port 0 is a free one."""

    daemon_threads = True
    request_queue_size = BACKLOG

    def __init__(self, port: int = 0) -> None:
        self.meanings = Meanings()
        self.table = as_json(self.meanings.table())
        folder = os.path.dirname(os.path.abspath(__file__))
        self.files = {
            path: (content(os.path.join(folder, name)), kind)
            for path, (name, kind) in FILES.items()
        }
        self.turn = threading.Semaphore(AT_ONCE)
        super().__init__((ADDRESS, port), Handler)
        self.hosts = [f"{name}:{self.port}" for name in (ADDRESS, "localhost")]

    @property
    def port(self) -> int:
        return int(self.server_address[1])

    @property
    def url(self) -> str:
        return f"http://{ADDRESS}:{self.port}/"

    def server_bind(self) -> None:
        """Binds the port without asking for the machine's name."""
        socketserver.TCPServer.server_bind(self)

    def handle_error(self, request: Any, client_address: Any) -> None:
        """A connection that breaks is no fault of the server. Anything else is shown."""
        if not isinstance(sys.exc_info()[1], OSError):
            super().handle_error(request, client_address)


def content(path: str) -> bytes:
    with open(path, "rb") as opened:
        return opened.read()


def as_json(value: Any) -> bytes:
    return json.dumps(value, ensure_ascii=False, separators=(",", ":")).encode()


class Source(io.RawIOBase):
    """What a connection sends. A request has to begin within so many seconds, and then to be whole
    within as many."""

    def __init__(self, connection: socket.socket, seconds: float) -> None:
        self.connection, self.seconds = connection, seconds

    def await_request(self) -> None:
        self.end, self.has_begun = time.monotonic() + self.seconds, False

    def readable(self) -> bool:
        return True

    def readinto(self, room: Any) -> int:
        left = self.end - time.monotonic()
        if left <= 0:
            raise socket.timeout("the request takes too long")
        self.connection.settimeout(left)
        count = self.connection.recv_into(room)
        if not self.has_begun:
            self.end, self.has_begun = time.monotonic() + self.seconds, True
        return count


class Handler(BaseHTTPRequestHandler):
    """Answers the requests of a connection. The timeout is also that of writing an answer."""

    server: Server
    protocol_version = "HTTP/1.1"
    timeout = SECONDS

    def setup(self) -> None:
        super().setup()
        self.rfile.close()
        self.source = Source(self.connection, self.timeout)
        self.rfile = io.BufferedReader(self.source)

    def handle_one_request(self) -> None:
        self.source.await_request()
        super().handle_one_request()

    def version_string(self) -> str:
        return "hedrugal"

    def log_message(self, *_: Any) -> None:
        """Nothing is logged: what a user types stays with the user."""

    def do_GET(self) -> None:
        try:
            self.check_sender()
            url = self.url()
            if url.path in self.server.files and self.command in ("GET", "HEAD"):
                self.skip_body()
                self.reply(200, *self.server.files[url.path])
            elif url.path in self.server.files:
                raise Refused(405, "this path is read by GET", allow="GET, HEAD")
            elif url.path in ANSWERS:
                self.answer(url.path, url.query)
            else:
                raise Refused(404, "there is no such path")
        except Refused as refused:
            self.refuse(refused)

    do_HEAD = do_POST = do_PUT = do_PATCH = do_DELETE = do_OPTIONS = do_TRACE = do_CONNECT = do_GET

    def url(self) -> SplitResult:
        try:
            return urlsplit(self.path)
        except ValueError:
            raise Refused(400, "the path can't be read") from None

    def check_sender(self) -> None:
        """Refuses what comes under another name, or from a page of another origin."""
        hosts: List[str] = self.headers.get_all("Host") or []
        origins: List[str] = self.headers.get_all("Origin") or []
        if len(hosts) != 1 or hosts[0] not in self.server.hosts:
            raise Refused(403, "the Host isn't this server")
        if any(origin != f"http://{hosts[0]}" for origin in origins):
            raise Refused(403, "the Origin isn't this page")

    def answer(self, path: str, query: str) -> None:
        if self.headers.get("Sec-Fetch-Site", "same-origin") != "same-origin":
            raise Refused(403, "this isn't asked by the page")
        if self.command != ANSWERS[path]:
            raise Refused(405, f"this path is asked by {ANSWERS[path]}", allow=ANSWERS[path])
        data = self.body()
        try:
            named = parse_qs(
                query,
                keep_blank_values=True,
                strict_parsing=bool(query),
                max_num_fields=4,
                errors="strict",
            )
            with self.server.turn:
                told = (
                    self.server.table
                    if path == "/api/table"
                    else as_json(self.told(path, named, data))
                )
        except Wrong as wrong:
            raise Refused(400, str(wrong)) from None
        except ValueError:
            raise Refused(400, "the query can't be read") from None
        except MemoryError:
            raise Refused(503, "memory was refused") from None
        self.reply(200, told, "application/json")

    def told(self, path: str, named: Dict[str, List[str]], data: bytes) -> Any:
        """What the library says, as a value for JSON."""
        words = {name: values[-1] for name, values in named.items()}
        if path == "/api/encode":
            return texts(words.get("name", ""), words.get("modifiers", "NONE"))
        reading, end = one_of(READINGS, words, "reading"), one_of(ENDS, words, "end")
        if path == "/api/read":
            return self.server.meanings.read(data, reading, end, number(words, "first"))
        if path == "/api/reads":
            return self.server.meanings.reads(data, reading, end)
        return self.server.meanings.cut(data, reading, end, number(words, "at"))

    def length(self) -> int:
        """The length of the request's body."""
        lengths: List[str] = self.headers.get_all("Content-Length") or []
        if self.headers.get("Transfer-Encoding") is not None or len(lengths) > 1:
            raise Refused(411, "one Content-Length is wanted")
        if not lengths and self.command == "POST":
            raise Refused(411, "a Content-Length is wanted")
        text = lengths[0] if lengths else "0"
        if not (text.isascii() and text.isdigit() and len(text) < 16):
            raise Refused(400, "the Content-Length is no number")
        return int(text)

    def body(self) -> bytes:
        length = self.length()
        if length > MOST:
            raise Refused(413, f"a request has at most {MOST} bytes")
        data = self.rfile.read(length)
        if len(data) < length:
            raise Refused(400, "the body is shorter than its Content-Length")
        return data

    def skip_body(self) -> None:
        if self.length():
            raise Refused(400, "this path takes no body")

    def refuse(self, refused: Refused) -> None:
        """Says why, and ends the connection. What else the sender sends is read for a moment, since
        it may get no answer otherwise."""
        self.close_connection = True
        self.reply(
            refused.status,
            f"{refused.why}\n".encode(),
            "text/plain; charset=utf-8",
            {**refused.headers, "Connection": "close"},
        )
        end, left = time.monotonic() + IGNORING, MOST_IGNORED
        self.connection.shutdown(socket.SHUT_WR)
        self.connection.settimeout(IGNORING)
        while left > 0 and time.monotonic() < end:
            read = len(self.connection.recv(1 << 16))
            if not read:
                break
            left -= read

    def send_error(
        self, code: int, message: Optional[str] = None, explain: Optional[str] = None
    ) -> None:
        """What http.server itself refuses, as a line too long."""
        self.refuse(Refused(int(code), "the request can't be read"))

    def reply(
        self, status: int, data: bytes, kind: str, headers: Optional[Dict[str, str]] = None
    ) -> None:
        self.connection.settimeout(self.timeout)
        self.send_response(status)
        sizes = {"Content-Type": kind, "Content-Length": str(len(data))}
        for name, value in {**HEADERS, **sizes, **(headers or {})}.items():
            self.send_header(name, value)
        self.end_headers()
        if self.command != "HEAD":
            self.wfile.write(data)


def number(words: Dict[str, str], name: str) -> int:
    """The number that a word of the query has, 0 if there is none."""
    text = words.get(name, "0")
    if not (text.isascii() and text.isdigit() and len(text) < 10):
        raise Wrong(f"{name} is a number")
    return int(text)


def one_of(names: Iterable[str], words: Dict[str, str], name: str) -> str:
    """The one of these names that a word of the query has, the first of them if there is no such
    word."""
    known = [*names]
    word = words.get(name, known[0])
    if word not in known:
        raise Wrong(f"{name} is one of {', '.join(known)}")
    return word


def at_port(port: int) -> Tuple[Optional[Server], str]:
    """A server on a port, or why there is none."""
    try:
        return Server(port), ""
    except OSError as error:
        return None, os.strerror(error.errno or 0)
