"""The server of the page, python/hedrugal/page, over sockets: what it refuses, and that its answers
are the library's. Names, origins, methods, paths and bodies of any size are tried."""
import collections
import contextlib
import functools
import http.client
import itertools
import json
import operator
import random
import re
import signal
import socket
import string
import subprocess
import sys
import time
import unittest.mock
import urllib.parse
from concurrent.futures import ThreadPoolExecutor

import hedrugal
import pytest
from conftest import SECONDS, TOP, entries_after, header_constant, run_without_terminal
from hedrugal import KeyCode, KeyPress, Modifiers, Parser, encode
from hedrugal.page import meanings
from hedrugal.page.lines import key_line, key_name, press_name, set_name, waiting_name
from hedrugal.page.lines import line as line_of
from hedrugal.page.reader import ENDS, READINGS, finish
from hedrugal.page.recorded import load
from hedrugal.page.server import AT_ONCE, FILES, MOST, Handler, Server
from terminal_data import lines_of
from terminal_judge import is_exact, reader_of
from terminal_tables import title

STREAM = b"hello\x1b[A\x1b\x1b[200~ab\xc3\xa9cd\x1b[201~q\x1b[<0;3;4M\xff\x1b[27;5;13~\xc3\xa9"
STREAM += b"<script>alert(1)</script>"
RESTS = b"\x1b \x1b\x1b \x1b[ \x1bO \x1b[1; \x1b\x1b[1 \x1b[<0;3 \xe2\x82 \x1b[200~ab \x1b[200~\xc3"
RESTS = [b"", *RESTS.split()]
# What the sequence table doesn't know: replies, reports and strings, and their beginnings.
EXTENDED_STREAM = b"q\x1b[24;80R\x1b\x1b[I\x1b]11;#fff\a\x1b[1;9A\x1b[97;5:3u\x1bP>|x\x1b\\"
EXTENDED_STREAM += b"\x1b]a\rb\x1b[M !!\x1b[?62;4c\xc3\xa9"
# The beginnings, and what each is called that begins no entry of the table.
BEGINNINGS = b"\x1b[? \x1b]11 \x1b]l\x1b \x1bP@ \x1bP1$ \x1b_ \x1b[[ \x1bO2 \x1b\x1b]1 \x1b\x1b[?1"
BEGINNINGS = [*BEGINNINGS.split(), b"\x1bO0"]
BEGUN = "csi osc osc dcs dcs apc report report osc csi report".split()
# What each answer, also a refusal, tells the browser.
POLICY = """default-src 'none'; script-src 'self'; style-src 'self'; img-src 'self';
connect-src 'self'; base-uri 'none'; form-action 'none'; frame-ancestors 'none';
require-trusted-types-for 'script'; trusted-types 'none'"""
HEADERS = """Cache-Control:no-store Referrer-Policy:no-referrer X-Content-Type-Options:nosniff
X-Frame-Options:DENY Cross-Origin-Opener-Policy:same-origin
Cross-Origin-Resource-Policy:same-origin"""
HEADERS = dict(it.split(":") for it in HEADERS.split())
HEADERS["Content-Security-Policy"] = POLICY.replace("\n", " ")
POSTED = ["/api/read", "/api/reads", "/api/cut"]


class Client:
    """Asks the server, and compares its answers with the library's."""

    def __init__(self, server):
        self.port, self.host = server.port, f"127.0.0.1:{server.port}"

    def connect(self):
        return socket.create_connection(("127.0.0.1", self.port), SECONDS)

    def ask(self, method, path, body=None, **headers):
        """The status, headers and body. A header None is left out, and of a list each is sent."""
        connection = http.client.HTTPConnection(self.host, timeout=SECONDS)
        connection.putrequest(method, path, skip_host=True, skip_accept_encoding=True)
        length = None if body is None else str(len(body))
        for name, value in {"Host": self.host, "Content_Length": length, **headers}.items():
            for each in value if isinstance(value, list) else [value]:
                if each is not None:
                    connection.putheader(name.replace("_", "-"), each)
        connection.endheaders(body)
        answer = connection.getresponse()
        data = answer.read()
        connection.close()
        for name, value in HEADERS.items():
            assert answer.headers.get_all(name) == [value], (method, path)
        # No answer is for other origins.
        assert "access-control" not in str(answer.headers).lower()
        return answer.status, answer.headers, data

    def status(self, method, path, body=None, **headers):
        return self.ask(method, path, body, **headers)[0]

    def status_of(self, path, **headers):
        """The status of a request as the page makes it, with further headers."""
        asked = ["POST", path, b"q"] if path in POSTED else ["GET", path]
        return self.status(*asked, **headers)

    def told(self, path, data=None):
        status, headers, body = self.ask("GET" if data is None else "POST", path, data)
        assert (status, headers["Content-Type"]) == (200, "application/json")
        return json.loads(body)

    def waits(self, data, reading="table", **wanted):
        """What waits, with these words about it."""
        waits = self.told(f"/api/read?reading={reading}", data)["waits"]
        assert not wanted or waits == waits | wanted
        return waits

    def raw(self, data, is_all=True):
        """What comes back for these bytes, after which more are to come unless they are all."""
        with self.connect() as it:
            it.sendall(data)
            if is_all:
                it.shutdown(socket.SHUT_WR)
            return b"".join(iter(lambda: it.recv(1 << 16), b""))

    def posted(self, length, body, is_all=True):
        """The status for a body under a Content-Length, both as bytes. None without an answer."""
        head = f"POST /api/read HTTP/1.1\r\nHost: {self.host}\r\nConnection: close\r\n".encode()
        data = head + b"Content-Length: " + length + b"\r\n\r\n" + body
        words = self.raw(data, is_all).split(b" ")
        return int(words[1]) if len(words) > 1 else None

    def all_items(self, data, end, reading):
        """The items of all portions, and the last answer."""
        items, told = [], None
        while told is None or len(items) < told["events"]:
            told = self.told(f"/api/read?end={end}&reading={reading}&first={len(items)}", data)
            at = sum(it[0] for it in items)
            assert (told["bytes"], told["first"], told["at"]) == (len(data), len(items), at)
            assert told["items"] or not told["events"]
            assert len(told["items"]) <= meanings.ITEMS
            items += told["items"]
        return items, told

    def check(self, data, end, reading="table"):
        with READINGS[reading]() as parser:
            wanted = parser.feed(data)
            flushed = len(wanted)
            wanted += finish(parser, end)
            waiting, kind = parser.waiting_len, parser.waiting
        items, told = self.all_items(data, end, reading)
        assert [it[1] for it in items] == [line_of(event) for event in wanted], data
        presses = [KeyPress.of_event(event) for event in wanted]
        assert [it[3].split(" ")[0] for it in items] == [str(it or "") for it in presses], data
        assert told["flushed"] == (None if end == "more" else flushed)
        waits = told["waits"] or {"length": 0, "kind": "Nothing"}
        assert (waits["length"], waits["kind"]) == (waiting, waiting_name(kind))
        assert sum(it[0] for it in items) + waiting == len(data)
        # Each item's bytes, read alone, emit its event, and no other.
        at = 0
        for length, line, *_ in items[: None if end == "more" else flushed]:
            assert meanings.lines(data[at : at + length], reading) == [line], data[at : at + length]
            at += length
        cuts = (f"cut?at={at}&" for at in (0, 1, len(data) // 2, len(data), len(data) + 9))
        for path in ("reads?", *cuts):
            other = self.told(f"/api/{path}end={end}&reading={reading}", data)
            assert (other["same"], other["bytes"]) == (True, len(data)), (path, data)
        return items, told


@pytest.fixture
def client(server):
    return Client(server)


def test_files(client):
    for path, (name, kind) in FILES.items():
        wanted = (TOP / "python/hedrugal/page" / name).read_bytes()
        status, headers, body = client.ask("GET", path)
        assert (status, headers["Content-Type"], body) == (200, kind, wanted)
        status, headers, body = client.ask("HEAD", path)
        assert (status, headers["Content-Length"], body) == (200, str(len(wanted)), b"")


def test_files_have_nothing_that_the_policy_refuses(client):
    """No script, style or handler in the page's HTML, no address of another server, and nothing in
    the script that makes HTML."""
    texts = {path: client.ask("GET", path)[2].decode() for path in FILES}
    inline = r"<script(?! src=\"page\.js\")|<style|\sstyle=|\son\w+=|javascript:"
    assert not re.search(inline, texts["/"])
    for path, text in texts.items():
        assert re.findall(r"https?://(?!www\.w3\.org/2000/svg)\S*", text) == [], path
    makers = r"innerHTML|outerHTML|insertAdjacentHTML|document\.write|\beval\b|new Function"
    assert not re.search(makers + "|DOMParser|srcdoc|setHTML", texts["/page.js"])


@pytest.mark.parametrize("path", ["/", "/page.js", "/api/table", "/api/read"])
def test_hosts(client, path):
    here, port = client.host, client.port
    others = f"{here}.evil.example user@{here} {here}@evil.example 127.0.0.1:{port + 1}".split()
    others += [f"{it}:{port}" for it in ("evil.example", "[::1]", "127.0.0.2", "0.0.0.0")]
    others += ["127.0.0.1", "localhost", "", None, [here, "evil.example"], [here, here]]
    assert [client.status_of(path, Host=it) for it in (here, f"localhost:{port}")] == [200, 200]
    assert [it for it in others if client.status_of(path, Host=it) != 403] == []


@pytest.mark.parametrize("path", ["/", "/api/table", "/api/encode?name=F1", "/api/read"])
def test_origins(client, path):
    here, evil = f"http://{client.host}", "http://evil.example"
    others = ["null", evil, f"https://{client.host}", f"{here}1", f"{here}/", "http://127.0.0.1"]
    others += ["", f"http://localhost:{client.port}", [here, evil]]
    assert client.status_of(path, Origin=here) == 200
    assert [it for it in others if client.status_of(path, Origin=it) != 403] == []


def test_sites(client):
    sites = ["same-origin", "cross-site", "same-site", "none"]
    statuses = [client.status_of("/api/read", Sec_Fetch_Site=it) for it in sites]
    assert statuses == [200, 403, 403, 403]
    # A link on another page may lead here.
    assert client.status_of("/", Sec_Fetch_Site="cross-site") == 200


def test_paths(client):
    paths = "/none /server.py /__main__.py /page/ /page.css/ /PAGE.CSS /%70age.css /./page.css /api"
    paths += " /../page/page.css /..%2f__init__.py /etc/passwd //etc/passwd /favicon.ico"
    for path in f"{paths} /api/ /api/read/ /api/other".split():
        assert [client.status("GET", path), client.status("POST", path, b"q")] == [404] * 2, path
    assert client.status("GET", "/?a=b") == 200


def test_methods(client):
    methods = {*"GET HEAD POST PUT PATCH DELETE OPTIONS TRACE CONNECT".split()}
    for path in [*FILES, "/api/table", "/api/encode", *POSTED]:
        right = ["GET", "HEAD"] if path in FILES else ["POST"] if path in POSTED else ["GET"]
        for method in methods - {*right}:
            status, headers, _ = client.ask(method, path, b"" if method == "POST" else None)
            assert (status, headers["Allow"]) == (405, ", ".join(right)), (method, path)
    assert client.raw(b"BREW / HTTP/1.1\r\n\r\n").split(b" ")[1] in (b"501", b"403")


@pytest.mark.parametrize("path", POSTED)
def test_sizes(client, path):
    assert [client.status("POST", path, b"q" * count) for count in (0, MOST)] == [200, 200]
    for more in (1, MOST):
        status, headers, _ = client.ask("POST", path, b"q" * (MOST + more))
        assert (status, headers["Connection"]) == (413, "close")
    assert client.status_of(path, Content_Length=str(10**12)) == 413
    assert client.status("POST", path, b"", Content_Length=None) == 411
    chunks = {"Content_Length": None, "Transfer_Encoding": "chunked"}
    assert client.status("POST", path, b"1\r\nq\r\n0\r\n\r\n", **chunks) == 411
    assert client.status_of(path, Content_Length=["1", "1"]) == 411
    assert client.status_of(path, Transfer_Encoding="chunked") == 411


def test_get_with_a_body(client):
    assert client.status("GET", "/", b"q" * 10) == 400


def test_lengths(client):
    """A length is a number in ASCII. No body is shorter, and the rest of a longer isn't read."""
    for length in [b"", b"1" * 30, "١".encode(), *b"-1 +1 x 1.0 0x1 \xb2 1\xb9".split()]:
        assert client.posted(length, b"q") == 400, length
    statuses = [client.posted(b"8", b"q" * count) for count in range(10)]
    assert statuses == [400] * 8 + [200] * 2


def test_seconds(client):
    """A request that isn't whole in time, also byte by byte, ends its connection alone."""
    assert Handler.timeout == 30
    with unittest.mock.patch.object(Handler, "timeout", 0.2):
        assert [client.raw(it, is_all=False) for it in (b"", b"GET / HTTP/1.1\r\n")] == [b""] * 2
        assert client.posted(b"8", b"q", is_all=False) is None
        with client.connect() as slow, pytest.raises(OSError):
            for _ in range(100):
                slow.sendall(b"a")
                time.sleep(0.05)
    assert client.posted(b"1", b"q") == 200


def test_broken_requests(client, capfd):
    """Each is refused, and nothing is printed of it."""
    chance, host = random.Random(5), b"\r\nHost: %s\r\n\r\n" % client.host.encode()
    some = [b"::1", *(chance.randbytes(chance.randrange(9)) for _ in range(100))]
    lines = [b"%s", b"GET %s HTTP/1.1", b"GET http://[%s HTTP/1.1"]
    for case in (
        *(line % it + host for line, it in itertools.product(lines, some)),
        b"\r\n\r\n",
        b"\x16\x03\x01\0\xff",
        b"GET\r\n\r\n",
        b"GET / HTTP/9.9\r\n\r\n",
        b"GET / HTTP/1.1\r\n" + b"A: b\r\n" * 200 + b"\r\n",
        b"GET /%s HTTP/1.1" % (b"a" * 70000) + host,
    ):
        answer = client.raw(case)
        assert b"<" not in answer, case[:40]
        if answer.startswith(b"HTTP"):
            assert int(answer.split(b" ")[1]) >= 400, case[:40]
    assert (client.status("GET", "/"), capfd.readouterr().err) == (200, "")


def test_backlog():
    """So many connections may wait to be accepted, as if the server had no time for them."""
    with Server() as server, contextlib.ExitStack() as stack:
        for _ in range(100):
            stack.enter_context(socket.create_connection(server.server_address, 5))


def test_queries(client):
    wrong = "end=all end= first=-1 first=x first=1e3 a a=1&b=2&c=3&d=4&e=5 end=%ff first=%D9%A1"
    for query in [*wrong.split(), f"first={'9' * 10}"]:
        assert client.status("POST", f"/api/read?{query}", b"q") == 400, query
    readings = ["x", "", "Extended", "table,extended", "extended&reading=x", "%ff"]
    for path, reading in itertools.product(POSTED, readings):
        assert client.status("POST", f"{path}?reading={reading}", b"q") == 400, (path, reading)
    says = client.ask("POST", "/api/read?reading=x", b"q")[2]
    assert says == b"reading is one of table, extended\n"


def test_queries_for_encodings(client):
    wrong = "U%2BD800|U%2B110000|F256|F1&modifiers=HYPER|F1&modifiers=LEADER|a%00".split("|")
    wrong += ["InternalPasteStart2", "", "+".join(33 * "a"), "ctrl%2B", "capslock", "%ff"]
    for query in ("", "key=F1", *(f"name={it}" for it in wrong)):
        assert client.status("GET", f"/api/encode?{query}") == 400, query
    status, headers, body = client.ask("GET", "/api/encode?name=<script>alert(1)</script>")
    assert (status, headers["Content-Type"]) == (400, "text/plain; charset=utf-8")
    assert body == b"no key has this name, at byte 1: 'script>alert(1)</script>'\n"
    says = client.ask("GET", "/api/encode?name=ctrl%2Bx+shift%2B!")[2]
    assert says == b"shift with a sign that shows it, at byte 13: '!'\n"


def test_one_connection(client):
    """A connection is kept for the next request, and ends after a refusal."""
    connection = http.client.HTTPConnection(client.host, timeout=SECONDS)
    for _ in range(3):
        connection.request("POST", "/api/read", b"q")
        assert json.loads(connection.getresponse().read())["events"] == 1
    connection.request("GET", "/none")
    answer = connection.getresponse()
    assert (answer.status, answer.read()) == (404, b"there is no such path\n")
    assert answer.headers["Connection"] == "close"
    connection.close()


def test_only_this_machine(client, server):
    assert server.server_address[0] == "127.0.0.1"
    for address in {"127.0.0.2", socket.gethostbyname(socket.gethostname())} - {"127.0.0.1"}:
        with pytest.raises(OSError):
            socket.create_connection((address, client.port), 5).close()


def test_at_one_time(client):
    """Requests at one time get their own answers, more of them than are computed at once; a slow
    sender stops none of them."""

    def work(letter):
        for length in range(1, 20):
            items = client.told("/api/read", letter.encode() * length)["items"]
            shown = [1, f"key U+{ord(letter):04X} NONE", letter, letter]
            assert [it[:4] for it in items] == [shown] * length

    with client.connect() as slow, ThreadPoolExecutor(2 * AT_ONCE) as threads:
        head = f"POST /api/read HTTP/1.1\r\nHost: {client.host}\r\nContent-Length: 5\r\n\r\nq"
        slow.sendall(head.encode())
        assert len([*threads.map(work, string.ascii_letters[: 2 * AT_ONCE])]) == 2 * AT_ONCE


@pytest.mark.parametrize("end", ENDS)
def test_streams(client, end):
    for rest in RESTS:
        client.check(STREAM + rest, end)
    for reading, rest in itertools.product(READINGS, RESTS + BEGINNINGS):
        client.check(EXTENDED_STREAM + rest, end, reading)
        client.check(rest, end, reading)


@pytest.mark.parametrize("end", ENDS)
def test_portions(client, end):
    for count in (299, 300, 301, 600, 601, 1000):
        items, _ = client.check(b"q" * count + b"\x1b[1;", end)
        assert len(items) == count + (0 if end == "more" else 3)
        client.check(b"q" * count + b"\x1b[200~a", end)


@pytest.mark.parametrize("reading", READINGS)
def test_random_bytes(client, reading):
    seed = random.randrange(1 << 32)
    print(f"the seed is {seed}")
    chance = random.Random(seed)
    pieces = b"\x1b [ O 1;5A <0;3;4 M 200~ \x1b[201~ \xe2 \x82\xac q \xff \0".split(b" ")
    others = b"\x1b] 4; \x1bP >| \x1b_Ga= \x1b\\ \a \x1b[1;9 A R u :3 ? $ \x1b[[".split(b" ")
    for _ in range(60):
        count = chance.randrange(30)
        chosen = [chance.choice(pieces if chance.random() < 0.6 else others) for _ in range(count)]
        client.check(b"".join(chosen), chance.choice(ENDS), reading)


# Bytes, and their lines in each reading.
TYPED = ["key U+005B ALT", *(f"key U+{ord(it):04X} NONE" for it in "24;80R")]
KEYS = ["key U+0071 NONE", "key U+0063 CTRL", "key U+00E9 NONE"]
READ = [
    (b"\x1b[1;9A", ["key UpArrow ALT"], ["key UpArrow SUPER"]),
    (b"\x1b[24;80R", TYPED, ["cursor 24 80"]),
    (b"\x1b[27u", ["key U+001B NONE"], ["key Escape NONE"]),
    (b"\x1b[1;5R", ["key F3 CTRL"], ["key F3 CTRL"]),
    (b"\b\n", ["key Backspace NONE", "key Enter NONE"], ["key U+0008 NONE", "key U+000A NONE"]),
    (b"q\x03\xc3\xa9", KEYS, KEYS),
]


@pytest.mark.parametrize("data, table, extended", READ)
def test_readings(client, data, table, extended):
    """Each reading has its own events. The table's is that of a request that names none."""
    for reading, wanted in {"table": table, "extended": extended}.items():
        items, _ = client.check(data, "more", reading)
        assert [it[1] for it in items] == wanted, reading
        steps = client.told(f"/api/reads?reading={reading}", data)["steps"]
        assert [line for _, *came in steps for line in came] == wanted
        at = min(2, len(data) - 1)
        reads = client.told(f"/api/cut?at={at}&reading={reading}", data)["reads"]
        assert reads[0]["lines"] + reads[1]["lines"] == wanted
    for path in POSTED:
        assert client.told(path, data) == client.told(f"{path}?reading=table", data)


ALL_HELD = "SHIFT+ALT+CTRL+SUPER+HYPER+META+CAPS_LOCK+NUM_LOCK"
# Bytes that the table doesn't know, their line, and what is shown of their text and of their press.
REPORTS = [
    (b"\x1b[97;5:3u", "key U+0061 CTRL release", "a", ""),
    (b"\x1b[97;1:2u", "key U+0061 NONE repeat", "a", "a"),
    (b"\x1b[97:65:99;2;65u", "key U+0061 SHIFT shifted U+0041 base U+0063 text 1:41", "A", "A"),
    (b"\x1b[97::99;;228u", "key U+0061 NONE base U+0063 text 2:c3a4", "ä", "ä"),
    (b"\x1b[97;256:1u", f"key U+0061 {ALL_HELD}", "a", "super+hyper+meta+ctrl+alt+shift+a"),
    (b"\x1b[57414u", "key functional 57414 NONE", "", "enter"),
    (b"\x1b[[B", "key F2 NONE", "", "f2"),
    (b"\x1b[1;1:3A", "key UpArrow NONE release", "", ""),
    (b"\x1b[I", "focus gained", "", ""),
    (b"\x1b[O", "focus lost", "", ""),
    (b"\x1b[?24;80;1R", "cursor 24 80", "", ""),
    (b"\x1b[48;24;80;480;800t", "resized 24 80 480 800", "", ""),
    (b"\x1b[?31u", "keyboard flags 31", "", ""),
    (b"\x1b[32;3;4M", "mouse 3 4 LEFT NONE press 1", "", ""),
    (b"\x1b[<136;3;4M", "mouse 3 4 NONE ALT press 8", "", ""),
    (b"\x1b[<129;3;4m", "mouse 3 4 NONE NONE release 9", "", ""),
    (b"\x1b[23$", "key F11 SHIFT", "", "shift+f11"),
    (b"\x1bO5Q", "key F2 CTRL", "", "ctrl+f2"),
    (b"\x1b[R", "key F3 NONE", "", "f3"),
    (b"\x1b[M", "csi 1:4d", "M", ""),
    (b"\x1b[?62;4c", "csi 6:3f36323b3463", "?62;4c", ""),
    (b"\x1b]11;#fff\a", "osc 7:31313b23666666", "11;#fff", ""),
    (b"\x1b]4;\xff<b>\x1b\\", "osc 6:343bff3c623e", "4;\ufffd<b>", ""),
    (b"\x1b]l\a", "osc 1:6c", "l", ""),
    (b"\x1bP>|x\x1b\\", "dcs 3:3e7c78", ">|x", ""),
    (b"\x1b_Gi=1;OK\x1b\\", "apc 7:47693d313b4f4b", "Gi=1;OK", ""),
    (b"\x1b]0;" + b"x" * 28 + b"\a", "osc 30:303b" + "78" * 22 + "…", "0;" + "x" * 22 + "…", ""),
    (b"\x1b[1089::99;5u", "key U+0441 CTRL base U+0063", "с", "ctrl+с or ctrl+c"),
]


@pytest.mark.parametrize("data, line, glyphs, press", REPORTS)
def test_lines_beyond_the_table(client, data, line, glyphs, press):
    [[*item, written]], told = client.check(data, "more", "extended")
    assert (item, told["waits"]) == ([len(data), line, glyphs, press], None)
    assert written["length"] >= len(written["bytes"]) // 2 > 2


def test_beginnings(client):
    """What begins no entry of the table is named by what it becomes."""
    for rest, begins in zip(BEGINNINGS, BEGUN):
        wanted = {"kind": "Sequence", "length": len(rest), "count": 0, "named": []}
        waits = client.waits(rest, "extended", begins=begins, **wanted)
        assert waits["emits"] == len(waits["flushed"])
        assert waits["mouse"] is None, rest


def test_beginnings_of_the_table_too(client):
    for reading, begins in zip(READINGS, (None, "csi")):
        waits = client.waits(b"\x1b[1;", reading)
        found = waits["begins"], waits["count"], waits["named"][0]
        assert found == (begins, 169, ["1b5b313b3141", "key UpArrow NONE"])
    waits = client.waits(b"\x1b[<0;3", "extended")
    assert (waits["count"], waits["begins"]) == (0, "csi")
    assert waits["mouse"][1] == "mouse 33 4 LEFT NONE press 1"


OPEN = {
    b"\x1b]0;\xff\r" + b"a" * 65528 + b"\x1b": f"osc cut 65532:303bff0d{'61' * 20}…",
    b"\x1bP>|x\x1b": "dcs cut 3:3e7c78",
    b"\x1b_Ga=\a": "apc cut 4:47613d07",
}


@pytest.mark.parametrize("rest, line", OPEN.items(), ids=["osc", "dcs", "apc"])
def test_open_strings(client, rest, line):
    """A string without its end stays buffered. A flush or another sequence cuts it off."""
    wanted = {"kind": "String", "length": len(rest), "begins": line[:3], "emits": 1}
    assert client.waits(rest, "extended") == wanted | {"flushed": [line]}
    assert client.all_items(rest.rstrip(b"\x1b") + b"\x1b[I", "more", "extended")[0][0][1] == line


def test_long_strings(client):
    """Each byte belongs to one part, or to the event that ends the string."""
    data, part = b"\x1b]0;" + b"a" * 131064 + b"bc\aq\x1b]4;", f"osc part 65533:303b{'61' * 22}…"
    wanted = [[65535, part], [65531, part], [5, "osc 6:303b61616263"], [1, "key U+0071 NONE"]]
    for first, at in enumerate([0, 65535, 131066, 131071]):
        told = client.told(f"/api/read?reading=extended&first={first}", data)
        assert [it[:2] for it in told["items"]] == wanted[first:]
        assert (told["at"], told["waits"]["length"]) == (at, 4)
    assert client.waits(data[:65535], "extended")["length"] == 0


def test_waits(client):
    """What stays buffered, and what it may become, for each kind."""
    assert client.waits(b"q") is None
    wanted = {"kind": "Escape", "length": 1, "flushed": ["key Escape NONE"], "with_alt": False}
    wanted |= {"alt": ["1b71", "key U+0071 ALT"], "count": entries_after(b"\x1b")}
    mouse = ["1b5b3c303b333b344d", "mouse 3 4 LEFT NONE press 1"]
    waits = client.waits(b"q\x1b", mouse=mouse, **wanted)
    assert waits["named"][0] == ["1b5b41", "key UpArrow NONE"]
    waits = client.waits(b"\x1b\x1b", flushed=["key Escape ALT"], with_alt=True)
    assert waits["named"][0] == ["1b1b5b41", "key UpArrow ALT"]
    named = [["1b5b32343b357e", "key F12 CTRL"], ["1b5b32343b3575", "key U+0018 CTRL"]]
    waits = client.waits(b"\x1b[24;5", kind="Sequence", count=2, named=named, mouse=None)
    assert len(waits["flushed"]) == 5
    waits = client.waits(b"\x1b[<0;3", kind="Sequence", count=0, named=[])
    assert waits["mouse"][1].startswith("mouse ")
    client.waits(b"\xe2\x82", kind="Character", flushed=["key U+FFFD NONE"] * 2)
    wanted = {"kind": "Paste", "length": 9, "text": 3, "end": b"\x1b[201~".hex()}
    client.waits(b"\x1b[200~abc", flushed=["paste 3:616263"], **wanted)


@pytest.mark.parametrize("reading", READINGS)
def test_what_is_named_is_so(client, reading):
    """Each key that bytes are said to begin is read from the named bytes."""
    for rest in RESTS + BEGINNINGS:
        waits = client.waits(rest, reading) or {}
        alone = [it for it in (waits.get("mouse"), waits.get("alt")) if it]
        for text, *lines in [*waits.get("named", []), *alone]:
            assert bytes.fromhex(text).startswith(rest[len(rest) - waits["length"] :])
            if "InternalPasteStart" not in lines[0]:
                assert meanings.lines(bytes.fromhex(text), reading)[-len(lines) :] == lines


def test_table(client):
    told = client.told("/api/table")
    assert told["version"] == hedrugal.__version__
    assert len(told["rows"]) == header_constant("HED_ENTRY_COUNT")
    assert [b"\x1b[15;5~".hex(), "F5", "CTRL"] in told["rows"]
    assert told["rows"] == sorted(told["rows"], key=lambda row: bytes.fromhex(row[0]))
    for name in told["keys"]:
        assert key_name(meanings.key_of(name)) == name


# Names with further modifiers, and of each key its press and its line.
ENCODED = [
    ("UpArrow", "NONE", {"up": "key UpArrow NONE"}),
    ("up", "CTRL", {"ctrl+up": "key UpArrow CTRL"}),
    ("U+0069", "CTRL", {"ctrl+i": "key U+0069 CTRL"}),
    ("C-i", "NONE", {"ctrl+i": "key U+0069 CTRL"}),
    ("Ctrl+Alt+Enter", "NONE", {"ctrl+alt+enter": "key Enter ALT+CTRL"}),
    ("<S-F5>", "NONE", {"shift+f5": "key F5 SHIFT"}),
    ("€", "ALT", {"alt+€": "key U+20AC ALT"}),
    ("A", "SHIFT", {"A": "key U+0041 SHIFT"}),
    ("shift+tab", "NONE", {"shift+tab": "key Tab SHIFT"}),
    ("C-x C-s", "NONE", {"ctrl+x": "key U+0078 CTRL", "ctrl+s": "key U+0073 CTRL"}),
]


def encodings(client, name, modifiers="NONE"):
    words = urllib.parse.urlencode({"name": name, "modifiers": modifiers})
    return client.told(f"/api/encode?{words}")["keys"]


def modifiers_of(names):
    return functools.reduce(operator.or_, map(Modifiers.__getitem__, names.split("+")))


@pytest.mark.parametrize("name, modifiers, keys", ENCODED)
def test_encodings(client, name, modifiers, keys):
    told = encodings(client, name, modifiers)
    assert [(it["press"], it["line"]) for it in told] == [*keys.items()]
    for (press, line), it in zip(keys.items(), told):
        _, key, held = line.split(" ")
        key, held = meanings.key_of(key), modifiers_of(held)
        assert sent(it["sent"]) == [encode(key, held, modes) for modes in meanings.MODES]
        assert (len(it["sent"]), len(it["kitty"])) == (24, 4)
        for text, *said in it["sent"] + it["kitty"]:
            with Parser() as parser:
                events = parser.feed(bytes.fromhex(text)) + parser.flush()
            names = ", ".join(press_name(event) for event in events)
            lines = ", ".join(map(line_of, events))
            assert said == [lines, names, names == press]


def sent(texts):
    return [bytes.fromhex(it[0]) if it else None for it in texts]


# What is sent under Kitty's flags 1, 5, 9 and 29.
BY_KITTY = {
    "a": [b"a", b"a", b"\x1b[97u", b"\x1b[97;;97u"],
    "A": [b"A", b"A", b"\x1b[97;2u", b"\x1b[97:65;2;65u"],
    "ctrl+i": [b"\x1b[105;5u"] * 4,
    "ctrl+up": [b"\x1b[1;5A"] * 4,
    "ctrl+shift+a": [b"\x1b[97;6u", b"\x1b[97:65;6u", b"\x1b[97;6u", b"\x1b[97:65;6u"],
    "enter": [b"\r", b"\r", b"\x1b[13u", b"\x1b[13u"],
    "hyper+x": [b"\x1b[120;17u"] * 4,
    "kitty57428": [b"\x1b[57428u"] * 4,
}


@pytest.mark.parametrize("name, texts", BY_KITTY.items())
def test_encodings_by_kitty(client, name, texts):
    """Each is read back. What has no modifier or key of that kind elsewhere is sent by it alone."""
    told = encodings(client, name)[0]
    assert (told["press"], sent(told["kitty"])) == (name, texts)
    assert [it[2:] for it in told["kitty"]] == [[name, True]] * 4
    is_alone = name in ("hyper+x", "kitty57428")
    assert [it is None for it in told["sent"]] == [is_alone] * 24


# What a recorded terminal sends for a press: the first and the last of its modes, the bytes, what
# is read in them, whether that is the press, and for which other presses they are sent.
RECORDED = [
    ("ctrl+i", "xterm", "default decckm+deckpam", b"\t", "tab", False, "ctrl+shift+i ctrl+tab tab"),
    ("ctrl+i", "xterm", "mok1 mok1", b"\t", "tab", False, "ctrl+shift+i tab"),
    ("ctrl+i", "xterm", "mok2 mok2", b"\x1b[27;5;105~", "ctrl+i", True, ""),
    ("up", "PuTTY", "default default", b"\x1b[A", "up", True, "shift+up"),
    ("up", "PuTTY", "decckm decckm+deckpam", b"\x1bOA", "up", True, "shift+up"),
    ("backspace", "st", "default decckm+deckpam", b"\x7f", "backspace", True, "ctrl+8"),
    ("backspace", "Vim's terminal", "mok2 kitty1", b"\x7f", "backspace", True, ""),
    ("alt+a", "xterm", "default mok1", b"\xc3\xa1", "á", False, ""),
    ("super+up", "xterm", "default mok2", b"\x1b[A", "up", False, "up"),
    ("ctrl+!", "foot", "kitty1 kitty1", b"\x1b[49;6u", "ctrl+shift+1", True, ""),
]
# QTerminal's settings say that Backspace sends byte 8.
OTHERS = "ctrl+h ctrl+shift+h shift+backspace"
RECORDED += [("backspace", "qterminal", "default decckm+deckpam", b"\b", "backspace", True, OTHERS)]


@pytest.mark.parametrize("name, terminal, modes, data, read, is_right, others", RECORDED)
def test_recorded(client, name, terminal, modes, data, read, is_right, others):
    rows = encodings(client, name)[0]["recorded"]
    told = [
        (f"{modes[0]} {modes[-1]}", bytes.fromhex(digits), press, same, " ".join(others))
        for at, modes, (digits, _, press, same), others in rows
        if at == terminal
    ]
    assert (modes, data, read, is_right, others) in told


def test_recorded_presses():
    """A press of the keyboard has one text in a mode, and is read as itself if docs/TERMINALS.md
    counts it so. In modes of cursor keys that counts other presses too."""
    told, texts = collections.defaultdict(set), set()
    for name in load()[1]:
        [key] = meanings.texts(name, "NONE")["keys"]
        for terminal, modes, (digits, _, _, is_right), _ in key["recorded"]:
            for mode in modes:
                assert (terminal, mode, name) not in texts
                texts.add((terminal, mode, name))
                told[terminal, mode, bytes.fromhex(digits)].add(is_right)
    assert len(texts) > 25000
    for terminal, line in lines_of("press"):
        for mode in line.modes.split(",") if line.what.isascii() and not line.layout else []:
            found = told.get((title(terminal), mode, line.bytes))
            if found and not mode.startswith("dec"):
                assert (True in found) == is_exact(reader_of(terminal), line), (terminal, line)


def test_keys_that_are_no_press(client):
    """A name of keyshow is that key: Shift sends nothing, and Kitty's protocol reports it."""
    told = encodings(client, "LeftShift")[0]
    assert (told["line"], told["press"], {*sent(told["sent"])}) == ("key LeftShift NONE", "", {b""})
    assert told["kitty"][-1][1:] == ["key LeftShift NONE", "no press", True]


def test_names_are_those_of_keyshow():
    """The lines are those of the cases."""
    names = [key_name(it) for it in (KeyCode.UP_ARROW, "q", "\U0001f600")]
    assert names == ["UpArrow", "U+0071", "U+1F600"]
    assert set_name(Modifiers.CTRL | Modifiers.SHIFT | Modifiers.ALT) == "SHIFT+ALT+CTRL"
    cases = (TOP / "tests/cases/events.txt").read_text(encoding="utf-8")
    lines = "\n".join(re.findall("^termwiz.*", cases, flags=re.M))
    keys = {*re.findall(r"\bkey (\S+) ([A-Z+]+)(?=[,|\s])", lines)}
    assert len(keys) > 20
    for key, held in keys:
        assert key_line(meanings.key_of(key), modifiers_of(held)) == f"key {key} {held}"


PIECES = [b"a", b"\x1b[A", b"\x1b", b"\xff", b"\x1b[200~a\x1b[201~"]
BEYOND = [b"\x1b[97;5:3u", b"\x1b]11;#fff\a", b"\x1b]0;" + b"a" * 65536]
LONG = [("table", 2, it) for it in [*PIECES, b"\xe2\x82\xac", b"\x1b[<0;3;4M"]]
LONG += [("extended", 4, it) for it in PIECES + BEYOND]


@pytest.mark.parametrize("path", ["read?end=more&first=0&", "reads?", "cut?at=5000&"])
@pytest.mark.parametrize("reading, seconds, piece", LONG, ids=lambda it: repr(it)[:20])
def test_a_megabyte(client, path, reading, seconds, piece):
    """The processor takes two seconds, and four in the extended dialect. The answer is short."""
    data, began = (piece * (MOST // len(piece) + 1))[:MOST], time.process_time()
    status, _, body = client.ask("POST", f"/api/{path}reading={reading}", data)
    assert time.process_time() - began < seconds
    assert (status, len(body) < 1 << 16) == (200, True) and json.loads(body)


PROGRAM = [sys.executable, "-W", "error", "-m", "hedrugal.page"]


def start_program(*words):
    """Starts the program. It heeds interrupts, also if a shell runs the tests in the background."""
    how = {"stdin": subprocess.DEVNULL, "stdout": subprocess.PIPE, "stderr": subprocess.PIPE}
    how["preexec_fn"] = lambda: signal.signal(signal.SIGINT, signal.SIG_DFL)
    return subprocess.Popen([*PROGRAM, *words], cwd="/", text=True, **how)


def run_program(*words):
    done = run_without_terminal([*PROGRAM, *words], cwd="/", text=True)
    return done.returncode, done.stdout, done.stderr


HELP = r"(?s).*python3 -m hedrugal\.page \[--port N\].*"
UNKNOWN = r"hedrugal\.page: what is '.*'\? --help lists the words\n"
PORT = r"(?s).*--port wants a number from 1 to 65535.*"
RUNS = {"--help": (0, HELP, "")}
RUNS |= {
    it: (2, "", UNKNOWN) for it in ("x", "--prot 1", "--port 8080 x", "--help x", "x --help", "")
}
RUNS |= {f"--port {it}".strip(): (2, "", PORT) for it in ("", "x", "0", "65536", "-1", "08080000")}


@pytest.mark.parametrize("words, wanted", RUNS.items(), ids=RUNS)
def test_program_words(words, wanted):
    status, *said = run_program(*words.split(" "))
    assert status == wanted[0] and all(map(re.fullmatch, wanted[1:], said)), said


def test_program_serves_until_it_is_interrupted():
    with start_program() as process:
        port = re.fullmatch(r"http://127\.0\.0\.1:(\d+)/\n", process.stdout.readline())[1]
        connection = http.client.HTTPConnection(f"127.0.0.1:{port}", timeout=SECONDS)
        connection.request("GET", "/")
        assert b"<h1>What do these bytes mean?</h1>" in connection.getresponse().read()
        status, printed, errors = run_program("--port", port)
        assert (status, printed) == (1, "")
        assert f"port {port} can't be used" in errors
        connection.request("GET", "/none")
        assert connection.getresponse().status == 404
        process.send_signal(signal.SIGINT)
        # No request is logged.
        errors = "hedrugal.page: open this address in a browser; Ctrl-C ends it\n\n"
        assert (process.wait(SECONDS), process.stderr.read()) == (0, errors)
        connection.close()
    with start_program("--port", port) as process:
        assert process.stdout.readline() == f"http://127.0.0.1:{port}/\n"
        process.send_signal(signal.SIGINT)
        assert process.wait(SECONDS) == 0
