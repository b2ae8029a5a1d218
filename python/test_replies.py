"""What replies say: those that terminals sent, worked ones, and what is none."""
import base64
import pickle
import random

import pytest

import hedrugal
from hedrugal import Apc, ClipboardReply, Csi, Dcs, Osc, Parser, StringKind, StringPart
from hedrugal import VersionReply, reply
from cases import cases_of, event_by, line_of


def test_replies_are_values():
    """Those of the cases."""
    replies = set()
    for _, line in cases_of("replies.txt"):
        replies.add(reply(event_by("extended", line.split(" = ")[0])))
    replies.remove(None)
    assert {type(it) for it in replies} == set(hedrugal.Reply.__args__)
    for it in replies:
        assert pickle.loads(pickle.dumps(it)) == it


# No bytes are read as these.
NO_REPLIES = [Csi(b""), Osc(b""), Dcs(b""), Osc(b"?62c"), Csi(b"11;rgb:0/0/0")]
NO_REPLIES += [Apc(b"11;rgb:0/0/0"), StringPart(StringKind.OSC, b"11;rgb:0/0/0")]


@pytest.mark.parametrize("event", NO_REPLIES, ids=repr)
def test_no_reply(event):
    assert reply(event) is None


def test_a_version_that_is_no_utf_8():
    assert reply(Dcs(b">|\xc3\xa9\xff")) == VersionReply("é\ufffd")


def test_any_bytes():
    """Bytes of any kind are read without an error."""
    draws = random.Random(2)
    for _ in range(20000):
        data = bytes(draws.choices(b";?>!|/:=0123456789abcfrgtyn$\x00\xff", k=draws.randrange(12)))
        for kind in (Csi, Osc, Dcs):
            line_of(reply(kind(data)))


def test_long_clipboard():
    data = bytes(range(256)) * 200
    with Parser() as parser:
        sent = b"\x1b]52;c;" + base64.b64encode(data[:48000]) + b"\x07"
        [event] = parser.feed(sent)
    assert reply(event) == ClipboardReply("c", data[:48000])


def test_exported():
    for name in ("reply", "Reply", "ColourName", "ClipboardReply"):
        assert name in hedrugal.__all__
