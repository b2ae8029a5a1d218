#!/usr/bin/python3
"""Records what a terminal sends: it is started on an X server of its own, real keys are pressed,
and what arrives at a program in it is written to FOLDER/TERMINAL.tsv, to which lines are added.

The columns are terminal, version, mode, key, modifiers, bytes, bytes of the release, and a note.
Bytes are hexadecimal, and | stands where a read ended. In the notes `late` is what came after 0.12
seconds, `skipped` wasn't pressed, `stuck` was answered by a window, and at `ended` the terminal
ended. For the mouse the note has the bytes of the drag, for a paste its text, for a question the
question. KP_Home and so on are the keypad without Num Lock, KP_7 with it. Of long pastes each read
is shortened.

All of xterm takes three minutes; with Kitty's protocol there is more. tools/terminals/collect.py
makes tests/terminals of it.

It needs Debian's xvfb, openbox, xclip, x11-xkb-utils (setxkbmap) and python3-xlib, the locale
en_US.UTF-8, and the terminal."""
import argparse
import os
import select
import shutil
import signal
import socket
import subprocess
import sys
import tempfile
import time
from pathlib import Path

from terminals import TERMINALS

try:
    from Xlib import XK, X, display
    from Xlib.ext import xtest
except ImportError:
    sys.exit("record: there is no python3-xlib: apt-get install python3-xlib")

HERE = Path(__file__).resolve().parent
NEEDED = {"Xvfb": "xvfb", "openbox": "openbox", "xclip": "xclip", "setxkbmap": "x11-xkb-utils"}
SHIFT, ALT, CTRL, SUPER = 1, 2, 4, 8
MOD_NAMES = [(SHIFT, "Shift"), (ALT, "Alt"), (CTRL, "Ctrl"), (SUPER, "Super")]
# The keycodes are evdev's, here of the left keys.
MOD_CODES = [(CTRL, 37), (ALT, 64), (SHIFT, 50), (SUPER, 133)]
ESCAPE, INSERT, ZED, NUM_LOCK = 9, 118, 52, 77
# Seconds: until a key has come, and between two of its reads.
FIRST, QUIET = 0.12, 0.012

# Characters that the layout hasn't, on keycodes that no key has.
SPECIAL = [("é", 0xE9, 231), ("ß", 0xDF, 232), ("€", 0x20AC, 233)]
SPECIAL += [("漢", 0x6F22, 234), ("😀", 0x1F600, 235)]
FEW = set(
    """a 1 / Space Enter Tab Backspace Escape Up Home PageUp Insert Delete F1 F3 F5 F12 KP_Begin
    KP_Enter""".split()
)
# What is pressed in the modes of cursor keys and keypad, beside the keypad.
CURSOR = set(
    """a Enter Tab Backspace Escape Up Down Left Right Home End PageUp PageDown Insert Delete F1 F2
    F3 F4 F5""".split()
)
WITH_SUPER = set("a Up F5 Enter Home 1 Tab".split())
LOCKS = [("Caps_Lock", 66), ("Num_Lock", NUM_LOCK), ("Scroll_Lock", 78)]
OTHERS = [("Shift_L", 50), ("Control_L", 37), ("Alt_L", 64), ("Super_L", 133)]
OTHERS += [("Menu", 135), ("Print", 107), ("Pause", 127)] + [it for it in LOCKS for _ in range(2)]

# A mode: what sets it, what resets it.
MODES = {
    "default": ("", ""),
    "decckm": ("\x1b[?1h", "\x1b[?1l"),
    "deckpam": ("\x1b=", "\x1b>"),
    "decckm+deckpam": ("\x1b[?1h\x1b=", "\x1b[?1l\x1b>"),
    "mok1": ("\x1b[>4;1m", "\x1b[>4;0m"),
    "mok2": ("\x1b[>4;2m", "\x1b[>4;0m"),
    "kitty1": ("\x1b[>1u", "\x1b[<u"),
    "kitty3": ("\x1b[>3u", "\x1b[<u"),
    "kitty5": ("\x1b[>5u", "\x1b[<u"),
    "kitty31": ("\x1b[>31u", "\x1b[<u"),
}

PASTES = {
    "word": b"hello",
    "lines": b"two\nlines\n",
    "crlf": b"one\r\ntwo\rthree",
    "tab": b"a\tb",
    "utf8": "é漢😀".encode(),
    "escape": b"a\x1b[Ab\x1bc",
    "end": b"one\x1b[201~two",
    "start": b"one\x1b[200~two",
    "controls": b"a\x00\x01\x03\x04\x07\x08\x0c\x0e\x16\x7fb",
    "c1": "a\u0080\u009b201~\u0090b".encode(),
    "notutf8": b"a\x80\xff\xe6\xbcb",
    "splitend": b"x\x1b[20\x1b[201~1~y",
    "long": b"0123456789abcdef" * 1024,
    "longutf8": "漢é".encode() * 3000,
}
BUTTONS = dict(
    enumerate("Left Middle Right WheelUp WheelDown WheelLeft WheelRight Back Forward".split(), 1)
)

# Questions by their names.
QUESTIONS = {
    **{"DA1": "\x1b[c", "DA2": "\x1b[>c", "DA3": "\x1b[=c", "DECID": "\x1bZ", "ENQ": "\x05"},
    **{"DSR5": "\x1b[5n", "DSR6": "\x1b[6n"},
    **{"DSR6-row1": "\x1b[H\x1b[6n", "DSR6-row1-col5": "\x1b[1;5H\x1b[6n"},
    **{"DECXCPR": "\x1b[?6n", "DSR63": "\x1b[?63;1n"},
    **{f"DSR{it}": f"\x1b[?{it}n" for it in (15, 25, 26, 53, 62, 75, 996)},
    **{"XTVERSION": "\x1b[>q", "XTVERSION0": "\x1b[>0q"},
    **{"DECREQTPARM": "\x1b[x", "DECREQTPARM1": "\x1b[1x"},
    **{
        f"DECRQM{it}": f"\x1b[?{it}$p"
        for it in (1, 7, 12, 25, 66, 1000, 1002, 1003, 1004, 1005, 1006, 1015, 1016, 1036, 1049)
    },
    **{f"DECRQM{it}": f"\x1b[?{it}$p" for it in (2004, 2026, 2027, 2031, 2048, 9001)},
    **{f"DECRQM-ansi{it}": f"\x1b[{it}$p" for it in (4, 20)},
    **{
        f"OSC{it}": f"\x1b]{it};?\x1b\\"
        for it in "10 11 12 13 17 19 4;1 4;1;?;2 5;0 52;c 52;p 50 21 7".split()
    },
    **{"OSC11-BEL": "\x1b]11;?\x07", "OSC4-BEL": "\x1b]4;1;?\x07"},
    "OSC52-BEL": "\x1b]52;c;?\x07",
    **{"OSC10+11": "\x1b]10;?;?\x1b\\", "OSC99-p": "\x1b]99;i=x:p=?;\x1b\\"},
    "OSC21-kitty": "\x1b]21;foreground=?;background=?\x1b\\",
    **{"KITTY?u": "\x1b[?u", "KITTY>1u?u": "\x1b[>1u\x1b[?u\x1b[<u", "MOK?4m": "\x1b[?4m"},
    **{
        f"XTGETTCAP-{it}": f"\x1bP+q{it.encode().hex()}\x1b\\"
        for it in "TN Co RGB kcuu1 colors Ms nosuch".split()
    },
    "XTGETTCAP-2": f"\x1bP+q{b'TN'.hex()};{b'Co'.hex()}\x1b\\",
    **{
        f"DECRQSS-{name}": f"\x1bP$q{it}\x1b\\"
        for name, it in {
            **{"SGR": "m", "STBM": "r", "SCUSR": " q", "SCA": '"q', "SCL": '"p', "SLRM": "s"},
            "bad": "z",
        }.items()
    },
    **{f"XTWINOPS{it}": f"\x1b[{it}t" for it in (11, 13, 14, 15, 16, 18, 19, 20, 21, "14;2")},
    **{"XTSMGRAPHICS-colors": "\x1b[?1;1;0S", "XTSMGRAPHICS-sixel": "\x1b[?2;1;0S"},
    **{"XTQMODKEYS0": "\x1b[?0m", "XTREPORTCOLORS": "\x1b[#R", "XTREPORTSGR": "\x1b[1;1;2;2#|"},
    "KITTY-graphics": "\x1b_Gi=31,s=1,v=1,a=q,t=d,f=24;AAAA\x1b\\",
    **{"DECRQCRA": "\x1b[1;1;1;1;2;2*y", "DECRQPSR1": "\x1b[1$w", "DECRQPSR2": "\x1b[2$w"},
    **{"DECRQDE": '\x1b["v', "DECRQUPSS": "\x1b[&u", "DECTSR": "\x1b[1$u"},
    **{"2031-on": "\x1b[?2031h", "2048-on": "\x1b[?2048h", "2048-off": "\x1b[?2048l\x1b[?2031l"},
    "locator": "\x1b[1'z\x1b['|\x1b[0'z",
}
# Several questions in one write.
ALL = "\x1b[c\x1b[>c\x1b]11;?\x1b\\\x1b[?6n\x1b[>q\x1b[?u\x1bP+q544e\x1b\\\x1b[5n"


def mods_name(mods):
    return "+".join(name for bit, name in MOD_NAMES if mods & bit) or "-"


def key_table():
    """The keys of a PC keyboard with the layout of the United States: a name, the keycode, and of
    the keypad's keys whether Num Lock is on."""
    keys = []
    for first, letters in {24: "qwertyuiop[]", 38: "asdfghjkl;'`"}.items():
        keys += [(it, first + at) for at, it in enumerate(letters)]
    for first, letters in {51: "\\zxcvbnm,./", 10: "1234567890-="}.items():
        keys += [(it, first + at) for at, it in enumerate(letters)]
    keys.sort(key=lambda it: (not it[0].isalpha(), not it[0].isdigit(), it[0]))
    keys += [("Space", 65), ("Enter", 36), ("Tab", 23), ("Backspace", 22), ("Escape", ESCAPE)]
    keys += [("Up", 111), ("Down", 116), ("Right", 114), ("Left", 113), ("Home", 110)]
    keys += [("End", 115), ("PageUp", 112), ("PageDown", 117), ("Insert", INSERT), ("Delete", 119)]
    keys += [(f"F{1 + it}", 67 + it) for it in range(10)] + [("F11", 95), ("F12", 96)]
    keys += [(f"F{13 + it}", 191 + it) for it in range(12)]
    table = [(*it, None) for it in keys]
    pad = [("Home", "7", 79), ("Up", "8", 80), ("PageUp", "9", 81), ("Subtract", "Subtract", 82)]
    pad += [("Left", "4", 83), ("Begin", "5", 84), ("Right", "6", 85), ("Add", "Add", 86)]
    pad += [("End", "1", 87), ("Down", "2", 88), ("PageDown", "3", 89), ("Insert", "0", 90)]
    pad += [("Delete", "Decimal", 91), ("Enter", "Enter", 104), ("Divide", "Divide", 106)]
    pad += [("Multiply", "Multiply", 63), ("Equal", "Equal", 125)]
    table += [("KP_" + off, code, False) for off, _, code in pad]
    table += [("KP_" + on, code, True) for _, on, code in pad]
    return table + [(it, code, None) for it, _, code in SPECIAL]


class Dead(Exception):
    """The terminal ended, or no key arrives any more."""


class Driver:
    """A terminal on an X server of its own."""

    def __init__(self, name, out, options):
        self.name, self.terminal, self.options = name, TERMINALS[name], options
        self.version = self.terminal.version()
        self.folder = tempfile.mkdtemp(prefix="terminal-")
        self.processes, self.link, self.buffered, self.stray = [], None, b"", ""
        self.origin = (0, 0, 400, 300)
        self.end_at, self.restarts = time.time() + options.limit, 0
        self.out = open(Path(out) / f"{name}.tsv", "a", encoding="utf-8", buffering=1)
        self.start_x()

    # The processes.

    def spawn(self, words, **env):
        log = open(os.path.join(self.folder, "log"), "ab")
        how = {"stdin": subprocess.DEVNULL, "stdout": log, "stderr": log}
        it = subprocess.Popen(words, env=os.environ | env, start_new_session=True, **how)
        self.processes.append(it)
        return it

    def start_x(self):
        used = (f"/tmp/.X{it}-lock" for it in range(100 + os.getpid() % 5000, 9000))
        lock = next(it for it in used if not os.path.exists(it))
        name = ":" + lock[len("/tmp/.X") : -len("-lock")]
        self.spawn(["Xvfb", name, "-screen", "0", "1200x900x24", "-nolisten", "tcp"])
        for _ in range(100):
            try:
                self.display = display.Display(name)
                break
            except Exception:
                time.sleep(0.1)
        else:
            raise Dead("Xvfb doesn't start")
        os.environ["DISPLAY"] = name
        layout = ["setxkbmap", "-display", name, "-option", "srvrkeys:none", "us"]
        subprocess.run(layout, check=True)
        for it in range(12):
            symbol = XK.string_to_keysym(f"F{13 + it}")
            self.display.change_keyboard_mapping(191 + it, [[symbol, symbol]])
        for character, point, code in SPECIAL:
            symbol = point if point < 0x100 or character == "€" else 0x1000000 + point
            self.display.change_keyboard_mapping(code, [[symbol, symbol]])
        self.display.sync()
        rules = os.path.join(self.folder, "rc.xml")
        Path(rules).write_text(
            '<?xml version="1.0"?><openbox_config xmlns="http://openbox.org/3.4/rc"><keyboard>'
            "</keyboard><mouse></mouse><focus><focusNew>yes</focusNew></focus></openbox_config>"
        )
        self.spawn(["openbox", "--config-file", rules])
        time.sleep(0.5)

    def start_terminal(self):
        path = os.path.join(self.folder, "socket")
        if os.path.exists(path):
            os.unlink(path)
        server = socket.socket(socket.AF_UNIX, socket.SOCK_STREAM)
        server.bind(path)
        server.listen(1)
        server.settimeout(25)
        home = os.path.join(self.folder, "home")
        os.makedirs(home, exist_ok=True)
        program = ["python3", str(HERE / "recorder.py"), path]
        words, env = self.terminal.start_words(home, program)
        locale = {"LC_ALL": "en_US.UTF-8", "LANG": "en_US.UTF-8"}
        env |= {"HOME": home, "XDG_CONFIG_HOME": f"{home}/.config", **locale}
        self.process = self.spawn(words, **env)
        try:
            self.link, _ = server.accept()
        except socket.timeout:
            log = Path(self.folder, "log").read_text(errors="replace")
            raise Dead(f"it doesn't start: {log[-600:]}") from None
        server.close()
        self.link.setblocking(False)
        self.buffered = b""
        time.sleep(self.terminal.settle)
        self.focus()
        self.take(0.3, 0.1)
        if not self.is_alive():
            time.sleep(2)
            self.focus()
            if not self.is_alive():
                raise Dead("no key arrives")

    def restart(self):
        self.restarts += 1
        self.say(f"start {self.restarts + 1}")
        if self.restarts > 25:
            raise Dead("it ended too often")
        if self.link:
            self.link.close()
        self.end(self.process)
        time.sleep(0.3)
        self.start_terminal()

    @staticmethod
    def end(process):
        """Ends a process and those that it started, which are in a session of their own."""
        for number in (signal.SIGTERM, signal.SIGKILL):
            try:
                os.killpg(process.pid, number)
                process.wait(3)
                return
            except ProcessLookupError:
                return
            except subprocess.TimeoutExpired:
                continue

    def close(self):
        for process in reversed(self.processes):
            self.end(process)
        self.out.close()
        shutil.rmtree(self.folder, ignore_errors=True)

    # The windows.

    def windows(self, window=None):
        """The visible windows in a window, each with its area."""
        found = []
        for child in (window or self.display.screen().root).query_tree().children:
            try:
                state, size = child.get_attributes().map_state, child.get_geometry()
            except Exception:
                continue
            if state == X.IsViewable and size.width > 100 and size.height > 50:
                found.append((size.width * size.height, child))
        return found

    def client(self):
        """The largest window, and in it what isn't the window manager's."""
        _, frame = max(self.windows(), key=lambda it: it[0])
        below = self.windows(frame)
        return frame, max(below, key=lambda it: it[0])[1] if below else frame

    def move_to(self, x, y):
        self.fake(X.MotionNotify, x=x, y=y)

    def focus(self):
        """Gives the focus to the terminal, and puts the pointer into it."""
        try:
            frame, client = self.client()
            outer, inner = frame.get_geometry(), client.get_geometry()
            x, y = outer.x + inner.x, outer.y + inner.y
            self.move_to(x + inner.width // 2, y + inner.height // 2)
            has_it = self.display.get_input_focus().focus
            if isinstance(has_it, int) or has_it.id == self.display.screen().root.id:
                client.set_input_focus(X.RevertToParent, X.CurrentTime)
            self.origin = (x, y, inner.width, inner.height)
            self.display.sync()
            time.sleep(0.15)
        except Exception as error:
            self.say(f"focus: {error}")

    # The bytes.

    def write(self, text):
        self.link.setblocking(True)
        try:
            self.link.sendall(text.encode())
        finally:
            self.link.setblocking(False)

    def take(self, first, quiet=QUIET, most=3.0):
        """The reads that come: it waits this long for the first, then until it is quiet."""
        pieces, until, end = [], time.time() + first, time.time() + most
        while True:
            left = min(until, end) - time.time()
            if left <= 0 or not select.select([self.link], [], [], left)[0]:
                return pieces
            try:
                data = self.link.recv(1 << 20)
            except BlockingIOError:
                continue
            except OSError:
                data = b""
            if not data:
                raise Dead("it ended")
            *lines, self.buffered = (self.buffered + data).split(b"\n")
            pieces += [it.split(b"\t")[1].decode() for it in lines if b"\t" in it]
            until = time.time() + quiet

    def fake(self, kind, code=0, x=0, y=0):
        xtest.fake_input(self.display, kind, code, x=x, y=y)
        self.display.sync()

    def tap(self, code):
        self.fake(X.KeyPress, code)
        self.fake(X.KeyRelease, code)

    def click(self, button):
        self.fake(X.ButtonPress, button)
        self.fake(X.ButtonRelease, button)

    def hold(self, mods, kind):
        for bit, code in MOD_CODES if kind == X.KeyPress else reversed(MOD_CODES):
            if mods & bit:
                self.fake(kind, code)

    def is_alive(self):
        """Presses z until it arrives. What came with it is in `stray`."""
        for _ in range(3):
            self.tap(ZED)
            self.stray = "".join(self.take(0.6, 0.04))
            if "7a" in self.stray or "1b5b313232" in self.stray:
                return True
        return False

    def revive(self):
        """Closes a window that the terminal may have opened, by Escape."""
        self.tap(ESCAPE)
        self.focus()
        if not self.is_alive():
            raise Dead("no key arrives")

    def set_num_lock(self, is_on):
        held = self.display.screen().root.query_pointer().mask
        if bool(held & X.Mod2Mask) != is_on:
            self.tap(NUM_LOCK)
            self.take(0.05, 0.02)

    def press(self, code, mods, has_release=False, has_mods=False):
        """The reads after a key was pressed, and after it was released."""
        self.take(0)
        self.hold(mods, X.KeyPress)
        if has_mods and mods:
            self.take(0.15, 0.04)
        self.fake(X.KeyPress, code)
        quiet = 0.025 if has_release else QUIET
        down = self.take(FIRST, quiet)
        self.fake(X.KeyRelease, code)
        up = self.take(FIRST if has_release else 0.0, quiet)
        self.hold(mods, X.KeyRelease)
        if has_mods and mods:
            self.take(0.15, 0.04)
        return down, up

    def row(self, mode, key, mods, *rest):
        cells = ["|".join(it) if isinstance(it, list) else it for it in rest]
        self.out.write("\t".join([self.name, self.version, mode, key, mods, *cells]) + "\n")

    def say(self, text):
        print(f"{self.name}: {text}", flush=True)

    def check_time(self):
        if time.time() > self.end_at:
            raise TimeoutError

    # The sections.

    def is_supported(self, mode):
        """Whether the terminal has a mode, where one can find out."""
        if mode.startswith("kitty"):
            flags = mode[len("kitty") :]
            self.write(f"\x1b[>{flags}u\x1b[?u\x1b[<u")
            return f"\x1b[?{flags}u".encode().hex() in "".join(self.take(0.6, 0.05))
        if mode.startswith("mok"):
            seen = []
            for sequence in ("", MODES[mode][0], MODES[mode][1]):
                self.write(sequence)
                time.sleep(0.15)
                self.take(0.02)
                tried = [(36, CTRL), (10, CTRL), (38, CTRL | SHIFT), (38, ALT), (23, CTRL | SHIFT)]
                seen.append([self.press(*it)[0] for it in tried])
            return seen[0] != seen[1]
        return True

    def keys(self):
        self.select_text(b"PASTED")
        for mode, (on, off) in MODES.items():
            if mode not in self.options.modes:
                continue
            if not self.is_supported(mode):
                self.say(f"{mode}: not supported")
                continue
            began, count = time.time(), 0
            self.write(on)
            time.sleep(0.1)
            for key in key_table():
                is_cursor = key[0] in CURSOR or key[0].startswith("KP_")
                if (key[0] in FEW or not self.options.few) and (
                    is_cursor or not mode.startswith("dec")
                ):
                    count += self.key(mode, on, *key)
            self.set_num_lock(False)
            if mode == "kitty31":
                for name, code in OTHERS:
                    self.row(mode, name, "-", *self.press(code, 0, True), "")
            self.write(off)
            time.sleep(0.1)
            self.take(0.05)
            self.say(f"{mode}: {count} presses in {time.time() - began:.0f} s")

    def key(self, mode, on, key, code, num_lock):
        """Presses a key with each set of modifiers, and returns how many there are."""
        has_release, has_mods = mode in ("kitty3", "kitty31"), mode == "kitty31"
        self.set_num_lock(bool(num_lock))
        sets = [*range(8), *((8, 9, 12) if key in WITH_SUPER else ())]
        for mods in sets:
            if (key, mods) in self.terminal.skip:
                self.row(mode, key, mods_name(mods), "", "", "skipped")
                continue
            self.check_time()
            note = ""
            try:
                down, up = self.press(code, mods, has_release, has_mods)
                if not down and not up:
                    if not self.is_alive():
                        note = "stuck"
                        self.revive()
                    elif not mode.startswith("kitty"):
                        late = self.stray.replace("7a", "", 1)
                        down, note = ([late], "late") if late else (down, note)
                self.row(mode, key, mods_name(mods), down, up, note)
            except Dead as error:
                self.row(mode, key, mods_name(mods), "", "", "ended")
                self.say(f"{mods_name(mods)} {key} in {mode}: {error}")
                self.restart()
                self.set_num_lock(bool(num_lock))
                self.write(on)
                time.sleep(0.1)
        return len(sets)

    @staticmethod
    def select_text(text):
        for which in ("primary", "clipboard"):
            words = ["xclip", "-selection", which, "-i"]
            quiet = {"stdout": subprocess.DEVNULL, "stderr": subprocess.DEVNULL}
            subprocess.run(words, input=text, timeout=5, check=False, **quiet)
        # It owns the selections a moment after it returns.
        time.sleep(0.2)

    def pastes(self):
        for mode, on, off in (
            ("paste2004", "\x1b[?2004h", "\x1b[?2004l"),
            ("paste-plain", "", ""),
        ):
            for name, text in PASTES.items():
                for how in ("middle", "Shift+Insert"):
                    is_other = how != "middle" and name not in ("word", "end", "long")
                    if is_other or mode == "paste-plain" and name.startswith("long"):
                        continue
                    self.check_time()
                    try:
                        self.write(on)
                        time.sleep(0.05)
                        self.paste(mode, name, text, how)
                        self.write(off)
                    except Dead as error:
                        self.say(f"paste {name} by {how}: {error}")
                        self.row(mode, name, how, "", "", f"stuck; {text.hex()}")
                        self.restart()

    def paste(self, mode, name, text, how):
        self.select_text(text)
        self.take(0)
        if how == "middle":
            self.click(2)
        else:
            self.hold(SHIFT, X.KeyPress)
            self.tap(INSERT)
            self.hold(SHIFT, X.KeyRelease)
        got, asked = self.take(0.8, 0.25, 6), ""
        if not got and self.terminal.confirm:
            self.tap(self.terminal.confirm)
            got, asked = self.take(0.8, 0.25, 6), "asked; "
        if name.startswith("long"):
            lengths = ",".join(str(len(it) // 2) for it in got)
            note = f"{len(text)} bytes; reads of {lengths}"
            got = [it if len(it) < 100 else f"{it[:40]}..{it[-18:]}" for it in got]
        else:
            note = text.hex()
        self.row(mode, name, how, got, "", asked + note)
        if not got and not self.is_alive():
            raise Dead("it is stuck")

    def mouse(self):
        for mode in ("x10", "1000", "1002", "1003"):
            for form in ("", "1005", "1006", "1015", "1016"):
                if form and mode == "x10":
                    continue
                number = mode.replace("x10", "9")
                on = f"\x1b[?{number}h" + (f"\x1b[?{form}h" if form else "")
                self.write(on)
                time.sleep(0.08)
                self.take(0.02)
                self.buttons(f"mouse{mode}" + (f"+{form}" if form else ""), on)
                self.write((f"\x1b[?{form}l" if form else "") + f"\x1b[?{number}l")
                time.sleep(0.03)
        self.focus()

    def buttons(self, mode, on):
        x, y, width, height = self.origin
        is_short = mode.endswith(("1005", "1015", "1016"))
        for mods in (0, ALT) if is_short else (0, SHIFT, ALT, CTRL, ALT | CTRL, 7):
            self.check_time()
            for button in (1, 4, 6) if mods else BUTTONS:
                if (button, mods) in self.terminal.skip_buttons:
                    continue
                try:
                    self.button(mode, button, mods)
                except Dead as error:
                    self.say(f"{mode} {BUTTONS[button]} {mods_name(mods)}: {error}")
                    self.restart()
                    self.write(on)
            if mode.startswith("mouse1003"):
                self.hold(mods, X.KeyPress)
                self.move_to(x + width // 2, y + height // 2)
                self.row(mode, "Move", mods_name(mods), self.take(0.08), "", "")
                self.hold(mods, X.KeyRelease)
        self.move_to(x + width - 25, y + height - 25)
        self.take(0.03)
        self.fake(X.ButtonPress, 1)
        down = self.take(0.08)
        self.fake(X.ButtonRelease, 1)
        self.row(mode, "Left-corner", "-", down, self.take(0.05), "")

    def button(self, mode, button, mods):
        x, y, width, height = self.origin
        self.move_to(x + width // 3, y + height // 3)
        self.take(0.03)
        self.hold(mods, X.KeyPress)
        self.fake(X.ButtonPress, button)
        down, dragged = self.take(0.08), []
        if button <= 3:
            self.move_to(x + width // 3 + 60, y + height // 3 + 60)
            dragged = self.take(0.06)
        self.fake(X.ButtonRelease, button)
        up = self.take(0.05)
        self.hold(mods, X.KeyRelease)
        self.row(mode, BUTTONS[button], mods_name(mods), down, up, dragged)
        if mods:
            self.take(0.03)
        if not down and not up and (mods or button == 3) and not self.is_alive():
            self.revive()

    def focus_reports(self):
        self.write("\x1b[?1004h")
        first = self.take(0.2)
        root = self.display.screen().root
        other = root.create_window(0, 0, 50, 50, 0, X.CopyFromParent, override_redirect=1)
        other.map()
        self.display.sync()
        time.sleep(0.3)
        self.take(0)
        before = self.display.get_input_focus().focus
        before = self.client()[1] if isinstance(before, int) else before
        rows = [("on", first)]
        for what, window in (("lost", other), ("gained", before)):
            window.set_input_focus(X.RevertToParent, X.CurrentTime)
            self.display.sync()
            rows.append((what, self.take(0.6, 0.1)))
        for what, got in rows:
            self.row("focus1004", what, "-", got, "", "")
        self.write("\x1b[?1004l")
        other.destroy()
        self.display.sync()
        time.sleep(0.2)
        self.focus()

    def questions(self):
        self.select_text(b"clip")
        for name, question in QUESTIONS.items():
            self.check_time()
            try:
                self.write(question)
                got = self.take(0.25, 0.06)
                self.row("query", name, "-", got, "", question.encode().hex())
                if not got and not self.is_alive():
                    raise Dead("it is stuck")
            except Dead as error:
                self.say(f"question {name}: {error}")
                self.row("query", name, "-", "", "", f"ended; {question.encode().hex()}")
                self.restart()
        self.write(ALL)
        self.row("query", "ALL", "-", self.take(0.4, 0.1), "", "")
        # The window gets another size in the mode 2048.
        self.write("\x1b[?2048h")
        time.sleep(0.1)
        self.take(0.1)
        self.client()[1].configure(width=640, height=420)
        self.display.sync()
        self.row("query", "resize2048", "-", self.take(0.8, 0.3), "", "")
        self.write("\x1b[?2048l")
        self.focus()

    def run(self, sections):
        """Records these sections, and returns whether all were recorded to their ends."""
        is_whole = True
        try:
            self.start_terminal()
            for section in sections:
                began = time.time()
                try:
                    SECTIONS[section](self)
                except Dead as error:
                    self.say(f"{section}: given up: {error}")
                    is_whole = False
                    self.restart()
                except TimeoutError:
                    self.say(f"{section}: {self.options.limit} seconds are over")
                    return False
                self.say(f"{section}: {time.time() - began:.0f} s")
        except Dead as error:
            self.say(str(error))
            is_whole = False
        finally:
            self.close()
        return is_whole


SECTIONS = {
    "questions": Driver.questions,
    "focus": Driver.focus_reports,
    "pastes": Driver.pastes,
    "mouse": Driver.mouse,
    "keys": Driver.keys,
}


def main():
    parser = argparse.ArgumentParser(
        description=__doc__, formatter_class=argparse.RawDescriptionHelpFormatter
    )
    parser.add_argument("terminal", choices=sorted(TERMINALS), metavar="TERMINAL")
    parser.add_argument("folder", type=Path, metavar="FOLDER", help="is made if it isn't there")
    listed = {"nargs": "+", "metavar": "NAME"}
    help_of = "of " + ", ".join(SECTIONS)
    parser.add_argument(
        "--sections", choices=SECTIONS, default=list(SECTIONS), help=help_of, **listed
    )
    help_of = "modes of keys, of " + ", ".join(MODES)
    parser.add_argument("--modes", choices=MODES, default=list(MODES), help=help_of, **listed)
    parser.add_argument("--few", action="store_true", help="presses some twenty keys, not all")
    parser.add_argument("--limit", type=float, default=3600, help="seconds after which it ends")
    parser.epilog = "Terminals: " + ", ".join(sorted(TERMINALS))
    options = parser.parse_args()
    for program, package in NEEDED.items():
        if not shutil.which(program):
            sys.exit(f"record: there is no {program}: apt-get install {package}")
    if missing := TERMINALS[options.terminal].missing():
        sys.exit(f"record: there is no {', '.join(missing)} for {options.terminal}")
    locales = subprocess.run(["locale", "-a"], capture_output=True, text=True, check=False).stdout
    if "en_US.utf8" not in locales:
        sys.exit("record: no locale en_US.UTF-8: localedef -i en_US -f UTF-8 en_US.UTF-8")
    # What was started is ended then too.
    signal.signal(signal.SIGTERM, lambda *_: sys.exit(1))
    options.folder.mkdir(parents=True, exist_ok=True)
    is_whole = Driver(options.terminal, options.folder, options).run(options.sections)
    sys.exit(not is_whole)


if __name__ == "__main__":
    main()
