"""The terminals that record.py knows: how each is started, and what is left out.

A new terminal is a new call of `add`. `skip` has keys with modifiers that end the terminal or open
a window of it, and `skip_buttons` such buttons of the mouse: bits 1 Shift, 2 Alt, 4 Ctrl."""
import os
import shutil
import subprocess
from dataclasses import dataclass, field
from typing import Any, Dict, List, Set, Tuple

SOFTWARE = {"LIBGL_ALWAYS_SOFTWARE": "1"}
CTRL_SHIFT = 5


@dataclass
class Terminal:
    """How a terminal is started: the program in it is appended to its words."""

    package: str  # Debian's, for the version
    words: List[str]  # a word @NAME is the file NAME of `files`
    env: Dict[str, str] = field(default_factory=dict)
    files: Dict[str, str] = field(default_factory=dict)  # in a new home
    settle: float = 1.0  # seconds until it draws
    is_joined: bool = False  # the program is one word
    confirm: int = 0  # the keycode that says yes where it asks before a paste
    skip: Set[Tuple[str, int]] = field(default_factory=set)
    skip_buttons: Set[Tuple[int, int]] = field(default_factory=set)
    within: str = ""  # another program that has to be there

    def version(self):
        """The version of its package."""
        words = ["dpkg-query", "-W", "-f", "${Version}", self.package]
        done = subprocess.run(words, capture_output=True, text=True, check=False)
        return done.stdout.strip() or "unknown"

    def missing(self):
        """The programs for this terminal that aren't installed."""
        first, second = self.words[:2]
        programs = [first, second if first == "dbus-run-session" else first, self.within or first]
        return sorted({it for it in programs if not shutil.which(it)})

    def start_words(self, home, program):
        """Writes the files, and returns the words and the environment."""
        for name, text in self.files.items():
            path = os.path.join(home, name)
            os.makedirs(os.path.dirname(path), exist_ok=True)
            with open(path, "w", encoding="utf-8") as opened:
                opened.write(text)
        words = [os.path.join(home, it[1:]) if it[0] == "@" else it for it in self.words]
        run = os.path.join(home, "run")
        os.makedirs(run, mode=0o700, exist_ok=True)
        program = [" ".join(program)] if self.is_joined else program
        return words + program, self.env | {"XDG_RUNTIME_DIR": run}


TERMINALS: Dict[str, Terminal] = {}


def add(name, package, words, **more: Any):
    TERMINALS[name] = Terminal(package, words.split(), **more)


def keys(names, mods=CTRL_SHIFT):
    return {(name, mods) for name in names.split()}


# Ctrl and a click open xterm's menus.
XTERM_MENUS = {(1, 4), (1, 6), (1, 7)}
add("xterm", "xterm", "xterm -geometry 80x24 -e", skip_buttons=XTERM_MENUS)
add(
    "kitty",
    "kitty",
    "kitty --config NONE -o confirm_os_window_close=0 -o clear_all_shortcuts=yes"
    " -o update_check_interval=0",
    env=SOFTWARE | {"KITTY_CACHE_DIRECTORY": "/tmp"},
    settle=2.5,
)
add(
    "urxvt",
    "rxvt-unicode",
    "urxvt -geometry 80x24 -e",
    confirm=29,
    skip={("s", 2), ("v", 6)},
)
add("st", "stterm", "stterm -g 80x24 -e")
add(
    "alacritty",
    "alacritty",
    "alacritty -e",
    env=SOFTWARE | {"WINIT_UNIX_BACKEND": "x11"},
    settle=2.5,
    skip=keys("n Space f b"),
)
add("mlterm", "mlterm", "mlterm -g 80x24 -e", settle=1.5)
add(
    "zutty",
    "zutty",
    "zutty -font DejaVuSansMono -fontpath /usr/share/fonts/truetype/dejavu -e",
    env=SOFTWARE,
    settle=2.5,
)
add(
    "xfce4-terminal",
    "xfce4-terminal",
    "dbus-run-session xfce4-terminal --disable-server --hide-menubar -x",
    settle=3,
    files={
        ".config/xfce4/terminal/terminalrc": "[Configuration]\nMiscMenubarDefault=FALSE\n"
        "ShortcutsNoMenukey=TRUE\nShortcutsNoMnemonics=TRUE\nShortcutsNoHelpkey=TRUE\n"
        "MiscShowUnsafePasteDialog=FALSE\nMiscConfirmClose=FALSE\n"
    },
    skip=keys("q w t n d s f") | keys("F11 F1 F12", 0) | {("F10", 1), ("Enter", 2)},
)
add(
    "konsole",
    "konsole",
    "dbus-run-session konsole --nofork --separate --hide-menubar --hide-tabbar -e",
    settle=4,
    confirm=36,
    env={"QT_QPA_PLATFORM": "xcb"},
    files={
        ".config/konsolerc": "[MainWindow]\nToolBarsMovable=Disabled\n[KonsoleWindow]\n"
        "ShowMenuBarByDefault=false\n[Notification Messages]\nCloseAllTabs=true\n"
        "CloseSingleTab=true\n"
    },
    skip=keys("q w t n m s g , p o b")
    | keys("F11 F1", 0)
    | keys("F1 F2", 1)
    | {("F4", 2), ("a", 7)},
)
add(
    "qterminal",
    "qterminal",
    "dbus-run-session qterminal -e",
    settle=4,
    is_joined=True,
    env={"QT_QPA_PLATFORM": "xcb"},
    files={
        ".config/qterminal.org/qterminal.ini": "[General]\nMenuVisible=false\nAskOnExit=false\n"
        "ConfirmMultilinePaste=false\n"
    },
    skip=keys("q w t n m p") | keys("F11 F12", 0) | {("F4", 2)},
)
IN_XTERM = (
    "xterm -geometry 80x24 -xrm XTerm*metaSendsEscape:true -xrm XTerm*allowWindowOps:true"
    " -e sh @inner"
)
add(
    "tmux-xterm",
    "tmux",
    IN_XTERM,
    within="tmux",
    settle=2,
    skip_buttons=XTERM_MENUS,
    skip={("b", 4), ("b", 5)},
    files={"inner": 'exec tmux -f /dev/null -S $HOME/tmux.sock new "$@"\n'},
)
add(
    "screen-xterm",
    "screen",
    IN_XTERM,
    within="screen",
    settle=2,
    skip_buttons=XTERM_MENUS,
    skip={("a", 4), ("a", 5)},
    files={
        "inner": 'exec screen -U -c $HOME/screenrc "$@"\n',
        "screenrc": "startup_message off\ndefutf8 on\nmaptimeout 0\nvbell off\n",
    },
)
# foot wants Wayland: Weston in a window.
add(
    "foot",
    "foot",
    "sh @inner",
    within="weston",
    settle=4,
    files={
        "inner": "weston --backend=x11-backend.so --use-pixman --width=900 --height=600"
        " --socket=w1 --config=$HOME/weston.ini &\n"
        'for i in 1 2 3 4 5 6 7 8 9 10; do [ -S "$XDG_RUNTIME_DIR/w1" ] && break; sleep 0.5; done\n'
        'sleep 1\nWAYLAND_DISPLAY=w1 foot --config=/dev/null "$@"\nkill $!\n',
        "weston.ini": "[core]\nshell=kiosk-shell.so\nidle-time=0\n[shell]\nbinding-modifier=none\n"
        "[keyboard]\nkeymap_layout=us\n",
    },
)
