"""A screen for exactly the control sequences that hedrugal-keys writes. It refuses others. So input
that reaches the terminal as it came fails a case, where a terminal emulator would obey it."""
import re

TOKEN = re.compile(
    rb"\033\[(\d+)A|\033\[J|\033\[([0126]|36)m|\033\[(\?\d+)([hl])|\033\[(>4)(;[12])?m"
    rb"|\033\[(>31|>5|<)u|(\033\[>q[^\n]*\r\033\[K\033\[c)|\r\n"
    rb"|((?:[ -~]|[\xc2-\xf4][\x80-\xbf]+)+)"
)
STYLES = {b"0": "", b"1": "*", b"2": "~", b"36": "_"}


class Screen:
    """Rows of characters, each with its style: bold is *, dim ~, a colour _."""

    def __init__(self, columns=80, height=24):
        self.columns, self.height = columns, height
        self.rows, self.row, self.style = [[]], 0, ""
        self.modes, self.frames = {}, []

    def take(self, output):
        """Takes what the program wrote, from the first byte on."""
        refused = TOKEN.sub(self.obey, output)
        assert not refused, f"written to the terminal: {refused[:30]!r}"
        return self

    def obey(self, token):
        up, style, mode, switch, other, level, kitty, questions, characters = token.groups()
        if characters:
            self.put(characters.decode())
        elif questions:
            assert self.rows[self.row] == [], "the questions erase a row"
        elif up:
            self.frames.append(self.text())
            self.row = max(len(self.rows) - self.height, self.row - int(up), 0)
        elif style:
            self.style = STYLES[style]
        elif mode:
            self.modes[mode.decode()] = switch == b"h"
        elif other:
            self.modes[other.decode()] = int(level[1:]) if level else False
        elif kitty:
            self.modes["kitty"] = kitty != b"<" and int(kitty[1:])
        elif token[0] == b"\033[J":
            self.rows[self.row :] = [[]]
        else:
            self.row += 1
            if self.row == len(self.rows):
                self.rows.append([])
        return b""

    def put(self, characters):
        row = self.rows[self.row]
        row.extend((it, self.style) for it in characters)
        assert len(row) < self.columns, f"a row reaches the last column: {row!r}"

    def text(self):
        """The rows above the cursor, those that scrolled away too."""
        return ["".join(it for it, _ in row) for row in self.rows[:-1]]

    def styled(self):
        """The same, with the style before and after each run of characters that has one."""
        return [
            re.sub(r"([*~_])\1", "", "".join(f"{style}{it}{style}" for it, style in row))
            for row in self.rows[:-1]
        ]


DRAWN = re.compile(
    rb"\033\[(\d+);(\d+)H|\033\[([\d;]*)m|(\033\[2J)|\033\[(?:\?[\d;]+[hl]|[<>]\d+u|6n)|(\r)|(\n)"
    rb"|([^\033\r\n]+)"
)
# What a code of a style turns off.
OFF = {"22": "12", "23": "3", "24": "4", "25": "56", "27": "7", "28": "8", "29": "9"}


class Display:
    """What a program shows that draws the whole screen by crossterm. It refuses other sequences
    than crossterm writes for that."""

    def __init__(self):
        self.cells, self.row, self.column, self.style = {}, 0, 0, {}

    def take(self, output):
        refused = DRAWN.sub(self.obey, output)
        assert not refused, f"written to the terminal: {refused[:30]!r}"
        return self

    def obey(self, token):
        row, column, style, clear, start, feed, characters = token.groups()
        if row:
            self.row, self.column = int(row) - 1, int(column) - 1
        elif style is not None:
            self.set_style(style.decode())
        elif clear:
            self.cells = {}
        elif start:
            self.column = 0
        elif feed:
            self.row += 1
        elif characters:
            self.put(characters.decode())
        return b""

    def set_style(self, codes):
        kind = codes.partition(";")[0]
        if kind in ("", "0"):
            self.style = {}
        elif kind in OFF:
            self.style = {it: code for it, code in self.style.items() if it not in OFF[kind]}
        elif kind in ("39", "49"):
            self.style = {it: code for it, code in self.style.items() if it != kind[0] + "8"}
        else:
            self.style = self.style | {kind: codes}

    def put(self, characters):
        for character in characters:
            self.cells[self.row, self.column] = character, ",".join(sorted(self.style.values()))
            self.column += 1

    def styled(self, rows, columns):
        """These rows, each style in front of its characters."""
        return ["".join(self.styled_cells(row, columns)).rstrip() for row in rows]

    def styled_cells(self, row, columns):
        last = ""
        for column in columns:
            character, style = self.cells.get((row, column), (" ", ""))
            yield character if style == last else f"<{style}>{character}"
            last = style
