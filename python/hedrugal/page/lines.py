"""The lines in which events are shown: those of keyshow, and for other events like ones."""
from __future__ import annotations

from typing import Any, Callable, Dict, Union

from hedrugal import (
    Apc,
    Csi,
    CursorPosition,
    Dcs,
    Event,
    FocusGained,
    FocusLost,
    Function,
    KeyboardFlags,
    KeyCode,
    KeyEventKind,
    KeyPress,
    KeyReport,
    KittyModifiers,
    Modifiers,
    MouseReport,
    Osc,
    Paste,
    ReportedKey,
    Resized,
    StringCut,
    StringPart,
    Waiting,
)

# The bytes and the characters of a text that are shown.
SHOWN = 24

# What keyshow calls the keys: UpArrow is KeyCode.UP_ARROW.
KEY_NAMES = {code: code.name.title().replace("_", "") for code in KeyCode}


def key_name(key: ReportedKey) -> str:
    """The name of a key: `U+0041` for a character, `F5`, `UpArrow`, `functional 57414` for one
    without a name."""
    if isinstance(key, Function):
        return f"F{key.number}"
    if isinstance(key, KeyCode):
        return KEY_NAMES[key]
    return f"U+{ord(key):04X}" if isinstance(key, str) else f"functional {key}"


def set_name(flags: Any) -> str:
    """The names of the flags of a set."""
    return (
        "+".join(str(flag.name) for flag in type(flags) if flag.value and flag.value & flags.value)
        or "NONE"
    )


def waiting_name(kind: Waiting) -> str:
    return kind.name.title()


def key_line(key: ReportedKey, modifiers: Union[Modifiers, KittyModifiers]) -> str:
    return f"key {key_name(key)} {set_name(modifiers)}"


def text_line(name: str, text: bytes) -> str:
    """The number of the bytes of a text, and the first of them."""
    return f"{name} {len(text)}:{text[:SHOWN].hex()}{'…' if len(text) > SHOWN else ''}"


def report_line(report: KeyReport) -> str:
    """The line of a key. What a press of the key alone doesn't tell is named behind it."""
    kind = report.kind.name.lower()
    parts = [key_line(report.key, report.modifiers)]
    parts += [kind] if report.kind is not KeyEventKind.PRESS else []
    parts += [f"shifted {key_name(report.shifted)}"] if report.shifted is not None else []
    parts += [f"base {key_name(report.base)}"] if report.base is not None else []
    parts += [text_line("text", report.text.encode())] if report.text else []
    return " ".join(parts)


def mouse_line(report: MouseReport) -> str:
    """The line of a mouse report: its place, the buttons that are down, and what happened."""
    place = f"mouse {report.x} {report.y} {set_name(report.buttons)} {set_name(report.modifiers)}"
    button = "" if report.button is None else f" {report.button}"
    return f"{place} {report.kind.name.lower()}{button}"


# The lines of events.
LINES: Dict[type, Callable[[Any], str]] = {
    KeyReport: report_line,
    MouseReport: mouse_line,
    Paste: lambda it: text_line("paste", it.text.encode()),
    FocusGained: lambda _: "focus gained",
    FocusLost: lambda _: "focus lost",
    CursorPosition: lambda it: f"cursor {it.row} {it.column}",
    Resized: lambda it: "resized {1} {0} {3} {2}".format(*it.size),
    KeyboardFlags: lambda it: f"keyboard flags {it.flags.value | it.unnamed}",
    Csi: lambda it: text_line("csi", it.data),
    Osc: lambda it: text_line("osc", it.data),
    Dcs: lambda it: text_line("dcs", it.data),
    Apc: lambda it: text_line("apc", it.data),
    StringPart: lambda it: text_line(f"{it.kind.name.lower()} part", it.data),
    StringCut: lambda it: text_line(f"{it.kind.name.lower()} cut", it.data),
}


def line(event: Event) -> str:
    """The line of an event, without its bytes. A long text is cut."""
    return LINES[type(event)](event)


def printed(text: str) -> str:
    shown = "".join(it if it.isprintable() else " " for it in text[:SHOWN])
    return shown + ("…" if len(text) > SHOWN else "")


def glyphs(event: Event) -> str:
    """The character of a key, or the beginning of the text that an event brings, as far as they can
    be printed."""
    if isinstance(event, KeyReport):
        key = event.key if isinstance(event.key, str) and event.key.isprintable() else ""
        return printed(event.text) if event.text else key
    if isinstance(event, Paste):
        return printed(event.text)
    return printed(getattr(event, "data", b"").decode(errors="replace"))


def press_name(event: Event) -> str:
    """The name of an event's press, and that of its second press. Empty if it has none."""
    press = KeyPress.of_event(event)
    second = KeyPress.second(event) if isinstance(event, KeyReport) else None
    return " or ".join(str(it) for it in (press, second) if it)
