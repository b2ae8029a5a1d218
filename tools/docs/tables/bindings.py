"""The tables of docs/BINDINGS.md."""
import re

from hedrugal import Chord, KeyPress, KeyReport, KittyKeyboardFlags

from .notation import bytes_of, numbers, parts, quoted, read


def presses(rows):
    """A second press is told where a row has one. What a key is of isn't among the bytes."""
    for sent, told in rows:
        for cell in parts(sent, ","):
            (event,) = read(bytes_of(re.sub(" (with|of) .*", "", cell)))
            second = KeyPress.second(event)
            found = [str(KeyPress.of_event(event)), *([str(second)] if second else [])]
            yield cell, quoted(told), found


def names(rows):
    for _, written, printed in rows:
        for name, wanted in zip(quoted(written), quoted(printed), strict=True):
            yield name, wanted, str(Chord.read(name))


PRESSED = r"(?:(?:Ctrl|Shift|Alt)-)+(?:\w+|`[^`]+`)"


def told(name, flags):
    """The press that a key is read as, and the second one, if it is sent under these flags."""
    (press,) = Chord.read(name.replace("`", "").replace("Shift-!", "!"))
    sent = KeyReport(press.key, press.held).encode(KittyKeyboardFlags(flags))
    (report,) = read(sent)
    return [str(it) for it in (KeyPress.of_report(report), KeyPress.second(report)) if it]


def same_bytes(rows):
    """What a named key comes as: one press each, or one for all, or the first and the second."""
    for pressed, told_as in rows:
        wanted = quoted(told_as)
        keys = [it for it in parts(pressed, ",") if re.fullmatch(PRESSED, it)]
        each = [wanted] if "second" in told_as else [[it] for it in wanted] * len(keys)
        for name, presses_told in zip(keys, each):
            yield name, presses_told, told(name, 0)


def flags_that_tell(rows):
    """The keys that a row names are told as themselves by its flags."""
    before = 0
    for cell, keys in rows:
        flags, *others = numbers(cell)
        yield cell, flags, sum(others) | before if others else flags
        for name in re.findall(PRESSED, keys):
            yield name, str(Chord.read(name.replace("`", ""))), told(name, flags)[0]
        for name, press in re.findall(rf"({PRESSED}) is `(.*?)`", keys):
            yield name, press, str(Chord.read(name))
        for sign, press in re.findall("Ctrl and `(.)` are `(.*?)`", keys):
            yield sign, press, str(Chord.read(f"C-{sign}"))
        before = flags
