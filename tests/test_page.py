"""The page that shows what bytes mean, python/hedrugal/page, in a headless Chromium.

Pictures of it are written to the folder that the variable SCREENSHOTS names, if it does;
docs/pictures has two of them."""
import base64
import json
import os
import re
import shutil
import time
from pathlib import Path

import pytest
from conftest import SECONDS, entries_after, header_constant
from hedrugal import Chord
from hedrugal.page.recorded import sent
from selenium.webdriver import ActionChains, Chrome, ChromeOptions
from selenium.webdriver.chrome.service import Service
from selenium.webdriver.common.keys import Keys
from selenium.webdriver.support.wait import WebDriverWait

ENTRIES = f"{header_constant('HED_ENTRY_COUNT'):,}"
AFTER_ESCAPE = entries_after(b"\x1b")
WIDE, NARROW, WIDTH = (1100, 900), (360, 740), "document.documentElement.scrollWidth"
# What each script may use.
HELPERS = """const $ = (id) => document.getElementById(id);
const $$ = (selector) => [...document.querySelectorAll(selector)];"""
READING, READINGS = "$$('input[name=reading]:checked')[0].value", ("table", "extended")
BUSY, FOCUS = "document.body.ariaBusy", "document.activeElement.id"
# The lines of the events, without what is said beside them.
LINES = "$$('#items > li .event').map((it) => it.firstChild.textContent)"
TWO_READS, SINGLE_BYTES = "#two .event", "#steps .event:not(.quiet)"
HREFS = "$$('#rows a, #sent a').map((it) => it.hash.endsWith('&reading=extended'))"
SAME = "✓ Two reads: the same events."
PICKED = "$$('#keyboard :checked').map((it) => it.value).sort().join(' ')"
EVIL = "<script>alert(1)</script><img src=x onerror=alert(2)>"

# What has the focus, how that is shown, and its place in the page.
FOCUSED = """((it, { outlineStyle, outlineWidth } = getComputedStyle(it)) =>
  [it.id || it.outerHTML.slice(0, 60), outlineStyle, parseFloat(outlineWidth), $$('*').indexOf(it)]
)(document.activeElement)"""

# Each text of the page with its contrast, where that is below 4.5. The hatched ones are seen on
# both colours of the hatching.
CONTRAST = r"""(() => {
  const numbers = (text) => text.match(/[\d.]+/g).map(Number), shares = [0.2126, 0.7152, 0.0722];
  const linear = (it) => it <= 0.03928 ? it / 12.92 : ((it + 0.055) / 1.055) ** 2.4;
  const light = (color) => shares.reduce((sum, it, at) => sum + it * linear(color[at] / 255), 0);
  const blend = (front, back, alpha) => back.map((it, at) => front[at] * alpha + it * (1 - alpha));
  const backs = (it) => {
    for (let at = it; at; at = at.parentElement) {
      const { backgroundColor: color, backgroundImage: image } = getComputedStyle(at);
      if (image !== 'none') return image.match(/rgba?\([^)]*\)/g).map(numbers);
      const parts = numbers(color);
      if (parts.length < 4 || parts[3] > 0) return [parts];
    }
    return [[255, 255, 255]];
  };
  const wrong = [];
  for (const it of $$('body *')) {
    const own = [...it.childNodes].map((node) => node.nodeType === 3 ? node.data : '');
    const text = own.join('').trim();
    if (!text && !(it.matches('textarea, #key, #find') && it.value)) continue;
    if (!it.checkVisibility() || it.disabled) continue;
    const style = getComputedStyle(it);
    for (const back of backs(it).map((it) => it.slice(0, 3))) {
      const front = blend(numbers(style.color), back, Number(style.opacity));
      const [darker, lighter] = [light(front), light(back)].sort((one, two) => one - two);
      const ratio = (lighter + 0.05) / (darker + 0.05);
      if (ratio < 4.5) wrong.push([text, ratio, style.color, back.join()]);
    }
  }
  return wrong;
})()"""

# Pastes a text into the field. False if the page inserted it itself.
PASTE = """(() => {
  const clipboardData = new DataTransfer(), how = {clipboardData, bubbles: true, cancelable: true};
  clipboardData.setData('text/plain', %s);
  $('text').select();
  document.body.ariaBusy = true;
  return $('text').dispatchEvent(new ClipboardEvent('paste', how));
})()"""


def typed(text):
    return [f"key U+{ord(it):04X} NONE" for it in text]


class Page:
    """The page in a window of Chromium."""

    def __init__(self, driver, server):
        self.driver, self.url = driver, server.url

    def call(self, method, **words):
        """Calls a method of Chromium's own protocol."""
        return self.driver.execute_cdp_cmd(method, words)

    def processor_time(self):
        """The seconds of the processor that the page and its server, in this program, have had."""
        metrics = {it["name"]: it["value"] for it in self.call("Performance.getMetrics")["metrics"]}
        return time.process_time() + metrics["ProcessTime"]

    def run(self, script):
        """The value of an expression in the page, once it is settled."""
        return self.driver.execute_script(f"{HELPERS} return {script}")

    def wait(self, script, value=True):
        """Waits until an expression has a value."""
        waiting = WebDriverWait(self.driver, SECONDS, 0.02)
        waiting.until(lambda _: self.run(script) == value, f"not {value!r}: {script}")

    def faults(self):
        """What went wrong in the page since the last call: exceptions, and errors of the console. A
        dialog fails the next call."""
        log = self.driver.get_log("browser")
        return [it["message"] for it in log if it["level"] == "SEVERE"]

    def press(self, keys, held="", on=None):
        """Presses and releases keys, while another may be held, on an element or where focus is."""
        if on:
            self.focus(on)
        it = ActionChains(self.driver)
        (it.key_down(held).send_keys(keys).key_up(held) if held else it.send_keys(keys)).perform()

    def size(self, width, height):
        how = {"width": width, "height": height, "deviceScaleFactor": 1, "mobile": False}
        self.call("Emulation.setDeviceMetricsOverride", **how)

    def scheme(self, name):
        how = [{"name": "prefers-color-scheme", "value": name}]
        self.call("Emulation.setEmulatedMedia", features=how)

    def open(self, fragment=""):
        self.driver.get("about:blank")
        self.driver.get(self.url + fragment)
        self.settle()
        self.wait("$$('#rows tbody tr').length > 0 && $$('#sent tbody').length > 0")
        self.address = self.run("location.href")

    def settle(self):
        self.wait(BUSY, "false")

    def focus(self, name):
        self.run(f"$('{name}').focus()")

    def text(self, name):
        return self.run(f"$('{name}').innerText")

    def value(self, name):
        return self.run(f"$('{name}').value")

    def is_shown(self, name):
        return self.run(f"$('{name}').checkVisibility()")

    def texts(self, selector):
        return self.run(f"$$('{selector}').map((it) => it.innerText)")

    def count(self, selector):
        return self.run(f"$$('{selector}').length")

    def bytes(self, selector="#items > li .bytes"):
        return self.run(f"$$('{selector}').map((it) => it.ariaLabel)")

    def cells(self, table):
        """The texts of each row of a table."""
        cells = "[...it.cells].map((cell) => cell.innerText)"
        return self.run(f"$$('{table} tbody tr').map((it) => {cells})")

    def wait_for_text(self, name, text, how="startsWith"):
        self.wait(f"$('{name}').innerText.{how}({json.dumps(text)})")

    def open_details(self, is_open=True):
        self.run(f"$$('details').forEach((it) => {{ it.open = {json.dumps(is_open)}; }})")

    def enter(self, text, name="text", is_answered=True):
        """Puts a text into a field at once, as a paste does."""
        if name == "text":
            self.run(f"{BUSY} = 'true'")
        self.run(f"$('{name}').focus(), $('{name}').select()")
        self.call("Input.insertText", text=text) if text else self.press(Keys.BACKSPACE)
        if name == "text" and is_answered:
            self.settle()

    def click(self, selector):
        """Clicks on an element. A change of how bytes are read is asked for 60 ms later."""
        self.driver.find_element("css selector", selector).click()
        self.run("new Promise((done) => setTimeout(done, 100))")
        self.settle()

    def read_as(self, reading):
        if self.run(READING) != reading:
            self.run(f"{BUSY} = 'true'")
            self.click(f"input[name=reading][value={reading}]")

    def find(self, text):
        """Searches the table, and returns the bytes and the keys that are found."""
        before = self.text("found")
        self.enter(text, "find")
        self.wait(f"$('found').innerText !== {json.dumps(before)}")
        return [it[:2] for it in self.cells("#rows")]

    def reads(self, text, lines, waiting=""):
        self.enter(text)
        self.check(lines, waiting)

    def check(self, lines, waiting=""):
        """Waits for the lines, and checks that all cuts agree, unless nothing was typed."""
        self.wait(LINES, lines + ["waits for more bytes"] * bool(waiting))
        assert self.bytes("#items > .hatched .bytes") == [waiting] * bool(waiting)
        self.settle()
        if lines or waiting:
            assert self.count(".verdict.good") == 2

    def cuts(self, size, lines):
        """Cuts after each byte by the slider, and checks that the lines are the same."""
        self.press(Keys.HOME, on="cut")
        for at in range(size + 1):
            self.wait("$('cut-at').innerText", f"{at} of {size}")
            assert (self.texts(TWO_READS), self.text("two-same")) == (lines, SAME)
            yield at
            self.press(Keys.ARROW_RIGHT)

    def flush(self, first):
        """Flushes what waits, by a key, and checks the first line."""
        self.press(Keys.ENTER, on="flush")
        self.wait(FOCUS, "unflush")
        assert self.run(LINES)[0] == first
        self.settle()
        assert self.count(".verdict.good") == 2

    def copied(self, name, what):
        """What a button copies."""
        permissions = ["clipboardReadWrite", "clipboardSanitizedWrite"]
        self.call("Browser.grantPermissions", permissions=permissions)
        self.click(f"#{name}")
        self.wait_for_text("copied", f"The {what} was copied.")
        return self.run("navigator.clipboard.readText()")

    def report(self):
        return self.copied("copy-report", "report")

    def link(self):
        """The fragment of the link, which is made when it is copied."""
        return self.copied("copy", "link").removeprefix(self.url)

    def picture(self, name, last="body", first="html"):
        """Keeps a picture of the page, from the element `first` down to the element `last`."""
        self.run("document.activeElement.blur()")
        top = f"$$('{first}')[0].getBoundingClientRect().top + scrollY - 16"
        bottom = f"$$('{last}')[0].getBoundingClientRect().bottom + scrollY + 16"
        width, top, bottom = self.run(f"[innerWidth, Math.max({top}, 0), {bottom}]")
        clip = {"x": 0, "y": top, "width": width, "height": bottom - top, "scale": 1}
        taken = self.call("Page.captureScreenshot", captureBeyondViewport=True, clip=clip)
        if os.environ.get("SCREENSHOTS"):
            data = base64.b64decode(taken["data"])
            Path(os.environ["SCREENSHOTS"], f"{name}.png").write_bytes(data)


def check_refused(page, what="api/encode.*400"):
    """The server has refused names, or something else, and the console says nothing more."""
    faults = page.faults()
    assert faults and all(re.search(what, it) for it in faults)


@pytest.fixture(scope="module")
def driver():
    options = ChromeOptions()
    options.binary_location = shutil.which("chromium")
    for word in "headless no-sandbox disable-gpu disable-dev-shm-usage hide-scrollbars".split():
        options.add_argument(f"--{word}")
    options.set_capability("goog:loggingPrefs", {"browser": "ALL"})
    with Chrome(service=Service(shutil.which("chromedriver")), options=options) as it:
        it.set_script_timeout(SECONDS)
        yield it


@pytest.fixture
def page(driver, server):
    """The page, in which nothing may go wrong: no exception, nothing that the policy refuses, no
    dialog. Nothing that is typed or clicked changes its address, but for the name of a key."""
    it = Page(driver, server)
    it.faults()
    it.size(*WIDE)
    it.scheme("light")
    it.open()
    yield it
    scripts, address = it.run("[document.scripts.length, location.href]")
    assert (scripts, address.split("#key=")[0]) == (1, it.address.split("#key=")[0])
    assert it.faults() == []


def test_first_sight(page):
    page.check(["key UpArrow CTRL", "key U+0071 NONE"], "ESC")
    assert page.text("count") == "8 bytes: 2 events, and 1 byte waits."
    page.picture("light")


# Bytes, and what is said below each of their events.
WRITTEN = {
    "table": ("\\e[1;5Aq\\e[113;5u", "as it is|as it is|as ^Q"),
    "extended": (
        "\\e[24;80R\\e]11;#fff^G\\e[I\\e[200~ab\\e[201~\\e[97;5u\\e[<0;3;4m",
        "as ESC [ ? 2 4 ; 8 0 R|as ESC ] 1 1 ; # f f f ESC \\|as it is|as it is|as ^A|as it is",
    ),
}


def test_written(page):
    """What each event is written as, if these aren't the bytes that were read, or why it isn't."""
    for reading, (text, wanted) in WRITTEN.items():
        page.read_as(reading)
        page.enter(text)
        assert page.texts("#items .written") == [f"written {it}" for it in wanted.split("|")]
    page.enter("\\e]11;ab")
    page.flush("osc cut 5:31313b6162")
    [why] = page.texts("#items .written")
    assert why.startswith("isn’t written: ")
    page.enter("\\e[200~" + 40 * "a" + "\\e[201~")
    [long] = page.texts("#items .written")
    assert long == "written as ESC [ 2 0 0 ~ " + "a " * 18 + "… 28 bytes more"


def test_typing(page):
    page.enter("")
    assert page.text("count") == "Type bytes, press keys, or try an example."
    page.press("\\e[1;5A^C", on="text")
    page.check(["key UpArrow CTRL", "key U+0063 CTRL"])
    assert page.bytes() == ["ESC [ 1 ; 5 A", "^C"]
    assert page.text("written-as") == "Written as text and escapes: 7 bytes."


UP = ["ESC [ 1 ; 5 A"]
# The notation, the bytes of the events, and texts that say them.
NOTATIONS = [
    ("text", UP, ["\\e[1;5A", "\\x1b[1;5A", "\\033[1;5A", "^[[1;5A", "\\u001b[1;5A"]),
    ("hex", UP, ["1b 5b 31 3b 35 41", "1B5B313B3541", "0x1b, 0x5b, 0x31, 0x3b, 0x35, 0x41"]),
    ("words", UP, ["ESC [ 1 ; 5 A", "ESC[1;5A"]),
    ("words", ["ESC [ A", "^M", "SP", "DEL"], ["ESC [ A CR SP DEL"]),
    ("text", ["\\xc3 \\xa9"], ["\\u{e9}", "é"]),
    ("text", ["^J", "^I", "\\", "^"], ["\\n\\t\\\\\\^"]),
    ("text", ["DEL", "^@", "^"], ["^?^@^"]),
    ("text", ["^@", "\\xff"], ["\\0\\377"]),
    ("text", ["1", "b"], ["1b"]),
    ("text", ["ESC [ A"], ["\x1b[A"]),
]


def test_notations(page):
    for used, shown, texts in NOTATIONS:
        for text in texts:
            page.enter(text)
            assert (page.bytes(), page.text("fault")) == (shown, ""), text
            assert used in page.text("written-as"), text


def test_faults_of_notations(page):
    faults = {"\\q\\xg": "‘\\q’, ‘\\xg’", "\\u{d800}": "‘\\u{d800}’", "\\777": "‘\\777’"}
    for text, fault in faults.items():
        page.enter(text)
        assert f"{fault} is no escape" in page.text("fault")
        assert page.run("$('text').ariaInvalid") == "true"


def test_half_a_pair(page):
    """What begins with pairs of digits isn't taken for text because the last one lacks a digit."""
    for text in ("1b 5b 4", "1b5b4", "0x1b, 0x5b, 0x4"):
        page.reads(text, [], "ESC [")
        assert page.text("fault") == "‘4’ is no pair of hexadecimal digits."
        assert page.text("written-as").startswith("Written as hexadecimal")
    page.reads("1b 5b 4 1", typed("1b 5b 4 1"))


def test_chosen_notations(page):
    page.reads("1b 5b 41", ["key UpArrow NONE"])
    page.click("input[name=notation][value=text]")
    page.check(typed("1b 5b 41"))
    page.click("input[name=notation][value=hex]")
    page.check(["key UpArrow NONE"])
    page.enter("1b 5")
    assert "‘5’ is no pair of hexadecimal digits" in page.text("fault")
    page.click("input[name=notation][value=names]")
    page.check(typed("1b5"))


def test_pressing_keys(page):
    page.enter("")
    page.focus("press")
    lines = []
    for key, held, line, text in [
        (Keys.ARROW_UP, Keys.CONTROL, "key UpArrow CTRL", "\\e[1;5A"),
        ("a", "", "key U+0061 NONE", "a"),
        (Keys.ENTER, "", "key Enter NONE", "^M"),
        (Keys.F5, Keys.SHIFT, "key F5 SHIFT", "\\e[15;2~"),
        ("c", Keys.CONTROL, "key U+0063 CTRL", "^C"),
        ("x", Keys.ALT, "key U+0078 ALT", "\\ex"),
    ]:
        wanted = page.value("text") + text
        page.press(key, held)
        page.wait("$('text').value", wanted)
        page.wait_for_text("pressed", f"{line} sends ")
        lines.append(line)
    page.check(lines)
    names = ["ctrl+up", "a", "enter", "shift+f5", "ctrl+c", "alt+x"]
    assert page.texts("#items .press") == names
    assert "key U+0078 ALT" in page.text("key-count")
    page.press(Keys.ESCAPE)
    page.check(lines, "ESC")
    page.press(Keys.TAB)
    assert page.run("document.activeElement.tagName") == "SUMMARY"


def test_the_first_key_takes_the_place_of_an_example(page):
    """It isn't Alt and that key, though the example ends in ESC. A changed example stays."""
    page.press("a", on="press")
    page.check(typed("a"))
    page.click("[data-try='\\\\e']")
    for lines in ([], typed("q"), typed("qa")):
        page.check(lines, "" if lines else "ESC")
        page.press("qa"[len(lines) : len(lines) + 1], on="press")
    page.click("[data-try='\\\\e[1;']")
    page.press("5", on="text")
    page.check([], "ESC [ 1 ; 5")
    page.press("A", on="press")
    page.check(["key UpArrow CTRL"])
    page.open("#bytes=1b")
    page.press("q", on="press")
    page.check(["key U+0071 ALT"])


def test_pressing_keys_in_other_modes(page):
    page.enter("")
    page.click("#modes summary")
    page.click("#cursor")
    page.press(Keys.ARROW_UP, on="press")
    page.check(["key ApplicationUpArrow NONE"])
    assert page.text("modes-now") == "application cursor keys"
    page.click("#encoding option[value='1']")
    page.press("i", Keys.CONTROL, on="press")
    page.check(["key ApplicationUpArrow NONE", "key U+0069 CTRL"])
    assert page.value("text").endswith("\\e[105;5u")


# For each reading what is typed, what is said of it, and the first event of a flush.
ESCAPE = ["The Escape key sends this byte, and nothing else.", "ESC [ A is key UpArrow NONE"]
ESCAPE += [f"first byte of {AFTER_ESCAPE:,} longer sequences", "ESC q is key U+0071 ALT"]
ESCAPE += ["or a pause"]
ALT_ESCAPE = ["Escape with Alt sends these two bytes", "ESC ESC [ A is key UpArrow ALT"]
F12 = ["More bytes may make one of 2 keys of them:", "ESC [ 2 4 ; 5 ~ is key F12 CTRL", "slow line"]
TO_COME = "whose end is still to come"
MOUSE = [f"They begin a mouse report, {TO_COME}", "ESC [ < 0 ; 3"]
PASTED = ["A paste was begun, with 4 bytes of text so far", "ESC [ 2 0 1 ~"]
CONTROL, STRING = "the beginning of a control sequence", "the beginning of a command (OSC)"
OR_CONTROL = "Or they begin a control sequence that the table doesn’t have."
WAITING = {
    "table": {
        "\\e": (ESCAPE, "key Escape NONE"),
        "\\e\\e": (ALT_ESCAPE, "key Escape ALT"),
        "\\e[24;5": (F12, "key U+005B ALT"),
        "\\e[<0;3": (MOUSE, "key U+005B ALT"),
        "\\xe2\\x82": (["a character may have several bytes", "U+FFFD"], "key U+FFFD NONE"),
        "\\xe2": (["the first one has arrived"], "key U+FFFD NONE"),
        "\\e[200~ls -": (PASTED, "paste 4:6c73202d"),
    },
    "extended": {
        "\\e[?": ([f"{CONTROL}, {TO_COME}"], "key U+005B ALT"),
        "\\e]11;": ([f"{STRING}, {TO_COME}", "typed text"], "osc cut 3:31313b"),
        "\\eP>|": (["the beginning of a device control string (DCS)"], "dcs cut 2:3e7c"),
        "\\e_G": (["the beginning of an application command (APC)"], "key U+005F ALT"),
        "\\e[[": (["the beginning of a key report"], "key U+005B ALT"),
        "\\eO2": (["the beginning of a key report"], "key U+004F ALT"),
        "\\e[<0;3": (["They may become a mouse report, too"], "key U+005B ALT"),
        "\\e[1;": ([OR_CONTROL], "key U+005B ALT"),
        "\\e": (["A reply or a report may begin with it, too."], "key Escape NONE"),
        "\\e]l" + "a" * 200: ([STRING], "key U+005D ALT"),
    },
}


@pytest.mark.parametrize(
    "reading, text", [(it, text) for it in WAITING for text in WAITING[it]], ids=lambda it: it[:12]
)
def test_what_waits(page, reading, text):
    """It is told in words, with a button that flushes."""
    words, flushed = WAITING[reading][text]
    page.read_as(reading)
    page.enter(text)
    assert page.is_shown("waits")
    assert [it for it in words if it not in page.text("why")] == []
    assert page.text("flush").startswith("End the paste here" if words == PASTED else "Flush")
    assert page.text("flush-means").startswith(f"That emits {flushed}")
    assert ("more events" in page.text("flush-means")) == (len(text) > 100)
    page.flush(flushed)
    assert not page.is_shown("waits")
    assert "nothing waits. No more bytes come." in page.text("count")
    page.press(" ")
    page.wait(FOCUS, "flush")


def test_what_waits_in_other_readings(page):
    """Its keys and links are those of the reading. The table is searched for them."""
    page.read_as("extended")
    page.enter("\\e[1;")
    assert "ESC [ 1 ; 1 A is key UpArrow NONE" in page.text("why")
    assert page.run("$$('#why a')[0].hash.endsWith('&reading=extended')")
    page.read_as("table")
    assert "control sequence" not in page.text("why")
    page.click("#why button")
    page.wait_for_text("found", "with bytes that begin with ESC [ 1 ;.", "endsWith")


def test_pasting_control_characters(page):
    """They are shown as escapes, and so are a backslash and a caret beside them."""
    assert not page.run(PASTE % json.dumps("\x1b[A\x03\\n^C\x7f\n"))
    page.settle()
    assert page.value("text") == "\\e[A^C\\\\n\\^C^?^J"
    lines = ["key UpArrow NONE", "key U+0063 CTRL", *typed("\\n^C")]
    page.check([*lines, "key Backspace NONE", "key Enter NONE"])
    assert page.run(PASTE % json.dumps("\\e[A\n"))


def test_cuts(page):
    page.enter("\\e[1;5Aé\\e[200~ls\\e[201~\\e")
    lines = ["key UpArrow CTRL", "key U+00E9 NONE", "paste 2:6c73"]
    for at in page.cuts(23, lines):
        first = (at >= 6) + (at >= 8) + (at >= 22)
        counts = "$$('#two .read').map((it) => it.querySelectorAll('.event').length)"
        assert page.run(counts) == [first, 3 - first]
    assert page.link().endswith("&cut=23")
    assert page.count("#steps > li") == 23
    assert [it for it in page.texts("#steps > li .event") if " wait" not in it] == lines
    assert page.text("one-same") == "✓ 23 reads of one byte: the same events."


REPLIES = ["cursor 24 80", "osc 7:31313b23666666", "focus gained"]
REPLY, ALT, SUPER = ["cursor 24 80"], ["key UpArrow ALT"], ["key UpArrow SUPER"]
KEYS = ["key U+005B ALT", *typed("24;80R")]
# What is typed, its bytes, and the lines in each reading.
READ = {
    "a key": ("\\e[1;9A", "1b5b313b3941", [ALT, SUPER]),
    "a reply": ("\\e[24;80R", "1b5b32343b383052", [KEYS, REPLY]),
}


@pytest.mark.parametrize("text, hexes, wanted", READ.values(), ids=READ)
def test_readings(page, text, hexes, wanted):
    """The switch changes what bytes mean, wherever they are cut. Links have it."""
    page.enter(text)
    for reading, lines in zip(READINGS, wanted):
        page.read_as(reading)
        page.check(lines)
        assert (page.texts(TWO_READS), page.texts(SINGLE_BYTES)) == (lines, lines)
        named = "" if reading == "table" else f"&reading={reading}"
        assert page.link() == f"#bytes={hexes}{named}"
        size = len(hexes) // 2
        assert len([*page.cuts(size, lines)]) == size + 1
        page.open(page.link())
        page.check(lines)
        assert (page.run(READING), page.text("cut-at")) == (reading, f"{size} of {size}")
        page.enter(text)


def test_readings_of_the_links_in_the_table(page):
    page.read_as("extended")
    assert {*page.run(HREFS)} == {True}
    page.find("up super")
    assert {*page.run(HREFS)} == {True}
    page.read_as("table")
    assert {*page.run(HREFS)} == {False}


def test_readings_of_links(page):
    """A link that is followed sets the switch, to the table unless it names another reading."""
    for name in ("extended", "x", "kitty", "constructor", "", "%00", "extended", "table"):
        page.run(f"location.hash = '#bytes=1b5b313b3941&end=flush&reading={name}'")
        known = name if name in READINGS else "table"
        page.wait(READING, known)
        page.check(SUPER if known == "extended" else ALT)
        assert page.is_shown("flushed")
    page.open("#bytes=1b5b313b3941&reading=extended")
    page.run("location.hash = '#bytes=1b5b41'")
    page.check(["key UpArrow NONE"])
    assert page.run(READING) == "table"
    page.address = page.run("location.href")


def test_switching_by_keys(page):
    """The arrow keys change the reading, which says what it is for."""
    page.enter("\\e[1;9A")
    page.run("$$('input[name=reading]:checked')[0].focus()")
    for lines, words in [(SUPER, "in any mode"), (ALT, "typed text")]:
        page.press(Keys.ARROW_DOWN)
        page.wait_for_text("reading-means", words, "includes")
        page.check(lines)


def test_switching_by_examples(page):
    """Examples that need a reading choose it."""
    page.click("[data-reading=extended]")
    page.check(REPLIES)
    page.click("[data-try^='\\\\e[97']")
    page.check(["key U+0061 CTRL release", "key UpArrow SUPER"])
    wanted = "\nread: at once\nby: Parser, Dialect::Extended\nkey U+0061"
    assert wanted in page.report()


def test_search(page):
    rows = page.find("ctrl f5")
    assert len(rows) == 8
    assert ["ESC [ 1 5 ; 5 ~", "F5 CTRL"] in rows
    assert page.text("found") == f"8 of {ENTRIES} rows with the words ctrl and f5."
    for query in ("ESC [ 1 ; 5", "\\e[1;5", "1b 5b 31 3b 35", "^[[1;5"):
        rows = page.find(query)
        assert rows and all(it[0].startswith("ESC [ 1 ; 5") for it in rows), query
        wanted = f"12 of {ENTRIES} rows with bytes that begin with ESC [ 1 ; 5"
        assert wanted in page.text("found")
        page.find("up")
    assert page.find("Control+PgUp")[0][1] == "PageUp CTRL"
    assert page.find("no such words") == []
    assert len(page.find("alt")) == 50
    page.click("#more-rows button")
    assert page.count("#rows tbody tr") == 100
    assert page.run("document.activeElement.closest('tr').rowIndex") == 51
    page.find("[11;16~")
    assert page.count("#rows tbody tr") == 1
    page.click("#rows tbody a")
    page.check(["key F1 SHIFT+ALT+CTRL"])
    assert page.value("text") == "\\e[11;16~"


def test_keys_in_every_mode(page):
    page.enter("i", "key")
    page.wait_for_text("key-count", "key U+0069 NONE sends")
    page.click("#keyboard [value=CTRL]")
    page.wait_for_text("key-count", "key U+0069 CTRL sends")
    rows = page.cells("#sent")
    assert len(rows) == 7
    first = ["xterm, modifyOtherKeys off (chosen above)", "^I", "key Tab NONE", "≠ tab"]
    sent = ["ESC [ 1 0 5 ; 5 u", "key U+0069 CTRL", "✓ ctrl+i"]
    assert rows[0] == first
    assert ["CSI u, modifyOtherKeys off", *sent] in rows
    assert rows[-1] == ["Kitty’s protocol", sent[0], "key U+0069 CTRL", sent[2]]
    page.enter("Enter", "key")
    page.wait_for_text("key-count", "key Enter NONE sends")
    assert "newline mode" in page.text("sent")


def test_picking_keys(page):
    """A key that is picked is named, and shows what each terminal sends for it. The page's address
    leads back to it."""
    page.click("#keyboard [value=i]")
    page.click("#keyboard [value=CTRL]")
    page.wait_for_text("apart", "ctrl+i in 17 terminals. 13 can’t tell it from another press: ")
    apart = "4 can tell it from others in some modes alone: foot, kitty, Vim's terminal, xterm."
    assert page.text("apart").endswith(apart)
    rows = page.cells("#recorded")
    for row in (
        ["xterm", "^I", "≠ tab", "ctrl+shift+i, ctrl+tab, tab"],
        ["xterm, modifyOtherKeys 1", "^I", "≠ tab", "ctrl+shift+i, tab"],
        ["kitty, Kitty’s flags 1, 3, 31", "ESC [ 1 0 5 ; 5 u", "✓ ctrl+i", "no other"],
    ):
        assert row in rows
    page.wait("location.hash", "#key=ctrl%2Bi")
    page.picture("keyboard", "#recorded", "#keys-heading")
    page.open("#key=ctrl%2Bi")
    assert (page.cells("#recorded"), page.value("key")) == (rows, "ctrl+i")
    assert page.run(PICKED) == "CTRL i"
    page.run("location.hash = '#key=up'")
    page.wait_for_text("apart", "up in 17 terminals.")
    wanted = ["alacritty, application cursor keys", "ESC O A", "✓ up", "no other"]
    assert (page.run(PICKED), wanted in page.cells("#recorded")) == ("up", True)
    page.click("#recorded td a")
    page.check(["key UpArrow NONE"])


# What is clicked one after the other, and the names of that.
CLICKED = {
    **{"1": "1", "SHIFT": "!", "ALT": "alt+!", "a": "alt+shift+a", "CTRL": "ctrl+alt+shift+a"},
    **{",": "ctrl+alt+<", "space": "ctrl+alt+shift+space", "SUPER": "super+ctrl+alt+shift+space"},
}


def test_names_of_picked_keys(page):
    """Shift makes a sign of some keys, as on the keyboard. Each key has a name that is read, and
    was recorded."""
    for value, name in CLICKED.items():
        page.click(f"#keyboard [value='{value}']")
        page.wait("$('key').value", name)
    page.wait_for_text("apart", "super+ctrl+alt+shift+space in 17 terminals.")
    names = page.run("$$('#keyboard [type=radio]').flatMap((it) => [it.value, it.dataset.sign])")
    presses = [str(Chord.read(it)) for it in names if it]
    assert len(presses) == len({*presses}) == 98
    assert [it for it in presses if not sent(it)] == []


def test_named_keys_on_the_keyboard(page):
    """What is named or pressed is shown on the keyboard, if it is one press of a key there. No
    press is in the address."""
    names = {"alt+!": "1 ALT SHIFT", "f13": "", "A": "SHIFT a", "C-x C-s": "", "<Up>": "up"}
    for name, keys in names.items():
        page.enter(name, "key")
        page.wait(PICKED, keys)
    page.wait("location.hash", "#key=%3CUp%3E")
    page.press("x", Keys.ALT, on="press")
    page.wait(PICKED, "ALT x")
    assert (page.value("key"), page.run("location.href")) == ("alt+x", page.url)


def test_keyboard_by_keys(page):
    """The arrow keys go to the next key of a row and to the nearest one of another, and the space
    bar holds a modifier."""
    page.run("$$('#keyboard [value=up]')[0].focus()")
    steps = [(Keys.ARROW_UP, "end"), (Keys.ARROW_UP, "home"), (Keys.ARROW_LEFT, "insert")]
    steps += [(Keys.ARROW_DOWN, "delete"), (Keys.ARROW_RIGHT, "end"), (Keys.ARROW_DOWN, "up")]
    for key, name in [*steps, *2 * [(Keys.ARROW_DOWN, "down")]]:
        page.press(key)
        page.wait("[$('key').value, document.activeElement.value]", [name, name])
    page.run("$$('#keyboard [value=SHIFT]')[0].focus()")
    page.press(" ")
    page.wait_for_text("apart", "shift+down in 17 terminals.")
    page.wait("location.hash", "#key=shift%2Bdown")


# Names, and what is said of their keys.
NAMED_KEYS = {
    "ctrl+up": "key UpArrow CTRL sends the same bytes in all 24 modes.",
    "<C-W>": "key U+0077 CTRL sends ",
    "uparrow": "key UpArrow NONE sends 2 different texts in 24 modes, by application cursor keys.",
    "LeftShift": "key LeftShift NONE sends the same bytes in all 24 modes.",
    "Hyper+X": "key U+0078 SHIFT+HYPER can be sent by Kitty’s protocol alone.",
    "C-x C-s": "key U+0078 CTRL sends ",
}


def test_typed_names(page):
    """The name of a key or a chord shows what each key sends."""
    for name, says in NAMED_KEYS.items():
        page.enter(name, "key")
        page.wait_for_text("key-count", says)
        assert (page.text("key-fault"), page.run("$('key').ariaInvalid")) == ("", "false")
    assert "key U+0073 CTRL sends" in page.text("key-count")
    rows = page.cells("#sent")
    headings = [place for place, row in enumerate(rows) if len(row) == 1]
    assert [rows[it] for it in headings] == [["ctrl+x"], ["ctrl+s"]]
    assert rows[headings[1] + 1][1:] == ["^S", "key U+0073 CTRL", "✓ ctrl+s"]
    page.run("$$('#sent tbody:last-child tr:last-child a')[0].click()")
    page.check(["key U+0073 CTRL"])
    assert page.run(READING) == "extended"


def test_typing_a_name(page):
    """A name is read as it is typed. What is wrong is said with its place, and goes."""
    page.focus("key")
    page.run("$('key').select()")
    page.press("ctrl+")
    page.wait_for_text("key-fault", "no key is behind the modifiers, at byte ")
    assert page.run("$('key').ariaInvalid") == "true"
    page.press("x shift+!")
    wrong = "shift with a sign that shows it, at byte 13: '!'."
    page.wait_for_text("key-fault", wrong)
    page.press(8 * Keys.BACKSPACE)
    page.wait("$('key-fault').innerText", "")
    page.wait_for_text("key-count", "key U+0078 CTRL sends")
    page.enter("NoKey", "key")
    page.wait_for_text("key-fault", "no key has this name, at byte 0: 'NoKey'.")
    check_refused(page)


def test_link(page):
    page.enter("\\xff\\e[200~a\\e[201~é\\e")
    page.press(Keys.ENTER, on="flush")
    lines = ["key U+FFFD NONE", "paste 1:61", "key U+00E9 NONE", "key Escape NONE"]
    page.check(lines)
    link = "#bytes=ff1b5b3230307e611b5b3230317ec3a91b&end=flush"
    assert (page.link(), page.address) == (link, page.url)
    page.open(link)
    page.check(lines)
    assert page.value("text") == "\\xff\\e[200~a\\e[201~é\\e"
    assert page.is_shown("flushed")


def test_links_of_texts(page):
    for text in ("1b 5b 41", "ESC [ A", "\\^C\\\\", "1b5b41", " a\\u{200b}"):
        page.enter("")
        page.click("input[name=notation][value=text]")
        page.enter(text)
        link, shown = page.link(), page.bytes()
        page.open(link)
        assert page.bytes() == shown, text


def test_broken_links(page):
    wrong = ("#bytes=1", "#bytes=zz", "#bytes=1b%3Cscript%3E", "#bytes=1b&cut=-1&end=%00")
    for bad in (*wrong, "#<script>alert(1)</script>", "#%ff%fe", "#key="):
        page.open(bad)
        assert page.run(LINES)
    page.run("location.hash = '#key=<script>'")
    page.wait_for_text("key-fault", "no key has this name, at byte 1: 'script>'.")
    check_refused(page)


def test_reports(page):
    page.open("#bytes=1b5b411b&cut=2")
    wanted = "bytes: 1b 5b 41 1b\nthen: more bytes may come\nread: cut after byte 2\n"
    assert page.report().startswith(f"{wanted}key UpArrow NONE = up\nwaiting 1\nhedrugal ")


def test_bytes_that_are_no_text(page):
    page.reads("\\xff\\xfe\\xc3(", ["key U+FFFD NONE"] * 3 + ["key U+0028 NONE"])
    page.reads("\\x00\\x80", ["key U+0000 NONE", "key U+FFFD NONE"])


def test_input_is_never_html(page):
    for text in (EVIL, f"\\e[200~{EVIL}\\e[201~", f"\\q{EVIL}"):
        page.enter(text)
    page.reads("\\e[200~<b>x</b>\\e[201~", ["paste 8:3c623e783c2f623e"])
    assert page.texts("#items .glyphs") == ["<b>x</b>"]
    page.enter(EVIL, "find")
    page.enter(EVIL, "key")
    page.wait_for_text("key-fault", "script>alert(1)</script>", "includes")
    check_refused(page)
    page.wait_for_text("found", f"0 of {ENTRIES} rows")
    page.focus("press")
    event = f"new KeyboardEvent('keydown', {{key: {json.dumps(EVIL)}, bubbles: true}})"
    page.run(f"$('press').dispatchEvent({event})")
    page.wait_for_text("pressed", "<img src=x", "includes")
    assert page.count("main script, main img, main b b, main iframe") == 0
    page.open("#bytes=" + EVIL.encode().hex())
    assert page.value("text") == EVIL


def test_portions(page):
    page.enter("q" * 1000)
    assert page.text("count") == "1,000 bytes: 1,000 events, and nothing waits."
    for shown in (300, 600, 900, 1000):
        page.wait("$$('#items > li').length", shown)
        if shown < 1000:
            assert f"of {1000 - shown} more events" in page.text("more-items")
            page.click("#more-items button")
    assert page.text("more-items") == ""
    assert page.run("document.activeElement.tagName") == "LI"


MEGABYTES = ["'a'.repeat(1 << 20)", "'é'.repeat(1 << 19)", "'\\x1b[A\\x1b'.repeat(1 << 18)"]
MEGABYTES += ["'\\\\e[A'.repeat(1 << 18) + 'q'.repeat(1 << 18)"]


@pytest.mark.parametrize("text", MEGABYTES)
def test_a_megabyte(page, text):
    """It takes four seconds of the processor until it is shown, by the page and the server. The
    comparison of cuts, which comes after it, has no limit."""
    script = f"""(async () => {{
      const field = $('text'), text = {text};
      if ({PASTE % 'text'}) {{
        field.value = text;
        field.dispatchEvent(new Event('input', {{bubbles: true}}));
      }}
      while (!$('count').innerText.startsWith('1,048,576 bytes'))
        await new Promise((done) => setTimeout(done, 5));
    }})()"""
    page.call("Performance.enable")
    page.enter("")
    before = page.processor_time()
    page.run(script)
    assert page.processor_time() - before < 4
    page.settle()
    assert page.count("#items > li") in (1, 300)
    assert "16,384" in page.text("compared")
    assert page.count(".verdict.good") == 2
    assert not page.is_shown("copy")


def test_more_than_a_megabyte(page):
    page.enter("")
    page.run("$('text').value = 'a'.repeat((1 << 20) + 1)")
    page.run("$('text').dispatchEvent(new Event('input'))")
    page.wait_for_text("fault", "At most 1,048,576 bytes", "includes")


def test_narrow(page):
    """At 360 pixels nothing is wider than the window."""
    page.size(*NARROW)
    page.open()
    page.open_details()
    pasted = "\\e[200~" + "x" * 300 + "\\e[201~"
    for text in ("\\e[1;5Aq\\e", pasted, "W" * 400, "\\e[<95;65535;65535M\\e[1;", "\\xe2\\x82"):
        page.enter(text)
        assert page.run(WIDTH) == 360, text
    wide = "it.checkVisibility() && it.getBoundingClientRect().right > 360"
    wide = f"$$('main *').filter((it) => {wide})"
    inner = "!it.closest('.wide') && !it.closest('.hidden')"
    assert page.run(f"{wide}.filter((it) => {inner}).map((it) => it.outerHTML.slice(0, 80))") == []
    page.open_details(False)
    assert page.run("Math.min(...$$('.key').map((it) => it.offsetWidth))") >= 24
    page.enter("C-i super+hyper+meta+pageup kitty57428", "key")
    page.wait_for_text("key-count", "key U+0069 CTRL sends")
    assert page.run(WIDTH) == 360
    page.read_as("extended")
    string = "\\e]0;" + "x" * 300
    for text in (f"{string}\\a", string, "\\e[97:65:99;256:3;65:66:67:68u\\e[1;"):
        page.enter(text)
        assert page.run(WIDTH) == 360, text
    page.read_as("table")
    page.enter("\\e[1;5Aq\\e")
    page.picture("narrow")
    page.scheme("dark")
    page.picture("narrow-dark")


def test_schemes(page):
    """Both colour schemes are used, and each text can be read in them."""
    backs = []
    for scheme in ("light", "dark"):
        page.scheme(scheme)
        page.enter("\\e[1;5Aq\\e[<0;3;4M\\e[200~ls\\e[201~é\\xff\\e")
        page.open_details()
        assert page.run(CONTRAST) == []
        backs.append(page.run("getComputedStyle(document.documentElement).backgroundColor"))
        page.open_details(False)
        page.picture(f"events-{scheme}")
        page.enter("\\e[1;5Aé\\e[<0;3;4M\\e[200~ls\\e[201~\\e[1;5")
        page.picture(f"cuts-{scheme}", "#one-same")
        page.enter("\\q")
        assert page.run(CONTRAST) == []
        page.click("[data-reading=extended]")
        page.check(REPLIES)
        assert page.run(CONTRAST) == []
        page.picture(f"replies-{scheme}", "#one-same")
        page.read_as("table")
    assert backs[0] != backs[1]


def test_keyboard_alone(page):
    """Tab reaches each control in the order of the page, and shows where it is."""
    page.run("document.activeElement.blur()")
    controls = 'a[href], button, input, select, textarea, summary, [tabindex="0"]'
    reached = "it.checkVisibility() && !it.disabled && !(it.type === 'radio' && !it.checked)"
    wanted = page.run(f"$$('{controls}').filter((it) => {reached}).length")
    body, places = page.run("$$('*').indexOf(document.body)"), []
    for _ in range(wanted + 5):
        page.press(Keys.TAB)
        name, style, width, place = page.run(FOCUSED)
        if place in (body, *places):
            break
        assert style != "none" and width >= 2, name
        places.append(place)
    assert (len(places), places) == (wanted, sorted(places))


ROLES = {*"textbox radio button slider searchbox checkbox combobox link application".split()}
NAMED = """textbox Bytes/radio the sequence table alone/radio all that terminals send/slider Cut
after byte/application Keys Press keys here/radio grave accent/radio Page Up/checkbox
Ctrl/searchbox Search
by words or bytes"""
NAMED = {tuple(it.split(" ", 1)) for it in NAMED.replace("\n", " ").split("/")}


def test_accessibility_tree(page):
    """All that can be focused has a name, and roles and live regions are there."""
    focusable = {"name": "focusable", "value": {"type": "booleanOrUndefined", "value": True}}
    page.open_details()
    for text in ("\\e[1;5Aq\\e", "q" * 400):
        page.enter(text)
        nodes = page.call("Accessibility.getFullAXTree")["nodes"]
        nodes = [it for it in nodes if not it["ignored"] and focusable in it.get("properties", [])]
        names = [(it["role"]["value"], it.get("name", {}).get("value", "")) for it in nodes]
        assert [it for it in names if not it[1].strip()] == []
        assert len(names) > 40
        assert ROLES <= {role for role, _ in names}
        assert NAMED <= {*names}
    assert page.count("[role=status], [role=alert]") >= 9
    named = "$$(`[${name}]`).map((it) => it.getAttribute(name))"
    names = f"['aria-labelledby', 'aria-describedby', 'for'].flatMap((name) => {named})"
    missing = "flatMap((it) => it.split(' ')).filter((id) => !$(id))"
    assert page.run(f"{names}.{missing}") == []
    assert page.run("document.documentElement.lang") == "en"
    assert (page.count("h1"), page.count("main")) == (1, 1)


def test_server_that_has_ended(page, server, monkeypatch):
    monkeypatch.setattr(server, "hosts", [])
    page.enter("\\e[A", is_answered=False)
    page.wait("$('fault').innerText !== ''")
    assert "The server says: the Host isn't this server." in page.text("fault")
    check_refused(page, "403")
