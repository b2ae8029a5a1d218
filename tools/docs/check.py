"""Checks the documents: runs their listings, and follows their links.

The documents are README.md, also that of python, CONTRIBUTING.md, CHANGELOG.md, docs/*.md and
crates/*/README.md.
It is checked that

- each listing (a fenced block) has a marker before it, an HTML comment that says how it is run or
  why it isn't;
- each listing that is run is accepted and prints what the document says;
- each link leads to a file, and to a heading of it if it names one; each path in backticks exists,
  and a script knows the options with which it is named;
- each name in backticks, such as `hed_event` or `KeyCode`, stands in some source;
- each number that a marker quotes is that of the file from which it is quoted;
- each table and each sentence whose marker names a function says what the library, a definition or
  the header says;
- each promise of a program's terminal names its scenarios, as promises.py beside this has it;
- README.md has at most 150 lines.

Markers:

<!-- run: c [input 'TEXT' | typed 'TEXT' ..] -->     a program in C, linked with the library, and
                                    with hedrugal_terminal.c, libuv or libevent if it includes them
<!-- run: rust [with FEATURE] [input 'TEXT' | typed 'TEXT' ..] -->
                                    a program over the package in rust/, with a feature also over
                                    the crate of that name
<!-- run: python [input 'TEXT' | typed 'TEXT' ..] -->
                                    a program over the package in python/
<!-- run: rattle FILE -->           the file, without its contracts, `ghost use` lines and comments
<!-- run: sh -->                    commands, run at the top of the repository; DIR is the library's
                                    folder, TMPDIR a folder that is removed afterwards
<!-- run: lines FILE except WORD -->
                                    each line stands in the file, but for those that begin with WORD
<!-- run: keyshow -->               a table: keyshow prints the last column for the bytes of the
                                    first
<!-- run: table MODULE.NAME -->     a table: a function of tools/docs/tables compares its rows with
                                    what the library does
<!-- prints -->                     what the listing before has to print: a block, or the second
                                    cells of a table
<!-- not run: REASON -->
<!-- "WORDS": NAME in FILE -->      WORDS stand in the paragraph, list or table at the marker; the
                                    number in them is that of NAME in the file
<!-- "WORDS": TEXT counted in PATTERN .. -->
<!-- "WORDS": files PATTERN .. -->  the same; the number in them is how often the text stands in the
                                    files of these patterns, or how many files there are
<!-- facts: NAME -->                the paragraph, list or table has the sentences that a function
                                    of tools/docs/tables/facts.py says
<!-- facts: NAME in FILE -->        the file has them: a header, a manual page or another document

TEXT goes to the program's standard input. With `typed` it is a pseudo-terminal's, and each further
TEXT is typed once the program has printed something for the one before; after a text that prints
nothing comes the word pause.

--library names the library's folder, out/lib without it. With --built, `rt run` in a listing is
the program that lies in the crate's out/; otherwise it proves and builds it. --only names some of
links, c, rust, python, rattle, sh, lines, keyshow, table, separated by commas; table checks the
sentences too. One line is printed for each check that failed, and at the end 'N passed, N failed',
in which no link or path is that holds."""
import argparse
import contextlib
import functools
import glob
import importlib
import io
import itertools
import os
import re
import shlex
import shutil
import subprocess
import sys
import tempfile
import time
from pathlib import Path

import pexpect
import promises

TOP = Path(__file__).resolve().parents[2]
DOCUMENTS = ["README.md", "CONTRIBUTING.md", "CHANGELOG.md", "docs/*.md"]
DOCUMENTS += ["python/README.md", "crates/*/README.md"]
SUFFIXES = "md rt rs c h sh txt antt edit toml py awk".split()
SECONDS = 1800
# What a listing in C includes besides the library's header, and the words for the compiler.
BESIDE = {
    '"hedrugal_terminal.h"': ["-Ic", "c/hedrugal_terminal.c"],
    "<uv.h>": ["-luv"],
    "<event2/event.h>": ["-levent"],
}
# The kinds of listings, and the programs that each needs.
TOOLS = {
    "c": "cc",
    "rust": "cc cargo",
    "python": "",
    "rattle": "",
    "sh": "cc rt",
    "lines": "",
    "keyshow": "rt",
    "table": "",
}
KINDS = ["links", *TOOLS]
FENCED = r"^ *(?P<fence>```+).*\n(?P<block>(?:.*\n)*?) *(?P=fence)$"
# What a document consists of.
PARTS = re.compile(
    rf"{FENCED}"
    r"|^<!-- (?P<marker>(?:run|not run):.*|prints) -->$"
    r"|(?P<table>(?:^\|.*\n)+)"
    r"|^(?P<text>.*\S.*)$",
    re.MULTILINE,
)
FACTS = r"<!-- facts: (?P<name>\w+)(?: in (?P<file>\S+))? -->$"
# What a program in Rust names beside the package, by the feature of the package.
CRATES = {
    "tokio": {"version": "1.24", "parts": '"macros", "rt"'},
    "mio": {"version": "0.8", "parts": '"os-poll"'},
}
WITH = f"""hedrugal = {{{{ path = "{TOP}/rust", features = ["{{feature}}"] }}}}
{{feature}} = {{{{ version = "{{version}}", features = [{{parts}}] }}}}"""
# Where the names of the documents come from.
SOURCES = ["Makefile", "c/*", "keys/*", "tools/**/*", "tests/*.py", "python/**/*.py"]
RUST = ("src", "tests", "examples", "plain/tests", "plain/examples")
SOURCES += ["rust/Cargo.toml", *(f"rust/{it}/**/*.rs" for it in RUST)]
SOURCES += ["crates/*/src/*.rt", "crates/*/specs/*.antt", "crates/*/proofs/**/*.antt"]
# Names of termwiz and of its parts, of crates of the kit, and of what systems have.
OTHERS = {"ENHANCED_KEY", "from_utf8_unchecked", "lineedit", "surface"}
OTHERS |= {"std_collections", "std_heap", "std_io", "getcwd"}
NAMED = {"ESC": b"\x1b", "TAB": b"\t", "CR": b"\r", "LF": b"\n", "DEL": b"\x7f", "SPACE": b" "}
# A command in place of rt, for which `rt run` is the program that was built, once it is there.
BUILT = """#!/usr/bin/env bash
[ "${{1-}}" = run ] || exec {rt} "$@"
program=$PWD/out/$(basename "$PWD")
until [ -x "$program" ]; do sleep 1; done
shift
[ "${{1-}}" != -- ] || shift
exec "$program" "$@"
"""


class Failed(Exception):
    """A check that failed, with its reason."""


class Listing:
    """A fenced block or a table with the marker before it."""

    def __init__(self, name, marker, text):
        self.name, self.text, self.prints = name, text, None
        runs, _, words = marker.partition(":")
        self.kind, *self.words = shlex.split(words) if runs == "run" else [None]


def read(file):
    return Path(file).read_text()


def lines_in(text):
    """The lines of a text that aren't empty, without the space around them."""
    return [line.strip() for line in text.splitlines() if line.strip()]


def cells_of(row):
    return [cell.strip().replace("\\|", "|") for cell in re.split(r"(?<!\\)\|", row)[1:-1]]


def quoted(text):
    return re.findall(r"`([^`]+)`", text)


def without_blocks(text):
    return re.sub(FENCED, "", text, flags=re.MULTILINE)


def read_document(file):
    """The listings of a document, and what is wrong with its markers."""
    text = read(file)
    listings, faults, marker = [], [], None
    for part in PARTS.finditer(text):
        name = f"{file}:{text.count(chr(10), 0, part.start()) + 1}"
        if part["marker"] or part["text"]:
            if marker:
                faults.append(f"{name}: a marker without a listing")
            elif re.match(r" {4}\S", part[0]) and text[: part.start()].endswith("\n\n"):
                faults.append(f"{name}: an indented listing; write a fenced one")
            marker = part["marker"]
            continue
        if marker == "prints" and listings:
            rows = (part["table"] or "").splitlines()[2:]
            lines = [line for row in rows for line in quoted(cells_of(row)[1])]
            listings[-1].prints = part["block"] or "\n".join([*lines, ""])
        elif marker:
            listings.append(Listing(name, marker, part["block"] or part["table"]))
            if listings[-1].kind not in [None, *TOOLS]:
                faults.append(f"{name}: what is {marker}? tools/docs.sh --help lists the markers")
        elif part["fence"]:
            faults.append(f"{name}: a listing without a marker")
        marker = None
    return listings, faults


def anchors(file):
    """The anchors of a document's headings."""
    for heading in re.findall(r"^#+ (.*)$", without_blocks(read(file)), flags=re.MULTILINE):
        text = re.sub(r"[`*]", "", re.sub(r"\[([^]]*)\]\([^)]*\)", r"\1", heading)).strip().lower()
        yield re.sub(r"[^\w\- ]", "", text).replace(" ", "-")


def is_path(word):
    if not re.match(r"^\.?[\w][\w.\-]*(/[\w.\-*]+)*/?$", word) or ".." in word:
        return False
    if "out" in word.split("/") or word.startswith("target/"):
        return False
    return "/" in word or word.rsplit(".", 1)[-1] in SUFFIXES and "." in word.strip(".")


def check_link(file, target):
    path, _, anchor = target.partition("#")
    path = os.path.normpath(os.path.join(os.path.dirname(file), path)) if path else file
    if not os.path.exists(path):
        raise Failed(f"no file {target}")
    if anchor and anchor not in anchors(path):
        raise Failed(f"no heading {target}")


def check_path(code, bases):
    """Checks a path in one of these folders, and that a script knows the options after it."""
    path = code.split()[0]
    pattern = re.sub(r"\bNAME\b", "*", path)
    if not any(glob.glob(os.path.join(base, pattern)) for base in bases):
        raise Failed(f"no path {path}")
    if not all(word in read(path) for word in re.findall(r" (--[a-z-]+)", code)):
        raise Failed(f"no such option: {code}")


@functools.cache
def names_of_sources():
    """The names of the sources, and what follows a _ in those of constants."""
    files = filter(os.path.isfile, files_of(" ".join(SOURCES)))
    names = {it for file in files for it in re.findall(r"\w+", read(file))} | OTHERS
    constants = (it.split("_") for it in names if it.isupper())
    return names | {"_".join(it[first:]) for it in constants for first in range(1, len(it))}


def check_names(text):
    """Checks that each name in backticks stands in some source."""
    codes = [it for it in quoted(text) if re.fullmatch(r"[A-Za-z][\w:]*[^\W_](\(.*\))?", it)]
    names = {it for code in codes for it in re.findall(r"[A-Z]\w\w+|[a-z_]\w{4,}", code)}
    if unknown := sorted(it for it in names - names_of_sources() if not os.path.exists(it)):
        raise Failed(f"no source has {', '.join(unknown)}")


def files_of(patterns):
    """The files of patterns that spaces part."""
    return [file for it in patterns.split() for file in glob.glob(it, recursive=True)]


def value_of(source):
    """The number that a marker quotes, as text. None if there is none."""
    if named := re.fullmatch(r"(\w+) in (\S+)", source):
        wanted = re.search(rf"\b{named[1]}\b(?:[^=\n]*=)? *(?:Some )?(\d+)", read(named[2]))
        return wanted and wanted[1]
    if counted := re.fullmatch(r"(.+) counted in (.+)", source):
        return str(sum(read(file).count(counted[1]) for file in files_of(counted[2])))
    if listed := re.fullmatch(r"files (.+)", source):
        return str(len(files_of(listed[1])))
    return None


def check_quote(text, marker):
    """Checks that a phrase stands around its marker, and that its number is what is quoted."""
    parts = re.fullmatch(r'<!-- "(\D*(\d+).*)": (.+) -->', marker)
    if not parts:
        raise Failed(f"what is {marker}? tools/docs.sh --help lists the markers")
    phrase, number, source = parts.groups()
    if phrase not in text:
        raise Failed(f'"{phrase}" isn\'t beside its marker')
    if value_of(source) != number:
        raise Failed(f'"{phrase}" isn\'t what {source} has')


def of_tables(name):
    """A function of tools/docs/tables, which may ask the library."""
    module, _, function = name.rpartition(".")
    return getattr(importlib.import_module(f"tables.{module}"), function)


def check_facts(text, name):
    """Checks that a text has the sentences that a function of tools/docs/tables/facts.py yields."""
    sentences = list(of_tables(f"facts.{name}")())
    if not sentences:
        raise Failed(f"{name} of tools/docs/tables/facts.py has no sentence")
    for sentence in sentences:
        if sentence not in text:
            raise Failed(f'"{sentence}" isn\'t there, as {name} of tools/docs/tables/facts.py says')


def facts_of(file):
    """The checks of the facts of a document, of a manual page, or of a file that it names."""
    for lines in map(lines_in, re.split(r"\n\s*\n", read(file))):
        around = " ".join(line for line in lines if not line.startswith("<!--"))
        for fact in filter(None, (re.match(FACTS, line) for line in lines)):
            text = re.sub(r"\s+(\* )?", " ", read(fact["file"])) if fact["file"] else around
            yield file, check_facts, text, fact["name"]


def checks_of(file):
    """The checks of a document's links, paths and quotes: functions with their arguments."""
    text = without_blocks(read(file))
    bases = own = [".", os.path.dirname(file) or "."]
    yield file, check_names, text
    for line in text.splitlines():
        if base := re.match(r"<!-- paths from: (.*) -->$", line):
            bases = own + base[1].split()
        for target in re.findall(r"\]\((?![a-z]+:)([^)\s]+)\)", line):
            yield file, check_link, file, target
        for code in quoted(line):
            if is_path((code.split() or [""])[0]):
                yield file, check_path, code, bases
    for lines in map(lines_in, re.split(r"\n\s*\n", text)):
        around = " ".join(line for line in lines if not line.startswith("<!--"))
        for marker in lines:
            if marker.startswith('<!-- "'):
                yield file, check_quote, around, marker


def decoded(text):
    """The bytes of a text with escapes such as \\033."""
    return text.encode("latin-1").decode("unicode_escape").encode("latin-1")


def bytes_of(word):
    """The bytes of a word of a sequence such as `ESC [ 1 ; 5 A` or `0x08`."""
    return bytes.fromhex(word[2:]) if word.startswith("0x") else NAMED.get(word, word.encode())


def run(words, folder=".", given=b"", **variables):
    """What a program prints. It has to end with status 0."""
    how = {"cwd": folder, "input": given, "env": os.environ | variables, "timeout": SECONDS}
    done = subprocess.run(words, capture_output=True, check=False, **how)
    if done.returncode:
        said = (done.stderr + done.stdout).decode(errors="replace").strip()
        raise Failed(said or f"status {done.returncode}")
    return done.stdout.decode(errors="replace")


def wait_for_output(child):
    """Reads what a program prints until it has printed something and is quiet."""
    child.read_nonblocking(4096, SECONDS)
    with contextlib.suppress(pexpect.TIMEOUT):
        while True:
            child.read_nonblocking(4096, 0.2)


def run_typed(words, texts, **variables):
    """Runs a program on a pseudo-terminal, and types each text once the one before had output."""
    child = pexpect.spawn(words[0], words[1:], env=os.environ | variables)
    child.delaybeforesend = None
    child.logfile_read = seen = io.BytesIO()
    try:
        with contextlib.suppress(pexpect.EOF):
            wait_for_output(child)
            for text, following in zip(texts, texts[1:] + [""]):
                if text == "pause":
                    continue
                child.send(decoded(text))
                if following == "pause":
                    time.sleep(0.5)
                else:
                    wait_for_output(child)
            child.expect(pexpect.EOF, timeout=10)
        child.wait()
    except pexpect.TIMEOUT:
        raise Failed(f"it neither printed nor ended after: {seen.getvalue()!r}") from None
    finally:
        child.close(force=True)
    if child.status:
        raise Failed(f"wait status {child.status} after: {seen.getvalue()!r}")
    # Modes that the program switches on and off aren't seen on a terminal.
    printed = seen.getvalue().decode(errors="replace").replace("\r\n", "\n")
    return re.sub(r"\x1b\[\?\d+[hl]", "", printed)


def run_with_input(words, listing, **variables):
    """Runs a program on what the listing's marker gives it."""
    if listing.words[:1] == ["typed"]:
        return run_typed(words, listing.words[1:], **variables)
    return run(words, given=decoded(listing.words[1]) if listing.words else b"", **variables)


class Runner:
    """Runs listings, over a library, in a folder. It has a method for each kind."""

    def __init__(self, library, work):
        self.library, self.work = library, work

    def c(self, listing):
        folder = tempfile.mkdtemp(dir=self.work)
        source, program = f"{folder}/listing.c", f"{folder}/listing"
        Path(source).write_text(listing.text)
        strict = ["-std=c99", "-Wall", "-Wextra", "-pedantic", "-Werror"]
        library = [f"-I{self.library}", f"{self.library}/libhedrugal.a"]
        beside = [words for name, words in BESIDE.items() if f"#include {name}\n" in listing.text]
        run(["cc", *strict, source, *itertools.chain(*beside), *library, "-o", program])
        return run_with_input([program], listing)

    def rust(self, listing):
        folder, target = tempfile.mkdtemp(dir=self.work), f"{self.work}/target"
        os.mkdir(f"{folder}/src")
        Path(f"{folder}/src/main.rs").write_text(listing.text)
        # A listing may name the package as termwiz.
        name = "termwiz" if "use termwiz::" in listing.text else "hedrugal"
        packages, words = f'{name} = {{ package = "hedrugal", path = "{TOP}/rust" }}', []
        if listing.words[:1] == ["with"]:
            _, feature, *listing.words = listing.words
            packages = WITH.format(feature=feature, **CRATES[feature])
            words = ["--config", f"{TOP}/rust/system.toml"]
        Path(f"{folder}/Cargo.toml").write_text(
            f'[package]\nname = "listing"\nedition = "2021"\n[dependencies]\n{packages}\n'
        )
        variables = {"HEDRUGAL_LIBRARY": self.library, "CARGO_TARGET_DIR": target}
        variables["RUSTFLAGS"] = "-D warnings"
        run(["cargo", "build", "--quiet", "--offline", *words], folder, **variables)
        return run_with_input([f"{target}/debug/listing"], listing)

    def python(self, listing):
        source = f"{tempfile.mkdtemp(dir=self.work)}/listing.py"
        Path(source).write_text(listing.text)
        variables = {"HEDRUGAL_LIBRARY": self.library, "PYTHONPATH": f"{TOP}/python"}
        words = [sys.executable, *shlex.split("-X utf8 -B -W error"), source]
        return run_with_input(words, listing, **variables)

    def rattle(self, listing):
        file = listing.words[0]
        wanted = lines_in("\n".join(without_contracts(read(file))))
        for one, other in itertools.zip_longest(lines_in(listing.text), wanted, fillvalue=""):
            if one != other:
                raise Failed(f'{file} has "{other}" in place of "{one}"')

    def lines(self, listing):
        file, *left_out = listing.words
        there = lines_in(read(file))
        for line in lines_in(listing.text):
            if line not in there and line.split()[0].rstrip(":") not in left_out:
                raise Failed(f'{file} has no line "{line}"')

    def sh(self, listing):
        words = ["bash", "-e", "-c", listing.text]
        return run_with_input(words, listing, DIR=self.library, TMPDIR=self.work)

    def keyshow(self, listing):
        run(["rt", "run"], "crates/keyshow")
        for row in lines_in(listing.text)[2:]:
            first, *_, last = cells_of(row)
            sequence = quoted(first)[0]
            given = b"".join(map(bytes_of, sequence.split(" ")))
            printed = run(["crates/keyshow/out/keyshow"], given=given).splitlines()
            if printed != quoted(last):
                raise Failed(f"{sequence}: keyshow prints {printed}")

    def table(self, listing):
        function = of_tables(listing.words[0])
        rows = [cells_of(line) for line in lines_in(listing.text)[2:]]
        row = None
        for row, said, found in function(rows):
            if said != found:
                raise Failed(f"{row}: the table has {said}, and the library {found}")
        if row is None:
            raise Failed(f"{listing.words[0]} compares no row")

    def check(self, listing):
        printed = getattr(self, listing.kind)(listing)
        if listing.prints is not None and printed != listing.prints:
            raise Failed(f"it prints {printed!r}")


def without_contracts(text):
    """A program's lines but contracts, what they cite, comments on items, and file attributes."""
    depth = 0
    for line in text.splitlines():
        if depth or re.match(r"^\s*(requires|ensures)\b", line):
            depth += line.count("{") - line.count("}")
        elif not re.match(r"^\s*(//!|///|#!\[|ghost use\b)", line):
            yield line


def use_built(work):
    """Puts a command before rt for which `rt run` is the program that was built."""
    command = Path(work, "bin", "rt")
    command.parent.mkdir()
    command.write_text(BUILT.format(rt=shutil.which("rt")))
    command.chmod(0o755)
    os.environ["PATH"] = f"{command.parent}:{os.environ['PATH']}"


def options():
    layout = argparse.RawDescriptionHelpFormatter
    parser = argparse.ArgumentParser("tools/docs.sh", description=__doc__, formatter_class=layout)
    parser.add_argument("--library", metavar="DIR", type=os.path.abspath, default=f"{TOP}/out/lib")
    parser.add_argument("--built", action="store_true")
    parser.add_argument("--only", metavar="KINDS", default=",".join(KINDS))
    chosen = parser.parse_args()
    chosen.only = chosen.only.split(",")
    if not set(chosen.only) <= set(KINDS):
        parser.error(f"the kinds are {', '.join(KINDS)}")
    return chosen


def missing_tool(listings, library):
    """Says what a listing needs and isn't there."""
    in_sh = [it for it in listings if it.kind == "sh" and re.search(r"\bDIR\b", it.text)]
    linked = [it for it in listings if it.kind in ("c", "rust", "python", "table")]
    if in_sh + linked and not os.path.exists(f"{library}/libhedrugal.a"):
        return f"there is no libhedrugal.a in {library}: make builds it, or --library names another"
    for tool in " ".join(TOOLS[it.kind] for it in listings).split():
        if not shutil.which(tool):
            return f"there is no {tool}: tools/needs.txt has its package"
    return None


def main():
    chosen = options()
    os.chdir(TOP)
    os.environ["HEDRUGAL_LIBRARY"] = chosen.library
    sys.path.append(f"{TOP}/python")
    listings, checks, faults = [], [], []
    for file in (file for pattern in DOCUMENTS for file in sorted(glob.glob(pattern))):
        found, wrong = read_document(file)
        listings += [it for it in found if it.kind in chosen.only]
        if "links" in chosen.only:
            faults += wrong
            checks += checks_of(file)
        if "table" in chosen.only:
            checks += facts_of(file)
    if "links" in chosen.only and read("README.md").count("\n") > 150:
        faults.append("README.md: more than 150 lines")
    if "links" in chosen.only:
        faults += promises.faults()
    if missing := missing_tool(listings, chosen.library):
        sys.exit(f"docs: {missing}")
    for fault in faults:
        print(fault)
    passed, failed = 0, len(faults)
    with tempfile.TemporaryDirectory(ignore_cleanup_errors=True) as work:
        if chosen.built:
            use_built(work)
        runner = Runner(chosen.library, work)
        for name, check, *arguments in [*checks, *((it.name, runner.check, it) for it in listings)]:
            try:
                check(*arguments)
                passed += check not in (check_link, check_path)
            except (Failed, OSError, subprocess.TimeoutExpired) as fault:
                failed += 1
                print(f"{name}: {(str(fault) or repr(fault)).splitlines()[-1]}", flush=True)
            except Exception as fault:
                failed += 1
                print(f"{name}: what stands there can't be read: {fault!r}", flush=True)
    print(f"{passed} passed, {failed} failed")
    sys.exit(1 if failed else 0)


main()
