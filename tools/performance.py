#!/usr/bin/env python3
"""Measures the parsers of this library, and others beside them, on this machine.

Each parser has a program (tools/measure), which is built in a temporary folder, over the library of
out/lib. It gets an input in reads of one size, and a flush at the end alone. The programs run in
turn, and of each the least time counts. What is printed is what docs/PERFORMANCE.md has:

- when and where it was
- nanoseconds per item of an input, which is a character, a key or a report
- the quotient of that and of what the quicker of libtermkey and crossterm takes
- how many events each parser makes of an input, where these aren't its items
- what many parsers cost that get reads in turn
- what names of keys, bindings and a matcher cost, from C
- what it costs to write an event of each kind as bytes, from C
- processor time for an event through each layer over a terminal: those in C, Rust and Python, and
  crossterm's

The parsers are Termwiz and Extended (the parser from C, in either dialect), Extended arrays (the
same with its events in arrays of 64), Rust, Rust Extended, Python and Python Extended (from there),
Python Keys (the parser for prompt_toolkit), libtermkey, crossterm and prompt_toolkit. The last
three are those of Debian's packages. If one can't be built its column says why;
`tools/needs.sh --install performance` installs them.

With --against COMMIT it measures the parser from C alone, in either dialect, beside that of the
library in COMMIT's folder prebuilt, or of HEDRUGAL_OTHER. Each gets its reads from its own
tools/measure/hedrugal.c."""
import argparse
import datetime
import glob
import itertools
import os
import re
import shutil
import subprocess
import sys
import tempfile
import textwrap
from pathlib import Path

TOP = os.path.dirname(os.path.dirname(os.path.abspath(__file__)))
TOOLS = f"{TOP}/tools/measure"
sys.path.insert(0, TOOLS)
from corpora import TITLES, corpus  # noqa: E402

PAGE = f"{TOP}/docs/PERFORMANCE.md"
BEGIN, END = "<!-- tools/performance.py writes this -->\n", "<!-- up to here -->\n"
PYTHON, CRATES = "/usr/bin/python3", "/usr/share/cargo/registry"
# The packages of other parsers.
PEERS = {"libtermkey": "libtermkey-dev", "crossterm": "librust-crossterm-dev"}
PEERS["prompt_toolkit"] = "python3-prompt-toolkit"
# A package that makes a library for C of crossterm.
PEER = """package = { name = "peer", version = "0.0.0", edition = "2021" }
lib = { path = "peer.rs", crate-type = ["staticlib"] }
dependencies.crossterm.path = "crossterm"
"""


class Missing(Exception):
    """A program or package that isn't there."""


def run(*words, **env):
    """Runs a program at the top of the repository, and returns what it prints."""
    if not shutil.which(words[0]):
        raise Missing(f"no {words[0]}")
    done = subprocess.run(words, cwd=TOP, env=os.environ | env, capture_output=True, text=True)
    if done.returncode:
        sys.exit(f"performance: {' '.join(words)}: {done.stderr or done.returncode}")
    return done.stdout.strip()


def version(package):
    words = ["dpkg-query", "-W", "-f", "${Version}", package]
    found = subprocess.run(words, capture_output=True, text=True, check=False).stdout
    if not found:
        raise Missing("not installed")
    return found


def progress(text):
    print(f"performance: {text}", file=sys.stderr)


class Builder:
    """Builds programs in a folder, over a library. A program is a list of words, which a file and
    the size of the reads follow."""

    def __init__(self, work, library, tools=TOOLS):
        self.work, self.library, self.tools = work, library, tools
        os.mkdir(work)

    def linked(self, *words):
        """measure.c with a parser."""
        program = tempfile.mkdtemp(dir=self.work) + "/measure"
        run("cc", "-O2", "-o", program, f"{TOOLS}/measure.c", *words)
        return [program]

    def from_c(self, dialect, *flags):
        library = [f"-I{self.library}", f"{self.library}/libhedrugal.a"]
        words = [f"-DDIALECT=HED_DIALECT_{dialect}", *flags]
        return self.linked(*words, f"{self.tools}/hedrugal.c", *library)

    def tasks(self):
        """Those of tools/growth/tasks.c, without its wrapped malloc."""
        program, library = f"{self.work}/tasks", f"{self.library}/libhedrugal.a"
        sources = [f"{TOP}/tools/growth/tasks.c", f"{TOOLS}/counts.c"]
        run("cc", "-O2", f"-I{self.library}", "-o", program, *sources, library)
        return [program, "figures"]

    def cargo(self, manifest, *words):
        words = ["build", "--quiet", "--offline", "--release", "--manifest-path", manifest, *words]
        run("cargo", *words, HEDRUGAL_LIBRARY=self.library, CARGO_TARGET_DIR=self.work)
        return f"{self.work}/release"

    def rust(self, *dialect):
        built = self.cargo("rust/plain/Cargo.toml", "--locked", "--example", "measure")
        return [f"{built}/examples/measure", *dialect]

    def layers(self):
        """The words of a program for each layer over a terminal, by the layer's name."""
        layers = {"`hed_terminal_next`, in C": self.terminal_from_c()}
        program = self.rust_layers()
        layers.update((title, [program, layer]) for layer, title in RUST_LAYERS.items())
        for of, crate in CROSSTERMS.items():
            program = self.crossterm_layers(of, crate)
            layers[f"{of} `event::read`"] = [program, "read"]
            layers[f"{of} `EventStream`, on tokio"] = [program, "stream"]
        return layers | {"`hedrugal.terminal`, in Python": self.python("terminal.py")}

    def terminal_from_c(self):
        program, library = f"{self.work}/terminal", f"{self.library}/libhedrugal.a"
        sources = [f"{TOOLS}/terminal.c", f"{TOP}/c/hedrugal_terminal.c"]
        run("cc", "-O2", f"-I{self.library}", f"-I{TOP}/c", "-o", program, *sources, library)
        return [program]

    def rust_layers(self):
        """The program of the package. Cargo writes a lock file there, so this is a copy."""
        copy, config = f"{self.work}/rust", f"{TOP}/rust/system.toml"
        shutil.copytree(f"{TOP}/rust", copy, ignore=shutil.ignore_patterns("target"))
        words = ["--example", "layers", "--features", "tokio", "--config", config]
        return self.cargo(f"{copy}/Cargo.toml", *words) + "/examples/layers"

    def crossterm_layers(self, of, crate):
        """The program over crossterm, or over the package in its place."""
        folder = tempfile.mkdtemp(dir=self.work)
        name = f"layers{list(CROSSTERMS).index(of)}"
        text = CROSSTERM_LAYERS.format(name=name, crate=crate)
        Path(folder, "Cargo.toml").write_text(text)
        config = f"{TOP}/rust/system.toml"
        return f"{self.cargo(f'{folder}/Cargo.toml', '--config', config)}/{name}"

    def crossterm(self):
        """Its parser is private. So a copy of the crate gets functions that call it."""
        (crate,), copy = glob.glob(f"{CRATES}/crossterm-[0-9]*"), f"{self.work}/crossterm"
        shutil.copytree(crate, copy)
        with open(f"{copy}/src/event/source/unix.rs", "a", encoding="utf-8") as unix:
            unix.write("\n" + Path(TOOLS, "crossterm.rs").read_text())
        Path(self.work, "peer.rs").write_text("extern crate crossterm;")
        Path(self.work, "Cargo.toml").write_text(PEER)
        system = ["crates-io.replace-with='system'", f"system.directory='{CRATES}'"]
        words = [f"--config=source.{each}" for each in system]
        built = self.cargo(f"{self.work}/Cargo.toml", *words)
        return self.linked(f"{built}/libpeer.a", "-lpthread", "-ldl", "-lm")

    def python(self, script, *words):
        env = [f"HEDRUGAL_LIBRARY={self.library}/libhedrugal.so", f"PYTHONPATH={TOP}/python"]
        return ["env", *env, PYTHON, "-B", f"{TOOLS}/{script}", *words]


PARSERS = {
    "Termwiz": lambda it: it.from_c("TERMWIZ"),
    "Extended": lambda it: it.from_c("EXTENDED"),
    "Extended arrays": lambda it: it.from_c("EXTENDED", "-DARRAY"),
    "Rust": Builder.rust,
    "Rust Extended": lambda it: it.rust("extended"),
    "Python": lambda it: it.python("measure.py", "termwiz"),
    "Python Extended": lambda it: it.python("measure.py", "extended"),
    "Python Keys": lambda it: it.python("measure.py", "keys"),
    "libtermkey": lambda it: it.linked(f"{TOOLS}/libtermkey.c", "-ltermkey"),
    "crossterm": Builder.crossterm,
    "prompt_toolkit": lambda it: it.python("measure.py", "prompt_toolkit"),
}
# The other parsers that a program in C can have.
C_PEERS = ["libtermkey", "crossterm"]
# Those that read by one dialect.
ALIKE = (
    ["Termwiz", "Rust", "Python"],
    ["Extended", "Extended arrays", "Rust Extended", "Python Extended"],
)
# The parsers that may be many. Their inputs stay in the processor's cache.
OWN = "Termwiz with a table each"
MANY = ["Termwiz", OWN, "Extended", "libtermkey", "crossterm"]
MANY_INPUTS, MANY_BYTES = ["keys", "csiu"], 1 << 15
# The layers of rust/examples/layers.rs.
RUST_LAYERS = {
    "terminal": "`Terminal::read`, in Rust",
    "stream": "`EventStream`, in Rust on tokio",
}
# Those of tools/measure/crossterm_layers.rs, and a package of it.
CROSSTERMS = {
    "crossterm's": 'version = "0.25"',
    "hedrugal-crossterm's": f'package = "hedrugal-crossterm", path = "{TOP}/rust/crossterm"',
}
CROSSTERM_LAYERS = f"""package = {{{{ name = "{{name}}", version = "0.0.0", edition = "2021" }}}}
bin = [{{{{ name = "{{name}}", path = "{TOOLS}/crossterm_layers.rs" }}}}]
workspace = {{{{}}}}
[dependencies]
crossterm = {{{{ {{crate}}, features = ["event-stream"] }}}}
futures-core = "0.3"
tokio = {{{{ version = "1.24", features = ["macros", "rt"] }}}}
"""
# How many bytes of text are typed at once, and of how many.
LAYER_SIZES = {"one by one": 1, "512 at once": 512}
LAYER_BYTES = 1 << 16
# The tasks of tools/growth/tasks.c.
TASKS = {
    "read name": "to read the name `ctrl+x ctrl+s`",
    "print name": "to print it",
    "lookup one": "to look up a chord of one press, among 500",
    "lookup two": "to look up a chord of two presses, among these",
    "press one": "to read a press by a matcher, among these",
    "lookup row": "to look up five bytes in a key map of all rows",
    "bind rising": "to bind a chord, of 100,000 in rising order",
    "lookup rising": "to look up a chord among these",
    "unbind rising/falling": "to unbind a chord of these, in falling order",
    "bind drawn": "to bind a chord, of 10,000 in no order",
    "unbind drawn/drawn": "to unbind a chord of these, in no order",
}
# Those that write events.
KINDS = {
    "write character": "a typed character",
    "write arrow": "an arrow key",
    "write row": "Alt and a letter, which has rows of the table",
    "write alt": "Alt and a character that has none",
    "write mouse": "a mouse report",
    "write paste": "a paste of 11 bytes",
    "write report": "a key report",
    "write focus": "a change of the focus",
    "write position": "a position of the cursor",
    "write size": "a new size",
    "write flags": "flags of Kitty's protocol",
    "write side": "a side button",
    "write csi": "a control sequence (DA1)",
    "write osc": "an OSC: a colour",
    "write dcs": "a DCS: a version",
    "write apc": "an APC: a reply of Kitty's graphics",
}


def builder_of(chosen, work):
    """That over the library, which is built first."""
    progress("building the library")
    run("make", "-s", "library", f"LIBRARY={chosen.library or ''}")
    return Builder(f"{work}/built", chosen.library or f"{TOP}/out/lib")


def build(chosen, work):
    """Returns the programs, why some couldn't be built, and what is measured besides."""
    builder = builder_of(chosen, work)
    programs, missing = {}, {}
    for name in chosen.only:
        progress(f"building {name}")
        try:
            if name in PEERS:
                version(PEERS[name])
            programs[name] = PARSERS[name](builder)
        except Missing as reason:
            missing[name] = reason
    if "Termwiz" in programs:
        programs[OWN] = builder.from_c("TERMWIZ", "-DOWN_TABLES")
    progress("building the layers")
    is_whole = {"Extended", "Rust", "Python Extended", "crossterm"} <= {*programs}
    layers = [Layers(work, builder.layers())] if is_whole else []
    from_c = [Tasks(builder.tasks())] if "Extended" in programs else []
    return programs, missing, from_c, layers


class Input:
    """An input in a file."""

    def __init__(self, folder, name, size):
        text, self.items = corpus(name, size)
        self.size, self.file = len(text), f"{folder}/{name}-{size}"
        Path(self.file).write_bytes(text)


class Cell:
    """The least of what a program printed of an input."""

    def __init__(self, program, given, *words):
        self.given, self.words = given, [*program, given.file, *map(str, words)]
        self.numbers = []

    def measure(self):
        numbers = [float(number) for number in run(*self.words).split()]
        if self.numbers and numbers[1] != self.numbers[1]:
            sys.exit(f"performance: it made other events than before: {' '.join(self.words)}")
        self.numbers = [*map(min, numbers, self.numbers or numbers)]

    @property
    def events(self):
        return int(self.numbers[1])

    @property
    def nanoseconds(self):
        """Those for each item. measure.c says how many bytes it gave."""
        size = self.numbers[2] if len(self.numbers) > 3 else self.given.size
        return self.numbers[0] / size * self.given.size / self.given.items


class Tasks:
    """The least nanoseconds of each task, a time, and its bytes of heap."""

    def __init__(self, words):
        self.words, self.costs = words, {}

    def measure(self):
        for line in run(*self.words).split("\n"):
            name, of, _, *numbers = line.split()
            times, heap, time = map(int, numbers)
            task, cost = f"{name} {of}", (time / times, heap / times)
            self.costs[task] = min(cost, self.costs.get(task, cost))

    def rows(self, titles):
        for task, title in titles.items():
            time, heap = self.costs[task]
            yield [title, figure(time), f"{heap:.0f}" if task.startswith("bind") else ""]


class Layers:
    """The least nanoseconds for an event through each layer, by programs."""

    def __init__(self, folder, programs):
        self.programs, self.costs = programs, {}
        self.text = Input(folder, "typed", LAYER_BYTES)

    def measure(self):
        for layer, size in itertools.product(self.programs, LAYER_SIZES.values()):
            words = [self.text.file, str(self.text.items), str(size), *self.programs[layer]]
            numbers = [*map(int, run(PYTHON, "-B", f"{TOOLS}/layers.py", *words).split())]
            self.costs[layer, size] = [*map(min, numbers, self.costs.get((layer, size), numbers))]

    def cost(self, layer, size):
        whole, start = self.costs[layer, size]
        return (whole - start) / self.text.items

    def rows(self):
        for layer in self.programs:
            yield [layer, *(figure(self.cost(layer, size)) for size in LAYER_SIZES.values())]


def where(chosen, programs):
    commit = run("git", "rev-parse", "--short", "HEAD")
    if run("git", "status", "--porcelain", "--untracked-files=no", "--", ".", ":!docs"):
        commit += " with changes"
    processor = re.search(r"model name\s*: (.*)", Path("/proc/cpuinfo").read_text())[1]
    tools = [it for it in ("cc", "rustc", PYTHON) if shutil.which(it)]
    names = [run(it, "--version").split("\n")[0] for it in tools]
    names += [f"{it} {version(package)}" for it, package in PEERS.items() if it in programs]
    text = f"""{datetime.date.today()}, commit {commit}, {os.cpu_count()} processors {processor};
        {', '.join(names)}. Each figure is the least of {chosen.runs} passes. An input has
        {chosen.kilobytes} KB, in reads of {chosen.read} bytes."""
    return textwrap.fill(" ".join(text.split()), 120)


def figure(value):
    return f"{value:,.0f}" if value >= 20 else f"{value:.1f}" if value >= 1 else f"{value:.2f}"


def table(heads, rows):
    lines = [heads, ["---"] * len(heads), *rows]
    return "\n".join(f"| {' | '.join(map(str, line))} |" for line in lines)


def times(inputs, columns, cells):
    for name, given in inputs.items():
        found = [cells.get((name, column)) for column in columns]
        row = [figure(cell.nanoseconds) if cell else "" for cell in found]
        yield [TITLES[name], f"{given.size / given.items:.1f}", *row]


def events(inputs, columns, cells):
    """Of each input of which some parser doesn't make an event for each item."""
    for name, given in inputs.items():
        items = 1 if name == "paste" else given.items
        found = {it: cells[name, it].events for it in columns if (name, it) in cells}
        for alike in ALIKE:
            if len({found[it] for it in alike if it in found}) > 1:
                sys.exit(f"performance: {', '.join(alike)} make other events of {name}: {found}")
        if set(found.values()) != {items}:
            row = [f"{found[it]:,}" if it in found else "" for it in columns]
            yield [TITLES[name], f"{items:,}", *row]


def beside(inputs, cells):
    """The times of this library from C beside that of the quicker of C_PEERS, of those that make
    the same events if one does, and the times in Rust beside those of arrays from C."""
    for name in inputs:
        own, *others = (
            cells.get((name, it)) for it in ("Extended", "Extended arrays", "Rust Extended")
        )
        peers = {it: cells[name, it] for it in C_PEERS if (name, it) in cells}
        if not (own and all(others) and peers):
            continue
        alike = {it: cell for it, cell in peers.items() if cell.events == own.events}
        peer, cell = min((alike or peers).items(), key=lambda it: it[1].nanoseconds)
        arrays, rust = others
        ratios = (own, cell), (arrays, cell), (rust, arrays)
        quotients = (f"{one.nanoseconds / other.nanoseconds:.2f}" for one, other in ratios)
        yield [TITLES[name], peer if alike else f"{peer}, other events", *quotients]


def beside_peers(inputs, cells):
    rows = [*beside(inputs, cells)]
    heads = ["Input", "peer", "Extended / peer", "Extended arrays / peer", "Rust Extended / arrays"]
    return ["## Beside the quicker peer", table(heads, rows)] if rows else []


def costs(many):
    for (column, count), found in many.items():
        making, *heap = found[0].numbers[3:]
        row = [column, f"{count:,}", figure(making / 1000), *(f"{it:,.0f}" for it in heap)]
        yield row + [figure(cell.nanoseconds) for cell in found]


def other_builder(chosen, work):
    """That over the library of another commit."""
    other = f"{work}/other"
    run("git", "archive", "-o", f"{other}.tar", chosen.against, "prebuilt", "c", "tools/measure")
    os.mkdir(other)
    run("tar", "xf", f"{other}.tar", "-C", other)
    prebuilt = f"{other}/prebuilt/{os.uname().machine}-linux"
    shutil.copy(f"{os.environ.get('HEDRUGAL_OTHER', prebuilt)}/libhedrugal.a", f"{other}/c")
    return Builder(f"{work}/other-built", f"{other}/c", f"{other}/tools/measure")


def comparison(chosen, work):
    """Measures the parser from C beside that of another commit, and returns the text."""
    builders = builder_of(chosen, work), other_builder(chosen, work)
    programs = {it: [each.from_c(it) for each in builders] for it in ("TERMWIZ", "EXTENDED")}
    cells = {}
    for name in chosen.inputs or TITLES:
        given = Input(work, name, chosen.kilobytes << 10)
        for dialect, both in programs.items():
            cells[name, dialect] = [Cell(it, given, chosen.read) for it in both]
    for number in range(chosen.runs):
        progress(f"pass {number + 1} of {chosen.runs}")
        for cell in sum(cells.values(), []):
            cell.measure()
    rows = []
    for (name, dialect), (here, other) in cells.items():
        costs = [it.numbers[0] / it.events for it in (here, other)]
        differs = "other events" if here.events != other.events else ""
        rows.append([name, dialect, *map(figure, costs), f"{costs[0] / costs[1]:.3f}", differs])
    return table(["Input", "Dialect", "ns an event", chosen.against, "ratio", ""], rows)


def report(chosen, work):
    """Builds and measures, and returns the text."""
    programs, missing, from_c, layers = build(chosen, work)
    size = chosen.kilobytes << 10
    inputs = {name: Input(work, name, size) for name in chosen.inputs or TITLES}
    cells = {}
    for (name, given), (it, program) in itertools.product(inputs.items(), programs.items()):
        if it != OWN:
            cells[name, it] = Cell(program, given, chosen.read)
    many = {}
    for it, count in itertools.product([it for it in MANY if it in programs], [1, *chosen.parsers]):
        given = [Input(work, name, size if count == 1 else MANY_BYTES) for name in MANY_INPUTS]
        many[it, count] = [Cell(programs[it], each, chosen.read, count) for each in given]
    for number in range(chosen.runs):
        progress(f"pass {number + 1} of {chosen.runs}")
        for cell in [*cells.values(), *sum(many.values(), []), *from_c, *layers]:
            cell.measure()

    columns = chosen.only
    heads = [f"{it} ({missing[it]})" if it in missing else it for it in columns]
    costs_of = "µs to make one, bytes of heap, after its reads, ns for a key, ns for CSI u"
    counts = [*events(inputs, columns, cells)]
    parts = [
        where(chosen, programs),
        "## Nanoseconds per item",
        table(["Input", "bytes each", *heads], times(inputs, columns, cells)),
        *beside_peers(inputs, cells),
        *(["## Events of an input", table(["Input", "items", *heads], counts)] if counts else []),
        "## Many parsers",
        table(["Parser", "how many", *costs_of.split(", ")], costs(many)),
    ]
    for it in from_c:
        heads = ["From C", "ns", "bytes of heap"]
        parts += ["## Names and bindings", table(heads, it.rows(TASKS))]
        written = (row[:2] for row in it.rows(KINDS))
        parts += ["## Events to bytes", table(heads[:2], written)]
    for it in layers:
        parts += [
            "## Nanoseconds for a character through a layer over a terminal",
            table(["Layer", *LAYER_SIZES], it.rows()),
        ]
    return "\n\n".join(parts)


def number_of(text):
    if not re.fullmatch("[1-9][0-9]{0,8}", text):
        raise argparse.ArgumentTypeError(f"a number from 1 on, and not '{text}'")
    return int(text)


def words_of(text):
    return text.split(",")


def numbers_of(text):
    return [*map(number_of, words_of(text))]


def options():
    layout = argparse.RawDescriptionHelpFormatter
    parser = argparse.ArgumentParser(description=__doc__, formatter_class=layout)
    add = parser.add_argument
    add("inputs", nargs="*", metavar="INPUT", help=f"{', '.join(TITLES)} (all)")
    add("--library", metavar="DIR", type=os.path.abspath, help="the library's folder (out/lib)")
    add("--only", metavar="PARSERS", type=words_of, help="such as Termwiz,Extended")
    add("--runs", metavar="N", type=number_of, default=9, help="passes of each program (9)")
    add("--read", metavar="N", type=number_of, default=64, help="bytes of a read (64)")
    add("--kilobytes", metavar="N", type=number_of, default=256, help="of an input (256)")
    add("--parsers", metavar="LIST", type=numbers_of, default=[10000], help="how many (10000)")
    add("--against", metavar="COMMIT", help="measures beside the library of this commit")
    add("--write", action="store_true", help="writes it all into docs/PERFORMANCE.md")
    chosen = parser.parse_args()
    chosen.only = chosen.only or [*PARSERS]
    for words, all_ in (chosen.inputs, TITLES), (chosen.only, PARSERS):
        for word in set(words) - set(all_):
            parser.error(f"what is '{word}'? It knows {', '.join(all_)}")
    if chosen.write and (chosen.inputs or chosen.only != [*PARSERS]):
        parser.error("--write wants all inputs and all parsers")
    if chosen.against and (chosen.write or chosen.only != [*PARSERS]):
        parser.error("--against goes with neither --write nor --only")
    return chosen


def main():
    chosen = options()
    with tempfile.TemporaryDirectory() as work:
        try:
            text = (comparison if chosen.against else report)(chosen, work)
        except Missing as reason:
            sys.exit(f"performance: {reason}")
    print(text)
    if chosen.write:
        before, _, after = Path(PAGE).read_text().partition(BEGIN)
        Path(PAGE).write_text(f"{before}{BEGIN}\n{text}\n\n{END}{after.partition(END)[2]}")


main()
