#!/usr/bin/python3
"""Plants one bug at a time in a copy of these sources, and says whether its test notices it.

No part of the gate runs this. tools/plants/*.toml has the bugs, a table [[plant]] for each:

  name    what is wrong, in words; no two of a file have the same
  file    the file that is edited
  old     a text that stands once in it
  new     the wrong text in its place
  wraps   in place of file and old: a call of the library. `new` is then C with another function of
          that name, which may call the library's as right_NAME
  test    words for pytest, or
  run     a command for bash, whose status has to be 0 without the bug and another with it. Either
          may be a list, of which each has to notice

Names of files are those from the top of the copy on, where commands run. What stands above the
first [[plant]] of a file holds for each of its bugs that doesn't say another. The copy has the
prebuilt library and hedrugal-keys over what is edited in c/ and keys/."""
import argparse
import functools
import os
import re
import shutil
import subprocess
import sys
import tempfile
import time
import tomllib
from pathlib import Path

TOP = Path(__file__).resolve().parent.parent
SECONDS = 900  # for a test
WRAP = """cd out/lib && ld -r -o whole.o --whole-archive libhedrugal.a && rm libhedrugal.a &&
    objcopy --redefine-sym {0}=right_{0} whole.o && cc -c -O1 -fPIC -I. -o wrap.o wrap.c &&
    ar rcs libhedrugal.a wrap.o whole.o"""
# What a test prints that fails for no other reason.
NOT_COMPILED = "could not compile|: error: |SyntaxError"


class Fault(Exception):
    """Why a plant shows nothing."""


def read_plants():
    for path in sorted(TOP.glob("tools/plants/*.toml")):
        common = tomllib.loads(path.read_text(encoding="utf-8"))
        for plant in common.pop("plant"):
            yield {"table": path.stem} | common | plant


class Copy:
    """A copy of the working tree, with what is built of it."""

    def __init__(self, folder):
        self.folder = folder
        self.env = {
            it: to for it, to in os.environ.items() if not it.startswith(("HED", "KEYSHOW"))
        }
        self.env |= {"PYTHONDONTWRITEBYTECODE": "1", "CARGO_TARGET_DIR": f"{folder}/out/cargo"}
        words = ["git", "-C", TOP, "ls-files", "-z", "--cached", "--others", "--exclude-standard"]
        for name in subprocess.check_output(words, text=True).split("\0"):
            if (TOP / name).is_file():
                (folder / name).parent.mkdir(parents=True, exist_ok=True)
                shutil.copy(TOP / name, folder / name)
        self.build()

    def bash(self, command):
        """Runs a command, and returns its status and what it prints."""
        how = {"stdout": subprocess.PIPE, "stderr": subprocess.STDOUT, "text": True}
        words = ["timeout", str(SECONDS), "bash", "-c", command]
        done = subprocess.run(words, cwd=self.folder, env=self.env, **how)
        return done.returncode, done.stdout[-3000:]

    def must(self, command, fault):
        status, printed = self.bash(command)
        if status:
            raise Fault(f"{fault}\n{printed}")

    def build(self):
        self.must("make -s library keys out/bin/keyshow has_rt=", "it isn't built")

    @functools.cache
    def check_passes(self, command):
        self.must(command, "its test fails without it")

    def check_fails(self, command):
        status, printed = self.bash(command)
        if status == 0:
            raise Fault(f"this passes: {command}")
        if re.search(NOT_COMPILED, printed):
            raise Fault(f"it isn't compiled\n{printed}")

    def plant(self, it):
        """Puts a bug in, and returns what takes it out."""
        if "wraps" in it:
            (self.folder / "out/lib/wrap.c").write_text(it["new"])
            self.must(WRAP.format(it["wraps"]), "the library isn't wrapped")
            return (self.folder / "out/lib/libhedrugal.a").unlink
        path = self.folder / it["file"]
        right = path.read_text(encoding="utf-8")
        if right.count(it["old"]) != 1:
            raise Fault(f"its text stands {right.count(it['old'])} times in {it['file']}")
        path.write_text(right.replace(it["old"], it["new"]), encoding="utf-8")
        return lambda: path.write_text(right, encoding="utf-8")

    def check_notices(self, it):
        commands = it.get("run") or it["test"]
        commands = commands if isinstance(commands, list) else [commands]
        if "run" not in it:
            commands = [f"{sys.executable} -m pytest -q -x {words}" for words in commands]
        is_built = "wraps" in it or it["file"].startswith(("c/", "keys/"))
        for command in commands:
            self.check_passes(command)
        take_out = self.plant(it)
        try:
            if is_built:
                self.build()
            for command in commands:
                self.check_fails(command)
        finally:
            take_out()
            if is_built:
                self.build()


def main():
    raw = argparse.RawDescriptionHelpFormatter
    options = argparse.ArgumentParser(description=__doc__, formatter_class=raw)
    options.add_argument("--list", action="store_true", help="print the names")
    options.add_argument("words", nargs="*", help="names or parts of them, or of files of bugs")
    options = options.parse_args()
    words = options.words or [""]
    plants = [(f"{it['table']}: {it['name']}", it) for it in read_plants()]
    plants = [(name, it) for name, it in plants if any(word in name for word in words)]
    if options.list:
        return print(*(name for name, _ in plants), sep="\n")
    missed = 0
    with tempfile.TemporaryDirectory(prefix="plants-") as folder:
        copy = Copy(Path(folder))
        for name, it in plants:
            start, said = time.monotonic(), "noticed"
            try:
                copy.check_notices(it)
            except Fault as fault:
                missed, said = missed + 1, f"NOT NOTICED, {fault}"
            print(f"{name}: {time.monotonic() - start:.0f} s, {said}", flush=True)
    print(f"{len(plants) - missed} noticed, {missed} not")
    return missed > 0 or not plants


if __name__ == "__main__":
    sys.exit(main())
