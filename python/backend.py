"""Makes the wheel and the source distribution of the module. pip calls it by pyproject.toml:

    pip install ./python
    python3 backend.py FOLDER      writes the wheel to a folder

The wheel has the part of the module that is compiled, which lies prebuilt in this folder, and the
shared library: what HEDRUGAL_LIBRARY names, a file or a folder, or else what make
built in out/lib, or else the installed one, or else the prebuilt one of this folder.
`pip install -v` says which it is. The same files make the same bytes, of the time that
SOURCE_DATE_EPOCH names, or of 1980. HEDRUGAL_URL is the address of the project for its metadata."""
import base64
import ctypes
import ctypes.util
import gzip
import hashlib
import io
import os
import platform
import re
import sys
import tarfile
import time
import zipfile
from pathlib import Path

HERE = Path(__file__).resolve().parent
MODULE = (HERE / "hedrugal/__init__.py").read_text(encoding="utf-8")
VERSION = re.search('^__version__ = "(.*)"$', MODULE, re.M)[1]
NAME = f"hedrugal-{VERSION}"
# The part of the module that is compiled.
COMPILED = "libhedrugal-python.so"
# The earliest time that a zip file can tell.
SECONDS = max(int(os.environ.get("SOURCE_DATE_EPOCH", 0)), 315532800)
# The processors by their numbers in the header of an ELF file: the name, which of them the library
# needs, and the oldest glibc for which pip knows wheels.
PROCESSORS = {
    62: ("x86_64", "processors of the level x86-64-v2, with SSE4.2 and POPCNT", (2, 5)),
    183: ("aarch64", "64-bit ARM processors", (2, 17)),
}
# The musl on which it was tried.
MUSL = (1, 2)
URL = os.environ.get("HEDRUGAL_URL")
PROJECT_URL = f"Project-URL: Source, {URL}\n" if URL else ""
# The page, without the comments that say how its listings are tested.
PAGE = re.sub("<!-- .* -->\n", "", (HERE / "README.md").read_text(encoding="utf-8"))
METADATA = f"""\
Metadata-Version: 2.1
Name: hedrugal
Version: {VERSION}
Summary: Key, mouse and paste events from the bytes that a terminal sends
Keywords: terminal,tty,keyboard,keys,mouse,paste,input,escape sequences,xterm,kitty
License: MIT
{PROJECT_URL}Classifier: Environment :: Console
Classifier: License :: OSI Approved :: MIT License
Classifier: Operating System :: POSIX :: Linux
Classifier: Programming Language :: Python :: 3
Classifier: Topic :: Terminals
Classifier: Typing :: Typed
Requires-Python: >=3.9
Description-Content-Type: text/markdown

{PAGE}"""


def stop(fault):
    sys.exit(f"hedrugal: {fault}")


def found(name):
    """Returns the place of a file of the repository, of which a source distribution has a copy. An
    older pip copies this folder alone, to one in which others may write: nothing there is ours."""
    folders = [HERE] if HERE.parent.stat().st_mode & 0o002 else [HERE, HERE.parent]
    return next((it / name for it in folders if (it / name).exists()), None)


def named_library():
    named = os.environ.get("HEDRUGAL_LIBRARY")
    if not named:
        return None
    # pip changes the folder, but leaves PWD as it is.
    path = Path(os.environ.get("PWD", "."), named)
    file = path / "libhedrugal.so" if path.is_dir() else path
    return file if file.is_file() else stop(f"there is no {file}, as HEDRUGAL_LIBRARY says")


def built_library():
    return found("out/lib/libhedrugal.so")


def installed_library():
    name = ctypes.util.find_library("hedrugal")
    if not name:
        return None
    try:
        ctypes.CDLL(name)
    except OSError:
        # The compiler finds it, and the loader doesn't before ldconfig was run.
        return None
    loaded = Path("/proc/self/maps").read_text(encoding="utf-8")
    return Path(re.search(r"/.*/libhedrugal\.so.*", loaded)[0])


def prebuilt_library():
    return prebuilt("libhedrugal.so", "HEDRUGAL_LIBRARY can name a libhedrugal.so")


def compiled(machine):
    """Returns the part of the module that is compiled, for a processor."""
    return prebuilt(COMPILED, "get that folder again", machine)


def prebuilt(name, otherwise, machine=platform.machine()):
    """Returns a prebuilt file, if it is what is noted beside it."""
    file = HERE / f"prebuilt/{machine}-{sys.platform}/{name}"
    if not file.exists():
        stop(f"there is no {file}: {otherwise}")
    checksum = hashlib.sha256(file.read_bytes()).hexdigest()
    provenance = file.with_name("PROVENANCE").read_text(encoding="utf-8")
    if f"sha256 {name}: {checksum}\n" not in provenance:
        stop(f"{file} isn't what PROVENANCE beside it says: get that folder again")
    return file


ORIGINS = {
    "that of HEDRUGAL_LIBRARY": named_library,
    "what make built": built_library,
    "the installed one": installed_library,
    "the prebuilt one": prebuilt_library,
}


def shared_library():
    """Returns the file of the library, and its row of PROCESSORS."""
    files = ((find(), origin) for origin, find in ORIGINS.items())
    file, origin = next((file, origin) for file, origin in files if file)
    print(f"hedrugal: the library is {origin}: {file}")
    header = file.read_bytes()[:20]
    row = header.startswith(b"\x7fELF") and PROCESSORS.get(int.from_bytes(header[18:], "little"))
    if not row:
        stop(f"{file} isn't a shared library for x86-64 or ARM: HEDRUGAL_LIBRARY can name another")
    if row[0] == platform.machine():
        check_version(file)
    return file, row


def check_version(file):
    try:
        number = ctypes.CDLL(str(file)).hed_version()
    except (AttributeError, OSError) as error:
        stop(f"{error}: HEDRUGAL_LIBRARY can name another library")
    version = f"{number >> 16}.{number >> 8 & 255}.{number & 255}"
    if version != VERSION:
        stop(
            f"{file} is of version {version}, and this module of version {VERSION}: "
            "HEDRUGAL_LIBRARY can name a library of that version"
        )


def tags_of(library, row):
    """Returns the tags of a wheel, with dots between them: any Python 3 can use it. A library that
    names no C library, as the prebuilt one, runs on glibc and on musl. Another one needs a glibc as
    new as its symbols."""
    machine, _, oldest = row
    if not re.search(rb"\0libc\.", library):
        tags = "manylinux_{}_{}".format(*oldest), "musllinux_{}_{}".format(*MUSL)
        return "py3-none-" + ".".join(f"{it}_{machine}" for it in tags)
    versions = re.findall(rb"GLIBC_(\d+)\.(\d+)", library)
    if not versions:
        return f"py3-none-linux_{machine}"
    major, minor = max([oldest, *((int(major), int(minor)) for major, minor in versions)])
    return f"py3-none-manylinux_{major}_{minor}_{machine}"


def files_of_module():
    """Yields the names of the module's files, and what is in them."""
    for path in sorted((HERE / "hedrugal").rglob("*")):
        if path.is_file() and path.suffix not in (".pyc", ".so"):
            yield str(path.relative_to(HERE)), path.read_bytes()


def documents():
    """Yields the notices, and the document that docstrings of the module name."""
    for name in ("LICENSE", "THIRD-PARTY", "hedrugal.spdx.json", "docs/EXTENDED.md"):
        if path := found(name):
            yield name, path.read_bytes()


def files_of_wheel(library, row):
    note = f"\nThe wheel has the library, for {row[1]}.\n"
    yield from files_of_module()
    yield "hedrugal/libhedrugal.so", library
    yield f"hedrugal/{COMPILED}", compiled(row[0]).read_bytes()
    for name, data in documents():
        yield f"{NAME}.dist-info/{name}", data
    yield f"{NAME}.dist-info/METADATA", (METADATA + note).encode()


def write_wheel(folder, files, tags):
    """Writes a wheel of such files to a folder, and returns its name."""
    python, abi, platforms = tags.split("-")
    lines = ["Wheel-Version: 1.0", "Generator: hedrugal", "Root-Is-Purelib: false"]
    lines += [f"Tag: {python}-{abi}-{it}" for it in platforms.split(".")]
    info, record = f"{NAME}.dist-info", ""
    added = {
        f"{info}/entry_points.txt": "[console_scripts]\nhedrugal = hedrugal.__main__:main\n",
        f"{info}/WHEEL": "".join(f"{line}\n" for line in lines),
    }
    with zipfile.ZipFile(Path(folder, f"{NAME}-{tags}.whl"), "w") as wheel:
        for name, data in [*files, *((name, text.encode()) for name, text in added.items())]:
            digest = base64.urlsafe_b64encode(hashlib.sha256(data).digest()).decode().rstrip("=")
            record += f"{name},sha256={digest},{len(data)}\n"
            add_to_wheel(wheel, name, data)
        add_to_wheel(wheel, f"{info}/RECORD", f"{record}{info}/RECORD,,\n".encode())
    return f"{NAME}-{tags}.whl"


def build_wheel(wheel_directory, config_settings=None, metadata_directory=None):
    """Writes the wheel to a folder, and returns its name: a hook of PEP 517."""
    file, row = shared_library()
    library = file.read_bytes()
    return write_wheel(wheel_directory, files_of_wheel(library, row), tags_of(library, row))


def build_editable(wheel_directory, config_settings=None, metadata_directory=None):
    """Writes a wheel that leads to this folder, whose module takes the prebuilt library: a hook of
    PEP 660."""
    print(f"hedrugal: the library is the prebuilt one: {prebuilt_library()}")
    compiled(platform.machine())
    files = {"hedrugal.pth": f"{HERE}\n", f"{NAME}.dist-info/METADATA": METADATA}
    data = ((name, text.encode()) for name, text in files.items())
    return write_wheel(wheel_directory, data, "py3-none-any")


def add_to_wheel(wheel, name, data):
    member = zipfile.ZipInfo(name, time.gmtime(SECONDS)[:6])
    member.create_system, member.external_attr = 3, 0o100644 << 16
    wheel.writestr(member, data, zipfile.ZIP_DEFLATED)


def files_of_sdist():
    yield from files_of_module()
    yield from documents()
    yield "PKG-INFO", METADATA.encode()
    for name in ("README.md", "backend.py", "pyproject.toml"):
        yield name, (HERE / name).read_bytes()
    for path in sorted([*(HERE / "prebuilt").glob("*/*"), *(HERE / "compiled").glob("*")]):
        yield str(path.relative_to(HERE)), path.read_bytes()


def build_sdist(sdist_directory, config_settings=None):
    """Writes the source distribution to a folder, and returns its name: a hook of PEP 517."""
    name = f"{NAME}.tar.gz"
    with gzip.GzipFile(Path(sdist_directory, name), "wb", mtime=SECONDS) as zipped:
        with tarfile.open(fileobj=zipped, mode="w") as archive:
            for path, data in files_of_sdist():
                member = tarfile.TarInfo(f"{NAME}/{path}")
                member.size, member.mtime = len(data), SECONDS
                archive.addfile(member, io.BytesIO(data))
    return name


if __name__ == "__main__":
    if len(sys.argv) != 2 or sys.argv[1].startswith("-"):
        print(__doc__)
        sys.exit(sys.argv[1:] != ["--help"])
    build_wheel(sys.argv[1])
