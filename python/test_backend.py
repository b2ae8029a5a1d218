"""The wheel and the source distribution, from a copy of the sources with each kind of library."""
import base64
import hashlib
import os
import platform
import re
import shutil
import zipfile
from pathlib import Path

import pytest

import hedrugal
from helpers import HERE, LIBRARY, TOP, read, run_python, set_version

NAME = f"hedrugal-{hedrugal.__version__}"
PREBUILT = f"python/prebuilt/{platform.machine()}-linux"
COMPILED = "libhedrugal-python.so"
SAID = "hedrugal: the library is"
# The test's machine may have the library installed.
BUILD = """
import ctypes.util, sys
ctypes.util.find_library = {{"hedrugal": {installed!r}}}.get
sys.path.insert(0, "{top}/{folder}")
import backend
print(backend.{hook}("{top}"))
"""


@pytest.fixture
def tree(tmp_path):
    """A copy of the sources, in a folder with a space in its name."""
    top = tmp_path / "a copy"
    ignored = shutil.ignore_patterns("test_*", "__pycache__")
    shutil.copytree(HERE, top / "python", ignore=ignored)
    (top / "docs").mkdir()
    for name in ("LICENSE", "THIRD-PARTY", "docs/EXTENDED.md"):
        shutil.copy(os.path.join(TOP, name), top / name)
    return top


def run_hook(tree, hook="build_wheel", folder="python", installed=None, **env):
    text = BUILD.format(top=tree, folder=folder, hook=hook, installed=installed)
    return run_python(text, {"PYTHONPATH": "", **env})


def build(tree, **how):
    """Calls a hook, and returns the file that it wrote and what it said."""
    status, printed, errors = run_hook(tree, **how)
    assert (status, errors) == (0, "")
    *said, name = printed.splitlines()
    return tree / name, said


def files_of(wheel):
    with zipfile.ZipFile(wheel) as opened:
        assert opened.testzip() is None
        return {name: opened.read(name) for name in opened.namelist()}


def check_record(files):
    """Each file but the record itself stands there with its checksum."""
    record = f"{NAME}.dist-info/RECORD"
    lines = files[record].decode().splitlines()
    assert lines.pop() == f"{record},,"
    for line in lines:
        name, checksum, size = line.rsplit(",", 2)
        digest = base64.urlsafe_b64encode(hashlib.sha256(files[name]).digest()).decode()
        assert (checksum, size) == (f"sha256={digest.rstrip('=')}", str(len(files[name])))
    assert len(lines) == len(files) - 1


def platforms_of(files):
    return re.findall("^Tag: py3-none-(.*)$", files[f"{NAME}.dist-info/WHEEL"].decode(), re.M)


def test_wheel(tree):
    wheel, said = build(tree, HEDRUGAL_LIBRARY=LIBRARY)
    assert said == [f"{SAID} that of HEDRUGAL_LIBRARY: {LIBRARY}"]
    files = files_of(wheel)
    check_record(files)
    for path in Path(HERE, "hedrugal").rglob("*"):
        if path.is_file() and "__pycache__" not in path.parts and path.suffix != ".so":
            assert files[str(path.relative_to(HERE))] == path.read_bytes()
    assert files["hedrugal/libhedrugal.so"] == Path(LIBRARY).read_bytes()
    assert files[f"hedrugal/{COMPILED}"] == (tree / PREBUILT / COMPILED).read_bytes()
    tags = platforms_of(files)
    assert wheel.name == f"{NAME}-py3-none-{'.'.join(tags)}.whl"
    assert tags[0].startswith("manylinux_") and tags[0].endswith(platform.machine())
    assert {f"{NAME}.dist-info/{it}" for it in ("LICENSE", "THIRD-PARTY", "METADATA")} <= {*files}
    commands = files[f"{NAME}.dist-info/entry_points.txt"].decode()
    assert commands == "[console_scripts]\nhedrugal = hedrugal.__main__:main\n"
    first = wheel.read_bytes()
    assert build(tree, HEDRUGAL_LIBRARY=os.path.dirname(LIBRARY))[0].read_bytes() == first


def test_documents(tree):
    """Those that the module names are there."""
    files = files_of(build(tree)[0])
    sources = b"".join(data for name, data in files.items() if name.endswith(".py"))
    named = {it.decode() for it in re.findall(rb"docs/\w+\.md", sources)}
    assert named and {f"{NAME}.dist-info/{it}" for it in named} <= {*files}


def test_prebuilt(tree):
    """It is loaded from the wheel, which is for any C library."""
    wheel, said = build(tree)
    assert said == [f"{SAID} the prebuilt one: {tree}/{PREBUILT}/libhedrugal.so"]
    shutil.unpack_archive(wheel, tree / "own", "zip")
    text = "import hedrugal\nprint(hedrugal.__file__, *hedrugal.Parser().feed(b'q'))\n"
    _, printed, _ = run_python(text, {"PYTHONPATH": str(tree / "own")})
    assert printed.startswith(f"{tree}/own/hedrugal/__init__.py KeyReport(key='q'")
    platforms = platforms_of(files_of(wheel))
    assert [it.partition("_")[0] for it in platforms] == ["manylinux", "musllinux"]


@pytest.mark.parametrize("processor", ["x86_64", "aarch64"])
def test_shared_libraries(processor):
    """The library is of the archive that lies in the folder prebuilt. Neither names a C library."""
    noted = read(f"python/prebuilt/{processor}-linux/PROVENANCE")
    folder = f"prebuilt/{processor}-linux"
    (archive,) = re.findall("^sha256 libhedrugal.a: (.*)$", read(f"{folder}/PROVENANCE"), re.M)
    assert f"of: {folder}/libhedrugal.a, sha256 {archive}\n" in noted
    for name in ("libhedrugal.so", COMPILED):
        library = Path(HERE, folder, name).read_bytes()
        assert f"sha256 {name}: {hashlib.sha256(library).hexdigest()}\n" in noted
        assert b"libc." not in library and b"GLIBC" not in library


def test_metadata(tree):
    """It has the page README.md, and the address that is named."""
    fields, _, page = metadata_of(tree).partition("\n\n")
    assert page.startswith(read("python/README.md").partition("\n<!--")[0]) and "<!--" not in page
    assert {"Classifier: Typing :: Typed", "Requires-Python: >=3.9"} <= {*fields.splitlines()}
    assert "\nKeywords: terminal," in fields and "URL" not in fields
    url = "https://hedrugal.example"
    assert f"\nProject-URL: Source, {url}\n" in metadata_of(tree, HEDRUGAL_URL=url)


def metadata_of(tree, **env):
    return files_of(build(tree, **env)[0])[f"{NAME}.dist-info/METADATA"].decode()


def test_editable(tree):
    """It leads to the sources, where the prebuilt library is found."""
    wheel, said = build(tree, hook="build_editable")
    assert said == [f"{SAID} the prebuilt one: {tree}/{PREBUILT}/libhedrugal.so"]
    files = files_of(wheel)
    check_record(files)
    leading = files["hedrugal.pth"].decode().strip()
    text = "import hedrugal\nprint(hedrugal._library.library._name)\n"
    assert run_python(text, {"PYTHONPATH": leading})[1] == f"{tree}/{PREBUILT}/libhedrugal.so\n"


def test_a_copy_of_the_folder(tree):
    """An older pip copies this folder alone, to where others may put a library."""
    built = tree / "out/lib/libhedrugal.so"
    built.parent.mkdir(parents=True)
    shutil.copy(LIBRARY, built)
    tree.chmod(0o1777)
    assert build(tree)[1] == [f"{SAID} the prebuilt one: {tree}/{PREBUILT}/libhedrugal.so"]


def test_what_comes_first(tree):
    """What make built comes before an installed library, and that before the prebuilt one."""
    assert build(tree, installed=LIBRARY)[1] == [f"{SAID} the installed one: {LIBRARY}"]
    built = tree / "out/lib/libhedrugal.so"
    built.parent.mkdir(parents=True)
    shutil.copy(LIBRARY, built)
    assert build(tree, installed=LIBRARY)[1] == [f"{SAID} what make built: {built}"]
    built.unlink()
    assert "the prebuilt one" in build(tree, installed="libhedrugal.so.none")[1][0]


def test_source_distribution(tree):
    """A wheel of it is that of the sources."""
    wheel = build(tree)[0].read_bytes()
    source, said = build(tree, hook="build_sdist")
    assert (source.name, said) == (f"{NAME}.tar.gz", [])
    shutil.unpack_archive(source, tree / "unpacked")
    assert os.listdir(tree / "unpacked") == [NAME]
    assert (tree / "unpacked" / NAME / "PKG-INFO").read_text().startswith("Metadata-Version: ")
    assert build(tree, folder=f"unpacked/{NAME}")[0].read_bytes() == wheel


def refusal(tree, **how):
    """The line with which the build of a wheel fails."""
    status, _, errors = run_hook(tree, **how)
    assert status == 1 and errors.startswith("hedrugal: ") and errors.count("\n") == 1
    return errors


@pytest.mark.parametrize("name", ["libhedrugal.so", COMPILED])
def test_damaged(tree, name):
    file = tree / PREBUILT / name
    file.write_bytes(file.read_bytes() + b"damage")
    for hook in ("build_wheel", "build_editable"):
        assert f"{file} isn't what PROVENANCE beside it says" in refusal(tree, hook=hook)


def test_no_prebuilt_library(tree):
    shutil.rmtree(tree / PREBUILT)
    assert f"there is no {tree}/{PREBUILT}/libhedrugal.so: HEDRUGAL_LIBRARY" in refusal(tree)
    told = refusal(tree, HEDRUGAL_LIBRARY=LIBRARY)
    assert f"there is no {tree}/{PREBUILT}/{COMPILED}: get that folder again" in told


def test_named_library(tree):
    text = tree / "text.so"
    text.write_text("text")
    missing = str(tree / "none.so")
    libc = re.search(r"/.*/libc\.so\.6$", Path("/proc/self/maps").read_text("utf-8"), re.M)[0]
    assert f"there is no {missing}" in refusal(tree, HEDRUGAL_LIBRARY=missing)
    assert f"{text} isn't a shared library" in refusal(tree, HEDRUGAL_LIBRARY=str(text))
    assert "hed_version" in refusal(tree, HEDRUGAL_LIBRARY=libc)


def test_another_version(tree):
    set_version(tree / "python/hedrugal", "9.8.7")
    assert "of version 9.8.7: " in refusal(tree, HEDRUGAL_LIBRARY=LIBRARY)
