"""The numbers, layouts and calls are those of C, and the library is found."""
import ctypes
import enum
import os
import platform
import pydoc
import re
import shutil

import pytest

import hedrugal
from hedrugal import KeyCode, Modifiers, _calls
from hedrugal._library import library
from helpers import HERE, LIBRARY, read, run_python, set_version

ENUMS = [it for it in vars(hedrugal).values() if isinstance(it, enum.EnumMeta)]
# The enums of the header that have another name here.
NAMES = {
    "termwiz_mod": "Modifiers",
    "kitty_mod": "KittyModifiers",
    "button": "MouseButtons",
    "kitty_flag": "KittyKeyboardFlags",
    "encoding": "KeyboardEncoding",
    "erase": "EraseByte",
    "newline": "NewlineByte",
    "mouse": "MouseButton",
    "key": "KeyCode",
}


def enums_of_header():
    """The numbers of the enums that have a name, by the names that the package has for them."""
    enums = re.findall(r"^enum hed_(\w+) {\n(.*?)^}", read("c/hedrugal.h"), re.M | re.S)
    for name, body in enums:
        numbers = re.findall(rf"^  HED_{name.upper()}_(\w+) = (\w+)", body, re.M)
        if numbers:
            camel = "".join(map(str.capitalize, name.split("_")))
            yield NAMES.get(name, camel), {word: int(number, 0) for word, number in numbers}


def test_enums():
    """Each enum has the header's names and numbers, and no others. The two keys that have a detail
    are no KeyCode. The kinds of events, outcomes and replies are classes here."""
    of_header = dict(enums_of_header())
    for name in ("CHAR", "FUNCTION"):
        del of_header["KeyCode"][name]
    del of_header["Kind"]
    members = {
        it.__name__: {name: member.value for name, member in it.__members__.items()} for it in ENUMS
    }
    del members["StringKind"], members["KeyNameErrorKind"]
    assert members == of_header and len(members) > 10


def test_docstrings_of_members():
    """Each member has one of its own, which help shows."""
    for it in ENUMS:
        said = {member.__doc__ for member in it.__members__.values()}
        assert len(said) == len(it.__members__) > 1 and it.__doc__ not in said
    assert "Menu, Windows' name for Alt" in pydoc.render_doc(KeyCode.MENU)
    assert (Modifiers.CTRL | Modifiers.ALT).__doc__ == Modifiers.__doc__


def test_layouts():
    """The structs have the sizes and offsets that Rust's compiler finds. Three have the same two
    fields."""
    written = re.findall(r"is_laid_out!\(([A-Z]\w+) (\d+) ([^)]*)\)", read("rust/src/raw.rs"))
    seen = set()
    for name, size, words in written:
        name = {"KeyPress": "Press"}.get(name, "Handle" if words == "live 0 state 8" else name)
        raw = getattr(_calls, f"Raw{name}")
        offsets = " ".join(f"{field} {getattr(raw, field).offset}" for field, *_ in raw._fields_)
        assert (ctypes.sizeof(raw), offsets) == (int(size), " ".join(words.split())), name
        seen.add(raw.__name__)
    assert seen == {it for it in vars(_calls) if it.startswith("Raw")}


IMPORT = """
try:
    import hedrugal
    print(hedrugal._library.library._name)
except ImportError as error:
    print(error)
"""


def import_it(env, before="", cwd=None):
    status, printed, errors = run_python(before + IMPORT, env, cwd)
    assert (status, errors) == (0, "")
    return printed


def find_library(names):
    """Lets the system have these libraries."""
    return f"import ctypes.util\nctypes.util.find_library = {names!r}.get\n"


def test_named(tmp_path):
    for cwd in ("/", os.path.dirname(LIBRARY), tmp_path):
        named = LIBRARY if cwd == "/" else os.path.relpath(LIBRARY, cwd)
        assert import_it({"HEDRUGAL_LIBRARY": named}, cwd=cwd) == f"{LIBRARY}\n"


def test_a_named_folder(tmp_path):
    """A folder is named too, and then the library in it is loaded."""
    folder = tmp_path / "libraries"
    folder.mkdir()
    assert_message(import_it({"HEDRUGAL_LIBRARY": str(folder)}), f"{folder}/libhedrugal.so")
    (folder / "libhedrugal.so").symlink_to(LIBRARY)
    for named in (str(folder), f"{folder}/", "libraries"):
        assert import_it({"HEDRUGAL_LIBRARY": named}, cwd=tmp_path) == f"{folder}/libhedrugal.so\n"


def test_a_folder_of_others(tmp_path):
    """Another user may have put a library there, so it isn't loaded."""
    file = tmp_path / "libhedrugal.so"
    shutil.copy(LIBRARY, file)
    try:
        os.chown(tmp_path, os.geteuid() or 1, -1)
    except OSError:
        pytest.skip("there is no other user")
    of_another = f"import os\nos.geteuid = lambda: {os.stat(tmp_path).st_uid + 1}\n"
    named = {"HEDRUGAL_LIBRARY": str(file)}
    assert_message(import_it(named, before=of_another), f"may write to {tmp_path}\n")
    os.chown(tmp_path, os.geteuid(), -1)
    for path in (tmp_path, file):
        path.chmod(0o777)
        assert_message(import_it(named), f"may write to {path}\n")
        path.chmod(0o755)
    assert import_it(named) == f"{file}\n"


def test_it_keeps_pythons_lock():
    """So no two threads are in a call at once."""
    assert isinstance(library, ctypes.PyDLL)


COMPILED = f"prebuilt/{platform.machine()}-linux/libhedrugal-python.so"


def copied(folder):
    """A copy of the package alone, with what is compiled of it, in a folder on Python's path."""
    package = shutil.copytree(os.path.join(HERE, "hedrugal"), folder / "hedrugal")
    shutil.copy(os.path.join(HERE, COMPILED), package)
    return package


@pytest.fixture
def package(tmp_path):
    return copied(tmp_path)


def test_where_it_is_found(package):
    """In the package's folder, or else beside it as in a clone, or else where the system has it."""
    folder = package.parent
    beside = folder / f"prebuilt/{platform.machine()}-linux/libhedrugal.so"
    beside.parent.mkdir(parents=True)
    within = package / "libhedrugal.so"
    before, env = find_library({"hedrugal": LIBRARY}), {"PYTHONPATH": str(folder)}
    assert import_it(env, before, "/") == f"{LIBRARY}\n"
    for file in (beside, within):
        shutil.copy(LIBRARY, file)
        for named in ({}, {"HEDRUGAL_LIBRARY": ""}):
            assert import_it({**env, **named}, before, "/") == f"{file}\n"


def assert_message(printed, *words):
    assert printed.count("\n") <= 2, printed
    assert printed.startswith("hedrugal: "), printed
    for word in words:
        assert word in printed


def test_not_found(package, tmp_path):
    missing, text = str(tmp_path / "none.so"), str(tmp_path / "text.so")
    (tmp_path / "text.so").write_text("text")
    assert_message(import_it({"HEDRUGAL_LIBRARY": missing}), missing)
    assert_message(import_it({"HEDRUGAL_LIBRARY": "none.so"}, cwd=tmp_path), missing)
    assert_message(import_it({"HEDRUGAL_LIBRARY": text}), text)
    env = {"PYTHONPATH": str(tmp_path)}
    assert_message(import_it(env, before=find_library({})), str(package))


def test_what_is_compiled(package, tmp_path):
    """It is found in the package's folder, or else beside it as in a clone."""
    env = {"PYTHONPATH": str(tmp_path), "HEDRUGAL_LIBRARY": LIBRARY}
    within, beside = package / "libhedrugal-python.so", tmp_path / COMPILED
    beside.parent.mkdir(parents=True)
    shutil.move(within, beside)
    assert import_it(env) == f"{LIBRARY}\n"
    within.write_text("text")
    assert_message(import_it(env), str(within))
    within.unlink()
    beside.unlink()
    assert_message(import_it(env), f"no libhedrugal-python.so in {package}")


def test_another_library():
    other = re.search(r"\S+/libc\.so\.6", read("/proc/self/maps"))
    if not other:
        pytest.skip("no libc.so.6")
    printed = import_it({"HEDRUGAL_LIBRARY": other.group()})
    assert_message(printed, "symbol: hed_version", "of this version")


def import_of_version(folder, version):
    """What an import of the module prints, if it is of another version."""
    shutil.rmtree(folder / "hedrugal", ignore_errors=True)
    set_version(copied(folder), version)
    return import_it({"PYTHONPATH": str(folder), "HEDRUGAL_LIBRARY": LIBRARY}, cwd=folder)


def test_another_version(tmp_path):
    """A module is loaded with no older library, and with none of another major version."""
    major, minor, patch = map(int, hedrugal.__version__.split("."))
    later = f"{major + 1}.0.0", f"{major}.{minor + 1}.0", f"{major}.{minor}.{patch + 1}"
    for other in later:
        printed = import_of_version(tmp_path, other)
        words = f"is version {hedrugal.__version__} of", f"is for version {other} or a later one"
        assert_message(printed, LIBRARY, *words)
    assert import_of_version(tmp_path, f"{major}.0.0") == f"{LIBRARY}\n"


@pytest.mark.parametrize(
    "before",
    [
        "import platform\nplatform.machine = lambda: 'riscv64'\n",
        "import ctypes.util, sys\nsys.platform = 'darwin'\n",
        "import ctypes\nctypes.sizeof = lambda _, size=ctypes.sizeof: size(ctypes.c_uint32)\n",
    ],
)
def test_another_processor(before):
    printed = import_it({"HEDRUGAL_LIBRARY": LIBRARY}, before=before)
    assert_message(printed, "Linux on x86-64 and 64-bit ARM")
