// Finds libhedrugal: the file that HEDRUGAL_LIBRARY names, or the one in the folder that it names,
// or else the installed one, by pkg-config, or else the prebuilt one of this repository.
use std::env;
use std::fs::{self, File};
use std::os::unix::fs::MetadataExt;
use std::path::{Path, PathBuf};
use std::process::{self, Command};

// The variables on which the answer depends.
const VARIABLES: &[&str] = &[
    "HEDRUGAL_LIBRARY",
    "PKG_CONFIG",
    "PKG_CONFIG_PATH",
    "PKG_CONFIG_LIBDIR",
    "PKG_CONFIG_SYSROOT_DIR",
];

const ADVICE: &str =
    "Install the library, or set HEDRUGAL_LIBRARY to its file or folder, absolute \
                      or from where cargo runs.";

// Ends the build with a message of two lines.
fn stop(fault: &str, advice: &str) -> ! {
    eprintln!("hedrugal: {fault}");
    eprintln!("{advice}");
    process::exit(1)
}

// Goes on without a library, which documentation and `cargo check` don't need: a program fails where
// it is linked. The script runs again by the next command, since this file isn't there.
fn go_on_without(fault: &str) -> ! {
    println!("cargo:warning={fault}: no program can be linked");
    println!("cargo:warning={ADVICE}");
    println!("cargo:rustc-link-lib=dylib=hedrugal");
    println!("cargo:rerun-if-changed=libhedrugal.a");
    process::exit(0)
}

// A processor for which there is a library.
#[derive(Clone, Copy)]
struct Processor {
    // Its name in cargo, and in that of a folder of prebuilt files.
    name: &'static str,
    // Its number in the header of an ELF file.
    number: u16,
}

const PROCESSORS: [Processor; 2] = [
    Processor {
        name: "x86_64",
        number: 62,
    },
    Processor {
        name: "aarch64",
        number: 183,
    },
];

// The processor for which the program is built. `None` if there is no library for the target.
fn processor() -> Option<Processor> {
    let is = |name: &str, value: &str| env::var_os(name).is_some_and(|known| known == value);
    let is_fit = is("CARGO_CFG_TARGET_OS", "linux")
        && is("CARGO_CFG_TARGET_POINTER_WIDTH", "64")
        && is("CARGO_CFG_TARGET_ENDIAN", "little");
    PROCESSORS
        .into_iter()
        .find(|it| is_fit && is("CARGO_CFG_TARGET_ARCH", it.name))
}

// What HEDRUGAL_LIBRARY names. A relative path begins where cargo was called: cargo runs this
// program elsewhere, but leaves the shell's PWD as it is, which then counts too.
fn named_path() -> Option<PathBuf> {
    let named = PathBuf::from(env::var_os("HEDRUGAL_LIBRARY")?);
    if named.is_absolute() {
        return Some(named);
    }
    let caller = env::var_os("PWD").unwrap_or_default();
    Some(Path::new(&caller).join(named))
}

// The words of a line of pkg-config, which writes a backslash before a space that is part of a
// word.
fn words(line: &str) -> Vec<String> {
    let (mut words, mut word) = (Vec::new(), String::new());
    let mut characters = line.chars();
    while let Some(character) = characters.next() {
        match character {
            '\\' => word.extend(characters.next()),
            c if c.is_whitespace() => words.push(std::mem::take(&mut word)),
            c => word.push(c),
        }
    }
    words.push(word);
    words.retain(|word| !word.is_empty());
    words
}

// What a command prints. `None` if it can't be run, or fails.
fn printed(command: &mut Command) -> Option<String> {
    let done = command.output().ok()?;
    let text = String::from_utf8(done.stdout).ok()?;
    done.status.success().then_some(text)
}

// What pkg-config says of the library. `None` if it isn't there, or doesn't know the library.
fn by_pkg_config(questions: &[&str]) -> Option<String> {
    let program = env::var_os("PKG_CONFIG").unwrap_or_else(|| "pkg-config".into());
    let mut command = Command::new(program);
    command.args(questions).arg("hedrugal");
    // It names also those folders in which a linker looks unasked.
    printed(command.env("PKG_CONFIG_ALLOW_SYSTEM_LIBS", "1"))
}

// The files that may be the library, and how each is linked. The first that is there is taken.
const FORMS: [(&str, &str); 2] = [("libhedrugal.a", "static"), ("libhedrugal.so", "dylib")];

// A library, and how it is linked.
struct Library {
    folder: PathBuf,
    file: &'static str,
    kind: &'static str,
}

impl Library {
    fn path(&self) -> PathBuf {
        self.folder.join(self.file)
    }

    // Whether the file, or the first file of the archive, is for a processor.
    fn is_for(&self, processor: Processor) -> bool {
        let bytes = fs::read(self.path()).unwrap_or_default();
        let header = bytes.windows(20).find(|it| it.starts_with(b"\x7fELF"));
        header.is_some_and(|it| it[18..] == processor.number.to_le_bytes())
    }

    // The text of a file that lies beside the library, or none.
    fn beside(&self, name: &str) -> String {
        fs::read_to_string(self.folder.join(name)).unwrap_or_default()
    }

    // The version of the library, as its header or PROVENANCE says, if one of these is there.
    fn version(&self) -> Option<String> {
        let (header, provenance) = (self.beside("hedrugal.h"), self.beside("PROVENANCE"));
        let version =
            noted(&header, "#define HED_VERSION \"").or_else(|| noted(&provenance, "library: "))?;
        Some(version.trim_end_matches('"').to_string())
    }

    // Whether the file has the checksum that is noted in PROVENANCE beside it.
    fn is_whole(&self) -> bool {
        let provenance = self.beside("PROVENANCE");
        let wanted = noted(&provenance, &format!("sha256 {}: ", self.file));
        let found = File::open(self.path())
            .ok()
            .and_then(|file| printed(Command::new("sha256sum").stdin(file)));
        wanted.is_some_and(|sum| found.is_some_and(|line| line.split(' ').next() == Some(sum)))
    }

    // Whether another user than root and the caller may change the file, or put another in its place.
    fn is_open_to_others(&self) -> bool {
        let status = |path: &Path| path.metadata().ok();
        let caller = status(Path::new("/proc/self")).map_or(0, |own| own.uid());
        [status(&self.folder), status(&self.path())]
            .into_iter()
            .flatten()
            .any(|it| ![0, caller].contains(&it.uid()) || it.mode() & 0o002 != 0)
    }
}

// What follows these words at the start of a line.
fn noted<'a>(text: &'a str, words: &str) -> Option<&'a str> {
    text.lines().find_map(|line| line.strip_prefix(words))
}

// The library in a folder: the archive, or the shared library if there is no archive.
fn library_in(folder: &Path) -> Option<Library> {
    let (file, kind) = FORMS
        .into_iter()
        .find(|(file, _)| folder.join(file).is_file())?;
    let folder = folder.to_path_buf();
    Some(Library { folder, file, kind })
}

// The library at a path: the file itself, or the one in a folder.
fn library_at(path: &Path) -> Option<Library> {
    if path.is_dir() {
        return library_in(path);
    }
    let (file, kind) = FORMS
        .into_iter()
        .find(|(file, _)| path.is_file() && path.ends_with(file))?;
    let folder = path.parent()?.to_path_buf();
    Some(Library { folder, file, kind })
}

// The library that HEDRUGAL_LIBRARY names by a path, or why it isn't taken.
fn named_library(path: &Path) -> Result<Library, String> {
    let shown = path.display();
    match library_at(path) {
        Some(it) if it.is_open_to_others() => Err(format!("another user may write to {shown}")),
        Some(it) => Ok(it),
        None if path.is_file() => Err(format!("{shown} isn't a libhedrugal.a or a libhedrugal.so")),
        None => Err(format!("there is no libhedrugal.a in {shown}")),
    }
}

// The library that is installed as pkg-config says, or why it isn't taken.
fn installed_library(version: &str) -> Result<Library, String> {
    if version != VERSION {
        return Err(of_another_version("the installed library", version));
    }
    let line = by_pkg_config(&["--libs-only-L", "--static"]).unwrap_or_default();
    words(&line)
        .iter()
        .filter_map(|word| word.strip_prefix("-L"))
        .find_map(|folder| library_in(Path::new(folder)))
        .ok_or_else(|| "pkg-config names a folder for hedrugal without a libhedrugal.a".to_string())
}

// The library of the folder of prebuilt files, or why it isn't taken. That lies in the package, or
// beside it in the repository.
fn prebuilt_library(processor: Processor) -> Result<Library, String> {
    let package = PathBuf::from(env::var_os("CARGO_MANIFEST_DIR").unwrap_or_default());
    let name = format!("prebuilt/{}-linux", processor.name);
    let library = package
        .ancestors()
        .take(2)
        .find_map(|folder| library_in(&folder.join(&name)));
    let Some(library) = library else {
        go_on_without(&format!(
            "pkg-config finds no hedrugal, and there is no {name}"
        ))
    };
    if !library.is_whole() {
        let shown = library.path();
        return Err(format!(
            "{} isn't what PROVENANCE beside it says, by sha256sum: get that folder again",
            shown.display()
        ));
    }
    println!(
        "cargo:rerun-if-changed={}",
        library.folder.join("PROVENANCE").display()
    );
    println!("cargo:warning=the library is the prebuilt one of {name}");
    Ok(library)
}

// The version of this package, and of the library that it calls.
const VERSION: &str = env!("CARGO_PKG_VERSION");

fn of_another_version(what: &str, version: &str) -> String {
    format!("{what} is of version {version}, and this package of version {VERSION}")
}

fn library(processor: Processor) -> Result<Library, String> {
    let library = match (named_path(), by_pkg_config(&["--modversion"])) {
        (Some(path), _) => named_library(&path),
        (None, Some(version)) => installed_library(version.trim()),
        (None, None) => prebuilt_library(processor),
    }?;
    let shown = library.path();
    let shown = shown.display();
    match library.version() {
        _ if !library.is_for(processor) => Err(format!(
            "{shown} isn't a library for {}, for which the program is built",
            processor.name
        )),
        Some(version) if version != VERSION => {
            Err(of_another_version(&shown.to_string(), &version))
        }
        _ => Ok(library),
    }
}

fn main() {
    let Some(processor) = processor() else {
        stop(
            "the library is for Linux on x86-64 or 64-bit ARM alone, with 64-bit pointers",
            "Build for such a target, as x86_64-unknown-linux-gnu.",
        );
    };
    let library = library(processor).unwrap_or_else(|fault| stop(&fault, ADVICE));
    // cargo shows what was printed if the build is stopped, so these lines come last.
    for name in VARIABLES {
        println!("cargo:rerun-if-env-changed={name}");
    }
    if env::var_os("HEDRUGAL_LIBRARY").is_some_and(|named| Path::new(&named).is_relative()) {
        println!("cargo:rerun-if-env-changed=PWD");
    }
    let Library { folder, file, kind } = library;
    println!("cargo:rerun-if-changed={}", folder.join(file).display());
    println!("cargo:rustc-link-search=native={}", folder.display());
    println!("cargo:rustc-link-lib={kind}=hedrugal");
}
