#!/usr/bin/env bash
# Tests the Rust package over the library: `make test-rust`. HEDRUGAL_LIBRARY names the library's folder, else it is out/lib; KEYSHOW names
# the program, else it is out/bin/keyshow.
#
#     tools/rust_test.sh [--doc]
#
# With --doc the programs of the documentation are run too, which takes two minutes.
#
# The package is built with its tests and with its features that name other crates, of which each is checked alone too. It has to find the
# library in each way that docs/rust.md names, and to say so if there is none. So has the crate that `make crate` assembles. The tests of
# InputParser and of the key map also run under valgrind, but for the longest, and one test refuses every request for memory in turn. cargo
# asks no registry. What is left out for want of a tool is named. The last line is 'N passed, N failed', the status 1 if a case failed.
. "$(dirname "$0")/common.sh"
doc=no
[ "${1-}" != --doc ] || { doc=yes; shift; }
start_cases "$@"
export KEYSHOW=$keyshow

# cargo on the examples and tests that need no other crate. The lock file stays as it is.
rust() { # command words..
    HEDRUGAL_LIBRARY="$library" CARGO_TARGET_DIR="$work/target" \
        cargo "$1" --quiet --locked --offline --manifest-path rust/plain/Cargo.toml "${@:2}"
}

rust_tests() {
    rust build --examples && rust test --tests
}

rust_memcheck() { # words..
    local host
    host=$(rustc -vV | sed -n 's/^host: //p' | tr 'a-z-' 'A-Z_')
    export "CARGO_TARGET_${host}_RUNNER=valgrind --quiet --error-exitcode=9 --leak-check=full --errors-for-leak-kinds=definite"
    rust test "$@"
}

# The documentation of the public items, and that of all: rustdoc has to warn of nothing.
rust_documentation() {
    export RUSTDOCFLAGS='-D warnings'
    rust doc --package hedrugal --no-deps && rust doc --package hedrugal --no-deps --document-private-items
}

# cargo on a manifest that names other crates, with Debian's. It writes a lock file beside that, so this is a copy's.
rust_in() { # folder command words..
    HEDRUGAL_LIBRARY="$library" CARGO_TARGET_DIR="$work/with" cargo "$2" --quiet --offline \
        --manifest-path "$work/rust/$1/Cargo.toml" --config rust/system.toml "${@:3}"
}

rust_with() { # command words..
    rust_in . "$@"
}

# A feature alone, with its tests and examples.
rust_feature() { # name
    rust_with clippy --features "$1" --all-targets -- -D warnings
}

rust_features() {
    export RUSTDOCFLAGS='-D warnings'
    rust_with test --all-features --tests --examples && rust_with clippy --all-features --all-targets -- -D warnings &&
        rust_with doc --all-features --no-deps && { [ $doc = no ] || rust_with test --all-features --doc; }
}

# The package in crossterm's place, with each of crossterm's features alone, and with all.
rust_in_crossterms_place() {
    local feature
    export RUSTDOCFLAGS='-D warnings'
    rust_in crossterm clippy --no-default-features -- -D warnings || return
    for feature in bracketed-paste event-stream serde; do
        rust_in crossterm clippy --no-default-features --features "$feature" -- -D warnings || return
    done
    rust_in crossterm clippy --all-features --all-targets -- -D warnings && rust_in crossterm test --all-features &&
        rust_in crossterm doc --all-features --no-deps
}

# Builds a program over a copy of the package in a new folder, with these variables in place of the one that names the library, beside
# $work/lib.
rust_builds() { # NAME=VALUE..
    rm -rf "$work/found"
    cd "$work/shared" || return
    env -u HEDRUGAL_LIBRARY CARGO_TARGET_DIR="$work/found" "$@" \
        cargo build --locked --offline --manifest-path "$work/copy/rust/plain/Cargo.toml" --example measure 2> "$work/message" ||
        { cat "$work/message"; return 1; }
}

# The program so built finds two events in four bytes.
rust_finds() { # NAME=VALUE..
    rust_builds "$@" || return
    printf 'q\033[A' > "$work/keys" && env "$@" "$work/found/debug/examples/measure" "$work/keys" 1 | grep -x '[0-9]* 2 0'
}

# Without another the prebuilt library is taken, and cargo says so.
rust_finds_prebuilt() {
    rust_finds PKG_CONFIG=false && grep -F 'the library is the prebuilt one' "$work/message"
}

# Makes a program with this dependency. The copy is its folder hedrugal.
rust_program() { # dependency
    rm -rf "$work/program" && cargo init --quiet --vcs none --name program "$work/program" && ln -s "$work/copy" "$work/program/hedrugal" &&
        echo "hedrugal = { $1 }" >> "$work/program/Cargo.toml" &&
        echo 'fn main() { println!("{}", hedrugal::input::InputParser::new().parse_as_vec(b"q", true).len()); }' > "$work/program/src/main.rs"
}

# It finds an event by the prebuilt library, without another crate that cargo knows.
rust_program_finds() { # [NAME=VALUE..]
    env -u HEDRUGAL_LIBRARY CARGO_HOME="$work/home" CARGO_TARGET_DIR="$work/program" PKG_CONFIG=false "$@" \
        cargo run --quiet --manifest-path "$work/program/Cargo.toml" | grep -x 1
}

# Makes a program whose dependency is a repository with the package.
rust_program_by_git() {
    git -C "$work/copy" init --quiet && git -C "$work/copy" add . &&
        git -C "$work/copy" -c user.name=test -c user.email=test commit --quiet -m 'As it lies here' && rust_program "git = \"file://$work/copy\""
}

# Whether cargo refuses each repository, as that of Debian's cargo-web 1.96 does.
reads_no_repository() {
    CARGO_HOME="$work/home" cargo fetch --quiet --manifest-path "$work/program/Cargo.toml" 2>&1 | grep git_proxy_options
}

# A program with a workspace around the package.
rust_in_workspace() {
    rust_program 'path = "hedrugal/rust"' && printf '[workspace]\nexclude = ["hedrugal"]\n' >> "$work/program/Cargo.toml" &&
        rust_program_finds CARGO_NET_OFFLINE=true
}

# The crate is verified with its library by cargo, which is small enough for crates.io, and a program takes what lies in it.
rust_by_crate() {
    local name=hedrugal-$version
    local packed=$work/crate/target/package/$name.crate
    make -s crate CRATE="$work/crate" && env -u HEDRUGAL_LIBRARY CARGO_TARGET_DIR="$work/crate/target" PKG_CONFIG=false \
        cargo package --quiet --offline --config rust/system.toml --manifest-path "$work/crate/$name/Cargo.toml" &&
        [ "$(stat -c %s "$packed")" -lt $((10 << 20)) ] && tar -C "$work/other" -xzf "$packed" &&
        rust_program "path = \"$work/other/$name\"" && rust_program_finds CARGO_NET_OFFLINE=true
}

# The build stops with a message of two lines, of which the first says this.
rust_stops() { # text NAME=VALUE..
    if rust_builds "${@:2}"; then return 1; fi
    sed '1,/^ *--- stderr/d;/^$/d' "$work/message" > "$work/said"
    [ "$(wc -l < "$work/said")" = 2 ] && head -n 1 "$work/said" | grep -F "hedrugal: $1"
}

# Without a library documentation is built, and no program.
rust_links_nothing() {
    local without=(env -u HEDRUGAL_LIBRARY PKG_CONFIG=false CARGO_TARGET_DIR="$work/nothing" cargo)
    "${without[@]}" doc --locked --offline --package hedrugal --no-deps --manifest-path "$work/copy/rust/plain/Cargo.toml" 2> "$work/message" || return
    cat "$work/message"
    grep 'pkg-config finds no hedrugal' "$work/message" && ! rust_builds PKG_CONFIG=false
}

check 'tests' rust_tests
check 'documentation' rust_documentation
has cargo-clippy clippy && check 'clippy' rust clippy --package hedrugal --package hedrugal-plain --all-targets -- -D warnings
features=no
if tools/needs.sh features; then
    features=yes
    mkdir "$work/rust" && cp -r rust/{Cargo.toml,build.rs,src,tests,examples,plain,crossterm} "$work/rust/" || exit
    for feature in serde tokio mio crossterm crossterm-base crossterm-stream; do
        check "feature $feature" rust_feature "$feature"
    done
    check 'all features' rust_features
    check "in crossterm's place" rust_in_crossterms_place
else
    echo 'left out: the features that name other crates, and the crate of make crate'
fi
[ $doc = yes ] || echo 'left out: the programs of the documentation, which DOC=yes runs'
has valgrind 'the tests under valgrind' && check 'tests under valgrind' rust_memcheck --test parser --test keymap -- "${longest_in_rust[@]}"

mkdir "$work/shared" "$work/copy" "$work/other" && cp -a "$library"/libhedrugal.so* "$work/shared/" || exit
ln -s "$library" "$work/lib"
tar --exclude=target -c rust prebuilt | tar -C "$work/copy" -x && cp "$library"/libhedrugal.a "$work/other/" || exit
sed 's/^#define HED_VERSION ".*"/#define HED_VERSION "9.8.7"/' c/hedrugal.h > "$work/other/hedrugal.h"
sed 's/^Version: .*/Version: 9.8.7/' c/hedrugal.pc > "$work/other/hedrugal.pc"
prebuilt=$work/copy/prebuilt/$(uname -m)-linux
check 'absolute folder' rust_finds HEDRUGAL_LIBRARY="$library"
check 'relative folder' rust_finds HEDRUGAL_LIBRARY=../lib
check 'file of the archive' rust_finds HEDRUGAL_LIBRARY="$library/libhedrugal.a"
check 'shared library' rust_finds HEDRUGAL_LIBRARY="$work/shared" LD_LIBRARY_PATH="$work/shared"
# A folder in which linkers look unasked isn't named by pkg-config itself.
if has pkg-config 'the installed library'; then
    check 'pkg-config' rust_finds PKG_CONFIG_PATH="$library"
    check 'pkg-config of the system' rust_finds PKG_CONFIG_PATH="$library" PKG_CONFIG_SYSTEM_LIBRARY_PATH="$library"
    check 'installed library of another version' rust_stops 'the installed library is of version 9.8.7' PKG_CONFIG_PATH="$work/other"
fi
check 'prebuilt library' rust_finds_prebuilt
if has git 'the package of a repository'; then
    rust_program_by_git || exit
    if reads_no_repository; then
        echo 'left out: the package of a repository, which this cargo refuses'
    else
        check 'package of a repository' rust_program_finds
    fi
fi
check 'package in a workspace' rust_in_workspace
[ $features = no ] || check 'crate' rust_by_crate
check 'named library of another version' rust_stops "$work/other/libhedrugal.a is of version 9.8.7" HEDRUGAL_LIBRARY="$work/other"
for folder in "$work"/copy/prebuilt/*-linux; do
    [ "$(basename "$folder")" = "$(uname -m)-linux" ] ||
        check "library of ${folder##*/}" rust_stops "$folder/libhedrugal.a isn't a library for" HEDRUGAL_LIBRARY="$folder"
done
echo damage >> "$prebuilt/libhedrugal.a"
check 'damaged prebuilt library' rust_stops "$prebuilt/libhedrugal.a isn't what PROVENANCE beside it says" PKG_CONFIG=false
rm -r "$prebuilt"
check 'no library' rust_links_nothing
check 'folder without a library' rust_stops "there is no libhedrugal.a in $work/no" HEDRUGAL_LIBRARY="$work/no"
check 'file that is no library' rust_stops "$work/keys isn't a libhedrugal.a" HEDRUGAL_LIBRARY="$work/keys"
chmod o+w "$work/shared" && check 'folder of others' rust_stops 'another user may write to' HEDRUGAL_LIBRARY="$work/shared"
check 'other target' rust_stops 'the library is for Linux on x86-64' CARGO_BUILD_TARGET=i686-unknown-linux-gnu
print_counts
