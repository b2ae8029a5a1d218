#!/usr/bin/env bash
# Installs the library, keyshow and hedrugal-keys in temporary folders by `make install`, and tests what lies there: `make test-install`.
# HEDRUGAL_LIBRARY names the library's folder, else it is out/lib; KEYSHOW names the program, else it is out/bin/keyshow.
#
# Programs are built by pkg-config, with the shared library and with the archive, where the files were installed and after the prefix was
# moved. The shared library has to export the calls of the header alone, and to be linked as the Makefile says. The manual pages have to
# have each call as the headers declare it, and man to find it by its name. Each file has to be gone once it is uninstalled, and no other.
# The folders of /usr/local have to stay; they are an empty file system's, if the system lets a program have such a view. The last line is
# 'N passed, N failed', the status 1 if a case failed.
. "$(dirname "$0")/common.sh"
start_cases "$@"
want_keyshow

headers=(c/hedrugal.h c/hedrugal_terminal.h)
stage=$work/stage/usr/local
# Beside the source the header of these sources would be found first.
cp c/events.c c/live.c "$work/"

# make over what was built, with further words.
over_built() { # words..
    make -s LIBRARY="$library" KEYSHOW="$keyshow" "$@"
}

check_files() {
    sort << END | diff <(listed "$stage") -
bin/hedrugal-keys 755
bin/keyshow 755
include/hedrugal.h 644
include/hedrugal_terminal.h 644
lib/cmake/hedrugal/hedrugal-config-version.cmake 644
lib/cmake/hedrugal/hedrugal-config.cmake 644
lib/libhedrugal.a 644
lib/libhedrugal.so -> libhedrugal.so.$version
lib/libhedrugal.so.$major -> libhedrugal.so.$version
lib/libhedrugal.so.$version 755
lib/pkgconfig/hedrugal.pc 644
share/hedrugal/hedrugal_terminal.c 644
share/man/man1/hedrugal-keys.1 644
share/man/man1/keyshow.1 644
$(cd docs/man && printf 'share/man/man3/%s 644\n' *.3)
$(page_calls | sed 's|\(.*\) \(.*\)|share/man/man3/\2.3 -> \1.3|')
END
}

# What pkg-config answers, about this library alone.
asked() { # prefix libdir words..
    PKG_CONFIG_LIBDIR=$1/$2/pkgconfig pkg-config "${@:3}" hedrugal
}

check_versions() {
    [ "$(asked "$stage" lib --modversion)" = "$version" ] &&
        printf '#include <hedrugal.h>\nHED_VERSION_MAJOR.HED_VERSION_MINOR.HED_VERSION_PATCH HED_VERSION\n' |
        cc -E -P -I"$stage/include" - | tail -n 1 | tr -d ' ' | grep -xF "$version\"$version\""
}

# Nothing of it is written or resolved while it runs, its stack isn't executed, and it needs the C library alone.
check_hardening() {
    readelf -dW "$stage/lib/libhedrugal.so" > "$work/dynamic" && readelf -lW "$stage/lib/libhedrugal.so" > "$work/segments" || return
    cat "$work/dynamic" "$work/segments"
    grep -q 'FLAGS.*BIND_NOW' "$work/dynamic" && ! grep -qE 'TEXTREL|RPATH|RUNPATH' "$work/dynamic" &&
        [ "$(needed "$stage/lib/libhedrugal.so")" = 'Shared library: [libc.so.6]' ] &&
        grep -q 'GNU_RELRO' "$work/segments" && grep -qE 'GNU_STACK .* RW +0x' "$work/segments" && ! grep -q 'RWE' "$work/segments"
}

# Whether the program prints the right events.
runs() {
    printf '\033[1;5Aq' | LD_LIBRARY_PATH=${1-} "$work/events" | diff - <(printf '%s\n' 'UpArrow ctrl' 'Char U+0071')
}

# Builds a program as pkg-config says.
build() { # source prefix libdir [words before the library]
    local flags
    read -ra flags <<< "$(asked "$2" "$3" ${4:+--static} --cflags --libs)"
    cc -std=c99 -O1 -Wall -Wextra -pedantic -Werror "$1" "${@:4}" "${flags[@]}" -Wl,-Bdynamic -o "$work/events"
}

check_shared() { # prefix libdir
    build "$work/events.c" "$@" && needed "$work/events" | grep -F "[libhedrugal.so.$major]" && runs "$1/$2"
}

check_static() { # prefix libdir
    build "$work/events.c" "$@" -Wl,-Bstatic && ! needed "$work/events" | grep hedrugal && runs && ! readelf -lW "$work/events" | grep RWE
}

# CMake finds the same by the listing of docs/c.md: the shared library, the archive, and the file for a terminal.
check_cmake() { # prefix libdir
    rm -rf "$work/cmake" && mkdir "$work/cmake" && cp "$work"/{events,live}.c "$work/cmake/" &&
        awk '/^```cmake$/ { inside = 1; next } /^```$/ { inside = 0 } inside' docs/c.md > "$work/cmake/CMakeLists.txt" &&
        cmake -S "$work/cmake" -B "$work/cmake/built" -D CMAKE_PREFIX_PATH="$1" && cmake --build "$work/cmake/built" || return
    mv "$work/cmake/built/events" "$work/events" && needed "$work/events" | grep -F "[libhedrugal.so.$major]" && runs "$1/$2" &&
        ! needed "$work/cmake/built/live" | grep hedrugal && ! "$work/cmake/built/live" < /dev/null
}

# A program on a terminal is compiled with the file that pkg-config names.
check_terminal() { # prefix libdir
    build "$work/live.c" "$@" "$(asked "$@" --variable=terminal)" && ! LD_LIBRARY_PATH=$1/$2 "$work/events" < /dev/null 2> "$work/words" &&
        grep -xF 'live: standard input and output have to be a terminal' "$work/words"
}

# Whether a program prints for these bytes what its manual page shows.
check_program() { # name bytes
    printf '%b' "$2" | "$stage/bin/$1" > "$work/lines" && [ -s "$work/lines" ] &&
        diff "$work/lines" <(sed -n "/| $1\$/,/^\.Ed/p" "$stage/share/man/man1/$1.1" | sed '1d;$d')
}

# It needs the C library alone.
check_keys() {
    [ "$(needed "$stage/bin/hedrugal-keys")" = 'Shared library: [libc.so.6]' ] &&
        "$stage/bin/hedrugal-keys" --version | grep -xF "hedrugal-keys $version" && check_program hedrugal-keys 'z\033[1;5A\033'
}

# On a processor below x86-64-v2 each program is refused in words, and not by SIGILL.
check_old_processor() {
    local program
    for program in keyshow hedrugal-keys; do
        ! qemu-x86_64-static -cpu qemu64 "$stage/bin/$program" < /dev/null 2> "$work/words" && grep -E 'ISA level|x86-64-v2' "$work/words" || return
    done
}

# For another target the compiler says what the library is built for.
check_refused() { # option for the compiler
    ! printf '#include <hedrugal.h>\n' | cc "$1" -fsyntax-only -I"$stage/include" -xc - 2> "$work/words" &&
        grep -F '#error "hedrugal.h: the library is built for Linux on x86-64' "$work/words"
}

# The calls as the headers declare them, each on a line.
declared() {
    awk '/^[a-z].*[ *]hed_[a-z_]+\(/ { inside = 1; text = "" }
         inside { sub(/^ +/, " "); text = text $0 }
         inside && /;$/ { print text; inside = 0 }' "${headers[@]}" | sort
}

# The calls as the headings of the manual pages have them.
documented() {
    sed -nE '/^\.Ss Ft /{s/^\.Ss Ft (.*) Fn (\w+) "(.*)"$/\1 \2(\3);/; s/" "/, /g; s/\\~/ /g; p}' docs/man/*.3 | sort
}

# The names of the calls in the headings of the manual pages.
named() {
    sed -n 's/^\.Nm [a-z_]* , //p' docs/man/*.3 | sed 's/ , /\n/g' | sort
}

# The fields that have comments, in the headers and in the manual pages.
fields() {
    sed -nE '/^typedef struct/,/^\}/s|^  ([^;]*); /\*.*|\1|p' "${headers[@]}" | sort
}

documented_fields() {
    sed -nE '/^\.It Vt /{s/ Ta .*//; s/^\.It Vt (.*) Fa /\1 /; s/ , /, /g; p}' docs/man/*.3 | sort
}

# The names that start so in some files, but for those of the header's last lines, which compare layouts.
names() { # files..
    grep -ohE '\b(hed|HED)_[A-Za-z_0-9]*[A-Za-z0-9]\b' "$@" | grep -vx 'HED_IS' | sort -u
}

# The pages have each call in their names and with its synopsis, each field, and the names of the headers.
check_calls_pages() {
    same <(declared) <(documented) && same <(page_calls | cut -d ' ' -f 2 | sort) <(named) &&
        same <(fields) <(documented_fields) && same <(names "${headers[@]}") <(names docs/man/*.3)
}

# The first page's program.
check_example() {
    sed -n '/^\.Bd/,/^\.Ed/{/^\./d;p}' docs/man/hedrugal.3 > "$work/example.c"
    build "$work/example.c" "$stage" lib &&
        printf 'a\033[1;5A\033' | LD_LIBRARY_PATH=$stage/lib "$work/events" | diff - <(printf '%s\n' Char 'UpArrow with Ctrl' Escape)
}

# man finds the page of each call by its name, and there is the call's heading.
check_by_name() {
    local calls
    mapfile -t calls < <(page_calls | cut -d ' ' -f 2)
    same <(man -M "$stage/share/man" -w 3 "${calls[@]}") <(page_calls | sed "s|\(.*\) .*|$stage/share/man/man3/\1.3|") &&
        man -M "$stage/share/man" 3 hed_parser_next | grep -xE ' +hed_status hed_parser_next\(.*\)'
}

check_by_man() {
    local file
    for file in docs/man/*; do
        man --warnings -E UTF-8 -l -Tutf8 -Z - < "$file" > "$work/shown" 2> "$work/words" && [ -s "$work/shown" ] || return
        ! grep . "$work/words" || return
    done
}

check_moved_away() {
    make -s uninstall PREFIX="$work/elsewhere/moved" 2> "$work/words" && [ ! -s "$work/words" ] && [ ! -e "$work/elsewhere/moved" ]
}

# A relative prefix, and a folder of the libraries with another name.
own=(PREFIX="$(realpath --relative-to=. "$work")/own" LIBDIR=lib/x86_64-linux-gnu)

# Another's file stays with its folders, and what is gone already is named.
check_uninstall() {
    touch "$work/own/lib/another" && rm "$work/own/bin/keyshow" || return
    make -s uninstall "${own[@]}" 2> "$work/words" || return
    diff "$work/words" <(echo "make: there was no $work/own/bin/keyshow") &&
        diff <(cd "$work" && find own | sort) <(printf '%s\n' own own/lib own/lib/another)
}

check_nothing_to_uninstall() {
    ! make -s uninstall PREFIX="$work/none" && [ ! -e "$work/none" ]
}

# In a folder for packages nothing is left.
check_uninstall_of_stage() {
    rm -rf "$work/stage" && mkdir "$work/stage" && over_built install PREFIX=/usr DESTDIR="$work/stage" &&
        [ -f "$work/stage/usr/include/hedrugal.h" ] && make -s uninstall PREFIX=/usr DESTDIR="$work/stage" &&
        [ -z "$(find "$work/stage" -mindepth 1)" ]
}

# Nothing is installed outside the prefix, nor in a folder with a name that pkg-config would misread.
check_libdir() { # name
    rm -rf "$work/outer" && mkdir "$work/outer" || return
    ! over_built install PREFIX="$work/outer/none" LIBDIR="$1" 2> "$work/words" &&
        grep -F -- "LIBDIR wants a folder's name below the prefix, and not '$1'" "$work/words" && [ -z "$(ls "$work/outer")" ]
}

# The usual prefix is the system's: its folders stay, empty or not.
check_system_folders() {
    # shellcheck disable=SC2016
    "${view[@]}" bash -ec 'make -s install "$@" && [ -f /usr/local/include/hedrugal.h ] && make -s uninstall &&
        find /usr/local -mindepth 1 -printf "%P\n" | sort' bash LIBRARY="$library" KEYSHOW="$keyshow" > "$work/lines" &&
        diff <(grep -v '^make: ' "$work/lines") <(printf '%s\n' bin include lib lib/cmake lib/pkgconfig share share/man share/man/man1 share/man/man3)
}

# A library of other sources isn't installed.
check_stale() {
    cp -a "$library" "$work/stale" && echo >> "$work/stale/hedrugal.h" &&
        ! make -s install LIBRARY="$work/stale" KEYSHOW="$keyshow" PREFIX="$work/none" 2> "$work/words" &&
        grep -F 'was built from other sources' "$work/words" && [ ! -e "$work/none" ]
}

# Nor is one of another processor, which the header of the file has as a number.
check_other_processor() {
    cp -a "$library" "$work/other" && printf '\363' | dd bs=1 seek=18 conv=notrunc of="$work/other/libhedrugal.so.$version" status=none &&
        ! make -s install LIBRARY="$work/other" KEYSHOW="$keyshow" PREFIX="$work/none" 2> "$work/words" &&
        grep -F 'is for another processor' "$work/words" && [ ! -e "$work/none" ]
}

check 'install in a folder for packages' over_built install DESTDIR="$work/stage"
check 'files' check_files
check 'versions' check_versions
check 'exports of the shared library' check_exports "$stage/lib/libhedrugal.so"
check 'hardening of the shared library' check_hardening
check 'program with the shared library' check_shared "$stage" lib
check 'program with the archive' check_static "$stage" lib
check 'program on a terminal' check_terminal "$stage" lib
check 'programs by CMake' check_cmake "$stage" lib
check 'keyshow, as its manual page shows it' check_program keyshow '\033[1;5Az\033'
check 'hedrugal-keys, as its manual page shows it' check_keys
check 'processor below x86-64-v2' check_old_processor
for option in -m32 -mx32 -U__linux__ -D__AARCH64EB__; do check "header with $option" check_refused $option; done
check 'calls in the manual pages' check_calls_pages
check 'example of the manual page' check_example
check 'manual pages by man' check_by_man
check 'manual pages by the names of calls' check_by_name
! command -v mandoc > /dev/null || check 'manual pages by mandoc' mandoc -T lint -W warning docs/man/*
mkdir "$work/elsewhere"
check 'move of the prefix' mv "$stage" "$work/elsewhere/moved"
check 'program with the shared library, moved' check_shared "$work/elsewhere/moved" lib
check 'program with the archive, moved' check_static "$work/elsewhere/moved" lib
check 'programs by CMake, moved' check_cmake "$work/elsewhere/moved" lib
check 'uninstall, moved' check_moved_away
check 'install below a relative prefix' over_built install "${own[@]}"
check 'program with the shared library, there' check_shared "$work/own" lib/x86_64-linux-gnu
check 'uninstall among other files' check_uninstall
check 'uninstall of nothing' check_nothing_to_uninstall
check 'uninstall from a folder for packages' check_uninstall_of_stage
for name in .. ../lib lib/../.. lib/./a . '' /lib lib/ lib//a 'a lib' 'a&b'; do check "folder of libraries '$name'" check_libdir "$name"; done
find_view /usr/local
if [ ${#view[@]} = 0 ]; then echo 'left out: folders of the system'; else check 'folders of the system' check_system_folders; fi
check 'library of other sources' check_stale
check 'library of another processor' check_other_processor
print_counts
