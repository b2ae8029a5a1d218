# shellcheck shell=bash
# What the scripts of this folder share. They read it by `.`.
script=$(basename "$0" .sh)

# With --help a script prints the comment at its head.
if [ "${1-}" = --help ]; then
    awk 'NR > 1 { if (!sub(/^# ?/, "")) exit; print }' "$0"
    exit
fi

# Ends the script over a word that it doesn't know.
refuse_word() { # word
    echo "$script: what is '$1'? --help lists the words" >&2
    exit 2
}

# Ends the script over what is wrong with its words.
refuse() { # message
    echo "$script: $1; --help says more" >&2
    exit 2
}

# Ends the script unless the text is a number, which has to be at least 1.
want_number() { # text name
    [[ $1 =~ ^[1-9][0-9]{0,8}$ ]] || refuse "$2 wants a number from 1 on, and not '$1'"
}

# Says what is being done, on standard error.
progress() { # text
    echo "$script: $1" >&2
}

# Ends the script if a program that it needs isn't there. Each is followed by the package that has it in Debian.
need() { # program package ..
    local missing='' packages=''
    for ((; $#; )); do
        command -v "$1" > /dev/null || missing+=" $1" packages+=" $2"
        shift 2
    done
    [ -z "$missing" ] || { echo "$script: not run, not there:$missing: install$packages" >&2; exit 1; }
}

# Whether a program is there. If not, a line says which cases are left out.
has() { # program cases
    command -v "$1" > /dev/null || { echo "left out: $2, since there is no $1"; false; }
}

# Prints the path without the folders that have rt.
path_without_rt() {
    tr : '\n' <<< "$PATH" | while read -r folder; do [ -e "$folder/rt" ] || printf '%s:' "$folder"; done
}

# Prints the names of the header's calls. It is called at the top of the repository.
library_calls() {
    sed -nE 's/^[a-z].*[ *](hed_[a-z_]+)\(.*$/\1/p' c/hedrugal.h
}

# Prints the calls that the manual pages describe, each behind its page, as 'hedrugal_parser hed_parser_next'.
page_calls() {
    awk '/^\.Ss Ft / { page = FILENAME; gsub(/.*\/|\.3$/, "", page); sub(/.* Fn /, ""); print page, $1 }' docs/man/*.3
}

# Runs a command, and shows what it prints only if it fails.
run_quietly() { # words..
    local log status=0
    log=$(mktemp)
    "$@" > "$log" 2>&1 || { status=$?; cat "$log" >&2; }
    rm "$log"
    return "$status"
}

# Goes to the top of the repository, and sets $work to a folder that is removed at the end, $library to that of HEDRUGAL_LIBRARY, which is
# out/lib unless it is set, $keyshow to the program of KEYSHOW, else out/bin/keyshow, and $version and $major to those of the header.
enter() {
    top=$(realpath -- "$(dirname "$0")/..")
    library=$(realpath -m -- "${HEDRUGAL_LIBRARY:-$top/out/lib}")
    keyshow=$(realpath -m -- "${KEYSHOW:-$top/out/bin/keyshow}")
    cd "$top" || exit
    version=$(sed -n 's/^#define HED_VERSION "\(.*\)"$/\1/p' c/hedrugal.h) major=${version%%.*}
    [ ! -f "$library" ] || library=$(dirname "$library")
    [ -f "$library/libhedrugal.a" ] ||
        { echo "$script: there is no libhedrugal.a in '$library': make builds it, or HEDRUGAL_LIBRARY names another" >&2; exit 1; }
    work=$(mktemp -d)
    trap 'rm -rf "$work"' EXIT
}

# Begins a script of cases that has no words.
start_cases() { # words of the script
    set -u
    export LC_ALL=C.UTF-8
    [ $# = 0 ] || refuse_word "$1"
    enter
}

# Ends the script unless the program keyshow is there.
want_keyshow() {
    [ -x "$keyshow" ] || refuse "there is no $keyshow: make builds it, or KEYSHOW names another"
}

# Prints what lies below a folder: links with what they lead to, and files with their modes.
listed() { # folder
    find "$1" -type l -printf '%P -> %l\n' -o -type f -printf '%P %m\n' | sort
}

# Compares two lists. An empty one is like no other.
same() { # file file
    local list
    list=$(cat "$1") && [ -n "$list" ] && diff <(echo "$list") "$2"
}

# Prints the shared libraries that a program or library needs.
needed() { # file
    readelf -dW "$1" | grep -o 'Shared library: .*'
}

# Whether a shared library has the name by which programs ask for it, and exports the calls of the header alone.
check_exports() { # file
    readelf -dW "$1" | grep -F "soname: [libhedrugal.so.$major]" && same <(exports_of "$1") <(library_calls | sort)
}

exports_of() { # file
    nm -D --defined-only "$1" | awk '{ print $3 }' | sort
}

# Sets $view to the words before a command by which it finds these folders empty, or to none if the system lets no program hide folders.
find_view() { # folders..
    local user=(--map-root-user)
    [ "$(id -u)" != 0 ] || user=()
    # shellcheck disable=SC2016
    view=(unshare "${user[@]}" --mount bash -c 'while [ "$1" != -- ]; do mount -t tmpfs none "$1" && shift || exit; done; exec "${@:2}"'
        bash "$@" --)
    "${view[@]}" true 2> /dev/null || { view=(); progress "note: this system lets no program hide $*"; }
}

# The longest tests in Rust, as words for cargo test. They are left out where a program takes ten times as long.
# shellcheck disable=SC2034
longest_in_rust=(--skip streams --skip recorded --skip generated --skip undecided --skip long::reads --skip compared --skip names::texts --skip twins
    --skip terminals::)

# Prints how many tests have passed by the words of cargo, pytest and programs in C, if any has.
tests_in() { # log
    sed -nE 's/^test result: ok\. ([0-9]+) passed.*/\1/p; s/^=* ?([0-9]+) passed.* in [0-9.]+s.*/\1/p; s/^\w+: ([0-9]+) tests, [0-9]+ checks, 0 failed$/\1/p' "$1" |
        awk '{ tests += $1 } END { if (tests) print tests }'
}

passed=0 failed=0
# Runs a case, and counts it and the tests that it has run. What it prints is shown only if it fails.
check() { # name words..
    local name=$1 start=$SECONDS log tests
    log=$(mktemp)
    if ("${@:2}") > "$log" 2>&1; then
        tests=$(tests_in "$log")
        echo "$name: passed${tests:+, $tests tests}, $((SECONDS - start)) s"
        passed=$((passed + 1 + tests))
    else
        cat "$log"
        echo "$name: failed"
        failed=$((failed + 1))
    fi
    rm "$log"
}

# Prints how many cases passed and failed. The status is 1 if one failed, or if none was run.
print_counts() {
    [ $((passed + failed)) != 0 ] || echo "$script: no case was run" >&2
    echo "$passed passed, $failed failed"
    [ "$failed" = 0 ] && [ "$passed" != 0 ]
}
