#!/usr/bin/env bash
# Calls the C library with inputs that clang's libFuzzer makes, and checks what it answers.
#
#     tools/fuzz.sh [SECONDS]
#     tools/fuzz.sh HARNESS FILE
#
# There are seven harnesses in tools/fuzz, and the head of each says more of what it checks:
#
#     cuts        a stream read whole and in pieces, whose events are written and read back and whose replies are read
#     calls       calls in any order and at any time, with requests for memory refused
#     maps        a key map beside a plain one
#     keys        texts of keys, and what is sent for key reports
#     names       names of chords, read and printed
#     bindings    bindings of chords and a matcher beside plain ones
#     questions   questions to the terminal beside a plain list
#
# Each begins with the seeds of tools/fuzz/corpus. cuts and calls run for two ninths of the SECONDS (60 if left out), the others for a
# ninth each. With a FILE a harness is run alone.
#
# The harnesses are built with clang's checks of addresses and of undefined behaviour. The archive is compiled already and has no such
# checks in it. So each argument lies beside a page that can't be touched, and each block of the library's memory between marks.
#
# The library is that of HEDRUGAL_LIBRARY, else of out/lib. An input that fails is kept in a folder that the script names, with the words
# that repeat it. The last line is 'N passed, N failed', the status 1 if a harness failed. It needs clang with its runtime, and objcopy.
set -u
export LC_ALL=C
. "$(dirname "$0")/common.sh"
declare -A longest=([cuts]=600 [calls]=400 [maps]=300 [keys]=48 [names]=160 [bindings]=300 [questions]=300)
if [ $# -lt 2 ]; then
    want_number "${1-60}" SECONDS
    ninth=$(((${1-60} + 8) / 9))
else
    [ $# = 2 ] || refuse_word "$3"
    [ -n "${longest[$1]-}" ] || refuse_word "$1"
    [ -f "$2" ] || refuse "there is no file $2"
    input=$(realpath "$2")
fi
need objcopy binutils clang clang
enter

# The harnesses lie over an archive whose requests for memory are those of tools/fuzz/fuzz.c. What they share isn't traced.
progress 'builds the harnesses'
compile=(clang -std=c11 -O1 -g -Wall -Wextra -pedantic -Werror '-fsanitize=address,undefined' -fno-sanitize-recover=all -I"$library")
objcopy --redefine-sym malloc=fuzz_malloc --redefine-sym realloc=fuzz_realloc --redefine-sym free=fuzz_free \
    "$library/libhedrugal.a" "$work/archive.a" || exit 1
(cd "$work" && run_quietly "${compile[@]}" -c "$top"/tools/fuzz/{fuzz,map_calls}.c) || exit 1
for name in "${!longest[@]}"; do
    run_quietly "${compile[@]}" -fsanitize=fuzzer "tools/fuzz/$name.c" "$work"/{fuzz.o,map_calls.o,archive.a} -o "$work/$name" || exit 1
done

# Writes the seeds of a harness, each to a file.
write_seeds() { # harness
    local name text
    rm -rf "$work/seeds" "$work/new"
    mkdir "$work/seeds" "$work/new"
    while read -r name text; do
        [[ $name = '' || $name = '#' ]] || printf '%b' "$text" > "$work/seeds/$name"
    done < "tools/fuzz/corpus/$1.txt"
}

kept=$(mktemp -d -t hedrugal-fuzz.XXXXXX)
export ASAN_OPTIONS=quarantine_size_mb=32:detect_stack_use_after_return=1
# Runs a harness with further words. What it says goes to its log.
run() { # harness words..
    "$work/$1" -timeout=300 -rss_limit_mb=2048 -artifact_prefix="$kept/$1-" "${@:2}" > "$kept/$1.log" 2>&1
}

# Lets libFuzzer make inputs from the seeds. An input that fails is kept, and what was said of it.
fuzz() { # harness seconds
    local runs=0 seeds log="$kept/$1.log"
    write_seeds "$1"
    seeds=$(find "$work/seeds" -type f | wc -l)
    progress "$1, $2 seconds"
    if run "$1" -max_total_time="$2" -max_len="${longest[$1]}" -len_control=0 -dict="$work/tokens" -print_final_stats=1 \
        "$work/new" "$work/seeds" &&
        runs=$(sed -n 's/^stat::number_of_executed_units: *//p' "$log") && [ "${runs:-0}" -gt "$seeds" ]; then
        echo "$1: passed, $runs runs in $2 s, $seeds seeds, $(find "$work/new" -type f | wc -l) inputs that showed something new"
        passed=$((passed + 1))
        rm "$log"
    else
        grep -v '^#\|^INFO' "$log" | head -n 60
        sed -n "s|^.*Test unit written to |$1: the input is kept; repeat it by tools/fuzz.sh $1 |p" "$log"
        echo "$1: failed; what it said is in $log"
        failed=$((failed + 1))
    fi
}

if [ $# = 2 ]; then
    check "$1, this input alone" run "$1" "$input"
    cat "$kept/$1.log"
    rm -r "$kept"
else
    sed '/^#/d; s/[^ ]\+/"&"/g; s/ /\n/g' tools/fuzz/tokens.txt > "$work/tokens"
    for harness in cuts calls maps keys names bindings questions; do
        [[ $harness = c* ]] && share=2 || share=1
        fuzz "$harness" $((share * ninth))
    done
    rmdir --ignore-fail-on-non-empty "$kept"
fi
print_counts
