#!/usr/bin/env bash
# Counts the instructions and the memory of the parser, of bindings and of pastes that are sent, and checks that neither grows faster than what
# they read and have, and that an event takes as many instructions as tools/growth/rows.txt says, within a tenth.
#
#     tools/growth.sh FEED          (make test-growth)
#     tools/growth.sh --rows        writes that file anew, after a change that costs or spares more
#
# tools/growth/growth.c reads texts in several ways, and tools/growth/judge.awk has the bounds. tools/growth/tasks.c reads and prints names, binds
# chords, looks them up and sends pasted texts: tools/growth/tasks.awk has the bounds. callgrind counts the instructions and a wrapped malloc
# the memory, so that each run finds the same numbers. Only the seconds of binding and unbinding are measured.
#
# The C library is that of HEDRUGAL_LIBRARY, else of out/lib. FEED is a static library that calls parse_as_vec, which make builds of
# tools/growth/feed.rt.txt. The rows are the inputs of tools/performance.py, read by its program in C: in arrays of events, one by one, and
# one by one in the dialect of termwiz. tools/growth/rows.awk compares them. The last line is 'N passed, N failed', the status 1 if a case failed.
set -u
export LC_ALL=C
. "$(dirname "$0")/common.sh"
[ $# = 1 ] || refuse 'wants the file of the static library feed, or --rows'
feed=''
[ "$1" = --rows ] || { need rt 'the Rattle kit'; feed=$(realpath -- "$1") || exit; }
enter
copying='-Wl,--wrap=memcpy,--wrap=memmove,--wrap=memset tools/growth/copies.c'

# (Each loop that copies stays a loop.)
build() { # program words..
    run_quietly cc -std=c11 -O1 -g -fno-builtin -fno-tree-loop-distribute-patterns -Wall -Wextra -Werror -I"$library" \
        -Wl,--wrap=malloc,--wrap=realloc,--wrap=free -o "$work/$1" "tools/growth/$1.c" tools/growth/counts.c "$library/libhedrugal.a" "${@:2}"
}

# Runs a program, and prints what it prints of each task, with its instructions. Each call of `counted` ends with a file of its own.
count() { # program
    timeout 1h valgrind --quiet --tool=callgrind --toggle-collect=counted --dump-after=counted --callgrind-out-file="$work/$1.counts" \
        "$work/$1" > "$work/$1.tasks" 2> "$work/$1.log" ||
        { cat "$work/$1.log" >&2; echo 'growth: the count failed, or took over an hour' >&2; return 1; }
    seq -f "$work/$1.counts.%g" "$(wc -l < "$work/$1.tasks")" | xargs grep -hm 1 '^totals:\|^summary:' | cut -d ' ' -f 2 |
        paste -d ' ' "$work/$1.tasks" -
}

# Prints the instructions of an event of each input, read in one way.
count_rows() { # way flags..
    local input events program="$work/rows.$1"
    # shellcheck disable=SC2086
    run_quietly cc -std=gnu11 -O1 -fno-builtin -I"$library" "${@:2}" -o "$program" tools/measure/measure.c tools/measure/hedrugal.c \
        "$library/libhedrugal.a" $copying || return
    for input in "$work"/inputs/*; do
        events=$(timeout 1h valgrind --quiet --tool=callgrind --toggle-collect=reader_read --callgrind-out-file="$program.counts" \
            "$program" "$input" 4096 | cut -d ' ' -f 2) || return
        sed -nE "s/^(totals|summary): ([0-9]+).*/$1 ${input##*/} $events \\2/p" "$program.counts" | head -n 1
    done
}

mkdir "$work/inputs"
python3 tools/measure/corpora.py "$work/inputs" 65536 || exit
{
    count_rows arrays -DDIALECT=HED_DIALECT_EXTENDED -DARRAY && count_rows extended -DDIALECT=HED_DIALECT_EXTENDED &&
        count_rows termwiz -DDIALECT=HED_DIALECT_TERMWIZ
} | awk '{ printf "%-9s %-8s %7.0f\n", $1, $2, $4 / $3 }' > "$work/rows" &
rows=$!
if [ -z "$feed" ]; then
    wait $rows || exit 1
    { sed '/^[^#]/,$d' tools/growth/rows.txt && cat "$work/rows"; } > "$work/written" && cp "$work/written" tools/growth/rows.txt
    exit
fi

# shellcheck disable=SC2086
build growth $copying "$feed" "$(dirname "$(rt doc)")/c/liblibc_c.a" && build tasks || exit 1
{ timeout 1h "$work/growth" parsers && timeout 1h "$work/growth" long; } > "$work/others" &
others=$!
{ count tasks && timeout 1h "$work/tasks" figures; } > "$work/carried" &
tasks=$!
count growth > "$work/passes" && wait $others && wait $tasks && wait $rows || exit 1
awk -f tools/growth/tasks.awk -f tools/growth/rows.awk -f tools/growth/judge.awk "$work/passes" "$work/others" "$work/carried" \
    tools/growth/rows.txt "$work/rows"
