#!/usr/bin/env bash
# Refuses each request for memory in turn, and checks what is seen: `make test-refusals`.
#
#     tools/refusals.sh [REFUSALS [KEYSHOW]]
#
# REFUSALS and KEYSHOW are the programs of the crates test_calls and keyshow, else those that rt and make have built. It runs each
# case of the first and a stream through the second again and again, and refuses one more request for memory each time
# (tests/requests.c, preloaded), until a run meets no refusal.
#
# A case passes if the runs print the lines that tools/refusals/seen.txt has for it and no others, each of them at least once;
# the first of its lines in the run that meets no refusal, and only there. keyshow passes if each run that meets a refusal
# reports it, ends with status 1 and has printed a prefix of the whole output. A run of a program has ten minutes. The last line is
# 'N passed, N failed', the status 1 if a case failed.
set -u
export LC_ALL=C
. "$(dirname "$0")/common.sh"
[ $# -le 2 ] || refuse 'wants two programs at most'
here=$(cd "$(dirname "$0")/.." && pwd)
refusals=$(realpath -m -- "${1:-$here/crates/test_calls/out/test_calls}")
keyshow=$(realpath -m -- "${2:-${KEYSHOW:-$here/out/bin/keyshow}}")
need cc gcc nm binutils
cd "$here" || exit
work=$(mktemp -d)
trap 'rm -rf "$work"' EXIT
cc -O1 -shared -fPIC -o "$work/refuse.so" tests/requests.c || exit 1

# All requests have to be calls of malloc or realloc, which requests.c replaces.
for program in "$refusals" "$keyshow"; do
    [ -x "$program" ] || refuse "there is no $program"
    if nm -D "$program" | grep -qE ' U (calloc|aligned_alloc|memalign|posix_memalign|reallocarray|mmap)'; then
        echo "refusals: $program asks for memory by a call that tests/requests.c doesn't replace" >&2
        exit 1
    fi
done

# The lines that tools/refusals/seen.txt stands for.
awk -F ' *[|] *' '
    function line(before, refusal,    text, count, events, i) {
        text = $1
        count = split($2, events, " / ")
        for (i = 1; i <= count; i++) text = text " / " (i <= before ? "first " : "later ") events[i]
        return text refusal " / " $3
    }
    /^#/ { next }
    NF == 1 { print; next }
    /64 times Tab/ { tabs = sprintf("%64s", ""); gsub(/ /, "Tab / ", tabs); sub(/64 times Tab \/ /, tabs) }
    {
        print line(1000, "")
        for (i = 4; i <= NF; i++) print line($i + 0, " / refused" substr($i, 1 + length($i + 0)))
    }' tools/refusals/seen.txt > "$work/lines"

# Runs a program with one request refused. Sets `status`, which is 124 if it didn't end in time, and `requests`, one for each that it made.
run_refused() { # number program words..
    status=0
    timeout -k 5 10m env REFUSE="$1" LD_PRELOAD="$work/refuse.so" "${@:2}" \
        < "$work/stream" > "$work/out" 2> "$work/err" 3> "$work/requests" || status=$?
    mapfile -t requests < "$work/requests"
}

# Refuses each request of a program in turn, until a run meets no refusal or `judge` says what is wrong with it, in `wrong`.
refuse_each() { # case judge program words..
    local number
    wrong=''
    for ((number = 1; ; number++)); do
        run_refused "$number" "${@:3}"
        "$2" "$number"
        if [ -n "$wrong" ] || [ ${#requests[@]} -lt "$number" ]; then break; fi
    done
    if [ -z "$wrong" ]; then
        echo "$1: passed, no refusal is met from request $number on"
        passed=$((passed + 1))
    else
        echo "$1: failed at request $number: $wrong"
        cat "$work/out" "$work/err"
        echo
        failed=$((failed + 1))
    fi
}

# Judges a run of test_calls. Status 3 is a refusal before the case's call, which comes before any other answer.
judge_case() { # number
    local line granted
    line=$(cat "$work/out")
    granted=$(head -n 1 "$work/wanted")
    if [ ${#requests[@]} -lt "$1" ]; then
        [ "$status $line" = "0 $granted" ] || { wrong='another answer without a refusal'; return; }
        echo "$line" >> "$work/seen"
        diff <(sort -u "$work/seen") <(sort "$work/wanted") > "$work/out" || wrong='not all lines of tools/refusals/seen.txt were seen'
    elif [ "$status" = 0 ] && [ "$line" != "$granted" ] && grep -qxF -- "$line" "$work/wanted"; then
        echo "$line" >> "$work/seen"
    elif [ "$status" != 3 ] || [ -s "$work/seen" ]; then
        wrong="status $status, and not a line of tools/refusals/seen.txt for a refusal"
    fi
}

# Judges a run of keyshow.
judge_keyshow() { # number
    if [ ${#requests[@]} -lt "$1" ]; then
        [ "$1" -gt 1 ] || wrong='no request was refused'
        [ "$status" = 0 ] && [ -s "$work/out" ] && cmp -s "$work/out" "$work/whole" || wrong='another output without a refusal, or none'
    else
        [ "$status $(cat "$work/err")" = '1 keyshow: out of memory' ] || wrong="status $status, and another message"
        cmp -s "$work/out" <(head -c "$(stat -c %s "$work/out")" "$work/whole") || wrong='no prefix of the whole output'
    fi
}

: > "$work/stream"
for case in $(cut -d ' ' -f 1 "$work/lines" | uniq); do
    grep "^$case /" "$work/lines" > "$work/wanted"
    : > "$work/seen"
    refuse_each "$case" judge_case "$refusals" refusals "$case"
done

# keyshow reads the stream in pieces of five bytes.
printf 'hello\033[A\033\033[200~ab\033[201~q\033[<0;3;4M\033' > "$work/stream"
run_refused 0 "$keyshow" 5
cp "$work/out" "$work/whole"
refuse_each keyshow judge_keyshow "$keyshow" 5
print_counts
