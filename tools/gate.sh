#!/usr/bin/env bash
# Runs the parts of `make test`, and counts what passed.
#
#     tools/gate.sh gate COMMAND NAME..      runs a command, which runs these parts, and prints the table
#     tools/gate.sh test COMMAND RUN LEFT    runs each of the parts RUN by the command, in which % is its name, prints the table, and says
#                                            which parts, of these LEFT, and cases were left out
#     tools/gate.sh part NAME COMMAND        runs a command of the shell. out/gate/NAME.log is what it printed, and out/gate/NAME.count has
#                                            how many cases passed and failed, when it began and ended, and its processor time, in seconds
#     tools/gate.sh wait CRATE..             waits until the part ci, which is `rt ci`, has proved these crates
#     tools/gate.sh floor NAME..             writes to tests/floor.txt how many cases of these parts have passed, as out/gate has it
#     tools/gate.sh run WORDS..              runs a program
#
# The counts of a part are those of its last line 'N passed, N failed', or of pytest's. Without one they are those of pre-commit's hooks, or it
# is one case. Each must-fail edit that `rt ci` calls a BAD EDIT or NOT TRIED is a failed one. tests/floor.txt says how many cases a part has: one
# that passed with fewer or more fails. Outside the gate it may have left some out.
#
# INT, TERM or HUP ends what the script has started, and what that started.
set -uo pipefail
. "$(dirname "$0")/common.sh"
cd "$(dirname "$0")/.." || exit
gate=out/gate floors=tests/floor.txt longest=4h
# A job without this ignores INT, and so do the tests in it.
set -m

# Prints the processes that a process has started, with all that those started, and itself.
started_by() { # process
    cat /proc/[0-9]*/status 2> /dev/null | awk -v first="$1" '
        $1 == "Pid:" { it = $2 }
        $1 == "PPid:" { parent[it] = $2 }
        END { for (it in parent) { for (above = it; above != first && above in parent;) above = parent[above]; if (above == first) print it } }'
}

# Ends this script by a signal, and before it all that its job has started, if it has one. While they are stopped they start no others.
# shellcheck disable=SC2086
end_by() { # signal
    local all='' before=none tries
    trap '' INT TERM HUP
    while [ "$all" != "$before" ]; do
        before=$all all=$(started_by "${!:-}" | sort | tr '\n' ' ')
        kill -STOP $all
    done
    kill $all
    kill -CONT $all
    for ((tries = 0; tries < 50; tries++)); do kill -0 $all && sleep 0.1 || break; done
    kill -KILL $all
    trap - "$1"
    kill "-$1" $$
} 2> /dev/null

# A signal ends all that is started from here on. This comes before a job, which else would go on if a signal came right after it.
catch() {
    local signal
    # shellcheck disable=SC2064
    for signal in INT TERM HUP; do trap "end_by $signal" "$signal"; done
}

# Waits for the last job, and answers with its status.
finish() {
    local status=0
    wait $! || status=$?
    trap - INT TERM HUP
    return "$status"
}

run() { # words..
    catch
    "$@" &
    finish
}

count() { # status log
    awk -v status="$1" '
        /^=* ?[0-9]+ (passed|failed|skipped|error).* in [0-9.]+s/ || /^[0-9]+ passed, [0-9]+ failed/ {
            passed = failed = 0
            for (i = 2; i <= NF; i++) {
                if ($i ~ /^passed/) passed = $(i - 1)
                if ($i ~ /^(failed|errors?)/) failed += $(i - 1)
            }
            counted = 1
        }
        /\.\.Passed$/ { hooks++ }
        /: (BAD EDIT|NOT TRIED)(:|$)/ { bad++ }
        END {
            if (!counted) passed = hooks ? hooks : !status
            if (status && !failed) failed = 1
            print passed + 0, failed + bad
        }' "$2"
}

# Prints what is wrong with how many cases of a part have passed, if none failed.
misses() { # name passed log
    local floor
    floor=$(sed -nE "s/^$1 +([0-9]+\+?).*/\1/p" "$floors")
    if [ "$2" = 0 ]; then
        echo 'no case was run'
    elif [ -z "$floor" ]; then
        echo "$floors doesn't name this part"
    elif [ "$2" -lt "${floor%+}" ]; then
        [ -z "$is_gate" ] && grep -qE '^left out: | [0-9]+ skipped' "$3" || echo "fewer than the $floor of $floors"
    elif [[ "$floor" != *+ && "$2" -gt "$floor" ]]; then
        echo "more than the $floor of $floors, which \`tools/gate.sh floor $1\` mends"
    fi
}

part() { # name command
    local log=$gate/$1.log is_gate=${GATE-} began ended status=0 passed failed missed='' TIMEFORMAT='%U %S'
    mkdir -p "$gate"
    began=$(date +%s)
    # what make tells the makes below it is not the command's
    unset MAKEFLAGS MFLAGS MAKELEVEL GATE
    catch
    # the part that takes longest is shown as it goes
    if [ "$1" = ci ]; then
        { time bash -c "$2" 2>&1 < /dev/null | tee "$log"; } 2> "$gate/$1.time" &
    else
        { time timeout "$longest" bash -c "$2" > "$log" 2>&1 < /dev/null; } 2> "$gate/$1.time" &
    fi
    finish || status=$?
    ended=$(date +%s)
    read -r passed failed <<< "$(count "$status" "$log")"
    [ "$failed" != 0 ] || missed=$(misses "$1" "$passed" "$log")
    [ -z "$missed" ] || failed=1 missed=", $missed"
    { echo "== $1"; [ "$1" = ci ] || cat "$log"; echo "gate: $1: $passed passed, $failed failed, $((ended - began)) s$missed"; } | flock "$gate" cat
    echo "$passed $failed $began $ended $(awk '{ print $1 + $2 }' "$gate/$1.time")$missed" > "$gate/$1.count"
    rm "$gate/$1.time"
    [ "$failed" = 0 ]
}

# Whether `rt ci` has said this of a crate.
has_said() { # crate pattern
    grep -qE "^rt: $1 $2" $gate/ci.log 2> /dev/null
}

wait_for() { # crates..
    local crate is_over
    for crate; do
        while is_over=$(compgen -G $gate/ci.count); ! has_said "$crate" '(proved$|is kept: )'; do
            [ -z "$is_over" ] && ! has_said "$crate" 'NOT PROVED' || { echo "gate: $crate isn't proved" >&2; exit 1; }
            sleep 1
        done
    done
}

table() { # names..
    local name
    [ $# != 0 ] || { echo 'gate: no part was run' >&2; echo '0 passed, 0 failed'; return 1; }
    mkdir -p $gate && cd $gate || return
    for name; do
        echo "$name $(cat "$name.count" 2> /dev/null)"
    done | awk -v first="$(cat "${@/%/.count}" 2> /dev/null | cut -d ' ' -f 3 | sort -n | head -n 1)" '
        function clock(seconds) { return sprintf("%d:%02d", seconds / 60, seconds % 60) }
        function row(name, from, to, used, result) {
            printf "%-12s %7s %7s %7s %10s%s\n", name, clock(from - first), clock(to - first), clock(to - from), clock(used), result
        }
        BEGIN { printf "\n%-12s %7s %7s %7s %10s  %s\n", "part", "from", "to", "takes", "processor", "result" }
        NF == 1 { $3 = 1; printf "%-12s %46s\n", $1, "NOT RUN, since what it needs failed" }
        NF > 3 { said = $0; sub(/^[^,]*/, "", said); row($1, $4, $5, $6, "  " $2 " passed, " $3 " failed" said) }
        { passed += $2; failed += $3; used += $6 }
        $5 > last { last = $5 }
        END {
            row("all", first, last, used)
            printf "\n%d passed, %d failed\n", passed, failed
            exit failed > 0
        }'
}

# Each part of the file of floors has a row, so that no part goes unseen.
gate() { # command names..
    catch
    bash -c "$1" &
    finish
    mapfile -t left < <(sed -nE 's/^([a-z0-9-]+) .*/\1/p' "$floors" | grep -vxFf <(printf '%s\n' "${@:2}"))
    table "${@:2}" "${left[@]}"
}

# Says in one line which parts were left out, and what those that were run say that they left out.
tell_left() { # parts names..
    local name cases all=$1
    for name in "${@:2}"; do
        while read -r cases; do
            all+="${all:+; }of $name $cases"
        done < <(sed -nE 's/^left out: //p; s/.* ([0-9]+ skipped).*/\1/p' "$gate/$name.log")
    done
    [ -z "$all" ] || echo "make: left out: $all"
}

test_parts() { # command run left
    local name names
    read -ra names <<< "$2"
    for name in "${names[@]}"; do part "$name" "${1//%/$name}"; done
    tell_left "$3" "${names[@]}"
    table "${names[@]}"
}

floor() { # names..
    local name
    for name; do
        [ -f "$gate/$name.count" ] || refuse "the part $name hasn't been run"
        sed -i -E "s/^($name +)[0-9]+/\1$(cut -d ' ' -f 1 "$gate/$name.count")/" "$floors"
    done
}

case ${1-} in
    gate | part | floor | run) "$@" ;;
    test) test_parts "${@:2}" ;;
    wait) wait_for "${@:2}" ;;
    *) refuse_word "${1-}" ;;
esac
