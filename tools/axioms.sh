#!/usr/bin/env bash
# Compares the C functions on whose contracts the proof of a crate rests with those that docs/VERIFICATION.md lists as trusted.
#
#     tools/axioms.sh CRATE LOG..
#
# Each LOG is what rt or rattle printed with --list-axioms when it proved the crate. The status is 1 if its list differs, or if a list is empty.
set -eu
export LC_ALL=C
. "$(dirname "$0")/common.sh"
[ $# -gt 1 ] || refuse 'wants a crate and its logs'
page=$(dirname "$0")/../docs/VERIFICATION.md

# shellcheck disable=SC2016
listed=$(sed -n "s/^| \`$1\` |\(.*\)|\$/\1/p" "$page" | grep -o '`[^`]*`' | tr -d '`' | sort)
[ -n "$listed" ] || { echo "axioms: docs/VERIFICATION.md lists no C function for '$1'" >&2; exit 1; }
for log in "${@:2}"; do
    reached=$(sed -n 's/^  \([a-z0-9_:]*\) *reached$/\1/p' "$log" | sort -u)
    if ! differences=$(diff <(echo "$listed") <(echo "$reached")); then
        echo "axioms: docs/VERIFICATION.md lists others for $1 ('>' is what the proof in $log rests on):" >&2
        echo "$differences" >&2
        exit 1
    fi
done
echo "axioms: $1 rests on the $(wc -l <<< "$listed") C functions that docs/VERIFICATION.md lists"
