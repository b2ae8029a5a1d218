#!/usr/bin/env bash
# Says in one line what tools/needs.txt lists for these parts and isn't there, and what to install. The status is then 1.
#
#     tools/needs.sh [--install] PART..
#
# The part all stands for each of them but performance, picture, terminals and arm64. With --install it first installs what Debian has of it, where
# this user can, and removes nothing for it.
set -eu
. "$(dirname "$0")/common.sh"
installs=no
[ "${1-}" != --install ] || { installs=yes; shift; }
[ $# -gt 0 ] || refuse 'wants the names of parts'

# Sets $lacking and $packages to what isn't there.
look() { # parts..
    local thing package parts part
    lacking='' packages=''
    while read -r thing package parts; do
        [[ $parts =~ ^(performance|picture|terminals|arm64)$ ]] || parts+=' all'
        for part; do
            [[ $thing != '#' && " $parts " == *" $part "* ]] && ! is_there "$thing" || continue
            lacking+=" ${thing##*/}"
            [ "$package" = - ] || packages+=" $package"
            break
        done
    done < "$(dirname "$0")/needs.txt"
}

is_there() { # program, program>=version, or a pattern of files
    { [[ $1 == /* ]] && compgen -G "$1" || command -v "${1%>=*}"; } > /dev/null || return
    [[ $1 != *'>='* ]] || { echo "${1#*>=}"; "${1%>=*}" --version | grep -Eo '[0-9]+(\.[0-9]+)+' | head -n 1; } | sort -VC
}

install() { # packages..
    timeout 1h apt-get -q -y --no-remove --no-install-recommends install "$@" > /dev/null 2>&1
}

look "$@"
if [ $installs = yes ] && [ -n "$packages" ] && [ "$(id -u)" = 0 ] && command -v apt-get > /dev/null; then
    echo "needs: installs$packages" >&2
    export DEBIAN_FRONTEND=noninteractive
    timeout 1h apt-get -q update > /dev/null 2>&1 || true
    # One that there isn't keeps apt-get from all of them.
    # shellcheck disable=SC2086
    install $packages || for package in $packages; do install "$package" || true; done
    look "$@"
fi
[ -n "$lacking" ] || exit 0
[ $installs = yes ] && hint="can't install" || hint=install
hint=${packages:+", $hint the packages$packages"}
[[ "$lacking " != *' rt '* ]] || hint+=', put rt of the Rattle kit on the path'
echo "needs: not there:$lacking$hint" >&2
exit 1
