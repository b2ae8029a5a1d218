#!/usr/bin/env bash
# Prints the folder of a whole Debian 12 with a compiler, Python and cargo, for tests as on a machine that has nothing else:
#
#     tools/root.sh [amd64 | arm64]
#
# mmdebstrap makes it once, in two minutes, in the folder hedrugal of XDG_CACHE_HOME, else of ~/.cache. It is made anew once this script is
# another, or Debian has other packages: the checksum of Debian's list, which has theirs, is part of the folder's name. For arm64 the packages
# are only unpacked, since their programs would need qemu. cargo, rustc and rustdoc are there those of the Debian for amd64, which has to lie
# in /mnt. They compile for 64-bit ARM. Under qemu these take ten times as long, and at times cargo hangs as it starts a program: qemu 7.2
# forks a process of many threads while one of them has a lock.
set -eu
. "$(dirname "$0")/common.sh"
case ${1-amd64} in
    amd64 | arm64) processor=${1-amd64} ;;
    *) refuse_word "$1" ;;
esac
need mmdebstrap mmdebstrap

debian=http://deb.debian.org
packages=gcc,libc6-dev,make,git,cargo-web,python3,python3-venv,python3-pytest,pkg-config
cache=${XDG_CACHE_HOME:-$HOME/.cache}/hedrugal
mkdir -p "$cache"
exec 3> "$cache/lock" && flock 3

# Prints the checksums of Debian's lists of packages for the processor.
list_of_debian() {
    local file
    file=$(mktemp)
    /usr/lib/apt/apt-helper -o APT::Sandbox::User=root download-file "$debian/debian/dists/bookworm/InRelease" "$file" > /dev/null 2>&1 &&
        sed -n "/^SHA256:/,\$s|main/binary-$processor/Packages\$||p" "$file"
    rm "$file"
}

make_root() { # folder
    local sources=("deb $debian/debian bookworm main" "deb $debian/debian-security bookworm-security main") words=(--variant=minbase)
    [ "$processor" = amd64 ] || words=(--variant=extract --mode=root --include='?essential')
    progress "makes a Debian 12 for $processor, once, in two minutes"
    run_quietly timeout 1h mmdebstrap --architectures="$processor" "${words[@]}" --include="$packages" bookworm "$1" "${sources[@]}" ||
        refuse 'mmdebstrap failed'
    [ "$processor" = amd64 ] || set_up "$1"
}

# Makes what the packages' own programs would make.
set_up() { # folder
    local names target='--sysroot=/usr --target=aarch64-unknown-linux-gnu'
    mkdir -p "$1"/{mnt,usr/local}
    for names in 'gcc cc' 'mawk awk'; do ln -s "${names% *}" "$1/usr/bin/${names#* }"; done
    for names in {lib64,{,usr/}lib/x86_64-linux-gnu}; do ln -s "/mnt/$names" "$1/$names"; done
    # Else each start of Python would compile its modules.
    /usr/bin/python3 -m compileall -q -j 0 -s "$1" "$1"/usr/lib/python3*
    for names in cargo "rustc $target" "rustdoc $target"; do
        printf '#!/bin/sh\nexec /mnt/usr/bin/%s "$@"\n' "$names" > "$1/usr/bin/${names%% *}"
    done
    for names in passwd group; do cp "$1/usr/share/base-passwd/$names.master" "$1/etc/$names"; done
}

lists=$(list_of_debian)
root=$cache/$processor-$(sha256sum <<< "$(cat "$0") $lists" | cut -c 1-12)
if [ -z "$lists" ]; then
    root=$(find "$cache" -maxdepth 1 -name "$processor-*" -printf '%T+ %p\n' | sort | sed -n '$s/^[^ ]* //p')
    [ -n "$root" ] || refuse "$debian doesn't answer"
    progress "$debian doesn't answer: takes the Debian of before"
fi
if [ ! -d "$root" ]; then
    # Another clone may be using what is newer.
    find "$cache" -maxdepth 1 -name "$processor-*" -mtime +0 -exec rm -rf '{}' +
    rm -rf "$cache/$processor.new"
    make_root "$cache/$processor.new"
    mv "$cache/$processor.new" "$root"
fi
echo "$root"
