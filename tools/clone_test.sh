#!/usr/bin/env bash
# Runs the commands of README.md from a clone, as on a machine with a compiler and nothing of ours: `make test-clone`.
#
#     tools/clone_test.sh [amd64 | arm64 [tests]]
#
# The clone has the files that git knows or would add, as they lie here. The machine is the Debian that tools/root.sh makes, without the
# kit, an installed library or a network. That for 64-bit ARM is run by qemu, which a namespace of its own calls, so that nothing is left
# of it; only cargo and rustc need no qemu. There each command of README.md is run, and the tests that need no kit, for ARM also the
# listings of docs/packages.md on the tarball and the wheel. make has to ask rt only where the crates were changed. Then faults are made: a
# damaged or a missing prebuilt library, one of another version or processor, and no compiler. Each gets one line that says what is wrong and what to do. The word tests runs the tests in Rust and Python
# alone, but for the longest: `make test-tests-arm64`. The last line is 'N passed, N failed', the status 1 if a case failed.
. "$(dirname "$0")/common.sh"
set -u
export LC_ALL=C.UTF-8 PATH=$PATH:/usr/sbin # has chroot
top=$(realpath -- "$(dirname "$0")/..")
cd "$top" || exit
processor=${1:-amd64} cases=${2:-all}
[[ "$cases" =~ ^(all|tests)$ ]] || refuse_word "$cases"
root=$(tools/root.sh "$processor") || exit
work=$(mktemp -d)
trap 'rm -rf "$work"' EXIT
user=(--map-root-user) machine=$(uname -m) compiler=''
case $processor in
    arm64) machine=aarch64 compiler=$(tools/root.sh amd64) || exit ;;
    *) [ "$(id -u)" != 0 ] || user=() ;;
esac
prebuilt=prebuilt/$machine-linux

# Runs a script of bash in the clone on that machine. It can write to the home folder, to that of temporary files and to /usr/local.
on_machine() { # script
    # shellcheck disable=SC2016
    timeout --signal=KILL 2h unshare "${user[@]}" --mount --net --pid --kill-child --fork bash -euc '
        if [ "$4" = aarch64 ]; then
            mount -t binfmt_misc none /proc/sys/fs/binfmt_misc
            cat /usr/lib/binfmt.d/qemu-aarch64.conf > /proc/sys/fs/binfmt_misc/register
        fi
        mount --rbind "$1" "$1" && mount -o remount,bind,ro "$1"
        for folder in root tmp usr/local; do mkdir -p "$2/$folder" && mount --bind "$2/$folder" "$1/$folder"; done
        [ -z "$5" ] || mount --bind "$5" "$1/mnt"
        mount -t proc proc "$1/proc" && mount --rbind /dev "$1/dev"
        exec chroot "$1" env -i HOME=/root PATH=/usr/local/bin:/usr/bin:/bin LC_ALL=C.UTF-8 bash -euo pipefail -c "cd /root/hedrugal; $3"
    ' bash "$root" "$work" "$1" "$machine" "$compiler" < /dev/null
}

make_clone() {
    local clone=$work/root/hedrugal
    mkdir -p "$clone" && git ls-files -z --cached --others --exclude-standard | tar --null --ignore-failed-read -T - -c | tar -C "$clone" -x &&
        git -C "$clone" init -q && git -C "$clone" add -A && git -C "$clone" -c user.name=test -c user.email=test commit -qm 'As it lies here'
}

# Prints the command of README.md that begins so.
command_of() { # words
    grep -o "\`$1[^\`]*\`" README.md | tr -d '`' | sed 1q | grep . || echo "echo 'README.md has no command $1'; false"
}

# Clones the repository, runs a script in the clone, and then commands, each of which has to fail with a line that says this.
refused() { # text script commands..
    local command
    for command in "${@:3}"; do
        if on_machine "rm -rf /root/clone; git clone -q . /root/clone; cd /root/clone; $2; $command" > "$work/said" 2>&1; then return 1; fi
        cat "$work/said"
        [ "$(grep -E '^ *(make|hedrugal): ' "$work/said" | grep -cF "$1")" = 1 ] || return
    done
}

taken="the library is the prebuilt one"
# The commands at the head of README.md, and what it says that the first prints.
mapfile -t first < <(awk '/^```/ { fences++; next } fences == 1' README.md)
printed=$(awk '/^```/ { fences++; next } fences == 3' README.md)
# What the example in C prints for its bytes.
# shellcheck disable=SC2034
events="<(printf '\\033[1;5Aq') | diff - <(printf '%s\\n' 'UpArrow ctrl' 'Char U+0071')"

# A program in Rust in whose folder the clone lies.
program="cargo init --quiet --vcs none ~/program; cd ~/program; ln -s ~/hedrugal .
    echo '$(command_of 'hedrugal = ')' >> Cargo.toml
    echo 'fn main() { println!(\"{:?}\", hedrugal::input::InputParser::new().parse_as_vec(b\"q\", true)); }' > src/main.rs
    cargo run 2> ~/said | grep -F '[Key(KeyEvent { key: Char('\\''q'\\''), modifiers: ' || { cat ~/said; false; }
    grep '$taken' ~/said"

# The longest tests in Python, for pytest, and the files of those that start programs.
longest_in_python='completions or parse-rows or encodings or nothing_else or dicts or test_backend or test_documents or test_library'
longest_in_python+=' or test_threads'

# Makes the packages for both processors, of another clone.
make_packages() {
    git clone -q "$work/root/hedrugal" "$work/copy" && PATH=$(path_without_rt) make -s -C "$work/copy" dist DIST="$work/root/packages"
}

# Prints the listings of a section of docs/packages.md, or what the page says that they print.
listings() { # sh | printed heading
    awk -v wanted="$1" -v heading="## $2" '
        /^## / { inside = $0 == heading }
        inside && /^```/ { kind = kind != "" ? "" : $0 == "```sh" ? "sh" : "printed"; next }
        kind == wanted' docs/packages.md
}

# Runs the listings of these sections in a folder with the packages.
run_listings() { # headings..
    local heading kind
    for kind in sh printed; do
        for heading; do listings "$kind" "$heading"; done > "$work/root/listings.$kind"
        [ -s "$work/root/listings.$kind" ] || return
    done
    on_machine 'rm -rf ~/listed; cp -r ~/packages ~/listed; cd ~/listed; bash -eu ~/listings.sh | diff ~/listings.printed -'
}

# Waits until a file has a text.
# shellcheck disable=SC2016
waits='waits() { timeout 1h bash -c "until grep -qs $1 $2; do sleep 0.2; done"; }'

# Types keys once a program has begun, which is when it says how it ends.
types() { # command
    printf %s "$waits; rm -f ~/shown; { waits ends ~/shown; printf '\\033[A'; printf q; } | timeout 1h script -qefc '$1' ~/shown && grep UpArrow ~/shown"
}

page="$waits; cd /root/own; $(command_of './v/bin/python -m') > /root/address & trap 'kill \$!' EXIT
    waits http /root/address
    python3 -c 'import fcntl, socket, struct; fcntl.ioctl(socket.socket(), 0x8914, struct.pack(\"16sH22x\", b\"lo\", 1))'
    python3 -c 'import re, urllib.request as web; print(web.urlopen(re.search(\"http\\S*\", open(\"/root/address\").read())[0]).read())' |
        grep -i '<title>'"

parsed="import hedrugal; print(*hedrugal.Parser().feed(b\"q\"))"
check 'clone' make_clone
check 'machine without the kit' on_machine '! command -v rt; [ -e README.md ]'
if [ "$cases" = tests ]; then
    check 'tests in Rust' on_machine "cd rust/plain && CARGO_PROFILE_DEV_DEBUG=0 cargo test --tests -- ${longest_in_rust[*]} 2> ~/said || { cat ~/said; false; }"
    check 'tests in Python' on_machine "python3 -m pytest python -k 'not ($longest_in_python)'"
    echo "left out: in Rust those of the documentation and ${longest_in_rust[*]#--skip}; in Python $longest_in_python"
    print_counts
    exit
fi
check 'keyshow' on_machine "{ ${first[0]}; } > ~/shown 2> ~/said || { cat ~/said; false; }
    tail -n 2 ~/shown | diff - <(echo '$printed') && grep -xF 'make: $taken of $prebuilt, made of these sources' ~/said"
check 'hedrugal-keys' on_machine "${first[1]} < <(printf '\\033[1;5Az') | grep -xF 'ctrl+up   ESC [ 1 ; 5 A'"
check 'example in C' on_machine "$(types "${first[2]}")"
check 'a program in C' on_machine "git clone -q . '/root/a clone'; cd '/root/a clone'; cp c/events.c program.c; $(command_of 'cc program.c'); ./a.out < $events"
check 'a program in Rust' on_machine "$program"
check 'example in Rust' on_machine "$(types "$(command_of 'cd rust/plain && cargo run')")"
check 'Python module' on_machine "git clone -q . /root/own; cd /root/own; $(command_of 'python3 -m venv') -v > ~/said 2>&1 || { cat ~/said; false; }
    grep -F 'hedrugal: $taken' ~/said; cd /; /root/own/v/bin/python -c '$parsed'; /root/own/v/bin/hedrugal --help | grep -F 'ctrl+d twice'"
check 'editable Python module' on_machine "cd; python3 -m venv e; e/bin/pip install -q -e hedrugal/python; e/bin/python -c '$parsed'"
check 'page' on_machine "$page"
check 'make test' on_machine "set +e; $(command_of 'tools/needs.sh')"
check 'make install' on_machine "make install 2> ~/said; cd && cp ~/hedrugal/c/events.c program.c
    cc program.c \$(pkg-config --cflags --libs hedrugal) -o events && LD_LIBRARY_PATH=/usr/local/lib ./events < $events
    printf '\\033OA' | keyshow | grep -xF 'key ApplicationUpArrow NONE'"
check 'installed library in Rust' on_machine "cd rust/plain && CARGO_TARGET_DIR=~/installed cargo build -p hedrugal 2> ~/said && ! grep '$taken' ~/said"
check 'installed library in Python' on_machine "cd /root/own && LD_LIBRARY_PATH=/usr/local/lib v/bin/pip wheel -v -w ~ ./python 2>&1 | grep 'the installed one: /usr/local'"
check 'make uninstall' on_machine "make uninstall && find /usr/local -type f -exec false '{}' +"
if [ "$processor" = arm64 ]; then
    check 'packages' make_packages
    check 'listings of the tarball' run_listings Tarball Rust
    check 'listings of the wheel' run_listings 'Python wheel'
fi
# With an rt that only says what it was asked.
rt="mkdir ~/bin; printf '#!/bin/sh\\necho asked \$*' > ~/bin/rt; chmod +x ~/bin/rt; PATH=~/bin:\$PATH; git clone -q . ~/kit; cd ~/kit"
check 'rt on the path' on_machine "$rt; make flags 2>&1 | tee ~/said; ! grep asked ~/said; make prove; grep -xF 'asked all check' out/build/prove.log"
check 'changed crates' on_machine "cd ~/kit; echo >> crates/hedrugal/src/lib.rt; make flags 2>&1 | grep '$taken of $prebuilt, made of other sources'"
archive=$prebuilt/libhedrugal.a
pip='/root/own/v/bin/pip install ./python'
check 'damaged library' refused "$archive isn't what" "echo damage >> $archive" 'make keys' 'cd rust/plain; cargo build -p hedrugal'
check 'damaged library in Python' refused "python/$prebuilt/libhedrugal.so isn't what" "echo damage >> python/$prebuilt/libhedrugal.so" "$pip"
check 'no library' refused "there is no $prebuilt" "rm -r $prebuilt" 'make flags'
check 'no library in Python' refused "python/$prebuilt/libhedrugal.so: HEDRUGAL_LIBRARY" "rm -r python/$prebuilt" "$pip"
# Without a library cargo builds the package, and no program.
check 'no library in Rust' on_machine "rm -rf ~/clone; git clone -q . ~/clone; cd ~/clone/rust/plain; rm -r ../../$prebuilt
    if cargo build --example live 2> ~/said; then exit 1; fi; grep -F 'there is no $prebuilt' ~/said"
check 'no compiler' refused "there is no compiler 'none'" 'export CC=none' 'make -e'
check 'another processor' refused 'Linux on x86-64 and 64-bit ARM alone' "printf '#!/bin/sh\necho riscv64-linux-gnu' > ~/cc; chmod +x ~/cc; export CC=~/cc" 'make -e'
check 'another version' refused 'of version 9.8.7' "sed -i '/^__version__/s/\".*\"/\"9.8.7\"/' python/hedrugal/__init__.py
    sed -i '/^version/s/\".*\"/\"9.8.7\"/' rust/Cargo.toml rust/plain/Cargo.lock" 'cd rust/plain; cargo build -p hedrugal' "$pip"
print_counts
