#!/usr/bin/env bash
# Tests what `make dist` makes, as on a machine without the Rattle kit: `make test-packages`. HEDRUGAL_LIBRARY names the library's folder,
# else it is out/lib; KEYSHOW names the program, else it is out/bin/keyshow.
#
# The packages for both processors are made twice, from two folders, and have to be the same bytes. lintian has to find nothing in the
# Debian packages but what debian/*.lintian-overrides explain. Their files, fields and exported calls have to be those that are expected.
#
# Then the listings of docs/packages.md are run, for x86-64 alone, where no program finds the kit: rt isn't on the path, and the folders of
# the kit and of this repository are empty, if the system lets a program have such a view of them. The Debian packages are installed by
# dpkg in a folder in place of the system's root, the tarball is unpacked in a folder whose name has a space, and the wheel is installed in
# a virtual environment. At last dpkg has to remove all that it installed. (tools/clone_test.sh runs those of the tarball and the wheel for
# ARM.) The last line is 'N passed, N failed', the status 1 if a case failed.
. "$(dirname "$0")/common.sh"
start_cases "$@"
want_keyshow

debian=(hedrugal libhedrugal-dev libhedrugal0)
packages=$work/packages root=$work/root
# Debian's names of the processors.
declare -A debian_name=([x86_64]=amd64 [aarch64]=arm64)
kit=$top
! command -v rt > /dev/null || kit=$(dirname "$(rt doc)")

# Says which processor's packages the following is about.
look_at() { # processor
    processor=$1
    tarball=hedrugal-$version-$processor-linux
    unpacked=$work/unpacked/$processor
    libdir=usr/lib/$processor-linux-gnu
    system_library=$unpacked/libhedrugal0/$libdir/libhedrugal.so.$version
}

make_dist() { # folder of the sources, folder of the packages
    make -s -C "$1" dist DIST="$2" LIBRARY="$library" KEYSHOW="$keyshow"
}

# From a copy of the sources as another user may have it: only that user reads it, and it has what Python and cargo left there. It is made
# in another folder, for another user's settings and over the packages of an older version. Other files stay.
make_again() {
    local copy="$work/a copy" again="$work/over another"
    mkdir "$copy" "$again" && tar --exclude=.git --exclude=out --exclude=target -c . | tar -C "$copy" -x || return
    mkdir -p "$copy"/python/hedrugal/{,page/}__pycache__ "$copy"/rust/{target/debug,plain/target}
    touch "$copy"/python/hedrugal/{,page/}__pycache__/old.pyc \
        "$copy"/rust/{target/debug/old,plain/target/old,Cargo.lock} "$again"/another \
        "$again"/{libhedrugal0,libhedrugal-dev,hedrugal}_0.0.1-1_{amd64,arm64}.deb \
        "$again"/hedrugal-0.0.1-{{x86_64,aarch64}-linux.tar.gz,py3-none-manylinux_2_5_{x86_64,aarch64}.whl}
    chmod -R go= "$copy" && (cd / && umask 077 && TZ=Asia/Tokyo make_dist "$copy" "$again") &&
        rm "$again/another" && diff -r "$packages" "$again"
}

check_names() {
    diff <(find "$packages" -type f -printf '%f\n' | sort) <({
        echo SHA256SUMS
        printf "hedrugal-$version-py3-none-%s.musllinux_1_2_%s.whl\n" manylinux_2_5_x86_64 x86_64 manylinux_2_17_aarch64 aarch64
        printf "hedrugal-$version-%s-linux.tar.gz\n" x86_64 aarch64
        printf "%s_$version-1_amd64.deb\n%s_$version-1_arm64.deb\n" {hedrugal,libhedrugal-dev,libhedrugal0}{,}
    } | sort)
}

check_checksums() {
    (cd "$packages" && sha256sum --check --strict SHA256SUMS && [ "$(wc -l < SHA256SUMS)" = 10 ])
}

# Letters among the machine code are no words.
check_by_lintian() {
    lintian --allow-root --display-info --pedantic --suppress-tags spelling-error-in-binary --fail-on error,warning,info,pedantic \
        "$packages"/*.deb
}

# (wheel compares each file with its checksum.)
unpack() {
    local package
    mkdir -p "$unpacked" && tar -C "$unpacked" -xzf "$packages/$tarball.tar.gz" &&
        /usr/bin/python3 -m wheel unpack -d "$work" "$packages"/*_"$processor".whl && mv "$work/hedrugal-$version" "$unpacked/wheel" || return
    for package in "${debian[@]}"; do dpkg-deb -R "$(package_file "$package")" "$unpacked/$package" || return; done
}

package_file() { # package
    echo "$packages/$1_$version-1_${debian_name[$processor]}.deb"
}

expected_files() { # package
    printf "usr/share/doc/$1/%s 644\n" THIRD-PARTY changelog.Debian.gz changelog.gz copyright hedrugal.spdx.json
    echo "usr/share/lintian/overrides/$1 644"
    case $1 in
        hedrugal)
            printf 'usr/bin/%s 755\n' hedrugal-keys keyshow
            printf 'usr/share/man/man1/%s.1.gz 644\n' hedrugal-keys keyshow ;;
        libhedrugal-dev)
            printf 'usr/include/%s 644\n' hedrugal.h hedrugal_terminal.h
            echo 'usr/share/hedrugal/hedrugal_terminal.c 644'
            echo "$libdir/libhedrugal.a 644"
            echo "$libdir/libhedrugal.so -> libhedrugal.so.$version"
            echo "$libdir/pkgconfig/hedrugal.pc 644"
            printf "$libdir/cmake/hedrugal/%s 644\n" hedrugal-config{,-version}.cmake
            printf "usr/share/doc/$1/%s.md.gz 644\n" BINDINGS EXTENDED GRAMMAR SENDERS c
            printf "usr/share/doc/$1/examples/%s 644\n" {ask,edit,events,list,live,many,prompt,server}.c edit.keys name_errors.h
            (cd docs/man && printf 'usr/share/man/man3/%s.gz 644\n' *.3)
            page_calls | sed 's|\(.*\) \(.*\)|usr/share/man/man3/\2.3.gz -> \1.3.gz|' ;;
        libhedrugal0)
            echo "$libdir/libhedrugal.so.$major -> libhedrugal.so.$version"
            echo "$libdir/libhedrugal.so.$version 644" ;;
    esac
}

check_files() { # package
    diff <(expected_files "$1" | sort) <(listed "$unpacked/$1" | grep -v ^DEBIAN/) &&
        ! dpkg-deb -c "$(package_file "$1")" | grep -v ' root/root '
}

# What dpkg-shlibdeps says that files need. For ARM, of which it has no list of the C library's symbols, it is what debian/shlibs.cross says, if
# that will do.
dependency_of() { # files..
    if [ "$processor" = x86_64 ]; then
        mkdir -p "$work/source/debian" && printf 'Source: any\n\nPackage: any\nArchitecture: any\n' > "$work/source/debian/control" &&
            (cd "$work/source" && dpkg-shlibdeps -O "$@") | sed 's/^shlibs:Depends=//'
    else
        [ "$({ echo 2.34; glibc_of "$@"; } | sort -V | tail -n 1)" = 2.34 ] && sed -n 's/^libc 6 //p' debian/shlibs.cross
    fi
}

# The oldest C library that these files can do with.
glibc_of() { # files..
    "$processor-linux-gnu-objdump" -T "$@" | sed -n 's/.*GLIBC_\([0-9]*\.[0-9]*\).*/\1/p' | sort -V | tail -n 1
}

check_fields() { # package section multi-arch dependency
    # shellcheck disable=SC2016
    local fields='${Package} ${source:Package} ${Version} ${Architecture} ${Section} ${Multi-Arch} ${Depends}\n'
    [ -n "$4" ] && diff <(dpkg-deb -W --showformat="$fields" "$(package_file "$1")") \
        <(echo "$1 hedrugal $version-1 ${debian_name[$processor]} $2 $3 $4")
}

# What the library exports is in the package's file of symbols too.
check_library() {
    local control=$unpacked/libhedrugal0/DEBIAN
    check_exports "$system_library" && same <(sed -n 's/^ \(.*\)@Base .*/\1/p' "$control/symbols") <(library_calls | sort) &&
        grep -xF "libhedrugal $major libhedrugal0 (>= $version)" "$control/shlibs" &&
        grep -xF 'activate-noawait ldconfig' "$control/triggers"
}

# No instruction of AVX, BMI and other extensions that a processor of the level x86-64-v2 may lack, nor of SVE and LSE, which a processor of
# ARMv8.0 lacks.
check_processor() { # file
    local later='%[yz]mm|%k[0-7]|\s(v[a-z0-9]+|lzcnt|andn|bextr|bls[ir]|blsmsk|bzhi|mulx|pdep|pext|rorx|sarx|shlx|shrx|movbe)\s'
    [ "$processor" = x86_64 ] || later='\sz[0-9]+\.|\s(cas|swp|ld(add|clr|eor|set|smax|smin|umax|umin|apr))[a-z]*\s'
    "$processor-linux-gnu-objdump" -d --no-show-raw-insn "$1" > "$work/code" && [ -s "$work/code" ] && ! grep -E "$later" "$work/code"
}

# The wheel's library has the calls, and is for any C library: it names none, and no symbol's version. So is the part that is compiled.
check_wheel() {
    local folder=$unpacked/wheel/hedrugal
    same <(exports_of "$folder/libhedrugal.so") <(library_calls | sort) &&
        same <(exports_of "$folder/libhedrugal-python.so") <(echo hedrugal_functions) &&
        ! readelf -dVW "$folder"/*.so | grep -E 'NEEDED|GLIBC'
}

# The tarball and the wheel have the files of the Python module, as they lie here, and the two libraries where it looks for them.
check_python() {
    local folder
    for folder in "$unpacked/$tarball/python" "$unpacked/wheel"; do
        diff -r --exclude=__pycache__ --exclude='*.so' python/hedrugal "$folder/hedrugal" &&
            [ -f "$folder/hedrugal/libhedrugal.so" ] &&
            cmp "python/prebuilt/$processor-linux/libhedrugal-python.so" "$folder/hedrugal/libhedrugal-python.so" || return
    done
}

# Everyone reads the tarball's files, and runs the programs and the shared library. All belong to root.
check_modes() {
    tar --numeric-owner -tvzf "$packages/$tarball.tar.gz" > "$work/listed" && [ -s "$work/listed" ] || return
    diff <(awk '{ print $1, $2 }' "$work/listed" | sort -u) <(printf '%s 0/0\n' -rw-r--r-- -rwxr-xr-x drwxr-xr-x lrwxrwxrwx) &&
        diff <(awk '$1 == "-rwxr-xr-x" { print $NF }' "$work/listed" | sort) \
            <(printf "$tarball/%s\n" bin/hedrugal-keys bin/keyshow "lib/libhedrugal.so.$version")
}

# The notices and the list of parts in the tarball, the wheel and the Debian packages.
check_notices() {
    local folder package
    for folder in "$unpacked/$tarball" "$unpacked/wheel/hedrugal-$version.dist-info"; do
        cmp LICENSE "$folder/LICENSE" && check_third_party_in "$folder" || return
    done
    for package in "${debian[@]}"; do
        folder=$unpacked/$package/usr/share/doc/$package
        diff LICENSE <(sed -n '/^ MIT License/,$s/^ \.\{0,1\}//p' "$folder/copyright") && check_third_party_in "$folder" || return
    done
}

check_third_party_in() { # folder
    cmp THIRD-PARTY "$1/THIRD-PARTY" && cmp "$unpacked/$tarball/hedrugal.spdx.json" "$1/hedrugal.spdx.json"
}

# Prints the kit's crates that what is packaged stands on. (In crates.txt a crate is below those that it stands on.)
kit_crates() {
    tac crates.txt | awk -F '[: ]+' '
        BEGIN { wanted["hedrugal"]; wanted["keyshow"] }
        $1 in wanted { delete wanted[$1]; for (i = 2; i <= NF; i++) wanted[$i] }
        END { delete wanted["staticlib"]; for (crate in wanted) print crate }'
}

# Each of them is named with its holders, as far as the kit's text of its licence names any.
check_third_party() {
    local crate holders
    kit_crates > "$work/crates" && [ -s "$work/crates" ] || return
    while read -r crate; do
        grep -w "$crate" THIRD-PARTY || { echo "THIRD-PARTY lacks $crate"; return 1; }
        holders=$(cat "$kit/rattle/$crate"/LICENSE{,-MIT} 2> /dev/null | grep '^Copyright') || continue
        grep -F "$holders" THIRD-PARTY || { echo "THIRD-PARTY lacks: $holders"; return 1; }
    done < "$work/crates"
}

# The list of parts has this library, and the kit and those crates, but for the kit's own, as linked with it.
check_parts() {
    local program='
import json, sys
document = json.load(sys.stdin)
names = {it["SPDXID"]: it["name"] for it in document["packages"]}
print(document["spdxVersion"])
for it in document["relationships"]:
    print(it["relationshipType"], names[it["relatedSpdxElement"]])'
    {
        printf '%s\n' SPDX-2.3 'DESCRIBES hedrugal' 'STATIC_LINK rattle-kit'
        kit_crates | grep -vxE 'core|std|std_alloc' | sed 's/^/STATIC_LINK /'
    } | sort | diff - <(/usr/bin/python3 -c "$program" < "$unpacked/$tarball/hedrugal.spdx.json" | sort)
}

# A folder in place of the system's root, for which dpkg knows the C library alone.
make_root() {
    mkdir -p "$root/var/lib/dpkg" "$work/bin" && dpkg-query -s libc6:amd64 > "$root/var/lib/dpkg/status" || return
    mkdir "$root/var/lib/dpkg"/{info,updates,triggers} && touch "$root/var/lib/dpkg/info/libc6:amd64.list"
    cat > "$work/bin/dpkg" << END
#!/bin/sh
[ "\$1" != --print-architecture ] || exec '$(command -v dpkg)' "\$1"
exec '$(command -v dpkg)' --root='$root' --log=/dev/null --force-not-root,bad-path "\$@" > /dev/null
END
    chmod +x "$work/bin/dpkg"
}

# Prints the listings of a section of docs/packages.md as a script. Each prints to a file NAME.printed of $work/listings, and what the page says
# that it prints is in NAME.wanted.
section() { # heading
    awk -v heading="$1" -v at="$work/listings/${1#'## '}, listing " '
        /^## / { inside = $0 == heading }
        !inside { next }
        /^```/ { kind = kind != "" ? "" : $0 == "```sh" ? "sh" : "wanted" }
        $0 == "```sh" { file = at (++count); printf "" > (file ".wanted"); printf "exec > \"%s.printed\"\n", file }
        /^```/ { next }
        kind == "sh" { gsub("/usr/share/", "$ROOT&"); print }
        kind == "wanted" { print > (file ".wanted") }
        END { exit !count }' docs/packages.md
}

# Runs steps in one shell, in a folder with the packages. Each is a command or, as "## HEADING", a section of docs/packages.md.
run_steps() { # folder steps..
    local step
    mkdir -p "$1" "$work/listings" && cp "$packages"/* "$1/" || return
    for step in "${@:2}"; do
        case $step in
            '## '*) section "$step" || return ;;
            *) echo "$step" ;;
        esac
    done > "$work/script"
    (cd "$1" && without_kit bash -eu "$work/script" < /dev/null)
}

# Counts such a run as a case, and what each of its listings prints.
check_steps() { # name folder steps..
    local wanted
    rm -rf "$work/listings"
    check "$1" run_steps "${@:2}"
    for wanted in "$work/listings"/*.wanted; do
        check "$1: $(basename "$wanted" .wanted)" diff "$wanted" "${wanted%.wanted}.printed"
    done
}

# Runs a command without the kit. Cargo asks no registry, and pip none of its own.
without_kit() { # words..
    env -u HEDRUGAL_LIBRARY -u CARGO_TARGET_DIR PATH="$(path_without_rt)" CARGO_NET_OFFLINE=true \
        PIP_DISABLE_PIP_VERSION_CHECK=1 PIP_ROOT_USER_ACTION=ignore "${view[@]}" "$@"
}

# The same where programs look below a folder in place of the system's root, which the shell's variable ROOT names.
on_system() { # words..
    PATH=$work/bin:$root/usr/bin:$PATH PKG_CONFIG_PATH=$root/$libdir/pkgconfig LD_LIBRARY_PATH=$root/$libdir ROOT=$root "$@"
}

# Programs find neither rt nor, if folders can be hidden, anything of the kit and this repository.
check_view() {
    ! without_kit bash -c 'command -v rt' && { [ ${#view[@]} = 0 ] || [ -z "$(without_kit find "$kit" "$top" -mindepth 1)" ]; }
}

progress 'makes the packages twice'
check 'packages' make_dist . "$packages"
check 'the same bytes again' make_again
check 'names of the packages' check_names
check 'checksums' check_checksums
check 'Debian packages by lintian' check_by_lintian
for name in aarch64 x86_64; do
    look_at $name
    check "$name: packages unpacked" unpack
    for package in "${debian[@]}"; do check "$name: files of $package" check_files "$package"; done
    check "$name: fields of hedrugal" check_fields hedrugal utils no "$(dependency_of "$unpacked"/hedrugal/usr/bin/*)"
    check "$name: fields of libhedrugal-dev" check_fields libhedrugal-dev libdevel same "libhedrugal0 (= $version-1)"
    check "$name: fields of libhedrugal0" check_fields libhedrugal0 libs same "$(dependency_of "$system_library")"
    check "$name: name and exports of the library" check_library
    for file in "$system_library" "$unpacked"/hedrugal/usr/bin/*; do check "$name: processor for ${file##*/}" check_processor "$file"; done
    check "$name: wheel" check_wheel
    check "$name: Python module" check_python
    check "$name: modes of the tarball's files" check_modes
    check "$name: notices" check_notices
done
check 'notices of the kit' check_third_party
check 'list of parts' check_parts
find_view "$kit" "$top"
check 'view without the kit' check_view
check 'root for dpkg' make_root
progress 'runs the listings of docs/packages.md'
on_system check_steps 'from the Debian packages' "$work/system" '## Debian packages' \
    "tar xzf hedrugal-*-$(uname -m)-linux.tar.gz; cd hedrugal-*-linux" '## Rust'
on_system check_steps 'after the Debian packages' "$work/removal" '## Removal'
# But dpkg's own lists.
check 'nothing is left' diff <(ls "$root") <(echo var)
check_steps 'from the tarball' "$work/a folder" '## Tarball' 'sed -n "s/^    \\b//p" README | bash -eu > /dev/null' '## Rust'
check_steps 'from the wheel' "$work/wheel" '## Python wheel'
print_counts
