#!/usr/bin/env bash
# Tests the library from C: `make test-c`. HEDRUGAL_LIBRARY names its folder, else it is out/lib. CC and CXX compile, and EMULATOR has the
# words that run a program of another processor.
#
# The example and the tests in c/ are built as C99, the example also as C++, and linked with the archive and with the shared library. One
# test runs the cases of tests/cases, of which each file must be there and have a case. The tests also run under valgrind, which has to
# find no error and no leak, and its helgrind no race in a test of four threads, whose parsers share a table. One test refuses every request
# for memory in turn. The cases of a program that isn't there are left out, and those of valgrind under an emulator too, which can't run it. A
# line says so. The last line is 'N passed, N failed', the status 1 if a case failed or none was run.
. "$(dirname "$0")/common.sh"
start_cases "$@"
cc=${CC:-cc} cxx=${CXX:-c++}
read -ra emulator <<< "${EMULATOR-}"
strict=(-O1 -g -Wall -Wextra -pedantic -Werror)
archive=$library/libhedrugal.a
shared=("-L$library" -lhedrugal "-Wl,-rpath,$library")
counting=-Wl,--wrap=malloc,--wrap=realloc,--wrap=free

# The archive asks for functions of the C library alone, and has the calls of the header and no others.
check_names() {
    nm -u "$archive" | awk 'NF == 2 && $2 !~ /^(malloc|realloc|free|memcpy|memmove|memset)$/ { print "asks for " $2; bad = 1 } END { exit bad }' &&
        same <(nm -g --defined-only "$archive" | awk 'NF == 3 { print $3 }' | sort) <(library_calls | sort)
}

# What the example prints.
check_example() { # program
    printf '\033[1;5Aq\033OP\033[<0;3;4M\033[200~ab\033[201~\033' | run "$1" |
        diff - <(printf '%s\n' 'UpArrow ctrl' 'Char U+0071' 'Function 1' 'mouse at 3, 4, buttons 2' 'paste of 2 bytes: ab' 'Escape')
}

example_by_pkg_config() {
    local flags
    read -ra flags <<< "$(PKG_CONFIG_PATH=$library pkg-config --cflags --libs hedrugal)"
    "$cc" c/events.c "${flags[@]}" -o "$work/events_by_pkg_config"
}

# Builds a program of c/, with the archive unless words say how it is linked.
build() { # name program [words..]
    "$cc" -std=c99 "${strict[@]}" -I"$library" "c/$1.c" "${@:3}" "$archive" -o "$work/$2"
}

run() { # program words..
    timeout 1h "${emulator[@]}" "$@"
}

memcheck() { # words..
    timeout 1h valgrind --quiet --error-exitcode=9 --leak-check=full --errors-for-leak-kinds=all "$@"
}

check 'names in the archive' check_names
check 'example as C99' build events events
check 'example' check_example "$work/events"
if has "$cxx" 'the example as C++'; then
    check 'example as C++' "$cxx" -std=c++11 "${strict[@]}" -I"$library" -xc++ c/events.c -xnone "${shared[@]}" -o "$work/events_cpp"
    check 'example with the shared library' check_example "$work/events_cpp"
fi
has pkg-config 'the example by pkg-config' && check 'example by pkg-config' example_by_pkg_config
for name in cases parser encode presses press_to_press bindings keymap questions; do check "build of test_$name" build test_$name $name; done
for name in cases parser; do
    check "build of test_$name with the shared library" \
        "$cc" -std=c99 "${strict[@]}" -I"$library" c/test_$name.c "${shared[@]}" -o "$work/${name}_shared"
done
check 'build of test_refusals' build test_refusals refusals "$counting"
check 'build of test_sharing' build test_sharing sharing -pthread
check "build of the kit's functions" build test_kit kit c/kit/heap.c c/kit/system.c "$counting"
for name in ask live edit prompt list server many; do check "program $name as C99" build $name $name c/hedrugal_terminal.c; done
for name in parser encode press_to_press bindings keymap questions sharing refusals parser_shared; do check "test_$name" run "$work/$name"; done
check 'test_presses' run "$work/presses" c/hedrugal.h
for name in cases cases_shared; do check "test_$name" run "$work/$name" tests/cases; done
check "the kit's functions" run "$work/kit" one ''
if [ ${#emulator[@]} -gt 0 ]; then
    echo 'left out: the cases under valgrind, which no emulator runs'
    print_counts
    exit
fi
has valgrind 'the cases under valgrind' || { print_counts; exit; }
for name in parser encode press_to_press bindings keymap questions sharing; do check "test_$name under valgrind" memcheck "$work/$name"; done
check 'test_presses under valgrind' memcheck "$work/presses" c/hedrugal.h
check 'test_cases under valgrind' memcheck "$work/cases" tests/cases
check 'test_refusals under valgrind' memcheck "$work/refusals" 1000
check 'test_sharing under helgrind' timeout 1h valgrind --tool=helgrind --quiet --error-exitcode=9 "$work/sharing"
print_counts
