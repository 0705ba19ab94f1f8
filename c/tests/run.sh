#!/bin/bash
# Runs the tests of the library for C, in a temporary folder, which goes away at the end.
# It runs build.sh first, unless WZ_ARCHIVE names an archive that is built already.
# Each test is a line: 'ok NAME', 'FAILED NAME', or 'skipped NAME: no TOOL' where a tool is lacking.
# Status 0: none failed.
set -u

tests=$(cd "$(dirname "${BASH_SOURCE[0]}")" && pwd)
c=$(dirname "$tests")
passed=0 failed=0 skipped=0

archive=${WZ_ARCHIVE:-}
if [ -z "$archive" ]; then
    "$c/build.sh" || exit 1
    archive=$c/out/libwirtozhak_c.a
fi
archive=$(realpath "$archive") || exit 1
page=$(rt doc) || exit 1
heap=$(dirname "$page")/c/liblibc_c.a

folder=$(mktemp -d) || exit 1
trap 'rm -rf "$folder"' EXIT
cd "$folder" || exit 1
export WZ_LIBRARY=$folder/libwirtozhak.so
export PYTHONDONTWRITEBYTECODE=1
export LD_LIBRARY_PATH=$folder${LD_LIBRARY_PATH:+:$LD_LIBRARY_PATH}

# try NAME COMMAND..: the test passes where the command ends with status 0; else its output follows.
try() {
    local name=$1
    shift
    if "$@" >"$folder/output" 2>&1; then
        passed=$((passed + 1))
        echo "ok $name"
    else
        failed=$((failed + 1))
        echo "FAILED $name"
        sed 's/^/    /' "$folder/output"
    fi
}

# measure NAME COMMAND..: as try, and shows the lines with numbers: what was counted, or timed.
measure() {
    local before=$passed
    try "$@"
    if [ "$passed" -gt "$before" ]; then sed -n '/[0-9]/s/^/    /p' "$folder/output"; fi
}

# skip TOOL NAME..
skip() {
    local tool=$1 name
    shift
    for name in "$@"; do
        skipped=$((skipped + 1))
        echo "skipped $name: no $tool"
    done
}

has() { command -v "$1" >/dev/null; }

# limited COMMAND..: one that doesn't end fails.
limited() { timeout 900 "$@"; }

# ------------------------------------------------------------------------------ the library

# The archive exports the functions of the header, and no others of this prefix.
exports_are_the_header() {
    nm -g --defined-only "$archive" | awk '$2 == "T" && $3 ~ /^wz_/ {print $3}' | sort >exported
    grep -o '^int32_t wz_[a-z]*\(_[a-z]*\)*' "$c/wirtozhak.h" | awk '{print $2}' | sort >declared
    diff declared exported && [ "$(wc -l <exported)" = 22 ]
}

link_shared() {
    if [ -z "${WZ_ARCHIVE:-}" ]; then
        cp "$c/out/libwirtozhak.so" .
    else
        cc -shared -o libwirtozhak.so \
            -Wl,--whole-archive "$archive" -Wl,--no-whole-archive "$heap"
    fi
}

# ----------------------------------------------------------------------------------- C, C++

strict="-Wall -Wextra -Werror"

header_alone() { # compiler, and what it is told
    "$@" $strict -pedantic -DWZ_POSIX -fsyntax-only "$c/wirtozhak.h"
}

compile() { # the program's name, and flags
    local name=$1
    shift
    cc "$@" $strict -I "$c" -o "$name" "$tests/$name.c" "$archive" "$heap"
}

checked() { # the program's name, and its arguments; bad memory and undefined behaviour end it
    local name=$1
    shift
    compile "$name" -g -O1 -fsanitize=address,undefined -fno-sanitize-recover=all &&
        limited "./$name" "$@"
}

bench_c() { compile bench -O2 && limited ./bench "$archive"; }

tests_of_c() {
    try wirtozhak.h header_alone cc -std=c99 -D_POSIX_C_SOURCE=200809L -x c
    try demo.c checked demo demo_c.log
    try bad.c checked bad
    measure bench.c bench_c
}

# ------------------------------------------------------------------------------------- Rust

demo_rs() {
    rustc --edition 2024 -O -D warnings -o demo_rs "$tests/demo.rs" \
        -C link-arg="$archive" -C link-arg="$heap" && limited ./demo_rs demo_rs.log
}

# ----------------------------------------------------------------------------------- Python

run_python() { # the program's name, and its arguments
    local name=$1
    shift
    limited python3 "$tests/$name" "$@"
}

bank_py() { # two lives, one after the other
    mkdir bank && run_python bank.py bank first 50 && run_python bank.py bank second 50
}

kill_test() { # the folder's name, and how many kills
    mkdir "$1" && run_python kill_test.py "$1" "$2"
}

# A recovery that is wrong has to leave wrong books, and kill_test.py has to see it.
kill_test_finds() {
    local status
    mkdir "$1"
    WZ_BANK_RECOVERY=$1 run_python kill_test.py "$1" 100
    status=$?
    [ $status -eq 4 ] || echo "a recovery that always says $1 ended with status $status"
    [ $status -eq 4 ]
}

tests_of_python() {
    try recover_test.py run_python recover_test.py
    try bank.py bank_py
    measure kill_test.py kill_test kills 200
    try "kill_test.py, always abort" kill_test_finds abort
    try "kill_test.py, always commit" kill_test_finds commit
    measure bench.py run_python bench.py bench_py.log
}

names_of_python=(recover_test.py bank.py kill_test.py "kill_test.py, always abort"
    "kill_test.py, always commit" bench.py)

# --------------------------------------------------------------------------------------- C#

demo_cs() {
    mcs -out:Demo.exe "$tests/Demo.cs" "$tests/Wirtozhak.cs" && limited mono Demo.exe demo_cs.log
}

# -------------------------------------------------------------------------------------- all

if has nm; then try exports exports_are_the_header; else skip nm exports; fi
if has c++; then
    try "wirtozhak.h, C++" header_alone c++ -x c++
else
    skip c++ "wirtozhak.h, C++"
fi
if has cc; then
    tests_of_c
    try libwirtozhak.so link_shared
else
    skip cc wirtozhak.h demo.c bad.c bench.c libwirtozhak.so
fi
if ! has cc; then # the linker of the others
    skip cc demo.rs "${names_of_python[@]}" Demo.cs
else
    if has rustc; then try demo.rs demo_rs; else skip rustc demo.rs; fi
    if python3 -c 'import ctypes, sqlite3' 2>/dev/null; then
        tests_of_python
    else
        skip python3 "${names_of_python[@]}"
    fi
    if has mcs && has mono; then measure Demo.cs demo_cs; else skip mono Demo.cs; fi
fi

echo "$passed passed, $failed failed, $skipped skipped"
[ "$failed" -eq 0 ]
