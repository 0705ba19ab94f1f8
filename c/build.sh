#!/bin/bash
# Builds the library for C: out/libwirtozhak_c.a, and out/libwirtozhak.so where there is a cc.
# WZ_ARCHIVE names an archive that is built already; else `rt lib` proves and builds it.
# A program that is linked with the archive needs c/liblibc_c.a of the kit beside it: its heap.
set -euo pipefail

here=$(cd "$(dirname "${BASH_SOURCE[0]}")" && pwd)
top=$(dirname "$here")

archive=${WZ_ARCHIVE:-}
if [ -z "$archive" ]; then
    (cd "$top/crates/wirtozhak_c" && rt lib)
    archive=$top/crates/wirtozhak_c/out/libwirtozhak_c.a
fi

mkdir -p "$here/out"
# It may be the one that an earlier run left here.
if ! [ "$archive" -ef "$here/out/libwirtozhak_c.a" ]; then
    cp -f "$archive" "$here/out/libwirtozhak_c.a"
fi

if ! command -v cc >/dev/null; then
    echo "no cc: no shared library"
    exit 0
fi
page=$(rt doc)
heap=$(dirname "$page")/c/liblibc_c.a
cc -shared -o "$here/out/libwirtozhak.so" \
    -Wl,--whole-archive "$archive" -Wl,--no-whole-archive "$heap"
