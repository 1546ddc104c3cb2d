#!/usr/bin/env bash
# Installs the header, the archive and a pkg-config file into a prefix, so that a program compiles with either line:
#
#     ./install.sh PREFIX
#     cc editor.c $(PKG_CONFIG_PATH=PREFIX/lib/pkgconfig pkg-config --cflags --libs gekunday) -o editor
#     cc editor.c -IPREFIX/include -LPREFIX/lib -lgekunday -o editor
#
# The source comes before the archive: the linker takes from an archive only what is missing when it comes to it.
# The archive is taken from GEKUNDAY_LIB_DIR, by default target/staticlib, where it is built if it is missing.
# DESTDIR is honoured: files go under $DESTDIR$PREFIX, and the pkg-config file names PREFIX.
set -euo pipefail

if [ $# -ne 1 ] || [ -z "$1" ]; then
    echo "usage: $0 PREFIX" >&2
    exit 2
fi

root=$(cd "$(dirname "$0")" && pwd)
case $1 in
    /*) prefix=$1 ;;
    *) prefix=$PWD/$1 ;;
esac
prefix=${prefix%/}
into=${DESTDIR:-}$prefix

archive=${GEKUNDAY_LIB_DIR:-$root/target/staticlib}/libgekunday.a
if [ -z "${GEKUNDAY_LIB_DIR:-}" ] && [ ! -f "$archive" ]; then
    bash "$root/tools/build" archive
fi

mkdir -p "$into/include" "$into/lib/pkgconfig"
install -m 644 "$root/include/gekunday.h" "$into/include/gekunday.h"
install -m 644 "$archive" "$into/lib/libgekunday.a"

# The dollars are pkg-config's own.
# shellcheck disable=SC2016
{
    echo "prefix=$prefix"
    echo 'includedir=${prefix}/include'
    echo 'libdir=${prefix}/lib'
    echo
    echo 'Name: gekunday'
    echo "Description: Decides propositional sequents by Wang's method"
    echo 'Version: 0.1.0'
    echo 'Cflags: -I${includedir}'
    echo 'Libs: -L${libdir} -lgekunday'
} > "$into/lib/pkgconfig/gekunday.pc"
chmod 644 "$into/lib/pkgconfig/gekunday.pc"

echo "installed: include/gekunday.h, lib/libgekunday.a, lib/pkgconfig/gekunday.pc"
