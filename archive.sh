#!/bin/sh
# Writes target/staticlib/libtaxolbin.a, the library for programs in other languages: each exporting crate's own archive, put into one. A crate's
# archive exports its own calls alone, and inner names are local to it. Beside them is one byte, which has the first two numbers of the version in its
# name: a program that refers to it links with no other version. An archive that is newer than every crate stays.
#
# It runs on every x86-64 processor, and so is compiled for the first of them: a static library does not look at what processor it runs on.
set -e
unset CDPATH
cd "$(dirname "$0")"
out=target/staticlib
all=$out/libtaxolbin.a
if [ -f "$all" ] && [ -z "$(find crates crates.txt archive.sh include/taxolbin.h -name out -prune -o -newer "$all" -print -quit)" ]; then
    exit
fi
mkdir -p "$out"
rm -f "$all"
mark=$(sed -n 's/^#define TAXOLBIN_VERSION "\([0-9]*\)\.\([0-9]*\)\..*"$/taxolbin_version_\1_\2/p' include/taxolbin.h)
echo "extern const unsigned char $mark; const unsigned char $mark = 1;" | ${CC:-cc} -c -x c - -o "$out/version.o"
{
    echo "create $all"
    for crate in capi_slice capi_bitmap capi_sheet; do
        (cd "crates/$crate" && rt lib --cpu=x86-64) > "$out/log" 2>&1 || {
            cat "$out/log" >&2
            exit 1
        }
        echo "addlib crates/$crate/out/lib$crate.a"
    done
    echo "addmod $out/version.o"
    echo save
    echo end
} > "$out/libtaxolbin.mri"
ar -M < "$out/libtaxolbin.mri"
