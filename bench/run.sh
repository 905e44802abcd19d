#!/bin/sh
# Times of the library beside the Rust: run.sh SRC
# SRC has the published Rust files (see oracle/README.md). Both builds of the Rust are timed, with -O and with the flags of this processor; the
# library is the archive of archive.sh in both.
set -e
if [ $# -ne 1 ]; then
    echo "usage: $0 SRC" >&2
    exit 2
fi
root=$(cd "$(dirname "$0")/.." && pwd)
src=$(cd "$1" && pwd)
out=$root/target/bench
mkdir -p "$out"
"$root/archive.sh"
for flags in "-O" "-O -C target-cpu=native"; do
    "$root/oracle/build.sh" "$src" "$out" $flags
    rustc --edition 2024 $flags -C codegen-units=1 "$root/bench/main.rs" --extern vbitmap="$out/libvbitmap.rlib" \
        -L native="$root/target/staticlib" -l static=taxolbin -o "$out/bench"
    "$out/bench" "rustc $flags"
    echo
done
