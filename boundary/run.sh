#!/bin/sh
# Compares the archive with a naive model and with the Rust original on random arguments: run.sh SRC [rounds] [seed]
# SRC has the published files (src/ of vbitmap). Rounds are per call, 2000 by default, with a hundredth as many long ones.
set -e
if [ $# -lt 1 ]; then
    echo "usage: $0 SRC [rounds] [seed]" >&2
    exit 2
fi
src=$(cd "$1" && pwd)
cd "$(dirname "$0")/.."
out=target/boundary
mkdir -p "$out"
./archive.sh
oracle/build.sh "$src" "$out"
rustc --edition 2021 -O -D warnings -L target/staticlib -l static=taxolbin --extern vbitmap="$out/libvbitmap.rlib" boundary/main.rs -o "$out/boundary"
"$out/boundary" "${2:-2000}" "${3:-1}"
