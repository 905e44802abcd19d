#!/bin/sh
# Prints a list of calls with the Rust's answers, and the rules of document 01 at its end: list.sh SRC CASES SEED [rustc flags, default -O]
# SRC as for build.sh. CASES is the least number of lines a call.
set -e
if [ $# -lt 3 ]; then
    echo "usage: $0 SRC CASES SEED [rustc flags]" >&2
    exit 2
fi
here=$(cd "$(dirname "$0")" && pwd)
src=$1 cases=$2 seed=$3
shift 3
out=$(mktemp -d)
trap 'rm -r "$out"' EXIT
[ $# -gt 0 ] || set -- -O
"$here/build.sh" "$src" "$out" "$@"
rustc --edition 2024 --crate-name gen "$@" "$here/gen/main.rs" --extern vbitmap="$out/libvbitmap.rlib" -o "$out/gen"
"$out/gen" "$cases" "$seed"
sed '/^#/d; /^$/d' "$here/rules"
