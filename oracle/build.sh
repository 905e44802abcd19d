#!/bin/sh
# Builds the Rust: build.sh SRC OUT [rustc flags, default -O]
# SRC has the published files (src/ of vbitmap at commit 840434f9e0), which are taken as they are; OUT/libvbitmap.rlib is written.
set -e
if [ $# -lt 2 ]; then
    echo "usage: $0 SRC OUT [rustc flags]" >&2
    exit 2
fi
here=$(cd "$(dirname "$0")" && pwd)
src=$(cd "$1" && pwd)
mkdir -p "$2/root"
out=$(cd "$2" && pwd)
shift 2
[ $# -gt 0 ] || set -- -O
for f in word arch storage slice bits shift algebra bitmap shape text; do
    ln -sf "$src/$f.rs" "$out/root/$f.rs"
done
ln -sf "$here/lib.rs" "$out/root/lib.rs"
ln -sf "$here/iter.rs" "$out/root/iter.rs"
rustc --edition 2024 --crate-name vbitmap --crate-type rlib --cfg has_alloc --check-cfg 'cfg(has_alloc)' \
    --check-cfg 'cfg(feature, values("serde"))' -C codegen-units=1 "$@" "$out/root/lib.rs" --out-dir "$out"
