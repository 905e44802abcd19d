#!/bin/sh
# Everything that is tested beside the gate: run.sh [SRC]
# The archive is made and installed into an empty folder; the header, the examples, the Rust package, Python and the documents are tried with what is
# there, and the programs of the gate on lists of another seed. With SRC, the published files (src/ of vbitmap), also the archive and the programs
# beside the Rust. Each test's output is in target/tests.
unset CDPATH
src=
if [ $# -gt 0 ]; then
    src=$(cd "$1" && pwd) || exit 2
fi
cd "$(dirname "$0")/.." || exit 2
out=$PWD/target/tests
prefix=$out/prefix
passed=0
failed=0
rm -rf "$out"
mkdir -p "$out"
unset TAXOLBIN_LIB_DIR PKG_CONFIG
export PKG_CONFIG_PATH="$prefix/lib/pkgconfig" CARGO_NET_OFFLINE=true PYTHONDONTWRITEBYTECODE=1
reader=$(mktemp -d) || exit 2
trap 'rm -rf "$reader"' EXIT
trap 'exit 1' INT TERM

# try NAME COMMAND..: the command does well
try() {
    name=$1
    shift
    if "$@" > "$out/$name.log" 2>&1; then
        passed=$((passed + 1))
        echo "ok      $name"
    else
        failed=$((failed + 1))
        echo "FAILED  $name: see target/tests/$name.log"
    fi
}

# says WORDS COMMAND..: the command fails, and says these words
says() {
    words=$1
    shift
    if "$@" > "$out/said" 2>&1; then
        echo "it did not fail: $*"
        return 1
    fi
    cat "$out/said"
    grep -qF -e "$words" "$out/said"
}

# prints FILE COMMAND..: the command does well, and prints what is in the file
prints() {
    file=$1
    shift
    "$@" > "$out/printed" && diff "$file" "$out/printed"
}

strict="-Wall -Wextra -Wpedantic -Wconversion -Wsign-conversion -Wshadow -Werror -O2"

# header COMPILER LANGUAGE STANDARD: no warning, and the header's own functions do what they say
header() {
    "$1" -x "$2" "-std=$3" $strict tests/header.c -x none $(pkg-config --cflags --libs taxolbin) -o "$out/header" && "$out/header"
}

# ignored COMPILER LANGUAGE STANDARD: a number that is dropped is a warning, in either kind of call, unless it is on purpose
ignored() {
    casts=
    if [ "$2" = c++ ]; then
        casts=-Wold-style-cast
    fi
    set -- "$1" -x "$2" "-std=$3" $strict $casts -Iinclude -c tests/ignored.c -o "$out/ignored.o"
    says taxolbin_unset "$@" && grep -q taxolbin_add_set "$out/said" && "$@" -DON_PURPOSE
}

in_words() {
    sed -n 's/^\([0-9]*\)\t.*\t\(.*\)$/\1\t\2/p' include/numbers.txt > "$out/words" && prints "$out/words" "$out/header" why
}

processors() {
    for other in "clang --target=aarch64-linux-gnu" "clang --target=riscv64-linux-gnu" "gcc -m32" "gcc -mx32"; do
        says "the archive is for x86-64" $other -ffreestanding -fsyntax-only -x c include/taxolbin.h || return 1
    done
}

c_example() {
    cc -std=c99 $strict examples/sheet.c $(pkg-config --cflags --libs taxolbin) -o "$out/sheet" && prints examples/expected "$out/sheet"
}

# the archive in the place of the shared library: no file of ours is needed where it runs
c_archive() {
    cc -std=c99 $strict examples/sheet.c $(pkg-config --cflags taxolbin) "$prefix/lib/libtaxolbin.a" -o "$out/sheet" &&
        prints examples/expected "$out/sheet" && readelf -d "$out/sheet" > "$out/needed" && ! grep taxolbin "$out/needed"
}

python_example() {
    prints examples/expected python3 examples/sheet.py
}

soname() {
    readelf -d "$prefix/lib/libtaxolbin.so" | grep "soname: \[libtaxolbin.so.$(pkg-config --modversion taxolbin | sed 's/\.[^.]*$//')\]"
}

manifest=rust/Cargo.toml

package() {
    cargo test --manifest-path "$manifest"
}

package_by_folder() {
    env PKG_CONFIG_PATH= TAXOLBIN_LIB_DIR="$PWD/target/staticlib" cargo test --manifest-path "$manifest"
}

rust_example() {
    prints examples/expected cargo run -q --manifest-path "$manifest" --example sheet
}

# without the library the package says what to do, and what it looked for
package_without() {
    set -- cargo build --manifest-path "$manifest" --target-dir "$out/without"
    says "./install.sh PREFIX" env PKG_CONFIG_PATH= "$@" && says "./install.sh PREFIX" env PKG_CONFIG=no-such-program "$@" &&
        says "no libtaxolbin.a in $out" env TAXOLBIN_LIB_DIR="$out" "$@"
}

# an archive of another version is not linked
package_other() {
    mkdir -p "$out/other" && cp "$prefix/lib/libtaxolbin.a" "$out/other" && ar d "$out/other/libtaxolbin.a" version.o &&
        says taxolbin_version_ env TAXOLBIN_LIB_DIR="$out/other" cargo build --manifest-path "$manifest" --example sheet --target-dir "$out/without"
}

package_tidy() {
    cargo fmt --check --manifest-path "$manifest" && cargo clippy -q --all-targets --manifest-path "$manifest" -- -D warnings &&
        env RUSTDOCFLAGS="-D warnings" cargo doc -q --no-deps --manifest-path "$manifest"
}

# listed PROGRAM FOLDER: the program answers a list of another seed as the model in the folder of oracle/ does
listed() {
    python3 "oracle/$2/make.py" 2 3 > "$out/$1.list" && (cd "crates/$1" && rt run) < "$out/$1.list" > "$out/$1" &&
        tail -1 "$out/$1" | grep ": [1-9][0-9]* cases, 0 mismatches"
}

replay() {
    oracle/list.sh "$src" 1100 2 > "$out/replay.list" && (cd crates/replay && rt run) < "$out/replay.list" > "$out/replay" &&
        tail -1 "$out/replay" | grep "^all [1-9][0-9]* 0$"
}

try install ./install.sh "$prefix"
try soname soname
try numbers include/numbers.py --check
try ledger docs/ledger.py --check
try names python3 tests/names.py "$prefix/lib/libtaxolbin.a" "$prefix/lib/libtaxolbin.so"
for language in "gcc c c99" "gcc c c2x" "clang c c99" "clang c c2x" "g++ c++ c++17" "g++ c++ c++11" "clang++ c++ c++17" "clang++ c++ c++20"; do
    by=$(echo "$language" | sed 's/ .* /-/')
    try "header-$by" header $language
    try "ignored-$by" ignored $language
done
try in-words in_words
try processors processors
try c-example c_example
try c-archive c_archive
try python-example python_example
try package package
try package-by-folder package_by_folder
try rust-example rust_example
try package-without package_without
try package-other package_other
try package-tidy package_tidy
try format python3 tests/format.py "$prefix/lib/libtaxolbin.so"
try readme python3 tests/readme.py "$reader"
try sheets listed sheets sheet
try styles listed styles style
try registers listed registers register
if [ -n "$src" ]; then
    try replay replay
    try boundary boundary/run.sh "$src"
else
    echo "left out: replay and boundary, which need SRC"
fi
echo "$passed passed, $failed failed"
[ "$failed" -eq 0 ]
