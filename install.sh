#!/bin/sh
# Installs the library under a folder: install.sh PREFIX
# There are then PREFIX/include/taxolbin.h, PREFIX/lib/libtaxolbin.a, the shared library PREFIX/lib/libtaxolbin.so, which is one link of the same
# archive, PREFIX/lib/pkgconfig/taxolbin.pc, and in PREFIX/share the numbers in words, the page of the format and the licences.
set -e
if [ $# -ne 1 ]; then
    echo "usage: $0 PREFIX" >&2
    exit 2
fi
unset CDPATH
case $1 in
/*) prefix=$1 ;;
*) prefix=$PWD/$1 ;;
esac
case $prefix in
*[[:space:]]*)
    echo "$0: a blank in the name of $prefix: what pkg-config prints would be split there" >&2
    exit 2
    ;;
esac
mkdir -p "$prefix"
prefix=$(cd "$prefix" && pwd)
cd "$(dirname "$0")"
version=$(sed -n 's/^#define TAXOLBIN_VERSION "\(.*\)"$/\1/p' include/taxolbin.h)
# before 1.0 a call may change with the second number
soname=libtaxolbin.so.${version%.*}
./archive.sh
mkdir -p "$prefix/include" "$prefix/lib/pkgconfig" "$prefix/share/taxolbin" "$prefix/share/doc/taxolbin"
cp include/taxolbin.h "$prefix/include/"
cp target/staticlib/libtaxolbin.a "$prefix/lib/"
${CC:-cc} -shared -Wl,-soname,"$soname" -Wl,-z,defs -Wl,--whole-archive target/staticlib/libtaxolbin.a -Wl,--no-whole-archive \
    -o "$prefix/lib/libtaxolbin.so.$version"
ln -sf "libtaxolbin.so.$version" "$prefix/lib/$soname"
ln -sf "$soname" "$prefix/lib/libtaxolbin.so"
cp include/numbers.txt "$prefix/share/taxolbin/"
cp LICENSE NOTICE CHANGELOG.md docs/FORMAT.md "$prefix/share/doc/taxolbin/"
# The rpath lets a program run where the folder is none of the loader's; for one that needs no file there, give it ${libdir}/libtaxolbin.a instead.
cat > "$prefix/lib/pkgconfig/taxolbin.pc" <<END
prefix=$prefix
libdir=\${prefix}/lib
includedir=\${prefix}/include
numbers=\${prefix}/share/taxolbin/numbers.txt

Name: taxolbin
Description: Bitmaps in lent memory, list text, the printed register and the change sheet, proved
Version: $version
Libs: -L\${libdir} -Wl,-rpath,\${libdir} -ltaxolbin
Cflags: -I\${includedir}
END
echo "installed $version under $prefix; programs find it by PKG_CONFIG_PATH=$prefix/lib/pkgconfig"
