#!/bin/sh
# install.sh PREFIX: puts the header, the archive and a pkg-config file below PREFIX, as
#   PREFIX/include/kramsnep.h   PREFIX/lib/libkramsnep.a   PREFIX/lib/pkgconfig/kramsnep.pc
# First `tools/archive.sh`. Then, with PREFIX/lib/pkgconfig in PKG_CONFIG_PATH: cc program.c $(pkg-config --cflags --libs kramsnep)
set -eu
unset CDPATH
usage() { echo "usage: install.sh PREFIX" >&2; exit 1; }
[ $# -eq 1 ] || usage
case $1 in
  '' | -*) usage ;;
  /*) prefix=$1 ;;
  *) prefix=$(pwd)/$1 ;;
esac
case $prefix in
  *[!A-Za-z0-9/._+-]*) echo "install.sh: $prefix: letters, digits and / . _ + - only, since a compiler is given this path among other words" >&2; exit 1 ;;
esac
root=$(cd "$(dirname "$0")/.." && pwd)
archive=$root/target/staticlib/libcapi.a
header=$root/include/kramsnep.h
[ -f "$archive" ] || { echo "install.sh: target/staticlib/libcapi.a is not there: run tools/archive.sh first" >&2; exit 1; }
version=$(sed -n 's/^#define KRAMSNEP_VERSION "\(.*\)"$/\1/p' "$header")
[ -n "$version" ] || { echo "install.sh: include/kramsnep.h has no version" >&2; exit 1; }

install -d -m 755 "$prefix/include" "$prefix/lib" "$prefix/lib/pkgconfig"
install -m 644 "$header" "$prefix/include/kramsnep.h"
install -m 644 "$archive" "$prefix/lib/libkramsnep.a"
# The archive needs memcpy and memset, which every C library has, and so no other package.
cat >"$prefix/lib/pkgconfig/kramsnep.pc" <<PC
prefix=$prefix
includedir=\${prefix}/include
libdir=\${prefix}/lib

Name: kramsnep
Description: Verified blob library for IPMI management controllers
Version: $version
License: Apache-2.0
Cflags: -I\${includedir}
Libs: -L\${libdir} -lkramsnep
PC
chmod 644 "$prefix/lib/pkgconfig/kramsnep.pc"
echo "kramsnep $version: $prefix/include/kramsnep.h, $prefix/lib/libkramsnep.a, $prefix/lib/pkgconfig/kramsnep.pc"
echo "To build against it: cc program.c \$(PKG_CONFIG_PATH=$prefix/lib/pkgconfig pkg-config --cflags --libs kramsnep)"
