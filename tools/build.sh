#!/bin/sh
# build.sh [PROGRAM..]: proves programs and puts them, built, into target/bin; blobrun and flashconfig, if none is named. What is proved and built already is taken as it is.
set -eu
unset CDPATH
cd "$(dirname "$0")/.."
[ $# -gt 0 ] || set -- blobrun flashconfig
mkdir -p target/bin
for program; do
  # rt builds a program where it runs it, which here prints its help
  (cd "crates/$program" && rt run -- --help </dev/null) >"target/$program.log" 2>&1 || { tail -n 20 "target/$program.log" >&2; exit 1; }
  # by another name first, since a program that runs cannot be written over
  cp "crates/$program/out/$program" "target/bin/$program.new"
  mv "target/bin/$program.new" "target/bin/$program"
done
