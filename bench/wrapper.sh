#!/bin/sh
# wrapper.sh CRATE USES: proves a crate that is no part of the library, and makes CRATE/libNAME.a of it. CRATE is its folder, whose last part is its NAME; USES names the crates of
# this repository that it uses, in one word. It is built in a copy of the crates outside the repository, of which nothing changes but target/ and what rt keeps in out/.
set -eu
unset CDPATH
[ $# -eq 2 ] || { echo "usage: wrapper.sh CRATE USES" >&2; exit 1; }
crate=$(cd "$1" && pwd)
name=$(basename "$crate")
cd "$(dirname "$0")/.."
mkdir -p target
log=$PWD/target/wrapper.log
# prove FOLDER: builds the crate there; what is printed is shown only where that fails
prove() { (cd "$1" && rt lib) >"$log" 2>&1 || { tail -n 40 "$log" >&2; exit 1; }; }
# Proved here, what is used is there for the next time too, and rt takes it from here into the copy.
for used in $2; do prove "crates/$used"; done
tree=$(mktemp -d)
trap 'rm -rf "$tree"' EXIT
trap 'exit 1' INT TERM HUP # so that the folder is removed then too
mkdir "$tree/crates"
for folder in crates/*; do
  mkdir "$tree/$folder"
  for part in src specs proofs; do [ ! -d "$folder/$part" ] || cp -r "$folder/$part" "$tree/$folder"; done
done
cp -r "$crate" "$tree/crates"
{ cat crates.txt; echo "$name staticlib: $2"; } >"$tree/crates.txt"
prove "$tree/crates/$name"
cp "$tree/crates/$name/out/lib$name.a" "$crate"
