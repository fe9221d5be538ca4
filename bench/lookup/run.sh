#!/bin/sh
# run.sh [ARCHIVE]: looking up a row by used rows beside a search through all of them (rows.c); with ARCHIVE, a libcapi.a of an earlier tree (tools/archive.sh there), also whole
# requests before and after (requests.c). docs/BENCHMARKS.md keeps the figures. CC names the C compiler (default cc). Needs the Rattle kit; on a fresh clone it proves what it
# measures first. The wrapper with the old search (linear.txt) is no part of the library.
set -eu
unset CDPATH
before=
if [ $# -gt 0 ]; then before=$(cd "$(dirname "$1")" && pwd)/$(basename "$1"); fi
cd "$(dirname "$0")/../.."
out=$(mktemp -d)
trap 'rm -rf "$out"' EXIT
trap 'exit 1' INT TERM HUP # so that the folder is removed then too
mkdir -p "$out/linear/src" "$out/linear/proofs/find_linear"
cp bench/lookup/linear.txt "$out/linear/src/lib.rt"
cp bench/lookup/linear_proof.txt "$out/linear/proofs/find_linear/Invariants.antt"
bench/wrapper.sh "$out/linear" "protocol state lookup"
${CC:-cc} -O2 -Iinclude bench/lookup/rows.c "$out/linear/liblinear.a" -o "$out/rows"
"$out/rows"
[ -n "$before" ] || exit 0
tools/archive.sh
# the old functions are hidden, but for one under another name
ld -r -o "$out/all.o" --whole-archive "$before"
objcopy --redefine-sym kramsnep_respond=before_respond "$out/all.o" "$out/renamed.o"
objcopy --keep-global-symbol=before_respond "$out/renamed.o" "$out/before.o"
${CC:-cc} -O2 -Iinclude bench/lookup/requests.c "$out/before.o" target/staticlib/libcapi.a -o "$out/requests"
"$out/requests"
