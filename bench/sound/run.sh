#!/bin/sh
# The soundness test beside a plain loop over as many bytes (bench.c), and beside a second test on random states (random.c). docs/BENCHMARKS.md keeps the figures. CC names the C
# compiler (default cc). Needs the Rattle kit; on a fresh clone it proves what it measures first. The wrapper that gives the test a C name (soundapi.txt) is no part of the library.
set -eu
unset CDPATH
cd "$(dirname "$0")/../.."
out=$(mktemp -d)
trap 'rm -rf "$out"' EXIT
trap 'exit 1' INT TERM HUP # so that the folder is removed then too
mkdir -p "$out/soundapi/src"
cp bench/sound/soundapi.txt "$out/soundapi/src/lib.rt"
bench/wrapper.sh "$out/soundapi" "state sound"
${CC:-cc} -O3 -c bench/sound/or_all.c -o "$out/or_all.o"
${CC:-cc} -O3 bench/sound/bench.c "$out/or_all.o" "$out/soundapi/libsoundapi.a" -o "$out/bench"
${CC:-cc} -O2 bench/sound/random.c "$out/soundapi/libsoundapi.a" -o "$out/random"
"$out/bench"
"$out/random"
