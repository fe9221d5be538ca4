#!/bin/sh
# run.sh [RECORDS]: the benchmarks that docs/BENCHMARKS.md keeps, in one run: per command and for mixed traffic the library beside the second implementation; a request beside
# its soundness test; blobrun on a file of a million records, or of as many as are asked for. Needs the Rattle kit, cargo, python3 and a C compiler; on a fresh clone it proves
# the library first, which takes some minutes.
set -eu
unset CDPATH
cd "$(dirname "$0")/../.."
records=${1:-1000000}
case $records in
'' | 0* | *[!0-9]*) echo "usage: run.sh [RECORDS]" >&2; exit 1 ;;
esac
tools/archive.sh
tools/build.sh blobrun
out=$(mktemp -d)
trap 'rm -rf "$out"' EXIT
trap 'exit 1' INT TERM HUP # so that the folder is removed then too
python3 bench/traffic/traffic.py "$records" "$out/traffic.requests"
${CC:-cc} -O2 -Iinclude bench/traffic/requests.c target/staticlib/libcapi.a -o "$out/requests"
"$out/requests" "$out/traffic.requests"
least=
for run in 1 2 3 4 5; do
  start=$(date +%s%N)
  failed=$(target/bin/blobrun "$out/traffic.requests" 2>&1 >"$out/lines")
  took=$(($(date +%s%N) - start))
  [ -z "$failed" ] || { echo "$failed" >&2; exit 1; }
  if [ -z "$least" ] || [ "$took" -lt "$least" ]; then least=$took; fi
done
[ "$(wc -l <"$out/lines")" -eq "$records" ] || { echo "blobrun did not print a line for each record" >&2; exit 1; }
echo "blobrun, $records records, least of $run runs: $((least / records)) ns a record, $((records * 1000000000 / least)) records a second"
(cd second && CARGO_TARGET_DIR=../target/second cargo run --release --offline --quiet --features library --bin bench)
