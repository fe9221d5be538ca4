#!/bin/sh
# run.sh [ROUNDS]: reading flash configurations, by the library beside Python's json.loads and, where cargo is there, beside the second implementation: small files, long ones, and
# those that take longest (config.py). Medians of 41 rounds, or of as many as are asked for. docs/BENCHMARKS.md keeps the figures. Needs the Rattle kit, python3 and a C compiler;
# on a fresh clone it proves the library first, which takes some minutes.
set -eu
unset CDPATH
cd "$(dirname "$0")/../.."
rounds=${1:-41}
case $rounds in
'' | 0* | *[!0-9]*) echo "usage: run.sh [ROUNDS]" >&2; exit 1 ;;
esac
tools/archive.sh
out=$(mktemp -d)
trap 'rm -rf "$out"' EXIT
trap 'exit 1' INT TERM HUP # so that the folder is removed then too
${CC:-cc} -O2 -shared -fPIC -Iinclude bench/config/rounds.c target/staticlib/libcapi.a -o "$out/rounds.so"
python=python3
if [ -x /usr/bin/python3 ]; then python=/usr/bin/python3; fi # Debian's is built for speed; another may take twice as long
second=
if command -v cargo >/dev/null 2>&1; then
  (cd bench/config/second && CARGO_TARGET_DIR=../../../target/second-bench cargo build --release --offline --locked --quiet)
  second=target/second-bench/release/libsecond_config.so
else
  echo "the second implementation: not measured, cargo is absent"
fi
"$python" bench/config/config.py "$rounds" "$out/rounds.so" ${second:+"$second"}
