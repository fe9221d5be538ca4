#!/bin/sh
# run.sh [ROUNDS [RECORDS]]: what a message takes in a tray beside the same messages by single calls (tray.c), medians of 2,001 rounds, or of as many as are asked for; and blobrun,
# which tests the state once for each buffer that it reads, beside a program that tests it before each request (lines.c), on a file of a million records of mixed traffic, or of as
# many as are asked for. Fails where the two differ in what they answer; without ROUNDS also where mixed traffic takes more than 0.4 of the time in a tray.
# docs/BENCHMARKS.md keeps the figures. CC names the C compiler (default cc). Needs the Rattle kit and python3; on a fresh clone it proves the library first, which takes some minutes.
set -eu
unset CDPATH
cd "$(dirname "$0")/../.."
bound=
[ $# -gt 0 ] || bound=0.4
rounds=${1:-2001}
records=${2:-1000000}
for number in "$rounds" "$records"; do
  case $number in
  '' | 0* | *[!0-9]*) echo "usage: run.sh [ROUNDS [RECORDS]]" >&2; exit 1 ;;
  esac
done
tools/archive.sh
tools/build.sh blobrun
out=$(mktemp -d)
trap 'rm -rf "$out"' EXIT
trap 'exit 1' INT TERM HUP # so that the folder is removed then too
requests=$out/traffic.requests
echo "$(uname -sr), $(nproc) processors, $(sed -n 's/^model name[^:]*: //p' /proc/cpuinfo | head -n 1), load $(cut -d ' ' -f 1 /proc/loadavg); $(rt version); $(${CC:-cc} --version | head -n 1)"
python3 bench/traffic/traffic.py "$records" "$requests"
${CC:-cc} -O2 -Iinclude bench/tray/tray.c target/staticlib/libcapi.a -o "$out/tray"
${CC:-cc} -O2 -Iinclude bench/tray/lines.c target/staticlib/libcapi.a -o "$out/lines"

# answer PROGRAM LINES: runs it on the file of records. blobrun ends with 0 always, and says on standard error what failed.
answer() {
  if ! "$1" "$requests" >"$2" 2>"$out/said" || [ -s "$out/said" ]; then
    cat "$out/said" >&2
    exit 1
  fi
}

# time_of PROGRAM TIMES: adds to the file TIMES how many nanoseconds a run takes. The lines are thrown away, so that no disk is measured.
time_of() {
  start=$(date +%s%N)
  answer "$1" /dev/null
  echo $(($(date +%s%N) - start)) >>"$2"
}

answer target/bin/blobrun "$out/blobrun.lines"
answer "$out/lines" "$out/single.lines"
cmp "$out/blobrun.lines" "$out/single.lines"
[ "$(wc -l <"$out/blobrun.lines")" -eq "$records" ] || { echo "blobrun did not print a line for each record" >&2; exit 1; }
for run in 1 2 3 4 5 6 7; do
  time_of target/bin/blobrun "$out/blobrun.times"
  time_of "$out/lines" "$out/single.times"
done
sort -n "$out/blobrun.times" >"$out/blobrun.sorted"
sort -n "$out/single.times" >"$out/single.sorted"
paste "$out/blobrun.sorted" "$out/single.sorted" | awk -v records="$records" -v runs="$run" '
  NR == 1 { blobrun_least = $1 / records; single_least = $2 / records }
  NR == (runs + 1) / 2 { blobrun = $1 / records; single = $2 / records }
  END {
    printf "%d records, medians (and least) of %d runs: by single calls %.0f (%.0f) ns, blobrun %.0f (%.0f) ns a record, %.2f times (medians), %.2f (least)\n",
      records, runs, single, single_least, blobrun, blobrun_least, blobrun / single, blobrun_least / single_least
  }'
"$out/tray" "$rounds" "$requests" ${bound:+"$bound"}
