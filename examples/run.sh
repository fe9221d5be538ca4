#!/bin/sh
# run.sh [STORY.txt]: tells a recorded story in words: each request, and what the library answered. The story of the two clients of one name, if none is given.
# It proves and builds blobrun first (tools/build.sh), where that was not done yet.
set -eu
usage() { echo "usage: run.sh [STORY.txt]    (tools/recording.py --help says how a story is written)"; }
case "$#${1:-}" in
  0 | 1[!-]*) ;;
  1-h | 1--help) usage; exit 0 ;;
  *) usage >&2; exit 1 ;;
esac
unset CDPATH
root=$(cd "$(dirname "$0")/.." && pwd)
story=${1:-$root/examples/two-moreaus.txt}
[ -f "$story" ] || { echo "$story: no such file" >&2; exit 1; }
out=$(mktemp -d)
trap 'rm -rf "$out"' EXIT
trap 'exit 1' INT TERM HUP # so that the folder is removed then too
python3 "$root/tools/recording.py" make "$story" "$out/requests"
[ -x "$root/target/bin/blobrun" ] || echo "Proving and building blobrun; that takes some minutes the first time." >&2
"$root/tools/build.sh" blobrun
# the exit status of blobrun is always 0: it failed where it said something
failed=$("$root/target/bin/blobrun" "$out/requests" 2>&1 >"$out/lines")
[ -z "$failed" ] || { echo "$failed" >&2; exit 1; }
python3 "$root/tools/recording.py" tell "$story" "$out/lines"
