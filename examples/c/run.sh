#!/bin/sh
# Builds upload.c, backup.c, config.c and tray.c against the library and compares what each prints with its .expected; then gives upload a name that the library refuses,
# which it must notice, and compares with refused.expected. Run anywhere; first `tools/archive.sh`.
set -eu
unset CDPATH
cd "$(dirname "$0")/../.."
library=target/staticlib/libcapi.a
[ -f "$library" ] || { echo "$library is not there: run tools/archive.sh first" >&2; exit 1; }
out=$(mktemp -d)
trap 'rm -rf "$out"' EXIT
trap 'exit 1' INT TERM HUP # so that the folder is removed then too
for program in upload backup config tray; do
  ${CC:-cc} -std=c99 -Wall -Wextra -Wpedantic -Werror -O2 -Iinclude "examples/c/$program.c" "$library" -o "$out/$program"
  "$out/$program" >"$out/printed"
  diff "examples/c/$program.expected" "$out/printed"
  echo "$program: as expected"
done
if "$out/upload" /scan/no-store-name >"$out/printed" 2>"$out/said"; then
  echo "upload /scan/no-store-name: ended as if nothing had been refused" >&2
  exit 1
fi
cat "$out/printed" "$out/said" | diff examples/c/refused.expected -
echo "upload of a name that is refused: noticed, as expected"
