#!/bin/sh
# archive.sh: makes target/staticlib/libcapi.a, which C programs link, by `rt lib` in crates/capi, whose out/ it is taken from. That proves the crate and all below it first: some
# minutes on a fresh clone, and half a minute later on; so an archive that was made of the same crates by the same kit, and not touched since, is left as it is. Prints only what went wrong.
set -eu
unset CDPATH
cd "$(dirname "$0")/.."
archive=target/staticlib/libcapi.a
record=target/staticlib/libcapi.made-of # of what the archive was made, and its own sum
made_of=$({ rt version; find crates crates.txt -regex 'crates/[^/]*/out' -prune -o -type f -exec sha256sum {} + | sort; } | sha256sum)
if [ -f "$archive" ] && [ "$(cat "$record" 2>/dev/null)" = "$made_of $(sha256sum <"$archive")" ]; then exit 0; fi
mkdir -p target/staticlib
rm -f "$record"
(cd crates/capi && rm -f out/libcapi.a && rt lib) >target/staticlib.log 2>&1 || { tail -n 20 target/staticlib.log >&2; exit 1; }
cp crates/capi/out/libcapi.a "$archive.new"
mv "$archive.new" "$archive"
echo "$made_of $(sha256sum <"$archive")" >"$record"
