#!/bin/sh
# The library behind ipmi_sim, asked by ipmitool and ipmi-raw. Builds the module, starts the simulator on a free port of 127.0.0.1, compares every
# answer, and ends what it started. Exit status 0 where all came back as expected, 1 otherwise. Where a program is absent that it needs, it says
# so and ends with 0: nothing was tested. First `tools/archive.sh`, and `tools/peers.sh` for the programs.
#
#   examples/ipmi/run.sh [STORY]     CC, CFLAGS and LDFLAGS are those of the module
#   examples/ipmi/run.sh --serve     starts a controller to be asked by hand, and ends it when it is interrupted
set -eu
case "$#${1:-}" in
0 | 1--serve) ;;
1-* | [!1]*) sed -n '2,8s/^# \{0,1\}//p' "$0" >&2; exit 1 ;;
*) [ -f "$1" ] || { echo "$1: no such file" >&2; exit 1; }
  story=$(realpath "$1") && set -- "$story" ;;
esac
unset CDPATH
compiler=${CC:-cc}
command -v "${compiler%% *}" >/dev/null 2>&1 || { echo "no C compiler: $compiler" >&2; exit 1; }
cd "$(dirname "$0")/../.."
PATH=$PATH:/usr/sbin # an ordinary user's path may lack it, and ipmi-raw is there
for peer in ipmi_sim ipmitool ipmi-raw; do
  command -v "$peer" >/dev/null 2>&1 || { echo "ipmi: not run: $peer is absent"; exit 0; }
done
printf '#include <OpenIPMI/serv.h>\n' | ${CC:-cc} -E - >/dev/null 2>&1 || { echo "ipmi: not run: OpenIPMI/serv.h is absent"; exit 0; }
library=target/staticlib/libcapi.a
[ -f "$library" ] || { echo "$library is not there: run tools/archive.sh first" >&2; exit 1; }
out=$(mktemp -d)
driver=
trap 'rm -rf "$out"' EXIT
trap '[ -z "$driver" ] || kill "$driver" 2>/dev/null; wait; exit 1' INT TERM HUP
# -Bsymbolic: the module's own functions, whatever the simulator calls its own
# shellcheck disable=SC2086  # flags are words
${CC:-cc} -std=c99 -D_DEFAULT_SOURCE -Wall -Wextra -Werror -O2 -fPIC -shared -Wl,-Bsymbolic -Iinclude ${CFLAGS:-} \
  examples/ipmi/module.c examples/ipmi/sha256.c ${LDFLAGS:-} "$library" -o "$out/blobs.so"
python3 -B examples/ipmi/drive.py "$out/blobs.so" "$@" &
driver=$!
wait "$driver"
