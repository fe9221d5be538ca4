#!/bin/sh
# Installs the outside programs that tests compare with, where it may: as root, with apt-get. What is there already is left alone.
# A peer that is absent all the same is named in a line, and the exit status is still 0: its tests say 'not run' and the gate goes on.
#
#   tools/peers.sh           installs what is absent, then says what is there
#   tools/peers.sh --show    installs nothing
set -u

# Each peer: what to look for (a program on the path, or a file), and its Debian package.
peers='ipmi_sim openipmi
/usr/include/OpenIPMI/serv.h libopenipmi-dev
ipmitool ipmitool
ipmi-raw freeipmi-tools
pkg-config pkg-config
protoc protobuf-compiler
/usr/lib/python3/dist-packages/google/protobuf/__init__.py python3-protobuf'

case "$#${1:-}" in
0 | 1--show) ;;
*) sed -n '2,6s/^# \{0,1\}//p' "$0" >&2; exit 1 ;;
esac

# present WHAT: a program is on the path, or in the folder of system programs, which an ordinary user's path may lack; a file is there
present() {
  case $1 in
  /*) [ -e "$1" ] ;;
  *) command -v "$1" >/dev/null 2>&1 || [ -x "/usr/sbin/$1" ] ;;
  esac
}

# each COMMAND..: runs it with every peer and its package behind
each() {
  printf '%s\n' "$peers" | while read -r what package; do "$@" "$what" "$package"; done
}

package_if_absent() { present "$1" || printf '%s\n' "$2"; }
say() { if present "$1"; then echo "peers: $1 is there"; else echo "peers: $1 is absent (Debian package $2)"; fi; }

# install PACKAGES..: asks nothing and starts no service; the lists of packages are fetched only if they are needed
install() {
  set -- timeout 300 apt-get -q -y -o DPkg::Lock::Timeout=120 --no-install-recommends install "$@"
  export DEBIAN_FRONTEND=noninteractive
  "$@" || { timeout 120 apt-get -q update && "$@"; }
}

missing=$(each package_if_absent)
if [ -n "$missing" ] && [ "${1:-}" != --show ]; then
  if [ "$(id -u)" -ne 0 ] || ! command -v apt-get >/dev/null 2>&1; then
    echo "peers: nothing is installed: that needs root and apt-get"
  else
    log=$(mktemp)
    # shellcheck disable=SC2086  # one word for each package
    install $missing >"$log" 2>&1 || { echo "peers: apt-get failed:"; tail -n 5 "$log"; }
    rm -f "$log"
  fi
fi
each say
