#!/bin/sh
# Saving and loading a full store, beside a plain copy and the soundness test (store.c); the same store in Protocol Buffers, in Python where protoc and
# python3's module are there (tools/peers.sh), in C++ where its headers are too (Debian package libprotobuf-dev); and refusing hostile files.
# docs/BENCHMARKS.md keeps the figures. Needs the Rattle kit and a C compiler; on a fresh clone it proves the library first, which takes some minutes.
set -eu
unset CDPATH
cd "$(dirname "$0")/../.."
tools/archive.sh
out=$(mktemp -d)
trap 'rm -rf "$out"' EXIT
trap 'exit 1' INT TERM HUP # so that the folder is removed then too
${CC:-cc} -O2 -Iinclude bench/store/store.c target/staticlib/libcapi.a -o "$out/store"
"$out/store" full "$out/full" "$out/times"
if command -v protoc >/dev/null 2>&1; then
  protoc --proto_path=tests --python_out="$out" --cpp_out="$out" store_file.proto
  with_module=
  for python in /usr/bin/python3 python3; do # the module of tools/peers.sh belongs to the first
    if [ -z "$with_module" ] && "$python" -c 'import google.protobuf' 2>/dev/null; then with_module=$python; fi
  done
  if [ -n "$with_module" ]; then
    PYTHONPATH=$out PYTHONDONTWRITEBYTECODE=1 "$with_module" bench/store/protobuf.py "$out/full" "$out/times"
  else
    echo "protobuf in Python: not measured, python3's protobuf module is absent"
  fi
  if pkg-config --exists protobuf 2>/dev/null; then
    # shellcheck disable=SC2046  # the words of the compiler
    ${CXX:-c++} -O2 -I"$out" bench/store/protobuf.cc "$out/store_file.pb.cc" $(pkg-config --cflags --libs protobuf) -o "$out/protobuf"
    "$out/protobuf" "$out/full" "$out/times"
  else
    echo "protobuf in C++: not measured, its headers are absent"
  fi
else
  echo "protobuf: not measured, protoc is absent"
fi
"$out/store" hostile
