#!/usr/bin/env python3
"""protobuf.py FILE TIMES: what Python's protobuf takes for the store in FILE, beside what the library took (TIMES, as store.c writes it).

Needs the messages of tests/store_file.proto as protoc makes them."""
import pathlib
import sys
import time

import store_file_pb2
from google.protobuf.internal import api_implementation

REPEATS = 2001


def measure(what, run):
    """(the least, the median) time of some repetitions, in nanoseconds."""
    times = []
    for _ in range(REPEATS):
        start = time.perf_counter_ns()
        run()
        times.append(time.perf_counter_ns() - start)
    times.sort()
    print(f"{what:<60} least {times[0]:11} ns   median {times[REPEATS // 2]:11} ns")
    return times[0], times[REPEATS // 2]


def beside(what, library, other):
    print(f"{what:<60} {library[0] / other[0]:.2f} times (least), {library[1] / other[1]:.2f} times (median)")


def main():
    data = pathlib.Path(sys.argv[1]).read_bytes()
    numbers = list(map(float, pathlib.Path(sys.argv[2]).read_text(encoding="ascii").split()))
    store = store_file_pb2.BinaryBlobStore.FromString(data)
    if len(store.blob) != 16 or store.SerializeToString() != data:
        sys.exit("protobuf reads another store")
    how = f"protobuf in Python ({api_implementation.Type()})"
    serialize = measure(f"{how}: SerializeToString", store.SerializeToString)
    parse = measure(f"{how}: ParseFromString", lambda: store.ParseFromString(data))
    beside("saving beside it", numbers[:2], serialize)
    beside("loading beside it", numbers[2:], parse)


if __name__ == "__main__":
    main()
