#!/usr/bin/env python3
"""blobrun and the second implementation's own program print the same lines: for the examples, and for files of random requests, some cut short.

Needs target/bin/blobrun (tools/build.sh) and target/second/release/second_run (cargo build --release in second/, target folder target/second)."""
import pathlib
import random
import subprocess
import sys

ROOT = pathlib.Path(__file__).resolve().parent.parent
sys.path.insert(0, str(ROOT / "tools"))
import recording  # noqa: E402

PROGRAMS = [ROOT / "target" / "bin" / "blobrun", ROOT / "target" / "second" / "release" / "second_run"]
NAMES = ["/scan/a", "/scan/b", "/scan/moreau", "/scan/moreau2", "/scan/", "/scan/a-b", "/flash/image", "/flash/hash", "/flash/verify", "/flash/update", "/flash/cleanup", "/nothing"]


def line(chance, clock):
    session, offset = chance.randrange(20), chance.choice([0, 0, 1, 50, 52, 4044, 4045, 100000])
    words = chance.choice([
        f"open {chance.choice(NAMES)} {chance.choice(['0001', '0002', '0003', '0003', '0103'])}", f"read {session} {offset} {chance.choice([0, 10, 58, 100])}",
        f"write {session} {offset} {chance.randbytes(chance.randrange(1, 53)).hex()}", f"commit {session}", f"close {session}", f"delete {chance.choice(NAMES)}",
        f"stat {chance.choice(NAMES)}", f"sessionstat {session}", f"writemeta {session}", "count", f"enumerate {chance.randrange(10)}", f"raw {chance.randbytes(chance.randrange(70)).hex()}"])
    return f"{clock} {words}"


def history(chance):
    clock, lines = 0, []
    for _ in range(chance.randrange(1, 3000)):
        clock = min(max(clock + chance.choice([0, 0, 1, 5, 30, 700, -10]), 0), 0xFFFFFFFF)
        lines.append(line(chance, clock))
    data = recording.make("\n".join(lines))
    return data[:chance.randrange(len(data))] if chance.random() < 0.3 else data


def main():
    chance = random.Random(20261115)
    files = [path.read_bytes() for path in sorted((ROOT / "examples").glob("*.requests"))] + [history(chance) for _ in range(60)]
    total = 0
    for number, data in enumerate(files):
        first, second = (subprocess.run([str(program)], input=data, capture_output=True, check=True).stdout for program in PROGRAMS)
        total += first.count(b"\n")
        if first != second:
            at = next(i for i, (a, b) in enumerate(zip(first.split(b"\n"), second.split(b"\n"))) if a != b)
            sys.exit(f"file {number}, line {at + 1}: blobrun {first.split(bytes([10]))[at]!r}, second {second.split(bytes([10]))[at]!r}")
    print(f"{len(files)} files, {total} lines, the same")


if __name__ == "__main__":
    main()
