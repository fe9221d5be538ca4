#!/usr/bin/env python3
"""traffic.py COUNT FILE: writes COUNT records of mixed traffic, the same each time: four clients that upload, read back, look at and close their scans, interleaved."""
import pathlib
import random
import sys

sys.path.insert(0, str(pathlib.Path(__file__).resolve().parent.parent.parent / "tools"))
import recording  # noqa: E402


def client(number, chance, opened):
    """The requests of one client without end; `opened` hands out the identifier that the next Open will get."""
    def little(value, width):
        return value.to_bytes(width, "little")

    while True:
        name = f"/scan/client{number}x{chance.randrange(3)}"
        session = little(opened(), 2)
        yield recording.message("open", little(3, 2) + name.encode() + b"\0")
        for i in range(8):
            yield recording.message("write", session + little(52 * i, 4) + chance.randbytes(52))
        yield recording.message("sessionstat", session)
        yield recording.message("commit", session + b"\0")
        for i in range(7):
            yield recording.message("read", session + little(58 * i, 4) + little(58, 4))
        yield recording.message("stat", name.encode() + b"\0")
        yield recording.message("close", session)
        yield recording.message("count")
        yield recording.message("enumerate", little(chance.randrange(8), 4))
        yield recording.message("read", session + little(0, 4) + little(58, 4))


def main():
    count, path = int(sys.argv[1]), sys.argv[2]
    chance = random.Random(1)
    given = iter(range(1 << 40))
    clients = [client(i, chance, lambda: next(given) % 65536) for i in range(4)]
    with open(path, "wb") as file:
        for i in range(count):
            m = next(chance.choice(clients))
            file.write((i // 1000).to_bytes(4, "little") + bytes([len(m)]) + m)


if __name__ == "__main__":
    main()
