#!/usr/bin/env python3
"""Messages for the program crates/request_vectors and what it must print, worked out here from document 01 alone.

vectors.py --write   writes crates/request_vectors/stdin and crates/request_vectors/stdout
vectors.py --check   fails unless both are what this script makes

The CRC is Python's own (binascii.crc_hqx), so that table and rule are compared with another implementation."""
import binascii
import random
import string

import written

OEM = bytes([0xCF, 0xC2, 0x00])
COUNT, ENUMERATE, OPEN, READ, WRITE, COMMIT, CLOSE, DELETE, STAT, SESSION_STAT, WRITE_META = range(11)
BASE, UNKNOWN = 0x20, 0x21
FLASH = {"image": 16, "hash": 17, "verify": 18, "update": 19, "cleanup": 20}
BODY = {COUNT: (0, 0), ENUMERATE: (6, 6), OPEN: (5, None), READ: (12, 12), WRITE: (8, None), COMMIT: (5, None), CLOSE: (4, 4),
        DELETE: (3, None), STAT: (3, None), SESSION_STAT: (4, 4), WRITE_META: (8, None)}


def crc(data):
    return binascii.crc_hqx(data, 0x1D0F)


def little(value, width):
    return value.to_bytes(width, "little")


def message(sub, fields=b""):
    return OEM + bytes([sub]) + (little(crc(fields), 2) + fields if fields else b"")


def number(data):
    return int.from_bytes(data, "little")


def name_of(body, at):
    """(kind, start, length) of the name that fills `body` and starts at the place `at` of its message, or None for a bad form."""
    if not body.endswith(b"\0") or body.count(0) != 1 or not 1 <= len(body) - 1 <= 31:
        return None
    text = body[:-1]
    if text == b"/scan/":
        return BASE, 0, 0
    letters = (string.ascii_letters + string.digits).encode()
    if text.startswith(b"/scan/") and len(text) <= 31 and all(b in letters for b in text[6:]):
        return 0, at, len(text)
    for word, blob in FLASH.items():
        if text == b"/flash/" + word.encode():
            return blob, 0, 0
    return UNKNOWN, 0, 0


def decode(m):
    """The five numbers of a line: subcommand or completion code, and the values."""
    def refused(code):
        return code, 0, 0, 0, 0

    if not 4 <= len(m) <= 64:
        return refused(0xC7)
    if m[:3] != OEM:
        return refused(0xCC)
    sub, body = m[3], m[4:]
    if sub > 10:
        return refused(0xC1)
    least, most = BODY[sub]
    if len(body) < least or most is not None and len(body) > most:
        return refused(0xC7)
    if body and number(body[:2]) != crc(body[2:]):
        return refused(0xCC)
    fields = body[2:]
    if sub in (OPEN, DELETE, STAT):
        skip = 2 if sub == OPEN else 0
        name = name_of(fields[skip:], 6 + skip)
        return refused(0xCC) if name is None else (sub, number(fields[:skip])) + name
    if sub == COUNT:
        return sub, 0, 0, 0, 0
    if sub == ENUMERATE:
        return sub, number(fields[:4]), 0, 0, 0
    session = number(fields[:2])
    if sub == READ:
        return sub, session, number(fields[2:6]), number(fields[6:10]), 0
    if sub == WRITE:
        return sub, session, number(fields[2:6]), 12, 0
    if sub == COMMIT:
        return sub, session, fields[2], len(fields) - 3, 0
    return sub, session, 0, 0, 0


def damaged(m):
    """The message with each of its bits turned over, one at a time."""
    for i in range(len(m) * 8):
        b = bytearray(m)
        b[i // 8] ^= 1 << i % 8
        yield bytes(b)


def messages():
    good = [message(COUNT), message(ENUMERATE, little(3, 4)), message(OPEN, little(3, 2) + b"/scan/moreau\0"),
            message(READ, little(1, 2) + little(90, 4) + little(58, 4)), message(WRITE, little(1, 2) + little(4044, 4) + b"x" * 52),
            message(COMMIT, little(1, 2) + b"\0"), message(CLOSE, little(0xFFFF, 2)), message(DELETE, b"/scan/moreau2\0"),
            message(STAT, b"/flash/image\0"), message(SESSION_STAT, little(1, 2)), message(WRITE_META, little(1, 2) + little(0, 4))]
    # document 01's three bad messages, and lengths
    yield from (b"", OEM + b"\x0b", b"\xcf\xc2\x01\x00", OEM, OEM + bytes(61), OEM + bytes(62), message(COUNT, b"\0"))
    # the OEM number comes before the subcommand, the subcommand before the body length, the body length before the CRC
    yield from (b"\xcf\xc2\x01\x0b", OEM + b"\x0b\0", OEM + b"\x06\0\0\0", message(CLOSE, b"\1\0\0"))
    yield from good
    for m in good:
        yield from (m[:-1], m + b"\0", message(m[3], m[6:] + b"\0"), message(m[3], m[6:-1]))
        yield from damaged(m)
    for sub in range(256):
        yield OEM + bytes([sub])
    # Commit with bytes behind its length byte, Write without bytes
    yield from (message(COMMIT, little(1, 2) + b"\2ab"), message(COMMIT, little(1, 2) + b"\0a"), message(WRITE, little(1, 2) + little(0, 4)))
    long = "x" * 31
    names = ["", "/", "/scan", "/scan/", "/scan/a", "/scan/Z9", "/scan/moreau", "/scan/moreau2", "/scan/a-b", "/scan/a_b", "/scan/a b", "/scan/@", "/scan/[", "/scan/`", "/scan/{", "/scan/:",
             "/scan//", "/Scan/a", "scan/a", "/scan/" + "x" * 25, "/scan/" + "x" * 26, "/scan/caf\xe9", "/flash", "/flash/", "/flash/image", "/flash/imag", "/flash/images", "/flash/Image", "/flash/hash",
             "/flash/verify", "/flash/update", "/flash/cleanup", long, long + "x", "\x01", "\xff"]
    for name in names:
        n = name.encode("latin-1")
        for end in (b"\0", b"", b"\0\0", b"\0a"):
            yield from (message(OPEN, little(1, 2) + n + end), message(DELETE, n + end), message(STAT, n + end))
    chance = random.Random(1)
    for _ in range(60):
        body = chance.randbytes(chance.randrange(60))
        yield message(chance.randrange(11), body)
        yield chance.randbytes(chance.randrange(70))


def line(numbers):
    n, a, b, c, d = numbers
    return f"{n:02x} {a:08x} {b:08x} {c:08x} {d:02x}\n"


def responses():
    """Worked responses, each at the front of an answer buffer that holds what the one before it left."""
    answer = bytearray(b"\xee" * 64)
    for m in (message(CLOSE), OEM + bytes([READ]) + little(crc(b""), 2), message(COUNT, little(4, 4)),
              message(STAT, little(0x0103, 2) + little(0x00010203, 4) + b"\0"), message(READ, b"0123456789" * 5 + b"01234567")):
        answer[:len(m)] = m
        yield answer.hex() + "\n"


def main():
    all_messages = list(messages())
    made = {"stdin": b"".join(bytes([len(m)]) + m for m in all_messages),
            "stdout": ("".join(responses()) + "".join(line(decode(m)) for m in all_messages)).encode()}
    assert crc(b"123456789") == 0xE5CC and crc(b"") == 0x1D0F
    assert len(made["stdin"]) <= 65536, "the program reads its input into one buffer"
    written.write_or_check("request_vectors", made)
    print(f"{len(all_messages)} messages, {len(made['stdin'])} bytes")


if __name__ == "__main__":
    main()
