"""Requests and responses of the blob commands as bytes, from the words of a story; with a CRC of its own (Python's)."""
import binascii
import hashlib
import random

OEM = bytes([0xCF, 0xC2, 0x00])
COMMANDS = ["count", "enumerate", "open", "read", "write", "commit", "close", "delete", "stat", "sessionstat", "writemeta"]
WRITE_MOST, READ_MOST = 52, 58
CRC_START = 0x1D0F

# Bytes to upload, by name: of every value, and the same in each run.
MADE = {"scan": random.Random(1).randbytes(4096), "greatest": random.Random(2).randbytes(16384), "image": random.Random(3).randbytes(10000)}
MADE["hash"] = hashlib.sha256(MADE["image"]).digest()
# as long as the hash of the greatest image, and other than that in the last byte alone
MADE["wronghash"] = hashlib.sha256(MADE["greatest"]).digest()[:-1] + bytes([hashlib.sha256(MADE["greatest"]).digest()[-1] ^ 1])


def little(value, width):
    return int(value).to_bytes(width, "little")


def name(text):
    return text.encode("ascii") + b"\0"


def data(words):
    """Bytes as a story gives them: 'text' in quotes, or hex."""
    text = " ".join(words)
    return text[1:-1].encode("ascii") if text.startswith("'") and text.endswith("'") else bytes.fromhex(text)


# The fields of each request, from the words behind its name.
REQUESTS = {
    "count": lambda: b"",
    "enumerate": lambda index: little(index, 4),
    "open": lambda blob, flags: little(int(flags, 16), 2) + name(blob),
    "read": lambda session, offset, count: little(session, 2) + little(offset, 4) + little(count, 4),
    "write": lambda session, offset, *words: little(session, 2) + little(offset, 4) + data(words),
    "commit": lambda session: little(session, 2) + b"\0",
    "close": lambda session: little(session, 2),
    "delete": name,
    "stat": name,
    "sessionstat": lambda session: little(session, 2),
    "writemeta": lambda session: little(session, 2) + bytes(4),
}

# The fields of each response, from the words behind the code.
RESPONSES = {
    "count": lambda number: little(number, 4),
    "name": name,
    "session": lambda session: little(session, 2),
    "bytes": lambda *words: data(words),
    "state": lambda state, _, size: little(int(state, 16), 2) + little(size, 4) + b"\0",
}


def framed(command, fields, empty=False):
    """Header, and CRC and fields where there are fields; the response to a Read has its CRC even when they are empty."""
    crc = little(binascii.crc_hqx(fields, CRC_START), 2) if fields or empty else b""
    return OEM + bytes([COMMANDS.index(command)]) + crc + fields


def request(words):
    """The message of a request in words."""
    if words[0] == "raw":
        return bytes.fromhex("".join(words[1:]))
    return framed(words[0], REQUESTS[words[0]](*words[1:]))


def response(asked, words):
    """What must come back, as one string of bytes: the completion code, and for a success the response."""
    code = bytes.fromhex(words[0])
    if code != b"\0":
        return code
    fields = RESPONSES[words[1]](*words[2:]) if words[1:] else b""
    return code + framed(asked[0], fields, empty=asked[0] == "read")


def writes(session, content):
    """Requests and responses of an upload: Writes of the greatest size, one behind the other."""
    for at in range(0, len(content), WRITE_MOST):
        yield framed("write", little(session, 2) + little(at, 4) + content[at:at + WRITE_MOST]), b"\0" + framed("write", b"")


def reads(session, content):
    """Requests and responses of a download, and of one Read behind the end."""
    for at in [*range(0, len(content), READ_MOST), len(content)]:
        yield (framed("read", little(session, 2) + little(at, 4) + little(READ_MOST, 4)),
               b"\0" + framed("read", content[at:at + READ_MOST], empty=True))
