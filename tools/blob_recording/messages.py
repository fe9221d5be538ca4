"""Messages of the blob protocol, and the request files that `blobrun` reads (docs/PROTOCOL.md, sections 1 to 3 and 20)."""
import binascii

OEM = b"\xcf\xc2\x00"
# in the order of the subcommands (rule 1.4)
NAMES = ["count", "enumerate", "open", "read", "write", "commit", "close", "delete", "stat", "sessionstat", "writemeta"]
HEADER_SIZE = 4
CRC_START = 0x1D0F
MESSAGE_SIZE = 64
WRITE_MOST = 52
READ_MOST = 58
SCAN_SIZE = 4096
NAME_MOST = 31
# the completion code of an absent blob or session (rule 7.6)
NOT_FOUND = 0xCB
# what the length byte of a record can say: more than a message may have, so that one too long can be recorded
RECORD_MOST = 255


def little(value, width):
    return value.to_bytes(width, "little")


def number(data):
    return int.from_bytes(data, "little")


def crc(data):
    """The CRC (rules 2.1 to 2.3)."""
    return binascii.crc_hqx(data, CRC_START)


def message(name, fields=b""):
    """The message of a subcommand with these fields."""
    return OEM + bytes([NAMES.index(name)]) + (little(crc(fields), 2) + fields if fields else b"")


def unframed(m):
    """(name, fields) of a message; None unless it has the OEM number, a subcommand, and either nothing behind or a CRC that fits."""
    if len(m) < HEADER_SIZE or m[:3] != OEM or m[3] >= len(NAMES):
        return None
    body = m[HEADER_SIZE:]
    if not body:
        return NAMES[m[3]], b""
    return (NAMES[m[3]], body[2:]) if len(body) >= 2 and number(body[:2]) == crc(body[2:]) else None


def record(clock, m):
    """One record of a request file."""
    return little(clock, 4) + bytes([len(m)]) + m


def records(data):
    """(clock, message) of each record, and (None, rest) where the last one is cut."""
    at = 0
    while at < len(data):
        head = data[at:at + 5]
        body = data[at + 5:at + 5 + head[4]] if len(head) == 5 else b""
        if len(head) < 5 or len(body) < head[4]:
            yield None, data[at:]
            return
        yield number(head[:4]), body
        at += 5 + len(body)
