#!/usr/bin/env python3
"""States for the program crates/sound_cases, each with a verdict given by hand from document 01.

sound_cases.py --write   writes crates/sound_cases/stdin and crates/sound_cases/stdout
sound_cases.py --check   fails unless both are what this script makes"""
import written

CONTROL, TABLE, NAMES, COMMITTED, STAGED, TEST = range(6)
IDLE, UPLOADING, VERIFIED = range(3)


def control(place, value):
    return [(CONTROL, place, value)]


def rows(mask):
    return control(0, mask)


def slots(mask, marks):
    return control(1, mask) + control(2, marks)


def committed_length(k, n):
    return control(3 + k, n)


def staged_length(k, n):
    return control(19 + k, n)


def phase(p):
    return control(35, p)


def image(n):
    return control(36, n)


def hash_(n):
    return control(37, n)


def next_(n):
    return control(38, n)


def row(r, *words):
    return [(TABLE, 4 * r + j, w) for j, w in enumerate(words)]


def name(k, text):
    return [(NAMES, 32 * k + i, b) for i, b in enumerate(text)]


def flash(p, blob, status, flags=2):
    return phase(p) + rows(1) + row(0, 5, blob, flags + status * 65536)


CLEAN = 262144
HELD = slots(1, 1) + name(0, b"/scan/a")
NEW = slots(1, 0) + name(0, b"/scan/a") + rows(1)

CASES = [
    ("fresh", [], True),
    ("mask of rows 65,536", rows(65536), False),
    ("mask of slots 65,536", slots(65536, 0), False),
    ("mask of slots committed 65,536", slots(0, 65536), False),
    ("next 65,535", next_(65535), True),
    ("next 65,536", next_(65536), False),
    ("image 16,384", phase(UPLOADING) + image(16384), True),
    ("image 16,385", phase(UPLOADING) + image(16385), False),
    ("hash 64", phase(VERIFIED) + hash_(64), True),
    ("hash 65", phase(VERIFIED) + hash_(65), False),
    ("image in Idle", image(1), False),
    ("hash in Idle", hash_(1), False),
    ("unused row, identifier", row(3, 1), False),
    ("unused row, stamp", row(3, 0, 0, 0, 1), False),
    ("unused slot, first name byte", name(7, b"/"), False),
    ("unused slot, last name byte", [(NAMES, 511, 1)], False),
    ("unused slot, mark", slots(0, 4), False),
    ("unused slot, committed length", committed_length(15, 1), False),
    ("unused slot, staged length", staged_length(15, 1), False),
    ("unused slot, first committed byte", [(COMMITTED, 0, 1)], False),
    ("unused slot, last committed byte", [(COMMITTED, 65535, 1)], False),
    ("unused slot, last staged byte", [(STAGED, 65535, 255)], False),
    ("held slot", HELD, True),
    ("held slot, bytes in both regions", HELD + [(COMMITTED, 4095, 1), (STAGED, 0, 1)], True),
    ("held slot, a byte of the next slot", HELD + [(COMMITTED, 4096, 1)], False),
    ("held slot, committed length 4,096", HELD + committed_length(0, 4096), True),
    ("held slot, committed length 4,097", HELD + committed_length(0, 4097), False),
    ("held slot, staged length without a writing row", HELD + staged_length(0, 1), False),
    ("held slot, staged length beside a read-only row", HELD + staged_length(0, 1) + rows(1) + row(0, 9, 0, 1 + CLEAN), False),
    ("held slot, staged length with a writing row", HELD + staged_length(0, 4096) + rows(1) + row(0, 9, 0, 3), True),
    ("25 letters", slots(1, 1) + name(0, b"/scan/" + b"Z" * 25), True),
    ("26 letters", slots(1, 1) + name(0, b"/scan/" + b"Z" * 26), False),
    ("no letter", slots(1, 1) + name(0, b"/scan/"), False),
    ("another letter case of the base", slots(1, 1) + name(0, b"/Scan/a"), False),
    ("a hyphen", slots(1, 1) + name(0, b"/scan/a-b"), False),
    ("a byte behind the NUL", HELD + [(NAMES, 31, 65)], False),
    ("two slots, one name", slots(0x8001, 0x8001) + name(0, b"/scan/moreau") + name(15, b"/scan/moreau"), False),
    ("two slots, one name longer", slots(0x8001, 0x8001) + name(0, b"/scan/moreau") + name(15, b"/scan/moreau2"), True),
    ("new slot, writing row", NEW + row(0, 0, 0, 3), True),
    ("new slot, no row", slots(1, 0) + name(0, b"/scan/a"), False),
    ("new slot, committed length", NEW + row(0, 0, 0, 3) + committed_length(0, 1), False),
    ("new slot, clean row", NEW + row(0, 0, 0, 3 + CLEAN), False),
    ("new slot, read-only row", NEW + row(0, 0, 0, 1 + CLEAN), False),
    ("held slot, clean writing row", HELD + rows(1) + row(0, 65535, 0, 3 + CLEAN, 4294967295), True),
    ("held slot, read-only row", HELD + rows(0x8000) + row(15, 1, 0, 1 + CLEAN), True),
    ("held slot, read-only row not clean", HELD + rows(0x8000) + row(15, 1, 0, 1), False),
    ("store row, flags 2", HELD + rows(1) + row(0, 1, 0, 2), False),
    ("store row, status", HELD + rows(1) + row(0, 1, 0, 3 + 65536), False),
    ("store row, bit 19", HELD + rows(1) + row(0, 1, 0, 3 + 524288), False),
    ("store row, slot not in use", rows(1) + row(0, 1, 4, 3), False),
    ("identifier 65,536", HELD + rows(1) + row(0, 65536, 0, 3), False),
    ("two rows on one blob", HELD + rows(3) + row(0, 1, 0, 3) + row(1, 2, 0, 3), False),
    ("two rows, one identifier", slots(3, 3) + name(0, b"/scan/a") + name(1, b"/scan/b") + rows(3) + row(0, 1, 0, 3) + row(1, 1, 1, 3), False),
    ("two rows", slots(3, 3) + name(0, b"/scan/a") + name(1, b"/scan/b") + rows(3) + row(0, 1, 0, 3) + row(1, 2, 1, 3), True),
    ("image row, Uploading", flash(UPLOADING, 16, 0), True),
    ("image row, Idle", flash(IDLE, 16, 0), False),
    ("hash row, Verified", flash(VERIFIED, 17, 0), False),
    ("image row, running", flash(UPLOADING, 16, 1), False),
    ("verify row, Idle", flash(IDLE, 18, 0), False),
    ("verify row, Verified, untried", flash(VERIFIED, 18, 0), True),
    ("verify row, Verified, failed", flash(VERIFIED, 18, 3), False),
    ("verify row, Uploading, succeeded", flash(UPLOADING, 18, 2), True),
    ("update row, Verified, failed", flash(VERIFIED, 19, 3), True),
    ("update row, Uploading", flash(UPLOADING, 19, 0), False),
    ("cleanup row, Verified", flash(VERIFIED, 20, 0), True),
    ("cleanup row, Idle, succeeded", flash(IDLE, 20, 2), True),
    ("cleanup row, Uploading, succeeded", flash(UPLOADING, 20, 2), False),
    ("cleanup row, running", flash(IDLE, 20, 1), False),
    ("blob 21", flash(IDLE, 21, 0), False),
    ("flash row, flags 3", flash(IDLE, 20, 0, 3), False),
    ("flash row, clean", flash(IDLE, 20, 4), False),
    ("two flash rows", phase(UPLOADING) + rows(3) + row(0, 1, 16, 2) + row(1, 2, 17, 2), False),
]


def record(what, place, value):
    return bytes([what]) + place.to_bytes(2, "little") + value.to_bytes(4, "little")


def main():
    given, said = bytearray(), ""
    for _, changes, sound in CASES:
        for change in changes:
            given += record(*change)
        given += record(TEST, 0, 0)
        for what, place, _ in changes:
            given += record(what, place, 0)
        said += "sound\n" if sound else "not sound\n"
    written.write_or_check("sound_cases", {"stdin": bytes(given), "stdout": said.encode()})
    print(f"{len(CASES)} states")


if __name__ == "__main__":
    main()
