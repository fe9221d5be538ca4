#!/usr/bin/env python3
"""Store files beside Protocol Buffers: protobuf reads what blobrun saves, and blobrun makes of a file what protobuf makes of it. And the options
--load and --save, as they are used.

store_file.py --check [PROGRAM]    PROGRAM takes blobrun's arguments (default target/bin/blobrun: tools/build.sh)
                                   not run where protoc or python3's protobuf module is absent (tools/peers.sh)"""
import collections
import contextlib
import importlib
import itertools
import os
import pathlib
import random
import re
import resource
import shutil
import string
import subprocess
import sys
import tempfile
import warnings

ROOT = pathlib.Path(__file__).resolve().parent.parent
sys.path.insert(0, str(ROOT / "tools"))
import recording  # noqa: E402

PROGRAM = pathlib.Path(sys.argv[2]).resolve() if len(sys.argv) > 2 else ROOT / "target" / "bin" / "blobrun"
PROTO = ROOT / "tests" / "store_file.proto"
PYTHON = "/usr/bin/python3"  # the module that tools/peers.sh installs belongs to this one
EXAMPLES = sorted((ROOT / "examples").glob("*.requests"))
NOBODY = 65534

# Of Protocol Buffers: the classes of the messages, what its parser raises, its text format. Set once it is seen to be there.
messages = DecodeError = text_format = None

BASE = b"/scan/"
STORE_NAME = re.compile(rb"/scan/[A-Za-z0-9]{1,25}")
SIZE_MOST, BLOBS_MOST = 4096, 16

# The wire types, and how many bytes a value of the fixed ones has.
NUMBER, EIGHT, COUNTED, GROUP, GROUP_END, FOUR = range(6)
WIDTHS = {EIGHT: 8, FOUR: 4}
# The largest number that a field has by protobuf's rules.
FIELD_MOST = 2 ** 29 - 1

# Where protobuf's reader and ours differ, and how. In the first three ours refuses what it has to; in the others it reads more than protobuf's parsers do.
DIFFERENCES = {
    "group": "a group: protobuf skips it, here E1",
    "type": "a known field of another type: unknown to protobuf, here E3",
    "bits": "a value above 64 bits: protobuf drops the upper ones, here E4",
    "long key": "a key of more than five bytes: protobuf refuses it",
    "long length": "a length of more than five bytes: protobuf refuses it",
    "wide key": "a field number above 2^29 - 1: protobuf drops the upper bits, so that it may become 0, 1 or 2"}
OF_CODE = {0xE1: "group", 0xE3: "type", 0xE4: "bits"}


def expect(what, found, wanted):
    if found != wanted:
        sys.exit(f"{what}:\n  found  {found!r:.400}\n  wanted {wanted!r:.400}")


# ---- Protocol Buffers


def not_run(why):
    print(f"storefile: not run: {why}")
    sys.exit(0)


def has_module(python):
    return subprocess.run([python, "-c", "import google.protobuf"], capture_output=True, check=False).returncode == 0


def find_peers():
    """Goes on under the python3 that has the module; where a peer is absent, that is said."""
    if not shutil.which("protoc"):
        not_run("protoc is absent")
    if sys.executable != PYTHON and os.path.exists(PYTHON) and has_module(PYTHON):
        os.execv(PYTHON, [PYTHON, *sys.argv])
    if not has_module(sys.executable):
        not_run("python3's protobuf module is absent")


def protoc(*words, data=None):
    return subprocess.run(["protoc", f"--proto_path={PROTO.parent}", *words, PROTO.name], input=data, capture_output=True, check=False)


def compile_messages(folder):
    global messages, DecodeError, text_format
    done = protoc(f"--python_out={folder}")
    expect("protoc compiles the messages", (done.returncode, done.stderr), (0, b""))
    sys.path.insert(0, str(folder))
    messages = importlib.import_module("store_file_pb2")
    DecodeError = importlib.import_module("google.protobuf.message").DecodeError
    text_format = importlib.import_module("google.protobuf.text_format")


@contextlib.contextmanager
def quiet():
    """Without the lines that libprotobuf writes about strings that are not UTF-8: in proto2 it takes them all the same."""
    kept, nowhere = os.dup(2), os.open(os.devnull, os.O_WRONLY)
    os.dup2(nowhere, 2)
    try:
        yield
    finally:
        os.dup2(kept, 2)
        os.close(kept)
        os.close(nowhere)


def raw(text):
    """The bytes of a string. One that is not UTF-8 comes as bytes."""
    return text if isinstance(text, bytes) else text.encode()


def parsed(data):
    """(base, [(name, scan)..]) as protobuf reads a file, what is absent being empty; None where it refuses it."""
    store = messages.BinaryBlobStore()
    with warnings.catch_warnings(record=True) as warned:
        warnings.simplefilter("always")
        try:
            store.ParseFromString(data)
        except DecodeError:
            return None
    if warned:
        return None  # at the end of a group without a beginning, and at a key 0, Python's parser stops and only warns; protoc refuses such a file
    return raw(store.blob_base_id), [(raw(blob.blob_id), blob.data) for blob in store.blob]


def message(blobs):
    """The store of these names and scans, both fields of each blob present."""
    store = messages.BinaryBlobStore(blob_base_id=BASE.decode())
    for name, scan in blobs:
        store.blob.add(blob_id=name.decode(), data=scan)
    return store


def verdict(base, blobs):
    """What is to be made of a store: the code of the first reason against it, or the list."""
    names = [name for name, _ in blobs]
    reasons = ((0xE6, base != BASE), (0xE7, not all(map(STORE_NAME.fullmatch, names))), (0xE8, len(set(names)) < len(names)),
               (0xE9, any(len(scan) > SIZE_MOST for _, scan in blobs)), (0xEA, len(blobs) > BLOBS_MOST))
    return next((code for code, holds in reasons if holds), blobs)


# ---- The wire encoding, by hand


def number(value, size=1):
    """A number in at least so many bytes."""
    out = bytearray()
    while value > 127 or len(out) + 1 < size:
        out.append(value & 127 | 128)
        value >>= 7
    return bytes(out) + bytes([value])


def field(place, value, kind=COUNTED, key_size=1, size=1):
    """A field, its key and its length (or number) in at least so many bytes."""
    key = number(place << 3 | kind, key_size)
    if kind == NUMBER:
        return key + number(value, size)
    return key + (number(len(value), size) if kind == COUNTED else b"") + value


class Wire(Exception):
    """A wire fault; its argument is the code."""


def number_at(data, at, what, forms):
    """(the number at a place, where it ends)"""
    end = next((i + 1 for i in range(at, min(at + 10, len(data))) if data[i] < 128), None)
    if end is None:
        raise Wire(0xE4)
    value = sum((byte & 127) << 7 * i for i, byte in enumerate(data[at:end]))
    if value >> 64:
        forms.update({"bits"} if what == "value" else ())
        raise Wire(0xE4)
    forms.update({f"long {what}"} if end - at > 5 and what != "value" else ())
    return value, end


def key_at(data, at, forms):
    """(field number, wire type, where the key ends)"""
    key, at = number_at(data, at, "key", forms)
    place, kind = key >> 3, key & 7
    if kind not in (NUMBER, COUNTED, *WIDTHS):
        forms.update({"group"} if kind == GROUP else ())
        raise Wire(0xE1)
    if place == 0:
        raise Wire(0xE2)
    if place in (1, 2) and kind != COUNTED:
        forms.add("type")
        raise Wire(0xE3)
    forms.update({"wide key"} if place > FIELD_MOST else ())
    return place, kind, at


def walked(data, forms, outer=True):
    """The message in a form that protobuf reads as we do: every number in shortest form, and in the place of a field number that is too large for
    protobuf its largest, which is unknown too. The first wire fault is raised. What is met of DIFFERENCES is added to the forms."""
    out, at = bytearray(), 0
    while at < len(data):
        place, kind, at = key_at(data, at, forms)
        if kind == NUMBER:
            value, at = number_at(data, at, "value", forms)
        else:
            size, at = number_at(data, at, "length", forms) if kind == COUNTED else (WIDTHS[kind], at)
            if at + size > len(data):
                raise Wire(0xE5)
            value, at = data[at:at + size], at + size
        if outer and place == 2:
            value = walked(value, forms, outer=False)
        out += field(min(place, FIELD_MOST), value, kind)
    return bytes(out)


# ---- The program


def run(*words, data=b"", program=PROGRAM, **options):
    """(standard output, standard error)"""
    done = subprocess.run([str(program), *map(str, words)], input=data, capture_output=True, check=False, **options)
    return done.stdout.decode("ascii"), done.stderr.decode()


def loaded(data, folder):
    """What the program makes of a store file: the names and scans that it then saves, or the code with which it refuses it."""
    store, again = folder / "store", folder / "again"
    store.write_bytes(data)
    again.unlink(missing_ok=True)
    words = [str(PROGRAM), "--load", str(store), "--save", str(again)]
    said = subprocess.run(words, stdin=subprocess.DEVNULL, stdout=subprocess.PIPE, stderr=subprocess.STDOUT, check=False).stdout.decode()
    code = re.fullmatch(f"{PROGRAM.name}: {re.escape(str(store))}: refused, (E[1-9A])\n", said)
    if code:
        expect("a refused file: nothing is saved", again.exists(), False)
        return int(code[1], 16)
    expect(f"what is said of {data[:150].hex()}", said, "")
    saved = again.read_bytes()
    _, blobs = parsed(saved)
    expect("what is saved is in protobuf's own form", saved, message(blobs).SerializeToString())
    return blobs


def upload(scans, first=0):
    """Lines that store these names and scans; the sessions are numbered from that one on."""
    return [line for at, (name, scan) in enumerate(scans, first) for line in recording.transfer.upload(name.decode(), scan, "a scan", session=at)]


def names_of(chance, count):
    """So many different names of the store, of any length."""
    names = set()
    while len(names) < count:
        names.add(BASE + "".join(chance.choices(string.ascii_letters + string.digits, k=chance.randrange(1, 26))).encode())
    return chance.sample(sorted(names), count)


# ---- What we save, protobuf reads


def saved_after(lines, folder):
    """The store file that is saved after these requests, all of which are accepted."""
    store = folder / "saved"
    out, said = run("--save", store, data=recording.make("\n".join(lines)))
    expect("the requests are accepted", ({line[:2] for line in out.splitlines()} | {"00"}, said), ({"00"}, ""))
    return store.read_bytes()


def same_to_protobuf(what, data, blobs):
    """The file is exactly this list, to protobuf in Python and to protoc."""
    found, wanted = messages.BinaryBlobStore.FromString(data), message(blobs)
    expect(f"{what}: the fields", [known.name for known, _ in found.ListFields()], ["blob_base_id", "blob"] if blobs else ["blob_base_id"])
    expect(f"{what}: the list", parsed(data), (BASE, blobs))
    expect(f"{what}: protobuf's own bytes", (found.SerializeToString(), wanted.SerializeToString()), (data, data))
    done = protoc("--decode=BinaryBlobStore", data=data)
    expect(f"{what}: protoc reads it", (done.returncode, done.stderr), (0, b""))
    expect(f"{what}: protoc shows it", text_format.Parse(done.stdout, messages.BinaryBlobStore()), wanted)


def saved(folder):
    """A fresh store, sixteen scans of many lengths, each of them alone, and a store with gaps, open sessions, and changes that are not committed."""
    chance = random.Random(1)
    names, lengths = names_of(chance, 17), (0, 1, 127, 128, 4095, 4096, 4096, 0, 51, 52, 53, 104, 255, 256, 2047, 3000)
    scans = [(name, chance.randbytes(length)) for name, length in zip(names, lengths)]
    same_to_protobuf("a fresh store", saved_after([], folder), [])
    same_to_protobuf("sixteen scans", saved_after(upload(scans), folder), scans)
    for name, scan in scans:
        same_to_protobuf(f"one scan of {len(scan)} bytes", saved_after(upload([(name, scan)]), folder), [(name, scan)])
    called = [name.decode() for name in names]
    asked = upload(scans[:6]) + [f"0 delete {called[1]}"] + upload(scans[6:7], 6)  # the seventh takes the second's slot
    asked += [f"0 open {called[16]} 0003", "0 write 7 0 'new'", f"0 open {called[2]} 0003", "0 write 8 0 'change'", f"0 open {called[3]} 0001"]
    asked += [f"0 delete {called[4]}"]
    same_to_protobuf("a store with gaps", saved_after(asked, folder), [scans[at] for at in (0, 6, 2, 3, 5)])


# ---- What protobuf reads, we read as it does


def scan_of(chance):
    return chance.randbytes(chance.choice((0, 1, 5, 40, 127, 128, 300, chance.choice((1000, 4095, 4096)))))


def with_reason(chance, blobs):
    """A store with a reason against it: another base, a name that is none, a name twice, too much data, too many blobs. (None: the field is absent.)"""
    reason, at = chance.randrange(5), chance.randrange(len(blobs) + 1)
    if reason == 0:
        return chance.choice((None, b"", b"/scan", b"/scan/a", b"/SCAN/", b"/scan/\0", b"scan")), blobs
    if reason == 1:
        names = None, b"", BASE, b"/scan/a-b", b"/scan/" + b"x" * 26, b"/scan/a\0", b"scan/a", b"/scan/a/b", "/scan/é".encode(), b"/flash/image", b"/scan/a "
        return BASE, blobs[:at] + [(chance.choice(names), scan_of(chance))] + blobs[at:]
    if reason == 2:
        name = blobs[at - 1][0] if blobs else b"/scan/a"
        return BASE, blobs[:at] + [(name, scan_of(chance)), (name, None)] + blobs[at:]
    if reason == 3:
        return BASE, blobs[:at] + [(b"/scan/long", chance.randbytes(chance.choice((4097, 5000))))] + blobs[at:]
    return BASE, [(name, None) for name in names_of(chance, chance.choice((BLOBS_MOST + 1, 40)))]


def store_of(chance):
    """(base, [(name, scan)..]) at random."""
    names = names_of(chance, chance.choice((0, 1, 2, 3, 5, BLOBS_MOST)))
    blobs = [(name, chance.choice((scan_of(chance), scan_of(chance), None))) for name in names]
    return with_reason(chance, blobs) if chance.random() < 0.3 else (BASE, blobs)


def present(**fields):
    """The fields that are there, as a message takes them."""
    return {name: value.decode() if name.endswith("_id") else value for name, value in fields.items() if value is not None}


def some(chance, **fields):
    return {name: value for name, value in fields.items() if chance.random() < 0.4}


def settings(chance):
    """Some of the three settings."""
    size, offset = chance.choices((0, 1024, 2 ** 32 - 1), k=2)
    return some(chance, max_size=size, sysfile_path=chance.choice(("", "/sys/x", "y" * 200)), offset=offset)


def written(chance):
    """A store as protobuf writes it."""
    base, blobs = store_of(chance)
    store = messages.BinaryBlobStore(**present(blob_base_id=base), **settings(chance))
    for name, scan in blobs:
        store.blob.add(**present(blob_id=name, data=scan))
    return store.SerializeToString()


def unknown(chance):
    """Some unknown fields, as protobuf writes them."""
    every = {"number": chance.choice((0, 300, 2 ** 64 - 1)), "eight": chance.getrandbits(64), "four": chance.getrandbits(32)}
    return messages.Unknown(**some(chance, **every, text=chance.choice((b"", field(1, BASE), chance.randbytes(150))))).SerializeToString()


def shuffled(chance, parts):
    return b"".join(chance.sample(parts, len(parts)))


def pieces(chance):
    """A store put together from what protobuf wrote one by one: fields in any order, unknown ones before, between, behind and inside, single ones
    repeated."""
    base, blobs = store_of(chance)
    out = [{"blob_base_id": base}, {"blob_base_id": chance.choices((None, b"", b"/other/", BASE), (12, 1, 1, 1))[0]}, settings(chance)]
    out = [messages.BinaryBlobStore(**present(**one)).SerializeToString() for one in out] + [unknown(chance) for _ in range(3)]
    for name, scan in blobs:
        again = {"blob_id": chance.choices((None, b"", b"other", name), (20, 1, 1, 1))[0]}, {"data": chance.choices((None, b"", bytes(4097)), (20, 1, 1))[0]}
        parts = [messages.BinaryBlob(**present(**one)).SerializeToString() for one in ({"blob_id": name}, {"data": scan}, *again)]
        out.append(messages.Blobs(blob=[shuffled(chance, parts + [unknown(chance), unknown(chance)])]).SerializeToString())
    return shuffled(chance, out)


def sizes(chance):
    """How long a key is, and a length or number: mostly the shortest form."""
    return {word: chance.choices((1, chance.randrange(2, 6), chance.randrange(6, 11)), (60, 9, 1))[0] for word in ("key_size", "size")}


def skipped(chance):
    """A field that is not known, of any of the four types; protobuf may not have its number, or take it for one that it knows."""
    usual, large = chance.choice((3, 4, 5, 6, 15, 16, 2047, 2048, FIELD_MOST)), chance.choice((2 ** 32, 2 ** 32 + 1, 2 ** 61 - 1))
    place = chance.choices((usual, large, 2 ** 29 * chance.randrange(1, 8) + chance.randrange(3)), (12, 1, 1))[0]
    kind = chance.choice((NUMBER, EIGHT, COUNTED, FOUR))
    values = {NUMBER: chance.choice((0, 127, 128, 2 ** 64 - 1)), COUNTED: chance.choice((b"", BASE, field(1, b"/scan/q"), chance.randbytes(20)))}
    return field(place, values[kind] if kind in values else chance.randbytes(WIDTHS[kind]), kind, **sizes(chance))


def faulty(chance):
    """What is a wire fault to us; it is not always one to protobuf."""
    known = chance.choice((1, 2))
    return chance.choice((
        number(chance.choice((known, 7)) << 3 | chance.choice((6, 7, GROUP_END))), number(chance.choice((NUMBER, COUNTED, EIGHT))) + b"\0",
        number(6 << 3 | GROUP) + skipped(chance) + number(chance.choice((6, 6, 7)) << 3 | GROUP_END),
        number(known << 3 | GROUP) + number(known << 3 | GROUP_END), field(known, 5, NUMBER), field(known, bytes(8), EIGHT), field(known, bytes(4), FOUR),
        field(6, chance.choice((2 ** 64, 2 ** 70 - 1, 2 ** 70)), NUMBER), b"\xff" * chance.randrange(1, 12), field(6, b"abc")[:-1],
        field(6, b"abcd", EIGHT), field(6, b"abc", FOUR),
        number(6 << 3 | COUNTED) + number(chance.choice((2 ** 31, 2 ** 32, 2 ** 63, 2 ** 64 - 1)))))


def by_hand(chance):
    """A store with numbers that are not in shortest form, unknown fields of any number, and faults in some."""
    base, blobs = store_of(chance)
    flaw = chance.random() < 0.3
    out = [field(1, base, **sizes(chance))] if base is not None else []
    for name, scan in blobs:
        parts = [field(place, value, **sizes(chance)) for place, value in ((1, name), (2, scan)) if value is not None]
        parts += [skipped(chance)] * (chance.random() < 0.2) + [faulty(chance)] * (flaw and chance.random() < 0.1)
        out.append(field(2, shuffled(chance, parts), **sizes(chance)))
    out += [skipped(chance) for _ in range(chance.randrange(3))] + [faulty(chance)] * (flaw and chance.random() < 0.7)
    return shuffled(chance, out)


def damaged(chance):
    """One of the others, with some bytes changed, dropped or doubled, or cut."""
    data = chance.choice((written, pieces, by_hand))(chance)
    at = chance.randrange(min(len(data), 60) + 1)  # the front has more keys and lengths than the scans behind
    end = at + chance.choice((1, 1, 2, 9))
    one_bit = bytes(byte ^ 1 << chance.randrange(8) for byte in data[at:at + 1]) + data[at + 1:end]
    data = data[:at] + chance.choice((one_bit, one_bit, chance.randbytes(end - at), b"", data[at:end] * 2)) + data[end:]
    return data[:chance.randrange(len(data) + 1)] if chance.random() < 0.1 else data


def difference(fault, forms, theirs):
    """Which of DIFFERENCES explains that protobuf makes something else of a file, or None."""
    if fault:
        reasons = [OF_CODE.get(fault)]
    else:
        reasons = ["long key", "long length", "wide key"] if theirs is None else ["wide key"]
    return next((reason for reason in reasons if reason in forms), None)


def compare(what, data, folder, tally):
    """A file, read by both. Where protobuf makes something else of it, one of DIFFERENCES is the reason; ours is then compared with what protobuf makes
    of the file's plain form."""
    forms, fault, plain, theirs = set(), 0, None, parsed(data)
    try:
        plain = parsed(walked(data, forms))
    except Wire as wire:
        [fault] = wire.args
    what = f"{what}, {data[:300].hex()}"
    if theirs != plain:
        reason = difference(fault, forms, theirs)
        expect(f"a known difference: {what}", reason in DIFFERENCES, True)
        tally[reason] += 1
    ours = loaded(data, folder)
    expect(what, ours, fault or verdict(*plain))
    tally["accepted" if isinstance(ours, list) else f"{ours:02X}"] += 1


def read_alike(folder):
    """Thousands of files: written by protobuf, put together from what it wrote, made by hand, damaged."""
    chance, tally = random.Random(20261116), collections.Counter()
    with quiet():
        for make, count in ((written, 600), (pieces, 800), (by_hand, 1300), (damaged, 1300)):
            for _ in range(count):
                compare(make.__name__, make(chance), folder, tally)
    answers = sorted(key for key in tally if key not in DIFFERENCES)
    print(f"store file, {sum(tally[key] for key in answers)} files read by both: " + ", ".join(f"{tally[key]} {key}" for key in answers))
    print("\n".join(f"store file, {tally[key]} of them read otherwise by protobuf: {why}" for key, why in DIFFERENCES.items()))
    expect("every difference is met", [key for key in DIFFERENCES if not tally[key]], [])


def protoc_alike(folder):
    """A store that protoc wrote from text; and two files where Python's parser only warns: protoc refuses them, and so do we."""
    chance = random.Random(2)
    blobs = [(name, chance.randbytes(40)) for name in names_of(chance, 3)]
    text = text_format.MessageToString(message(blobs)).encode()
    expect("a store that protoc wrote", loaded(protoc("--encode=BinaryBlobStore", data=text).stdout, folder), blobs)
    for end, code in ((b"\0\0", 0xE2), (number(6 << 3 | GROUP_END), 0xE1)):
        data = field(1, BASE) + end
        expect(f"{end.hex()} at the end", (protoc("--decode=BinaryBlobStore", data=data).returncode, loaded(data, folder)), (1, code))


# ---- Every code, by hand

# Front and only bytes of a message, in the store as in a blob.
WIRE_FAULTS = {
    0xE1: [b"\x0b", b"\x33\x34", b"\x34", b"\x0e", b"\x0f", b"\x03", b"\x36", b"\x93\x80\x00"],
    0xE2: [b"\x00", b"\x01", b"\x02\x00", b"\x05", b"\x80\x00", b"\x82\x80\x00\x00"],
    0xE3: [b"\x08\x01", b"\x09", b"\x0d", b"\x10", b"\x11", b"\x15", b"\x90\x00"],
    0xE4: [b"\x80", b"\xff" * 9 + b"\x02", b"\x8a" + b"\x80" * 9 + b"\x00", b"\x0a", b"\x30", b"\x30" + b"\xff" * 9 + b"\x02", b"\x30" + b"\x80" * 10 + b"\x00",
           b"\x0a\x80", b"\x32" + b"\xff" * 9 + b"\x7f"],
    0xE5: [b"\x0a\x01", b"\x32\x05abcd", b"\x31" + bytes(7), b"\x35" + bytes(3), b"\x32" + b"\xff" * 9 + b"\x01", b"\x0a\xff\xff\xff\xff\x0f", b"\x12\x01"]}


def all_loaded(what, files, code, folder):
    expect(what, [loaded(file, folder) for file in files], [code] * len(files))


def codes(folder):
    """Each code; which comes first where there are several; what counts of a repeated field."""
    base, blob, long = field(1, BASE), field(2, field(1, b"/scan/a")), field(2, field(1, b"/scan/b") + field(2, bytes(4097)))
    bad = field(2, field(1, BASE)) * 2 + long  # against it there are E6 to E9
    for code, ends in WIRE_FAULTS.items():
        for end in ends:
            all_loaded(f"{end.hex()} in a store", [end, base + end, base + blob + end, bad + end], code, folder)
            all_loaded(f"{end.hex()} in a blob", [base + field(2, end), base + field(2, end) + base + b"\x0e", bad + field(2, end)], code, folder)
    expect("an outer length past the end, before what is inside", loaded(b"\x12\x05\x00\x00", folder), 0xE5)
    many = base + b"".join(field(2, field(1, b"/scan/%d" % i)) for i in range(17))
    nameless = [base + field(2, inside) for inside in (b"", field(1, BASE), field(1, b"/scan/a\0"))]
    rows = {0xE7: nameless, 0xE8: [base + blob * 2, blob + base + blob], 0xE9: [base + long], 0xEA: [many]}
    baseless = [b"", blob] + [files[-1] + field(1, other) for files in rows.values() for other in (b"", b"/scan", b"/scan/x")]
    all_loaded("E6, before all behind it", baseless, 0xE6, folder)
    for code, files in rows.items():
        all_loaded(f"{code:02X}, before those behind it", files + [files[-1] + later[-1] for other, later in rows.items() if other > code], code, folder)
    expect("a base at the end", loaded(blob + base, folder), [(b"/scan/a", b"")])
    repeated = field(2, field(2, bytes(5000)) + field(1, b"x") + field(1, b"/scan/a") + field(2, b"y"))
    expect("of repeated fields the last", loaded(field(1, b"x") + repeated + base, folder), [(b"/scan/a", b"y")])


def large(folder):
    """Files of 1 MiB: a store behind an unknown field; tiny blobs, all names different, and one of them twice."""
    names = ["/scan/" + "".join(letters) for letters in itertools.product(string.ascii_letters + string.digits, repeat=3)][:2 ** 20 // 13 - 2]
    tiny = field(1, BASE) + b"".join(field(2, field(1, name.encode())) for name in names)
    blobs = [(name.encode(), bytes(SIZE_MOST)) for name in names[:BLOBS_MOST]]
    written = message(blobs).SerializeToString()
    skipped = 2 ** 20 - len(written) - len(field(6, bytes(2 ** 19))) + 2 ** 19
    expect("1 MiB, most of it skipped", (skipped + len(written) + 4, loaded(field(6, bytes(skipped)) + written, folder)), (2 ** 20, blobs))
    if PROGRAM.name == "blobrun":
        (folder / "store").write_bytes(field(6, bytes(skipped + 1)) + written)
        expect("a byte more", run("--load", folder / "store"), ("", f"blobrun: {folder / 'store'}: longer than a store file may be\n"))
    expect("1 MiB of tiny blobs", [loaded(tiny, folder), loaded(tiny + field(2, field(1, names[0].encode())), folder)], [0xEA, 0xE8])


# ---- The options, as they are used


def requests():
    """A recording that adds a scan; and a refusal."""
    return recording.make("\n".join([*upload([(b"/scan/new", b"a new scan")]), "0 count", "0 raw CFC2000B"]))


STORED = [(b"/scan/one", b"first"), (b"/scan/two", bytes(4096))]
ADDED = STORED + [(b"/scan/new", b"a new scan")]


@contextlib.contextmanager
def fresh(folder):
    """A new folder, and a store with two scans in it."""
    with tempfile.TemporaryDirectory(dir=folder) as name:
        here = pathlib.Path(name)
        here.chmod(0o755)
        store = here / "store"
        store.write_bytes(message(STORED).SerializeToString())
        yield here, store


def listing(folder):
    """All that is in a folder: names, and what files hold."""
    return {path.name: path.read_bytes() if path.is_file() else None for path in folder.iterdir()}


def fails(here, words, says, prints="", **options):
    """The program says one line on standard error, its name in front, and changes nothing in the folder."""
    what, before = " ".join(map(str, words)), listing(here)
    printed, said = run(*words, data=requests(), **options)
    expect(f"{what}: standard error", (said[:len(PROGRAM.name) + 2 + len(says)], said.count("\n")), (f"{PROGRAM.name}: {says}", 1))
    expect(f"{what}: standard output", printed, prints)
    expect(f"{what}: the folder", listing(here), before)


def refusals(folder):
    """Where the store cannot be loaded, nothing is run and nothing saved."""
    with fresh(folder) as (here, store):
        for name, data, code in (("empty", b"", "E6"), ("cut", store.read_bytes()[:-1], "E5"), ("twice", store.read_bytes() * 2, "E8")):
            bad = here / name
            bad.write_bytes(data)
            for words in ([], ["--save", store], ["--save", bad], ["--save", here / "new", "-"]):
                fails(here, ["--load", bad, *words], f"{bad}: refused, {code}\n")
            fails(here, ["--save", store, "--load", bad], f"{bad}: refused, {code}\n")
        for bad in (here / "absent", here, store / "below"):
            fails(here, ["--load", bad, "--save", store], f"{bad}: ")
            fails(here, ["--save", here / "new", "--load", bad], f"{bad}: ")


def unreadable(folder):
    """The same for a store that may not be read; root may read all, so then another user asks."""
    with fresh(folder) as (here, store):
        program = here / PROGRAM.name
        shutil.copy(PROGRAM, program)
        store.chmod(0)
        user = {"user": NOBODY, "group": NOBODY, "extra_groups": []} if os.geteuid() == 0 else {}
        try:
            printed, said = run("--load", store, data=requests(), program=program, **user)
        except PermissionError:
            print("store file, unreadable: not tested, since temporary files are in a folder that is closed to other users")
            return
        expect("a store that may not be read", (printed, said[:len(f"{program.name}: {store}: ")], said.count("\n")), ("", f"{program.name}: {store}: ", 1))


def small_files():
    """No file may become longer than 1,000 bytes; writing more fails, as on a full disk."""
    resource.setrlimit(resource.RLIMIT_FSIZE, (1000, 1000))


def unsaved(folder):
    """Where the store cannot be saved, the requests are answered all the same; the old store stays, and no other file is left."""
    with fresh(folder) as (here, store):
        answered = run("--load", store, data=requests())[0]
        (here / "folder").mkdir()
        for bad in (here / "absent" / "store", here / "folder", store / "below"):
            fails(here, ["--load", store, "--save", bad], "", answered)
        for place in (store, here / "new"):  # Python ignores the signal that comes with such a write, and so does what it starts
            fails(here, ["--load", store, "--save", place], "", answered, preexec_fn=small_files, restore_signals=False)


def bad_usage(folder):
    """Wrong options: said, and nothing is saved."""
    with fresh(folder) as (here, store):
        new = here / "new"
        wrong = ["--load"], ["--lode", store], ["--x"], ["--load", store, "--load", store], ["--save", here / "other"], [here / "a", here / "b"]
        for words in (["--save"], ["--load", store, "--save"], ["--lode", store, "--save", new], *(["--save", new, *words] for words in wrong)):
            before = listing(here)
            said = run(*words, data=requests())[1]
            expect(f"{words}: said, nothing saved", (said.startswith(f"{PROGRAM.name}: "), listing(here)), (True, before))


def saves(folder):
    """The options in both orders, with the requests from anywhere; onto the store that was loaded too. A saved store is a new file: what was the store
    before, under another name, stays as it was."""
    with fresh(folder) as (here, store):
        file, new, added = here / "requests", here / "new", message(ADDED).SerializeToString()
        file.write_bytes(requests())
        kept = listing(here)
        for words in (["--load", store, "--save", new], ["--save", new, "--load", store]):
            for source, data in (([], requests()), (["-"], requests()), ([file], b"")):
                expect(f"{words}: nothing said", run(*words, *source, data=data)[1], "")
                expect(f"{words}: the folder", listing(here), {**kept, "new": added})
        expect("loaded, not saved", (run("--load", store, file)[1], run("--load", new)), ("", ("", "")))
        expect("the store that was loaded is as it was", parsed(store.read_bytes()), (BASE, STORED))
        os.link(store, here / "old")
        expect("onto itself", run("--load", store, "--save", store, file)[1], "")
        expect("the new store, the old one, and nothing else", listing(here), {**kept, "old": kept["store"], "new": added, "store": added})
        expect("saved without loading", (run("--save", store, file)[1], parsed(store.read_bytes())), ("", (BASE, ADDED[2:])))


def lines(folder):
    """What is printed for the requests is the same with the options, where the store that is loaded is empty."""
    with fresh(folder) as (here, store):
        store.write_bytes(message([]).SerializeToString())
        for example in EXAMPLES:
            both = run("--save", here / "new", "--load", store, "-", data=example.read_bytes())
            expect(example.name, [run("--save", here / "new", example), run("--load", store, example), both], [run(example)] * 3)


def served(folder):
    """The scans of a loaded store, as requests read them."""
    with fresh(folder) as (here, store):
        chance = random.Random(3)
        scans = [(name, scan_of(chance)) for name in names_of(chance, BLOBS_MOST)]
        store.write_bytes(message(scans).SerializeToString())
        asked = recording.make("\n".join(line for at, (name, _) in enumerate(scans) for line in recording.transfer.download(name.decode(), session=at)))
        printed = run("--load", store, data=asked)[0].splitlines()
        for name, scan in scans:
            expect(f"{name}, read", recording.transfer.received(asked, printed, "what was printed", name.decode()), (name.decode(), scan, True))
        listed = run("--load", store, data=recording.make("\n".join(f"0 enumerate {i}" for i in range(1, 17))))[0].splitlines()
        expect("the names in the file's order", [bytes.fromhex(line[3:])[6:-1] for line in listed], [name for name, _ in scans])


def main():
    if sys.argv[1:2] != ["--check"] or len(sys.argv) > 3:
        sys.exit(__doc__)
    find_peers()
    with tempfile.TemporaryDirectory() as name:
        folder = pathlib.Path(name)
        folder.chmod(0o755)  # for `unreadable`, where another user comes here
        compile_messages(folder)
        for test in (saved, read_alike, protoc_alike, codes, large, served, lines, refusals, unreadable, unsaved, bad_usage, saves):
            test(folder)
            print(f"store file, {test.__name__.replace('_', ' ')}: as expected")


if __name__ == "__main__":
    main()
