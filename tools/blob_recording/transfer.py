"""A file as a recording that uploads it, a name as a recording that reads it back, and the bytes that such a recording brought."""
import re

from blob_recording import messages, story, transcript
from blob_recording.files import Fault
from blob_recording.messages import number

STORE_NAME = re.compile("/scan/[A-Za-z0-9]{1,25}")
READ_ONLY, READ_WRITE = "0001", "0003"


def checked_name(name):
    """The name, if the store can hold it (rule 4.3)."""
    if not STORE_NAME.fullmatch(name):
        raise Fault(f"{name}: a name of the store is /scan/ and 1 to 25 letters or digits")
    return name


def check_size(data, source):
    """Refuses more bytes than a name holds."""
    if len(data) > messages.SCAN_SIZE:
        raise Fault(f"longer than the {messages.SCAN_SIZE} bytes that a name holds", source)


def write_lines(data, session):
    """The Writes of all bytes, one behind the other."""
    for at in range(0, len(data), messages.WRITE_MOST):
        yield f"write {session} {at} {story.shown_data(data[at:at + messages.WRITE_MOST])}"


def read_lines(length, session):
    """The Reads of that many bytes."""
    for at in range(0, length, messages.READ_MOST):
        yield f"read {session} {at} {min(messages.READ_MOST, length - at)}"


def upload(name, data, source, session=0, clock=0, replace=False):
    """Lines that store the bytes under a name: Open for writing, Writes, Commit, Close."""
    check_size(data, source)
    lines = [f"delete {name}"] if replace else []
    lines += [f"open {checked_name(name)} {READ_WRITE}", *write_lines(data, session), f"commit {session}", f"close {session}"]
    return [f"{clock} {line}" for line in lines]


def download(name, length=messages.SCAN_SIZE, session=0, clock=0):
    """Lines that read the first bytes of a name, by default as many as it can hold: Open for reading, Reads, Close."""
    lines = [f"open {checked_name(name)} {READ_ONLY}", *read_lines(length, session), f"close {session}"]
    return [f"{clock} {line}" for line in lines]


def reads(data, lines, source, name=None):
    """(name, offset, bytes, whether the end was met, line) of each Read, of that name or of all; a refused Open or Read of it is a fault, and so are
    Reads between which what they read may have become another."""
    opened, views = {}, {}
    for one in transcript.exchanges(data, lines, source):
        asked, fields = messages.unframed(one.message) or (None, b"") if one.clock is not None else (None, b"")
        session = number(one.fields) if asked == "open" and one.code == 0 else number(fields[:2])
        if asked == "open" and one.code == 0:
            opened[session] = story.shown_name(fields[2:-1]), one.at
        elif asked == "write" and one.code == 0 and session in opened:
            opened[session] = opened[session][0], one.at
        whose, view = opened.get(session, (f"session {session}, which was not opened here,", 0))
        whose = story.shown_name(fields[2:-1]) if asked == "open" else whose
        if asked not in ("open", "read") or name not in (None, whose):
            continue
        if one.code:
            raise Fault(f"{story.asked(one.message)}: {transcript.refusal(one.code)}", source, one.at)
        if asked == "read":
            if views.setdefault(whose, view) != view:
                raise Fault(f"what this Read reads was opened anew, or written, since another Read of {whose}", source, one.at)
            short = len(one.fields) < min(number(fields[6:10]), messages.READ_MOST)
            yield whose, number(fields[2:6]), one.fields, short, one.at


def received(data, lines, source, name=None):
    """(name, bytes, whether they are all it has) that the Reads of one name brought, put together by their offsets."""
    found = list(reads(data, lines, source, name))
    names = sorted({whose for whose, *_ in found})
    if len(names) != 1:
        raise Fault(f"Reads of {len(names)} names: {', '.join(names)}; say which by --name" if names else "there is no Read" + (f" of {name}" if name else ""), source)
    got = bytearray()
    for _, offset, piece, _, at in sorted(found, key=lambda one: one[1]):
        if piece and offset > len(got):
            raise Fault(f"this Read starts at {offset}, and no Read brought the bytes from {len(got)} on", source, at)
        already = got[offset:offset + len(piece)]
        if already != piece[:len(already)]:
            raise Fault(f"this Read brought other bytes than another one from {offset} on", source, at)
        got += piece[len(already):]
    return names[0], bytes(got), met_the_end(found, len(got), source)


def met_the_end(found, length, source):
    """Whether a Read brought fewer bytes than it asked for just where the bytes end, or a name holds no more; it is a fault if one did so before."""
    met = length == messages.SCAN_SIZE
    for _, offset, piece, short, at in found:
        if short and offset + len(piece) < length:
            raise Fault(f"this Read met the end at {offset + len(piece)}, and another one brought bytes from behind it", source, at)
        met = met or short and offset <= length
    return met
