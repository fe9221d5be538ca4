"""What was asked and what was answered: a request file beside the lines that `blobrun` printed for it, in words."""
import collections
import re

from blob_recording import messages, story
from blob_recording.files import Fault
from blob_recording.messages import number

CODES = {
    0xC0: "the blob or the flash is in use, or a job runs", 0xC1: "no such subcommand", 0xC4: "no free row or slot", 0xC7: "wrong length of the message or its body",
    0xC8: "the Write would end past the capacity", 0xC9: "index or offset out of range", 0xCB: "no such blob or session",
    0xCC: "wrong OEM number, CRC, form of name, flags or length byte", 0xD5: "this blob or session does not do that", 0xFF: "the state is not sound"}
# the bits of a blob's state (rule 15.4), lowest first
STATE_BITS = ["open for reading", "open for writing", "job running", "committed", "job failed"]
# how many bytes the fields of an accepted request's response have (rule 3.5); a name and the data of a Read vary
RESPONSE_SIZES = {"count": 4, "open": 2, "stat": 7, "sessionstat": 7, "write": 0, "commit": 0, "close": 0, "delete": 0, "writemeta": 0}
ON_SESSION = {"read", "write", "commit", "close", "sessionstat"}
LINE = re.compile("CUT|([0-9A-F]{2})(?: ((?:[0-9A-F]{2})+))?")

# A record and its line. For a cut record the clock is None and the message is what is left; the code is None with it. The name and the fields
# are those of an accepted request: its subcommand, and what stands behind the response's CRC. `at` is the number of the line.
Exchange = collections.namedtuple("Exchange", "at clock message code name fields")


def exchanges(data, lines, source):
    """Each record of a request file with its line, checked against each other; `source` is what the file of the lines is called."""
    wanted = list(messages.records(data))
    for at, (clock, m) in enumerate(wanted, 1):
        try:
            if at > len(lines):
                raise Fault(f"the lines end, and the request file has {len(wanted)} records")
            yield exchange(at, clock, m, lines[at - 1])
        except Fault as fault:
            raise fault.within(source, at) from fault
    if len(lines) > len(wanted):
        raise Fault(f"a line too many: the request file has {len(wanted)} records", source, len(wanted) + 1)


def exchange(at, clock, m, line):
    """One record with its line."""
    found = LINE.fullmatch(line)
    if not found:
        raise Fault(f"no line of an answer: {line}")
    if (clock is None) != (line == "CUT"):
        raise Fault(f"{line} stands for a record that is {'cut' if clock is None else 'whole'}")
    if clock is None:
        return Exchange(at, None, m, None, None, None)
    code, response = int(found.group(1), 16), found.group(2)
    if (code == 0) != (response is not None):
        raise Fault("an accepted request has a response, and a refused one has none")
    name, fields = response_to(m, bytes.fromhex(response)) if code == 0 else (None, None)
    return Exchange(at, clock, m, code, name, fields)


def is_name(fields):
    """A name and its NUL (rule 4.1)."""
    return 1 <= len(fields) - 1 <= messages.NAME_MOST and fields[-1:] == b"\0" and fields.count(0) == 1


def can_be_accepted(m, name, fields):
    """Whether there is a state in which the request is accepted, by its length (rules 1.2 and 3.1) and the form of its name (rule 4.1)."""
    exact = {"count": 0, "enumerate": 4, "read": 10, "commit": 3, "close": 2, "sessionstat": 2}
    if len(m) > messages.MESSAGE_SIZE or name == "writemeta":
        return False
    if name in ("open", "delete", "stat"):
        return is_name(fields[2:] if name == "open" else fields)
    return len(fields) >= 6 if name == "write" else len(fields) == exact[name]


def response_to(m, response):
    """(name, fields) of the response, if it can be one to that request."""
    asked, answered = messages.unframed(m), messages.unframed(response)
    if not asked or not answered or asked[0] != answered[0] or len(response) > messages.MESSAGE_SIZE:
        raise Fault(f"{response.hex().upper()} is no response to {story.asked(m)}")
    name, fields = answered
    if not can_be_accepted(m, *asked):
        raise Fault(f"{story.asked(m)} cannot be accepted")
    if name == "read" and len(fields) > number(asked[1][6:10]):
        raise Fault(f"{len(fields)} bytes are answered to {story.asked(m)}")
    size_fits = len(fields) == RESPONSE_SIZES.get(name, len(fields)) and (len(response) > messages.HEADER_SIZE) == (RESPONSE_SIZES.get(name) != 0)
    if not size_fits or name == "enumerate" and not is_name(fields):
        raise Fault(f"{response.hex().upper()} has not the form of a response to {story.asked(m)}")
    return name, fields


def state_in_words(state):
    """The bits of a blob's state."""
    words = [word for bit, word in enumerate(STATE_BITS) if state >> bit & 1]
    if not state & 3:
        words.insert(0, "not open")
    unknown = state >> len(STATE_BITS) << len(STATE_BITS)
    return ", ".join(words + ([f"unknown bits {unknown:04x}"] if unknown else []))


def stat_in_words(fields):
    """State, size and metadata length (rule 15.3)."""
    state = number(fields[:2])
    metadata = f", metadata length {fields[6]}" if fields[6] else ""
    return f"state {state:04x}: {state_in_words(state)}; size {number(fields[2:6])}{metadata}"


def counted(count, what):
    """A number of things."""
    return f"{count} {what}" if count == 1 else f"{count} {what}s"


RESPONSES = {
    "count": lambda fields: counted(number(fields), "name"),
    "enumerate": lambda fields: story.shown_name(fields[:-1]),
    "open": lambda fields: f"session {number(fields)}",
    "read": lambda fields: f"{counted(len(fields), 'byte')} {story.shown_data(fields)}",
    "stat": stat_in_words,
    "sessionstat": stat_in_words,
}


def refusal(code):
    """A completion code that is not success, in words."""
    return f"refused, code {code:02X}: {CODES.get(code, 'no code of this library')}"


def answered(one):
    """What was answered, in words."""
    if one.code:
        return refusal(one.code)
    return f"accepted: {RESPONSES[one.name](one.fields)}" if one.name in RESPONSES else "accepted"


def show(data, lines, source):
    """A line in words for each request."""
    for one, said in told(exchanges(data, lines, source)):
        yield f"{'':10} a cut record of {len(one.message)} bytes -> CUT" if one.clock is None else f"{one.clock:10} {story.asked(one.message)} -> {said}"


def told(all_exchanges):
    """Each exchange with its answer in words. A request that was accepted on a session which no Open of the recording was given is pointed out:
    it met a session of somebody else."""
    opened = set()
    for one in all_exchanges:
        said = answered(one) if one.clock is not None else ""
        if one.code == 0 and one.name == "open":
            opened.add(number(one.fields))
        elif one.code == 0 and one.name in ON_SESSION:
            session = number(messages.unframed(one.message)[1][:2])
            said += "" if session in opened else f" (but no Open here was given session {session})"
            opened -= {session} if one.name == "close" else set()
        yield one, said


def tell(asked, made, lines, source):
    """The readable lines of a recording with the answer behind each request, comments kept; `made` is the request file that the lines stand for."""
    answers = [said for _, said in told(exchanges(made, lines, source))]
    for line in asked:
        words, end = story.words_and_end(line)
        said = f"{line[:end].rstrip()} -> {answers.pop(0)}" if words else ""
        yield "  ".join(filter(None, [said, line[end:]]))
