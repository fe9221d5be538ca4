"""Messages as `ipmitool raw` takes them, and what it prints.

It takes words such as `0x2e 0x80 0xcf 0xc2 0x00 0x00`: network function, command, message. It prints a response as hex bytes, 16 a line, and a refusal as a line of
words that holds `rsp=0xcb`."""
import re

from blob_recording import messages
from blob_recording.files import Fault

NETWORK_FUNCTION, COMMAND = 0x2E, 0x80
BYTES_A_LINE = 16
REFUSED = re.compile(r"Unable to send RAW command \(.*\brsp=0x([0-9a-fA-F]{1,2})\)")
PRINTED = re.compile(r" *[0-9a-fA-F]{2}(?: [0-9a-fA-F]{2}){0,15} *")


def words(m, netfn=NETWORK_FUNCTION, command=COMMAND):
    """The words for one message."""
    return " ".join(f"0x{byte:02x}" for byte in bytes([netfn, command]) + m)


def word_lines(data, source, netfn=NETWORK_FUNCTION, command=COMMAND):
    """A line of words for each record of a request file; their clocks are left out, since the controller has its own."""
    for at, (clock, m) in enumerate(messages.records(data), 1):
        if clock is None:
            raise Fault(f"record {at} is cut", source)
        yield words(m, netfn, command)


def byte_of(word):
    """The byte that ipmitool takes a word for."""
    if re.fullmatch("0[0-9]+", word):
        raise Fault(f"{word}: ipmitool takes a number that starts with 0 as octal; write 0x..")
    if not re.fullmatch("0[xX][0-9a-fA-F]{1,2}|[0-9]{1,3}", word) or int(word, 0) > 255:
        raise Fault(f"{word} is no byte, as 0x2e or 46")
    return int(word, 0)


def message_of(line, netfn, command):
    """The message of a line of words; what stands up to the word `raw` is left out. None for an empty line or a comment."""
    given = line.split("#")[0].split()
    if "raw" in given:
        given = given[len(given) - given[::-1].index("raw"):]
    elif not given:
        return None
    data = bytes(map(byte_of, given))
    if data[:2] != bytes([netfn, command]):
        raise Fault(f"not a line for network function 0x{netfn:02x} and command 0x{command:02x}")
    if len(data) - 2 > messages.RECORD_MOST:
        raise Fault(f"a message of {len(data) - 2} bytes: a record holds at most {messages.RECORD_MOST}")
    return data[2:]


def requests(lines, source, netfn=NETWORK_FUNCTION, command=COMMAND, clock=0):
    """The request file of lines that ipmitool takes."""
    out = bytearray()
    for at, line in enumerate(lines, 1):
        try:
            m = message_of(line, netfn, command)
        except Fault as fault:
            raise fault.within(source, at) from fault
        if m is not None:
            out += messages.record(clock, m)
    return bytes(out)


def response_ends(lines, start):
    """How many of the printed lines from there on can be one response: it goes on only behind a line of 16 bytes, and has 64 bytes at most."""
    end, last = start, min(len(lines), start + messages.MESSAGE_SIZE // BYTES_A_LINE)
    while end < last and PRINTED.fullmatch(lines[end]):
        end += 1
        yield end
        if len(lines[end - 1].split()) < BYTES_A_LINE:
            return


def response_at(lines, start):
    """(response, next line) of the one printed from that line on. Where it could end at several lines, its CRC tells."""
    fitting = []
    for end in response_ends(lines, start):
        data = bytes.fromhex("".join(lines[start:end]))
        if messages.unframed(data) and len(data) <= messages.MESSAGE_SIZE:
            fitting.append((data, end))
    if not fitting:
        raise Fault("no response: OEM number, subcommand, length or CRC is wrong")
    if len(fitting) > 1:
        raise Fault("the response could end at several lines: put an empty line behind it")
    return fitting[0]


def answer_lines(lines, source):
    """Lines as `blobrun` prints them, from what ipmitool printed for one request after another."""
    at = 0
    while at < len(lines):
        refused = REFUSED.search(lines[at])
        try:
            if refused and int(refused.group(1), 16):
                yield f"{int(refused.group(1), 16):02X}"
                at += 1
            elif PRINTED.fullmatch(lines[at]):
                response, end = response_at(lines, at)
                yield f"00 {response.hex().upper()}"
                at = end
            elif lines[at].strip():
                raise Fault(f"neither a response nor a completion code: {lines[at].strip()}")
            else:
                at += 1
        except Fault as fault:
            raise fault.within(source, at + 1) from fault
