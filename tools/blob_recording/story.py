"""Readable lines of a recording: read into messages, and messages written as such lines.

A line is read strictly: what is not clearly one thing is refused, since a guess would store wrong bytes and tell nobody."""
import collections
import re

from blob_recording import files, messages
from blob_recording.files import Fault

# The fields of each request in the order of the message (rule 3.3), and the bytes that no word says: a Commit's length byte, a WriteMeta's offset.
FIELDS = {
    "count": [], "enumerate": ["INDEX"], "open": ["FLAGS", "NAME"], "read": ["SESSION", "OFFSET", "COUNT"], "write": ["SESSION", "OFFSET", "DATA"], "commit": ["SESSION"],
    "close": ["SESSION"], "delete": ["NAME"], "stat": ["NAME"], "sessionstat": ["SESSION"], "writemeta": ["SESSION"]}
REST = {"commit": b"\0", "writemeta": bytes(4)}
# A line says them in the same order, but for the flags of an Open.
WORDS = {**FIELDS, "open": ["NAME", "FLAGS"], "raw": ["DATA"]}
WIDTHS = {"CLOCK": 4, "INDEX": 4, "FLAGS": 2, "SESSION": 2, "OFFSET": 4, "COUNT": 4}

BLANKS = " \t"
QUOTES = "'\""
ESCAPES = {"\\": b"\\", "'": b"'", "\"": b"\"", "n": b"\n", "r": b"\r", "t": b"\t"}
CONTROL = re.compile(r"[\x00-\x08\x0a-\x1f\x7f-\x9f]")
PLAIN = re.compile(r"[!-~]+")
BARE_NAME = re.compile(rb"[!$-&(-\[\]-~]+")  # printable, without blank, quotes, number sign and backslash

# One word of a line: as it is written, what it stands for, and whether it is in quotes.
Word = collections.namedtuple("Word", "text data quoted")


def words_of(line):
    """The words of a line, up to its comment."""
    return words_and_end(line)[0]


def words_and_end(line):
    """The words of a line, and where its comment starts, or the line's length where it has none."""
    control = CONTROL.search(line)
    if control:
        raise Fault(f"a control character: in quotes it is written \\x{ord(control.group()):02x}")
    words, at = [], 0
    while True:
        while line[at:at + 1] and line[at] in BLANKS:
            at += 1
        if at == len(line) or line[at] == "#":
            return words, at
        word = quoted(line, at) if line[at] in QUOTES else plain(line, at)
        at += len(word.text)
        if line[at:at + 1] and line[at] not in BLANKS:
            raise Fault(f"a blank is missing behind {word.text}" if word.quoted else f"{line[at]} stands outside quotes")
        words.append(word)


def plain(line, at):
    """The word without quotes that starts there."""
    found = PLAIN.match(line, at)
    text = found.group() if found else ""
    for mark, why in (("#", "put a blank before a comment, or the word in quotes"), ("'", "put the whole word in quotes"), ("\"", "put the whole word in quotes"),
                      ("\\", "it is an escape only in quotes")):
        if mark in text:
            raise Fault(f"{mark} inside the word {text}: {why}")
    if not text:
        raise Fault(f"{line[at]} stands outside quotes")
    return Word(text, text.encode("ascii"), False)


def quoted(line, start):
    """The word in quotes that starts there; its text is kept as UTF-8."""
    mark, at, data = line[start], start + 1, bytearray()
    while line[at:at + 1] != mark:
        if at >= len(line):
            raise Fault(f"a quote is left open: {line[start:]}")
        if line[at] == "\\":
            byte, width = escape(line, at)
            data += byte
            at += width
        else:
            data += line[at].encode("utf-8")
            at += 1
    return Word(line[start:at + 1], bytes(data), True)


def escape(line, at):
    """The byte of the escape that starts there, and how long it is written."""
    sign = line[at + 1:at + 2]
    if sign in ESCAPES:
        return ESCAPES[sign], 2
    if sign == "x" and re.fullmatch("[0-9A-Fa-f]{2}", line[at + 2:at + 4]):
        return bytes.fromhex(line[at + 2:at + 4]), 4
    raise Fault(f"unknown escape {line[at:at + 2]}: there are \\\\ \\' \\\" \\n \\r \\t \\xHH")


def data_of(word):
    """The bytes that a word gives: text in quotes, or hex digits."""
    if word.quoted:
        return word.data
    if not re.fullmatch("[0-9A-Fa-f]+", word.text):
        raise Fault(f"{word.text} is no hex data (text is put in quotes)")
    if len(word.text) % 2:
        raise Fault(f"{word.text} has an odd number of hex digits")
    return bytes.fromhex(word.text)


def number_of(kind, word):
    """The number that a word gives, within the width of its field: flags in hex, all others decimal."""
    most = (1 << 8 * WIDTHS[kind]) - 1
    if kind == "FLAGS":
        form, base, shown = "(?:0x)?[0-9A-Fa-f]{1,4}", 16, "ffff, in hex"
    else:
        form, base, shown = "[0-9]+", 10, str(most)
    if word.quoted or not re.fullmatch(form, word.text) or len(word.text) > 20 or int(word.text, base) > most:
        raise Fault(f"{kind} is a number from 0 to {shown}, not {word.text}")
    return int(word.text, base)


def field(kind, words):
    """The bytes of one field, from its word (or words: data may be given in several)."""
    if kind == "DATA":
        return b"".join(map(data_of, words))
    if kind == "NAME":
        return words[0].data + b"\0"
    return messages.little(number_of(kind, words[0]), WIDTHS[kind])


def request(words):
    """The message of one line's words, after the clock."""
    if not words:
        raise Fault("no request behind the clock")
    name, given = words[0].text, words[1:]
    if name not in WORDS:
        raise Fault(f"no such request: {name} (there are {' '.join(WORDS)})")
    kinds = WORDS[name]
    if name == "raw":
        return checked_length(name, field("DATA", given))
    if len(given) < len(kinds) or len(given) > len(kinds) and "DATA" not in kinds:
        raise Fault(f"{name} takes {' '.join(kinds) or 'no word'}{'..' if 'DATA' in kinds else ''}, and here are {len(given)} words")
    values = {kind: field(kind, given[at:] if kind == "DATA" else given[at:at + 1]) for at, kind in enumerate(kinds)}
    if len(values.get("DATA", b"")) > messages.WRITE_MOST:
        raise Fault(f"a Write carries at most {messages.WRITE_MOST} bytes, not {len(values['DATA'])}")
    return checked_length(name, framed(name, values))


def framed(name, values):
    """The message of a request with these bytes for its fields."""
    return messages.message(name, b"".join(values[kind] for kind in FIELDS[name]) + REST.get(name, b""))


def checked_length(name, m):
    """The message, unless it is too long; raw is for messages that are wrong too, as far as a record can hold them."""
    most = messages.RECORD_MOST if name == "raw" else messages.MESSAGE_SIZE
    if len(m) > most:
        raise Fault(f"a message of {len(m)} bytes: {name} makes at most {most}")
    return m


def make_lines(lines, source):
    """The request file that the lines stand for."""
    out = bytearray()
    for at, line in enumerate(lines, 1):
        try:
            words = words_of(line)
            if words:
                out += messages.record(number_of("CLOCK", words[0]), request(words[1:]))
        except Fault as fault:
            raise fault.within(source, at) from fault
    return bytes(out)


def make(text, source="the recording"):
    """The request file of a text."""
    return make_lines(files.lines_of(text), source)


def asked(m):
    """The words of a line that makes this very message: those of its subcommand, or raw where they would make another."""
    framing = messages.unframed(m)
    if framing:
        line = request_line(*framing)
        try:
            if request(words_of(line)) == m:
                return line
        except Fault:
            pass  # a message that no other line makes, such as one that is too long
    return f"raw {m.hex().upper()}".rstrip()


def request_line(name, fields):
    """The words of a request with these fields, as far as they go."""
    values, at = {}, 0
    for kind in FIELDS[name]:
        width = WIDTHS.get(kind, len(fields))
        values[kind] = fields[at:at + width]
        at += width
    return " ".join([name, *(shown(kind, values[kind]) for kind in WORDS[name])])


def shown(kind, data):
    """A field's bytes as a word."""
    if kind == "NAME":
        return shown_name(data[:-1])
    if kind == "DATA":
        return shown_data(data)
    return f"{messages.number(data):04x}" if kind == "FLAGS" else str(messages.number(data))


def shown_data(data):
    """Bytes as text in quotes where all of them are printable, else in hex."""
    return in_quotes(data) if all(32 <= byte < 127 for byte in data) else data.hex()


def shown_name(name):
    """A name as it is, or in quotes where it would not be one plain word."""
    return name.decode("ascii") if BARE_NAME.fullmatch(name) else in_quotes(name)


def in_quotes(data):
    """Bytes as text in quotes, with escapes where they are needed."""
    signs = {ord("'"): "\\'", ord("\\"): "\\\\"}
    return "'" + "".join(signs.get(byte) or (chr(byte) if 32 <= byte < 127 else f"\\x{byte:02x}") for byte in data) + "'"
