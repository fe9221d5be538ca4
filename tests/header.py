#!/usr/bin/env python3
"""include/kramsnep.h says what the definitions say, so that a client can be written from it.

header.py --check    needs a C compiler (CC, or cc); C++ is tried where there is a compiler for it (CXX, or c++)

- It compiles alone, as C99 and as C++11, and twice in one file, without a warning; and so does the handler of docs/HOOKING.md. C++ links its functions as those of C.
- Its functions are the proved ones, with their parameters in their order and their results. The functions over the struct hand each part of it on under its own length.
- Each of its numbers is the value of the definition that NUMBERS names for it, in the specs and, where the code has the number too, in the code; no number of the header is
  without a definition, and no number of Numbers.antt is missing that a client needs.
- The table of requests and responses in its comment is that of Decode.antt and of the replies; so are the numbers in the comments on frame, control block and rows. The longest store file is as long as it says; a flash configuration
  has the depth, the words and the places of its strings that Grammar.antt, Words.antt and Fields.antt give it; the records of a tray have the places of Records.antt, and it has as many as Tray.antt lets it have. Names, OEM bytes and version are those of
  Names.antt, of Numbers.antt and of the first entry of docs/CHANGELOG.md.
- kramsnep_crc gives the worked values and what Python's own CRC gives; kramsnep_running_job and the macros with an argument give what the layout of a row says, and what Call.antt reads from a result.

Values of the header are those that a compiled program prints; definitions are read from the files."""
import binascii
import os
import pathlib
import random
import re
import shutil
import subprocess
import sys
import tempfile

ROOT = pathlib.Path(__file__).resolve().parent.parent
HEADER = ROOT / "include" / "kramsnep.h"
PREFIX = "KRAMSNEP_"
SPECS = ("protocol/specs/Numbers", "protocol/specs/Decode", "protocol/specs/Names", "rules/proofs/Messages", "crc/specs/Crc", "capi_control/specs/Words", "capi_calls/specs/Call",
         "store_file/specs/Messages", "store_file/specs/Saved", "json_grammar/specs/Grammar", "config/specs/Profile", "config/specs/Fields", "records/specs/Records", "tray/specs/Tray")
CODE = ("protocol", "state", "crc", "open_sweep", "capi_control", "capi", "store_file", "store_writer", "run_store", "config_profile", "config_reader", "records", "tray_form")
C_TYPES = {"u8": "uint8_t", "u32": "uint32_t", "u64": "uint64_t", "usize": "size_t"}
WORDS = "no one two three four five six seven eight nine ten eleven twelve".split()
ORDINALS = "zeroth first second third fourth fifth sixth seventh eighth ninth tenth eleventh twelfth".split()
STRICT = ("-Wall", "-Wextra", "-Wpedantic", "-Werror")

# What each number of the header is by the definitions: one or several, all of the same value. A name with a capital letter and `::` is a constant of the code.
NUMBERS = {
    "MESSAGE_SIZE": "message_size, protocol::MESSAGE_SIZE", "OEM_SIZE": "len(oem), protocol::OEM_SIZE", "SUBCOMMAND_AT": "len(oem), subcommand",
    "HEADER_SIZE": "header_size, protocol::HEADER_SIZE", "CRC_AT": "header_size", "CRC_SIZE": "crc_size", "FIELDS_AT": "fields_at, protocol::FIELDS_AT",
    "CRC_START": "start, crc::START", "CRC_POLYNOMIAL": "poly",
    "COMMAND_GET_COUNT": "count_command, protocol::Subcommand::Count", "COMMAND_ENUMERATE": "enumerate_command, protocol::Subcommand::Enumerate",
    "COMMAND_OPEN": "open_command, protocol::Subcommand::Open", "COMMAND_READ": "read_command, protocol::Subcommand::Read",
    "COMMAND_WRITE": "write_command, protocol::Subcommand::Write", "COMMAND_COMMIT": "commit_command, protocol::Subcommand::Commit",
    "COMMAND_CLOSE": "close_command, protocol::Subcommand::Close", "COMMAND_DELETE": "delete_command, protocol::Subcommand::Delete",
    "COMMAND_STAT": "stat_command, protocol::Subcommand::Stat", "COMMAND_SESSION_STAT": "session_stat_command, protocol::Subcommand::SessionStat",
    "COMMAND_WRITE_META": "write_meta_command, protocol::Subcommand::WriteMeta", "COMMAND_LAST": "write_meta_command",
    "INDEX_WIDTH": "Enumerate.index.width", "FLAGS_WIDTH": "Open.flags.width", "OFFSET_WIDTH": "Read.offset.width, Write.offset.width", "READ_COUNT_WIDTH": "Read.count.width",
    "SESSION_WIDTH": "Open.reply.session.width, Read.session.width, Write.session.width, Commit.session.width, Close.session.width, SessionStat.session.width, WriteMeta.session.width",
    "COMMIT_LENGTH_WIDTH": "Commit.commitLength.width", "COUNT_WIDTH": "Count.reply.count.width", "STATE_WIDTH": "Stat.reply.state.width, SessionStat.reply.state.width",
    "SIZE_WIDTH": "Stat.reply.size.width, SessionStat.reply.size.width", "METADATA_LENGTH_WIDTH": "Stat.reply.metadataLength.width, SessionStat.reply.metadataLength.width",
    "INDEX_AT": "Enumerate.index", "FLAGS_AT": "Open.flags", "OPEN_NAME_AT": "Open.name", "NAME_AT": "Delete.name, Stat.name, Enumerate.reply.name",
    "SESSION_AT": "Read.session, Write.session, Commit.session, Close.session, SessionStat.session, WriteMeta.session, Open.reply.session",
    "OFFSET_AT": "Read.offset, Write.offset", "READ_COUNT_AT": "Read.count", "WRITE_DATA_AT": "Write.data", "COMMIT_LENGTH_AT": "Commit.commitLength",
    "COUNT_AT": "Count.reply.count", "READ_DATA_AT": "Read.reply.data", "STATE_AT": "Stat.reply.state, SessionStat.reply.state", "SIZE_AT": "Stat.reply.size, SessionStat.reply.size",
    "METADATA_LENGTH_AT": "Stat.reply.metadataLength, SessionStat.reply.metadataLength",
    "WRITE_MOST": "write_most, message_size - Write.data", "READ_MOST": "read_most, protocol::READ_MOST, message_size - fields_at",
    "FLAGS_READ": "read_only, protocol::Flags::READ", "FLAGS_WRITE": "write_only, protocol::Flags::WRITE", "FLAGS_READ_WRITE": "read_write, protocol::Flags::READ_WRITE",
    "STATE_OPEN_READ": "state_open_read, protocol::BlobState::OPEN_READ", "STATE_OPEN_WRITE": "state_open_write, protocol::BlobState::OPEN_WRITE",
    "STATE_COMMITTING": "state_committing, protocol::BlobState::COMMITTING", "STATE_COMMITTED": "state_committed, protocol::BlobState::COMMITTED",
    "STATE_COMMIT_ERROR": "state_commit_error, protocol::BlobState::COMMIT_ERROR",
    "NAME_MOST": "name_most, protocol::NAME_MOST", "STORE_NAME_MOST": "store_name_most, protocol::STORE_NAME_MOST, name_most - len(base)",
    "SUCCESS": "success, protocol::Code::SUCCESS", "BUSY": "busy, protocol::Code::BUSY", "UNKNOWN_COMMAND": "unknown_command, protocol::Code::UNKNOWN_COMMAND",
    "NO_ROOM": "no_room, protocol::Code::NO_ROOM", "WRONG_LENGTH": "wrong_length, protocol::Code::WRONG_LENGTH", "TOO_LONG": "too_long, protocol::Code::TOO_LONG",
    "OUT_OF_RANGE": "out_of_range, protocol::Code::OUT_OF_RANGE", "NOT_FOUND": "not_found, protocol::Code::NOT_FOUND", "INVALID": "invalid, protocol::Code::INVALID",
    "NOT_SUPPORTED": "not_supported, protocol::Code::NOT_SUPPORTED", "NOT_SOUND": "not_sound, protocol::Code::NOT_SOUND",
    "SESSION_OPEN": "session_open, protocol::Code::SESSION_OPEN", "OTHER_TYPE": "other_type, protocol::Code::OTHER_TYPE", "ZERO_FIELD": "zero_field, protocol::Code::ZERO_FIELD",
    "WRONG_TYPE": "wrong_type, protocol::Code::WRONG_TYPE", "BAD_NUMBER": "bad_number, protocol::Code::BAD_NUMBER", "PAST_END": "past_end, protocol::Code::PAST_END",
    "WRONG_BASE": "wrong_base, protocol::Code::WRONG_BASE", "BAD_NAME": "bad_name, protocol::Code::BAD_NAME", "REPEATED_NAME": "repeated_name, protocol::Code::REPEATED_NAME",
    "LONG_DATA": "long_data, protocol::Code::LONG_DATA", "MANY_BLOBS": "many_blobs, protocol::Code::MANY_BLOBS",
    "BAD_TEXT": "bad_text, protocol::Code::BAD_TEXT", "NUMBER_THERE": "number_there, protocol::Code::NUMBER_THERE", "TRUE_THERE": "true_there, protocol::Code::TRUE_THERE",
    "FALSE_THERE": "false_there, protocol::Code::FALSE_THERE", "NULL_THERE": "null_there, protocol::Code::NULL_THERE", "TOO_DEEP": "too_deep, protocol::Code::TOO_DEEP",
    "OFF_PROFILE": "off_profile, protocol::Code::OFF_PROFILE",
    "SWEEP_EVERY": "sweep_every, open_sweep::SWEEP_EVERY", "SESSION_LIFE": "session_life, open_sweep::SESSION_LIFE",
    "CONTROL_WORDS": "control_size, capi_control::CONTROL_WORDS", "TABLE_WORDS": "row_count * row_words", "NAMES_SIZE": "slot_count * name_size",
    "COMMITTED_SIZE": "slot_count * slot_size", "STAGED_SIZE": "slot_count * slot_size", "IMAGE_SIZE": "image_size, state::IMAGE_SIZE", "HASH_SIZE": "hash_size, state::HASH_SIZE",
    "ANSWER_SIZE": "answer_size, protocol::ANSWER_SIZE",
    "CONTROL_ROWS": "word.rows", "CONTROL_SLOTS": "word.slots", "CONTROL_COMMITTED": "word.marks",
    "CONTROL_COMMITTED_LENGTHS": "committed_lens_at, capi_control::COMMITTED_LENS_AT", "CONTROL_STAGED_LENGTHS": "staged_lens_at, capi_control::STAGED_LENS_AT",
    "CONTROL_PHASE": "phase_at, capi_control::PHASE_AT", "CONTROL_IMAGE_LENGTH": "image_len_at, capi_control::IMAGE_LEN_AT", "CONTROL_HASH_LENGTH": "hash_len_at, capi_control::HASH_LEN_AT",
    "CONTROL_NEXT": "next_at, capi_control::NEXT_AT", "CONTROL_LAST_SWEEP": "last_sweep_at, capi_control::LAST_SWEEP_AT",
    "PHASE_IDLE": "phase_number.Idle", "PHASE_UPLOADING": "phase_number.Uploading", "PHASE_VERIFIED": "phase_number.Verified, capi_control::VERIFIED",
    "ROWS": "row_count, state::ROWS", "ROW_WORDS": "row_words, state::ROW_WORDS", "ROW_IDENTIFIER": "id_of", "ROW_BLOB": "blob_of", "ROW_FLAGS": "word_of", "ROW_STAMP": "stamp_of",
    "SLOTS": "slot_count, state::SLOTS", "NAME_SIZE": "name_size, state::NAME_SIZE", "SLOT_SIZE": "slot_size, state::SLOT_SIZE",
    "BLOB_IMAGE": "image_blob, flash_number.Image", "BLOB_HASH": "hash_blob, flash_number.Hash", "BLOB_VERIFY": "verify_blob, flash_number.Verify",
    "BLOB_UPDATE": "update_blob, flash_number.Update", "BLOB_CLEANUP": "cleanup_blob, flash_number.Cleanup",
    "JOB_UNTRIED": "untried, state::Status::Untried", "JOB_RUNNING": "running, state::Status::Running", "JOB_SUCCEEDED": "succeeded, state::Status::Succeeded",
    "JOB_FAILED": "failed, state::Status::Failed", "VERDICT_FAILED": "job_failed, capi::JOB_FAILED", "VERDICT_GOOD": "job_good, capi::JOB_GOOD",
    "FILE_BASE": "base_field, store_file::STORE_BASE", "FILE_BLOB": "blob_field, store_file::STORE_BLOB", "FILE_BLOB_NAME": "name_field, store_file::BLOB_NAME",
    "FILE_BLOB_DATA": "data_field, store_file::BLOB_DATA", "PART_SIZE": "buffer_size, store_writer::BUFFER_SIZE", "PARTS_MOST": "1 + slot_count, run_store::PARTS_MOST",
    "CONFIG_ENTRIES": "entry_most, config_profile::ENTRY_MOST", "ENTRY_FIELDS": "field_count / entry_most, row_of.length",
    "CONFIG_FIELDS": "field_count, config_reader::FIELD_COUNT, entry_most * row_of.length",
    "TRAY_MESSAGES": "tray_most, tray_form::TRAY_MOST", "TRAY_RESPONSES": "tray_most * answer_size", "RECORD_CLOCK_AT": "record.clock",
    "RECORD_CLOCK_WIDTH": "record.clock.width, clock_size, records::CLOCK_SIZE", "RECORD_LENGTH_AT": "record.length",
    "RECORD_MESSAGE_AT": "record.message, prefix_size, records::PREFIX_SIZE",
}
NAMES = {"NAME_BASE": ("base", "protocol::BASE"), "NAME_IMAGE": ("flash_name.Image", "protocol::FLASH_IMAGE"), "NAME_HASH": ("flash_name.Hash", "protocol::FLASH_HASH"),
         "NAME_VERIFY": ("flash_name.Verify", "protocol::FLASH_VERIFY"), "NAME_UPDATE": ("flash_name.Update", "protocol::FLASH_UPDATE"),
         "NAME_CLEANUP": ("flash_name.Cleanup", "protocol::FLASH_CLEANUP")}
OTHERS = {"OEM_NUMBER", "OEM_BYTES", "IPMI_NETFN", "IPMI_COMMAND", "NO_JOB", "VERSION", "VERSION_MAJOR", "VERSION_MINOR", "VERSION_PATCH", *NAMES}
NOT_NEEDED = {"sixteen_bits": "a bound that soundness tests", "word_limit": "a bound that soundness tests", "clean_unit": "read by the library alone",
              "status_unit": "inside KRAMSNEP_JOB_STATUS, which is tried"}
FIELD_NAMES = {"blob": "name", "start": "data", "len": "commit length"}
FIELD = re.compile(r"little (?P<width>\d) (?P<number>fields_at|\(fields_at \+ \d+\)) m|get_or m (?P<byte>\(fields_at \+ \d+\)) 0|with_name (?P<name>fields_at|\(fields_at \+ \d+\)) m"
                   r"|(?<=m\) )(?P<rest>\(fields_at \+ \d+\))(?=\))")
STRINGS = re.compile(r"span_of \(under (?P<key>\w+) m\)|pair_of (?P<first>\w+) (?P<second>\w+) \(under (?P<object>\w+) (?:m|\(under \w+ m\))\)")


# ---- the definitions
def text_of(path):
    return (ROOT / "crates" / path).read_text(encoding="utf-8")


def value(expression, known):
    """A sum, a difference, a product or a quotient of known names and numbers."""
    named = re.sub(r"(?!len\()\b[A-Za-z]\w*(?:::\w+|\.\w+)*", lambda name: repr(known[name.group()]), expression)
    return eval(named, {"__builtins__": {}, "len": len})


def bytes_or_number(said, known):
    """The value of a definition: bytes for a list of them, else a number."""
    return bytes(int(byte, 16) for byte in re.findall(r"0x\w\w", said)) if said.endswith("[]") else value(said, known)


def spec_values():
    """name -> value of each definition of a number or of a list of bytes; `name.Case` where it is given case by case."""
    known = {}
    for path in SPECS:
        text = text_of(path + ".antt")
        for name, said in re.findall(r"(?m)^(?:abbrev|unfoldable) pub \w+ : (?:ℕ|List ℕ)\n(\w+) = ((?:0x\w\w ∷ )+\[\]|\w+(?: [+*] \w+)*)$", text):
            if name in known:
                sys.exit(f"{path}: {name} is defined twice")
            known[name] = bytes_or_number(said, known)
        for name, case, said in re.findall(r"(?m)^(phase_number|flash_number|flash_word) ([A-Z]\w+) = (.+)$", text):
            known[f"{name}.{case}"] = bytes_or_number(said, known)
    for case in ("Image", "Hash", "Verify", "Update", "Cleanup"):
        known[f"flash_name.{case}"] = known["flash_folder"] + known[f"flash_word.{case}"]
    return {**known, **place_values(), **record_places(known)}


def place_values():
    """name -> place: of the subcommand in a message, of a row's words, and, as `word.name`, of the masks in the control block."""
    found = re.findall(r"(?m)^(subcommand) m = get_or m (\d+) 0$", text_of("protocol/specs/Decode.antt"))
    found += re.findall(r"(?m)^(\w+) r = get_or r\.words (\d+) 0$", text_of("state/specs/Words.antt"))
    found += [(f"word.{name}", at) for name, at in re.findall(r"(?m)^  (\w+) = get_or w (\d+) 0;$", text_of("capi_control/specs/Words.antt"))]
    return {name: int(at) for name, at in found}


def record_places(known):
    """record.part -> its place in a record, and record.clock.width -> the bytes of its clock. A record ends with its message, behind which the next one starts."""
    text = text_of("records/specs/Records.antt")
    width, clock = re.search(r"(?m)^clock_of b = little (\w+) (\d+) b$", text).groups()
    length = re.search(r"(?m)^length_of b = get_or b (\w+) 0$", text).group(1)
    message = re.search(r"(?m)^message_of b = part (\w+) \(length_of b\) b$", text).group(1)
    if f"\nsize_of b = {message} + length_of b\n" not in text:
        sys.exit("Records.antt: a record no longer ends with its message")
    return {name: value(said, known) for name, said in (("record.clock", clock), ("record.clock.width", width), ("record.length", length), ("record.message", message))}


def told_by(definition, fields, result, known):
    """What these fields are, by a definition of Call.antt that takes results apart, for one of them."""
    said = re.search(rf"(?ms)^{definition} r\b.*?(?=\n\n|\Z)", text_of("capi_calls/specs/Call.antt")).group()
    found = [re.findall(rf"\b{field} = ([^;}}]+?)\s*[;}}]", said) for field in fields]
    if any(len(one) != 1 for one in found):
        sys.exit(f"Call.antt: {definition} no longer gives each of {', '.join(fields)} once")
    return [value(one.replace("/", "//"), {**known, "r": result}) for [one] in found]


def code_values():
    """crate::NAME or crate::Type::NAME -> value of each constant of the code that is a number or a text; crate::Type::Case -> the number of an enum's case."""
    known = {}
    for crate in CODE:
        scope = ""
        for line in text_of(f"{crate}/src/lib.rt").split("\n"):
            opened, constant = re.match(r"impl (\w+) \{", line), re.match(r" *(?:pub )?const (\w+): [^=]+ = (.+);$", line)
            scope = f"{opened.group(1)}::" if opened else "" if line == "}" else scope
            case = re.match(r" +(\w+::\w+) => (\d+),$", line)
            if case:
                known[f"{crate}::{case.group(1)}"] = int(case.group(2))
            said = constant and re.fullmatch(r"(?:\w+\()?(0x[0-9a-fA-F]+|\d+)\)?|\*b\"(.*)\"", constant.group(2))
            if said:
                known[f"{crate}::{scope}{constant.group(1)}"] = int(said.group(1), 0) if said.group(1) else said.group(2).encode("ascii")
    return known


def declared_fields(name):
    """The fields of a request's case as the code declares them, under the header's words for them; `rest` is a length, and stands nowhere in a message."""
    cases = re.search(r"(?ms)^pub enum Request \{\n(.*?)^\}", text_of("protocol/src/lib.rt")).group(1)
    fields = re.search(rf"(?m)^    {name}(?:,| \{{\n((?:        .*\n)*))", cases).group(1) or ""
    return [FIELD_NAMES.get(field, field) for field in re.findall(r"(\w+): ", fields) if field != "rest"]


def places_in(said, known):
    """(offset, width or None) of each field that a line of the definition `asked` reads, in the order of the message."""
    return sorted((value(place["number"] or place["byte"] or place["name"] or place["rest"], known), int(place["width"] or 0) or (1 if place["byte"] else None))
                  for place in FIELD.finditer(said))


def requests():
    """subcommand's name -> (number, length of its message, [(field, width or None, offset)]), by Decode.antt and the declaration of `Request`."""
    text, known, found = text_of("protocol/specs/Decode.antt"), spec_values(), {}
    session = re.search(r"(?m)^session_in m = (.+)$", text).group(1)
    lengths = dict(re.findall(r"cond \(eqb sub (\w+)\) \((eqb n \d+|leb \d+ n)\)", text))
    for command, said in re.findall(r"(?m)cond \(eqb sub (\w+)\) (.+)$", text[text.index("\nasked sub m"):]):
        name = "".join(word.capitalize() for word in command.removesuffix("_command").split("_"))
        fields, places = declared_fields(name), places_in(said.replace("session_in m", session), known)
        if len(fields) != len(places):
            sys.exit(f"{name}: the fields {fields} are declared, and Decode.asked reads {places}")
        least = int(re.search(r"\d+", lengths[command]).group()) + known["header_size"]
        length = f"{least} or more" if lengths[command].startswith("leb") else str(least)
        found[name] = known[command], length, [(field, width, at) for field, (at, width) in zip(fields, places)]
    return found


def responses():
    """subcommand's name -> [(field, width or None, offset)] of its response, by the definitions of the replies (rule 3.5)."""
    at = spec_values()["fields_at"]
    frame = re.search(r"(?m)^stat_fields state size = bytes_of (\d) state \+\+ \(bytes_of (\d) size \+\+ \(0 ∷ \[\]\)\)$", text_of("protocol/specs/Frame.antt"))
    state, size = (int(width) for width in frame.groups())
    counted = int(re.search(r"(?m)^counted s = reply \(bytes_of (\d) ", text_of("rules/specs/Listing.antt")).group(1))
    opened = int(re.search(r"(?m)^opened .* = \(reply \(bytes_of (\d) \(fresh_id s\)\)", text_of("rules/specs/Opening.antt")).group(1))
    stat = [("state", state, at), ("size", size, at + state), ("metadata length", 1, at + state + size)]
    return {"Count": [("count", counted, at)], "Enumerate": [("name", None, at)], "Open": [("session", opened, at)], "Read": [("data", None, at)],
            "Stat": stat, "SessionStat": stat}


def profile_words():
    """name -> text of each word of a flash configuration."""
    return {name: bytes(map(int, said.split(" ∷ "))).decode("ascii") for name, said in re.findall(r"(?m)^(\w+)_word = (\d+(?: ∷ \d+)*) ∷ \[\]$", text_of("config/specs/Words.antt"))}


def entry_strings():
    """The strings that are shown of an entry, in the order of `row_of`: the key of each, behind the key of the object that has it unless that is the entry. Then how many numbers show one."""
    text, word = text_of("config/specs/Fields.antt"), profile_words()
    row = re.search(r"(?m)^row_of m =\n((?:    .+\n)+)", text).group(1)
    span = re.search(r"(?m)^span_of m = (.+) ∷ \[\]$", text).group(1).split(" ∷ ")
    pair = re.search(r"(?m)^pair_of k l m = (.+)$", text).group(1)
    rest = re.sub(r"[\s()]", "", STRINGS.sub("one", row))
    if span != ["span_start m", "span_length m"] or pair != "span_of (under k m) ++ span_of (under l m)" or not re.fullmatch(r"one(\+\+one)*", rest):
        sys.exit("Fields.antt: row_of is no longer one string behind another, each by its start and its length")
    found = []
    for one in STRINGS.finditer(row):
        keys = [[one["key"]]] if one["key"] else [[one["object"], one["first"]], [one["object"], one["second"]]]
        found += ["_".join(word[key.removesuffix("_word")] for key in names).upper() for names in keys]
    return found, len(span)


def entry_places():
    """FIELD_NAME as a macro -> the place of that string's start among the numbers of an entry."""
    strings, width = entry_strings()
    return {f"FIELD_{name}": width * at for at, name in enumerate(strings)}


def definitions():
    known = {**spec_values(), **code_values()}
    strings, width = entry_strings()
    known["row_of.length"] = width * len(strings)
    for name, (_, _, fields) in requests().items():
        known.update(places_and_widths(name, fields))
    for name, fields in responses().items():
        known.update(places_and_widths(f"{name}.reply", fields))
    return known


def places_and_widths(name, fields):
    """name.field -> place of each field, and name.field.width -> its bytes, where they are fixed."""
    words = {"commit length": "commitLength", "metadata length": "metadataLength"}
    named = [(f"{name}.{words.get(field, field)}", width, at) for field, width, at in fields]
    return {**{field: at for field, _, at in named}, **{f"{field}.width": width for field, width, _ in named if width}}


def lengths():
    """LENGTH of a request as a macro -> its length: NAME_REQUEST_SIZE where it is fixed, NAME_REQUEST_LEAST else."""
    found = {}
    for name, (_, length, _) in requests().items():
        words = "GET_COUNT" if name == "Count" else re.sub("(?<=[a-z])(?=[A-Z])", "_", name).upper()
        found[f"{words}_REQUEST_{'LEAST' if 'or more' in length else 'SIZE'}"] = int(length.split()[0])
    return found


# ---- the header, compiled
def compiler():
    return os.environ.get("CC", "cc").split()


def run_c(body, before=""):
    """What a C program prints whose main has this body, with this text in front of it."""
    with tempfile.TemporaryDirectory() as folder:
        source, program = pathlib.Path(folder, "main.c"), pathlib.Path(folder, "main")
        source.write_text(f'#include <stdio.h>\n#include "kramsnep.h"\n{before}\nint main(void)\n{{\n{body}\n    return 0;\n}}\n', encoding="ascii")
        subprocess.run([*compiler(), "-std=c99", *STRICT, f"-I{HEADER.parent}", str(source), "-o", str(program)], check=True)
        return subprocess.run([str(program)], capture_output=True, text=True, check=True).stdout


def macros():
    """name without its prefix -> text, of each macro of the header that has no argument."""
    listed = subprocess.run([*compiler(), "-std=c99", "-dM", "-E", str(HEADER)], capture_output=True, text=True, check=True).stdout
    return {name: said for name, said in re.findall(rf"(?m)^#define {PREFIX}(\w+) (.+)$", listed)}


def flowing():
    """The header's text in one line, without the marks at which a comment's lines begin."""
    return " ".join(HEADER.read_text(encoding="ascii").replace("\n *", "\n").split())


def printed(names):
    """name -> value, as a compiled program prints it."""
    body = "\n".join(f'    printf("%ld\\n", (long)({PREFIX}{name}));' for name in names)
    return dict(zip(names, map(int, run_c(body).split())))


# ---- the checks: each gives its faults
def alone():
    faults = []
    for language, words, standard in (("C", compiler(), "c99"), ("C++", os.environ.get("CXX", "c++").split(), "c++11")):
        if not shutil.which(words[0]):
            print(f"header, alone: {language} was not tried, {words[0]} is not installed")
            continue
        done = subprocess.run([*words, "-x", "c" if language == "C" else "c++", f"-std={standard}", *STRICT, "-fsyntax-only", "-"], input=f'#include "{HEADER}"\n' * 2,
                              capture_output=True, text=True, check=False)
        faults += [f"as {standard}:\n{done.stderr}"] if done.returncode else []
        faults += linked_from(words) if language == "C++" else []
    return faults


def linked_from(compiler_of_cpp):
    """C++ finds the functions under their C names."""
    with tempfile.TemporaryDirectory() as name:
        folder = pathlib.Path(name)
        (folder / "stub.c").write_text(STUBS, encoding="ascii")
        calls = "kramsnep_respond_in(&m, m.names, 0, 0, m.hash) + kramsnep_job_outcome_in(&m, 0) + kramsnep_save_part_in(&m, 0, m.image) + kramsnep_load_in(&m, m.hash, 0) + kramsnep_find_session_in(&m, 0) + kramsnep_read_config(m.hash, 1, &n, 1) + kramsnep_tray_in(&m, m.names, 0, m.image, 0, m.table)"
        (folder / "main.cpp").write_text(f'#include "kramsnep.h"\nint main() {{ static kramsnep_memory m; size_t n = 0; return (int)({calls}); }}\n', encoding="ascii")
        subprocess.run([*compiler(), "-c", f"-I{HEADER.parent}", "stub.c"], cwd=folder, check=True)
        done = subprocess.run([*compiler_of_cpp, f"-I{HEADER.parent}", "main.cpp", "stub.o", "-o", "main"], cwd=folder, capture_output=True, text=True, check=False)
    return [f"from C++: {done.stderr}"] if done.returncode else []


def prototypes():
    """The functions of the header are the proved ones, and have their parameters and results; wherever it counts them it has their number."""
    faults, code, text = [], text_of("capi/src/lib.rt"), HEADER.read_text(encoding="ascii")
    proved = re.findall(r'(?ms)^pub extern "C" fn (\w+)\((.*?)\) -> (u\d+)$', code)
    for function, listed, result in proved:
        wanted = []
        for name, kind in re.findall(r"(\w+): ([^,]+)", listed):
            slice_of = re.fullmatch(r"&(mut )?\[(\w+)\]", kind)
            wanted.append(f"{'' if slice_of.group(1) else 'const '}{C_TYPES[slice_of.group(2)]} *{name}, size_t {name}_len" if slice_of else f"{C_TYPES[kind]} {name}")
        found = re.search(rf"(?ms)^{C_TYPES[result]} {function}\((.*?)\);", text)
        if not found or " ".join(found.group(1).split()) != ", ".join(wanted):
            faults.append(f"{function} has the result {C_TYPES[result]} and the parameters {', '.join(wanted)}")
    declared, exported = re.findall(r"(?m)^\w+ (kramsnep_\w+)\(", text), re.findall(r'extern "C" fn (\w+)', code)
    if not declared == [function for function, *_ in proved] == exported:
        faults.append(f"declared are {declared}, and the proved functions are {exported}")
    counted = re.findall(rf"the ({'|'.join(WORDS)}) functions", flowing().lower())
    return faults + ([] if counted and set(counted) == {WORDS[len(exported)]} else [f"the header has {len(exported)} functions, and says {counted}"])


# Stand-ins for the functions: they print what they are given, buffers by their place in `lent`.
STUBS = r"""
#include <stddef.h>
#include <stdio.h>
#include "kramsnep.h"
const char *lent;
#define PLACE(p) (long)((const char *)(p) - lent)
uint32_t kramsnep_respond(const uint8_t *a, size_t b, uint32_t c, uint32_t *d, size_t e, uint32_t *f, size_t g, uint8_t *h, size_t i, uint8_t *j, size_t k,
                          uint8_t *l, size_t m, uint8_t *n, size_t o, uint8_t *p, size_t q, uint8_t *r, size_t s)
{
    printf("%u %zu %u ", a[0], b, c);
    printf("%ld %zu %ld %zu %ld %zu %ld %zu %ld %zu %ld %zu %ld %zu ", PLACE(d), e, PLACE(f), g, PLACE(h), i, PLACE(j), k, PLACE(l), m, PLACE(n), o, PLACE(p), q);
    printf("%u %zu\n", r[0], s);
    return 77;
}
uint32_t kramsnep_job_outcome(uint32_t v, const uint32_t *d, size_t e, uint32_t *f, size_t g, const uint8_t *h, size_t i, const uint8_t *j, size_t k,
                              const uint8_t *l, size_t m, const uint8_t *n, size_t o, const uint8_t *p, size_t q)
{
    printf("%u %ld %zu %ld %zu %ld %zu %ld %zu %ld %zu %ld %zu %ld %zu\n", v, PLACE(d), e, PLACE(f), g, PLACE(h), i, PLACE(j), k, PLACE(l), m, PLACE(n), o, PLACE(p), q);
    return 88;
}
uint32_t kramsnep_save_part(uint32_t v, const uint32_t *d, size_t e, const uint32_t *f, size_t g, const uint8_t *h, size_t i, const uint8_t *j, size_t k,
                            const uint8_t *l, size_t m, const uint8_t *n, size_t o, const uint8_t *p, size_t q, uint8_t *r, size_t s)
{
    printf("%u %ld %zu %ld %zu %ld %zu %ld %zu %ld %zu %ld %zu %ld %zu ", v, PLACE(d), e, PLACE(f), g, PLACE(h), i, PLACE(j), k, PLACE(l), m, PLACE(n), o, PLACE(p), q);
    printf("%u %zu\n", r[0], s);
    return 99;
}
uint32_t kramsnep_load(const uint8_t *a, size_t b, uint32_t *d, size_t e, const uint32_t *f, size_t g, uint8_t *h, size_t i, uint8_t *j, size_t k,
                       uint8_t *l, size_t m, const uint8_t *n, size_t o, const uint8_t *p, size_t q)
{
    printf("%u %zu ", a[0], b);
    printf("%ld %zu %ld %zu %ld %zu %ld %zu %ld %zu %ld %zu %ld %zu\n", PLACE(d), e, PLACE(f), g, PLACE(h), i, PLACE(j), k, PLACE(l), m, PLACE(n), o, PLACE(p), q);
    return 111;
}
uint32_t kramsnep_find_session(uint32_t i, uint32_t r, const uint32_t *f, size_t g)
{
    printf("%u %u %ld %zu\n", i, r, PLACE(f), g);
    return 122;
}
uint64_t kramsnep_read_config(const uint8_t *a, size_t b, size_t *f, size_t g)
{
    printf("%u %zu %zu %zu\n", a[0], b, f[0], g);
    return 133;
}
uint32_t kramsnep_tray(const uint8_t *a, size_t b, uint32_t *d, size_t e, uint32_t *f, size_t g, uint8_t *h, size_t i, uint8_t *j, size_t k,
                       uint8_t *l, size_t m, uint8_t *n, size_t o, uint8_t *p, size_t q, uint8_t *r, size_t s, uint32_t *t, size_t u)
{
    printf("%u %zu ", a[0], b);
    printf("%ld %zu %ld %zu %ld %zu %ld %zu %ld %zu %ld %zu %ld %zu ", PLACE(d), e, PLACE(f), g, PLACE(h), i, PLACE(j), k, PLACE(l), m, PLACE(n), o, PLACE(p), q);
    printf("%u %zu %u %zu\n", r[0], s, t[0], u);
    return 144;
}
"""


def in_one_place():
    """The functions over the struct hand on what else they are given as it is, and each part of the struct with its length; the struct has nothing else."""
    known = definitions()
    regions = known["slot_count"] * known["slot_size"]
    counts = [known["control_size"], known["row_count"] * known["row_words"], known["slot_count"] * known["name_size"], regions, regions, known["image_size"], known["hash_size"]]
    buffers, at = [], 0
    for count, width in zip(counts, (4, 4, 1, 1, 1, 1, 1)):
        buffers += [at, count]
        at += count * width
    body = ["    static struct kramsnep_memory m;", "    uint8_t request[3] = {11, 12, 13}, answer[KRAMSNEP_ANSWER_SIZE] = {21}, buffer[KRAMSNEP_PART_SIZE] = {31}, file[5] = {41};",
            "    uint32_t results[KRAMSNEP_TRAY_MESSAGES] = {51};", "    const struct kramsnep_memory *read = &m;", "    lent = (const char *)&m;",
            '    printf("%u\\n", kramsnep_respond_in(&m, request, 3, 4000000000u, answer));', '    printf("%u\\n", kramsnep_job_outcome_in(&m, 5));',
            '    printf("%u\\n", kramsnep_save_part_in(read, 4000000001u, buffer));', '    printf("%u\\n", kramsnep_load_in(&m, file, 5));', '    printf("%zu\\n", sizeof m);',
            "    m.control[KRAMSNEP_CONTROL_ROWS] = 2; m.table[5] = KRAMSNEP_BLOB_UPDATE; m.table[6] = 0x10002;", '    printf("%d\\n", kramsnep_running_job_in(read));',
            '    printf("%u\\n", kramsnep_find_session_in(read, 4000000002u));', '    printf("%u\\n", kramsnep_tray_in(&m, request, 2, answer, 9, results));']
    found = [[int(word) for word in line.split()] for line in run_c("\n".join(body), STUBS).splitlines()]
    wanted = [[11, 3, 4000000000, *buffers, 21, known["answer_size"]], [77], [5, *buffers], [88], [4000000001, *buffers, 31, known["buffer_size"]], [99], [41, 5, *buffers], [111],
              [at], [known["update_blob"]], [4000000002, 2, *buffers[2:4]], [122], [11, 2, *buffers, 21, 9, 51, known["tray_most"]], [144]]
    return [f"handed on: {one}, not {other}" for one, other in zip(found, wanted, strict=True) if one != other]


def hooking():
    """The handler of docs/HOOKING.md compiles."""
    [code] = re.findall(r"(?ms)^```c$(.*?)^```$", (ROOT / "docs" / "HOOKING.md").read_text(encoding="utf-8"))
    around = "void lock(void); void unlock(void); uint32_t seconds_since_start(void); int start(int job); extern int job_was_started;\nsize_t blob_request(const uint8_t *, size_t, uint8_t[1 + KRAMSNEP_ANSWER_SIZE]);\n"
    done = subprocess.run([*compiler(), "-x", "c", "-std=c99", *STRICT, "-fsyntax-only", "-"], input=f'#include "{HEADER}"\n{around}{code}', capture_output=True, text=True, check=False)
    return [done.stderr] if done.returncode else []


def numbers():
    derived = {**lengths(), **entry_places()}
    known, there = {**definitions(), **derived}, macros()
    said = {**NUMBERS, **{name: name for name in derived}}
    faults = [f"{PREFIX}{name} is not in the header" for name in sorted({*said, *OTHERS} - set(there))]
    faults += [f"{PREFIX}{name} has no definition in this test" for name in sorted(set(there) - {*said, *OTHERS})]
    for name, found in printed([name for name in said if name in there]).items():
        for expression in said[name].split(", "):
            wanted = value(expression, known)
            if found != wanted:
                faults.append(f"{PREFIX}{name} is {found}, and {expression} is {wanted}")
    return faults


def nothing_missing():
    """Every number of Numbers.antt is a number of the header, or is not needed."""
    defined = set(re.findall(r"(?m)^(?:abbrev|unfoldable) pub (\w+) :", text_of("protocol/specs/Numbers.antt")))
    used = {word for said in NUMBERS.values() for word in re.findall(r"\w+", said)} & defined
    faults = [f"Numbers.{name} is not in the header" for name in sorted(defined - used - set(NOT_NEEDED))]
    return faults + [f"NOT_NEEDED names {name}, which is in the header or is no definition" for name in sorted(set(NOT_NEEDED) & used | set(NOT_NEEDED) - defined)]


def oem_and_names():
    known, there = definitions(), macros()
    pairs = [(name, one, known[one].decode("ascii")) for name, ones in NAMES.items() for one in ones]
    faults = [f"{PREFIX}{name} is {there.get(name)}, and {one} is {wanted}" for name, one, wanted in pairs if there.get(name) != f'"{wanted}"']
    body = f"    const uint8_t oem[] = {{{PREFIX}OEM_BYTES}};\n    for (size_t i = 0; i < sizeof oem; i++)\n        printf(\"%02x\", oem[i]);"
    if bytes.fromhex(run_c(body)) != known["oem"]:
        faults.append(f"{PREFIX}OEM_BYTES are not Numbers.oem")
    if printed(["OEM_NUMBER"])["OEM_NUMBER"].to_bytes(len(known["oem"]), "little") != known["oem"]:
        faults.append(f"{PREFIX}OEM_NUMBER is not the number of Numbers.oem")
    return faults


def around():
    """Network function and command are those that the tools and the example for IPMI send; the library does not see them. NO_JOB is no blob's number."""
    tools = re.search(r"(?m)^NETWORK_FUNCTION, COMMAND = (\w+), (\w+)$", (ROOT / "tools" / "blob_recording" / "ipmitool.py").read_text(encoding="utf-8")).groups()
    example = re.search(r"(?m)^NETFN, COMMAND = (\w+), (\w+)$", (ROOT / "examples" / "ipmi" / "drive.py").read_text(encoding="utf-8")).groups()
    found = printed(["IPMI_NETFN", "IPMI_COMMAND", "NO_JOB"])
    header = found["IPMI_NETFN"], found["IPMI_COMMAND"]
    faults = [f"{PREFIX}IPMI_NETFN and {PREFIX}IPMI_COMMAND are {header}, and {one} elsewhere" for one in (tools, example) if tuple(int(word, 16) for word in one) != header]
    return faults + ([f"{PREFIX}NO_JOB is a blob's number"] if found["NO_JOB"] >= 0 else [])


def rows_of_table():
    """The cells of the table in the header's comment, row by row; fields that go over into a further line are joined."""
    lines = HEADER.read_text(encoding="ascii").split("\n")
    first = next(i for i, line in enumerate(lines) if line.startswith(" *   subcommand"))
    starts = [lines[first].index(head) for head in ("subcommand", "request", "fields of the request", "fields of the response")]
    rows = []
    for line in lines[first + 1:lines.index(" *", first)]:
        cells = [line[start:end].strip() for start, end in zip(starts, starts[1:] + [None])]
        if cells[0]:
            rows.append([*cells[0].split(), *cells[1:]])
        else:
            rows[-1] = [f"{old} {new}".strip() for old, new in zip(rows[-1], ["", *cells])]
    return rows


def table():
    """Each row of that table is the one that the definitions give."""
    def listed(fields):
        return ", ".join(f"{name} ({width}) at {at}" if width else f"{name} at {at}" for name, width, at in fields) or "none"

    asked, answered, found = requests(), responses(), rows_of_table()
    wanted = [[str(number), name, length, listed(fields), listed(answered.get(name, []))] for name, (number, length, fields) in asked.items()]
    faults = [f"the row {one} is {other} by the definitions" for one, other in zip(found, wanted) if one != other]
    return faults + ([] if len(found) == len(wanted) else [f"{len(found)} rows of subcommands, not {len(wanted)}"])


def comments():
    """The numbers in the comments on frame, control block, rows and records are those of the definitions."""
    known = definitions()
    lens, staged, slots = known["committed_lens_at"], known["staged_lens_at"], known["slot_count"]
    wanted = [
        f"0-{len(known['oem']) - 1}   OEM number 49871: {known['oem'].hex(' ').upper()}", f"{known['subcommand']}     subcommand;", f"{known['header_size']}-{known['fields_at'] - 1}   CRC of the fields", f"{known['fields_at']}-    fields",
        f"{known['word.rows']}       mask of session rows in use", f"{known['word.slots']}       mask of store slots in use", f"{known['word.marks']}       mask of slots that are committed",
        f"{lens}-{lens + slots - 1}    committed length of each slot", f"{staged}-{staged + slots - 1}   staged length of each slot",
        f"{known['phase_at']}      phase of the flash: {known['phase_number.Idle']} Idle, {known['phase_number.Uploading']} Uploading, {known['phase_number.Verified']} Verified",
        f"{known['image_len_at']}, {known['hash_len_at']}  length of the image, of the hash", f"{known['next_at']}      next session identifier", f"{known['last_sweep_at']}      clock of the last sweep",
        f"{known['id_of']}  identifier", f"{known['blob_of']}  blob: 0 to {slots - 1} are store slots, {known['image_blob']} to {known['cleanup_blob']} the flash names below",
        f"{known['word_of']}  open flags in bits 0-15, job status in bits {known['status_unit'].bit_length() - 1}-{known['status_unit'].bit_length()}, clean (nothing written since the last commit) in bit {known['clean_unit'].bit_length() - 1}",
        f"{known['stamp_of']}  stamp: the clock of the session's last use",
        f"{known['record.clock']}-{known['record.clock'] + known['record.clock.width'] - 1}   clock, as kramsnep_respond takes it", f"{known['record.length']}     length of the message",
        f"{known['record.message']}-    message, so many bytes"]
    lines = [line.removeprefix(" *   ") for line in HEADER.read_text(encoding="ascii").splitlines()]
    return [f"no comment says: {one}" for one in wanted if not any(line.startswith(one) for line in lines)]


def store_file():
    """The longest part of a store file fits its buffer, and the longest file is shorter than a comment says, by less than a thousand bytes."""
    def field(length):
        return 1 + (1 if length < 128 else 2) + length

    known = definitions()
    blob = field(field(known["name_most"]) + field(known["slot_size"]))
    longest = field(len(known["base"])) + known["slot_count"] * blob
    faults = [] if blob <= known["buffer_size"] else [f"a blob's part has up to {blob} bytes"]
    said = f"less than {longest // 1000 + 1},000 bytes"
    return faults + ([] if flowing().count(said) == 1 else [f"no comment says: {said}; the longest file has {longest}"])


def configuration():
    """What the comments say of a flash configuration: how deep it may nest, which level and which entry are one too many, the codes of what is no value, and its words."""
    known, word = definitions(), profile_words()
    wanted = [
        f"at most {known['levels']} levels of brackets deep", f"a {ORDINALS[known['levels'] + 1]} level of brackets */", f"; a {ORDINALS[known['entry_most'] + 1]} entry",
        f"{known['number_there']:X} to {known['too_deep']:X} are told only where a value may begin",
        f"each an object with {word['blob']} (a string), {word['handler']} (an object with {word['type']}, which is {word['file']}, and {word['path']}, a string) and {word['actions']} "
        f"(an object with {word['preparation']}, {word['verification']} and {word['update']}, each an object with {word['type']} {word['systemd']} and {word['unit']}, a string, "
        f"or with {word['type']} {word['reboot']} alone)"]
    return [f"no comment says, or more than one: {one}" for one in wanted if flowing().count(one) != 1]


def tray():
    """What the comments say of a tray: how many messages it may have, and which lengths a record can give a message that no request may have."""
    known = definitions()
    length_bytes = known["record.message"] - known["record.length"]
    wanted = [f"one in a call or up to {known['tray_most']}:", f"a tray goes on behind its {known['tray_most']}th record */", f"One of {known['message_size'] + 1} to {256 ** length_bytes - 1} bytes is refused"]
    return [f"no comment says, or more than one: {one}" for one in wanted if flowing().count(one) != 1]


def crc():
    """The worked values of Worked.antt, which the comment says too, and random bytes against Python's own CRC."""
    worked = text_of("crc/proofs/Worked.antt")
    digits = bytes(int(byte, 16) for byte in re.findall(r"0x(\w\w)", re.search(r"^nine_digits = (.*)$", worked, re.M)[1]))
    results = dict(re.findall(r" : crc (nine_digits|\[\]) ≡ (0x\w+)", worked))
    wanted = [(digits, int(results["nine_digits"], 16)), (b"", int(results["[]"], 16))]
    chance = random.Random(20261116)
    lengths = [*range(1, 130), 255, 256, 257, 1000, 4096, 5000]
    wanted += [(data, binascii.crc_hqx(data, spec_values()["start"])) for data in map(chance.randbytes, lengths)]
    body = "\n".join(f"    {{ const uint8_t b[] = {{{', '.join(map(str, data))}}}; printf(\"%u\\n\", kramsnep_crc(b, {len(data)})); }}" if data else '    printf("%u\\n", kramsnep_crc(NULL, 0));'
                     for data, _ in wanted)
    faults = [f"the CRC of {data.hex()} is {found}, not {right}" for (data, right), found in zip(wanted, map(int, run_c(body).split())) if found != right]
    said = f"{digits.decode()} give 0x{wanted[0][1]:04X}, no bytes 0x{wanted[1][1]:04X}"
    return faults + ([] if said in HEADER.read_text(encoding="ascii") else [f"the header's comment does not say: {said}"])


def running_job(known, mask, rows, none):
    """The blob of the lowest row in use whose job runs, by the layout of a row; rows are (blob, status)."""
    runs = [blob for at, (blob, status) in enumerate(rows[:known["row_count"]]) if mask >> at & 1 and status == known["running"] and blob in (known["verify_blob"], known["update_blob"])]
    return runs[0] if runs else none


def tables(known, chance):
    """(mask, rows): each row alone, with each blob and status, in use or not; then rows of all kinds at once. One row stands behind the table, and must not be read."""
    blobs = [0, known["image_blob"], known["verify_blob"], known["update_blob"], known["cleanup_blob"], known["cleanup_blob"] + 1]
    behind = known["verify_blob"], known["running"]
    for row in range(known["row_count"]):
        for blob in blobs:
            for status in range(4):
                rows = [(0, 0)] * row + [(blob, status)] + [(0, 0)] * (known["row_count"] - row - 1) + [behind]
                yield from ((mask, rows) for mask in (0, 1 << row, 0xFFFFFFFF & ~(1 << row)))
    for _ in range(300):
        yield chance.getrandbits(32), [(chance.choice(blobs), chance.randrange(4)) for _ in range(known["row_count"])] + [behind]


def jobs():
    """The running job of these tables."""
    known, none = definitions(), printed(["NO_JOB"])["NO_JOB"]
    tried = list(tables(known, random.Random(7)))
    words, wanted = [], [running_job(known, mask, rows, none) for mask, rows in tried]
    for mask, rows in tried:
        lent = [0] * ((known["row_count"] + 1) * known["row_words"])
        for at, (blob, status) in enumerate(rows):
            lent[at * known["row_words"] + known["blob_of"]], lent[at * known["row_words"] + known["word_of"]] = blob, known["write_only"] + status * known["status_unit"]
        words.append(f"{{{mask}u, {', '.join(f'{word}u' for word in lent)}}}")
    table = f"static const uint32_t tried[][1 + {len(lent)}] = {{{', '.join(words)}}};"
    body = ["    uint32_t control[KRAMSNEP_CONTROL_WORDS] = {0};", f"    for (int i = 0; i < {len(tried)}; i++) {{", f"        control[{known['word.rows']}] = tried[i][0];",
            '        printf("%d\\n", kramsnep_running_job(control, tried[i] + 1));', "    }"]
    found = list(map(int, run_c("\n".join(body), table).split()))
    return [f"kramsnep_running_job, try {i}: {one}, not {other}" for i, (one, other) in enumerate(zip(found, wanted)) if one != other]


def parts():
    """The status in a row's word, on both sides of each multiple of its unit; the two parts of a result, the three of a lookup's and of a tray's, and the two of a reading's, up to the most that it can tell."""
    known = definitions()
    words = [k * known["status_unit"] + d for k in range(1, 9) for d in (-1, 0)]
    results = [code + known["code_unit"] * length for code in (known["success"], known["not_sound"]) for length in (0, 1, known["answer_size"], known["buffer_size"])]
    wanted = [word // known["status_unit"] % 4 for word in words] + [part for result in results for part in (result % known["code_unit"], result // known["code_unit"])]
    lookups = [code + known["code_unit"] * row + known["second_unit"] * visits for code in (known["success"], known["not_found"]) for row in (0, 1, 15) for visits in (0, 1, 16)]
    wanted += [part for result in lookups for part in told_by("lookup_in", ("code", "row", "visits"), result, known)]
    told = [0, 1, known["code_unit"] - 1, known["code_unit"], 2 ** 32 // known["code_unit"] - 1, 2 ** 32 // known["code_unit"], known["number_most"]]
    readings = [code + known["code_unit"] * number for code in (known["success"], known["bad_text"], known["not_sound"]) for number in told]
    wanted += [part for result in readings for part in (result % known["code_unit"], result // known["code_unit"])]
    full = known["tray_most"] * known["answer_size"]
    trays = [code + known["code_unit"] * done + known["second_unit"] * length for code in (known["success"], known["not_sound"]) for done in (0, 1, known["tray_most"], known["code_unit"] - 1)
             for length in (0, 1, full, 2 ** 32 // known["second_unit"] - 1)]
    wanted += [part for result in trays for part in told_by("tray_in", ("code", "done", "len"), result, known)]
    body = [f'    printf("%u\\n", (unsigned)KRAMSNEP_JOB_STATUS({word}u & 0xFFFFFFFFu));' for word in words]
    body += [f'    printf("%u %u\\n", (unsigned)KRAMSNEP_CODE({result}u | 0u), (unsigned)KRAMSNEP_LENGTH({result}u & 0xFFFFFFFFu));' for result in results]
    body += [f'    printf("%u %u %u\\n", (unsigned)KRAMSNEP_CODE({result}u | 0u), (unsigned)KRAMSNEP_SESSION_ROW({result}u | 0u), (unsigned)KRAMSNEP_ROWS_VISITED({result}u | 0u));' for result in lookups]
    body += [f'    printf("%u %llu\\n", (unsigned)KRAMSNEP_CODE(UINT64_C({result}) | 0u), (unsigned long long)KRAMSNEP_CONFIG_NUMBER(UINT64_C({result}) | 0u));' for result in readings]
    body += [f'    printf("%u %u %zu\\n", (unsigned)KRAMSNEP_CODE({result}u | 0u), (unsigned)KRAMSNEP_TRAY_DONE({result}u | 0u), (size_t)KRAMSNEP_TRAY_BYTES({result}u | 0u));' for result in trays]
    found = list(map(int, run_c("\n".join(body)).split()))
    return [] if found == wanted else [f"KRAMSNEP_JOB_STATUS, KRAMSNEP_CODE, KRAMSNEP_LENGTH, KRAMSNEP_SESSION_ROW, KRAMSNEP_ROWS_VISITED, KRAMSNEP_CONFIG_NUMBER, KRAMSNEP_TRAY_DONE and KRAMSNEP_TRAY_BYTES give {found}, not {wanted}"]


def version():
    entry = re.search(r"(?m)^## (\S+)", (ROOT / "docs" / "CHANGELOG.md").read_text(encoding="utf-8")).group(1)
    parts = printed(["VERSION_MAJOR", "VERSION_MINOR", "VERSION_PATCH"]).values()
    said = {macros()["VERSION"].strip('"'), ".".join(map(str, parts))}
    return [] if said == {entry} else [f"the header's versions are {sorted(said)}, and docs/CHANGELOG.md begins with {entry}"]


def main():
    if sys.argv[1:] != ["--check"]:
        sys.exit(__doc__)
    failed = False
    for test in (alone, hooking, prototypes, in_one_place, numbers, nothing_missing, oem_and_names, around, table, comments, store_file, configuration, tray, crc, jobs, parts, version):
        faults = test()
        failed |= bool(faults)
        print("\n".join(f"header, {test.__name__}: {fault}" for fault in faults) or f"header, {test.__name__}: as defined")
    sys.exit(failed)


if __name__ == "__main__":
    main()
