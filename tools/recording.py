#!/usr/bin/env python3
"""Recordings of requests, for people: written as readable lines, read back as a transcript in words.

A line of a recording is a clock and a request; '#' starts a comment:

    100 open /scan/moreau 0003      name, flags in hex
    101 write 0 0 'Hello' 0d0a      session, offset, data: text in quotes, or hex; at most 52 bytes
    102 read 0 0 58                 session, offset, count
    103 commit 0                    session
    104 stat /scan/moreau           also: delete NAME
    105 sessionstat 0               also: close SESSION, writemeta SESSION
    106 count                       also: enumerate INDEX
    107 raw CFC2000B                any bytes, right or wrong: nothing at all, or up to 255

Quotes are ' or "; inside them \\\\ \\' \\" \\n \\r \\t \\xHH are escapes, and text is kept as UTF-8.

A file called - is standard input, or standard output where it is written. What is wrong is told in one line, FILE:LINE: what;
then the exit status is 1, and no file is written or changed."""
import argparse
import os
import re
import signal
import sys

sys.path.insert(0, os.path.dirname(os.path.realpath(__file__)))  # whatever Python was told of it
from blob_recording import controller, files, ipmitool, story, transcript, transfer
from blob_recording.files import Fault
from blob_recording.messages import SCAN_SIZE, message, records  # noqa: F401 (for the tests and benchmarks, which import this file)
from blob_recording.story import make  # noqa: F401


class Parser(argparse.ArgumentParser):
    """Tells wrong arguments in one line, as all else that is wrong."""

    def __init__(self, **options):
        super().__init__(formatter_class=argparse.RawDescriptionHelpFormatter, allow_abbrev=False, **options)

    def error(self, message):  # argparse's own name for it
        raise Fault(f"{self.prog}: {message} (--help says more)")


def up_to(most):
    """A reader of numbers from 0 to that one, decimal or 0x and hex."""
    def number(word):
        form = re.fullmatch("0x([0-9A-Fa-f]{1,8})|([0-9]{1,10})", word)
        value = int(form.group(1), 16) if form and form.group(1) else int(form.group(2)) if form else most + 1
        if value > most:
            raise argparse.ArgumentTypeError(f"a number from 0 to {most} is wanted, not {word}")
        return value
    return number


def text(lines):
    return "".join(f"{line}\n" for line in lines).encode("utf-8")


def run_make(given):
    """STORY.txt STORY.requests: the request file that `blobrun` reads, from readable lines"""
    files.check_paths([given.story], given.requests)
    files.write(given.requests, story.make_lines(files.read_lines(given.story), files.called(given.story)))


def run_show(given):
    """STORY.requests LINES: what was asked and what was answered, in words; LINES is what `blobrun` printed"""
    files.check_paths([given.requests, given.lines])
    files.write("-", text(transcript.show(files.read_bytes(given.requests), files.read_lines(given.lines), files.called(given.lines))))


def run_tell(given):
    """STORY.txt LINES: the readable lines themselves, comments too, with what was answered behind each request

LINES is what `blobrun` printed for the request file that `make` makes of them."""
    files.check_paths([given.story, given.lines])
    asked = files.read_lines(given.story)
    made = story.make_lines(asked, files.called(given.story))
    files.write("-", text(transcript.tell(asked, made, files.read_lines(given.lines), files.called(given.lines))))


def give_story(lines, output):
    """Prints readable lines, or makes them into a request file where there is an output."""
    if output is None:
        files.write("-", text(lines))
    else:
        files.write(output, story.make_lines(lines, "the recording"))


def run_upload(given):
    """NAME FILE [REQUESTS]: a recording that stores a file: Open for writing, Writes of 52 bytes, Commit, Close

Without REQUESTS the readable lines are printed; with it the request file is written. A name holds at most 4,096 bytes.
A recording says beforehand which session it means: --session is the identifier that the Open will be given, 0 on a fresh library.
If it is given another, the Writes meet another's session, or none: for a controller that somebody else may use, take `store`.
A Write does not shorten what a name holds: for a name that may hold more than the file, --replace deletes it first (where there is
none, that Delete is refused and changes nothing)."""
    files.check_paths([given.file], given.requests)
    data = files.read_bytes(given.file, SCAN_SIZE + 1)
    give_story(transfer.upload(given.name, data, files.called(given.file), given.session, given.clock, given.replace), given.requests)


def run_download(given):
    """NAME [REQUESTS]: a recording that reads a name back: Open for reading, Reads of 58 bytes, Close

Without REQUESTS the readable lines are printed; with it the request file is written.
Behind the end of what is stored a Read brings nothing, so the default length brings all of it. `received` puts the bytes together.
Options stand behind these words or in front of them, not between them."""
    give_story(transfer.download(given.name, given.length, given.session, given.clock), given.requests)


def run_received(given):
    """STORY.requests LINES FILE: the bytes that the Reads of a name brought, into a file

Nothing is written if an Open or a Read of the name was refused, if bytes are missing in between, if two Reads differ, or if the Reads are
not all of one session, with nothing written by it between them.
A line on standard error says how many bytes came, and whether the Reads met their end."""
    files.check_paths([given.requests, given.lines], given.file)
    name, data, whole = transfer.received(files.read_bytes(given.requests), files.read_lines(given.lines), files.called(given.lines), given.name)
    files.write(given.file, data)
    files.say(f"{name}: {len(data)} bytes, {'all it has' if whole else 'and there may be more: no Read met the end'}")


def client_of(given):
    return controller.Client(given.client, given.netfn, given.cmd)


def run_store(given):
    """NAME FILE CLIENT..: stores a file on a controller: each request is sent by CLIENT, and the session is the one that the Open is given

CLIENT is a program and its words, to which the words of the request are added; it has to print as `ipmitool raw` does:
    recording.py store /scan/foot foot.bin ipmitool -I lanplus -H HOST -U USER -P PASSWORD raw
Options stand in front of NAME. All of the file is committed, or nothing: a refusal ends it, and the session is closed. Where the name
holds more than the file, nothing is committed either, since a Write does not shorten it; --replace deletes the name first (so that a failure after that leaves none)."""
    files.check_paths([given.file])
    data = files.read_bytes(given.file, SCAN_SIZE + 1)
    controller.store(client_of(given), given.name, data, files.called(given.file), given.replace)


def run_fetch(given):
    """NAME FILE CLIENT..: fetches what a controller holds under a name into a file, by CLIENT as for store

Nothing is written unless all of it came."""
    files.write(given.file, controller.fetch(client_of(given), given.name))


def run_to_ipmitool(given):
    """REQUESTS [WORDS]: for each request a line of words for `ipmitool raw`

For example:  recording.py to-ipmitool x.requests | while read -r words; do ipmitool .. raw $words </dev/null 2>&1; done >printed
The clocks are left out: the controller has its own. The sessions are those of the recording, and not those that its Opens are given there:
for a controller that somebody else may use, take `store` and `fetch`."""
    files.check_paths([given.requests], given.words)
    lines = ipmitool.word_lines(files.read_bytes(given.requests), files.called(given.requests), given.netfn, given.cmd)
    files.write(given.words, text(lines))


def run_from_ipmitool(given):
    """WORDS REQUESTS: the request file from lines that `ipmitool raw` takes

What stands in a line up to the word `raw` is left out, so lines of a script can be given as they are."""
    files.check_paths([given.words], given.requests)
    files.write(given.requests, ipmitool.requests(files.read_lines(given.words), files.called(given.words), given.netfn, given.cmd, given.clock))


def run_ipmitool_answers(given):
    """PRINTED [LINES]: what `ipmitool raw` printed, as the lines that `blobrun` prints: for show and received

PRINTED has what came on standard output and standard error, request by request. Where a response fills its last line of 16 bytes, its CRC
tells whether it ends there; an empty line ends it too."""
    files.check_paths([given.printed], given.lines)
    files.write(given.lines, text(ipmitool.answer_lines(files.read_lines(given.printed), files.called(given.printed))))


# What the words of the subcommands stand for.
MEANINGS = {
    "STORY": "a file of readable lines", "REQUESTS": "a request file, as `blobrun` reads it", "LINES": "a file of lines, as `blobrun` prints them", "NAME": "a name of the store: /scan/..",
    "FILE": "the file itself", "WORDS": "a file of lines that `ipmitool raw` takes", "PRINTED": "a file of what `ipmitool raw` printed",
    "CLIENT": "a program and its words, as `ipmitool .. raw`"}


def add(commands, run, *words, **options):
    """A subcommand: its help is the first line of `run`'s, behind the words, and its description all of it."""
    name = run.__name__.removeprefix("run_").replace("_", "-")
    summary = run.__doc__.partition("\n")[0].partition(": ")[2]
    parser = commands.add_parser(name, help=summary, description=summary + "\n" + run.__doc__.partition("\n")[2])
    parser.set_defaults(run=run)
    for word in words:
        plain = word.strip("[.]")
        nargs = {"nargs": "?"} if word.startswith("[") else {"nargs": argparse.REMAINDER} if word.endswith("..") else {}
        parser.add_argument(plain.lower(), metavar=plain, help=MEANINGS[plain], **nargs)
    for option, (kind, default, summary) in options.items():
        if kind is bool:
            parser.add_argument(f"--{option}", action="store_true", help=summary)
        else:
            parser.add_argument(f"--{option}", type=kind, default=default, metavar=option.upper(), help=summary if default is None else f"{summary} (default %(default)s)")
    return parser


def parser():
    """The command line."""
    top = Parser(prog="recording.py", description=__doc__)
    commands = top.add_subparsers(dest="command", required=True, metavar="COMMAND", title="commands (COMMAND --help says more)")
    clock = up_to(0xFFFFFFFF), 0, "the clock of each request"
    session = up_to(0xFFFF), 0, "the session's identifier"
    replace = bool, False, "delete the name first"
    numbers = {"netfn": (up_to(0xFF), f"0x{ipmitool.NETWORK_FUNCTION:02x}", "the network function"), "cmd": (up_to(0xFF), f"0x{ipmitool.COMMAND:02x}", "the command")}
    add(commands, run_make, "STORY", "REQUESTS")
    add(commands, run_show, "REQUESTS", "LINES")
    add(commands, run_tell, "STORY", "LINES")
    add(commands, run_upload, "NAME", "FILE", "[REQUESTS]", session=session, clock=clock, replace=replace)
    add(commands, run_download, "NAME", "[REQUESTS]", session=session, clock=clock, length=(up_to(SCAN_SIZE), SCAN_SIZE, "how many bytes are asked for"))
    add(commands, run_received, "REQUESTS", "LINES", "FILE", name=(transfer.checked_name, None, "the name, where Reads of several were recorded"))
    add(commands, run_store, "NAME", "FILE", "CLIENT..", replace=replace, **numbers)
    add(commands, run_fetch, "NAME", "FILE", "CLIENT..", **numbers)
    add(commands, run_to_ipmitool, "REQUESTS", "[WORDS]", **numbers).set_defaults(words="-")
    add(commands, run_from_ipmitool, "WORDS", "REQUESTS", clock=clock, **numbers)
    add(commands, run_ipmitool_answers, "PRINTED", "[LINES]").set_defaults(lines="-")
    return top


def main():
    if hasattr(signal, "SIGPIPE"):
        signal.signal(signal.SIGPIPE, signal.SIG_DFL)  # `| head` ends it quietly, as other programs
    try:
        given = parser().parse_args()
        given.run(given)
    except Fault as fault:
        files.say(str(fault))
        sys.exit(1)
    except MemoryError:
        files.say("recording.py: out of memory")
        sys.exit(1)
    except KeyboardInterrupt:
        sys.exit(130)


if __name__ == "__main__":
    main()
