#!/usr/bin/env python3
"""Runs tools/recording.py as its users do: every request both ways, every fault with its line, transfers through blobrun, lines of ipmitool.

recording.py --check          needs target/bin/blobrun (tools/build.sh)"""
import binascii
import os
import pathlib
import random
import resource
import subprocess
import sys
import tempfile

ROOT = pathlib.Path(__file__).resolve().parent.parent
sys.path.insert(0, str(ROOT / "tools"))
import fake_ipmitool  # noqa: E402
import recording  # noqa: E402
from blob_recording import story, transcript  # noqa: E402

TOOL = ROOT / "tools" / "recording.py"
BLOBRUN = ROOT / "target" / "bin" / "blobrun"
STORIES = sorted((ROOT / "examples").glob("*.txt"))
COMMANDS = ["make", "show", "tell", "upload", "download", "received", "store", "fetch", "to-ipmitool", "from-ipmitool", "ipmitool-answers"]


def expect(what, found, wanted):
    if found != wanted:
        sys.exit(f"{what}:\n  found  {found!r:.600}\n  wanted {wanted!r:.600}")


def tool(*words, data=b"", folder=None, **options):
    """(exit status, standard output, standard error) of the tool with these words, run in that folder."""
    done = subprocess.run([sys.executable, str(TOOL), *map(str, words)], input=data, capture_output=True, check=False, cwd=folder, **options)
    return done.returncode, done.stdout, done.stderr.decode()


def good(*words, data=b"", folder=None):
    """The standard output of the tool, which must succeed; it says nothing on standard error but what `received` counts."""
    status, out, err = tool(*words, data=data, folder=folder)
    if status or err and words[0] != "received":
        sys.exit(f"recording.py {' '.join(map(str, words))}: status {status}, {err}")
    return out


def refused(what, wanted, *words, folder, data=b"", **options):
    """The tool must exit with 1, tell that one line, print nothing, and leave the folder as it was."""
    def files():
        return {path.name: path.read_bytes() for path in folder.iterdir() if path.is_file()}

    before = files()
    found = tool(*words, data=data, folder=folder, **options)
    expect(what, found, (1, b"", wanted + "\n"))
    expect(f"{what}: the files afterwards", files(), before)


def blobrun(data):
    return subprocess.run([str(BLOBRUN)], input=data, capture_output=True, check=True).stdout


def little(value, width):
    return value.to_bytes(width, "little")


def crc(fields):
    """The CRC of docs/PROTOCOL.md, by Python's own."""
    return binascii.crc_hqx(fields, 0x1D0F)


def framed(subcommand, fields=b""):
    """A message by the rules of docs/PROTOCOL.md, made without the tool."""
    return b"\xcf\xc2\x00" + bytes([subcommand]) + (little(crc(fields), 2) + fields if fields else b"")


def one_record(m, clock=7):
    return little(clock, 4) + bytes([len(m)]) + m


# Lines that `show` writes as they are, and their messages.
AS_WRITTEN = {
    "count": framed(0),
    "enumerate 4294967295": framed(1, b"\xff\xff\xff\xff"),
    "open /scan/moreau 0003": framed(2, b"\3\0/scan/moreau\0"),
    "read 65535 70000 58": framed(3, b"\xff\xff\x70\x11\x01\0\x3a\0\0\0"),
    "write 1 2 ''": framed(4, b"\1\0\2\0\0\0"),
    f"write 0 0 '{'x' * 52}'": framed(4, bytes(6) + b"x" * 52),
    "commit 258": framed(5, b"\2\1\0"),
    "close 0": framed(6, b"\0\0"),
    "delete /scan/moreau2": framed(7, b"/scan/moreau2\0"),
    "stat '\\x01\\xff'": framed(8, b"\x01\xff\0"),
    "stat ''": framed(8, b"\0"),
    "sessionstat 9": framed(9, b"\x09\0"),
    "writemeta 9": framed(10, b"\x09\0\0\0\0\0"),
    "write 1 2 417f": framed(4, b"\1\0\2\0\0\0A\x7f"),
    "stat '/scan/a#b'": framed(8, b"/scan/a#b\0"),
    "stat '/scan/\"'": framed(8, b"/scan/\"\0"),
    "stat '/scan/\\\\'": framed(8, b"/scan/\\\0"),
    "raw CFC30000": b"\xcf\xc3\0\0",
    "raw CFC20006FF": b"\xcf\xc2\0\x06\xff",
    "raw": b"",
    f"raw {'5A' * 255}": b"\x5a" * 255,
}
# A line that may be written in another way, its message, and how `show` writes it.
OTHERWISE = [
    ("open '/scan/a b' 0x1", framed(2, b"\1\0/scan/a b\0"), "open '/scan/a b' 0001"),
    ("write 1 2 48656c6C6f", framed(4, b"\1\0\2\0\0\0Hello"), "write 1 2 'Hello'"),
    ("write 1 2 'Hello' 0d0a \"it's\"", framed(4, b"\1\0\2\0\0\0Hello\r\nit's"), "write 1 2 48656c6c6f0d0a69742773"),
    ("raw CFC2 000b 'x'", b"\xcf\xc2\x00\x0bx", "raw CFC2000B78"),
]

# Words in quotes, and their bytes.
QUOTED = [
    ("'say \"hi\"'", b"say \"hi\""), ("\"it's\"", b"it's"), ("'=hi'", b"=hi"), ("' \"= '", b" \"= "), ("'a # b'", b"a # b"), ("\"a\\\"b\\'c\\\\d\"", b"a\"b'c\\d"),
    ("'\\n\\r\\t\\x00\\xFf'", b"\n\r\t\0\xff"), ("'caf\u00e9 \u2028'", b"caf\xc3\xa9 \xe2\x80\xa8"), ("'a\tb'", b"a\tb"), ("''", b""), ("'\\\\x41'", b"\\x41")]


def requests():
    """Every request: the bytes of its line, and the line of its bytes."""
    for line, m, shown in [*((line, m, line) for line, m in AS_WRITTEN.items()), *OTHERWISE]:
        expect(f"the bytes of {line}", recording.make(f"7 {line}"), one_record(m))
        expect(f"the line of {m.hex()}", story.asked(m), shown)
    expect("every request is tried", {line.split()[0] for line in AS_WRITTEN}, set(story.WORDS))
    for word, data in QUOTED:
        expect(f"the bytes of {word}", recording.make(f"7 write 1 2 {word}"), one_record(framed(4, b"\1\0\2\0\0\0" + data)))
    text = "\ufeff# a comment\r\n\r\n\t7  count # one\r\n 8\tcount#\n".replace("count#", "close 1 #'")
    with tempfile.TemporaryDirectory() as name:
        out = good("make", "-", "-", data=text.encode(), folder=name)
    expect("comments, blanks, ends of lines", out, one_record(framed(0)) + one_record(framed(6, b"\1\0"), 8))


def random_messages():
    """Any message is written as a line that makes the very same bytes: right ones, damaged ones, and bytes of any kind."""
    chance = random.Random(12)
    for _ in range(6000):
        fields = chance.choice([chance.randbytes(chance.randrange(64)), bytes(chance.choices(b"az '\"\\#\n\0\xc3=", k=chance.randrange(40)))])
        m = chance.choice([framed(chance.randrange(12), fields), framed(2, b"\3\0" + fields + b"\0"), framed(4, bytes(6) + fields), fields])
        if chance.random() < 0.2 and m:
            at = chance.randrange(len(m))
            m = m[:at] + bytes([m[at] ^ 1 << chance.randrange(8)]) + m[at + 1:]
        expect(f"{m.hex()} as the line {story.asked(m)}", recording.make(f"7 {story.asked(m)}"), one_record(m))


# A line that is refused, and why.
FAULTS = [
    ("7 opne /scan/a 0003", "no such request: opne (there are count enumerate open read write commit close delete stat sessionstat writemeta raw)"),
    ("7", "no request behind the clock"),
    ("count", "CLOCK is a number from 0 to 4294967295, not count"),
    ("4294967296 count", "CLOCK is a number from 0 to 4294967295, not 4294967296"),
    ("-1 count", "CLOCK is a number from 0 to 4294967295, not -1"),
    ("1_0 count", "CLOCK is a number from 0 to 4294967295, not 1_0"),
    (f"{'9' * 5000} count", f"CLOCK is a number from 0 to 4294967295, not {'9' * 5000}"),
    ("'7' count", "CLOCK is a number from 0 to 4294967295, not '7'"),
    ("7 count 1", "count takes no word, and here are 1 words"),
    ("7 enumerate", "enumerate takes INDEX, and here are 0 words"),
    ("7 enumerate 4294967296", "INDEX is a number from 0 to 4294967295, not 4294967296"),
    ("7 open /scan/a", "open takes NAME FLAGS, and here are 1 words"),
    ("7 open /scan/a b 0003", "open takes NAME FLAGS, and here are 3 words"),
    ("7 open /scan/a 10003", "FLAGS is a number from 0 to ffff, in hex, not 10003"),
    ("7 open /scan/a rw", "FLAGS is a number from 0 to ffff, in hex, not rw"),
    (f"7 open '{'n' * 56}' 0003", "a message of 65 bytes: open makes at most 64"),
    (f"7 stat {'n' * 58}", "a message of 65 bytes: stat makes at most 64"),
    ("7 read 0 0", "read takes SESSION OFFSET COUNT, and here are 2 words"),
    ("7 read 65536 0 58", "SESSION is a number from 0 to 65535, not 65536"),
    ("7 read 0 0x10 58", "OFFSET is a number from 0 to 4294967295, not 0x10"),
    ("7 read 0 0 4294967296", "COUNT is a number from 0 to 4294967295, not 4294967296"),
    ("7 write 0 0", "write takes SESSION OFFSET DATA.., and here are 2 words"),
    ("7 write 0 0 hello", "hello is no hex data (text is put in quotes)"),
    ("7 write 0 0 0x41", "0x41 is no hex data (text is put in quotes)"),
    ("7 write 0 0 abc", "abc has an odd number of hex digits"),
    (f"7 write 0 0 '{'x' * 53}'", "a Write carries at most 52 bytes, not 53"),
    (f"7 write 0 0 '{'x' * 40}' {'00' * 13}", "a Write carries at most 52 bytes, not 53"),
    ("7 write 0 0 'left", "a quote is left open: 'left"),
    ("7 write 0 0 \"it's", "a quote is left open: \"it's"),
    ("7 write 0 0 'left\\'", "a quote is left open: 'left\\'"),
    ("7 write 0 0 'left\\", "unknown escape \\: there are \\\\ \\' \\\" \\n \\r \\t \\xHH"),
    ("7 write 0 0 '\\d'", "unknown escape \\d: there are \\\\ \\' \\\" \\n \\r \\t \\xHH"),
    ("7 write 0 0 '\\x4'", "unknown escape \\x: there are \\\\ \\' \\\" \\n \\r \\t \\xHH"),
    ("7 write 0 0 'a''b'", "a blank is missing behind 'a'"),
    ("7 write 0 0 ab'c'", "' inside the word ab'c': put the whole word in quotes"),
    ("7 write 0 0 41\\n", "\\ inside the word 41\\n: it is an escape only in quotes"),
    ("7 open /scan/a#b 0003", "# inside the word /scan/a#b: put a blank before a comment, or the word in quotes"),
    ("7 open /scan/caf\u00e9 0003", "\u00e9 stands outside quotes"),
    ("7 write 0 0 \u2018hi\u2019", "\u2018 stands outside quotes"),
    *((f"7 write 0 0 'a{chr(code)}'", f"a control character: in quotes it is written \\x{code:02x}") for code in (0, 7, 0x0B, 0x0C, 0x1B, 0x7F, 0x85, 0x9F)),
    ("7 write 0 0 ab\"c\"", "\" inside the word ab\"c\": put the whole word in quotes"),
    ("7 write 0 0 '\\X41'", "unknown escape \\X: there are \\\\ \\' \\\" \\n \\r \\t \\xHH"),
    ("7 write 0 0 'a'#", "a blank is missing behind 'a'"),
    ("7 close '0'", "SESSION is a number from 0 to 65535, not '0'"),
    ("7 open /scan/a '0003'", "FLAGS is a number from 0 to ffff, in hex, not '0003'"),
    ("7 open /scan/a 00003", "FLAGS is a number from 0 to ffff, in hex, not 00003"),
    ("7 commit", "commit takes SESSION, and here are 0 words"),
    ("7 commit 0 0", "commit takes SESSION, and here are 2 words"),
    ("7 close x", "SESSION is a number from 0 to 65535, not x"),
    ("7 delete", "delete takes NAME, and here are 0 words"),
    ("7 sessionstat", "sessionstat takes SESSION, and here are 0 words"),
    ("7 writemeta 0 1", "writemeta takes SESSION, and here are 2 words"),
    ("7 raw CFC", "CFC has an odd number of hex digits"),
    (f"7 raw {'00' * 256}", "a message of 256 bytes: raw makes at most 255"),
]


def faults():
    """Every fault of a line is told with file and line, and neither a new file nor a change of the old one is left."""
    with tempfile.TemporaryDirectory() as name:
        folder = pathlib.Path(name)
        (folder / "old.requests").write_bytes(b"as it was")
        for at, (line, why) in enumerate(FAULTS):
            (folder / "story.txt").write_text(f"# first\n0 count\n{line}\n0 also wrong\n", encoding="utf-8")
            target = "old.requests" if at % 2 else "new.requests"
            refused(line, f"story.txt:3: {why}", "make", "story.txt", target, folder=folder, env={**os.environ, "PYTHONIOENCODING": "utf-8"})
        refused("standard input", "standard input:1: no request behind the clock", "make", "-", "new.requests", folder=folder, data=b"7\n")
        (folder / "story.txt").write_bytes(b"0 count\n0 stat 'caf\xe9'\n")
        refused("not UTF-8", "story.txt:2: not UTF-8 text", "make", "story.txt", "new.requests", folder=folder)


def bad_files():
    """Files that cannot be read or written, a disk that is full, an output that is an input."""
    with tempfile.TemporaryDirectory() as name:
        folder = pathlib.Path(name)
        (folder / "story.txt").write_text("0 count\n" * 100, encoding="utf-8")
        (folder / "a folder").mkdir()
        refused("missing", "none.txt: cannot be read: No such file or directory", "make", "none.txt", "new", folder=folder)
        refused("a line feed in the name", "no\\nne: cannot be read: No such file or directory", "make", "no\nne", "new", folder=folder)
        refused("a folder", "a folder: cannot be read: Is a directory", "make", "a folder", "new", folder=folder)
        refused("into a folder", "a folder: cannot be written: Is a directory", "make", "story.txt", "a folder", folder=folder)
        refused("into no folder", "none/new: cannot be written: No such file or directory", "make", "story.txt", "none/new", folder=folder)
        refused("onto itself", "story.txt: is both read and written", "make", "story.txt", "story.txt", folder=folder)
        refused("a full disk", "new: cannot be written: File too large", "make", "story.txt", "new", folder=folder,
                preexec_fn=lambda: resource.setrlimit(resource.RLIMIT_FSIZE, (100, 100)))
        with open("/dev/full", "wb") as full:
            done = subprocess.run([sys.executable, str(TOOL), "make", "story.txt", "-"], cwd=folder, stdout=full, stderr=subprocess.PIPE, check=False)
        expect("a full device", (done.returncode, done.stderr), (1, b"standard output: cannot be written: No space left on device\n"))
        (folder / "loop").symlink_to("loop")
        refused("links that lead to each other", "loop: cannot be written: Too many levels of symbolic links", "make", "story.txt", "loop", folder=folder)
        (folder / "loop").unlink()
        with open(folder / "story.txt", "rb") as story_file:
            done = subprocess.run([sys.executable, str(TOOL), "make", "-", "story.txt"], cwd=folder, stdin=story_file, capture_output=True, check=False)
        closed = subprocess.run(["sh", "-c", '"$1" "$2" make - story.txt <&-', "sh", sys.executable, str(TOOL)], cwd=folder, capture_output=True, check=False)
        expect("no standard input", (closed.returncode, closed.stderr), (1, b"standard input: cannot be read: Bad file descriptor\n"))
        expect("standard input that is the output", (done.returncode, done.stderr), (1, b"story.txt: is both read and written\n"))
        refused("standard input twice", "standard input can be read only once", "show", "-", "-", folder=folder)
        (folder / "same").hardlink_to(folder / "story.txt")
        for words in (["make", "story.txt", "same"], ["upload", "/scan/a", "story.txt", "same"], ["received", "story.txt", "none", "same"], ["received", "none", "story.txt", "same"],
                      ["to-ipmitool", "story.txt", "same"], ["from-ipmitool", "story.txt", "same"], ["ipmitool-answers", "story.txt", "same"]):
            refused(f"{words[0]} onto its input", "same: is both read and written", *words, folder=folder)
        refused("standard input twice", "standard input can be read only once", "tell", "-", "-", folder=folder)
        for words in (["show", "none", "story.txt"], ["to-ipmitool", "none"], ["from-ipmitool", "none", "new"], ["ipmitool-answers", "none"], ["upload", "/scan/a", "none", "new"]):
            refused(f"{words[0]}, missing", "none: cannot be read: No such file or directory", *words, folder=folder)
        for words in (["show", "story.txt", "none"], ["received", "story.txt", "none", "new"]):
            refused(f"{words[0]}, missing lines", "none: cannot be read: No such file or directory", *words, folder=folder)
        if os.geteuid():
            (folder / "story.txt").chmod(0)
            expect("unreadable", tool("make", "story.txt", "new", folder=folder), (1, b"", "story.txt: cannot be read: Permission denied\n"))


def ended_early():
    """A reader that ends early, as `head`, ends the tool without a word."""
    requests, lines = ROOT / "examples" / "two-moreaus.requests", ROOT / "examples" / "two-moreaus.lines"
    done = subprocess.run(["sh", "-c", '"$1" "$2" show "$3" "$4" | true', "sh", sys.executable, str(TOOL), str(requests), str(lines)], capture_output=True, check=False)
    expect("into a pipe that is closed", (done.returncode, done.stdout, done.stderr), (0, b"", b""))


def kept_files():
    """A file that is written anew keeps its access rights and its place behind a link; a device is written, not renamed over."""
    with tempfile.TemporaryDirectory() as name:
        folder = pathlib.Path(name)
        (folder / "story.txt").write_text("7 count\n", encoding="utf-8")
        (folder / "old").write_bytes(b"")
        (folder / "old").chmod(0o640)
        (folder / "link").symlink_to("old")
        good("make", "story.txt", "link", folder=folder)
        expect("through a link", ((folder / "link").is_symlink(), (folder / "old").read_bytes()), (True, one_record(framed(0))))
        expect("access rights kept", (folder / "old").stat().st_mode & 0o777, 0o640)
        mask = os.umask(0o027)
        good("make", "story.txt", "new", folder=folder)
        os.umask(mask)
        expect("access rights of a new file", (folder / "new").stat().st_mode & 0o777, 0o640)
        os.mkfifo(folder / "pipe")
        with subprocess.Popen(["cat", "pipe"], cwd=folder, stdout=subprocess.PIPE) as reader:
            good("make", "story.txt", "pipe", folder=folder)
            expect("a pipe", (reader.communicate(timeout=60)[0], (folder / "pipe").is_fifo()), (one_record(framed(0)), True))
        with open(folder / "log", "wb") as log:
            log.write(b"before ")
            log.flush()
            for path in ("/dev/stdout", "/dev/fd/1"):
                subprocess.run([sys.executable, str(TOOL), "make", "story.txt", path], cwd=folder, stdout=log, check=True)
        expect("behind what was written", (folder / "log").read_bytes(), b"before " + one_record(framed(0)) * 2)
        expect("the files", sorted(path.name for path in folder.iterdir()), ["link", "log", "new", "old", "pipe", "story.txt"])


def arguments():
    """Help for the tool and each subcommand; wrong arguments are told in one line."""
    for command in [[], *([command] for command in COMMANDS)]:
        for word in ("--help", "-h"):
            if not good(*command, word).decode().startswith(" ".join(["usage: recording.py", *command])):
                sys.exit(f"{command} {word}")
    listed = good("--help").decode()
    expect("commands in the help", [command for command in COMMANDS if f"    {command}" not in listed], [])
    with tempfile.TemporaryDirectory() as name:
        folder = pathlib.Path(name)
        more = "(--help says more)"
        refused("no command", f"recording.py: the following arguments are required: COMMAND {more}", folder=folder)
        refused("too few", f"recording.py make: the following arguments are required: REQUESTS {more}", "make", "x", folder=folder)
        refused("too many", f"recording.py: unrecognized arguments: z {more}", "make", "x", "y", "z", folder=folder)
        refused("a session", f"recording.py upload: argument --session: a number from 0 to 65535 is wanted, not 65536 {more}", "upload", "/scan/a", "-", "--session", "65536", folder=folder)
        refused("a length", f"recording.py download: argument --length: a number from 0 to 4096 is wanted, not 4_0 {more}", "download", "/scan/a", "--length", "4_0", folder=folder)
        refused("no abbreviation", f"recording.py: unrecognized arguments: --sess 1 {more}", "upload", "/scan/a", "-", "--sess", "1", folder=folder)
        for wrong in ("/scan/", "/scan/a-b", "/scan/" + "x" * 26, "/flash/image"):
            why = f"{wrong}: a name of the store is /scan/ and 1 to 25 letters or digits"
            refused(wrong, why, "upload", wrong, "-", folder=folder)
            refused(wrong, why, "download", wrong, folder=folder)


def examples():
    """The examples make the request files that stand beside them, and show tells every line of them."""
    for path in STORIES:
        with tempfile.TemporaryDirectory() as name:
            made = pathlib.Path(name) / "made"
            good("make", path, made)
            expect(f"{path.name}, made", made.read_bytes(), path.with_suffix(".requests").read_bytes())
        shown = good("show", path.with_suffix(".requests"), path.with_suffix(".lines")).decode().splitlines()
        expect(f"{path.name}, lines", len(shown), len(path.with_suffix(".lines").read_text(encoding="ascii").splitlines()))
        again = recording.make("\n".join(line.partition(" -> ")[0] for line in shown))
        expect(f"{path.name}, shown and made again", again, path.with_suffix(".requests").read_bytes())
        telling(path, shown)


def telling(path, shown):
    """tell keeps every line of the recording, and puts the answers behind the requests that show puts there."""
    asked, told = path.read_text(encoding="utf-8").splitlines(), good("tell", path, path.with_suffix(".lines")).decode().splitlines()
    expect(f"{path.name}, lines told", len(told), len(asked))
    answers = [line.partition(" -> ")[2] for line in shown]
    for before, after in zip(asked, told):
        request, _, comment = before.partition("#")
        wanted = f"{request.rstrip()} -> {answers.pop(0)}" if request.strip() else ""
        expect(f"{path.name}, told", after, "  ".join(filter(None, [wanted, f"#{comment}" if comment else ""])))
    expect(f"{path.name}, answers left", answers, [])


# A recording and what show says of it.
def readme():
    """What README.md shows is what is printed."""
    lines = (ROOT / "README.md").read_text(encoding="utf-8").splitlines()
    told = good("tell", ROOT / "examples" / "two-moreaus.txt", ROOT / "examples" / "two-moreaus.lines").decode().splitlines()
    shown = [line.strip() for line in lines if " -> " in line and line.startswith("    ")]
    expect("lines of the story", (len(shown) > 3, [line for line in shown if line not in told]), (True, []))
    start, made, run = (lines.index(f"    $ {command}") for command in ("cat story.txt", "python3 tools/recording.py make story.txt story.requests", "target/bin/blobrun story.requests"))
    printed = blobrun(recording.make("\n".join(lines[start + 1:made]))).decode()
    expect("lines of blobrun", [line.strip() for line in lines[run + 1:lines.index("", run)]], printed.splitlines())


SHOWN = """\
 7 open /scan/a 0003 -> accepted: session 0
 7 write 0 0 'it\\'s "7"' -> accepted
 7 write 0 8 00ff -> accepted
 7 sessionstat 0 -> accepted: state 0003: open for reading, open for writing; size 10
 7 commit 0 -> accepted
 7 stat /scan/a -> accepted: state 000b: open for reading, open for writing, committed; size 10
 7 read 0 0 8 -> accepted: 8 bytes 'it\\'s "7"'
 7 read 0 7 58 -> accepted: 3 bytes 2200ff
 7 read 0 10 58 -> accepted: 0 bytes ''
 7 close 0 -> accepted
 7 stat /scan/a -> accepted: state 0008: not open, committed; size 10
 7 open /scan/a 0001 -> accepted: session 1
 7 sessionstat 1 -> accepted: state 0009: open for reading, committed; size 10
 7 write 1 0 'A' -> refused, code D5: this blob or session does not do that
 7 stat /scan/ -> accepted: state 0000: not open; size 0
 7 count -> accepted: 5 names
 7 enumerate 1 -> accepted: /scan/a
 7 enumerate 5 -> refused, code C9: index or offset out of range
 7 read 2 0 58 -> refused, code CB: no such blob or session
 7 open /flash/image 0002 -> accepted: session 2
 7 close 2 -> accepted
 7 open /flash/verify 0002 -> accepted: session 3
 7 commit 3 -> accepted
 7 sessionstat 3 -> accepted: state 0006: open for writing, job running; size 0
 7 close 3 -> refused, code C0: the blob or the flash is in use, or a job runs
 7 delete '/scan/a b' -> refused, code CB: no such blob or session
 7 writemeta 1 -> refused, code D5: this blob or session does not do that
 7 raw CFC2000B -> refused, code C1: no such subcommand
 7 raw CFC200000F1D -> refused, code C7: wrong length of the message or its body
 7 raw CFC2000600000100 -> refused, code CC: wrong OEM number, CRC, form of name, flags or length byte
"""


def showing():
    """Every answer in words; and the state bits and codes that blobrun does not print by itself."""
    made = recording.make("\n".join(line.partition(" -> ")[0] for line in SHOWN.splitlines()))
    with tempfile.TemporaryDirectory() as name:
        (pathlib.Path(name) / "requests").write_bytes(made + b"\7\0")
        found = good("show", "requests", "-", data=blobrun(made + b"\7\0"), folder=name).decode()
    expect("a cut record", found.splitlines()[-1].strip(), "a cut record of 2 bytes -> CUT")
    for line, wanted in zip(found.splitlines(), SHOWN.splitlines()):
        expect("in words", line.strip(), wanted.strip())
    expect("how many lines", found.count("\n"), SHOWN.count("\n") + 1)
    pointed_out()
    for state, words in ((0x0A, "open for writing, committed"), (0x12, "open for writing, job failed"), (0x8123, "open for reading, open for writing, unknown bits 8120")):
        expect(f"state {state:x}", transcript.state_in_words(state), words)
    for code, words in ((0xC4, "no free row or slot"), (0xC8, "the Write would end past the capacity"), (0xFF, "the state is not sound")):
        expect(f"code {code:02X}", transcript.refusal(code), f"refused, code {code:02X}: {words}")
    expect("a size of four bytes, and metadata", transcript.stat_in_words(b"\x0b\0\1\2\3\4\5"), f"state 000b: open for reading, open for writing, committed; size {0x04030201}, metadata length 5")
    widest = recording.make("4294967295 count")
    with tempfile.TemporaryDirectory() as name:
        (pathlib.Path(name) / "requests").write_bytes(widest)
        expect("the greatest clock", good("show", "requests", "-", data=blobrun(widest), folder=name), b"4294967295 count -> accepted: 4 names\n")
    expect("another code", transcript.refusal(0xD4), "refused, code D4: no code of this library")


def pointed_out():
    """A request that met a session which no Open of its recording was given."""
    first, second = recording.make("7 open /scan/a 0003\n"), recording.make("7 open /scan/b 0003\n7 write 0 0 'b'\n7 write 1 0 'b'\n7 close 1\n7 close 1\n7 close 0\n")
    lines = blobrun(first + second).splitlines(keepends=True)[1:]
    with tempfile.TemporaryDirectory() as name:
        (pathlib.Path(name) / "requests").write_bytes(second)
        found = [line.partition(" -> ")[2] for line in good("show", "requests", "-", data=b"".join(lines), folder=name).decode().splitlines()]
    expect("another's session", found, ["accepted: session 1", "accepted (but no Open here was given session 0)", "accepted", "accepted", "refused, code CB: no such blob or session",
                                        "accepted (but no Open here was given session 0)"])


def wrong_lines():
    """Lines that are not the answers to their requests are told, and nothing is shown."""
    asked = "7 open /scan/a 0003\n7 close 0\n7 count\n7 enumerate 0\n7 stat /scan/a\n7 sessionstat 1\n7 read 1 0 58\n"
    made = recording.make(asked)
    right = blobrun(made).decode().splitlines()
    short = framed(0, b"\5\0").hex().upper()
    two = framed(1, b"a\0b\0").hex().upper()
    longest = framed(3, bytes(59)).hex().upper()
    wrong_sizes = [(0, 2, "open /scan/a 0003", bytes(1)), (0, 2, "open /scan/a 0003", bytes(3)), (4, 8, "stat /scan/a", bytes(6)), (4, 8, "stat /scan/a", bytes(8)), (5, 9, "sessionstat 1", bytes(6)),
                   (3, 1, "enumerate 0", b"abc"), (1, 6, "close 0", bytes(2))]
    sizes = [(at, f"00 {framed(sub, fields).hex().upper()}", f"{framed(sub, fields).hex().upper()} has not the form of a response to {request}") for at, sub, request, fields in wrong_sizes]
    cases = [*sizes, (6, f"00 {longest}", f"{longest} is no response to read 1 0 58"), (0, "00", "an accepted request has a response, and a refused one has none"), (1, "CB CFC20006", "an accepted request has a response, and a refused one has none"),
             (1, "00 CFC20005", "CFC20005 is no response to close 0"), (1, "00 CFC200060F1D", "CFC200060F1D has not the form of a response to close 0"),
             (2, right[2][:-1] + "1", f"{right[2][3:-1]}1 is no response to count"), (2, f"00 {short}", f"{short} has not the form of a response to count"),
             (3, f"00 {two}", f"{two} has not the form of a response to enumerate 0"), (1, "CUT", "CUT stands for a record that is whole"), (1, "cb", "no line of an answer: cb"),
             (1, "", "no line of an answer: "), (1, "00 CFC2000", "no line of an answer: 00 CFC2000")]
    with tempfile.TemporaryDirectory() as name:
        folder = pathlib.Path(name)
        (folder / "requests").write_bytes(made)
        (folder / "story").write_text(asked, encoding="ascii")
        for at, line, why in cases:
            (folder / "lines").write_text("\n".join(right[:at] + [line] + right[at + 1:]) + "\n", encoding="ascii")
            refused(f"line {at + 1}, {line}", f"lines:{at + 1}: {why}", "show", "requests", "lines", folder=folder)
            refused(f"line {at + 1}, {line}", f"lines:{at + 1}: {why}", "tell", "story", "lines", folder=folder)
        impossible(folder)
        (folder / "requests").write_bytes(made)
        (folder / "lines").write_text("\n".join(right[:6]), encoding="ascii")
        refused("a line less", "lines:7: the lines end, and the request file has 7 records", "show", "requests", "lines", folder=folder)
        (folder / "lines").write_text("\n".join(right + ["CB"]), encoding="ascii")
        for words in (["show", "requests", "lines"], ["tell", "story", "lines"]):
            refused(f"{words[0]}, a line more", "lines:8: a line too many: the request file has 7 records", *words, folder=folder)
        (folder / "lines").write_text("\n".join(right), encoding="ascii")
        (folder / "requests").write_bytes(made + b"\0")
        (folder / "lines").write_text("\n".join(right + ["C7"]), encoding="ascii")
        refused("a cut record without CUT", "lines:8: C7 stands for a record that is cut", "show", "requests", "lines", folder=folder)


def impossible(folder):
    """Requests that no library accepts, and more bytes than were asked for."""
    for request, answer, why in (("writemeta 0", framed(10), "writemeta 0 cannot be accepted"), ("raw CFC200060F1D", framed(6), "raw CFC200060F1D cannot be accepted"),
                                 (f"raw {framed(4, bytes(60)).hex()}", framed(4), f"raw {framed(4, bytes(60)).hex().upper()} cannot be accepted"), ("open '' 0003", framed(2, b"\0\0"), "open '' 0003 cannot be accepted"),
                                 (f"stat {'n' * 32}", framed(8, bytes(7)), f"stat {'n' * 32} cannot be accepted"), ("read 0 0 3", framed(3, b"abcd"), "4 bytes are answered to read 0 0 3"),
                                 ("enumerate 0", framed(1, b"\0"), f"{framed(1, bytes(1)).hex().upper()} has not the form of a response to enumerate 0"),
                                 ("enumerate 0", framed(1, b"n" * 32 + b"\0"), f"{framed(1, b'n' * 32 + bytes(1)).hex().upper()} has not the form of a response to enumerate 0")):
        (folder / "requests").write_bytes(recording.make(f"7 {request}"))
        (folder / "lines").write_text(f"00 {answer.hex().upper()}\n", encoding="ascii")
        refused(request, f"lines:1: {why}", "show", "requests", "lines", folder=folder)


def transfers():
    """Uploaded and downloaded through blobrun, a file has the same bytes: of every length about the edges, printable or not."""
    chance = random.Random(13)
    with tempfile.TemporaryDirectory() as name:
        folder = pathlib.Path(name)
        for length in (0, 1, 51, 52, 53, 58, 59, 116, 1000, 4060, 4095, 4096):
            data = chance.randbytes(length) if length % 2 else bytes(chance.choices(b"a foot's \"scan\" \\#=", k=length))
            (folder / "file").write_bytes(data)
            good("upload", "/scan/foot", "file", "up", "--clock", 5, folder=folder)
            good("download", "/scan/foot", "down", "--session", 1, "--clock", 6, folder=folder)
            printed = good("upload", "/scan/foot", "-", "--clock", 5, data=data, folder=folder)
            expect(f"{length} bytes: the lines and the file of an upload", good("make", "-", "-", data=printed, folder=folder), (folder / "up").read_bytes())
            expect(f"{length} bytes: requests of the upload", len(printed.splitlines()), 3 + -(-length // 52))
            (folder / "both").write_bytes((folder / "up").read_bytes() + (folder / "down").read_bytes())
            (folder / "lines").write_bytes(blobrun((folder / "both").read_bytes()))
            status, _, err = tool("received", "both", "lines", "back", folder=folder)
            expect(f"{length} bytes: received", (status, err), (0, f"/scan/foot: {length} bytes, all it has\n"))
            expect(f"{length} bytes: there and back", (folder / "back").read_bytes(), data)
        (folder / "file").write_bytes(bytes(4097))
        refused("4,097 bytes", "file: longer than the 4096 bytes that a name holds", "upload", "/scan/foot", "file", "new", folder=folder)


def lines_of_transfers():
    """The readable lines of an upload and a download, whole."""
    name = "/scan/" + "n" * 25
    found = good("upload", name, "-", "--clock", 5, "--session", 258, "--replace", data=b"x" * 52 + b"\0").decode().splitlines()
    expect("lines of an upload", found, [f"5 delete {name}", f"5 open {name} 0003", f"5 write 258 0 '{'x' * 52}'", "5 write 258 52 00", "5 commit 258", "5 close 258"])
    found = good("download", name, "--clock", 6, "--session", 300, "--length", 60).decode().splitlines()
    expect("lines of a download", found, [f"6 open {name} 0001", "6 read 300 0 58", "6 read 300 58 2", "6 close 300"])
    expect("Reads of all that a name can hold", len(good("download", name).splitlines()), 2 + -(-4096 // 58))


def replaced():
    """A shorter file over a longer one: the rest of the longer one stays, unless the name is deleted first. A length limits a download."""
    with tempfile.TemporaryDirectory() as name:
        folder = pathlib.Path(name)
        long = good("upload", "/scan/a", "-", data=b"a long scan of a foot")
        for options, wanted in (([], b"a shortscan of a foot"), (["--replace"], b"a short")):
            story_text = long + good("upload", "/scan/a", "-", "--session", 1, *options, data=b"a short") + good("download", "/scan/a", "--session", 2)
            (folder / "all").write_bytes(recording.make(story_text.decode()))
            (folder / "lines").write_bytes(blobrun((folder / "all").read_bytes()))
            good("received", "all", "lines", "back", folder=folder)
            expect(f"over a longer one {options}", (folder / "back").read_bytes(), wanted)
        story_text = long + good("download", "/scan/a", "--session", 1, "--length", 6)
        (folder / "all").write_bytes(recording.make(story_text.decode()))
        (folder / "lines").write_bytes(blobrun((folder / "all").read_bytes()))
        found = tool("received", "all", "lines", "-", folder=folder)
        expect("six bytes", found, (0, b"a long", "/scan/a: 6 bytes, and there may be more: no Read met the end\n"))


def not_received():
    """Bytes that did not come, or came differently, are not written."""
    begin = "7 open /scan/a 0003\n7 write 0 0 'abcdef'\n7 commit 0\n"
    cases = [("7 open /scan/b 0001\n", [], "lines:4: open /scan/b 0001: refused, code CB: no such blob or session"), ("7 read 1 0 58\n", [], "lines:4: read 1 0 58: refused, code CB: no such blob or session"),
             ("", [], "lines: there is no Read"), ("7 read 0 0 6\n", ["--name", "/scan/b"], "lines: there is no Read of /scan/b"),
             ("7 read 0 4 2\n7 read 0 0 2\n", [], "lines:4: this Read starts at 4, and no Read brought the bytes from 2 on"),
             ("7 read 0 0 2\n7 read 0 4 2\n", [], "lines:5: this Read starts at 4, and no Read brought the bytes from 2 on"),
             ("7 read 0 0 3\n7 write 0 0 'UVWXYZ'\n7 read 0 3 58\n", [], "lines:6: what this Read reads was opened anew, or written, since another Read of /scan/a"),
             ("7 read 0 0 3\n7 close 0\n7 open /scan/a 0001\n7 read 1 3 58\n", [], "lines:7: what this Read reads was opened anew, or written, since another Read of /scan/a"),
             ("7 open /scan/b 0003\n7 read 0 0 6\n7 read 1 0 6\n", [], "lines: Reads of 2 names: /scan/a, /scan/b; say which by --name")]
    with tempfile.TemporaryDirectory() as name:
        folder = pathlib.Path(name)
        for more, options, why in cases:
            (folder / "requests").write_bytes(recording.make(begin + more))
            (folder / "lines").write_bytes(blobrun((folder / "requests").read_bytes()))
            refused(more, why, "received", "requests", "lines", "back", *options, folder=folder)
        overlapping = recording.make(begin + "7 read 0 3 58\n7 read 0 0 4\n7 read 0 1 3\n")
        (folder / "more").write_bytes(overlapping)
        (folder / "more lines").write_bytes(blobrun(overlapping))
        found = tool("received", "more", "more lines", "-", folder=folder)
        expect("Reads that overlap, in any order", found, (0, b"abcdef", "/scan/a: 6 bytes, all it has\n"))
        found = tool("received", "requests", "lines", "-", "--name", "/scan/a", folder=folder)
        expect("one of two names", found, (0, b"abcdef", "/scan/a: 6 bytes, and there may be more: no Read met the end\n"))
        forged(folder, begin)


def forged(folder, begin):
    """Answers that no library gives, and sessions that the recording did not open."""
    (folder / "requests").write_bytes(recording.make(begin + "7 read 0 0 58\n7 read 0 0 58\n"))
    right = blobrun((folder / "requests").read_bytes()).decode().splitlines()
    for answer, why in ((b"Xbcdef", "lines:5: this Read brought other bytes than another one from 0 on"), (b"abcdefg", "lines:4: this Read met the end at 6, and another one brought bytes from behind it")):
        (folder / "lines").write_text("\n".join([*right[:4], f"00 {framed(3, answer).hex().upper()}"]), encoding="ascii")
        refused(why, why, "received", "requests", "lines", "back", folder=folder)
    both = recording.make("0 open /scan/a 0003\n0 write 0 0 'AAAA'\n0 open /scan/b 0003\n0 write 1 0 'BBBBBBBB'\n")
    reads = recording.make("0 read 0 0 4\n0 read 1 4 4\n")
    (folder / "requests").write_bytes(reads)
    (folder / "lines").write_bytes(b"".join(blobrun(both + reads).splitlines(keepends=True)[4:]))
    why = "lines: Reads of 2 names: session 0, which was not opened here,, session 1, which was not opened here,; say which by --name"
    refused("two sessions of others", why, "received", "requests", "lines", "back", folder=folder)


def stored():
    """Through a client, request by request: the session is the one that was given, what is committed is the file or nothing, and the session is closed."""
    with tempfile.TemporaryDirectory() as name:
        folder = pathlib.Path(name)
        client = [sys.executable, ROOT / "tests" / "fake_ipmitool.py", "history"]
        others = "0 open /scan/other 0003\n0 write 0 0 'the foot of another'\n"

        def begins(text=""):
            (folder / "history").write_bytes(recording.make(others + text))

        def asked():
            data = (folder / "history").read_bytes()
            (folder / "lines").write_bytes(blobrun(data))
            return good("show", "history", "lines", folder=folder).decode().splitlines()

        for data in (b"", b"one foot", bytes(range(256)) * 2):
            begins()
            (folder / "file").write_bytes(data)
            good("store", "/scan/foot", "file", *client, folder=folder)
            good("fetch", "/scan/foot", "back", *client, folder=folder)
            expect(f"{len(data)} bytes there and back", (folder / "back").read_bytes(), data)
            expect("no request on another's session", [line for line in asked()[2:] if "refused" in line or "no Open" in line], [])
            good("make", "-", "more", data=b"0 read 0 0 58\n", folder=folder)
            (folder / "history").write_bytes((folder / "history").read_bytes() + (folder / "more").read_bytes())
            expect("the other's bytes", asked()[-1].strip(), "0 read 0 0 58 -> accepted: 19 bytes 'the foot of another'")
        not_stored(folder, client, begins, asked)


def not_stored(folder, client, begins, asked):
    """Each failure is told in a line; nothing is committed, and no session is left."""
    (folder / "file").write_bytes(b"one foot")
    longer = "0 open /scan/foot 0003\n0 write 1 0 'a longer scan'\n0 commit 1\n0 close 1\n"
    full = "".join(f"0 open /scan/x{i} 0003\n" for i in range(15))
    cases = [(longer, [], "/scan/foot", "/scan/foot holds 13 bytes, and the file has 8: nothing was committed (--replace deletes the name first)", "close 2 -> accepted"),
             ("", [], "/scan/other", "open /scan/other 0003: refused, code C0: the blob or the flash is in use, or a job runs", "refused, code C0: the blob or the flash is in use, or a job runs"),
             ("", ["--replace"], "/scan/other", "delete /scan/other: refused, code C0: the blob or the flash is in use, or a job runs", "refused, code C0: the blob or the flash is in use, or a job runs"),
             (full, [], "/scan/foot", "open /scan/foot 0003: refused, code C4: no free row or slot", "refused, code C4: no free row or slot")]
    for before, options, name, why, last in cases:
        begins(before)
        found = tool("store", *options, name, "file", *client, folder=folder)
        expect(f"store {name}", found, (1, b"", why + "\n"))
        expect(f"store {name}: the last request", asked()[-1].endswith(last), True)
        expect(f"store {name}: no Commit", [line for line in asked()[2 + before.count("\n"):] if " commit " in line], [])
    begins(longer)
    good("store", "--replace", "/scan/foot", "file", *client, folder=folder)
    good("fetch", "/scan/foot", "back", *client, folder=folder)
    expect("replaced", (folder / "back").read_bytes(), b"one foot")
    begins()
    refused_files = [("fetch", "/scan/none", "open /scan/none 0001: refused, code CB: no such blob or session", client), ("store", "/scan/a", "which program asks? For example: ipmitool -H HOST -U USER -P PASSWORD raw", []),
                     ("store", "/scan/a", "none: cannot be run: No such file or directory", ["none"]), ("store", "/scan/a", "open /scan/a 0003: sh got no answer: no route", ["sh", "-c", "echo no route >&2; exit 1"]),
                     ("store", "/scan/a", "open /scan/a 0003: true got no answer: nothing was printed", ["true"]), ("store", "/scan/a", "CFC20000E1C404000000 is no response to open /scan/a 0003", ["sh", "-c", "echo cf c2 00 00 e1 c4 04 00 00 00"]),
                     ("store", "/scan/a-b", "/scan/a-b: a name of the store is /scan/ and 1 to 25 letters or digits", client)]
    for command, name, why, program in refused_files:
        expect(f"{command} {name} by {program[:1]}", tool(command, name, "file", *program, folder=folder), (1, b"", why + "\n"))
    expect("nothing fetched", (folder / "file").read_bytes(), b"one foot")


def ipmitool():
    """Requests as words and back, and answers as ipmitool prints them, for all examples and for Reads of every length."""
    lengths = recording.make("0 open /scan/a 0003\n" + "".join(f"0 write 0 {at} '{'scan' * 13}'\n" for at in (0, 52)) + "".join(f"0 read 0 1 {count}\n0 count\n" for count in range(60)))
    for what, data in [("lengths", lengths), *((path.name, path.read_bytes()) for path in sorted((ROOT / "examples").glob("*.requests")))]:
        words = good("to-ipmitool", "-", data=data).decode()
        kept = [m for _, m in recording.records(data)]
        expect(f"{what}: words", words.splitlines(), [" ".join(f"0x{byte:02x}" for byte in b"\x2e\x80" + m) for m in kept])
        expect(f"{what}: back", good("from-ipmitool", "-", "-", "--clock", 7, data=words.encode()), b"".join(map(one_record, kept)))
        lines = blobrun(data).decode()
        printed = "".join(map(fake_ipmitool.printed, lines.splitlines()))
        expect(f"{what}: answers", good("ipmitool-answers", "-", data=printed.encode()).decode(), lines)
    expect("other numbers", good("to-ipmitool", "-", "--netfn", "0x3a", "--cmd", "1", data=one_record(b"\5")), b"0x3a 0x01 0x05\n")
    longest = "0x2e 0x80" + " 0x5a" * 255
    expect("the longest message", good("from-ipmitool", "-", "-", "--clock", 7, data=longest.encode()), one_record(b"\x5a" * 255))
    expect("a code of one digit", good("ipmitool-answers", "-", data=b"Unable to send RAW command (channel=0x0 netfn=0x2e lun=0x0 cmd=0x80 rsp=0x5): Some words\n"), b"05\n")
    script = b"# a script\nipmitool -H host -P raw raw 0x2E 128 0xcf 194 0 0x0   # count\n\n"
    expect("a line of a script", good("from-ipmitool", "-", "-", "--clock", 7, data=script), one_record(framed(0)))


def ambiguous(chance):
    """Two responses of which the first fills its line, and the CRC of the first fits both of them together too. (The second is no Read: by the
    parity of this CRC there is none. Not every first has such a second, so both vary.)"""
    for _ in range(1000000):
        first, second = framed(3, chance.randbytes(10)), framed(8, chance.randbytes(7))
        if crc(first[6:] + second) == int.from_bytes(first[4:6], "little"):
            return [f"00 {m.hex().upper()}" for m in (first, second)]
    return sys.exit("no two responses that could be one were found")


def wrong_for_ipmitool():
    """Lines that ipmitool does not take or print are told, and no file is written."""
    both = ambiguous(random.Random(14))
    texts = list(map(fake_ipmitool.printed, both))
    unlike = "(channel=0x0 netfn=0x2e lun=0x0 cmd=0x80 rsp=0x0): Some words", "neither a response nor a completion code: "
    too_long = "\n".join(fake_ipmitool.printed(f"00 {framed(3, bytes(59)).hex()}").splitlines())
    printed = [(f"Unable to send RAW command {unlike[0]}", f"{unlike[1]}Unable to send RAW command {unlike[0]}"), ("Failed (rsp=0xcb)", f"{unlike[1]}Failed (rsp=0xcb)"),
               (too_long, "no response: OEM number, subcommand, length or CRC is wrong"), ("cf c2 00", "no response: OEM number, subcommand, length or CRC is wrong"), (" cf c2 00 00 e1 c4 04 00 00 01", "no response: OEM number, subcommand, length or CRC is wrong"),
               ("Error: Unable to establish IPMI v2 / RMCP+ session", "neither a response nor a completion code: Error: Unable to establish IPMI v2 / RMCP+ session"),
               ("Unable to send RAW command (channel=0x0 netfn=0x2e lun=0x0 cmd=0x80)", "neither a response nor a completion code: Unable to send RAW command (channel=0x0 netfn=0x2e lun=0x0 cmd=0x80)"),
               ("".join(texts), "the response could end at several lines: put an empty line behind it")]
    taken = [("0x2e 0x80 010", "010: ipmitool takes a number that starts with 0 as octal; write 0x.."), ("0x2e 0x80 256", "256 is no byte, as 0x2e or 46"), ("0x2e 0x80 cf", "cf is no byte, as 0x2e or 46"),
             ("0x2e 0x81 0xcf", "not a line for network function 0x2e and command 0x80"), ("raw", "not a line for network function 0x2e and command 0x80"),
             ("0x2e 0x80" + " 0" * 256, "a message of 256 bytes: a record holds at most 255")]
    with tempfile.TemporaryDirectory() as name:
        folder = pathlib.Path(name)
        for command, first, cases in (("ipmitool-answers", " cf c2 00 06", printed), ("from-ipmitool", "0x2e 0x80", taken)):
            for text, why in cases:
                (folder / "text").write_text(f"{first}\n{text}\n", encoding="ascii")
                refused(text, f"text:2: {why}", command, "text", "new", folder=folder)
        (folder / "cut").write_bytes(one_record(framed(0)) + b"\0")
        refused("a cut record", "cut: record 2 is cut", "to-ipmitool", "cut", "new", folder=folder)
    expect("an empty line between", good("ipmitool-answers", "-", data="\n".join(texts).encode()).decode().splitlines(), both)


def main():
    if sys.argv[1:] != ["--check"]:
        sys.exit(__doc__)
    for test in (requests, random_messages, faults, bad_files, ended_early, kept_files, arguments, examples, readme, showing, wrong_lines, transfers, lines_of_transfers, replaced, not_received, stored, ipmitool, wrong_for_ipmitool):
        test()
        print(f"recording, {test.__name__}: as expected")


if __name__ == "__main__":
    main()
