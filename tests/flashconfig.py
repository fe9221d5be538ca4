#!/usr/bin/env python3
"""Runs the program `flashconfig` as its users do: on the configurations of document 004, on every kind of fault with lines ended either way, on cut, empty
and long files, on standard input, on bad arguments.

flashconfig.py --check        needs target/bin/flashconfig (tools/build.sh)"""
import pathlib
import shlex
import subprocess
import sys
import tempfile

ROOT = pathlib.Path(__file__).resolve().parent.parent
PROGRAM = ROOT / "target" / "bin" / "flashconfig"
MOST = 1048576

ENDED = "the text ends too early (F1)"
GRAMMAR = "no text of this kind goes on here (F1)"
MISSING = "a key is missing before this brace (F7)"
KEY = "this key is unknown here, stands twice, or is a unit beside reboot (F7)"
VALUE = "this value is not the one that is due, or the entry is the ninth (F7)"

# An accepted text, in which the cases below replace something.
GOOD = """[
  {
    "blob": "/flash/image",
    "handler": {"type": "file", "path": "/tmp/image"},
    "actions": {
      "preparation": {"type": "systemd", "unit": "prepare"},
      "verification": {"type": "systemd", "unit": "verify"},
      "update": {"type": "reboot"}
    }
  }
]
"""
GOOD_LINES = """entry 1: /flash/image
  handler: file /tmp/image
  preparation: systemd prepare
  verification: systemd verify
  update: reboot
"""

# A text with line feeds, and the line, the column and the reason of its fault, counted by hand. (what is replaced in GOOD, by what) is a text too.
FAULTS = [
    # a member without its colon; a comma before the end of a list; a value behind the whole text; a line's end inside a string
    ('[{\n  "blob" "x"\n}]', 2, 10, GRAMMAR),
    ('[\n  "a",\n]', 3, 1, GRAMMAR),
    ('[\n]\n\n  []', 4, 3, GRAMMAR),
    ('[\n "a\n"]', 2, 4, GRAMMAR),
    ('[\n "\\u0041"]', 2, 3, GRAMMAR),
    ('[\n tru]', 2, 2, GRAMMAR),
    ('{\n 1: "a"}', 2, 2, GRAMMAR),
    # a number, with a minus and without one
    ('[\n  {\n    "blob": -1', 3, 13, "a number, and numbers are not taken (F2)"),
    ('\n\n 7', 3, 2, "a number, and numbers are not taken (F2)"),
    (('"/tmp/image"', "5"), 4, 41, "a number, and numbers are not taken (F2)"),
    # the three words
    ("[\n\n true]", 3, 2, "true is not taken (F3)"),
    ('[\n  "a", truex', 2, 8, "true is not taken (F3)"),
    ('[\n  "a",\n  false\n]', 3, 3, "false is not taken (F4)"),
    ('{\n "a":\n null}', 3, 2, "null is not taken (F5)"),
    # the ninth bracket; eight are fine
    ("[[[[\n[[[[\n [", 3, 2, "a ninth level of brackets (F6)"),
    ('{"a":[{"a":[\n{"a":[{"a":[\n  {', 3, 3, "a ninth level of brackets (F6)"),
    ("[[[[\n[[[[\n ]]]]\n]]]]\n", 1, 2, VALUE),
    # a key is missing: in an entry, in a handler, in an action, in an empty object
    ((',\n    "actions": {\n      "preparation": {"type": "systemd", "unit": "prepare"},\n      "verification": {"type": "systemd", "unit": "verify"},\n'
      '      "update": {"type": "reboot"}\n    }', ""), 5, 3, MISSING),
    ((', "path": "/tmp/image"', ""), 4, 31, MISSING),
    ((', "unit": "verify"', ""), 7, 41, MISSING),
    ("[\n  {\n  }\n]", 3, 3, MISSING),
    # a key is unknown, stands twice, or is a unit beside a reboot, before it or behind it; the colon may stand far behind
    (('"blob"', '"bolb"'), 3, 5, KEY),
    (('"path": "/tmp/image"', '"type": "file"'), 4, 33, KEY),
    (('{"type": "reboot"}', '{"unit": "u", "type": "reboot"}'), 8, 18, KEY),
    (('{"type": "reboot"}', '{"type": "reboot", "unit": "u"}'), 8, 36, KEY),
    (('"blob":', '"bolb"\t\n  :'), 3, 5, KEY),
    # a value is another than the one that is due: a type, a list for a string, a string for an object, no list at all
    (('"file"', '"disk"'), 4, 25, VALUE),
    (('"systemd", "unit": "verify"', '"file:", "unit": "verify"'), 7, 32, VALUE),
    (('"/flash/image"', '["/flash/image"]'), 3, 13, VALUE),
    (('{"type": "reboot"}', '"reboot"'), 8, 17, VALUE),
    ("\n{}", 2, 1, VALUE),
    ('\n "text"\n', 2, 2, VALUE),
    # the ninth entry, which is as good as the eight before it
    ("[\n" + ",\n".join(' {"blob": "b", "handler": {"type": "file", "path": "p"}, "actions": {"preparation": {"type": "reboot"}, '
                        '"verification": {"type": "reboot"}, "update": {"type": "reboot"}}}' for _ in range(9)) + "\n]\n", 10, 2, VALUE),
    # the text ends too early: nothing, white space alone, inside a string, behind a comma, with a line's end and without
    ("", 1, 1, ENDED),
    ("\n \n", 3, 1, ENDED),
    ('[\n "blo', 2, 6, ENDED),
    ('[\n "a",', 2, 6, ENDED),
    ('[\n "a",\n', 3, 1, ENDED),
]


def run(*words, data=b""):
    done = subprocess.run([str(PROGRAM), *map(str, words)], input=data, capture_output=True, check=True)
    return done.stdout.decode("ascii"), done.stderr.decode()


def expect(what, found, wanted):
    if found != wanted:
        sys.exit(f"{what}:\n  found  {found!r:.400}\n  wanted {wanted!r:.400}")


def both_ways(text, wanted):
    """The text as a file, as standard input, and as standard input by its name; `wanted` is what is printed for a file of a given name."""
    with tempfile.TemporaryDirectory() as folder:
        file = pathlib.Path(folder) / "config.json"
        file.write_bytes(text)
        expect(f"flashconfig FILE, {text!r:.200}", run(file), wanted(str(file)))
    expect(f"flashconfig < FILE, {text!r:.200}", run(data=text), wanted("standard input"))
    expect(f"flashconfig - < FILE, {text!r:.200}", run("-", data=text), wanted("standard input"))


def accepted(text, lines):
    both_ways(text.encode(), lambda name: (lines, ""))


def document(blob, path, units):
    """A configuration in the layout of document 004: an action with no unit is a reboot."""
    text = '[{\n    "blob": "%s",\n    "handler": {\n        "type": "file",\n        "path": "%s"\n    },\n    "actions": {\n' % (blob, path)
    actions = []
    for name, unit in zip(("preparation", "verification", "update"), units):
        rest = f'"type": "systemd",\n            "unit": "{unit}"' if unit else '"type": "reboot"'
        actions.append(f'        "{name}": {{\n            {rest}\n        }}')
    return text + ",\n".join(actions) + "\n    }\n}]\n"


def documents():
    """The three files of document 004; the second is also what the gate gives the program."""
    bmc = ["phosphor-ipmi-flash-bmc-prepare.target", "phosphor-ipmi-flash-bmc-verify.target"]
    bios = ["phosphor-ipmi-flash-bios-prepare.target", "phosphor-ipmi-flash-bios-verify.target", "phosphor-ipmi-flash-bios-update.target"]
    reboot = document("/flash/image", "/run/initramfs/bmc-image", [*bmc, None])
    expect("crates/flashconfig/stdin", (ROOT / "crates" / "flashconfig" / "stdin").read_text(encoding="ascii"), reboot)
    for text, lines in (
            (document("/flash/bios", "/tmp/bios-image", bios),
             "entry 1: /flash/bios\n  handler: file /tmp/bios-image\n  preparation: systemd phosphor-ipmi-flash-bios-prepare.target\n"
             "  verification: systemd phosphor-ipmi-flash-bios-verify.target\n  update: systemd phosphor-ipmi-flash-bios-update.target\n"),
            (reboot,
             "entry 1: /flash/image\n  handler: file /run/initramfs/bmc-image\n  preparation: systemd phosphor-ipmi-flash-bmc-prepare.target\n"
             "  verification: systemd phosphor-ipmi-flash-bmc-verify.target\n  update: reboot\n"),
            (document("/flash/image", "/run/initramfs/bmc-image", [*bmc, "phosphor-ipmi-flash-bmc-update.target"]),
             "entry 1: /flash/image\n  handler: file /run/initramfs/bmc-image\n  preparation: systemd phosphor-ipmi-flash-bmc-prepare.target\n"
             "  verification: systemd phosphor-ipmi-flash-bmc-verify.target\n  update: systemd phosphor-ipmi-flash-bmc-update.target\n")):
        accepted(text, lines)
        accepted(text.replace("\n", "\r\n"), lines)


def entries():
    """No entry, eight entries in their order, members in another order, empty strings."""
    accepted("[]", "no entries\n")
    accepted("\r\n[\t]\n", "no entries\n")
    accepted(GOOD, GOOD_LINES)
    one = GOOD[GOOD.index("  {"):GOOD.rindex("]")].rstrip()
    eight = "[" + ",".join(one.replace("/flash/image", f"/flash/{i}") for i in range(8)) + "]"
    accepted(eight, "".join(GOOD_LINES.replace("entry 1", f"entry {i + 1}").replace("/flash/image", f"/flash/{i}") for i in range(8)))
    accepted(GOOD.replace('"type": "systemd", "unit": "prepare"', '"unit" : "prepare" ,\n"type" : "systemd"'), GOOD_LINES)
    empty = GOOD.replace("/flash/image", "").replace("/tmp/image", "").replace('"prepare"', '""')
    accepted(empty, GOOD_LINES.replace("/flash/image", "").replace("/tmp/image", "").replace("systemd prepare", "systemd "))


def faults():
    """Every fault of the list, with lines ended by a line feed and by a carriage return and a line feed: line and column are the same."""
    for text, line, column, why in FAULTS:
        if isinstance(text, tuple):
            expect(f"{text[0]!r} in the accepted text", GOOD.count(text[0]), 1)
            text = GOOD.replace(*text)
        for ended in (text, text.replace("\n", "\r\n")):
            both_ways(ended.encode(), lambda name: ("", f"{name}:{line}:{column}: {why}\n"))


def places():
    """A byte that no text has, at each place; and the text cut at each place."""
    text = GOOD.replace("\n", "\r\n").encode()
    for place in range(len(text) + 1):
        line, column = text[:place].count(b"\n") + 1, place - text.rfind(b"\n", 0, place)
        where = f"standard input:{line}:{column}: "
        expect(f"a byte 1 at {place}", run(data=text[:place] + b"\1" + text[place + 1:]), ("", f"{where}{GRAMMAR}\n"))
        wanted = (GOOD_LINES, "") if text[:place].rstrip().endswith(b"\n]") else ("", f"{where}{ENDED}\n")
        expect(f"the first {place} bytes", run(data=text[:place]), wanted)


def long_texts():
    """The longest text that is taken, one byte more, and a fault in a long line."""
    accepted("[" + " " * (MOST - 2) + "]", "no entries\n")
    both_ways(b"[" + b" " * (MOST - 1) + b"]", lambda name: ("", f"flashconfig: {name}: longer than 1048576 bytes\n"))
    both_ways(b"\n" * 70000 + b"[" + b" " * 900000 + b"x", lambda name: ("", f"{name}:70001:900002: {GRAMMAR}\n"))


def pieces():
    """Standard input that comes in pieces."""
    with subprocess.Popen([str(PROGRAM)], stdin=subprocess.PIPE, stdout=subprocess.PIPE, bufsize=0) as process:
        for start, end in ((0, 1), (1, 30), (30, len(GOOD))):
            process.stdin.write(GOOD[start:end].encode())
        found = process.communicate(timeout=60)[0].decode("ascii")
    expect("standard input in pieces", found, GOOD_LINES)


def words():
    """Help; and what fails is one line on standard error, which begins with the program's name. The status is always 0."""
    out, err = run("--help")
    expect("--help", (out.startswith("usage: flashconfig [FILE]\n"), "exit status is always 0" in out, err), (True, True, ""))
    expect("-h", run("-h"), (out, ""))
    with open("/dev/full", "wb") as full:
        err = subprocess.run([str(PROGRAM)], input=GOOD.encode(), stdout=full, stderr=subprocess.PIPE, check=True).stderr.decode()
    expect("a full disk", err, "flashconfig: standard output: No space left on device\n")
    for found, why in ((run(ROOT / "no such file"), f"{ROOT / 'no such file'}: No such file or directory"), (run(ROOT), f"{ROOT}: Is a directory"),
                       (run("--version"), "there is no such option (--help says more)"), (run("-x", "a"), "there is no such option (--help says more)"),
                       (run("x" * 5000), "a path is empty or too long (--help says more)"), (run(""), "a path is empty or too long (--help says more)"),
                       (run("a", "b"), "more than one path is given (--help says more)")):
        expect(why, found, ("", f"flashconfig: {why}\n"))


def tested():
    """The test that --help gives in the place of an exit status: it holds where all went well, and nowhere else."""
    [command] = [line.strip() for line in run("--help")[0].splitlines() if "errors=" in line]
    with tempfile.TemporaryDirectory() as name:
        folder = pathlib.Path(name)
        (folder / "good").write_text(GOOD, encoding="ascii")
        (folder / "refused").write_text(GOOD[:-2], encoding="ascii")
        for file, holds in ((folder / "good", True), (folder / "refused", False), (folder / "absent", False)):
            script = command.replace("flashconfig FILE", f"{shlex.quote(str(PROGRAM))} {shlex.quote(str(file))}")
            expect(f"the test on {file.name}", subprocess.run(["sh", "-c", script], cwd=folder, check=False).returncode == 0, holds)


def main():
    for test in (documents, entries, faults, places, long_texts, pieces, words, tested):
        test()
        print(f"flashconfig, {test.__name__}: as expected")


if __name__ == "__main__":
    main()
