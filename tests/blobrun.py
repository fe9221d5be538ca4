#!/usr/bin/env python3
"""Runs the program `blobrun` as its users do: on the examples, on standard input, on cut and large files, on bad arguments.

blobrun.py --check            needs target/bin/blobrun (tools/build.sh)
blobrun.py --write PROGRAM    writes examples/*.lines by another program that prints the same lines"""
import pathlib
import resource
import shlex
import subprocess
import sys
import tempfile
import time

ROOT = pathlib.Path(__file__).resolve().parent.parent
sys.path.insert(0, str(ROOT / "tools"))
import recording  # noqa: E402

PROGRAM = ROOT / "target" / "bin" / "blobrun"
STORIES = sorted((ROOT / "examples").glob("*.txt"))


def run(*words, data=None, program=PROGRAM):
    done = subprocess.run([str(program), *map(str, words)], input=data, capture_output=True, check=True)
    return done.stdout.decode("ascii"), done.stderr.decode()


def expect(what, found, wanted):
    if found != wanted:
        sys.exit(f"{what}:\n  found  {found!r:.400}\n  wanted {wanted!r:.400}")


def examples():
    for story in STORIES:
        requests, lines = story.with_suffix(".requests"), story.with_suffix(".lines")
        expect(f"{requests.name} is made from {story.name}", recording.make(story.read_text(encoding="utf-8")), requests.read_bytes())
        wanted = lines.read_text(encoding="ascii")
        expect(f"blobrun {requests.name}", run(requests), (wanted, ""))
        expect(f"blobrun < {requests.name}", run(data=requests.read_bytes()), (wanted, ""))
        expect(f"blobrun - < {requests.name}", run("-", data=requests.read_bytes()), (wanted, ""))


def paper():
    """The lines that document 01 gives."""
    closed = recording.make("0 open /scan/a 0003\n0 close 0\n0 raw\n0 raw CFC2000B\n0 raw CFC20100\n")
    expect("closed session, empty, unknown subcommand, other OEM number", run(data=closed)[0].splitlines()[1:], ["00 CFC20006", "C7", "C1", "CC"])
    expect("no record", run(data=b""), ("", ""))


def cut():
    """A file cut at every place: the lines of its whole records, then CUT unless it ends with one."""
    data = (ROOT / "examples" / "two-moreaus.requests").read_bytes()
    lines = (ROOT / "examples" / "two-moreaus.lines").read_text(encoding="ascii").splitlines()
    for end in range(len(data) + 1):
        whole = [clock for clock, _ in recording.records(data[:end])]
        wanted = lines[:len(whole)]
        if whole and whole[-1] is None:
            wanted = lines[:len(whole) - 1] + ["CUT"]
        expect(f"the first {end} bytes", run(data=data[:end])[0].splitlines(), wanted)
    expect("a record longer than a message", run(data=bytes(4) + b"\xff" + bytes(254))[0], "CUT\n")
    expect("the same, whole", run(data=bytes(4) + b"\xff" + bytes(255))[0], "C7\n")


def pieces():
    """Standard input that comes in pieces, one byte or some at a time."""
    data = (ROOT / "examples" / "two-moreaus.requests").read_bytes()
    wanted = (ROOT / "examples" / "two-moreaus.lines").read_text(encoding="ascii")
    with subprocess.Popen([str(PROGRAM)], stdin=subprocess.PIPE, stdout=subprocess.PIPE, bufsize=0) as process:
        for start, end in ((0, 1), (1, 2), (2, 30), (30, 31), (31, len(data))):
            process.stdin.write(data[start:end])
            time.sleep(0.05)
        found = process.communicate(timeout=60)[0].decode("ascii")
    expect("standard input in pieces", found, wanted)


def identifiers():
    """"Next" 65,535 is given out, then 0; a file of 65,537 Opens and Closes."""
    with tempfile.NamedTemporaryFile(suffix=".requests") as file:
        for i in range(65537):
            file.write(recording.make(f"{i % 60} open /scan/a 0003\n{i % 60} close {i % 65536}\n"))
        file.flush()
        lines = run(file.name)[0].splitlines()
    given = [int.from_bytes(bytes.fromhex(line[3:])[6:], "little") for line in lines[::2]]
    expect("identifiers", given, [i % 65536 for i in range(65537)])
    expect("closes", set(lines[1::2]), {"00 CFC20006"})


def memory():
    """Constant memory: with 16 MiB of address space a file of 24 MB runs."""
    record = recording.make("0 count\n")
    with tempfile.NamedTemporaryFile(suffix=".requests") as file:
        for _ in range(2700):
            file.write(record * 1000)
        file.flush()
        def limit():
            resource.setrlimit(resource.RLIMIT_AS, (1 << 24, 1 << 24))
        done = subprocess.run([str(PROGRAM), file.name], capture_output=True, check=False, preexec_fn=limit)
    line = run(data=record)[0].encode()
    expect("2,700,000 records", (len(done.stdout), done.stdout[:len(line)], done.stderr), (len(line) * 2700000, line, b""))


def words():
    """Help; and what fails is one line on standard error, which begins with the program's name. The status is always 0."""
    out, err = run("--help")
    expect("--help", (out.startswith("usage: blobrun [--load STORE] [--save STORE] [FILE]\n"), "exit status is always 0" in out, err), (True, True, ""))
    expect("-h", run("-h"), (out, ""))
    full = subprocess.run([str(PROGRAM), str(STORIES[0].with_suffix(".requests"))], stdout=open("/dev/full", "wb"), stderr=subprocess.PIPE, check=True).stderr.decode()
    cut = subprocess.run([str(PROGRAM)], input=b"\0", stdout=open("/dev/full", "wb"), stderr=subprocess.PIPE, check=True).stderr.decode()
    expect("a full disk", {full, cut}, {"blobrun: standard output: No space left on device\n"})
    for found, why in ((run(ROOT / "no such file"), f"{ROOT / 'no such file'}: No such file or directory"), (run(ROOT), f"{ROOT}: Is a directory"),
                       (run("--version"), "there is no such option (--help says more)"), (run("x" * 5000), "a path is empty or too long (--help says more)"),
                       (run("a", "b"), "a path is given twice (--help says more)"), (run("--load", "a", "--load", "b"), "a path is given twice (--help says more)"),
                       (run("--save"), "an option has no path behind it (--help says more)"), (run("--load", ""), "a path is empty or too long (--help says more)")):
        expect(why, found, ("", f"blobrun: {why}\n"))


def tested():
    """The test that --help and README give in the place of an exit status: it holds where all went well, and nowhere else."""
    [command] = [line.strip() for line in run("--help")[0].splitlines() if "errors=" in line]
    expect("README gives it too", command in (ROOT / "README.md").read_text(encoding="utf-8"), True)
    good = STORIES[0].with_suffix(".requests")
    with tempfile.TemporaryDirectory() as name:
        folder = pathlib.Path(name)
        (folder / "cut").write_bytes(good.read_bytes()[:-1])
        (folder / "empty").write_bytes(b"")
        for file, holds in ((good, True), (folder / "empty", True), (folder / "cut", False), (folder / "absent", False)):
            script = command.replace("blobrun FILE", f"{shlex.quote(str(PROGRAM))} {shlex.quote(str(file))}")
            expect(f"the test on {file.name}", subprocess.run(["sh", "-c", script], cwd=folder, check=False).returncode == 0, holds)


def main():
    if sys.argv[1:2] == ["--write"]:
        for story in STORIES:
            requests = story.with_suffix(".requests")
            requests.write_bytes(recording.make(story.read_text(encoding="utf-8")))
            story.with_suffix(".lines").write_text(run(requests, program=sys.argv[2])[0], encoding="ascii")
        return
    for test in (examples, paper, cut, pieces, identifiers, memory, words, tested):
        test()
        print(f"blobrun, {test.__name__}: as expected")


if __name__ == "__main__":
    main()
