#!/usr/bin/env python3
"""examples/ipmi/run.sh fails where it must, says where it was not run, and leaves nothing behind; tools/peers.sh never stops the gate.

ipmi.py --check    needs target/staticlib/libcapi.a (tools/archive.sh); what needs an absent program is not run"""
import ctypes
import hashlib
import os
import pathlib
import random
import signal
import subprocess
import sys
import tempfile
import time

ROOT = pathlib.Path(__file__).resolve().parent.parent
RUN, PEERS = ROOT / "examples" / "ipmi" / "run.sh", ROOT / "tools" / "peers.sh"
STORY = (ROOT / "examples" / "ipmi" / "story.txt").read_text(encoding="ascii")

# Put in the place of the library's function: the last byte of a long response is dropped.
SHORT = ("kramsnep_respond", """
#include "kramsnep.h"
#define PARAMETERS const uint8_t *a, size_t b, uint32_t c, uint32_t *d, size_t e, uint32_t *f, size_t g, uint8_t *h, size_t i, \\
    uint8_t *j, size_t k, uint8_t *l, size_t m, uint8_t *n, size_t o, uint8_t *p, size_t q, uint8_t *r, size_t s
uint32_t __real_kramsnep_respond(PARAMETERS);
uint32_t __wrap_kramsnep_respond(PARAMETERS);
uint32_t __wrap_kramsnep_respond(PARAMETERS)
{
    uint32_t result = __real_kramsnep_respond(a, b, c, d, e, f, g, h, i, j, k, l, m, n, o, p, q, r, s);
    return KRAMSNEP_LENGTH(result) > 36 ? result - 0x100 : result;
}
""")
# Put in the place of the simulator's function: no response is sent.
SILENT = ("ipmi_handle_smi_rsp", """
void __wrap_ipmi_handle_smi_rsp(void *channel, void *message, unsigned char *response, int length);
void __wrap_ipmi_handle_smi_rsp(void *channel, void *message, unsigned char *response, int length)
{
    (void)channel, (void)message, (void)response, (void)length;
}
""")


def expect(what, holds, found):
    if not holds:
        sys.exit(f"{what}: {found}")


def with_fault(folder, fault):
    """The environment in which run.sh builds the module with a fault."""
    function, text = fault
    source = folder / f"{function}.c"
    source.write_text(text, encoding="ascii")
    return {"LDFLAGS": f"-Wl,--wrap={function} {source}"}


def started(folder, story=STORY, **variables):
    """run.sh on a story, with all its temporary files in a folder of its own; that folder is named too."""
    own = pathlib.Path(tempfile.mkdtemp(dir=folder))
    path = own.with_suffix(".story")
    path.write_text(story, encoding="ascii")
    process = subprocess.Popen([str(RUN), str(path)], env={**os.environ, "TMPDIR": str(own), **variables},
                               stdout=subprocess.PIPE, stderr=subprocess.STDOUT, text=True)
    return process, own


def ended(process, own):
    """(exit status, output) of run.sh, once it is seen that no process and no file of it is left."""
    output, _ = process.communicate(timeout=300)
    left = processes(own) + [path.name for path in own.iterdir()]
    expect("run.sh leaves nothing behind", not left, left)
    return process.returncode, output


def processes(own):
    """The command lines that name the folder."""
    lines = []
    for path in pathlib.Path("/proc").glob("[0-9]*/cmdline"):
        try:
            lines.append(path.read_bytes().replace(b"\0", b" ").decode("utf-8", "replace"))
        except OSError:
            continue  # it has ended
    return [line for line in lines if str(own) in line]


def fails(what, run, words):
    status, output = ended(*run)
    expect(what, status == 1 and words in output, (status, output))
    print(f"ipmi, {what}: seen to fail")


def faults(folder):
    """Each of these must be found: another byte expected, a byte lost, no answer."""
    wrong = STORY.replace("size 42'", "size 43'", 2).replace("size 43'", "size 42'", 1)
    expect("one byte of the story is another", sum(a != b for a, b in zip(wrong, STORY)) == 1, wrong)
    fails("a wrong byte expected", started(folder, wrong), ": read 0 5 58 ")
    fails("the last byte of long responses lost", started(folder, **with_fault(folder, SHORT)), "download 0 scan")
    fails("a module that does not answer", started(folder, **with_fault(folder, SILENT)), "ipmitool got no answer")


def interrupted(folder):
    """Ended from outside while a client waits, run.sh ends its simulator."""
    process, own = started(folder, **with_fault(folder, SILENT))
    end = time.monotonic() + 60
    while not any("raw 0x2e" in line for line in processes_below(process.pid)):
        expect("a client asks", time.monotonic() < end and process.poll() is None, process.poll())
        time.sleep(0.05)
    expect("the simulator runs", any(line.startswith("ipmi_sim") for line in processes(own)), processes(own))
    process.send_signal(signal.SIGTERM)
    status, output = ended(process, own)
    expect("run.sh, ended from outside", status == 1, (status, output))
    print("ipmi, ended from outside: nothing is left behind")


def served(folder):
    """run.sh --serve: a controller that can be asked, and that is ended with the script."""
    own = pathlib.Path(tempfile.mkdtemp(dir=folder))
    process = subprocess.Popen([str(RUN), "--serve"], env={**os.environ, "TMPDIR": str(own)}, stdout=subprocess.PIPE, stderr=subprocess.STDOUT, text=True)
    process.stdout.readline()
    words = process.stdout.readline().split()
    answer = subprocess.run(words, capture_output=True, text=True, timeout=60, check=False)
    process.send_signal(signal.SIGTERM)
    ended(process, own)
    expect("asked by the words that it says", answer.stdout.split() == "cf c2 00 00 e1 c4 04 00 00 00".split(), answer)
    print("ipmi, a controller to be asked by hand: answers, and is ended")


def processes_below(pid):
    """The command lines of a process's children, and of theirs."""
    lines, waiting = [], [pid]
    while waiting:
        at = pathlib.Path("/proc") / str(waiting.pop())
        try:
            waiting += (at / "task" / at.name / "children").read_text(encoding="ascii").split()
            lines.append((at / "cmdline").read_bytes().replace(b"\0", b" ").decode("utf-8", "replace"))
        except OSError:
            continue  # it has ended
    return lines


def path_without(folder, *programs):
    """A folder with all programs of the path but these; of those of the system's folder run.sh and peers.sh look for themselves."""
    own = pathlib.Path(tempfile.mkdtemp(dir=folder))
    for place in ("/usr/bin", "/bin"):
        for program in pathlib.Path(place).iterdir():
            if program.name not in programs and not (own / program.name).exists():
                (own / program.name).symlink_to(program)
    return own


def said(words, path):
    done = subprocess.run(list(map(str, words)), env={**os.environ, "PATH": str(path)}, capture_output=True, text=True, timeout=300, check=False)
    return done.returncode, done.stdout


def hashes(folder):
    """The SHA-256 of the example's verify job is Python's, for every length of a last block."""
    library = folder / "sha256.so"
    subprocess.run([os.environ.get("CC", "cc"), "-O2", "-fPIC", "-shared", str(ROOT / "examples" / "ipmi" / "sha256.c"), "-o", str(library)], check=True)
    function = ctypes.CDLL(str(library)).sha256
    for length in (*range(200), 16384):
        data, digest = random.Random(length).randbytes(length), ctypes.create_string_buffer(32)
        function(data, ctypes.c_size_t(length), digest)
        expect(f"SHA-256 of {length} bytes", digest.raw == hashlib.sha256(data).digest(), digest.raw.hex())
    print("ipmi, SHA-256 of the verify job: as Python's")


def absent(folder):
    """Where a program is absent, that is said in one line, and the exit status is 0."""
    without = path_without(folder, "ipmi_sim", "apt-get")
    expect("run.sh without ipmi_sim", said([RUN], without) == (0, "ipmi: not run: ipmi_sim is absent\n"), said([RUN], without))
    status, output = said([PEERS, "--show"], without)
    expect("peers.sh --show", status == 0 and "peers: ipmi_sim is absent (Debian package openipmi)\n" in output, output)
    status, output = said([PEERS], without)
    expect("peers.sh without apt-get", status == 0 and "peers: nothing is installed: that needs root and apt-get\n" in output, output)
    print("ipmi, absent programs: said, and not a failure")


def no_network(folder):
    """Where apt-get fails, that is said, and the exit status is 0; it is asked for absent packages alone. (Only root gets that far.)"""
    if os.geteuid() != 0:
        print("ipmi, apt-get that fails: not run: that needs root")
        return
    without = path_without(folder, "ipmi_sim", "apt-get")
    (without / "apt-get").write_text(f'#!/bin/sh\necho "$@" >>{without}.asked\necho no network\nexit 100\n', encoding="ascii")
    (without / "apt-get").chmod(0o755)
    status, output = said([PEERS], without)
    asked = pathlib.Path(f"{without}.asked").read_text(encoding="ascii").splitlines()
    expect("peers.sh, apt-get fails", status == 0 and "peers: apt-get failed:\nno network\n" in output and "peers: ipmi_sim is absent" in output, output)
    expect("apt-get is asked for openipmi, then for new lists", len(asked) == 2 and "install openipmi" in asked[0] and asked[1].endswith("update"), asked)
    print("ipmi, apt-get that fails: said, and not a failure")


def main():
    if sys.argv[1:] != ["--check"]:
        sys.exit(__doc__)
    _, peers = said([PEERS, "--show"], os.environ["PATH"])
    with tempfile.TemporaryDirectory() as name:
        folder = pathlib.Path(name)
        hashes(folder)
        absent(folder)
        no_network(folder)
        missing = [line.split()[1] for line in peers.splitlines() if " is absent " in line and "protobuf" not in line]  # that is for tests/store_file.py
        if missing:
            print(f"ipmi: not run: {missing[0]} is absent")
            return
        faults(folder)
        interrupted(folder)
        served(folder)


if __name__ == "__main__":
    main()
