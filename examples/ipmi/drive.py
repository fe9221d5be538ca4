#!/usr/bin/env python3
"""Runs the library behind ipmi_sim, has real clients ask it, and compares every byte that comes back. Called by run.sh.

drive.py MODULE [STORY]    MODULE: the module, built; STORY: story.txt beside this file, if none is named
drive.py MODULE --serve    a controller to be asked by hand, until it is interrupted

First the story: each of its lines is a request and what must come back, as the rules of docs/PROTOCOL.md say it. Then the recordings
examples/*.requests, each to a fresh controller; what must come back is examples/*.lines, as the second implementation answered; and, where
the second implementation is built, random requests that it answers too. Last files are stored and fetched by tools/recording.py and ipmitool."""
import contextlib
import pathlib
import random
import re
import signal
import socket
import subprocess
import sys
import tempfile
import time

import messages

HERE = pathlib.Path(__file__).resolve().parent
EXAMPLES = HERE.parent
SECOND = EXAMPLES.parent / "target" / "second" / "release" / "second_run"
NETFN, COMMAND = 0x2E, 0x80
JOB_MILLISECONDS = 3000  # long enough that clients see the job running, on a busy machine too
CLOCKED = {"stale"}  # recordings whose answers depend on their clocks; here the clock is the controller's
CLIENT_SECONDS = 120  # after that a client that still waits is ended

# No request is sent twice within 10 s: a retry of an accepted Open is refused, since the name is in use then.
IPMITOOL = ["ipmitool", "-H", "127.0.0.1", "-P", "secret", "-N", "10", "-R", "1"]
IPMI_RAW = ["ipmi-raw", "-u", "admin", "-p", "secret", "-l", "ADMIN", "-W", "opensesspriv", "--session-timeout=20000"]


class Failed(Exception):
    """What came back is not what must come back."""


def hexes(*numbers):
    return [f"0x{n:02x}" for n in numbers]


def run(words):
    try:
        return subprocess.run(words, capture_output=True, text=True, timeout=CLIENT_SECONDS, stdin=subprocess.DEVNULL, check=False)
    except subprocess.TimeoutExpired as late:
        raise Failed(f"{words[0]} got no answer in {CLIENT_SECONDS} s") from late


def by_ipmitool(*options):
    """A client that sends each request by a call of ipmitool: on success it prints the response, a refusal's code is in its message."""
    def ask(port, requests):
        for netfn, command, data in requests:
            done = run([*IPMITOOL, "-p", str(port), *options, "raw", *hexes(netfn, command, *data)])
            refused = re.search(r"rsp=0x([0-9a-f]{2})\)", done.stderr)
            if done.returncode != 0 and not refused:
                raise Failed(f"ipmitool got no answer: {done.stderr.strip()}")
            yield bytes.fromhex(refused[1]) if refused else b"\0" + bytes.fromhex(done.stdout)
    return ask


def by_ipmi_raw(driver, retry_after):
    """A client that sends all requests in one session of ipmi-raw: it prints 'rcvd:', the command, the code and the response.
    retry_after: milliseconds until it sends a message again."""
    def ask(port, requests):
        with tempfile.NamedTemporaryFile("w", suffix=".requests") as file:
            for netfn, command, data in requests:
                file.write(" ".join(["0", *hexes(netfn, command, *data)]) + "\n")
            file.flush()
            done = run([*IPMI_RAW, "-h", f"127.0.0.1:{port}", "-D", driver, f"--retransmission-timeout={retry_after}", f"--file={file.name}"])
        lines = [line for line in done.stdout.splitlines() if line.startswith("rcvd: ")]
        if done.returncode != 0 or len(lines) != len(requests):
            raise Failed(f"ipmi-raw got {len(lines)} answers to {len(requests)} requests: {done.stderr.strip()}")
        for line in lines:
            yield bytes.fromhex(line.removeprefix("rcvd: "))[1:]
    return ask


CLIENTS = {
    "ipmitool": by_ipmitool("-I", "lanplus", "-C", "3", "-U", "admin"),
    "ipmitool-1.5": by_ipmitool("-I", "lan", "-U", "admin"),
    "ipmitool-as-operator": by_ipmitool("-I", "lanplus", "-C", "3", "-U", "operator", "-L", "OPERATOR"),
    "ipmi-raw": by_ipmi_raw("LAN_2_0", 10000),
    # the simulator uses a sequence number twice at the start of a 1.5 session, so that this client always sends one message again
    "ipmi-raw-1.5": by_ipmi_raw("LAN", 1000),
}


def free_port():
    with socket.socket(socket.AF_INET, socket.SOCK_DGRAM) as probe:
        probe.bind(("127.0.0.1", 0))
        return probe.getsockname()[1]


def wait_until_ready(process, log):
    """Until the module says that it is ready."""
    end = time.monotonic() + 20
    while "blobs: ready" not in log.read_text(encoding="utf-8", errors="replace"):
        if process.poll() is not None or time.monotonic() > end:
            raise Failed(f"the simulator did not start: {log.read_text(encoding='utf-8', errors='replace').strip()}")
        time.sleep(0.02)


@contextlib.contextmanager
def controller(module, folder):
    """A fresh controller: (port, file of installed firmware). The simulator is ended in every case."""
    with tempfile.TemporaryDirectory(dir=folder) as name:
        own = pathlib.Path(name)
        port, flash, log = free_port(), own / "flash" / "firmware", own / "log"
        text = (HERE / "lan.conf.in").read_text(encoding="ascii")
        for key, value in {"@PORT@": port, "@MODULE@": module, "@OPTIONS@": f"{JOB_MILLISECONDS} {flash}"}.items():
            text = text.replace(key, str(value))
        (own / "lan.conf").write_text(text, encoding="utf-8")
        (own / "state").mkdir()
        with open(log, "wb") as out:
            process = subprocess.Popen(["ipmi_sim", "-n", "-p", "-c", str(own / "lan.conf"), "-f", str(HERE / "controller.emu"), "-s", str(own / "state")],
                                       stdin=subprocess.DEVNULL, stdout=out, stderr=out, cwd=own)
        try:
            wait_until_ready(process, log)
            yield port, flash
        except Failed as fault:
            raise Failed(f"{fault}\n  the simulator had ended by itself, status {process.returncode}" if process.poll() is not None else fault) from fault
        finally:
            process.kill()
            process.wait()


class Story:
    """The lines of a story, one after another, asked of one controller."""

    def __init__(self, port, flash):
        self.port, self.flash, self.client, self.requests = port, flash, "", 0

    def ask(self, pairs):
        """Sends blob requests and compares each answer with the one that must come."""
        self.compare([(NETFN, COMMAND, data) for data, _ in pairs], [wanted for _, wanted in pairs])

    def compare(self, requests, answers):
        for (_, _, data), wanted, found in zip(requests, answers, CLIENTS[self.client](self.port, requests)):
            if found != wanted:
                raise Failed(f"{self.client}: {data.hex(' ')}\n  found  {found.hex(' ')}\n  wanted {wanted.hex(' ')}")
        self.requests += len(requests)

    def wait(self, pair):
        """Asks again and again, as a client does that waits for a job."""
        end = time.monotonic() + 30
        while True:
            try:
                return self.ask([pair])
            except Failed:
                if time.monotonic() > end:
                    raise
                time.sleep(0.1)

    def step(self, line):
        left, _, right = line.partition("->")
        words, wanted = left.split(), right.split()
        match words:
            case ["by", client]:
                self.client = client
            case ["upload", session, content]:
                self.ask(list(messages.writes(session, messages.MADE[content])))
            case ["download", session, content]:
                self.ask(list(messages.reads(session, messages.MADE[content])))
            case ["send", netfn, command, *data]:
                self.compare([(int(netfn, 16), int(command, 16), bytes.fromhex("".join(data)))], [bytes.fromhex("".join(wanted))])
            case ["wait", *asked]:
                self.wait((messages.request(asked), messages.response(asked, wanted)))
            case ["plug-in-the-flash"]:
                self.flash.parent.mkdir()
            case ["installed", content]:
                if self.flash.read_bytes() != messages.MADE[content]:
                    raise Failed("the installed firmware is another")
            case _:
                self.ask([(messages.request(words), messages.response(words, wanted))])


def tell(path, module, folder):
    """Number of requests of a story that all were answered as it says."""
    with controller(module, folder) as (port, flash):
        story = Story(port, flash)
        for number, line in enumerate(path.read_text(encoding="ascii").splitlines(), 1):
            try:
                if line.partition("#")[0].strip():
                    story.step(line.partition("#")[0])
            except (Failed, OSError, ValueError, KeyError, IndexError, TypeError) as fault:
                raise Failed(f"line {number}: {line.strip()}\n  {type(fault).__name__}: {fault}") from fault
    return story.requests


def records(data):
    """The messages of a recording: behind the clock (4 bytes) and the length (1 byte)."""
    while data:
        yield data[5:5 + data[4]]
        data = data[5 + data[4]:]


def replay(requests, lines, module, folder):
    """Number of requests, all answered as the lines say, by a fresh controller."""
    if len(lines) != len(requests):
        raise Failed(f"{len(requests)} requests, {len(lines)} lines")
    with controller(module, folder) as (port, flash):
        story = Story(port, flash)
        story.client = "ipmi-raw"
        story.ask([(data, bytes.fromhex(line)) for data, line in zip(requests, lines)])
    return story.requests


def random_requests(chance):
    """Requests of all kinds, most of them well formed. No job is started: its outcome would be no message, and the second implementation not know it."""
    for _ in range(1000):
        session, offset = chance.randrange(24), chance.choice([0, 0, 0, 1, 20, 50, 4096])
        blob = chance.choice([*(f"/scan/{letter}" for letter in "abcdefghijklmn"), "/scan/", "/scan/a-b", "/flash/image", "/flash/hash", "/flash/cleanup", "/no"])
        kinds = {f"open {blob} {chance.choice(['0001', '0002', '0003', '0003', '0003', '0103'])}": 4, f"read {session} {offset} {chance.choice([0, 10, 58, 100])}": 4,
                 f"write {session} {offset} {chance.randbytes(chance.randrange(1, 53)).hex()}": 4, f"commit {session}": 2, f"close {session}": 1,
                 f"delete {blob}": 1, f"stat {blob}": 2, f"sessionstat {session}": 2, f"writemeta {session}": 1, "count": 1,
                 f"enumerate {chance.randrange(10)}": 2, f"raw {chance.randbytes(chance.randrange(65)).hex()}": 1}
        [words] = chance.choices(list(kinds), kinds.values())
        yield messages.request(words.split())


def second_answers(requests):
    """The second implementation's lines. Its clock stands still: here too no session gets old enough for a sweep."""
    data = b"".join(bytes(4) + bytes([len(request)]) + request for request in requests)
    return subprocess.run([str(SECOND)], input=data, capture_output=True, check=True).stdout.decode("ascii").splitlines()


def replays():
    """Name, requests and lines of each replay."""
    for path in sorted(EXAMPLES.glob("*.requests")):
        if path.stem not in CLOCKED:
            yield path.name, list(records(path.read_bytes())), path.with_suffix(".lines").read_text(encoding="ascii").splitlines()
    if not SECOND.exists():
        print("ipmi: random requests: not run: the second implementation is not built")
        return
    requests = list(random_requests(random.Random(20261116)))
    lines = second_answers(requests)
    yield f"random requests, {sum(line.startswith('00') for line in lines)} of them accepted", requests, lines


def recording(folder, *words):
    """What tools/recording.py prints, run in that folder."""
    done = subprocess.run([sys.executable, "-B", str(EXAMPLES.parent / "tools" / "recording.py"), *words], cwd=folder, capture_output=True, text=True, check=False)
    if done.returncode != 0:
        raise Failed(f"recording.py {' '.join(words)}: {done.stderr.strip()}")
    return done.stdout


def administrator(port):
    """The words of ipmitool, up to those of the request."""
    return [*IPMITOOL, "-p", str(port), "-I", "lanplus", "-C", "3", "-U", "admin", "raw"]


def same_file(folder):
    if (folder / "back").read_bytes() != (folder / "file").read_bytes():
        raise Failed("the file that came back is another")


def by_lines(folder, port):
    """A file stored and fetched by lines that are made beforehand: the sessions are 0 and 1, since nobody else asks."""
    recording(folder, "upload", "/scan/foot", "file", "up")
    recording(folder, "download", "/scan/foot", "down", "--session", "1", "--length", "600")
    (folder / "all").write_bytes((folder / "up").read_bytes() + (folder / "down").read_bytes())
    with open(folder / "printed", "w", encoding="utf-8") as printed:
        for words in recording(folder, "to-ipmitool", "all").splitlines():
            done = run([*administrator(port), *words.split()])
            printed.write(done.stdout + done.stderr)
    recording(folder, "ipmitool-answers", "printed", "lines")
    recording(folder, "received", "all", "lines", "back")
    same_file(folder)


def by_requests(folder, port):
    """A file stored and fetched request by request, while another client has a session."""
    story = Story(port, None)
    for line in ("by ipmitool", "open /scan/other 0003 -> 00 session 2", "write 2 0 'another foot' -> 00"):
        story.step(line)
    recording(folder, "store", "--replace", "/scan/foot", "file", *administrator(port))
    recording(folder, "fetch", "/scan/foot", "back", *administrator(port))
    same_file(folder)
    story.step("read 2 0 58 -> 00 bytes 'another foot'")


def transfer(module, folder):
    """Files through tools/recording.py and ipmitool."""
    folder = pathlib.Path(folder)
    (folder / "file").write_bytes(random.Random(3).randbytes(500))
    with controller(module, folder) as (port, _):
        by_lines(folder, port)
        by_requests(folder, port)


def serve(module, folder):
    """A controller, until this process is ended."""
    with controller(module, folder) as (port, flash):
        flash.parent.mkdir()
        print(f"ipmi: a controller listens on 127.0.0.1, port {port}, until this is interrupted. To ask it how many blobs there are:", flush=True)
        print(f"  ipmitool -I lanplus -C 3 -H 127.0.0.1 -p {port} -U admin -P secret raw 0x2e 0x80 0xcf 0xc2 0x00 0x00", flush=True)
        signal.pause()


def main():
    module, asked = pathlib.Path(sys.argv[1]).resolve(), sys.argv[2:]
    story = pathlib.Path(asked[0]) if asked else HERE / "story.txt"
    for end in (signal.SIGTERM, signal.SIGHUP):
        signal.signal(end, lambda *_: sys.exit(1))  # so that the simulator is ended then too
    part = story.name
    with tempfile.TemporaryDirectory() as folder:
        try:
            if asked == ["--serve"]:
                serve(module, folder)
            print(f"ipmi: {part}: {tell(story, module, folder)} requests answered as expected", flush=True)
            for name, requests, lines in replays():
                part = name
                print(f"ipmi: {name}: {replay(requests, lines, module, folder)} requests answered as expected", flush=True)
            part = "files by recording.py and ipmitool"
            transfer(module, folder)
            print(f"ipmi: {part}: stored and fetched, another client's session left alone", flush=True)
        except Failed as fault:
            sys.exit(f"ipmi: FAILED: {part}: {fault}")


if __name__ == "__main__":
    main()
