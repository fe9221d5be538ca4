"""A file stored on a controller, and fetched from it, request by request through a client such as `ipmitool .. raw`.

A recording says beforehand which session it means. Here the session is the one that the Open was given, so that no request can meet another client's."""
import subprocess

from blob_recording import files, ipmitool, messages, story, transcript, transfer
from blob_recording.files import Fault
from blob_recording.messages import number

CLIENT_SECONDS = 120  # after that a client that still waits is ended


class Refused(Fault):
    """A request that was answered by a code other than 00."""

    def __init__(self, asked, code):
        super().__init__(f"{asked}: {transcript.refusal(code)}")
        self.code = code


class Client:
    """A program that takes the words of `ipmitool raw` behind its own, and prints as it does."""

    def __init__(self, program, netfn=ipmitool.NETWORK_FUNCTION, command=ipmitool.COMMAND):
        if not program:
            raise Fault("which program asks? For example: ipmitool -H HOST -U USER -P PASSWORD raw")
        self.program, self.netfn, self.command = program, netfn, command

    def ask(self, asked):
        """The fields of the response to a request, which is given as the words of a line."""
        m = story.request(story.words_of(asked))
        answer = transcript.exchange(1, 0, m, self.answer(asked, ipmitool.words(m, self.netfn, self.command).split()))
        if answer.code:
            raise Refused(asked, answer.code)
        return answer.fields

    def answer(self, asked, words):
        """What the client printed for one request, as a line of `blobrun`."""
        try:
            done = subprocess.run([*self.program, *words], stdin=subprocess.DEVNULL, capture_output=True, text=True, errors="replace", timeout=CLIENT_SECONDS, check=False)
        except subprocess.TimeoutExpired as late:
            raise Fault(f"{asked}: {self.program[0]} got no answer in {CLIENT_SECONDS} s") from late
        except OSError as error:
            raise Fault(f"{self.program[0]}: cannot be run: {error.strerror}") from error
        said = done.stdout if done.returncode == 0 else done.stderr
        try:
            [line] = ipmitool.answer_lines(files.lines_of(said), self.program[0])
        except (Fault, ValueError) as fault:
            first = next(filter(None, map(str.strip, (done.stderr + "\n" + done.stdout).splitlines())), "nothing was printed")
            raise Fault(f"{asked}: {self.program[0]} got no answer: {first}") from fault
        return line

    def close(self, session):
        """Closes a session after a fault; one that cannot be closed is left for the sweep."""
        try:
            self.ask(f"close {session}")
        except Fault:
            pass


def size_of(client, session):
    """The length that the session sees."""
    return number(client.ask(f"sessionstat {session}")[2:6])


def delete_if_held(client, name):
    """Deletes a name, if there is one."""
    try:
        client.ask(f"delete {name}")
    except Refused as refused:
        if refused.code != messages.NOT_FOUND:
            raise


def store(client, name, data, source, replace=False):
    """Stores the bytes under a name. What is committed is just these bytes, or nothing is committed."""
    transfer.check_size(data, source)
    transfer.checked_name(name)
    if replace:
        delete_if_held(client, name)
    session = number(client.ask(f"open {name} {transfer.READ_WRITE}"))
    try:
        for part in transfer.write_lines(data, session):
            client.ask(part)
        size = size_of(client, session)
        if size != len(data):
            raise Fault(f"{name} holds {size} bytes, and the file has {len(data)}: nothing was committed (--replace deletes the name first)")
        client.ask(f"commit {session}")
    except BaseException:
        client.close(session)
        raise
    client.ask(f"close {session}")


def fetch(client, name):
    """The bytes that are committed under a name."""
    session = number(client.ask(f"open {transfer.checked_name(name)} {transfer.READ_ONLY}"))
    try:
        size, data = size_of(client, session), b""
        for part in transfer.read_lines(size, session):
            data += client.ask(part)
        if len(data) != size:
            raise Fault(f"{name} has {size} bytes, and {len(data)} came")
    except BaseException:
        client.close(session)
        raise
    client.ask(f"close {session}")
    return data
