"""Files that are read whole and written whole, and what is wrong with them, told in one line."""
import os
import re
import stat
import tempfile

STANDARD = "-"


class Fault(Exception):
    """What is wrong with an input, and where: shown as `FILE:LINE: what`, or `FILE: what` where it is not about a line."""

    def __init__(self, what, source=None, line=None):
        super().__init__(what)
        self.what, self.source, self.line = what, source, line

    def within(self, source, line):
        """The same fault, placed in a line of a file."""
        return Fault(self.what, source, line)

    def __str__(self):
        place = "".join(f"{part}:" for part in (self.source, self.line) if part is not None)
        text = f"{place} {self.what}" if place else self.what
        # a name or a word may hold a line feed, and a fault is one line
        return "".join(c if c.isprintable() else c.encode("unicode_escape").decode("ascii") for c in text)


def called(path):
    """How messages call an input."""
    return "standard input" if path == STANDARD else str(path)


def check_paths(inputs, output=None):
    """Refuses two inputs from standard input, and an output that is one of the inputs: it would be lost."""
    if sum(path == STANDARD for path in inputs) > 1:
        raise Fault("standard input can be read only once")
    if output in (None, STANDARD) or not os.path.isfile(output):
        return
    for path in inputs:
        try:
            read = os.stat(0 if path == STANDARD else path)
        except OSError:
            continue  # what cannot be read is told when it is read
        if os.path.samestat(read, os.stat(output)):
            raise Fault("is both read and written", output)


def read_bytes(path, most=-1):
    """All bytes of a file, or of standard input; no more than `most` of them where that is given."""
    try:
        with open(0 if path == STANDARD else path, "rb", closefd=path != STANDARD) as file:
            return file.read(most)
    except OSError as error:
        raise Fault(f"cannot be read: {error.strerror}", called(path)) from error


def read_lines(path):
    """The lines of a text file in UTF-8. Only a line feed ends one, so that no other character can shift the numbers of the lines."""
    data = read_bytes(path).removeprefix(b"\xef\xbb\xbf")
    try:
        text = data.decode("utf-8")
    except UnicodeDecodeError as error:
        raise Fault("not UTF-8 text", called(path), data.count(b"\n", 0, error.start) + 1) from error
    return lines_of(text)


def lines_of(text):
    """The lines of a text, without their ends; what stands behind the last line feed is a line if it is not empty."""
    lines = [line.removesuffix("\r") for line in text.split("\n")]
    return lines if lines[-1] else lines[:-1]


def write(path, data):
    """Puts the bytes into a file, whole or not at all, or on standard output, or where another descriptor leads."""
    descriptor = descriptor_of(path)
    try:
        if descriptor is not None:
            write_all(descriptor, data)
        elif is_there(path) and not os.path.isfile(path):
            # a device or a pipe cannot be renamed over; a directory is refused here
            with open(path, "wb", buffering=0) as file:
                write_all(file.fileno(), data)
        else:
            replace(os.path.realpath(path), data)
    except OSError as error:
        raise Fault(f"cannot be written: {error.strerror}", "standard output" if path == STANDARD else str(path)) from error


def descriptor_of(path):
    """The descriptor that a path stands for, if it does: to open what lies behind it would begin at its start again."""
    names = {STANDARD: 1, "/dev/stdout": 1, "/dev/stderr": 2}
    number = re.fullmatch("/(?:dev|proc/self)/fd/([0-9]{1,5})", str(path))
    return int(number.group(1)) if number else names.get(str(path))


def is_there(path):
    """Whether there is such a file; links that lead nowhere but to each other are an error."""
    try:
        os.stat(path)
    except FileNotFoundError:
        return False
    return True


def say(line):
    """A line on standard error, as far as there is one."""
    try:
        write_all(2, f"{line}\n".encode("utf-8", "backslashreplace"))
    except OSError:
        pass


def write_all(handle, data):
    """Writes past Python's buffers: what they kept of a failed write would be tried again, and told again, at the end."""
    rest = memoryview(data)
    while rest:
        rest = rest[os.write(handle, rest):]


def replace(target, data):
    """Writes a new file beside the target and renames it, so that a reader sees the old bytes or the new ones; on a failure the target stays."""
    if os.path.exists(target) and not os.access(target, os.W_OK):
        raise PermissionError(13, "Permission denied")
    handle, temporary = tempfile.mkstemp(dir=os.path.dirname(target), prefix=".recording-")
    try:
        with os.fdopen(handle, "wb") as file:
            file.write(data)
        if os.path.exists(target) and os.geteuid() == 0:
            os.chown(temporary, os.stat(target).st_uid, os.stat(target).st_gid)
        os.chmod(temporary, mode_for(target))
        os.replace(temporary, target)
    except BaseException:
        os.unlink(temporary)
        raise


def mode_for(target):
    """The access rights that writing straight to the target would leave: its own, or those of a new file."""
    if os.path.exists(target):
        return stat.S_IMODE(os.stat(target).st_mode)
    mask = os.umask(0)
    os.umask(mask)
    return 0o666 & ~mask
