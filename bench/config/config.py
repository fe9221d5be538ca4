#!/usr/bin/env python3
"""config.py ROUNDS ROUNDS_SO [SECOND_SO]: what reading a flash configuration takes by the library, beside Python's json.loads and, if its shared object is
given, the second implementation. Prints medians (and least) of so many rounds; the readers take turns, so that a machine that becomes slower is so for all.
An answer that is not the one expected ends it.

Python is given the same bytes, and makes objects of them; it judges no profile. Its collector of unused objects works as it always does."""
import collections
import ctypes
import json
import pathlib
import platform
import random
import statistics
import sys
import time

DOCUMENT = pathlib.Path(__file__).resolve().parents[2] / "second" / "tests" / "configs" / "config-static-bmc.json"
KIB, MIB = 1 << 10, 1 << 20
ROUND_LEAST = 2_000_000  # nanoseconds that a round takes at least, where a call takes less
TAKEN, NUMBER_THERE, OFF_PROFILE = 0x00, 0xF2, 0xF7

# ---- Texts: each with the code, and the number of entries or the place, that are due


def document():
    return DOCUMENT.read_bytes(), TAKEN, 1


def eight(**layout):
    entry = json.loads(DOCUMENT.read_bytes())[0]
    return json.dumps([entry] * 8, **layout).encode(), TAKEN, 8


def eight_compact():
    return eight(separators=(",", ":"))


def eight_indented():
    return eight(indent=4)


def with_action(front, filling, back, size):
    """An entry whose first action is a front, as much of the filling as is wanted, and a back. All that comes to be looked for again stands behind that action, so that
    every search reads it."""
    front = '[{"actions":{"preparation":{' + front
    back += '},"verification":{"type":"reboot"},"update":{"type":"reboot"}},"handler":{"type":"file","path":"p"},"blob":"b"}]'
    return (front + filling * ((size - len(front) - len(back)) // len(filling)) + back).encode(), len(front)


def white_around(size):
    text = document()[0]
    space = b" \n" * ((size - len(text)) // 4)
    return space + text + space, TAKEN, 1


def long_strings(size):
    """Path and units are a quarter of the text each."""
    entry = json.loads(DOCUMENT.read_bytes())[0]
    for held, key in ((entry["handler"], "path"), *((action, "unit") for action in entry["actions"].values())):
        held[key] = "x" * (size // 4 - 64)
    return json.dumps([entry]).encode(), TAKEN, 1


def searched_string(size):
    return with_action('"unit":"', "x", '","type":"systemd"', size)[0], TAKEN, 1


def searched_white(size):
    return with_action("", " ", '"type":"reboot"', size)[0], TAKEN, 1


def searched_lists(size):
    text, place = with_action('"unit":[', "[],", '[]],"type":"systemd"', size)
    return text, OFF_PROFILE, place - 1


def searched_nested(size):
    text, place = with_action('"unit":[', "[[[]]],", '[]],"type":"systemd"', size)
    return text, OFF_PROFILE, place - 1


def searched_strings(size):
    text, place = with_action('"unit":[', '"",', '""],"type":"systemd"', size)
    return text, OFF_PROFILE, place - 1


def searched_mixture(size):
    """Short values in a random order, which no branch predictor learns."""
    chance, values, length = random.Random(1), [], 0
    while length < size - 200:
        values.append(chance.choice(("[],", "[[]],", "[[[]]],", "{},", '"",', "[{}],")))
        length += len(values[-1])
    text, place = with_action('"unit":[' + "".join(values), " ", '""],"type":"systemd"', size)
    return text, OFF_PROFILE, place - 1 - length


def unknown_in_action(size):
    text, place = with_action("", '"":"",', '"type":"systemd","unit":"u"', size)
    return text, OFF_PROFILE, place


def unknown_in_entry(size):
    return b'[{' + b'"":"",' * (size // 6 - 1) + b'"":""}]', OFF_PROFILE, 2


def empty_entries(size):
    return b"[" + b"{}," * (size // 3 - 1) + b"{}]", OFF_PROFILE, 2


def good_entries(size):
    entry = json.dumps(json.loads(DOCUMENT.read_bytes())[0]).encode()
    return b"[" + b",".join([entry] * (size // (len(entry) + 1))) + b"]", OFF_PROFILE, 1 + 8 * (len(entry) + 1)


def number_at_end(size):
    text = b"[" + b"[]," * (size // 3 - 1) + b"1]"
    return text, NUMBER_THERE, len(text) - 2


# ---- Readers


class Linked:
    """A reader with the library's arguments, timed in C."""

    def __init__(self, rounds, function):
        self.time_of, self.function = rounds.time_of, ctypes.cast(function, ctypes.c_void_p)
        self.time_of.argtypes = [ctypes.c_void_p, ctypes.c_char_p, ctypes.c_size_t, ctypes.c_size_t, ctypes.POINTER(ctypes.c_uint64)]
        self.time_of.restype = ctypes.c_double

    def round(self, text, calls):
        """(nanoseconds of a call, the result)"""
        result = ctypes.c_uint64()
        took = self.time_of(self.function, text, len(text), calls, result)
        if took < 0:
            sys.exit("config: two calls have different results")
        return took, result.value


class Json:
    """json.loads; what it gives is one value, so there is no result to compare."""

    @staticmethod
    def round(text, calls):
        loads = json.loads
        begin = time.thread_time_ns()
        for _ in range(calls):
            loads(text)
        return (time.thread_time_ns() - begin) / calls, None


class Job:
    """A text, and what each reader takes for it."""

    def __init__(self, what, text, code, number):
        self.what, self.text, self.code, self.number = what, text, code, number
        self.calls, self.times = {}, collections.defaultdict(list)

    def begin(self, name, reader):
        """One call: the answer has to be the one that is due, and the time says how many calls make a round."""
        took, result = reader.round(self.text, 1)
        if result not in (None, self.code | self.number << 8):
            sys.exit(f"config: {self.what}: {name} answers {result & 0xFF:02X}, {result >> 8}; {self.code:02X}, {self.number} is expected")
        self.calls[name] = max(1, round(ROUND_LEAST / max(took, 1)))

    def round(self, name, reader):
        self.times[name].append(reader.round(self.text, self.calls[name])[0])

    def median(self, name):
        return statistics.median(self.times[name])

    def a_byte(self):
        return self.median("library") / len(self.text)

    def line(self):
        beside = [f"{name} {self.median(name):9.0f} ({min(times):9.0f}) ns, {self.median('library') / self.median(name):6.3f} times"
                  for name, times in self.times.items() if name != "library"]
        return (f"{self.what:<38} {len(self.text):7} bytes, {self.code:02X}: library {self.median('library'):9.0f} ({min(self.times['library']):9.0f}) ns, "
                f"{self.a_byte():5.2f} a byte; beside {'; '.join(beside)}")


def measure(jobs, readers, rounds):
    """All of these in turn, so that they can be compared with one another too."""
    for job in jobs:
        for name, reader in readers.items():
            job.begin(name, reader)
    for _ in range(rounds):
        for job in jobs:
            for name, reader in readers.items():
                job.round(name, reader)
    for job in jobs:
        print(job.line(), flush=True)


def growth(what, make, readers, rounds):
    """How the library's time for a byte changes with the length."""
    jobs = [Job(f"{what}, {size // KIB} KiB", *make(size)) for size in (64 * KIB, 256 * KIB, MIB, 4 * MIB)]
    measure(jobs, readers, rounds)
    print(f"{what}: a byte takes {', '.join(f'{job.a_byte() / jobs[0].a_byte():.2f}' for job in jobs[1:])} times as long as in the shortest")


def main():
    rounds = int(sys.argv[1])
    shared = ctypes.CDLL(sys.argv[2])
    readers = {"library": Linked(shared, shared.kramsnep_read_config), "json.loads": Json}
    if len(sys.argv) > 3:
        readers["second"] = Linked(shared, ctypes.CDLL(sys.argv[3]).second_read_config)
    print(f"Python {platform.python_version()} ({platform.python_compiler()}), medians (and least) of {rounds} rounds")
    measure([Job("a file of document 004", *document()), Job("eight entries, compact", *eight_compact()), Job("eight entries, indented", *eight_indented())],
            readers, rounds)
    for what, make in (("white space around", white_around), ("long strings", long_strings), ("white space, searched", searched_white),
                       ("short values, searched", searched_mixture)):
        growth(what, make, readers, rounds)
    others = {"a long string, searched": searched_string, "empty strings, searched": searched_strings, "empty lists, searched": searched_lists,
              "nested lists, searched": searched_nested, "unknown keys in an action": unknown_in_action, "unknown keys in an entry": unknown_in_entry,
              "empty entries": empty_entries, "more good entries than eight": good_entries, "a number at the end": number_at_end}
    measure([Job(f"{what}, 1024 KiB", *make(MIB)) for what, make in others.items()], readers, rounds)


if __name__ == "__main__":
    main()
