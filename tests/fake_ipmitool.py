#!/usr/bin/env python3
"""fake_ipmitool.py HISTORY WORDS..: stands in for `ipmitool raw`: takes its words and prints what it prints. HISTORY is a request file that keeps all that was asked; blobrun
answers it from the start each time, and the last line is the answer. Needs target/bin/blobrun."""
import pathlib
import subprocess
import sys

BLOBRUN = pathlib.Path(__file__).resolve().parent.parent / "target" / "bin" / "blobrun"


def printed(line):
    """What `ipmitool raw` prints where blobrun prints that line: bytes, 16 a line, or a refusal in words."""
    code, _, response = line.partition(" ")
    if code != "00":
        return f"Unable to send RAW command (channel=0x0 netfn=0x2e lun=0x0 cmd=0x80 rsp=0x{int(code, 16):x}): Some words\n"
    data = bytes.fromhex(response)
    return "".join("".join(f" {byte:02x}" for byte in data[at:at + 16]) + "\n" for at in range(0, len(data), 16))


def main():
    history, words = pathlib.Path(sys.argv[1]), bytes(int(word, 0) for word in sys.argv[2:])
    if words[:2] != b"\x2e\x80":
        sys.exit("another network function or command")
    with open(history, "ab") as file:
        file.write(bytes(4) + bytes([len(words) - 2]) + words[2:])
    line = subprocess.run([str(BLOBRUN), str(history)], capture_output=True, text=True, check=True).stdout.splitlines()[-1]
    if line.startswith("00 "):
        sys.stdout.write(printed(line))
    else:
        sys.exit(printed(line).rstrip("\n"))


if __name__ == "__main__":
    main()
