#!/usr/bin/env python3
"""Proofs read what the code did before by name, and no line is long.

A goal's context names each place before it (`c.loop-left`, `(goal.at.NAME c).In-loop-left`). A proof that counts `.before` instead has to be counted
anew with each call that is added to its function, so no file of specs/ or proofs/ has a path of more than two such steps. No line of an .antt file is
longer than 240 characters. What breaks this is printed with its file and line, and the exit status is 1. What the check writes, out/, is left out.
"""
import pathlib
import re
import sys

ROOT = pathlib.Path(__file__).resolve().parent.parent
LONGEST = 240
STEPS = 2
PATH = re.compile(r"(?:\s*\.before(?![\w-])){%d,}" % (STEPS + 1))


def main():
    found, count = [], 0
    for file in sorted(ROOT.glob("crates/*/*/**/*.antt")):
        name, text = file.relative_to(ROOT), file.read_text(encoding="utf-8")
        if name.parts[2] == "out":
            continue
        count += 1
        for number, line in enumerate(text.splitlines(), 1):
            if len(line) > LONGEST:
                found.append(f"{name}:{number}: a line of {len(line)} characters; at most {LONGEST}")
        for path in PATH.finditer(text):
            line = text.count("\n", 0, path.start() + len(path[0]) - len(path[0].lstrip())) + 1
            found.append(f"{name}:{line}: a path of {path[0].count('.before')} steps: name the place")
    print("\n".join(found) or f"proof paths: {count} files, every place by name, no long line")
    sys.exit(1 if found else 0)


if __name__ == "__main__":
    main()
