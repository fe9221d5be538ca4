#!/usr/bin/env python3
"""Plants wrong definitions and asks the theorems alone which of them they refuse.

tools/plants.py [NAME..] [--logs FOLDER]

A code's contract only says that the code does what the definition says, so a definition that is wrong in code and specification alike is refused by nothing but a theorem. Each
tools/plants/NAME.edit is one such definition, in the form of the must-fail edits with a line `crate: NAME` in front. It is planted in a copy, outside the repository, of the
crates that hold theorems only and of those they stand on, with all code and its proofs taken out, so that only theorems judge; the first crate that is refused is named, with what failed in it.
A refusal counts only where a statement is false under the plant, and not where a proof's text merely no longer fits: read what failed. Where the statement still holds, the plant
mends the proof too, behind a line `mend: FILE`, and the rest is asked; \\n in a text is a line's end. It is not part of the gate."""
import argparse
import pathlib
import re
import shutil
import subprocess
import sys
import tempfile

import mutants

ROOT = mutants.ROOT


def dependencies():
    """crate -> what crates.txt lists for it, of this repository."""
    lines = [line.split("#")[0] for line in (ROOT / "crates.txt").read_text(encoding="utf-8").splitlines()]
    pairs = {line.split(":")[0].split()[0]: line.split(":")[1].split() for line in lines if ":" in line}
    return {name: [d for d in listed if d in pairs] for name, listed in pairs.items()}


def theorem_crates(table):
    """The crates without a function, and all that they stand on, lowest first."""
    wanted = []

    def visit(crate):
        for below in table[crate]:
            visit(below)
        if crate not in wanted:
            wanted.append(crate)

    for crate in table:
        if not any(re.search(r"\bfn \w", mutants.code_only(p.read_text(encoding="utf-8"))) for p in mutants.source_files(crate)):
            visit(crate)
    return wanted


def without_code(text):
    """The source without its functions, what it brings in for them, and their attributes: types and constants stay."""
    kept = []
    inside = None
    for line in text.split("\n"):
        head = re.match(r"( *)(?:(?:pub )?(?:extern \"C\" )?fn \w|impl\b.* for \w.*\{$)", line)  # a trait's functions go with their block
        if inside is None and head:
            inside = head.group(1)
        if inside is None:
            kept.append(line)
        elif line == inside + "}":
            inside = None
    return "\n".join(line for line in kept if not re.match(r"ghost use |use [\w:]+::[a-z]\w*;|#\[", line))


def copy_theorems(folder, table, crates):
    for crate in crates:
        shutil.copytree(ROOT / "crates" / crate / "src", folder / "crates" / crate / "src")
        for part in ("specs", "proofs"):
            for path in (ROOT / "crates" / crate / part).glob("*.antt"):  # right in it: what stands deeper proves a function
                to = folder / "crates" / crate / part
                to.mkdir(exist_ok=True)
                shutil.copy(path, to)
        for path in (folder / "crates" / crate / "src").glob("*.rt"):
            path.write_text(without_code(path.read_text(encoding="utf-8")), encoding="utf-8")
    (folder / "crates.txt").write_text("".join(f"{c}: {' '.join(table[c])}\n" for c in crates), encoding="utf-8")


def check(folder):
    done = subprocess.run(["rt", "all", "check"], cwd=folder, stdout=subprocess.PIPE, stderr=subprocess.STDOUT, text=True, errors="replace")
    return done.returncode, done.stdout


def plant(edit, folder):
    """Plants the definition and mends the proofs; what could not be done, or nothing."""
    crate = file = old = None
    mends, missing = False, []
    for line in edit.read_text(encoding="utf-8").splitlines():
        word, _, rest = line.replace("\\n", "\n").partition(": ")
        if word == "crate":
            crate = rest
        elif word in ("file", "mend"):
            file, mends = folder / "crates" / crate / rest, word == "mend"
        elif word == "old":
            old = rest
        elif word == "new":
            text = file.read_text(encoding="utf-8")
            if text.count(old) == 1:
                file.write_text(text.replace(old, rest), encoding="utf-8")
            else:
                missing.append(f"{'a mend' if mends else 'the plant'} does not apply: its old text is in {crate}/{file.name} {text.count(old)} times")
    return missing


def failures(log):
    """crate, file:line, declaration and words of each fault, but for those that only wait for another. A line `== NAME` stands above what is said of a crate."""
    found, crate = [], ""
    for line in log.splitlines():
        crate = line[3:] if line.startswith("== ") else crate
        fault = re.match(r"(?:\./)?((?:specs|proofs)/\w+\.antt:\d+):\d+: error: (?:`([^`]+)`: )?(.*)", line)
        if fault and not re.search(r"was not admitted|was not checked|were not checked", line):
            found.append((crate, fault.group(1), fault.group(2) or "", fault.group(3)[:160]))
    return found


def main():
    words = argparse.ArgumentParser(description=__doc__, formatter_class=argparse.RawDescriptionHelpFormatter)
    words.add_argument("names", nargs="*")
    words.add_argument("--logs", type=pathlib.Path)
    given = words.parse_args()
    table = dependencies()
    crates = theorem_crates(table)
    edits = [e for e in sorted((ROOT / "tools" / "plants").glob("*.edit")) if not given.names or e.stem in given.names]
    survivors = []
    with tempfile.TemporaryDirectory() as place:
        whole = pathlib.Path(place) / "whole"
        copy_theorems(whole, table, crates)
        status, log = check(whole)
        if status:
            sys.exit(f"{log}\nthe theorems are not proved as they stand: nothing can be asked")
        print(f"asked: {' '.join(crates)}", flush=True)
        for edit in edits:
            copy = pathlib.Path(place) / "planted"
            shutil.copytree(whole, copy)
            missing = plant(edit, copy)
            status, log = check(copy)
            shutil.rmtree(copy)
            if given.logs:
                given.logs.mkdir(parents=True, exist_ok=True)
                (given.logs / f"{edit.stem}.log").write_text(log, encoding="utf-8")
            if status == 0:
                survivors.append(edit.stem)
            print(f"{edit.stem}: {'refused' if status else 'SURVIVED'}", flush=True)
            for line in missing + [f"{crate}/{where} {name}: {said}" for crate, where, name, said in failures(log)[:4]]:
                print(f"    {line}", flush=True)
    print(f"{len(edits)} planted, {len(edits) - len(survivors)} refused, {len(survivors)} survived: {' '.join(survivors)}")


if __name__ == "__main__":
    main()
