#!/usr/bin/env python3
"""Brings the repository's own names to today's spelling, once, behind the kit's port.py: words in snake case.

usage: tools/respell.py [ROOT]     (rewrites crates/, the documents and the tests' tables below ROOT, in place)

Every definition, lemma, field, constructor and bound variable of the proof files whose name has a capital inside, as `sweptIn`, gets the
name `swept_in`. Modules, types and facts keep their capitals, as do strings, exported C names and the functions of src/. Where the new
name stood already for something else in the same file, that other name goes first (BEFORE). The crate `json` shares its name with a
library of the kit and becomes `json_grammar`; the module json_reader's `Contracts` becomes `Promises`, since Rattle makes one of that name.
"""

import os
import re
import sys

# (files, the name that stands there, its new name): taken out of the way of a name in snake case
BEFORE = [
    ("crates/tray/specs/", "by_first", "by_first_lem"),
    ("crates/sound_rows/proofs/", "by_place", "by_place_lem"),
    ("crates/rules/specs/Searches.antt", "on_row", "on_row_lem"),
    ("crates/guarantees/specs/FlashPromise.antt", "on_row", "on_row_lem"),
    ("crates/rules/specs/Examples.antt", "on_store", "blob_in_store"),
    ("crates/guarantees/specs/Premises.antt", "on_store", "blob_in_store"),
    ("crates/guarantees/specs/Sessions.antt", "on_store", "blob_in_store"),
    ("crates/guarantees/specs/StorePart.antt", "on_store", "on_store_lem"),
    ("crates/answers/specs/ByName.antt", "open_code", "open_code_lem"),
    ("crates/tray/specs/", "not_sound", "is_not_sound"),
    ("crates/tray/specs/", "too_long", "is_too_long"),
    ("crates/session_row/specs/", "row_words", "words_of_row"),
    ("crates/session_by_id/proofs/", "row_words", "words_of_row"),
    ("crates/session_flash/proofs/", "row_words", "words_of_row"),
    ("crates/session_store/proofs/", "row_words", "words_of_row"),
    ("crates/open_sweep/proofs/", "row_words", "words_of_row"),
    ("crates/state/specs/Agree.antt", "slot_ok", "slot_ok_lem"),
    ("crates/state/specs/Agree.antt", "rows_apart", "apart_rows"),
    ("crates/state/specs/Agree.antt", "names_apart", "apart_names"),
    ("crates/store_guarantees/specs/Accepted.antt", "names_apart", "apart_names"),
    ("crates/scans/specs/Left.antt", "not_found", "is_not_found"),
    ("crates/crc/specs/Rental.antt", "byte_step", "byte_step_lem"),
]
MOVED = [("Rattle.json.", "Rattle.json_grammar."), ("Rattle.json_reader.specs.Contracts", "Rattle.json_reader.specs.Promises")]
TOKEN = re.compile(r"(?<![A-Za-z0-9_'·])(?<![A-Za-z0-9]-)[A-Za-z_][A-Za-z0-9_'·₀-₉-]*")
CAMEL = re.compile(r"[a-z][a-z0-9'₀-₉-]*[A-Z]")
# what holds a name as text: the documents, the tests' tables, the benchmark's proofs
BESIDE = ["README.md", "crates.txt", "docs", "tests/header.py", "bench/lookup/linear.txt", "bench/lookup/linear_proof.txt"]


def snake(name):
    """`sweptIn` as `swept_in`; a dash still joins two names."""
    return re.sub(r"(?<=[a-z0-9'₀-₉])[A-Z]|[A-Z]", lambda m: ("_" if m.start() else "") + m.group().lower(), name)


def below(root, top, ends):
    path = os.path.join(root, top)
    if os.path.isfile(path):
        yield path
    for folder, dirs, files in os.walk(path):
        dirs[:] = sorted(d for d in dirs if d not in ("out", ".git"))
        for f in sorted(files):
            if f.endswith(ends):
                yield os.path.join(folder, f)


def read(path):
    with open(path, encoding="utf-8") as f:
        return f.read()


def write(path, text):
    with open(path, "w", encoding="utf-8") as f:
        f.write(text)


def renamed(text, names):
    return TOKEN.sub(lambda m: names.get(m.group(), m.group()), text)


def names_of(paths):
    """The names with a capital inside that stand in proof files, outside comments, each with its new spelling."""
    found = {}
    for p in paths:
        for m in TOKEN.finditer(re.sub(r"--.*", "", read(p))):
            if CAMEL.match(m.group()):
                found[m.group()] = snake(m.group())
    return found


def clashes(paths, names):
    """New names that stood in the same proof file for something else."""
    said = []
    for p in paths:
        here = set(TOKEN.findall(re.sub(r"--.*", "", read(p))))
        said += [f"{p}: {n} and {names[n]}" for n in sorted(here) if n in names and names[n] in here and f".{names[n]}" not in read(p)]
    return said


def main(root="."):
    crates = os.path.join(root, "crates")
    if os.path.isdir(os.path.join(crates, "json")):
        os.rename(os.path.join(crates, "json"), os.path.join(crates, "json_grammar"))
        os.rename(os.path.join(crates, "json_reader/specs/Contracts.antt"), os.path.join(crates, "json_reader/specs/Promises.antt"))
        lib = os.path.join(crates, "json_reader/specs/Lib.antt")
        write(lib, read(lib).replace("pub mod Contracts", "pub mod Promises"))
        lines = os.path.join(root, "crates.txt")
        write(lines, re.sub(r"(?m)(?<=[\s:])json(?=\s|$)|^json(?=:)", "json_grammar", read(lines)))
    proofs = list(below(root, "crates", (".antt",)))
    sources = list(below(root, "crates", (".rt",)))
    for where, old, new in BEFORE:
        for p in proofs:
            if os.path.relpath(p, root).startswith(where):
                write(p, renamed(read(p), {old: new}))
    for p in proofs + sources:
        text = read(p)
        for old, new in MOVED:
            text = text.replace(old, new)
        text = re.sub(r"(?<![\w.])json::", "json_grammar::", text)
        write(p, text)
    names = names_of(proofs)
    names = {a: b for a, b in names.items() if not re.search(r"_[A-Z]", a)}
    for line in clashes(proofs, names):
        print("look: " + line)
    for p in proofs + sources + [p for top in BESIDE for p in below(root, top, (".md", ".py", ".txt"))]:
        text = read(p)
        turned = renamed(text, names)
        if turned != text:
            write(p, turned)
    print(f"respell: {len(names)} names")


if __name__ == "__main__":
    main(*sys.argv[1:])
