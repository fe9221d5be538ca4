#!/usr/bin/env python3
"""Every public function has a statement that is an equation, and docs/STATEMENTS.md names what is there.

- A public function has an `ensures`, but in a crate that only talks to the system, and stands on the page. Its claims, one in each clause, are equations `x ≡ y`, under any quantifiers, or several joined by ×; a function that claims anything else
  is a row of the page's section "Contracts that are not plain equations", with the reason, and no other function is.
- A public entry has no `requires`. A function that is `pub` only for the repository's other crates may require what soundness and decoding give.
- In a table of the page with a column `edits`, each monospace name there (`label` or `crate/label`) is a must-fail edit that exists. Each public entry, and each theorem of
  the theorem crates that the page names (they stand in specs/ and in proofs/), has such a row: its first cell names it, and at least two of the edits in it are of its own crate. For a C function one of the two may be of the crate that defines what it leaves."""
import pathlib
import re
import sys

ROOT = pathlib.Path(__file__).resolve().parent.parent
PAGE = ROOT / "docs" / "STATEMENTS.md"
ENTRY_CRATES = ("blobs", "capi")
ENTRIES = ("blobs::respond", "blobs::job_outcome", "capi::kramsnep_respond", "capi::kramsnep_job_outcome", "capi::kramsnep_save_part", "capi::kramsnep_load",
           "capi::kramsnep_find_session", "capi::kramsnep_read_config", "capi::kramsnep_tray", "tray_answer::answer_tray", "lookup::find_session", "config_reader::read_config", "store_writer::save_part", "store_loader::load", "run_buffer::run")
THEOREM_CRATES = ("rules", "guarantees", "answers", "effects", "scans", "retries", "store_guarantees", "visits", "json_grammar", "json_walk", "config_answers", "tray", "capi_calls")
DEFINED_IN = {"capi": "capi_calls"}  # where what a crate's functions leave is defined, if edits of that count for them
SYSTEM_CRATES = ("run_store", "system")
EDITS_EACH = 2
OTHER_CLAIMS = "Contracts that are not plain equations"
RECORD = re.compile(r"^( *)(?:pub )?record .*where\n((?:\1  .*\n|\n)*)", re.M)


# ---- the source
def functions(text):
    """(name, contract) of each public function: its source between the name and the body."""
    for found in re.finditer(r"\bpub (?:extern \"C\" )?fn (\w+)", text):
        rest = text[found.end():]
        yield found.group(1), rest[:re.search(r"\n *\{\n| \{\n", rest).start()]


def clauses(kind, contract):
    """How many clauses of this kind a contract has, whatever their form."""
    return len(re.findall(rf"\b{kind}\b", contract))


def claims(contract):
    """What each `ensures` says: a clause is one line, `ensures { .. }` or, where there are two, `ensures name { .. }`."""
    return re.findall(r"(?m)^ *ensures (?:\w+ )?\{ (.*) \},?$", contract)


def split(text, mark):
    """The parts of a claim between the marks that stand in no parenthesis."""
    parts, depth, start = [], 0, 0
    for at, letter in enumerate(text):
        depth += (letter in "({") - (letter in ")}")
        if depth == 0 and text.startswith(mark, at):
            parts.append(text[start:at])
            start = at + len(mark)
    return parts + [text[start:]]


def unwrapped(text):
    """The text without a parenthesis around all of it."""
    text = text.strip()
    whole = text.startswith("(") and all(text[:at].count("(") > text[:at].count(")") for at in range(1, len(text)))
    return unwrapped(text[1:-1]) if whole else text


def is_equation(claim):
    """x ≡ y, or for all of some a claim that is one, or several of them joined by ×."""
    claim = unwrapped(claim)
    if len(split(claim, " × ")) > 1:
        return all(is_equation(part) for part in split(claim, " × "))
    *given, said = split(claim, " → ")
    if given:
        return all(re.fullmatch(r"(?:\([^():]+ : [^()]+\) ?)+", one) for one in given) and is_equation(said)
    return len(split(claim, " ≡ ")) == 2


def theorems():
    """name -> crate, of each theorem of the theorem crates; a record's fields are none."""
    found = {}
    for crate in THEOREM_CRATES:
        for path in sorted(path for folder in ("specs", "proofs") for path in (ROOT / "crates" / crate / folder).glob("*.antt")):
            text = RECORD.sub("", path.read_text(encoding="utf-8"))
            found.update({name: crate for name in re.findall(r"(?m)^ *pub ([^\s:()]+) :", text)})
    return found


def edit_exists(named, crate=None):
    """`label`, of any crate or of this one, or `crate/label`."""
    folder, _, label = named.rpartition("/")
    if crate and folder not in ("", crate):
        return False
    return any((ROOT / "crates").glob(f"{crate or folder or '*'}/must-fail/{label}.edit"))


# ---- the page
def names_in(cell):
    return [name for quoted in re.findall(r"`([^`]+)`", cell) for name in re.split(r", *", quoted)]


def tables(page):
    """(cells, columns) of each row of each table, the header's words as columns."""
    columns = None
    for line in page.splitlines():
        cells = [cell.strip() for cell in re.split(r"(?<!\\)\|", line.strip().strip("|"))] if line.startswith("|") else None
        if cells is None:
            columns = None
        elif columns is None:
            columns = [cell.lower() for cell in cells]
        elif set(line) - set("|-: "):
            yield cells, columns


def edit_rows(page):
    """(first cell, names of edits) of each row of a table that has a column `edits`."""
    return [(cells[0], names_in(cells[columns.index("edits")])) for cells, columns in tables(page) if "edits" in columns and len(cells) == len(columns)]


def other_claims(page):
    """crate::function -> reason, of the section on contracts that are more than equations."""
    section = re.search(rf"(?ms)^#+ {OTHER_CLAIMS}\n(.*?)(?=^#|\Z)", page)
    return {name: cells[1] for cells, _ in tables(section.group(1) if section else "") for name in names_in(cells[0])}


def mentions(cell, name):
    """The cell has the name in monospace: alone, behind its file's name, or in front of its arguments."""
    return re.search(rf"`(?:\w+\.)?{re.escape(name)}(?:\([^`]*)?`", cell)


# ---- the checks
def contract_faults(page):
    faults, seen, reasons = [], [], other_claims(page)
    for path in sorted((ROOT / "crates").glob("*/src/*.rt")):
        crate = path.parent.parent.name
        for name, contract in functions(path.read_text(encoding="utf-8")):
            full = f"{crate}::{name}"
            seen.append(full)
            said = claims(contract)
            plain = all(is_equation(claim) for claim in said)
            if (not said and crate not in SYSTEM_CRATES) or len(said) != clauses("ensures", contract):
                faults.append(f"{full} has no ensures, or one in another form")
            if not plain and not reasons.get(full):
                faults.append(f"{full} claims more than equations, and '{OTHER_CLAIMS}' does not say why")
            if plain and full in reasons:
                faults.append(f"{full} claims equations only, and stands in '{OTHER_CLAIMS}'")
            if (crate in ENTRY_CRATES or full in ENTRIES) and clauses("requires", contract):
                faults.append(f"{full} is a public entry and has a requires")
            if not re.search(rf"(?<!\w){name}(?!\w)", page):
                faults.append(f"{full} is not in docs/STATEMENTS.md")
    faults += [f"{name} is an entry, or stands in '{OTHER_CLAIMS}', and is no public function" for name in sorted({*ENTRIES, *reasons} - set(seen))]
    return faults, len(seen)


def edit_faults(page):
    rows = edit_rows(page)
    faults = [f"docs/STATEMENTS.md names the edit {named}, and there is none" for _, named in rows for named in named if not edit_exists(named)]
    wanted = [(entry.split("::")[1], entry.split("::")[0]) for entry in ENTRIES]
    wanted += [(name, crate) for name, crate in sorted(theorems().items()) if mentions(page, name)]
    for name, crate in wanted:
        edits = [edit for first, named in rows if mentions(first, name) for edit in named]
        own = {edit for edit in edits if edit_exists(edit, crate)}
        counted = own | {edit for edit in edits if edit_exists(edit, DEFINED_IN.get(crate, crate))}
        if not own or len(counted) < EDITS_EACH:
            faults.append(f"{crate}: {name} has {len(counted)} edits in a column `edits` of docs/STATEMENTS.md, {len(own)} of them of its crate: {EDITS_EACH} are wanted")
    return faults, len(wanted)


def main():
    page = PAGE.read_text(encoding="utf-8")
    faults, count = contract_faults(page)
    more, tried = edit_faults(page)
    print("\n".join(faults + more) or f"{count} public functions, each with its statement; {tried} entries and theorems, each with {EDITS_EACH} edits or more")
    sys.exit(bool(faults + more))


if __name__ == "__main__":
    main()
