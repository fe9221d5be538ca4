#!/usr/bin/env python3
"""The levels of the crates, drawn from crates.txt into docs/ARCHITECTURE.md.

tools/architecture.py           writes the drawing between its two marks
tools/architecture.py --check   exits with 1 if the drawing is not that of crates.txt, or if a crate lists one that it does not name

A crate's level is one more than the highest level among the crates that it uses. The drawing shows of each crate only what it stands on directly:
a crate that it uses too, but that stands below one of these, is left out (crates.txt has all)."""
import pathlib
import re
import sys

ROOT = pathlib.Path(__file__).resolve().parent.parent
PAGE = ROOT / "docs/ARCHITECTURE.md"
BEGIN = "<!-- levels: written by tools/architecture.py -->"
END = "<!-- levels: end -->"


def uses():
    """crate -> what crates.txt lists for it"""
    lines = (ROOT / "crates.txt").read_text().splitlines()
    pairs = [line.split("#")[0].split(":") for line in lines if ":" in line.split("#")[0]]
    return {name.split()[0]: listed.split() for name, listed in pairs}  # behind the name its kind may stand, as staticlib


def named_in(crate):
    """the crates that the files of a crate name: `Rattle.NAME.specs` and `Rattle.NAME.proofs` in definitions, proofs and contracts, `NAME::` in code; not in comments, nor in what the check left in out/"""
    names, top = set(), ROOT / "crates" / crate
    for path in sorted(top.rglob("*")):
        if path.suffix not in (".antt", ".rt") or path.relative_to(top).parts[0] == "out":
            continue
        text = re.sub(r"(?m)--.*$" if path.suffix == ".antt" else r"(?m)//.*$", "", path.read_text(encoding="utf-8"))
        names.update(re.findall(r"\bRattle\.(\w+)\.(?:specs|proofs)\b", text))
        if path.suffix == ".rt":
            names.update(re.findall(r"(?<![\w:.])(\w+)::", text))
    return names


def below(crate, table, known):
    """every crate of the repository that stands somewhere below this one"""
    if crate not in known:
        own = [d for d in table[crate] if d in table]
        known[crate] = set(own).union(*(below(d, table, known) for d in own))
    return known[crate]


def drawing(table):
    known, level = {}, {}

    def level_of(crate):
        if crate not in level:
            level[crate] = 1 + max([level_of(d) for d in table[crate] if d in table], default=0)
        return level[crate]

    rows = []
    for crate in sorted(table, key=lambda c: (-level_of(c), c)):
        own = [d for d in table[crate] if d in table]
        direct = [d for d in own if not any(d in below(e, table, known) for e in own)]
        rows.append((level_of(crate), crate, ", ".join(sorted(direct)) or "nothing"))
    width = max(len(crate) for _, crate, _ in rows)
    out, last = [BEGIN, "```"], None
    for number, crate, direct in rows:
        mark = f"{number:2}" if number != last else "  "
        if last is not None and number != last:
            out.append("")
        out.append(f"{mark}  {crate:{width}}  on {direct}")
        last = number
    return "\n".join(out + ["```", END])


def main():
    table = uses()
    page = PAGE.read_text()
    start, stop = page.find(BEGIN), page.find(END)
    if start < 0 or stop < 0:
        sys.exit(f"docs/ARCHITECTURE.md lacks the marks {BEGIN} and {END}")
    new = page[:start] + drawing(table) + page[stop + len(END):]
    if "--check" not in sys.argv:
        PAGE.write_text(new)
        return
    faults = [f"crates.txt: {crate} lists {listed} and names it nowhere" for crate in table for listed in set(table[crate]) & set(table) - named_in(crate)]
    if new != page:
        faults.append("docs/ARCHITECTURE.md: the drawing is not that of crates.txt; run tools/architecture.py")
    print("\n".join(faults) or f"{len(table)} crates list what they name, and the drawing is theirs")
    sys.exit(1 if faults else 0)


if __name__ == "__main__":
    main()
