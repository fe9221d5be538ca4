#!/usr/bin/env python3
"""docs/PROTOCOL.md and the repository agree: every rule that is cited exists, every rule but those of section 21, the theorems, is cited in a comment of a crate's specs or theorems, and every
definition or theorem that a rule names exists, in a crate's specs/ or right in its proofs/, and cites that rule in its comment, the nearest one above it. What the check writes, out/, is left out.

Citations are `rule 9.4`, `rules 9.4 and 9.5`, `rules 9.4, 9.6 and 9.8`, `rules 9.4-9.6`; they may run over a line's end."""
import pathlib
import re
import sys

ROOT = pathlib.Path(__file__).resolve().parent.parent
PROTOCOL = ROOT / "docs" / "PROTOCOL.md"
KINDS = {".antt", ".rt", ".rs", ".md", ".py", ".c", ".h", ".sh", ".edit"}
THEOREMS = 21
RULE = re.compile(r"^(?:\| )?\*\*(\d+\.\d+)\*\*", re.M)
NAMED = re.compile(r"`([A-Z]\w*)\.([\w-]+)`(?=[,)])")
CITED = re.compile(r"\brules?\s+(\d+\.\d+(?:(?:\s+to\s+|-|,?\s+and\s+|,\s+)\d+\.\d+)*)", re.I)
RANGE = re.compile(r"(\d+)\.(\d+)(?:-|\s+to\s+)(\d+)\.(\d+)")
MARK = re.compile(r"\n[ \t]*(?:--|//[/!]?|#)")


def expanded(cited):
    """The rules of a citation, those between the ends of a range included."""
    rules = set(re.findall(r"\d+\.\d+", cited))
    for section, first, same, last in RANGE.findall(cited):
        rules.update(f"{section}.{at}" for at in range(int(first), int(last) + 1) if section == same)
    return rules


def citations(text):
    """(line, rules) of each citation."""
    text = MARK.sub(lambda mark: "\n" + " " * (len(mark.group()) - 1), "\n" + text)
    return [(text.count("\n", 0, found.start()), expanded(found.group(1))) for found in CITED.finditer(text)]


def cited_in(text):
    return set().union(*(rules for _, rules in citations(text)))


def rules_of(text):
    """(rule, line, (file, name) of its definitions) of each rule."""
    starts = list(RULE.finditer(text))
    ends = [start.start() for start in starts[1:]] + [len(text)]
    return [(start.group(1), text.count("\n", 0, start.start()) + 1, NAMED.findall(text, start.start(), end)) for start, end in zip(starts, ends)]


def written(path):
    """A file that people wrote: nothing that was built, and nothing that the check left."""
    parts = path.relative_to(ROOT).parts
    return parts[0] not in ("target", ".git") and not (parts[0] == "crates" and parts[2:3] == ("out",))


def comments(text):
    return "\n".join(line for line in text.split("\n") if line.lstrip().startswith("--"))


def comment_of(text, name):
    """The comment of a definition, None where there is no such definition."""
    word = re.escape(name)
    found = re.search(rf"^ *(?:(?:abbrev |unfoldable )?(?:pub )?{word} :|(?:pub )?(?:data|record) {word} )", text, re.M)
    if not found:
        return None
    above = re.findall(r"(?:^ *--.*\n)+", text[:found.start()], re.M)
    return above[-1] if above else ""


def main():
    protocol = PROTOCOL.read_text(encoding="utf-8")
    rules = rules_of(protocol)
    known = [rule for rule, _, _ in rules]
    specs = {path: path.read_text(encoding="utf-8") for folder in ("specs", "proofs") for path in sorted(ROOT.glob(f"crates/*/{folder}/*.antt"))}
    faults = [f"docs/PROTOCOL.md: rule {rule} stands twice" for rule in sorted(set(known)) if known.count(rule) > 1]
    count = 0
    for path in sorted(path for path in ROOT.rglob("*") if path.suffix in KINDS and written(path) and path.is_file()):
        for line, cited in citations(path.read_text(encoding="utf-8")):
            count += 1
            faults += [f"{path.relative_to(ROOT)}:{line}: there is no rule {rule}" for rule in sorted(cited - set(known))]
    carried = cited_in("\n".join(comments(text) for text in specs.values()))
    for rule, line, named in rules:
        place = f"docs/PROTOCOL.md:{line}: rule {rule}"
        if int(rule.split(".")[0]) != THEOREMS and rule not in carried:
            faults.append(f"{place}: no comment of a crate's specs or theorems cites it")
        if not named:
            faults.append(f"{place}: names no definition")
        for file, name in named:
            found = [comment for path, text in specs.items() if path.stem == file for comment in [comment_of(text, name)] if comment is not None]
            if not found:
                faults.append(f"{place}: {file}.{name} is not defined")
            elif not any(rule in cited_in(comment) for comment in found):
                faults.append(f"{place}: the comment of {file}.{name} does not cite it")
    print("\n".join(faults) or f"{len(rules)} rules, {count} citations: each cited rule exists, each rule is cited by its definitions")
    sys.exit(bool(faults))


if __name__ == "__main__":
    main()
