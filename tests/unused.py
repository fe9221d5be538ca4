#!/usr/bin/env python3
"""Nothing stands in the crates that nothing uses: every name that a file brings in by `use` is read in it, and every definition, law and
function is read somewhere else in the crates, or is a theorem that docs/STATEMENTS.md names, a field of a record, or a worked example. In the files of a
function's proof, Answers.antt and Invariants.antt, what answers a goal is read by the check; what stands beside it to help has to be read too.

It compares words, not meanings: a word that stands anywhere in the code counts as read, and so does a trait of std whose method is called. What the check writes, out/, is left out."""
import collections
import pathlib
import re
import sys

ROOT = pathlib.Path(__file__).resolve().parent.parent
USE = re.compile(r"^(?:ghost )?use ([^{;\n]+?)(?:\.?\{([^}]*)\}|(?: as (\S+?)))?;?$", re.M)
WORD = re.compile(r"\[\]|[^\s(){}\[\];,.⌜⌝«»]+")
RECORD = re.compile(r"^( *)(?:pub )?record .*where\n((?:\1  .*\n|\n)*)", re.M)
EXAMPLES = {"Examples.antt", "Premises.antt"}
PROOFS = {"Answers.antt", "Invariants.antt"}
ANSWER = re.compile(r"^(?:abbrev )?pub ([^\s:()]+) : (?:\([^()]*\) → )*goal\.(?:[\w·-]+\.)*\1(?!\S)", re.M)
# traits of std that the code brings in for their methods
METHODS = {"Read": "read|read_to_end|take", "Write": "write|write_all|flush", "OpenOptionsExt": "mode", "PermissionsExt": "mode|from_mode"}
DEFINED = {
    ".antt": re.compile(r"^ *(?:abbrev |unfoldable )?(?:pub )?([^\s:()]+) :(?= |$)", re.M),
    ".rt": re.compile(r"^ *(?:pub )?(?:fn|const|struct|enum) (\w+)", re.M),
}


def parts(name):
    """The words that a name is read by: those of an operator, as ◌+◌, stand apart."""
    return [part for part in name.split("◌") if part]


class Source:
    def __init__(self, path):
        text = re.sub(r"(?:--|//).*$", "", path.read_text(encoding="utf-8"), flags=re.M)
        self.path, self.suffix = path, path.suffix
        self.code = USE.sub("", text)
        self.words = collections.Counter(WORD.findall(self.code) if self.suffix == ".antt" else re.findall(r"\[\]|[\w·]+(?:-[\w·]+)*|[^\w\s]+", self.code))
        self.brought = []
        for found in USE.finditer(text):
            listed, renamed = found.group(2), found.group(3)
            if listed is not None:
                self.brought += [name.split(" as ")[-1].strip().strip("«»") for name in listed.split(",") if name.strip()]
            else:
                self.brought.append(renamed or re.split(r"::|\.", found.group(1))[-1])

    def unread(self):
        """The names that are brought in and not read."""
        return [name for name in self.brought if name not in self.words and not all(part in self.words for part in parts(name)) and not self.called(name)]

    def called(self, trait):
        return self.suffix == ".rt" and trait in METHODS and re.search(rf"(?:\.|::)(?:{METHODS[trait]})\(", self.code)

    def defined(self):
        """The names it defines; a record's fields are no definitions, and an answer to a goal has its name from there."""
        answers = set(ANSWER.findall(self.code)) if self.path.name in PROOFS else set()
        return sorted(set(DEFINED[self.suffix].findall(RECORD.sub("", self.code))) - answers)

    def own(self, name):
        """How often the word stands where it is defined: the signature, and the front of each clause."""
        word = re.escape(name)
        if self.suffix == ".rt":
            return len(re.findall(rf"\b(?:fn|const|struct|enum) {word}\b", self.code))
        return len(re.findall(rf"^ *(?:(?:abbrev |unfoldable )?(?:pub )?{word} :(?= |$)|{word}(?: (?:(?!\b(?:in|let) |:)[^\n])*)? =(?= |$))", self.code, re.M))


def main():
    listed = (ROOT / "docs" / "STATEMENTS.md").read_text(encoding="utf-8")
    sources = [Source(path) for path in sorted((ROOT / "crates").glob("*/*/**/*")) if path.suffix in DEFINED and path.relative_to(ROOT).parts[2] != "out"]
    words = collections.Counter()
    for source in sources:
        words.update(source.words)
    faults = []
    for source in sources:
        place = source.path.relative_to(ROOT)
        faults += [f"{place}: {name} is brought in and not read" for name in source.unread()]
        if source.path.name in EXAMPLES:
            continue
        for name in source.defined():
            theorem = re.search(rf"(?<![\w-]){re.escape(name)}(?![\w-])", listed)
            if words[name] <= source.own(name) and name != "main" and not theorem:
                faults.append(f"{place}: nothing reads {name}")
    print("\n".join(faults) or f"{len(sources)} files: nothing that is not read")
    sys.exit(bool(faults))


if __name__ == "__main__":
    main()
