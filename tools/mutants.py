#!/usr/bin/env python3
"""Plants random edits in the bodies of proved functions, asks the prover about each, and lists those that it lets through.

tools/mutants.py SEED COUNT [--crate NAME..] [--jobs N] [--timeout SECONDS] [--logs FOLDER] [--list]

A must-fail edit tries one wrong answer that somebody thought of; this tries those that nobody did. Each edit keeps the shape of the code: one operator, number, constant,
field or variable becomes another of the same kind. Contracts are never touched, and a function without one (the programs' printing) is left out: nothing is claimed of it.
A crate is asked alone, in a copy of the repository outside it, and the same seed gives the same edits on the same tree. The verdicts:
  refused    a fact of the contract, or one that the code needs, is no longer proved
  survived   the crate is still proved: either the new code does the same, or the contract says too little; read each
Three more are not counted, and another edit is asked in their place, so that COUNT are judged:
  not asked  the edited code does not compile
  unfit      the edit changes which facts are to be proved (an overflow of * for one of +), so that the proof names one that is gone: no fact was judged
  undecided  the prover gave up, or the time ran out
--list prints the first COUNT edits and asks nothing. It is not part of the gate."""
import argparse
import collections
import concurrent.futures
import os
import pathlib
import random
import re
import shutil
import signal
import subprocess
import sys
import tempfile
import threading
import time

ROOT = pathlib.Path(__file__).resolve().parent.parent
OPERATORS = {"<": "<=", "<=": "<", ">": ">=", ">=": ">", "==": "!=", "!=": "==", "+": "-", "-": "+", "*": "+", "/": "%", "%": "/", "&": "|", "|": "&", "^": "|",
             "<<": ">>", ">>": "<<", "+=": "-=", "-=": "+="}
Edit = collections.namedtuple("Edit", "crate file start end new kind")
Body = collections.namedtuple("Body", "start end types")  # its place in the text, and the types of what it names


def code_only(text):
    """The text with comments, strings and contract clauses blanked, every character in its place."""
    hidden = r"//[^\n]*|b?\"(?:\\.|[^\"\\])*\"|b?'(?:\\.|[^'\\])'|(?m:^ *(?:requires|ensures|invariant|ghost)\b[^\n]*)"
    return re.sub(hidden, lambda found: re.sub(r"[^\n]", " ", found.group()), text)


def source_files(crate):
    return sorted((ROOT / "crates" / crate / "src").glob("*.rt"))


def listed_crates():
    lines = (ROOT / "crates.txt").read_text(encoding="utf-8").splitlines()
    return [line.split(":")[0].split()[0] for line in lines if ":" in line.split("#")[0]]


def kind_groups(texts):
    """For `Type::NAME` and for a field: the others of its type. For a constant: its type."""
    members, fields, constants = {}, {}, {}
    for text in texts:
        for name, inner in re.findall(r"impl (\w+) \{\n(.*?)\n\}", text, re.S):
            found = re.findall(r"pub const (\w+): (\w+) =", inner)
            for kind in {k for _, k in found}:
                group = [f"{name}::{n}" for n, k in found if k == kind]
                members.update({one: group for one in group})
        for name, inner in re.findall(r"enum (\w+) \{\n(.*?)\n\}", text, re.S):
            group = [f"{name}::{n}" for n in re.findall(r"(?m)^    (\w+),$", inner)]
            members.update({one: group for one in group})
        for inner in re.findall(r"struct \w+ \{\n(.*?)\n\}", text, re.S):
            found = re.findall(r"(?m)^    (?:pub )?(\w+): (.+),$", inner)
            for name, kind in found:
                fields.setdefault(name, set()).update(n for n, k in found if k == kind)
        constants.update(re.findall(r"(?m)^(?:pub )?const (\w+): ([^=]+) =", text))
    return members, fields, constants


def variable_types(parameters, body):
    """name -> type, for what the function is given and what it names; a type that the text does not show is `let`."""
    types = {name: re.sub(r"'\w+ ", "", kind) for name, kind in re.findall(r"(\w+): ([^,()]+)", parameters)}
    for name, kind, value in re.findall(r"\blet (?:mut )?(\w+)(?:: (\w+))? = ([^;]*);", body):
        cast = re.search(r" as (\w+)$", value)
        types[name] = kind or (cast.group(1) if cast else "usize" if value.endswith(".len()") else "let")
    types.update({name: "usize" for name in re.findall(r"\bfor (\w+) in ", body)})
    return types


def bodies(text):
    """The body of each function that has a contract."""
    code = code_only(text)
    for head in re.finditer(r"(?m)^( *)(?:pub )?(?:extern \"C\" )?fn (\w+)", text):
        opened = re.compile(rf"\n{head.group(1)}\{{\n").search(text, head.end())
        if not opened or head.group(2) == "main":
            continue
        contract = text[head.end():opened.start()]
        if not re.search(r"\bensures\b", contract) or re.search(r"\n *(?:pub )?fn ", contract):
            continue
        end = re.compile(rf"\n{head.group(1)}\}}").search(text, opened.end() - 1).start()
        parameters = contract[:re.search(r"\) *(?:->|\n|$)", contract).start()]
        yield Body(opened.end(), end, variable_types(parameters, code[opened.end():end]))


def sites(text, groups):
    """(kind, start, end, replacements) of each place of each body."""
    members, fields, constants = groups
    code = code_only(text)
    brought = [name for line in re.findall(r"(?m)^use [^;]+;", text) for name in re.findall(r"\b[A-Z][A-Z_]+\b", line)]
    own = {name for name in brought + re.findall(r"(?m)^(?:pub )?const ([A-Z_]+):", text) if name in constants}
    for body in bodies(text):
        def found(pattern):
            return re.compile(pattern).finditer(code, body.start, body.end)
        for m in found(r"(?<= )(<=|>=|<<|>>|==|!=|\+=|-=|[<>+\-*/%&|^])(?= )"):
            yield "operator", m.start(), m.end(), [OPERATORS[m.group()]]
        for m in found(r"\b(true|false)\b"):
            yield "operator", m.start(), m.end(), ["false" if m.group() == "true" else "true"]
        for m in found(r"(?<![\w.])(0x[0-9A-F]+|\d+)(?=(?:u8|u16|u32|u64|usize)?\b)"):
            n, form = int(m.group(), 0), "0x{:02X}" if m.group().startswith("0x") else "{}"
            yield "number", m.start(), m.end(), [form.format(k) for k in (n + 1, n - 1) if k >= 0]
        for m in found(r"\b[A-Z]\w*::[A-Z]\w*\b(?! *[({])"):
            yield "constant", m.start(), m.end(), [x for x in members.get(m.group(), []) if x != m.group()]
        for m in found(r"(?<![\w:])[A-Z][A-Z_]+\b(?!::)"):
            kind = constants.get(m.group())
            yield "constant", m.start(), m.end(), sorted(x for x in own if constants[x] == kind and x != m.group())
        for m in found(r"(?<=\w\.)[a-z]\w*\b(?!\()"):
            yield "field", m.start(), m.end(), sorted(fields.get(m.group(), set()) - {m.group()})
        for m in found(r"(?<![\w.:])[a-z]\w*\b(?! *[(:]|!)"):
            kind = body.types.get(m.group())
            named = re.search(r"(?:let |mut |for )$", code[:m.start()])
            others = sorted(x for x, k in body.types.items() if k == kind and x != m.group())
            yield "variable", m.start(), m.end(), [] if kind is None or named else others


def draw(seed, crates):
    """The edits, in the order in which they are asked: one of each crate first, then a crate by the size of its bodies; of a crate a kind, of a kind a place."""
    chance = random.Random(seed)
    groups = kind_groups([p.read_text(encoding="utf-8") for c in listed_crates() for p in source_files(c)])
    places, weight = {}, {}
    for crate in crates:
        for path in source_files(crate):
            text = path.read_text(encoding="utf-8")
            weight[crate] = weight.get(crate, 0) + sum(text.count("\n", b.start, b.end) for b in bodies(text))
            for kind, start, end, others in sites(text, groups):
                if others:
                    places.setdefault(crate, {}).setdefault(kind, []).append((path.name, start, end, others))
    seen, first = set(), sorted(places)
    chance.shuffle(first)
    names, weights = list(places), [weight[c] for c in places]
    misses = 0
    while names and misses < 10000:
        crate = first.pop() if first else chance.choices(names, weights)[0]
        kind = chance.choice(sorted(places[crate]))
        file, start, end, others = chance.choice(places[crate][kind])
        edit = Edit(crate, file, start, end, chance.choice(others), kind)
        misses = misses + 1 if edit in seen else 0
        if edit not in seen:
            seen.add(edit)
            yield edit


def planted(text, edit):
    return text[:edit.start] + edit.new + text[edit.end:]


def shown(edit):
    """Where it is, the line as it is, and as it becomes."""
    text = (ROOT / "crates" / edit.crate / "src" / edit.file).read_text(encoding="utf-8")
    number = text.count("\n", 0, edit.start)
    old, new = (one.split("\n")[number].strip() for one in (text, planted(text, edit)))
    return f"{edit.crate}/src/{edit.file}:{number + 1} ({edit.kind})\n    old: {old}\n    new: {new}"


class Room:
    """A copy of the repository outside it, in which one edit at a time is planted and asked. What was proved already rt takes from where it was proved, on this machine."""

    def __init__(self, folder, timeout):
        self.root, self.timeout, self.proved = pathlib.Path(folder), timeout, set()
        shutil.copytree(ROOT / "crates", self.root / "crates", ignore=shutil.ignore_patterns("must-fail", "out"))
        for name in ("crates.txt", "HANDLES"):
            if (ROOT / name).is_file():
                shutil.copy(ROOT / name, self.root)

    def check(self, crate, verb="check"):
        """What the prover says of the crate as it stands here: a word, and the log."""
        child = subprocess.Popen(["rt", verb, "--jobs", "1"], cwd=self.root / "crates" / crate, stdin=subprocess.DEVNULL, stdout=subprocess.PIPE, stderr=subprocess.STDOUT, text=True,
                                 errors="replace", start_new_session=True)
        try:
            log, _ = child.communicate(timeout=self.timeout)
        except subprocess.TimeoutExpired:
            os.killpg(child.pid, signal.SIGKILL)
            return "undecided", child.communicate()[0] + "the time ran out\n"
        if child.returncode == 0:
            return "survived", log
        if not re.search(r"(?m)^logic=not-proved", log):
            return "undecided" if child.returncode == 3 else "not asked", log
        told = re.findall(r"(?m)^(?:note: \S+:\d+:\d+:|\S+:\d+:\d+: error).*$", log)
        gone = r"(?:note: )?(?:\./)?proofs/.*(?:has no field|is not in scope|has no `|was not admitted)"
        return "unfit" if told and all(re.match(gone, line) for line in told) else "refused", log

    def ask(self, edit):
        path = self.root / "crates" / edit.crate / "src" / edit.file
        text = path.read_text(encoding="utf-8")
        if edit.crate not in self.proved and self.check(edit.crate)[0] != "survived":
            sys.exit(f"{edit.crate} is not proved as it stands: nothing can be asked of it")
        self.proved.add(edit.crate)
        path.write_text(planted(text, edit), encoding="utf-8")
        verdict, log = self.check(edit.crate)
        if verdict == "survived":
            verdict, log = self.check(edit.crate, "verdict")  # from nothing: no earlier check is trusted for a survivor
        path.write_text(text, encoding="utf-8")
        return verdict, log


def judge(edits, count, rooms, logs):
    """Asks until COUNT are judged; which ones does not depend on how many are asked at a time."""
    results, judged, lock = [], 0, threading.Lock()

    def one(edit):
        with lock:
            room = rooms.pop()
        began = time.time()
        verdict, log = room.ask(edit)
        with lock:
            rooms.append(room)
        return verdict, log, time.time() - began

    with concurrent.futures.ThreadPoolExecutor(len(rooms)) as pool:
        while judged < count:
            wave = [edit for edit, _ in zip(edits, range(count - judged))]
            if not wave:
                break
            for edit, (verdict, log, seconds) in zip(wave, pool.map(one, wave)):
                judged += verdict in ("refused", "survived")
                results.append((verdict, edit))
                print(f"{len(results)} {verdict} ({seconds:.0f} s) {shown(edit)}", flush=True)
                if logs:
                    (logs / f"{len(results):04}-{verdict.replace(' ', '-')}-{edit.crate}.log").write_text(shown(edit) + "\n" + log, encoding="utf-8")
    return results


def main():
    words = argparse.ArgumentParser(description=__doc__, formatter_class=argparse.RawDescriptionHelpFormatter)
    words.add_argument("seed", type=int)
    words.add_argument("count", type=int)
    words.add_argument("--crate", nargs="+", default=listed_crates())
    words.add_argument("--jobs", type=int, default=1)
    words.add_argument("--timeout", type=int, default=900)
    words.add_argument("--logs", type=pathlib.Path)
    words.add_argument("--list", action="store_true")
    given = words.parse_args()
    edits = draw(given.seed, given.crate)
    if given.list:
        for edit, _ in zip(edits, range(given.count)):
            print(shown(edit))
        return
    if given.logs:
        given.logs.mkdir(parents=True, exist_ok=True)
    with tempfile.TemporaryDirectory() as folder:
        rooms = [Room(pathlib.Path(folder) / str(i), given.timeout) for i in range(given.jobs)]
        results = judge(edits, given.count, rooms, given.logs)
    told = collections.Counter(verdict for verdict, _ in results)
    print("\nsurvived:" if told["survived"] else "\nnone survived")
    for verdict, edit in results:
        if verdict == "survived":
            print(shown(edit))
    print(f"\n{told['refused'] + told['survived']} judged: {told['refused']} refused, {told['survived']} survived;",
          f"besides, {told['not asked']} not asked (no compilable code), {told['unfit']} unfit, {told['undecided']} undecided")


if __name__ == "__main__":
    main()
