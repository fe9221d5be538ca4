#!/usr/bin/env python3
"""tools/install.sh puts in place what a C program builds against: it is run into an empty folder, and the C examples are built and run by the flags of the pkg-config file.

install.py --check    needs target/staticlib/libcapi.a (tools/archive.sh) and a C compiler (CC, or cc)

Where pkg-config is not installed, the flags are read from the file here, and a line says so; where it is, both must give the same."""
import os
import pathlib
import re
import shlex
import shutil
import subprocess
import sys
import tempfile

ROOT = pathlib.Path(__file__).resolve().parent.parent
SCRIPT = "tools/install.sh"
ARCHIVE = "target/staticlib/libcapi.a"
EXAMPLE = ROOT / "examples" / "c"


PKG_CONFIG = """prefix={prefix}
includedir=${{prefix}}/include
libdir=${{prefix}}/lib

Name: kramsnep
Description: Verified blob library for IPMI management controllers
Version: {version}
License: Apache-2.0
Cflags: -I${{includedir}}
Libs: -L${{libdir}} -lkramsnep
"""


def expect(what, found, wanted):
    if found != wanted:
        sys.exit(f"{what}:\n  found  {found!r:.400}\n  wanted {wanted!r:.400}")


def run(words, folder, **more):
    return subprocess.run([str(word) for word in words], cwd=folder, capture_output=True, text=True, check=False, **more)


def installed(prefix, folder):
    """Installs into a prefix, given as the script takes it from this folder; gives the three files."""
    done = run([ROOT / SCRIPT, prefix], folder)
    expect(f"install.sh {prefix}", (done.returncode, done.stderr), (0, ""))
    there = sorted(path.relative_to(folder / prefix).as_posix() for path in (folder / prefix).rglob("*") if path.is_file())
    expect("the files", there, ["include/kramsnep.h", "lib/libkramsnep.a", "lib/pkgconfig/kramsnep.pc"])
    return [folder / prefix / name for name in there]


def read_flags(file):
    """The version, and the flags for compiler and linker: lines `name=value`, and lines `Name: value`, in which ${name} stands for the value."""
    values, said = {}, {}
    for line in file.read_text(encoding="utf-8").splitlines():
        name, sign, rest = re.fullmatch(r"(\w*)([=:]?)(.*)", line).groups()
        rest = re.sub(r"\$\{(\w+)\}", lambda used: values[used.group(1)], rest.strip())
        (values if sign == "=" else said)[name] = rest
    return said["Version"], shlex.split(said["Cflags"]) + shlex.split(said["Libs"])


def flags(file):
    version, words = read_flags(file)
    program = os.environ.get("PKG_CONFIG", "pkg-config")
    if not shutil.which(program):
        print("install: pkg-config is not installed, so kramsnep.pc was read by this test alone")
        return version, words
    told = [run([program, *asked, "kramsnep"], ROOT, env={**os.environ, "PKG_CONFIG_PATH": str(file.parent)}).stdout for asked in (["--modversion"], ["--cflags", "--libs"])]
    expect("pkg-config and the file", (told[0].strip(), shlex.split(told[1])), (version, words))
    return version, words


def in_place(folder):
    """Header and archive are those of this tree, readable for all; the version is the header's."""
    header, archive, file = installed("usr/local", folder)
    expect("the header", header.read_bytes(), (ROOT / "include" / "kramsnep.h").read_bytes())
    expect("the archive", archive.read_bytes() == (ROOT / ARCHIVE).read_bytes(), True)
    expect("their modes", {oct(path.stat().st_mode & 0o777) for path in (header, archive, file)}, {"0o644"})
    version, words = flags(file)
    expect("the version", f'#define KRAMSNEP_VERSION "{version}"' in header.read_text(encoding="ascii"), True)
    prefix = folder / "usr/local"
    expect("the pkg-config file", file.read_text(encoding="ascii"), PKG_CONFIG.format(prefix=prefix, version=version))
    expect("the flags", words, [f"-I{header.parent}", f"-L{archive.parent}", "-lkramsnep"])


def example(folder):
    """The C examples, alone in a folder, so that nothing but the flags can lead to header and archive."""
    _, words = flags(installed(folder / "opt", folder)[2])
    for name in ("upload", "backup", "config", "tray"):
        shutil.copy(EXAMPLE / f"{name}.c", folder)
        done = run([*os.environ.get("CC", "cc").split(), "-std=c99", "-Wall", "-Wextra", "-Werror", f"{name}.c", *words, "-o", name], folder)
        expect(f"{name} builds", (done.returncode, done.stderr), (0, ""))
        done = run([folder / name], folder)
        expect(f"{name} runs", (done.returncode, done.stdout), (0, (EXAMPLE / f"{name}.expected").read_text(encoding="ascii")))


def other_tree(folder):
    """The version is read from the header, the folders can be read by all whatever the umask, and what was said to build against it does."""
    tree = folder / "tree"
    for name in (SCRIPT, "include/kramsnep.h", ARCHIVE):
        (tree / name).parent.mkdir(parents=True, exist_ok=True)
        shutil.copy(ROOT / name, tree / name)
    header = tree / "include" / "kramsnep.h"
    header.write_text(re.sub(r'(?m)^#define KRAMSNEP_VERSION ".*"$', '#define KRAMSNEP_VERSION "7.8.9"', header.read_text(encoding="ascii")), encoding="ascii")
    done = run(["sh", "-c", f"umask 077; CDPATH=. {tree / SCRIPT} here"], folder)
    expect("install.sh of another version", (done.returncode, done.stdout.splitlines()[0].split(":")[0]), (0, "kramsnep 7.8.9"))
    expect("its folders", {oct(path.stat().st_mode & 0o777) for path in (folder / "here").rglob("*") if path.is_dir()}, {"0o755"})
    expect("its version", "Version: 7.8.9\n" in (folder / "here/lib/pkgconfig/kramsnep.pc").read_text(encoding="ascii"), True)
    if shutil.which("pkg-config"):
        shutil.copy(EXAMPLE / "upload.c", folder / "program.c")
        expect("the words that it says", run(["sh", "-c", done.stdout.splitlines()[1].partition(": ")[2]], folder).returncode, 0)


def needed(folder):
    """The archive needs from outside just the functions of C that README names, so that a program without a C library can bring them."""
    archive = installed("usr", folder)[1]
    listed = run([os.environ.get("NM", "nm"), "-u", archive], folder)
    expect("nm -u", (listed.returncode, listed.stderr), (0, ""))
    names = {line.split()[1] for line in listed.stdout.splitlines() if line.split()[:1] == ["U"]}
    said = re.search(r"\*\*What does the archive need\?\*\* \| (.*?), nothing else:", (ROOT / "README.md").read_text(encoding="utf-8"))
    expect("what the archive needs", sorted(names), sorted(re.findall(r"`(\w+)`", said.group(1))))
    expect("they are", sorted(names), ["memcpy", "memset"])
    # and it can lie anywhere: no table in it holds an address, which whoever loads it would have to mend
    listed = run([os.environ.get("READELF", "readelf"), "-rW", archive], folder)
    expect("readelf -r", (listed.returncode, listed.stderr), (0, ""))
    kinds = {line.split()[2] for line in listed.stdout.splitlines() if re.match(r"[0-9a-f]{16} ", line)}
    expect("relocations", kinds - {"R_X86_64_PC32", "R_X86_64_PLT32"}, set())
    expect("relocations, any", kinds != set(), True)


def refusals(folder):
    """Wrong words, and a tree without an archive: one line, status 1, and nothing is put anywhere."""
    tree = folder / "tree"
    for name in (SCRIPT, "include/kramsnep.h"):
        (tree / name).parent.mkdir(parents=True, exist_ok=True)
        shutil.copy(ROOT / name, tree / name)
    for script, words, wanted in ((ROOT / SCRIPT, [], "usage"), (ROOT / SCRIPT, [""], "usage"), (ROOT / SCRIPT, ["--help"], "usage"), (ROOT / SCRIPT, ["a", "b"], "usage"),
                                  (ROOT / SCRIPT, ["two words"], "letters, digits"), (ROOT / SCRIPT, ["a:b"], "letters, digits"), (ROOT / SCRIPT, ["a$b"], "letters, digits"), (tree / SCRIPT, ["here"], f"{ARCHIVE} is not there")):
        done = run([script, *words], folder)
        if done.returncode != 1 or done.stdout or done.stderr.count("\n") != 1 or wanted not in done.stderr:
            sys.exit(f"install.sh {words}: status {done.returncode}, {done.stdout!r}, {done.stderr!r}")
        expect(f"what install.sh {words} made", [path.name for path in folder.iterdir()], ["tree"])


def main():
    if sys.argv[1:] != ["--check"]:
        sys.exit(__doc__)
    for test in (in_place, example, other_tree, needed, refusals):
        with tempfile.TemporaryDirectory() as folder:
            test(pathlib.Path(folder).resolve())
        print(f"install, {test.__name__}: as expected")


if __name__ == "__main__":
    main()
