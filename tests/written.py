"""The files that a script of this folder makes for a program crate: written, or compared with those that stand there."""
import pathlib
import sys

CRATES = pathlib.Path(__file__).resolve().parent.parent / "crates"


def write_or_check(crate, made):
    """With --write each file that `made` names is written into the crate; otherwise the script fails unless each is what `made` gives."""
    for name, data in made.items():
        path = CRATES / crate / name
        if sys.argv[1:] == ["--write"]:
            path.write_bytes(data)
        elif path.read_bytes() != data:
            sys.exit(f"crates/{crate}/{name} is not what tests/{pathlib.Path(sys.argv[0]).name} makes")
