"""The repository that a sweep works on, a copy of it beside the temporary files, and what crates.txt says."""
import shutil
import tempfile
from pathlib import Path

ROOT = Path(__file__).resolve().parent.parent


def copied(name):
    """A copy of the crates without their edits, with what is built."""
    copy = Path(tempfile.gettempdir()) / name
    shutil.rmtree(copy, ignore_errors=True)
    copy.mkdir(parents=True)
    shutil.copy(ROOT / "crates.txt", copy)
    shutil.copytree(ROOT / "crates", copy / "crates", ignore=shutil.ignore_patterns("must-fail"), symlinks=True)
    return copy


def below():
    """The crates of crates.txt, each with those that it names."""
    lines = (line.split("#")[0].partition(":") for line in (ROOT / "crates.txt").read_text().split("\n"))
    named = {name.split()[0]: set(rest.split()) for name, colon, rest in lines if colon}
    return {crate: names & set(named) for crate, names in named.items()}


def and_above(crates):
    """These crates, and those that rest on one of them."""
    found, names = set(crates), below()
    while more := {crate for crate, rests in names.items() if crate not in found and rests & found}:
        found |= more
    return found
