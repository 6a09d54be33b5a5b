"""Tells whether the compiled count of trials, or a trial, divides floats (request R-4: neither may).

    python3 oracle/no_divide.py [ARCHIVE]

Disassembles the archive of `exports` (without a name, the one that the comparison was built with) and reads `port_trial_count`, `port_trial` and
every function of the archive that they call. The exit status is 0 only if both are there and nothing that is read divides floats; and only if the same
reading finds divisions in `port_target_from_plot`, which has some.
"""
import re
import shutil
import subprocess
import sys
import tempfile
from pathlib import Path

BUILT = Path(tempfile.gettempdir()) / "dezhrovel-archives" / "crates" / "exports" / "out" / "libexports.a"
WITHOUT = ["port_trial_count", "port_trial"]
WITH = "port_target_from_plot"

# divsd, vdivpd and so on; fdiv of the old unit, and of other processors
DIVIDES = re.compile(r"v?div[sp][sdh]\b|fi?div")
HEAD = re.compile(r"^[0-9a-f]+ <(.+)>:$")
INSTRUCTION = re.compile(r"^\s+[0-9a-f]+:\s+(\S+)(.*)$")
NAMED = re.compile(r"<(.+?)(?:[+-]0x[0-9a-f]+)?>")
RELOCATED = re.compile(r"^\s+[0-9a-f]+:\s+R_\S+\s+(.+?)(?:[+-]0x[0-9a-f]+)?$")


def functions(archive):
    """Of each function of an archive, its instructions and the names in them."""
    tool = shutil.which("objdump") or shutil.which("llvm-objdump")
    if not tool:
        sys.exit("objdump is not at hand")
    listing = subprocess.run([tool, "-d", "-r", "--no-show-raw-insn", str(archive)], capture_output=True, text=True, check=True).stdout
    found = {}
    for line in listing.splitlines():
        if head := HEAD.match(line):
            instructions, names = found.setdefault(head[1], ([], set()))
        elif relocated := RELOCATED.match(line):
            names.add(relocated[1].removeprefix(".text."))
        elif instruction := INSTRUCTION.match(line):
            instructions.append(instruction[1])
            names.update(NAMED.findall(instruction[2]))
    return found


def reached(found, name):
    """A function, and all of the archive that it calls."""
    seen, left = set(), [name]
    while left:
        name = left.pop()
        if name in found and name not in seen:
            seen.add(name)
            left.extend(found[name][1])
    return sorted(seen)


def divisions(found, name):
    """The floating divisions in a function and in what it calls, with where they are."""
    return [(place, word) for place in reached(found, name) for word in found[place][0] if DIVIDES.match(word)]


def main():
    archive = Path(sys.argv[1]) if len(sys.argv) == 2 else BUILT
    found = functions(archive)
    good = True
    for name in WITHOUT:
        if name not in found or not found[name][0]:
            sys.exit(f"{name}: not in the archive")
        divided = divisions(found, name)
        read = sum(len(found[place][0]) for place in reached(found, name))
        print(f"{name}: {read} instructions, {len(divided)} divide floats, in {', '.join(reached(found, name))}")
        for place, word in divided:
            print(f"  {place}: {word}")
        good = good and not divided
    seen = len(divisions(found, WITH)) if WITH in found else 0
    print(f"{WITH}: {seen} divide floats")
    sys.exit(0 if good and seen else 1)


if __name__ == "__main__":
    main()
