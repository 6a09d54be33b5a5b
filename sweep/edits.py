"""Tries the wrong programs of sweep/edits, which the prover must refuse: those that the gate does not try.

    python3 sweep/edits.py CRATE...
    python3 sweep/edits.py --all
    python3 sweep/edits.py --since COMMIT

sweep/edits has a folder for each crate, with edits in the format of the gate's (crates/CRATE/must-fail/*.edit). They are put into a copy of the
repository in place of the gate's, and `rt ci` of their crates tries them there: it proves what is not proved yet, and keeps each verdict by the
checksums of all that it read, so that a later run tries only what has changed. `--since` takes the crates whose code, definitions, proofs or edits
have changed since a commit, and all that rest on them.

Every edit must be refused, and for a fact: one that can't be applied or read, that is still proved, that a limit of the prover ends, or that is
refused only because a proof names what the edit takes away is printed. The exit status is 0 if there is none.
"""
import re
import subprocess
import sys

import tree

EDITS = tree.ROOT / "sweep" / "edits"


def changed(commit):
    """The crates of which something has changed since a commit."""
    paths = subprocess.run(["git", "diff", "--name-only", commit, "--", "crates", "sweep/edits"], cwd=tree.ROOT, capture_output=True, text=True, check=True)
    found = (re.match(r"crates/([^/]+)/(?:src|specs|proofs)/|sweep/edits/([^/]+)/", path) for path in paths.stdout.split("\n"))
    return tree.and_above({m[1] or m[2] for m in found if m})


def wanted(words):
    """The crates whose edits are asked for, in name order."""
    held = {folder.name for folder in EDITS.iterdir()}
    if words == ["--all"]:
        return sorted(held)
    if len(words) == 2 and words[0] == "--since":
        return sorted(held & changed(words[1]))
    if not words or words[0].startswith("-") or set(words) - held:
        sys.exit(__doc__)
    return sorted(words)


def placed(crates):
    """A copy of the repository with the edits of these crates, and how many there are."""
    copy = tree.copied("dezhrovel-edits")
    count = 0
    for crate in crates:
        folder = copy / "crates" / crate / "must-fail"
        folder.mkdir()
        for edit in sorted((EDITS / crate).glob("*.edit")):
            (folder / edit.name).write_bytes(edit.read_bytes())
            count += 1
    return copy, count


def judged(line):
    """Prints what speaks against an edit's verdict, and tells whether it is refused for a fact."""
    name, verdict = re.match(r"rt: must-fail (\S+)\.edit: (.*)", line).groups()
    if verdict.startswith("refused, as it must be") and "(only" not in verdict:
        return True
    print(f"{name}: {verdict}")
    return False


def main():
    crates = wanted(sys.argv[1:])
    if not crates:
        print("no edits to try")
        return
    copy, count = placed(crates)
    print(f"{count} edits of {len(crates)} crates", flush=True)
    begun = good = seen = 0
    run = subprocess.Popen(["rt", "ci", *crates], cwd=copy, stdout=subprocess.PIPE, stderr=subprocess.STDOUT, text=True)
    for line in run.stdout:
        if trying := re.match(r"rt: (\S+): trying its must-fail edits \((\d+)\)", line):
            begun += int(trying[2])
            print(f"{trying[1]}: {trying[2]} edits begun, {begun} of {count} in all", flush=True)
        elif line.startswith("rt: must-fail "):
            seen += 1
            good += judged(line)
        elif "NOT PROVED" in line or "were tried by an earlier run" in line:
            print(line.rstrip().removeprefix("rt: "), flush=True)
    print(f"{good} of {count} refused for a fact")
    sys.exit(0 if run.wait() == 0 and good == seen == count else 1)


if __name__ == "__main__":
    main()
