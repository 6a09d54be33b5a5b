"""Makes single faults in the crates' code and lists those that are still proved.

    python3 sweep/mutants.py [N [CRATE...]]
    python3 sweep/mutants.py program

Copies the repository to a folder beside the temporary files, puts N faults (default 240) there as must-fail edits, spread over all crates with code or the named ones, and runs
`rt must-fail`. A fault is one of: a comparison made strict, made weak or turned round; the operands of a difference or a quotient
swapped; a constant one more; a statement dropped; two cases swapped; `&` for `|`; true for false. The choice is fixed, so that a run can be
repeated. A fault that the compiler does not take is not counted. Survivors are printed with their line. Each must be shown to change no
answer or to be found elsewhere, or a contract is too weak; those that are shown stand in GUESSES and SAME. The exit status is 0 if there are no others.

With `program`: every fault in the program `encounter`. One that is still proved must be found by its stored output or by the comparison on 3,000
sheets (oracle/, built before).
"""
import os
import random
import re
import subprocess
import sys

import tree

ROOT = tree.ROOT

# Functions that promise nothing of their outcome, and why a fault there changes no answer: the contract of each caller is an equation, which
# is proved for every outcome of them.
GUESSES = {
    ("crates/inverse_trigonometry/src/guess.rt", None): "a guess at a step, which the search checks",
    ("crates/roots/src/lib.rt", "guess"): "a guess at a root, whose square is compared",
    ("crates/clearance/src/lib.rt", "is_suspect"): "which contact is worked out first",
}

# Faults that leave every answer as it is, or that are found elsewhere: file, line, faulty line.
SAME = {
    ("crates/roots/src/lib.rt", "if 0 < x && MIDDLE <= x + 3 * r + 2 {", "if 0 > x && MIDDLE <= x + 3 * r + 2 {"): "the root is then found by whole numbers",
    ("crates/clearance/src/lib.rt", "const DOUBT: f64 = 1.000001;", "const DOUBT: f64 = 2.000001;"): "which contact is worked out first",
    ("crates/situation/src/config.rt", "overtaking_abaft_beam: Angle(22.5),", "overtaking_abaft_beam: Angle(23.5),"): "ruled_search and report, which use the constant, are then not proved",
    ("crates/report/src/stream.rt", "while done < buf.len() {", "while done <= buf.len() {"): "one read more, of no bytes",
    ("crates/replay/src/lib.rt", "Err(error) if error.kind() == ErrorKind::UnexpectedEof => return Ok(false),", "Err(error) if error.kind() != ErrorKind::UnexpectedEof => return Ok(false),"): "the programs that replay then end with an error, and the gate runs them",
    ("crates/replay/src/lib.rt", "const MOST: usize = 1000000;", "const MOST: usize = 1000001;"): "one record more than a million",
}

SHOWN, OPEN = "shown", "SURVIVED"

COMPARISONS = {" < ": [" <= ", " > "], " <= ": [" < ", " >= "], " > ": [" >= ", " < "], " >= ": [" > ", " <= "], " == ": [" != "], " != ": [" == "]}
SKIPPED = re.compile(r"^\s*(//|ghost |use |pub use |mod |pub mod |ensures|requires|#\[|pub struct|struct|pub enum|enum|fn |pub fn |pub extern|impl )")
DECLARED = re.compile(r"^\s*(pub )?\w+: [\w\[\]; ]+,$")


def faults_of(lines, at):
    """The faulty forms of one line, with what was done."""
    line = lines[at]
    for old, news in COMPARISONS.items():
        for m in re.finditer(re.escape(old), line):
            for new in news:
                yield line[: m.start()] + new + line[m.end() :], "comparison"
    for m in re.finditer(r"([\w.:]+(?:\(\w*\))?) ([-/]) ([\w.]+(?:e-\d+)?)(?![\w(])", line):
        if m[1] != m[3]:
            yield line[: m.start()] + f"{m[3]} {m[2]} {m[1]}" + line[m.end() :], "operands"
    for m in re.finditer(r"(?<![\w.\[;])(\d+)(\.\d+)?(?![\w.\]])", line):
        if "; " not in line[max(0, m.start() - 2) : m.start()]:
            more = int(m[1]) + 1
            while m[2] and float(f"{more}{m[2]}") == float(m[0]):
                more *= 2
            yield line[: m.start()] + f"{more}{m[2] or ''}" + line[m.end() :], "constant"
    for old, new in ((" & ", " | "), (" | ", " & "), (" && ", " || "), (" || ", " && "), ("true", "false"), ("false", "true")):
        for m in re.finditer(rf"(?<!\w){re.escape(old)}(?!\w)", line):
            yield line[: m.start()] + new + line[m.end() :], "bool"
    if re.match(r"^\s*[\w.\[\]]+ (=|\+=|-=) .*;$", line) and not line.lstrip().startswith("let"):
        yield "", "statement dropped"
    case = re.match(r"^(\s*)(\w+::\w+)( =>.*)$", line)
    after = re.match(r"^(\s*)(\w+::\w+)( =>.*)$", lines[at + 1]) if at + 1 < len(lines) else None
    if case and after and case[3] != after[3]:
        yield f"{case[1]}{after[2]}{case[3]}", "case swapped"


def function_at(path, number):
    """The function that a line stands in."""
    names = [m[1] for m in (re.match(r"^\s*(?:pub(?:\(crate\))? )?(?:extern \"C\" )?fn (\w+)", line) for line in (ROOT / path).read_text().split("\n")[:number]) if m]
    return names[-1] if names else None


def shown(path, number, old, new):
    """Why a survivor changes no answer, where that is shown."""
    return GUESSES.get((path, None)) or GUESSES.get((path, function_at(path, number))) or SAME.get((path, old, new))


def survivor(path, number, kind, old, new):
    """Prints a survivor with what is shown of it."""
    why = shown(path, number, old, new)
    print(f"{SHOWN + ' (' + why + ')' if why else OPEN}: {path}:{number} ({kind}): {old}  ->  {new}")
    return SHOWN if why else OPEN


def faults(crate):
    """Every fault of a crate whose line stands once in its file."""
    for path in sorted((ROOT / "crates" / crate / "src").rglob("*.rt")):
        lines = path.read_text().split("\n")
        for at, line in enumerate(lines):
            if SKIPPED.match(line) or DECLARED.match(line) or lines.count(line) != 1 or not line.strip():
                continue
            for new, kind in faults_of(lines, at):
                second = None
                if kind == "case swapped":
                    other = lines[at + 1]
                    first = re.match(r"^\s*(\w+::\w+)", line)[1]
                    second = (other, re.sub(r"^(\s*)\w+::\w+", rf"\1{first}", other))
                    if lines.count(other) != 1:
                        continue
                yield path.relative_to(ROOT / "crates" / crate), at + 1, line, new, kind, second


def chosen(count, crates):
    """Faults from each crate in turn, in a fixed order."""
    pools = {}
    for crate in crates:
        pool = list(faults(crate))
        random.Random(crate).shuffle(pool)
        if pool:
            pools[crate] = pool
    picked = []
    while len(picked) < count and pools:
        for crate in list(pools):
            picked.append((crate, pools[crate].pop()))
            if not pools[crate]:
                del pools[crate]
    return picked[:count]


def found(copy, old, new):
    """What finds a fault in the program: its proof, its stored output, the comparison, or nothing."""
    source = copy / "crates" / "encounter" / "src" / "main.rt"
    text = (ROOT / "crates" / "encounter" / "src" / "main.rt").read_text()
    source.write_text(text.replace(old, new))
    folder = copy / "crates" / "encounter"
    if subprocess.run(["rt", "check"], cwd=folder, capture_output=True).returncode != 0:
        return "proof"
    subprocess.run(["rt", "run"], cwd=folder, stdin=open(folder / "stdin", "rb"), capture_output=True)
    ran = subprocess.run([folder / "out" / "encounter"], stdin=open(folder / "stdin", "rb"), capture_output=True)
    if ran.returncode != 0 or ran.stdout != (folder / "stdout").read_bytes():
        return "stored output"
    compare = [ROOT / "oracle" / "target" / "release" / "oracle", "compare", "3000", "sheets"]
    try:
        run = subprocess.run(compare, cwd=ROOT / "oracle", env=dict(os.environ, ENCOUNTER=str(folder / "out" / "encounter")), capture_output=True, timeout=120)
    except subprocess.TimeoutExpired:
        return "comparison"
    return "comparison" if run.returncode != 0 else None


def program():
    copy = tree.copied("dezhrovel-sweep-program")
    tally = {}
    for file, number, old, new, kind, second in faults("encounter"):
        by = found(copy, old, new)
        if by is None:
            by = survivor(f"crates/encounter/{file}", number, kind, old.strip(), new.strip())
        tally[by] = tally.get(by, 0) + 1
    print(", ".join(f"{by}: {count}" for by, count in tally.items()))
    sys.exit(1 if OPEN in tally else 0)


def main():
    if sys.argv[1:] == ["program"]:
        program()
    count = int(sys.argv[1]) if len(sys.argv) > 1 else 240
    libraries = [c.name for c in sorted((ROOT / "crates").iterdir()) if (c / "src").is_dir() and not (c / "src" / "main.rt").exists()]
    copy = tree.copied("dezhrovel-sweep")
    named = {}
    for i, (crate, (file, number, old, new, kind, second)) in enumerate(chosen(count, sys.argv[2:] or libraries)):
        folder = copy / "crates" / crate / "must-fail"
        folder.mkdir(exist_ok=True)
        pairs = f"old: {old}\nnew: {new}\n" + (f"old: {second[0]}\nnew: {second[1]}\n" if second else "")
        (folder / f"m{i:04}.edit").write_text(f"file: {file}\n{pairs}")
        named[f"{crate}/m{i:04}.edit"] = (f"crates/{crate}/{file}", number, kind, old.strip(), new.strip())
    run = subprocess.run(["rt", "must-fail", *sys.argv[2:]], cwd=copy, capture_output=True, text=True)
    refused = re.findall(r"must-fail (\S+): refused", run.stdout)
    survived = re.findall(r"must-fail (\S+): NOT REFUSED", run.stdout)
    unbuilt = re.findall(r"must-fail (\S+): BAD EDIT", run.stdout)
    print(f"{len(named)} faults: {len(refused)} refused, {len(survived)} survived, {len(unbuilt)} that the compiler does not take")
    judged = [survivor(*named[name]) for name in survived]
    if len(refused) + len(survived) + len(unbuilt) != len(named):
        print(run.stdout[-2000:] + run.stderr[-2000:])
        sys.exit(2)
    sys.exit(1 if OPEN in judged else 0)


if __name__ == "__main__":
    main()
