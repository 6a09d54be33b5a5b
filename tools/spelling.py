#!/usr/bin/env python3
"""Brings the repository's own definitions and lemmas to today's spelling: words in snake case, a dash only between two names.

usage: spelling.py [--check] [FILE..]     at the top of the repository; with no FILE over crates/, README.md and docs/

It runs once, right after the toolchain's own port.py, and goes by spelling. What turns is a name that this repository defines (in specs/ or
proofs/, at any depth): `wholeFold` becomes `whole_fold`, `no-nan-of-eq` becomes `no_nan_of_eq`, and `abs-neg` stays, since `abs` and `neg` are
names. Functions of src/, names of the toolchain's libraries and names that the checker makes keep theirs. A file takes a name from
a library where its `use` lines say so. --check writes nothing and lists the table, and names that fall together.
"""
import os
import re
import sys

WORD = re.compile(r"[^\s(){}.;,@\"«»`]+")
DEFINED = re.compile(
    r"^[ \t]*(?:(?:pub|abbrev|unfoldable|ghost|private) +)*(?:(?:data|record|module) +)?([^\s(){}.;,@\"«»:=|]+)(?: +[({][^\n]*[)}])* *:(?= |$)", re.M
)
CONSTRUCTORS = re.compile(r"^[ \t]+(?:\| *)?([^\s(){}.;,@\"«»:]+) : ", re.M)
DEFINITION = re.compile(r"^[ \t]*(?:abbrev|unfoldable) (?:pub )?([^\s(){}.;,@\"«»:]+)(?= [:({])", re.M)
# A record's field: a label, in snake case throughout.
LABEL = re.compile(r"^[ \t]+(?:pub )?([^\s(){}.;,@\"«»:]+) : ", re.M)
LETS = re.compile(r"\blet +([^\s(){}.;,@\"«»:]+) *[:=]")
USE = re.compile(r"^[ \t]*(?:(?:unfoldable|pub|ghost) +)*use +([^\s{};]+?)(?:\.\{([^{}]*)\})?(?: as [^\s;]+)?;?[ \t]*$", re.M)
QUOTED = re.compile(r"^[ \t]*(?:pub )?«([^»\n]+)» :(?= |$)", re.M)
# A word in « », which today needs none: what antt reserves keeps them.
NEEDLESS = re.compile(r"«([a-z][a-z0-9_]*)»")
RESERVED = set(
    """data record deriving module where use mod pub package open as unfoldable abbrev axiom unfold unfolding ruleset mutual infix infixl infixr elim
    let in do coe fcoe tcoe hcom com""".split()
)
CAMEL = re.compile(r"[a-z0-9₀-₉][A-Z]")
# Words of the libraries between which a dash may stand, beside the repository's own definitions.
LIBRARY = set(
    """add sub mul div rem neg eq ne lt le round fits finite units nan inf fin is_nan of_bits to_bits of_int to_int to_unsigned nan_bits sqrt odd
    closest take drop length append map set get_or slice reverse sum cons nil cond not true false and or zero suc pos min max pow fst snd
    leb ltb eqb some none refl T elem concat filter replicate""".split()
)
# What the checker makes and proof files cite: never turned.
MADE = re.compile(r"^(?:returns|if|in|loop|match|overflow|slice|bounds|nonzero|invariant|decreases|then|else|index|prove|array|enum|part|copy|ghost|offset)-")
# Names that would fall together with another one in the same file, and what they become instead.
INSTEAD = {
    name: name.replace("-", "_") + "_lem"
    for name in "from-units is-blocked is-stopped by-verdict by-tacks by-windward same-side to-starboard no-courses to-unsigned asin-answer atan2-answer cos-answer hypot-answer "
    "sin-answer is-direction is-distance is-speed header-length".split()
}
# The same, for lemmas that had today's spelling already, by file.
IN_FILE = {
    "crates/ruling_laws/proofs/Reliable.antt": {"by_rank": "by_rank_lem"},
    "crates/sheet_laws/proofs/Forth.antt": {"in_order": "in_order_lem"},
    "crates/sheet_laws/proofs/Refusals.antt": {"in_order": "in_order_lem", "by_layout": "by_layout_lem"},
}


def read(path):
    with open(path, encoding="utf-8", newline="") as f:
        return f.read()


def files():
    for folder, dirs, names in os.walk("crates"):
        dirs[:] = sorted(d for d in dirs if d != "out")
        for n in sorted(names):
            if n.endswith((".rt", ".antt")):
                yield os.path.join(folder, n)


def snake(part):
    if not part or not part[0].islower() or not CAMEL.search(part):
        return part
    return re.sub(r"(?<=[a-z0-9₀-₉])([A-Z])", lambda m: "_" + m.group(1).lower(), part)


def joined(parts, names):
    """A dash between two names of definitions, where the whole is made of such names; else an underscore."""
    if len(parts) == 1:
        return parts[0]

    def split(at):
        if at == len(parts):
            return []
        for end in range(len(parts), at, -1):
            if at == 0 and end == len(parts):
                continue
            word = "_".join(parts[at:end])
            if word in names or (end == at + 1 and (word[0].isupper() or not re.match(r"[A-Za-z]", word))):
                rest = split(end)
                if rest is not None:
                    return [word] + rest
        return None

    whole = split(0)
    return "-".join(whole) if whole else "_".join(parts)


def table(texts):
    defined, spec, labels = set(), set(), set()
    for path, t in texts.items():
        if path.endswith(".antt"):
            own = set(DEFINED.findall(t)) | set(QUOTED.findall(t)) | set(CONSTRUCTORS.findall(t)) | set(LETS.findall(t))
            depth = path.split(os.sep)
            # a folder of proofs/ is a function's: its top-level names are the goals', which the checker names
            if depth[2] == "proofs" and len(depth) > 4:
                own = set(re.findall(r"^(?:pub )?([^\s(){}.;,@\"«»:]+) : (?!tie\.|goal\.)", t, re.M)) | set(LETS.findall(t))
            defined |= own
            if depth[2] == "specs":
                spec |= set(DEFINITION.findall(t))
                labels |= set(LABEL.findall(t)) | set(QUOTED.findall(t))
            # variables with words of their own
            defined |= {w for w in WORD.findall(t) if re.fullmatch(r"[a-z]{3,}[A-Z][A-Za-z]*", w)} - foreign(t, {})
    names = LIBRARY | {snake(s) for s in spec if "-" not in s}
    turn = {}
    for old in sorted(defined):
        if MADE.match(old) or old.endswith("-spec"):
            continue
        parts = [snake(p) for p in old.split("-")]
        if any(not p for p in parts):
            continue
        new = INSTEAD.get(old) or ("_".join(parts) if old in labels else joined(parts, names))
        if new != old:
            turn[old] = new
    return turn


def foreign(text, turn):
    """The names that a file brings in from a library."""
    out = set()
    for path, items in USE.findall(text):
        own = path.startswith("Rattle.") and os.path.isdir(os.path.join("crates", path.split(".")[1]))
        if not own and items:
            out |= {i.split(" as ")[0].strip() for i in items.split(",")}
    return out


def turned(text, turn, whole=True):
    skip = foreign(text, turn)

    def word(m):
        w = m.group(0)
        if w in skip:
            return w
        return turn.get(w, w)

    if whole:
        return NEEDLESS.sub(lambda m: m.group(0) if m.group(1) in RESERVED else m.group(1), WORD.sub(word, text))
    # documents: code spans alone
    return re.sub(r"`[^`\n]+`", lambda m: WORD.sub(word, m.group(0)), text)


def rust(text, turn):
    """A file of src/: `ghost use`, clauses and comments' code spans; a camel-case name of a definition everywhere, since the code has none."""
    camel = {a: b for a, b in turn.items() if CAMEL.search(a)}
    out = []
    for line in text.split("\n"):
        s = line.lstrip()
        out.append(turned(line, turn if s.startswith(("ghost use", "ensures", "requires")) else camel))
    return "\n".join(out)


def main():
    check = "--check" in sys.argv[1:]
    given = [a for a in sys.argv[1:] if a != "--check"]
    texts = {p: read(p) for p in files()}
    turn = table(texts)
    if check:
        for a, b in sorted(turn.items()):
            print(f"{a}\t{b}")
    together = 0
    for path, t in texts.items():
        if not path.endswith(".antt"):
            continue
        brought = foreign(t, turn)
        here = turn | IN_FILE.get(path, {})
        seen = {}
        for w in set(WORD.findall(t)):
            seen.setdefault(w if w in brought else here.get(w, w), set()).add(w)
        for new, olds in sorted(seen.items()):
            if len(olds) > 1:
                together += 1
                print(f"together: {path}: {' '.join(sorted(olds))} -> {new}", file=sys.stderr)
    if check:
        return
    for path in given or [*texts, "README.md", *(os.path.join("docs", n) for n in sorted(os.listdir("docs")) if n.endswith(".md"))]:
        t = texts.get(path) or read(path)
        if path.endswith(".antt"):
            new = turned(t, turn | IN_FILE.get(path, {}))
        elif path.endswith(".rt"):
            new = rust(t, turn)
        else:
            new = turned(t, turn, whole=False)
        if new != t:
            with open(path, "w", encoding="utf-8", newline="") as f:
                f.write(new)


if __name__ == "__main__":
    main()
