"""Brings the names of the repository's own definitions and lemmas to one spelling.

A word is in snake case: camel case turns to snake case, and a dash stays only where it joins two names that are
defined somewhere, as in length-flat. Types, facts and modules keep their camel case, and nothing of src/ is renamed.
The tables of words at the head of a file are laid out again, since a longer name moves the next column.

Usage: python3 tools/respell.py            at the top of the repository
It changes nothing where two names would fall together: it prints them and ends with status 1.
"""

import collections
import glob
import re
import sys

DEFINITION = re.compile(
    r"^(?P<indent>\s*)(?:(?:abbrev|unfoldable|pub|record|data|ruleset)\s+)*(?P<name>[^\s:(){}=.]+)(?:\s+[({][^)}]*[)}])*\s*:\s"
)
# Names that Rattle makes of the source: goals, invariants and measures keep its spelling.
MADE = re.compile(r"^(returns|loop|invariant|decreases|overflow|nonzero|ghost)(\b|_)|-requires|-init$|-preserved$")
# Words of the library that lemmas are named after.
LIBRARY = set("length take drop map append sum and or xor not fill zero".split())
TOKEN = re.compile(r"[A-Za-z_][\w'·-]*")


def sources():
    return sorted(glob.glob("crates/*/specs/**/*.antt", recursive=True) + glob.glob("crates/*/proofs/**/*.antt", recursive=True))


def definitions():
    """The names that specs/ and proofs/ define, with the files that define each."""
    found = collections.defaultdict(set)
    for path in sources():
        for line in open(path):
            if line.lstrip().startswith("--"):
                continue
            m = DEFINITION.match(line)
            if m and not MADE.search(m["name"]):
                found[m["name"]].add(path)
    return found


def snake(name, known):
    if name[0].isupper():
        return "_".join(name.split("-"))
    name = re.sub(r"(?<=[a-z0-9])[A-Z]", lambda up: "_" + up[0].lower(), name)
    parts = name.split("-")
    out = parts[0]
    for i, part in enumerate(parts[1:], 1):
        joins = "-".join(parts[:i]) in known and "-".join(parts[i:]) in known
        out += ("-" if joins else "_") + part
    return out


def rename(text, to):
    def one(m):
        name = m[0]
        before = text[m.start() - 1] if m.start() else " "
        # A step of a path keeps its name, as in c.half-bits; one inside a term is a definition or a field.
        if name in to and not (before == "." and "-" in name):
            return to[name]
        return name

    return TOKEN.sub(one, text)


def laid_out(text):
    """Lays out the table of words at the head of a file."""
    lines = text.split("\n")
    rows = [i for i, line in enumerate(lines) if line.startswith("-- | ") or line.startswith("-- |-")]
    if not rows:
        return text
    cells = {i: [c.strip() for c in re.split(r"(?<!\\)\|", lines[i][4:].strip().strip("|"))] for i in rows}
    columns = max(len(c) for c in cells.values())
    if any(len(c) != columns for c in cells.values()):
        return text
    ruler = lambda c: all(set(x) <= {"-"} for x in c)
    widths = [max(len(c[k]) for c in cells.values() if not ruler(c)) for k in range(columns)]
    for i, c in cells.items():
        if ruler(c):
            lines[i] = "-- |" + "|".join("-" * (w + 2) for w in widths) + "|"
        else:
            lines[i] = "-- | " + " | ".join(x.ljust(w) for x, w in zip(c, widths)) + " |"
    return "\n".join(lines)


def main():
    if len(sys.argv) > 1:
        print(__doc__)
        return 1
    defined = definitions()
    known = set(defined) | LIBRARY
    to = {n: snake(n, known) for n in defined}
    to = {n: m for n, m in to.items() if n != m}
    olds = collections.defaultdict(list)
    for n, m in to.items():
        olds[m].append(n)
    falls = [(m, ns) for m, ns in olds.items() if len(ns) > 1 or m in defined]
    # Two names fall together only where one file or two that see each other have both: same crate is near enough.
    crates = lambda n: {p.split("/")[1] for p in defined[n]}
    bad = [(m, ns) for m, ns in falls if any(crates(a) & crates(b) for a in ns for b in ns + ([m] if m in defined else []) if a != b)]
    if bad:
        print("names that would fall together:", bad)
        return 1
    for path in sources() + sorted(glob.glob("crates/*/src/**/*.rt", recursive=True)):
        text = open(path).read()
        new = rename(text, to)
        if path.endswith(".antt"):
            new = laid_out(new)
        if new != text:
            open(path, "w").write(new)
    for n in sorted(to):
        print(n, "->", to[n])
    return 0


if __name__ == "__main__":
    sys.exit(main())
