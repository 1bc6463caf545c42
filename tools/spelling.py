#!/usr/bin/env python3
"""Brings the names of this repository's definitions and lemmas to snake case, in every file of proofs, code and wrong answers.

usage: tools/spelling.py [--list]     at the top of the repository, once; with --list it only prints what it would rename

A type keeps its capital. A dash stays where it joins the names of two definitions, as in `length-tab`, and is `_` elsewhere. The
script stops, with nothing written, where a new name stands already in a file that has the old one, unless OTHER gives the law with the new
name another.
"""

import collections
import os
import re
import sys

# Laws whose names, as the kit's script left them, would fall together with a definition's in its new spelling.
OTHER = {n: n + "_lem" for n in "body_ok keys_in kind_ok laid_out map_at mask_at owner_at read_back".split()}

# Words of the library that a dash may join to a name.
WORDS = set("""length take drop append set get_or map add sub mul div mod pow xor or and not cond leb ltb eqb lt le max min suc zero
reverse fold sum all any concat slice_index bit_xor bit_or bit_and""".split())

LETTER = r"[^\s(){}\[\],;.\"`|@]"


def files(kinds):
    for folder, dirs, names in os.walk("crates"):
        dirs[:] = sorted(d for d in dirs if d != "out")
        for f in sorted(names):
            if f.endswith(kinds):
                yield os.path.join(folder, f)


def text(path):
    with open(path, encoding="utf-8") as f:
        return f.read()


def is_law(path):
    return path.endswith(".antt") and os.path.basename(path) not in ("Proof.antt", "Lib.antt") and os.path.basename(path)[0].isupper()


def declared(path):
    """The names that a file of definitions or laws declares: definitions, laws, and fields of records."""
    found = set()
    for line in text(path).split("\n"):
        if line.lstrip().startswith("--"):
            continue
        m = re.match(r"^\s*((?:(?:abbrev|unfoldable|pub|data|record|ruleset)\s+)*)(" + LETTER + r"+)(?:\s+(?:\{[^}]*\}|\([^)]*\)))*\s*(?::(?=\s|$)|\($|\s+where$)", line)
        if not m or "◌" in m.group(2) or m.group(2) in ("use", "module", "where", "let", "open", "ghost"):
            continue
        found.add(m.group(2))
    return found


def snake(part):
    if not part or part[0].isupper():
        return part
    part = re.sub(r"([a-z0-9])([A-Z])", lambda m: m.group(1) + "_" + m.group(2).lower(), part)
    return part.replace("′", "'")


def spelled(name, known):
    parts = [snake(p) for p in name.split("-")]
    out = parts[0]
    for before, after in zip(parts, parts[1:]):
        joined = (before in known or before[:1].isupper()) and (after in known or after[:1].isupper())
        out += ("-" if joined else "_") + after
    return out


def places(path, said):
    """Where names stand: not in a path of modules, nor in a text of the code, nor a name that the prover makes of a function."""
    code = path.endswith(".rt")
    walk = path.endswith("Proof.antt")
    paths = [m.span(1) for m in re.finditer(r"\buse (\w[\w.+-]*?)(?:\.\{|;| as |\n)", said)]
    if code:
        paths += [m.span() for m in re.finditer(r'"(?:[^"\\\n]|\\.)*"', said)]
    heads = [m.span() for m in re.finditer(r"(?m)^(?:# .*|file: .*)$", said)] if path.endswith(".edit") else []
    skip = sorted(paths + heads)
    k = 0
    for m in re.finditer("(" + LETTER + "+)", said):
        while k < len(skip) and skip[k][1] <= m.start(1):
            k += 1
        if k < len(skip) and skip[k][0] <= m.start(1):
            continue
        if walk and m.start(1) and said[m.start(1) - 1] == "." and "-" in m.group(1) and m.group(1).replace("-", "_") in FUNCTIONS:
            continue
        yield m


FUNCTIONS = set()


def main(argv):
    for p in files((".rt",)):
        FUNCTIONS.update(re.findall(r"\bfn (\w+)", text(p)))
    laws = [p for p in files((".antt",)) if is_law(p)]
    specs = [p for p in laws if "/specs/" in p]
    names = collections.defaultdict(set)
    for p in laws:
        for n in declared(p):
            names[n].add(p)
    known = WORDS | {snake(n) for p in specs for n in declared(p) if "-" not in n}
    new = {}
    for n in sorted(names):
        to = spelled(n, known)
        if to != n:
            new[n] = to
    # A lemma that would have the name of its definition.
    taken = set(new.values()) | set(names)
    for a in [n for n in new if "-" in n]:
        if any(new.get(n, n) == new[a] and n != a for n in names):
            new[a] += "_lem"
    bad = []
    turned = {}
    for p in files((".antt", ".rt", ".edit")):
        old = text(p)
        met = list(places(p, old))
        tokens = {m.group(1) for m in met}
        here = sorted(t for t in tokens if t in new)
        # A field may have any name, and a comment says nothing to the prover.
        tokens = {m.group(1) for m in met if old[m.start(1) - 1 : m.start(1)] != "." and "--" not in old[old.rfind("\n", 0, m.start(1)) + 1 : m.start(1)]}
        into = collections.Counter(new[t] for t in here)
        params = set(re.findall(r"[(,]\s*(?:mut )?([a-z_0-9]+): ", old))
        for t in here:
            if into[new[t]] > 1 or (new[t] in (tokens if is_law(p) else params) and not (is_law(p) and new[t] in OTHER)):
                bad.append((t, new[t], p))
        out, at = [], 0
        for m in met:
            t = m.group(1)
            if is_law(p) and t in OTHER and old[m.start(1) - 1 : m.start(1)] != ".":
                t = OTHER[t]
            out += [old[at : m.start(1)], new.get(t, t)]
            at = m.end(1)
        said = "".join(out) + old[at:]
        if said != old:
            turned[p] = said
    if "--list" in argv:
        for a, b in sorted(new.items()):
            print(a, b)
    for b in sorted(set(bad)):
        print("falls together:", *b, file=sys.stderr)
    print(f"{len(new)} names, {len(turned)} files, {len(set(bad))} places where names fall together", file=sys.stderr)
    if "--list" in argv:
        return 0
    if bad:
        return 1
    for p, said in turned.items():
        with open(p, "w", encoding="utf-8") as f:
            f.write(said)
    return 0


if __name__ == "__main__":
    raise SystemExit(main(sys.argv[1:]))
