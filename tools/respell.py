#!/usr/bin/env python3
"""Brings the names of specs/ and proofs/ to the one spelling: snake case, `'` for a prime, and a dash only where it joins two names.

usage: python3 tools/respell.py [--list]    at the top, once, after port.py; --list prints the table and writes nothing

A name turns everywhere by its spelling: in specs/, proofs/, the ghost parts of src/, must-fail edits, and the code spans of README and docs/.
Types and modules keep their capital, functions of src/ keep their names, and so does what Rattle makes of them in proof files.
A lemma that would fall together with another name, of the repository or of what it imports, ends in _lem; these are printed.
"""

import glob
import os
import re
import sys

CRATES = [os.path.basename(p) for p in glob.glob("crates/*")]
SIGN = r"[^\s(){}\[\].;,@\"«»:=`|<>/\\]"
MARKS = r"(?:(?:pattern|unfoldable|abbrev|pub|axiom) )*"
DEF = re.compile(rf"^{MARKS}({SIGN}+)((?: *[({{].*)?) :(?: |$)")
HEAD = re.compile(rf"^{MARKS}(data|record|module) ({SIGN}+)")
FIELD = re.compile(rf"^\s+(?:pub )?({SIGN}+)(?: {SIGN}+)* :(?: |$)")
OPERATORS = (
    "le lt eq ne add mul sub mod div pow shl shr and or xor not zero suc append cons snoc nil length take drop set min max map"
    " get_or count sum bit true false"
).split()
WORD = re.compile(r"(?<![\w'′₀-₉-])[a-z][\w'′₀-₉]*(?:-[\w'′₀-₉]+)*(?![\w'′-])")


def read(path):
    with open(path, encoding="utf-8") as f:
        return f.read()


def declared(paths):
    """The names that files declare: those of modules, nameless ones too; then fields and constructors; then what stands below a `where`."""
    top, inner, below = set(), set(), set()
    for path in paths:
        kinds = []  # what each indentation is inside of
        for line in read(path).split("\n"):
            if not line.strip() or line.lstrip().startswith(("use ", "mod ", "pub mod ", "--")):
                continue
            indent = len(line) - len(line.lstrip())
            while kinds and kinds[-1][0] >= indent:
                kinds.pop()
            kind = kinds[-1][1] if kinds else "module"
            text = line.strip()
            if text == "where":
                kinds.append((indent, "where"))
                continue
            m = HEAD.match(text)
            if m:
                if m[2] != "_":
                    (top if kind == "module" else below).add(m[2])
                kinds.append((indent, m[1]))
                continue
            if kind in ("record", "data"):
                m = FIELD.match(" " + text)
                if m:
                    inner.add(m[1])
                continue
            m = DEF.match(text)
            if m and kind == "module":
                top.add(m[1])
                kinds.append((indent, "body"))
            elif m and kind == "where":
                below.add(m[1])
                kinds.append((indent, "body"))
            elif kind == "module":
                kinds.append((indent, "body"))
    return top, inner, below


def snake(part):
    part = part.replace("′", "'")
    part = re.sub(r"(?<=[a-z0-9])([A-Z])(?=[a-z]|$)", lambda m: "_" + m[1].lower(), part)
    return part


def turned(name, known):
    """The name with its words in snake case; a dash stays where names meet on both sides."""
    parts = [snake(p) for p in name.split("-")]
    if len(parts) == 1:
        return parts[0]
    whole = names_in(parts, known)
    if len(whole) > 1:
        return "-".join(whole)
    for k in range(len(parts) - 1, 1, -1):
        # a plain word hangs on behind the last name
        head = names_in(parts[:k], known)
        if len(head) > 1:
            return "-".join(head) + "_" + "_".join(parts[k:])
    return "_".join(parts)


def names_in(words, known):
    """The fewest names that the words make, none left over; empty where they make none."""
    n = len(words)
    best = [None] * n + [[]]
    for i in range(n - 1, -1, -1):
        for j in range(n, i, -1):
            one = "_".join(words[i:j])
            if one in known and best[j] is not None and (best[i] is None or len(best[j]) + 1 < len(best[i])):
                best[i] = [one] + best[j]
    return best[0] or []


def functions():
    out = set()
    for path in glob.glob("crates/*/src/**/*.rt", recursive=True):
        out.update(re.findall(r"\bfn (\w+)", read(path)))
    return out


def library():
    """What the repository imports from the library."""
    out = set()
    for path in glob.glob("crates/*/**/*.antt", recursive=True) + glob.glob("crates/*/src/**/*.rt", recursive=True):
        for module, names in re.findall(r"^(?:ghost )?use ([^\s{;]+)\.\{([^}]*)\}", read(path), re.M):
            if not any(module.startswith(f"Rattle.{c}.") for c in CRATES):
                out.update(n.strip().split(" as ")[-1] for n in names.split(","))
    return out


def own_files():
    lemmas = [p for p in glob.glob("crates/*/proofs/*.antt")]
    specs = glob.glob("crates/*/specs/**/*.antt", recursive=True)
    return specs, lemmas


def made(path):
    """What a proof file declares under a name that Rattle makes."""
    out = set()
    lines = read(path).split("\n")
    for at, line in enumerate(lines):
        m = re.match(rf"^{MARKS}({SIGN}+) :(.*)$", line)
        if m and (re.search(r"\b(?:tie|goal)\.", m[2] + (lines[at + 1] if at + 1 < len(lines) else "")) or re.fullmatch(r".*[-_]spec", m[1])):
            out.add(m[1])
    return out


def table():
    specs, lemmas = own_files()
    tops, fields, _ = declared(specs)
    more, more_fields, below = declared(lemmas)
    proofs = glob.glob("crates/*/proofs/*/**/*.antt", recursive=True)
    local, local_fields, local_below = declared(proofs)
    local |= below | local_below
    rattle = set().union(*(made(p) for p in proofs)) if proofs else set()
    fields |= more_fields | local_fields
    known = set(OPERATORS) | functions() | {snake(n) for n in tops if "-" not in n and n[:1].islower()}
    good = lambda n: n[:1].islower() and re.fullmatch(r"[\w'′₀₁₂₃₄₅₆₇₈₉-]+", n)
    # definitions first: where a lemma would get its function's name, the lemma's ends in _lem
    ranks = [tops - fields, more - tops, fields - tops - more, local - tops - more - fields - rattle]
    rows, taken = {}, {n: n for n in library()}
    for name in tops | more | local:
        if good(name) and not re.search(r"[-A-Z′]", name):
            taken.setdefault(name, name)
    said = []
    for at, rank in enumerate(ranks):
        for name in sorted(rank, key=lambda n: ("-" in n, n)):
            if not good(name) or not re.search(r"[-A-Z′]", name):
                continue
            new = turned(name, known)
            if new == name:
                continue
            other = taken.get(new)
            if at == 2:
                other = None  # a record's field is a name of its own
            if other is not None and other in more | local and "-" not in name and other not in tops:
                rows[other] = new + "_lem"
                taken[new + "_lem"] = other
                said.append(f"{other} is {new}_lem, since {name} is {new}")
                other = None
            if other is not None:
                new += "_lem"
                said.append(f"{name} is {new}, since {other} is {new[:-4]}")
                if new in taken:
                    said.append(f"{name} stays: {new} is taken too")
                    continue
            taken[new] = name
            rows[name] = new
    steps = {f.replace("_", "-") for f in functions()} | functions()
    return rows, said, steps


def turn(text, rows, keep_after_dot=frozenset()):
    def one(m):
        w = m[0]
        if w not in rows:
            return w
        if w in keep_after_dot and text[max(0, m.start() - 1) : m.start()] == ".":
            return w
        return rows[w]

    return WORD.sub(one, text)


def prose(text, rows):
    return re.sub(r"`[^`\n]+`", lambda m: turn(m[0], rows), text)


def main():
    rows, said, steps = table()
    if "--list" in sys.argv:
        for old in sorted(rows):
            print(f"{old}\t{rows[old]}")
        for line in said:
            print(line, file=sys.stderr)
        return
    count = 0
    paths = [p for k in ("specs/**/*.antt", "proofs/**/*.antt", "src/**/*.rt", "must-fail/*.edit") for p in glob.glob("crates/*/" + k, recursive=True)]
    for path in sorted(set(paths)):
        text = read(path)
        inside = re.search(r"/proofs/[^/]+/", path) is not None
        mine = rows if path.endswith(".antt") else {k: v for k, v in rows.items() if re.search(r"[-A-Z]", k)}
        new = turn(text, mine, steps if inside else frozenset())
        if new != text:
            with open(path, "w", encoding="utf-8") as f:
                f.write(new)
            count += 1
    for path in ["README.md", "CHANGELOG.md", *glob.glob("docs/**/*.md", recursive=True)]:
        text = read(path)
        new = prose(text, rows)
        if new != text:
            with open(path, "w", encoding="utf-8") as f:
                f.write(new)
            count += 1
    print(f"respell: {len(rows)} names, {count} files")
    for line in said:
        print(line)


main()
