#!/usr/bin/env python3
"""Turns the proofs that walk the code (proofs/F/Proof.antt, by tie.close) into Invariants.antt and Answers.antt.

usage: python3 tools/answers.py NAMES CRATE [F..]    NAMES is the folder that `rt check --generated NAMES --old-names` wrote in the crate's folder

An answer that is a tactic alone goes, since the check tries these itself; the others keep their terms, with today's names of steps.
"""

import json
import os
import re
import sys

DECL = re.compile(r"^(?:abbrev )?(?:pub )?([^\s(){}]+)((?: *\{[^}]*\}| *\([^)]*\))*) :(?: (.*))?$")


def blocks(text):
    """The head of a file (comments, use lines) and its declarations, each with the comments above it."""
    head, decls, at = [], [], None
    pending = []
    for line in text.split("\n"):
        if line.startswith(("use ", "mod ")) and at is None:
            head.extend(pending)
            pending = []
            head.append(line)
            continue
        if line and not line[0].isspace() and not line.startswith(("--", "unfolding")):
            m = DECL.match(line)
            if m and (at is None or m[1] != at[0]):
                at = [m[1], pending + [line]]
                pending = []
                decls.append(at)
                continue
        if line.startswith("--") or not line.strip():
            pending.append(line)
            continue
        if at is None:
            head.extend(pending)
            pending = []
            head.append(line)
            continue
        at[1].extend(pending)
        pending = []
        at[1].append(line)
    if at:
        at[1].extend(pending)
    return head, decls


def norm(name):
    return name.replace("_", "-")


class Names:
    def __init__(self, given):
        self.given = given
        self.places = given["places"]
        self.by_old = {p[0]: p for p in self.places}
        self.needs = given["needs"]
        self.asked = given["asked_at"]

    def need(self, old):
        """(today's name, the place where it is asked) of a need by its old name."""
        for key in (lambda n: n, norm, lambda n: norm(n).replace("overflow-", "")):
            for at, (o, n) in enumerate(self.needs):
                if key(o) == key(old) or key(n) == key(old) and key(old).startswith("overflow"):
                    return n, self.asked[at][0] if at < len(self.asked) else None
        return None, None

    def step(self, place, name):
        """The place, from this one back, whose step has the old name."""
        while place is not None and place in self.by_old:
            here = self.by_old[place]
            if here[2] and norm(here[2][0]) == norm(name):
                return place
            place = here[1]
        return None

    def arm(self, place, rest):
        """A fact of a match's arm under its name there."""
        given = self.given.get("arms", [])
        while place is not None and place in self.by_old:
            at = self.places.index(self.by_old[place])
            a = given[at] if at < len(given) else None
            if a:
                best = None
                for field, step, path in a[2]:
                    if norm(step) == norm(rest[0]) and rest[1 : 1 + len(path)] == path and (path or not field.endswith("-own")):
                        if best is None or len(path) > len(best[1]):
                            best = field, path
                if best:
                    return [a[0], best[0]] + rest[1 + len(best[1]) :]
            place = self.by_old[place][1]
        return None

    def muts(self, place):
        """The `&mut` parameters of the function that was called at a place."""
        callee = self.by_old[place][3] if place in self.by_old else None
        if not callee or "::" not in callee:
            return []
        crate, rest = callee.split("::", 1)
        folder = os.path.join("crates", crate, "src")
        if not os.path.isdir(folder):
            return []
        name = rest.split("::")[-1]
        for base, _, files in os.walk(folder):
            for f in files:
                m = re.search(rf"\bfn {name}(?:<[^>]*>)?\(([^)]*)\)", open(os.path.join(base, f), encoding="utf-8").read())
                if m:
                    return [a.split(":")[0].strip().split()[-1] for a in m[1].split(",") if "&mut" in a]
        return []

    def clause_fields(self, place):
        at = next((i for i, p in enumerate(self.places) if p[0] == place), None)
        given = self.given["clauses"]
        c = given[at] if at is not None and at < len(given) else None
        return c["fields"] if c else None


def strip_tie(head):
    return [h for h in head if not re.search(r"\.(Statement|Tie|Lts|Given|Goals)\b", h)]


STEP = re.compile(r"\b(c|b|s)((?:\.before)*)((?:\.[^\s().,;{}\[\]]+)*)")


def path(names, place, text, var="c"):
    """Today's path of a fact, from the place where a need is asked."""
    while True:
        # a variable that stands for c or a place before it
        m = re.search(r"let (\S+) = (c(?:\.before)*) in\s*", text)
        if not m:
            break
        text = text[: m.start()] + re.sub(rf"(?<![\w'.-]){re.escape(m[1])}(?![\w'-])", m[2], text[m.end() :])

    def one(m):
        if m[1] != var:
            return m[0]
        at = place
        for _ in range(m[2].count(".before")):
            at = names.by_old[at][1] if at in names.by_old else None
        rest = m[3].split(".")[1:]
        if not rest:
            return var
        step = rest[0]
        arm = names.arm(at, rest) or names.arm(place, rest)
        if arm:
            return var + "." + ".".join(arm)
        look = names.step(at, step) or names.step(place, step)
        if look:
            fields = names.clause_fields(look)
            rest[0] = names.by_old[look][2][1]
            if len(rest) > 2 and rest[1] == "new" and rest[2].isdigit():
                muts = names.muts(look)
                if int(rest[2]) < len(muts):
                    rest[2] = muts[int(rest[2])]
            if fields and len(rest) > 1 and rest[1] == "ensures":
                if len(rest) > 2 and rest[2].isdigit() and int(rest[2]) < len(fields):
                    rest[2] = fields[int(rest[2])]
                elif len(rest) == 2 and len(fields) == 1:
                    rest.append(fields[0])
        return var + "." + ".".join(rest)

    return STEP.sub(one, text)


ONE = r"(?:search rules|omega arith|refl|tt|grind arith)"
TRIVIAL = re.compile(rf"^\S+ c(?: κs)? =\s*(?:{ONE}|\({ONE}(?:, {ONE})+\))$", re.S)


def invariant(names, kind, loop, name, body):
    """An invariant or a measure over `l` in place of the variables' values, one by one."""
    given = names.given["loops"]
    at = next((i for i, ((o, n), v) in enumerate(given) if norm(o) == norm(loop)), None)
    sig, clauses = body.split("\n", 1)
    while not clauses.startswith(name + " "):
        first, clauses = clauses.split("\n", 1)
        sig += "\n" + first
    unf = "".join(l + "\n" for l in sig.split("\n")[1:] if l.startswith("unfolding"))
    if at is None:
        return f"-- LOST {kind} {loop}\n" + body
    (_, new), variables = given[at]
    changed = names.given["changed"][at]
    m = re.match(rf"{re.escape(name)}((?: [^\s=]+)*) =", clauses)
    params = m[1].split()
    rest = clauses[m.end():]
    paths = ["l.initial." + v if ch else "l." + v for v, ch in zip(variables, changed)] + ["l." + v for v, ch in zip(variables, changed) if ch]
    if len(params) > len(paths):
        return f"-- LOST {kind} {loop}: {params} beside {paths}\n" + body
    for i, (p, q) in enumerate(zip(params, paths)):
        if p != "_":
            rest = re.sub(rf"(?<![\w'₀-₉.-]){re.escape(p)}(?![\w'₀-₉-])", lambda m: f"⟦{i}⟧", rest)
    for i, q in enumerate(paths):
        rest = rest.replace(f"⟦{i}⟧", q)
    full = f"{kind}-{new}"
    return f"abbrev pub {full} : goal.{full}\n{unf}{full} l ={rest}"


def local(names, name, body):
    """A lemma over the facts known at a place: (its type, its term, both with today's paths), for a `let` in each answer that cites it."""
    m = re.match(rf"(?:abbrev )?{re.escape(name)} :\s*\(c : tie\.([^)\s]+)\)\s*→\s*", body)
    if not m:
        return None
    place = next((p[0] for p in names.places if norm(p[0]) == norm(m[1])), None)
    place = place or next((p[0] for p in names.places if norm(p[0]) == norm(re.sub(r"^Past-", "", m[1]))), None)
    if place is None:
        return None
    rest = body[m.end():]
    lines = rest.split("\n")
    at = next(i for i, l in enumerate(lines) if i and not l[0].isspace())
    kind = " ".join(l.strip() for l in lines[:at])
    clauses = lines[at:]
    unf = ""
    while clauses[0].startswith("unfolding"):
        unf += clauses.pop(0) + "\n"
    if sum(1 for l in clauses if not l[0].isspace()) != 1:
        return None
    text = "\n".join(clauses)
    m = re.match(rf"{re.escape(name)} c((?: [^\s=]+)*) =\s*", text)
    if not m:
        return None
    term = text[m.end():]
    if m[1]:
        term = "λ" + m[1] + ". " + term
    return path(names, place, kind), path(names, place, term), unf


def with_locals(text, lemmas):
    """An answer with a `let` for each lemma that it cites; lemmas are in their order."""
    wanted = set()
    todo = [text]
    while todo:
        t = todo.pop()
        for n, (kind, term, unf) in lemmas.items():
            if n not in wanted and re.search(rf"(?<![\w'.-]){re.escape(n)}\s+c\b", t):
                wanted.add(n)
                todo += [kind, term]
    if not wanted:
        return text, ""

    def cut(t):
        for n in wanted:
            t = re.sub(rf"\(\s*{re.escape(n)}\s+c\s*\)", n, t)
            t = re.sub(rf"(?<![\w'.-]){re.escape(n)}\s+c(?![\w'.])", n, t)
        return t

    m = re.match(r"(\S+ c(?: [^=\n]*?)? =)\s*", text)
    if not m:
        return text, ""
    lets = "".join(f"    let {n} : {cut(lemmas[n][0])} =\n      {cut(lemmas[n][1])} in\n" for n in lemmas if n in wanted)
    unf = "".join(lemmas[n][2] for n in lemmas if n in wanted)
    return f"{m[1]}\n{lets}    {cut(text[m.end():])}", unf


def turn(where, crate, f, names, keep):
    text = open(where, encoding="utf-8").read()
    head, decls = blocks(text)
    folder = os.path.dirname(where)
    uses = strip_tie([h for h in head])
    invs, answers, notes, lemmas = [], [], [], {}
    for name, lines in decls:
        comment = [l for l in lines if l.startswith("--")]
        lines = [l for l in lines if not l.startswith("--")]
        body = "\n".join(lines).strip()
        sig = re.split(r"\n(?=\S)", body, maxsplit=1)
        if re.fullmatch(r".*[-_]spec", name) and "statement" in sig[0]:
            continue
        m = re.search(r": *\n? *tie\.(invariant|decreases)(\S*)", sig[0])
        if m:
            invs.append(comment + [invariant(names, m[1], m[2].lstrip("-"), name, body)])
            continue
        m = re.search(r"tie\.Need-(\S+)", sig[0])
        if m:
            old = m[1].rstrip(")")
            new, place = names.need(old)
            if new is None:
                new, place = names.need(name)
            if new is None and TRIVIAL.match(sig[1]):
                continue
            if new is None:
                notes.append(f"no need {old}")
                answers.append(comment + [f"-- LOST {old}", body])
                continue
            clauses = sig[1]
            unf = ""
            while clauses.startswith("unfolding"):
                first, clauses = clauses.split("\n", 1)
                unf += first + "\n"
            clauses = re.sub(rf"^{re.escape(name)} c κs =", f"{name} c =", clauses)
            if TRIVIAL.match(clauses) and not unf and not keep:
                continue
            clauses = clauses.replace(name + " ", new + " ", 1) if clauses.startswith(name + " ") else clauses
            clauses = path(names, place, clauses)
            clauses, more = with_locals(clauses, lemmas)
            unf += "".join(l for l in more.splitlines(True) if l not in unf)
            answers.append(comment + [f"pub {new} : goal.{new}", unf + clauses if unf else clauses])
            continue
        if re.search(r"\(c : tie\.", body.split("\n", 1)[0] + body):
            lemma = local(names, name, body)
            if lemma:
                lemmas[name] = lemma
                continue
            notes.append(f"lemma {name} over facts of a place")
        answers.append(comment + [body])
    mod = f"Rattle.{crate}.proofs.{f}"
    doc = [h for h in uses if h.startswith("--")]
    uses = [h for h in uses if h.startswith("use")]
    if invs:
        out = list(uses) + [f"use {mod}.Given as goal", ""]
        for i in invs:
            out += i + [""]
        open(os.path.join(folder, "Invariants.antt"), "w", encoding="utf-8").write("\n".join(doc + out).rstrip() + "\n")
    if answers:
        out = doc + uses + [f"use {mod}.Goals as goal", ""]
        for a in answers:
            out += a + [""]
        open(os.path.join(folder, "Answers.antt"), "w", encoding="utf-8").write("\n".join(out).rstrip() + "\n")
    os.remove(where)
    for n in notes:
        print(f"{where}: {n}")


def main():
    keep = "--keep" in sys.argv
    args = [a for a in sys.argv[1:] if a != "--keep"]
    names = json.load(open(os.path.join(args[0], "names.json"), encoding="utf-8"))
    crate = args[1]
    only = args[2:]
    for key, given in names.items():
        m = re.match(rf"Rattle-{crate}-proofs\.(.*)\.Lts$", key)
        if not m:
            continue
        f = m[1]
        if only and f not in only:
            continue
        where = os.path.join("crates", crate, "proofs", *f.split("."), "Proof.antt")
        if os.path.exists(where):
            turn(where, crate, f, Names(given), keep)


main()
