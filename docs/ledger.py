#!/usr/bin/env python3
"""Writes docs/LEDGER.md: tallies and the list of must-fail edits, counted and copied from the sources.

    docs/ledger.py            writes the page
    docs/ledger.py --check    says where the page differs from the sources, or an edit or a function's proof has no first line that says what it is,
                              and then exits with 1
"""
import re
import sys
from pathlib import Path

ROOT = Path(__file__).resolve().parent.parent
CRATES = ROOT / "crates"
PAGE = ROOT / "docs" / "LEDGER.md"

MODIFIERS = ("abbrev", "unfoldable", "pub", "record", "data", "module")

# READING's short way: a file, and the first and the last definition that are read of it (none: the whole file without its imports).
SHORT_WAY = [
    ("word/specs/Places.antt", "bit", "member"),
    ("storage/specs/Stores.antt", "Bits", "reading"),
    ("storage/specs/Stores.antt", "within", "within"),
    ("storage/specs/Stores.antt", "word_at", "written"),
    ("storage/specs/Stores.antt", "answer", "Changes"),
    ("storage/specs/Refusals.antt", "last_number", "number_of"),
    ("storage/specs/Refusals.antt", "change_number", "change_record"),
    ("storage/specs/Guards.antt", "most_words", "Passed"),
    ("storage/specs/Promises.antt", "Guarded", "Guarded"),
    ("storage/specs/Promises.antt", "SpaceRules", "SpaceRules"),
    ("storage/specs/Promises.antt", "Meets", "Meets"),
    ("storage/specs/Promises.antt", "Kept", "ChangeMeans"),
    ("editions/specs/Reader.antt", None, None),
    ("editions/specs/Meaning.antt", None, None),
    ("plain/specs/Plain.antt", None, None),
    ("editions/specs/Promises.antt", "ReadExact", "ReadExact"),
    ("sheet/specs/Promises.antt", "Passes", "KeepsMeaning"),
    ("plain/specs/Promises.antt", "Begun", "WholeLists"),
]


def names():
    return [line.split(":")[0].split()[0] for line in (ROOT / "crates.txt").read_text().splitlines() if line.strip()]


def lines(path):
    return len(path.read_text().splitlines())


def total(paths):
    return sum(lines(p) for p in paths)


def answered(here):
    """The files of functions' proofs, each function's in a folder of its name."""
    return sorted(p for p in here.glob("proofs/**/*.antt") if p.parent != here / "proofs")


def counts(crate):
    here = CRATES / crate
    specs = [p for p in sorted(here.glob("specs/*.antt")) if p.name != "Lib.antt"]
    promises = [p for p in specs if p.name == "Promises.antt"]
    kernels = [p for p in specs if p.name == "Kernels.antt"]
    rest = [p for p in specs if p not in promises and p not in kernels]
    return {
        "source": total(here.glob("src/**/*.rt")),
        "definitions": total(rest),
        "promises": total(promises),
        "kernels": total(kernels),
        "laws": total(p for p in here.glob("proofs/*.antt") if p.name != "Lib.antt"),
        "proofs": total(answered(here)),
        "functions": len({p.parent for p in answered(here)}),
        "edits": len(list(here.glob("must-fail/*.edit"))),
    }


def blocks(path):
    """The definitions of a specs file in order, each with its name; imports and the head are left out."""
    text = path.read_text()
    body = "\n".join(line for line in text.splitlines() if not line.startswith("use "))
    body = body.split("\n\n", 1)[1]
    for block in body.split("\n\n"):
        code = [line for line in block.splitlines() if not line.lstrip().startswith("--")]
        words = re.split(r"[\s:(]+", code[0].strip()) if code else []
        while words and words[0] in MODIFIERS:
            words.pop(0)
        yield words[0] if words else "", block


def short_way():
    for file, first, last in SHORT_WAY:
        path = CRATES / file
        found = list(blocks(path))
        if first is None:
            part = [block for _, block in found]
            what = "all"
        else:
            order = [name for name, _ in found]
            part = [block for _, block in found[order.index(first) : order.index(last) + 1]]
            what = f"`{first}`" if first == last else f"`{first}` to `{last}`"
        yield file.removesuffix(".antt"), what, len("\n\n".join(part).splitlines())


def table(head, rows):
    out = ["| " + " | ".join(head) + " |", "|" + "---|" * len(head)]
    return out + ["| " + " | ".join(str(cell) for cell in row) + " |" for row in rows]


def number(n):
    return f"{n:,}"


def page():
    crates = names()
    each = {crate: counts(crate) for crate in crates}
    kinds = ["source", "definitions", "promises", "kernels", "laws", "proofs", "functions", "edits"]
    sums = {kind: sum(c[kind] for c in each.values()) for kind in kinds}

    calls = re.findall(r"^TAXOLBIN_MUST_USE uint32_t taxolbin_", (ROOT / "include/taxolbin.h").read_text(), re.M)
    replayed = (CRATES / "replay/stdout").read_text().splitlines()
    sheets = (CRATES / "sheets/stdout").read_text().splitlines()
    styles = (CRATES / "styles/stdout").read_text().splitlines()
    registers = (CRATES / "registers/stdout").read_text().splitlines()
    rows = re.findall(r"^\s*(?:∷ )?(?:sample|refusing) \(", (CRATES / "cases/specs/Cases.antt").read_text(), re.M)
    bent = sum(1 for p in CRATES.glob("*/must-fail/def_*.edit"))
    way = list(short_way())

    out = ["# Ledger", ""]
    out += ["Written by `docs/ledger.py`, which counts and copies from the sources; `docs/ledger.py --check` says where this page differs from them.", ""]
    out += ["## Tallies", ""]
    out += table(
        ["what", "how many"],
        [
            ["crates", len(crates)],
            ["exported calls (include/taxolbin.h)", len(calls)],
            ["calls that `replay` compares, and its cases with the rules of 01", f"{sum('::' in line for line in replayed)}, {number(int(replayed[-1].split()[1]))}"],
            ["readings and writer calls that `sheets` compares", number(cases(sheets))],
            ["texts and sets in house styles that `styles` compares", number(cases(styles))],
            ["registers that `registers` compares", number(cases(registers))],
            ["rows of starred cases and of a request's (cases/specs/Cases)", len(rows)],
            ["must-fail edits, of them of definitions", f"{sums['edits']}, {bent}"],
            ["lines of READING's short way", number(sum(n for _, _, n in way))],
        ],
    )
    out += ["", "Lines, comments and empty ones included; a crate's `Lib.antt` left out:", ""]
    head = ["crate", "source", "definitions", "promises", "of private functions", "laws", "functions' proofs", "functions", "edits"]
    rows = [[crate] + [number(each[crate][kind]) for kind in kinds] for crate in crates]
    rows.append(["all"] + [number(sums[kind]) for kind in kinds])
    out += table(head, rows)
    out += ["", "A function with no proof of its own here is proved by the check alone.", ""]

    out += ["## The short way", ""]
    out += table(["file", "what is read of it", "lines"], [[file, what, n] for file, what, n in way])
    out += [""]

    out += ["## Definitions", "", "Lines of each file of `specs/`, but `Promises` and `Kernels`:", ""]
    files = [
        [f"{crate}/specs/{p.stem}", lines(p)]
        for crate in crates
        for p in sorted((CRATES / crate).glob("specs/*.antt"))
        if p.stem not in ("Lib", "Promises", "Kernels")
    ]
    out += table(["file", "lines"], files)
    out += [""]

    out += ["## Must-fail edits", "", "In the gate, each with what is wrong in it. One whose name begins with `def_` bends a definition.", ""]
    for crate in crates:
        edits = sorted((CRATES / crate).glob("must-fail/*.edit"))
        if not edits:
            continue
        out.append(f"**{crate}**")
        out.append("")
        for p in edits:
            first = p.read_text().splitlines()[0].removeprefix("# ")
            out.append(f"- `{p.stem}`: {first}")
        out.append("")
    return "\n".join(out).rstrip("\n") + "\n"


def cases(stdout):
    return int(re.search(r"\d+", stdout[-1]).group())


def headless():
    """Edits and functions' proofs that do not begin with a line of words."""
    files = sorted(CRATES.glob("*/must-fail/*.edit")) + [p for crate in names() for p in answered(CRATES / crate)]
    for path in files:
        mark = "# " if path.suffix == ".edit" else "-- "
        if not path.read_text().startswith(mark):
            yield path.relative_to(ROOT)


def main():
    text = page()
    if sys.argv[1:] == ["--check"]:
        wrong = [f"{path} has no first line that says what it is" for path in headless()]
        if not PAGE.exists() or PAGE.read_text() != text:
            wrong.append("docs/LEDGER.md is not what docs/ledger.py writes")
        sys.exit("\n".join(wrong) or 0)
    elif not sys.argv[1:]:
        PAGE.write_text(text)
    else:
        sys.exit(__doc__)


main()
