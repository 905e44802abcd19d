#!/usr/bin/env python3
"""Writes what numbers.txt says into the header, the Rust package and README: the numbers that a call returns, each with its name and in words.

    include/numbers.py            writes them
    include/numbers.py --check    says which of them differs from numbers.txt, or which number is not the proved one (number_of, storage), and then
                                  exits with 1
"""
import re
import sys
from pathlib import Path

ROOT = Path(__file__).resolve().parent.parent
HEADER = ROOT / "include" / "taxolbin.h"
RUST = ROOT / "rust" / "src" / "numbers.rs"
README = ROOT / "README.md"
PROVED = ROOT / "crates" / "storage" / "specs" / "Refusals.antt"
UNKNOWN = "not a number of this library"


def rows():
    lines = (ROOT / "include" / "numbers.txt").read_text().splitlines()
    table = [line.split("\t") for line in lines if line and not line.startswith("#")]
    if any(len(row) != 4 or re.search(r'["\\|`]', row[3]) for row in table):
        sys.exit("numbers.txt: a line has not four columns, or a sentence has a byte that C, Rust or a table would take otherwise")
    return table


def camel(name):
    return "".join(part.capitalize() for part in name.split("_"))


def sentence(words):
    return words[0].upper() + words[1:] + "."


def header(table):
    out = ["enum taxolbin_number {"]
    out += [f"    TAXOLBIN_{name} = {n}," for n, name, _, _ in table]
    out[-1] = out[-1].rstrip(",")
    out += ["};", "", "/* A number in words. */", "static inline const char *taxolbin_why(uint32_t number)", "{", "    switch (number) {"]
    for _, name, _, words in table:
        out += [f"    case TAXOLBIN_{name}:", f'        return "{words}";']
    out += ["    default:", f'        return "{UNKNOWN}";', "    }", "}"]
    return "\n".join(out)


RUST_HEAD = """// Written by include/numbers.py from numbers.txt.

/// Why a call is refused.
///
/// The number of each is the one that the C header has; [`Error::why`] is the sentence for a user.
///
/// ```
/// use taxolbin::{Bitmap, Error, Style};
///
/// let mut store = [0u64; 2];
/// let mut notes = Bitmap::empty(&mut store)?;
/// assert_eq!(notes.set(128), Err(Error::NoSpace));
/// assert_eq!(notes.from_list("5-3", Style::PLAIN).unwrap_err().why(), "the text is not a list in its style");
/// # Ok::<(), Error>(())
/// ```
#[derive(Debug, Clone, Copy, PartialEq, Eq, PartialOrd, Ord, Hash)]
#[non_exhaustive]
pub enum Error {"""


def rust(table):
    table = table[1:]
    out = [RUST_HEAD]
    for n, name, who, words in table:
        out += [f"    /// {sentence(words)}", f"    /// Brought about by {who}.", f"    {camel(name)} = {n},"]
    out += ["}", "", "impl Error {", f"    pub(crate) const ALL: [Error; {len(table)}] = ["]
    out += [f"        Error::{camel(name)}," for _, name, _, _ in table]
    out += ["    ];", "", "    /// The refusal in words.", "    pub const fn why(self) -> &'static str {", "        match self {"]
    for _, name, _, words in table:
        arm = f'            Error::{camel(name)} => "{words}",'
        out += [arm] if len(arm) <= 150 else [f"            Error::{camel(name)} => {{", f'                "{words}"', "            }"]
    return "\n".join(out + ["        }", "    }", "}", ""])


def readme(table):
    out = ["| number | in C, after `TAXOLBIN_` | in words | who can bring it about |", "|---|---|---|---|"]
    return "\n".join(out + [f"| {n} | `{name}` | {words} | {'' if who == '-' else who} |" for n, name, who, words in table])


def between(text, first, last, inner):
    a, b = text.index(first) + len(first), text.index(last)
    return text[:a] + "\n" + inner + "\n" + text[b:]


def pages(table):
    return [
        (HEADER, between(HEADER.read_text(), "/* numbers.py: from here */", "/* numbers.py: to here */", header(table))),
        (README, between(README.read_text(), "<!-- numbers.py: from here -->", "<!-- numbers.py: to here -->", readme(table))),
        (RUST, rust(table)),
    ]


def main():
    table = rows()
    proved = re.findall(r"^number_of (\w+) = (\d+)$", PROVED.read_text(), re.M)
    if [(camel(name), n) for n, name, _, _ in table[1:]] != proved:
        sys.exit("numbers.txt is not number_of of crates/storage")
    if sys.argv[1:] not in ([], ["--check"]):
        sys.exit("usage: numbers.py [--check]")
    if sys.argv[1:]:
        old = [str(path.relative_to(ROOT)) for path, text in pages(table) if path.read_text() != text]
        if old:
            sys.exit("not as numbers.txt says: " + ", ".join(old))
    else:
        for path, text in pages(table):
            path.write_text(text)


main()
