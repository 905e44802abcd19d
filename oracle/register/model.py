"""The printed note register, as document 02 (T-03) tells it. A bitmap is the words of its store and how many of them are in use."""

import re

STORE = 67_108_864
LINES = 50
WIDTH = 72
COLUMN = 12


def bits(words, count):
    """A 0 or a 1 for each bit in use, upward."""
    return "".join(format(word, "064b")[::-1] for word in words[:count])


def line(*numbers):
    return "".join(str(n).rjust(COLUMN) for n in numbers).ljust(WIDTH) + "\n"


def register(text):
    """The register of bits that are written as a text: its runs are the runs of 1 there, each as long as it can be."""
    rows = [line(run.start(), run.end() - 1, len(run.group())) for run in re.finditer("1+", text)]
    pages = [rows[at : at + LINES - 1] for at in range(0, len(rows), LINES - 1)] or [[]]
    out = []
    for page, some in enumerate(pages, 1):
        unused = [line()] * (LINES - 1 - len(some))
        out += some + unused + [line(page, len(pages), text.count("1"))]
    return "".join(out)


def write(words, count, size):
    """The number and the text, which is empty where the call is refused."""
    if len(words) > STORE:
        return 1, ""
    if count > len(words):
        return 2, ""
    text = register(bits(words, count))
    return (6, "") if len(text) > size else (0, text)
