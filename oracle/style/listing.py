"""The list: its cases, and the styles, stores and random sets that texts and sets share."""

import pathlib
import sys

sys.path.append(str(pathlib.Path(__file__).resolve().parent.parent))
from draw import ONES, Draw
from lines import put, some_word, store

TEXTS, SETS, ROUND_TRIPS = range(3)
LAST = 15
STORE = 4
BUFFER = 2048


def stored(words):
    return list(words) + [0] * (STORE - len(words))


def packed(text):
    """Eight bytes a number, the first one highest."""
    return [int.from_bytes(text[i : i + 8].ljust(8, b"\0"), "big") for i in range(0, len(text), 8)]


def case(part, style, words, count, number, answer, after=(), size=0, text=b""):
    assert len(words) <= STORE and size <= BUFFER and len(text) <= BUFFER
    put(part, *style, len(words), count, number, answer, size, len(text), *stored(words), *stored(after), *packed(text))


PLAIN = (0, ord("-"), 1, 2)
HOUSE = (1, ord(":"), 0, 3)
FIRSTS = (0, 1, 999, 1000)
# '/', ':' and ';' stand beside the digits, '!' and '~' at the ends of what is allowed.
JOINERS = b"!-:A+/;~"
EDGES = [(first, joiner, blank, shortest) for first in FIRSTS for joiner in JOINERS for blank in (0, 1) for shortest in (2, 3, 9)]

# Styles that are not allowed by the first number, the joiner or the shortest run alone; some are allowed ones once cut to 8, 16 or 32 bits.
BAD = [(first, ord("-"), 1, 2) for first in (1001, 1 << 16, 1 << 32, ONES)]
BAD += [(1, joiner, 0, 3) for joiner in (0, 9, 32, 44, 48, 57, 127, 128, 255, 256 + 45, (1 << 32) + 45, ONES)]
BAD += [(1000, ord("~"), 1, shortest) for shortest in (0, 1, 10, 256 + 2, (1 << 32) + 2, ONES)]

# Stores and their counts: empty, exactly full, words past the count that mean nothing, a zero word last.
STORES = [((), 0), ((5,), 0), ((5,), 1), ((15, 0xABC), 1), ((15, 0), 2), ((ONES, 7, 9), 2), ((1, 2, 3, 4), 4), ((0, 0, 0, 1 << 63), 1)]
TWO = STORES[3]
# A count over its store.
OVER = [((), 1), ((15, 0xABC), 3), ((15, 0xABC), ONES)]


def some_style(draw):
    joiner = draw.of([c for c in range(33, 127) if chr(c) not in ",0123456789"])
    return draw.of((0, 1, 999, 1000, draw.below(1001))), draw.of((joiner, *JOINERS)), draw.below(2), 2 + draw.below(8)


def some_store(draw):
    words = [some_word(draw) for _ in range(draw.of((1, 1, 1, 1, 2, 2, 2, 3, 4)))]
    return words, draw.of((len(words), len(words), len(words), draw.below(len(words))))
