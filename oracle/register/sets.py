"""Sets whose registers are printed, and the buffers for them."""

import pathlib
import sys

import model

sys.path.append(str(pathlib.Path(__file__).resolve().parent.parent))
from draw import ONES
from lines import put, some_word, store

STORE = 1_600
BUFFER = 40_000
LINE = 73
PAGE = 3_650


def printing(held, size):
    """A case: a line of numbers, and behind it the text as it is."""
    words, count = held
    assert len(words) <= STORE and size <= BUFFER
    number, text = model.write(words, count, size)
    put(len(words), count, number, len(text), size, *words)
    print(text, end="")
    put.lines += text.count("\n")
    return number, text


def length(held):
    return len(model.register(model.bits(*held)))


def short(held):
    """Buffers without the text's last byte, its last line, its last page, and without a byte."""
    exact = length(held)
    for size in sorted({0, exact - PAGE, exact - LINE, exact - 1}):
        printing(held, size)


def in_buffers(held, more=0):
    """As long as the text, or longer, and shorter ones."""
    printing(held, length(held) + more)
    short(held)


# The set that the program prints first of all.
SMALL = store((3, 1), (7, 3), (63, 2), (100, 28))
# The first fifty odd bits: single ones.
ODD = [(bit, 1) for bit in range(1, 100, 2)]
FULL = {at: f"{2 * at - 1:12}{2 * at - 1:12}           1" for at in range(1, 50)}
# The sets for which the paper, or the decisions on what it leaves open, name the outcome: how many pages, and the lines from 1 that are not blank.
TYPED = [
    (store(), 1, {50: "           1           1           0"}),
    (([0, 0], 2), 1, {50: "           1           1           0"}),
    (([1 << 7], 0), 1, {50: "           1           1           0"}),
    (store((7, 1)), 1, {1: "           7           7           1", 50: "           1           1           1"}),
    (store((0, 64)), 1, {1: "           0          63          64", 50: "           1           1          64"}),
    (store((0, 512)), 1, {1: "           0         511         512", 50: "           1           1         512"}),
    (
        SMALL,
        1,
        {
            1: "           3           3           1",
            2: "           7           9           3",
            3: "          63          64           2",
            4: "         100         127          28",
            50: "           1           1          34",
        },
    ),
    (store(*ODD[:49]), 1, {**FULL, 50: "           1           1          49"}),
    (
        store(*ODD),
        2,
        {
            **FULL,
            50: "           1           2          50",
            51: "          99          99           1",
            100: "           2           2          50",
        },
    ),
]


def typed():
    for held, pages, lines in TYPED:
        wanted = "".join(lines.get(at, "").ljust(72) + "\n" for at in range(1, 50 * pages + 1))
        assert printing(held, 3650 * pages) == (0, wanted)
        assert printing(held, 3650 * pages - 1) == (6, "")


def page_edges(draw):
    """So many runs that a page is nearly full, full, or one over: every second bit, and runs of one to three bits with gaps of one or two."""
    for n in (0, 1, 48, 49, 50, 97, 98, 99, 147, 148):
        in_buffers(store(*((2 * at, 1) for at in range(n))))
        if n in (48, 49, 50, 98, 99):
            at, runs = 0, []
            for _ in range(n):
                at, size = at + 1 + draw.below(2), 1 + draw.below(3)
                runs.append((at, size))
                at += size
            in_buffers(store(*runs), 1 + draw.below(99))
    for n in (196, 197, 245, 246, 256, 441):
        short(store(*((2 * at + 1, 1) for at in range(n))))


def word_edges():
    """Runs that end at a word's edge, begin at one, cross one, fill words, and all of these on one page."""
    ends, begins, crosses = [(60, 4), (127, 1)], [(64, 5), (128, 1)], [(62, 4), (126, 3), (190, 68)]
    for runs in (ends, begins, crosses, [(64, 64)], [(63, 66)], [(0, 128), (192, 128)], [(1, 126)], [(0, 63), (64, 64)]):
        in_buffers(store(*runs))
    each = [(64 * k - k, 2 * k) for k in range(1, 8)] + [(64 * k + 20, 2 + k) for k in range(8)]
    in_buffers(store((0, 1), *each, (511, 1)), 73)


def small_sets():
    """Single bits, stores of ones, zero words last, words past the count, and a run that goes on in them."""
    for bit in (0, 63, 64, 99, 100, 448, 511):
        in_buffers(store((bit, 1)))
    for n in (2, 3, 7):
        in_buffers(store((0, 64 * n)))
    loose = [([5, 0], 1), ([5, 0], 2), ([5, 9], 1), ([0] * 8, 8), ([ONES] * 8, 3), ([ONES, ONES], 0), ([0, 0, 0, 1 << 63], 3), ([1 << 63, 1], 1)]
    for held in loose:
        in_buffers(held, 5)


def digits():
    """Where a column's number has one digit more: bits and sizes up to 100,000, pages up to 10."""
    in_buffers(store(*((10**k - 1, 2) for k in range(1, 6))))
    at, runs = 0, []
    for size in (9, 10, 99, 100, 999, 1_000, 9_999, 10_000):
        runs.append((at, size))
        at += size + 1
    printing(store(*runs), PAGE)
    printing(store((0, 99_999), (100_000, 2_400)), PAGE)
    in_buffers(store(*((2 * at, 1) for at in range(442))))


def larger_buffers():
    """A byte, a line and a page longer, and the whole buffer."""
    for held in (store(), SMALL):
        exact = length(held)
        for size in (exact + 1, exact + LINE, exact + PAGE, BUFFER):
            printing(held, size)


def order():
    """2, then 6: a count over its store, with buffers of every kind."""
    for words in ([], [15, 0xABC], [ONES] * 8):
        for over in (1, 2, 1 << 32, ONES - len(words)):
            for size in (0, PAGE - 1, PAGE, BUFFER):
                printing((words, len(words) + over), size)


def random_sets(draw, times):
    for _ in range(28 * times):
        words = [some_word(draw) for _ in range(draw.of((1, 1, 2, 2, 3, 4, 5, 6, 8)))]
        count = draw.of((len(words), len(words), len(words), draw.below(len(words))))
        in_buffers((words, count), draw.of((0, 0, draw.below(100))))
    for _ in range(60 * times):
        words = [some_word(draw) for _ in range(draw.below(9))]
        short((words, draw.below(len(words) + 2)))
