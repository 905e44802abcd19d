"""Sets that are printed, and printed sets that are read back."""

import model
from listing import BAD, BUFFER, EDGES, HOUSE, ONES, OVER, PLAIN, ROUND_TRIPS, SETS, STORES, case, some_store, some_style, store


def printing(held, style, size):
    words, count = held
    number, text = model.write(list(words), count, size, style)
    case(SETS, style, words, count, number, len(text), size=size, text=text)
    return number, text


def length(held, style):
    return len(model.printed(model.members(*held), style))


def in_buffers(held, style):
    """Exactly as long as the text, one byte short, longer, empty."""
    exact = length(held, style)
    for size in sorted({0, max(exact, 1) - 1, exact, exact + 5}):
        printing(held, style, size)


def round_trip(held, style):
    """What is printed of a set, read into a store of ones that are all in use; where it is not printed, that number and 0."""
    words, count = held
    number, text = model.write(list(words), count, BUFFER, style)
    answer, after = 0, []
    if number == 0:
        number, answer, after = model.read([ONES] * len(words), len(words), text, style)
        assert number == 0 and model.members(after, answer) == model.members(words, count) or not text and number == 7
    case(ROUND_TRIPS, style, words, count, number, answer, after)


# The printed sets of document 02 and of what was open there.
TYPED = [
    (store((4, 2)), PLAIN, b"4-5"),
    (store((4, 2)), (0, 45, 1, 3), b"4, 5"),
    (store((4, 2)), (0, 45, 0, 3), b"4,5"),
    (store((4, 3)), (0, 45, 1, 3), b"4-6"),
    (store((4, 3)), HOUSE, b"5:7"),
    (store((4, 2), (7, 1)), HOUSE, b"5,6,8"),
    (store((0, 9)), (1000, 126, 1, 9), b"1000~1008"),
    (store((0, 8)), (992, 126, 0, 9), b"992,993,994,995,996,997,998,999"),
    (store(), PLAIN, b""),
]


def typed():
    for held, style, wanted in TYPED:
        assert printing(held, style, len(wanted)) == (0, wanted)
        in_buffers(held, style)


def runs(draw):
    """Each length at places where the digits or the words change, in each shortest run."""
    for size in range(1, 12):
        for low in (0, 5, 8, 60, 63, 64, 95, 127):
            for shortest in range(2, 10):
                style = (draw.of((0, 1, 1000)), draw.of(b"-:"), draw.below(2), shortest)
                printing(store((low, size)), style, length(store((low, size)), style))
        for style in (PLAIN, HOUSE, (999, 126, 1, 9)):
            in_buffers(store((63, size)), style)
            in_buffers(store((2, 1), (58, size), (59 + size, 12 - size)), style)


def small_sets(draw):
    singles = [store((bit, 1)) for bit in (0, 1, 9, 10, 63, 64, 99, 100, 127, 128, 191, 192, 255)]
    full = [store((0, 64 * n)) for n in (1, 2, 3, 4)]
    loose = [((5, 0), 1), ((5, 0), 2), ((5, 9), 1), ((0, 0, 0, 0), 4), ((ONES, ONES), 1), ((ONES, ONES), 0), *STORES]
    for held in singles + full + loose:
        for style in (PLAIN, HOUSE, draw.of(EDGES)):
            in_buffers(held, style)
            round_trip(held, style)


def edges(draw):
    """Each style at its edges: runs of 1, 2, 3, 8 and 9."""
    held = store((0, 1), (9, 2), (62, 3), (70, 8), (90, 9))
    for style in EDGES:
        printing(held, style, length(held, style) + draw.of((0, 0, 3)))
        round_trip(held, style)
    for first in range(988, 1001):
        in_buffers(store((0, 3), (9, 4)), (first, 43, first % 2, 4))


def every_joiner():
    held = store((3, 3))
    for joiner in [*range(132), 160, 255, 256 + 45, 512 + 45, (1 << 32) + 45, ONES]:
        printing(held, (0, joiner, 1, 3), 3)
        printing(store((3, 2)), (0, joiner, 1, 3), 9)
        round_trip(held, (5, joiner, 0, 2))


def order():
    """2, 15, 6: sets and buffers for which several apply."""
    held = store((4, 2), (7, 90))
    for style in BAD:
        for some, size in ((held, 0), (held, 4), (held, 40), (store(), 0), (((0, 0), 2), 3), (OVER[1], 0), (OVER[2], 40)):
            printing(some, style, size)
        for some in (held, store(), OVER[0]):
            round_trip(some, style)
    for style in (PLAIN, HOUSE):
        for some in OVER:
            for size in (0, 40):
                printing(some, style, size)
            round_trip(some, style)


def random_sets(draw, times):
    for _ in range(110 * times):
        held, style = some_store(draw), some_style(draw)
        in_buffers(held, style)
    for _ in range(300 * times):
        round_trip(some_store(draw), some_style(draw))
