"""Texts that are read, good and bad."""

import re

import model
from listing import BAD, EDGES, HOUSE, ONES, OVER, PLAIN, STORES, TEXTS, TWO, case, some_store, some_style
from model import TOP

COLON = ord(":")
HIGH = (1000, ord("-"), 1, 2)

# The texts of documents 01 and 02, and of what was open there, into two words: a number, or the set that is read.
TYPED = [
    (b"", PLAIN, 7),
    (b" ", PLAIN, 7),
    (b",", PLAIN, 7),
    (b"1,,", PLAIN, 7),
    (b"5-3", PLAIN, 7),
    (b"4294967296", PLAIN, 16),
    (b"1,", PLAIN, {1}),
    (b"1, ", PLAIN, {1}),
    (b" 1 - 3 , 2", PLAIN, {1, 2, 3}),
    (b"4294967295", PLAIN, 6),
    (b"1\xc2\xa0", PLAIN, 8),
    (b"\xff", PLAIN, 8),
    (b"\xff", (0, 301, 1, 2), 15),
    (b"1", (ONES, 45, 1, 2), 15),
    (b"4-5", (0, 45, 1, 3), {4, 5}),
    (b"1, 2", (0, 45, 0, 2), {1, 2}),
    (b"1-2", (0, COLON, 1, 2), 7),
    (b"1:2", (0, COLON, 1, 2), {1, 2}),
    (b"1:2:3", (0, COLON, 1, 2), 7),
    (b"0", HOUSE, 7),
    (b"1", HOUSE, {0}),
    (b"0999", HIGH, 7),
    (b"01000", HIGH, {0}),
    (b"4294968295", HIGH, 6),
    (b"4294968296", HIGH, 16),
    (b"18446744073709551621", PLAIN, 16),
    (b"1000-18446744073709552621", HIGH, 16),
    (b"4294967295x", PLAIN, 7),
    (b"4294967295,x", PLAIN, 7),
    (b"4294967295,\xff", PLAIN, 8),
    (b"4294967296,\xff", PLAIN, 8),
    (b"5-5000000000", (10, 45, 1, 2), 7),
    (b"4294967296x5", (0, ord("x"), 1, 2), 16),
    (b"4294967296-5", (0, ord("x"), 1, 2), 7),
]

# Slips and huge numbers of document 02, and of what was open there, in the plain style.
SLIPS = [
    (b"4294967296x", 7),
    (b"x4294967296", 7),
    (b"4294967296 5", 7),
    (b"4294967296 ", 16),
    (b"\t4294967296\n", 16),
    (b"4294967296-", 16),
    (b"4294967296-x", 16),
    (b"4294967296-1", 16),
    (b"4294967296 - 1", 16),
    (b"x-4294967296", 7),
    (b"-4294967296", 7),
    (b"5-4294967296", 16),
    (b"5-4294967296x", 7),
    (b"4294967295-4294967296", 16),
    (b"99999999999-5-6", 16),
    (b"5-99999999999-6", 7),
    (b"5-6-99999999999", 7),
    (b"4294967297-4294967296", 16),
    (b"4294967296-4294967295", 16),
    (b"4294967295-4294967294", 7),
    (b"4294967296,x", 16),
    (b"4294967296,", 16),
    (b"4294967296,,", 16),
    (b"4294967296,5-3", 16),
    (b"x,4294967296", 7),
    (b"1,,4294967296", 7),
    (b",4294967296", 7),
    (b"5-3,4294967296", 7),
    (b"1,2-3,4294967296,x", 16),
    (b"1,2-3,x,4294967296", 7),
    (b"4294967295,4294967296", 16),
    (b"4294967296,4294967295", 16),
    (b"18446744073709551616", 16),
    (b"18446744073709551621", 16),
    (b"5-18446744073709551622", 16),
    (b"340282366920938463463374607431768211456", 16),
    (b"9999999999999999999999999999999999999999", 16),
    (b"99999999999999999999999999999999999999x", 7),
]


def reading(text, style, store=TWO):
    words, count = store
    number, answer, after = model.read(list(words), count, text, style)
    case(TEXTS, style, words, count, number, answer, after, text=text)
    return number, answer, after


def typed():
    for text, style, wanted in TYPED:
        number, count, words = reading(text, style)
        assert (number or set(model.members(words, count))) == wanted, text


def moved(text, style):
    """A text of the plain style in another one: the numbers rise by the first number, and the joiner stands for the hyphen."""
    first, joiner = style[:2]
    return re.sub(rb"\d+", lambda number: b"%d" % (int(number[0]) + first), text).replace(b"-", bytes([joiner]))


def slips():
    for style in (PLAIN, HOUSE, (10, ord("+"), 1, 9), (1000, ord("~"), 0, 2)):
        for text, wanted in SLIPS:
            assert reading(moved(text, style), style)[0] == wanted, (text, style)


def numbers_at_edges(draw):
    for first in (0, 1, 10, 999, 1000):
        style = (first, ord("-"), 1, 2)
        near = [first + d for d in (-1000, -1, 0, 1, 63, 64, 127, 128, 255, 256, TOP - 1, TOP, TOP + 1)]
        far = [1, 9, 10, TOP, TOP + 1, ONES, ONES + 1, ONES + 6, ONES + 1 + first, 10**30 + first, (1 << 128) + first]
        for value in sorted({n for n in near + far if n >= 0}):
            for zeros in (b"", b"0", b"0" * 25):
                text = zeros + b"%d" % value
                for whole in (text, b"%d-" % first + text, text + b"-%d" % (value + 1)):
                    reading(whole, style, draw.of(STORES))


def every_byte():
    """Each byte below 128 and some above, between two digits, before and after a number."""
    for byte in [*range(129), 133, 160, 173, 194, 255]:
        for style in (PLAIN, HOUSE):
            reading(b"5" + bytes([byte]) + b"7", style)
        reading(bytes([byte]) + b"5", PLAIN)
        reading(b"5" + bytes([byte]), HOUSE)


def every_joiner():
    for joiner in [*range(132), 160, 255, 256 + 45, 512 + 45, (1 << 32) + 45, ONES]:
        text = b"5" + (bytes([joiner]) if joiner < 256 else b"-") + b"7"
        reading(text, (0, joiner, 1, 2))
        reading(b"3", (3, joiner, 0, 9))


def blanks(draw):
    for text, style in ((b"1-3,5", PLAIN), (b"9:10", HOUSE)):
        for at in range(len(text) + 1):
            for byte in b"\t\n\x0b\x0c\r \x00\x08\x0e\x1c\x1f\x7f\x85\xa0":
                for times in (1, 3):
                    reading(text[:at] + bytes([byte]) * times + text[at:], style, draw.of(STORES))
    for text in (b"", b",", b"1,", b"1,,", b",1", b"1,,2", b"1,2,", b"-", b"1-", b"-1", b"1--3", b"1-2-3", b"3-", b"1-,", b"1,-"):
        for blank in (b"", b" ", b"\t\r\n "):
            reading(blank.join(bytes([c]) for c in text) + blank, PLAIN, draw.of(STORES))
            reading(blank + text + blank, PLAIN, draw.of(STORES))


def damaged(draw, times):
    sound = (b"4, 7-8", PLAIN), (b" 1 - 3 , 2,", PLAIN), (b"1:4,6:8,12", HOUSE), (b"01000~1002, 1005,1007 ~ 1010", (1000, ord("~"), 1, 9))
    for text, style in sound:
        assert reading(text, style)[0] == 0
        for at in range(len(text)):
            reading(text[:at] + text[at + 1 :], style, draw.of(STORES))
            reading(text[:at] + text[at : at + 1] + text[at:], style, draw.of(STORES))
            reading(text[:at], style, draw.of(STORES))
            for _ in range(3 * times):
                reading(text[:at] + bytes([draw.of((text[at] ^ 1, draw.below(256), draw.of(text), style[1]))]) + text[at + 1 :], style, draw.of(STORES))


def order():
    """2, 15, 8, 7 or 16, 6: texts for which several apply."""
    texts = b"4", b"", b"x", b"\xff", b"x\xff", b"999999", b"4294968297", b"4294968297\xff", b"999999,x", b"999999,4294968297"
    for style in BAD:
        for text in texts[:7]:
            reading(text, style)
        for text in (b"4", b"\xff"):
            reading(text, style, OVER[1])
        reading(b"4", style, STORES[0])
    for style in (PLAIN, HOUSE):
        for text in texts:
            for store in (*OVER, *STORES):
                reading(text, style, store)


def edges(draw):
    """A list in each style, and in that of another joiner or first number."""
    for style in EDGES:
        first, joiner = style[:2]
        text = b"%d%c%d,%d, %d" % (first + 3, joiner, first + 5, first + 70, first)
        reading(text, style, draw.of(STORES))
        reading(text, draw.of(EDGES), draw.of(STORES))


def of_another_style(draw, times):
    for _ in range(200 * times):
        words, count = some_store(draw)
        style, other = some_style(draw), some_style(draw)
        other = (draw.of((style[0], other[0])), draw.of((style[1], style[1], other[1])), *other[2:])
        reading(model.printed(model.members(words, count)[:40], style), other, draw.of(STORES))


def some_token(draw, first, joiner):
    low = draw.of((draw.below(256), draw.below(64)))
    high = draw.of((low, low + draw.below(9), draw.below(256)))
    blank = [draw.of((b"", b"", b" ", b"\t", b"\n ")) for _ in range(4)]
    number = b"%d" % (first + low)
    if draw.below(2):
        number += b"%s%c%s%s%d" % (blank[0], joiner, blank[1], b"0" * draw.below(2), first + max(low, high - 20 * draw.below(2)))
    return blank[2] + number + blank[3]


def some_number(draw, first):
    """A number: good, the last one, above the limit, or none at all."""
    over = TOP + 1 + first
    huge = over, over + draw.below(1000), ONES + 1 + first + draw.below(9), (1 << 128) + draw.below(200), over * 10 ** draw.below(30)
    slip = b"", b"x", b"%d" % max(first - 1, 0), b"%dx" % over, b"%d 0" % over, b"+%d" % over
    value = draw.of((*[first + draw.below(128)] * 6, TOP + first, *[draw.of(huge)] * 3))
    blank = [draw.of((b"", b"", b"", b" ", b"\t\n")) for _ in range(2)]
    return blank[0] + draw.of((*[b"0" * draw.of((0, 0, 0, 1, 20)) + b"%d" % value] * 5, draw.of(slip))) + blank[1]


def random_slips(draw, times):
    """Huge numbers and slips: alone, left and right of a joiner or of two, before and after each other and good tokens."""
    for _ in range(100 * times):
        style = (draw.of((0, 1, 10, 999, 1000)), draw.of(b"-:~"), draw.below(2), 2)
        joined = [[some_number(draw, style[0]) for _ in range(draw.of((1, 1, 2, 2, 2, 3)))] for _ in range(draw.of((1, 1, 2, 3)))]
        text = b",".join(bytes([style[1]]).join(numbers) for numbers in joined)
        reading(text + draw.of((b"", b"", b"", b",", b", ", b",,")), style, draw.of(STORES))


def random_lists(draw, times):
    """Tokens that overlap, repeat and come in any order."""
    for _ in range(400 * times):
        style = some_style(draw)
        tokens = [some_token(draw, *style[:2]) for _ in range(1 + draw.below(7))]
        tokens += [draw.of(tokens)] * draw.below(2) + [b""] * draw.of((0, 0, 0, 1))
        reading(b",".join(tokens), style, draw.of(STORES))
    for _ in range(300 * times):
        style = (draw.of((0, 1, 10)), draw.of(b"-:"), 1, 2)
        reading(bytes(draw.of(b"0123456789,,--:  ") for _ in range(1 + draw.below(8))), style, draw.of(STORES))
