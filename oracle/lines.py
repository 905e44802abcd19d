"""What the lists of style/ and register/ share: their lines, the words of a set, and words drawn at random."""

from draw import ONES


def put(*numbers):
    """A line of numbers in hexadecimal; 0 has no digits."""
    put.lines += 1
    print(",".join(format(n, "x") if n else "" for n in numbers))


put.lines = 0


def store(*runs):
    """The fewest words that hold runs, each its first bit and how many there are."""
    bits = 0
    for low, size in runs:
        bits |= (1 << size) - 1 << low
    words = [bits >> 64 * k & ONES for k in range((bits.bit_length() + 63) // 64)]
    return words, len(words)


def some_word(draw):
    """A word of a density that is drawn too, or of long runs."""
    low, high = draw.below(64), draw.below(64)
    some = draw.word(), draw.word() | draw.word(), draw.word() & draw.word(), draw.word() & draw.word() & draw.word() & draw.word()
    return draw.of((0, ONES, *some, ONES >> low, ONES << high & ONES, ONES << high & ONES >> low))
