"""List text in a house style, as documents 01 and 02 tell it: what a text reads as, and how a set is printed. A bitmap is the words of its store
and how many of them are in use; a style is first number, joiner, whether a blank follows a comma, and the shortest run written as a range."""

WORD = 64
STORE = 67_108_864
TOP = 4_294_967_295
BLANKS = bytes([9, 10, 11, 12, 13, 32])
JOINERS = set(range(32, 127)) - set(b"0123456789") - set(b", ")


class Refused(Exception):
    """A refusal by its number."""


def asked(words, count, style):
    """What both calls ask first: 1, 2, 15."""
    first, joiner, _, shortest = style
    if len(words) > STORE:
        raise Refused(1)
    if count > len(words):
        raise Refused(2)
    if first not in range(1001) or joiner not in JOINERS or shortest not in range(2, 10):
        raise Refused(15)


def number(text, first):
    """The bit that a number stands for. Digits only that are above the limit are 16, and whatever else is no number 7."""
    digits = text.strip(BLANKS)
    if not digits.isdigit():
        raise Refused(7)
    value = int(digits)
    if value < first:
        raise Refused(7)
    if value > TOP + first:
        raise Refused(16)
    return value - first


def token(text, first, joiner):
    """The first and the last bit of a token, which is cut at its first joiner. Its left number is looked at before its right, and both before which
    is larger."""
    left, joined, right = text.partition(bytes([joiner]))
    low = number(left, first)
    high = number(right, first) if joined else low
    if high < low:
        raise Refused(7)
    return low, high


def ranges(text, first, joiner):
    """The tokens in their order, so that the first bad one decides."""
    tokens = text.split(b",")
    if len(tokens) > 1 and not tokens[-1].strip(BLANKS):
        tokens.pop()
    return [token(t, first, joiner) for t in tokens]


def read(words, count, text, style):
    """The number, the count and the words of the store after the call."""
    try:
        asked(words, count, style)
        if any(byte > 127 for byte in text):
            raise Refused(8)
        found = ranges(text, style[0], style[1])
        need = max(high for _, high in found) // WORD + 1
        if need > len(words):
            raise Refused(6)
    except Refused as refusal:
        return refusal.args[0], count, words
    bits = 0
    for low, high in found:
        bits |= (2 << high) - (1 << low)
    made = [bits >> WORD * k & (1 << WORD) - 1 for k in range(max(need, count))]
    return 0, need, made + words[len(made) :]


def members(words, count):
    return [i for i in range(WORD * count) if words[i // WORD] >> i % WORD & 1]


def runs(bits):
    """The maximal runs upward, each as its bits."""
    out = []
    for i in bits:
        if out and out[-1][-1] == i - 1:
            out[-1].append(i)
        else:
            out.append([i])
    return out


def printed(bits, style):
    first, joiner, blank, shortest = style
    out = []
    for run in runs(bits):
        names = [str(i + first) for i in run]
        out += names if len(run) < shortest else [names[0] + chr(joiner) + names[-1]]
    return (", " if blank else ",").join(out).encode()


def write(words, count, size, style):
    """The number and the text, which is empty where the call is refused."""
    try:
        asked(words, count, style)
        text = printed(members(words, count), style)
        if len(text) > size:
            raise Refused(6)
    except Refused as refusal:
        return refusal.args[0], b""
    return 0, text
