"""The list: its lines, and what readings and writer calls share."""

import pathlib
import sys

import model
from model import BITS

sys.path.append(str(pathlib.Path(__file__).resolve().parent.parent))
from draw import ONES, Draw

TOP = (1 << 32) - 1
UNTOUCHED = 256
PATTERN = 0xA5A5A5A5A5A5A500


def put(*fields):
    """A line: its letter, and numbers, byte strings and lists of words in hexadecimal."""
    put.lines += 1
    out = [fields[0]]
    for field in fields[1:]:
        if isinstance(field, bytes):
            out.append(by_repeat(field))
        elif isinstance(field, (list, tuple)):
            out += [format(len(field), "x")] + [format(w, "x") for w in field]
        else:
            out.append(format(field, "x"))
    print(" ".join(out) + " .")


put.lines = 0


def repeated(n):
    return (b"\x4e\x00\xd5" * (n // 3 + 1))[:n]


def by_repeat(data):
    """The length, how many bytes are written out, and these; where the string is long, those after them repeat the last three."""
    given = len(data)
    if given > 200:
        while given > 3 and data[given - 1] == data[given - 4]:
            given -= 1
    return "%x %x %s" % (len(data), given, data[:given].hex())


def filled(seed, size):
    return bytes((seed + 3 * i) % 256 for i in range(size))


def store(capacity):
    return [PATTERN + i for i in range(capacity)]


READINGS, CALLS, GIVEN, READ_BACK = range(4)


def copied(old, capacity):
    """The old bitmap and the result's capacity, where they are others than the last ones."""
    fields = (capacity, old[1], list(old[0]))
    if copied.last != fields:
        put("c", *fields)
        copied.last = fields


copied.last = None


def answers(part, sheet, old, capacity, editions):
    """The readings of a sheet that stands in the buffer: their numbers."""
    copied(old, capacity)
    numbers = []
    for edition in editions:
        before = store(capacity)
        number, record, count, after = model.read(edition, sheet, list(old[0]), old[1], before)
        if number in (14, 1, 2):
            assert after == before
            after = UNTOUCHED
        else:
            while after and after[-1] == 0:
                after = after[:-1]
        put("e", part, edition, number, record, count, after)
        numbers.append(number)
    return numbers


def record(duty, kind, payload=b"", length=None):
    length = len(payload) if length is None else length
    return bytes([duty << 7 | kind]) + length.to_bytes(2, "big") + payload


def duty(kind, **fields):
    return record(1, kind, model.pack(kind, fields))


def sheet(*records, count=None):
    return b"NS" + (len(records) if count is None else count).to_bytes(2, "big") + b"".join(records)


# Old bitmaps: empty, one word, two with a zero word last, three full of bits; words past the count are set and mean nothing.
OLD = [((), 0), ((0x8000000000000001, 7), 1), ((0xF0, 0, 9), 2), ((ONES, 0x123456789ABCDEF0, 1 << 63), 3)]
AT = [0, 1, 63, 64, 65, 127, 128, 191, 192, TOP]
BY = [0, 1, 63, 64, 65, 128, 192, TOP]
SIZES = [0, 1, 63, 64, 65, 128, 129, 192, 193, TOP, BITS]


def some_fields(draw, room):
    """Fields near the ends of `room` words; now and then anywhere."""
    place = [draw.below(64 * room + 2), draw.of((0, 63, 64, 65, 64 * room - 1, 64 * room)), draw.of((TOP, 1 << 31, draw.word() & TOP))]
    amount = [draw.below(64 * room + 2), draw.of((0, 1, 63, 64, 65)), draw.of((TOP, TOP - 63, draw.word() & TOP))]
    return {
        "p": place[draw.of((0, 0, 0, 1, 1, 2) if draw.below(4) == 0 else (0, 0, 1))],
        "k": amount[draw.of((0, 0, 0, 1, 1, 2) if draw.below(4) == 0 else (0, 1, 1))],
        "flag": draw.below(2),
        "width": draw.of((0, 1, 7, 33, 63, 64)),
        "value": draw.of((0, 1, ONES, draw.word(), draw.word())),
        "size": draw.of((0, 64 * room, draw.below(64 * room + 65), draw.below(64 * room + 1))),
    }


def some_old(draw, room):
    words = [draw.of((0, 1, ONES, draw.word(), draw.word() & draw.word())) for _ in range(draw.below(room + 2))]
    return words, draw.below(min(len(words), room) + 1)
