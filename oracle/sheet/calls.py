"""Writer calls, answered by the plain sheet, and additions to a sheet given."""

import model
from listing import AT, CALLS, GIVEN, OLD, ONES, READ_BACK, TOP, answers, duty, filled, put, record, repeated, sheet, some_fields, some_old
from model import BITS, KINDS, MOST

NONE = {"p": 0, "k": 0, "flag": 0, "width": 0, "value": 0, "size": 0}


def asked(part, is_duty, kind, f, payload):
    return ("a", part, is_duty, kind, f["p"], f["k"], f["flag"], f["width"], f["value"], f["size"], payload)


class Calls:
    """A list of calls on one buffer, answered by the plain sheet."""

    def __init__(self, size, seed):
        self.plain, self.size, self.seed, self.length = model.Plain(), size, seed, 0
        put("b", size, seed, 0, 0, b"")

    def start(self):
        number, length = self.plain.start(self.size)
        if number == 0:
            self.length = length
        put(*asked(CALLS, 2, 0, NONE, b""), number, length, *([1, 0, self.plain.bytes()] if number == 0 else [0]))

    def add(self, is_duty, kind, f=NONE, payload=b""):
        number, length = self.plain.add(self.size, is_duty, kind, f, payload)
        patches = [0]
        if number == 0:
            now = self.plain.bytes()
            patches = [2, 2, now[2:4], self.length, now[self.length :]]
            self.length = length
        put(*asked(CALLS, is_duty, kind, f, payload), number, length, *patches)

    def other(self, size, seed):
        """Another buffer, with the same bytes up to the length."""
        self.size = size
        put("b", size, seed, self.length, self.length, b"")

    def read_back(self, old, capacity):
        """Edition 2 on what was written: the effect of exactly the edits, or the number and record where they lack space."""
        assert answers(READ_BACK, self.plain.bytes(), old, capacity, (2,))[0] in (0, 6)


def calls_at_edges():
    calls = Calls(200, 1)
    calls.add(1, 8)
    calls.add(0, 200)
    calls.start()
    whole = {"p": TOP, "k": TOP - 1, "flag": 1, "width": 64, "value": 0xFEDCBA9876543210, "size": BITS}
    for kind in (0, 12, 13, 127, 128, 129, 255, 256, 257, BITS + 1, ONES):
        calls.add(1, kind, whole)
    for kind in (128, 129, 255, 256, BITS, ONES):
        calls.add(0, kind, whole, b"hi")
    for width in (65, 66, 127, 128, 192, 256, ONES):
        calls.add(1, 4, dict(whole, width=width))
    for size in (BITS + 1, BITS * 2 - 1, BITS * 2, ONES):
        calls.add(1, 7, dict(whole, size=size))
    for kind in KINDS:
        calls.add(1, kind, whole, b"not used")
    calls.add(1, 1, dict(whole, width=65, size=ONES))
    calls.add(0, 4, dict(whole, width=65))
    calls.add(0, 7, dict(whole, size=ONES), b"x")
    calls.read_back(OLD[0], 4)
    for p in AT:
        for kind in KINDS:
            calls = Calls(17 + 3, 2)
            calls.start()
            calls.add(1, kind, dict(whole, p=p, k=p ^ 5, flag=p % 2, width=p % 65, value=p * p, size=p))
            calls.read_back(OLD[3], 3)


def calls_for_space():
    for size in range(5):
        calls = Calls(size, 3)
        calls.add(0, 1)
        calls.start()
        calls.add(0, 1)
    for kind, (bytes_of, _) in KINDS.items():
        for short in (0, 1, 2):
            calls = Calls(4 + 3 + bytes_of - short, 4)
            calls.start()
            calls.add(1, kind, dict(NONE, p=1, k=2, width=3, value=4, size=5))
            calls.add(0, kind)
    for length in (0, 1, 2, 40, 255, 256, 257):
        for short in (0, 1):
            calls = Calls(4 + 3 + length - short, 5)
            calls.start()
            calls.add(0, 77, NONE, repeated(length))
            calls.read_back(OLD[1], 2)
    calls = Calls(70000, 6)
    calls.start()
    for length in (65536, 65537, 65535, 65535):
        calls.add(0, 5, NONE, repeated(length))
        calls.add(0, 128, NONE, repeated(length))
    calls.other(4 + 3 + 65535 + 4, 9)
    calls.add(1, 8)
    calls.add(1, 8)
    calls.read_back(OLD[1], 2)
    calls = Calls(60, 7)
    calls.start()
    calls.add(0, 5, NONE, repeated(65536))
    calls.add(0, 5, NONE, repeated(65535))
    calls.add(0, 5, NONE, repeated(54))
    calls.add(0, 5, NONE, repeated(53))
    calls.add(0, 5)


def random_calls(draw, times):
    for _ in range(90 * times):
        room = 1 + draw.below(4)
        calls = Calls(20 + draw.below(110), draw.below(256))
        if draw.below(6):
            calls.start()
        for _ in range(4 + draw.below(8)):
            choice = draw.below(30)
            if choice == 0:
                calls.start()
            elif choice == 1:
                calls.other(max(calls.length, draw.below(120)), draw.below(256))
            elif choice < 7:
                calls.add(0, draw.of((draw.below(128), draw.below(128), 128)), some_fields(draw, room), draw.word().to_bytes(8, "big")[: draw.below(9)])
            else:
                fields = some_fields(draw, room)
                fields["width"] = draw.of((fields["width"], fields["width"], 65))
                fields["size"] = draw.of((fields["size"], fields["size"], BITS + draw.below(3)))
                calls.add(1, draw.below(13), fields, b"z" * draw.below(2))
        if calls.plain.started:
            calls.read_back(some_old(draw, room), room)


# Additions to a sheet given.


def given(body, length, size, seed, is_duty, kind, f=NONE, payload=b""):
    put("b", size, seed, 0, length, body)
    buffer = body + filled(seed, size)[len(body) :]
    number, new, after = model.add(buffer, length, is_duty, kind, f, payload)
    patches = [0]
    if number == 0:
        patches = [2, 2, after[2:4], length, after[length:new]]
        assert after[new:] == buffer[new:] and after[4:length] == buffer[4:length]
    put(*asked(GIVEN, is_duty, kind, f, payload), number, new, *patches)


def additions_to_given():
    bad = dict(NONE, width=65, size=ONES)
    good = sheet(duty(1, p=2), record(0, 9, b"abc"), record(1, 99, b"?"))
    for is_duty, kind, f, payload in ((1, 1, NONE, b""), (1, 12, bad, b""), (1, 4, bad, b""), (1, 7, bad, b""), (0, 128, bad, b""), (0, 3, bad, repeated(65536))):
        for body in (good, good + b"\x00", good[:-1], b"NS\x00", b"XS\x00\x00", sheet(), sheet(count=1)):
            for size in (len(body), len(body) + 40):
                given(body, len(body), size, 8, is_duty, kind, f, payload)
                given(body, size + 1, size, 8, is_duty, kind, f, payload)
    for length in (64, 65, 256, BITS, ONES):
        given(good, length, 64, 8, 1, 1)
    for cut in range(len(good)):
        given(good, cut, 64, 8, 1, 9)
        for value in (0, 1, 128, 255):
            given(good[:cut] + bytes([value]) + good[cut + 1 :], len(good), 64, 8, 0, 9, NONE, b"k")
    for extra in range(1, 5):
        given(good, len(good) + extra, 64, 8, 1, 8)
    for count in (0, 1, 2, 4, 255, 256, 259, MOST):
        given(good[:2] + count.to_bytes(2, "big") + good[4:], len(good), 64, 8, 1, 8)


def fullest_sheets():
    for records in (MOST, MOST - 1):
        body = sheet(*[record(0, 5)] * records)
        length = len(body)
        for size, is_duty, kind, f in (
            (length, 0, 1, NONE),
            (length + 2, 1, 8, NONE),
            (length + 3, 1, 8, NONE),
            (length + 40, 0, 9, NONE),
            (length + 40, 1, 1, NONE),
            (length + 40, 1, 12, NONE),
            (length + 40, 1, 4, dict(NONE, width=65)),
            (length + 40, 1, 7, dict(NONE, size=ONES)),
        ):
            given(body, length, size, 8, is_duty, kind, f, b"")
