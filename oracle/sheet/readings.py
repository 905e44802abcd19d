"""Readings of sheets, good and damaged."""

import model
from listing import AT, BY, OLD, ONES, READINGS, SIZES, answers, duty, put, record, repeated, sheet, some_fields, some_old
from model import BITS, KINDS, MOST


def reading(sheet, old=((), 0), capacity=3, editions=(1, 2)):
    put("b", len(sheet), 0, 0, len(sheet), sheet)
    answers(READINGS, sheet, old, capacity, editions)


def kinds_at_edges(draw):
    for old in OLD:
        for p in AT:
            for kind in (1, 2):
                reading(sheet(duty(kind, p=p)), old)
        for flag in (0, 1):
            for k in BY:
                reading(sheet(duty(5, flag=flag, k=k)), old)
                reading(sheet(duty(6, flag=flag, k=k)), old)
        for size in SIZES:
            reading(sheet(duty(7, size=size)), old)
        reading(sheet(duty(8)), old)
    for p in AT:
        for k in BY:
            for flag in (0, 1):
                reading(sheet(duty(3, flag=flag, p=p, k=k)), draw.of(OLD))
            for kind in (9, 10, 11):
                reading(sheet(duty(kind, p=p, k=k)), draw.of(OLD))
                reading(sheet(duty(kind, p=p, k=k)), OLD[3], 4, (2,))
        for width in (0, 1, 33, 63, 64):
            for value in (0, ONES, ONES << width & ONES, draw.word()):
                reading(sheet(duty(4, p=p, width=width, value=value)), draw.of(OLD))


def bad_payloads():
    whole = {"p": 5, "k": 66, "flag": 1, "width": 9, "value": 0x155, "size": 70}
    for kind, (size, _) in KINDS.items():
        good = model.pack(kind, whole)
        for length in sorted({0, 1, size - 1, size + 1, size + 256} - {-1, size}):
            reading(sheet(record(1, kind, (good + bytes(300))[:length])), OLD[1])
        for bit in range(8):
            if good:
                reading(sheet(record(1, kind, good[:-1] + bytes([good[-1] ^ 1 << bit]))), OLD[1])
        for length in (size + 1, 65535):
            reading(sheet(record(1, kind, good, length)), OLD[1])
    for width in (65, 66, 96, 127):
        for value in (0, 1):
            reading(sheet(duty(4, p=3, width=width, value=value)), OLD[1])
    for size in (BITS + 1, BITS + 64, (1 << 33) - 1):
        reading(sheet(duty(7, size=size)), OLD[1])


def newer_and_remarks():
    for kind in [0] + list(range(12, 128)):
        reading(sheet(duty(1, p=2), record(1, kind, bytes(kind % 5))), OLD[1], 1)
    for kind in range(128):
        for payload in (b"", b"hi", model.pack(kind, {"p": 1, "k": 2, "flag": 1, "width": 3, "value": 4, "size": 5}) if kind in KINDS else b"\xff" * 9):
            reading(sheet(record(0, kind, payload), duty(1, p=kind)), OLD[2])
    for length in (64, 255, 256, 257, 300):
        reading(sheet(record(0, 3, repeated(length)), duty(8)), OLD[1], 2)


def order():
    good, newer, bad, tight = duty(1, p=1), record(1, 12), record(1, 1, b"abc"), duty(1, p=500)
    editions = (0, 1, 2, 3, 255, 256, 257, BITS + 1, BITS + 2, ONES)
    for body in (sheet(good), b"", b"NS", sheet(newer), sheet(bad), sheet(tight), sheet(good) + b"x"):
        for old in (OLD[0], OLD[1], ((1, 2), 3), ((), 1), ((5,), ONES), ((1, 2, 3, 4), 4)):
            reading(body, old, 3, editions if old == OLD[1] else (0, 1, 2))
    for first in (newer, bad, tight, record(0, 9, b"q")):
        for second in (newer, bad, tight, good):
            for tail in (b"", b"\x00", b"\x81\x00"):
                reading(sheet(good, first, second) + tail, OLD[1], 2)
    for kind in (0, 1, 4, 9, 12, 127):
        for length in (0, 1, 4, 8):
            body = record(1, kind, bytes(length))
            for cut in range(1, len(body) + 1):
                reading(sheet(good, body[:-cut], count=2), OLD[1])
    for capacity in range(5):
        for old in OLD:
            for body in (b"NT\x00\x00", b"ns\x00\x00", b"NS\x00", sheet(), sheet(good), sheet(duty(8)), sheet(duty(7, size=192)), sheet(duty(7, size=193))):
                reading(body, old, capacity)


def examples():
    yield bytes.fromhex("4e53000383000980000002000000018001000268698a00080000000500000002"), OLD[0], 2
    yield sheet(duty(1, p=70), duty(4, p=60, width=12, value=0xABC), duty(6, flag=1, k=3)), OLD[1], 2
    yield sheet(duty(3, flag=1, p=3, k=90), duty(11, p=10, k=64), duty(5, flag=0, k=33)), OLD[1], 3
    yield sheet(duty(7, size=100), record(0, 0), duty(8), record(0, 127, b"NS\x00\x00"), duty(9, p=1, k=126)), OLD[3], 3
    yield sheet(duty(2, p=0), duty(5, flag=1, k=1), duty(10, p=62, k=4)), OLD[1], 2
    yield sheet(), OLD[2], 2


def damaged(draw, times):
    for body, old, capacity in examples():
        reading(body, old, capacity, (0, 1, 2, 3))
        for cut in range(len(body)):
            reading(body[:cut], old, capacity)
        for tail in (b"\x00", b"NS\x00\x00", b"\x01\x00\x00"):
            reading(body + tail, old, capacity)
        records = body[3]
        for count in sorted({0, records - 1, records + 1, records + 256, 256, MOST} - {-1}):
            reading(body[:2] + count.to_bytes(2, "big") + body[4:], old, capacity)
        for place in range(len(body)):
            values = {body[place] ^ 1, body[place] ^ 128} | {draw.below(256) for _ in range(2 * times)}
            for value in sorted(values - {body[place]}):
                reading(body[:place] + bytes([value]) + body[place + 1 :], old, capacity)


def random_sheets(draw, times):
    for _ in range(260 * times):
        room = 1 + draw.below(4)
        records = []
        for _ in range(1 + draw.below(7)):
            if draw.below(8) == 0:
                records.append(record(0, draw.below(128), draw.word().to_bytes(8, "big")[: draw.below(6)]))
            else:
                kind = 1 + draw.below(11)
                records.append(duty(kind, **some_fields(draw, room)))
        if draw.below(12) == 0:
            records.append(record(1, draw.below(128), draw.word().to_bytes(8, "big")[: draw.below(9)]))
        reading(sheet(*records), some_old(draw, room), room)
    for _ in range(60 * times):
        body = b"".join(draw.word().to_bytes(8, "big") for _ in range(3))[: draw.below(25)]
        reading(b"NS\x00" + bytes([draw.below(4)]) + body, OLD[1], 2)
