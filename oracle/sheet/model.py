"""The change sheet as the scope paper tells it: what a reader of each edition answers, what the plain sheet answers, and what
the writer answers on a sheet given. A bitmap is a number (bit i of it is bit i of the bitmap) and a word count."""

WORD = 64
STORE = 67_108_864
BITS = 4_294_967_296
MOST = 65_535

# Payload bytes, and the first edition that has the kind.
KINDS = {1: (4, 1), 2: (4, 1), 3: (9, 1), 4: (13, 1), 5: (5, 1), 6: (5, 1), 7: (5, 1), 8: (0, 1), 9: (8, 2), 10: (8, 2), 11: (8, 2)}


class Refused(Exception):
    """A refusal by its number."""


def words_of(bits):
    return (bits + WORD - 1) // WORD


def trim(value):
    return value, words_of(value.bit_length())


def ones(p, k, room):
    """Bits p to p + k - 1, those below `room` alone."""
    end = min(p + k, room)
    return ((1 << end) - 1) >> p << p if p < end else 0


def grown(count, last, capacity):
    """The count once the bit `last` has a word."""
    need = last // WORD + 1
    if need > capacity:
        raise Refused(6)
    return max(count, need)


def set_field(value, count, p, width, field, capacity):
    if width == 0:
        return value, count
    field &= (1 << width) - 1
    if field:
        count = grown(count, p + width - 1, capacity)
    value &= ~ones(p, width, WORD * count)
    return (value | field << p, count) if field else (value, count)


def set_region(value, count, flag, p, k, capacity):
    if k == 0:
        return value, count
    if flag:
        count = grown(count, p + k - 1, capacity)
        return value | ones(p, k, WORD * count), count
    return value & ~ones(p, k, WORD * count), count


def toggle_region(value, count, p, k, capacity):
    if k == 0:
        return value, count
    count = grown(count, p + k - 1, capacity)
    return value ^ ones(p, k, WORD * count), count


def shift(value, count, right, k, capacity):
    if right:
        return trim(value >> min(k, WORD * count))
    if value == 0:
        return value, count
    count = grown(count, value.bit_length() - 1 + k, capacity)
    return value << k, count


def rotate(value, count, right, k):
    length = WORD * count
    if length == 0:
        return value, count
    up = (length - k % length) % length if right else k % length
    return (value << up | value >> (length - up)) & ((1 << length) - 1), count


def reverse(value, count):
    length = WORD * count
    return (int(format(value, "0%db" % length)[::-1], 2), count) if length else (value, count)


def resize_bits(value, bits, capacity):
    if words_of(bits) > capacity:
        raise Refused(6)
    return value & ((1 << bits) - 1), words_of(bits)


def split_off(value, count, p):
    p = min(p, WORD * count)
    return value & ((1 << p) - 1), value >> p


def open_gap(value, count, p, k, capacity):
    head, tail = split_off(value, count, p)
    if tail:
        grown(0, tail.bit_length() - 1 + p + k, capacity)
        tail <<= p + k
    return trim(head | tail)


def close_gap(value, count, p, k):
    head, tail = split_off(value, count, p)
    tail >>= min(k, WORD * count)
    return trim(head | tail << p if tail else head)


def step(kind, f, value, count, capacity):
    """What a duty record makes of a bitmap."""
    if kind == 1:
        count = grown(count, f["p"], capacity)
        return value | 1 << f["p"], count
    if kind == 2:
        return value & ~ones(f["p"], 1, WORD * count), count
    if kind == 3:
        return set_region(value, count, f["flag"], f["p"], f["k"], capacity)
    if kind == 4:
        return set_field(value, count, f["p"], f["width"], f["value"], capacity)
    if kind == 5:
        return shift(value, count, f["flag"], f["k"], capacity)
    if kind == 6:
        return rotate(value, count, f["flag"], f["k"])
    if kind == 7:
        return resize_bits(value, f["size"], capacity)
    if kind == 8:
        return reverse(value, count)
    if kind == 9:
        return toggle_region(value, count, f["p"], f["k"], capacity)
    if kind == 10:
        return open_gap(value, count, f["p"], f["k"], capacity)
    return close_gap(value, count, f["p"], f["k"])


# The fields of a kind in their order, each with its bits.
LAYOUT = {
    1: [("p", 32)],
    2: [("p", 32)],
    3: [("flag", 1), ("p", 32), ("k", 32)],
    4: [("p", 32), ("width", 7), ("value", 64)],
    5: [("flag", 1), ("k", 32)],
    6: [("flag", 1), ("k", 32)],
    7: [("size", 33)],
    8: [],
    9: [("p", 32), ("k", 32)],
    10: [("p", 32), ("k", 32)],
    11: [("p", 32), ("k", 32)],
}


def pack(kind, f):
    """The payload of a duty record, most significant bit first."""
    text = "".join(format(f[name], "0%db" % bits) for name, bits in LAYOUT[kind])
    text += "0" * (-len(text) % 8)
    return bytes(int(text[i : i + 8], 2) for i in range(0, len(text), 8))


def unpack(kind, payload):
    """The fields of a payload, or 12."""
    if len(payload) != KINDS[kind][0]:
        raise Refused(12)
    text = "".join(format(b, "08b") for b in payload)
    f, at = {}, 0
    for name, bits in LAYOUT[kind]:
        f[name] = int(text[at : at + bits], 2)
        at += bits
    if "1" in text[at:] or f.get("width", 0) > 64 or f.get("size", 0) > BITS:
        raise Refused(12)
    return f


def frame(sheet, at):
    """Duty, kind, payload and the place after the record, or 10."""
    if at + 3 > len(sheet):
        raise Refused(10)
    size = sheet[at + 1] << 8 | sheet[at + 2]
    end = at + 3 + size
    if end > len(sheet):
        raise Refused(10)
    return sheet[at] >> 7, sheet[at] & 127, sheet[at + 3 : end], end


def header(sheet):
    """The record count, or 9."""
    if len(sheet) < 4 or sheet[:2] != b"NS":
        raise Refused(9)
    return sheet[2] << 8 | sheet[3]


def number(words):
    return sum(w << WORD * i for i, w in enumerate(words))


def listed(value, length):
    return [value >> WORD * i & (1 << WORD) - 1 for i in range(length)]


def read(edition, sheet, words, count, store):
    """Number, record, word count and the words of the result store after the call."""
    capacity = len(store)
    if edition not in (1, 2):
        return 14, 0, 0, store
    if len(words) > STORE:
        return 1, 0, 0, store
    if count > len(words):
        return 2, 0, 0, store
    if capacity > STORE:
        return 1, 0, 0, store
    record = 0
    try:
        records = header(sheet)
        if count > capacity:
            raise Refused(6)
        value, at = number(words[:count]), 4
        for record in range(1, records + 1):
            duty, kind, payload, at = frame(sheet, at)
            if not duty:
                continue
            if kind not in KINDS or KINDS[kind][1] > edition:
                raise Refused(13)
            value, count = step(kind, unpack(kind, payload), value, count, capacity)
        if at < len(sheet):
            raise Refused(11)
    except Refused as refusal:
        return refusal.args[0], record, 0, [0] * capacity
    return 0, records, count, listed(value, capacity)


class Plain:
    """The plain sheet: it sees sizes and what is asked, and no bytes."""

    def __init__(self):
        self.started = False
        self.records = []

    def bytes(self):
        laid = b"".join(bytes([duty << 7 | kind]) + len(payload).to_bytes(2, "big") + payload for duty, kind, payload in self.records)
        return b"NS" + len(self.records).to_bytes(2, "big") + laid

    def start(self, size):
        """The number and, where it is 0, the length."""
        if size < 4:
            return 6, 0
        self.started = True
        self.records = []
        return 0, 4

    def add(self, size, duty, kind, f, payload):
        if not self.started:
            return 9, 0
        refusal = judged(duty, kind, f, payload)
        if refusal:
            return refusal, 0
        laid = pack(kind, f) if duty else payload
        length = len(self.bytes()) + 3 + len(laid)
        if len(self.records) == MOST or length > size:
            return 6, 0
        self.records.append((duty, kind, laid))
        return 0, length


def judged(duty, kind, f, payload):
    """The refusal of what an addition asks for: 13, 3, 4, 12; 0 where there is none."""
    if duty and kind not in KINDS or not duty and kind > 127:
        return 13
    if duty and kind == 4 and f["width"] > 64:
        return 3
    if duty and kind == 7 and f["size"] > BITS:
        return 4
    if not duty and len(payload) > MOST:
        return 12
    return 0


def add(buffer, length, duty, kind, f, payload):
    """An addition to any sheet given: the number, the length (0 if refused) and the buffer's bytes after the call."""
    if length > len(buffer):
        return 2, 0, buffer
    sheet = buffer[:length]
    try:
        records, at = header(sheet), 4
        for _ in range(records):
            at = frame(sheet, at)[3]
        if at < length:
            raise Refused(11)
        refusal = judged(duty, kind, f, payload)
        if refusal:
            raise Refused(refusal)
        laid = pack(kind, f) if duty else payload
        end = length + 3 + len(laid)
        if records == MOST or end > len(buffer):
            raise Refused(6)
    except Refused as refusal:
        return refusal.args[0], 0, buffer
    record = bytes([duty << 7 | kind]) + len(laid).to_bytes(2, "big") + laid
    return 0, end, b"NS" + (records + 1).to_bytes(2, "big") + sheet[4:] + record + buffer[end:]
