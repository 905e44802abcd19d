"""Makes a change sheet, reads it in both editions and in one that there is not, and prints what each made of it; then saves and loads an empty book.
The library is the one that pkg-config finds."""
import ctypes
import subprocess

SIZE, WORD, NUMBER = ctypes.c_size_t, ctypes.c_uint64, ctypes.c_uint32
OLD, WORDS, BYTES, TEXT = 4, 128, 256, 65536
# the plain style of list text: first number, joiner, blank after a comma, shortest range
PLAIN = 0, ord("-"), True, 2
# what a text of no bytes, or of blanks alone, is refused with
NOT_LIST = 7
# each kind with its fields, from kind 1 on; a flag is a region's value, or true for right
KINDS = {
    "set": {"p"},
    "unset": {"p"},
    "set_region": {"p", "k", "flag"},
    "set_field": {"p", "value", "width"},
    "shift": {"k", "flag"},
    "rotate": {"k", "flag"},
    "resize_bits": {"bits"},
    "reverse": set(),
    "toggle_region": {"p", "k"},
    "open": {"p", "k"},
    "close": {"p", "k"},
}


def variable(name):
    return subprocess.check_output(["pkg-config", f"--variable={name}", "taxolbin"], text=True).strip()


def declared(name, *types):
    call = getattr(library, "taxolbin_" + name)
    call.restype, call.argtypes = NUMBER, types
    return call


library = ctypes.CDLL(variable("libdir") + "/libtaxolbin.so")
words, count, data, out = ctypes.POINTER(WORD), ctypes.POINTER(SIZE), ctypes.c_char_p, ctypes.POINTER(SIZE)
STYLE = SIZE, SIZE, NUMBER, SIZE
from_list = declared("from_list", words, SIZE, count, data, SIZE, *STYLE)
write_list = declared("write_list", words, SIZE, SIZE, data, SIZE, out, *STYLE)
resize_bits = declared("resize_bits", words, SIZE, count, SIZE)
count_set_bits = declared("count_set_bits", words, SIZE, SIZE, out)
read = declared("read", SIZE, data, SIZE, words, SIZE, SIZE, words, SIZE, out, out)
start = declared("start", data, SIZE, out)
add = declared("add", data, SIZE, out, NUMBER, SIZE, NUMBER, NUMBER, NUMBER, SIZE, WORD, SIZE, data, SIZE)
with open(variable("numbers"), encoding="ascii") as lines:
    WHY = {int(row[0]): row[3].strip() for row in (line.split("\t") for line in lines) if len(row) == 4}


def must(number):
    if number:
        raise ValueError(f"{WHY[number]} ({number})")


class Sheet:
    """A sheet at the front of its buffer. Fields have names, and an edit takes those of its kind, no more and no fewer."""

    def __init__(self):
        self.buffer, self.length = ctypes.create_string_buffer(BYTES), SIZE()
        must(start(self.buffer, BYTES, self.length))

    def edit(self, kind, **fields):
        if fields.keys() != KINDS[kind]:
            raise TypeError(f"the fields of {kind} are {sorted(KINDS[kind])}")
        if any(fields.get(name, 0) >> 32 for name in "pk"):
            raise ValueError("p and k have 32 bits")  # ctypes would cut them
        number = list(KINDS).index(kind) + 1
        p, k, flag, width, value, bits = (fields.get(name, 0) for name in ("p", "k", "flag", "width", "value", "bits"))
        must(add(self.buffer, BYTES, self.length, 1, number, p, k, flag, width, value, bits, b"", 0))

    def remark(self, kind, payload):
        must(add(self.buffer, BYTES, self.length, 0, kind, 0, 0, 0, 0, 0, 0, payload, len(payload)))

    def bytes(self):
        return self.buffer.raw[: self.length.value]


class Bitmap:
    """A bitmap in its store."""

    def __init__(self, capacity):
        self.words, self.capacity, self.count = (WORD * capacity)(), capacity, SIZE()

    def load_list(self, text, style=PLAIN):
        """An empty book prints no text, and no text, or blanks alone, is no list."""
        number = from_list(self.words, self.capacity, self.count, text, len(text), *style)
        if number == NOT_LIST and not text.strip():
            number = resize_bits(self.words, self.capacity, self.count, 0)
        must(number)

    def write_list(self, style=PLAIN):
        text, length = ctypes.create_string_buffer(TEXT), SIZE()
        must(write_list(self.words, self.capacity, self.count, text, TEXT, length, *style))
        return text.raw[: length.value]

    def notes(self):
        value = SIZE()
        must(count_set_bits(self.words, self.capacity, self.count, value))
        return value.value


def line(old, sheet, edition):
    """Edition, number, record and count; then the list, or why there is none."""
    result, record = Bitmap(WORDS), SIZE()
    data = sheet.bytes()
    number = read(edition, data, len(data), old.words, OLD, old.count, result.words, WORDS, record, result.count)
    print(edition, number, record.value, result.count.value, WHY[number] if number else result.write_list().decode())


def main():
    sheet, old = Sheet(), Bitmap(OLD)
    sheet.edit("set_region", flag=True, p=2, k=4)
    sheet.edit("unset", p=3)
    sheet.remark(1, b"hi")
    sheet.edit("shift", flag=False, k=64)
    sheet.edit("open", p=68, k=10)
    print(sheet.bytes().hex(" ").upper())
    old.load_list(b"0, 4-5")
    for edition in 1, 2, 3:
        line(old, sheet, edition)
    old.load_list(b"")
    text = old.write_list()
    old.load_list(text)
    print(f"an empty book: {len(text)} bytes, {old.notes()} notes")


main()
