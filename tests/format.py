"""What docs/FORMAT.md says, asked of the library: the sheet byte by byte, each kind's fields, the lists and their styles, the register, and that the
definitions it names are there: format.py SHARED"""
import ctypes
import re
import sys

from library import ROOT, load

PAGE = (ROOT / "docs" / "FORMAT.md").read_text()
WIDTHS = {"value": 1, "p": 32, "k": 32, "right": 1, "width": 7, "bits": 33, "word": 64}
PLAIN = 0, 45, 1, 2
# a value for each field, with ones at both of its ends
VALUES = {"value": 1, "p": 0x80000001, "k": 0xC0000003, "right": 1, "width": 33, "bits": 0x80000005, "word": 0x8000000000000007}
wrong = []


def same(what, got, expected):
    if got != expected:
        wrong.append(f"{what}: {got}, not {expected}")


def table(title):
    rows = PAGE[PAGE.index("\n" + title) + 1 :].split("\n\n")[0].splitlines()[2:]
    return [[cell.strip(" ") for cell in row.strip("|").split("|")] for row in rows]


def size(n=0):
    return ctypes.c_size_t(n)


def read(lib, edition, sheet):
    """The line that the page shows: edition, number, record, count and list."""
    old, result, record, count = (ctypes.c_uint64 * 1)(), (ctypes.c_uint64 * 128)(), size(), size()
    number = lib.read(edition, sheet, len(sheet), old, 1, 0, result, 128, record, count)
    text, length = ctypes.create_string_buffer(65536), size()
    lib.write_list(result, 128, count, text, 65536, length, *PLAIN)
    return f"{edition} {number} {record.value} {count.value} {text.raw[: length.value].decode()}".strip()


def add(lib, buffer, length, duty, kind, fields, payload=b""):
    f = {**dict.fromkeys(WIDTHS, 0), **fields}
    flag = f["value"] | f["right"]
    return lib.add(buffer, 256, length, duty, kind, f["p"], f["k"], flag, f["width"], f["word"], f["bits"], payload, len(payload))


def worked_sheet(lib):
    rows, sheet = table("| at | bytes"), b""
    for at, data, *_ in rows:
        same("at", int(at), len(sheet))
        sheet += bytes.fromhex(data.strip("`"))
    same("bytes of the sheet", len(sheet), 32)
    printed = re.search(r"```\n(1 .*)\n(2 .*)\n```", PAGE).groups()
    same("editions", (read(lib, 1, sheet), read(lib, 2, sheet)), printed)
    buffer, length = ctypes.create_string_buffer(256), size()
    numbers = [
        lib.start(buffer, 256, length),
        add(lib, buffer, length, 1, 3, {"value": 1, "p": 4, "k": 3}),
        add(lib, buffer, length, 0, 1, {}, b"hi"),
        add(lib, buffer, length, 1, 10, {"p": 5, "k": 2}),
    ]
    same("written", (numbers, buffer.raw[: length.value]), ([0] * 4, sheet))


def kinds(lib):
    rows = table("| kind | name")
    same("kinds", [int(row[0]) for row in rows], list(range(1, 12)))
    for kind, _, fields, unused, count, since, _ in rows:
        names = [name for name in fields.split(", ") if name]
        number, bits = 0, 0
        for name in names:
            number, bits = number << WIDTHS[name] | VALUES[name], bits + WIDTHS[name]
        same(f"bits of kind {kind}", bits + int(unused), 8 * int(count))
        payload = (number << int(unused)).to_bytes(int(count), "big")
        buffer, length = ctypes.create_string_buffer(256), size()
        lib.start(buffer, 256, length)
        same(f"kind {kind}", add(lib, buffer, length, 1, int(kind), {name: VALUES[name] for name in names}), 0)
        same(f"payload of kind {kind}", buffer.raw[4 : length.value], bytes([128 + int(kind), 0, int(count)]) + payload)
        for edition in 1, 2:
            refused = read(lib, edition, buffer.raw[: length.value]).split()[1] == "13"
            same(f"kind {kind} in edition {edition}", refused, edition < int(since))


def list_read(lib, what, text, style, number, notes):
    words, count = (ctypes.c_uint64 * 2)(), size()
    data = text[1:-1].encode()
    same(f"{what}{text}", lib.from_list(words, 2, count, data, len(data), *style), int(number))
    same(f"notes of {what}{text}", [i for i in range(128) if words[i // 64] >> i % 64 & 1], [int(note) for note in notes.split()])


def list_printed(lib, notes, style, expected):
    words, text, length = (ctypes.c_uint64 * 2)(), ctypes.create_string_buffer(64), size()
    for note in map(int, notes.split()):
        words[note // 64] |= 1 << note % 64
    number = lib.write_list(words, 2, 2, text, 64, length, *style)
    same(f"{notes} in {style}", (number, f"`{text.raw[: length.value].decode()}`"), (0, expected))


def lists(lib):
    for text, number, notes in table("| text | number"):
        list_read(lib, "", text, PLAIN, number, notes)
    for *style, text, number, notes in table("| first | joiner"):
        list_read(lib, f"{style} ", text, map(int, style), number, notes)
    for notes, *style, text in table("| notes | first"):
        list_printed(lib, notes, list(map(int, style)), text)


def styles(lib):
    """Each part of the style at its limits and just outside of them, the others plain; what has no limits may be anything."""
    rows = table("| part | from")
    same("parts", [row[0] for row in rows], ["first", "joiner", "blank", "shortest"])
    same("plain", tuple(int(row[3]) for row in rows), PLAIN)
    for at, (part, low, high, *_) in enumerate(rows):
        low, high = (int(low), int(high)) if high else (0, 2**32 - 1)
        barred = [44, *range(48, 58)] if part == "joiner" else []
        values = {low, high, *barred, 43, 45, 47, 58} if barred else {low, high}
        for value in values | {value for value in (low - 1, high + 1) if 0 <= value < 2**32}:
            style = [*PLAIN[:at], value, *PLAIN[at + 1 :]]
            number = 0 if low <= value <= high and value not in barred else 15
            words, count, text, length = (ctypes.c_uint64 * 32)(), size(), ctypes.create_string_buffer(64), size()
            same(f"reading in {style}", lib.from_list(words, 32, count, b"1000", 4, *style), number)
            same(f"printing in {style}", lib.write_list(words, 32, count, text, 64, length, *style), number)


def register(lib):
    """Each line by the table of its parts; the cases, by the lines that are not blank."""
    places = [(int(low), int(high) + 1) for low, high, _ in table("| from | to | what")]
    same("bytes of a line", (places[0][0], places[-1][1], [a[1] == b[0] for a, b in zip(places, places[1:])]), (0, 73, [True] * 4))
    for notes, pages, *expected in table("| notes | pages"):
        words, text, length = (ctypes.c_uint64 * 2)(), ctypes.create_string_buffer(3651), size()
        for note in map(int, notes.split()):
            words[note // 64] |= 1 << note % 64
        same(f"number of {notes}", lib.write_register(words, 2, 2, text, 3651, length), 0)
        same(f"pages of {notes}", (length.value, text.raw[3650]), (3650 * int(pages), 0))
        lines = [text.raw[at : at + 73].decode() for at in range(0, 3650, 73)]
        got = [f"`{line.rstrip()}`" if line.strip() else "" for line in (lines[0], lines[1], lines[49])]
        same(f"lines of {notes}", got, expected)
        for line in lines:
            *numbers, blanks, end = [line[low:high] for low, high in places]
            same(f"parts of {line!r}", (blanks, end, [part for part in numbers if part.lstrip() != part.strip()]), (" " * 36, "\n", []))


def definitions():
    cited = re.findall(r"((?:`[\w-]+`(?:, )?)+): (\w+/(?:specs|proofs)/\w+)", PAGE)
    same("there are citations", len(cited) > 10, True)
    for names, place in cited:
        text = (ROOT / "crates" / f"{place}.antt").read_text()
        for name in re.findall(r"`([\w-]+)`", names):
            if not re.search(rf"^ *(?:abbrev |unfoldable )?pub (?:data |record )?{name}\b", text, re.M):
                wrong.append(f"{place} has no {name}")


library = load(sys.argv[1])
worked_sheet(library)
kinds(library)
lists(library)
styles(library)
register(library)
definitions()
sys.exit("\n".join(wrong) or 0)
