"""Random columns, made together with their rows by plain loops. For the tests alone."""

import struct

from codrask import Column

LETTERS = {"u8": "B", "u16": "H", "u32": "I", "u64": "Q", "i8": "b", "i16": "h", "i32": "i", "i64": "q"}


def numbers_of(numbers, type_name, validity=None):
    return Column.numbers(type_name, struct.pack(f"<{len(numbers)}{LETTERS[type_name]}", *numbers), validity)


def bits_of(r, truths, validity=None):
    """Truth values as bits, from a random bit on; what stands around them is random too."""
    offset = r.randrange(20)
    bits = [r.random() < 0.5 for _ in range(offset)] + truths
    data = sum(bit << i for i, bit in enumerate(bits)) | r.getrandbits(8) << len(bits)
    return Column.bools(data.to_bytes(len(bits) // 8 + 2, "little"), len(truths), validity, offset)


def random_validity(r, count):
    """A validity, and which rows are valid under it."""
    truths = [r.random() < 0.7 for _ in range(count)]
    return r.choice([(None, [True] * count), (True, [True] * count), (False, [False] * count), (bits_of(r, truths), truths)])


def random_numbers(r, count, _depth, validity, _is_valid):
    type_name = r.choice(list(LETTERS))
    bits = int(type_name[1:])
    least = -(1 << bits - 1) if type_name[0] == "i" else 0
    numbers = [least + r.getrandbits(bits) for _ in range(count)]
    return numbers_of(numbers, type_name, validity), numbers


def random_bools(r, count, _depth, validity, _is_valid):
    truths = [r.random() < 0.5 for _ in range(count)]
    return bits_of(r, truths, validity), truths


def view_of(r, value, buffers, known):
    """The view of a value; a long one is put into one of the buffers, or lies where it was put before."""
    if len(value) <= 12:
        return struct.pack("<I12s", len(value), value)
    if value not in known or r.random() < 0.5:
        place = r.randrange(len(buffers))
        known[value] = place, len(buffers[place])
        buffers[place] += value + b"\xff" * r.randrange(3)
    return struct.pack("<I4sII", len(value), value[:4], *known[value])


def random_values(r, count, _depth, validity, is_valid):
    """Texts or byte lists, of which some stand in several rows; the view of a null row is of no matter."""
    binary = r.random() < 0.5
    texts = ["".join(r.choice("a\u00e9\u4e2d\U0001f600") for _ in range(r.randrange(16))) for _ in range(count)]
    texts = [r.choice(texts) if r.random() < 0.3 else text for text in texts]
    given = [text.encode() for text in texts]
    values = [text[::-1] + b"\xfe" * (len(text) % 3) for text in given] if binary else given
    buffers, known = [bytearray(b"\xff" * r.randrange(3)) for _ in range(3)], {}
    views = [view_of(r, v, buffers, known) if ok else r.getrandbits(128).to_bytes(16, "big") for v, ok in zip(values, is_valid)]
    return Column.views(b"".join(views), buffers, validity, binary), values if binary else texts


def random_dictionary(r, count, depth, validity, is_valid):
    values, rows = random_column(r, r.randrange(1, 5), depth - 1)
    codes = [r.randrange(len(rows)) for _ in range(count)]
    column = Column.dictionary(numbers_of(codes, r.choice(list(LETTERS)), validity), values)
    return column, [rows[code] if ok else None for code, ok in zip(codes, is_valid)]


def random_lists_of_one_size(r, count, depth, validity, _is_valid):
    size = r.randrange(3)
    elements, rows = random_column(r, size * count, depth - 1)
    return Column.fixed_size_lists(elements, size, count, validity), [rows[i * size : (i + 1) * size] for i in range(count)]


def random_lists(r, count, depth, validity, _is_valid):
    total = r.randrange(9)
    elements, rows = random_column(r, total, depth - 1)
    starts = [r.randrange(total + 1) for _ in range(count)]
    sizes = [r.randrange(total - start + 1) for start in starts]
    offsets, counts = (numbers_of(numbers, r.choice(list(LETTERS))) for numbers in (starts, sizes))
    return Column.list_views(elements, offsets, counts, validity), [rows[s : s + n] for s, n in zip(starts, sizes)]


def random_records(r, count, depth, validity, _is_valid):
    """Records of up to three columns, of which two may have one name: then their rows are pairs."""
    names = [r.choice(["a", "b", "c", "\u00e9"]) for _ in range(r.randrange(4))]
    columns = [random_column(r, count, depth - 1) for _ in names]
    made = dict if len(set(names)) == len(names) else list
    rows = [made((name, rows[i]) for name, (_, rows) in zip(names, columns)) for i in range(count)]
    return Column.records([(name, column) for name, (column, _) in zip(names, columns)], count, validity), rows


LEAVES = (random_numbers, random_bools, random_values)
NESTS = (random_dictionary, random_lists_of_one_size, random_lists, random_records)


def random_column(r, count, depth):
    """A column of so many rows, and its rows."""
    made = r.choice(LEAVES + NESTS if depth else LEAVES)
    validity, is_valid = random_validity(r, count)
    column, rows = made(r, count, depth, validity, is_valid)
    return column, [row if ok else None for row, ok in zip(rows, is_valid)]
