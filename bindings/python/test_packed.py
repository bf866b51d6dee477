"""The packed form: by hand, and of random columns, each beside a second reading and beside another column of the same rows; what goes
out to Arrow, of which no byte is one of rows that were cut away; fields of records. The last line is 'N passed, M failed'."""

import ctypes
import random
import struct
import traceback

import stand_in as of
from codrask import Column, Refused, Step, run
from codrask.library import ArrowArray, ArrowSchema
from codrask.packing import bits_of, takes_more
from packed_form import Node, kind_of, packed, words
from random_columns import LETTERS, numbers_of, random_column

COUNT = 10000
LONG = "a text of more than twelve bytes"


def made(rows, type):
    return Column.from_pylist(rows, type)


def nodes_of(column):
    """The nodes of a column as the second reading tells of them: each from its first bit on."""
    assert not any(node.offset for node in column._nodes)
    memory = ((node, bytes(node.bytes), bytes(node.views), tuple(map(bytes, node.buffers))) for node in column._nodes)
    return [Node(node.kind, node.validity, node.length, node.size, *parts) for node, *parts in memory]


def i32(*numbers):
    return struct.pack(f"<{len(numbers)}i", *numbers)


# ---- by hand

ZEROES = bytes(16)
X, ABC = b"\1\0\0\0x" + bytes(11), b"\3\0\0\0abc" + bytes(9)
LONG_AT_0, LONG_AT_32 = (b"\x20\0\0\0a te\0\0\0\0" + place for place in (bytes(4), b"\x20\0\0\0"))
BY_HAND = [
    ("bool", [True, False, True], [Node(0, 0, 3, 0, b"\5")]),
    ("bool?", [True, None, False, True, True, None, False, True, True], [Node(0, 3, 9, 0, b"\x99\1"), Node(0, 0, 9, 0, b"\xdd\1")]),
    ("u8?", [7, None, 9], [Node(1, 3, 3, 0, b"\7\0\x09"), Node(0, 0, 3, 0, b"\5")]),
    ("i16", [-2, 1], [Node(6, 0, 2, 0, b"\xfe\xff\1\0")]),
    ("i64?", [None], [Node(8, 2, 1, 0, bytes(8))]),
    ("u32?", [1], [Node(3, 1, 1, 0, b"\1\0\0\0")]),
    ("text", ["abc", LONG, "", LONG], [Node(9, 0, 4, 0, b"", ABC + LONG_AT_0 + ZEROES + LONG_AT_32, (2 * LONG.encode(),))]),
    ("bytes?", [None, b"abc"], [Node(10, 3, 2, 0, b"", ZEROES + ABC), Node(0, 0, 2, 0, b"\2")]),
    (
        "list<u8?>?",
        [[1, None], None, [], [3]],
        [
            Node(13, 3, 4),
            Node(0, 0, 4, 0, b"\x0d"),
            Node(1, 3, 3, 0, b"\1\0\3"),
            Node(0, 0, 3, 0, b"\5"),
            Node(7, 0, 4, 0, i32(0, 2, 2, 2)),
            Node(7, 0, 4, 0, i32(2, 0, 0, 1)),
        ],
    ),
    ("list<u8, 2>?", [[1, 2], None], [Node(12, 3, 2, 2), Node(0, 0, 2, 0, b"\1"), Node(1, 0, 4, 0, b"\1\2\0\0")]),
    (
        "list<u8?, 2>?",
        [None, [1, None]],
        [Node(12, 3, 2, 2), Node(0, 0, 2, 0, b"\2"), Node(1, 3, 4, 0, b"\0\0\1\0"), Node(0, 0, 4, 0, b"\4")],
    ),
    (
        "records<a: u8, b: text?>?",
        [None, {"a": 1, "b": "x"}],
        [
            Node(14, 3, 2, 0, b"", b"", (b"a", b"b")),
            Node(0, 0, 2, 0, b"\2"),
            Node(1, 0, 2, 0, b"\0\1"),
            Node(9, 3, 2, 0, b"", ZEROES + X),
            Node(0, 0, 2, 0, b"\2"),
        ],
    ),
    (
        "records<a: records<b: list<u8>>>?",
        [None],
        [
            Node(14, 2, 1, 0, b"", b"", (b"a",)),
            Node(14, 0, 1, 0, b"", b"", (b"b",)),
            Node(13, 0, 1),
            Node(1, 0, 0),
            Node(7, 0, 1, 0, i32(0)),
            Node(7, 0, 1, 0, i32(0)),
        ],
    ),
    ("list<text?>?", [], [Node(13, 1, 0), Node(9, 1, 0), Node(7, 0, 0), Node(7, 0, 0)]),
    ("records<>", [{}, {}], [Node(14, 0, 2)]),
    ("list<u8, 0>", [[], []], [Node(12, 0, 2), Node(1, 0, 0)]),
]


def test_by_hand():
    for type, rows, nodes in BY_HAND:
        assert packed(kind_of(type), rows) == nodes, (type, packed(kind_of(type), rows))
        assert nodes_of(made(rows, type).pack()) == nodes, (type, nodes_of(made(rows, type).pack()))


def test_layouts_of_parts():
    """A validity, offsets, sizes and codes may have any layout; packed they are bits and numbers."""
    valid = Column.dictionary(numbers_of([1, 0, 1], "i8"), Column.bools(b"\2", 2))
    starts, sizes = (Column.dictionary(numbers_of(codes, "u8"), numbers_of([0, 2], "u64")) for codes in ([1, 1, 0], [0, 1, 1]))
    lists = Column.list_views(numbers_of([1, 2, 3, 4], "u16"), starts, sizes, valid)
    assert nodes_of(lists.pack()) == [
        Node(13, 3, 3),
        Node(0, 0, 3, 0, b"\5"),
        Node(2, 0, 2, 0, b"\1\0\2\0"),
        Node(7, 0, 3, 0, i32(0, 0, 0)),
        Node(7, 0, 3, 0, i32(0, 0, 2)),
    ]
    codes = Column.dictionary(numbers_of([0, 1], "u8"), numbers_of([1, 0], "u8", Column.bools(b"\1", 2)))
    assert nodes_of(Column.dictionary(codes, made(["x", "abc"], "text")).pack()) == [
        Node(9, 3, 2, 0, b"", ABC + ZEROES),
        Node(0, 0, 2, 0, b"\1"),
    ]


CARRIED = [
    ("f64", [1.5, 2.5], [(b"\0g",), Node(4, 0, 2, 0, struct.pack("<d", 1.5) + bytes(8))]),
    ("w:3", [b"abc", b"def"], [(b"\0w:3",), Node(12, 0, 2, 3), Node(1, 0, 6, 0, b"abc\0\0\0")]),
    ("decimal d:5,0", [-1, 7], [(b"\0d:5,0",), Node(12, 0, 2, 16), Node(1, 0, 32, 0, b"\xff" * 16 + bytes(16))]),
    (
        "map<text, u8>",
        [[("x", 1)], [("abc", 2)]],
        [
            (b"\0+m",),
            Node(13, 0, 2, 0, b"", b"", (b"entries",)),
            Node(14, 0, 1, 0, b"", b"", (b"key", b"value")),
            Node(9, 0, 1, 0, b"", X),
            Node(1, 0, 1, 0, b"\1"),
            Node(7, 0, 2, 0, i32(0, 1)),
            Node(7, 0, 2, 0, i32(1, 0)),
        ],
    ),
    ('extension<"e", text>', ["x", "abc"], [(b"\0\0e",), Node(9, 0, 2, 0, b"", X + ZEROES)]),
    ("ordered dictionary<u8, text>", ["x", "abc"], [(b"\0ordered",), Node(9, 0, 2, 0, b"", X + ZEROES)]),
]


def test_carried():
    """What is carried is zero bytes of its width where a mask made it null, and goes out in its format."""
    mask = Column.bools(b"\1", 2)
    for type, rows, (names, *nodes) in CARRIED:
        [masked] = run([made(rows, type), mask], [Step.mask(0, 1)])
        column = masked.pack()
        wanted = [Node(14, 3, 2, 0, b"", b"", names), Node(0, 0, 2, 0, b"\1")]
        told = [node._replace(buffers=()) if node.buffers == (b"entries",) else node for node in nodes]
        assert nodes_of(column) == [*wanted, *told], (type, nodes_of(column))
        assert column.to_pylist() == [rows[0], None] and column.null_count == 1, (type, column)
        assert Column.from_arrow(column).to_pylist() == [rows[0], None], type
        assert nodes_of(made(rows, type).pack())[:1] == [Node(14, 0, 2, 0, b"", b"", names)], type
    nulls = made([None, None], "null")
    assert nodes_of(nulls.pack()) == [Node(14, 2, 2, 0, b"", b"", (b"\0n",)), Node(12, 0, 2), Node(1, 0, 0)]
    assert nulls.slice(2).to_arrow().schema.format == b"n" and nulls.pack().type == "null"


def test_dictionaries_go_out_plain():
    ordered = made(["x", "abc", "x"], "ordered dictionary<u8, text>")
    plain = ordered.to_arrow()
    assert (plain.schema.format, plain.schema.dictionary, plain.schema.flags) == (b"vu", None, 0)
    kept = ordered.to_arrow(packed=False)
    assert (kept.schema.format, kept.schema.dictionary.format, kept.schema.flags) == (b"C", b"vu", 1)
    assert Column.from_arrow(kept).type == ordered.type and Column.from_arrow(ordered).type == "text"
    for cut in (ordered.pack(), ordered.slice(0)):
        assert cut == ordered and cut.type == "text" and cut.to_pylist() == ["x", "abc", "x"], cut
    both = made(["x", None], "dictionary<u8?, text>")
    assert both.to_arrow().schema.format == b"vu" and both.to_arrow(packed=False).schema.format == b"C"


def test_names_of_elements():
    elements = of.lists([[1], [2]], of.numbers)
    whole = of.records({"a": elements, "b": of.dictionary([0, 1], of.lists_of_one_size([[1], [2]], 1, of.numbers))}, 2)
    elements.names, whole.children[1].dictionary.names = ["one"], ["other"]
    schema = Column.from_arrow(whole).to_arrow().schema
    assert [child.children[0].name for child in schema.children] == [b"one", b"other"]
    entries = made([[("x", 1)]], "map<text, u8>").to_arrow().schema.children[0]
    assert (entries.name, [child.name for child in entries.children]) == (b"entries", [b"key", b"value"])
    of.releases()


# ---- random columns, each beside the second reading

def cut(r, column, kind, rows):
    """What some steps make of a column, with its kind and its rows."""
    count = len(rows)
    way = r.randrange(5)
    if way == 0:
        start = r.randrange(count + 1)
        end = r.randrange(start, count + 1)
        return column.slice(start, end), kind, rows[start:end]
    mask = [r.random() < 0.6 for _ in rows]
    if way == 1:
        return column.filter(made(mask, "bool")), kind, [row for row, kept in zip(rows, mask) if kept]
    if way == 2:
        [masked] = run([column, made(mask, "bool")], [Step.mask(0, 1)])
        return masked, kind._replace(nullable=True), [row if kept else None for row, kept in zip(rows, mask)]
    places = [r.randrange(count) for _ in range(r.randrange(9))] if count else []
    if way == 3:
        return column.take(made(places, "u16")), kind, [rows[place] for place in places]
    places += [None] * r.randrange(2)
    taken = [None if place is None else rows[place] for place in places]
    return column.take(made(places, "i64?")), kind._replace(nullable=True), taken


def coded(r, kind, rows):
    """The rows as codes and values in some order. Null is a null code, where no value is."""
    values, without = words(kind), kind.nullable and r.random() < 0.5
    if without:
        values = words(kind._replace(nullable=False))
    order = [place for place, row in enumerate(rows) if not without or row is not None]
    r.shuffle(order)
    codes = [None if without and row is None else order.index(place) for place, row in enumerate(rows)]
    type = r.choice(list(LETTERS) if len(order) < 128 else ["u16", "i64"])
    return Column.dictionary(made(codes, type + "?" * without), made([rows[place] for place in order], values))


def in_another_layout(r, kind, rows):
    """Another column of the same rows."""
    way = r.randrange(3)
    if way == 0:
        return made(rows, words(kind))
    if way == 1:
        return coded(r, kind, rows)
    back = made(range(len(rows))[::-1], "u16")
    return made(rows, words(kind)).take(back).take(back)


def random_cut(r):
    """A random column, after some steps or none, with its kind and its rows."""
    column, rows = random_column(r, r.randrange(300 if r.random() < 0.02 else 9), 3)
    kind = kind_of(column.type)
    while r.random() < 0.4:
        column, kind, rows = cut(r, column, kind, rows)
    return column, kind, rows


def each_seed(count, test):
    """Makes a test with so many seeds, and tells which one it fails with."""
    for seed in range(count):
        try:
            test(random.Random(seed))
        except Exception:
            print(f"seed {seed}")
            raise


def test_random_columns():
    """Ten thousand columns, and beside each another one of the same rows."""
    sizes = set()

    def pack_both(r):
        column, kind, rows = random_cut(r)
        wanted = packed(kind, rows)
        sizes.add(len(wanted))
        for one in (column, in_another_layout(r, kind, rows)):
            assert nodes_of(one.pack()) == wanted, (one, rows, nodes_of(one.pack()), wanted)

    each_seed(COUNT, pack_both)
    assert max(sizes) > 20


def test_random_columns_of_other_rows():
    """Columns of one type whose rows differ pack to other bytes."""
    met = set()

    def pack_others(r):
        column, rows = random_column(r, r.randrange(1, 5), 3)
        kind, others = kind_of(column.type), list(rows)
        others[r.randrange(len(rows))] = r.choice(rows)
        equal = nodes_of(column.pack()) == nodes_of(in_another_layout(r, kind, others).pack())
        assert equal == (others == rows), (column, rows, others)
        met.add(equal)

    each_seed(1000, pack_others)
    assert met == {True, False}


# ---- what goes out to Arrow

WIDTHS = {b"c": 1, b"C": 1, b"s": 2, b"S": 2, b"i": 4, b"I": 4, b"l": 8, b"L": 8, b"g": 8, b"w:16": 16}


def arrays_of(schema, array):
    """Each array of a written column, with its schema."""
    waiting = [(schema, array)]
    while waiting:
        schema, array = waiting.pop()
        yield schema, array
        for place in range(schema.n_children):
            waiting.append((schema.children[place].contents, array.children[place].contents))
        if schema.dictionary:
            waiting.append((schema.dictionary.contents, array.dictionary.contents))


def sizes_of(format, array):
    """How many bytes the rows of an array need of each buffer."""
    count, start = array.length, array.buffers
    valid = [(count + 7) // 8 if array.n_buffers and start[0] else 0]
    if format in WIDTHS:
        return valid + [WIDTHS[format] * count]
    if format in (b"vu", b"vz"):
        heaps = list((ctypes.c_int64 * (array.n_buffers - 3)).from_address(start[array.n_buffers - 1]))
        return valid + [16 * count] + heaps + [8 * len(heaps)]
    if format in (b"u", b"z"):
        return valid + [4 * count + 4, ctypes.c_int32.from_address(start[1] + 4 * count).value]
    rest = {b"b": [(count + 7) // 8], b"+vL": [8 * count] * 2, b"+l": [4 * count + 4], b"+m": [4 * count + 4], b"+s": [], b"n": []}
    return [] if format == b"n" else valid + ([] if format[:3] == b"+w:" else rest[format])


def buffers_of(made):
    """All buffers of an Arrow array that was written."""
    found = []
    for schema, array in arrays_of(ArrowSchema.from_address(made.schema_pointer), ArrowArray.from_address(made.array_pointer)):
        sizes = sizes_of(schema.format, array)
        found += [ctypes.string_at(array.buffers[place], size) for place, size in enumerate(sizes) if size]
    return found


def bytes_out(column, **how):
    """How many bytes the buffers have as which a column goes out."""
    return sum(map(len, buffers_of(column.to_arrow(**how))))


def test_bytes_out():
    texts = made([f"a text of {i:010}" for i in range(1000)], "text")  # of 20 bytes each
    kept = texts.filter([i in (7, 500) for i in range(1000)])
    assert bytes_out(kept) == 2 * 16 + 2 * 20 + 8  # views, their bytes, the size of the buffer
    assert bytes_out(kept, by_offsets=True) == 3 * 4 + 2 * 20
    assert bytes_out(kept, packed=False) == 2 * 16 + 1000 * 20 + 8
    lists = made([[i] * 10 for i in range(100)], "list<i64>").slice(40, 41)
    assert bytes_out(lists) == 8 + 8 + 10 * 8  # an offset, a size, the elements
    assert bytes_out(lists, by_offsets=True) == 2 * 4 + 10 * 8
    assert bytes_out(lists, packed=False) == 8 + 8 + 1000 * 8
    pairs = made([None, ["x", None], [LONG]], "list<text?>?").take([1, 0])
    assert bytes_out(pairs) == 1 + 2 * 16 + 1 + 2 * 16  # bits, offsets and sizes, bits, views
    records = made([{"a": i, "b": [i, i]} for i in range(9)], "records<a: u8, b: list<u16, 2>?>").slice(3, 5)
    assert bytes_out(records) == 2 + 2 * 2 * 2
    assert bytes_out(made(["x" * 20] * 3, "dictionary<u8, text>")) == 3 * 16 + 3 * 20 + 8
    assert bytes_out(made([True] * 99, "bool").slice(1, 18)) == 3 and bytes_out(made([0.5] * 9, "f64?").slice(7)) == 16
    assert bytes_out(made([None] * 9, "null").slice(4)) == 0 and bytes_out(made([], "text")) == 0


MARK = "~MARKED~"


def row_of(kind, mark):
    """A row that is marked in each value, or in none."""
    text = MARK * 3 if mark else "kept"
    if kind.word in ("list", "fixed"):
        return [row_of(kind.parts[0], mark)] * (kind.size or 2)
    if kind.word == "records":
        return {name: row_of(part, mark) for name, part in zip(kind.names, kind.parts)}
    rows = {"text": text, "bytes": text.encode(), "u64": int.from_bytes(MARK.encode(), "little") if mark else 7}
    rows.update({"f64": struct.unpack("<d", MARK.encode())[0] if mark else 0.5, "w:16": (MARK * 2).encode() if mark else bytes(16)})
    return rows[kind.word]


MARKED = """text|bytes?|u64|u64?|f64?|w:16|list<text>?|list<u64?>|list<list<bytes?>>|list<u64, 2>|list<list<text>, 2>?
records<a: text, b: u64>?|records<a: list<text?>?, b: records<c: u64, d: f64>>|dictionary<u8, text>|dictionary<i16, u64>|list<dictionary<u8, text?>>"""


def cut_ways(column):
    """The second and the fourth of four rows, by several steps; the last one leaves nulls in place of the others."""
    mask = Column.bools(b"\x0a", 4)
    yield column.filter(mask)
    yield column.take([3, 1])
    yield column.slice(1, 2)
    yield column[3:]
    yield run([column, mask], [Step.mask(0, 1)])[0]


def is_marked(buffers):
    return any(MARK.encode() in bytes(buffer) for buffer in buffers)


def test_no_byte_of_rows_that_were_cut_away():
    met = set()
    for type in MARKED.replace("\n", "|").split("|"):
        column = made([row_of(kind_of(type), mark) for mark in (True, False, True, False)], type)
        assert is_marked(buffers_of(column.to_arrow())), type
        for way, kept in enumerate(cut_ways(column)):
            assert not is_marked(view for node in kept.pack()._nodes for view in node.memory), (type, way)
            for by_offsets in (False, True):
                out = kept.to_arrow(by_offsets)
                assert not is_marked(buffers_of(out)), (type, way, by_offsets)
                assert Column.from_arrow(out).to_pylist() == kept.to_pylist(), (type, way)
            met.add(is_marked(buffers_of(kept.to_arrow(packed=False))))
            assert Column.from_arrow(kept) == Column.from_arrow(kept.to_arrow()), (type, way)
    assert met == {True, False}


def test_no_byte_that_no_row_has():
    """Heaps with bytes between the values, elements of no list, values that no code names, and what lies at null rows."""
    view = struct.pack("<I4sII", 20, b"abcd", 1, 24)
    heaps = [MARK.encode() * 3, MARK.encode() * 3 + b"abcdefghijklmnopqrst" + MARK.encode()]
    texts = Column.views(view + MARK.encode() * 2, heaps, Column.bools(b"\1", 2))
    elements = made([MARK * 2, "kept", MARK, "kept"], "text")
    lists = Column.list_views(elements, made([3, 1, 0], "u8"), made([1, 1, 1], "u8"), Column.bools(b"\3", 3))
    named = Column.dictionary(made([1, 3], "i8"), elements)
    records = Column.records({"a": elements}, 4, Column.bools(b"\x0a", 4))
    wanted = [["abcdefghijklmnopqrst", None], [["kept"], ["kept"], None], ["kept"] * 2, [None, {"a": "kept"}] * 2]
    for column, rows in zip((texts, lists, named, records), wanted):
        out = column.to_arrow()
        assert not is_marked(buffers_of(out)) and Column.from_arrow(out).to_pylist() == rows, rows
        if column is not texts:
            assert is_marked(buffers_of(column.to_arrow(packed=False))), rows


def test_lists_lie_one_after_another():
    apart = Column.list_views(made([1, 2, 3, 4], "u8"), made([2, 0], "u8"), made([2, 1], "u8"))
    out = apart.to_arrow(by_offsets=True)
    assert out.schema.format == b"+l" and Column.from_arrow(out).to_pylist() == [[3, 4], [1]]
    try:
        apart.to_arrow(by_offsets=True, packed=False)
    except Refused as refused:
        assert (refused.name, refused.node, refused.row) == ("NotEndToEnd", 0, 1), refused
    else:
        raise AssertionError("lists that lie apart")


# ---- how many bytes it takes

def bits_of_row(kind, row):
    """How many bits the values of a row have: those of its numbers and views, and what these refer to."""
    if kind.word == "fixed":
        return sum(bits_of_row(kind.parts[0], item) for item in (row or [None] * kind.size))
    if kind.word == "list":
        return sum(bits_of_row(kind.parts[0], item) for item in row or [])
    if kind.word == "records":
        fields = row.values() if isinstance(row, dict) else [None] * len(kind.parts) if row is None else [value for _, value in row]
        return sum(map(bits_of_row, kind.parts, fields))
    if kind.word in ("text", "bytes"):
        size = len(row.encode() if kind.word == "text" else row) if row is not None else 0
        return 128 + 8 * size * (size > 12)
    return 1 if kind.word == "bool" else int(kind.word[1:])


def test_bytes_are_counted_before():
    def count_bits(r):
        column, rows = random_column(r, r.randrange(9), 3)
        kind, nodes = kind_of(column.type), column.check()._nodes
        bits = sum(bits_of_row(kind, row) for row in rows)
        assert bits_of(nodes) == bits, (column, rows)
        assert not takes_more(nodes, (bits + 7) // 8) and (bits < 8 or takes_more(nodes, bits // 8 - 1)), (column, rows)

    each_seed(1500, count_bits)


def refused(call):
    try:
        call()
    except Refused as fault:
        return fault.name, fault.node
    return None


def test_limits():
    many, count = made([0] * 2**16, "u64"), 2**16
    lists = Column.list_views(many, made([0] * count, "u8"), made([count] * count, "u32"))
    for call in (lists.to_arrow, lists.__arrow_c_array__, lambda: Column.from_arrow(lists)):
        assert refused(call) == ("TooManyBytes", 0)
    assert refused(lambda: lists.to_arrow(packed=False)) is None
    texts = made(["x" * 20] * 3, "dictionary<u8, text>")
    assert refused(lambda: texts.to_arrow(most_bytes=107)) == ("TooManyBytes", 0)
    assert refused(lambda: texts.to_arrow(most_bytes=3 * 36 + 8)) is None
    none = Column.fixed_size_lists(Column.views(b"", [b"x"]), 0, 2**60)
    assert none.to_arrow().array.length == 2**60 and refused(lambda: none.to_arrow(most_bytes=1)) is None


# ---- fields of records

def test_fields():
    columns = {"a": made([1, 2], "u8"), "b c": made(["x", None], "text?"), "d": made([0.5, 1.5], "f64")}
    told = [
        (None, ["u8", "text?", "f64"], [[1, 2], ["x", None], [0.5, 1.5]]),
        (True, ["u8", "text?", "f64"], [[1, 2], ["x", None], [0.5, 1.5]]),
        (False, ["u8?", "text?", "f64?"], [[None, None]] * 3),
        (Column.bools(b"\2", 2), ["u8?", "text?", "f64?"], [[None, 2], [None, None], [None, 1.5]]),
    ]
    for validity, types, rows in told:
        records = Column.records(columns, 2, validity)
        fields = [records.field(name) for name in columns]
        assert [field.type for field in fields] == types, (validity, fields)
        assert [field.to_pylist() for field in fields] == rows, (validity, fields)
    assert records.field("b c").to_arrow().schema.name == b"b c" and records.field(b"a") == records.field("a")
    assert run([records], [Step.field(0, "a"), Step.pack(1)], [1, 2])[1] == records.field("a")
    twice = Column.records([("b", columns["d"]), ("a", columns["a"]), ("a", columns["d"])], 2)
    assert twice.field("a") == columns["a"]


def stopped(columns, *steps):
    try:
        run(columns, steps)
    except Refused as fault:
        return fault.name, fault.step
    return None


def test_fields_that_are_none():
    numbers, records = made([1, 2], "u8"), Column.records({"a": made([1, 2], "u8")}, 2)
    assert stopped([records], Step.field(0, "b")) == ("UnknownField", 0)
    assert stopped([numbers], Step.field(0, "a")) == ("MismatchedTypes", 0)
    assert stopped([Column.dictionary(numbers_of([0], "u8"), records)], Step.field(0, "a")) == ("MismatchedTypes", 0)
    assert stopped([records], Step.field(7, "a")) == ("OutOfBounds", 0) == stopped([records], Step.pack(7))
    assert stopped([records], Step.field(0, b"\xff")) == ("NotUtf8", 0)


passed = failed = 0
for name, test in sorted(globals().items()):
    if name.startswith("test_"):
        try:
            test()
            passed += 1
        except Exception:
            print(name)
            traceback.print_exc()
            failed += 1
print(f"{passed} passed, {failed} failed")
raise SystemExit(failed != 0)
