"""Columns of Python values, and the columns that are carried: their bytes as Arrow's formats have them, their rows, and what
does not fit, refused by its place. The last line is 'N passed, M failed'."""

import ctypes
import decimal
import json
import math
import random
import struct
import traceback
from decimal import Decimal

import stand_in as of
from codrask import Column
from codrask import made as values_of

LONG = "a text of more than twelve bytes"


def made(rows, type):
    return Column.from_pylist(rows, type)


def error_of(rows, type):
    try:
        made(rows, type)
    except Exception as error:
        return f"{__builtins__.type(error).__name__}: {error}"
    return None


def test_each_type():
    """What is made of rows has these rows, this type, and passes; it also goes out to Arrow and comes in again."""
    told = {
        "bool": [True, False] * 9,
        "bool?": [True, None, False],
        "text": ["", "a", "twelve bytes", LONG, "\u00e9\U0001f600" * 9, "a\0b"],
        "text?": [None, "a", LONG, None],
        "bytes": [b"", b"\xff", bytes(range(256))],
        "list<i64>": [[1, 2], [], [3]],
        "list<text?>?": [["a", None], None, []],
        "list<list<u8>, 2>?": [[[1], []], None],
        "list<records<>, 0>": [[], []],
        "records<>?": [{}, None],
        "records<a: i32, b: text?>": [{"a": 1, "b": None}, {"a": -1, "b": LONG}],
        "records<a: records<b: list<u8, 2>, c: text, d: tdD>>?": [None, {"a": {"b": [1, 2], "c": "x", "d": 3}}],
        "records<a: u8, a: u8>": [[("a", 1), ("a", 2)]],
        'records<"a, b>": u8, \u00e9: u8>': [{"a, b>": 1, "\u00e9": 2}],
        "dictionary<u8, text>": ["a", "b", "a"],
        "dictionary<i16?, i64?>": [7, None, 7],
        "list<dictionary<u8, records<a: u8>>>": [[], []],
        "ordered dictionary<u8, text>": ["b", "a", "b"],
        'extension<"arrow.uuid", w:16>?': [b"a" * 16, None],
        'extension<"geo", text?>': ["a", None],
        'extension<"a, b>", list<i64>>': [[1], [2, 3]],
        'list<extension<"x", records<a: extension<"y", f64>?>>>?': [[{"a": 0.5}, {"a": None}], None],
        'extension<"e", ordered dictionary<i8, i32>>': [7, 8, 7],
        'extension<"m", map<text, u8>>?': [[("a", 1)], None],
        'extension<"n", null>': [None, None],
        "null": [None, None],
        "list<null>": [[None], []],
        "map<text, i32?>?": [[("a", 1), ("b", None)], None, []],
        "map<u8, map<u8, text>>": [[(1, [(2, "a")]), (1, [])]],
        "f16?": [0.5, None, -2.0, math.inf],
        "f32": [0.5, -3.25, 2.0**127],
        "f64": [0.1, -0.0, 1e308, math.inf],
        "w:5": [b"abcde", b"\0\0\0\0\0"],
        "w:0?": [b"", None],
        "w:8": [b"abcdefgh"],
        "decimal d:9,2,32": [Decimal("1.25"), Decimal("-9999999.99")],
        "decimal d:18,0,64?": [Decimal(10**18 - 1), None],
        "decimal d:38,2": [Decimal("1.25"), Decimal("-0.01")],
        "decimal d:76,-3,256": [Decimal("12E+3")],
        "tiD?": [(1, -2), None],
        "tin": [(1, -2, 2**40)],
        **{type: [-(2**31), 2**31 - 1] for type in ("tdD", "tts", "ttm", "tiM")},
        **{type: [-(2**63), 2**63 - 1] for type in ("tdm", "ttu", "ttn", "tDs", "tDm", "tDu", "tDn", "tsn:", "tsu:Europe/Berlin")},
        '"tss:a zone, of one\'s own"': [1],
    }
    for type, rows in told.items():
        for count in (len(rows), 0):
            column = made(rows[:count], type)
            assert column.type == type and column.to_pylist() == rows[:count] and list(column) == rows[:count], (type, column)
            again = Column.from_arrow(column.to_arrow(packed=False))
            assert again == column and again.type.replace("?", "") == type.replace("?", ""), (type, again)
            assert column.slice(0) == column and Column.from_arrow(column).to_pylist() == rows[:count], type


def test_integers():
    for type, letter in {"u8": "B", "u16": "H", "u32": "I", "u64": "Q", "i8": "b", "i16": "h", "i32": "i", "i64": "q"}.items():
        bits = int(type[1:])
        least, most = (-(2 ** (bits - 1)), 2 ** (bits - 1) - 1) if type[0] == "i" else (0, 2**bits - 1)
        column = made([least, most, 7], type)
        assert column == Column.numbers(type, struct.pack(f"<3{letter}", least, most, 7)) and column.to_pylist() == [least, most, 7]
        for wrong in (least - 1, most + 1):
            told = f"ValueError: rows[2] takes an integer from {least} to {most}, not {wrong}"
            assert error_of([7, None, wrong], type + "?") == told


# ---- random types, with rows by plain loops

LEAVES = {
    "bool": lambda r: r.random() < 0.5,
    "i16": lambda r: r.randrange(-(2**15), 2**15),
    "u64": lambda r: r.getrandbits(64),
    "text": lambda r: "".join(r.choice("a\u00e9\U0001f600") for _ in range(r.randrange(9))),
    "bytes": lambda r: bytes(r.getrandbits(8) for _ in range(r.randrange(20))),
    "f64": lambda r: r.uniform(-1e9, 1e9),
    "f16": lambda r: r.randrange(-1000, 1000) / 2,
    "w:5": lambda r: r.getrandbits(40).to_bytes(5, "big"),
    "w:4": lambda r: r.getrandbits(32).to_bytes(4, "big"),
    "decimal d:20,3": lambda r: Decimal(r.randrange(-(10**20) + 1, 10**20)).scaleb(-3),
    "tdD": lambda r: r.randrange(-(2**31), 2**31),
    "tin": lambda r: (r.randrange(-9, 9), r.randrange(-9, 9), r.randrange(-(2**63), 2**63)),
}


def random_type(r, depth):
    """A type, and what makes a row of it."""
    if depth == 0 or r.random() < 0.3:
        word = r.choice(list(LEAVES))
        type, row = word, LEAVES[word]
    else:
        type, row = r.choice((random_list, random_list_of_one_size, random_records, random_map, random_extension))(r, depth - 1)
    if r.random() < 0.5 and not type.endswith("?") and not type.startswith("extension"):
        return f"{type}?", lambda r: None if r.random() < 0.3 else row(r)
    return type, row


def random_list(r, depth):
    type, row = random_type(r, depth)
    return f"list<{type}>", lambda r: [row(r) for _ in range(r.randrange(4))]


def random_list_of_one_size(r, depth):
    (type, row), size = random_type(r, depth), r.randrange(4)
    return f"list<{type}, {size}>", lambda r: [row(r) for _ in range(size)]


def random_records(r, depth):
    names = r.sample(["a", "b c", "\u00e9", "", '"'], r.randrange(4))
    columns = {name: random_type(r, depth) for name in names}
    types = ", ".join(f"{name if name in ('a', chr(233)) else json.dumps(name)}: {type}" for name, (type, _) in columns.items())
    return f"records<{types}>", lambda r: {name: row(r) for name, (_, row) in columns.items()}


def random_map(r, depth):
    type, row = random_type(r, depth)
    return f"map<text, {type}>", lambda r: [(LEAVES["text"](r), row(r)) for _ in range(r.randrange(3))]


def random_extension(r, depth):
    type, row = random_type(r, 0)
    within, null = type.rstrip("?"), "?" * type.endswith("?")
    is_carried = within[0] in "fwdt" and within != "text"  # then the nulls are those of the records around
    return (f'extension<"x", {within}>{null}' if is_carried else f'extension<"x", {type}>'), row


def test_random_types():
    """Whatever the type: rows come out as they went in, also of what went to Arrow and back, and what was taken."""
    for seed in range(600):
        r = random.Random(seed)
        type, row = random_type(r, 3)
        rows = [row(r) for _ in range(r.randrange(7))]
        column = made(rows, type)
        assert column.type == type and column.to_pylist() == rows, (seed, type, column.type)
        again = Column.from_arrow(column)
        assert again == column and again.to_pylist() == rows and list(again) == rows, (seed, type)
        places = [r.randrange(len(rows)) for _ in range(5)] if rows else []
        assert column.take(places).to_pylist() == [rows[place] for place in places], (seed, type)
        assert column.null_count == sum(one is None for one in rows), (seed, type)


# ---- what is carried, as its bytes

def buffer_of(column, format, size):
    """The bytes of the values of a column that was written, under a format."""
    arrow = column.to_arrow()
    assert arrow.schema.format == format.encode(), arrow.schema.format
    return ctypes.string_at(arrow.array.buffers[1], size)


def test_bytes_of_formats():
    """Values lie as Arrow's Columnar Format has them: little-endian, decimals as two's complement of their width."""
    told = [
        ("f64", "g", [1.5, -0.0], struct.pack("<2d", 1.5, -0.0)),
        ("f32", "f", [1.5, 2], struct.pack("<2f", 1.5, 2)),
        ("f16", "e", [1.5], b"\x00\x3e"),
        ("tdD", "tdD", [-1, 2], b"\xff\xff\xff\xff\x02\0\0\0"),
        ("tsu:UTC", "tsu:UTC", [-2], b"\xfe" + b"\xff" * 7),
        ("tiD", "tiD", [(1, -1)], b"\x01\0\0\0\xff\xff\xff\xff"),
        ("tin", "tin", [(1, 2, -1)], b"\x01\0\0\0\x02\0\0\0" + b"\xff" * 8),
        ("w:3", "w:3", [b"abc", b"def"], b"abcdef"),
        ("decimal d:5,2", "d:5,2", [Decimal("1.5"), Decimal("-0.01")], b"\x96" + bytes(15) + b"\xff" * 16),
        ("decimal d:5,2,32", "d:5,2,32", [3], b"\x2c\x01\0\0"),
        ("decimal d:5,-1,64", "d:5,-1,64", [30], b"\x03" + bytes(7)),
        ("decimal d:70,0,256", "d:70,0,256", [-1], b"\xff" * 32),
    ]
    for type, format, rows, data in told:
        assert buffer_of(made(rows, type), format, len(data)) == data, type


def test_formats_of_others():
    """Columns that others made come in under their format, with their nulls."""
    floats = [("g", "f64?", [0.5, None, -1.0]), ("f", "f32?", [0.5, None]), ("e", "f16?", [None, -2.0])]
    for format, type, rows in (*floats, ("tdD", "tdD?", [1, None, -7]), ("tsu:UTC", "tsu:UTC?", [None, 9])):
        for whole in (of.numbers(rows, format), of.Capsules(of.numbers(rows, format))):
            column = Column.from_arrow(whole)
            assert column.type == type and column.to_pylist() == rows and column.null_count == 1, column
            assert column[1:].to_pylist() == rows[1:] and column.to_arrow().schema.format == format.encode()
    decimals = of.Array("d:5,2", 2, [None, b"\x96" + bytes(15) + b"\xff" * 16])
    assert Column.from_arrow(decimals).to_pylist() == [Decimal("1.50"), Decimal("-0.01")]
    nulls = of.Array("n", 3, [], null_count=3)
    assert Column.from_arrow(nulls).to_pylist() == [None] * 3 and Column.from_arrow(nulls).type == "null"
    entries = of.entries(["a", "b", "a"], [1, None, 3])
    whole = of.Array("+m", 2, [None, struct.pack("<3i", 0, 2, 3)], [entries], names=["entries"])
    assert Column.from_arrow(whole).to_pylist() == [[("a", 1), ("b", None)], [("a", 3)]]
    assert Column.from_arrow(whole).type == "map<text, i64?>?"
    of.releases()


def test_values_of_several_buffers():
    """Where values need more than one buffer may have, there are several."""
    rows, most = ["a" * n for n in range(40)], values_of.MOST_HEAP
    values_of.MOST_HEAP = 50
    try:
        column = made(rows, "text")
    finally:
        values_of.MOST_HEAP = most
    sizes = [buffer.nbytes for buffer in column._nodes[0].buffers]
    assert len(sizes) > 10 and max(sizes) <= 50 and sum(sizes) == sum(range(13, 40)) and column.to_pylist() == rows


def test_no_context_rounds():
    with decimal.localcontext() as context:
        context.prec = 3
        rows = [Decimal("1234567890123456789.0123456789"), Decimal("-0.0000000001")]
        column = made(rows, "decimal d:38,10")
        assert column.to_pylist() == rows and str(column[0]) == "1234567890123456789.0123456789"
        assert not context.flags[decimal.Inexact]
    rows = [Decimal("1E+3"), 5, Decimal("0E-99"), Decimal("1.50000"), Decimal("-1.5" + "0" * 6000)]
    assert made(rows, "decimal d:5,1").to_pylist() == [1000, 5, 0, Decimal("1.5"), Decimal("-1.5")]


def test_nulls_around():
    """Where a record or a list of one size is null, its parts hold what they must, and no null where none may be."""
    rows = [None, {"a": [1, 2], "b": "x", "c": Decimal("1.0"), "d": [("k", 1)], "e": None}]
    type = "records<a: list<u8, 2>, b: text, c: decimal d:5,1, d: map<text, u8>, e: null>?"
    assert made(rows, type).check().to_pylist() == rows and made([None] * 3, type).to_pylist() == [None] * 3
    assert made([None, [{"a": 1}]], "list<records<a: u8>, 1>?").to_pylist() == [None, [{"a": 1}]]
    assert made([None, {"d": "x"}], "records<d: dictionary<u8, text>>?").to_pylist() == [None, {"d": "x"}]


# ---- what does not fit

A_TYPE = "type takes a type, as list<i64> or records<a: i32, b: text?>"
A_DECIMAL = "a decimal of 5 digits, 2 of them after the point"


def null_at(place, type):
    return f"ValueError: {place} takes no null under type {type}, which has no '?', not None"


REFUSED = [
    ([1, None], "i32", null_at("rows[1]", "'i32'")),
    ([1, "2"], "i32", "TypeError: rows[1] takes an integer from -2147483648 to 2147483647, not '2'"),
    ([True], "u8", "TypeError: rows[0] takes an integer from 0 to 255, not True"),
    ([1.0], "u8", "TypeError: rows[0] takes an integer from 0 to 255, not 1.0"),
    ([10**6000], "u8", "ValueError: rows[0] takes an integer from 0 to 255, not an integer of 19932 bits"),
    ([True, 1], "bool", "TypeError: rows[1] takes True or False, not 1"),
    (["a", b"b"], "text", "TypeError: rows[1] takes a text, not b'b'"),
    (["a", "\ud800"], "text", "ValueError: rows[1] takes a text that UTF-8 can tell, not '\\ud800'"),
    ([b"a", "b"], "bytes", "TypeError: rows[1] takes bytes, not 'b'"),
    ([[1], 5], "list<u8>", "TypeError: rows[1] takes a list of values, not 5"),
    ([[1], "ab"], "list<u8>", "TypeError: rows[1] takes a list of values, not 'ab'"),
    ([[1], [2, 300]], "list<u8>", "ValueError: rows[1][1] takes an integer from 0 to 255, not 300"),
    ([[1, 2], [1]], "list<u8, 2>", "ValueError: rows[1] takes 2 values, not 1"),
    ([[], [[1], [2, None]]], "list<list<u8>>", null_at("rows[1][1][1]", "'u8'")),
    ([{"a": 1}, {"b": 1}], "records<a: u8>", "ValueError: rows[1] takes a record of the columns 'a', not {'b': 1}"),
    ([{"a": 1, "b": 2}], "records<a: u8>", "ValueError: rows[0] takes a record of the columns 'a', not {'a': 1, 'b': 2}"),
    ([{}], "records<a: u8>", "ValueError: rows[0] takes a record of the columns 'a', not {}"),
    ([{"a": {"b": [-1]}}], "records<a: records<b: list<u8>>>", "ValueError: rows[0].a.b[0] takes an integer from 0 to 255, not -1"),
    ([5], "records<a: u8>", "TypeError: rows[0] takes a list of pairs, or a dictionary, not 5"),
    ([{"a": 1}], "records<a: u8, a: u8>", "ValueError: rows[0] takes a record of the columns 'a', 'a', not {'a': 1}"),
    ([[("a", 1)]], "map<text, text>", "TypeError: rows[0][0][1] takes a text, not 1"),
    ([[("a", "b", "c")]], "map<text, text>", "ValueError: rows[0][0] takes a key and a value, not ('a', 'b', 'c')"),
    ([[None]], "map<text, text>", "TypeError: rows[0][0] takes a key and a value, not None"),
    ([[("a", 1), (None, 2)]], "map<text, u8>", null_at("rows[0][1][0]", "'text'")),
    ([1], "null", "TypeError: rows[0] takes None, not 1"),
    (["a"], "f64", "TypeError: rows[0] takes a number, not 'a'"),
    ([True], "f64", "TypeError: rows[0] takes a number, not True"),
    ([1.0, 1e39], "f32", "ValueError: rows[1] takes a number that 32 bits can round, not 1e+39"),
    ([1.0, 10**400], "f64", "ValueError: rows[1] takes a number that 64 bits can round, not an integer of 1329 bits"),
    ([2**31], "tdD", "ValueError: rows[0] takes an integer from -2147483648 to 2147483647, not 2147483648"),
    ([(1, 2, 3)], "tiD", "ValueError: rows[0] takes 2 integers, not (1, 2, 3)"),
    ([(1, 2**31)], "tiD", "ValueError: rows[0][1] takes an integer from -2147483648 to 2147483647, not 2147483648"),
    ([b"abc", b"ab"], "w:3", "ValueError: rows[1] takes 3 bytes, not 2"),
    ([Decimal("1.234")], "decimal d:5,2", f"ValueError: rows[0] takes {A_DECIMAL}, not 1.234"),
    ([Decimal("1234.5")], "decimal d:5,2", f"ValueError: rows[0] takes {A_DECIMAL}, not 1234.5"),
    ([Decimal("0." + "1" * 6000)], "decimal d:5,2", f"ValueError: rows[0] takes {A_DECIMAL}, not 0.{'1' * 58}"),
    ([10**6000], "decimal d:5,2", f"ValueError: rows[0] takes {A_DECIMAL}, not an integer of 19932 bits"),
    ([Decimal("NaN")], "decimal d:5,2", f"ValueError: rows[0] takes {A_DECIMAL}, not NaN"),
    ([Decimal("1E+999999")], "decimal d:5,2", f"ValueError: rows[0] takes {A_DECIMAL}, not 1E+999999"),
    ([Decimal("1E-999999")], "decimal d:5,2", f"ValueError: rows[0] takes {A_DECIMAL}, not 1E-999999"),
    ([1.5], "decimal d:5,2", "TypeError: rows[0] takes a Decimal or an integer, not 1.5"),
    ([[1]], "dictionary<u8, list<u8>>", "TypeError: rows[0] takes a value that can be looked up, not [1]"),
    ([1, "a"], "dictionary<u8, u8>", "TypeError: rows[1] takes an integer from 0 to 255, not 'a'"),
    (["a"], "dictionary<text, text>", "ValueError: type, the codes in it, takes a type of integers, not text"),
    ([[1]], "list<u8, 4294967296>", "ValueError: type, a size in it, takes an integer from 0 to 4294967295, not 4294967296"),
    ("abc", "text", "TypeError: rows takes a list of rows, not 'abc'"),
    (5, "text", "TypeError: rows takes a list of rows, not 5"),
    (["a", 5], 'extension<"x", text>', "TypeError: rows[1] takes a text, not 5"),
    (["a", None], 'extension<"x", text>', null_at("rows[1]", "'text'")),
    ([], 'extension<"x", extension<"y", text>>', "ValueError: type, an extension in it, takes one name without a byte 0, not 'x'"),
    ([], 'extension<"\\u0000", text>', "ValueError: type, an extension in it, takes one name without a byte 0, not '\\x00'"),
    ([], "extension<x, text>", f"ValueError: {A_TYPE}, not 'extension<x, text>', of which 'x, text>' is not read"),
    ([1], "i33", f"ValueError: {A_TYPE}, not 'i33', of which 'i33' is not read"),
    ([1], "list<i32", f"ValueError: {A_TYPE}, not 'list<i32', of which '' is not read"),
    ([], f"w:{2**31}", f"ValueError: {A_TYPE}, not 'w:2147483648', of which 'w:2147483648' is not read"),
    ([], f"decimal d:5,{2**31}", f"ValueError: {A_TYPE}, not 'decimal d:5,2147483648', of which 'decimal d:5,2147483648' is not read"),
    ([1], "decimal d:39,2", f"ValueError: {A_TYPE}, not 'decimal d:39,2', of which 'decimal d:39,2' is not read"),
    ([1], 5, "TypeError: type takes a text, as 'list<i64>', not 5"),
]


def test_refused():
    for rows, type, told in REFUSED:
        assert error_of(rows, type) == told, (rows, type, error_of(rows, type))


def test_many_nodes():
    wide = "records<" + ", ".join(f"a{i}: u8" for i in range(5000)) + ">"
    deep = "list<" * 2000 + "u8" + ">" * 2000
    for type in (wide, deep):
        assert error_of([], type) == "Refused: TooManyNodes (number 36) at node 0, row or position 0"
    assert made([], "list<" * 1300 + "u8" + ">" * 1300).check().to_pylist() == []


def test_codes_that_are_too_many():
    assert error_of(list(range(257)), "dictionary<u8, u16>") == "ValueError: rows[256] takes an integer from 0 to 255, not 256"
    assert made(list(range(256)), "dictionary<u8, u16>").to_pylist() == list(range(256))


def test_others_integers():
    class Seven:
        def __index__(self):
            return 7

    assert made([Seven(), 8], "u8").to_pylist() == [7, 8]


passed = failed = 0
for name, test in sorted(globals().items()):
    if name.startswith("test_"):
        try:
            test()
            passed += 1
        except Exception:
            print(name)
            traceback.print_exc()
            failed += 1
print(f"{passed} passed, {failed} failed")
raise SystemExit(failed != 0)
