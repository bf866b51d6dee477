"""Columns as Python's users expect them: len, index, slice, iteration, ==, type, null_count, nbytes, take, filter, repr. Random
columns, each against its rows as plain loops made them. The last line is 'N passed, M failed'."""

import ctypes
import random
import struct
import sys
import traceback

from codrask import Column, Step
from codrask.library import ArrowArray, ArrowSchema
from random_columns import random_column

LONG = "a text of more than twelve bytes"


def made(rows, type):
    return Column.from_pylist(rows, type)


def error_of(call):
    try:
        call()
    except Exception as error:
        return f"{type(error).__name__}: {error}"
    return None


def test_len_and_index():
    column = made([7, None, 9], "i32?")
    assert len(column) == 3 and [column[i] for i in range(-3, 3)] == [7, None, 9, 7, None, 9]
    assert error_of(lambda: column[3]) == "IndexError: row takes an integer from -3 to 2, not 3"
    assert error_of(lambda: column[-4]) == "IndexError: row takes an integer from -3 to 2, not -4"
    assert error_of(lambda: column["a"]) == "TypeError: row takes an integer from -3 to 2, not 'a'"
    assert not made([], "text") and made([0], "u8")


def test_slices():
    rows = ["a", None, LONG, "d", "e"]
    column = made(rows, "text?")
    for start in (None, 0, 1, -2, 9, -9):
        for stop in (None, 0, 3, -1, 9, -9):
            for step in (None, 1, 2, -1, -3):
                assert column[start:stop:step].to_pylist() == rows[start:stop:step], (start, stop, step)
    assert column.slice(1, 3).to_pylist() == rows[1:3] and column.slice(3).to_pylist() == rows[3:]
    assert error_of(lambda: column.slice(1, 6)) == "Stopped: OutOfBounds (number 5) at step 0, row or position 6"
    assert error_of(lambda: column.slice(-1)).startswith("ValueError: start takes an integer from 0")


def test_iteration():
    rows = [None if i % 7 == 0 else i for i in range(40000)]
    column = made(rows, "i64?")
    assert list(column) == rows and [row for row, _ in zip(column, range(3))] == rows[:3]
    assert 5 in column and 7 not in column


def test_take():
    column = made([[1], None, [2, 3]], "list<u8>?")
    assert column.take([2, 0, 2]).to_pylist() == [[2, 3], [1], [2, 3]]
    assert column.take([2, None]).to_pylist() == [[2, 3], None]
    assert column.take(Column.numbers("u8", b"\1")).to_pylist() == [None]
    assert column.take([]).to_pylist() == []
    assert error_of(lambda: column.take([3])) == "Stopped: OutOfBounds (number 5) at step 0, row or position 3"
    assert error_of(lambda: column.take([0, -1])) == "Stopped: Negative (number 6) at step 0, row or position 1"
    assert error_of(lambda: column.take(["a"])).startswith("TypeError: indices[0] takes an integer from -9223")
    assert error_of(lambda: column.take("a")) == "TypeError: indices takes a list of i64, or a Column, not 'a'"


def test_filter():
    column = made([7, 8, 9], "i64")
    assert column.filter([True, False, True]).to_pylist() == [7, 9]
    assert column.filter(made([False] * 3, "bool")).to_pylist() == []
    assert error_of(lambda: column.filter([True])).startswith("Stopped: LengthMismatch")
    assert error_of(lambda: column.filter([True, None, False])).startswith("Stopped: MismatchedTypes")
    assert error_of(lambda: column.filter([1, 0, 1])) == "TypeError: mask[0] takes True or False, not 1"


def test_names_are_kept():
    arrow = Column.records({"price": made([1, 2, 3], "i32")}, 3).to_arrow()
    parts = ArrowSchema.from_address(arrow.schema_pointer), ArrowArray.from_address(arrow.array_pointer)
    column = Column.from_arrow(*(ctypes.addressof(part.children[0].contents) for part in parts), arrow)
    for cut in (column, column[1:], column.take([0]), column.filter([True] * 3), column.run([Step.canonical(0)])):
        assert cut.to_arrow().schema.name == b"price"


# ---- equality

def test_equal():
    lists = Column.list_views(made([1, 2, 3], "i64"), made([1, 0], "u8"), made([2, 1], "u8"))
    assert lists == made([[2, 3], [1]], "list<i32>") and lists != made([[2, 3], [2]], "list<i32>")
    assert made(["a", LONG], "dictionary<u8, text>") == made(["a", LONG], "text?")
    assert made([1, 0], "u8") != made([True, False], "bool")
    assert made(["a"], "text") != made([b"a"], "bytes") and made([1], "u8") != made([1, 1], "u8")
    assert made([1], "tdD") != made([1], "tts") and made([1], "tdD") != made([1], "i32")
    assert made([float("nan")], "f64") == made([float("nan")], "f64") and made([0.0], "f64") != made([-0.0], "f64")
    assert made([{"a": 1}], "records<a: i32>") != made([{"b": 1}], "records<b: i32>")
    assert made([[1, 2]], "list<i8>") == made([[1, 2]], "list<i8, 2>")
    column = made([1], "i8")
    assert column == column and column != [1] and column != 1 and not column == None  # noqa: E711
    assert error_of(lambda: hash(column)) == "TypeError: unhashable type: 'Column'"
    assert error_of(lambda: column == Column.numbers("i32", b"abc")).startswith("Refused: LengthMismatch")


def nest(depth):
    """Lists in lists, to a depth."""
    column = made([7], "u8")
    for _ in range(depth):
        column = Column.fixed_size_lists(column, 1, 1)
    return column


def test_deep_nests():
    deep, other = nest(1500), nest(1500)
    assert deep == other and deep != nest(1499) and deep.null_count == 0
    assert repr(deep).startswith("<Column list<list<") and len(repr(deep)) < 300
    assert deep.type == "list<" * 1500 + "u8" + ", 1>" * 1500
    row = deep[0]
    for _ in range(1500):
        [row] = row
    assert row == 7
    assert Column.from_pylist([deep[0]], deep.type) == deep


# ---- what is told of a column

def test_types():
    texts, sixteen = Column.views(b"", []), Column.fixed_size_lists(Column.numbers("u8", b""), 16, 0)
    told = {
        "u8": Column.numbers("u8", b""),
        "i64?": Column.numbers("i64", b"", True),
        "bool?": Column.bools(b"\1", 1, False),
        "text": texts,
        "bytes?": Column.views(b"", [], True, binary=True),
        "list<u8>": Column.list_views(Column.numbers("u8", b""), Column.numbers("u8", b""), Column.numbers("u8", b"")),
        "list<text, 3>?": Column.fixed_size_lists(texts, 3, 0, True),
        "dictionary<u8?, text>": Column.dictionary(Column.numbers("u8", b"", True), texts),
        'records<a: text, "b c": u8?, "": records<>>': Column.records(
            {"a": texts, "b c": Column.numbers("u8", b"", True), "": Column.records({}, 0)}, 0
        ),
        "f64?": Column.records({"\0g": Column.numbers("u64", b"")}, 0, True),
        "decimal d:19,2": Column.records({"\0d:19,2": sixteen}, 0),
        'records<"\\u0000g": u32>': Column.records({"\0g": Column.numbers("u32", b"")}, 0),
        'extension<"arrow.uuid", w:16>': Column.records({"\0w:16\0arrow.uuid\0": sixteen}, 0),
        'extension<"geo", text?>': Column.records({"\0\0geo": Column.views(b"", [], True)}, 0),
        "ordered dictionary<u8, text>": Column.records({"\0ordered": Column.dictionary(Column.numbers("u8", b""), texts)}, 0),
    }
    for text, column in told.items():
        assert column.type == text, (column.type, text)
        assert column.to_pylist() == [None] * len(column), text


def test_null_count():
    values = made(["a", None, LONG], "text?")
    assert (values.null_count, made([1, 2], "u8").null_count, Column.numbers("u8", b"ab", False).null_count) == (1, 0, 2)
    assert Column.dictionary(made([0, 1, None, 1], "u8?"), values).null_count == 3
    assert Column.records({"\0\0geo": values}, 3).null_count == 1
    assert error_of(lambda: Column.numbers("i32", b"abc").null_count).startswith("Refused: LengthMismatch")
    many, codes = 2**60, Column.numbers("u8", bytes([7, 9]))
    for validity, null in ((None, 0), (True, 0), (False, 1)):
        column = Column.records({}, many, validity)
        assert column.null_count == null * many and Column.records({"\0\0geo": column}, many, True).null_count == null * many
        assert Column.dictionary(codes, column).null_count == 2 * null
    nothing = Column.fixed_size_lists(Column.numbers("u8", b""), 0, many)
    assert Column.records({"\0n": nothing}, many, False).null_count == many


def test_nbytes():
    block = bytes(800)
    numbers = Column.numbers("i64", block)
    assert numbers.nbytes == 800 and Column.records({"a": numbers, "bcd": numbers}, 100).nbytes == 800
    assert Column.numbers("i64", memoryview(block)[8:80]).nbytes == 72
    assert Column.views(struct.pack("<I4sII", 13, b"a lo", 0, 0), [b"a longer text"]).nbytes == 29
    assert made([], "u8").nbytes == 0


def test_repr():
    column = Column.numbers("u8", b"abc")
    assert repr(column) == "<Column u8 of 3 rows, not checked>"
    assert repr(column.check()) == "<Column u8 of 3 rows: 97, 98, 99>"
    assert repr(made(list(range(9)), "i16").check()) == "<Column i16 of 9 rows: 0, 1, 2, 3, 4, ..>"
    assert repr(made(["a" * 99], "text").check()) == "<Column text of 1 rows: 'aaaaaaaaaaaaaaaaa...aaaaaaaaaaaaaaaaaa'>"
    assert repr(made([], "text").check()) == "<Column text of 0 rows>"
    assert repr(made([list(range(5000))], "list<u16>").check()) == "<Column list<u16> of 1 rows: ..>"
    wide = Column.records([(f"a{i}", column) for i in range(100)], 3).check()
    assert repr(wide).startswith("<Column records<a0: u8, a1: u8") and len(repr(wide)) < 400
    assert repr(Column.records([(b"\xff\xfe", column)], 3)) == "<Column records<\"\\\\xff\\\\xfe\": u8> of 3 rows, not checked>"


def test_faults_of_columns_that_look_so():
    """What says that it carries a column, and has not the form of that, is read as the records that it is."""
    short = Column.records({"\0g": Column.numbers("u32", b"abcd")}, 1)
    assert short.to_pylist() == [{"\0g": 0x64636261}] and short.null_count == 0
    null = Column.records({"\0g": Column.numbers("u64", b"abcdefgh", True)}, 1)
    assert null.to_pylist() == [{"\0g": 0x6867666564636261}]
    entry = Column.records({"\0+m": Column.numbers("u8", b"a")}, 1)
    assert entry.to_pylist() == [{"\0+m": 97}] and entry[0] == {"\0+m": 97} and entry == entry


# ---- how rows are read

def calls_of(call):
    """How many functions are called on the way, those in C too."""
    events = []
    sys.setprofile(lambda _frame, event, _what: events.append(event))
    try:
        call()
    finally:
        sys.setprofile(None)
    return events.count("call") + events.count("c_call")


def test_no_function_is_called_for_each_row():
    """A million integers are read in 0.1 seconds and a million texts in 0.5 since no row takes a call. Times depend on the machine:
    speed.py prints them."""
    count = 3000
    told = {
        "i64": list(range(count)),
        "i64?": [None if i % 3 else i for i in range(count)],
        "f64": [i / 3 for i in range(count)],
        "bool": [i % 3 == 0 for i in range(count)],
        "text": [f"{i:06}" if i % 2 else f"a longer text of {i:06}" for i in range(count)],
        "text?": [None if i % 3 else f"a longer t\u00e9xt of {i:06}" for i in range(count)],
        "bytes": [b"\xff" * (i % 30) for i in range(count)],
        "list<i64>": [[i] for i in range(count)],
    }
    for type, rows in told.items():
        assert calls_of(made(rows, type).check().to_pylist) < count / 20, type


# ---- random columns

def has_dictionary(column):
    return any(node.kind == 11 for node in column._nodes)


def test_random_rows():
    for seed in range(1500):
        r = random.Random(seed)
        column, rows = random_column(r, r.randrange(9), 3)
        count = len(rows)
        assert list(column) == rows and len(column) == count, seed
        assert [column[i] for i in range(-count, count)] == rows + rows, seed
        start, stop = r.randrange(-10, 10), r.randrange(-10, 10)
        assert column[start:stop].to_pylist() == rows[start:stop], seed
        assert column.null_count == sum(row is None for row in rows), seed
        assert repr(column).startswith(f"<Column {column.type[:70]}"), seed


def test_random_from_pylist():
    for seed in range(1500):
        r = random.Random(seed)
        column, rows = random_column(r, r.randrange(9), 3)
        if has_dictionary(column):
            column = column.run([Step.canonical(0)])
        again = Column.from_pylist(rows, column.type)
        assert again.to_pylist() == rows and again.type == column.type, (seed, column.type)
        assert again == column, (seed, column.type)


def test_random_equal():
    """Two random columns of one seed each are equal where their rows are, and of one sort."""
    met = set()
    for seed in range(3000):
        r = random.Random(seed)
        column, rows = random_column(r, r.randrange(1, 4), 2)
        if has_dictionary(column):
            column = column.run([Step.canonical(0)])
        others = list(rows)
        others[r.randrange(len(rows))] = r.choice(rows)
        equal = column == Column.from_pylist(others, column.type)
        assert equal == (others == rows), (seed, rows, others)
        met.add(equal)
    assert met == {True, False}


passed = failed = 0
for name, test in sorted(globals().items()):
    if name.startswith("test_"):
        try:
            test()
            passed += 1
        except Exception:
            print(name)
            traceback.print_exc()
            failed += 1
print(f"{passed} passed, {failed} failed")
raise SystemExit(failed != 0)
