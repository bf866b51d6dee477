"""Columns of buffers, by hand. The last line is 'N passed, M failed'."""

import array
import ctypes
import random
import traceback

from codrask import Column, Refused, Step, Stopped, fault_name, run, version
from codrask.library import ArrowArray, ArrowSchema
from random_columns import random_column


def i32(*numbers):
    return Column.numbers("i32", array.array("i", numbers))


def refused(column):
    try:
        column.check()
    except Refused as e:
        return e.name, e.number, e.node, e.row
    return None


def test_list_views():
    elements = Column.numbers("i64", array.array("q", [1, 2, 3, 4]))
    lists = Column.list_views(elements, i32(2, 0, 1), i32(2, 1, 2))
    assert lists.check().to_pylist() == [[3, 4], [1], [2, 3]]
    assert refused(Column.list_views(elements, i32(2, 0, 1), i32(2, 9, 2))) == ("OutOfBounds", 5, 0, 9)
    assert refused(Column.list_views(elements, i32(2, -1, 1), i32(2, 1, 2))) == ("Negative", 6, 0, 1)


def test_bools_and_nulls():
    valid = Column.bools(b"\x0d", 4)
    assert valid.to_pylist() == [True, False, True, True]
    assert Column.bools(b"\xff\x0f", 4, offset=8).to_pylist() == [True] * 4
    assert Column.numbers("u8", b"abcd", valid).to_pylist() == [97, None, 99, 100]
    assert Column.numbers("i8", b"\xff\x01", False).to_pylist() == [None, None]
    assert refused(Column.numbers("u8", b"abc", valid)) == ("LengthMismatch", 3, 0, 0)
    assert refused(Column.bools(b"\xff", 9)) == ("LengthMismatch", 3, 0, 0)


def test_dictionaries():
    codes = Column.numbers("u8", b"\1\0\1", Column.bools(b"\5", 3))
    assert Column.dictionary(codes, i32(7, 8)).to_pylist() == [8, None, 8]
    assert refused(Column.dictionary(Column.numbers("u8", b"\2"), i32(7, 8))) == ("OutOfBounds", 5, 0, 2)


def test_fixed_size_lists():
    assert Column.fixed_size_lists(i32(1, 2, 3, 4), 2, 2).to_pylist() == [[1, 2], [3, 4]]
    assert refused(Column.fixed_size_lists(i32(1), 0, 3)) == ("DegenerateElements", 23, 0, 0)


def test_texts():
    views = b"\3\0\0\0abc" + bytes(9) + b"\r\0\0\0a lo\0\0\0\0\2\0\0\0"
    assert Column.views(views, [b"..a longer text"]).to_pylist() == ["abc", "a longer text"]
    assert Column.views(views, [b"..a longer text"], binary=True).to_pylist()[0] == b"abc"
    assert refused(Column.views(views, [b"..a longer tex"])) == ("BadEnd", 16, 0, 1)
    assert refused(Column.views(views, [])) == ("BadBuffer", 14, 0, 1)


def test_records():
    records = Column.records({"a": i32(1, 2), "b": Column.bools(b"\1", 2)}, 2)
    assert records.to_pylist() == [{"a": 1, "b": True}, {"a": 2, "b": False}]
    assert Column.records({}, 2).to_pylist() == [{}, {}]
    assert refused(Column.records({"a": i32(1)}, 2)) == ("LengthMismatch", 3, 0, 0)
    assert refused(Column.records([(b"\xff", i32(1))], 1)) == ("NotUtf8", 13, 0, 0)


def there_and_back(column, by_offsets, packed=False):
    made = column.to_arrow(by_offsets, packed=packed)
    return Column.from_arrow(made.schema_pointer, made.array_pointer, made).to_pylist()


def test_arrow():
    texts = Column.views(b"\3\0\0\0abc" + bytes(9) + b"\r\0\0\0a lo\0\0\0\0\2\0\0\0", [b"..a longer text"])
    numbers = Column.numbers("u8", b"ab", Column.bools(b"\2", 2))
    pairs = Column.fixed_size_lists(i32(1, 2, 3, 4), 2, 2)
    lists = Column.list_views(i32(1, 2, 3, 4), i32(1, 2), i32(1, 2), Column.bools(b"\1", 2))
    named = Column.dictionary(Column.numbers("i8", b"\1\0"), texts)
    records = Column.records({"t": texts, "n": numbers, "p": pairs, "l": lists, "d": named}, 2)
    wanted = [
        {"t": "abc", "n": None, "p": [1, 2], "l": [2], "d": "a longer text"},
        {"t": "a longer text", "n": 98, "p": [3, 4], "l": None, "d": "abc"},
    ]
    for by_offsets in (False, True):
        for packed in (False, True):
            assert there_and_back(records, by_offsets, packed) == wanted, there_and_back(records, by_offsets, packed)
    assert records.to_arrow(True).array.n_children == 5
    for packed, of_codes in ((False, b"c"), (True, b"u")):
        formats = [child.format for child in records.to_arrow(True, packed=packed).schema.children]
        assert formats == [b"u", b"C", b"+w:2", b"+l", of_codes], formats


def test_arrow_name():
    made = Column.records({"price": i32(1, 2)}, 2).to_arrow()
    schema, data = ArrowSchema.from_address(made.schema_pointer), ArrowArray.from_address(made.array_pointer)
    price = Column.from_arrow(*(ctypes.addressof(part.children[0].contents) for part in (schema, data)), made)
    assert price.to_arrow().schema.name == b"price"
    assert made.schema.name == b"" and made.schema.children[0].name == b"price"


def test_arrow_refused():
    apart = Column.list_views(i32(1, 2, 3, 4), i32(2, 0), i32(1, 1))
    assert there_and_back(apart, False) == [[3], [1]]
    nested = Column.records({"a": i32(1, 2), "b": apart}, 2)
    whole = Column.numbers("i32", b"abc")
    for column, told in ((apart, ("NotEndToEnd", 0)), (nested, ("NotEndToEnd", 2)), (whole, ("LengthMismatch", 0))):
        try:
            column.to_arrow(by_offsets=True, packed=False)
        except Refused as refusal:
            assert (refusal.name, refusal.node) == told, refusal
        else:
            raise AssertionError(told)


def test_steps():
    codes = Column.numbers("u8", b"\1\0\0\1", Column.bools(b"\r", 4))
    named = Column.dictionary(codes, Column.numbers("i64", array.array("q", [7, 9])))
    assert named.run([Step.slice(0, 1, 4)]).to_pylist() == [None, 7, 9]
    mask = Column.bools(b"\x05", 4)
    assert run([named, mask], [Step.filter(0, 1)])[0].to_pylist() == [9, 7]
    assert run([named, mask], [Step.mask(0, 1)])[0].to_pylist() == [9, None, 7, None]
    assert run([named, i32(3, 0)], [Step.take(0, 1), Step.concat([0, 2])])[0].to_pylist() == [9, None, 7, 9, 9, 9]
    assert [c.to_pylist() for c in run([named, i32(5)], [], [1, 0])] == [[5], [9, None, 7, 9]]
    wide = Column.numbers("i64", array.array("q", [1, -2]))
    narrow = wide.run([Step.narrow(0)])
    assert narrow._nodes[0].kind == 5 and narrow.to_pylist() == [1, -2]


def test_steps_on_lists():
    lists = Column.list_views(Column.numbers("i64", array.array("q", [1, 2, 3, 4])), i32(2, 0, 1), i32(2, 1, 2))
    rebuilt = lists.run([Step.rebuild(0)])
    assert rebuilt.to_pylist() == [[3, 4], [1], [2, 3]]
    assert there_and_back(rebuilt, True) == [[3, 4], [1], [2, 3]]


def test_steps_on_records():
    records = Column.records({"a": i32(1, 2), "b": Column.bools(b"\1", 2)}, 2, Column.bools(b"\2", 2))
    assert records.run([Step.project(0, ["b"])]).to_pylist() == [None, {"b": False}]
    assert records.run([Step.remove_column(0, "b")]).to_pylist() == [None, {"a": 2}]
    assert run([records, i32(5, 6)], [Step.with_column(0, "c", 1)])[0].to_pylist() == [None, {"a": 2, "b": False, "c": 6}]
    assert records.run([Step.push_validity(0, True)]).to_pylist() == [{"a": None, "b": None}, {"a": 2, "b": False}]


def stopped(columns, steps, wanted=None):
    try:
        run(columns, steps, wanted)
    except Stopped as e:
        return e.name, e.column, e.step, e.result, e.node, e.row
    return None


def answer(call):
    try:
        call()
    except Stopped as e:
        return str(e)
    return None


def test_stopped():
    three = i32(7, 8, 9)
    assert stopped([three], [Step.canonical(0), Step.slice(1, 1, 4)]) == ("OutOfBounds", None, 1, None, 0, 4)
    assert stopped([three, Column.numbers("i32", b"abc")], []) == ("LengthMismatch", 1, None, None, 0, 0)
    inside = Column.records({"a b": Column.numbers("i32", b"abc")}, 0)
    assert answer(lambda: run([three, inside], [])) == (
        'LengthMismatch (number 3) at column 1, row or position 0, in column "a b" of i32'
    )
    assert stopped([three], [Step.remove_column(0, b"\xff")]) == ("NotUtf8", None, 0, None, 0, 0)
    assert stopped([three], [Step.canonical(0)], [5]) == ("OutOfBounds", None, None, 0, 0, 5)
    assert stopped([three], [Step.canonical(0)] * 1025)[:3] == ("TooManySteps", None, 1024)


def test_names():
    assert (fault_name(13), fault_name(32), version()) == ("NotUtf8", "UnknownKind", 1)


def test_random_columns():
    for seed in range(1000):
        r = random.Random(seed)
        column, rows = random_column(r, r.randrange(6), 3)
        assert column.to_pylist() == rows, seed
        assert there_and_back(column, False) == rows, seed
        assert there_and_back(column, False, True) == there_and_back(column, True, True) == rows, seed
        assert column.run([Step.canonical(0)]).to_pylist() == rows, seed
        try:
            assert there_and_back(column, True) == rows, seed
        except Refused as refusal:
            assert refusal.name == "NotEndToEnd", (seed, refusal)


passed = failed = 0
for name, test in sorted(globals().items()):
    if name.startswith("test_"):
        try:
            test()
            passed += 1
        except Exception:
            traceback.print_exc()
            failed += 1
print(f"{passed} passed, {failed} failed")
raise SystemExit(failed != 0)
