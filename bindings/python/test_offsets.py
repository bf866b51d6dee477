"""Texts, byte lists and lists that are told by offsets: their rows, their faults, which are those of the same buffers as an Arrow
array, what is shared and what is copied, and what is no argument. The last line is 'N passed, M failed'."""

import random
import struct
import traceback
from array import array

import stand_in as of
from codrask import Column, Refused
from codrask.memory import address_of

LONG = "a text of more than twelve bytes"
LETTERS = {False: "i", True: "q"}


def packed(offsets, large):
    return struct.pack(f"<{len(offsets)}{LETTERS[large]}", *offsets)


def fault_of(column):
    fault = column.fault()
    return fault and (fault.name, fault.node, fault.row)


def error_of(call):
    try:
        call()
    except Exception as error:
        return f"{type(error).__name__}: {error}"
    return None


def test_texts():
    heap = b"xxabc" + LONG.encode() + "\u00e9".encode()
    for large in (False, True):
        offsets = [2, 5, 5, 37, 39]
        rows = ["abc", "", LONG, "\u00e9"]
        for given in (packed(offsets, large), array(LETTERS[large], offsets), bytearray(packed(offsets, large))):
            for buffer in (heap, bytearray(heap), memoryview(heap)):
                column = Column.texts(given, buffer, large=large)
                assert column.type == "text" and len(column) == 4 and column.to_pylist() == rows, column
                column = Column.texts(given, buffer, None, True, large)
                assert column.type == "bytes" and column.to_pylist() == [row.encode() for row in rows], column


def test_nulls():
    offsets, valid = array("i", [0, 3, 3, 9]), Column.bools(b"\3", 3)
    assert Column.texts(offsets, b"abc", valid).to_pylist() == ["abc", "", None]
    assert Column.texts(offsets, b"abc", False).to_pylist() == [None] * 3
    assert Column.texts(array("i", [0, 1]), b"a", True).type == "text?"
    items = Column.numbers("u8", b"abc")
    assert Column.lists(items, array("i", [0, 3, 3, 3]), valid).to_pylist() == [[97, 98, 99], [], None]
    assert fault_of(Column.texts(array("i", [0, 3, 3]), b"abc", valid)) == ("LengthMismatch", 0, 0)


def test_no_rows():
    for large in (False, True):
        for offsets in ([], [0], [7], [-1]):
            assert Column.texts(packed(offsets, large), b"", large=large).to_pylist() == []
            assert Column.lists(Column.numbers("u8", b"a"), packed(offsets, large), large=large).to_pylist() == []


def test_lists():
    texts = Column.texts(array("i", [0, 1, 2, 2, 34]), b"ab" + LONG.encode())
    for large in (False, True):
        for given in (packed([1, 2, 2, 4], large), array(LETTERS[large], [1, 2, 2, 4])):
            lists = Column.lists(texts, given, large=large)
            assert lists.type == "list<text>" and lists.to_pylist() == [["b"], [], ["", LONG]], lists
    whole = Column.lists(lists, array("i", [0, 2, 3])).check()
    assert whole.to_pylist() == [[["b"], []], [["", LONG]]] and whole.filter([False, True]).pack().to_pylist() == [[["", LONG]]]
    assert whole.to_arrow(by_offsets=True, packed=False).schema.format == b"+l" and Column.from_arrow(whole) == whole
    assert [column.to_arrow().schema.format for column in (whole, texts)] == [b"+vL", b"vu"]


def test_faults_of_texts():
    told = {
        (0, 3, 9): ("BadStart", 0, 1), (0, 2, 9): ("BadEnd", 0, 1), (0, 3, 3, 3): None, (0, 3, 4, 4): ("BadStart", 0, 1),
        (4, 4): ("BadStart", 0, 0), (0, 9, 2): ("BadEnd", 0, 0), (9, 5): ("BadBuffer", 0, 0), (0, 2, 1): ("BadBuffer", 0, 0),
        (-1, 2, 3): ("BadBuffer", 0, 0), (0, 2, -1): ("BadBuffer", 0, 0), (0, 2, 2**31 - 1): ("BadEnd", 0, 1),
    }
    for offsets, fault in told.items():
        for large in (False, True):
            found = fault_of(Column.texts(packed(offsets, large), b"abc", large=large))
            assert found == fault, (offsets, large, found)
    assert fault_of(Column.texts(array("i", [0, 1, 2]), b"a\xff")) == ("NotUtf8", 0, 1)
    assert Column.texts(array("i", [0, 1, 2]), b"a\xff", binary=True).to_pylist() == [b"a", b"\xff"]


def test_faults_of_lists():
    least, most = -(2**63), 2**63 - 1
    told = {
        (0, 2, 4): ("OutOfBounds", 0, 4), (0, 2, 1): ("Negative", 0, 1), (-1, 2): ("Negative", 0, 0), (0, 3, 3): None,
        (2, 3): None, (4, 4): ("OutOfBounds", 0, 4), (3, 3): None,
    }
    wide = {(most, least): ("Negative", 0, 0), (least, most): ("Negative", 0, 0), (0, most): ("OutOfBounds", 0, most)}
    for offsets, fault in {**told, **wide}.items():
        for large in (False, True)[offsets in wide :]:
            found = fault_of(Column.lists(Column.numbers("u8", b"abc"), packed(offsets, large), large=large))
            assert found == fault, (offsets, large, found)


def test_as_arrow_has_them():
    """Random offsets, in order and not: the rows, or the fault, of an Arrow array with the same buffers."""
    refused = 0
    for seed in range(3000):
        r = random.Random(seed)
        large, binary, count = r.random() < 0.5, r.random() < 0.5, r.randrange(6)
        heap = bytes(r.choice(b"ab\xc3\xa9" if seed % 3 else b"ab") for _ in range(r.randrange(60)))
        offsets = sorted(r.randrange(len(heap) + 1) for _ in range(count + 1))
        if seed % 2:
            offsets[r.randrange(count + 1)] = r.choice([r.randrange(-3, 80), 2**31 - 1, -(2**31)])
        format = ("Z" if large else "z") if binary else ("U" if large else "u")
        given = packed(offsets, large)
        came = Column.from_arrow(of.Array(format, count, [None, given, heap], nullable=False))
        column = Column.texts(given, heap, None, binary, large)
        assert fault_of(column) == fault_of(came), (seed, column.fault(), came.fault())
        assert column.fault() or column.to_pylist() == came.to_pylist(), seed
        refused += column.fault() is not None
    of.releases()
    assert 500 < refused < 2500, refused


def test_what_is_shared():
    offsets, heap = packed([0, 3, 35], False), b"abc" + LONG.encode()
    places = lambda column: [address_of(part) for node in column._nodes for part in node.buffers if node.kind == 9]
    assert places(Column.texts(offsets, heap)) == [address_of(memoryview(heap))]
    changing = bytearray(heap)
    column = Column.texts(bytearray(offsets), changing)
    changing[:] = b"\xff" * len(heap)
    assert column.to_pylist() == ["abc", LONG] and column.nbytes == 67
    starts = Column.lists(Column.numbers("u8", b"abc"), packed([0, 2, 3], False))._nodes[2]
    assert type(starts.bytes.obj) is bytes and starts.bytes.nbytes == 8
    changing = array("i", [0, 2, 3])
    lists = Column.lists(Column.numbers("u8", b"abc"), changing)
    changing[1] = -1
    assert lists.to_pylist() == [[97, 98], [99]]


def test_values_past_2_gib():
    heap, half = bytes(2**31 + 64), 2**31 - 20
    texts = lambda *offsets: Column.texts(packed(offsets, True), heap, binary=True, large=True)
    assert error_of(lambda: texts(0, 5, 5 + 2**31)) == "Refused: Overflow (number 7) at node 0, row or position 1"
    column = texts(0, 20, half, 2**31 + 40)
    sizes = [buffer.nbytes for buffer in column._nodes[0].buffers]
    assert sizes == [half, 2**31 + 40 - half], sizes


def test_arguments():
    items = Column.numbers("u8", b"abc")
    of_32, of_64 = "offsets takes a buffer of bytes or of i32, the lowest byte first", "offsets takes a buffer of bytes or of i64"
    for call in (lambda given, **more: Column.texts(given, b"abc", **more), lambda given, **more: Column.lists(items, given, **more)):
        told = [
            (lambda: call(array("q", [0])), f"TypeError: {of_32}, not items of format 'q' and 8 bytes"),
            (lambda: call(array("i", [0]), large=True), f"TypeError: {of_64}, the lowest byte first, not items of format 'i' and 4 bytes"),
            (lambda: call([0, 1]), f"TypeError: {of_32}, not [0, 1]"),
            (lambda: call(b"abcde"), "ValueError: offsets takes offsets of 4 bytes each, not 5 bytes"),
            (lambda: call(b"abcd", large=True), "ValueError: offsets takes offsets of 8 bytes each, not 4 bytes"),
            (lambda: call(b"", large=1), "TypeError: large takes True or False, not 1"),
            (lambda: call(b"", validity=1), "TypeError: validity takes None, True, False or a Column, not 1"),
        ]
        for wrong, text in told:
            assert error_of(wrong) == text, error_of(wrong)
    assert error_of(lambda: Column.texts(b"", "abc")) == "TypeError: buffer takes a buffer of bytes, not 'abc'"
    assert error_of(lambda: Column.texts(b"", b"", binary=0)) == "TypeError: binary takes True or False, not 0"
    assert error_of(lambda: Column.lists([1], b"")) == "TypeError: elements takes a Column, not [1]"


passed = failed = 0
for name, test in sorted(globals().items()):
    if name.startswith("test_"):
        try:
            test()
            passed += 1
        except Exception:
            print(name)
            traceback.print_exc()
            failed += 1
print(f"{passed} passed, {failed} failed")
raise SystemExit(failed != 0)
