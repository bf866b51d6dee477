"""Columns that go out as streams: what each array has, in which format, under which name; what is refused; and that all is given back,
whoever takes how much of it. The last line is 'N passed, M failed'."""

import ctypes
import gc
import traceback

import stand_in as of
from codrask import Batches, Column, Stopped, library
from codrask.capsules import address_in, taken_stream
from codrask.library import ArrowArrayStream

LONG = "a text of more than twelve bytes"
TYPES = {
    "i64?": [1, None, 3],
    "text": ["a", LONG, "c"],
    "list<text?>?": [["a", None], None, [LONG]],
    "records<a: i32, b: tdD?>": [{"a": 1, "b": None}, {"a": 2, "b": 3}],
    "map<text, f64>": [[("a", 0.5)], []],
    'extension<"geo", bytes>': [b"a", b"b"],
    "null": [None, None],
}


class Stream:
    """An object that gives a stream and nothing else."""

    def __init__(self, given):
        self.__arrow_c_stream__ = given.__arrow_c_stream__


def taken(given, count=None):
    """The format and the name of the schema of a stream, and how many rows each of its arrays has, up to so many arrays."""
    lengths = []
    with taken_stream("given", given) as (schema, next_array):
        while len(lengths) != count:
            array = next_array()
            if not array.release:
                break
            lengths.append(array.length)
            array.release(array)
        return schema.format, schema.name, lengths


def test_a_column_is_a_stream_of_one_array():
    for type, rows in TYPES.items():
        column = Column.from_pylist(rows, type)
        assert Column.from_arrow(Stream(column)) == column and taken(column)[2] == [len(rows)], type
        [batch] = Column.batches(Stream(column))
        assert batch.to_pylist() == rows and batch.type == column.type or type == "null", (type, batch)
        assert [len(batch) for batch in Column.batches(Stream(column.slice(0, 0)))] == [0]


def test_columns_go_out_one_after_another():
    for type, rows in TYPES.items():
        columns = [Column.from_pylist(some, type) for some in (rows, [], rows[1:], rows)]
        batches = Batches(columns)
        for _ in range(2):
            assert [batch.to_pylist() for batch in Column.batches(batches)] == [rows, [], rows[1:], rows], type
        assert Column.from_arrow(batches).to_pylist() == rows + rows[1:] + rows, type
        assert taken(batches)[2] == [len(rows), 0, len(rows) - 1, len(rows)], type


def test_formats_and_names():
    came = Column.from_arrow(of.records({"a": of.values(["x", LONG], "U")}, 2)).field("a")
    assert taken(came)[:2] == (b"U", b"a") == taken(Batches([came, came.slice(1)]))[:2]
    other = Column.from_arrow(of.values(["x"], "U"))
    assert taken(Batches([came, other]))[:2] == (b"U", b"a") and taken(Batches([other, came]))[:2] == (b"U", b"")
    asked = of.values([], "u").__arrow_c_schema__
    for given in (came, Batches([came, other])):
        stream = given.__arrow_c_stream__(asked())
        assert taken(of_capsule(stream))[0] == b"u"
    of.releases()


def of_capsule(capsule):
    """An object that gives this capsule of a stream."""

    class Given:
        def __arrow_c_stream__(self):
            return capsule

    return Given()


def test_only_rows_go_out():
    texts = Column.from_pylist([f"a text of {i:010}" for i in range(1000)], "text").filter([i == 7 for i in range(1000)])
    assert Column.from_arrow(Stream(texts)).nbytes == 36
    assert Column.from_arrow(Batches([texts] * 2)).to_pylist() == ["a text of 0000000007"] * 2


def test_refused():
    numbers = Column.from_pylist([1], "i64")
    for others, which, node in (([Column.from_pylist([1], "i32")], 1, 0), ([numbers, Column.from_pylist([1], "i64?")], 2, 0)):
        try:
            Batches([numbers, *others]).__arrow_c_stream__()
        except Stopped as fault:
            assert (fault.name, fault.column, fault.node) == ("DifferingSchemas", which, node), fault
            assert str(fault) == f"DifferingSchemas (number 81) at column {which}, row or position 0", fault
        else:
            raise AssertionError(others)
    inside = [Column.records({"a": Column.from_pylist([1], type)}, 1) for type in ("u8", "i8")]
    try:
        Batches(inside).__arrow_c_stream__()
    except Stopped as fault:
        assert (fault.column, fault.node) == (1, 1), fault
    wrong = {"an empty list": [], "5": [5]}
    for words, columns in wrong.items():
        try:
            Batches(columns)
        except (TypeError, ValueError) as error:
            assert words in str(error) and str(error).startswith("columns"), error
        else:
            raise AssertionError(columns)
    bad = Column.views(b"\1\0\0\0\xff" + bytes(11), [])
    try:
        Batches([bad]).__arrow_c_stream__()
    except ValueError as fault:
        assert fault.name == "NotUtf8", fault


def test_a_stream_is_taken_once():
    capsule = Column.from_pylist([1, 2], "i64").__arrow_c_stream__()
    assert taken(of_capsule(capsule))[2] == [2]
    assert not ArrowArrayStream.from_address(address_in("capsule", capsule, ArrowArrayStream)).release
    try:
        taken(of_capsule(capsule))
    except ValueError as error:
        assert "was released" in str(error), error
    else:
        raise AssertionError("taken twice")


class Blocks(ctypes.Structure):
    """What glibc tells of the blocks of malloc."""

    _fields_ = [(name, ctypes.c_size_t) for name in "arena ordblks smblks hblks hblkhd usmblks fsmblks uordblks fordblks keepcost".split()]


def taken_bytes():
    """How many bytes of malloc are taken; 0 where that isn't told."""
    tell = getattr(ctypes.CDLL(None), "mallinfo2", None)
    if tell is None:
        return 0
    tell.restype = Blocks
    told = tell()
    return told.uordblks + told.hblkhd


def test_streams_that_nobody_takes():
    """No byte is left of streams, whether somebody takes all of them, a part, or nothing; nor of what is refused."""
    one = Column.from_pylist([{"a": b"x" * 999}], "records<a: bytes>").check()
    several, differing = Batches([one] * 3), Batches([one, one, Column.from_pylist([], "i64")])
    calls = (
        one.__arrow_c_stream__,
        several.__arrow_c_stream__,
        lambda: taken(several, 1),
        lambda: taken(several),
        lambda: list(Column.batches(several)),
        lambda: refused(differing),
        lambda: without_a_capsule(several),
    )
    for call in calls:
        for count in (50, 1000):
            gc.collect()
            before = taken_bytes()
            for _ in range(count):
                call()
            gc.collect()
            grown = taken_bytes() - before
        assert grown < 20 * count, (call, grown)


def refused(batches):
    try:
        batches.__arrow_c_stream__()
    except Stopped:
        return
    raise AssertionError("columns of two types")


class NoCapsule:
    """The library, where no memory is there for a capsule."""

    def __init__(self, whole):
        self._whole = whole

    def __getattr__(self, name):
        return (lambda _size: None) if name == "codrask_new_capsule" else getattr(self._whole, name)


def without_a_capsule(batches):
    whole = library.load()
    library._loaded = NoCapsule(whole)
    try:
        batches.__arrow_c_stream__()
    except MemoryError as error:
        assert str(error) == "no memory for a capsule", error
    else:
        raise AssertionError("a capsule without memory")
    finally:
        library._loaded = whole


passed = failed = 0
for name, test in sorted(globals().items()):
    if name.startswith("test_"):
        try:
            of.releases()
            test()
            passed += 1
        except Exception:
            print(name)
            traceback.print_exc()
            failed += 1
print(f"{passed} passed, {failed} failed")
raise SystemExit(failed != 0)
