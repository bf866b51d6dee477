"""What passed is neither tested nor copied a second time, on its way through the calls of this package; and what has not passed is
tested, whichever thread tests it meanwhile. The last line is 'N passed, M failed'."""

import collections
import threading
import traceback

import stand_in as of
from codrask import Column, Refused, Step, library, memory, run

LONG = "a text of more than twelve bytes"
TESTS = ("codrask_check", "codrask_write_arrow", "codrask_write_arrow_as", "codrask_write_passed", "codrask_run")


class Counted:
    """A library that counts the calls of it that test a column, and lacks some."""

    def __init__(self, whole, lacks=()):
        self.whole, self.lacks, self.calls = whole, lacks, collections.Counter()

    def __getattr__(self, name):
        if name in self.lacks:
            raise AttributeError(name)
        call = getattr(self.whole, name)
        if name not in TESTS:
            return call

        def counted(*arguments):
            self.calls[name] += 1
            return call(*arguments)

        return counted


def calls_of(call, lacks=()):
    """How often a call makes the calls of the library that test a column."""
    was = library.load()
    library._loaded = counted = Counted(was, lacks)
    try:
        call()
    finally:
        library._loaded = was
    return {name: counted.calls[name] for name in TESTS if counted.calls[name]}


def copied_by(call):
    """How many bytes a call copies."""
    was, sizes = memory._block, []

    def block(start, end):
        sizes.append(end - start)
        return was(start, end)

    memory._block = block
    try:
        call()
    finally:
        memory._block = was
    return sum(sizes)


def texts(rows=("a", LONG, "c")):
    """A column of texts over memory that can be written to."""
    [node] = Column.from_pylist(list(rows), "text")._nodes
    return Column.views(bytearray(node.views), [bytearray(heap) for heap in node.buffers])


READS = (Column.check, Column.fault, Column.to_pylist, list, len, repr, lambda it: it[1], lambda it: it.null_count, lambda it: it == it)


def test_a_column_is_tested_once():
    column = texts()
    assert calls_of(column.check) == {"codrask_check": 1}
    for read in READS:
        assert calls_of(lambda: read(column)) == {}, read
    assert calls_of(lambda: texts().to_pylist()) == calls_of(lambda: texts()[0]) == {"codrask_check": 1}
    assert calls_of(lambda: texts() == texts()) == {"codrask_check": 2}


def test_what_is_none_is_tested_each_time():
    column = Column.views(b"\1\0\0\0\xff" + bytes(11), [])
    for _ in range(2):
        assert calls_of(column.fault) == {"codrask_check": 1} and column.fault().name == "NotUtf8"


def test_what_steps_gave_has_passed():
    column = texts().check()
    made = column.filter([True, True, False])
    for read in READS:
        assert calls_of(lambda: read(made)) == {}, read
    assert repr(made) == f"<Column text of 2 rows: 'a', {LONG!r}>" and made.to_pylist() == ["a", LONG]
    for one in run([column, made], [Step.slice(0, 1, 3), Step.concat([0, 1]), Step.pack(3)], [0, 2, 3, 4]):
        assert calls_of(one.check) == {} and calls_of(lambda: one.to_arrow(packed=False)) == {"codrask_write_passed": 1}


def test_what_goes_out_is_tested_once():
    column = texts()
    assert calls_of(lambda: column.to_arrow(packed=False)) == {"codrask_write_arrow": 1}
    assert calls_of(lambda: column.to_arrow(packed=False)) == {"codrask_write_passed": 1}
    assert calls_of(column.to_arrow) == calls_of(column.__arrow_c_array__) == {"codrask_run": 1, "codrask_write_passed": 1}
    assert calls_of(texts().to_arrow) == {"codrask_check": 1, "codrask_run": 1, "codrask_write_passed": 1}
    came = Column.from_arrow(of.values(["a", LONG]))
    assert calls_of(came.check) == {"codrask_check": 1} and came.to_arrow().schema.format == b"u"
    assert calls_of(came.to_arrow, ["codrask_write_passed"]) == {"codrask_run": 1, "codrask_write_arrow_as": 1}


def nameless(column):
    """The nodes of a column without the names of elements."""
    return [node._replace(buffers=()) if node.kind == 13 else node for node in column._nodes]


def test_what_is_packed_is_packed_once():
    column = Column.from_arrow(of.lists([[LONG], None, ["a", LONG]], of.values)).check()
    packed, [cut, same] = column.pack(), run([column], [Step.slice(0, 1, 3), Step.pack(1)], [1, 2])
    for one in (packed, same):
        assert one.pack() is one and calls_of(one.pack) == {}
        assert calls_of(one.to_arrow) == calls_of(one.__arrow_c_array__) == {"codrask_write_passed": 1}
        assert copied_by(one.to_arrow) == 0 and one.to_arrow().schema.format == b"+l"
    assert Column.from_arrow(packed) == column and Column.from_arrow(same) == column.slice(1)
    assert nameless(packed) == nameless(run([packed], [Step.pack(0)])[0])
    [plain] = run([column], [Step.pack(0)], [0])
    for one in (column, cut, plain, packed.slice(0), packed.take([0, 1, 2]), run([packed], [Step.pack(0), Step.slice(1, 0, 2)])[0]):
        assert calls_of(one.to_arrow) == {"codrask_run": 1, "codrask_write_passed": 1}, one
    try:
        packed.to_arrow(most_bytes=1)
    except Refused as fault:
        assert fault.name == "TooManyBytes", fault
    else:
        raise AssertionError("more bytes than a limit")


def test_written_as_before():
    """What is written without a second test is what is written with one."""
    for column in (texts(), Column.from_pylist([[1], None, [2, 3]], "list<i64>?"), Column.from_pylist([0.5, None], "f64?")):
        column.check()
        for asked in ({}, {"packed": False}, {"by_offsets": True}):
            made, again = column.to_arrow(**asked), []
            calls_of(lambda: again.append(column.to_arrow(**asked)), ["codrask_write_passed"])
            assert made.schema.format == again[0].schema.format and Column.from_arrow(made) == Column.from_arrow(again[0]) == column


def test_memory_is_copied_once():
    heap = bytearray(LONG.encode() * 1000)
    numbers = Column.numbers("u8", heap)
    assert copied_by(numbers.check) == len(heap) and copied_by(numbers.check) == 0
    for read in (*READS, lambda it: it.to_arrow(packed=False), lambda it: Column.records({"a": it}, len(it)).check()):
        assert copied_by(lambda: read(numbers)) == 0, read
    assert copied_by(lambda: numbers.slice(0, 10)) == 10 and copied_by(numbers.pack) == len(heap)
    assert copied_by(Column.numbers("u8", bytes(heap)).check) == 0
    assert copied_by(Column.from_arrow(of.numbers([1, 2, 3])).check) == 0


def test_a_test_of_another_thread_is_no_test_of_these_bytes():
    """Bytes that are no text are taken; before they are written, another thread makes a text of them, and tests that."""
    views = bytearray(b"\1\0\0\0\xff" + bytes(11))
    column, private = Column.views(views, []), Column._private

    def taken(self):
        nodes = private(self)
        views[4] = ord("a")
        thread = threading.Thread(target=lambda: self._pass(private(self)))
        thread.start()
        thread.join()
        return nodes

    Column._private = taken
    try:
        column.to_arrow(packed=False)
        raise AssertionError("bytes that are no text were written")
    except Refused as fault:
        assert fault.name == "NotUtf8", fault
    finally:
        Column._private = private
    assert column.to_pylist() == ["a"]


passed = failed = 0
for name, test in sorted(globals().items()):
    if name.startswith("test_"):
        try:
            test()
            passed += 1
        except Exception:
            print(name)
            traceback.print_exc()
            failed += 1
print(f"{passed} passed, {failed} failed")
raise SystemExit(failed != 0)
