"""Texts and byte lists as Python's values: of each size and from each buffer, nulls whatever stands in their views, and few rows of a
buffer that is shared and large. The last line is 'N passed, M failed'."""

import ctypes
import mmap
import pickle
import random
import struct
import traceback
import tracemalloc

import stand_in as of
from codrask import Column, library, memory, nodes, values

EACH_BYTE = bytes(range(256))
TEXTS = [
    "",
    "a",
    "twelve bytes",
    "thirteen byte",
    "\0",
    "\0" * 12,
    "\0" * 13,
    "a\0b" * 9,
    "\u00e9",
    "\u00e9" * 6,
    "\u00e9" * 7,
    "\u20ac uro and \U0001f40d, \u00e9t\u00e9",
    "\U0010ffff" * 3,
    "\U0010ffff" * 4,
    "\ufeff",
    "\r\n\u2028",
    "x" * 65535,
    "x" * 65536,
    "\u00e9" * 40000,
    "\U0001f40d" * 70000,
]
BYTES = [b"", EACH_BYTE, *(EACH_BYTE[i : i + 12] for i in range(244)), *(EACH_BYTE[i : i + 13] for i in range(243)), EACH_BYTE * 300]
JUNK = struct.pack("<I4sII", 2**32 - 1, b"\xff" * 4, 2**32 - 1, 2**32 - 1)


def view(value, buffer=0, start=0):
    """A view by hand."""
    if len(value) <= 12:
        return struct.pack("<I12s", len(value), value)
    return struct.pack("<I4sII", len(value), value[:4], buffer, start)


def bits(truths):
    return Column.bools(of.bits(truths), len(truths))


def reads(column, rows):
    """Whether each way of reading a column gives these rows, and types that are Python's own."""
    count = len(rows)
    ways = [column.to_pylist(), list(column), [column[i] for i in range(count)], [column[i - count] for i in range(count)]]
    types = {str, bytes, type(None)}
    return all(way == rows and types.issuperset(map(type, way)) for way in ways)


# ---- values

def test_texts_of_each_kind():
    assert reads(Column.from_pylist(TEXTS, "text"), TEXTS)
    for text in TEXTS:
        assert Column.from_pylist([text], "text").to_pylist() == [text]
    for format in ("u", "U"):
        assert reads(Column.from_arrow(of.values(TEXTS, format)), TEXTS)
    assert reads(Column.from_arrow(of.views(TEXTS)), TEXTS)


def test_bytes_of_each_kind():
    assert reads(Column.from_pylist(BYTES, "bytes"), BYTES)
    for format in ("z", "Z"):
        assert reads(Column.from_arrow(of.values(BYTES, format)), BYTES)
    assert reads(Column.from_arrow(of.views(BYTES, "vz")), BYTES)


def test_no_rows():
    for type in ("text", "text?", "bytes", "bytes?"):
        assert reads(Column.from_pylist([], type), [])
    assert reads(Column.views(b"", [b"a buffer that nobody names"], bits([])), [])


def test_nulls():
    for rows, type in ((TEXTS, "text?"), (BYTES, "bytes?")):
        for keep in (2, 3, 7):
            some = [None if i % keep else row for i, row in enumerate(rows)]
            assert reads(Column.from_pylist(some, type), some)
            assert reads(Column.from_pylist(some[1:], type), some[1:])
        assert reads(Column.from_pylist([None] * 9, type), [None] * 9)
    rows = ["abc", "thirteen byte"]
    views = view(b"abc") + view(b"thirteen byte", 0, 1)
    for validity, told in ((None, rows), (True, rows), (False, [None, None]), (bits([False, True]), [None, rows[1]])):
        assert reads(Column.views(views, [b"-thirteen byte-"], validity), told)


def test_a_null_row_of_junk():
    """What stands in the view of a null row is not looked at: no size, no buffer, no place."""
    long = b"a text of more than twelve bytes"
    for binary in (False, True):
        rows = [None, long if binary else long.decode(), None, b"ab" if binary else "ab", None]
        whole = JUNK + view(long, 1, 3) + JUNK + view(b"ab") + JUNK
        column = Column.views(whole, [b"", b"___" + long], bits([row is not None for row in rows]), binary)
        assert reads(column, rows)
        assert column.slice(1, 3).to_pylist() == rows[1:3]
    validity = Column.dictionary(Column.numbers("u8", b"\1\0\1"), bits([True, False]))
    assert reads(Column.views(JUNK + view(b"a") + JUNK, [], validity), [None, "a", None])
    assert reads(Column.views(JUNK * 3, [], False), [None] * 3)


def test_several_buffers():
    heaps = [b"the first of the buffers", "\u00e9t\u00e9 and \u20ac 20 after it".encode(), b"", b"the last one of all of them"]
    views = b"".join(view(heaps[i], i, 0) for i in (3, 1, 0, 1)) + view(heaps[3][4:], 3, 4) + view(b"short")
    rows = [*(heaps[i].decode() for i in (3, 1, 0, 1)), heaps[3][4:].decode(), "short"]
    assert reads(Column.views(views, heaps), rows)
    assert reads(Column.views(views, heaps, binary=True), [row.encode() for row in rows])
    many = [b"%020d" % i for i in range(1000)]
    assert Column.views(b"".join(view(heap, i) for i, heap in enumerate(many)), many).to_pylist() == [heap.decode() for heap in many]


def test_more_buffers_than_rows():
    heaps = [b"%020d" % i for i in range(100)]
    views = view(heaps[99], 99) + view(b"short") + JUNK + view(heaps[0], 0) + view(heaps[50], 50)
    rows = [heaps[99].decode(), "short", None, heaps[0].decode(), heaps[50].decode()]
    column = Column.views(views, heaps, bits([row is not None for row in rows]))
    assert reads(column, rows) and column[1:4].to_pylist() == rows[1:4]
    assert reads(Column.views(b"", heaps), []) and reads(Column.views(view(b"short"), heaps), ["short"])


def test_in_nests():
    rows = [{"a": text, "b": [text, None]} for text in TEXTS]
    assert Column.from_pylist(rows, "records<a: text, b: list<text?>>").to_pylist() == rows
    rows = [[("key", text), (text + "2", None)] for text in TEXTS]
    assert Column.from_pylist(rows, "map<text, text?>").to_pylist() == rows
    rows = ["a", None, TEXTS[-1], "a"]
    assert reads(Column.from_pylist(rows, "dictionary<u8?, text>"), rows)
    assert reads(Column.from_pylist(rows, 'extension<"an.ext", text?>'), rows)
    assert Column.from_pylist([rows, rows], "list<text?, 4>").to_pylist() == [rows, rows]


def test_random_values():
    letters = ["a", "b", "\0", "\u00e9", "\u20ac", "\U0001f40d"]
    for seed in range(400):
        r = random.Random(seed)
        rows = ["".join(r.choices(letters[: r.choice((2, 3, 6))], k=r.randrange(20))) for _ in range(r.randrange(40))]
        rows = [None if r.randrange(4) == 0 else row for row in rows]
        whole, start, end = Column.from_pylist(rows, "text?"), r.randrange(-45, 45), r.randrange(-45, 45)
        assert reads(whole, rows) and whole[start:end].to_pylist() == rows[start:end], seed
        plain = [None if row is None else row.encode() for row in rows]
        assert reads(Column.from_pylist(plain, "bytes?"), plain), seed


# ---- a buffer that is shared

def taken(call):
    """What a call gives, and how many bytes Python takes on the way, at most at once."""
    tracemalloc.start()
    try:
        return call(), tracemalloc.get_traced_memory()[1]
    finally:
        tracemalloc.stop()


def test_few_rows_of_a_large_buffer():
    """Of a buffer of 64 MiB few rows are read without a copy of it."""
    heap, count, text = b"0123456789abcdef" * (1 << 22), 1 << 12, "0123456789abcdef"
    views = b"".join(view(text.encode(), 0, i << 14) for i in range(count))
    column = Column.views(views, [heap], bits([i % 2 == 0 for i in range(count)])).check()
    cut = column.slice(2, 5)
    for call, wanted in (
        (lambda: column[0], text),
        (lambda: column[1], None),
        (lambda: next(iter(column)), text),
        (lambda: sum(row is None for row in column), count // 2),
        (lambda: repr(column)[:48], f"<Column text? of {count} rows: {text!r}, "),
        (column.to_pylist, [text, None] * (count // 2)),
        (cut.to_pylist, [text, None, text]),
        (lambda: list(cut), [text, None, text]),
    ):
        made, most = taken(call)
        assert made == wanted and most < 1 << 20, (made, most)


class Pages:
    """A buffer of pages of which only the first and the last may be read, once it has passed."""

    def __init__(self, count):
        self.size = count * mmap.PAGESIZE
        self.memory = mmap.mmap(-1, self.size)
        self.start = ctypes.addressof(ctypes.c_char.from_buffer(self.memory))
        self.between = ctypes.c_void_p(self.start + mmap.PAGESIZE), self.size - 2 * mmap.PAGESIZE

    def may_be_read(self, told):
        rights = mmap.PROT_READ | mmap.PROT_WRITE if told else 0
        if ctypes.CDLL(None, use_errno=True).mprotect(*self.between, rights):
            raise OSError(ctypes.get_errno(), "mprotect")


def test_what_no_view_names_is_not_read():
    """Rows of the first and of the last page are read while no page between them may be."""
    pages = Pages(64)
    pages.memory[:] = b"a" * (pages.size // 2) + b"b" * (pages.size // 2)
    starts = [0, pages.size // 2, pages.size - 99]
    views = memoryview(b"".join(view((b"a" if start == 0 else b"b") * 99, 0, start) for start in starts))
    node = nodes.Node(nodes.UTF8_VIEW, nodes.NON_NULLABLE, 3, views=views, buffers=(memoryview(pages.memory),))
    assert values.values_of(node, None) == ["a" * 99, "b" * 99, "b" * 99]
    pages.may_be_read(False)
    try:
        assert values.values_of(node, [True, False, True]) == ["a" * 99, None, "b" * 99]
        cut = node._replace(length=1, views=views[32:])
        assert values.values_of(cut, None) == ["b" * 99]
    finally:
        pages.may_be_read(True)


# ---- memory and limits

def test_the_limit():
    column = Column.from_pylist(["a", None, "b"], "text?")
    assert column.to_pylist(most=6) == ["a", None, "b"]
    try:
        column.to_pylist(most=5)
    except ValueError as error:
        assert str(error) == "most takes no fewer than the values that the rows hold, not 5", error
    else:
        raise AssertionError("more values than a limit")


class Watched:
    """A library whose pickles are counted, and which may refuse them."""

    def __init__(self, whole, refuses=False):
        self.whole, self.refuses, self.held = whole, refuses, 0

    def codrask_pickle(self, *arguments):
        if self.refuses:
            return 1
        self.held += 1
        return self.whole.codrask_pickle(*arguments)

    def codrask_pickle_free(self, made):
        self.held -= made._obj.count > 0
        self.whole.codrask_pickle_free(made)

    def __getattr__(self, name):
        return getattr(self.whole, name)


def with_library(which, call):
    """What a call gives, or raises, with another library."""
    was, library._loaded = library._loaded, which
    try:
        return call()
    except Exception as error:
        return error
    finally:
        library._loaded = was


def test_each_block_is_given_back():
    column = Column.from_pylist(["a", None, "b" * 99], "text?").check()
    watched = Watched(library.load())
    assert with_library(watched, column.to_pylist) == ["a", None, "b" * 99] and watched.held == 0
    assert with_library(watched, lambda: list(column)) == ["a", None, "b" * 99] and watched.held == 0

    def loads(_view):
        raise MemoryError("of Python's")

    was, pickle.loads = pickle.loads, loads
    try:
        error = with_library(watched, column.to_pylist)
    finally:
        pickle.loads = was
    assert isinstance(error, MemoryError) and str(error) == "of Python's" and watched.held == 0


def test_refused_memory():
    column = Column.from_pylist(["a"], "text").check()
    refusing = Watched(library.load(), True)
    error = with_library(refusing, column.to_pylist)
    assert isinstance(error, MemoryError) and str(error) == "the library was refused memory" and refusing.held == 0, error
    many = memoryview(struct.pack("<I4sII", 2**31 - 1, b"aaaa", 0, 0) * (1 << 17))
    node = nodes.Node(nodes.BINARY_VIEW, nodes.NON_NULLABLE, 1 << 17, views=many, buffers=(memory.EMPTY,))
    try:
        values.values_of(node, None)
    except MemoryError as error:
        assert str(error) == "the library was refused memory", error
    else:
        raise AssertionError("more bytes than there are")


passed = failed = 0
for name, test in sorted(globals().items()):
    if name.startswith("test_"):
        try:
            test()
            passed += 1
        except Exception:
            print(name)
            traceback.print_exc()
            failed += 1
print(f"{passed} passed, {failed} failed")
raise SystemExit(failed != 0)
