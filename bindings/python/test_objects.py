"""What from_arrow takes: objects that know how long their buffers are, capsules, streams, addresses. What they hand over is
released once, also where it is refused; and no byte past a buffer is read, at which the process would end. The last line is 'N
passed, M failed'."""

import ctypes
import gc
import struct
import traceback

import stand_in as of
from codrask import Column, Refused
from codrask.library import ArrowArray, ArrowSchema

LONG = "a text of more than twelve bytes"


def words(rows):
    return of.values(rows)


# arrays of each layout, and their rows
KINDS = {
    "integers": (of.numbers([1, None, -3]), [1, None, -3]),
    "truths": (of.bools([True, None, False] * 5), [True, None, False] * 5),
    "texts": (of.values(["a", LONG, None]), ["a", LONG, None]),
    "large byte lists": (of.values([b"a", LONG.encode()], "Z"), [b"a", LONG.encode()]),
    "views": (of.views(["a", LONG, None, LONG + "x"]), ["a", LONG, None, LONG + "x"]),
    "lists": (of.lists([[1, 2], None, [], [3]], of.numbers), [[1, 2], None, [], [3]]),
    "large lists": (of.lists([["a"], [LONG, None]], words, "+L"), [["a"], [LONG, None]]),
    "list views": (of.list_views([["a"], [LONG, "b"]], words), [["a"], [LONG, "b"]]),
    "lists of one size": (of.lists_of_one_size([[1, 2], None, [3, 4]], 2, of.numbers), [[1, 2], None, [3, 4]]),
    "dictionary": (of.dictionary([1, 0, None], words(["x", LONG])), [LONG, "x", None]),
    "records": (of.records({"a": of.numbers([1, 2]), "b": words(["x", LONG])}, 2), [{"a": 1, "b": "x"}, {"a": 2, "b": LONG}]),
    "floats": (of.numbers([0.5, None, -2.0], "g"), [0.5, None, -2.0]),
    "days": (of.numbers([1, None, -7], "tdD"), [1, None, -7]),
    "byte lists of one size": (of.Array("w:3", 2, [None, b"abcdef"]), [b"abc", b"def"]),
    "wide byte lists of one size": (of.Array("w:16", 2, [b"\2", bytes(31) + b"a"]), [None, bytes(15) + b"a"]),
    "nulls": (of.Array("n", 2, [], null_count=2), [None, None]),
    "map": (
        of.Array("+m", 2, [None, struct.pack("<3i", 0, 2, 3)], [of.entries(["a", LONG, "c"], [1, None, 3])], names=["entries"]),
        [[("a", 1), (LONG, None)], [("c", 3)]],
    ),
    "nested": (
        of.records({"a": of.lists([[1], [0, 1]], lambda codes: of.dictionary(codes, of.views(["x", LONG])))}, 2),
        [{"a": [LONG]}, {"a": ["x", LONG]}],
    ),
}
WAYS = (lambda whole: whole, of.Capsules, lambda whole: of.Stream([whole]), lambda whole: of.Chunked([whole]))


def refused(given, **more):
    """How a thing is refused: the number's name, its node, its row, its path and its format."""
    try:
        Column.from_arrow(given, **more).check()
    except Refused as fault:
        return fault.name, fault.node, fault.row, fault.path, fault.format
    finally:
        gc.collect()
    return None


def error_of(given, **more):
    """The error that a thing is refused with."""
    try:
        Column.from_arrow(given, **more).check()
    except Exception as error:
        return error
    return None


def released_once():
    """Whether all that was handed out was released once, and was something."""
    counts = of.releases()
    return counts and set(counts) == {1}


def test_each_way():
    for name, (whole, rows) in KINDS.items():
        for way in WAYS:
            column = Column.from_arrow(way(whole))
            assert column.to_pylist() == rows and len(column) == len(rows), (name, column)
            assert column.type.startswith("dictionary<") == (name == "dictionary"), column
            assert released_once(), (name, way)


def test_addresses():
    for name, (whole, rows) in KINDS.items():
        schema, array = whole.schema("price"), whole.structure()
        column = Column.from_arrow(ctypes.addressof(schema.part), ctypes.addressof(array.part), (schema, array))
        assert column.to_pylist() == rows and column.to_arrow().schema.name == b"price", name
        named = Column.from_arrow(schema_pointer=ctypes.addressof(schema.part), array_pointer=ctypes.addressof(array.part))
        assert named.to_pylist() == rows and schema.released == array.released == 0, name


def test_offsets():
    whole = of.numbers([1, 2, None, 4], offset=1)
    whole.length = 3
    for way in WAYS:
        assert Column.from_arrow(way(whole)).to_pylist() == [2, None, 4] and released_once()


def test_written_columns():
    column = Column.from_pylist([[1], None, [2, 3]], "list<i64>?")
    assert Column.from_arrow(column) == column and Column.from_arrow(column.to_arrow()) == column


# ---- lengths

def shortened(whole):
    """The same array with each buffer in turn one byte shorter, and which array that is."""
    arrays = [whole]
    for one in arrays:
        arrays += one.children + ([one.dictionary] if one.dictionary else [])
    for one in arrays:
        for place, buffer in enumerate(one.own):
            if buffer and buffer.size:
                one.own[place] = of.Buffer(bytes(buffer.view[:-1]))
                try:
                    yield one, place
                finally:
                    one.own[place] = buffer


def test_short_buffers():
    tried = 0
    for name, (whole, _) in KINDS.items():
        for one, place in shortened(whole):
            heap = one.type in "uUzZ" and place == 2 or one.type in ("vu", "vz") and place > 1
            told = refused(whole)
            names = ("BadStart", "BadEnd") if heap else ("ShortBuffer",)
            assert told and told[0] in names, (name, one.type, place, told)
            assert heap or told[2] == place and told[4] == one.type, (name, one.type, place, told)
            assert released_once()
            tried += 1
    assert tried > 30


def test_text_past_its_bytes():
    whole = of.values(["abc", "abcdef"])
    whole.own[2] = of.Buffer(b"abc")
    assert refused(whole)[0] in ("BadStart", "BadEnd") and refused(whole)[1:3] == (0, 1), refused(whole)
    whole = of.numbers([1], "l")
    whole.length = 3
    assert refused(whole) == ("ShortBuffer", 0, 1, "", "l")


def test_batches_and_tables():
    batches = [of.Batch({"a": of.numbers([n, n + 1]), "b": words([LONG, str(n)])}, 2) for n in (1, 5)]
    wanted = [{"a": n, "b": text} for n, text in ((1, LONG), (2, "1"), (5, LONG), (6, "5"))]
    assert Column.from_arrow(batches[0]).to_pylist() == wanted[:2] and released_once()
    assert Column.from_arrow(of.Table(batches)).to_pylist() == wanted and released_once()
    assert Column.from_arrow(of.Stream([one.whole for one in batches])).to_pylist() == wanted and released_once()
    found = [one.to_pylist() for one in Column.batches(of.Table(batches))]
    assert found == [wanted[:2], wanted[2:]] and released_once()
    batches[1].columns[0].own[1] = of.Buffer(bytes(15))
    assert refused(of.Table(batches)) == ("ShortBuffer", 1, 1, "a", "l") and released_once()


def test_chunks():
    chunks = [KINDS["texts"][0], of.values([None]), of.values([])]
    assert Column.from_arrow(of.Chunked(chunks)).to_pylist() == ["a", LONG, None, None] and released_once()
    assert Column.from_arrow(of.Stream(chunks)).to_pylist() == ["a", LONG, None, None] and released_once()


def test_none_at_all():
    for name, (whole, _) in KINDS.items():
        column = Column.from_arrow(of.Stream([], whole))
        assert column.to_pylist() == [] and column.type == Column.from_arrow(whole).type, (name, column)
        of.releases()
    assert list(Column.batches(of.Stream([], KINDS["lists"][0]))) == [] and released_once()


# ---- some columns alone

def test_columns():
    whole = of.records({"a": of.numbers([1, 2]), "b": words(["x", "y"]), "c": of.numbers([3, 4])}, 2)
    batch = of.Batch(dict(zip("abc", whole.children)), 2)
    for given in (whole, of.Capsules(whole), of.Stream([whole]), batch):
        assert Column.from_arrow(given, columns=["c", b"a"]).to_pylist() == [{"c": 3, "a": 1}, {"c": 4, "a": 2}]
        assert Column.from_arrow(given, columns=[]).to_pylist() == [{}, {}] and released_once()
        assert refused(given, columns=["a", "no"])[:3] == ("UnknownField", 0, 1) and released_once()
    union = of.records({"a": of.numbers([1, 2]), "b": of.Array("+us:0,1", 2, [b"\0\0"]), "c": of.numbers([3, 4])}, 2)
    assert Column.from_arrow(of.Capsules(union), columns=["a"]).to_pylist() == [{"a": 1}, {"a": 2}]
    assert refused(of.Capsules(union)) == ("BadArrow", 2, 0, "b", "+us:0,1")
    of.releases()


# ---- refusals in words

def test_words():
    union = of.Array("+us:0", 0, [b""])
    inside = of.records({"ok": of.numbers([]), "a b": of.lists([], lambda _: of.records({"u": union}, 0))}, 0)
    for given in (inside, of.Capsules(inside)):
        error = error_of(given)
        assert (error.number, error.node, error.path, error.format) == (64, 4, '"a b"[].u', "+us:0"), vars(error)
        assert str(error) == 'BadArrow (number 64) at node 4, row or position 0, in column "a b"[].u of +us:0'
        assert released_once()
    schema, array = inside.schema("orders"), inside.structure()
    error = error_of(ctypes.addressof(schema.part), array_pointer=ctypes.addressof(array.part))
    assert (error.path, error.format) == ('orders."a b"[].u', "+us:0"), vars(error)
    bad = of.records({"a": of.lists([["x"], ["y"]], lambda rows: of.dictionary([0, 7], words(rows)))}, 2)
    assert refused(bad) == ("OutOfBounds", 2, 7, "a[]", "dictionary<i8?, text?>"), refused(bad)
    of.releases()


def test_words_of_tables():
    lists = Column.list_views(Column.numbers("u8", b"abc"), Column.numbers("u8", b"\0"), Column.numbers("u8", b"\7"))
    whole = Column.records({"a": Column.numbers("u8", b"a"), "x y": lists}, 1)
    fault = whole.fault()
    assert (fault.path, fault.format, fault.node) == ('"x y"', "list<u8>", 2)
    assert str(fault) == 'OutOfBounds (number 5) at node 2, row or position 7, in column "x y" of list<u8>', str(fault)
    sizes = Column.list_views(Column.numbers("u8", b"abc"), Column.numbers("u8", b"\0"), Column.numbers("u32", b"\7"))
    fault = Column.records({"a": sizes}, 1).fault()
    assert (fault.path, fault.format, fault.node) == ("a", "list<u8>", 4), vars(fault)
    assert str(fault).endswith(", in the sizes of column a of list<u8>"), str(fault)


# ---- what is released, and when

def test_released_where_refused():
    union = of.Array("+us:0", 1, [b"\0"])
    for given, asked in ((of.Capsules(union), {}), (of.Stream([union]), {}), (KINDS["lists"][0], {"most_bytes": 1})):
        assert isinstance(error_of(given, **asked), Refused) and released_once(), given
    mixed = of.Stream([of.numbers([1]), of.values(["a"])], of.numbers([]))
    assert error_of(mixed) and released_once()


def test_streams_that_err():
    for errors, text in (({"get_schema": 5}, "get_schema"), ({"get_next": 22}, "get_next"), ({"end": 5}, "get_next")):
        error = error_of(of.Stream([of.numbers([1])], errors=errors))
        assert isinstance(error, OSError) and error.errno == list(errors.values())[0], error
        assert f"{text} of the stream: out of order" in str(error) and released_once(), error


def test_batches_that_are_left():
    batches = Column.batches(of.Stream([of.numbers([1]), of.numbers([2])]))
    assert next(batches).to_pylist() == [1]
    del batches
    gc.collect()
    assert released_once()


def test_taken_capsules():
    schema, array = KINDS["integers"][0].__arrow_c_array__()

    class Again:
        def __arrow_c_array__(self, requested_schema=None):
            return schema, array

    assert Column.from_arrow(Again()).to_pylist() == [1, None, -3]
    assert refused(Again())[:3] == ("Released", 0, 0) and released_once()


# ---- hostile objects

def hostile(whole, **methods):
    """An object of an array, some of whose methods are others."""
    made = type("Hostile", (), {name: staticmethod(getattr(whole, name)) for name in ("buffers", "field", "__arrow_c_array__")})
    for name, method in methods.items():
        setattr(made, name, staticmethod(method))
    return made()


def raising(*_arguments):
    raise KeyError("hostile")


def endless():
    while True:
        yield None


def test_buffers_that_lie():
    whole = KINDS["texts"][0]
    right, other = whole.buffers(), of.Buffer(bytes(4096))
    lies = {
        "fewer": right[:-1],
        "none": [],
        "other memory": [*right[:2], other.view],
        "within": [*right[:2], right[2][1:]],
        "longer": [right[0], memoryview(other.view.obj), right[2]],
        "with gaps": [*right[:2], right[2][::2]],
        "None": [None, *right[1:]],
        "a text": [*right[:2], "abc"],
        "a number": [*right[:2], 5],
        "no list": 5,
        "endless": endless(),
    }
    for name, lie in lies.items():
        error = error_of(hostile(whole, buffers=lambda lie=lie: lie))
        assert isinstance(error, (TypeError, ValueError)) and not isinstance(error, Refused), (name, error)
        assert released_once(), name
    assert isinstance(error_of(hostile(whole, buffers=raising)), KeyError) and released_once()
    shorter = [*right[:2], right[2][:5]]
    assert refused(hostile(whole, buffers=lambda: shorter))[:3] == ("BadEnd", 0, 1) and released_once()


def test_buffers_that_change():
    whole, times = KINDS["texts"][0], []

    def buffers():
        times.append(1)
        return whole.buffers() if len(times) == 1 else []

    assert Column.from_arrow(hostile(whole, buffers=buffers)).to_pylist() == KINDS["texts"][1]
    assert len(times) == 1 and released_once()


def test_more_buffers_than_the_array_has():
    whole = KINDS["integers"][0]
    assert Column.from_arrow(hostile(whole, buffers=lambda: [*whole.buffers(), b"more"])).to_pylist() == [1, None, -3]
    assert released_once()


def test_objects_of_themselves():
    codes = of.records({"d": of.dictionary([0], words(["x"]))}, 1)
    for methods in ({"field": raising}, {"field": lambda _: codes}, {"field": lambda _: None}, {"field": lambda _: 5}):
        error = error_of(hostile(codes, **methods))
        assert isinstance(error, (KeyError, AttributeError, ValueError)), error
        assert released_once()

    class Itself(of.Chunked):
        chunks = property(lambda self: [self])

    assert Column.from_arrow(Itself([of.numbers([7])])).to_pylist() == [7] and released_once()
    assert isinstance(error_of(type("Only", (), {"chunks": [], "columns": [5]})()), TypeError)


def test_structures_of_themselves():
    """A child that has itself as its children, once or twice."""
    for count in (1, 2):
        whole = of.records({"a": of.records({str(i): of.numbers([1]) for i in range(count)}, 1)}, 1)

        def capsules(whole=whole, count=count):
            made = [of.exported(part, part.children[0].contents) for part in (whole.schema().part, whole.structure().part)]
            for one in made:
                one.children = (ctypes.POINTER(type(one.part)) * count)(*[ctypes.pointer(one.keep)] * count)
                one.keep.children = one.children
            return [one.capsule() for one in made]

        alone = type("Alone", (), {"__arrow_c_array__": lambda _: tuple(capsules())})()
        for given in (alone, hostile(whole, __arrow_c_array__=lambda: tuple(capsules()), buffers=lambda: [None] * 10**6)):
            assert refused(given)[0] in ("TooDeep", "TooManyNodes"), refused(given)
        assert set(of.releases()) == {1}


def test_wrong_capsules():
    whole = KINDS["integers"][0]
    schema, array = whole.schema(), whole.structure()
    good = schema.capsule(), array.capsule()
    others = (schema.capsule(b"other"), good[1])
    for pair in ((good[1], good[0]), good[:1], (*good, good[0]), list(good), None, 5, (good[0], None), others):
        error = error_of(hostile(whole, __arrow_c_array__=lambda pair=pair: pair))
        assert isinstance(error, TypeError), (pair, error)
    assert schema.released == array.released == 0
    for given in (good[0], None, 5, array.capsule(b"arrow_array_stream_")):
        assert isinstance(error_of(type("S", (), {"__arrow_c_stream__": staticmethod(lambda given=given: given)})()), TypeError)
    assert isinstance(error_of(hostile(whole, __arrow_c_array__=raising)), KeyError)
    assert isinstance(error_of(type("T", (), {"__arrow_c_array__": 5})()), TypeError)


def test_streams_without_calls():
    for name in ("get_schema", "get_next"):
        stream = of.Stream([of.numbers([1])])

        def capsule(stream=stream, name=name):
            made = stream.__arrow_c_stream__()
            part = of.EXPORTED[-1].part
            ctypes.c_void_p.from_address(ctypes.addressof(part) + getattr(type(part), name).offset).value = None
            return made

        error = error_of(type("S", (), {"__arrow_c_stream__": staticmethod(capsule)})())
        assert isinstance(error, ValueError) and name in str(error) and released_once(), error


# ---- handed out

def structures(capsules):
    pointer = ctypes.PYFUNCTYPE(ctypes.c_void_p, ctypes.py_object, ctypes.c_char_p)(("PyCapsule_GetPointer", ctypes.pythonapi))
    return [kind.from_address(pointer(capsule, of.NAMES[kind])) for kind, capsule in zip((ArrowSchema, ArrowArray), capsules)]


class Blocks(ctypes.Structure):
    """What glibc tells of the blocks of malloc."""

    _fields_ = [(name, ctypes.c_size_t) for name in "arena ordblks smblks hblks hblkhd usmblks fsmblks uordblks fordblks keepcost".split()]


def taken_bytes():
    """How many bytes of malloc are taken; 0 where that isn't told."""
    tell = getattr(ctypes.CDLL(None), "mallinfo2", None)
    if tell is None:
        return 0
    tell.restype = Blocks
    told = tell()
    return told.uordblks + told.hblkhd


def test_capsules_out():
    column = Column.from_pylist([["a", LONG], None], "list<text>?")
    pair = column.__arrow_c_array__()
    schema, array = structures(pair)
    assert (schema.format, schema.children[0].contents.format, array.length, array.null_count) == (b"+vL", b"vu", 2, 1)
    alone = column.__arrow_c_schema__()
    assert structures([alone])[0].release and structures([alone])[0].format == b"+vL"
    taker = hostile(KINDS["integers"][0], __arrow_c_array__=lambda: pair, buffers=None)
    assert Column.from_arrow(taker) == column
    assert not schema.release and not array.release


def test_capsules_that_nobody_takes():
    """No byte is left of capsules, whether somebody takes them or not; nor of what is refused."""
    column = Column.from_pylist([{"a": b"x" * 999}], "records<a: bytes>").check()
    asked = column.to_arrow()
    calls = (
        column.__arrow_c_array__,
        column.__arrow_c_schema__,
        lambda: Column.from_arrow(column),
        lambda: Column.from_arrow(asked, columns=["a"]),
        lambda: error_of(asked, columns=["b"]),
    )
    for call in calls:
        for count in (50, 2000):
            gc.collect()
            before = taken_bytes()
            for _ in range(count):
                call()
            gc.collect()
            grown = taken_bytes() - before
        assert grown < 20 * count, (call, grown)


def test_capsules_while_an_exception_is_on_its_way():
    column = Column.from_pylist([1, 2], "i64")
    for _ in range(100):
        try:
            print(column.__arrow_c_array__(), 1 // 0)
        except ZeroDivisionError as error:
            assert str(error) == "integer division or modulo by zero"
        else:
            raise AssertionError("the exception is lost")


def test_requested_schema():
    column = Column.from_pylist([["a"], ["b", LONG]], "list<text>")
    for of_texts, of_lists in (("u", "+l"), ("U", "+L"), ("vu", "+vL"), ("vu", "+l"), ("U", "+vl")):
        texts = of.values if of_texts in "uU" else of.views
        asked = of.lists([], lambda rows, texts=texts, format=of_texts: texts(rows, format), of_lists)
        pair = column.__arrow_c_array__(asked.__arrow_c_schema__())
        schema, _array = structures(pair)
        wanted = (of_lists.encode(), of_texts.encode())
        assert (schema.format, schema.children[0].contents.format) == wanted, (of_texts, schema.format)
    endless = of.lists([], of.numbers).schema()
    endless.part.n_children = 2**62
    pair = column.__arrow_c_array__(endless.capsule())
    assert structures(pair)[0].format == b"+l"
    apart = Column.list_views(Column.numbers("u8", b"ab"), Column.numbers("u8", b"\1\0"), Column.numbers("u8", b"\1\1"))
    pair = apart.__arrow_c_array__(of.lists([], of.numbers).__arrow_c_schema__())
    assert structures(pair)[0].format == b"+l"
    for wrong in (5, pair[1], None):
        try:
            made = column.__arrow_c_array__(wrong)
        except TypeError:
            assert wrong is not None
        else:
            assert wrong is None and made
    of.releases()


passed = failed = 0
for name, test in sorted(globals().items()):
    if name.startswith("test_"):
        try:
            of.releases()
            test()
            passed += 1
        except Exception:
            print(name)
            traceback.print_exc()
            failed += 1
print(f"{passed} passed, {failed} failed")
raise SystemExit(failed != 0)
