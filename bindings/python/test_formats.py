"""The formats in which columns go out: those in which they came in, at every depth and after steps; those that a requested schema asks
for; and views, where a column came from no Arrow array. The last line is 'N passed, M failed'."""

import struct
import traceback

import stand_in as of
from codrask import Column, Step, library, run
from codrask.capsules import clear_release
from codrask.library import ArrowSchema

LONG = "a text of more than twelve bytes"
TEXTS = ["a", None, LONG, "b", "", "c"]


def formats_of(schema):
    """The format of a schema, and those of its children and of its dictionary."""
    parts = [formats_of(child) for child in schema.children] if schema.n_children else []
    parts += [formats_of(schema.dictionary)] if schema.dictionary else []
    return (schema.format.decode(), *parts)


def out(column, **how):
    return formats_of(column.to_arrow(**how).schema)


def large_list_views(rows, elements):
    """Lists by offsets and sizes of 64 bits, one after another."""
    sizes = [len(row or []) for row in rows]
    places = [sum(sizes[:place]) for place in range(len(rows))]
    told = [struct.pack(f"<{len(rows)}q", *each) for each in (places, sizes)]
    return of.Array("+vL", len(rows), [of.validity(rows), *told], [elements([item for row in rows for item in row or []])])


def extended(whole, name):
    """An array whose schema has the name of an extension."""
    plain = whole.schema

    def schema(name_of_field=""):
        made = plain(name_of_field)
        key = b"ARROW:extension:name"
        made.part.metadata = struct.pack(f"<ii{len(key)}si{len(name)}s", 1, len(key), key, len(name), name)
        return made

    whole.schema = schema
    return whole


def letters(format):
    return lambda rows: (of.values if format in "uUzZ" else of.views)(rows, format)


# ---- as they came

CAME = [
    (of.values(TEXTS), ("u",)),
    (of.values(TEXTS, "U"), ("U",)),
    (of.views(TEXTS), ("vu",)),
    (of.values([b"a", None, b"bc", b"", b"d", b"e"], "z"), ("z",)),
    (of.values([b"a", None, b"bc", b"", b"d", b"e"], "Z"), ("Z",)),
    (of.views([b"a", None, b"bc", b"", b"d", b"e"], "vz"), ("vz",)),
    (of.lists([TEXTS, None, [], ["x"], [], ["y"]], letters("U")), ("+l", ("U",))),
    (of.lists([TEXTS, None, [], ["x"], [], ["y"]], letters("vu"), "+L"), ("+L", ("vu",))),
    (of.list_views([TEXTS, None, [], ["x"], [], ["y"]], letters("u")), ("+vl", ("u",))),
    (large_list_views([TEXTS, None, [], ["x"], [], ["y"]], letters("u")), ("+vL", ("u",))),
    (of.lists_of_one_size([["a"], ["b"], ["c"], ["d"], ["e"], ["f"]], 1, letters("U")), ("+w:1", ("U",))),
    (of.records({"a": of.values(TEXTS, "U"), "b": of.numbers([1] * 6), "c": of.values(TEXTS)}, 6), ("+s", ("U",), ("l",), ("u",))),
    (of.numbers([1, None, 3, 4, 5, 6], "tdD"), ("tdD",)),
    (of.numbers([1, None, 3, 4, 5, 6], "tsu:UTC"), ("tsu:UTC",)),
    (
        of.Array("+m", 6, [None, struct.pack("<7i", *[0] * 6, 1)], [of.entries(["a"], [1])], names=["entries"]),
        ("+m", ("+s", ("u",), ("l",))),
    ),
]


def cuts(column):
    mask = Column.bools(b"\x35", 6)
    yield column
    yield column.slice(1, 5)
    yield column[::2]
    yield column.filter(mask)
    yield column.take([5, 0, 0])
    yield column.take([None, 2])
    yield column.pack()
    yield column.pack().slice(2).pack()
    yield run([column, mask], [Step.mask(0, 1)])[0]
    yield run([column, mask], [Step.mask(0, 1), Step.filter(2, 1), Step.concat([3, 0]), Step.canonical(4)])[0]


def test_as_they_came():
    ways = (lambda whole: whole, of.Capsules, lambda whole: of.Stream([whole, whole]), lambda whole: of.Chunked([whole, whole]))
    for whole, formats in CAME:
        for way in ways:
            assert out(Column.from_arrow(way(whole))) == formats, formats
        column = Column.from_arrow(whole)
        for place, cut in enumerate(cuts(column)):
            made = cut.to_arrow()
            assert formats_of(made.schema) == formats, (formats, place, formats_of(made.schema))
            assert Column.from_arrow(made) == cut and out(Column.from_arrow(made)) == formats, (formats, place)
            assert formats_of(Column.from_arrow(cut).to_arrow().schema) == formats, (formats, place)
    of.releases()


def test_names_stay():
    schema = Column.from_arrow(of.records({"a": of.values(["x"])}, 1)).field("a").to_arrow().schema
    assert (schema.format, schema.name) == (b"u", b"a")
    of.releases()


def test_dictionaries():
    column = Column.from_arrow(of.dictionary([1, 0, 1], of.values(["x", LONG], "U")))
    assert out(column) == ("U",) == out(column.slice(1)) and out(column, packed=False) == ("c", ("vu",))
    lists = Column.from_arrow(of.dictionary([1, 0], of.lists([["x"], ["y"]], letters("U"))))
    assert out(lists) == ("+l", ("U",)) == out(lists.take([0]))
    of.releases()


def test_by_offsets_says_of_all():
    column = Column.from_arrow(of.lists([["x"], None], letters("U"), "+L"))
    assert out(column, by_offsets=True) == ("+l", ("u",)) and out(column, by_offsets=False) == ("+vL", ("vu",))
    assert out(column, packed=False) == ("+vL", ("vu",)) == out(column, by_offsets=False, packed=False)
    assert out(column, by_offsets=True, packed=False) == ("+l", ("u",))
    of.releases()


def test_made_here():
    texts, lists = Column.from_pylist(["x"], "text"), Column.from_pylist([[b"x"]], "list<bytes>")
    assert out(texts) == ("vu",) and out(lists) == ("+vL", ("vz",)) == out(lists.slice(0).pack())
    came = Column.from_arrow(of.values(["x"], "U"))
    assert out(Column.records({"a": texts, "b": came}, 1)) == ("+s", ("vu",), ("U",))
    assert out(Column.dictionary(Column.numbers("u8", b"\0"), came)) == ("U",)
    assert out(Column.list_views(came, Column.numbers("u8", b"\0"), Column.numbers("u8", b"\1"), Column.bools(b"\1", 1))) == ("+vL", ("U",))
    assert out(Column.fixed_size_lists(came, 1, 1, True)) == ("+w:1", ("U",))
    of.releases()


def test_steps_on_records():
    whole = of.records({"a": of.values(["x"], "U"), "b": of.lists([["y"]], letters("u"), "+L"), "c": of.values([b"z"], "z")}, 1)
    records, texts = Column.from_arrow(whole), Column.from_pylist(["t"], "text")
    lists = ("+L", ("u",))
    told = [
        (Step.project(0, ["c", "a"]), ("+s", ("z",), ("U",))),
        (Step.with_column(0, "d", 1), ("+s", ("U",), lists, ("z",), ("vu",))),
        (Step.remove_column(0, "a"), ("+s", lists, ("z",))),
        (Step.push_validity(0), ("+s", ("U",), lists, ("z",))),
        (Step.field(0, "b"), lists),
        (Step.pack(0), ("+s", ("U",), lists, ("z",))),
    ]
    for step, formats in told:
        assert out(run([records, texts], [step])[0]) == formats, (formats, out(run([records, texts], [step])[0]))
    assert out(records.field("a")) == ("U",)
    one, other = Column.from_arrow(of.values(["x"], "U")), Column.from_arrow(of.values(["y"]))
    made = Column.from_pylist(["t"], "text?")
    assert [out(run([one, other, made], [Step.concat(order)])[0]) for order in ((0, 1), (1, 0), (2, 0))] == [("U",), ("u",), ("vu",)]
    assert out(run([Column.from_arrow(of.lists([["x"]], letters("U")))], [Step.rebuild(0)])[0]) == ("+vL", ("U",))
    assert out(run([Column.from_arrow(of.numbers([1, 2]))], [Step.narrow(0)])[0]) == ("C",)
    chunks = of.Chunked([of.values(["x"], "U"), of.values(["y"])])
    assert out(Column.from_arrow(chunks)) == ("U",) and [out(batch) for batch in Column.batches(chunks)] == [("U",), ("u",)]
    of.releases()


# ---- as they are asked for

def given_for(column, asked):
    """The formats of what a column gives where it is asked for the schema of an array, and its rows."""
    pair = column.__arrow_c_array__(asked.__arrow_c_schema__())
    taker = type("Taker", (), {"__arrow_c_array__": lambda self, requested_schema=None: pair})()
    again = Column.from_arrow(taker)
    return out(again), again


def test_requested_texts():
    for words, wrong in (("u U vu", "z"), ("z Z vz", "u")):
        rows = [LONG, None, "x"] if "u" in words else [LONG.encode(), None, b"x"]
        for came in words.split():
            column = Column.from_arrow(letters(came)(rows))
            for asked in words.split():
                assert given_for(column, letters(asked)([]))[0] == (asked,), (came, asked)
            assert given_for(column, letters(wrong)([]))[0] == (came,) == given_for(column, of.numbers([]))[0]
            assert given_for(column, of.dictionary([], letters(words[0])([])))[0] == (came,)
            assert given_for(column, of.lists([], letters(words[0])))[0] == (came,)
    of.releases()


LISTS = {
    "+l": lambda rows, elements: of.lists(rows, elements),
    "+L": lambda rows, elements: of.lists(rows, elements, "+L"),
    "+vl": lambda rows, elements: of.list_views(rows, elements),
    "+vL": large_list_views,
}


def test_requested_lists():
    rows = [["x"], None, [LONG, "y"]]
    for came, make in LISTS.items():
        column = Column.from_arrow(make(rows, letters("u")))
        for asked, make_asked in LISTS.items():
            for texts in ("u", "U", "vu"):
                formats, again = given_for(column, make_asked([], letters(texts)))
                assert formats == (asked, (texts,)) and again.to_pylist() == rows, (came, asked, formats)
        assert given_for(column, of.lists_of_one_size([], 1, letters("U")))[0] == (came, ("u",))
        assert given_for(column, of.records({"a": of.values([], "U")}, 0))[0] == (came, ("u",))
        assert given_for(column.slice(2), of.lists([], letters("U"), "+L"))[0] == ("+L", ("U",))
    of.releases()


def test_requested_parts():
    column = Column.from_arrow(of.records({"a": of.values(["x"]), "b": of.lists_of_one_size([["y"]], 1, letters("u"))}, 1))
    one = of.records({"a": of.views([]), "b": of.lists_of_one_size([], 7, letters("U"))}, 0)
    assert given_for(column, one)[0] == ("+s", ("vu",), ("+w:1", ("U",)))
    assert given_for(column, of.records({"a": of.views([])}, 0))[0] == ("+s", ("u",), ("+w:1", ("u",)))
    assert given_for(column, of.records({"a": of.numbers([]), "b": of.views([])}, 0))[0] == ("+s", ("u",), ("+w:1", ("u",)))
    assert given_for(column, of.lists([], letters("U")))[0] == ("+s", ("u",), ("+w:1", ("u",)))
    coded = Column.from_arrow(of.dictionary([0], of.values(["x"])))
    assert given_for(coded, of.views([]))[0] == ("vu",) and given_for(coded, of.dictionary([], of.views([])))[0] == ("u",)
    made = Column.from_pylist([[{"a": "x"}]], "list<records<a: text>>")
    asked = of.lists([], lambda _: of.records({"a": of.values([], "U")}, 0), "+L")
    assert given_for(made, asked)[0] == ("+L", ("+s", ("U",)))
    of.releases()


def test_requested_under_extensions_and_maps():
    texts = extended(of.values(["x"]), b"a name")
    column = Column.from_arrow(texts)
    assert column.type == 'extension<"a name", text?>' and out(column) == ("u",)
    assert given_for(column, of.values([], "U"))[0] == ("U",) == given_for(column, extended(of.values([], "U"), b"other"))[0]
    whole = of.Array("+m", 1, [None, struct.pack("<2i", 0, 1)], [of.entries(["a"], [1])], names=["entries"])
    entries = of.records({"key": of.values([], "U", nullable=False), "value": of.numbers([])}, 0, nullable=False)
    asked = of.Array("+m", 0, [None, bytes(4)], [entries], names=["entries"])
    assert given_for(Column.from_arrow(whole), asked)[0] == ("+m", ("+s", ("U",), ("l",)))
    floats = Column.from_arrow(of.numbers([0.5], "g"))
    assert given_for(floats, of.numbers([], "f"))[0] == ("g",) == given_for(floats, of.values([]))[0]
    of.releases()


def test_schemas_that_ask_for_nothing():
    column = Column.from_arrow(of.lists([["x"]], letters("U")))
    endless = of.lists([], letters("u"), "+L").schema()
    endless.part.n_children = 2**62
    of.EXPORTED.append(endless)
    schema = column.__arrow_c_array__(endless.capsule())
    taker = type("Taker", (), {"__arrow_c_array__": lambda self, requested_schema=None: schema})()
    assert out(Column.from_arrow(taker)) == ("+L", ("U",))
    released = of.lists([], letters("u"), "+L").schema()
    clear_release(released.part)
    of.EXPORTED.append(released)
    pair = column.__arrow_c_array__(released.capsule())
    taker = type("Taker", (), {"__arrow_c_array__": lambda self, requested_schema=None: pair})()
    assert out(Column.from_arrow(taker)) == ("+l", ("U",))
    nothing = of.exported(ArrowSchema(), ())
    given = column.__arrow_c_array__(nothing.capsule())
    taker = type("Taker", (), {"__arrow_c_array__": lambda self, requested_schema=None: given})()
    assert out(Column.from_arrow(taker)) == ("+l", ("U",))
    of.releases()


# ---- libraries of before, and without memory

class Library:
    """The library without some calls, and with others in place of its own."""

    def __init__(self, lacks=(), **calls):
        self._whole, self._lacks, self._calls = library.load(), lacks, calls

    def __getattr__(self, name):
        if name in self._lacks:
            raise AttributeError(name)
        return self._calls.get(name) or getattr(self._whole, name)


def with_library(other, call):
    """What a call gives or raises with another library."""
    whole, library._loaded = library.load(), other
    try:
        return call()
    except (ImportError, MemoryError) as error:
        return error
    finally:
        library._loaded = whole


def test_a_library_without_formats():
    older = Library(["codrask_table_formats", "codrask_write_arrow_as", "codrask_write_passed", "codrask_run_formats"])
    whole = of.values(["x", "y"], "U")
    column = with_library(older, lambda: Column.from_arrow(whole))
    assert with_library(older, lambda: out(column)) == ("vu",) == with_library(older, lambda: out(column.slice(1)))
    assert with_library(older, lambda: out(column, by_offsets=True)) == ("u",)
    asked = with_library(older, lambda: given_for(column, of.values([])))
    assert isinstance(asked, ImportError) and "has no codrask_write_arrow_as: it is older than this package" in str(asked), asked
    later = Column.from_arrow(whole)
    assert with_library(older, lambda: out(later)) == ("vu",) and out(later) == ("U",)
    of.releases()


def test_no_memory_for_formats():
    given_back = []
    free = library.load().codrask_columns_free
    refusing = Library(codrask_run_formats=lambda *_: 1, codrask_columns_free=lambda made: (given_back.append(made), free(made)))
    column = Column.from_arrow(of.values(["x", "y"], "U"))
    for call in (column.to_arrow, column.__arrow_c_array__, lambda: column.slice(1)):
        error = with_library(refusing, call)
        assert isinstance(error, MemoryError) and str(error) == "the library was refused memory", error
    assert len(given_back) == 3
    none = Column.from_pylist(["x"], "text")
    assert with_library(refusing, lambda: out(none)) == ("vu",)
    of.releases()


passed = failed = 0
for name, test in sorted(globals().items()):
    if name.startswith("test_"):
        try:
            of.releases()
            test()
            passed += 1
        except Exception:
            print(name)
            traceback.print_exc()
            failed += 1
print(f"{passed} passed, {failed} failed")
raise SystemExit(failed != 0)
