"""Columns that GDAL makes: each field of a layer, whole and by its rows, as GDAL hands it over by Arrow's C Data Interface; and
GDAL reads what is written of them. It runs where GDAL 3.6 or later is installed (Debian: python3-gdal). The last line is
'N passed, M failed'."""

import array
import ctypes
import datetime
import traceback

import numpy
from osgeo import gdal, gdal_array, ogr

from codrask import Column, Refused, Step, run

gdal.UseExceptions()


class Schema(ctypes.Structure):
    pass


class Array(ctypes.Structure):
    pass


Schema._fields_ = [
    ("format", ctypes.c_char_p),
    ("name", ctypes.c_char_p),
    ("metadata", ctypes.c_char_p),
    ("flags", ctypes.c_int64),
    ("n_children", ctypes.c_int64),
    ("children", ctypes.POINTER(ctypes.POINTER(Schema))),
]
Array._fields_ = [
    ("length", ctypes.c_int64),
    ("null_count", ctypes.c_int64),
    ("offset", ctypes.c_int64),
    ("n_buffers", ctypes.c_int64),
    ("n_children", ctypes.c_int64),
    ("buffers", ctypes.POINTER(ctypes.c_void_p)),
    ("children", ctypes.POINTER(ctypes.POINTER(Array))),
]

LONG = "a text of more than twelve bytes"


# each field: its type, its subtype, the values that GDAL is given; where they are others, the rows as they are kept (days and
# milliseconds since 1970), and the values that GDAL reads of them again
FIELDS = {
    "whole": (ogr.OFTInteger, None, [7, None, -3], None, None),
    "large": (ogr.OFTInteger64, None, [1 << 40, -(1 << 40), None], None, None),
    "small": (ogr.OFTInteger, ogr.OFSTInt16, [None, -32768, 32767], None, None),
    "truth": (ogr.OFTInteger, ogr.OFSTBoolean, [True, False, None], None, None),
    "text": (ogr.OFTString, None, ["abc", None, LONG], None, None),
    "real": (ogr.OFTReal, None, [0.5, None, -3.25], None, None),
    "single": (ogr.OFTReal, ogr.OFSTFloat32, [None, 0.5, -3.25], None, None),
    "date": (
        ogr.OFTDate,
        None,
        ["1970/01/02", None, "2000/01/01"],
        [1, None, 10957],
        [datetime.date(1970, 1, 2), None, datetime.date(2000, 1, 1)],
    ),
    "instant": (
        ogr.OFTDateTime,
        None,
        ["1970/01/01 00:00:01", "1970/01/02 00:00:00", None],
        [1000, 86400000, None],
        [datetime.datetime(1970, 1, 1, 0, 0, 1), datetime.datetime(1970, 1, 2), None],
    ),
    "wholes": (ogr.OFTIntegerList, None, [[3, 4], None, [1, 2, 3]], None, None),
    "larges": (ogr.OFTInteger64List, None, [[1 << 40], [5, 6], [-1]], None, None),
    "reals": (ogr.OFTRealList, None, [[0.5], [1.5, -2.5], None], None, None),
    "texts": (ogr.OFTStringList, None, [["a", LONG], ["b"], ["", "c"]], None, None),
}


def layer_of(names):
    """A layer of three rows with these fields."""
    source = ogr.GetDriverByName("Memory").CreateDataSource("x")
    layer = source.CreateLayer("l", geom_type=ogr.wkbNone)
    for name in names:
        kind, subtype = FIELDS[name][:2]
        field = ogr.FieldDefn(name, kind)
        if subtype is not None:
            field.SetSubType(subtype)
        layer.CreateField(field)
    for row in range(3):
        feature = ogr.Feature(layer.GetLayerDefn())
        for name in names:
            value = FIELDS[name][2][row]
            if value is None:
                feature.SetFieldNull(name)
            else:
                feature[name] = value
        layer.CreateFeature(feature)
    return source, layer


class Batch:
    """The one record batch of a layer, and the columns that it is made of."""

    def __init__(self, names):
        self.source, layer = layer_of(names)
        self.stream = layer.GetArrowStream()
        self.own_schema, self.own_array = self.stream.GetSchema(), self.stream.GetNextRecordBatch()
        self.schema = Schema.from_address(self.own_schema._getPtr())
        self.array = Array.from_address(self.own_array._getPtr())
        self.places = {self.schema.children[i].contents.name.decode(): i for i in range(self.schema.n_children)}

    def column(self, name):
        at = self.places[name]
        return Column.from_arrow(
            ctypes.addressof(self.schema.children[at].contents), ctypes.addressof(self.array.children[at].contents), self
        )

    def whole(self):
        return Column.from_arrow(self.own_schema._getPtr(), self.own_array._getPtr(), self)

    def numbers(self, name, buffer, kind):
        """A buffer of a field, to be written."""
        address = self.array.children[self.places[name]].contents.buffers[buffer]
        return (kind * 4).from_address(address)


def rows_of(name):
    return FIELDS[name][3] or FIELDS[name][2]


def read_of(name):
    return FIELDS[name][4] or FIELDS[name][2]


def refused(column):
    fault = column.fault()
    return fault and (fault.name, fault.node, fault.row)


def test_fields():
    batch = Batch(list(FIELDS))
    for name in FIELDS:
        assert batch.column(name).to_pylist() == rows_of(name), (name, batch.column(name).to_pylist())


def test_records():
    batch = Batch(list(FIELDS))
    wanted = [{name: rows_of(name)[i] for name in FIELDS} for i in range(3)]
    got = batch.whole().to_pylist()
    assert [{name: row[name] for name in FIELDS} for row in got] == wanted, got
    assert [row["OGC_FID"] for row in got] == [0, 1, 2], got


def read_by_gdal(column):
    """The fields of records as GDAL reads them, null as None."""
    made = column.to_arrow(by_offsets=True)
    fields = gdal_array._RecordBatchAsNumpy(made.array_pointer, made.schema_pointer, made)
    return {name: plain_field(field) for name, field in fields.items()}


def plain_field(field):
    """The rows of a field, which is an array, or one with a mask that is true at nulls."""
    if isinstance(field, dict):
        return [plain_value(value, masked) for value, masked in zip(field["data"], field["mask"])]
    return [plain_value(value, False) for value in field]


def plain_value(value, masked):
    if masked or value is None:
        return None
    if isinstance(value, numpy.ndarray):
        value = value.tolist()
    elif isinstance(value, numpy.generic):
        value = value.item()
    if isinstance(value, list):
        return [plain_value(item, False) for item in value]
    return value.decode() if isinstance(value, bytes) else value


def test_written_fields():
    batch = Batch(list(FIELDS))
    read = read_by_gdal(batch.whole())
    for name in FIELDS:
        assert read[name] == read_of(name), (name, read[name])


def test_cut_and_rebuilt():
    batch = Batch(list(FIELDS))
    picks = Column.numbers("i32", array.array("i", [2, 0]))
    steps = [
        Step.project(0, ["whole", "text"]),
        Step.take(1, 2),
        Step.rebuild(4),
        Step.take(3, 2),
        Step.with_column(6, "wholes", 5),
    ]
    [picked] = run([batch.whole(), batch.column("wholes"), picks], steps)
    assert read_by_gdal(picked) == {"whole": [-3, 7], "text": [LONG, "abc"], "wholes": [[1, 2, 3], [3, 4]]}


def test_steps_on_what_is_carried():
    names = ["real", "single", "date", "instant"]
    batch = Batch(names)
    picks = Column.numbers("i32", array.array("i", [2, 0]))
    [picked] = run([batch.whole(), picks], [Step.project(0, names), Step.take(2, 1)])
    assert picked.to_pylist() == [{name: rows_of(name)[i] for name in names} for i in (2, 0)], picked.to_pylist()
    read = read_by_gdal(picked)
    for name in names:
        assert read[name] == [read_of(name)[i] for i in (2, 0)], (name, read[name])


def test_geometries():
    source = ogr.GetDriverByName("Memory").CreateDataSource("x")
    layer = source.CreateLayer("l", geom_type=ogr.wkbPoint)
    points = [ogr.CreateGeometryFromWkt("POINT (1 2)"), None, ogr.CreateGeometryFromWkt("POINT (-3 4)")]
    for point in points:
        feature = ogr.Feature(layer.GetLayerDefn())
        feature.SetGeometry(point)
        layer.CreateFeature(feature)
    stream = layer.GetArrowStream()
    schema, batch = stream.GetSchema(), stream.GetNextRecordBatch()
    column = Column.from_arrow(schema._getPtr(), batch._getPtr(), (schema, batch))
    wanted = [point and bytes(point.ExportToWkb(ogr.wkbNDR)) for point in points]
    made = column.to_arrow()
    for read in (column, Column.from_arrow(made.schema_pointer, made.array_pointer, made)):
        geometries = [row["wkb_geometry"] for row in read.to_pylist()]
        assert geometries == wanted, geometries
        assert 'wkb_geometry: extension<"ogc.wkb", bytes?>' in read.type, read.type


def test_two_formats():
    batch = Batch(["real", "large"])
    try:
        run([batch.column("real"), batch.column("large")], [Step.concat([0, 1])])
    except Refused as fault:
        assert fault.name == "DifferingDtypes", fault
    else:
        raise AssertionError("reals and integers are joined")


def test_offset_that_falls():
    batch = Batch(["wholes"])
    batch.numbers("wholes", 1, ctypes.c_int32)[2] = 1
    assert refused(batch.column("wholes")) == ("Negative", 0, 1)


def test_offset_past_the_elements():
    batch = Batch(["wholes"])
    batch.numbers("wholes", 1, ctypes.c_int32)[3] = 1000
    assert refused(batch.column("wholes")) == ("OutOfBounds", 0, 1000)


def test_bytes_that_are_no_text():
    batch = Batch(["text"])
    batch.numbers("text", 2, ctypes.c_uint8)[1] = 0xFF
    assert refused(batch.column("text")) == ("NotUtf8", 0, 0)


def test_text_astray():
    batch = Batch(["text"])
    batch.numbers("text", 1, ctypes.c_int32)[2] = 1000
    assert refused(batch.column("text")) == ("BadBuffer", 0, 2)


def taken(buffer):
    """The rows of 32-bit integers out of a buffer, or the kind of the error."""
    try:
        return Column.numbers("i32", buffer).to_pylist()
    except (TypeError, ValueError) as error:
        return type(error).__name__


def test_numpy_buffers():
    base = numpy.array([1, 2, 3], "i4")
    assert [taken(base), taken(base[1:]), taken(base.view("u1"))] == [[1, 2, 3], [2, 3], [1, 2, 3]]
    for kind in ("i8", "u4", "f4", ">i4", "m8[s]", "O", "i4,i4"):
        assert taken(numpy.zeros(2, kind)) == ("ValueError" if kind == "m8[s]" else "TypeError"), kind
    for shape in (base[::2], numpy.broadcast_to(base[:1], 3)):
        assert taken(shape) == "ValueError", shape
    for shape in (base.reshape(3, 1), numpy.int32(5)):
        assert taken(shape) == "TypeError", shape


def test_numpy_cannot_change_what_passed():
    base = numpy.array([1, 2], "i4")
    locked = base.view()
    locked.flags.writeable = False
    column = Column.numbers("i32", locked).check()
    view = column.to_numpy()
    base[:] = 9
    try:
        view.flags.writeable = True
    except ValueError:
        pass
    else:
        raise AssertionError("the array of a column can be written to")
    assert (column.to_pylist(), view.tolist()) == ([1, 2], [1, 2])


def test_numpy():
    view = Column.numbers("i16", array.array("h", [1, -2, 300])).to_numpy()
    assert view.dtype == numpy.int16 and view.tolist() == [1, -2, 300] and not view.flags.writeable
    assert run([Column.numbers("u8", b"\7\x08\t")], [Step.slice(0, 1, 3)])[0].to_numpy().tolist() == [8, 9]
    assert Column.numbers("u64", b"").to_numpy().tolist() == []
    try:
        Column.bools(b"\1", 1).to_numpy()
    except TypeError:
        pass
    else:
        raise AssertionError("truth values have no numpy array")


passed = failed = 0
for name, test in sorted(globals().items()):
    if name.startswith("test_"):
        try:
            test()
            passed += 1
        except Exception:
            traceback.print_exc()
            failed += 1
print(f"{passed} passed, {failed} failed")
raise SystemExit(failed != 0)
