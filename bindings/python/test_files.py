"""Files that GDAL's own drivers wrote, a GeoPackage, a CSV and a shapefile: each column is the same after a check, after a filter, and
when GDAL reads it again. It runs where GDAL 3.6 or later is installed (Debian: python3-gdal). The last line is 'N passed, M failed'."""

import contextlib
import ctypes
import os
import struct
import tempfile
import traceback

import numpy
from osgeo import gdal, gdal_array, ogr, osr

from codrask import Column, Refused, Step, run
from codrask.library import ArrowArray, ArrowSchema

gdal.UseExceptions()

TEXTS = ["Größe, Ωμέγα", "plain", None, "日本語: more than twelve bytes"]
# each field: its type, its subtype, the values that GDAL is given, its format, and the rows as they are kept where they are others:
# days and milliseconds since 1970
FIELDS = {
    "whole": (ogr.OFTInteger, None, [7, None, -3, 12], "i", None),
    "large": (ogr.OFTInteger64, None, [1 << 40, -(1 << 40), None, 0], "l", None),
    "small": (ogr.OFTInteger, ogr.OFSTInt16, [-32768, None, 32767, 1], "s", None),
    "real": (ogr.OFTReal, None, [0.1, -2.5, None, 1234.0625], "g", None),
    "single": (ogr.OFTReal, ogr.OFSTFloat32, [None, 1.5, -0.25, 0.0], "f", None),
    "text": (ogr.OFTString, None, TEXTS, "u", None),
    "bytes": (ogr.OFTBinary, None, [b"\0\xff", None, b"A", b"a longer value\0"], "z", None),
    "date": (ogr.OFTDate, None, ["1970/01/02", None, "2000/01/01", "2038/01/19"], "tdD", [1, None, 10957, 24855]),
    "instant": (
        ogr.OFTDateTime,
        None,
        ["1970/01/01 00:00:01", "2000/01/01 12:34:56.789", None, "1969/12/31 23:59:59"],
        "tsm:",
        [1000, 10957 * 86400000 + 45296789, None, -1000],
    ),
    "truth": (ogr.OFTInteger, ogr.OFSTBoolean, [True, False, None, False], "b", None),
    "truths": (ogr.OFTInteger, ogr.OFSTBoolean, [False, True, None, True], "b", None),
}
POINTS = [(1.5, -2.0), None, (0.0, 0.0), (-180.0, 90.0)]
IN_SHAPES = ["whole", "large", "real", "text", "date"]
IN_CSV = [name for name in FIELDS if name != "bytes"]
# GDAL 3.6 hands over the truth values of a GeoPackage as one bit, that of the first row: it is set where any of them is true
IN_GEOPACKAGE = [name for name in FIELDS if name != "truths"]
# each driver: the end of its files, how a layer is made, the fields that it has, and the names of the numbers and of the geometry
DRIVERS = {
    "GPKG": ("gpkg", [], IN_GEOPACKAGE, "fid", "geom"),
    "CSV": ("csv", ["GEOMETRY=AS_WKT", "CREATE_CSVT=YES"], IN_CSV, "OGC_FID", "geom_WKT"),
    "ESRI Shapefile": ("shp", ["ENCODING=UTF-8"], IN_SHAPES, "OGC_FID", "wkb_geometry"),
}


# ---- written

def write_value(feature, name, value):
    if value is None:
        feature.SetFieldNull(name)
    elif isinstance(value, bytes):
        feature.SetFieldBinaryFromHexString(name, value.hex())
    else:
        feature[name] = value


def write_layer(layer, fields):
    """Four rows of these fields, and a point in each but the second one."""
    for name in fields:
        field = ogr.FieldDefn(name, FIELDS[name][0])
        field.SetSubType(FIELDS[name][1] or ogr.OFSTNone)
        layer.CreateField(field)
    for row, point in enumerate(POINTS):
        feature = ogr.Feature(layer.GetLayerDefn())
        for name in fields:
            write_value(feature, name, FIELDS[name][2][row])
        if point:
            feature.SetGeometry(ogr.CreateGeometryFromWkt("POINT (%r %r)" % point))
        layer.CreateFeature(feature)


def kept_in(driver):
    """The rows of each column of a file, and the format of each. CSV keeps no null text, and the points as texts too."""
    _, _, fields, number, geometry = DRIVERS[driver]
    rows = {name: FIELDS[name][4] or FIELDS[name][2] for name in fields}
    formats = {name: FIELDS[name][3] for name in fields}
    rows[number] = [0, 1, 2, 3] if driver == "ESRI Shapefile" else [1, 2, 3, 4]
    rows[geometry] = [point and struct.pack("<BIdd", 1, 1, *point) for point in POINTS]
    formats.update({number: "l", geometry: "z"})
    if driver == "CSV":
        rows["text"] = [text or "" for text in TEXTS]
        rows["WKT"] = ["POINT (1.5 -2)", "", "POINT (0 0)", "POINT (-180 90)"]
        formats["WKT"] = "u"
    return rows, formats


# ---- read

class Batch:
    """The one record batch of a file that a driver wrote, and the columns that it is made of."""

    def __init__(self, driver, folder):
        end, options, fields, _, _ = DRIVERS[driver]
        path, system = os.path.join(folder, f"layer.{end}"), osr.SpatialReference()
        system.ImportFromEPSG(4326)
        written = ogr.GetDriverByName(driver).CreateDataSource(path)
        write_layer(written.CreateLayer("layer", system, ogr.wkbPoint, options), fields)
        del written
        self.source = ogr.Open(path)
        self.stream = self.source.GetLayer(0).GetArrowStream()
        self.own_schema, self.own_array = self.stream.GetSchema(), self.stream.GetNextRecordBatch()
        self.schema_pointer, self.array_pointer = self.own_schema._getPtr(), self.own_array._getPtr()
        self.schema, self.array = ArrowSchema.from_address(self.schema_pointer), ArrowArray.from_address(self.array_pointer)

    def whole(self):
        return Column.from_arrow(self.schema_pointer, self.array_pointer, self)

    def child(self, name):
        """The schema and the array of a field."""
        names = [self.schema.children[i].contents.name.decode() for i in range(self.schema.n_children)]
        return self.schema.children[names.index(name)].contents, self.array.children[names.index(name)].contents

    def column(self, name):
        return Column.from_arrow(*map(ctypes.addressof, self.child(name)), self)

    @contextlib.contextmanager
    def under(self, name, other):
        """A field is under another format meanwhile: it is what a schema begins with."""
        pointer = ctypes.c_void_p.from_address(ctypes.addressof(self.child(name)[0]))
        before, text = pointer.value, ctypes.create_string_buffer(other)
        pointer.value = ctypes.addressof(text)
        try:
            yield
        finally:
            pointer.value = before


def sized(address):
    """Some bytes after their number, and the address behind them."""
    size = ctypes.c_int32.from_address(address).value
    return ctypes.string_at(address + 4, size), address + 4 + size


def metadata_of(schema):
    """The keys and values of a schema, as Arrow lays them out."""
    address = ctypes.c_void_p.from_address(ctypes.addressof(schema) + ArrowSchema.metadata.offset).value
    told, at = {}, (address or 0) + 4
    for _ in range(ctypes.c_int32.from_address(address).value if address else 0):
        key, at = sized(at)
        told[key], at = sized(at)
    return told


def columns_of(schema_pointer):
    """The format and the metadata of each column."""
    schema = ArrowSchema.from_address(schema_pointer)
    children = [schema.children[i].contents for i in range(schema.n_children)]
    return {child.name.decode(): (child.format.decode(), metadata_of(child)) for child in children}


# the letters of numbers that are carried as their bits, by their format
NUMBERS = {"g": "Qd", "f": "If", "tdD": "Ii", "tsm:": "Qq"}


def told(row):
    """A row, also where it is a record that carries it: as bits under its format, or as it is under an extension."""
    if not isinstance(row, dict):
        return row
    [(name, value)] = row.items()
    bits, number = NUMBERS.get(name[1:], "QQ")
    return struct.unpack(f"<{number}", struct.pack(f"<{bits}", value))[0] if name[1:] in NUMBERS else value


def rows_of(column, names):
    """The rows of each column of records."""
    rows = column.to_pylist()
    return {name: [told(row[name]) for row in rows] for name in names}


# ---- read by GDAL

def plain_value(value, masked):
    """A value: of dates and instants the number of their unit."""
    if masked or value is None:
        return None
    if isinstance(value, numpy.bytes_):
        return value.decode()
    if isinstance(value, numpy.datetime64):
        return value.astype("int64").item()
    return value.item() if isinstance(value, numpy.generic) else value


def read_by_gdal(made):
    """The fields of records as GDAL reads them: each is an array, or one with a mask that is true at nulls."""
    fields = gdal_array._RecordBatchAsNumpy(made.array_pointer, made.schema_pointer, made)
    plain = {name: (field["data"], field["mask"]) if isinstance(field, dict) else (field, [False] * 4) for name, field in fields.items()}
    return {name: [plain_value(*pair) for pair in zip(*both)] for name, both in plain.items()}


# ---- tests

def of_each_file(test):
    """Makes a test over each file."""
    for driver in DRIVERS:
        with tempfile.TemporaryDirectory() as folder:
            test(driver, Batch(driver, folder))


def test_columns():
    def columns(driver, batch):
        rows, _ = kept_in(driver)
        for name in rows:
            got = list(map(told, batch.column(name).check().to_pylist()))
            assert got == rows[name], (driver, name, got)

    of_each_file(columns)


def test_there_and_back():
    def there_and_back(driver, batch):
        rows, formats = kept_in(driver)
        extension = {DRIVERS[driver][4]: {b"ARROW:extension:name": b"ogc.wkb"}}
        wanted = {name: (format_, extension.get(name, {})) for name, format_ in formats.items()}
        assert columns_of(batch.schema_pointer) == wanted, (driver, columns_of(batch.schema_pointer))
        whole = batch.whole().check()
        assert rows_of(whole, rows) == rows, (driver, rows_of(whole, rows))
        [kept] = run([whole, Column.bools(b"\x0b", 4)], [Step.filter(0, 1)])
        rows = {name: [column[i] for i in (0, 1, 3)] for name, column in rows.items()}
        assert rows_of(kept, rows) == rows, (driver, rows_of(kept, rows))
        made = kept.to_arrow(by_offsets=True)
        assert columns_of(made.schema_pointer) == wanted, (driver, columns_of(made.schema_pointer))
        assert read_by_gdal(made) == rows, (driver, read_by_gdal(made))

    of_each_file(there_and_back)


def refused(read):
    """Why a column is refused."""
    try:
        read()
    except Refused as fault:
        return fault.name, fault.node, fault.row
    return None


def test_what_is_not_carried():
    """Of unions and runs there is no column: that is told at their node, and the other columns are read."""
    with tempfile.TemporaryDirectory() as folder:
        batch = Batch("ESRI Shapefile", folder)
        for other in (b"+us:0", b"+r"):
            with batch.under("real", other):
                # records, numbers, and two columns with the truth values that tell their nulls stand before
                assert refused(batch.whole) == ("BadArrow", 6, 0), refused(batch.whole)
                assert refused(lambda: batch.column("real")) == ("BadArrow", 0, 0)
                assert batch.column("text").to_pylist() == TEXTS
        assert refused(batch.whole) is None


passed = failed = 0
for name, test in sorted(globals().items()):
    if name.startswith("test_"):
        try:
            test()
            passed += 1
        except Exception:
            traceback.print_exc()
            failed += 1
print(f"{passed} passed, {failed} failed")
raise SystemExit(failed != 0)
