"""Objects with the names that those of pyarrow have, made of Python values by plain loops; each buffer ends where the memory
ends that may be read, so that a byte read past it ends the process. And objects that give capsules alone. For the tests
alone."""

import ctypes
import mmap
import struct

from codrask.library import ArrowArray, ArrowArrayStream, ArrowSchema

PAGE = mmap.PAGESIZE
INTEGERS = {"c": "b", "C": "B", "s": "h", "S": "H", "i": "i", "I": "I", "l": "q", "L": "Q"}
LETTERS = {**INTEGERS, "e": "e", "f": "f", "g": "d", "tdD": "i", "tsu:UTC": "q"}
_capsule_type = ctypes.PYFUNCTYPE(ctypes.py_object, ctypes.c_void_p, ctypes.c_char_p, ctypes.c_void_p)
_new_capsule = _capsule_type(("PyCapsule_New", ctypes.pythonapi))
_protect = ctypes.CDLL(None, use_errno=True).mprotect
NAMES = {ArrowSchema: b"arrow_schema", ArrowArray: b"arrow_array", ArrowArrayStream: b"arrow_array_stream"}


class Buffer:
    """What holds bytes at the end of some pages that are followed by one that nobody may read."""

    def __init__(self, data):
        pages = max(1, -(-len(data) // PAGE))
        self.memory = mmap.mmap(-1, (pages + 1) * PAGE)
        start = ctypes.addressof(ctypes.c_char.from_buffer(self.memory))
        if _protect(ctypes.c_void_p(start + pages * PAGE), PAGE, 0):
            raise OSError(ctypes.get_errno(), "mprotect")
        self.view = memoryview(self.memory)[pages * PAGE - len(data) : pages * PAGE]
        self.view[:] = data
        self.address, self.size = start + pages * PAGE - len(data), len(data)


class Exported:
    """A structure that somebody may take over, and how often it was released."""

    def __init__(self, part, keep):
        self.part, self.keep, self.released = part, keep, 0
        self.callback = dict(type(part)._fields_)["release"](self.release)
        part.release = self.callback

    def release(self, part):
        self.released += 1
        ctypes.c_void_p.from_address(ctypes.addressof(part.contents) + type(self.part).release.offset).value = None

    def capsule(self, name=None):
        return _new_capsule(ctypes.addressof(self.part), name or NAMES[type(self.part)], None)


REASON = ctypes.create_string_buffer(b"out of order")
EXPORTED = []  # all that was handed out: it has to outlive who takes it


def exported(part, keep):
    EXPORTED.append(Exported(part, keep))
    return EXPORTED[-1]


def releases():
    """How often each structure that was handed out was released; and begins anew."""
    counts = [one.released for one in EXPORTED]
    del EXPORTED[:]
    return counts


class Array:
    """An array as pyarrow has it: a format, rows from an offset on, buffers with lengths, children, a dictionary."""

    def __init__(self, format, length, buffers, children=(), dictionary=None, offset=0, null_count=-1, names=None, nullable=True):
        self.type, self.length, self.offset, self.null_count = format, length, offset, null_count
        self.own = [None if data is None else Buffer(data) for data in buffers]
        self.children, self.dictionary, self.nullable = list(children), dictionary, nullable
        self.names = names or ["item"] * len(self.children)

    def __len__(self):
        return self.length

    def buffers(self):
        """All buffers: its own, then those of its children. Nulls, unions and runs list a validity that Arrow's structures have
        not."""
        found = [None] * self.type.startswith(("n", "+u", "+r")) + [buffer and buffer.view for buffer in self.own]
        for child in self.children:
            found += child.buffers()
        return found

    def field(self, place):
        return self.children[place]

    @property
    def values(self):
        return self.children[0]

    def schema(self, name=""):
        """The ArrowSchema, and what keeps its parts."""
        children = [child.schema(child_name) for child, child_name in zip(self.children, self.names)]
        part = ArrowSchema(format=self.type.encode(), name=name.encode(), flags=2 * self.nullable, n_children=len(children))
        part.children = (ctypes.POINTER(ArrowSchema) * max(len(children), 1))(*(ctypes.pointer(child.part) for child in children))
        keep = [children]
        if self.dictionary:
            keep.append(self.dictionary.schema())
            part.dictionary = ctypes.pointer(keep[-1].part)
        return Exported(part, keep)

    def structure(self):
        """The ArrowArray, and what keeps its parts. Views have a buffer more, with the sizes of the others."""
        places = [buffer and buffer.address for buffer in self.own]
        keep = [child.structure() for child in self.children]
        if self.type in ("vu", "vz"):
            sizes = Buffer(struct.pack(f"<{len(self.own) - 2}q", *(buffer.size for buffer in self.own[2:])))
            places, keep = [*places, sizes.address], [*keep, sizes]
        part = ArrowArray(length=self.length, null_count=self.null_count, offset=self.offset, n_buffers=len(places))
        part.buffers = (ctypes.c_void_p * max(len(places), 1))(*places)
        children = [ctypes.pointer(one.part) for one in keep[: len(self.children)]]
        part.n_children = len(children)
        part.children = (ctypes.POINTER(ArrowArray) * max(len(children), 1))(*children)
        if self.dictionary:
            keep.append(self.dictionary.structure())
            part.dictionary = ctypes.pointer(keep[-1].part)
        return Exported(part, keep)

    def __arrow_c_schema__(self):
        EXPORTED.append(self.schema())
        return EXPORTED[-1].capsule()

    def __arrow_c_array__(self, requested_schema=None):
        EXPORTED.extend([self.schema(), self.structure()])
        return EXPORTED[-2].capsule(), EXPORTED[-1].capsule()


class Batch:
    """A record batch: it has columns, and lists no buffers itself."""

    def __init__(self, columns, length):
        self.names, self.columns = list(columns), list(columns.values())
        self.whole = Array("+s", length, [None], self.columns, names=self.names, null_count=0, nullable=False)

    def __arrow_c_array__(self, requested_schema=None):
        return self.whole.__arrow_c_array__()


class Stream:
    """What gives arrays one after another. `errors` are the numbers that its calls answer, by their names."""

    def __init__(self, arrays, like=None, errors=None):
        self.arrays, self.like, self.errors, self.given = arrays, like or arrays[0], errors or {}, 0

    def get_schema(self, _stream, into):
        return self.write("get_schema", self.like.schema(), into)

    def get_next(self, _stream, into):
        if self.given == len(self.arrays):
            return self.errors.get("end", 0)
        self.given += 1
        return self.write("get_next", self.arrays[self.given - 1].structure(), into)

    def write(self, name, made, into):
        if name in self.errors:
            return self.errors[name]
        EXPORTED.append(made)
        ctypes.memmove(into, ctypes.addressof(made.part), ctypes.sizeof(made.part))
        return 0

    def __arrow_c_stream__(self, requested_schema=None):
        types = dict(ArrowArrayStream._fields_)
        calls = [types["get_schema"](self.get_schema), types["get_next"](self.get_next)]
        calls.append(types["get_last_error"](lambda _: ctypes.addressof(REASON)))
        self.given = 0
        return exported(ArrowArrayStream(*calls), calls).capsule()


class Chunked(Stream):
    """A chunked array: it lists its chunks."""

    @property
    def chunks(self):
        return self.arrays


class Table(Stream):
    """A table: it lists its columns, and makes batches."""

    def __init__(self, batches):
        super().__init__([batch.whole for batch in batches])
        self.batches = batches

    @property
    def columns(self):
        return [Chunked([batch.columns[i] for batch in self.batches]) for i in range(len(self.like.children))]

    def to_batches(self):
        return list(self.batches)


class Capsules:
    """An object that gives an array in capsules and tells nothing else."""

    def __init__(self, whole):
        self.__arrow_c_array__ = whole.__arrow_c_array__


# ---- arrays of Python values, by plain loops

def bits(truths):
    data = bytearray(len(truths) // 8 + 1)
    for i, truth in enumerate(truths):
        data[i // 8] |= bool(truth) << i % 8
    return bytes(data[: -(-len(truths) // 8)])


def validity(rows):
    return None if None not in rows else bits([row is not None for row in rows])


def numbers(rows, format="l", **more):
    """Numbers of a format."""
    data = b"".join(struct.pack(f"<{LETTERS[format]}", 0 if row is None else row) for row in rows)
    return Array(format, len(rows), [validity(rows), data], **more)


def bools(rows, **more):
    return Array("b", len(rows), [validity(rows), bits([row or False for row in rows])], **more)


def offsets_of(rows, letter):
    ends = [0]
    for row in rows:
        ends.append(ends[-1] + (0 if row is None else len(row)))
    return b"".join(struct.pack(f"<{letter}", end) for end in ends)


def values(rows, format="u", **more):
    """Texts or byte lists by offsets."""
    plain = [row.encode() if isinstance(row, str) else row for row in rows]
    offsets = offsets_of(plain, "i" if format.islower() else "q")
    return Array(format, len(rows), [validity(rows), offsets, b"".join(row or b"" for row in plain)], **more)


def views(rows, format="vu", **more):
    """Texts or byte lists by views, with two buffers by turns."""
    made, buffers = [], [b"", b""]
    for i, row in enumerate(rows):
        data = b"" if row is None else row.encode() if isinstance(row, str) else row
        if len(data) <= 12:
            made.append(struct.pack("<i12s", len(data), data))
        else:
            made.append(struct.pack("<i4sii", len(data), data[:4], i % 2, len(buffers[i % 2])))
            buffers[i % 2] += data
    return Array(format, len(rows), [validity(rows), b"".join(made), *buffers], **more)


def lists(rows, of, format="+l", **more):
    """Lists by offsets, of what `of` makes of all elements."""
    elements = of([item for row in rows for item in row or []])
    return Array(format, len(rows), [validity(rows), offsets_of(rows, "i" if format == "+l" else "q")], [elements], **more)


def list_views(rows, of, **more):
    """Lists by offsets and sizes, laid out from the last one to the first."""
    items, starts = [], {}
    for i in reversed(range(len(rows))):
        starts[i] = len(items)
        items += rows[i] or []
    places, sizes = [starts[i] for i in range(len(rows))], [len(row or []) for row in rows]
    told = [struct.pack(f"<{len(rows)}i", *each) for each in (places, sizes)]
    return Array("+vl", len(rows), [validity(rows), *told], [of(items)], **more)


def lists_of_one_size(rows, size, of, **more):
    items = [item for row in rows for item in (row or [0] * size)]
    return Array(f"+w:{size}", len(rows), [validity(rows)], [of(items)], **more)


def records(columns, length, rows=(), **more):
    return Array("+s", length, [validity(rows)], columns.values(), names=list(columns), **more)


def entries(keys, items):
    """The entries of maps: keys that are texts, and numbers."""
    names = {"key": values(keys, nullable=False), "value": numbers(items)}
    return records(names, len(keys), nullable=False)


def dictionary(codes, of, **more):
    """Codes of one byte, and the values that they name."""
    made = numbers(codes, "c", **more)
    made.dictionary = of
    return made
