"""Columns: made of buffers or of Arrow arrays, checked, and read."""

import ctypes
import reprlib

from . import nodes as of
from .arguments import NO_LISTS, U32, address, choice, each, encoded, instance, integer, listed, shown, truth, wrong
from .arrow import Arrow, held
from .capsules import capsule_of, schema_in
from .equal import same_rows
from .faults import MEMORY, TOO_MANY_BYTES, TOO_MANY_NODES, Refused, refusal
from .formats import formats_asked
from .library import Fault, Limits, has, later, load
from .made import nodes_of
from .memory import bytes_in, raw, raw_or_numbers
from .nulls import null_count
from .offsets import list_parts, offsets_of, views_between
from .packing import takes_more, with_names
from .reading import Asked, gives_arrays, nodes_at, read_given
from .rows import rows_of
from .streams import stream_capsule
from .window import rows_between
from .words import path_of, type_from, types_of

MOST_VALUES = 2**27
MOST_PACKED, TIMES_PACKED = 2**30, 8
AT_ONCE, MOST_AT_ONCE = 2**14, 2**22
SHOWN_ROWS, SHOWN_VALUES, SHOWN_TYPE = 5, 1000, 80


class Column:
    """A column as a table of nodes: each array stands before its parts. Nothing of it is tested until `check`, but how many
    nodes it has, and that each argument is one."""

    __slots__ = ("_nodes", "_passed", "_is_packed", "_name", "_formats", "__weakref__")

    def __init__(self, *_arguments, **_fields):
        raise TypeError("a Column is made by one of its calls, as Column.numbers or Column.from_arrow")

    def __copy__(self):
        return self

    def __reduce_ex__(self, _protocol):
        raise TypeError("a Column is neither pickled nor copied deeply")

    @classmethod
    def _made(cls, nodes, name=b"", formats=None, passed=False, is_packed=False):
        column = object.__new__(cls)
        column._nodes, column._passed, column._is_packed, column._name = nodes, passed, is_packed, name
        column._formats = bytes(len(nodes)) if formats is None else formats
        return column

    # ---- made of Arrow arrays

    @classmethod
    def from_arrow(cls, given=None, array_pointer=None, owner=None, most_bytes=None, columns=None, *, schema_pointer=None):
        """The column of Arrow arrays. What is given is one thing:

        - an object that tells its buffers, as the arrays, chunked arrays, batches and tables of pyarrow do: no byte past the
          end of a buffer is read, and what needs one is refused;
        - an object that gives capsules of an array or of a stream, of a producer in one's own process whom one trusts: Arrow's
          structures tell the length of no buffer but those of views, so no test can see that a buffer is shorter than its rows
          need;
        - or the addresses of an ArrowSchema and an ArrowArray, of which the same is to be said. They stay the caller's, and
          `owner` is what keeps them alive until this call is over.

        What the arrays hold is copied; what capsules have is taken over, and released once. The arrays of a stream, and chunks,
        are joined into one column. With `columns`, names of columns of records, these alone are read. Raises `Refused` where an
        array is read as no table, or as one of more than `most_bytes`, by default 8 MiB or 8 times the distinct bytes that it
        has."""
        asked = _asked(most_bytes, columns)
        if schema_pointer is None and array_pointer is None and not isinstance(given, Arrow):
            found = [cls._made(*part) for part in read_given(given, asked, True)]
            return found[0] if len(found) == 1 else _joined(found)
        if isinstance(given, Arrow) and array_pointer is None:
            given, array_pointer, owner = given.schema_pointer, given.array_pointer, given
        schema = address("schema_pointer", given if schema_pointer is None else schema_pointer)
        array = address("array_pointer", array_pointer)
        with held(schema, array, owner):
            return cls._made(*nodes_at(schema, array, asked))

    @classmethod
    def batches(cls, given, most_bytes=None, columns=None):
        """The columns of what `from_arrow` takes as one object, one after another: of a stream each batch, of a table each of its
        batches, and of a chunked array each chunk."""
        if not gives_arrays(given):
            raise wrong(TypeError, "given", "an object that gives Arrow arrays", shown(given))
        return (cls._made(*part) for part in read_given(given, _asked(most_bytes, columns), False))

    # ---- made of Python values

    @classmethod
    def from_pylist(cls, rows, type):
        """The column of these rows, null as None, under a type in the words in which `type` of a column tells it: `i64`, `text?`,
        `list<f64>`, `records<a: i32, b: tdD?>`. TypeError or ValueError where a row does not fit, by its place."""
        return cls._made(nodes_of(listed("rows", rows, "rows"), type_from(type)))

    # ---- made of buffers

    @classmethod
    def _of(cls, kind, length, validity, parts=(), **fields):
        state, parts = _validity(validity, parts)
        count = 1 + sum(len(part._nodes) for part in parts)
        if count > of.MAX_NODES:
            raise Refused(TOO_MANY_NODES)
        nodes = [of.Node(kind, state, length, **fields)]
        for part in parts:
            nodes += part._nodes
        return cls._made(tuple(nodes), b"", bytes(1) + b"".join(part._formats for part in parts))

    @classmethod
    def bools(cls, bits, length, validity=None, offset=0):
        """Truth values, one to a bit, the lowest first, from bit `offset` on. Of every column `validity` is None where no
        row can be null, True where none is, False where every row is, or a column of truth values."""
        bits, length, offset = raw("bits", bits), integer("length", length), integer("offset", offset)
        return cls._of(of.BOOL, length, validity, bytes=bits, offset=offset)

    @classmethod
    def numbers(cls, type_name, buffer, validity=None):
        """Numbers of a type, "u8" to "i64", the lowest byte first, out of a buffer of such numbers or of bytes."""
        kind = of.NUMBERS[choice("type_name", type_name, of.NUMBERS)]
        width = of.WIDTHS[kind]
        buffer = raw_or_numbers("buffer", buffer, type_name, width)
        return cls._of(kind, buffer.nbytes // width, validity, bytes=buffer)

    @classmethod
    def views(cls, views, buffers, validity=None, binary=False):
        """Texts, or byte lists, by views of 16 bytes."""
        views, kind = raw("views", views), of.BINARY_VIEW if truth("binary", binary) else of.UTF8_VIEW
        if views.nbytes % 16:
            raise wrong(ValueError, "views", "views of 16 bytes each", f"{views.nbytes} bytes")
        buffers = tuple(each("buffers", buffers, "buffers of bytes", raw))
        return cls._of(kind, views.nbytes // 16, validity, views=views, buffers=buffers)

    @classmethod
    def texts(cls, offsets, buffer, validity=None, binary=False, large=False):
        """Texts, or byte lists, that lie one after another in a buffer of bytes: between offsets of 32 bits, or with `large` of 64, of
        which there is one more than there are rows. What can be written to is copied at once. Raises `Refused` where a value has 2 GiB or
        more."""
        kind = of.BINARY_VIEW if truth("binary", binary) else of.UTF8_VIEW
        offsets, buffer = offsets_of("offsets", offsets, truth("large", large)), raw("buffer", buffer)
        views, buffers = views_between(offsets, buffer, large)
        return cls._of(kind, views.nbytes // 16, validity, views=views, buffers=buffers)

    @classmethod
    def dictionary(cls, codes, values):
        """The values that codes name; a null code is a null row."""
        codes, values = instance("codes", codes, Column), instance("values", values, Column)
        return cls._of(of.DICTIONARY, codes.length, None, [codes, values])

    @classmethod
    def fixed_size_lists(cls, elements, size, length, validity=None):
        """Lists of one size."""
        elements = instance("elements", elements, Column)
        size, length = integer("size", size, U32), integer("length", length)
        return cls._of(of.FIXED_SIZE_LIST, length, validity, [elements], size=size)

    @classmethod
    def lists(cls, elements, offsets, validity=None, large=False):
        """Lists that lie one after another in the elements: between offsets of 32 bits, or with `large` of 64, of which there is one
        more than there are rows. Offsets that can be written to are copied at once."""
        elements = instance("elements", elements, Column)
        counts = list_parts(offsets_of("offsets", offsets, truth("large", large)), large)
        parts = [elements, *(cls._made((node,)) for node in counts)]
        return cls._of(of.LIST_VIEW, parts[1].length, validity, parts)

    @classmethod
    def list_views(cls, elements, offsets, sizes, validity=None):
        """Lists that lie anywhere in the elements."""
        parts = [instance(*part, Column) for part in (("elements", elements), ("offsets", offsets), ("sizes", sizes))]
        return cls._of(of.LIST_VIEW, parts[1].length, validity, parts)

    @classmethod
    def records(cls, columns, length, validity=None):
        """Records of columns, a dictionary from names to columns, or pairs of both."""
        given = columns.items() if isinstance(columns, dict) else columns
        pairs = each("columns", given, "pairs of a name and a Column", _pair)
        names = tuple(memoryview(name) for name, _ in pairs)
        return cls._of(of.STRUCT, integer("length", length), validity, [column for _, column in pairs], buffers=names)

    # ---- what it is

    @property
    def length(self):
        """How many rows the column says that it has."""
        return self._nodes[0].length

    def __len__(self):
        return self.length

    @property
    def type(self):
        """The type in words, as `list<i64>`; a `?` follows where rows may be null."""
        return types_of(self._nodes)[0]

    @property
    def nbytes(self):
        """How many bytes the column lies in, those that lie in several of its parts counted once; without names."""
        return bytes_in([view for node in self._nodes for view in node.rows_memory])

    @property
    def null_count(self):
        """How many rows are null. The column is checked first."""
        return null_count(self._checked())

    def __repr__(self):
        told = f"Column {_shortened(self.type)} of {self.length} rows"
        if not self._passed:
            return f"<{told}, not checked>"
        return f"<{told}: {self._first_rows()}>" if self.length else f"<{told}>"

    def _first_rows(self):
        """The first rows, shortened."""
        try:
            rows = rows_between(self._nodes, 0, min(self.length, SHOWN_ROWS), SHOWN_VALUES)
        except ValueError:
            return ".."
        return ", ".join([*map(_SHORT.repr, rows), *[".."] * (self.length > SHOWN_ROWS)])

    # ---- checked and read

    def _private(self):
        """The nodes over memory that nobody can change."""
        return self._nodes if self._passed else of.private(self._nodes)

    def _pass(self, nodes):
        """Has these nodes from now on: the library let them pass."""
        if not self._passed:
            self._nodes = nodes
            self._passed = True

    def _checked(self):
        """The nodes, which have passed."""
        if not self._passed:
            self.check()
        return self._nodes

    def _words(self, place):
        """The path of names to a node, the type of its array, and what part of that it is."""
        path, part, top = path_of(self._nodes, place, self._name.decode("utf-8", "backslashreplace"))
        return path, _shortened(types_of(self._nodes)[top]), part

    def fault(self):
        """The first fault as `Refused`, or None where there is none. MemoryError where memory was refused. What has passed is not
        tested again."""
        if self._passed:
            return None
        nodes, fault = self._private(), Fault()
        if load().codrask_check(of.given(nodes), len(nodes), ctypes.byref(fault)):
            refused = refusal(fault, *(self._words(fault.node) if fault.node < len(nodes) else ()))
            if fault.number == MEMORY:
                raise refused
            return refused
        self._pass(nodes)
        return None

    def check(self):
        """This column, where it is one. Raises `Refused` with its first fault. What can be written to is copied first: what
        passed is in memory that nobody can change, and is neither tested nor copied again."""
        fault = self.fault()
        if fault:
            raise fault
        return self

    def to_arrow(self, by_offsets=None, most_bytes=None, packed=True):
        """This column as an `Arrow`, in blocks of its own. Packed, its bytes are those of its rows and no others, as `pack` makes
        them. With `packed=False` the parts go out as they are: elements and buffers of rows that were cut away go along, and a
        dictionary stays one.

        Texts, byte lists and lists go out in the formats with which they came in, at every depth; by views where they came from no
        Arrow array, and with `packed=False`. `by_offsets` says which for all of them: True or False. Only with `packed=False` that
        may be refused, as `NotEndToEnd`, where lists do not lie one after another. A column that was an Arrow array keeps its name.
        Raises `Refused` where it is no column, or takes more than `most_bytes`: by default 1 GiB, with `packed=False` 8 MiB, or 8
        times the distinct bytes that it has."""
        told, most = by_offsets is not None and truth("by_offsets", by_offsets), _most(most_bytes)
        if not truth("packed", packed):
            return self._written(None, told, most, self._name)
        column = self._packed(most)
        return column._written(column._formats if by_offsets is None else None, told, most, self._name)

    def _written(self, formats, by_offsets, most, name):
        """An `Arrow` of the column as it is, in some formats or by a flag for all. It is tested where it had not passed before its
        nodes were taken."""
        passed = self._passed
        nodes, limits, made, fault = self._private(), Limits(most), Arrow(), Fault()
        how, into = (int(by_offsets), name, ctypes.byref(limits)), (made._schema, made._array, ctypes.byref(fault))
        if passed and has("codrask_write_passed"):
            number = load().codrask_write_passed(of.given(nodes), len(nodes), formats, *how, *into)
        elif any(formats or ()):
            number = later("codrask_write_arrow_as")(of.given(nodes), len(nodes), formats, *how, *into)
        else:
            number = load().codrask_write_arrow(of.given(nodes), len(nodes), *how, *into)
        if number:
            raise refusal(fault)
        self._pass(nodes)
        return made

    def _packed(self, most):
        """The packed form, where it has no more bytes than it may: they are counted before any is made."""
        if takes_more(self._checked(), most or max(MOST_PACKED, TIMES_PACKED * self.nbytes)):
            raise Refused(TOO_MANY_BYTES)
        return self.pack()

    def __arrow_c_array__(self, requested_schema=None):
        """The column in two capsules, of a schema and of an array, in blocks of their own, packed and in the formats in which
        `to_arrow` writes it. Where the requested schema has another format that holds the same values, one of `u`, `U` and `vu`, of
        `z`, `Z` and `vz`, or of `+l`, `+L`, `+vl` and `+vL`, that is what goes out; other requests are passed over."""
        made = self._asked_for(requested_schema, self._name)
        return capsule_of(made._schema), capsule_of(made._array)

    def _asked_for(self, requested_schema, name):
        """An `Arrow` of the packed column under a name, in its formats, or where a capsule asks for other ones, in these."""
        asked = None if requested_schema is None else schema_in("requested_schema", requested_schema)
        column = self._packed(0)
        formats = column._formats if asked is None else formats_asked(column._nodes, column._formats, asked)
        return column._written(formats, False, 0, name)

    def __arrow_c_stream__(self, requested_schema=None):
        """The column in the capsule of a stream that has one array: that of `__arrow_c_array__`."""
        return stream_capsule([self._asked_for(requested_schema, self._name)])

    def __arrow_c_schema__(self):
        """The schema of `__arrow_c_array__` in a capsule."""
        made = self.to_arrow()
        return capsule_of(made._schema)

    def to_pylist(self, most=MOST_VALUES):
        """The rows, null as None; records as dictionaries, or as lists of pairs where two columns have one name. The column
        is checked first: only what has passed is read. ValueError where the rows hold more values than `most`."""
        return rows_of(self._checked(), integer("most", most))

    def __iter__(self):
        """The rows, as `to_pylist` gives them. They are read in blocks, each of four times as many rows as the one before, up
        to four million: so what rows share is read few times."""
        nodes, start, count = self._checked(), 0, AT_ONCE
        while start < self.length:
            yield from rows_between(nodes, start, min(start + count, self.length), MOST_VALUES)
            start, count = start + count, min(4 * count, MOST_AT_ONCE)

    def __getitem__(self, place):
        """A row; or with a slice, the column of its rows, by the steps `slice` and `take`."""
        if isinstance(place, slice):
            start, end, step = place.indices(self.length)
            places = range(start, end, step)
            return self.slice(start, max(start, end)) if step == 1 else self.take(places)
        try:
            row = integer("row", place, self.length - 1, -self.length)
        except ValueError as error:
            raise IndexError(str(error)) from None
        return rows_between(self._checked(), row % self.length, row % self.length + 1, MOST_VALUES)[0]

    def __eq__(self, other):
        """Whether another column has the same rows: integers of whichever width, and texts and lists however they lie; what is
        carried, by its bytes. Both are checked first."""
        if not isinstance(other, Column):
            return NotImplemented
        return self is other or same_rows(self._checked(), other._checked(), MOST_VALUES)

    __hash__ = None

    # ---- steps

    def run(self, steps):
        """What the last of these steps makes of this column, which is array 0; the array of step `i` is `i + 1`. Raises
        `Stopped` where this is no column or a step is refused."""
        return _ran([self], steps, self._name)

    def slice(self, start, stop=None):
        """The rows from `start` up to `stop`, by default to the end."""
        return _ran([self], [_step().slice(0, start, self.length if stop is None else stop)], self._name)

    def take(self, indices):
        """The rows at some indices, a column of integers or a list of them; a null index takes null."""
        return _ran([self, _column_of("indices", indices, "i64")], [_step().take(0, 1)], self._name)

    def filter(self, mask):
        """The rows at which a mask is true, a column of truth values or a list of them."""
        return _ran([self, _column_of("mask", mask, "bool")], [_step().filter(0, 1)], self._name)

    def field(self, name):
        """The first column of a name in records, null also where the record is. It goes out under this name."""
        name = encoded("name", name)
        return _ran([self], [_step().field(0, name)], b"" if b"\0" in name else name)

    def pack(self):
        """The rows in packed form, which is made of the type and the rows alone: with equal rows of one type it is the same, byte
        for byte. What was cut away before is no part of it; dictionaries become plain, and lists lie one after another. What was
        packed before is this column itself."""
        if self._is_packed:
            return self
        made = _ran([self], [_step().pack(0)], self._name)
        made._nodes = with_names(made._nodes, self._nodes)
        return made

    # ---- numpy

    def to_numpy(self):
        """The integers of the column as a numpy array over its own bytes, with no copy; it cannot be written to, and keeps them
        alive. What lies at null rows is no part of the column. The column is checked first. TypeError where it has no
        integers."""
        import numpy

        node = self._checked()[0]
        if node.kind not in of.WIDTHS:
            raise TypeError("only a column of integers has a numpy array")
        kind = f"<{'u' if node.kind < of.NUMBERS['i8'] else 'i'}{of.WIDTHS[node.kind]}"
        return numpy.frombuffer(node.bytes, kind) if node.bytes.nbytes else numpy.empty(0, kind)


NO_LISTS.append(Column)
_STATES = ((None, of.NON_NULLABLE), (True, of.ALL_VALID), (False, of.ALL_INVALID))


def _validity(validity, parts):
    """The number of a validity, and the parts of the node, its array before them."""
    if isinstance(validity, Column):
        return of.BY_ARRAY, (validity, *parts)
    for known, number in _STATES:
        if validity is known:
            return number, tuple(parts)
    raise wrong(TypeError, "validity", "None, True, False or a Column", shown(validity))


def _most(most_bytes):
    """How many bytes a call may take, 0 where that is not said."""
    return 0 if most_bytes is None else integer("most_bytes", most_bytes, least=1)


def _asked(most_bytes, columns):
    """What is asked of the reading of Arrow arrays."""
    names = () if columns is None else tuple(each("columns", columns, "names", encoded))
    for place, name in enumerate(names):
        if b"\0" in name:
            raise wrong(ValueError, f"columns[{place}]", "a name without a byte 0", shown(name))
    return Asked(_most(most_bytes), names, columns is not None)


def _step():
    from .steps import Step

    return Step


def _ran(columns, steps, name):
    """What the last of some steps makes of columns, under a name."""
    from .steps import run

    [made] = run(columns, steps)
    made._name = name
    return made


def _joined(columns):
    """The rows of several columns, one after another."""
    return _ran(columns, [_step().concat(range(len(columns)))], columns[0]._name)


def _column_of(argument, given, type):
    """A column, or one of the values of a list, which may be null where one of them is None."""
    if isinstance(given, Column):
        return given
    rows = listed(argument, given, f"{type}, or a Column")
    return Column._made(nodes_of(rows, type_from(type + "?" * any(row is None for row in rows)), argument))


_SHORT = reprlib.Repr()
_SHORT.maxstring = _SHORT.maxother = 40


def _shortened(text):
    """The text of a type, shortened."""
    return text if len(text) <= SHOWN_TYPE else f"{text[:SHOWN_TYPE - 2]}.."


def _pair(argument, given):
    """The bytes of a name, and a column."""
    pair = listed(argument, given, "a name and a Column")
    if len(pair) != 2:
        raise wrong(ValueError, argument, "a name and a Column", shown(given))
    return encoded(f"{argument}, its name,", pair[0]), instance(f"{argument}, its column,", pair[1], Column)
