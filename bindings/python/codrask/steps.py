"""Steps on columns: each appends an array to the list of the columns and of what the steps before it appended."""

import ctypes

from . import nodes as of
from .arguments import choice, each, encoded, instance, integer, truth
from .column import Column
from .faults import Stopped, run_refusal
from .formats import formats_after
from .library import Bytes, Columns, Nodes, RunFault, load, older
from .library import Step as Given

__all__ = ["MODES", "Step", "Stopped", "run"]

IN_COLUMN, IN_STEP = 1, 2
PACK = 12
UNKNOWN_KIND = 32
MODES = ("MakeZeroCopyToList", "TrimElements", "MakeExact", "OverlapCompression")
_nothing = (ctypes.c_uint64 * 2)()


class Step:
    """One step. Arrays are named by their positions in the list."""

    __slots__ = ("_kind", "_fields", "_names", "_arrays", "_name")

    def __init__(self, *_arguments, **_fields):
        raise TypeError("a Step is made by one of its calls, as Step.slice")

    @classmethod
    def _of(cls, kind, names=(), arrays=(), name=b"", **fields):
        step = object.__new__(cls)
        step._kind, step._fields, step._names, step._arrays, step._name = kind, fields, names, arrays, name
        return step

    @classmethod
    def slice(cls, array, start, end):
        """The rows from `start` up to `end`."""
        return cls._of(0, array=integer("array", array), start=integer("start", start), end=integer("end", end))

    @classmethod
    def take(cls, array, indices):
        """The rows at the indices that another array holds."""
        return cls._of(1, array=integer("array", array), other=integer("indices", indices))

    @classmethod
    def filter(cls, array, mask):
        """The rows at which another array is true."""
        return cls._of(2, array=integer("array", array), other=integer("mask", mask))

    @classmethod
    def mask(cls, array, mask):
        """The rows, null where another array is false."""
        return cls._of(3, array=integer("array", array), other=integer("mask", mask))

    @classmethod
    def concat(cls, arrays):
        """The rows of several arrays."""
        return cls._of(4, arrays=each("arrays", arrays, "positions", integer))

    @classmethod
    def canonical(cls, array):
        """The rows in plain layout."""
        return cls._of(5, array=integer("array", array))

    @classmethod
    def rebuild(cls, array, mode=MODES[0]):
        """Lists, laid out anew."""
        return cls._of(6, array=integer("array", array), mode=MODES.index(choice("mode", mode, MODES)))

    @classmethod
    def narrow(cls, array):
        """Numbers in the narrowest type that has them."""
        return cls._of(7, array=integer("array", array))

    @classmethod
    def project(cls, array, names):
        """The columns of these names."""
        return cls._of(8, array=integer("array", array), names=each("names", names, "names", encoded))

    @classmethod
    def with_column(cls, array, name, column):
        """Records with one column more."""
        return cls._of(9, array=integer("array", array), name=encoded("name", name), other=integer("column", column))

    @classmethod
    def remove_column(cls, array, name):
        """Records without a column."""
        return cls._of(10, array=integer("array", array), name=encoded("name", name))

    @classmethod
    def push_validity(cls, array, remove=False):
        """The nulls of records in their columns; with `remove` no record is null any more."""
        return cls._of(11, array=integer("array", array), mode=int(truth("remove", remove)))

    @classmethod
    def pack(cls, array):
        """The rows in packed form: nothing is in it but them."""
        return cls._of(PACK, array=integer("array", array))

    @classmethod
    def field(cls, array, name):
        """The first column of a name in records, null also where the record is."""
        return cls._of(13, array=integer("array", array), name=encoded("name", name))

    def _fill(self, place):
        """Puts this step where the library reads it. It has to outlive the call."""
        place.kind = self._kind
        for field, number in self._fields.items():
            setattr(place, field, number)
        place.arrays = (ctypes.c_size_t * max(len(self._arrays), 1))(*self._arrays)
        place.array_count = len(self._arrays)
        place.names = (Bytes * max(len(self._names), 1))(*map(of.bytes_at, map(memoryview, self._names)))
        place.name_count = len(self._names)
        own = of.bytes_at(memoryview(self._name))
        place.name, place.name_size = own.bytes, own.count


def _tables(private):
    """The tables of some columns, and what has to outlive them."""
    tables, keep = (Nodes * max(len(private), 1))(), {id(nodes): of.given(nodes) for nodes in private}
    for place, nodes in zip(tables, private):
        place.nodes, place.count = ctypes.cast(keep[id(nodes)], ctypes.POINTER(of.Given)), len(nodes)
    return tables, keep


def _positions(columns, steps, wanted):
    """The wanted positions, the last array's where none is given."""
    if wanted is not None:
        return each("wanted", wanted, "positions", integer)
    if not columns and not steps:
        raise ValueError("columns takes at least one Column where no position is wanted, not an empty list")
    return [len(columns) + len(steps) - 1]


def run(columns, steps, wanted=None):
    """Runs steps on columns. Gives the arrays at the wanted positions as columns, in plain layouts; the last array where no
    position is given. What it gives has passed. Raises `Stopped` where a column, a step or a result is refused, and MemoryError where
    memory is."""
    columns = each("columns", columns, "Columns", lambda argument, given: instance(argument, given, Column))
    steps = each("steps", steps, "Steps", lambda argument, given: instance(argument, given, Step))
    wanted = _positions(columns, steps, wanted)
    distinct = {id(column): column._private() for column in columns}
    private = [distinct[id(column)] for column in columns]
    tables, _keep = _tables(private)
    given = (Given * max(len(steps), 1))()
    for place, step in zip(given, steps):
        step._fill(place)
    places = (ctypes.c_size_t * max(len(wanted), 1))(*wanted)
    made, fault = Columns(ctypes.cast(_nothing, ctypes.POINTER(Nodes)), 0), RunFault()
    if load().codrask_run(
        tables, len(columns), given, len(steps), places, len(wanted), ctypes.byref(made), ctypes.byref(fault)
    ):
        if fault.part == IN_STEP and fault.number == UNKNOWN_KIND:
            raise older(f"step {steps[fault.which]._kind}")
        told = columns[fault.which]._words(fault.node)[:2] if fault.part == IN_COLUMN else ()
        raise run_refusal(fault, *told)
    try:
        formats = formats_after(tables, [column._formats for column in columns], given, places, made) if made.count else []
        packed = [place >= len(columns) and steps[place - len(columns)]._kind == PACK for place in wanted]
        results = [Column._made(of.copied(made.columns[i]), b"", formats[i], True, packed[i]) for i in range(made.count)]
    finally:
        load().codrask_columns_free(ctypes.byref(made))
    for column, nodes in zip(columns, private):
        column._pass(nodes)
    return results
