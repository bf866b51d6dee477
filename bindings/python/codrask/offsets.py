"""Values and lists that lie one after another, told by offsets: views and sizes in their place. What is read of them is memory that
nobody can change."""

import array
import ctypes
from operator import sub

from .arguments import wrong
from .library import ArrowArray, ArrowSchema
from .memory import address_of, fixed, raw_or_numbers
from .nodes import NON_NULLABLE, NUMBERS, Node
from .reading import Asked, nodes_at
from .rows import LETTERS

_LEAST = -(2**63)
_keep_schema = dict(ArrowSchema._fields_)["release"](lambda _schema: None)
_keep_array = dict(ArrowArray._fields_)["release"](lambda _array: None)


def offsets_of(argument, given, large):
    """A buffer of offsets, of 32 bits or of 64, that nobody can change: one more than there are rows, or none."""
    type_name, width = ("i64", 8) if large else ("i32", 4)
    view = fixed(raw_or_numbers(argument, given, type_name, width))
    if view.nbytes % width:
        raise wrong(ValueError, argument, f"offsets of {width} bytes each", f"{view.nbytes} bytes")
    return view


def count_between(offsets, large):
    """How many rows lie between offsets."""
    return max(offsets.nbytes // (8 if large else 4) - 1, 0)


# ---- values

def views_between(offsets, buffer, large):
    """The views of values between offsets, and the buffers that they refer to, as the library makes them of an Arrow array of byte lists
    that has these two buffers. Raises `Refused` where a value has 2 GiB or more."""
    buffer = fixed(buffer)
    schema = ArrowSchema(format=b"Z" if large else b"z", release=_keep_schema)
    values = ArrowArray(length=count_between(offsets, large), n_buffers=3, release=_keep_array)
    places = [address_of(view) if view.nbytes else None for view in (offsets, buffer)]
    values.buffers = (ctypes.c_void_p * 3)(None, *places)
    lengths = [0, offsets.nbytes, buffer.nbytes]
    [node], *_ = nodes_at(ctypes.addressof(schema), ctypes.addressof(values), Asked(), lengths, (buffer,))
    return node.views, node.buffers


# ---- lists

def _size(start, end):
    """The size of a list; where no number of 64 bits is it, one that is too small."""
    size = end - start
    return size if _LEAST <= size < -_LEAST else _LEAST


def list_parts(offsets, large):
    """The nodes of the offsets and of the sizes of lists: each offset but the first, less the one before it."""
    kind, width = (NUMBERS["i64"], 8) if large else (NUMBERS["i32"], 4)
    ends, count = offsets.cast(LETTERS[kind]), count_between(offsets, large)
    sizes = map(_size, ends, ends[1:]) if large else map(sub, ends[1:], ends)
    counted = memoryview(array.array("q", sizes).tobytes())
    starts = Node(kind, NON_NULLABLE, count, bytes=offsets[: width * count])
    return starts, Node(NUMBERS["i64"], NON_NULLABLE, count, bytes=counted)
