"""Memory: what a buffer holds, where it lies, and copies of it that nobody can change.

What is known of CPython here: `bytes` never change, and a buffer neither moves nor shrinks while a memoryview of it lives."""

import bisect
import ctypes
import sys

from .arguments import shown, wrong

EMPTY = memoryview(b"")
SIGNED, UNSIGNED = "bhilqn", "BHILQN"


class _Lent(ctypes.Structure):
    """A buffer as Python's C interface tells of it."""

    _fields_ = [
        ("start", ctypes.c_void_p),
        ("owner", ctypes.c_void_p),
        ("count", ctypes.c_ssize_t),
        ("item_size", ctypes.c_ssize_t),
        ("read_only", ctypes.c_int),
        ("dimensions", ctypes.c_int),
        ("format", ctypes.c_char_p),
        ("shape", ctypes.c_void_p),
        ("strides", ctypes.c_void_p),
        ("suboffsets", ctypes.c_void_p),
        ("internal", ctypes.c_void_p),
    ]


def _python(name, result, *arguments):
    """A function of Python's C interface. It is called with the interpreter's lock held, and raises what it sets."""
    return ctypes.PYFUNCTYPE(result, *arguments)((name, ctypes.pythonapi))


_lend = _python("PyObject_GetBuffer", ctypes.c_int, ctypes.py_object, ctypes.POINTER(_Lent), ctypes.c_int)
_give_back = _python("PyBuffer_Release", None, ctypes.POINTER(_Lent))
_copy = _python("PyBytes_FromStringAndSize", ctypes.py_object, ctypes.c_void_p, ctypes.c_ssize_t)
_see = _python("PyMemoryView_FromMemory", ctypes.py_object, ctypes.c_void_p, ctypes.c_ssize_t, ctypes.c_int)
_READ_ONLY = 0x100


# ---- buffers that are given

def _view(argument, given, taken):
    """A buffer of one dimension, without gaps."""
    try:
        view = memoryview(given)
    except (TypeError, ValueError, BufferError) as error:
        kind = TypeError if isinstance(error, TypeError) else ValueError
        raise wrong(kind, argument, taken, shown(given)) from None
    if view.ndim != 1:
        raise wrong(TypeError, argument, taken, f"a buffer of {view.ndim} dimensions")
    if not view.c_contiguous:
        raise wrong(ValueError, argument, taken, "a buffer with gaps")
    return view


def _order_and_letter(view):
    """The order of the bytes of an item, and the letter of its type."""
    first = view.format[:1]
    return (first, view.format[1:]) if first and first in "@=<>!" else ("@", view.format)


def _is_little(order):
    return order == "<" or (order in "@=" and sys.byteorder == "little")


def _holds_bytes(view):
    return view.itemsize == 1 and _order_and_letter(view)[1] in ("B", "c", "b")


def _plain(view):
    """The same bytes, each an item where nobody can change them; else they are copied before they are read."""
    return view.cast("B") if is_fixed(view) else view


def _items(view):
    """What a buffer of a wrong type holds."""
    return f"items of format {view.format!r} and {view.itemsize} bytes"


def raw(argument, given):
    """A buffer of bytes."""
    view = _view(argument, given, "a buffer of bytes")
    if not _holds_bytes(view):
        raise wrong(TypeError, argument, "a buffer of bytes", _items(view))
    return _plain(view)


def raw_or_numbers(argument, given, type_name, width):
    """A buffer of numbers of a type, the lowest byte first, or of bytes."""
    taken = f"a buffer of bytes or of {type_name}, the lowest byte first"
    view = _view(argument, given, taken)
    order, letter = _order_and_letter(view)
    letters = SIGNED if type_name[0] == "i" else UNSIGNED
    is_number = len(letter) == 1 and letter in letters and view.itemsize == width
    if _holds_bytes(view) or (is_number and (width == 1 or _is_little(order))):
        return _plain(view)
    raise wrong(TypeError, argument, taken, _items(view))


# ---- where bytes lie, and copies of them

def address_of(view):
    """Where the bytes of a memoryview lie. They stay there as long as it lives."""
    lent = _Lent()
    _lend(view, ctypes.byref(lent), 0)
    start = lent.start
    _give_back(ctypes.byref(lent))
    return start or 0


def seen(start, count):
    """The bytes at an address, which are somebody else's: they have to be there as long as they are looked at."""
    return _see(start, count, _READ_ONLY)


def stretch_of(view):
    """The stretch of memory of a memoryview: an address and a count of bytes."""
    return (address_of(view), view.nbytes) if view.nbytes else (0, 0)


def is_fixed(view):
    """Whether nobody can change these bytes."""
    return type(view.obj) is bytes


def fixed(view):
    """The same bytes where nobody can change them: a copy, where somebody can."""
    if is_fixed(view):
        return view
    stretch = stretch_of(view)
    return copies_of([stretch])[stretch]


def lent_of(stretches, views):
    """Of the stretches that lie in some memory, the parts of it."""
    found = {}
    for view in views:
        start, count = stretch_of(view)
        within = [(at, size) for at, size in stretches if size and start <= at and at + size <= start + count]
        found.update({(at, size): view[at - start : at - start + size] for at, size in within})
    return found


def _united(stretches):
    """The memory of some stretches as pairs of a start and an end, from the lowest up, none meeting the next."""
    whole = []
    for start, count in sorted(stretches):
        if count and whole and start < whole[-1][1]:
            whole[-1][1] = max(whole[-1][1], start + count)
        elif count:
            whole.append([start, start + count])
    return whole


def bytes_in(views):
    """How many bytes some memory has, overlaps counted once."""
    return sum(end - start for start, end in _united(map(stretch_of, views)))


def _block(start, end):
    """A copy of the bytes between two addresses."""
    count = end - start
    try:
        return memoryview(_copy(start, min(count, sys.maxsize)))
    except MemoryError:
        raise MemoryError(f"no memory for a copy of {count} bytes") from None


def copies_of(stretches):
    """A copy of each of these stretches that nobody can change. Those that overlap share one block."""
    distinct = set(stretches)
    whole = _united(distinct)
    starts = [start for start, _ in whole]
    blocks = [_block(start, end) for start, end in whole]

    def part(start, count):
        place = bisect.bisect_right(starts, start) - 1
        before = start - starts[place]
        return blocks[place][before : before + count]

    return {(start, count): part(start, count) if count else EMPTY for start, count in distinct}
