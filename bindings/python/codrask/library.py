"""The shared object and its structures."""

import ctypes
import os


class Bytes(ctypes.Structure):
    _fields_ = [("bytes", ctypes.c_void_p), ("count", ctypes.c_size_t)]


class Node(ctypes.Structure):
    _fields_ = [
        ("kind", ctypes.c_uint32),
        ("validity", ctypes.c_uint32),
        ("size", ctypes.c_uint32),
        ("length", ctypes.c_size_t),
        ("offset", ctypes.c_size_t),
        ("bytes", ctypes.c_void_p),
        ("byte_count", ctypes.c_size_t),
        ("views", ctypes.c_void_p),
        ("view_count", ctypes.c_size_t),
        ("buffers", ctypes.POINTER(Bytes)),
        ("buffer_count", ctypes.c_size_t),
    ]


class Fault(ctypes.Structure):
    _fields_ = [("number", ctypes.c_uint32), ("node", ctypes.c_size_t), ("place", ctypes.c_size_t)]


class Table(ctypes.Structure):
    _fields_ = [("nodes", ctypes.POINTER(Node)), ("count", ctypes.c_size_t), ("memory", ctypes.c_void_p)]


class Limits(ctypes.Structure):
    _fields_ = [("bytes", ctypes.c_size_t)]


class Reading(ctypes.Structure):
    _fields_ = [
        ("limits", Limits),
        ("lengths", ctypes.POINTER(ctypes.c_size_t)),
        ("length_count", ctypes.c_size_t),
        ("columns", ctypes.POINTER(ctypes.c_char_p)),
        ("column_count", ctypes.c_size_t),
    ]


class ArrowFault(ctypes.Structure):
    _fields_ = [("fault", Fault), ("format", ctypes.c_void_p), ("name", ctypes.c_void_p)]


class Nodes(ctypes.Structure):
    _fields_ = [("nodes", ctypes.POINTER(Node)), ("count", ctypes.c_size_t)]


class Step(ctypes.Structure):
    _fields_ = [
        ("kind", ctypes.c_uint32),
        ("mode", ctypes.c_uint32),
        ("array", ctypes.c_size_t),
        ("other", ctypes.c_size_t),
        ("start", ctypes.c_size_t),
        ("end", ctypes.c_size_t),
        ("arrays", ctypes.POINTER(ctypes.c_size_t)),
        ("array_count", ctypes.c_size_t),
        ("names", ctypes.POINTER(Bytes)),
        ("name_count", ctypes.c_size_t),
        ("name", ctypes.c_void_p),
        ("name_size", ctypes.c_size_t),
    ]


class Columns(ctypes.Structure):
    _fields_ = [("columns", ctypes.POINTER(Nodes)), ("count", ctypes.c_size_t)]


class RunFault(ctypes.Structure):
    _fields_ = [
        ("number", ctypes.c_uint32),
        ("part", ctypes.c_uint32),
        ("which", ctypes.c_size_t),
        ("node", ctypes.c_size_t),
        ("place", ctypes.c_size_t),
    ]


class ArrowSchema(ctypes.Structure):
    pass


class ArrowArray(ctypes.Structure):
    pass


ArrowSchema._fields_ = [
    ("format", ctypes.c_char_p),
    ("name", ctypes.c_char_p),
    ("metadata", ctypes.c_char_p),
    ("flags", ctypes.c_int64),
    ("n_children", ctypes.c_int64),
    ("children", ctypes.POINTER(ctypes.POINTER(ArrowSchema))),
    ("dictionary", ctypes.POINTER(ArrowSchema)),
    ("release", ctypes.CFUNCTYPE(None, ctypes.POINTER(ArrowSchema))),
    ("private_data", ctypes.c_void_p),
]
ArrowArray._fields_ = [
    ("length", ctypes.c_int64),
    ("null_count", ctypes.c_int64),
    ("offset", ctypes.c_int64),
    ("n_buffers", ctypes.c_int64),
    ("n_children", ctypes.c_int64),
    ("buffers", ctypes.POINTER(ctypes.c_void_p)),
    ("children", ctypes.POINTER(ctypes.POINTER(ArrowArray))),
    ("dictionary", ctypes.POINTER(ArrowArray)),
    ("release", ctypes.CFUNCTYPE(None, ctypes.POINTER(ArrowArray))),
    ("private_data", ctypes.c_void_p),
]


class ArrowArrayStream(ctypes.Structure):
    pass


ArrowArrayStream._fields_ = [
    ("get_schema", ctypes.CFUNCTYPE(ctypes.c_int, ctypes.POINTER(ArrowArrayStream), ctypes.POINTER(ArrowSchema))),
    ("get_next", ctypes.CFUNCTYPE(ctypes.c_int, ctypes.POINTER(ArrowArrayStream), ctypes.POINTER(ArrowArray))),
    ("get_last_error", ctypes.CFUNCTYPE(ctypes.c_void_p, ctypes.POINTER(ArrowArrayStream))),
    ("release", ctypes.CFUNCTYPE(None, ctypes.POINTER(ArrowArrayStream))),
    ("private_data", ctypes.c_void_p),
]


def find():
    """The shared object: where CODRASK_LIBRARY says, or beside this file."""
    return os.environ.get("CODRASK_LIBRARY") or os.path.join(os.path.dirname(__file__), "libcodrask.so")


_number, _count, _to = ctypes.c_uint32, ctypes.c_size_t, ctypes.POINTER

# each call: what it gives, and what it takes
CALLS = {
    "codrask_version": (_number, []),
    "codrask_check": (_number, [_to(Node), _count, _to(Fault)]),
    "codrask_run": (
        _number,
        [_to(Nodes), _count, _to(Step), _count, _to(_count), _count, _to(Columns), _to(RunFault)],
    ),
    "codrask_columns_free": (None, [_to(Columns)]),
    "codrask_fault_name": (ctypes.c_char_p, [_number]),
    "codrask_read_arrow": (_number, [ctypes.c_void_p, ctypes.c_void_p, _to(Limits), _to(Table), _to(Fault)]),
    "codrask_table_name": (ctypes.c_char_p, [_to(Table)]),
    "codrask_table_free": (None, [_to(Table)]),
    "codrask_write_arrow": (
        _number,
        [_to(Node), _count, _number, ctypes.c_char_p, _to(Limits), _to(ArrowSchema), _to(ArrowArray), _to(Fault)],
    ),
}

# calls that a library of before has not
LATER = {
    "codrask_read_arrow_sized": (
        _number,
        [ctypes.c_void_p, ctypes.c_void_p, _to(Reading), _to(Table), _to(ArrowFault)],
    ),
    "codrask_table_formats": (ctypes.c_void_p, [_to(Table)]),
    "codrask_write_arrow_as": (
        _number,
        [_to(Node), _count, ctypes.c_char_p, _number, ctypes.c_char_p, _to(Limits), _to(ArrowSchema), _to(ArrowArray), _to(Fault)],
    ),
    "codrask_write_passed": (
        _number,
        [_to(Node), _count, ctypes.c_char_p, _number, ctypes.c_char_p, _to(Limits), _to(ArrowSchema), _to(ArrowArray), _to(Fault)],
    ),
    "codrask_run_formats": (
        _number,
        [_to(Nodes), _to(ctypes.c_char_p), _count, _to(Step), _count, _to(_count), _to(Columns), _to(ctypes.c_void_p)],
    ),
    "codrask_stream_written": (
        _number,
        [_to(ArrowSchema), _to(ArrowArray), _count, _to(ArrowArrayStream), _to(RunFault)],
    ),
    "codrask_pickle": (_number, [_to(Node), ctypes.c_char_p, _to(Bytes)]),
    "codrask_pickle_free": (None, [_to(Bytes)]),
    "codrask_capsules": (None, [ctypes.c_void_p]),
    "codrask_new_capsule": (ctypes.c_void_p, [_count]),
    "codrask_take": (None, [ctypes.c_void_p, ctypes.c_void_p, _count, _count]),
    "codrask_end_schema": (None, [ctypes.c_void_p]),
    "codrask_end_array": (None, [ctypes.c_void_p]),
    "codrask_end_stream": (None, [ctypes.c_void_p]),
}

HOW = """'tools/foreign --build', at the top of a clone of Codrask, builds libcodrask.so and prints where it lies; the variable \
CODRASK_LIBRARY of the environment says which one is loaded, else it is the one beside this package"""

_loaded = None


def lacking(place, why):
    """The error that the library is not there, or is another one."""
    said = os.environ.get("CODRASK_LIBRARY")
    now = f"CODRASK_LIBRARY is {said!r}" if said else "CODRASK_LIBRARY is not set"
    return ImportError(f"codrask has no library: {why}. {HOW}. Now {now}.", name="codrask", path=place)


def _named(library, place, calls, lack):
    """Tells the calls of a library what they give and take."""
    for name, (result, arguments) in calls.items():
        call = getattr(library, name, None)
        if call is None and lack:
            raise lacking(place, f"{place} has no {name}: it is older than this package, or another library")
        if call is not None:
            call.restype, call.argtypes = result, arguments


def load():
    """The shared object, loaded once. ImportError where it is not there."""
    global _loaded
    if _loaded is None:
        place = find()
        try:
            library = ctypes.CDLL(place)
        except (OSError, ValueError) as error:
            raise lacking(place, error) from None
        _named(library, place, CALLS, True)
        _named(library, place, LATER, False)
        _loaded = library
    return _loaded


def has(name):
    """Whether the library has a call that one of before has not."""
    return hasattr(load(), name)


def older(what):
    """The error that the library has not yet what this package asks of it."""
    return lacking(find(), f"{find()} has no {what}: it is older than this package")


def later(name):
    """A call that a library of before has not. ImportError where it lacks it."""
    if not has(name):
        raise older(name)
    return getattr(load(), name)
