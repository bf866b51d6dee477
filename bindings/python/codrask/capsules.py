"""Arrow's capsules for Python (the Arrow PyCapsule Interface): a schema, an array or a stream that one object hands another.
What is taken over is released once; what is handed out and taken by nobody is released with its capsule."""

import contextlib
import ctypes
import threading

from .arguments import shown, wrong
from .library import ArrowArray, ArrowArrayStream, ArrowSchema, has, later, load

MOST_SCHEMAS = 4096
NAMES = {ArrowSchema: b"arrow_schema", ArrowArray: b"arrow_array", ArrowArrayStream: b"arrow_array_stream"}


def _python(name, result, *arguments):
    """A function of Python's C interface, which raises what it sets."""
    return ctypes.PYFUNCTYPE(result, *arguments)((name, ctypes.pythonapi))


_is_valid = _python("PyCapsule_IsValid", ctypes.c_int, ctypes.py_object, ctypes.c_char_p)
_pointer = _python("PyCapsule_GetPointer", ctypes.c_void_p, ctypes.py_object, ctypes.c_char_p)
_new = _python("PyCapsule_New", ctypes.py_object, ctypes.c_void_p, ctypes.c_char_p, ctypes.c_void_p)

# a capsule looks at its name at its end, which may come after that of this module: so the names never end
for _name in NAMES.values():
    _python("Py_IncRef", None, ctypes.py_object)(_name)


# ---- taken over

def address_in(argument, capsule, kind):
    """The address of the structure of a capsule."""
    name = NAMES[kind]
    if not _is_valid(capsule, name):
        raise wrong(TypeError, argument, f"a capsule named {name.decode()!r}", shown(capsule))
    return _pointer(capsule, name)


def clear_release(part):
    """Marks a structure as taken over."""
    ctypes.c_void_p.from_address(ctypes.addressof(part) + type(part).release.offset).value = None


_one_at_a_time = threading.Lock()


def _take(own, part):
    """Takes a structure over. The library does so while Python's lock is held; one of before lets others come between."""
    if has("codrask_take"):
        take = ctypes.PYFUNCTYPE(None, ctypes.c_void_p, ctypes.c_void_p, ctypes.c_size_t, ctypes.c_size_t)(("codrask_take", load()))
        take(ctypes.addressof(own), ctypes.addressof(part), ctypes.sizeof(own), type(own).release.offset)
        return
    with _one_at_a_time:
        ctypes.memmove(ctypes.addressof(own), ctypes.addressof(part), ctypes.sizeof(own))
        clear_release(part)


@contextlib.contextmanager
def taken(part):
    """A structure taken over from where it lies, and given back at the end, once. It is marked as released where it lay."""
    own = type(part)()
    try:
        _take(own, part)
        yield own
    finally:
        if own.release:
            own.release(own)


def _method(argument, given, name, *arguments):
    """What a method of the protocol gives."""
    call = getattr(given, name)
    if not callable(call):
        raise wrong(TypeError, argument, f"an object with a method {name}", shown(given))
    return call(*arguments)


def structures_of(argument, given):
    """The schema and the array in the capsules of an object, and the capsules, which keep them."""
    pair = _method(argument, given, "__arrow_c_array__")
    if not isinstance(pair, tuple) or len(pair) != 2:
        raise wrong(TypeError, f"{argument}.__arrow_c_array__", "to give two capsules, of a schema and of an array", shown(pair))
    kinds = (ArrowSchema, ArrowArray)
    places = [address_in(f"{argument}.__arrow_c_array__", capsule, kind) for capsule, kind in zip(pair, kinds)]
    return [kind.from_address(place) for kind, place in zip(kinds, places)], pair


def children_of(schema):
    """The children of a schema; none where they are too many to be read."""
    count = schema.n_children if schema.children else 0
    places = range(count if count < MOST_SCHEMAS else 0)
    return [schema.children[i].contents for i in places if schema.children[i]]


@contextlib.contextmanager
def taken_array(argument, given):
    """The schema and the array of an object, taken over."""
    (schema, array), _capsules = structures_of(argument, given)
    with taken(schema) as own_schema, taken(array) as own_array:
        yield own_schema, own_array


# ---- streams

def _call(stream, name, kind):
    """What a call of a stream writes. OSError where it tells an error, with the text of the stream."""
    part, call = kind(), getattr(stream, name)
    if not call:
        raise ValueError(f"the stream has no {name}")
    error = call(stream, part)
    if error:
        last = stream.get_last_error
        place = last(stream) if last else None
        text = ctypes.string_at(place) if place else b"no reason is told"
        raise OSError(error, f"{name} of the stream: {text.decode('utf-8', 'backslashreplace')}")
    return part


@contextlib.contextmanager
def taken_stream(argument, given):
    """The schema of an object's stream, and what gives the next array or None; all of it taken over."""
    capsule = _method(argument, given, "__arrow_c_stream__")
    place = address_in(f"{argument}.__arrow_c_stream__", capsule, ArrowArrayStream)
    with taken(ArrowArrayStream.from_address(place)) as stream:
        if not stream.release:
            raise ValueError(f"{argument}.__arrow_c_stream__ gave a stream that was released, or that somebody took over")
        with taken(_call(stream, "get_schema", ArrowSchema)) as schema:
            yield schema, lambda: _call(stream, "get_next", ArrowArray)


# ---- handed out

def schema_in(argument, capsule):
    """The schema of a capsule, which keeps it."""
    return ArrowSchema.from_address(address_in(argument, capsule, ArrowSchema))


def capsule_of(part):
    """A capsule that takes a structure over."""
    ends = {ArrowSchema: "codrask_end_schema", ArrowArray: "codrask_end_array", ArrowArrayStream: "codrask_end_stream"}
    later("codrask_capsules")(ctypes.cast(ctypes.pythonapi.PyCapsule_GetPointer, ctypes.c_void_p))
    block = later("codrask_new_capsule")(ctypes.sizeof(part))
    if not block:
        raise MemoryError("no memory for a capsule")
    capsule = _new(block, NAMES[type(part)], ctypes.cast(later(ends[type(part)]), ctypes.c_void_p))
    ctypes.memmove(block, ctypes.addressof(part), ctypes.sizeof(part))
    clear_release(part)
    return capsule
