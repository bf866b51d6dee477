"""Arrow arrays that were written, as a stream that hands them out one after another."""

import ctypes

from .capsules import capsule_of, clear_release
from .faults import run_refusal
from .library import ArrowArray, ArrowArrayStream, ArrowSchema, RunFault, later


def _copies(kind, parts):
    """The structures one after another. They are still owned by where they lie."""
    copies = (kind * len(parts))()
    for copy, part in zip(copies, parts):
        ctypes.memmove(ctypes.addressof(copy), ctypes.addressof(part), ctypes.sizeof(kind))
    return copies


def stream_capsule(made):
    """The capsule of a stream that takes each `Arrow` over; none of them where it is refused."""
    schemas, arrays = [arrow._schema for arrow in made], [arrow._array for arrow in made]
    stream, fault = ArrowArrayStream(), RunFault()
    call = later("codrask_stream_written")
    if call(_copies(ArrowSchema, schemas), _copies(ArrowArray, arrays), len(made), ctypes.byref(stream), ctypes.byref(fault)):
        raise run_refusal(fault)
    for part in (*schemas, *arrays):
        clear_release(part)
    try:
        return capsule_of(stream)
    finally:
        if stream.release:
            stream.release(stream)
