"""Texts and byte lists of a node that has passed: the library writes them as a pickle, which Python makes values of faster than it cuts
them out of a buffer."""

import ctypes
import pickle

from .faults import refusal
from .library import Bytes, Fault, later
from .memory import EMPTY, seen
from .nodes import SHORT, given


def _with_named(node, valid):
    """The same node; where it has fewer rows than buffers, with nothing in place of those that no row names: so nobody asks where they
    lie."""
    if len(node.buffers) <= node.length:
        return node
    fields = node.views.cast("I").tolist()
    named = {fields[i + 2] for i in range(0, len(fields), 4) if fields[i] > SHORT and (valid is None or valid[i // 4])}
    return node._replace(buffers=tuple(buffer if i in named else EMPTY for i, buffer in enumerate(node.buffers)))


def values_of(node, valid):
    """The values, and None where `valid`, if it is not None, has a False. Of the buffers what views name is read, and no more."""
    write, give_back = later("codrask_pickle"), later("codrask_pickle_free")
    made, mask = Bytes(), None if valid is None else bytes(valid)
    try:
        number = write(given((_with_named(node, valid),)), mask, ctypes.byref(made))
        if number:
            raise refusal(Fault(number))
        with seen(made.bytes, made.count) as written:
            return pickle.loads(written)
    finally:
        give_back(ctypes.byref(made))
