"""Nodes: a column as a table of arrays, each before its parts, and the same table as the library takes and writes it."""

import ctypes
from typing import NamedTuple, Tuple

from .library import Bytes
from .library import Node as Given
from .memory import EMPTY, address_of, copies_of, is_fixed, lent_of, stretch_of

BOOL, UTF8_VIEW, BINARY_VIEW, DICTIONARY, FIXED_SIZE_LIST, LIST_VIEW, STRUCT = 0, 9, 10, 11, 12, 13, 14
NUMBERS = {"u8": 1, "u16": 2, "u32": 3, "u64": 4, "i8": 5, "i16": 6, "i32": 7, "i64": 8}
WIDTHS = {1: 1, 2: 2, 3: 4, 4: 8, 5: 1, 6: 2, 7: 4, 8: 8}
NON_NULLABLE, ALL_VALID, ALL_INVALID, BY_ARRAY = range(4)
PARTS = {DICTIONARY: 2, FIXED_SIZE_LIST: 1, LIST_VIEW: 3}
MAX_NODES = 4096
SHORT = 12  # bytes that a view has room for

_nothing = (ctypes.c_uint64 * 2)()
NOWHERE = ctypes.addressof(_nothing)
_NO_BUFFERS = ctypes.cast(_nothing, ctypes.POINTER(Bytes))


class Node(NamedTuple):
    """An array. What its kind does not use is empty."""

    kind: int
    validity: int
    length: int
    size: int = 0
    offset: int = 0
    bytes: memoryview = EMPTY
    views: memoryview = EMPTY
    buffers: Tuple[memoryview, ...] = ()

    @property
    def memory(self):
        """All that the node lies in."""
        return (self.bytes, self.views, *self.buffers)

    @property
    def rows_memory(self):
        """What its rows lie in: all but names."""
        return (self.bytes, self.views, *(self.buffers if self.kind in (UTF8_VIEW, BINARY_VIEW) else ()))

    def over(self, memory_of):
        """The same node over other memory."""
        buffers = tuple(memory_of(buffer) for buffer in self.buffers)
        return self._replace(bytes=memory_of(self.bytes), views=memory_of(self.views), buffers=buffers)


def part_count(node):
    """How many parts a node has, that of its validity among them."""
    own = len(node.buffers) if node.kind == STRUCT else PARTS.get(node.kind, 0)
    return own + (node.validity == BY_ARRAY)


def ends(nodes):
    """For each node, where the nodes of its parts end."""
    after = [0] * len(nodes)
    for place in reversed(range(len(nodes))):
        end = place + 1
        for _ in range(part_count(nodes[place])):
            end = after[end]
        after[place] = end
    return after


def parts_of(nodes, place, after):
    """The places of the parts of a node but its validity's."""
    node, places = nodes[place], [place + 1]
    for _ in range(part_count(node) - 1):
        places.append(after[places[-1]])
    return places[node.validity == BY_ARRAY : part_count(node)]


def private(nodes):
    """The same nodes over memory that nobody can change: what is no part of a `bytes` is copied, overlaps once."""
    copies = copies_of([stretch_of(view) for node in nodes for view in node.memory if not is_fixed(view)])
    if not copies:
        return nodes
    return tuple(node.over(lambda view: view if is_fixed(view) else copies[stretch_of(view)]) for node in nodes)


# ---- to the library

def bytes_at(view):
    """Bytes as the library takes them; they have to outlive the call. The pointer is never null."""
    return Bytes(address_of(view) if view.nbytes else NOWHERE, view.nbytes)


def _fill(place, node):
    place.kind, place.validity, place.size = node.kind, node.validity, node.size
    place.length, place.offset = node.length, node.offset
    own, views = bytes_at(node.bytes), bytes_at(node.views)
    place.bytes, place.byte_count = own.bytes, own.count
    place.views, place.view_count = views.bytes, views.count // 16
    place.buffers, place.buffer_count = _NO_BUFFERS, len(node.buffers)
    if node.buffers:
        buffers = (Bytes * len(node.buffers))(*map(bytes_at, node.buffers))
        place.buffers = ctypes.cast(buffers, ctypes.POINTER(Bytes))


def given(nodes):
    """The table of some nodes, which have to outlive it."""
    table = (Given * max(len(nodes), 1))()
    for place, node in zip(table, nodes):
        _fill(place, node)
    return table


# ---- from the library

def _told(node):
    """A node of a table, with stretches in place of its memory."""
    buffers = tuple(_stretch(node.buffers[i].bytes, node.buffers[i].count) for i in range(node.buffer_count))
    return Node(
        node.kind,
        node.validity,
        node.length,
        node.size,
        node.offset,
        _stretch(node.bytes, node.byte_count),
        _stretch(node.views, 16 * node.view_count),
        buffers,
    )


def _stretch(address, count):
    return (address, count) if count else (0, 0)


def copied(table, lent=()):
    """The nodes of a table that the library wrote, in memory of their own, but for what lies in memory that is lent."""
    nodes = [_told(table.nodes[i]) for i in range(table.count)]
    stretches = {stretch for node in nodes for stretch in node.memory}
    shared = lent_of(stretches, lent)
    whole = {**copies_of(stretches - shared.keys()), **shared}
    return tuple(node.over(whole.__getitem__) for node in nodes)
