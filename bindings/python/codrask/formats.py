"""The formats with which texts, byte lists and lists came in, a number for each node; and what a schema asks for in their place."""

import ctypes

from . import carried
from .capsules import children_of
from .library import has, later, load
from .nodes import BINARY_VIEW, DICTIONARY, FIXED_SIZE_LIST, LIST_VIEW, STRUCT, UTF8_VIEW, ends, parts_of

# the formats of a kind that say of the same values how they lie
ALIKE = {
    UTF8_VIEW: {b"u": 1, b"U": 2, b"vu": 3},
    BINARY_VIEW: {b"z": 1, b"Z": 2, b"vz": 3},
    LIST_VIEW: {b"+l": 1, b"+L": 2, b"+vl": 3, b"+vL": 4},
}


def formats_of(table):
    """The formats of a table that the library read; of a library of before, none."""
    count = table.count
    if not has("codrask_table_formats"):
        return bytes(count)
    return ctypes.string_at(later("codrask_table_formats")(ctypes.byref(table)), count)


# ---- of what steps made

def formats_after(tables, columns, steps, wanted, made):
    """The formats of what a run wrote, by those of its columns."""
    rooms = [(ctypes.c_uint8 * made.columns[i].count)() for i in range(made.count)]
    if any(map(any, columns)) and has("codrask_run_formats"):
        own = (ctypes.c_char_p * max(len(columns), 1))(*columns)
        into = (ctypes.c_void_p * max(len(rooms), 1))(*map(ctypes.addressof, rooms))
        if load().codrask_run_formats(tables, own, len(columns), steps, len(steps), wanted, ctypes.byref(made), into):
            raise MemoryError("the library was refused memory")
    return list(map(bytes, rooms))


# ---- of a schema

def _is_alike(node, format):
    """Whether an array of a format has parts as a node has them."""
    format = format or b""
    if node.kind == LIST_VIEW:
        return format in ALIKE[LIST_VIEW] or format == b"+m"
    return format == b"+s" if node.kind == STRUCT else node.kind == FIXED_SIZE_LIST and format.startswith(b"+w:")


def _parts_asked(nodes, place, after, schema):
    """The places of the parts of a node, each with its schema; none where the schema has others."""
    own, children = parts_of(nodes, place, after), children_of(schema)
    own = own[:1] if nodes[place].kind == LIST_VIEW else own
    return zip(own, children) if _is_alike(nodes[place], schema.format) and len(own) == len(children) else ()


def formats_asked(nodes, formats, schema):
    """The formats of nodes where a schema asks for others of the same values. What else it asks for is passed over, and so is what
    it says of other arrays than these."""
    made, after, waiting = bytearray(formats), ends(nodes), [(0, schema)]
    while waiting:
        place, schema = waiting.pop()
        node = nodes[place]
        if not schema.release or node.kind == DICTIONARY:
            continue
        if carried.says_so(node):
            waiting.append((parts_of(nodes, place, after)[0], schema))
            continue
        made[place] = ALIKE.get(node.kind, {}).get(schema.format, made[place])
        waiting += _parts_asked(nodes, place, after, schema)
    return bytes(made)
