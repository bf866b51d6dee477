"""Arrow arrays as nodes: those at two addresses, those that an object gives in capsules or as a stream, and those of producers
that know how long their buffers are."""

import ctypes
from typing import NamedTuple, Tuple

from . import nodes as of
from .arguments import shown, wrong
from .capsules import children_of, taken, taken_array, taken_stream
from .faults import refusal
from .formats import formats_of
from .lengths import DEEPEST, lengths_of, parts_of
from .library import ArrowArray, ArrowFault, ArrowSchema, Fault, Limits, Reading, Table, has, later, load
from .words import name_text

SIZED = "codrask_read_arrow_sized"
TAKEN = "the two addresses of an ArrowSchema and an ArrowArray, or an object that gives Arrow arrays"


class Asked(NamedTuple):
    """What is asked of the reading: at most so many bytes, by default as the library tells, and these columns alone."""

    most_bytes: int = 0
    columns: Tuple[bytes, ...] = ()
    chosen: bool = False

    def reading(self, lengths):
        """The same as the library takes it, with the lengths of all buffers; and what has to outlive that."""
        how, names = Reading(Limits(self.most_bytes)), (ctypes.c_char_p * max(len(self.columns), 1))(*self.columns)
        if lengths is not None:
            how.lengths = (ctypes.c_size_t * max(len(lengths), 1))(*lengths)
            how.length_count = len(lengths)
        if self.chosen:
            how.columns, how.column_count = names, len(self.columns)
        return how


# ---- one array

def _read(schema, array, asked, lengths, table):
    """Reads an array into a table. Answers what is raised where it is refused, or None."""
    if lengths is None and not asked.chosen and not has(SIZED):
        fault, limits = Fault(), Limits(asked.most_bytes)
        if load().codrask_read_arrow(schema, array, ctypes.byref(limits), ctypes.byref(table), ctypes.byref(fault)):
            return refusal(fault)
        return None
    told = ArrowFault()
    if later(SIZED)(schema, array, ctypes.byref(asked.reading(lengths)), ctypes.byref(table), ctypes.byref(told)):
        return refusal(told.fault, *_words_of(schema, told, asked))
    return None


def nodes_at(schema, array, asked, lengths=None, lent=()):
    """The nodes of the Arrow array at two addresses, over copies of what they have but in memory that is lent, the name of the column,
    and the formats of the nodes. Raises `Refused` where it is read as no table, or as one of too many bytes."""
    table = Table()
    refused = _read(schema, array, asked, lengths, table)
    if refused:
        raise refused
    try:
        return of.copied(table, lent), load().codrask_table_name(ctypes.byref(table)), formats_of(table)
    finally:
        load().codrask_table_free(ctypes.byref(table))


# ---- where a refusal is

def _address(part, field):
    return ctypes.c_void_p.from_address(ctypes.addressof(part) + getattr(ArrowSchema, field).offset).value


def _name_of(schema):
    """The name of a schema as a path has it; nothing where it has none."""
    return name_text(schema.name.decode("utf-8", "backslashreplace")) if schema.name else ""


def _children(schema, path, names):
    """The children of a schema that was read, and its dictionary, each with its path but for the name of a column, and whether it
    is one. With names, the children that have them."""
    children = children_of(schema)
    if names is not None:
        children = [child for name in names for child in children if child.release and child.name == name]
    is_column = schema.format == b"+s"
    found = [(child, path if is_column else f"{path}[]", is_column) for child in children]
    return found + ([(schema.dictionary.contents, path, False)] if schema.dictionary else [])


def _words_of(address, told, asked):
    """The path of names to the schema that is refused, the first that has the format and the name that the library tells; and its
    format. What comes after that schema is not looked at."""
    if not told.format:
        return "", ""
    names, seen = asked.columns if asked.chosen else None, 0
    top = ArrowSchema.from_address(address)
    waiting = [(top, _name_of(top), False)]
    while waiting and seen < 2 * of.MAX_NODES:
        schema, path, is_column = waiting.pop()
        seen += 1
        if not schema.release:
            continue
        if is_column:
            path = f"{path}.{_name_of(schema) or name_text('')}".lstrip(".")
        if (_address(schema, "format"), _address(schema, "name")) == (told.format, told.name):
            return path, ctypes.string_at(told.format).decode("utf-8", "backslashreplace")
        waiting += reversed(_children(schema, path, names))
        names = None
    return "", ctypes.string_at(told.format).decode("utf-8", "backslashreplace")


# ---- arrays of no rows

_BUFFERS = {b"n": 0, b"+s": 1, b"u": 3, b"U": 3, b"z": 3, b"Z": 3, b"vu": 3, b"vz": 3, b"+vl": 3, b"+vL": 3}
_release_nothing = dict(ArrowArray._fields_)["release"](lambda _array: None)


def _empty(schema, depth=0, left=None):
    """An array of no rows under a schema. Schemas that are nested too deep to be read, or are too many, have none here."""
    left = left or [of.MAX_NODES]
    left[0] -= 1
    format = schema.format or b""
    array = ArrowArray(n_buffers=1 if format[:2] == b"+w" else _BUFFERS.get(format, 2), release=_release_nothing)
    array.buffers = (ctypes.c_void_p * 4)()
    if depth > DEEPEST or schema.n_children >= left[0]:
        return array
    parts = children_of(schema)
    array.children = (ctypes.POINTER(ArrowArray) * (len(parts) + 1))()
    for place, part in enumerate(parts):
        array.children[place] = ctypes.pointer(_empty(part, depth + 1, left))
    array.n_children = len(parts)
    if schema.dictionary:
        array.dictionary = ctypes.pointer(_empty(schema.dictionary.contents, depth + 1, left))
    return array


# ---- what is given

def gives_arrays(given):
    """Whether an object gives Arrow arrays."""
    return hasattr(given, "__arrow_c_array__") or hasattr(given, "__arrow_c_stream__")


def _at(schema, array, asked, lengths=None):
    return nodes_at(ctypes.addressof(schema), ctypes.addressof(array), asked, lengths)


def _of_stream(given, asked, even_none):
    """The nodes, the name and the formats of each batch of a stream; of no rows, where it has no batch and one is asked for."""
    count = 0
    with taken_stream("given", given) as (schema, next_array):
        while True:
            with taken(next_array()) as array:
                if not array.release:
                    break
                count += 1
                yield _at(schema, array, asked)
        if even_none and not count:
            yield _at(schema, _empty(schema), asked)


def _of_known(part, asked):
    """The same of an array or a batch that tells its buffers."""
    with taken_array("given", part) as (schema, array):
        lengths, _kept = lengths_of(schema, array, part)
        return _at(schema, array, asked, lengths)


def read_given(given, asked, even_none):
    """The nodes, the name and the formats of each array that an object gives. Where it tells its buffers, no byte past them is read."""
    parts = parts_of(given)
    if parts:
        yield from (_of_known(part, asked) for part in parts)
    elif hasattr(given, "__arrow_c_array__"):
        with taken_array("given", given) as (schema, array):
            yield _at(schema, array, asked)
    elif hasattr(given, "__arrow_c_stream__"):
        yield from _of_stream(given, asked, even_none)
    else:
        raise wrong(TypeError, "given", TAKEN, shown(given))
