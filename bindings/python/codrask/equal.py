"""Whether two columns that have passed have the same rows. Each row of a nest gets a number, by the numbers of what it holds:
so nests are compared at every depth, and no call calls itself."""

from .nodes import BINARY_VIEW, BOOL, BY_ARRAY, DICTIONARY, FIXED_SIZE_LIST, LIST_VIEW, STRUCT, UTF8_VIEW, WIDTHS, part_count
from .rows import READERS, read

_LEAVES = {BOOL: "bool", UTF8_VIEW: "text", BINARY_VIEW: "bytes", **{kind: "integer" for kind in WIDTHS}}


def _sort_of(nodes, known):
    """The number of what sort the rows of a table are: integers of whichever width, lists however they lie, records of such
    names."""
    made = []
    for node in reversed(nodes):
        parts = [made.pop() for _ in range(part_count(node))][node.validity == BY_ARRAY :]
        if node.kind == DICTIONARY:
            made.append(parts[1])
            continue
        if node.kind == STRUCT:
            sort = ("records", tuple(map(bytes, node.buffers)), *parts)
        else:
            sort = ("list", parts[0]) if node.kind in (FIXED_SIZE_LIST, LIST_VIEW) else (_LEAVES[node.kind],)
        made.append(known.setdefault(sort, len(known)))
    return made[0]


def _numbering(kind, known):
    """What reads the rows of a nest as numbers: equal rows have the same one."""

    def read_numbers(node, valid, parts, counted):
        rows = zip(*parts) if kind == STRUCT and parts else READERS[kind](node, valid, parts, counted)
        rows = [() for _ in rows] if kind == STRUCT and not parts else rows
        return [None if row is None else known.setdefault(tuple(row), len(known)) for row in rows]

    return read_numbers


def same_rows(one, other, most):
    """Whether two tables have the same rows. What is carried is compared by its bytes. ValueError where one of them holds more
    values than `most`."""
    sorts, known = {}, {}
    if one[0].length != other[0].length or _sort_of(one, sorts) != _sort_of(other, sorts):
        return False
    readers = {**READERS, **{kind: _numbering(kind, known) for kind in (FIXED_SIZE_LIST, LIST_VIEW, STRUCT)}}
    return read(one, most, {}, readers) == read(other, most, {}, readers)
