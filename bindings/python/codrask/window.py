"""Some rows of a column that has passed: its nodes cut to them, over the same memory, so that few rows of many cost little."""

import struct

from .nodes import ALL_INVALID, BOOL, BY_ARRAY, DICTIONARY, FIXED_SIZE_LIST, LIST_VIEW, NON_NULLABLE, NUMBERS, STRUCT, WIDTHS, Node
from .nodes import ends, parts_of
from .rows import LETTERS, rows_of


def rows_between(nodes, start, end, most):
    """The rows from `start` up to `end`. ValueError where they hold more values than `most`."""
    after = ends(nodes)
    if all(_is_plain(nodes, place, after) for place in range(len(nodes))):
        return rows_of(_cut(nodes, after, start, end - start), most)
    return rows_of(nodes, most)[start:end]


def _is_plain(nodes, place, after):
    """Whether what tells a node's rows lies plain: its validity in bits, its codes, offsets or sizes in numbers."""
    node = nodes[place]
    if node.validity == BY_ARRAY and nodes[place + 1].kind != BOOL:
        return False
    if node.kind == DICTIONARY:
        return nodes[place + 1].kind in WIDTHS
    if node.kind != LIST_VIEW:
        return True
    ends_of_lists = [nodes[part] for part in parts_of(nodes, place, after)[1:]]
    return all(part.kind in WIDTHS and part.validity == NON_NULLABLE for part in ends_of_lists)


# ---- nodes of some rows

def _cut(nodes, after, start, count):
    """The nodes of so many rows from `start` on. The parts that are still to be cut wait, the next one last."""
    made, waiting = [], [(0, start, count)]
    while waiting:
        part = waiting.pop()
        if isinstance(part, Node):
            made.append(part)
            continue
        place, start, count = part
        node = nodes[place]
        parts = _CUTS.get(node.kind, _cut_flat)(nodes, parts_of(nodes, place, after), place, start, count)
        if node.validity == BY_ARRAY:
            parts.insert(1, (place + 1, start, count))
        waiting += reversed(parts[1:])
        made.append(parts[0])
    return tuple(made)


def _numbers(node, start, count):
    width = WIDTHS[node.kind]
    return node.bytes[start * width : (start + count) * width]


def _cut_flat(nodes, _parts, place, start, count):
    """An array without parts but its validity."""
    node = nodes[place]
    if node.kind in WIDTHS:
        return [node._replace(length=count, bytes=_numbers(node, start, count))]
    if node.kind == BOOL:
        return [node._replace(length=count, offset=node.offset + start)]
    return [node._replace(length=count, views=node.views[16 * start : 16 * (start + count)])]


def _cut_records(nodes, parts, place, start, count):
    return [nodes[place]._replace(length=count), *((part, start, count) for part in parts)]


def _cut_lists_of_one_size(nodes, parts, place, start, count):
    node = nodes[place]
    return [node._replace(length=count), (parts[0], start * node.size, count * node.size)]


def _valid(nodes, place, start, count):
    """Which rows of an array are not null."""
    state = nodes[place].validity
    if state == BY_ARRAY:
        return rows_of(tuple(_cut_flat(nodes, [], place + 1, start, count)), count)
    return [state != ALL_INVALID] * count


def _counts(numbers, validity=NON_NULLABLE):
    """A node of numbers that are made here."""
    values = memoryview(struct.pack(f"<{len(numbers)}Q", *numbers))
    return Node(NUMBERS["u64"], validity, len(numbers), bytes=values)


def _read(node, start, count):
    return _numbers(node, start, count).cast(LETTERS[node.kind]).tolist()


def _cut_lists(nodes, parts, place, start, count):
    """Lists, with those elements alone in which the first and the last of them lie."""
    elements, *told = parts
    offsets, sizes = (_read(nodes[part], start, count) for part in told)
    lists = zip(offsets, sizes, _valid(nodes, place, start, count))
    lists = [(offset, size) if valid and size else (None, 0) for offset, size, valid in lists]
    there = [(offset, offset + size) for offset, size in lists if size]
    first, end = min(there, default=(0, 0))[0], max((end for _, end in there), default=0)
    offsets = _counts([offset - first if size else 0 for offset, size in lists])
    return [nodes[place]._replace(length=count), (elements, first, end - first), offsets, _counts([size for _, size in lists])]


def _cut_dictionary(nodes, parts, place, start, count):
    """A dictionary, with those values alone between the first and the last that codes name."""
    codes, values = parts
    valid = _valid(nodes, codes, start, count)
    named = [code if v else None for code, v in zip(_read(nodes[codes], start, count), valid)]
    there = [code for code in named if code is not None]
    first, end = min(there, default=0), max(there, default=-1) + 1
    made = [_counts([0 if code is None else code - first for code in named], nodes[codes].validity)]
    if nodes[codes].validity == BY_ARRAY:
        made.append((codes + 1, start, count))
    return [nodes[place]._replace(length=count), *made, (values, first, end - first)]


_CUTS = {STRUCT: _cut_records, FIXED_SIZE_LIST: _cut_lists_of_one_size, LIST_VIEW: _cut_lists, DICTIONARY: _cut_dictionary}
