"""What packing makes of a column that has passed: how many bytes it takes, told before any is made, and the names of elements, which
no step keeps."""

from itertools import accumulate

from .nodes import ALL_INVALID, BINARY_VIEW, BOOL, BY_ARRAY, DICTIONARY, FIXED_SIZE_LIST, LIST_VIEW, STRUCT, UTF8_VIEW, WIDTHS
from .nodes import SHORT, ends, parts_of
from .rows import LETTERS, rows_of

_MOST = 2**64
_VIEW = 128


def takes_more(nodes, most):
    """Whether the values of the rows have more than so many bytes where each row has its own, as in packed form. They are counted
    where they may have more."""
    return _bound(nodes) > 8 * most and bits_of(nodes) > 8 * most


def _sizes_of_views(node):
    return node.views.cast("I")[::4]


def _width(node):
    """How many bits a number or a truth value has."""
    return 8 * WIDTHS[node.kind] if node.kind in WIDTHS else 1


# ---- more bits than there are

def _greatest(nodes, place, after):
    """The greatest of some sizes."""
    node = nodes[place]
    sizes = node.bytes.cast(LETTERS[node.kind]) if node.kind in WIDTHS else rows_of(nodes[place : after[place]], _MOST)
    return max(sizes, default=0)


def _bound(nodes):
    """No fewer bits than the values of the rows have: as if each row of an array had those of the greatest."""
    after, made = ends(nodes), {}
    for place in reversed(range(len(nodes))):
        node, parts = nodes[place], parts_of(nodes, place, after)
        if node.kind in (UTF8_VIEW, BINARY_VIEW):
            made[place] = _VIEW + 8 * (max(_sizes_of_views(node), default=0) if node.buffers else 0)
        elif node.kind == STRUCT:
            made[place] = sum(made[part] for part in parts)
        elif node.kind == FIXED_SIZE_LIST:
            made[place] = node.size * made[parts[0]]
        elif node.kind == LIST_VIEW:
            made[place] = _greatest(nodes, parts[2], after) * made[parts[0]]
        else:
            made[place] = made[parts[1]] if node.kind == DICTIONARY else _width(node)
    return nodes[0].length * made[0]


# ---- how many bits there are

class _Bits:
    """How many bits the rows of an array have: one that is null, and where any has others, each."""

    def __init__(self, of_null, each=()):
        self.of_null, self.each = of_null, each

    def where(self, valid):
        """The same, where some rows are null."""
        if valid is True:
            return self
        if valid is False:
            return _Bits(self.of_null)
        return _Bits(self.of_null, [bits if v else self.of_null for bits, v in zip(self.each, valid)])


def _rows(nodes, place, after):
    return rows_of(nodes[place : after[place]], _MOST)


def _valid(nodes, place, after):
    """Which rows the validity of an array says are there, or one truth value for all of them."""
    state = nodes[place].validity
    return _rows(nodes, place + 1, after) if state == BY_ARRAY else state != ALL_INVALID


def _values(node):
    """Views, and what they refer to."""
    if not node.buffers:
        return _Bits(_VIEW)
    return _Bits(_VIEW, [_VIEW + 8 * size if size > SHORT else _VIEW for size in _sizes_of_views(node)])


def _records(parts):
    of_null, several = sum(part.of_null for part in parts), [part.each for part in parts if part.each]
    others = sum(part.of_null for part in parts if not part.each)
    return _Bits(of_null, [others + sum(bits) for bits in zip(*several)])


def _lists_of_one_size(node, elements):
    each, size = elements.each, node.size
    return _Bits(size * elements.of_null, [sum(each[place : place + size]) for place in range(0, len(each), size or 1)])


def _lists(elements, offsets, sizes, valid):
    """Lists, which have no element where they are null, whatever their offset and size is."""
    if valid is False:
        return _Bits(0)
    there = sizes if valid is True else [size if v else 0 for size, v in zip(sizes, valid)]
    if not elements.each:
        return _Bits(0, [size * elements.of_null for size in there])
    before = [0, *accumulate(elements.each)]
    return _Bits(0, [before[start + size] - before[start] if size else 0 for start, size in zip(offsets, there)])


def _named(codes, values):
    return _Bits(values.of_null, [values.of_null if code is None else values.each[code] for code in codes])


def _bits(nodes, place, after, made):
    """The bits of an array, whose parts are counted. What stands at null rows is not looked at."""
    node, parts = nodes[place], parts_of(nodes, place, after)
    if node.kind == BOOL or node.kind in WIDTHS:
        return _Bits(_width(node))
    if node.kind == DICTIONARY:
        values = made[parts[1]]
        return _named(_rows(nodes, parts[0], after), values) if values.each else values
    if node.kind == LIST_VIEW:
        return _lists(made[parts[0]], *(_rows(nodes, part, after) for part in parts[1:]), _valid(nodes, place, after))
    if node.kind in (UTF8_VIEW, BINARY_VIEW):
        found = _values(node)
    elif node.kind == STRUCT:
        found = _records([made[part] for part in parts])
    else:
        found = _lists_of_one_size(node, made[parts[0]])
    return found.where(_valid(nodes, place, after)) if found.each else found


def bits_of(nodes):
    """How many bits the values of the rows have. Each array is counted once, also where many rows share what it holds."""
    after, made = ends(nodes), {}
    for place in reversed(range(len(nodes))):
        made[place] = _bits(nodes, place, after, made)
    return sum(made[0].each) if made[0].each else made[0].of_null * nodes[0].length


# ---- names of elements

def _lists_in(nodes):
    """The places of the lists that the type tells of, in its order."""
    after, waiting = ends(nodes), [0]
    while waiting:
        place = waiting.pop()
        parts, kind = parts_of(nodes, place, after), nodes[place].kind
        if kind in (FIXED_SIZE_LIST, LIST_VIEW):
            yield place
        if kind == DICTIONARY:
            waiting.append(parts[1])
        else:
            waiting += reversed(parts[:1] if kind == LIST_VIEW else parts)


def with_names(nodes, like):
    """Nodes with the names of elements that other nodes of their type have."""
    made = list(nodes)
    for place, other in zip(_lists_in(nodes), _lists_in(like)):
        made[place] = made[place]._replace(buffers=like[other].buffers)
    return tuple(made)
