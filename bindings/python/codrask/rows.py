"""The rows of a column that has passed. Its nodes are read from the last to the first, so that parts stand ready before the
array that they are parts of, at every depth."""

from itertools import chain

from . import carried
from .arguments import wrong
from .nodes import ALL_INVALID, BINARY_VIEW, BOOL, BY_ARRAY, DICTIONARY, FIXED_SIZE_LIST, LIST_VIEW, STRUCT, UTF8_VIEW, WIDTHS
from .nodes import part_count
from .values import values_of

LETTERS = {1: "B", 2: "H", 3: "I", 4: "Q", 5: "b", 6: "h", 7: "i", 8: "q"}
WITH_NULLS = (UTF8_VIEW, BINARY_VIEW, LIST_VIEW)  # whose readers give None for null rows
_TRUTHS = tuple(tuple(bool(byte >> i & 1) for i in range(8)) for byte in range(256))


class _Counted:
    """Counts values before they are made, up to a limit."""

    def __init__(self, most):
        self.most, self.left = most, most

    def add(self, count):
        self.left -= count
        if self.left < 0:
            raise wrong(ValueError, "most", "no fewer than the values that the rows hold", self.most)


def rows_of(nodes, most):
    """The rows, null as None. ValueError where they hold more values than `most`, those of parts counted too."""
    return read(nodes, most, carried.readers_of(nodes), READERS)


def read(nodes, most, of_places, of_kinds):
    """What the top node's reader makes of the table. A node has the reader of its place, or else that of its kind."""
    counted, made = _Counted(most), []
    for place in reversed(range(len(nodes))):
        node, reader = nodes[place], of_places.get(place) or of_kinds[nodes[place].kind]
        if reader is carried.passed_over:
            made.append(None)
            continue
        parts = [made.pop() for _ in range(part_count(node))]
        valid = parts.pop(0) if node.validity == BY_ARRAY else None
        counted.add(node.length)
        if node.validity == ALL_INVALID:
            made.append([None] * node.length)
        else:
            rows = reader(node, valid, parts, counted)
            told = valid is None or node.kind in WITH_NULLS
            made.append(rows if told else [row if v else None for row, v in zip(rows, valid)])
    [rows] = made
    return rows


def _truth_values(node, _valid, _parts, _counted):
    first, after = node.offset // 8, (node.offset + node.length + 7) // 8
    truths = list(chain.from_iterable(map(_TRUTHS.__getitem__, bytes(node.bytes[first:after]))))
    return truths[node.offset % 8 : node.offset % 8 + node.length]


def _integers(node, _valid, _parts, _counted):
    return node.bytes.cast(LETTERS[node.kind]).tolist()


def _values(node, valid, _parts, _counted):
    """Texts and byte lists."""
    return values_of(node, valid)


# ---- nests

def _named(_node, _valid, parts, _counted):
    codes, values = parts
    return [None if code is None else values[code] for code in codes]


def _lists_of_one_size(node, _valid, parts, counted):
    [elements], size = parts, node.size
    counted.add(size * node.length)
    return [elements[i * size : (i + 1) * size] for i in range(node.length)]


def _lists(_node, valid, parts, counted):
    elements, offsets, sizes = parts
    if valid is None:
        counted.add(sum(sizes))
        return [elements[start : start + size] for start, size in zip(offsets, sizes)]
    counted.add(sum(size for size, v in zip(sizes, valid) if v))
    return [elements[start : start + size] if v else None for start, size, v in zip(offsets, sizes, valid)]


def _records(node, _valid, columns, _counted):
    """Records by name; as pairs of a name and a value where two columns have one name."""
    names = [str(name, "utf-8") for name in node.buffers]
    if not names:
        return [{} for _ in range(node.length)]
    made = dict if len(set(names)) == len(names) else list
    return [made(zip(names, row)) for row in zip(*columns)]


READERS = {
    BOOL: _truth_values,
    UTF8_VIEW: _values,
    BINARY_VIEW: _values,
    DICTIONARY: _named,
    FIXED_SIZE_LIST: _lists_of_one_size,
    LIST_VIEW: _lists,
    STRUCT: _records,
    **{kind: _integers for kind in WIDTHS},
}
