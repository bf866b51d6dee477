"""How many rows of a column that has passed are null."""

from . import carried
from .nodes import ALL_INVALID, BY_ARRAY, DICTIONARY, ends, parts_of
from .rows import rows_of

_MOST = 2**64


def _own(nodes, place, after):
    """Which rows the validity of an array says are there: of each row, or one truth value for all of them, which may be more than
    a machine holds."""
    node = nodes[place]
    if node.validity == BY_ARRAY:
        return rows_of(nodes[place + 1 : after[place + 1]], _MOST)
    return node.validity != ALL_INVALID


def _both(own, inner):
    """The rows that are there by both."""
    if own is True or inner is False:
        return inner
    return own if own is False or inner is True else [a and b for a, b in zip(own, inner)]


def _named(codes, there):
    """Which codes are there, and name a value that is."""
    if isinstance(there, bool):
        return [code is not None and there for code in codes]
    return [code is not None and there[code] for code in codes]


def _chain(nodes, after):
    """The places of the top array, of its values where it is a dictionary, of the column that it carries, and so on."""
    places, found = [0], carried.all_of(nodes)
    while nodes[places[-1]].kind == DICTIONARY or places[-1] in found:
        places.append(parts_of(nodes, places[-1], after)[-1])
    return places


def null_count(nodes):
    """How many rows are null: by the validity, by codes that are null or name a null value, or in what is carried."""
    after = ends(nodes)
    *around, last = _chain(nodes, after)
    there = _own(nodes, last, after)
    for place in reversed(around):
        if nodes[place].kind == DICTIONARY:
            there = _named(rows_of(nodes[place + 1 : after[place + 1]], _MOST), there)
        else:
            there = _both(_own(nodes, place, after), there)
    if isinstance(there, bool):
        return 0 if there else nodes[0].length
    return nodes[0].length - sum(there)
