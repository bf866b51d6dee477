"""Columns that are carried under an Arrow format, since no kind of node has their values: records of one column, whose name is
a byte 0 and a word, the format. That column holds unsigned numbers of the format's width, or lists of so many `u8`, and is
never null itself. An extension follows the word, after a byte 0; where it is over a column of ours, the word is empty."""

import decimal
import re
import struct
from typing import Callable, NamedTuple, Optional

from .nodes import FIXED_SIZE_LIST, LIST_VIEW, NON_NULLABLE, NUMBERS, STRUCT, WIDTHS, ends, parts_of

NULL, ORDERED, MAPS = "n", "ordered", ("+m", "+m sorted")
MOST = 2**31 - 1  # the greatest width, and the greatest scale of decimals
DECIMAL = re.compile(r"d:([0-9]{1,3}),([-+]?[0-9]{1,10})(?:,(32|64|128|256))?")
DIGITS = {"32": 9, "64": 18, "128": 38, "256": 76}
BINARY = re.compile(r"w:([0-9]{1,10})")
OF_32, OF_64 = ("tdD", "tts", "ttm", "tiM"), ("tdm", "ttu", "ttn", "tDs", "tDm", "tDu", "tDn")
INSTANT = re.compile(r"ts[smun]:.*", re.S)
# the letters of what a value of a format is kept as
FLOATS = {"e": "e", "f": "f", "g": "d"}
SEVERAL = {"tiD": "ii", "tin": "iiq"}


class Format(NamedTuple):
    """A format: how many bytes a value has, and how values are read out of bytes."""

    text: str
    width: int
    read: Callable


def _of_letters(letters):
    """What reads values that are one number, or several."""

    def read(values):
        if len(letters) > 1:
            return list(struct.iter_unpack(f"<{letters}", values))
        return list(struct.unpack(f"<{values.nbytes // struct.calcsize(letters)}{letters}", values))

    return read


def _chunks(values, width):
    """Byte strings of one width, which is not 0."""
    whole = bytes(values)
    return [whole[i : i + width] for i in range(0, len(whole), width)]


def _decimals(values, width, scale):
    """Decimals as they are kept: no context rounds them."""
    numbers = (int.from_bytes(chunk, "little", signed=True) for chunk in _chunks(values, width))
    return [decimal.Decimal(f"{number}E{-scale}") for number in numbers]


def letters_of(text):
    """The letters of a format whose values are numbers, or "" of another."""
    if text in OF_32:
        return "i"
    if text in OF_64 or INSTANT.fullmatch(text):
        return "q"
    return FLOATS.get(text) or SEVERAL.get(text, "")


def format_of(text):
    """The format of a text, or None where it tells no values of one width."""
    letters, binary, of_decimals = letters_of(text), BINARY.fullmatch(text), DECIMAL.fullmatch(text)
    if letters:
        return Format(text, struct.calcsize(f"<{letters}"), _of_letters(letters))
    if binary and int(binary[1]) <= MOST:
        width = int(binary[1])
        return Format(text, width, lambda values: _chunks(values, width))
    if of_decimals and 0 < int(of_decimals[1]) <= DIGITS[of_decimals[3] or "128"] and abs(int(of_decimals[2])) <= MOST:
        width, scale = int(of_decimals[3] or 128) // 8, int(of_decimals[2])
        return Format(text, width, lambda values: _decimals(values, width, scale))
    return None


# ---- in tables

class Carried(NamedTuple):
    """What records carry: their place, that of their one column, the word for it, and the name of an extension."""

    place: int
    inner: int
    word: str
    extension: Optional[str]


def says_so(node):
    """Whether a node's records say that they carry a column."""
    return node.kind == STRUCT and len(node.buffers) == 1 and node.buffers[0][:1] == b"\0"


def _words(node):
    """The word and the name of the extension that records have."""
    word, *extension = bytes(node.buffers[0][1:]).split(b"\0", 2)
    told = [str(part, "utf-8", "backslashreplace") for part in (word, *extension[:1])]
    return told[0], told[1] if extension else None


def kept(nodes, place):
    """How many bytes a value of the array at a place has, and all of them; none where it is not of one width."""
    node = nodes[place]
    if node.validity != NON_NULLABLE:
        return -1, None
    if node.kind in WIDTHS:
        return WIDTHS[node.kind], node.bytes
    items = nodes[place + 1] if node.kind == FIXED_SIZE_LIST else node
    if items.kind == NUMBERS["u8"] and items.validity == NON_NULLABLE:
        return node.size, items.bytes
    return -1, None


def entries_of(nodes, inner):
    """The place of the entries of a map; 0 where the array at a place is none."""
    lists, place = nodes[inner], inner + 1
    if lists.validity != NON_NULLABLE or lists.kind != LIST_VIEW:
        return 0
    if says_so(nodes[place]) and nodes[place].validity == NON_NULLABLE and not _words(nodes[place])[0]:
        place += 1
    return place if nodes[place].kind == STRUCT and len(nodes[place].buffers) == 2 else 0


def _has_form(nodes, one):
    """Whether the column has the form that its word says."""
    if one.word == "":
        return one.extension is not None
    if one.word in MAPS:
        return bool(entries_of(nodes, one.inner))
    if one.word == ORDERED:
        return True
    form = format_of(one.word)
    return kept(nodes, one.inner)[0] == (0 if one.word == NULL else form.width if form else None)


def all_of(nodes):
    """All that is carried, by the places of the records."""
    if not any(map(says_so, nodes)):
        return {}
    after = ends(nodes)
    told = [(place, parts_of(nodes, place, after)[0], *_words(node)) for place, node in enumerate(nodes) if says_so(node)]
    return {one.place: one for one in map(Carried._make, told) if _has_form(nodes, one)}


# ---- read

def passed_over(_node, _valid, _parts, _counted):
    """Of elements that are read with their lists."""


def _one(_node, _valid, parts, _counted):
    """The rows of the one column."""
    return parts[0]


def _nulls(node, _valid, _parts, _counted):
    return [None] * node.length


def _pairs(_node, _valid, parts, _counted):
    """The entries of a map: a key and a value."""
    return list(zip(*parts))


def _values(text, values):
    """What reads the values of a format."""

    def read(node, _valid, _parts, _counted):
        form = format_of(text)
        return form.read(values) if form.width else [b""] * node.length

    return read


def readers_of(nodes):
    """How the nodes of carried columns are read, by their places."""
    readers = {}
    for one in all_of(nodes).values():
        readers[one.place] = _nulls if one.word == NULL else _one
        if one.word in MAPS:
            readers[entries_of(nodes, one.inner)] = _pairs
        elif one.word and one.word not in (NULL, ORDERED):
            readers[one.inner] = _values(one.word, kept(nodes, one.inner)[1])
            if nodes[one.inner].kind == FIXED_SIZE_LIST:
                readers[one.inner + 1] = passed_over
    return readers
