"""Columns of Python values: the nodes of some rows under a type. The parts of nests wait until they are made, so that none is
too deep. What does not fit is refused by its place."""

import array
import bisect
import decimal
import itertools
import struct

from . import carried
from .arguments import encoded, integer, listed, shown, truth, wrong
from .faults import TOO_MANY_NODES, Refused
from .nodes import ALL_INVALID, ALL_VALID, BINARY_VIEW, BOOL, BY_ARRAY, DICTIONARY, FIXED_SIZE_LIST, LIST_VIEW, MAX_NODES
from .nodes import NON_NULLABLE, NUMBERS, SHORT, STRUCT, UTF8_VIEW, Node
from .rows import LETTERS

MOST_HEAP = 2**31 - 1
_UNSIGNED = {1: "u8", 2: "u16", 4: "u32", 8: "u64"}


class _Filled:
    """What stands where a null record or a null list of one size has parts: any value will do."""


FILLED = _Filled()
_ABSENT = (type(None), _Filled)


class Part:
    """Values that are to be made under a type: rows, or what lies in the rows of the part above."""

    def __init__(self, kind, values, step, above=None, place_above=None):
        self.kind, self.values, self.step, self.above, self.place_above = kind, values, step, above, place_above
        self.kinds = set(map(type, values))

    def name(self, place):
        """What the value of a place is called, as `rows[3].a[2]`."""
        words, part = [], self
        while part.above:
            place, within = part.place_above(place)
            words.append(part.step if within is None else f"[{within}]")
            part = part.above
        return f"{part.step}[{place}]" + "".join(reversed(words))

    def filled(self, zero):
        """The values, with another one where none is there."""
        if self.kinds.isdisjoint(_ABSENT):
            return self.values
        return [zero if value is None or value is FILLED else value for value in self.values]

    def has_only(self, *kinds):
        """Whether all values are of these types."""
        return self.kinds <= {*kinds, *_ABSENT}

    def converted(self, convert, zero):
        """What a function makes of each value that is there. What it refuses is refused by its place."""
        made = []
        for place, value in enumerate(self.values):
            try:
                made.append(zero if value is None or value is FILLED else convert("", value))
            except (TypeError, ValueError, OverflowError, ArithmeticError):
                convert(self.name(place), value)
                raise
        return made

    def packed(self, letters, zero, convert, *kinds):
        """The values as bytes, where they are of these types and have room there; else each is converted, or refused."""
        form = f"<{len(self.values)}{letters}"
        if self.has_only(*kinds):
            try:
                return memoryview(struct.pack(form, *self.filled(zero)))
            except (struct.error, OverflowError):
                pass
        return memoryview(struct.pack(form, *self.converted(convert, zero)))

    def below(self, kind, values, step, place_above):
        """A part that lies in these rows."""
        return Part(kind, values, step, self, place_above)


# ---- which rows are null

def _bools(truths, validity=NON_NULLABLE):
    """Truth values, one to a bit."""
    places = range(0, len(truths), 8)
    bits = bytes(sum(truth << i for i, truth in enumerate(truths[place : place + 8])) for place in places)
    return Node(BOOL, validity, len(truths), bytes=memoryview(bits))


def _validity(part):
    """The validity of a part, and the node of its array where it has one; the first null is refused where none may be."""
    if type(None) not in part.kinds:
        return (ALL_VALID if part.kind.nullable else NON_NULLABLE), []
    there = [value is not None for value in part.values]
    if not part.kind.nullable:
        raise wrong(ValueError, part.name(there.index(False)), f"no null under type {part.kind.word!r}, which has no '?'", "None")
    return (BY_ARRAY, [_bools(there)]) if any(there) else (ALL_INVALID, [])


# ---- values

def _integer_of(letters):
    """What takes an integer of a width."""
    bits = 8 * struct.calcsize(letters)
    least, most = (-(2 ** (bits - 1)), 2 ** (bits - 1) - 1) if letters.islower() else (0, 2**bits - 1)
    return lambda argument, value: integer(argument, value, most, least)


def _numbers(part, validity):
    kind = NUMBERS[part.kind.word]
    values = part.packed(LETTERS[kind], 0, _integer_of(LETTERS[kind]), int)
    return [Node(kind, validity, len(part.values), bytes=values)]


def _truths(part, validity):
    truths = part.filled(False) if part.has_only(bool) else part.converted(truth, False)
    return [_bools(truths, validity)]


def _text_of(argument, value):
    if not isinstance(value, str):
        raise wrong(TypeError, argument, "a text", shown(value))
    return encoded(argument, value, "a text")


def _bytes_of(argument, value):
    if not isinstance(value, (bytes, bytearray, memoryview)):
        raise wrong(TypeError, argument, "bytes", shown(value))
    return bytes(memoryview(value))


def _laid_out(values):
    """The views of some values, and the buffers that they refer to."""
    views, buffers, pieces, end = [], [], [], 0
    for value in values:
        size = len(value)
        if size <= SHORT:
            views.append(struct.pack("<I12s", size, value))
            continue
        if end + size > MOST_HEAP:
            buffers, pieces, end = [*buffers, b"".join(pieces)], [], 0
        views.append(struct.pack("<I4sII", size, value[:4], len(buffers), end))
        pieces.append(value)
        end += size
    return memoryview(b"".join(views)), tuple(map(memoryview, [*buffers, b"".join(pieces)] if pieces else buffers))


def _values(part, validity):
    text = part.kind.word == "text"
    views, buffers = _laid_out(part.converted(_text_of if text else _bytes_of, b""))
    return [Node(UTF8_VIEW if text else BINARY_VIEW, validity, len(part.values), views=views, buffers=buffers)]


# ---- values that are carried

def _float_of(letters):
    """What takes a number that a float of a width can round."""

    def convert(argument, value):
        if isinstance(value, (bool, complex)) or not hasattr(value, "__float__"):
            raise wrong(TypeError, argument, "a number", shown(value))
        try:
            struct.pack(f"<{letters}", float(value))
        except (OverflowError, struct.error):
            taken = f"a number that {8 * struct.calcsize(letters)} bits can round"
            raise wrong(ValueError, argument, taken, shown(value)) from None
        return float(value)

    return convert


def _integers_of(letters):
    """What takes several integers of some widths, and makes bytes of them."""

    def convert(argument, value):
        numbers = listed(argument, value, f"{len(letters)} integers")
        if len(numbers) != len(letters):
            raise wrong(ValueError, argument, f"{len(letters)} integers", shown(value))
        found = [_integer_of(letter)(f"{argument}[{i}]", number) for i, (letter, number) in enumerate(zip(letters, numbers))]
        return struct.pack(f"<{letters}", *found)

    return convert


def _unscaled(value, digits, scale):
    """The integer of a decimal of so many digits and a scale, or None where it has none."""
    sign, found, exponent = value.as_tuple()
    if not isinstance(exponent, int) or not any(found):
        return None if not isinstance(exponent, int) else 0
    shift = exponent + scale
    count = len(found) + shift
    if not 0 < count <= digits or any(found[count:]):
        return None
    number = int("".join(map(str, found[:count]))) * 10 ** max(shift, 0)
    return -number if sign else number


def _decimal_of(format):
    """What takes a decimal of a format."""
    told = carried.DECIMAL.fullmatch(format.text)
    digits, scale = int(told[1]), int(told[2])

    def convert(argument, value):
        if isinstance(value, bool) or not isinstance(value, (int, decimal.Decimal)):
            raise wrong(TypeError, argument, "a Decimal or an integer", shown(value))
        number = _unscaled(decimal.Decimal(value), digits, scale)
        if number is None:
            told = shown(value) if isinstance(value, int) else f"{value!s:.60}"
            raise wrong(ValueError, argument, f"a decimal of {digits} digits, {scale} of them after the point", told)
        return number.to_bytes(format.width, "little", signed=True)

    return convert


def _binary_of(width):
    """What takes byte strings of one width."""

    def convert(argument, value):
        made = _bytes_of(argument, value)
        if len(made) != width:
            raise wrong(ValueError, argument, f"{width} bytes", f"{len(made)}")
        return made

    return convert


def _packed(part, format):
    """The values of a part in their format, as bytes."""
    letters = carried.letters_of(format.text)
    if len(letters) == 1:
        if format.text in carried.FLOATS:
            return part.packed(letters, 0, _float_of(letters), int, float)
        return part.packed(letters, 0, _integer_of(letters), int)
    if letters:
        convert = _integers_of(letters)
    else:
        convert = _decimal_of(format) if format.text[0] == "d" else _binary_of(format.width)
    return memoryview(b"".join(part.converted(convert, bytes(format.width))))


def _record_of(word, part, validity):
    """The records that carry a column."""
    return Node(STRUCT, validity, len(part.values), buffers=(memoryview(b"\0" + word.encode()),))


def _kept(width, count, values):
    """Values of one width: numbers, or lists of bytes."""
    if width in _UNSIGNED:
        return [Node(NUMBERS[_UNSIGNED[width]], NON_NULLABLE, count, bytes=values)]
    return [Node(FIXED_SIZE_LIST, NON_NULLABLE, count, size=width), Node(NUMBERS["u8"], NON_NULLABLE, width * count, bytes=values)]


def _carried(part, validity):
    format = carried.format_of(part.kind.word)
    return [_record_of(format.text, part, validity), *_kept(format.width, len(part.values), _packed(part, format))]


def _null_of(argument, value):
    raise wrong(TypeError, argument, "None", shown(value))


def _nulls(part, _validity):
    part.converted(_null_of, None)
    return [_record_of(carried.NULL, part, ALL_INVALID), *_kept(0, len(part.values), memoryview(b""))]


# ---- nests

def _counts(numbers, most):
    """A node of offsets or sizes."""
    kind = NUMBERS["i32" if most < 2**31 else "i64"]
    values = array.array(LETTERS[kind], numbers)
    return Node(kind, NON_NULLABLE, len(numbers), bytes=memoryview(values.tobytes()))


def _list_of(argument, value):
    return listed(argument, value, "values")


def _rows_of_lists(part):
    """The rows as lists, what lies in them one after another, and where each begins."""
    rows = part.filled([]) if part.has_only(list) else part.converted(_list_of, [])
    ends = list(itertools.accumulate(map(len, rows)))
    return list(itertools.chain.from_iterable(rows)), [0, *ends]


def _within(starts):
    """The row in which the value of a place lies, and its place there."""

    def place_above(place):
        row = bisect.bisect_right(starts, place) - 1
        return row, place - starts[row]

    return place_above


def _list_parts(part, starts):
    """The offsets and sizes of lists that begin at some places."""
    return [_counts(starts[:-1], starts[-1]), _counts([end - start for start, end in zip(starts, starts[1:])], starts[-1])]


def _lists(part, validity):
    values, starts = _rows_of_lists(part)
    elements = part.below(part.kind.parts[0], values, "", _within(starts))
    return [Node(LIST_VIEW, validity, len(part.values)), elements, *_list_parts(part, starts)]


def _lists_of_one_size(part, validity):
    size = integer("type, a size in it,", part.kind.size, 2**32 - 1)

    def convert(argument, value):
        row = _list_of(argument, value)
        if len(row) != size:
            raise wrong(ValueError, argument, f"{size} values", f"{len(row)}")
        return row

    rows = part.converted(convert, None)
    absent = [FILLED] * size if None in rows else None
    values = [value for row in rows for value in (absent if row is None else row)]
    elements = part.below(part.kind.parts[0], values, "", lambda place: divmod(place, size))
    return [Node(FIXED_SIZE_LIST, validity, len(part.values), size=size), elements]


def _record_values(names):
    """What takes a record, a dictionary or pairs of a name and a value, and gives its values."""
    wanted = set(names)
    taken = f"a record of the columns {', '.join(map(repr, names)) or 'of no name'}"

    def convert(argument, value):
        if isinstance(value, dict):
            if value.keys() != wanted or len(wanted) != len(names):
                raise wrong(ValueError, argument, taken, shown(value))
            return [value[name] for name in names]
        given = listed(argument, value, "pairs, or a dictionary")
        pairs = [tuple(pair) if isinstance(pair, (list, tuple)) else () for pair in given]
        if [pair[0] for pair in pairs if len(pair) == 2] != list(names) or len(pairs) != len(names):
            raise wrong(ValueError, argument, taken, shown(value))
        return [pair[1] for pair in pairs]

    return convert


def _columns(part, rows, names):
    """The parts of records whose values are these; None of one that is not there."""
    kinds = part.kind.parts
    columns = [[FILLED if row is None else row[i] for row in rows] for i in range(len(kinds))]
    return [part.below(kind, column, name, lambda place: (place, None)) for kind, column, name in zip(kinds, columns, names)]


def _records(part, validity):
    names = part.kind.names
    if len(names) >= MAX_NODES:
        raise Refused(TOO_MANY_NODES)
    buffers = tuple(memoryview(encoded("type, a name in it,", name)) for name in names)
    rows = part.converted(_record_values(names), None)
    return [Node(STRUCT, validity, len(rows), buffers=buffers), *_columns(part, rows, [f".{name}" for name in names])]


def _pair_of(argument, value):
    pair = listed(argument, value, "a key and a value")
    if len(pair) != 2:
        raise wrong(ValueError, argument, "a key and a value", shown(value))
    return pair


def _maps(part, validity):
    values, starts = _rows_of_lists(part)
    entries = part.below(part.kind._replace(nullable=False), values, "", _within(starts))
    pairs = entries.converted(_pair_of, None)
    if None in pairs:
        raise wrong(TypeError, entries.name(pairs.index(None)), "a key and a value", "None")
    names = tuple(map(memoryview, (b"key", b"value")))
    lists = Node(LIST_VIEW, NON_NULLABLE, len(part.values), buffers=(memoryview(b"entries"),))
    of_entries = [Node(STRUCT, NON_NULLABLE, len(pairs), buffers=names), *_columns(entries, pairs, ["[0]", "[1]"])]
    return [_record_of(carried.MAPS[0], part, validity), lists, *of_entries, *_list_parts(part, starts)]


def _code(part, place, known):
    """The code of a value, which is known by its type and itself."""
    value = part.values[place]
    try:
        return known.setdefault((type(value), value), len(known))
    except TypeError:
        raise wrong(TypeError, part.name(place), "a value that can be looked up", shown(value)) from None


def _dictionary(part, _validity):
    """Codes, and each value once, in the order in which they come. A null is a null code where codes may be null, else a
    value."""
    codes, values = part.kind.parts
    if codes.word not in NUMBERS:
        raise wrong(ValueError, "type, the codes in it,", "a type of integers", codes.word)
    known, null = {}, _ABSENT if codes.nullable else ()
    made = [None if isinstance(value, null) else _code(part, place, known) for place, value in enumerate(part.values)]
    firsts = [value for _, value in known]
    return [
        Node(DICTIONARY, NON_NULLABLE, len(made)),
        part.below(codes, made, "", lambda place: (place, None)),
        part.below(values, firsts, "", lambda place: (made.index(place), None)),
    ]


def _ordered(part, _validity):
    """A dictionary whose codes are ordered, in records that say so."""
    inner = Part(part.kind._replace(word="dictionary"), part.values, part.step, part.above, part.place_above)
    return [_record_of(carried.ORDERED, part, NON_NULLABLE), inner]


def _extension(part, _validity):
    """An extension: its name stands behind the word for what is carried; of what is not, in records of its own."""
    [kind], name = part.kind.parts, encoded("type, an extension in it,", part.kind.names[0])
    if kind.word == "extension" or b"\0" in name:
        raise wrong(ValueError, "type, an extension in it,", "one name without a byte 0", shown(part.kind.names[0]))
    kind = kind._replace(nullable=kind.nullable or part.kind.nullable)
    inner = Part(kind, part.values, part.step, part.above, part.place_above)
    own, *parts = _made(inner)
    if kind.word == "records" or not carried.says_so(own):
        own, parts = _record_of("", part, NON_NULLABLE), [inner]
    named = bytes(own.buffers[0]) + b"\0" + name
    return [own._replace(buffers=(memoryview(named),)), *parts]


# ---- all

_MAKERS = {
    "bool": _truths,
    "text": _values,
    "bytes": _values,
    "null": _nulls,
    "dictionary": _dictionary,
    "ordered dictionary": _ordered,
    "extension": _extension,
    "list": _lists,
    "fixed": _lists_of_one_size,
    "records": _records,
    "map": _maps,
    **{word: _numbers for word in NUMBERS},
}


def _made(part):
    """The node of a part, and what follows it: nodes, and parts that are still to be made."""
    if part.kind.word in ("dictionary", "ordered dictionary", "extension", "null"):
        return _MAKERS[part.kind.word](part, None)
    validity, array = _validity(part)
    own, *parts = _MAKERS.get(part.kind.word, _carried)(part, validity)
    return [own, *array, *parts]


def nodes_of(rows, kind, argument="rows"):
    """The nodes of a column of these rows under a type."""
    made, waiting = [], [Part(kind, rows, argument)]
    while waiting:
        part = waiting.pop()
        if len(made) == MAX_NODES:
            raise Refused(TOO_MANY_NODES)
        own, *parts = [part] if isinstance(part, Node) else _made(part)
        made.append(own)
        waiting += reversed(parts)
    return tuple(made)
