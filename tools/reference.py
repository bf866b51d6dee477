"""A second reading of the rules of the script language, in rows: for comparison with `vx`."""
import re
from typing import Any, Dict, List, NamedTuple, Optional, Tuple

from rows import Rows, blocks, joined, listed, repeated, zipped

RANGES: Dict[str, range] = {f"u{bits}": range(0, 2**bits) for bits in (8, 16, 32, 64)}
RANGES.update({f"i{bits}": range(-(2 ** (bits - 1)), 2 ** (bits - 1)) for bits in (8, 16, 32, 64)})
REBUILT = {"u8": "u32", "u16": "u32", "u32": "u32", "u64": "u64"}
REBUILT.update({"i8": "i32", "i16": "i32", "i32": "i32", "i64": "i64"})
VALIDITIES = ("nonnull", "allvalid", "allinvalid")
MODES = ("zctl", "trim", "exact", "overlap")
LITERAL_KINDS = {"ints": tuple(RANGES), "bools": ("bool",), "texts": ("utf8", "binary")}
OPERANDS = {name: (1, 1) for name in ("narrow", "show", "parts")}  # the least and most words
OPERANDS.update({name: (2, 2) for name in (*LITERAL_KINDS, "dict", "take", "filter", "mask")})
OPERANDS.update({"rebuild": (2, 2), "const": (3, 3), "slice": (3, 3), "listview": (4, 4)})
OPERANDS.update({"fixed": (4, 4), "concat": (0, None), "struct": (2, None), "project": (1, None)})
PLAIN_LAYOUTS = {"bool": "bool", "utf8": "views", "binary": "views"}
PLAIN_LAYOUTS.update({"list": "listview", "fixed": "fixed", "record": "struct"})
MOST_LISTED = 2**20  # starts of lists, which this reading writes out
MOST_LINE = 2**20  # bytes of a line
MOST_BYTES = 2**31  # of an answer, from which on it is `Memory`


class Fault(Exception):
    """A refusal, by its name."""


class Beyond(Exception):
    """What would be too long to be written out here: this reading says nothing of it."""


class Array(NamedTuple):
    layout: str  # bool, primitive, constant, dict, fixed, listview, struct or views
    kind: str  # bool, utf8, binary, list, fixed (lists of one size), record or an integer type
    nullable: bool
    rows: Rows  # None where a row is null; a list is of its own rows, and a record a tuple of its names and rows
    elements: Optional["Array"] = None  # of lists, also of those that a dictionary names
    size: int = 0  # of lists of one size
    names: Tuple[str, ...] = ()  # of records
    columns: Tuple["Array", ...] = ()
    offsets: Optional["Array"] = None
    sizes: Optional["Array"] = None
    codes: Optional["Array"] = None
    count: int = 0  # of a dictionary's values
    buffers: int = 0  # that its texts have in plain layout
    flag: bool = False
    has_bits: bool = False  # whether its validity may lie in bits
    is_exact: bool = True  # whether a rule fixes each number that `parts` prints

    def is_plain_integers(self) -> bool:
        return self.kind in RANGES and not self.nullable


def want(condition, fault: str):
    if not condition:
        raise Fault(fault)


# ---- words


def read_type(word: str):
    kind = word[:-1] if word.endswith("?") else word
    want(kind in ("bool", "utf8", "binary") or kind in RANGES, "Syntax")
    return kind, word.endswith("?")


def is_name(word: str) -> bool:
    return re.fullmatch(r"[A-Za-z0-9_]+", word) is not None


def read_item(kind: str, word: str):
    if word == "null":
        return None
    if kind == "bool":
        want(word in ("true", "false"), "Syntax")
        return word == "true"
    if kind in ("utf8", "binary"):
        want(re.fullmatch(r"x([0-9a-fA-F]{2})*", word), "Syntax")
        return bytes.fromhex(word[1:])
    want(re.fullmatch(r"-?[0-9]{1,20}", word), "Syntax")
    want(abs(int(word)) < 2**64 and int(word) in RANGES[kind], "Syntax")
    return int(word)


def fits(kind: str, item) -> bool:
    """Whether the item of a constant fits its type: a text is UTF-8."""
    try:
        return kind != "utf8" or item is None or item.decode("utf-8") is not None
    except UnicodeDecodeError:
        return False


def is_long(item) -> bool:
    """Whether an item is a text or a byte list that needs a buffer."""
    return isinstance(item, bytes) and len(item) > 12


def read_number(word: str, limit: Optional[int] = 2**64) -> int:
    want(re.fullmatch(r"[0-9]+", word) and (limit is None or int(word) < limit), "Syntax")
    return int(word)


def read_register(word: str) -> int:
    return read_number(word, None)


# ---- calls


def literal(layout: str, kind: str, nullable: bool, rows: Rows) -> Array:
    want(nullable or None not in rows, "HasNulls")
    return Array(layout, kind, nullable, rows)


def numbers(kind: str, rows: Rows) -> Array:
    """Plain numbers of an integer type."""
    return Array("primitive", kind, False, rows)


def is_mask(validity) -> bool:
    """Whether a validity is a state, or an array of plain booleans."""
    return isinstance(validity, str) or (validity.kind == "bool" and not validity.nullable)


def want_rows(validity, count: int):
    """Refuses an array of another length as the validity of so many rows."""
    want(isinstance(validity, str) or validity.rows.count == count, "LengthMismatch")


def may_be_bits(validity) -> bool:
    """Whether a validity may lie in bits."""
    return not isinstance(validity, str) and validity.layout != "constant"


def mask_of(validity, count: int) -> Rows:
    """Which of so many rows a validity says are there."""
    want_rows(validity, count)
    if isinstance(validity, str):
        return repeated(validity != "allinvalid", count)
    return validity.rows


def masked(rows: Rows, mask: Rows) -> Rows:
    """The rows, null where the mask is false."""
    return Rows((row if there else None, count) for (row, there), count in zipped(rows, mask))


def list_view(elements: Array, offsets: Array, sizes: Array, validity) -> Array:
    want(offsets.is_plain_integers() and sizes.is_plain_integers(), "MismatchedTypes")
    want(is_mask(validity), "MismatchedTypes")
    count = offsets.rows.count
    want(sizes.rows.count == count, "LengthMismatch")
    mask = mask_of(validity, count)
    rows = []
    for (offset, size), times in zipped(offsets.rows, sizes.rows):
        want(offset >= 0 and size >= 0, "Negative")
        want(offset + size < 2**64, "Overflow")
        want(offset + size <= elements.rows.count, "OutOfBounds")
        rows.append((elements.rows.between(offset, offset + size), times))
    rows = masked(Rows(rows), mask)
    parts = {"elements": elements, "offsets": offsets, "sizes": sizes}
    parts["has_bits"] = may_be_bits(validity)
    return Array("listview", "list", validity != "nonnull", rows, **parts)


def fixed_lists(elements: Array, size: int, validity, count: int) -> Array:
    want(is_mask(validity), "MismatchedTypes")
    want_rows(validity, count)
    want(size > 0 or elements.rows.count == 0, "DegenerateElements")
    want(count * size < 2**64, "Overflow")
    want(elements.rows.count == count * size, "LengthMismatch")
    rows = masked(blocks(elements.rows, size, count), mask_of(validity, count))
    parts = {"elements": elements, "size": size, "has_bits": may_be_bits(validity)}
    return Array("fixed", "fixed", validity != "nonnull", rows, **parts)


def records(count: int, validity, names: List[str], columns: List[Array]) -> Array:
    want(is_mask(validity), "MismatchedTypes")
    mask = mask_of(validity, count)
    want(all(column.rows.count == count for column in columns), "LengthMismatch")
    fields = zipped(repeated(None, count), *[column.rows for column in columns])
    rows = masked(Rows((tuple(zip(names, row[1:])), times) for row, times in fields), mask)
    parts = {"names": tuple(names), "columns": tuple(columns), "has_bits": may_be_bits(validity)}
    return Array("struct", "record", validity != "nonnull", rows, **parts)


def project(array: Array, names: List[str]) -> Array:
    want(array.layout == "struct", "MismatchedTypes")
    want(all(name in array.names for name in names), "UnknownField")
    places = [array.names.index(name) for name in names]
    picked = lambda row: None if row is None else tuple(row[i] for i in places)
    columns = tuple(array.columns[i] for i in places)
    return array._replace(rows=array.rows.changed(picked), names=tuple(names), columns=columns)


def texts(kind: str, nullable: bool, rows: List[Any]) -> Array:
    for row in rows:
        want(nullable or row is not None, "HasNulls")
        want(fits(kind, row), "NotUtf8")
    return Array("views", kind, nullable, listed(rows), buffers=int(any(map(is_long, rows))))


def selected(array: Array, indices: Array) -> Rows:
    """The rows that indices name, null where an index is."""
    for index in indices.rows.different():
        want(index is None or index >= 0, "Negative")
        want(index is None or index < array.rows.count, "OutOfBounds")
    return indices.rows.changed(lambda index: None if index is None else array.rows[index])


def dictionary(codes: Array, values: Array) -> Array:
    want(codes.kind in RANGES, "MismatchedTypes")
    rows = selected(values, codes)
    parts = {"codes": codes, "count": values.rows.count, "is_exact": True}
    nullable = values.nullable or codes.nullable
    return values._replace(layout="dict", nullable=nullable, rows=rows, flag=False, **parts)


def narrow(array: Array) -> Array:
    want(array.layout == "primitive", "MismatchedTypes")
    there = [row for row in array.rows.different() if row is not None]
    if max(there, default=0) >= 2**63:
        return array
    names = ("i8", "i16", "i32") if min(there, default=0) < 0 else ("u8", "u16", "u32")
    fitting = [name for name in names if all(number in RANGES[name] for number in there)]
    return array._replace(kind=(fitting + [array.kind])[0])


def trim(array: Array) -> Array:
    if not array.is_exact:
        return array
    start = min(array.offsets.rows.different())
    end = max(offset + size for (offset, size), _ in zipped(array.offsets.rows, array.sizes.rows))
    offsets = array.offsets.rows.changed(lambda offset: offset - start)
    lowered = numbers(array.offsets.kind, offsets)
    if array.offsets.layout == "constant":
        lowered = lowered._replace(layout="constant")
    return array._replace(
        elements=slice_array(array.elements, start, end),
        offsets=made(lowered),
    )


def same_lists(row: Rows, count: int):
    """The items of so many equal lists, as lists of runs."""
    is_one_run = len(row.runs) == 1
    return [repeated(row[0], row.count * count)] if is_one_run else [row] * count


def laid_out(array: Array):
    """The items of all lists one after another, and where each list starts."""
    items, starts, place = [], [], 0
    for row, count in array.rows.runs:
        size = row.count if row else 0
        if size and count + len(starts) > MOST_LISTED:
            raise Beyond("so many lists that are not empty")
        items += same_lists(row, count) if size else []
        starts += [(place + size * i, 1) for i in range(count)] if size else [(place, count)]
        place += size * count
    return joined(items), Rows(starts)


def weight(array: Array, count: int) -> int:
    """How many bytes so many rows take in an array's layout, without what constants and states can say."""
    if array.layout == "listview":
        return weight(array.offsets, count) + weight(array.sizes, count)
    if array.layout == "dict":
        return weight(array.codes, count)
    if array.layout == "fixed":
        return weight(array.elements, count * array.size)
    if array.layout == "struct":
        return sum(weight(column, count) for column in array.columns)
    if array.layout == "primitive":
        return count * int(array.kind[1:]) // 8
    return count * {"constant": 0, "bool": 1, "views": 128, "rows": 128}[array.layout] // 8


def validity_weight(array: Array, count: int) -> int:
    """How many bytes the validities of so many rows take at most, those of their parts too."""
    own = count // 8 if array.has_bits else 0
    if array.layout == "fixed":
        return own + validity_weight(array.elements, count * array.size)
    return own + sum(validity_weight(column, count) for column in array.columns)


def made(array: Array) -> Array:
    """An array that is made anew, where there is memory for it."""
    want(weight(array, array.rows.count) < MOST_BYTES, "Memory")
    return array


def rebuild(array: Array, mode: str) -> Array:
    want(array.layout == "listview", "MismatchedTypes")
    if array.rows.count == 0:
        return array._replace(flag=True)
    want(mode != "overlap", "NotImplemented")
    if mode == "trim" or (mode == "exact" and array.flag):
        return trim(array)
    if array.flag:
        return array
    offset_type, size_type = REBUILT[array.offsets.kind], REBUILT[array.sizes.kind]
    sizes = array.rows.changed(lambda row: 0 if row is None else row.count)
    total = sum(size * count for size, count in sizes.runs)
    want(total in RANGES[offset_type] and total in RANGES[size_type], "Overflow")
    want(fits_usize(array.elements, total), "Overflow")
    made(numbers(offset_type, array.offsets.rows))
    rows, offsets = laid_out(array)
    layout = "constant" if array.elements.layout == "constant" else "rows"
    rebuilt = array._replace(
        elements=made(array.elements._replace(layout=layout, rows=rows)),
        offsets=numbers(offset_type, offsets),
        sizes=numbers(size_type, sizes),
        flag=True,
        is_exact=True,
    )
    return made(rebuilt)


def slice_array(array: Array, start: int, end: int) -> Array:
    want(end <= array.rows.count and start <= end, "OutOfBounds")
    array = array._replace(rows=array.rows.between(start, end))
    if array.layout == "listview" and array.is_exact:
        offsets = slice_array(array.offsets, start, end)
        return array._replace(offsets=offsets, sizes=slice_array(array.sizes, start, end))
    if array.layout == "dict":
        return array._replace(codes=slice_array(array.codes, start, end))
    return array


def without_rows(array: Array) -> Array:
    """An array of no rows, of the same layout."""
    return slice_array(array, 0, 0)


def zero_codes(rows: Rows) -> Array:
    """Codes that are 0 or null: a constant where they are all one."""
    return Array("constant" if len(rows.runs) < 2 else "primitive", "u8", True, rows)


def fits_usize(array: Array, count: int) -> bool:
    """Whether the elements of so many rows can be counted, of lists of one size at any depth."""
    if array.layout not in ("fixed", "struct", "rows"):
        return True
    if array.kind != "fixed":
        return all(fits_usize(column, count) for column in array.columns)
    return count * array.size < 2**64 and fits_usize(array.elements, count * array.size)


def default_part(array: Array) -> Array:
    """Default rows of the type of an array: a constant."""
    return array._replace(layout="constant", elements=array.elements and without_rows(array.elements))


def default_parts(array: Array) -> Array:
    """An array of no rows, whose parts are those that rows of null have: constants."""
    if array.layout == "listview":
        return array._replace(offsets=default_part(array.offsets), sizes=default_part(array.sizes))
    if array.layout == "fixed":
        return array._replace(elements=default_part(array.elements))
    if array.layout == "dict":
        return array._replace(codes=default_part(array.codes))
    return array._replace(columns=tuple(map(default_part, array.columns)))


def take(array: Array, indices: Array) -> Array:
    want(indices.kind in RANGES, "MismatchedTypes")
    rows = selected(array, indices)
    want(fits_usize(array, indices.rows.count), "Overflow")
    array = array if array.rows.count > 0 else default_parts(array)
    has_bits = array.has_bits or (indices.nullable and may_be_bits(indices))
    taken = array._replace(rows=rows, nullable=array.nullable or indices.nullable, has_bits=has_bits)
    if array.layout == "listview":
        is_exact = array.is_exact and None not in indices.rows
        there = numbers("u64", indices.rows.changed(lambda index: index or 0))
        if is_exact:
            taken = taken._replace(
                offsets=take(array.offsets, there), sizes=take(array.sizes, there)
            )
        return made(taken._replace(flag=False, is_exact=is_exact))
    if array.layout == "dict":
        return made(taken._replace(codes=take(array.codes, indices)))
    if array.layout == "constant" and indices.nullable:
        zeroes = indices.rows.changed(lambda index: None if index is None else 0)
        return taken._replace(layout="dict", codes=zero_codes(zeroes), count=1)
    return made(taken)


def want_mask(array: Array, mask: Array):
    """Refuses a mask that is not of plain booleans, one for each row."""
    want(mask.kind == "bool" and not mask.nullable, "MismatchedTypes")
    want(mask.rows.count == array.rows.count, "LengthMismatch")


def kept(rows: Rows, mask: Rows) -> Rows:
    """The rows at which a mask is true."""
    return Rows((row, count) for (row, there), count in zipped(rows, mask) if there)


def filter_array(array: Array, mask: Array) -> Array:
    want_mask(array, mask)
    filtered = array._replace(rows=kept(array.rows, mask.rows))
    part = lambda counts: counts._replace(rows=kept(counts.rows, mask.rows))
    if array.layout == "listview" and array.is_exact:
        return filtered._replace(flag=False, offsets=part(array.offsets), sizes=part(array.sizes))
    if array.layout == "listview":
        return filtered._replace(flag=False)
    if array.layout == "dict":
        return filtered._replace(codes=part(array.codes))
    return filtered


def mask_array(array: Array, mask: Array) -> Array:
    want_mask(array, mask)
    has_bits = array.has_bits or may_be_bits(mask)
    nulled = array._replace(rows=masked(array.rows, mask.rows), nullable=True, has_bits=has_bits)
    if array.layout == "dict":
        codes = array.codes._replace(rows=masked(array.codes.rows, mask.rows), nullable=True)
        return nulled._replace(codes=codes)
    if array.layout == "constant":
        zeroes = masked(repeated(0, mask.rows.count), mask.rows)
        return nulled._replace(layout="dict", codes=zero_codes(zeroes), count=1)
    return nulled


def type_of(array: Array):
    """The data type of an array, with those of its elements or columns."""
    inner = [array.elements] if array.kind in ("list", "fixed") else array.columns
    return array.kind, array.nullable, array.size, array.names, [type_of(part) for part in inner]


def same_type(array: Array, other: Array) -> bool:
    return type_of(array) == type_of(other)


def fit_together(arrays: List[Array], counts: List[int]) -> bool:
    """Whether the rows of arrays of one type, and those of their parts in plain layout, can be counted together."""
    kind = arrays[0].kind
    fit = sum(counts) < 2**64
    if kind == "list":
        elements = [array.elements for array in arrays]
        fit = fit and fit_together(elements, [one.rows.count for one in elements])
    if kind == "fixed":
        elements = [array.elements for array in arrays]
        fit = fit and fit_together(elements, [n * arrays[0].size for n in counts])
    columns = zip(*[array.columns for array in arrays])
    return fit and all(fit_together(column, counts) for column in columns)


def concat(*arrays: Array) -> Array:
    want(arrays, "EmptyInput")
    want(all(same_type(arrays[0], array) for array in arrays), "DifferingDtypes")
    want(fit_together(arrays, [array.rows.count for array in arrays]), "Overflow")
    kind = arrays[0].kind
    whole = arrays[0]._replace(
        layout=PLAIN_LAYOUTS.get(kind, "primitive"),
        rows=joined(array.rows for array in arrays),
        columns=tuple(map(concat, *[map(without_rows, array.columns) for array in arrays])),
        buffers=sum(array.buffers for array in arrays),
        flag=False,
        has_bits=arrays[0].nullable,
        is_exact=True,
    )
    if kind == "list":
        whole = whole._replace(elements=concat(*[array.elements for array in arrays]))
    if kind == "fixed":
        whole = whole._replace(elements=concat(*[without_rows(array.elements) for array in arrays]))
    if kind != "list":
        return made(whole)
    if not all(array.layout == "listview" and array.is_exact for array in arrays):
        zeroes = numbers("u64", repeated(0, whole.rows.count))
        return made(whole._replace(offsets=zeroes, sizes=zeroes, is_exact=False))
    before = [sum(array.elements.rows.count for array in arrays[:i]) for i in range(len(arrays))]
    moved = lambda array, base: array.offsets.rows.changed(lambda offset: offset + base)
    offsets = joined(map(moved, arrays, before))
    sizes = joined(array.sizes.rows for array in arrays)
    counts = [numbers("u64", rows) for rows in (offsets, sizes)]
    return made(whole._replace(offsets=counts[0], sizes=counts[1]))


# ---- text


def row_text(row) -> str:
    if isinstance(row, Rows):
        texts = [row_text(one) for one, count in row.runs for _ in range(count)]
        return "[" + ",".join(texts) + "]"
    if isinstance(row, tuple):
        return "{" + ",".join(f"{name}:{row_text(field)}" for name, field in row) + "}"
    if isinstance(row, bytes):
        return "x" + row.hex()
    return "null" if row is None else str(row).lower()


def parts_text(array: Array) -> str:
    if array.layout == "listview":
        counts = [f"{part.kind} {row_text(part.rows)}" for part in (array.offsets, array.sizes)]
        flag = "true" if array.flag else "false"
        count = array.elements.rows.count
        return f"listview offsets {counts[0]} sizes {counts[1]} elements {count} flag {flag}"
    if array.layout == "dict":
        return f"dict codes {row_text(array.codes.rows)} values {array.count} flag false"
    if array.layout == "fixed":
        return f"fixed {array.size} elements {array.rows.count * array.size}"
    if array.layout == "struct":
        return f"struct {array.rows.count} {','.join(array.names) or '-'}"
    if array.layout == "views":
        return f"views {array.rows.count} buffers {array.buffers}"
    kind = f" {array.kind}" if array.layout == "primitive" else ""
    return f"{array.layout}{kind} {array.rows.count}"


# ---- scripts


def read_items(kind: str, word: str) -> List[Any]:
    return [] if word == "-" else [read_item(kind, item) for item in word.split(",")]


def read_validity(word: str):
    return word if word in VALIDITIES else read_register(word)


def spelled(name: str, operands: List[str]) -> Array:
    """The array that a line spells out."""
    kind, nullable = read_type(operands[0])
    if name == "const":
        item = read_item(kind, operands[1])
        count = read_number(operands[2])
        want(nullable or item is not None, "HasNulls")
        want(fits(kind, item), "MismatchedTypes")
        constant = literal("constant", kind, nullable, repeated(item, count))
        return constant._replace(buffers=int(is_long(item)))
    want(kind in LITERAL_KINDS[name], "Syntax")
    rows = read_items(kind, operands[1])
    if name == "texts":
        return texts(kind, nullable, rows)
    return literal("bool" if kind == "bool" else "primitive", kind, nullable, listed(rows))


def read_struct(words: List[str]):
    """The names and the registers of the columns of records."""
    fields = [word.partition("=") for word in words]
    want(all(is_name(name) and equals for name, equals, _ in fields), "Syntax")
    return [name for name, _, _ in fields], [read_register(word) for _, _, word in fields]


def made_of_parts(name: str, operands: List[str], get) -> Array:
    """The list view, lists of one size or records over parts that a line names."""
    if name == "listview":
        registers = [read_register(word) for word in operands[:3]]
        validity = read_validity(operands[3])
        return list_view(*map(get, registers), get(validity))
    if name == "fixed":
        elements, size = read_register(operands[0]), read_number(operands[1], 2**32)
        validity, count = read_validity(operands[2]), read_number(operands[3])
        return fixed_lists(get(elements), size, get(validity), count)
    count, validity = read_number(operands[0]), read_validity(operands[1])
    names, registers = read_struct(operands[2:])
    return records(count, get(validity), names, list(map(get, registers)))


def called(name: str, operands: List[str], get) -> Array:
    """The array that a line makes of other arrays."""
    if name == "slice":
        register, start, end = read_register(operands[0]), *map(read_number, operands[1:])
        return slice_array(get(register), start, end)
    if name == "rebuild":
        register = read_register(operands[0])
        want(operands[1] in MODES, "Syntax")
        return rebuild(get(register), operands[1])
    if name == "project":
        register = read_register(operands[0])
        want(all(map(is_name, operands[1:])), "Syntax")
        return project(get(register), operands[1:])
    calls = {"take": take, "filter": filter_array, "mask": mask_array, "concat": concat}
    call = {**calls, "dict": dictionary, "narrow": narrow}[name]
    return call(*map(get, [read_register(word) for word in operands]))


def run_line(arrays: List[Array], words: List[str]) -> Optional[str]:
    """Runs a line: makes the next array, or answers what it prints. A line without words does neither."""
    if not words:
        return None
    name, *operands = words

    def get(register):
        """The array of a register; a state of a validity stays."""
        if isinstance(register, str):
            return register
        want(register < len(arrays), "NoRegister")
        return arrays[register]

    want(name in OPERANDS, "Syntax")
    least, most = OPERANDS[name]
    want(least <= len(operands) and (most is None or len(operands) <= most), "Syntax")
    if name in ("show", "parts"):
        array = get(read_register(operands[0]))
        return row_text(array.rows) if name == "show" else parts_text(array)
    if name in (*LITERAL_KINDS, "const"):
        arrays.append(spelled(name, operands))
    elif name in ("listview", "fixed", "struct"):
        arrays.append(made_of_parts(name, operands, get))
    else:
        arrays.append(called(name, operands, get))
    return None


def run_script(script: str) -> str:
    """What a script prints."""
    arrays: List[Array] = []
    printed = []
    for number, line in enumerate(script.split("\n"), 1):
        words = [word for word in line.split(" ") if word]
        try:
            want(len(line.encode(errors="surrogateescape")) <= MOST_LINE, "Syntax")
            text = run_line(arrays, words)
        except Fault as fault:
            printed.append(f"error {number} {fault}")
            break
        if text is not None:
            printed.append(text)
    return "".join(line + "\n" for line in printed)
