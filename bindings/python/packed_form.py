"""A second reading of the packed form: the nodes that rows of a type are packed to, and every byte of their buffers, of the type's
words and the rows alone. It shares no code with what packs, makes or writes columns. For comparison with the library, in the tests
alone."""

import json
import re
from itertools import accumulate
from typing import Any, List, NamedTuple, Tuple

BOOL, TEXT, BYTES, LISTS_OF_ONE_SIZE, LISTS, RECORDS = 0, 9, 10, 12, 13, 14
INTEGERS = {"u8": 1, "u16": 2, "u32": 3, "u64": 4, "i8": 5, "i16": 6, "i32": 7, "i64": 8}
NEVER_NULL, NONE_NULL, ALL_NULL, BY_BITS = range(4)
SHORT = 12  # bytes that a view holds
MOST_BUFFER = 2**31 - 1  # bytes that a buffer holds
TOKEN = re.compile(r'\s*("(?:[^"\\]|\\.)*"|w:[0-9]+|[^\s<>,:?"]+|[<>,:?])')


class Kind(NamedTuple):
    """What rows are: of nests, what their parts are, the names of columns, and the size of lists of one size."""

    word: str
    nullable: bool = False
    parts: Tuple["Kind", ...] = ()
    names: Tuple[str, ...] = ()
    size: int = 0


class Node(NamedTuple):
    """An array of the packed form, before its parts."""

    kind: int
    validity: int
    length: int
    size: int = 0
    bytes: bytes = b""
    views: bytes = b""
    buffers: Tuple[bytes, ...] = ()


# ---- types

def read_kind(tokens: List[str]) -> Kind:
    """The next type of a text that was cut into words. A dictionary is what its values are, and null where its codes are too."""
    word, parts, names, size = tokens.pop(0), [], [], 0
    if tokens[:1] == ["<"]:
        while tokens.pop(0) in "<," and tokens[0] != ">":
            if word == "list" and parts:
                size, word = int(tokens.pop(0)), "fixed"
                continue
            if word == "records":
                name = tokens.pop(0)
                names.append(json.loads(name) if name[0] == '"' else name)
                assert tokens.pop(0) == ":"
            parts.append(read_kind(tokens))
        if word == "records" and not parts:
            tokens.pop(0)
    nullable = tokens[:1] == ["?"] and bool(tokens.pop(0))
    if word == "dictionary":
        codes, values = parts
        return values._replace(nullable=nullable or codes.nullable or values.nullable)
    return Kind(word, nullable, tuple(parts), tuple(names), size)


def kind_of(type: str) -> Kind:
    """What rows of a type in words are."""
    return read_kind(TOKEN.findall(type))


def words(kind: Kind) -> str:
    """The type in words, without dictionaries."""
    text, parts = kind.word, [words(part) for part in kind.parts]
    if kind.word == "list":
        text = f"list<{parts[0]}>"
    elif kind.word == "fixed":
        text = f"list<{parts[0]}, {kind.size}>"
    elif kind.word == "records":
        columns = [f"{json.dumps(name)}: {part}" for name, part in zip(kind.names, parts)]
        text = f"records<{', '.join(columns)}>"
    return text + "?" * kind.nullable


def default(kind: Kind) -> Any:
    """The row that lies under a null record or a null list of one size: null where it may be, else false, 0, nothing."""
    if kind.nullable:
        return None
    if kind.word == "fixed":
        return [default(kind.parts[0])] * kind.size
    if kind.word == "records":
        return list(zip(kind.names, map(default, kind.parts)))
    return {"bool": False, "text": "", "bytes": b"", "list": []}.get(kind.word, 0)


# ---- buffers

def bits(truths) -> bytes:
    """Truth values, one to a bit, the lowest first."""
    made = bytearray((len(truths) + 7) // 8)
    for place, truth in enumerate(truths):
        made[place // 8] |= truth << place % 8
    return bytes(made)


def numbers(word: str, rows) -> bytes:
    """Integers of a type, the lowest byte first."""
    width, signed = int(word[1:]) // 8, word[0] == "i"
    return b"".join(row.to_bytes(width, "little", signed=signed) for row in rows)


def views_and_buffers(values) -> Tuple[bytes, Tuple[bytes, ...]]:
    """A view for each value. Long ones stand one after another in a buffer as long as it has room, then in the next one."""
    views, buffers = b"", []
    for value in values:
        if len(value) <= SHORT:
            views += len(value).to_bytes(4, "little") + value + bytes(SHORT - len(value))
            continue
        if not buffers or len(buffers[-1]) + len(value) > MOST_BUFFER:
            buffers.append(b"")
        places = len(buffers) - 1, len(buffers[-1])
        views += len(value).to_bytes(4, "little") + value[:4] + b"".join(place.to_bytes(4, "little") for place in places)
        buffers[-1] += value
    return views, tuple(buffers)


# ---- layouts: an array of rows, and its parts

def packed_bools(_kind, rows):
    return Node(BOOL, 0, len(rows), bytes=bits([row is True for row in rows])), []


def packed_integers(kind, rows):
    return Node(INTEGERS[kind.word], 0, len(rows), bytes=numbers(kind.word, [row or 0 for row in rows])), []


def packed_texts(kind, rows):
    views, buffers = views_and_buffers([(row or "").encode() for row in rows])
    return Node(TEXT, 0, len(rows), views=views, buffers=buffers), []


def packed_bytes(kind, rows):
    views, buffers = views_and_buffers([row or b"" for row in rows])
    return Node(BYTES, 0, len(rows), views=views, buffers=buffers), []


def packed_lists(kind, rows):
    """Lists end to end; their offsets and sizes are of 32 bits, where these count all elements."""
    elements = [item for row in rows for item in row or []]
    sizes = [len(row or []) for row in rows]
    starts = [end - size for end, size in zip(accumulate(sizes), sizes)]
    word = "i32" if len(elements) <= 2**31 - 1 else "i64"
    counts = [[Node(INTEGERS[word], NEVER_NULL, len(rows), bytes=numbers(word, each))] for each in (starts, sizes)]
    return Node(LISTS, 0, len(rows)), packed(kind.parts[0], elements) + counts[0] + counts[1]


def packed_lists_of_one_size(kind, rows):
    blank = [default(kind.parts[0])] * kind.size
    elements = [item for row in rows for item in (blank if row is None else row)]
    return Node(LISTS_OF_ONE_SIZE, 0, len(rows), kind.size), packed(kind.parts[0], elements)


def packed_records(kind, rows):
    blank = [default(part) for part in kind.parts]
    values = [blank if row is None else [value for _, value in fields_of(row)] for row in rows]
    columns = [packed(part, [row[place] for row in values]) for place, part in enumerate(kind.parts)]
    return Node(RECORDS, 0, len(rows), buffers=tuple(name.encode() for name in kind.names)), sum(columns, [])


def fields_of(row):
    """The names and values of a record."""
    return row.items() if isinstance(row, dict) else row


PACKED = {"bool": packed_bools, "text": packed_texts, "bytes": packed_bytes, "list": packed_lists}
PACKED.update({"fixed": packed_lists_of_one_size, "records": packed_records})


def validity_of(kind, rows):
    """Which rows are null: a state where none is or all are, and else bits."""
    there = [row is not None for row in rows]
    if not kind.nullable:
        assert all(there)
        return NEVER_NULL, []
    if all(there):
        return NONE_NULL, []
    return (BY_BITS, [Node(BOOL, NEVER_NULL, len(rows), bytes=bits(there))]) if any(there) else (ALL_NULL, [])


def packed(kind: Kind, rows) -> List[Node]:
    """The packed form of rows: its nodes, each before its parts."""
    validity, mask = validity_of(kind, rows)
    own, parts = PACKED.get(kind.word, packed_integers)(kind, rows)
    return [own._replace(validity=validity), *mask, *parts]
