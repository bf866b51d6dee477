"""Producers that know how long their buffers are, as the arrays, chunked arrays, record batches and tables of pyarrow do: by
the names `buffers`, `field`, `values`, `dictionary`, `chunks`, `columns` and `to_batches`. Their structures come in capsules;
how long a buffer is, Python's buffer protocol tells, of memory that lies where the structures say."""

import itertools

from .arguments import shown, wrong
from .memory import address_of

MOST_LISTED, MOST_ARRAYS = 2**20, 70000
MOST_CHILDREN, DEEPEST = 4096, 64
UNLISTED = (b"n", b"+u", b"+r")  # arrays of these formats have no validity, where pyarrow lists one


def is_array(given):
    """Whether an array tells its buffers."""
    return callable(getattr(given, "buffers", None)) and callable(getattr(given, "__arrow_c_array__", None))


def is_batch(given):
    """Whether a record batch tells those of its columns."""
    columns = getattr(given, "columns", None)
    return callable(getattr(given, "__arrow_c_array__", None)) and isinstance(columns, list) and all(map(is_array, columns))


def some(argument, given, taken):
    """What is given one after another, as a list of at most a million."""
    try:
        items = list(itertools.islice(iter(given), MOST_LISTED + 1))
    except TypeError:
        raise wrong(TypeError, argument, f"to give a list of {taken}", shown(given)) from None
    if len(items) > MOST_LISTED:
        raise wrong(ValueError, argument, f"to give at most {MOST_LISTED} {taken}", "more")
    return items


def parts_of(given):
    """The arrays or batches that an object is made of, each of which tells its buffers; None where it tells none."""
    if is_array(given) or is_batch(given):
        return [given]
    if callable(getattr(given, "to_batches", None)) and isinstance(getattr(given, "columns", None), list):
        parts = some("given.to_batches", given.to_batches(), "batches")
    elif isinstance(getattr(given, "chunks", None), list):
        parts = some("given.chunks", given.chunks, "arrays")
    else:
        return None
    return parts if all(is_array(part) or is_batch(part) for part in parts) else None


# ---- the buffers of an array

class _Listed:
    """The buffers that an object lists, each looked at once, and kept."""

    def __init__(self, given):
        self.items, self.place = some("given.buffers", given.buffers(), "buffers"), 0
        self.views = []

    def next(self):
        if self.place == len(self.items):
            raise ValueError("given.buffers lists fewer buffers than the array has")
        self.place += 1
        return self.items[self.place - 1]

    def pass_over_none(self):
        if self.place < len(self.items) and self.items[self.place] is None:
            self.place += 1

    def length_at(self, address):
        """How many bytes the next buffer has, which has to lie at an address, or to be None where it is 0."""
        item = self.next()
        view = memoryview(b"" if item is None else item)
        self.views.append(view)
        if not view.c_contiguous:
            raise ValueError("given.buffers lists a buffer with gaps")
        if view.nbytes and address_of(view) != address:
            raise ValueError("given.buffers lists other memory than the array has")
        if address and item is None:
            raise ValueError("given.buffers lists None where the array has a buffer")
        return view.nbytes


class _Array:
    """An array and its schema, the object that it is of, and what lists its buffers: that of the array around it, or its own."""

    def __init__(self, schema, array, depth, object_of, listed=None):
        self.schema, self.array, self.depth, self.object_of = schema, array, depth, object_of
        self.listed = listed

    def lengths(self):
        """How many bytes each of its own buffers has. The sizes of buffers of views are the structure's own, and not listed."""
        format, count, buffers = self.schema.format or b"", self.array.n_buffers, self.array.buffers
        if self.listed is None:
            self.listed = _Listed(self.object_of())
        if format.startswith(UNLISTED):
            self.listed.pass_over_none()
        if not 0 <= count <= MOST_LISTED or not buffers:
            return []
        sizes = format in (b"vu", b"vz") and count >= 3
        found = [self.listed.length_at(buffers[i] or 0) for i in range(count - sizes)]
        return found + [8 * (count - 3) if buffers[count - 1] else 0] * sizes

    def parts(self):
        """Its children, and its dictionary. Structures that are not read have none here: they will be refused."""
        schema, array = self.schema, self.array
        count = schema.n_children
        if self.depth == DEEPEST or count != array.n_children or not 0 <= count < MOST_CHILDREN:
            return []
        pairs = [(schema.children[i], array.children[i]) for i in range(count)] if schema.children and array.children else []
        found = [self.child(i, *pair) for i, pair in enumerate(pairs) if all(pair)]
        if schema.dictionary and array.dictionary:
            structures = schema.dictionary.contents, array.dictionary.contents
            found.append(_Array(*structures, self.depth + 1, lambda: self._stored().dictionary))
        return found

    def child(self, i, schema, array):
        """The child of a place. Its buffers are listed with those of this array."""
        return _Array(schema.contents, array.contents, self.depth + 1, lambda: self._object_of_child(i), self.listed)

    def _object_of_child(self, i):
        return self._stored().field(i) if self.schema.format == b"+s" else self._stored().values

    def _stored(self):
        """The object, or of one of an extension what it is stored as."""
        given = self.object_of()
        return getattr(given, "storage", given)


class _Batch(_Array):
    """A record batch: a column lists its own buffers."""

    def lengths(self):
        return [0] * min(max(self.array.n_buffers, 0), 1)

    def child(self, i, schema, array):
        return _Array(schema.contents, array.contents, self.depth + 1, lambda: self.object_of().columns[i])


def lengths_of(schema, array, given):
    """How many bytes each buffer of an object's array has, in the order in which the library asks: an array's, its children's,
    then its dictionary's. ValueError where the object lists other buffers. With that, what keeps the buffers."""
    kind = _Array if is_array(given) else _Batch
    lengths, kept, waiting = [], [], [kind(schema, array, 0, lambda: given)]
    while waiting and len(kept) <= MOST_ARRAYS:
        one = waiting.pop()
        if not one.schema.release or not one.array.release:
            continue
        lengths += one.lengths()
        kept.append(one)
        waiting += reversed(one.parts())
    return lengths, kept
