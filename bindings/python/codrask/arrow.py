"""Arrow arrays that a column was written as. What is lent of one keeps it alive, and nothing of it is read after its release."""

import contextlib
import ctypes
import threading
import weakref

from .library import ArrowArray, ArrowSchema

_by_address = weakref.WeakValueDictionary()


class Uncopied:
    """An object of which there is one: a copy would give back the same memory twice."""

    __slots__ = ()

    def __reduce_ex__(self, _protocol):
        raise TypeError(f"{type(self).__name__} is not copied")


class Arrow(Uncopied):
    """An ArrowSchema and an ArrowArray, given back with this object where nobody took them over. After `release`, and
    after somebody took them over, each access is a ValueError."""

    def __init__(self):
        self._lock = threading.RLock()
        self._schema, self._array = ArrowSchema(), ArrowArray()
        for part in (self._schema, self._array):
            _by_address[ctypes.addressof(part)] = self

    @property
    def schema(self):
        """The ArrowSchema, to be read."""
        return LentSchema(self, None, self._there(self._schema))

    @property
    def array(self):
        """The ArrowArray, to be read."""
        return LentArray(self, None, self._there(self._array))

    @property
    def schema_pointer(self):
        """The address of the ArrowSchema. It is good as long as this object lives."""
        return ctypes.addressof(self._there(self._schema))

    @property
    def array_pointer(self):
        """The address of the ArrowArray. It is good as long as this object lives."""
        return ctypes.addressof(self._there(self._array))

    def release(self):
        """Gives both back, once."""
        with self._lock:
            for part in (self._array, self._schema):
                if part.release:
                    part.release(part)

    def __del__(self):
        if hasattr(self, "_array"):
            self.release()

    def _there(self, part):
        with self._lock:
            return _unreleased(part)


def _unreleased(part):
    """A structure that is still there."""
    if not part.release:
        raise ValueError("the Arrow array or schema was released, or somebody took it over")
    return part


@contextlib.contextmanager
def held(schema_pointer, array_pointer, owner):
    """Holds each `Arrow` that has a structure at these addresses, or is the owner: nobody releases it meanwhile. ValueError
    where one of these structures was released, or one of the owner's, in which the others may lie."""
    addresses = (schema_pointer, array_pointer)
    known = [_by_address.get(address) for address in addresses] + [owner]
    owners = {id(one): one for one in known if isinstance(one, Arrow)}
    with contextlib.ExitStack() as locks:
        for place in sorted(owners):
            locks.enter_context(owners[place]._lock)
        for one in owners.values():
            for part in (one._schema, one._array):
                if one is owner or ctypes.addressof(part) in addresses:
                    _unreleased(part)
        yield


# ---- what is lent

def _read(name):
    """A field of a structure that is lent."""

    def read(self):
        with self._reading() as part:
            return getattr(part, name)

    return property(read, doc=f"The field `{name}`.")


class _Lent(Uncopied):
    """A structure of an `Arrow`, which it keeps alive."""

    __slots__ = ("_arrow", "_above", "_part")

    def __init__(self, arrow, above, part):
        self._arrow, self._above, self._part = arrow, above, part

    @contextlib.contextmanager
    def _reading(self):
        """The structure, while it is there: it lies in those above it."""
        with self._arrow._lock:
            line, lent = [], self
            while lent is not None:
                line.append(lent)
                lent = lent._above
            for lent in reversed(line):
                _unreleased(lent._part)
            yield self._part

    @property
    def n_children(self):
        """How many children it has."""
        with self._reading() as part:
            return part.n_children

    @property
    def children(self):
        """The children, each lent."""
        with self._reading() as part:
            return tuple(type(self)(self._arrow, self, part.children[i].contents) for i in range(part.n_children))

    @property
    def dictionary(self):
        """The values that codes name, lent; None where there are none."""
        with self._reading() as part:
            return type(self)(self._arrow, self, part.dictionary.contents) if part.dictionary else None

    @property
    def contents(self):
        """This structure, as of a pointer."""
        return self


class LentSchema(_Lent):
    """An ArrowSchema that is lent."""

    __slots__ = ()
    format, name, metadata, flags = map(_read, ("format", "name", "metadata", "flags"))


class LentArray(_Lent):
    """An ArrowArray that is lent."""

    __slots__ = ()
    length, null_count, offset, n_buffers = map(_read, ("length", "null_count", "offset", "n_buffers"))

    @property
    def buffers(self):
        """The addresses of the buffers, None where there is none. They are good as long as the `Arrow` lives."""
        with self._reading() as part:
            return tuple(part.buffers[i] for i in range(part.n_buffers))
