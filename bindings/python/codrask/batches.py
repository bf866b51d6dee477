"""Columns that go out as a stream of Arrow arrays."""

from .arguments import each, instance, wrong
from .column import Column
from .streams import stream_capsule


class Batches:
    """Columns of one type that go out one after another, for whoever takes a stream of Arrow arrays: as often as that is asked for."""

    __slots__ = ("_columns",)

    def __init__(self, columns):
        self._columns = each("columns", columns, "Columns", lambda argument, given: instance(argument, given, Column))
        if not self._columns:
            raise wrong(ValueError, "columns", "at least one Column", "an empty list")

    def __arrow_c_stream__(self, requested_schema=None):
        """The capsule of a stream that has an array of each column, as `__arrow_c_array__` writes it, under the name of the first one. All
        are written before the first is taken. Raises `Stopped` where a column has another schema than the first, as `DifferingSchemas`."""
        name = self._columns[0]._name
        return stream_capsule([column._asked_for(requested_schema, name) for column in self._columns])
