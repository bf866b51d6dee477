"""Lists of rows kept as runs of equal rows, so that 2^60 equal rows take no more than one."""
from bisect import bisect_right
from itertools import accumulate


class Rows:
    """A list of rows: `runs` are pairs of a row and how often it stands there, `count` is how many rows there are."""

    __slots__ = ("runs", "ends", "count")

    def __init__(self, runs=()):
        joined = []
        for row, count in runs:
            if count > 0 and joined and joined[-1][0] == row:
                joined[-1] = (row, joined[-1][1] + count)
            elif count > 0:
                joined.append((row, count))
        self.runs = joined
        self.ends = [*accumulate(count for _, count in joined)]
        self.count = self.ends[-1] if joined else 0

    def __eq__(self, other):
        return isinstance(other, Rows) and self.runs == other.runs

    def __getitem__(self, place: int):
        return self.runs[bisect_right(self.ends, place)][0]

    def __contains__(self, row):
        return any(row == one for one, _ in self.runs)

    def different(self):
        """The rows, where those that are equal side by side are told once."""
        return [row for row, _ in self.runs]

    def left(self, place: int) -> int:
        """How many rows are equal from a place on, that of the place among them."""
        return self.ends[bisect_right(self.ends, place)] - place

    def between(self, start: int, end: int) -> "Rows":
        """The rows from `start` up to `end`."""
        first = bisect_right(self.ends, start)
        last = bisect_right(self.ends, end - 1)
        starts = [start, *self.ends[first:last]]
        ends = [*self.ends[first:last], end]
        spans = zip(self.runs[first : last + 1], starts, ends) if start < end else ()
        return Rows((row, end - start) for (row, _), start, end in spans)

    def changed(self, change) -> "Rows":
        """Each row changed."""
        return Rows((change(row), count) for row, count in self.runs)


def listed(rows) -> Rows:
    return Rows((row, 1) for row in rows)


def repeated(row, count: int) -> Rows:
    return Rows([(row, count)])


def joined(lists) -> Rows:
    return Rows(run for rows in lists for run in rows.runs)


def zipped(*lists):
    """The stretches over which no list of rows changes: the row of each list, and how many rows it stands for."""
    start = 0
    for end in sorted({end for rows in lists for end in rows.ends}):
        yield [rows[start] for rows in lists], end - start
        start = end


def blocks(rows: Rows, size: int, count: int) -> Rows:
    """So many lists of one size, one after another."""
    if size == 0:
        return repeated(Rows(), count)
    made, place = [], 0
    while place < count * size:
        whole = rows.left(place) // size
        made.append((rows.between(place, place + size), max(whole, 1)))
        place += max(whole, 1) * size
    return Rows(made)
