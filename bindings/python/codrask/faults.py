"""Why a column or a run is refused."""

from .arguments import U32, integer
from .library import load

MEMORY, TOO_MANY_NODES, TOO_MANY_BYTES = 1, 36, 66


def fault_name(number):
    """The name of a fault's number; "" where it names nothing."""
    return load().codrask_fault_name(integer("number", number, U32)).decode()


def version():
    """The version of the proved calls."""
    return load().codrask_version()


class Refused(ValueError):
    """A column that is none: the number and the name of its first fault, the node that has it, and the row or position. Where
    they are known, `path` has the names of the columns down to the one that has it, and `format` its Arrow format, or where it
    was read already its type; else they are empty."""

    def __init__(self, number, node=0, row=0, path="", format="", part=""):
        self.number, self.node, self.row = integer("number", number, U32), integer("node", node), integer("row", row)
        self.name, self.path, self.format = fault_name(number), path, format
        told = f"{self.name} (number {self.number}) at node {self.node}, row or position {self.row}"
        super().__init__(told + _words(path, format, part))

    def __reduce__(self):
        return _again, (type(self), self.args, dict(self.__dict__))


def _words(path, format, part):
    """Where a fault is, in words; nothing of the outermost column where it has no name."""
    if not path:
        return ""
    return f", in {'the ' + part + ' of ' if part else ''}column {path}" + (f" of {format}" if format else "")


class Stopped(Refused):
    """A run that is refused: the number and the name of its fault, and the column, the step or the result that has it; the
    two others are None. `node` is a node of the column, `row` the row or position that the fault names."""

    def __init__(self, number, part=0, which=0, node=0, row=0, path="", format=""):
        super().__init__(number, node, row, path, format)
        part, which = integer("part", part, 3), integer("which", which)
        self.column, self.step, self.result = (which if part == each else None for each in (1, 2, 3))
        told = ("no part", f"column {which}", f"step {which}", f"result {which}")[part]
        self.args = (f"{self.name} (number {number}) at {told}, row or position {self.row}{_words(path, format, '')}",)


def _again(kind, args, fields):
    """A refusal as it was, also in a process that has no library."""
    refusal = kind.__new__(kind, *args)
    refusal.__dict__.update(fields)
    return refusal


def refusal(fault, *words):
    """What is raised for a fault of a column, and the words for where it is."""
    return _lack() if fault.number == MEMORY else Refused(fault.number, fault.node, fault.place, *words)


def run_refusal(fault, *words):
    """What is raised for a fault of a run, and the words for where it is in a column."""
    if fault.number == MEMORY:
        return _lack()
    return Stopped(fault.number, fault.part, fault.which, fault.node, fault.place, *words)


def _lack():
    return MemoryError("the library was refused memory")
