"""Hostile calls, those of hostile_calls.txt, each in a process of its own whose freed memory is filled. A call is some lines of
Python, and what follows '->' is what the last line gives, or the exception that one raises. The last line is 'N passed, M failed'."""

import ast
import copy
import ctypes
import gc
import mmap
import os
import pickle
import resource
import signal
import subprocess
import sys
import tempfile
import threading
import tracemalloc
from array import array

import codrask
from codrask import Column, Refused, Step, fault_name, run
from codrask.library import ArrowArray, ArrowSchema

CALLS = os.path.join(os.path.dirname(os.path.abspath(__file__)), "hostile_calls.txt")
MOST_MEMORY = 3 << 30
MOST_SECONDS = 60
AT_ONCE = 4


# ---- what the calls are made of

class Pair(ctypes.Structure):
    _fields_ = [("a", ctypes.c_int32), ("b", ctypes.c_int32)]


class Either(ctypes.Union):
    _fields_ = [("a", ctypes.c_int64), ("b", ctypes.c_int32)]


class HostileText:
    """A value that has no text."""

    def __repr__(self):
        raise KeyError("no text")


class Lying:
    """An integer that is none."""

    def __index__(self):
        return "5"


class Told(str):
    """An answer that is a line already."""


def answer_of(call):
    """What a call gives, or the exception that it raises."""
    try:
        return call()
    except Exception as error:
        return error


def again(refusal):
    """A refusal that was copied, copied deeply and pickled: each time it has to be the same."""
    for way in (copy.copy, copy.deepcopy, lambda error: pickle.loads(pickle.dumps(error))):
        other = way(refusal)
        assert type(other) is type(refusal) and vars(other) == vars(refusal) and other.args == refusal.args, other
        refusal = other
    return refusal


def with_little_memory(call):
    """What a call gives where the process is given 64 MiB more, and no memory past these."""
    with open("/proc/self/statm", encoding="ascii") as it:
        pages = int(it.read().split()[0])
    most = pages * resource.getpagesize() + (64 << 20)
    resource.setrlimit(resource.RLIMIT_AS, (most, MOST_MEMORY))
    try:
        return call()
    finally:
        resource.setrlimit(resource.RLIMIT_AS, (MOST_MEMORY, MOST_MEMORY))


def use_memory():
    """Takes memory that was freed, and writes to it."""
    gc.collect()
    for _ in range(4):
        _filled = [b"\xee" * size for size in range(4, 4000, 4)]


def take_over(pointer):
    """Takes a schema over, as who reads it may: what was there is marked as released."""
    ctypes.c_void_p.from_address(pointer + ArrowSchema.release.offset).value = None


def first_child(arrow):
    """The addresses of the structures of an array's first child."""
    structures = ArrowSchema.from_address(arrow.schema_pointer), ArrowArray.from_address(arrow.array_pointer)
    return [ctypes.addressof(structure.children[0].contents) for structure in structures]


def one_of_many(count):
    """Records of so many columns: all but the first are one column of 1 MiB, and the first has half of that."""
    half, whole = Column.numbers("u8", bytes(1 << 19)), Column.numbers("u16", bytes(1 << 20))
    return Column.records([("a", half)] + [("a", whole)] * (count - 1), 1 << 19)


def same_buffer(pointer, child):
    """Gives a child of an array the numbers of its second child."""
    children = ArrowArray.from_address(pointer).children
    children[child].contents.buffers[1] = children[1].contents.buffers[1]


def threads_at(calls):
    """Makes calls at once, each in a thread."""
    line = threading.Barrier(len(calls))
    threads = [threading.Thread(target=lambda call=call: (line.wait(), call())) for call in calls]
    for thread in threads:
        thread.start()
    for thread in threads:
        thread.join()


def while_written(views, call):
    """Makes a call again and again while a thread writes to views."""
    done, good = threading.Event(), bytes(views)
    bad = b"\xff" * len(views)

    def write():
        while not done.is_set():
            views[:] = bad
            views[:] = good

    writer = threading.Thread(target=write)
    writer.start()
    answers = [answer_of(call) for _ in range(30)]
    done.set()
    writer.join()
    strange = [answer for answer in answers if answer != 4096 and not isinstance(answer, Refused)]
    return Told(f"strange: {strange}" if strange else "each call gave 4096 or was refused")


def traced_by(call):
    """How many bytes Python takes during a call, at most at once."""
    tracemalloc.start()
    call()
    return tracemalloc.get_traced_memory()[1]


# ---- one call

def calls():
    """The calls: some lines of Python, and what they must answer."""
    with open(CALLS, encoding="utf-8") as it:
        blocks = it.read().strip().split("\n\n")
    for block in blocks:
        lines = [line for line in block.split("\n") if not line.startswith("#")]
        assert lines[-1].startswith("-> "), block
        yield "\n".join(lines[:-1]), lines[-1][3:]


def made_by(code):
    """What the last line of some code gives, where it is an expression."""
    four = Column.numbers("i64", array("q", [1, 2, 3, 4]))
    world = {**globals(), "four": four, "records": Column.records({"a": four, "b": four}, 4), "made": four.to_arrow()}
    lines = ast.parse(code).body
    last = lines.pop() if isinstance(lines[-1], ast.Expr) else None
    exec(compile(ast.Module(lines, []), "call", "exec"), world)
    return eval(compile(ast.Expression(last.value), "call", "eval"), world) if last else None


def answered(code):
    """What some code answers, in one line."""
    answer = answer_of(lambda: made_by(code))
    if isinstance(answer, Exception):
        return f"{type(answer).__name__}: {answer}"
    return answer if isinstance(answer, Told) else repr(answer)


# ---- all calls

def started(code):
    """A process that makes a call: its number, and where its answer and whatever else it says is read."""
    reading, writing = os.pipe()
    process = os.fork()
    if process:
        os.close(writing)
        return process, open(reading, encoding="utf-8", errors="replace")
    try:
        for output in (1, 2):
            os.dup2(writing, output)
        signal.alarm(MOST_SECONDS)
        resource.setrlimit(resource.RLIMIT_AS, (MOST_MEMORY, MOST_MEMORY))
        print(answered(code), flush=True)
    finally:
        os._exit(0)


def ended(process, reading):
    """What a process said, and how it ended, where it did not end well."""
    with reading:
        said = reading.read().rstrip("\n")
    _, status = os.waitpid(process, 0)
    return f"{said} (ended by signal {os.WTERMSIG(status)})" if os.WIFSIGNALED(status) else said


def main():
    wanted, processes, failed = list(calls()), [], 0
    for place, (code, line) in enumerate(wanted):
        while len(processes) < min(place + AT_ONCE, len(wanted)):
            processes.append(started(wanted[len(processes)][0]))
        answer = ended(*processes[place])
        if answer != line:
            failed += 1
            print(f"{code}\n    answers  {answer}\n    and not  {line}")
    print(f"{len(wanted) - failed} passed, {failed} failed")
    return failed != 0


if __name__ == "__main__":
    if os.environ.get("MALLOC_PERTURB_") != "165":
        os.execve(sys.executable, [sys.executable, "-B", *sys.argv], {**os.environ, "MALLOC_PERTURB_": "165"})
    sys.exit(main())
