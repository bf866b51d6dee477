"""What to_pylist, to_arrow and to_arrow(packed=False) cost, in seconds of a processor, the least of five runs: of columns of a million
rows that have passed. No test: tools/foreign --speed runs it."""

import struct
import time

from codrask import Column

COUNT = 10**6


def integers():
    return Column.numbers("i64", struct.pack(f"<{COUNT}q", *range(COUNT)))


def short_texts(letters="%06d"):
    values = (letters % (i % 10**4) for i in range(COUNT))
    return Column.views(b"".join(struct.pack("<I12s", len(value.encode()), value.encode()) for value in values), [])


def other_texts():
    return short_texts("%04d\u00e9")


def long_texts(text="a" * 20):
    value = text.encode()
    views = b"".join(struct.pack("<I4sII", len(value), value[:4], 0, len(value) * i) for i in range(COUNT))
    return Column.views(views, [value * COUNT])


def long_other_texts():
    return long_texts("a text that is \u00e9t\u00e9")


def mixed_texts():
    """Short and long texts by turns."""
    text = b"a text of 20 letters"
    views = (struct.pack("<I4sII", 20, text[:4], 0, 20 * i) if i % 2 else struct.pack("<I12s", 6, b"%06d" % i) for i in range(COUNT))
    return Column.views(b"".join(views), [text * COUNT])


def floats():
    return Column.from_pylist([i / 3 for i in range(COUNT)], "f64")


def lists():
    return Column.from_pylist([[i] for i in range(COUNT)], "list<i64>")


def seconds(call):
    """How long a call takes."""
    start = time.process_time()
    call()
    return time.process_time() - start


print("a million in Python, seconds: to_pylist, to_arrow, to_arrow(packed=False)")
for made in (integers, floats, short_texts, other_texts, long_texts, long_other_texts, mixed_texts, lists):
    of = made().check()
    calls = (of.to_pylist, of.to_arrow, lambda of=of: of.to_arrow(packed=False))
    print(f"{made.__name__.replace('_', ' '):16} {'  '.join(f'{min(seconds(call) for _ in range(5)):.2f}' for call in calls)}")
