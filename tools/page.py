"""Puts a table into docs/SPEED.md, between the lines that say where it begins and ends."""
import pathlib

PAGE = pathlib.Path(__file__).resolve().parent.parent / 'docs' / 'SPEED.md'


def marks(name):
    return f'<!-- {name}: tools/bench writes this -->\n', f'<!-- end of {name} -->\n'


def find(name):
    """What stands before the table, the table, and what stands after it."""
    begin, end = marks(name)
    before, _, rest = PAGE.read_text(encoding='utf-8').partition(begin)
    held, _, after = rest.partition(end)
    return before + begin, held, end + after


def put(name, text):
    before, _, after = find(name)
    PAGE.write_text(before + text.strip() + '\n' + after, encoding='utf-8')


def held(name):
    return find(name)[1]
