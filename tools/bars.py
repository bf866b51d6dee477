"""Draws docs/speed.svg from the table of times in docs/SPEED.md: a bar for each operation."""
import html
import re

import page

PICTURE = page.PAGE.with_name('speed.svg')

# a row with a ratio. One whose answers differ is none, and gets no bar
ROW = re.compile(r'\| `(\w+)` \| [\d.]* \| [\d.]* \| ([\d.]+) \|')

# an operation stands in the first group that has a beginning of its name
GROUPS = (
    ('rebuild', ('rebuild_', 'rebuffer_')),
    ('take', ('take_',)),
    ('filter', ('filter_', 'kept_')),
    ('mask', ('mask_',)),
    ('concat', ('concat_',)),
    ('canonical', ('canonical_',)),
    ('slice and read', ('slice_', 'int_at')),
    ('views', ('build_views', 'check_')),
    ('texts', ('texts_',)),
    ('records', ('records_', 'fixed_lists_')),
    ('rows alone', ('pack_', 'rows_')),
    ('validities and steps', ('validity_', 'steps_')),
    ('bits and masks', ('bits_', 'true_count', 'and_bits', 'equal_bits', 'fill_bits', 'execute_mask',
                        'bools_execute_mask', 'bools_to_mask')),
    ('constructors', ('list_view_', 'is_consecutive', 'primitive_', 'numbers_from_', 'bools_from_')),
    ('numbers', ('narrow', 'referenced_', 'into_byte_', 'from_byte_', 'read_', 'write_', 'numbers_to_')),
    ('others', ('',)),
)

TITLE = 'Time of each operation, beside plain Rust'
MEANING = "A bar is an operation's time as a share of plain Rust's. Below 1.0 Codrask is faster."

# where the bars begin, how wide a share of 1.0 is, and the share where the axis ends
LEFT = 346
UNIT = 140
END = 3.5

# from one bar to the next, and between groups
STEP = 14
GAP = 10

HEAD = """<svg xmlns="http://www.w3.org/2000/svg" viewBox="0 0 900 {height}" width="900" height="{height}" \
role="img" aria-labelledby="title desc">
<title id="title">{title}</title>
<desc id="desc">{meaning}</desc>
<style>
  text {{ font-family: "DejaVu Sans", Verdana, Arial, sans-serif; font-size: 13px; fill: #000000; }}
  .title {{ font-size: 19px; font-weight: bold; }}
  .group {{ font-weight: bold; font-size: 12px; }}
  .name {{ font-family: "DejaVu Sans Mono", Menlo, Consolas, monospace; font-size: 12px; text-anchor: end; }}
  .ratio {{ font-size: 12px; text-anchor: end; }}
  .beyond {{ font-size: 12px; font-weight: bold; }}
  .share {{ font-size: 12px; text-anchor: middle; }}
  .one {{ font-size: 12px; font-weight: bold; text-anchor: middle; }}
  .bar {{ fill: #777777; stroke: #000000; }}
  path {{ fill: none; stroke: #bbbbbb; }}
  .rust {{ stroke: #000000; stroke-width: 2; }}
  .cut {{ stroke: #ffffff; stroke-width: 6; }}
  .edges {{ stroke: #000000; }}
</style>
<rect x="0" y="0" width="900" height="{height}" fill="#ffffff"/>"""


def read_table():
    """By operation its ratio."""
    rows = map(ROW.match, page.held('times').splitlines())
    return {row[1]: row[2] for row in rows if row}


def grouped(found):
    """The names of each group that has some, the least ratio first."""
    groups = {title: [] for title, _ in GROUPS}
    for name in sorted(found, key=lambda name: (float(found[name]), name)):
        groups[next(title for title, begin in GROUPS if name.startswith(begin))].append(name)
    return {title: names for title, names in groups.items() if names}


def text(kind, x, y, said):
    return f'<text class="{kind}" x="{x:g}" y="{y}">{html.escape(said, quote=False)}</text>'


def box(kind, x, y, width):
    return f'<rect class="{kind}" x="{x:g}" y="{y}" width="{width:.1f}" height="10"/>'


def path(kind, steps):
    return f'<path class="{kind}" d="{steps}"/>'


def bar(name, ratio, y):
    """A row: name, ratio and bar. A bar that goes beyond the axis is cut, and ends with its ratio."""
    width = min(float(ratio), END) * UNIT
    lines = [text('name', LEFT - 60, y + 9, name), text('ratio', LEFT - 8, y + 9, ratio),
             box('bar', LEFT, y, max(width, 1))]
    if float(ratio) > END:
        x = LEFT + width
        lines += [path('cut', f'M{x - 22:g},{y + 12} l6,-14'),
                  path('edges', f'M{x - 25:g},{y + 12} l6,-14 m6,0 l-6,14'),
                  text('beyond', x + 5, y + 9, ratio)]
    return lines


def axis(top, bottom):
    """The lines of the shares, and what they are, above and below."""
    lines = []
    for half in range(int(END * 2) + 1):
        x = LEFT + half / 2 * UNIT
        kind, said = ('one', '1.0 (Rust)') if half == 2 else ('share', f'{half / 2}')
        lines += [path('tick', f'M{x:g},{top} V{bottom}'),
                  text(kind, x, top - 6, said), text(kind, x, bottom + 15, said)]
    return lines


def rows(found, y):
    """The rows of all groups, and where they end."""
    lines = []
    for title, names in grouped(found).items():
        lines.append(text('group', 16, y + 9, title))
        for name in names:
            lines += bar(name, found[name], y)
            y += STEP
        lines.append(path('tick', f'M16,{y + 3} H{LEFT + END * UNIT:g}'))
        y += GAP
    return lines, y - GAP + 3


def picture(found):
    top = 116
    bars, bottom = rows(found, top + GAP)
    lines = [HEAD.format(height=bottom + 28, title=TITLE, meaning=MEANING),
             text('title', 16, 32, TITLE), text('line', 16, 58, MEANING),
             text('line', 16, 78, f'The axis is linear. A bar beyond {END} is cut, and its ratio stands at its end.'),
             *axis(top, bottom), *bars, path('rust', f'M{LEFT + UNIT},{top} V{bottom}'), '</svg>', '']
    return '\n'.join(lines)


def draw():
    """Draws the picture anew, and gives the status."""
    found = read_table()
    if not found:
        print('docs/SPEED.md has no table of times: docs/speed.svg stays as it is')
        return 1
    PICTURE.write_text(picture(found), encoding='utf-8')
    print(f'docs/speed.svg is drawn, bars: {len(found)}')
    return 0
