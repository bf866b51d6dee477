"""Reads the definitions of specs/: what each one is, and which others it stands on."""
import pathlib
import re
from typing import Dict, List, NamedTuple, Set

from sources import ROOT, read

LINE = re.compile(r'^ *(?:pub |ghost )*use Rattle\.(\w+)\.specs\.([\w.-]+?)(?:\.\{([^}]*)\}| as (\w+));?$')
HEAD = re.compile(r"^(?:abbrev |unfoldable )?(?:pub )?(record |data )?(?!abbrev\b|pub\b|use\b|mod\b)([^\s:(){}]+)(?= *[:({])")
TOKEN = re.compile(r'([\w-]+\.)?([^\s(){}\[\].,;:`"λ→×↦|]+)')
BOUND = re.compile(r'λ ([^.]*)\.|\(([^():]*) : |\blet (\S+) =')
SIGNS = re.compile(r'◌|^\W+$')


class Place(NamedTuple):
    """A file of definitions of a crate, `std` among them, or one whose types are declared in code."""
    crate: str
    module: str

    def path(self):
        return ROOT / 'crates' / self.crate / 'specs' / f'{self.module.replace(".", "/")}.antt'

    def is_code(self):
        return self.module.startswith(('declared.', 'contracts.'))

    def shown(self):
        """The file as it is told on a page: of a declared type, that of the code."""
        if not self.is_code():
            return f'{self.crate}/specs/{self.module.replace(".", "/")}'
        parts = self.module.split('.')[1:]
        return f'{self.crate}/src/{"/".join(parts[:-1])}'


class Definition(NamedTuple):
    """A definition: where it stands, its name, what is said above it, and its lines."""
    place: Place
    name: str
    said: str
    lines: List[str]


Imports = Dict[str, Place]


def imports_of(lines):
    """Where the names that a file brings in are defined, and the files that have a short name there."""
    names, short = {}, {}
    for found in filter(None, map(LINE.match, lines)):
        place = Place(found[1], found[2])
        if found[4]:
            short[found[4]] = place
        for name in re.findall(r'[^\s,]+', found[3] or ''):
            names[name] = place
    return names, short


def margin_of(line, margin):
    """How far heads of definitions are indented from this line on: in a `mutual` block by two."""
    if re.match(r'(abbrev |pub )*mutual\b', line):
        return 2
    return 0 if line[:1].strip() else margin


def blocks_of(lines):
    """The definitions of a file, each with the comment above it and its lines; and of each constructor the type."""
    found, made, comment, current, margin, is_data = {}, {}, [], None, 0, False
    for line in lines:
        margin = margin_of(line, margin)
        text = line.strip()
        is_at_margin = len(line) - len(line.lstrip()) == margin
        if text.startswith('--') and is_at_margin:
            comment = [] if text.startswith('-- --') else comment + [text[2:].strip()]
            continue
        head = HEAD.match(text) if text and is_at_margin else None
        if head and (margin or line.startswith(('abbrev', 'pub', 'unfoldable'))) and head[2] not in found:
            current, is_data = head[2], head[1] == 'data '
            found[current] = (' '.join(comment), [])
        elif is_data and not is_at_margin and (inner := re.match(r'(\S+) :', text)):
            made[inner[1]] = current
        if 'mutual' in text.split():
            continue
        comment = []
        if current and text and not text.startswith('--'):
            found[current][1].append(text)
    return found, made


class Definitions:
    """The definitions of the repository, read where they are asked for."""

    def __init__(self):
        self.files = {}

    def read(self, place):
        if place not in self.files:
            lines = read(place.path()).split('\n')
            self.files[place] = (*blocks_of(lines), *imports_of(lines))
        return self.files[place]

    def find(self, place, name):
        """A definition by its name, or by that of a constructor, where it was handed on from. Of std and of code the name alone."""
        while place.crate.startswith('vx_') and not place.is_code():
            blocks, made, names, _ = self.read(place)
            name = made.get(name, name)
            if name in blocks:
                return Definition(place, name, *blocks[name])
            if name not in names:
                raise SystemExit(f'{place.shown()}: {name} is not defined there')
            place = names[name]
        if place.module.endswith('.TheVariants'):
            *module, name, _ = place.module.split('.')
            place = Place(place.crate, '.'.join([*module, name]))
        return Definition(place, name, '', [])

    def below(self, definition):
        """The definitions that the lines of another name."""
        if not definition.lines:
            return []
        blocks, made, names, short = self.read(definition.place)
        own = {it: definition.place for it in (*blocks, *made)}
        return self.named(definition.lines, {**names, **own}, short, definition.name)

    def named(self, lines, names, short, own=''):
        """The definitions that lines name, but for those that they bind."""
        found = {}
        for line in lines:
            head = line.split(' = ')[0] if own and line.startswith(f'{own} ') and ' = ' in line else ''
            bound = {it for groups in BOUND.findall(line) for group in groups for it in group.split()}
            bound |= {it for _, it in TOKEN.findall(head) if it not in names}
            for prefix, name in TOKEN.findall(line):
                place = short.get(prefix[:-1]) if prefix else names.get(name)
                if place and name != own and name not in bound:
                    definition = self.find(place, name)
                    found[definition.place, definition.name] = definition
        return list(found.values())

    def standing_under(self, definitions):
        """Definitions, and all that they stand on, down to the words of std and the types of code."""
        found, left = {}, list(definitions)
        while left:
            one = left.pop()
            if (one.place, one.name) not in found:
                found[one.place, one.name] = one
                left += self.below(one)
        return list(found.values())


def is_word(definition):
    """Whether a definition has a name, and is not a sign."""
    return not SIGNS.search(definition.name)
