"""Reads the sources of a crate of Rattle: its items with their contracts, and which of them can be named from outside."""
import pathlib
import re
from typing import List, NamedTuple

ROOT = pathlib.Path(__file__).resolve().parent.parent

HEAD = re.compile(r'(?:pub(?:\(crate\))? )?(?:const |unsafe |final |extern "C" )*'
                  r'(fn|struct|enum|trait|impl|mod|use|type|const|macro_rules|ghost)\b')
EXPORT = re.compile(r'^pub use crate::([\w:]+)::(?:\{([^}]*)\}|(\w+));', re.M)
OUTSIDE = re.compile(r'^pub (?:const |unsafe |extern "C" )*(?:fn|struct|enum|trait|type|const) (\w+)', re.M)
SHOWN = r'^ *(?:const |unsafe |extern "C" )*(?:fn|struct|enum|trait|type|const) %s\b'
HELPERS = re.compile(r'tests$|help$|timed$')  # libraries that only tests and times use
NAMED = re.compile(r'\b(?:fn|struct|enum|trait|type|const|macro_rules!) (\w+)')
CLAUSE = re.compile(r'((?:requires|ensures)\*?)(?: (\w+))? \{ ?(.*?) ?\};?')
GHOST = re.compile(r'ghost (\w+)( =|:) \{ ?(.*?) ?\}[;,]')
PROOF = re.compile(r'laws?$|^respects_eq$')
SAID = re.compile(r' *(?:requires|ensures|model|ghost)\b[^:]*: (.*)')
WORD = re.compile(r'[^\s(){}\[\].,;:`"λ→×]+')
WHERE = re.compile(r'ghost use Rattle\.(vx_\w+)\.specs\.(?!declared\.)([\w.]+)\.\{([^}]*)\}')


class Item(NamedTuple):
    """An item of a file, or a member of one: its documentation, its attributes, its lines without their indent, and where the first
    of these stands, from 0."""
    kind: str
    docs: List[str]
    attributes: List[str]
    lines: List[str]
    at: int

    def name(self):
        found = NAMED.search(self.lines[0])
        return found[1] if found else ''

    def is_public(self):
        return self.lines[0].startswith('pub ')


def read(path):
    return path.read_text(encoding='utf-8')


def named(path):
    return path.relative_to(ROOT)


def one_line(lines):
    """Lines joined to one, as `rt fmt` lays out what fits into a line."""
    text = ' '.join(line.strip() for line in lines)
    return re.sub(r',? ([)\]>])', r'\1', re.sub(r'([(\[<]) ', r'\1', text)).replace(', }', ' }')


def bare(text):
    """A head without what is left out of it."""
    return re.sub(r' ?(\{\}?|;)$', '', re.sub(r'^(pub |final )+', '', text))


def indented(blocks):
    """Blocks of lines as one, a blank line between any two, under the head of the item that they belong to."""
    text = '\n\n'.join('\n'.join(block) for block in blocks if block)
    return ['    ' + line if line else line for line in text.split('\n')] if text else []


def items_of(lines):
    """The items that begin at the margin of these lines."""
    found, docs, attributes, item = [], [], [], None
    for at, line in enumerate(lines):
        if item is not None:
            item.lines.append(line)
        elif line.startswith('///'):
            docs.append(line)
        elif line.startswith('#['):
            attributes.append(line)
        elif head := HEAD.match(line):
            item, has_body, depth = Item(head[1], docs, attributes, [line], at), False, 0
            found.append(item)
            docs, attributes = [], []
        elif line:
            docs, attributes = [], []
        if item is not None:
            at_margin = line[:1] not in ('', ' ')
            has_body = has_body or at_margin and line.endswith('{')
            depth += line.count('{') - line.count('}')
            if at_margin and (line[0] == '}' or line.endswith('{}')) or not has_body and not depth and line.endswith(';'):
                item = None
    return found


def members_of(item):
    return items_of([line[4:] for line in item.lines[1:-1]])


def parts_of_contract(item):
    """The lines of a signature, and of each clause after it, each part with where it begins in the item."""
    parts = [(0, [])]
    for at, line in enumerate(item.lines):
        text = line.strip()
        if line in ('{', '{}'):
            break
        if re.match(r'(requires|ensures)\b', text):
            parts.append((at, []))
        if text and not text.startswith('//'):
            parts[-1][1].append(line)
        if len(parts) == 1 and line[0] != ' ' and line.endswith((' {', ' {}')):
            break
    return parts


def parsed(lines):
    """The word, the name if there is one, and the text of a clause."""
    return CLAUSE.fullmatch(' '.join(line.strip() for line in lines)).groups()


def contract_of(item):
    """The signature of a function, and its clauses, a line each."""
    (_, signature), *clauses = parts_of_contract(item)
    shown = [f'  {word}{" " + name if name else ""}: {text}' for word, name, text in (parsed(lines) for _, lines in clauses)]
    return bare(one_line(signature)), shown


def shown_function(item, owner='', bounds=''):
    signature, clauses = contract_of(item)
    signature = signature.replace('fn ', f'fn {owner}::', 1) if owner else signature
    return item.docs + [signature + bounds] + clauses


def shown_constant(item, owner=''):
    text = bare(one_line(item.lines))
    return item.docs + [text.replace(' ', f' {owner}::', 1) if owner else text]


def shown_ghost(lines):
    """A ghost member or field, but not the proof of a law."""
    found = GHOST.fullmatch(' '.join(line.strip() for line in lines))
    is_shown = found and not (found[2] == ' =' and PROOF.search(found[1]))
    return [f'ghost {found[1]}: {found[3]}'] if is_shown else []


def shown_fields(item):
    """The variants of an enum, or the public fields of a struct."""
    found, variant = [], []
    for line in [line[4:] for line in item.lines[1:-1]]:
        if variant or item.kind == 'enum' and not line.startswith(('#', '//')):
            variant.append(line)
            if not line.startswith(' ') and not line.endswith('{'):
                found.append(one_line(variant).removesuffix(','))
                variant = []
        elif line.startswith('ghost '):
            found += shown_ghost([line])
        elif line.startswith(('///', 'pub ')):
            found.append(line if line[0] == '/' else bare(line).removesuffix(','))
    return indented([found])


def shown_type(item, model):
    derives = [it for it in item.attributes if it.startswith('#[derive')]
    return item.docs + derives + [bare(item.lines[0])] + [f'  model: {model}'] * bool(model) + shown_fields(item)


def shown_members(item, is_trait):
    """The members of a trait, or those of an impl of one that say something of their own."""
    blocks, others = [], []
    for member in members_of(item):
        if member.kind == 'fn' and (is_trait or contract_of(member)[1]):
            blocks += [others, shown_function(member)]
            others = []
        elif member.kind == 'ghost':
            others += shown_ghost(member.lines)
        elif member.kind in ('const', 'type'):
            others += shown_constant(member)
    return indented(blocks + [others])


def parts_of_impl(item):
    """The trait and the type of an impl, without paths and parameters; no trait where the items are the type's own."""
    head = bare(re.sub(r'^impl(<.*?>)? (?=\S)', '', item.lines[0]))
    trait, _, owner = head.rpartition(' for ')
    return tuple(re.sub(r'<.*', '', it).strip('&').rpartition('::')[2] for it in (trait, owner))


class Function(NamedTuple):
    """A function that can be called from outside: whose it is, its file, where it begins there (from 1), and the item."""
    owner: str
    path: pathlib.Path
    line: int
    item: Item

    def called(self):
        return f'{self.owner}::{self.item.name()}' if self.owner else self.item.name()

    def clauses(self):
        """Each clause: where it begins in the file, its word, its name and its text."""
        for at, lines in parts_of_contract(self.item)[1:]:
            yield (self.line + at, *parsed(lines))


class Crate:
    """A library: its files in the order of their `mod` lines, and which of their items can be reached."""

    def __init__(self, name):
        self.source, self.files, self.items = ROOT / 'crates' / name / 'src', [], {}
        self.read('', self.source / 'lib.rt', True)
        self.exports = [it for _, path, is_public in self.files if is_public for it in EXPORT.findall(read(path))]
        every = [(module, item) for module, _, _ in self.files for item in self.items[module] if item.name()]
        self.own = {item.name() for _, item in every}
        self.public = {item.name() for module, item in every if self.reaches(module, item)}
        self.models = {parts_of_impl(item)[1]: re.search(r'ghost Value = \{ (.*) \};', '\n'.join(item.lines))[1]
                       for items in self.items.values() for item in items
                       if item.kind == 'impl' and parts_of_impl(item)[0] == 'Model'}

    def read(self, module, path, is_public):
        """Reads a file, and then those that its `mod` lines name."""
        self.files.append((module, path, is_public))
        self.items[module] = items_of(read(path).split('\n'))
        for item in self.items[module]:
            if found := re.match(r'(pub )?(?:pub\(crate\) )?mod (\w+);', item.lines[0]):
                inner = f'{module}::{found[2]}' if module else found[2]
                self.read(inner, self.source / f'{inner.replace("::", "/")}.rt', is_public and bool(found[1]))

    def reaches(self, module, item):
        """Whether an item can be named from outside."""
        if item.kind == 'macro_rules':
            return '#[macro_export]' in item.attributes
        is_open = any(it[2] for it in self.files if it[0] == module)
        exported = any(f'{module}::'.startswith(f'{path}::') and item.name() in re.split(r',?\s+|,', names or name)
                       for path, names, name in self.exports)
        return item.is_public() and bool(item.name()) and (is_open or exported)

    def outside(self):
        """The names that can be used from outside, as the lines of the public modules say."""
        for _, path, is_public in self.files:
            if is_public:
                yield from OUTSIDE.findall(read(path))
                yield from (it for _, names, name in EXPORT.findall(read(path)) for it in re.findall(r'\w+', names or name))

    def shown(self, module, item):
        """The blocks of lines that a page has of an item."""
        if item.kind == 'impl':
            return self.shown_impl(item)
        if not self.reaches(module, item):
            return []
        if item.kind == 'fn':
            return [shown_function(item)]
        if item.kind in ('struct', 'enum'):
            return [shown_type(item, self.models.get(item.name()))]
        if item.kind == 'trait':
            return [item.docs + [bare(item.lines[0])] + shown_members(item, True)]
        if item.kind == 'macro_rules':
            return [item.docs + [f'macro {item.name()}!']]
        return [shown_constant(item)]

    def shown_impl(self, item):
        trait, owner = parts_of_impl(item)
        if trait:
            is_hidden = trait == 'Model' or {trait, owner} & (self.own - self.public)
            is_shown = {trait, owner} & self.public and not is_hidden
            return [[bare(item.lines[0])] + shown_members(item, False)] if is_shown else []
        if owner not in self.public:
            return []
        bound = re.match(r'impl<(\w+: [^<>]*)>', item.lines[0])
        bounds = f' where {bound[1]}' if bound else ''
        public = [member for member in members_of(item) if member.is_public()]
        return [shown_function(it, owner, bounds) if it.kind == 'fn' else shown_constant(it, owner) for it in public]

    def functions(self):
        """The functions that can be called from outside, those of traits and types with them."""
        for module, path, _ in self.files:
            for item in self.items[module]:
                trait, owner = parts_of_impl(item) if item.kind == 'impl' else ('', item.name())
                if item.kind == 'fn' and self.reaches(module, item):
                    yield Function('', path, item.at + 1, item)
                elif item.kind in ('impl', 'trait') and (owner not in self.own - self.public if trait in self.public else
                                                         owner in self.public and not trait):
                    is_open = bool(trait) or item.kind == 'trait'
                    for member in members_of(item):
                        if member.kind == 'fn' and (is_open or member.is_public()):
                            yield Function(owner, path, item.at + member.at + 2, member)

    def sections(self):
        """For each file that has public items its path and its blocks."""
        for module, path, _ in self.files:
            blocks = [block for item in self.items[module] for block in self.shown(module, item)]
            if blocks:
                yield path, blocks

    def words(self, blocks):
        """Where the words of these blocks are defined: the definitions of the repository, file by file."""
        clauses = [SAID.match(line) for block in blocks for line in block]
        used, found = {word for clause in clauses if clause for word in WORD.findall(clause[1])}, {}
        for _, path, _ in self.files:
            for crate, file, names in WHERE.findall(read(path)):
                found.setdefault(f'{crate}/specs/{file.replace(".", "/")}', set()).update(set(names.split(', ')) & used)
        return [f'- [{file}](../../crates/{file}.antt): ' + ', '.join(f'`{it}`' for it in sorted(names))
                for file, names in sorted(found.items()) if names]
