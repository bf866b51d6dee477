"""What pages claim of the sources: the names that clauses cite, the clauses that PROVED cites, and what ASSUMPTIONS counts."""
import re

from sources import ROOT, Crate, Function, members_of, named, parts_of_impl, read

PROVED = ROOT / 'docs' / 'PROVED.md'
DEFINITIONS = ROOT / 'docs' / 'DEFINITIONS.md'
ASSUMPTIONS = ROOT / 'docs' / 'ASSUMPTIONS.md'
NAMES = '## Names that clauses cite'
COUNTED = '## What is counted'
PIECE = re.compile(r'`([\w:]+)`|\((`[^()]*`)\)')
CLAUSE = re.compile(r'`(\w+)`(?:: ((?:`\w+`(?:, )?)+))?')

ASSUMED = re.compile(r'\b(?:postulate|axiom|trusted|assume)\b')
HOLE = re.compile(r'(?:^|[ (,;=])\?|\{!')
UNSAFE = re.compile(r'\bunsafe\b')
HANDLES = re.compile(r'Handles allowed: none\.\n?')

COUNTED_HEAD = """`tools/api` counts these and writes this part; `tools/api --check` compares it, and fails where one of the first three, or a handle,
is there. A gate that passes (`rt ci`) has also found no proof with a hole, and no contract that no call can meet."""
NAMES_HEAD = """`tools/api` writes this part: each definition that a clause of a public call names, and what the comment above it says."""


def words_for(text):
    """What WORDS.md says of names: those before the colon of each line, apart."""
    found = {}
    for line in text.strip().split('\n'):
        names, said = line[2:].split(': ', 1)
        found.update({it: said for it in re.findall(r'`(\w+)`', names)})
    return found


def cited_by(library, crates):
    """The definitions of the repository that clauses of public calls name, file by file."""
    files = {}
    for crate in crates:
        for function in library.functions(crate):
            for it in library.cited(function, []):
                if it.lines:
                    files.setdefault(it.place, {})[it.name] = it
    return files


def names_part(library, crates, text):
    """The part of DEFINITIONS that names what clauses cite."""
    words, rows, lacking = words_for(text), [], []
    order = {crate: i for i, crate in enumerate(crates)}
    for place, found in sorted(cited_by(library, crates).items(), key=lambda it: (order[it[0].crate], it[0].module)):
        for name, it in sorted(found.items()):
            said = it.said or words.get(name, '')
            lacking += [] if said else [name]
            rows.append(f'| `{name}` | {said} | [{place.shown().replace("/specs/", "/")}](../{named(place.path())}) |')
    if lacking:
        raise SystemExit(f'WORDS.md, Names: what are {", ".join(lacking)}?')
    return '\n'.join([NAMES, '', NAMES_HEAD, '', '| Name | Says | File |', '|---|---|---|', *rows]) + '\n'


def with_part(path, heading, part):
    """A page whose last part, under a heading, is this one."""
    return read(path).split(f'\n{heading}\n')[0].rstrip() + f'\n\n{part}'


def calls_of(crate):
    """The functions of a crate by the names that PROVED has for them: with their owner, and without; private ones too."""
    found = {}
    for module, path, _ in crate.files:
        for item in crate.items[module]:
            owners = [] if item.kind == 'fn' else list(filter(None, parts_of_impl(item))) if item.kind == 'impl' else [item.name()]
            inner = [item] if item.kind == 'fn' else members_of(item) if item.kind in ('impl', 'trait') else []
            for it in inner:
                if it.kind == 'fn':
                    function = Function(owners[-1] if owners else '', path, item.at + it.at + 2, it)
                    for name in (it.name(), *(f'{owner}::{it.name()}' for owner in owners)):
                        found.setdefault(name, []).append(function)
    return found


def cited_in(cell, known, before):
    """The clauses that a cell of PROVED cites, each time with the calls beside them: where it names none, those of the row before."""
    calls = []
    for name, clauses in PIECE.findall(cell):
        if name in known:
            calls.append(name)
        elif clauses:
            yield calls or before, CLAUSE.findall(clauses)
            before, calls = calls or before, []


def has_fields(library, functions, clause, fields):
    """Whether a record that this clause of a function names has these fields."""
    for function in functions:
        records = [it for it in library.cited(function, [clause]) if it.lines]
        if any(all(any(re.match(rf'pub {field} :', line) for line in it.lines) for field in fields) for it in records):
            return True
    return False


def wrong_in(cell, calls, before, library):
    """Which citations of a cell name no clause of the call beside them."""
    for names, clauses in cited_in(cell, calls, before):
        for clause, fields in clauses:
            for name in names:
                functions = [it for it in calls[name] if clause in {its for _, _, its, _ in it.clauses()}]
                if not functions:
                    yield f'{name} has no clause {clause}'
                elif fields and not has_fields(library, functions, clause, re.findall(r'\w+', fields)):
                    yield f'the clause {clause} of {name} has no {fields}'
            if not names:
                yield f'no call stands beside {clause}'


def wrong_citations(library, crates):
    """The citations of PROVED that name no clause of the call beside them."""
    for part in re.split(r'^## ', read(PROVED), flags=re.M)[1:]:
        crate = part.split()[0]
        if crate not in crates:
            continue
        calls, before = calls_of(Crate(crate)), []
        for line in part.split('\n'):
            if line.startswith('| ') and not line.startswith('|---'):
                cell = line[2:].split(' | ')[0]
                yield from (f'{named(PROVED)}: {it}' for it in wrong_in(cell, calls, before, library))
                before = [it for it, _ in PIECE.findall(cell) if it in calls] or before


def texts(crates, *patterns):
    """The files of crates, as text."""
    return [read(path) for crate in crates for pattern in patterns for path in sorted((ROOT / 'crates' / crate).glob(pattern))]


def line_count(found):
    """How many lines these texts have, to the nearest thousand."""
    return f'{round(sum(text.count(chr(10)) for text in found), -3):,}'


def counted_part(crates):
    """The part of ASSUMPTIONS that tells what is counted, in these libraries and in all crates; and what is there and must not be."""
    every = sorted(path.name for path in (ROOT / 'crates').iterdir())
    code, terms = texts(every, 'src/**/*.rt'), texts(every, 'specs/**/*.antt', 'proofs/**/*.antt')
    assumed = sum(len(ASSUMED.findall(text)) for text in code + terms)
    holes = sum(len(HOLE.findall(line)) for text in terms for line in text.split('\n') if not line.strip().startswith('--'))
    exported = sum(text.count('#[unsafe(no_mangle)]') for text in code)
    rows = [
        ('`postulate`, `axiom`, `trusted`, `assume` in code, definitions and proofs of all crates', assumed),
        ('holes (`?`) in their definitions and proofs', holes),
        ('`unsafe` in their code, beside `#[unsafe(no_mangle)]`', sum(len(UNSAFE.findall(text)) for text in code) - exported),
        ('calls that C names, by `#[unsafe(no_mangle)]`', exported),
        ('words in `HANDLES`: threads, waiting, sockets, other programs', HANDLES.fullmatch(read(ROOT / 'HANDLES')) and 0),
        ('lines of code of the libraries, with contracts and documentation, to the nearest thousand', line_count(texts(crates, 'src/**/*.rt'))),
        ('lines of their definitions', line_count(texts(crates, 'specs/**/*.antt'))),
        ('lines of their proofs', line_count(texts(crates, 'proofs/**/*.antt'))),
    ]
    lines = [f'| {what} | {count} |' for what, count in rows]
    part = '\n'.join([COUNTED, '', COUNTED_HEAD, '', '| What | How many |', '|---|---|', *lines]) + '\n'
    return part, [f'{named(ASSUMPTIONS)}: there are {what}' for what, count in (*rows[:3], rows[4]) if count != 0]
