"""Writes docs/THEOREMS.md: the main theorems in words, each with the clauses that say it and the definitions that these stand on."""
import re
from typing import List, NamedTuple

from definitions import Definitions, imports_of, is_word
from sources import ROOT, Crate, Function, named, parts_of_contract, parsed, read

PAGE = ROOT / 'docs' / 'THEOREMS.md'
FORM = re.compile(r'(.*?)\n\n(.*?)\n\nClauses:\n\n(.*)', re.S)
CALL = re.compile(r'- `(vx_\w+)`, `([\w:]+)`((?:, `\w+`)*)')

HEAD = """# The theorems

A theorem is what clauses of public calls promise; the gate (`rt ci`) proves each of them, for all arguments. Under its clauses stand the
definitions on which they rest, and they alone: those that a reader has to agree with, down to the words of `std`. Where `std` stands alone
as a file, that is `Rattle.std.specs` of the kit, with `Prelude` at its ground; types that stand in code are named with their file of code.

In clauses an array of any type stands for its `Tree`, which [LAYOUTS](LAYOUTS.md) draws. [USING](USING.md#how-to-read-a-contract) explains
the signs, and [PROVED](PROVED.md) has every fact. `tools/api` writes this page: the words from docs/api/WORDS.md, and all else from the
sources as they stand."""


class Theorem(NamedTuple):
    """What WORDS.md has of a theorem: its title, its sentences, and the lines that name its clauses."""
    title: str
    words: str
    clauses: List[str]


def theorems(text):
    """The theorems that a part of WORDS.md has."""
    for part in re.split(r'^## ', text, flags=re.M)[1:]:
        form = FORM.fullmatch(part.strip())
        if not form:
            raise SystemExit(f'WORDS.md: no theorem: {part[:20]!r}')
        yield Theorem(form[1], form[2], form[3].split('\n'))


class Library:
    """The public functions of the libraries, and the definitions."""

    def __init__(self):
        self.definitions, self.crates = Definitions(), {}

    def functions(self, crate):
        if crate not in self.crates:
            self.crates[crate] = list(Crate(crate).functions())
        return self.crates[crate]

    def find(self, crate, called) -> Function:
        """A function by its name, in that of its contracts which is longest."""
        found = [it for it in self.functions(crate) if it.called() == called]
        if not found:
            raise SystemExit(f'WORDS.md: {crate} has no public function {called}')
        return max(found, key=lambda it: len(list(it.clauses())))

    def cited(self, function, clauses):
        """The definitions that some clauses of a function name."""
        names, short = imports_of(read(function.path).split('\n'))
        texts = [text for _, _, name, text in function.clauses() if not clauses or name in clauses]
        return self.definitions.named(texts, names, short)


def quoted(function, clauses):
    """The head of a function with some of its clauses, as they stand."""
    (_, head), *parts = parts_of_contract(function.item)
    lines = [re.sub(r' \{\}?$', '', line) for line in head]
    for _, part in parts:
        if not clauses or parsed(part)[1] in clauses:
            lines += part
    return '\n'.join(lines)


def grounds(definitions):
    """Definitions, file by file: those of the repository with links, then the types of code, then the words of std."""
    files = {}
    for it in filter(is_word, definitions):
        is_ours = it.place.crate.startswith('vx_') and not it.place.is_code()
        path = str(named(it.place.path())) if is_ours else ''
        files.setdefault((it.place.crate == 'std', not is_ours, it.place.shown(), path), set()).add(it.name)
    for (_, _, shown, path), names in sorted(files.items()):
        link = f'[{shown}](../{path})' if path else f'`{shown}`'
        yield f'- {link}: ' + ', '.join(f'`{it}`' for it in sorted(names))


def section(number, theorem, library):
    """What the page says of a theorem."""
    shown, cited = [], []
    for line in theorem.clauses:
        found = CALL.fullmatch(line)
        if not found:
            raise SystemExit(f'WORDS.md: no clause of a call: {line!r}')
        function, clauses = library.find(found[1], found[2]), re.findall(r'\w+', found[3])
        gone = set(clauses) - {name for _, _, name, _ in function.clauses()}
        if gone:
            raise SystemExit(f'WORDS.md: {found[2]} has no clause {", ".join(sorted(gone))}')
        cited += library.cited(function, clauses)
        path = named(function.path)
        shown.append(f'`{found[2]}`, [{path}, line {function.line}](../{path}#L{function.line}):\n\n'
                     f'```text\n{quoted(function, clauses)}\n```')
    under = [it for it in library.definitions.standing_under(cited) if is_word(it)]
    own = [it for it in under if it.lines]
    count = f'It stands on {len(own)} definitions, in {len({it.place for it in own})} files:'
    return '\n\n'.join([f'## {number}. {theorem.title}', theorem.words, *shown, count, '\n'.join(grounds(under))])


def linked(number, title):
    """A theorem's line in the list at the head, with a link to its section."""
    anchor = re.sub(r'[^\w -]', '', f'{number}. {title}'.lower()).replace(' ', '-')
    return f'{number}. [{title}](#{anchor})'


def page(text, library):
    """The page of the theorems that a part of WORDS.md has."""
    found = list(enumerate(theorems(text), 1))
    listed = '\n'.join(linked(number, it.title) for number, it in found)
    return '\n\n'.join([HEAD, listed, *(section(number, it, library) for number, it in found)]) + '\n'
