"""The jobs of workloads.txt, and the programs that run them."""
import os
import pathlib
import sys
import typing

HERE = os.path.dirname(os.path.abspath(__file__))
TOP = os.path.dirname(HERE)


def program(checkout, crate):
    return pathlib.Path(checkout, 'crates', crate, 'out', crate)


class Job(typing.NamedTuple):
    """A line of workloads.txt: its name, its crate, the words of the program, and the file of its standard input."""
    name: str
    crate: str
    words: list
    file: str

    def command(self):
        """The program and its words, to be run in the folder bench/ of a checkout: the same in each, since a longer path costs."""
        return [str(program('..', self.crate)), *self.words]

    def given(self, folder):
        return open(os.path.join(folder, self.file), 'rb')


def jobs(seed=1):
    """Each line is NAME CRATE WORD.., where a word SEED stands for the seed, and a last word <FILE for the standard input."""
    with open(os.path.join(HERE, 'workloads.txt'), encoding='utf-8') as lines:
        for name, crate, *words in map(str.split, filter(str.strip, lines)):
            words = [str(seed) if word == 'SEED' else word for word in words]
            file = words.pop()[1:] if words and words[-1].startswith('<') else os.devnull
            yield Job(name, crate, words, file)


def crates_of(checkout, crate):
    """The crate, and all that it stands on, by crates.txt."""
    lines = pathlib.Path(checkout, 'crates.txt').read_text(encoding='utf-8').split('\n')
    parts = [line.split('#')[0].partition(':') for line in lines]
    below = {head.split()[0]: names.split() for head, _, names in parts if head.split()}
    found, left = set(), [crate]
    while left:
        name = left.pop()
        if name not in found:
            found.add(name)
            left += below.get(name, [])
    return found


def say_if_old(checkout, crate):
    """Warns where a source of the crate, or of one that it stands on, was written after its program. A program may be newer than all
    of them and made from others, where a checkout moved to another commit: this says nothing of that."""
    folders = [pathlib.Path(checkout, 'crates', name, part)
               for name in crates_of(checkout, crate) for part in ('src', 'specs', 'proofs')]
    files = [path for folder in folders for path in folder.rglob('*') if path.is_file()]
    newest = max(files, key=lambda path: path.stat().st_mtime, default=None)
    made = program(checkout, crate)
    if newest and newest.stat().st_mtime > made.stat().st_mtime:
        print(f'{made} may be old: {newest.relative_to(checkout)} was written after it', file=sys.stderr)
