"""Counts the instructions of a program by valgrind, and says of which commit a count is."""
import concurrent.futures
import os
import re
import shutil
import subprocess
import sys
import tempfile

TOP = os.path.dirname(os.path.dirname(os.path.abspath(__file__)))

# valgrind counts each byte of a `rep` instruction, so the C library is told to copy and clear without them
NO_REP = ':'.join(f'glibc.cpu.x86_rep_{name}_threshold=0x7fffffffffff' for name in ('movsb', 'stosb'))

# what a program is given to be counted
TUNED = {'GLIBC_TUNABLES': NO_REP}


def instructions(command, options=(), **how):
    """The instructions of a command by callgrind; none where it fails, which then says why."""
    with tempfile.TemporaryDirectory() as folder:
        callgrind = [shutil.which('valgrind'), '--tool=callgrind', *options,
                     f'--callgrind-out-file={os.path.join(folder, "callgrind.out")}']
        made = subprocess.run([*callgrind, *command], capture_output=True, text=True, **how)
    found = re.search(r'Collected *: *(\d+)', made.stderr)
    if made.returncode == 0 and found:
        return int(found[1])
    print(made.stderr, end='', file=sys.stderr)
    return None


def side_by_side(function, items):
    """Gives what the function makes of each, in their order, as many at a time as there are processors."""
    with concurrent.futures.ThreadPoolExecutor(len(os.sched_getaffinity(0))) as pool:
        yield from pool.map(function, items)


def commit():
    """The last commit of this checkout that changed a crate, and a + where one has changes that are not committed."""
    crates = ['--', 'crates', 'crates.txt']
    changes = git('status', '--porcelain', *crates)
    return (git('log', '-1', '--format=%h', *crates) or 'unknown') + ('+' if changes else '')


def git(*words):
    """What git says of this checkout; nothing where it cannot."""
    try:
        return subprocess.run(['git', '-C', TOP, *words], capture_output=True, text=True).stdout.strip()
    except FileNotFoundError:
        return ''
