"""Builds the programs of bench/peer, which do in plain Rust what programs of the repository do."""
import glob
import os
import re
import shutil
import subprocess
import sys

SOURCES = os.path.join(os.path.dirname(os.path.dirname(os.path.abspath(__file__))), 'bench', 'peer')
FLAGS = '--edition 2024 -C opt-level=3 -C target-cpu=x86-64-v2 -C codegen-units=1'.split()
CHECKED = '--edition 2024 -C opt-level=0 -C debug-assertions'.split()

# the first rustc that has what the programs use
LEAST_RUSTC = (1, 88)
NO_RUSTC = f'there is no rustc of {".".join(map(str, LEAST_RUSTC))} or later'

SIMDUTF8 = '/usr/share/cargo/registry/simdutf8-*/src/lib.rs'


def say(text):
    """What is no part of a table."""
    print(text, file=sys.stderr)


def has_rustc():
    """Whether a rustc is there that builds the programs."""
    if not shutil.which('rustc'):
        return False
    said = subprocess.run(['rustc', '--version'], capture_output=True, text=True).stdout
    found = re.match(r'rustc (\d+)\.(\d+)', said)
    return bool(found) and tuple(map(int, found.groups())) >= LEAST_RUSTC


def command(source, path, flags):
    """Builds a source of bench/peer into a program."""
    return ['rustc', *flags, os.path.join(SOURCES, source), '-o', path]


def build_simdutf8(folder):
    """The flags by which a program uses `simdutf8`; none where there is none."""
    sources = sorted(glob.glob(SIMDUTF8))
    path = os.path.join(folder, 'libsimdutf8.rlib')
    flags = ['--crate-type', 'rlib', '--crate-name', 'simdutf8', '--edition', '2018',
             '--cfg', 'feature="std"', '--cap-lints', 'allow', *FLAGS[2:]]
    if sources and subprocess.run(['rustc', *flags, sources[-1], '-o', path]).returncode == 0:
        return ['--cfg', 'simdutf8', '--extern', 'simdutf8=' + path]
    say('there is no simdutf8 (of librust-simdutf8-dev): in Rust text is checked by std')
    return []


def build(source, folder):
    """The path of a program, or None, and whether it has `simdutf8`."""
    if not has_rustc():
        say(f'{NO_RUSTC}: the times of plain Rust are missing')
        return None, False
    path = os.path.join(folder, 'peer')
    text = build_simdutf8(folder)
    made = subprocess.run(command(source, path, [*FLAGS, *text]), capture_output=True, text=True)
    if made.returncode == 0:
        return path, bool(text)
    print(made.stderr, end='', file=sys.stderr)
    say(f'rustc refused bench/peer/{source}: the times of plain Rust are missing')
    return None, False
