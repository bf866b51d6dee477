"""Gathers the tests of several crates into one crate, so that what stands below them is built once."""
import pathlib
import re
import shutil

from case_files import ROOT

CRATES = ROOT / "crates"
NAME = "gathered_tests"
# what stands at the head of a root file, or before its modules: the new root has both
AT_THE_ROOT = re.compile(r"^(?:#!\[.*\]|//!.*|#\[cfg\(test\)\])\n", re.M)
# what is for the prover alone, and may name proofs of the crate
FOR_THE_PROVER = re.compile(r"^ *#\[tactic\(.*\)\]\n", re.M)


def copy_sources(room: pathlib.Path):
    """Copies what `rt try` of a new crate reads."""
    for name in ("crates.txt", "HANDLES"):
        shutil.copy(ROOT / name, room)
    for part in ("src", "specs", "proofs"):
        for folder in CRATES.glob(f"*/{part}"):
            shutil.copytree(folder, room / folder.relative_to(ROOT))


def crates_below():
    """The crates that crates.txt names, each with those that it stands on."""
    lines = (ROOT / "crates.txt").read_text(encoding="utf-8").split("\n")
    parts = [line.split("#")[0].partition(":") for line in lines]
    return {name.split()[0]: below.split() for name, _, below in parts if name.strip()}


def put(crate: str, sources: pathlib.Path):
    """Puts the files of a crate of tests into a module of its name."""
    for path in (CRATES / crate / "src").rglob("*.rt"):
        place = path.relative_to(CRATES / crate / "src")
        text = FOR_THE_PROVER.sub("", path.read_text(encoding="utf-8"))
        if place.name == "lib.rt":
            place, text = pathlib.Path(f"{crate}.rt"), AT_THE_ROOT.sub("", text)
        else:
            place = crate / place
        (sources / place).parent.mkdir(parents=True, exist_ok=True)
        (sources / place).write_text(re.sub(r"\bcrate::", f"crate::{crate}::", text), encoding="utf-8")


def gather(crates, room: pathlib.Path) -> pathlib.Path:
    """Makes a crate of the tests of these in a room, over copies of all sources; gives its folder."""
    copy_sources(room)
    below = crates_below()
    needed = dict.fromkeys(it for crate in crates for it in below[crate])
    sources = room / "crates" / NAME / "src"
    sources.mkdir(parents=True)
    for crate in crates:
        put(crate, sources)
    modules = "".join(f"#[cfg(test)]\nmod {crate};\n" for crate in crates)
    (sources / "lib.rt").write_text(f"//! The tests of several crates.\n#![tactic(auto)]\n\n{modules}", encoding="utf-8")
    with open(room / "crates.txt", "a", encoding="utf-8") as lines:
        lines.write(f"{NAME}: {' '.join(needed)}\n")
    return sources.parent


def size(crate: str) -> int:
    """How many bytes of sources a crate has."""
    return sum(path.stat().st_size for path in (CRATES / crate / "src").rglob("*.rt"))


def groups(crates, count: int):
    """Crates in so many groups, or one each where there are fewer, of about the same size."""
    found = [[] for _ in range(max(1, min(count, len(crates))))]
    for crate in sorted(crates, key=size, reverse=True):
        min(found, key=lambda it: sum(map(size, it))).append(crate)
    return found
