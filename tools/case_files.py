"""Reads the cases of cases/, of docs/SCRIPT.md and of README.md, and makes those that are too long to be written.

A case is a fenced block whose first line begins with ```vx: the lines up to the line --- are a
script, the rest is what it prints. The status that is wanted is 1 where the last line printed tells
an error, else 0. The heading above a block is its title. Further words on the block's first line:
`swept`, where tools/sweep runs the case too, and `unended`, where the script's last line has no line
feed. In a script, {300 of 0} stands for 300 times 0, joined by commas, and {300 spaces} for spaces.
"""
import pathlib
import re
from typing import Iterator, List, NamedTuple

ROOT = pathlib.Path(__file__).resolve().parent.parent
GOOD_LINES = b"ints u8 7\nshow 0\n"
ERROR = re.compile(rb"error ([1-9][0-9]*) ([A-Za-z0-9]+)\n")


class Case(NamedTuple):
    name: str
    marks: List[str]
    script: bytes
    output: bytes

    def status(self) -> int:
        lines = self.output.splitlines(keepends=True)
        return 1 if lines and ERROR.fullmatch(lines[-1]) else 0


def expand(line: str) -> str:
    """The line with what its braces stand for."""
    line = re.sub(r"\{(\d+) of ([^ {}]+)\}", lambda m: ",".join([m[2]] * int(m[1])), line)
    return re.sub(r"\{(\d+) spaces\}", lambda m: " " * int(m[1]), line)


def read_case(name: str, marks: List[str], lines: List[str]) -> Case:
    """The case of the lines of a block."""
    if lines.count("---") != 1 or not set(marks) <= {"swept", "unended"}:
        raise SystemExit(f"{name}: no case")
    rule = lines.index("---")
    script = "".join(expand(line) + "\n" for line in lines[:rule])
    if "unended" in marks:
        script = script[:-1]
    output = "".join(line + "\n" for line in lines[rule + 1 :])
    return Case(name, marks, script.encode(), output.encode())


def read_file(path: pathlib.Path) -> List[Case]:
    """The cases of a file, of which every fenced block is one; README.md has others too."""
    cases: List[Case] = []
    title = ""
    opened = None
    for number, line in enumerate(path.read_text().split("\n"), 1):
        if opened is None:
            if line.startswith("#"):
                title = line.lstrip("# ")
            if line.startswith("```"):
                name = f"{path.relative_to(ROOT)}:{number}: {title}"
                words = line[3:].split()
                is_case = words[:1] == ["vx"]
                if not is_case and path.name != "README.md":
                    raise SystemExit(f"{name}: no case")
                opened = (name, words[1:], [])
        elif line == "```":
            if is_case:
                cases.append(read_case(*opened))
            opened = None
        else:
            opened[2].append(line)
    if opened is not None:
        raise SystemExit(f"{opened[0]}: no end")
    return cases


def read_all() -> List[Case]:
    """The cases of every file."""
    pages = [ROOT / "docs" / "SCRIPT.md", ROOT / "README.md"]
    paths = sorted((ROOT / "cases").glob("*.md")) + pages
    return [case for path in paths for case in read_file(path)]


def malformed_lines() -> Iterator[Case]:
    """Each malformed line after two good ones: what was printed stays, and no line after it runs."""
    for line in (ROOT / "cases" / "malformed_lines.txt").read_bytes().split(b"\n")[:-1]:
        script = GOOD_LINES + line + b"\nshow 0\n"
        yield Case(f"malformed line {line!r}", [], script, b"[7]\nerror 3 Syntax\n")


def nest(depth: int) -> Case:
    """One number in so many lists: shown, sliced, taken, filtered, masked, joined and rebuilt."""
    begin = ["ints u8 7", "ints u8 0", "ints u8 1", "bools bool true"]
    lists = [f"listview {0 if level == 0 else level + 3} 1 2 nonnull" for level in range(depth)]
    top = depth + 3
    steps = [f"slice {top} 0 1", f"take {top} 1", f"filter {top} 3", f"mask {top} 3", f"concat {top} {top}", f"rebuild {top} zctl"]
    shows = [f"show {register}" for register in range(top, top + len(steps) + 1)]
    one = "[" * depth + "7" + "]" * depth
    wanted = [f"[{one},{one}]" if step.startswith("concat") else f"[{one}]" for step in ["", *steps]]
    script = "".join(line + "\n" for line in [*begin, *lists, *steps, *shows])
    return Case(f"{depth} lists in each other", [], script.encode(), "".join(line + "\n" for line in wanted).encode())
