"""Runs what stands beside the crate: its tests by cargo, what must not compile, and what the pages show. The last line is 'N passed, M
failed'. usage: test_rust.py [--safe] LIBRARY_FOLDER TARGET_FOLDER
  --safe   the library has the sanitizer of addresses in its C files: the tests of cargo alone, and no leak"""
import json
import os
import pathlib
import re
import shutil
import subprocess
import sys

HERE = pathlib.Path(__file__).resolve().parent
TOP = HERE.parent.parent
BLOCK = re.compile(r"```rust\n(.*?)```\n(.*?)(?=```rust|\Z)", re.S)
PRINTS = re.compile(r"It prints `([^`]*)`|```text\n(.*?)\n```", re.S)
WRONG = "// wrong"
passed = failed = 0


def tell(what, good, why=""):
    """Counts a test, and says why it failed."""
    global passed, failed
    passed, failed = passed + bool(good), failed + (not good)
    if not good:
        print(f"{what}: not as wanted\n{why}")


def ran(*command):
    return subprocess.run(list(map(str, command)), cwd=HERE, capture_output=True, text=True)


def cargo_tests(*more):
    """The tests of cargo, as many as it tells of."""
    global passed, failed
    made = ran("cargo", "test", "--offline", "--no-fail-fast", *more)
    found = re.findall(r"^test result: .* (\d+) passed; (\d+) failed;", made.stdout, re.M)
    passed += sum(int(good) for good, _ in found)
    failed += sum(int(bad) for _, bad in found)
    if made.returncode or not found:
        failed += not any(int(bad) for _, bad in found)
        print(made.stdout, made.stderr)


def sanitize():
    """Has the programs of cargo linked with the sanitizer of the C compiler, and loaded with it before all else."""
    compiler = os.environ.get("CC", "cc")
    runtime = ran(compiler, "-print-file-name=libasan.so").stdout.strip()
    os.environ["RUSTFLAGS"] = f"-Clink-arg={runtime}"
    os.environ["CARGO_TARGET_X86_64_UNKNOWN_LINUX_GNU_RUNNER"] = f"env LD_PRELOAD={runtime}"


def clean():
    """The layout and the lints, where their programs are."""
    if shutil.which("rustfmt"):
        made = ran("cargo", "fmt", "--check")
        tell("rustfmt", made.returncode == 0, made.stdout)
    if shutil.which("clippy-driver"):
        made = ran("cargo", "clippy", "--offline", "--all-targets", "--", "-D", "warnings")
        tell("clippy", made.returncode == 0, made.stderr)


def crate():
    """The words by which rustc finds the crate and the library."""
    made = ran("cargo", "build", "--offline", "--message-format=json")
    told = [json.loads(line) for line in made.stdout.splitlines()]
    files = [file for message in told for file in message.get("filenames", ()) if file.endswith(".rlib")]
    return ["--edition=2021", "--extern", f"codrask={files[-1]}", "-L", os.environ["CODRASK_LIB_DIR"]]


def compiled(words, source, program):
    return ran("rustc", *words, source, "-A", "warnings", "-o", program, "--error-format=json")


def codes(made):
    """The kinds of the errors of a compilation, by their numbers."""
    told = [json.loads(line) for line in made.stderr.splitlines() if line.startswith("{")]
    return {message["code"]["code"] for message in told if message["level"] == "error" and message["code"]}


def must_not_compile(words, folder):
    """Each file has one line that is wrong. With it the compiler refuses it as the first line says, without it nothing is wrong."""
    cases = sorted((HERE / "must_not_compile").glob("*.rs"))
    for case in cases:
        lines = case.read_text(encoding="utf-8").splitlines(keepends=True)
        right = folder / case.name
        right.write_text("".join(line for line in lines if WRONG not in line), encoding="utf-8")
        made = compiled(words, case, folder / "case")
        tell(case.stem, codes(made) == {lines[0][3:].strip()}, codes(made))
        made = compiled(words, right, folder / "case")
        tell(f"{case.stem} without its wrong line", made.returncode == 0, codes(made))
    tell("cases of what must not compile", len(cases) > 10)


def pages(words, folder):
    """Each program of a page prints what is told behind it; what implements `Data` is what the tests have."""
    tests = (HERE / "tests" / "data.rs").read_text(encoding="utf-8")
    tried = 0
    for page in HERE / "README.md", TOP / "docs" / "FROM_C.md":
        for code, after in BLOCK.findall(page.read_text(encoding="utf-8")):
            tried += 1
            if "fn main()" not in code:
                tell(f"{page.name}: as the tests have it", code in tests, code)
                continue
            source, program = folder / "page.rs", folder / "page"
            source.write_text(code, encoding="utf-8")
            made = compiled(words, source, program)
            found = ran(program).stdout if made.returncode == 0 else made.stderr
            told = PRINTS.search(after)
            wanted = told and (told[1] or told[2]) + "\n"
            tell(f"a program of {page.name}", found == wanted, f"{found!r}, and not {wanted!r}")
    tell("programs of the pages", tried >= 3)


def main(words):
    safe = words[0] == "--safe"
    library, target = map(pathlib.Path, words[-2:])
    os.environ.update(CODRASK_LIB_DIR=str(library.resolve()), CARGO_TARGET_DIR=str(target.resolve()))
    if safe:
        sanitize()
        cargo_tests("--tests")
    else:
        cargo_tests()
        clean()
        folder = target / "cases"
        folder.mkdir(parents=True, exist_ok=True)
        found = crate()
        must_not_compile(found, folder)
        pages(found, folder)
    print(f"{passed} passed, {failed} failed")
    return 1 if failed else 0


if __name__ == "__main__":
    sys.exit(main(sys.argv[1:]))
