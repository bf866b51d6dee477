"""Runs `rt try`, which proves nothing: of the tests of a crate, of a program, and of many scripts by one build."""
import os
import pathlib
import re
import signal
import subprocess
import tempfile
from typing import List, NamedTuple

from gathered import CRATES, gather

LONGEST = 1200  # seconds that one command may take, far more than any does
EACH = "600"  # seconds that `rt try` gives to what it has built
TESTS = re.compile(r"test result: \w+\. (\d+) passed; (\d+) failed")
TOLD = re.compile(r"test .* \.\.\. FAILED|---- |thread .*panicked|error|.*: error")
BETWEEN = b"\x1e"  # what stands between two scripts
TOGETHER = 30  # scripts of one process: a fault loses those after it,
MOST_PRINTED = 900_000  # and bytes that they print, of the MiB that `rt try` passes on
RUNNING = set()  # the commands that run, each in a session of its own


class Answer(NamedTuple):
    """How many tests passed and failed, what is to be said, and whether all of them were answered."""

    passed: int
    failed: int
    said: List[str] = []
    is_answered: bool = True


class Ran(NamedTuple):
    status: int
    output: bytes
    errors: str

    def end(self) -> str:
        """The end of what was said, for a run that gave no result."""
        return (self.output.decode(errors="replace") + self.errors)[-1500:]


def end(process):
    """Ends a command with all that it started; it has some seconds to tidy up."""
    for how in (signal.SIGTERM, signal.SIGKILL):
        try:
            os.killpg(process.pid, how)
            process.wait(5)
        except ProcessLookupError:
            return
        except subprocess.TimeoutExpired:
            pass


def end_all():
    """Ends what still runs."""
    for process in list(RUNNING):
        end(process)


def ended_late(process):
    """What a command that was ended has printed; nothing where another process still holds its pipes."""
    try:
        return process.communicate(timeout=60)
    except subprocess.TimeoutExpired:
        process.stdout.close()
        process.stderr.close()
        return b"", b"it was ended, and something else still holds what it prints to"


def run(words, folder, stdin=subprocess.DEVNULL) -> Ran:
    """Runs a command; one that takes too long is ended."""
    how = {"stdin": stdin, "stdout": subprocess.PIPE, "stderr": subprocess.PIPE, "start_new_session": True}
    with subprocess.Popen(words, cwd=folder, **how) as process:
        RUNNING.add(process)
        try:
            output, errors = process.communicate(timeout=LONGEST)
        except subprocess.TimeoutExpired:
            end(process)
            output, errors = ended_late(process)
        finally:
            RUNNING.discard(process)
    return Ran(process.returncode, output, errors.decode(errors="replace"))


def try_tests(folder: pathlib.Path) -> Answer:
    """The #[test] functions of the crate in a folder."""
    ran = run(["rt", "try", "--test", "--seconds", EACH], folder)
    text = ran.output.decode(errors="replace") + ran.errors
    found = TESTS.search(text)
    if not found:
        return Answer(0, 1, [f"status {ran.status}, and no result: {ran.end()}"], False)
    passed, failed = int(found[1]), int(found[2])
    if ran.status and not failed:
        return Answer(passed, 1, [f"status {ran.status}: {ran.end()}"], False)
    return Answer(passed, failed, [line for line in text.split("\n") if TOLD.match(line)] if failed else [])


def try_gathered(crates) -> Answer:
    """The #[test] functions of several crates, by one build; crate by crate where that gives no result."""
    with tempfile.TemporaryDirectory() as room:
        answer = try_tests(gather(crates, pathlib.Path(room)))
    if answer.is_answered:
        return answer
    each = [try_tests(CRATES / it) for it in crates]
    said = [line for it in each for line in it.said]
    return Answer(sum(it.passed for it in each), sum(it.failed for it in each), said, all(it.is_answered for it in each))


def try_program(crate: str) -> Answer:
    """The stored run of a program."""
    folder = CRATES / crate
    stored = folder / "stdin"
    with open(stored if stored.exists() else os.devnull, "rb") as stdin:
        ran = run(["rt", "try", "--steps", "1", "--seconds", EACH], folder, stdin)
    is_right = ran.output == (folder / "stdout").read_bytes() and ran.status == 0
    said = f"status {ran.status}, and another output than is stored: {ran.end()}"
    return Answer(1, 0) if is_right else Answer(0, 1, [said], ran.status not in (2, 3, 6))


def chunks_of(cases):
    """Cases in chunks, each for one process."""
    chunk, size = [], 0
    for case in cases:
        if chunk and (len(chunk) == TOGETHER or size + len(case.output) > MOST_PRINTED):
            yield chunk
            chunk, size = [], 0
        chunk.append(case)
        size += len(case.output) + 8
    if chunk:
        yield chunk


def answers_of(chunks):
    """What each case of these chunks printed and its status, or nothing where a fault came before; and what was said."""
    with tempfile.TemporaryDirectory() as folder:
        for number, chunk in enumerate(chunks):
            pathlib.Path(folder, f"c{number:04}").write_bytes(BETWEEN.join(case.script for case in chunk))
        ran = run(["rt", "try", "--steps", "1", "--seconds", EACH, "--cases", folder], CRATES / "vx_scripts")
    blocks = re.split(rb"^== c(\d+)\n", ran.output, flags=re.M)
    printed = {int(number): text for number, text in zip(blocks[1::2], blocks[2::2])}
    answers = []
    for number, chunk in enumerate(chunks):
        ended = re.findall(rb"(.*?)\x1e([01])\n", printed.get(number, b""), re.S)[: len(chunk)]
        answers += [(output, int(status)) for output, status in ended] + [None] * (len(chunk) - len(ended))
    return answers, ran


def told_of(case, answer) -> str:
    """What is wrong with the answer to a case."""
    if answer is None:
        return f"failed: {case.name}: a fault, or no end"
    output, status = answer
    script = case.script.decode(errors="replace") if len(case.script) < 2000 else ""
    return f"failed: {case.name}: status {status}, printed ..{output[-200:]!r}, wanted ..{case.output[-200:]!r}\n{script}"


def try_scripts(cases) -> Answer:
    """Scripts, many in one process, and once more alone where a fault ended that."""
    if any(BETWEEN in case.script for case in cases):
        return Answer(0, 1, ["a script has the byte 30"])
    answers, ran = answers_of(list(chunks_of(cases)))
    if not any(answers):
        return Answer(0, 1, [f"status {ran.status}, and no script was answered: {ran.end()}"], False)
    lost = [place for place, answer in enumerate(answers) if answer is None]
    if lost:
        for place, answer in zip(lost, answers_of([[cases[place]] for place in lost])[0]):
            answers[place] = answer
    wrong = [told_of(*pair) for pair in zip(cases, answers) if pair[1] != (pair[0].output, pair[0].status())]
    return Answer(len(cases) - len(wrong), len(wrong), wrong)
