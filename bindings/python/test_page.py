"""Runs what docs/FROM_C.md and the package's README.md show: the Python of each as one conversation, and each program in C,
which must print what the page says that it prints. And what is believed of who calls must be said at the call, and the numbers of
faults be those of the library and of the header. Where pyarrow is not installed, a module of its name stands in for it, with the one
call that the pages show. usage: test_page.py LIBRARY (the archive that the programs are linked with)"""
import doctest
import importlib.util
import os
import re
import subprocess
import sys
import tempfile
import types

import stand_in
from codrask import Column, fault_name

TOP = os.path.dirname(os.path.dirname(os.path.dirname(os.path.abspath(__file__))))
BLOCK = re.compile(r"```(\w+)\n(.*?)```\n(.*?)(?=```|\Z)", re.S)


def pyarrow_array(given):
    """An array of texts as pyarrow has it; of an object with capsules, what those hold."""
    return Column.from_arrow(given) if hasattr(given, "__arrow_c_array__") else stand_in.values(given)


def stand_in_for_pyarrow():
    """Puts a module where that of pyarrow is looked for, where it is not installed."""
    if importlib.util.find_spec("pyarrow") is None:
        sys.modules["pyarrow"] = types.ModuleType("pyarrow")
        sys.modules["pyarrow"].array = pyarrow_array


def conversation(name, text):
    """The failures and the number of the examples in Python."""
    blocks = [code for language, code, _ in BLOCK.findall(text) if language == "python"]
    test = doctest.DocTestParser().get_doctest("\n".join(blocks), {}, name, name, 0)
    return doctest.DocTestRunner(optionflags=doctest.IGNORE_EXCEPTION_DETAIL).run(test)


def programs(text):
    """Each program in C, with the first line that the page says it prints."""
    waiting = None
    for language, code, after in BLOCK.findall(text):
        waiting = code if language == "c" else waiting
        if waiting and (told := re.search(r"It prints `([^`]*)`", after)):
            yield waiting, told[1]
            waiting = None


def printed(code, library, folder):
    """What a program prints."""
    source, program = os.path.join(folder, "page.c"), os.path.join(folder, "page")
    with open(source, "w", encoding="utf-8") as it:
        it.write(code)
    compiler = os.environ.get("CC", "cc")
    subprocess.run([compiler, "-I", os.path.join(TOP, "bindings", "c"), source, library, "-o", program], check=True)
    return subprocess.run([program], stdout=subprocess.PIPE, text=True, timeout=60).stdout


def believed():
    """Whether calls that believe what they are given say so: in C in the first sentence above, in Python in the help of the call."""
    header, trusted = page("bindings", "c", "codrask.h"), " ".join(Column.from_arrow.__doc__.split())
    above = header[: header.index("uint32_t codrask_read_arrow(")].rsplit("/*", 1)[1]
    first = " ".join(above.split(":")[0].split())
    yield "believes that each buffer is as long as the array needs" in first
    passed = header[: header.index("uint32_t codrask_write_passed(")].rsplit("/*", 1)[1]
    yield "It is not tested again" in passed and "nobody sees that" in passed
    pickled = header[: header.index("uint32_t codrask_pickle(")].rsplit("/*", 1)[1]
    yield "That is not tested: any other node is read past its slices" in " ".join(pickled.replace("*", "").split())
    yield "whom one trusts: Arrow's structures tell the length of no buffer" in trusted and "no test can see" in trusted


def numbers(text, header):
    """Whether the numbers of faults and their names are, on the page and in the header, those of the library."""
    told = {int(number): name for number, name in re.findall(r"^\| (\d+) \| `(\w+)` \|", text, re.M)}
    constants = re.findall(r"enum codrask_(?:stream_)?number \{(.*?)\n\};", header, re.S)
    named = {int(number): name for name, number in re.findall(r"^    CODRASK_(\w+) = (\d+)", "\n".join(constants), re.M)}
    yield len(constants) == 2 and len(named) > 30
    yield all(told.get(number) == name.title().replace("_", "") for number, name in named.items())
    yield all(fault_name(number) == told.get(number, "") for number in range(1000))


def page(*place):
    with open(os.path.join(TOP, *place), encoding="utf-8") as it:
        return it.read()


def main(library):
    stand_in_for_pyarrow()
    text, pages = page("docs", "FROM_C.md"), {"README.md": page("bindings", "python", "README.md")}
    said = [*believed(), *numbers(text, page("bindings", "c", "codrask.h"))]
    failed, tried = map(sum, zip(*(conversation(name, one) for name, one in {"FROM_C.md": text, **pages}.items())))
    with tempfile.TemporaryDirectory() as folder:
        for code, wanted in programs(text):
            tried += 1
            found = printed(code, library, folder)
            if found != wanted + "\n":
                failed += 1
                print(f"a program of FROM_C.md prints {found!r}, and not {wanted!r}")
    if not all(said):
        print(f"what a call believes, or the numbers of faults, are not said: {said}")
    tried, failed = tried + len(said), failed + said.count(False)
    print(f"{tried - failed} passed, {failed} failed")
    return 1 if failed or tried < 20 else 0


if __name__ == "__main__":
    sys.exit(main(sys.argv[1]))
