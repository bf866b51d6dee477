"""The package itself: what it says where the library is not there, is another one or an older one; and that its type stubs tell
of the calls that there are. The last line is 'N passed, M failed'."""

import ast
import ctypes
import inspect
import os
import pickle
import subprocess
import sys
import traceback

import codrask
import stand_in as of
from codrask import Column, Refused, Step, library, run

FOLDER = os.path.dirname(os.path.abspath(codrask.__file__))


def said(code, place=None):
    """What some code says at its end in a process of its own, where the library lies at a place, or CODRASK_LIBRARY is not
    set."""
    world = {name: value for name, value in os.environ.items() if name not in ("CODRASK_LIBRARY", "PYTHONPATH", "STAND")}
    if place is not None:
        world["CODRASK_LIBRARY"] = place
    code = f"import sys; sys.path.insert(0, {os.path.dirname(FOLDER)!r})\n{code}"
    told = {"stdout": subprocess.PIPE, "stderr": subprocess.STDOUT, "text": True, "timeout": 60}
    done = subprocess.run([sys.executable, "-B", "-c", code], env=world, **told)
    return done.stdout.strip().split("\n")[-1]


FIRST_USE = "from codrask import Column\nColumn.numbers('u8', b'a').check()"


def test_no_library():
    for place in ("/nowhere/libcodrask.so", os.devnull, FOLDER):
        line = said(FIRST_USE, place)
        assert line.startswith(f"ImportError: codrask has no library: {place}"), line
        assert "'tools/foreign --build', at the top of a clone of Codrask, builds libcodrask.so" in line, line
        assert line.endswith(f"Now CODRASK_LIBRARY is {place!r}."), line
    if not os.path.exists(os.path.join(FOLDER, "libcodrask.so")):
        assert said(FIRST_USE).endswith("Now CODRASK_LIBRARY is not set.")


def test_another_library():
    line = said(FIRST_USE, "libc.so.6")
    assert line.startswith("ImportError: codrask has no library: libc.so.6 has no codrask_version: it is older than"), line


def test_it_can_be_imported_and_columns_made():
    assert said("from codrask import Column, Step, Refused\nprint(repr(Column.numbers('u8', b'ab')))", "/nowhere") == (
        "<Column u8 of 2 rows, not checked>"
    )
    assert said("from codrask import Column\nprint(Column.from_pylist([1, None], 'i8?').type)", "/nowhere") == "i8?"


class Older:
    """A library that lacks the calls that came later."""

    def __init__(self, whole, lacks):
        self._whole, self._lacks = whole, lacks

    def __getattr__(self, name):
        if name in self._lacks:
            raise AttributeError(name)
        return getattr(self._whole, name)


def with_library(which, call):
    """What a call gives, or raises, with another library."""
    was, library._loaded = library._loaded, which
    try:
        return call()
    except Exception as error:
        return error
    finally:
        library._loaded = was


def test_an_older_library():
    older, whole = Older(library.load(), library.LATER), of.numbers([1, None])
    schema, array = whole.schema(), whole.structure()
    places = ctypes.addressof(schema.part), ctypes.addressof(array.part)
    assert with_library(older, lambda: Column.from_arrow(*places, most_bytes=99).to_pylist()) == [1, None]
    assert with_library(older, lambda: Column.from_arrow(of.Capsules(whole)).to_pylist()) == [1, None]
    out, texts = Column.from_pylist([1], "u8").__arrow_c_array__, Column.from_pylist(["a"], "text").to_pylist
    for call in (lambda: Column.from_arrow(*places, columns=["a"]), lambda: Column.from_arrow(whole), out, texts):
        error = with_library(older, call)
        assert isinstance(error, ImportError) and "it is older than this package" in str(error), error
    error = with_library(library.load(), lambda: run([Column.from_pylist([1], "u8")], [Step._of(99, array=0)]))
    assert isinstance(error, ImportError) and "has no step 99: it is older than this package" in str(error), error
    array.part.n_buffers = 7
    error = with_library(older, lambda: Column.from_arrow(*places))
    assert isinstance(error, Refused) and str(error) == "BadArrow (number 64) at node 0, row or position 0", error


def test_refusals_are_kept():
    fault = Column.records({"a": Column.numbers("i32", b"abc")}, 0).fault()
    again = pickle.loads(pickle.dumps(fault))
    assert (again.number, again.path, again.format, str(again)) == (3, "a", "i32", str(fault))
    assert str(fault) == "LengthMismatch (number 3) at node 1, row or position 0, in column a of i32"


# ---- type stubs

def stubs():
    with open(os.path.join(FOLDER, "__init__.pyi"), encoding="utf-8") as it:
        return ast.parse(it.read()).body


def parameters(function):
    """The names of what a stub's function takes, and which of them have a default."""
    told, defaults = function.args, function.args.defaults
    names = [argument.arg for argument in told.args]
    found = dict.fromkeys(names, False)
    found.update(dict.fromkeys(names[len(names) - len(defaults) :], True) if defaults else {})
    found.update({argument.arg: default is not None for argument, default in zip(told.kwonlyargs, told.kw_defaults)})
    return {name: default for name, default in found.items() if name not in ("self", "cls")}


def taken(function):
    """The same of a function."""
    return {
        name: one.default is not one.empty
        for name, one in inspect.signature(function).parameters.items()
        if name not in ("self", "cls")
    }


def overloads(body):
    """The functions of a stub by name; of several the last one."""
    return {item.name: item for item in body if isinstance(item, ast.FunctionDef)}


def test_stubs_tell_of_each_call():
    told = {item.name: item for item in stubs() if isinstance(item, (ast.ClassDef, ast.FunctionDef))}
    assert set(codrask.__all__) <= set(told), set(codrask.__all__) - set(told)
    for name in codrask.__all__:
        made = getattr(codrask, name)
        if isinstance(told[name], ast.FunctionDef):
            assert parameters(told[name]) == taken(made), name
            continue
        functions = overloads(told[name].body)
        fields = {item.target.id for item in told[name].body if isinstance(item, ast.AnnAssign)}
        public = {part for part in vars(made) if not part.startswith("_")}
        assert public <= {*functions, *fields}, (name, public - {*functions, *fields})
        for part, function in functions.items():
            assert part in vars(made), (name, part)
            assert len(parameters(function)) == len(taken(getattr(made, part))), (name, part)
            if not part.startswith("__"):
                assert parameters(function) == taken(getattr(made, part)), (name, part, parameters(function))


def test_marked_as_typed():
    assert os.path.exists(os.path.join(FOLDER, "py.typed"))


passed = failed = 0
for name, test in sorted(globals().items()):
    if name.startswith("test_"):
        try:
            test()
            passed += 1
        except Exception:
            print(name)
            traceback.print_exc()
            failed += 1
print(f"{passed} passed, {failed} failed")
raise SystemExit(failed != 0)
