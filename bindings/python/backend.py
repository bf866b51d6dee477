"""Makes the wheel of the package, with the shared object in it, for `pip wheel` and `pip install`. It needs nothing but Python:
no other build backend is asked for. The shared object is the one that CODRASK_LIBRARY names, else that of `tools/foreign
--build`."""

import base64
import hashlib
import os
import re
import zipfile

HERE = os.path.dirname(os.path.abspath(__file__))
BUILT = os.path.join(HERE, "..", "..", "crates", "vx_c", "out", "libcodrask.so")
TAG = "py3-none-linux_x86_64"
FIELDS = {"name": "Name", "version": "Version", "description": "Summary", "requires-python": "Requires-Python"}
WHEN = (2020, 1, 1, 0, 0, 0)


def project():
    """The lines of pyproject.toml that hold one text, by their names."""
    with open(os.path.join(HERE, "pyproject.toml"), encoding="utf-8") as it:
        return dict(re.findall(r'^([a-z-]+) = "([^"]*)"$', it.read(), re.M))


def library():
    """Where the shared object lies."""
    place = os.environ.get("CODRASK_LIBRARY") or BUILT
    if not os.path.isfile(place):
        how = "'tools/foreign --build' makes it, or CODRASK_LIBRARY says where it lies"
        raise FileNotFoundError(f"no shared object at {place}: {how}")
    return place


def read(*place):
    with open(os.path.join(*place), "rb") as it:
        return it.read()


def metadata(told):
    """What the wheel says of the package."""
    lines = ["Metadata-Version: 2.1", *(f"{field}: {told[name]}" for name, field in FIELDS.items())]
    lines += ["License: Apache-2.0", "Description-Content-Type: text/markdown", ""]
    return "\n".join([*lines, read(HERE, "README.md").decode()]).encode()


def contents(told, folder):
    """The files of the wheel by their names, but its record."""
    package = os.path.join(HERE, "codrask")
    names = sorted(name for name in os.listdir(package) if name.endswith((".py", ".pyi", ".typed")))
    files = {f"codrask/{name}": read(package, name) for name in names}
    files["codrask/libcodrask.so"] = read(library())
    files[f"{folder}/METADATA"] = metadata(told)
    files[f"{folder}/WHEEL"] = f"Wheel-Version: 1.0\nGenerator: codrask\nRoot-Is-Purelib: false\nTag: {TAG}\n".encode()
    return files


def record_of(name, data):
    """The line of a file in the record of a wheel."""
    digest = base64.urlsafe_b64encode(hashlib.sha256(data).digest()).rstrip(b"=").decode()
    return f"{name},sha256={digest},{len(data)}\n"


# ---- what pip calls

def get_requires_for_build_wheel(config_settings=None):
    """Nothing is needed."""
    return []


def build_wheel(wheel_directory, config_settings=None, metadata_directory=None):
    """Writes the wheel into a folder, and gives its name. Of the same files the same bytes are made."""
    told = project()
    folder = f"{told['name']}-{told['version']}.dist-info"
    files = contents(told, folder)
    record = "".join(record_of(name, data) for name, data in files.items()) + f"{folder}/RECORD,,\n"
    wheel = f"{told['name']}-{told['version']}-{TAG}.whl"
    with zipfile.ZipFile(os.path.join(wheel_directory, wheel), "w", zipfile.ZIP_DEFLATED) as it:
        for name, data in {**files, f"{folder}/RECORD": record.encode()}.items():
            entry = zipfile.ZipInfo(name, WHEN)
            entry.external_attr, entry.compress_type = 0o644 << 16, zipfile.ZIP_DEFLATED
            it.writestr(entry, data)
    return wheel


def build_sdist(sdist_directory, config_settings=None):
    """There is none: the shared object is built by the kit."""
    raise NotImplementedError("codrask is built in a clone; it has no source distribution")
