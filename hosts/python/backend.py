"""Builds the package as pip asks for it, with the standard library alone: its modules, the words of examples/, the version of the header,
and the shared library: the one that SPATIALJOIN_LIBRARY names, else the one that hosts/c/shared has linked, if there is one. Nothing is
downloaded, so it works without a network."""

import base64
import ctypes
import hashlib
import os
import re
import zipfile

HERE = os.path.dirname(os.path.abspath(__file__))
ROOT = os.path.dirname(os.path.dirname(HERE))
SHARED = os.path.join(ROOT, "target", "shared", "libspatialjoin.so")


class UnsupportedOperation(Exception):
    """What this builder does not do."""


def version():
    """The header's."""
    with open(os.path.join(ROOT, "include", "spatialjoin.h"), encoding="utf-8") as header:
        return re.search(r'^#define SPATIALJOIN_VERSION "(.*)"$', header.read(), re.MULTILINE)[1]


def metadata():
    lines = ["Metadata-Version: 2.1", "Name: spatialjoin", f"Version: {version()}", "Requires-Python: >=3.8",
             "Summary: Join filter planner for spatial joins, proved against its definitions (x86-64 Linux)",
             "License: Apache-2.0"]
    return ("\n".join(lines) + "\n").encode()


def wheel(tag):
    pure = "true" if tag.endswith("-any") else "false"
    return f"Wheel-Version: 1.0\nGenerator: spatialjoin\nRoot-Is-Purelib: {pure}\nTag: {tag}\n".encode()


def modules(folder, into):
    """The modules of a folder by the paths that they get."""
    for name in sorted(os.listdir(folder)):
        if name.endswith(".py"):
            yield f"{into}/{name}", contents(os.path.join(folder, name))


def contents(path):
    with open(path, "rb") as file:
        return file.read()


def package_files():
    """All that is installed, by path."""
    files = dict(modules(os.path.join(HERE, "spatialjoin"), "spatialjoin"))
    files.update(modules(os.path.join(ROOT, "examples", "words"), "spatialjoin/words"))
    files["spatialjoin/version.py"] = f'"""The header\'s version."""\n\nVERSION = "{version()}"\n'.encode()
    shared = os.environ.get("SPATIALJOIN_LIBRARY") or SHARED
    if shared != SHARED or os.path.exists(SHARED):
        require_version(shared)
        files["spatialjoin/libspatialjoin.so"] = contents(shared)
    return files


def require_version(shared):
    """A library of another version is not taken along."""
    number = ctypes.CDLL(shared).spatialjoin_version()
    found = f"{number // 65536}.{number // 256 % 256}.{number % 256}"
    if found != version():
        raise RuntimeError(f"{shared} is of version {found}, and the header of {version()}: hosts/c/shared links a new one")


def digest(data):
    return "sha256=" + base64.urlsafe_b64encode(hashlib.sha256(data).digest()).rstrip(b"=").decode()


def build_wheel(wheel_directory, config_settings=None, metadata_directory=None):
    files = package_files()
    tag = "py3-none-linux_x86_64" if "spatialjoin/libspatialjoin.so" in files else "py3-none-any"
    info = f"spatialjoin-{version()}.dist-info"
    files[f"{info}/METADATA"] = metadata()
    files[f"{info}/WHEEL"] = wheel(tag)
    for name in ("LICENSE", "NOTICE"):
        files[f"{info}/{name}"] = contents(os.path.join(ROOT, name))
    record = [f"{path},{digest(data)},{len(data)}" for path, data in files.items()] + [f"{info}/RECORD,,"]
    files[f"{info}/RECORD"] = ("\n".join(record) + "\n").encode()
    name = f"spatialjoin-{version()}-{tag}.whl"
    with zipfile.ZipFile(os.path.join(wheel_directory, name), "w", zipfile.ZIP_DEFLATED) as archive:
        for path, data in files.items():
            archive.writestr(path, data)
    return name


def build_sdist(sdist_directory, config_settings=None):
    raise UnsupportedOperation("the package is built from the repository's folder: it has parts outside its own")
