"""Finds and loads the shared library: the one that SPATIALJOIN_LIBRARY names, else the one inside this package, else the system's."""

import ctypes
import os

from .version import VERSION

OWN = os.path.join(os.path.dirname(os.path.abspath(__file__)), "libspatialjoin.so")
SYSTEM = "libspatialjoin.so.0"


class LibraryError(ImportError):
    """There is no shared library, or it is not of this package's version."""


class Node(ctypes.Structure):
    """A record of a table of nodes."""

    _fields_ = [("kind", ctypes.c_uint8), ("start", ctypes.c_uint16), ("end", ctypes.c_uint16)]

    def __repr__(self):
        return f"Node(kind={self.kind}, start={self.start}, end={self.end})"

    def __eq__(self, other):
        return isinstance(other, Node) and (self.kind, self.start, self.end) == (other.kind, other.start, other.end)

    __hash__ = None


# What is only read, and what is written; each with its length.
READ, WRITTEN = [ctypes.c_char_p, ctypes.c_size_t], [ctypes.c_void_p, ctypes.c_size_t]
LENGTH = [ctypes.c_size_t]
TABLE = [ctypes.POINTER(Node), ctypes.c_size_t]
LIST = [ctypes.c_void_p, ctypes.c_size_t]
SETTINGS = [ctypes.c_uint8, ctypes.c_uint32, ctypes.c_uint32]

ARGUMENTS = {
    "load": READ + WRITTEN + TABLE,
    "extract": WRITTEN + LENGTH + WRITTEN + TABLE + SETTINGS,
    "exchange": WRITTEN + LENGTH + WRITTEN,
    "logical": READ,
    "print": READ + WRITTEN,
    "merge": READ + WRITTEN + LENGTH + WRITTEN + TABLE,
    "project": WRITTEN + LENGTH + WRITTEN + LIST + LIST,
    "put": WRITTEN + [ctypes.c_uint8] + READ,
    "serve": WRITTEN + WRITTEN,
    "version": [],
    "extract_all": READ + WRITTEN + SETTINGS,
    "explain": READ + WRITTEN + SETTINGS,
}


def path():
    """Where the library is looked for."""
    named = os.environ.get("SPATIALJOIN_LIBRARY")
    return named if named else OWN if os.path.exists(OWN) else SYSTEM


def words(number):
    """A version in words."""
    return f"{number // 65536}.{number // 256 % 256}.{number % 256}"


def opened(where):
    """The library there, if it is of this package's version."""
    try:
        library = ctypes.CDLL(where)
        library.spatialjoin_version.restype = ctypes.c_int64
        found = words(library.spatialjoin_version())
    except (OSError, AttributeError) as error:
        raise LibraryError(f"no shared library: {error}. hosts/c/shared links it, before pip installs the package; or "
                           "SPATIALJOIN_LIBRARY names it, or hosts/c/install installs it") from None
    if found != VERSION:
        raise LibraryError(f"{where} is of version {found}, and this package of {VERSION}")
    return library


class Calls:
    """The library's functions by their names; it is loaded with the first."""

    def __init__(self):
        self.library = None

    def __getattr__(self, name):
        if self.library is None:
            self.library = opened(path())
        try:
            function = getattr(self.library, f"spatialjoin_{name}")
        except AttributeError:
            raise NotImplementedError(f"the library, of version {VERSION}, has no call {name}") from None
        function.argtypes = ARGUMENTS[name]
        function.restype = ctypes.c_int64
        setattr(self, name, function)
        return function


C = Calls()


def has(name):
    """Whether the library has a call of this name."""
    try:
        return bool(getattr(C, name))
    except NotImplementedError:
        return False
