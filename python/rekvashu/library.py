"""Finds and loads the shared library, and says the types of its functions. It is loaded by the first call, not by the import."""
import ctypes
import functools
import os

from . import version

NAME = "libddm_c.so"
HERE = os.path.dirname(os.path.abspath(__file__))
MADE = os.path.join(os.path.dirname(os.path.dirname(HERE)), "target", "shared", NAME)

SIZE, UINT32, DOUBLE = ctypes.c_size_t, ctypes.c_uint32, ctypes.c_double
WHOLES, FLOATS = [ctypes.POINTER(SIZE), SIZE], [ctypes.POINTER(DOUBLE), SIZE]
BYTES = [ctypes.c_void_p, SIZE]
POINTS = FLOATS + [SIZE]


class Head(ctypes.Structure):
    """The head of a table: how many slots have been given out, and how many of them are live."""
    _fields_ = [("slots", SIZE), ("live", SIZE)]


HEAD = [ctypes.POINTER(Head)]
TREE = WHOLES * 3 + FLOATS + WHOLES
ROOM, RECORD = FLOATS + WHOLES, WHOLES + FLOATS
BUILD = TREE + ROOM + RECORD

# The public functions and their arguments, as in c/ddm.h; each returns a refusal number, ddm_version its number.
FUNCTIONS = {
    "ddm_version": [],
    "ddm_build_sizes": [SIZE, SIZE, UINT32] + WHOLES,
    "ddm_build": POINTS + [UINT32] * 5 + BUILD + WHOLES,
    "ddm_build_depth_first": POINTS + [UINT32] * 5 + BUILD + WHOLES,
    "ddm_add": HEAD + BYTES + POINTS + FLOATS + WHOLES,
    "ddm_retire": HEAD + BYTES + POINTS + [SIZE],
    "ddm_close": HEAD + BYTES + POINTS + WHOLES + WHOLES,
    "ddm_build_slots": [SIZE] * 2 + BYTES + POINTS + [UINT32] * 5 + BUILD + WHOLES,
    "ddm_store": POINTS + [UINT32] * 5 + WHOLES + TREE + BYTES + WHOLES,
    "ddm_load": POINTS + [UINT32] * 5 + BYTES + TREE + WHOLES,
    "ddm_sample": POINTS + [SIZE] * 2 + WHOLES + FLOATS + WHOLES + FLOATS + WHOLES,
    "ddm_level_size": [SIZE, UINT32, UINT32] + WHOLES,
    "ddm_quotas": WHOLES + [SIZE] + WHOLES * 3,
    "ddm_square_root": [DOUBLE] + FLOATS,
    "ddm_row_test": [SIZE, SIZE, SIZE],
}


class LibraryError(OSError):
    """The shared library is not there, or is not the one that this package is for."""


def found():
    """Where the shared library is looked for: a path, or its bare name for the system's own search."""
    return os.environ.get("REKVASHU_LIBRARY") or (MADE if os.path.exists(MADE) else NAME)


@functools.lru_cache(maxsize=None)
def opened(path):
    try:
        library = ctypes.CDLL(path)
    except OSError as wrong:
        raise LibraryError(f"the shared library can't be loaded ({wrong}): make it by python/make_shared.sh, "
                           "or name it in REKVASHU_LIBRARY") from None
    for name, arguments in FUNCTIONS.items():
        try:
            function = getattr(library, name)
        except AttributeError:
            raise LibraryError(f"{path} has no {name}: it was made from another version of the library") from None
        function.argtypes, function.restype = arguments, SIZE
    number = library.ddm_version()
    if not version.fits(number):
        raise LibraryError(f"{path} is version {version.spelt(number)}, and this package is for {version.VERSION}")
    return library


def load():
    return opened(found())
