"""The names of term.h as the installed ncurses has them: `boolnames`, `numnames` and `strnames` of its libtinfo, and the long
names, which are `boolfnames`, `numfnames` and `strfnames`."""
import ctypes
import ctypes.util
from itertools import takewhile

VERSION = "ncurses 6.4"
# The array of a kind, which ends with a null pointer.
ARRAYS = {"flag": "boolnames", "number": "numnames", "text": "strnames"}
LONG_ARRAYS = {"flag": "boolfnames", "number": "numfnames", "text": "strfnames"}


def installed():
    """The library, or why there is none to compare with."""
    path = ctypes.util.find_library("tinfo")
    if path is None:
        return None, "there is none"
    library = ctypes.CDLL(path)
    library.curses_version.restype = ctypes.c_char_p
    version = library.curses_version().decode()
    return (library, None) if version.startswith(VERSION) else (None, f"it is of {version}")


def names_of(library, array):
    """The names that an array has, by their index."""
    pointers = (ctypes.c_char_p * 1000).in_dll(library, array)
    return [name.decode() for name in takewhile(lambda name: name is not None, pointers)]


def all_names():
    """The names of each kind by their index; none if the library is not there."""
    return names_by(ARRAYS)


def long_names():
    """The long names of each kind likewise."""
    return names_by(LONG_ARRAYS)


def names_by(arrays):
    library, _ = installed()
    return library and {kind: dict(enumerate(names_of(library, array))) for kind, array in arrays.items()}
