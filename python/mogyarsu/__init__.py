"""Compiled terminfo entries and their capabilities, by the library libti, each call of which is proved (ti(3)).

    >>> import mogyarsu
    >>> entry = mogyarsu.Entry.from_path("examples/linux")
    >>> entry["cup"], entry["colors"], entry["am"]
    (b'\\x1b[%i%p1%d;%p2%dH', 8, True)
    >>> mogyarsu.send(entry["cup"], 4, 9)  # what a terminal gets
    b'\\x1b[5;10H'
    >>> "smcup" in entry, len(entry), list(entry)[:3]
    (False, 121, ['am', 'xenl', 'eo'])
    >>> move = mogyarsu.Capability(entry["cup"])  # compiled once, for what is sent often
    >>> move.send(4, 9), move(0, 0)
    (b'\\x1b[5;10H', b'\\x1b[1;1H')
    >>> mogyarsu.Entry(mogyarsu.encode("ring|a bell", [], [], [None, b"\\x07"]))["bel"]  # an entry that is made
    b'\\x07'

An entry is a mapping of what the terminal has: booleans that are set, numeric capabilities, and strings. Names are those of
terminfo(5), the short ones such as cup and the long ones such as cursor_address, and those that the entry gives to its user-defined
capabilities. Refused bytes raise Fault, which names the argument, and has the word of ti_word (ti(3)), its sentence and the place; a
name that nothing has raises KeyError, an argument of another type TypeError, and a number out of its range ValueError.
"""

# Where the library is, from this folder. If it is not there, the loader looks for the last part of it. The compiled module has it inside.
LIBRARY = "libti.so.0.4"

try:
    from mogyarsu._compiled import Capability, Entry, Fault, Limits, Variables, check, encode, expand, pad, send, version
except ImportError:
    from mogyarsu._by_ctypes import Capability, Entry, Fault, Limits, Variables, check, encode, expand, pad, send, version

__all__ = ["Capability", "Entry", "Fault", "Limits", "Variables", "check", "encode", "expand", "pad", "send", "version"]
__version__ = "%d.%d.%d" % version()

for _one in (Entry, Fault, Limits, Variables):
    _one.__module__ = __name__
