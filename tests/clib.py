"""The library's C functions by ctypes, for the tests: nothing of the bench tool's is used.

What a call may write is lent with guard words behind it, and all of it is filled before: whoever compares sees the
words that the answer holds, those that it left, and those beyond the lent length.
"""

import ctypes
import os
from array import array

ROOT = os.path.dirname(os.path.dirname(os.path.abspath(__file__)))
VARIABLE = "CHODULJIN_LIBRARY"
PLACE = "build"
FILE = "libchoduljin.so"

ON, BAD, EMPTY, UNFIT = 256, 257, 258, 259
REPORT_WORDS, PLAN_WORDS, WRITE_WORDS, GEOMETRY_WORDS = 17, 24, 3, 6
EC_WORDS, VID_WORDS, RECORD_WORDS, NAME_BYTES = 5, 11, 7, 128
LISTING_MOST = 262144

GUARD = 5

POINTER, SIZE, WORD = ctypes.c_void_p, ctypes.c_size_t, ctypes.c_uint32
SLICE = (POINTER, SIZE)
FUNCTIONS = {
    "attach": SLICE * 6,
    "listing": SLICE * 6,
    "begin": SLICE * 5 + (WORD,) * 3 + SLICE,
    "step": SLICE * 2,
    "finish": SLICE * 2,
    "next_write": SLICE * 3,
    "build": SLICE + (WORD,) + SLICE * 3,
    "geometry": (WORD,) * 3 + SLICE,
    "read_ec": SLICE * 2,
    "read_vid": SLICE + (WORD,) + SLICE,
    "write_ec": SLICE * 2,
    "write_vid": SLICE + (WORD,) + SLICE,
    "read_record": SLICE + (WORD,) * 2 + SLICE * 2,
    "version": (),
}


def library_path():
    """The library that the environment names, or the one that `make` built."""
    named = os.environ.get(VARIABLE)
    if named:
        return os.path.abspath(named)
    path = os.path.join(ROOT, PLACE, FILE)
    if os.path.exists(path):
        return path
    raise SystemExit("%s is not built: `make` builds it, or %s names it" % (FILE, VARIABLE))


class Lent:
    """So many elements lent (codes: B bytes, I u32, Q u64), filled, with guards behind them."""

    def __init__(self, code, length, fill):
        self.length = length
        self.cells = array(code, [fill]) * (length + GUARD)
        self.guards = self.cells[length:]

    @classmethod
    def of(cls, code, values, fill):
        """Lent with these values in them."""
        lent = cls(code, len(values), fill)
        lent.cells[:len(values)] = array(code, values)
        return lent

    def words(self):
        """What the lent elements hold; the guards must be as they were."""
        assert self.cells[self.length:] == self.guards, "elements beyond the lent ones changed"
        return self.cells[:self.length].tolist()

    def slice(self):
        return self.cells.buffer_info()[0], self.length


class Held:
    """An image that a call may write to, guards behind it."""

    def __init__(self, data):
        self.length = len(data)
        self.cells = bytearray(data + b"\xa5" * GUARD)
        self.first = (ctypes.c_char * len(self.cells)).from_buffer(self.cells)

    def bytes(self):
        assert self.cells[self.length:] == b"\xa5" * GUARD, "bytes beyond the image changed"
        return bytes(self.cells[:self.length])

    def slice(self):
        return ctypes.addressof(self.first), self.length


class Functions:
    """`call("attach", slice, slice, ..)`: a function by its name without `choduljin_`, and its answer."""

    def __init__(self, path):
        loaded = ctypes.CDLL(path)
        self.functions = {}
        for name, arguments in FUNCTIONS.items():
            function = getattr(loaded, "choduljin_" + name)
            function.argtypes, function.restype = arguments, WORD
            self.functions[name] = function

    def call(self, name, *parts):
        words = []
        for part in parts:
            if isinstance(part, bytes):
                words += [part, len(part)]
            elif isinstance(part, int):
                words.append(part)
            else:
                words += part.slice()
        return self.functions[name](*words)
