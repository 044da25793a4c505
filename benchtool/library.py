"""libchoduljin, called by ctypes. include/choduljin.h has the meaning of every function, word and answer."""

import ctypes
import os

from benchtool.trouble import Refused, Trouble

FILE = "libchoduljin.so"
VARIABLE = "CHODULJIN_LIBRARY"
# From the directory of the package: where `make` builds it, and where `make install` puts it beside the program.
PLACES = ("build", "../../lib")

# Answers.
DONE, ON, BAD, EMPTY = 0, 256, 257, 258

HEADER_SIZE = 64
RECORD_SIZE = 172
RECORDS_MOST = 128
NAME_SIZE = 128
USER_VOLUMES = 128
PEBS_MOST = 4096
IMAGE_MOST = PEBS_MOST * 262144
LISTING_MOST = 262144
LAYOUT_VOLUME = 0x7FFFEFFF
NONE = 0xFFFFFFFF

REPORT = ("number", "place", "peb_size", "unit", "sub_unit", "vid_start", "data_start", "leb_size", "peb_count",
          "entries", "mean", "highest", "image_seq", "read_only", "table", "copies_mark", "grade")
PLAN_WORDS, PLAN_OLD, PLAN_STEPS = 24, 5, 23
WRITE_WORDS = 3
GEOMETRY = ("peb_size", "unit", "sub_unit", "vid_start", "data_start", "leb_size")
EC = ("version", "counter", "vid_start", "data_start", "image_seq")
VID = ("version", "vol_type", "copy_flag", "compat", "volume", "leb", "data_size", "used_lebs", "data_pad",
       "data_crc", "sequence")
RECORD = ("reserved", "alignment", "data_pad", "vol_type", "update_marker", "name_length", "flags")

POINTER, SIZE, WORD = ctypes.c_void_p, ctypes.c_size_t, ctypes.c_uint32
SLICE = (POINTER, SIZE)
FUNCTIONS = {
    "attach": SLICE * 6,
    "listing": SLICE * 6,
    "begin": SLICE * 5 + (WORD,) * 3 + SLICE,
    "step": SLICE * 2,
    "next_write": SLICE * 3,
    "build": SLICE + (WORD,) + SLICE * 3,
    "geometry": (WORD,) * 3 + SLICE,
    "read_ec": SLICE * 2,
    "read_vid": SLICE + (WORD,) + SLICE,
    "write_ec": SLICE * 2,
    "read_record": SLICE + (WORD,) * 2 + SLICE * 2,
    "version": (),
}


def words64(count):
    return (ctypes.c_uint64 * count)()


def words32(count):
    return (ctypes.c_uint32 * count)()


class Image:
    """A dump's bytes in memory of our own, or a file mapped for writing: something writable that ctypes can lend."""

    def __init__(self, buffer, length=None):
        self.buffer = buffer
        self.length = len(buffer) if length is None else length
        self.view = memoryview(buffer)[:self.length]
        # An empty image has no first byte; its address is not read.
        self.first = ctypes.c_char.from_buffer(buffer) if len(buffer) else ctypes.c_char()
        self.address = ctypes.addressof(self.first)

    def at(self, place, size):
        return bytes(self.view[place:place + size])

    def release(self):
        """Lets a mapping be closed."""
        self.view.release()
        self.first = self.address = None


class Tables:
    """The lent tables, long enough for every image, and the report's words."""

    def __init__(self):
        self.pebs = words32(2 * PEBS_MOST)
        self.map = words32(3 * PEBS_MOST)
        self.states = words32(USER_VOLUMES)
        self.report = words64(len(REPORT))


class Library:
    def __init__(self, path):
        self.path = path
        try:
            self.loaded = ctypes.CDLL(path)
        except OSError as error:
            raise Trouble("the library cannot be loaded: %s" % error)

    def __getattr__(self, name):
        """A function of the library by its name with `_` in front, bound when it is first called."""
        if name[1:] not in FUNCTIONS:
            raise AttributeError(name)
        try:
            function = getattr(self.loaded, "choduljin" + name)
        except AttributeError:
            raise Trouble("%s has no choduljin%s: it is of another version" % (self.path, name))
        function.argtypes = FUNCTIONS[name[1:]]
        function.restype = WORD
        setattr(self, name, function)
        return function

    def version(self):
        number = self._version()
        return "%d.%d.%d" % (number >> 16, number >> 8 & 0xFF, number & 0xFF)

    # A whole image

    def attach(self, slip, image):
        """The tables; whether the image was refused, and how, is in their report."""
        tables = Tables()
        self._attach(*lent(slip), image.address, image.length, *lent(tables.pebs), *lent(tables.map),
                     *lent(tables.states), *lent(tables.report))
        return tables

    def listing(self, tables):
        out, length = ctypes.create_string_buffer(LISTING_MOST), words64(1)
        answer = self._listing(*lent(tables.report), *lent(tables.pebs), *lent(tables.map), *lent(tables.states),
                               *lent(out), *lent(length))
        expect(answer, DONE, "listing")
        return out.raw[:length[0]]

    def refusal(self, number, place):
        """The library's line of a refusal, as what is raised for it."""
        tables = Tables()
        tables.report[0], tables.report[1] = number, place
        return Refused(number, place, self.listing(tables).decode("ascii").rstrip("\n"))

    # A move

    def begin(self, slip, image, volume, leb, target):
        """The words of a plan; Refused if the move is."""
        tables, plan = Tables(), words64(PLAN_WORDS)
        answer = self._begin(*lent(slip), image.address, image.length, *lent(tables.pebs), *lent(tables.map),
                             *lent(tables.states), volume, leb, target, *lent(plan))
        if answer != DONE:
            raise self.refusal(answer, plan[1])
        return plan

    def step(self, plan, image):
        """Carries out the next step: whether there was one."""
        answer = self._step(*lent(plan), image.address, image.length)
        if answer not in (ON, DONE):
            raise self.refusal(answer, 0)
        return answer == ON

    def next_write(self, plan, image):
        """(kind, from which byte, how many): kind 1 stores bytes, 2 erases a block, 0 is none."""
        write = words64(WRITE_WORDS)
        answer = self._next_write(*lent(plan), image.address, image.length, *lent(write))
        if answer != DONE:
            raise self.refusal(answer, 0)
        return tuple(write)

    # A new image

    def build(self, slip, image_seq, lengths, content, image):
        """Fills the image with the slip's volumes. If they are Refused, nothing is stored."""
        counts = words32(len(lengths))
        counts[:] = lengths
        answer = self._build(*lent(slip), image_seq, *lent(counts), content.address, content.length,
                             image.address, image.length)
        if answer != DONE:
            raise self.refusal(answer, 0)

    # Small pieces

    def geometry(self, peb_size, unit, sub_unit):
        """The words of a geometry as a dictionary; None if the numbers make none."""
        words = words64(len(GEOMETRY))
        if self._geometry(peb_size, unit, sub_unit, *lent(words)) != DONE:
            return None
        return dict(zip(GEOMETRY, words))

    def read_ec(self, image, place):
        """The words of a good EC header at this byte of the image, else None."""
        if place + HEADER_SIZE > image.length:
            return None
        words = words64(len(EC))
        answer = self._read_ec(image.address + place, HEADER_SIZE, words, len(EC))
        return dict(zip(EC, words)) if answer == DONE else None

    def read_vid(self, image, place, leb_size):
        """The words of a good VID header at this byte of the image, else None."""
        if place + HEADER_SIZE > image.length:
            return None
        words = words64(len(VID))
        answer = self._read_vid(image.address + place, HEADER_SIZE, leb_size, words, len(VID))
        return dict(zip(VID, words)) if answer == DONE else None

    def ec_magic(self):
        """The bytes that every EC header begins with, from one that the library writes."""
        words = (ctypes.c_uint64 * len(EC))(1, 0, HEADER_SIZE, 2 * HEADER_SIZE, 0)
        out = ctypes.create_string_buffer(HEADER_SIZE)
        expect(self._write_ec(*lent(words), *lent(out)), DONE, "write_ec")
        return out.raw[:4]

    def read_record(self, image, place, leb_size, unit):
        """The words of a good volume record with its name's bytes as `name`, else None."""
        words, name = words64(len(RECORD)), (ctypes.c_uint8 * NAME_SIZE)()
        answer = self._read_record(image.address + place, RECORD_SIZE, leb_size, unit, *lent(words), *lent(name))
        if answer != DONE:
            return None
        record = dict(zip(RECORD, words))
        record["name"] = bytes(name)[:record["name_length"]]
        return record


def lent(data):
    """A slice, as the library takes it: where it is, and how many elements it has."""
    return data, len(data)


def expect(answer, wanted, name):
    if answer != wanted:
        raise Trouble("choduljin_%s answers %d: a fault of this program, please report it" % (name, answer))


def tried_paths():
    """Where the library may be, in the order of looking."""
    home = os.path.dirname(os.path.dirname(os.path.realpath(__file__)))
    return [os.path.normpath(os.path.join(home, place, FILE)) for place in PLACES]


def load():
    """The library that the environment names, or the first that is found."""
    named = os.environ.get(VARIABLE)
    if named:
        return Library(named)
    paths = tried_paths()
    for path in paths:
        if os.path.exists(path):
            return Library(path)
    raise Trouble("%s is not built: `make` builds it, or %s names it; looked for it at %s"
                  % (FILE, VARIABLE, ", ".join(paths)))
