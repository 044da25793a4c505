"""Reading a dump. A read that fails, or a file that changes while it is read, is never taken for a dump.

The bytes are read into memory of our own. A mapping of the file would save that, but a page of it that cannot be
read, or that is cut off meanwhile, ends the process by a signal; and its bytes could change while they are judged.
"""

import errno
import mmap
import os
import stat
from collections import namedtuple

from benchtool.library import IMAGE_MOST, Image
from benchtool.numbers import grouped
from benchtool.progress import Progress
from benchtool.trouble import Trouble, of_system

STANDARD_INPUT = "-"
PIECE = 8 << 20

# `front` are bytes before the image (a slip), `length` the file's length, `sha256` its checksum if it was asked for.
Dump = namedtuple("Dump", "name image length front sha256")

# How to read: pages with spare bytes behind each (0 for none), bytes in front, and whether to make the checksum.
Way = namedtuple("Way", "page spare front hashed")
PLAIN = Way(0, 0, 0, False)


def read_piece(file, view):
    """One call of `read`: the number of bytes, 0 at the end."""
    count = file.readinto(view)
    if count is None:
        raise BlockingIOError(errno.EAGAIN, os.strerror(errno.EAGAIN))
    return count


def read_dump(path, way=PLAIN, file=None):
    """The dump, or Trouble with the system's words. A file that is open already is read from where it stands."""
    name = "standard input" if path == STANDARD_INPUT else path
    try:
        if file is not None:
            return Reader(name, file, way).dump()
        with opened(path) as file:
            return Reader(name, file, way).dump()
    except OSError as error:
        raise of_system(name, error)
    except MemoryError:
        raise Trouble("%s: %s" % (name, os.strerror(errno.ENOMEM)))


def read_into(view, name, file, before):
    """All bytes of a plain file, straight into the view; as `before` says, there are as many."""
    reader = Reader(name, file, PLAIN)
    try:
        with Progress("reading " + name, len(view)) as progress:
            reader.fill_whole(view, progress)
        if not reader.at_end():
            raise reader.changed()
        reader.unchanged(before)
    except OSError as error:
        raise of_system(name, error)


def opened(path):
    if path == STANDARD_INPUT:
        return open(0, "rb", buffering=0, closefd=False)
    return open(path, "rb", buffering=0)


class Reader:
    def __init__(self, name, file, way):
        self.name = name
        self.file = file
        self.way = way
        self.digest = None
        if way.hashed:
            import hashlib
            self.digest = hashlib.sha256()
        self.length = 0

    def dump(self):
        before = os.fstat(self.file.fileno())
        front = self.front()
        if not stat.S_ISREG(before.st_mode):
            image = self.stream()
        else:
            image = self.plain_file(before)
            self.unchanged(before)
        return Dump(self.name, image, self.length, front, self.digest and self.digest.hexdigest())

    def front(self):
        held = bytearray(self.way.front)
        count = self.fill(memoryview(held))
        return bytes(held[:count])

    def fill(self, view):
        """As many bytes as there are, up to the view's length."""
        count = 0
        while count < len(view):
            got = read_piece(self.file, view[count:count + PIECE])
            if got == 0:
                break
            count += got
        if self.digest is not None:
            self.digest.update(view[:count])
        self.length += count
        return count

    def at_end(self):
        return read_piece(self.file, memoryview(bytearray(1))) == 0

    # A file of known length

    def plain_file(self, before):
        wanted = max(0, before.st_size - self.file.tell())
        if wanted > self.raw_most():
            return self.too_long(before)
        with Progress("reading " + self.name, wanted) as progress:
            image = self.known_length(wanted, progress)
        if not self.at_end():
            raise self.changed()
        return image

    def too_long(self, before):
        """No byte of it need be read: the library refuses by the length."""
        self.length, self.digest = before.st_size, None
        return Image(memory(IMAGE_MOST + 1))

    def known_length(self, wanted, progress):
        if self.way.spare:
            return self.stripped_file(wanted, progress)
        buffer = memory(wanted)
        self.fill_whole(memoryview(buffer)[:wanted], progress)
        return Image(buffer, wanted)

    def fill_whole(self, view, progress):
        for at in range(0, len(view), PIECE):
            size = min(PIECE, len(view) - at)
            if self.fill(view[at:at + size]) != size:
                raise self.changed()
            progress.at(at)

    def stripped_file(self, wanted, progress):
        self.whole_pages(wanted)
        raw_page = self.way.page + self.way.spare
        buffer, at = memory(wanted // raw_page * self.way.page), 0
        scratch = memoryview(bytearray(raw_page * max(1, PIECE // raw_page)))
        read = 0
        while read < wanted:
            size = min(len(scratch), wanted - read)
            if self.fill(scratch[:size]) != size:
                raise self.changed()
            read += size
            kept = self.stripped(scratch[:size])
            buffer[at:at + len(kept)] = kept
            at += len(kept)
            progress.at(read)
        return Image(buffer, at)

    def unchanged(self, before):
        after = os.fstat(self.file.fileno())
        if (after.st_size, after.st_mtime_ns) != (before.st_size, before.st_mtime_ns):
            raise self.changed()

    def changed(self):
        return Trouble("%s: the file changed while it was read" % self.name)

    # Pipes and devices

    def stream(self):
        """Up to one byte more than any image has: the library refuses by the length then."""
        raw_page = self.way.page + self.way.spare
        size = raw_page * max(1, PIECE // raw_page) if self.way.spare else PIECE
        scratch = memoryview(bytearray(size))
        held, most, read = bytearray(), self.raw_most(), 0
        with Progress("reading " + self.name):
            while read < most:
                count = self.fill(scratch)
                read += count
                if count == 0:
                    break
                held += self.stripped(scratch[:count])
        self.whole_pages(read)
        return Image(held)

    # Spare bytes

    def stripped(self, piece):
        if not self.way.spare:
            return piece
        page, raw_page = self.way.page, self.way.page + self.way.spare
        return b"".join([piece[at:at + page] for at in range(0, len(piece), raw_page)])

    def whole_pages(self, length):
        if self.way.spare and length % (self.way.page + self.way.spare):
            raise Trouble("%s: %s bytes are no whole number of pages of %d and %d spare bytes" % (
                self.name, grouped(length), self.way.page, self.way.spare))

    def raw_most(self):
        """The longest input that is worth reading."""
        if not self.way.spare:
            return IMAGE_MOST + 1
        return (IMAGE_MOST // self.way.page + 1) * (self.way.page + self.way.spare)


def memory(size):
    """Zeroed memory, in large pages where the system has them: they take a quarter of the time to come by."""
    held = mmap.mmap(-1, max(1, size), flags=mmap.MAP_PRIVATE | mmap.MAP_ANONYMOUS)
    if hasattr(mmap, "MADV_HUGEPAGE"):
        try:
            held.madvise(mmap.MADV_HUGEPAGE)
        except OSError:
            pass
    return held
