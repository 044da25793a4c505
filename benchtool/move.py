"""`ubibench move`: one logical block moved to a free block, step by step, on a copy or in the dump itself.

In place the library stores straight into a shared mapping of the file, and each step is synced before the next: a
process that is killed leaves what the library stored until then, as a power cut does.
"""

import fcntl
import mmap
import os
import stat
from collections import namedtuple

from benchtool import library as lib
from benchtool.bench import Bench, Chip
from benchtool.dump import STANDARD_INPUT
from benchtool.files import refuse_output, write_whole
from benchtool.library import Image
from benchtool.numbers import counted
from benchtool.progress import Progress
from benchtool.trouble import Trouble, of_system, put

STORED, ERASED = 1, 2
# With more steps than this, not every one has a line.
LINES_MOST = 256

# A step's write, as the library foretells it.
Write = namedtuple("Write", "kind at size")
Job = namedtuple("Job", "library plan writes peb_size volume leb")


def run(arguments):
    bench = Bench(arguments)
    if arguments.in_place:
        return in_place(bench, arguments)
    refuse_output(arguments.dump, arguments.output, ": a move in the dump itself is --in-place")
    dump = bench.read(arguments.dump)
    job = begin(bench, dump, arguments)
    carry_out(job, Copied(dump.image), arguments.stop_after)
    write_whole(arguments.output, [dump.front, dump.image.view])
    tell_after(job, bench.slip_of(dump), dump.image)
    return 0


# -------------------------------------------------------------- the beginning

def begin(bench, dump, arguments):
    """Attached and accepted, or Refused; then the steps are known."""
    chip = bench.attach(dump)
    if chip.refusal is not None:
        raise chip.refusal
    for name, value in (("--volume", arguments.volume), ("--leb", arguments.leb), ("--to", arguments.to)):
        if value > lib.NONE:
            raise Trouble("%s: %d is no 32-bit number" % (name, value))
    plan = bench.library.begin(chip.slip, dump.image, arguments.volume, arguments.leb, arguments.to)
    job = Job(bench.library, plan, foretold(bench.library, plan, dump.image), chip.peb_size, arguments.volume,
              arguments.leb)
    put(map_line(chip, arguments.volume, arguments.leb) + "\n")
    return job


def foretold(library, plan, image):
    """What each step will write, asked of the library for every number of steps run."""
    ahead = lib.words64(lib.PLAN_WORDS)
    ahead[:] = plan[:]
    writes = []
    while True:
        write = Write(*library.next_write(ahead, image))
        if not write.kind:
            return writes
        writes.append(write)
        ahead[lib.PLAN_STEPS] += 1


def map_line(chip, volume, leb):
    peb = chip.place_of(volume, leb)
    return "map %d %d %s" % (volume, leb, "-" if peb is None else peb)


# ------------------------------------------------------------------ the steps

class Copied:
    """The dump in memory: there is nothing to sync until all of it is written."""

    def __init__(self, image):
        self.image = image

    def sync(self, write):
        pass

    def part_of_step(self, job, write, size):
        """The next step's first bytes alone."""
        end = write.at + write.size
        before = self.image.at(write.at, write.size)
        job.library.step(job.plan, self.image)
        self.image.view[write.at + size:end] = before[size:]


class Mapped:
    """The file itself, mapped."""

    def __init__(self, file, length):
        self.file = file
        self.mapping = mmap.mmap(file.fileno(), length, access=mmap.ACCESS_WRITE)
        self.image = Image(self.mapping)

    def sync(self, write):
        start = write.at // mmap.PAGESIZE * mmap.PAGESIZE
        self.mapping.flush(start, write.at + write.size - start)

    def part_of_step(self, job, write, size):
        """The step is carried out in private pages, and its first bytes are stored in the file."""
        with mmap.mmap(self.file.fileno(), self.image.length, access=mmap.ACCESS_COPY) as private:
            image = Image(private)
            job.library.step(job.plan, image)
            self.image.view[write.at:write.at + size] = image.at(write.at, size)
            image.release()

    def close(self):
        self.image.release()
        self.mapping.close()


def carry_out(job, target, stop):
    """All steps, or those before the stop, each synced before the next; and what was left undone."""
    count = len(job.writes)
    steps, part = (count, 0) if stop is None else (min(stop[0], count), stop[1])
    with Progress("moving", count) as progress:
        for number, write in enumerate(job.writes[:steps], 1):
            job.library.step(job.plan, target.image)
            target.sync(write)
            progress.at(number)
            tell_step(job, number, write)
    if steps == count:
        return
    left = job.writes[steps]
    part = min(part, left.size)
    if part:
        target.part_of_step(job, left, part)
        target.sync(left)
    put("stopped after step %d of %d%s\n" % (
        steps, count, " and %d of %d bytes of the next" % (part, left.size) if part else ""))
    tell_undone(job, steps + (part == left.size))


def tell_step(job, number, write):
    count = len(job.writes)
    edge = number <= 2 or number > count - 3
    if count > LINES_MOST and not edge and number % (count // 100):
        return
    put("step %d of %d: %s\n" % (number, count, described(job, number, write)))


def described(job, number, write):
    peb, within = divmod(write.at, job.peb_size)
    place = "block %d from byte %d on" % (peb, within)
    if write.kind == ERASED:
        return "erases block %d" % peb
    if number == 1:
        return "stores the VID header, %s, in %s" % (counted(write.size, "byte"), place)
    if number == len(job.writes):
        return "stores the EC header, %s, in %s" % (counted(write.size, "byte"), place)
    return "stores %s of data in %s" % (counted(write.size, "byte"), place)


def tell_undone(job, steps):
    count = len(job.writes)
    if steps == count:
        put("nothing was left undone\n")
        return
    first = job.writes[steps]
    put("left undone: step %d of %d and those after it; it %s\n" % (
        steps + 1, count, described(job, steps + 1, first)))


def tell_after(job, slip, image):
    """The map's line as the library now finds it."""
    chip = Chip(job.library, slip, image)
    if chip.refusal is not None:
        raise chip.refusal
    put(map_line(chip, job.volume, job.leb) + "\n")


# ------------------------------------------------------------------- in place

def in_place(bench, arguments):
    path = arguments.dump
    if path == STANDARD_INPUT:
        raise Trouble("--in-place: standard input cannot be written to")
    try:
        with open(path, "r+b", buffering=0) as file:
            fcntl.flock(file, fcntl.LOCK_EX | fcntl.LOCK_NB)
            return move_in(bench, arguments, file)
    except BlockingIOError:
        raise Trouble("%s: another program holds it locked" % path)
    except OSError as error:
        raise of_system(path, error)


def move_in(bench, arguments, file):
    """Judged on bytes that were read; only then the file is mapped for writing."""
    info = os.fstat(file.fileno())
    if not stat.S_ISREG(info.st_mode):
        raise Trouble("%s: --in-place is for plain files" % arguments.dump)
    if bench.front:
        raise Trouble("--in-place is for dumps without a slip in front")
    dump = bench.read(arguments.dump, file=file)
    job = begin(bench, dump, arguments)
    if os.fstat(file.fileno()).st_size != dump.image.length:
        raise Trouble("%s: the file changed while it was read" % arguments.dump)
    target = Mapped(file, dump.image.length)
    refuse_changed(job, dump, target)
    carry_out(job, target, arguments.stop_after)
    os.fsync(file.fileno())
    target.close()
    file.seek(0)
    tell_after(job, bench.slip_of(dump), bench.read(arguments.dump, file=file).image)
    return 0


def refuse_changed(job, dump, target):
    """Both blocks of the move are still as they were judged."""
    for peb in (job.plan[lib.PLAN_OLD], job.plan[lib.PLAN_OLD + 1]):
        at = peb * job.peb_size
        if dump.image.at(at, job.peb_size) != target.image.at(at, job.peb_size):
            raise Trouble("%s: the file changed while it was read" % dump.name)
