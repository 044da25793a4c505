"""`ubibench build`: a chip's image from a list of volumes and their contents.

What is wrong with the list is said here, section and key by name. Whether it is built is the
library's to judge.
"""

import os
import stat
from collections import namedtuple
from contextlib import ExitStack

from benchtool import library as lib
from benchtool import words
from benchtool.bench import Bench
from benchtool.chip import Chip
from benchtool.config import read_config
from benchtool.dump import memory, read_into
from benchtool.files import refuse_output, write_whole
from benchtool.library import Image
from benchtool.numbers import counted, grouped
from benchtool.progress import Progress
from benchtool.slip import volume_field
from benchtool.trouble import Trouble, of_system, put

BAD_GEOMETRY = 2
PEBS_LEAST = 2
# Blocks of the volume table.
TABLE_PEBS = 2

# A volume as it is wanted, its content's length and file, and what the system said of the file when
# it was opened. An empty volume has no file.
Volume = namedtuple("Volume", "wanted length file before")


def run(arguments):
    bench = Bench(arguments)
    geometry = judged_geometry(bench)
    refuse_numbers(arguments)
    listed = read_config(arguments.config)
    refuse_more_than_records(listed, geometry)
    with ExitStack() as held:
        volumes = [opened(wanted, held) for wanted in listed]
        for path in [arguments.config] + [one.wanted.image for one in volumes if one.file]:
            refuse_output(path, arguments.output)
        fields = fields_of(volumes, geometry, arguments)
        content = content_of(volumes)
    lengths = [one.length for one in volumes]
    image = Image(memory(arguments.blocks * arguments.peb_size))
    with Progress("building"):
        bench.library.build(bench.slip_with(fields), arguments.image_seq, lengths, content, image)
    del content
    chip = judged_image(bench, image)
    write_whole(arguments.output, [image.view])
    tell(chip, lengths)
    return 0


def judged_geometry(bench):
    # Numbers that no slip holds would reach the library cut to 32 bits.
    bench.slip_with()
    geometry = bench.library.geometry(*bench.numbers)
    if geometry is None:
        raise bench.library.refusal(BAD_GEOMETRY, 0)
    return geometry


def refuse_numbers(arguments):
    if not PEBS_LEAST <= arguments.blocks <= lib.PEBS_MOST:
        raise Trouble("--blocks: a chip has %d to %s blocks, not %s" % (
            PEBS_LEAST, grouped(lib.PEBS_MOST), grouped(arguments.blocks)))
    if arguments.image_seq > lib.NONE:
        raise Trouble("--image-seq: %d is no 32-bit number" % arguments.image_seq)


# ------------------------------------------------------------- the volumes

def refuse_more_than_records(listed, geometry):
    records = min(lib.RECORDS_MOST, geometry["leb_size"] // lib.RECORD_SIZE)
    if len(listed) > records:
        one = listed[records]
        raise one.section.trouble("vol_id", "%d; the table of this chip has room for %s" % (
            one.number, counted(records, "volume")))


def opened(wanted, held):
    """The volume with its file, open as long as `held` is."""
    if wanted.image is None:
        return Volume(wanted, 0, None, None)
    try:
        file = held.enter_context(open(wanted.image, "rb", buffering=0, opener=at_once))
        before = os.fstat(file.fileno())
    except OSError as error:
        raise of_system(image_of(wanted), error)
    if not stat.S_ISREG(before.st_mode):
        raise Trouble(image_of(wanted) + ": it is no plain file")
    if before.st_size == 0:
        raise Trouble(image_of(wanted) + ": the file is empty; an empty volume has no image line")
    return Volume(wanted, before.st_size, file, before)


def at_once(path, flags):
    """A pipe is opened without waiting for its writer."""
    return os.open(path, flags | os.O_NONBLOCK)


def image_of(wanted):
    return "%s: %s" % (wanted.section.at("image"), wanted.image)


def fields_of(volumes, geometry, arguments):
    """The volumes' fields of the slip; Trouble for what cannot fit, before anything is read."""
    reserved = [reserved_of(one, geometry) for one in volumes]
    together = sum(reserved) + TABLE_PEBS
    if together > arguments.blocks:
        raise Trouble("%s: the volumes take %s and their table %d, together %s; the chip has %s" % (
            arguments.config, counted(sum(reserved), "block"), TABLE_PEBS, grouped(together),
            grouped(arguments.blocks)))
    return [volume_field(count, wanted.alignment, wanted.vol_type, wanted.flags, wanted.name)
            for count, (wanted, *_) in zip(reserved, volumes)]


def reserved_of(volume, geometry):
    """As many LEBs as the volume's size takes, by what its alignment leaves of each."""
    wanted, leb_size = volume.wanted, geometry["leb_size"]
    refuse_alignment(wanted, geometry)
    size = volume.length if wanted.size is None else wanted.size
    if volume.length > size:
        raise Trouble("%s has %s, and its volume %d \"%s\" (vol_size) only %s" % (
            image_of(wanted), counted(volume.length, "byte"), wanted.number,
            words.visible(wanted.name), grouped(size)))
    room = leb_size - leb_size % wanted.alignment
    return -(-size // room)


def refuse_alignment(wanted, geometry):
    alignment, unit, leb_size = wanted.alignment, geometry["unit"], geometry["leb_size"]
    if not 1 <= alignment <= leb_size or (alignment > 1 and alignment % unit):
        raise wanted.section.trouble(
            "vol_alignment", "%s is neither 1 nor a multiple of the page, %s, up to a LEB, %s" % (
                grouped(alignment), grouped(unit), grouped(leb_size)))


def content_of(volumes):
    """The contents, one after another, read into one piece of memory."""
    total = sum(one.length for one in volumes)
    content = Image(memory(total), total)
    at = 0
    for wanted, length, file, before in volumes:
        if file:
            read_into(content.view[at:at + length], image_of(wanted), file, before)
        at += length
    return content


# -------------------------------------------------------------- the image

def judged_image(bench, image):
    """What was built, attached: only grade 0 is written to a file."""
    chip = Chip(bench.library, bench.slip_with(), image)
    if chip.refusal is not None or chip.grade:
        raise Trouble("what was built lists as %r: a fault of this program, please report it"
                      % first_line(chip))
    return chip


def first_line(chip):
    return chip.listing.split(b"\n", 1)[0].decode("ascii")


def tell(chip, lengths):
    for volume, length in zip(chip.volumes, lengths):
        record = volume.record
        put("volume %d \"%s\", %s: %s of %s written, %s\n" % (
            volume.number, words.visible(record["name"]), words.TYPES[record["vol_type"]],
            grouped(len(volume.mapped)), counted(record["reserved"], "LEB"),
            counted(length, "byte")))
    put(first_line(chip) + "\n")
