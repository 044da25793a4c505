"""Chips for bench/tool, each the same on every run: written to a file block by block, so that little memory is held."""

import random
import struct
import zlib
from collections import namedtuple

# `lebs` LEBs of a volume, each with `copies` copies: the first as written, the others moved.
Volume = namedtuple("Volume", "name vol_type lebs copies")
# Blocks that no volume takes are free.
Chip = namedtuple("Chip", "peb_size unit sub_unit pebs volumes")

DYNAMIC, STATIC = 1, 2
LAYOUT_VOLUME, LAYOUT_COMPATIBILITY = 0x7FFFEFFF, 5
RECORD, RECORDS_MOST, HEADER = 172, 128, 64
IMAGE_SEQUENCE, SEED, COUNTER_MOST = 0x5EED0001, 1307, 5000


def crc(data):
    """Without the final complement, which zlib makes."""
    return zlib.crc32(data) ^ 0xFFFFFFFF


def with_crc(data):
    return data + struct.pack(">I", crc(data))


def round_up(least, step):
    return (least + step - 1) // step * step


def starts(chip):
    """Where VID header and data start."""
    vid_start = round_up(HEADER, chip.sub_unit)
    return vid_start, round_up(vid_start + HEADER, chip.unit)


def slip(chip):
    return struct.pack(">BHIBHHBHHBH", 1, 4, chip.peb_size, 2, 2, chip.unit, 3, 2, chip.sub_unit, 0, 0)


def ec_header(chip, counter):
    return with_crc(struct.pack(">4sB3xQIII32x", b"UBI#", 1, counter, *starts(chip), IMAGE_SEQUENCE))


def vid_header(job, sequence, data):
    size, checksum = (len(data), crc(data)) if job.vol_type == STATIC or job.flag else (0, 0)
    return with_crc(struct.pack(">4sBBBBII4xIIII4xQ12x", b"UBI!", 1, job.vol_type, job.flag, job.compatibility,
                                job.volume, job.leb, size, job.used, 0, checksum, sequence))


def table(chip, leb_size):
    records = [with_crc(struct.pack(">IIIBBH128sB23x", volume.lebs, 1, 0, volume.vol_type, 0, len(volume.name),
                                    volume.name, 0)) for volume in chip.volumes]
    count = min(RECORDS_MOST, leb_size // RECORD)
    return b"".join(records + [with_crc(bytes(RECORD - 4))] * (count - len(records)))


# What one block is to hold.
Job = namedtuple("Job", "volume leb vol_type flag compatibility used")


def jobs_of(chip):
    for leb in (0, 1):
        yield Job(LAYOUT_VOLUME, leb, DYNAMIC, 0, LAYOUT_COMPATIBILITY, 0)
    for number, volume in enumerate(chip.volumes):
        used = volume.lebs if volume.vol_type == STATIC else 0
        for leb in range(volume.lebs):
            for copy in range(volume.copies):
                yield Job(number, leb, volume.vol_type, int(copy > 0), 0, used)


def write_chip(chip, path):
    """Blocks are taken by chance; what a LEB holds is by chance, too, and fills it."""
    chance = random.Random(SEED)
    vid_start, data_start = starts(chip)
    leb_size = chip.peb_size - data_start
    jobs = list(jobs_of(chip))
    order = chance.sample(range(chip.pebs), len(jobs))
    numbered = {peb: (sequence, job) for sequence, (peb, job) in enumerate(zip(order, jobs), 1)}
    layout = table(chip, leb_size).ljust(leb_size, b"\xff")
    with open(path, "wb") as file:
        for peb in range(chip.pebs):
            block = bytearray(b"\xff" * chip.peb_size)
            block[:HEADER] = ec_header(chip, chance.randrange(COUNTER_MOST))
            if peb in numbered:
                sequence, job = numbered[peb]
                data = layout if job.volume == LAYOUT_VOLUME else chance.randbytes(leb_size)
                block[vid_start:vid_start + HEADER] = vid_header(job, sequence, data)
                block[data_start:] = data
            file.write(block)


def first_free(chip):
    """A block that no LEB has been given."""
    taken = set(random.Random(SEED).sample(range(chip.pebs), len(list(jobs_of(chip)))))
    return next(peb for peb in range(chip.pebs) if peb not in taken)
