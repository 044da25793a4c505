"""Volume lists by chance: most are built, some are spoilt.

The stored cases and `ubinize_build.py` both take theirs from here.
"""

from collections import namedtuple

import ubi
from builder import volume_field
from cases import Chance, changed
from cases_listing_random import any_geometry
from frames import MAX_IMAGE
from images import Flash

U32 = 0xFFFFFFFF

# Mostly short blocks, so that there are many LEBs.
GEOMETRIES = (
    (1024, 1, 1), (1024, 1, 1), (1024, 512, 64), (1024, 64, 64),
    (1024, 128, 32), (1024, 256, 256), (1025, 1, 1), (1100, 4, 2),
    (1536, 512, 512), (2048, 512, 256), (2048, 512, 512), (2048, 8, 8),
    (4096, 2048, 512), (6144, 2048, 2048), (12288, 4096, 4096), (3000, 8, 4))

WORDS = (b"boot", b"log", b"data", b"colours", b"settings", b"rootfs")

# A volume of a list, with its content.
Volume = namedtuple("Volume", "reserved alignment kind flags name content")


def add_random_builds(builds):
    chance = Chance(1402)
    for number in range(300):
        flash, pebs, volumes = random_list(chance)
        request = builds.request(
            flash, [field_and_content(volume) for volume in volumes], pebs)
        request = request._replace(sequence=chance.below(2 ** 32))
        if number % 5:
            builds.add(request, True)
        else:
            builds.add(spoilt(request, chance))


def field_and_content(volume):
    return volume_field(*volume[:5]), volume.content


# -------------------------------------------------------------------- lists

def random_list(chance):
    """A Flash, a number of PEBs, and volumes that its table may have."""
    numbers = chance.pick(GEOMETRIES)
    if chance.below(5) == 0:
        numbers = any_geometry(chance)
    flash = Flash(*numbers)
    most = min(MAX_IMAGE // flash.peb_size, 40)
    pebs = chance.between(2, most)
    if chance.below(2):
        pebs = min(pebs, chance.between(3, 12))
    return flash, pebs, random_volumes(flash, chance, pebs - 2)


def random_volumes(flash, chance, left):
    """Volumes that together reserve at most so many PEBs."""
    count = chance.between(0, min(left, flash.record_count))
    if count == 0 and chance.below(4):
        count = min(left, 1)
    volumes, names, resizing = [], set(), chance.below(8)
    for number in range(count):
        # One PEB at least for each that follows.
        most = left - (count - number - 1)
        reserved = chance.between(1, most)
        if chance.below(4) and number + 1 < count:
            reserved = min(reserved, chance.between(1, 4))
        left -= reserved
        name = random_name(chance, names)
        names.add(name)
        flags = chance.pick([0, 0, 0, 2]) | int(number == resizing)
        volumes.append(random_volume(flash, chance, reserved, name, flags))
    return volumes


def random_volume(flash, chance, reserved, name, flags):
    size, unit = flash.leb_size, flash.unit
    any_multiple = chance.between(1, size // unit) * unit
    alignment = chance.pick([1, 1, unit, size] + 3 * [any_multiple])
    room = size - size % alignment
    content = random_content(chance, reserved, room)
    return Volume(reserved, alignment, chance.pick([ubi.DYNAMIC, ubi.STATIC]),
                  flags, name, content)


def random_name(chance, names):
    """One that no volume before has; often one with the same beginning."""
    while True:
        lot = chance.below(10)
        if lot == 0:
            name = chance.nonzero_bytes(chance.between(1, 127))
        elif lot == 1:
            name = b"n" * chance.between(120, 127)
        elif lot < 4 and names:
            name = (chance.pick(sorted(names))
                    + chance.nonzero_bytes(1))[:127]
        else:
            name = chance.pick(WORDS) + b"%d" % chance.below(30)
        if name not in names:
            return name


def random_content(chance, reserved, room):
    """From nothing to all that the volume holds, mostly short."""
    most = reserved * room
    length = chance.pick([
        0, 1, chance.between(0, most), most, chance.between(1, room),
        chance.between(1, room), chance.between(1, reserved) * room,
        most - chance.below(room)])
    # Often bytes of 0xFF but for some runs, so that cases stay short.
    content = b"\xff" * length
    if chance.below(12) == 0:
        return content
    if length <= 2000 and chance.below(3):
        return chance.bytes(length)
    for _ in range(chance.between(1, 8)):
        at = chance.pick([0, length, chance.between(0, length),
                          chance.between(0, reserved) * room])
        run = chance.bytes(chance.between(1, 24))
        content = changed(content, min(at, length), run)[:length]
    return content


# ------------------------------------------------------------- spoilt lists

def spoilt(request, chance):
    """One to three things done to it; some of them do no harm."""
    for _ in range(chance.pick([1, 1, 1, 2, 3])):
        way = chance.pick([other_byte, other_byte, other_length, other_length,
                           other_count, other_size, other_content, cut_slip,
                           other_order])
        request = way(request, chance)
    return request


def other_byte(request, chance):
    """Another byte in a field: in its tag, its length or what it says."""
    fields = list(request.fields)
    if not fields:
        return cut_slip(request, chance)
    number = chance.below(len(fields))
    one = fields[number]
    at = chance.below(min(len(one), 20))
    other = chance.pick([0, 1, 2, 3, 255, one[at] ^ 1 << chance.below(8)])
    fields[number] = changed(one, at, [other])
    return request._replace(fields=fields)


def other_length(request, chance):
    lengths = list(request.lengths)
    if not lengths:
        return request._replace(lengths=[chance.below(2)])
    number = chance.below(len(lengths))
    lengths[number] = chance.pick([
        0, max(lengths[number] - 1, 0), lengths[number] + 1, U32,
        chance.below(2 ** 32), chance.pick(request.lengths)])
    return request._replace(lengths=lengths)


def other_count(request, chance):
    """Lengths or fields more or fewer."""
    lot = chance.below(4)
    if lot == 0:
        return request._replace(lengths=request.lengths[:-1])
    if lot == 1:
        return request._replace(lengths=request.lengths + [chance.below(2)])
    if lot == 2 or not request.fields:
        return request._replace(fields=request.fields[1:])
    return request._replace(
        fields=request.fields + [chance.pick(request.fields)])


def other_size(request, chance):
    size = chance.pick([request.size - 1, request.size + 1, request.size // 2,
                        chance.below(20000), request.size + 1024])
    return request._replace(size=max(0, min(size, MAX_IMAGE)))


def other_content(request, chance):
    if chance.below(2):
        return request._replace(content=request.content + b"x")
    return request._replace(content=request.content[:-1])


def cut_slip(request, chance):
    slip = request.slip
    lot = chance.below(3)
    if lot == 0:
        return request._replace(end=request.end + chance.bytes(1))
    if lot == 1:
        return request._replace(end=request.end[:-1])
    return request.with_slip(slip[:chance.below(len(slip) + 1)])


def other_order(request, chance):
    """No harm if every content still fits."""
    order = chance.shuffled(range(len(request.fields)))
    return request._replace(fields=[request.fields[at] for at in order])
