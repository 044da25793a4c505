"""Moves by chance: chips with free blocks, lists of moves, and stops.

The stored cases and `check_moves.py` both take theirs from here.
"""

import attach
import mover
import ubi
from cases import changed
from cases_attach_random import random_blocks, random_records, with_zeroes
from images import (BLANK, IMAGE_SEQUENCE, Block, Flash, ec_with,
                    ways_to_lose, with_header_crc, with_image_seqs)

U32 = 0xFFFFFFFF
U64 = 2 ** 64 - 1

# PEBs of 1,024 bytes; seldom the unit 1, where a layout LEB takes hundreds
# of steps.
CHIPS = ((1024, 512, 64),) * 4 + (
    (1024, 64, 64), (1024, 128, 32), (1024, 256, 256)) * 3 + (
    (1024, 16, 8), (1024, 32, 1)) * 2 + ((1024, 4, 2), (1024, 1, 1))

# Five bytes that, added to any others without carry, leave their CRC: the
# polynomial itself, first bit lowest.
UNSEEN = bytes([0x41, 0x06, 0x71, 0xDB, 0x01])

# A place in an EC header's padding.
SLEEPING_AT = 30


# ------------------------------------------------------------------- chips

def random_chip(chance):
    """A Flash and the bytes of an image, mostly one that attaches."""
    flash = Flash(*chance.pick(CHIPS))
    if chance.below(8) == 0:
        return flash, flash.image(random_blocks(flash, chance))
    count = chance.between(4, 12)
    records = random_records(flash, chance, count - 2)
    if not any(records):
        records[0] = flash.volume(reserved=min(2, count - 2))
    base = chance.pick([1, 1, 1, 2 ** 32 - 5, U64 - 40, U64 - 13])
    sequences = iter(chance.shuffled(range(base, base + 14)))
    table = flash.table(*records)
    blocks = [layout_block(flash, chance, leb, table, next(sequences))
              for leb in range(chance.pick([1, 2, 2, 2]))]
    free = chance.pick([1, 2, 3, 4])
    for number, leb in chance.shuffled(lebs_of(records)):
        if len(blocks) + free < count and chance.below(5):
            blocks.append(user_block(flash, chance, number, leb,
                                     records[number], next(sequences)))
        if len(blocks) + free < count and chance.below(4) == 0:
            blocks.append(user_block(flash, chance, number, leb,
                                     records[number], next(sequences)))
    while len(blocks) < count:
        blocks.append(other_block(flash, chance, sequences))
    apart = chance.apart()
    blocks = with_zeroes(apart, blocks)
    if apart.below(16) == 0:
        # Refusal 7, if there are two that have one.
        at = apart.below(count)
        blocks[at:at + 1] = with_image_seqs(blocks[at:at + 1], [1])
    blocks = [with_odd_header(flash, chance, block) for block in blocks]
    return flash, flash.image(chance.shuffled(blocks))


def lebs_of(records):
    return [(number, leb) for number, record in enumerate(records) if record
            for leb in range(record.reserved)]


def layout_block(flash, chance, leb, table, sequence):
    if chance.below(3):
        return flash.layout(leb, table, sequence)
    return flash.layout_copy(leb, table, sequence, chance.below(10) > 0)


def user_block(flash, chance, number, leb, record, sequence):
    """A LEB as its record wants it, now and then not right."""
    room = flash.leb_size - record.data_pad
    right = chance.below(12) > 0
    if record.type == ubi.STATIC:
        used = record.reserved
        data = random_data(flash, chance, room) or b"\xff"
        return flash.static(number, leb, used, sequence, data[:room], right,
                            data_pad=record.data_pad,
                            copy_flag=chance.below(2))
    data = random_data(flash, chance, room)
    if record.data_pad and chance.below(2):
        # Bytes in the pad are no part of the content.
        data = changed(data + b"\xff" * (flash.leb_size - len(data)), room,
                       chance.bytes(chance.between(1, record.data_pad)))
    if chance.below(2) or not data[:room]:
        return flash.dynamic(number, leb, sequence, data,
                             data_pad=record.data_pad)
    size = chance.between(1, min(len(data), room))
    return flash.copy(number, leb, sequence, data, right, data_size=size,
                      data_pad=record.data_pad)


def random_data(flash, chance, room):
    """Up to so many bytes, of the lengths that matter."""
    unit = min(flash.unit, room)
    length = min(room, chance.pick(
        [0, 1, 3, unit - 1, unit, unit + 1, 2 * unit, 40, room]))
    if flash.unit == 1:
        length = min(length, 40)
    lot = chance.below(10)
    if lot == 0:
        return b"\xff" * length
    whole_units = length // flash.unit * flash.unit
    if lot < 3 and whole_units + len(UNSEEN) <= room:
        # Without its end the CRC is the same: the premise fails there.
        return chance.bytes(whole_units) + bytes(
            byte ^ 0xFF for byte in UNSEEN)
    return chance.bytes(length)


def other_block(flash, chance, sequences):
    lot = chance.below(24)
    if lot == 0:
        return BLANK
    if lot == 1:
        return Block(flash.ec(), chance.bytes(chance.between(1, 64)), b"")
    if lot == 2:
        # Free by its headers, with a byte left behind.
        stray = b"\xff" * chance.below(flash.leb_size) + b"\x00"
        return Block(flash.ec(), b"", stray)
    if lot == 3 and chance.below(3) == 0:
        return flash.internal(chance.pick([1, 2, 4, 4]), next(sequences, 77))
    if lot == 4:
        # Volume and LEB that no table has.
        return flash.dynamic(chance.below(128), 9, next(sequences, 77))
    return flash.free()


def with_odd_header(flash, chance, block):
    """Lost and sleeping EC headers, counters at the limit, odd padding."""
    if block == BLANK:
        return block
    lot = chance.below(40)
    if lot < 3:
        ways = ways_to_lose(block.ec._replace(
            image_sequence=chance.apart().pick((0, IMAGE_SEQUENCE, 1))))
        return block._replace(ec=ways[chance.pick(sorted(ways))])
    if lot < 6:
        return block._replace(ec=sleeping_ec(block.ec))
    if lot == 6:
        counter = chance.pick([0, 0x7FFFFFFE, 0x7FFFFFFF])
        return ec_with(block, counter=counter)
    if lot == 7:
        raw = ubi.ec_header_bytes(block.ec)
        return block._replace(ec=odd_padding(raw, 28))
    if lot == 8 and not isinstance(block.vid, bytes):
        raw = ubi.vid_header_bytes(block.vid)
        return block._replace(vid=odd_padding(raw, 48))
    return block


def odd_padding(raw, at):
    """Padding is read only through the CRC."""
    return with_header_crc(changed(raw, at, b"odd padding"))


def sleeping_ec(ec):
    """A lost EC header that comes to life when one byte is erased."""
    other = ubi.ec_header_bytes(
        ec._replace(image_sequence=ec.image_sequence ^ 1))
    awake = with_header_crc(changed(other, SLEEPING_AT, b"\xff"))
    return changed(awake, SLEEPING_AT, b"\x00")


# ------------------------------------------------------------------- calls

def random_move(chance, report):
    """Volume, LEB and target: mostly a move that is accepted."""
    entry = chance.pick(report.entries)
    volume, leb = entry.volume, entry.leb
    lot = chance.below(20)
    if lot == 0:
        leb = chance.pick([leb + 1, U32])
    elif lot == 1:
        volume = chance.pick([leb, volume ^ 1, 127, 128, U32])
    free = [number for number, klass in enumerate(report.classes)
            if klass == attach.FREE]
    if not free or chance.below(10) == 0:
        target = chance.pick([entry.peb, chance.below(report.peb_count),
                              report.peb_count, U32])
    else:
        target = chance.pick(free)
    return volume, leb, target


def random_stop(chance, plan):
    """A cut point in any of the move's steps, each kind as likely."""
    last = mover.step_count(plan)
    steps = [1, last - 1, last]
    if last > 3:
        steps.append(chance.between(2, last - 2))
        steps.append(last - 2)
    number = chance.pick(steps)
    if number == last - 1:
        return mover.Stop(number, random_erase(chance, plan))
    length = ubi.HEADER_SIZE
    if 1 < number < last:
        start = (number - 2) * plan.unit
        length = min(plan.unit, plan.vid.data_size - start)
    return mover.Stop(number, chance.pick(
        [0, 0, min(1, length), length - 1, length, chance.between(0, length),
         chance.between(0, length)]))


def random_erase(chance, plan):
    """The places of an erased block: runs, halves, single bytes, any."""
    size = plan.peb_size
    vid = ubi.geometry_of(size, plan.unit, plan.sub_unit).vid_start
    middle = chance.below(size + 1)
    early = chance.below(vid + 64)
    start = chance.pick([0, 0, vid])
    keep = start + chance.below(64)
    ways = (
        (), range(size), range(middle), range(early), range(middle, size),
        range(early, size), range(start, start + 64), (SLEEPING_AT,),
        (SLEEPING_AT,) + tuple(range(vid, size)), (keep,),
        [at for at in range(size) if at != keep],
        [at for at in range(size) if chance.below(2)],
        [at for at in range(size) if chance.below(4)])
    return tuple(chance.pick(ways))
