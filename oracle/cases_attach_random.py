"""Cases for attaching by chance: images of all sorts, and spoilt ones.

Nothing is expected of them by hand; they look for what nobody thought of.
"""

import ubi
from cases import Chance, changed
from images import (BLANK, IMAGE_SEQUENCE, LAYOUT, Block, Flash, ec_with,
                    vid_with, ways_to_lose, with_image_seqs)

U64 = 2 ** 64 - 1

# Image sequences unlike the one that blocks are made with.
OTHER_SEQUENCES = (1, 0x80000000, 0xFFFFFFFF, IMAGE_SEQUENCE ^ 1)

# Mostly short tables, to keep the cases short.
GEOMETRIES = ((1024, 512, 64),) * 12 + (
    (1024, 1, 1), (1024, 128, 32), (1024, 256, 256), (1100, 4, 2),
    (1536, 512, 512), (2048, 512, 512))


def add_random_cases(probes):
    chance = Chance(607)
    earlier = {}
    for _ in range(100):
        geometry = chance.pick(GEOMETRIES)
        flash = Flash(*geometry)
        blocks = random_blocks(flash, chance)
        probes.add(flash, blocks)
        pebs = [flash.peb(block) for block in blocks]
        for _ in range(chance.pick([1, 2, 2])):
            spoilt = spoil(flash, list(blocks), list(pebs), chance,
                           earlier.get(geometry, pebs))
            probes.image(flash, b"".join(spoilt))
        earlier[geometry] = pebs


# ------------------------------------------------------------ random images

def random_blocks(flash, chance, count=None, sequences=None):
    """Two to twelve PEBs, mostly such that the image attaches.

    Or as many as asked for; then `sequences` gives enough of them.
    """
    if count is None:
        count = chance.pick([3, 4, 5, 6, 6, 7, 8, 9, 10, 12])
    records = random_records(flash, chance, count - 2)
    if sequences is None:
        sequences = random_sequences(chance)
    table = flash.table(*records)
    blocks = [random_layout(flash, chance, 0, table, next(sequences))]
    if chance.below(4):
        blocks.append(
            random_layout(flash, chance, 1, table, next(sequences)))
    while len(blocks) < count:
        blocks.append(random_block(flash, chance, records, sequences))
    if chance.below(12) == 0:
        # Two blocks of one LEB and sequence, perhaps.
        number = chance.below(count)
        blocks[number] = chance.pick(blocks)
    apart = chance.apart()
    blocks = with_zeroes(apart, blocks)
    if apart.below(12) == 0:
        # Refusal 7, if there are two that have one.
        at = apart.below(count)
        blocks[at:at + 1] = with_image_seqs(
            blocks[at:at + 1], [apart.pick(OTHER_SEQUENCES)])
    for number in range(count):
        if chance.below(25) == 0 and blocks[number] != BLANK:
            ways = ways_to_lose(flash.ec(
                image_sequence=apart.pick((0, IMAGE_SEQUENCE, 1))))
            blocks[number] = blocks[number]._replace(
                ec=ways[chance.pick(sorted(ways))])
    return chance.shuffled(blocks)


def with_zeroes(chance, blocks):
    """Image sequence zero in no EC header, some, all but one, or all."""
    lot = chance.below(8)
    kept = [True] * len(blocks)
    if lot < 3:
        share = chance.pick((2, 2, 4))
        kept = [chance.below(share) == 0 for _ in blocks]
    elif lot == 3:
        only = chance.below(len(blocks))
        kept = [number == only for number in range(len(blocks))]
    elif lot == 4:
        kept = [False] * len(blocks)
    return with_image_seqs(
        blocks, [IMAGE_SEQUENCE if one else 0 for one in kept])


def random_sequences(chance):
    return iter(chance.shuffled(
        [chance.pick([number, number, 2 ** 32 - 6 + number,
                      2 ** 63 - 6 + number, U64 - 12 + number])
         for number in range(12)]))


def random_records(flash, chance, most):
    """Records that together reserve at most so many PEBs, None if empty."""
    records = []
    for number in range(chance.between(1, flash.record_count)):
        reserved = chance.between(0, min(most, 4))
        if reserved == 0:
            records.append(None)
            continue
        most -= reserved
        alignment = chance.pick([1, 1, flash.unit, 3 * flash.unit])
        if alignment > flash.leb_size:
            alignment = 1
        flags = chance.pick([0, 0, 0, 2, 2])
        if number == 0:
            flags |= chance.below(2)
        records.append(flash.volume(
            b"v%d" % number, reserved=reserved, alignment=alignment,
            type=chance.pick([ubi.DYNAMIC, ubi.STATIC]), flags=flags,
            update_marker=int(chance.below(8) == 0)))
    return records


def random_layout(flash, chance, leb, table, sequence):
    lot = chance.below(12)
    if lot == 0:
        table = changed(table, chance.below(len(table)), b"\x05")
    elif lot == 1:
        table = flash.table()
    if chance.below(3):
        return flash.layout(leb, table, sequence)
    return flash.layout_copy(leb, table, sequence, chance.below(3) > 0)


def random_block(flash, chance, records, sequences):
    lot = chance.below(30)
    if lot < 3:
        return BLANK
    if lot < 6:
        return flash.free()
    if lot == 6:
        return Block(flash.ec(), chance.bytes(chance.between(1, 64)), b"")
    sequence = next(sequences, 77)
    if lot == 7:
        return flash.internal(chance.pick([1, 1, 2, 4, 4, 5]), sequence)
    if lot == 8:
        # A volume or LEB that the table does not have.
        return flash.dynamic(chance.between(0, flash.record_count),
                             chance.between(3, 6), sequence)
    volumes = [number for number, record in enumerate(records) if record]
    if not volumes:
        return flash.dynamic(0, chance.below(3), sequence)
    number = chance.pick(volumes)
    return random_copy(flash, chance, number, records[number], sequence)


def random_copy(flash, chance, number, record, sequence):
    pad = record.data_pad
    if chance.below(40) == 0:
        pad = chance.below(flash.leb_size // 2)
    kind = record.type
    if chance.below(40) == 0:
        kind = ubi.STATIC + ubi.DYNAMIC - kind
    data = chance.bytes(chance.between(1, 24))
    fine = chance.below(4) > 0
    if kind == ubi.STATIC:
        used = min(record.reserved, 1 + number % 3)
        if chance.below(20) == 0:
            used = chance.between(1, record.reserved + 1)
        return flash.static(number, chance.below(used), used, sequence, data,
                            fine, data_pad=pad, copy_flag=chance.below(2))
    leb = chance.below(record.reserved + int(chance.below(8) == 0))
    if chance.below(2):
        return flash.dynamic(number, leb, sequence, data, data_pad=pad)
    return flash.copy(number, leb, sequence, data, fine, data_pad=pad)


# --------------------------------------------------------- spoilt images

def spoil(flash, blocks, pebs, chance, others):
    """The PEBs with one to three things done to them."""
    for _ in range(chance.pick([1, 1, 1, 2, 3])):
        at = chance.below(len(pebs))
        way = chance.below(10)
        if way < 2:
            pebs[at] = flipped(flash, chance, pebs[at])
        elif way == 2:
            pebs[at] = torn(flash, chance, pebs[at])
        elif way == 3:
            pebs[at] = half_erased(flash, chance, pebs[at])
        elif way == 4:
            # The data run ends early.
            end = flash.geometry.data_start + chance.below(40)
            pebs[at] = pebs[at][:end] + b"\xff" * (flash.peb_size - end)
        elif way == 5:
            other = chance.below(len(pebs))
            pebs[at], pebs[other] = pebs[other], pebs[at]
        elif way == 6:
            pebs[at] = chance.pick(others)
        elif way == 7:
            # The headers of one PEB over the data of another.
            start = flash.geometry.data_start
            pebs[at] = pebs[at][:start] + chance.pick(others)[start:]
        else:
            pebs[at] = flash.peb(other_field(flash, chance, blocks[at]))
    return pebs


def flipped(flash, chance, peb):
    """Another bit in one of the headers, or early in the data."""
    start = chance.pick([0, flash.geometry.vid_start,
                         flash.geometry.data_start])
    at = start + chance.below(64)
    return changed(peb, at, [peb[at] ^ 1 << chance.below(8)])


def torn(flash, chance, peb):
    """A prefix of a header and then 0xFF; a torn EC header has no VID."""
    if chance.below(3) == 0:
        keep = chance.below(64)
    else:
        keep = flash.geometry.vid_start + chance.below(64)
    return peb[:keep] + b"\xff" * (flash.peb_size - keep)


def half_erased(flash, chance, peb):
    """Any bytes of it 0xFF: the first, the last, or some everywhere."""
    cut = chance.below(flash.geometry.data_start + 64)
    lot = chance.below(3)
    if lot == 0:
        return b"\xff" * cut + peb[cut:]
    if lot == 1:
        return peb[:cut] + b"\xff" * (flash.peb_size - cut)
    return bytes(0xFF if chance.below(3) == 0 else byte for byte in peb)


def other_field(flash, chance, block):
    """Another value in one field of a header, and the CRC right."""
    pools = {
        "version": [0, 2], "type": [1, 2, 3], "copy_flag": [0, 1, 2],
        "compatibility": [0, 1, 2, 4, 5], "volume": [0, 1, 5, LAYOUT],
        "leb": [0, 1, 2, 3], "data_size": [0, 1, 5, flash.leb_size],
        "used_lebs": [0, 1, 2, 3, 4], "data_pad": [0, 1, flash.leb_size // 2],
        "data_crc": [0, 1], "sequence": [0, 1, 2, 3, 2 ** 32, U64],
        "counter": [0, 0x7FFFFFFF, 0x80000000], "vid_start": [0, 64],
        "data_start": [128, 512],
        "image_sequence": (0, IMAGE_SEQUENCE) + OTHER_SEQUENCES,
    }
    if isinstance(block.vid, ubi.VidHeader) and chance.below(5):
        field = chance.pick(ubi.VidHeader._fields)
        return vid_with(block, **{field: chance.pick(pools[field])})
    if isinstance(block.ec, ubi.EcHeader):
        field = chance.pick(ubi.EcHeader._fields)
        return ec_with(block, **{field: chance.pick(pools[field])})
    return block
