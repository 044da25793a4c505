"""Dumps by chance for the tests at scale: chips of all sorts, whole and damaged.

After a change the checksums over it are mended most of the time, so that the damage gets past them. The chips come
from the oracle's generators; what is done to them is done here, on bytes.
"""

import ubi
from cases import changed
from cases_attach_random import GEOMETRIES, half_erased, random_blocks, torn
from cases_listing_random import (nothing_written, random_counters, random_count, random_flash, random_sequences,
                                  wild_geometry, wrong_length, wrong_slip)
from cases_mover_random import random_chip
from images import BLANK, IMAGE_SEQUENCE, Block, Flash
from listing import SLIP_SIZE

# Chips as they are sold, a few blocks of each.
REAL = ((131072, 2048, 512), (131072, 2048, 2048), (65536, 1, 1), (16384, 512, 512), (262144, 4096, 4096))
MOST_PEBS = 4096
U64 = 2 ** 64 - 1

# Of a header: its table of fields, and where it starts in a block.
EC, VID = "ec", "vid"


# ------------------------------------------------------------------ whole chips

def flash_of(chance):
    lot = chance.below(50)
    if lot == 0:
        return Flash(*chance.pick(REAL))
    if lot < 25:
        flash = Flash(*chance.pick(GEOMETRIES))
        flash.counters = random_counters(chance)
        return flash
    return random_flash(chance)


def chip_of(chance):
    """A Flash with the bytes of each PEB; mostly it attaches."""
    if chance.below(3) == 0:
        flash, image = random_chip(chance)
        return flash, split(image, flash.peb_size)
    flash = flash_of(chance)
    count = chance.between(3, 6) if flash.peb_size >= 16384 else random_count(flash, chance)
    blocks = random_blocks(flash, chance, count, random_sequences(chance))
    sequence = chance.pick([0, 1, 0x5EED0001, chance.below(2 ** 32)])
    return flash, [flash.peb(with_image_sequence(block, sequence)) for block in blocks]


def long_chip(chance):
    """Hundreds of short blocks, of volumes with many LEBs: long tables and listings."""
    flash = Flash(*chance.pick(((1024, 512, 64), (1024, 1, 1), (1024, 256, 256))))
    flash.counters = random_counters(chance)
    count = chance.between(80, 500)
    log = flash.volume(b"log", reserved=count // 2)
    boot = flash.volume(b"boot", reserved=count // 3, type=ubi.STATIC)
    used = chance.between(1, boot.reserved)
    blocks = flash.with_tables([log, boot] if chance.below(2) else [log, None][:flash.record_count])
    sequences = iter(chance.shuffled(range(3, 3 + 2 * count)))
    for leb in range(log.reserved):
        for _ in range(chance.pick([0, 1, 1, 1, 2])):
            make = chance.pick([flash.dynamic, flash.copy])
            blocks.append(make(0, leb, next(sequences), chance.bytes(chance.between(1, 9))))
    for leb in range(used - (chance.below(4) == 0)):
        blocks.append(flash.static(1, leb, used, next(sequences), chance.bytes(7)))
    blocks += [chance.pick([BLANK, flash.free()]) for _ in range(max(0, count - len(blocks)))]
    return flash, [flash.peb(block) for block in chance.shuffled(blocks)]


def with_image_sequence(block, sequence):
    """In place of the usual one: zeroes stay, and numbers that differ."""
    if isinstance(block.ec, bytes) or block.ec.image_sequence != IMAGE_SEQUENCE:
        return block
    return block._replace(ec=block.ec._replace(image_sequence=sequence))


def split(image, size):
    return [image[at:at + size] for at in range(0, len(image), size)]


def dump_of(chance):
    """Slip and image."""
    lot = chance.below(100)
    for limit, early in ((2, wrong_slip), (4, wild_geometry), (6, wrong_length), (8, nothing_written)):
        if lot < limit:
            dump = early(chance)
            return dump[:SLIP_SIZE], dump[SLIP_SIZE:]
    if lot == 8 and chance.below(20) == 0:
        return many_pebs(chance)
    flash, pebs = long_chip(chance) if lot == 9 else chip_of(chance)
    if chance.below(4):
        pebs = damaged(flash, pebs, chance)
    image = b"".join(pebs)
    if chance.below(25) == 0:
        image = image[:chance.between(1, len(pebs)) * flash.peb_size]
    slip = flash.slip
    if chance.below(60) == 0:
        slip = slip[:chance.below(SLIP_SIZE)] if chance.below(2) else slip + chance.bytes(1)
    return slip, image


def many_pebs(chance):
    """Around the most that there may be: a chip with blank blocks behind it."""
    flash, pebs = chip_of(chance)
    while flash.peb_size > 2048:
        flash, pebs = chip_of(chance)
    count = MOST_PEBS + chance.pick([-1, 0, 0, 1])
    return flash.slip, b"".join(pebs) + b"\xff" * flash.peb_size * (count - len(pebs))


# ---------------------------------------------------------------------- damage

def damaged(flash, pebs, chance):
    pebs = list(pebs)
    for _ in range(chance.pick([1, 1, 1, 2, 2, 3, 5])):
        chance.pick(WAYS)(flash, pebs, chance)
    return pebs


def place_of(flash, which):
    return 0 if which == EC else flash.geometry.vid_start


def mended(peb, at):
    """The header's CRC over what its bytes are now."""
    return changed(peb, at + 60, ubi.jamcrc(peb[at:at + 60]).to_bytes(4, "big"))


def mostly(chance):
    return chance.below(4) > 0


def flip(data, at, chance):
    return changed(data, at, [data[at] ^ 1 << chance.below(8)])


def flip_in_header(flash, pebs, chance):
    number, which = chance.below(len(pebs)), chance.pick([EC, VID, VID])
    at = place_of(flash, which)
    pebs[number] = flip(pebs[number], at + chance.below(64), chance)
    if mostly(chance):
        pebs[number] = mended(pebs[number], at)


def other_field(flash, pebs, chance):
    """Another value of one field, its own or a neighbour's or a limit's."""
    number, which = chance.below(len(pebs)), chance.pick([EC, VID, VID, VID])
    name, offset, width = chance.pick(ubi.EC_FIELDS if which == EC else ubi.VID_FIELDS)
    at = place_of(flash, which)
    peb = pebs[number]
    value = ubi.number_at(peb, at + offset, width)
    pool = [0, 1, 2, 4, 5, value + 1, value - 1, value ^ 1 << chance.below(8 * width), 0x7FFFFFFF, 0x80000000, U64,
            ubi.LAYOUT_VOLUME, ubi.LAYOUT_VOLUME + 1, flash.leb_size, flash.leb_size // 2, flash.unit,
            flash.geometry.vid_start, flash.geometry.data_start, chance.below(2 ** 32)]
    peb = changed(peb, at + offset, (chance.pick(pool) % 2 ** (8 * width)).to_bytes(width, "big"))
    pebs[number] = mended(peb, at) if mostly(chance) else peb


def is_layout(at, peb):
    """By the VID header at this byte of a block."""
    return peb[at:at + 4] == ubi.VID_MAGIC and ubi.number_at(peb, at + 8, 4) == ubi.LAYOUT_VOLUME


def other_record(flash, pebs, chance):
    """Something in one record, of one layout copy or alike in all of them."""
    copies = [number for number, peb in enumerate(pebs) if is_layout(flash.geometry.vid_start, peb)]
    if not copies:
        return
    record = flash.geometry.data_start + chance.below(flash.record_count) * ubi.RECORD_SIZE
    # The fields of a record are what most is decided by; its padding and its name come after.
    _, offset, width = chance.pick(ubi.RECORD_FIELDS)
    at = chance.pick([offset + width - 1, offset + chance.below(width), chance.below(ubi.RECORD_SIZE)])
    bit, mend, follow = 1 << chance.below(8), mostly(chance), chance.below(2)
    for number in copies if chance.below(2) else [chance.pick(copies)]:
        peb = changed(pebs[number], record + at, [pebs[number][record + at] ^ bit])
        if mend:
            crc = ubi.jamcrc(peb[record:record + ubi.RECORD_CRC_AT])
            peb = changed(peb, record + ubi.RECORD_CRC_AT, crc.to_bytes(4, "big"))
        pebs[number] = with_data_crc(flash, peb) if follow else peb


def with_data_crc(flash, peb):
    """Data CRC and header CRC right, if the header has a data size."""
    at, start = flash.geometry.vid_start, flash.geometry.data_start
    size = ubi.number_at(peb, at + 20, 4)
    if peb[at:at + 4] != ubi.VID_MAGIC or not 0 < size <= flash.leb_size:
        return peb
    return mended(changed(peb, at + 32, ubi.jamcrc(peb[start:start + size]).to_bytes(4, "big")), at)


def flip_in_data(flash, pebs, chance):
    number = chance.below(len(pebs))
    at = flash.geometry.data_start + chance.below(chance.pick([1, 40, flash.leb_size]))
    pebs[number] = flip(pebs[number], at, chance)
    if chance.below(2):
        pebs[number] = with_data_crc(flash, pebs[number])


def tear(flash, pebs, chance):
    number = chance.below(len(pebs))
    pebs[number] = chance.pick([torn, half_erased])(flash, chance, pebs[number])


def cut_data(flash, pebs, chance):
    number = chance.below(len(pebs))
    end = flash.geometry.data_start + chance.below(40)
    pebs[number] = pebs[number][:end] + b"\xff" * (flash.peb_size - end)


def swap(flash, pebs, chance):
    one, other = chance.below(len(pebs)), chance.below(len(pebs))
    pebs[one], pebs[other] = pebs[other], pebs[one]


def double(flash, pebs, chance):
    """One block over another, as it is or with another sequence or data."""
    one, other = chance.below(len(pebs)), chance.below(len(pebs))
    peb, at = pebs[one], flash.geometry.vid_start
    if chance.below(3):
        sequence = ubi.number_at(peb, at + 40, 8) + chance.pick([-1, 1, 1, 2, 1000])
        peb = mended(changed(peb, at + 40, (sequence % 2 ** 64).to_bytes(8, "big")), at)
    if chance.below(3) == 0:
        place = flash.geometry.data_start + chance.below(24)
        peb = flip(peb, place, chance)
    pebs[other] = peb


def mixed(flash, pebs, chance):
    """The headers of one block over the data of another."""
    one, other = chance.below(len(pebs)), chance.below(len(pebs))
    start = flash.geometry.data_start
    pebs[one] = pebs[one][:start] + pebs[other][start:]


def other_block(flash, pebs, chance):
    """Blank, free, of another volume that is internal, or junk. Free ones share their neighbours' sequence."""
    known = [peb for peb in pebs if peb[:4] == ubi.EC_MAGIC]
    front = known[0][:ubi.HEADER_SIZE] if known else b""
    block = chance.pick([
        BLANK, Block(front, b"", b""), Block(front, b"", chance.bytes(3)),
        flash.internal(chance.pick([1, 2, 4, 5]), chance.below(99))._replace(ec=front),
        Block(front, chance.bytes(chance.between(1, 64)), b""), Block(b"UBI#", b"", b"")])
    pebs[chance.below(len(pebs))] = flash.peb(block)


WAYS = ((flip_in_header,) * 4 + (other_field,) * 5 + (other_record,) * 4 + (flip_in_data,) * 2 + (tear,) * 2
        + (double,) * 2 + (other_block,) * 2 + (cut_data, swap, mixed))
