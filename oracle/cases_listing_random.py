"""Dumps by chance, for the stored cases and for comparing programs.

Nothing is expected of them by hand. Most attach or are refused late; some
are spoilt where the earlier refusals look.
"""

import ubi
from cases import changed
from cases_attach_random import random_blocks, spoil
from cases_slip import POWERS, slip
from images import BLANK, Flash
from listing import MOST_INPUT, SLIP_SIZE

MOST_IMAGE = MOST_INPUT - SLIP_SIZE

# Short blocks, and all sorts of starts of headers and data.
COMMON = ((1024, 512, 64), (1024, 512, 64), (1024, 1, 1), (1024, 128, 32),
          (1024, 256, 256), (1100, 4, 2), (1536, 512, 512), (2048, 512, 512),
          (2048, 1024, 64), (4096, 2048, 512), (6144, 2048, 2048))


def random_dump(chance):
    """One dump: the bytes of standard input."""
    lot = chance.below(100)
    if lot < 4:
        return wrong_slip(chance)
    if lot < 7:
        return wild_geometry(chance)
    if lot < 11:
        return wrong_length(chance)
    if lot < 14:
        return too_much(chance)
    if lot < 16:
        return nothing_written(chance)
    if lot < 18:
        flash = random_flash(chance)
        count = chance.between(2, most_pebs(flash))
        return flash.slip + chance.bytes(count * flash.peb_size)
    return whole_dump(chance)


def whole_dump(chance):
    """Whole PEBs, as written or with a few of them spoilt."""
    flash = random_flash(chance)
    blocks = random_blocks(flash, chance, random_count(flash, chance),
                           random_sequences(chance))
    pebs = [flash.peb(block) for block in blocks]
    if chance.below(3) == 0:
        pebs = spoil(flash, blocks, pebs, chance, pebs)
    return flash.slip + b"".join(pebs)


# ------------------------------------------------------ geometry and numbers

def most_pebs(flash):
    return MOST_IMAGE // flash.peb_size


def random_flash(chance):
    """A geometry of which the program holds at least three PEBs."""
    numbers = chance.pick(COMMON)
    if chance.below(3) == 0:
        numbers = any_geometry(chance)
    flash = Flash(*numbers)
    flash.counters = random_counters(chance)
    return flash


def any_geometry(chance):
    unit = chance.pick(POWERS)
    sub_unit = chance.pick(POWERS[:POWERS.index(unit) + 1])
    data_start = ubi.smallest_multiple(
        unit, ubi.smallest_multiple(sub_unit, 64) + 64)
    least = ubi.smallest_multiple(unit, max(1024, data_start + 172)) // unit
    # Mostly short blocks, so that there are many; some with many records.
    widest = MOST_IMAGE // 3 // unit
    if chance.below(4):
        widest = min(widest, least + 2048 // unit)
    return chance.between(least, widest) * unit, unit, sub_unit


def random_count(flash, chance):
    most = most_pebs(flash)
    if chance.below(6) == 0:
        return chance.between(max(2, most - 3), most)
    return chance.between(2, min(most, 16))


def random_counters(chance):
    """Numbers of every length, up to the highest that is not lost."""
    while True:
        lot = chance.below(8)
        if lot == 0:
            yield 0x7FFFFFFF - chance.below(2)
        elif lot == 1:
            yield 10 ** chance.between(0, 9) - chance.below(2)
        else:
            yield chance.below(2 ** chance.between(1, 31))


def random_sequences(chance):
    """As many different ones as there can be PEBs, around some number."""
    middle = chance.pick([100, 1000, 2 ** 32, 2 ** 63, 2 ** 64 - 100,
                          10 ** chance.between(2, 19)])
    return iter(chance.shuffled(range(middle - 100, middle + 100)))


# ------------------------------------------------------ the early refusals

def wrong_slip(chance):
    """A byte of the slip changed, or the input cut within it or behind."""
    dump = whole_dump(chance)
    if chance.below(2):
        return dump[:chance.between(0, SLIP_SIZE + 2)]
    at = chance.below(SLIP_SIZE)
    return changed(dump, at, [dump[at] ^ 1 << chance.below(8)])


def wild_geometry(chance):
    """Numbers that are near good ones, or any."""
    dump = whole_dump(chance)
    numbers = list(ubi.read_slip(dump[:SLIP_SIZE]))
    field = chance.below(3)
    if chance.below(2):
        numbers[field] = chance.below(2 ** (32 if field == 0 else 16))
    else:
        numbers[field] = max(0, numbers[field] + chance.pick([-1, 1, 2]))
    return slip(*numbers) + dump[SLIP_SIZE:]


def wrong_length(chance):
    """Bytes cut off, or more of them; rarely whole PEBs again."""
    dump = whole_dump(chance)
    if chance.below(2):
        return dump[:chance.between(SLIP_SIZE, len(dump))]
    return dump + b"\xff" * chance.pick([1, 2, 511, 512, 1023, 1024])


def too_much(chance):
    """Up to the most input and beyond it, the slip good or not."""
    dump = whole_dump(chance)
    if chance.below(3) == 0:
        dump = changed(dump, chance.below(SLIP_SIZE), [chance.below(256)])
    lengths = [MOST_INPUT - 1, MOST_INPUT, MOST_INPUT + 1, 61460, 65536,
               65537, 100000, 131092]
    return dump + b"\xff" * (chance.pick(lengths) - len(dump))


def nothing_written(chance):
    """Free and blank PEBs, perhaps with one that is torn."""
    flash = random_flash(chance)
    count = random_count(flash, chance)
    blocks = [chance.pick([BLANK, flash.free()]) for _ in range(count)]
    if chance.below(3) == 0:
        blocks[chance.below(count)] = BLANK._replace(
            ec=chance.pick([b"", b"UBI"]), vid=b"UBI!\x01")
    return flash.slip + flash.image(blocks)
