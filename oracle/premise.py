"""Why demand 3 has a premise: an image for each of its four parts.

    python3 oracle/premise.py

For each part a chip is made and one move on it stopped, so that this part of
the premise alone does not hold of the stopped image, and demand 3's claim is
false of it. So no part can be left out. Checksums are linear, so the bytes
that make one fit are found by solving equations and not by chance. A line is
printed for each part; if a part has no such image, the exit status is 1.
"""

import os
import sys
from collections import namedtuple

# The modules beside this one are read only: leave no cache among them.
sys.dont_write_bytecode = True
sys.path.insert(0, os.path.dirname(os.path.abspath(__file__)))

import check_moves  # noqa: E402
import mover  # noqa: E402
import ubi  # noqa: E402
from cases_mover_random import UNSEEN  # noqa: E402
from images import Flash  # noqa: E402
from ubi import Refused  # noqa: E402

# The chip has its tables in PEBs 0 and 1; the one block of volume 0 is in
# PEB 2, and PEB 3 is the move's target.
OLD, TARGET = 2, 3
UNIT = 64

# Of a header: what a stop must not touch if fields are to stay as they are.
HEADER = range(ubi.HEADER_SIZE)
EC_KEPT = list(range(5)) + list(range(8, 13)) + list(range(16, 24))
VID_KEPT = list(range(16)) + list(range(20, 36))
IMAGE_SEQUENCE_AT = 24
SEQUENCE_AT = 40
SEQUENCE_END = 48

# One move: the chip before it, and where it is stopped.
Stopped = namedtuple("Stopped", "flash image stop")


def chip(data, sequence=3):
    flash = Flash(1024, UNIT, UNIT)
    return flash, flash.image(flash.with_tables(
        [flash.volume()], flash.dynamic(0, 0, sequence, data), flash.free()))


def plan_on(flash, image):
    lent = mover.enough_tables(image, flash.peb_size)
    return mover.begin(flash.slip, image, lent, 0, 0, TARGET)


# ---------------------------------------------- checksums that are to fit

def solved(wanted, columns):
    """Numbers of columns that add up, without carry, to what is wanted.

    None if no columns do.
    """
    basis = {}
    for number, column in enumerate(columns):
        value, used = reduced(column, 1 << number, basis)
        if value:
            basis[value.bit_length()] = value, used
    value, used = reduced(wanted, 0, basis)
    if value:
        return None
    return [number for number in range(len(columns)) if used >> number & 1]


def reduced(value, used, basis):
    for length in range(value.bit_length(), 0, -1):
        if value.bit_length() == length and length in basis:
            value ^= basis[length][0]
            used ^= basis[length][1]
    return value, used


def checksum_error(header):
    """0 if the checksum field is the checksum of the bytes before it."""
    return ubi.jamcrc(header[:ubi.HEADER_CRC_AT]) ^ ubi.number_at(
        header, ubi.HEADER_CRC_AT, 4)


def erased(header, places):
    return bytes(0xFF if at in places else byte
                 for at, byte in enumerate(header))


def places_to_erase(header, kept, first):
    """Places of a header, `first` and others, but none that is to be kept,
    such that the checksum is right again when they are erased."""
    start = erased(header, [first])
    free = [at for at in HEADER if at not in kept and at != first]
    found = solved(checksum_error(start), [
        checksum_error(start) ^ checksum_error(erased(start, [at]))
        for at in free])
    return None if found is None else [first] + [free[at] for at in found]


# ------------------------------------------------------------ the four parts

def new_vid_not_whole():
    """Step 1 is cut in the padding behind the sequence, and the header is
    good: 0xFF in place of padding and checksum is right for this sequence.
    The block is empty, so there are no data to tell its copies apart."""
    def stored(sequence):
        plan = plan_on(*chip(b"", sequence - 1))
        return erased(ubi.vid_header_bytes(plan.vid),
                      range(SEQUENCE_END, ubi.HEADER_SIZE))

    base = 1 << 40
    start = checksum_error(stored(base))
    bits = solved(start, [start ^ checksum_error(stored(base + (1 << bit)))
                          for bit in range(32)])
    sequence = base + sum(1 << bit for bit in bits)
    flash, image = chip(b"", sequence - 1)
    return Stopped(flash, image, mover.Stop(1, SEQUENCE_END))


def new_data_not_whole():
    """The second unit differs from 0xFF by the checksum's polynomial, and
    is not stored: the run has its checksum without it."""
    second = bytes(byte ^ 0xFF for byte in UNSEEN)
    flash, image = chip((b"reading " * UNIT)[:UNIT] + second)
    return Stopped(flash, image, mover.Stop(3, 0))


def old_ec_not_whole():
    """The erase is cut, and what it leaves of the old EC header is a good
    one again, with another image sequence."""
    flash, image = chip(b"reading")
    plan = plan_on(flash, image)
    places = places_to_erase(mover.move_places(plan, image).old_ec, EC_KEPT,
                             IMAGE_SEQUENCE_AT)
    return Stopped(flash, image,
                   mover.Stop(mover.step_count(plan) - 1, places))


def old_vid_not_whole():
    """The erase is cut when the data are gone, and what it leaves of the old
    VID header is a good one again, with a sequence above the new one's."""
    places = None
    sequence = 3
    while places is None:
        sequence += 1
        flash, image = chip(b"reading", sequence)
        plan = plan_on(flash, image)
        places = places_to_erase(mover.move_places(plan, image).old_vid,
                                 VID_KEPT, SEQUENCE_AT)
    vid, data = flash.geometry.vid_start, flash.geometry.data_start
    return Stopped(flash, image, mover.Stop(
        mover.step_count(plan) - 1,
        [vid + at for at in places] + list(range(data, flash.peb_size))))


PARTS = (("new_vid", new_vid_not_whole), ("new_data", new_data_not_whole),
         ("old_ec", old_ec_not_whole), ("old_vid", old_vid_not_whole))


# ----------------------------------------------------------------- the claim

def broken(stopped):
    """What is false in demand 3's claim on the stopped image."""
    flash, image, stop = stopped
    book = mover.PlaceBook(flash.slip, image)
    book.feed(mover.Call(0, 0, TARGET, stop))
    first = check_moves.Shown(image, flash.geometry)
    try:
        now = check_moves.Shown(book.image, flash.geometry)
    except Refused as refused:
        return ["it does not attach (%s)" % refused]
    return [words for words, holds in (
        ("another table", now.table == first.table),
        ("other states", now.states == first.states),
        ("another content", now.contents == first.contents),
        ("the map is not the place book", now.places == book.places))
        if not holds]


def failing_parts(stopped):
    plan = plan_on(stopped.flash, stopped.image)
    after = mover.image_after(plan, stopped.image, stopped.stop)
    parts = mover.premise_parts(plan, stopped.image, after)
    return [name for name, holds in zip(parts._fields, parts) if not holds]


def main(arguments):
    if arguments:
        print(__doc__.strip(), file=sys.stderr)
        return 2
    for name, make in PARTS:
        stopped = make()
        failing, wrong = failing_parts(stopped), broken(stopped)
        if failing != [name] or not wrong:
            print("%s: no such image (%s fail; %s)" % (name, failing, wrong))
            return 1
        print("%s alone fails, stopped in step %d: %s" % (
            name, stopped.stop.step, ", ".join(wrong)))
    return 0


if __name__ == "__main__":
    sys.exit(main(sys.argv[1:]))
