"""The dumps kept in the repository for people to try.

The bench example is 01's own. The small sample is a chip with a history:
its listing shows every class, every state and most of what an inspector
has to look at. Both have their slip in front. The sample chip is a whole
small NAND chip, of 1 MiB and so too long for the listing program, without
a slip: it is for the bench tool.
"""

import attach
import listing
import ubi
from cases import Chance
from images import BLANK, Block, Flash, ec_with
from mover import enough_tables


def bench_dump():
    """01's bench example, put together from its words."""
    flash = Flash(1024, 1, 1)
    blocks = flash.with_tables([flash.volume(b"log", reserved=1)],
                               flash.dynamic(0, 0, 3, b"abc"), flash.free())
    # 01 names no image sequence.
    return flash.slip + flash.image(
        ec_with(block, counter=counter, image_sequence=0)
        for block, counter in zip(blocks, (3, 5, 9, 4)))


def small_dump():
    """Fourteen PEBs of 1,024 bytes, unit 64, with the log moved twice."""
    flash = Flash(1024, 64, 64)
    log = flash.volume(b"log", reserved=4)
    boot = flash.volume(b"boot", reserved=2, type=ubi.STATIC)
    colours = flash.volume(b"colours", reserved=3, update_marker=1)
    spare = flash.volume(b"spare", reserved=1)
    blocks = flash.with_tables(
        [log, boot, None, colours, spare],
        # Moved, and the old copy not yet erased.
        flash.dynamic(0, 0, 3, b"reading 1"),
        flash.copy(0, 0, 9, b"reading 1"),
        # A move cut short: the new copy's data are not whole.
        flash.dynamic(0, 1, 4, b"reading 2"),
        flash.copy(0, 1, 10, b"reading 2", sound=False),
        # A static volume with a wrong byte in its last LEB.
        flash.static(1, 0, 2, 5, b"program"),
        flash.static(1, 1, 2, 6, b"its end", right=False),
        torn_vid(flash.dynamic(0, 3, 11)),
        # The counter lost, the LEB not.
        flash.dynamic(0, 2, 12)._replace(ec=b"UBI#\x01"),
        # A volume that the table no longer has, and one of another driver.
        flash.dynamic(2, 0, 7, b"old colours"),
        flash.internal(ubi.READ_ONLY, 8),
        flash.free(),
        BLANK)
    counters = (12, 15, 40, 9, 31, 30, 8, 14, 22, None, 7, 18, 350, None)
    return flash.slip + flash.image(
        block if counter is None else ec_with(block, counter=counter)
        for block, counter in zip(blocks, counters))


def torn_vid(block):
    """Power lost while its VID header was stored."""
    return Block(block.ec, ubi.vid_header_bytes(block.vid)[:41], b"")


# The sample chip: blocks of 8 KiB, pages of 512 bytes without sub-pages.
CHIP = Flash(8192, 512, 512)
CHIP_BLOCKS = 128
BOOT, PROGRAM, LOG, SETTINGS = range(4)
# LEBs of the log that were never written, or erased since.
LOG_WITHOUT = (3, 11, 12, 29)


def chip_image():
    """A scanner's chip after a power cut, with one block torn."""
    chance = Chance(1307)
    filled = chip_volumes() + chip_leftovers()
    free = [CHIP.free() for _ in range(CHIP_BLOCKS - 2 - len(filled) - 5)]
    blocks = chance.shuffled(filled + free)
    tables = CHIP.with_tables([
        CHIP.volume(b"boot", reserved=6, type=ubi.STATIC),
        CHIP.volume(b"program", reserved=28, type=ubi.STATIC),
        CHIP.volume(b"log", reserved=60, flags=ubi.AUTORESIZE),
        CHIP.volume(b"settings", reserved=2)])
    worn = [worn_block(block, chance) for block in tables + blocks]
    return CHIP.image(worn[:90] + [BLANK] * 2 + worn[90:] + [BLANK] * 3)


def chip_volumes():
    """What the scanner has written, in the order of its sequences."""
    room = CHIP.leb_size
    blocks = []
    for volume, used, size, word in ((BOOT, 5, 4100, b"boot loader"),
                                     (PROGRAM, 26, 2222, b"program")):
        for leb in range(used):
            data = text(word, leb, room if leb + 1 < used else size)
            blocks.append(CHIP.static(volume, leb, used, 10 + len(blocks),
                                      data))
    for leb in range(34):
        if leb not in LOG_WITHOUT:
            blocks.append(CHIP.dynamic(LOG, leb, 10 + len(blocks),
                                       text(b"vial reading", leb, room)))
    blocks.append(CHIP.dynamic(SETTINGS, 0, 10 + len(blocks),
                               text(b"setting", 0, 1500)))
    return blocks


def chip_leftovers():
    """A move whose old block was not yet erased, one cut in its data, and
    a block whose second header is torn."""
    moved = text(b"vial reading", 7, 7168)
    return [CHIP.copy(LOG, 7, 900, moved),
            CHIP.copy(LOG, 20, 901, text(b"vial reading", 20, 512),
                      sound=False),
            torn_vid(CHIP.dynamic(LOG, 29, 902))]


def text(word, leb, size):
    """Lines that tell where they stand, so that a moved LEB can be read."""
    line = b"%s %d, line %%05d, the sample chip of Choduljin\n" % (word, leb)
    return b"".join(line % number for number in range(size // 40 + 1))[:size]


def worn_block(block, chance):
    """Programs are written once; what the log goes through is erased often,
    and the free blocks are the log's."""
    is_static = not isinstance(block.vid, bytes) and (
        block.vid.type == ubi.STATIC)
    low, spread = (2, 6) if is_static else (60, 45)
    counter = low + chance.below(spread) + chance.below(spread)
    return ec_with(block, counter=counter, image_sequence=0x0C40D001)


def chip_listing(image):
    """Without the listing program's 60 KiB."""
    lent = enough_tables(image, CHIP.peb_size)
    report = attach.attach(CHIP.slip, image, lent)
    return "".join(line + "\n" for line in listing.report_lines(
        report)).encode("ascii")


# What the samples are meant to show.
SMALL_CLASSES = "11211211415603"
SMALL_STATES = ["vol 0 1", "vol 1 3", "vol 3 2", "vol 4 1"]
CHIP_CLASSES = [56, 64, 2, 5, 1, 0, 0]
CHIP_STATES = ["vol 0 1", "vol 1 1", "vol 2 1", "vol 3 1"]


def self_test():
    """The bench dump is attach.py's byte for byte and prints 01's text."""
    bench = bench_dump()
    assert bench == b"".join(attach.bench_input())
    assert listing.listing(bench) == listing.BENCH_LISTING
    small = small_dump()
    assert len(small) < 16 * 1024
    lines = listing.listing(small).decode("ascii").splitlines()
    classes = [line.split(" ")[2] for line in lines if line[:3] == "peb"]
    assert "".join(classes) == SMALL_CLASSES
    assert lines[-4:] == SMALL_STATES and lines[0].endswith("grade 1")
    lines = chip_listing(chip_image()).decode("ascii").splitlines()
    classes = [line.split(" ")[2] for line in lines if line[:3] == "peb"]
    assert [classes.count(klass) for klass in "0123456"] == CHIP_CLASSES
    assert lines[-4:] == CHIP_STATES and lines[0].endswith("grade 1")


def sample_files():
    """Path and content, for the generator."""
    files = []
    for dump, dump_path, text_path in (
            (bench_dump(), "crates/ubilist/stdin", "crates/ubilist/stdout"),
            (small_dump(), "samples/small.dump", "samples/small.txt")):
        files += [(dump_path, dump), (text_path, listing.listing(dump))]
    chip = chip_image()
    files += [("samples/chip.dump", chip),
              ("samples/chip.txt", chip_listing(chip))]
    return files
