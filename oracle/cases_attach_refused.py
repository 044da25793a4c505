"""Cases for attaching: the refusals, their order and their places."""

from itertools import permutations, product

import ubi
from cases import changed, cycle
from cases_slip import slip
from images import (BLANK, IMAGE_SEQUENCE, LAYOUT, Block, Flash, ec_with,
                    vid_with, ways_to_lose, with_image_seqs)

U32 = 0xFFFFFFFF
U64 = 2 ** 64 - 1


def add_refused_cases(probes):
    add_slips_and_sizes(probes)
    add_lent_lengths(probes)
    add_single_faults(probes)
    add_pairs_of_faults(probes)
    add_starts(probes)
    add_image_sequences(probes)
    add_shared_sequences(probes)
    add_all_free_or_blank(probes)
    add_entries_against_records(probes)
    add_far_places(probes)


def add_slips_and_sizes(probes):
    small = probes.small
    good = small.image(small.with_table([], small.free()))
    whole = small.slip
    enough = (4, 6, 128)
    lent = cycle([enough, (16, 24, 128), (0, 0, 0), (3, 7, 130)])

    # 1: cut short, too long, other tags and lengths.
    for length in range(20):
        probes.raw(whole[:length], good, next(lent), refused=(1, 0))
    for at in (0, 1, 2, 7, 8, 9, 12, 13, 14, 17, 18, 19):
        probes.raw(changed(whole, at, [whole[at] ^ 1]), good, next(lent),
                   refused=(1, 0))
    for tail in (b"\x00", b"\xff", whole, good[:64]):
        probes.raw(whole + tail, good, next(lent), refused=(1, 0))
    # 1 before 2, 3 and 4.
    for numbers in ((1024, 512, 64), (1024, 3, 1), (0, 0, 0)):
        for image in (good, good[:-1], b""):
            probes.raw(slip(*numbers)[:-1], image, next(lent),
                       refused=(1, 0))
            probes.raw(slip(*numbers) + b"\x00", image, next(lent),
                       refused=(1, 0))

    # 2: before 3 and 4.
    images = cycle([good, b"", good[:-1]])
    for numbers in (
            (0, 0, 0), (0, 1, 1), (1023, 1, 1), (1024, 512, 512),
            (1024, 1024, 1), (1024, 1024, 1024), (1024, 0, 1), (1024, 1, 0),
            (1024, 3, 1), (1024, 512, 3), (1024, 64, 128), (1025, 2, 1),
            (262145, 1, 1), (524288, 512, 64), (U32, 1, 1), (1, 1, 1),
            (1026, 3, 1), (8192, 8192, 1), (2048, 2048, 512),
            (0x80000400, 1, 1)):
        for _ in range(2):
            probes.raw(slip(*numbers), next(images), next(lent),
                       refused=(2, 0))

    # 3: before 4; 2 to 4,096 whole PEBs.
    for numbers in ((1024, 512, 64), (1025, 1, 1), (87381, 1, 1)):
        flash = Flash(*numbers)
        size = flash.peb_size
        image = flash.image([flash.free()] * 3)
        for length in (0, 1, size - 1, size, size + 1, 2 * size - 1,
                       2 * size, 2 * size + 1, 2 * size + 512, 3 * size - 1,
                       3 * size):
            if length in (2 * size, 3 * size):
                # Whole: nothing but free PEBs, or tables too short.
                wanted = {(6, 9, 128): (10, 0), (0, 0, 0): (4, 0)}
            else:
                wanted = {(6, 9, 128): (3, 0), (0, 0, 0): (3, 0)}
            for words in sorted(wanted):
                probes.raw(flash.slip, image[:length], words,
                           refused=wanted[words])
    for length in (len(good) - 1, len(good) + 1, len(good) + 512,
                   len(good) - 1024):
        probes.raw(whole, (good + good)[:length], (16, 24, 128),
                   refused=(3, 0))
    probes.raw(whole, good, (4, 6, 128), classes="10", entries=1)
    # The widest PEBs of which two fit the image's limit.
    erased = b"\xff" * 262144
    for peb_size, refused in ((131072, (10, 0)), (131071, (3, 0)),
                              (131073, (3, 0)), (262144, (3, 0))):
        probes.raw(slip(peb_size, 1, 1), erased, enough, refused=refused)
        probes.raw(slip(peb_size, 1, 1), erased[:peb_size], enough,
                   refused=(3, 0))
    # As many PEBs as an image of that many bytes can have.
    for count in (255, 256):
        words = 2 * count, 3 * count, 128
        probes.raw(whole, erased[:count * 1024], words, refused=(10, 0))
        probes.raw(whole, erased[:count * 1024 - 1], words, refused=(3, 0))


def add_lent_lengths(probes):
    small = probes.small
    table = [small.volume(b"log", reserved=2)]
    good = small.with_tables(table, small.dynamic(0, 0, 3), small.free())
    newer = list(good)
    newer[3] = ec_with(newer[3], version=2)
    for blocks, want in ((good, {"entries": 3}), (newer, {"refused": (5, 3)}),
                         ([BLANK] * 4, {"refused": (10, 0)})):
        for short in ((8, 12, 127), (8, 11, 128), (7, 12, 128), (0, 12, 128),
                      (8, 0, 128), (8, 12, 0), (0, 0, 0), (12, 8, 128),
                      (16384, 16384, 127), (16384, 11, 16384),
                      (7, 16384, 16384), (6, 9, 128), (8, 12, 4)):
            probes.add(small, blocks, short, refused=(4, 0))
        for long in ((8, 12, 128), (9, 12, 128), (8, 13, 128), (8, 12, 129),
                     (10, 15, 128), (8, 12, 384), (12, 12, 128),
                     (1000, 1000, 1000), (16384, 16384, 16384),
                     (8, 16384, 128), (16384, 12, 128), (8, 12, 16384)):
            probes.add(small, blocks, long, **want)
    for refusal, blocks in (
            (6, [small.free(vid_start=0)] + good),
            (7, [small.free(image_sequence=1)] + good),
            (8, [small.internal(5)] + good),
            (9, [small.dynamic(0, 0, 3)] + good),
            (11, [small.dynamic(0, 0, 4)] + good[2:]),
            (12, [small.dynamic(0, 1, 9, data_pad=1)] + good)):
        count = len(blocks)
        needed = 2 * count, 3 * count, 128
        place = {7: 1, 9: 3}.get(refusal, 0)
        probes.add(small, blocks, needed, refused=(refusal, place))
        probes.add(small, blocks, (2 * count + 1, 3 * count + 2, 131),
                   refused=(refusal, place))
        for number in range(3):
            short = list(needed)
            short[number] -= 1
            probes.add(small, blocks, tuple(short), refused=(4, 0))
    # No image sequence in the first PEB: not refused.
    blocks = [small.free(image_sequence=0)] + good
    probes.add(small, blocks, (10, 15, 128), classes="01110", entries=3)
    probes.add(small, blocks, (11, 17, 131), classes="01110", entries=3)
    # What is enough for fewer PEBs is not enough for more.
    for count in (2, 3, 4, 5, 9, 64, 200):
        blocks = small.with_tables([]) + [BLANK] * (count - 2)
        needed = 2 * count, 3 * count, 128
        probes.add(small, blocks, needed, entries=2)
        for number in range(3):
            short = list(needed)
            short[number] -= 1
            probes.add(small, blocks, tuple(short), refused=(4, 0))


def six_blocks(flash):
    """Two volumes and a free PEB: nothing to refuse yet."""
    return flash.with_table(
        [flash.volume(b"log", reserved=2),
         flash.volume(b"boot", reserved=2, type=ubi.STATIC)],
        flash.dynamic(0, 0, 3), flash.dynamic(0, 1, 4),
        flash.static(1, 0, 2, 5), flash.static(1, 1, 2, 6), flash.free())


def internal_vid(flash):
    return flash.internal(ubi.REJECT, 60).vid


# What can be wrong with one PEB, in the order in which it is judged.
EC_FAULTS = (
    (5, lambda flash, block: ec_with(block, version=2)),
    (6, lambda flash, block: ec_with(
        block, vid_start=flash.geometry.vid_start + 1)),
    (6, lambda flash, block: ec_with(
        block, data_start=flash.geometry.data_start - 1)),
    (7, lambda flash, block: ec_with(
        block, image_sequence=IMAGE_SEQUENCE ^ 1)),
)
VID_FAULTS = (
    (5, lambda flash, block: block._replace(
        vid=flash.dynamic(0, 0, 50, version=2).vid)),
    (8, lambda flash, block: block._replace(vid=internal_vid(flash))),
)
PEB_FAULTS = EC_FAULTS + VID_FAULTS


def shared_sequence(flash, blocks):
    """9 at PEB 2."""
    blocks[2] = blocks[2]._replace(vid=blocks[1].vid)


def no_table(flash, blocks):
    """11."""
    blocks[0] = blocks[0]._replace(data=b"spoilt" + blocks[0].data[6:])


def other_pad(flash, blocks):
    """12 at PEB 1."""
    blocks[1] = vid_with(blocks[1], data_pad=1)


IMAGE_FAULTS = ((9, 2, shared_sequence), (11, 0, no_table), (12, 1, other_pad))


def add_single_faults(probes):
    small = probes.small
    probes.add(small, six_blocks(small), classes="111110", copies=1,
               states={0: 1, 1: 1})
    for number, spoil in PEB_FAULTS:
        for at in (0, 1, 3, 5):
            blocks = six_blocks(small)
            blocks[at] = spoil(small, blocks[at])
            # Another sequence in PEB 0 is the one that 1 differs from.
            place = 1 if number == 7 and at == 0 else at
            probes.add(small, blocks, refused=(number, place))
    for number, place, spoil in IMAGE_FAULTS:
        blocks = six_blocks(small)
        spoil(small, blocks)
        probes.add(small, blocks, refused=(number, place))
    # Any version above 1, whatever the other fields say.
    for version in (2, 3, 127, 128, 255):
        for at in (0, 2):
            for change in ({}, {"counter": U64}, {"vid_start": 9},
                           {"image_sequence": 9}):
                blocks = small.with_table([]) + [BLANK, small.free()]
                blocks[at] = ec_with(blocks[at], version=version, **change)
                probes.add(small, blocks, refused=(5, at))
    for version in (2, 128, 255):
        for change in ({}, {"type": 0}, {"volume": U32}, {"data_pad": U32},
                       {"volume": LAYOUT + 1, "compatibility": 5},
                       {"leb": U32, "copy_flag": 9}):
            for ec in (small.ec(), b"", b"lost"):
                blocks = small.with_table([]) + [BLANK]
                vid = small.dynamic(0, 0, 50)._replace(ec=ec)
                blocks.append(vid_with(vid, version=version, **change))
                probes.add(small, blocks, refused=(5, 2))
    # Magic or CRC wrong: no version to speak of.
    ec = ubi.ec_header_bytes(small.ec(version=2))
    vid = ubi.vid_header_bytes(small.dynamic(0, 0, 50, version=2).vid)
    for block in (Block(changed(ec, 63, [ec[63] ^ 1]), b"", b""),
                  Block(changed(ec, 0, b"X"), b"", b""),
                  Block(ec[:50], b"", b""),
                  Block(vid, b"", b""), Block(vid, ec, b""),
                  Block(small.ec(), ec, b""),
                  Block(small.ec(), changed(vid, 3, b"#"), b""),
                  Block(small.ec(), changed(vid, 20, b"#"), b""),
                  Block(b"", vid[:63], b""),
                  Block(small.ec(), vid[:40], b"")):
        probes.add(small, small.with_table([]) + [block], classes="14")


def add_pairs_of_faults(probes):
    """Two refusals in one image: which comes first, and where."""
    small = probes.small
    # On two PEBs the lower one, whatever the numbers.
    for number, spoil in PEB_FAULTS:
        for _, also in PEB_FAULTS:
            blocks = six_blocks(small)
            blocks[2] = spoil(small, blocks[2])
            blocks[4] = also(small, blocks[4])
            probes.add(small, blocks, refused=(number, 2))
    # In one PEB: EC version, 6, 7, VID version, 8.
    for chosen in range(1, 16):
        for vid_fault in (None,) + VID_FAULTS:
            blocks = six_blocks(small)
            faults = [fault for bit, fault in enumerate(EC_FAULTS)
                      if chosen >> bit & 1]
            for _, spoil in faults + ([vid_fault] if vid_fault else []):
                blocks[4] = spoil(small, blocks[4])
            probes.add(small, blocks, refused=(faults[0][0], 4))
    # A PEB's fault comes before the image's, though its place be higher.
    for number, spoil in PEB_FAULTS:
        for _, _, spoil_image in IMAGE_FAULTS:
            blocks = six_blocks(small)
            spoil_image(small, blocks)
            blocks[5] = spoil(small, blocks[5])
            probes.add(small, blocks, refused=(number, 5))
    # 9, 11, 12.
    for chosen in (3, 5, 6, 7):
        faults = [fault for bit, fault in enumerate(IMAGE_FAULTS)
                  if chosen >> bit & 1]
        blocks = six_blocks(small)
        for _, _, spoil in faults:
            spoil(small, blocks)
        number, place, _ = faults[0]
        probes.add(small, blocks, refused=(number, place))
    # 9 among blocks of which none is in the table, and no table at all.
    blocks = [small.dynamic(3, 0, 5), small.dynamic(3, 0, 5)]
    probes.add(small, blocks, refused=(9, 1))
    probes.add(small, [BLANK] + blocks[::-1] + [small.free()],
               refused=(9, 2))
    # An image that 10 would refuse, but for a fault of one PEB.
    for number, spoil in PEB_FAULTS:
        blocks = [small.free() for _ in range(4)]
        blocks[2] = spoil(small, blocks[2])
        probes.add(small, blocks, refused=(number, 2))
    # No table, and a fault of the entries: 11, for 12 needs records.
    blocks = [small.dynamic(0, 0, 5), small.static(0, 1, 2, 6), BLANK]
    probes.add(small, blocks, refused=(11, 0))


def add_starts(probes):
    """6: a good EC header names other starts."""
    for numbers in ((1024, 512, 64), (4096, 2048, 512)):
        flash = Flash(*numbers)
        geometry = flash.geometry
        starts = geometry.vid_start, geometry.data_start
        base = [flash.free()]
        for vid_start, data_start in (
                (starts[0] + 1, starts[1]), (starts[0] - 1, starts[1]),
                (starts[0], starts[1] + 1), (starts[0], starts[1] - 1),
                (0, starts[1]), (starts[0], 0), (0, 0),
                (starts[1], starts[0]), (starts[0] + 0x10000, starts[1]),
                (starts[0], starts[1] + 0x10000),
                (starts[0] + 2 ** 31, starts[1]), (U32, U32),
                (2048, 4096), (64, 128)):
            if (vid_start, data_start) == starts:
                continue
            other = {"vid_start": vid_start, "data_start": data_start}
            probes.add(flash, base + [flash.free(**other)], refused=(6, 1))
            probes.add(flash, [flash.free(**other)] + base, refused=(6, 0))
    # Whatever class the PEB would have.
    small = probes.small
    other = small.ec(vid_start=128)
    for block in (small.dynamic(0, 0, 4), Block(b"", b"torn", b""),
                  small.internal(1), small.internal(5),
                  small.dynamic(9, 0, 4), small.layout(0, b"", 0)):
        probes.add(small, small.with_table([small.volume()]) + [
            BLANK, block._replace(ec=other)], refused=(6, 2))
    # A lost header names nothing.
    for change in ({"counter": 0x80000000}, {"version": 0}):
        lost = small.ec(vid_start=9, data_start=9, image_sequence=9, **change)
        probes.add(small, small.with_table([]) + [Block(lost, b"", b"")],
                   classes="14")
        probes.add(small, [Block(lost, b"", b"")] + small.with_table([]),
                   classes="41")
        block = small.dynamic(0, 0, 4)._replace(ec=lost)
        probes.add(small, small.with_table([small.volume()], block, BLANK),
                   classes="113")


def add_image_sequences(probes):
    """7: nonzero ones compared with that of the lowest PEB that has one."""
    small = probes.small
    table = small.table()

    def judge(sequences, **want):
        """None is an erased, a negative number a lost EC header."""
        blocks = [small.layout(0, table, 1)]
        blocks += [small.free() for _ in sequences[1:]]
        for at, sequence in enumerate(sequences):
            if sequence is None:
                blocks[at] = blocks[at]._replace(ec=b"")
            elif sequence < 0:
                lost = blocks[at].ec._replace(
                    image_sequence=-sequence, counter=0x80000000)
                blocks[at] = blocks[at]._replace(ec=lost)
            else:
                blocks[at] = ec_with(blocks[at], image_sequence=sequence)
        probes.add(small, blocks, **want)

    for sequence in (0, 1, 7, 0x7FFFFFFF, 0x80000000, U32):
        judge([sequence] * 3, classes="100", copies=1)
    for one, other in ((1, 2), (U32, 1), (1, 0x10001), (5, 0x05000000)):
        judge([one, other, other], refused=(7, 1))
        judge([one, one, other], refused=(7, 2))
        judge([one, other, one], refused=(7, 1))
        judge([None, one, other], refused=(7, 2))
        judge([None, one, one, other], refused=(7, 3))
        judge([None, None, one, other], refused=(7, 3))
        judge([None, one, None, other], refused=(7, 3))
        # A lost header's sequence counts on neither side.
        judge([-other, one, one], classes="100")
        judge([one, -other, one], classes="140")
        judge([one, one, -other], classes="104")
        judge([one, one, -other, None], classes="1043")
        judge([-other, one, other], refused=(7, 2))
        judge([one, -other, other], refused=(7, 2))
    judge([None, None, 5], classes="130")
    judge([5, None, None], classes="133")
    judge([None, None, None], classes="133", mean=0)
    judge([-1, -2, -3], classes="144", mean=0)
    add_zeroes(judge)
    add_lost_among_zeroes(probes)
    add_zeroes_in_order(probes)
    # Of PEBs of any class.
    other, zero = small.ec(image_sequence=2), small.ec(image_sequence=0)
    blocks = small.with_table([small.volume()]) + [BLANK]
    silent = with_image_seqs(blocks, [0, 0])
    for block, klass in (
            (small.dynamic(0, 0, 4), "1"), (Block(b"", b"torn", b""), "4"),
            (small.internal(1), "5"), (small.internal(4), "6"),
            (small.dynamic(9, 0, 4), "5"), (small.layout(0, b"", 0), "2")):
        block = block._replace(ec=other)
        probes.add(small, blocks + [block], refused=(7, 2))
        probes.add(small, [block] + blocks, refused=(7, 1))
        # Zero in it, or in all but it.
        probes.add(small, blocks + [block._replace(ec=zero)],
                   classes="13" + klass)
        probes.add(small, [block._replace(ec=zero)] + blocks,
                   classes=klass + "13")
        probes.add(small, silent + [block], classes="13" + klass)
        probes.add(small, silent + [block, small.free()], refused=(7, 3))
    block = small.internal(5)._replace(ec=other)
    probes.add(small, blocks + [block], refused=(7, 2))
    probes.add(small, [block] + blocks, refused=(8, 0))
    probes.add(small, silent + [block], refused=(8, 2))


def add_zeroes(judge):
    """A zero says nothing, at any place and beside any number."""
    for one in (1, 0x80000000, U32):
        for sequences in product((0, one), repeat=3):
            judge(list(sequences), classes="100", copies=1)
    for sequences in product((0, 7), repeat=4):
        judge(list(sequences), classes="1000")
    # Two that differ, with zeroes before, between and behind them.
    pairs = cycle([(1, 2), (U32, 1), (0x80000000, U32), (7, 0x07000000),
                   (1, 0x80000001)])
    for places in product((0, 1, 2), repeat=4):
        met = [number for number in places if number]
        if 2 in met and met[0] == 1:
            numbers = (0,) + next(pairs)
            judge([numbers[number] for number in places],
                  refused=(7, places.index(2)))
    # Erased and lost ones among them.
    judge([0, None, 5], classes="130")
    judge([None, 0, 5, 0], classes="1000")
    judge([0, -9, 0], classes="140")
    judge([-9, 0, 5, 0], classes="1000")
    judge([0, None, 5, 0, None, 6], refused=(7, 5))
    judge([0, -6, 5, -6, 0, 6], refused=(7, 5))


def add_lost_among_zeroes(probes):
    """Whatever lost the EC header: its sequence says nothing."""
    small = probes.small
    ways = ways_to_lose(small.ec(image_sequence=9))
    for way in ("CRC", "version 0", "counter 0x80000000", "torn at 60",
                "magic of a VID header", "erased"):
        lost = Block(ways[way], b"", b"")
        klass = "3" if way == "erased" else "4"
        first, second = small.with_table([]) + [small.free()]
        # In front, where it would be the lowest.
        for numbers in ((0, 0), (0, 5), (5, 0), (0, 9)):
            blocks = with_image_seqs([first, second], numbers)
            probes.add(small, [lost] + blocks, classes=klass + "10")
        blocks = with_image_seqs([first, second, second], (0, 5, 9))
        probes.add(small, [lost] + blocks, refused=(7, 3))
        # Between and behind.
        probes.add(small, [blocks[0], lost, blocks[1]],
                   classes="1" + klass + "0")
        probes.add(small, blocks[:2] + [lost], classes="10" + klass)


def add_zeroes_in_order(probes):
    """What else is judged does not look at the image sequence."""
    small = probes.small
    at = 4
    for number, spoil in EC_FAULTS[:3] + VID_FAULTS:
        # A zero among others, the first of all that has one, or none at all.
        for own, others in ((0, IMAGE_SEQUENCE), (IMAGE_SEQUENCE, 0), (0, 0)):
            blocks = with_image_seqs(
                six_blocks(small), [others] * at + [own, others])
            blocks[at] = spoil(small, blocks[at])
            probes.add(small, blocks, refused=(number, at))
    # All faults of an EC header at once, but that its sequence is zero.
    blocks = six_blocks(small)
    blocks[at] = ec_with(blocks[at], version=2, vid_start=9, image_sequence=0)
    probes.add(small, blocks, refused=(5, at))
    blocks[at] = ec_with(blocks[at], version=1)
    probes.add(small, blocks, refused=(6, at))
    # 7 behind zeroes comes before 8 of its own and of the next PEB.
    for first in (3, 4):
        blocks = with_image_seqs(six_blocks(small), [0, 1, 0, 2, 2, 0])
        blocks[first] = blocks[first]._replace(vid=internal_vid(small))
        probes.add(small, blocks, refused=(7, 3))
    # Before it, 8 of a lower one.
    blocks[2] = blocks[2]._replace(vid=internal_vid(small))
    probes.add(small, blocks, refused=(8, 2))
    # What is refused behind 7 still is.
    for number, place, spoil in IMAGE_FAULTS:
        blocks = with_image_seqs(six_blocks(small), [0, 1, 0, 1, 0, 0])
        spoil(small, blocks)
        probes.add(small, blocks, refused=(number, place))
    free = [small.free() for _ in range(4)]
    probes.add(small, with_image_seqs(free, [0, 1, 0, 1]), refused=(10, 0))
    probes.add(small, with_image_seqs(free, [0, 1, 0, 2]), refused=(7, 3))
    probes.add(small, with_image_seqs(free, [0] * 4), refused=(10, 0))


def add_shared_sequences(probes):
    """9, and its place: the lowest PEB that repeats a lower one."""
    small = probes.small
    table = [small.volume(reserved=2)]
    a5, a6, a7 = (small.dynamic(0, 0, sequence) for sequence in (5, 6, 7))
    b5, b6 = (small.dynamic(0, 1, sequence) for sequence in (5, 6))
    c5, c6 = (small.dynamic(1, 3, sequence) for sequence in (5, 6))
    layout_0 = small.layout(0, small.table(*table), 1)
    layout_1 = small.layout(1, small.table(*table), 2)
    for blocks, place in (
            ([a5, a5], 2), ([a5, b5, a5], 3), ([a5, BLANK, a5, BLANK], 3),
            ([a5, a6, a6, a5], 3), ([a5, a6, a5, a6], 3),
            ([a5, a5, a5], 2), ([a5, a6, a7, a6], 4), ([a5, a6, a7, a5], 4),
            ([a6, a5, a7, a7, a5, a6], 4), ([b5, a5, a5, b5], 3),
            ([a5, b5, b5, a5], 3), ([a5, b6, a6, b6, a5], 4),
            # A LEB that the table does not have.
            ([c5, c5], 2), ([c5, a5, c5, a5], 3), ([a5, c5, a5, c5], 3),
            ([c5, c6, a5, c6], 4), ([c5, a5, a5, c5], 3),
            # The layout volume's LEBs.
            ([layout_0, a5, a5], 1), ([a5, a5, layout_0], 2),
            ([a5, layout_0, a5], 2), ([layout_1, layout_1], 2),
            ([layout_1, a5, layout_0], 3)):
        probes.add(small, [layout_0] + blocks + [BLANK],
                   refused=(9, place))
        # Turned, the layout LEB comes last and other PEBs repeat.
        turned = blocks[::-1]
        marks = [(block.vid.volume, block.vid.leb, block.vid.sequence)
                 if block.vid else None for block in turned]
        first = min([at for at, mark in enumerate(marks)
                     if mark and mark in marks[:at]] or [len(marks)])
        probes.add(small, turned + [layout_0], refused=(9, first))
    # Not soundness, type, pad or data make them different.
    for one, other in (
            (small.dynamic(0, 0, 5), small.copy(0, 0, 5)),
            (small.copy(0, 0, 5), small.copy(0, 0, 5, sound=False)),
            (small.copy(0, 0, 5, sound=False),
             small.copy(0, 0, 5, b"more", sound=False)),
            (small.dynamic(0, 0, 5), small.static(0, 0, 1, 5)),
            (small.dynamic(0, 0, 5), small.dynamic(0, 0, 5, data_pad=4)),
            (small.dynamic(0, 0, 0), small.dynamic(0, 0, 0)),
            (small.dynamic(0, 0, U64), small.dynamic(0, 0, U64)),
            (small.dynamic(127, 9, 5), small.static(127, 9, 10, 5)),
            (small.dynamic(0, 0x7FFFFFFF, 5),
             small.dynamic(0, 0x7FFFFFFF, 5)),
            (small.layout(1, b"", 5),
             small.layout_copy(1, small.table(), 5, sound=False)),
            (small.layout(1, b"", 5)._replace(ec=b""),
             small.layout(1, b"junk", 5)._replace(ec=b"lost"))):
        for pair in ([one, other], [other, one]):
            blocks = small.with_table(table)
            probes.add(small, blocks + pair, refused=(9, 2))
            probes.add(small, [BLANK, pair[0]] + blocks + [pair[1]],
                       refused=(9, 3))
    # Alike in less than volume, LEB and sequence: not refused.
    for one, other, classes in (
            (small.dynamic(0, 0, 5), small.dynamic(0, 1, 5), "111"),
            (small.dynamic(0, 0, 5), small.dynamic(1, 0, 5), "115"),
            (small.dynamic(0, 0, 5), small.dynamic(0, 0, 5 + 2 ** 32), "121"),
            (small.dynamic(0, 0, 5), small.dynamic(0, 0, 4), "112"),
            (small.dynamic(0, 0, 1), small.layout(1, b"", 1), "111"),
            (small.dynamic(5, 0, 5), small.dynamic(5, 0x10000, 5), "155"),
            (small.dynamic(0, 0, 5), small.internal(1, 5), "115"),
            # Other internal volumes are not asked.
            (small.internal(1, 5), small.internal(1, 5), "155"),
            (small.internal(2, 5), small.internal(2, 5), "166"),
            (small.internal(4, 5), small.internal(4, 5), "166"),
            # Nor are bad headers.
            (small.dynamic(0, 0, 5), small.dynamic(0, 0, 5, data_crc=1),
             "114"),
            (small.dynamic(0, 0, 5, type=7), small.dynamic(0, 0, 5, type=7),
             "144")):
        probes.anywhere(small, small.with_table(table, one, other) + [BLANK],
                        classes=classes + "3")
        probes.anywhere(small, small.with_table(table, other, one) + [BLANK],
                        classes=classes[0] + classes[:0:-1] + "3")


def add_all_free_or_blank(probes):
    small = probes.small
    free = small.free()
    for blocks in ([BLANK, BLANK], [free, free], [free, BLANK],
                   [BLANK, free], [BLANK] * 12, [free] * 6,
                   [BLANK, BLANK, free], [free, BLANK, BLANK, free]):
        probes.add(small, blocks, refused=(10, 0))
    # One PEB of another class, anywhere: there is no table.
    for block in (Block(b"torn", b"", b""), Block(b"", b"torn", b""),
                  Block(small.ec(), b"torn", b""), small.dynamic(0, 0, 3),
                  small.copy(0, 0, 3, sound=False), small.internal(1),
                  small.internal(2), small.internal(4),
                  small.static(5, 1, 2, 4), small.layout(0, b"", 1),
                  small.layout(1, b"", 1),
                  small.dynamic(0, 0, 3)._replace(ec=b""),
                  small.free(counter=0x80000000),
                  small.free(counter=0x80000000)._replace(vid=b"\xff" * 64)):
        probes.add(small, [block, free], refused=(11, 0))
        probes.add(small, [BLANK, block], refused=(11, 0))
        probes.add(small, [BLANK, free, BLANK, block, BLANK],
                   refused=(11, 0))
    # Data behind erased headers are no class.
    full = Block(b"", b"", b"\x00" * 512)
    probes.add(small, [full, full._replace(ec=free.ec)], refused=(10, 0))
    # A good table alone is enough.
    probes.add(small, [BLANK] + small.with_table([]), classes="31")
    # Two PEBs of a layout LEB without a table.
    probes.add(small, [small.layout(0, b"", 1), small.layout(1, b"", 2)],
               refused=(11, 0))


def add_entries_against_records(probes):
    """12, and its place: the first such entry in the order of the map."""
    five = probes.five
    log = five.volume(b"log", reserved=3)
    boot = five.volume(b"boot", reserved=4, type=ubi.STATIC)
    padded = five.volume(b"pad", reserved=3, alignment=100)
    padded_boot = five.volume(b"pad boot", reserved=3, alignment=100,
                              type=ubi.STATIC)
    assert padded.data_pad == 96

    def judge(records, blocks, block=None):
        """`block` is the one that 12 names; None if it attaches."""
        whole = five.with_table(records, *blocks)
        whole += [BLANK] * (2 + sum(
            record.reserved for record in records if record) - len(whole))
        if block is None:
            probes.anywhere(five, whole, entries=1 + len(blocks))
        else:
            probes.anywhere(five, whole, refused=(12, 1 + block))

    def d(leb, pad=0, volume=0, sequence=5):
        return five.dynamic(volume, leb, sequence, data_pad=pad)

    def s(leb, used, pad=0, volume=0, sequence=5, **more):
        return five.static(volume, leb, used, sequence, data_pad=pad, **more)

    # Type.
    judge([log], [d(0), d(1)])
    judge([log], [s(0, 1)], 0)
    judge([log], [d(0), s(1, 2)], 1)
    judge([log], [s(1, 2), d(0)], 0)
    judge([log], [s(1, 2), s(0, 2)], 1)
    judge([boot], [s(0, 2), s(1, 2)])
    judge([boot], [d(0)], 0)
    judge([boot], [s(0, 2), d(1)], 1)
    judge([boot], [d(2), s(1, 3)], 0)
    judge([boot], [s(1, 3), d(0)], 1)
    judge([log, boot], [d(0), d(0, volume=1)], 1)
    judge([log, boot], [s(0, 1), s(0, 1, volume=1)], 0)
    judge([boot, log], [s(0, 1, volume=1), d(0)], 1)
    judge([boot, log], [s(0, 1, volume=1), s(0, 1)], 0)
    judge([None, boot], [d(0, volume=1)], 0)
    # Pad.
    judge([padded], [d(0, 96), d(2, 96)])
    judge([log, padded], [d(0), d(0, 96, 1)])
    for pad in (0, 95, 97, 1, 192):
        judge([padded], [d(0, pad)], 0)
        judge([padded], [d(1, 96), d(2, pad)], 1)
        judge([padded_boot], [s(0, 1, pad)], 0)
    judge([log], [d(0, 96)], 0)
    judge([log], [d(0, 1)], 0)
    judge([boot], [s(0, 1, 1)], 0)
    judge([padded, log], [d(0), d(0, 0, 1)], 0)
    judge([padded, log], [d(0, 96), d(0, 96, 1)], 1)
    judge([padded_boot], [s(0, 2, 96), s(1, 2, 96)])
    judge([padded_boot], [s(0, 2, 96), s(1, 2, 95)], 1)
    # Type and pad at once.
    judge([padded], [s(0, 1)], 0)
    judge([padded_boot], [d(0)], 0)
    # Used LEBs against the volume's first entry, the one of its lowest LEB.
    judge([boot], [s(0, 2), s(1, 3)], 1)
    judge([boot], [s(0, 3), s(1, 2)], 1)
    judge([boot], [s(1, 3), s(0, 2)], 0)
    judge([boot], [s(2, 4), s(1, 3)], 0)
    judge([boot], [s(2, 3), s(1, 4)], 0)
    judge([boot], [s(3, 4), s(2, 4), s(1, 4)])
    judge([boot], [s(0, 4), s(1, 4), s(2, 3), s(3, 4)], 2)
    judge([boot], [s(0, 4), s(1, 3), s(2, 4), s(3, 4)], 1)
    judge([boot], [s(0, 4), s(3, 4), s(2, 3), s(1, 2)], 3)
    judge([boot], [s(0, 3), s(1, 4), s(2, 4), s(3, 4)], 1)
    # Used LEBs against reserved.
    judge([boot], [s(0, 4)])
    judge([boot], [s(0, 5)], 0)
    judge([boot], [s(3, 5)], 0)
    judge([boot], [s(2, 5), s(1, 5)], 1)
    judge([boot], [s(2, 5), s(1, 4)], 0)
    judge([boot], [s(2, 4), s(1, 5)], 1)
    judge([boot], [s(0, 0x7FFFFFFF)], 0)
    judge([boot], [s(0, 0x10001)], 0)
    # One refusal for all of these: the first entry, whatever its reason.
    judge([boot], [s(0, 5), d(1)], 0)
    judge([boot], [d(1), s(0, 4), s(2, 3)], 0)
    judge([boot], [s(0, 4), s(1, 3), d(2)], 1)
    judge([boot], [s(0, 4), s(1, 3), s(2, 4, 1)], 1)
    judge([boot], [s(0, 4), s(1, 4, 1), s(2, 3)], 1)
    judge([boot], [s(2, 3), s(1, 4, 1), s(0, 4)], 1)
    judge([boot, log], [s(0, 4), s(1, 3), s(0, 1, volume=1)], 1)
    judge([boot, padded], [s(0, 5), d(0, 0, 1)], 0)
    judge([padded, boot], [d(0, 95), s(0, 5, volume=1)], 0)
    judge([log, boot], [d(0), s(0, 5, volume=1), s(1, 5, 1, 1)], 1)
    # Each volume has its own first entry.
    other = five.volume(b"other", reserved=3, type=ubi.STATIC)
    judge([boot, other], [s(0, 4), s(0, 3, volume=1)])
    judge([other, boot], [s(1, 3), s(1, 4, volume=1)])
    judge([boot, other], [s(0, 4), s(0, 4, volume=1)], 1)
    judge([boot, other], [s(0, 3), s(0, 3, volume=1), s(1, 2, volume=1)], 2)
    judge([boot, other], [s(0, 5), s(0, 3, volume=1), s(1, 2, volume=1)], 0)
    judge([boot, other], [s(0, 4), s(1, 3), s(0, 5, volume=1)], 1)
    judge([boot, other], [s(1, 2, volume=1), s(0, 3, volume=1), s(0, 4),
                          s(1, 3)], 3)
    # The update marker and the skip flag excuse nothing.
    for change in ({"update_marker": 1}, {"flags": 3}):
        judge([boot._replace(**change)], [s(0, 5)], 0)
        judge([log._replace(**change)], [s(0, 1)], 0)
        judge([padded._replace(**change)], [d(0)], 0)

    # Copies passed over are no entries.
    probes.anywhere(five, five.with_table(
        [boot], s(0, 1, sequence=7), s(0, 2, sequence=6), d(0, sequence=5),
        s(0, 1, 3, sequence=4), s(0, 9, sequence=3)), classes="112222")
    probes.anywhere(five, five.with_table(
        [log], s(0, 1, sequence=7, right=False, copy_flag=1), d(0),
        BLANK, BLANK), classes="12133", mapped={(0, 0): 2})
    probes.anywhere(five, five.with_table(
        [log], s(0, 1, sequence=7), d(0), BLANK, BLANK), refused=(12, 1))
    # Unsound entries are entries.
    probes.anywhere(five, five.with_table(
        [log], s(0, 1, right=False, copy_flag=1), BLANK, BLANK, BLANK),
        refused=(12, 1))
    # Places in both orders: the map's order decides, not the PEBs'.
    wrong_0 = five.dynamic(0, 0, 5, data_pad=1)
    wrong_1 = five.dynamic(0, 1, 5, data_pad=1)
    wrong_2 = five.dynamic(1, 0, 5, data_pad=1)
    records = [log, five.volume(b"more")]
    names = {0: wrong_0, 1: wrong_1, 2: wrong_2}
    for order in list(permutations([0, 1, 2])) + list(
            permutations([0, 1], 2)) + list(permutations([1, 2], 2)):
        blocks = [names[name] for name in order]
        place = order.index(min(order))
        table = five.with_table(records)
        probes.add(five, blocks + table + [BLANK] * 3,
                   refused=(12, place))
        probes.add(five, [BLANK] + table + [BLANK] + blocks + [BLANK],
                   refused=(12, 3 + place))
    # An entry of class 5 is not counted, the next one is.
    probes.add(five, five.with_table(
        [log], d(3, 1), d(1, 1), BLANK, BLANK), refused=(12, 2))
    probes.add(five, five.with_table(
        [None, log], d(0, 1), d(1, 1, volume=1), BLANK, BLANK),
        refused=(12, 2))


def add_far_places(probes):
    """Blank but for a few PEBs: places up to the last of 256."""
    small = probes.small
    for count in (60, 128, 129, 200, 255, 256):
        last = count - 1
        blocks = [BLANK] * count
        blocks[last] = small.layout(0, small.table(
            small.volume(b"log", reserved=100)), 1)
        blocks[last - 1] = small.dynamic(0, 99, 5)
        blocks[0] = small.dynamic(0, 100, 6)
        blocks[count // 2] = small.dynamic(0, 98, 2 ** 40)
        # 58 PEBs beside the layout volume's own cannot be 100.
        if count == 60:
            probes.add(small, blocks, refused=(11, 0))
        else:
            probes.add(small, blocks, entries=3, highest=2 ** 40,
                       states={0: 1}, layout={0: last},
                       mapped={(0, 99): last - 1, (0, 98): count // 2})
            spoilt = list(blocks)
            spoilt[1] = small.dynamic(0, 97, 6)
            spoilt[last - 1] = vid_with(spoilt[last - 1], data_pad=1)
            probes.add(small, spoilt, refused=(12, last - 1))
        for number, spoil in PEB_FAULTS:
            spoilt = list(blocks)
            spoilt[last] = spoil(small, spoilt[last])
            probes.add(small, spoilt, refused=(number, last))
        # The first PEB that has an image sequence is far away, too.
        sparse = list(blocks)
        for at in (0, last - 1, last):
            sparse[at] = ec_with(sparse[at], image_sequence=0)
        if count > 60:
            probes.add(small, sparse, entries=3)
        sparse[last] = ec_with(sparse[last], image_sequence=1)
        probes.add(small, sparse, refused=(7, last))
        spoilt = list(blocks)
        spoilt[last - 2] = small.dynamic(0, 100, 6)
        probes.add(small, spoilt, refused=(9, last - 2))
        probes.add(small, [small.free() if at % 9 == 0 else BLANK
                           for at in range(count)], refused=(10, 0))
