"""Cases for the listing: dumps of all kinds, and buffers of all lengths.

What attaching answers has its own cases; here it is about the text, the cut
between slip and image, the most input, and the lent output buffer. A case
says by hand its refusal, or some lines of its listing.
"""

import frames
import samples
import ubi
from cases import Cases, Chance, changed, cycle
from cases_attach_refused import IMAGE_FAULTS, PEB_FAULTS, six_blocks
from cases_listing_random import random_dump
from cases_slip import slip
from images import (BLANK, LAYOUT, Block, Flash, ec_with, ways_to_lose,
                    with_image_seqs)
from listing import BENCH_LISTING, MOST_INPUT, SLIP_SIZE, listing

U64 = 2 ** 64 - 1
ROOM = frames.MAX_ROOM


def listing_cases():
    probes = Probes()
    add_samples(probes)
    add_slips(probes)
    add_image_lengths(probes)
    add_most_input(probes)
    add_whole_pebs_beyond(probes)
    add_most_junk(probes)
    add_classes(probes)
    add_lost_counters(probes)
    add_volumes(probes)
    add_every_state(probes)
    add_high_volumes(probes)
    add_tables(probes)
    add_numbers(probes)
    add_refusals(probes)
    add_full_images(probes)
    add_rooms(probes)
    add_random(probes)
    return probes.cases


class Probes:
    def __init__(self):
        self.cases = Cases(frames.listing_answer, frames.listing_kinds)
        # LEBs of 512 bytes, so short tables: two records.
        self.small = Flash(1024, 512, 64)
        # LEBs of 896 bytes: five records.
        self.five = Flash(1024, 1, 1)
        # Now and then the same dump once more, with a buffer so many bytes
        # longer than the text.
        self.also = cycle([None, None, 0, None, None, -1, None, None, 1, None,
                           None, -2])

    def dump(self, data, room=ROOM, want=None):
        """A case of bytes; `want` is the whole text. Gives the text."""
        text = listing(data).decode("ascii")
        assert want is None or text == want, (want, text[:200])
        answer = self.cases.add(frames.listing_payload(data, room))
        if room < len(text):
            assert answer == "refused 4\nend"
        else:
            assert frames.listed_text(answer) == text
        return text

    def refused(self, data, number, place=0):
        """A dump that is refused, sometimes with another buffer too."""
        want = "refused %d at %d\n" % (number, place)
        self.dump(data, want=want)
        self.again(data, want)

    def again(self, data, text):
        more = next(self.also)
        if more is not None:
            self.dump(data, len(text) + more)

    def add(self, flash, blocks, *lines, **numbers):
        """Blocks that attach: lines that are there, and numbers of the first.

        "no vol 3" asks that no line begin with the words behind "no".
        """
        data = flash.slip + flash.image(blocks)
        text = self.dump(data)
        there = text.splitlines()
        assert there[0].startswith("attached "), (there[0], lines)
        for line in lines:
            if line.startswith("no "):
                assert "\n%s " % line[3:] not in text, (line, text)
            else:
                assert line in there, (line, text)
        for name, number in sorted(numbers.items()):
            shown = " %s %d " % (name, number)
            assert shown in " %s " % there[0], (shown, text)
        self.again(data, text)


def peb_lines(classes, counters):
    return ["peb %d %s %s" % (number, klass, counter)
            for number, (klass, counter) in enumerate(zip(classes, counters))]


def add_samples(probes):
    bench = samples.bench_dump()
    probes.dump(bench, want=BENCH_LISTING.decode("ascii"))
    probes.dump(samples.small_dump())
    # The PEBs in other orders: the map follows, the layout LEBs come last.
    pebs = [bench[at:at + 1024] for at in range(SLIP_SIZE, len(bench), 1024)]
    for order in ((3, 2, 1, 0), (1, 0, 3, 2), (2, 3, 0, 1), (0, 3, 1, 2)):
        text = probes.dump(
            bench[:SLIP_SIZE] + b"".join(pebs[at] for at in order))
        lines = peb_lines([(1, 1, 1, 0)[at] for at in order],
                          [(3, 5, 9, 4)[at] for at in order])
        lines += ["map 0 0 %d" % order.index(2)]
        lines += ["map %d %d %d" % (LAYOUT, leb, order.index(leb))
                  for leb in (0, 1)]
        assert text.splitlines()[1:] == lines + ["vol 0 1"]


def add_slips(probes):
    """1 and 2: the slip is the first 20 bytes, whatever follows."""
    bench = samples.bench_dump()
    whole, image = bench[:SLIP_SIZE], bench[SLIP_SIZE:]
    probes.refused(b"", 1)
    for length in range(1, SLIP_SIZE):
        probes.refused(bench[:length], 1)
    for at in (0, 4, 9, 13, 19):
        # A byte left out: the image's first one takes its place.
        probes.refused(bench[:at] + bench[at + 1:], 1)
    bits = cycle(range(8))
    for at in (0, 1, 2, 7, 8, 9, 12, 13, 14, 17, 18, 19):
        probes.refused(changed(bench, at, [bench[at] ^ 1 << next(bits)]), 1)
    for front in (b"\x00", b"\xff", b"\n", whole[:7], image[:64]):
        probes.refused(front + bench, 1)
    for junk in (bytes(20), b"\xff" * 20, b"U", image[:20], image):
        probes.refused(junk, 1)
    # A slip too many is the beginning of the image.
    probes.refused(whole + bench, 3)

    for numbers in ((0, 0, 0), (1023, 1, 1), (1024, 0, 1), (1024, 1, 0),
                    (1024, 3, 1), (1024, 32, 64), (1024, 512, 512),
                    (1025, 2, 1), (262145, 1, 1), (524288, 2048, 512),
                    (0xFFFFFFFF, 1, 1), (1024, 8192, 1), (4096, 4096, 64)):
        for rest in (image[:1024], b"", b"U"):
            probes.refused(slip(*numbers) + rest, 2)
        # 1 before 2.
        probes.refused(slip(*numbers)[:-1], 1)
        probes.refused(slip(*numbers)[:-1] + b"\x01" + image[:64], 1)


def add_image_lengths(probes):
    """3: not two or more whole PEBs."""
    bench = samples.bench_dump()
    for length in (0, 1, 63, 64, 1023, 1024, 1025, 2047, 2049, 3071, 3073,
                   4095):
        probes.refused(bench[:SLIP_SIZE + length], 3)
    for tail in (b"\x00", b"\n", b"\xff", b"\xff" * 1023, b"\xff" * 1025):
        probes.refused(bench + tail, 3)
    # Two PEBs are enough, if there is no volume to want more.
    small = probes.small
    probes.add(small, small.with_tables([]), "no vol 0", attached=2,
               entries=2, grade=0)
    probes.add(small, [BLANK] + small.with_table([]), "peb 0 3 lost",
               attached=2, entries=1, grade=1, copies=1)
    # PEBs so wide that two of them are just held, or are not.
    for peb_size in (16384, 30711, 61440, 131072, 262144):
        flash = Flash(peb_size, 512, 512) if peb_size % 512 == 0 else Flash(
            peb_size, 1, 1)
        image = flash.peb(flash.free())
        probes.refused((flash.slip + image)[:MOST_INPUT], 3)
        probes.refused(flash.slip + image + image,
                       10 if 2 * peb_size <= 61420 else 3)


def add_most_input(probes):
    """61,440 bytes are held, one more is refusal 3 after 1 and 2."""
    # PEB sizes whose PEBs fill 61,420 bytes, with the largest unit.
    for peb_size, unit in ((1660, 4), (3071, 1), (6142, 2), (12284, 4),
                           (15355, 1), (30710, 2)):
        flash = Flash(peb_size, unit, unit)
        count = 61420 // peb_size
        blank = [BLANK] * (count - 1)
        dump = flash.slip + flash.image(blank + flash.with_table([]))
        assert len(dump) == MOST_INPUT
        text = probes.dump(dump)
        assert "\npeb %d 1 " % (count - 1) in text
        probes.refused(dump + b"\xff", 3)
        if count > 10:
            probes.dump(dump, len(text))
            probes.dump(dump, len(text) - 1)
        else:
            # Wide tables make long cases: go on without.
            dump = flash.slip + flash.image(blank + [flash.free()])
            probes.refused(dump, 10)
        add_beyond(probes, flash, dump)


def add_whole_pebs_beyond(probes):
    """Whole PEBs that are too many bytes; and the most that are not."""
    for peb_size, most in ((1024, 59), (3613, 16), (2048, 29), (1025, 59)):
        flash = Flash(peb_size, 1, 1)
        table = [flash.volume(b"log", reserved=most - 2)]
        blocks = flash.with_tables(table, flash.dynamic(0, most - 3, 3))
        blocks += [BLANK] * (most - len(blocks))
        probes.add(flash, blocks, "map 0 %d 2" % (most - 3), "vol 0 1",
                   "peb %d 3 lost" % (most - 1), attached=most)
        dump = flash.slip + flash.image(blocks + [BLANK])
        assert len(dump) > MOST_INPUT
        probes.refused(dump, 3)
        probes.refused(dump[:MOST_INPUT + 1], 3)


def add_most_junk(probes):
    """Nothing but 0xFF, or zeroes, or bytes by chance."""
    chance = Chance(701)
    for length in (MOST_INPUT - 1, MOST_INPUT, MOST_INPUT + 1):
        probes.refused(b"\xff" * length, 1)
        probes.refused(slip(0, 0, 0) + b"\xff" * (length - 20), 2)
        probes.refused(slip(61420, 1, 1) + b"\xff" * (length - 20), 3)
    probes.refused(bytes(MOST_INPUT), 1)
    probes.refused(bytes(MOST_INPUT + 1), 1)
    probes.refused(slip(3071, 1, 1) + chance.bytes(61421), 3)
    probes.dump(slip(3071, 1, 1) + chance.bytes(61420))


def add_beyond(probes, flash, dump):
    """Of a dump as long as can be: one byte more, and slips that are not
    good with it. The slip and the bytes held are not enough to tell."""
    for tail in (b"\xff", b"\x00", b"\xff" * flash.peb_size):
        probes.refused(dump + tail, 3)
    probes.refused(changed(dump, 19, [1]) + b"\xff", 1)
    probes.refused(changed(dump, 19, [1]), 1)
    probes.refused(changed(dump, 0, [0]) + b"\xff", 1)
    probes.refused(changed(dump, 10, [0, 3]) + b"\xff", 2)
    probes.refused(changed(dump, 10, [0, 3]), 2)
    probes.refused(changed(dump, 3, [0, 0, 3, 255]) + b"\xff", 2)
    # The input's end within the PEB that the slip calls the last.
    probes.refused(dump[:-1], 3)


def add_classes(probes):
    small = probes.small
    log = small.volume(b"log", reserved=3)
    base = small.with_tables([log], small.dynamic(0, 0, 10),
                             small.copy(0, 1, 11))
    for name, block, klass in (
            ("free", small.free(), 0), ("chosen", small.dynamic(0, 2, 9), 1),
            ("older", small.dynamic(0, 0, 9), 2),
            ("newer unsound", small.copy(0, 1, 12, sound=False), 2),
            ("older table", small.layout(0, b"", 0), 2),
            ("torn VID", Block(small.ec(), b"UBI!\x01", b""), 4),
            ("torn VID, lost", Block(b"UBI", b"UBI!\x01", b""), 4),
            ("other type", small.dynamic(0, 2, 9, type=3), 4),
            ("no record", small.dynamic(1, 0, 9), 5),
            ("above the table", small.dynamic(127, 0, 9), 5),
            ("LEB too high", small.dynamic(0, 3, 9), 5),
            ("LEB far too high", small.dynamic(0, 0x7FFFFFFF, 9), 5),
            ("to delete", small.internal(1), 5),
            ("read only", small.internal(2), 6),
            ("kept", small.internal(4), 6)):
        for counter in (0, 77, 0x7FFFFFFF):
            if isinstance(block.ec, bytes):
                counter, there = "lost", block
            else:
                there = ec_with(block, counter=counter)
            blocks = base[:2] + [there] + base[2:] + [BLANK]
            probes.add(small, blocks, "peb 2 %d %s" % (klass, counter),
                       "peb 5 3 lost", "vol 0 1", attached=6,
                       entries=5 if name == "chosen" else 4,
                       readonly=int(name == "read only"),
                       grade=int(klass == 4))


def add_lost_counters(probes):
    """In every class that can have one; a blank PEB has no other."""
    small = probes.small
    log = small.volume(b"log", reserved=2)
    base = small.with_tables([log], small.dynamic(0, 0, 10))
    base = [ec_with(block, counter=6) for block in base]
    for klass, block in ((1, small.dynamic(0, 1, 9)),
                         (2, small.dynamic(0, 0, 9)),
                         (4, Block(small.ec(), b"torn", b"")),
                         (5, small.dynamic(1, 0, 9)), (5, small.internal(1)),
                         (6, small.internal(2)), (6, small.internal(4))):
        ways = ways_to_lose(block.ec)
        for way in ("erased", "torn at 60", "version 0", "CRC",
                    "counter 0x80000000"):
            probes.add(small, [block._replace(ec=ways[way])] + base,
                       "peb 0 %d lost" % klass, grade=1, mean=6)
    for way, lost in sorted(ways_to_lose(small.ec()).items()):
        klass = 3 if way == "erased" else 4
        probes.add(small, base + [Block(lost, b"", b"")],
                   "peb 3 %d lost" % klass, mean=6, grade=int(klass == 4))
    # All of them lost: the mean is 0.
    for lost in (b"", b"UBI#", small.ec(counter=0x80000000)):
        blocks = [block._replace(ec=lost) for block in base]
        probes.add(small, blocks + [BLANK],
                   *peb_lines("1113", ["lost"] * 4), mean=0, grade=1)
    # A counter that is the word for a lost one, were it 32 bits.
    for counter in (0xFFFFFFFF, 2 ** 32 + 6, U64):
        blocks = base[:2] + [ec_with(base[2], counter=counter), BLANK]
        probes.add(small, blocks, "peb 2 1 lost", mean=6, grade=1)


def add_states(probes, states, records, *blocks):
    """Blocks that all are mapped; the state of each volume, 0 for none."""
    five = probes.five
    lines = ["vol %d %d" % (number, state) if state else "no vol %d" % number
             for number, state in enumerate(states)]
    whole = five.with_tables(records, *blocks)
    probes.add(five, whole + [BLANK] * (12 - len(whole)), *lines,
               grade=int(max(states) > 1), entries=2 + len(blocks))


def add_volumes(probes):
    """vol lines: states 1 to 3, and none for an empty record."""
    five = probes.five

    def judge(states, records, *blocks):
        add_states(probes, states, records, *blocks)

    log = five.volume(b"log", reserved=2)
    boot = five.volume(b"boot", reserved=2, type=ubi.STATIC)
    skip = boot._replace(flags=ubi.SKIP_CRC)
    busy = log._replace(update_marker=1)
    judge([1], [log])
    judge([1], [log], five.dynamic(0, 1, 3))
    judge([0, 0, 1], [None, None, log], five.dynamic(2, 1, 3))
    judge([0, 0, 0, 0, 1], [None] * 4 + [boot], five.static(4, 0, 1, 3))
    judge([2], [busy], five.dynamic(0, 0, 3))
    judge([2], [busy])
    judge([2], [busy], five.copy(0, 0, 3, sound=False))
    judge([3], [log], five.copy(0, 1, 3, sound=False))
    judge([3], [boot], five.static(0, 0, 2, 3))
    judge([3], [boot], five.static(0, 1, 2, 3))
    judge([3], [boot], five.static(0, 0, 1, 3, right=False))
    judge([1], [skip], five.static(0, 0, 1, 3, right=False))
    judge([1], [boot], five.static(0, 0, 2, 3), five.static(0, 1, 2, 4))


def add_every_state(probes):
    """Every state in every place of the table, no record among them."""
    five = probes.five
    kinds = [(0, None, None), (1, five.volume(b"a"), five.dynamic),
             (2, five.volume(b"b", update_marker=1), None),
             (3, five.volume(b"c"), unsound_copy(five)),
             (1, five.volume(b"d", flags=ubi.AUTORESIZE), five.copy)]
    for turn in range(5):
        turned = kinds[turn:] + kinds[:turn]
        blocks = [make(number, 0, 9)
                  for number, (_, _, make) in enumerate(turned) if make]
        states = [state for state, _, _ in turned]
        add_states(probes, states, [record for _, record, _ in turned],
                   *blocks)


def unsound_copy(flash):
    return lambda *numbers: flash.copy(*numbers, sound=False)


def add_high_volumes(probes):
    """As high a volume as there can be: three PEBs hold 118 records."""
    wide = Flash(20473, 1, 1)
    for number in (9, 10, 99, 100, 117):
        probes.add(wide, wide.with_table(
            [None] * number + [wide.volume()], wide.dynamic(number, 0, 3),
            BLANK), "vol %d 1" % number, "map %d 0 1" % number, copies=1)
    probes.add(wide, wide.with_table(
        [None] * 117 + [wide.volume(update_marker=1)],
        wide.dynamic(118, 0, 3), BLANK), "vol 117 2", "no map 118", entries=1)


def add_tables(probes):
    """Which table was taken, the copies mark, and one autoresizing."""
    small = probes.small
    log = small.volume(b"log")
    good = small.table(log)
    other = small.table(log, small.volume(b"boot", type=ubi.STATIC))
    spoilt = changed(good, 20, b"?")

    def judge(first, second, *lines, **numbers):
        blocks = [BLANK if table is None else small.layout(leb, table, 5)
                  for leb, table in ((0, first), (1, second))]
        blocks += [small.dynamic(0, 0, 7), small.free(), BLANK]
        probes.add(small, blocks, *lines, **numbers)
        probes.add(small, blocks[::-1], **numbers)

    judge(good, good, "vol 0 1", table=0, copies=0, grade=0)
    judge(good, None, "vol 0 1", "peb 1 3 lost", table=0, copies=1, grade=1)
    judge(None, good, "vol 0 1", "map %d 1 1" % LAYOUT, table=1, copies=1)
    judge(good, spoilt, "vol 0 1", "no vol 1", table=0, copies=1, grade=1)
    judge(spoilt, good, "vol 0 1", table=1, copies=1, grade=1)
    judge(spoilt, other, "vol 0 1", "vol 1 1", table=1, copies=1, grade=1)
    judge(good, other, "vol 0 1", "no vol 1", table=0, copies=2, grade=1)
    judge(other, good, "vol 0 1", "vol 1 1", table=0, copies=2, grade=1)
    judge(small.table(), good, "no vol 0", table=0, copies=2, entries=2)
    for marker, flags in ((0, 1), (0, 3), (1, 0), (1, 3)):
        table = small.table(log._replace(update_marker=marker, flags=flags))
        judge(table, table, "vol 0 %d" % (1 + marker), copies=0,
              grade=marker)


def add_numbers(probes):
    """Numbers of every length in every place that can hold them."""
    small = probes.small
    log = small.volume(b"log", reserved=2)
    widths = [10 ** exponent for exponent in range(20)]
    for sequence in sorted(set(
            [0] + widths + [width - 1 for width in widths]
            + [2 ** 32 - 1, 2 ** 32, 2 ** 32 + 1, 2 ** 63 - 1, 2 ** 63,
               U64 - 1, U64])):
        blocks = [small.layout(0, small.table(log), 0),
                  small.dynamic(0, 0, sequence), BLANK, BLANK]
        probes.add(small, blocks, "map 0 0 1", highest=sequence)
    for counter in sorted(set(
            [0] + widths[:10] + [width - 1 for width in widths[:10]]
            + [2 ** 16 - 1, 2 ** 16, 2 ** 31 - 2, 2 ** 31 - 1])):
        blocks = small.with_tables([log], small.dynamic(0, 0, 3), BLANK)
        blocks[:3] = [ec_with(block, counter=counter) for block in blocks[:3]]
        probes.add(small, blocks, "peb 0 1 %d" % counter,
                   "peb 2 1 %d" % counter, "peb 3 3 lost", mean=counter)
    # A sum that is above 32 bits, and means that are not whole.
    for counters in ((2 ** 31 - 1, 2 ** 31 - 1, 2 ** 31 - 3),
                     (2 ** 31 - 1, 0, 0), (3, 5, 9), (9, 9, 8), (0, 0, 1),
                     (0, 0, 2), (999999999, 1000000000, 1000000000)):
        blocks = small.with_tables([log], small.dynamic(0, 0, 3))
        blocks = [ec_with(block, counter=counter)
                  for block, counter in zip(blocks, counters)]
        probes.add(small, blocks + [BLANK], *peb_lines("111", counters),
                   mean=sum(counters) // 3)


def add_refusals(probes):
    """5 to 12, at the first, the last and other PEBs."""
    small = probes.small
    for number, spoil in PEB_FAULTS:
        for at in (0, 1, 2, 5, 9, 10, 11, 58):
            blocks = six_blocks(small)
            blocks += [BLANK] * (at + 1 - len(blocks))
            if blocks[at] == BLANK:
                blocks[at] = small.free()
            blocks[at] = spoil(small, blocks[at])
            # Another sequence in PEB 0 is the one that 1 differs from.
            place = 1 if number == 7 and at == 0 else at
            probes.refused(small.slip + small.image(blocks), number, place)
    # An image sequence of zero says nothing.
    for sequences, place in (
            ((0, 0, 0, 0, 0, 0), None), ((0, 0, 5, 0, 5, 0), None),
            ((5, 0, 0, 0, 0, 5), None), ((0, 0, 5, 0, 6, 6), 4),
            ((0, 6, 5, 0, 6, 6), 2), ((5, 0, 0, 0, 0, 6), 5)):
        blocks = with_image_seqs(six_blocks(small), sequences)
        if place is None:
            probes.add(small, blocks, "peb 5 0 %d" % blocks[5].ec.counter,
                       "vol 0 1", "vol 1 1", entries=5)
        else:
            probes.refused(small.slip + small.image(blocks), 7, place)
    # 9 to 12; blank PEBs in front move the places.
    for front in (0, 1, 4, 8, 9, 53):
        for number, place, spoil in IMAGE_FAULTS:
            blocks = six_blocks(small)
            spoil(small, blocks)
            place = 0 if number == 11 else place + front
            probes.refused(small.slip + small.image([BLANK] * front + blocks),
                           number, place)
        blocks = [BLANK] * (front + 1) + [small.free()]
        probes.refused(small.slip + small.image(blocks), 10)
        probes.refused(small.slip + small.image(
            blocks + [Block(small.ec(), b"torn", b"")]), 11)
        static = small.volume(b"boot", type=ubi.STATIC, reserved=2)
        blocks = [BLANK] * front + small.with_table(
            [static], small.static(0, 0, 2, 3), small.static(0, 1, 3, 4))
        probes.refused(small.slip + small.image(blocks + [BLANK]), 12,
                       front + 2)
    # Two at once: which comes first.
    for first, second in ((5, 6), (6, 5), (7, 8), (8, 7)):
        faults = dict(PEB_FAULTS)
        blocks = six_blocks(small)
        blocks[3] = faults[first](small, blocks[3])
        blocks[4] = faults[second](small, blocks[4])
        probes.refused(small.slip + small.image(blocks), first, 3)


def add_full_images(probes):
    """As many PEBs as are held, all written: the longest listings."""
    for numbers in ((1024, 512, 64), (1024, 1, 1), (1660, 4, 4)):
        flash = Flash(*numbers)
        count = (MOST_INPUT - SLIP_SIZE) // flash.peb_size
        share = (count - 2) // flash.record_count
        records = [flash.volume(b"v%d" % number, reserved=share)
                   for number in range(flash.record_count)]
        lebs = [(number, leb) for number in range(flash.record_count)
                for leb in range(share)]
        for counter, sequence in ((0x7FFFFFFF, U64 - 99), (0, 3)):
            blocks = flash.with_tables(records, *[
                flash.dynamic(number, leb, sequence + leb)
                for number, leb in lebs[::-1]])
            blocks += [flash.free()] * (count - len(blocks))
            blocks = [ec_with(block, counter=counter) for block in blocks]
            probes.add(flash, blocks, "map 0 0 %d" % (len(lebs) + 1),
                       "map %d %d 2" % lebs[-1],
                       "vol %d 1" % (flash.record_count - 1),
                       attached=count, entries=2 + len(lebs), mean=counter,
                       highest=sequence + share - 1, grade=0)
        # All lost, all damaged.
        blocks = flash.with_tables(records, *[
            flash.copy(number, leb, 3, sound=False) for number, leb in lebs])
        blocks = [block._replace(ec=b"UBI#") for block in blocks]
        blocks += [Block(b"", b"torn", b"")] * (count - len(blocks))
        probes.add(flash, blocks, "peb %d 4 lost" % (count - 1), "vol 0 3",
                   "vol %d 3" % (flash.record_count - 1), attached=count,
                   mean=0, grade=1)


def add_rooms(probes):
    """Buffers of every length near the text's, for texts of every kind."""
    bench = samples.bench_dump()
    small = samples.small_dump()
    flash = probes.small
    refused_at_58 = flash.slip + flash.image(
        flash.with_table([]) + [BLANK] * 57 + [flash.free(version=2)])
    for data in (b"", bench[:SLIP_SIZE], bench[:-1], refused_at_58, bench,
                 small):
        length = len(probes.dump(data))
        for room in (length, length + 1, length - 1, length // 2, 0, 1, 8,
                     256, ROOM - 1):
            probes.dump(data, room)
    # The beginning of the text and whole lines of it are not enough.
    text = listing(bench)
    for at in range(len(text)):
        if text[at:at + 1] == b"\n":
            probes.dump(bench, at)
            probes.dump(bench, at + 1)
    # No room is refusal 4 after everything else, whatever the text says.
    for number, data in enumerate((
            bench[:19], slip(0, 0, 0), bench + b"\xff", refused_at_58,
            bench[:SLIP_SIZE] + b"\xff" * 2048,
            bench + b"\xff" * MOST_INPUT, b"\xff" * (MOST_INPUT + 1))):
        probes.dump(data)
        for room in (0, 3 + number, 14, 15, 16):
            probes.dump(data, room)


def add_random(probes):
    """By chance; dense ones are left out to keep the file short."""
    chance = Chance(702)
    rooms = cycle([ROOM, ROOM, ROOM, None, ROOM, 4096, 300, 1200])
    added = 0
    while added < 155:
        data = random_dump(chance)
        if len(frames.listing_payload(data, ROOM)) > 4002:
            continue
        room = next(rooms)
        probes.dump(data, len(listing(data)) if room is None else room)
        added += 1
