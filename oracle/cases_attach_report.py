"""Cases for attaching: what the report says of each PEB and of them all."""

from itertools import permutations, product

import attach
import frames
import ubi
from cases import changed
from cases_table import whole_name, with_record_crc
from images import (BLANK, LAYOUT, Block, Flash, ec_with, vid_with,
                    ways_to_lose, with_header_crc)

U32 = 0xFFFFFFFF
U64 = 2 ** 64 - 1


def add_report_cases(probes):
    add_bench(probes)
    add_good(probes)
    add_erased_and_unreadable(probes)
    add_counters(probes)
    add_sequences(probes)
    add_bytes_nobody_reads(probes)
    add_bad_vid_headers(probes)
    add_internal_volumes(probes)
    add_grades(probes)
    add_many_records(probes)
    add_many_pebs(probes)


def add_bench(probes):
    slip, image = attach.bench_input()
    # Once as short patches, once as one over others that it hides.
    lent = (8, 12, 128)
    hidden = [frames.patch(1000, bytes(200)), frames.patch(0, image)]
    wanted = (
        "attached 4 entries 3 mean 5 highest 3 readonly 0 table 0 copies 0 "
        "grade 0\n"
        "pebs 1 3 1 5 1 9 0 4\n"
        "map 0*2 2 2147479551 0*2 2147479551 1*2 4294967295*3\n"
        "states 1 0*127")
    for payload in (frames.attach_payload(slip, lent, image),
                    frames.attach_head(slip, lent, len(image))
                    + frames.counted(hidden)):
        assert probes.cases.add(payload) == wanted
    # The same four PEBs in other orders.
    pebs = [image[at:at + 1024] for at in range(0, 4096, 1024)]
    for order in list(permutations(range(4)))[::3]:
        probes.image(probes.five, b"".join(pebs[at] for at in order),
                     entries=3, mean=5, highest=3, copies=0, grade=0,
                     counters=[(3, 5, 9, 4)[at] for at in order],
                     mapped={(0, 0): order.index(2)},
                     layout={0: order.index(0), 1: order.index(1)})
    # 01's values for which copy counts.
    small = probes.small
    for older, newer, chosen, state in (
            (small.dynamic(0, 0, 7), small.copy(0, 0, 8, sound=False), 0, 1),
            (small.copy(0, 0, 7, sound=False),
             small.copy(0, 0, 8, sound=False), 0, 3),
            (small.dynamic(0, 0, 7), small.copy(0, 0, 8), 1, 1)):
        for turned in (False, True):
            pair = [newer, older] if turned else [older, newer]
            at = 2 + (chosen ^ turned)
            classes = "1121" if at == 3 else "1112"
            probes.add(small, small.with_tables([small.volume()], *pair),
                       entries=3, highest=8, classes=classes,
                       mapped={(0, 0): at}, states={0: state},
                       grade=int(state == 3))
    probes.add(small, small.with_tables(
        [small.volume()], small.copy(0, 0, 3, sound=False)),
        classes="111", states={0: 3}, grade=1)


GEOMETRIES = ((1024, 1, 1), (1024, 128, 32), (1024, 512, 64), (1024, 64, 64),
              (1024, 256, 256), (1024, 128, 128), (1025, 1, 1), (1088, 32, 8),
              (1536, 512, 512), (2048, 1024, 64), (2048, 512, 512),
              (3072, 512, 64), (4096, 2048, 512), (4096, 1024, 1024),
              (6144, 2048, 2048), (8192, 4096, 64))


def alignment_with_pad(flash):
    """The smallest alignment that leaves a pad, or 1 if none does."""
    for alignment in range(2 * flash.unit, flash.leb_size + 1, flash.unit):
        if flash.leb_size % alignment != 0:
            return alignment
    return 1


def add_good(probes):
    for numbers in GEOMETRIES:
        flash = Flash(*numbers)
        alignment = alignment_with_pad(flash)
        log = flash.volume(b"log", alignment=alignment, reserved=2)
        boot = flash.volume(b"boot", alignment=alignment, type=ubi.STATIC,
                            reserved=3, flags=1)
        pad = log.data_pad
        room = flash.leb_size - pad
        probes.anywhere(
            flash, flash.with_tables(
                [log, boot],
                flash.dynamic(0, 1, 3, data_pad=pad),
                flash.copy(0, 0, 4, b"z" * 40, data_pad=pad),
                flash.static(1, 0, 2, 6, data_pad=pad),
                flash.static(1, 1, 2, 5, b"end", data_pad=pad),
                flash.free(), BLANK),
            classes="11111103", entries=6, readonly=0, highest=6, table=0,
            copies=0, grade=0, states={0: 1, 1: 1},
            mapped={(0, 1): 2, (0, 0): 3, (1, 0): 4, (1, 1): 5},
            layout={0: 0, 1: 1})
        # The data run ends with the LEB's room, and its last byte counts.
        for last, state in ((b"x", 1), (b"y", 3)):
            full = flash.copy(0, 0, 4, b"\x55" * 9 + b"\xff" * (room - 10)
                              + b"x", data_pad=pad)
            full = full._replace(data=full.data[:-1] + last)
            probes.anywhere(flash, flash.with_table(
                [log], full, flash.free(), BLANK), classes="1103",
                states={0: state}, copies=1)

    small, five = probes.small, probes.five
    # Nothing but the layout volume; one PEB for each of its LEBs.
    probes.add(small, small.with_tables([]), classes="11", entries=2,
               states={}, grade=0)
    probes.add(small, small.with_tables([])[::-1], classes="11", entries=2,
               states={}, grade=0, layout={0: 1, 1: 0})
    probes.add(small, small.with_table([]) + [BLANK], classes="13",
               entries=1, copies=1, grade=1)
    # As many volumes as records, in any order of PEBs and sequences.
    names = [b"a", b"b", b"c", b"d", b"e"]
    records = [five.volume(name) for name in names]
    for turn in range(5):
        blocks = [five.dynamic((number + turn) % 5, 0, 3 + number)
                  for number in range(5)]
        probes.anywhere(
            five, five.with_tables(records, *blocks), classes="1" * 7,
            states={number: 1 for number in range(5)}, grade=0,
            mapped={((number + turn) % 5, 0): 2 + number
                    for number in range(5)})
    # One volume with a record of each place, empty ones around it.
    for number in range(5):
        records = [None] * number + [five.volume()]
        probes.anywhere(
            five, five.with_table(records, five.dynamic(number, 0, 8),
                                  BLANK, BLANK),
            classes="1133", states={number: 1}, mapped={(number, 0): 1})
    # Every flag and marker, every kind of volume.
    for kind, marker, flags in product((ubi.DYNAMIC, ubi.STATIC), (0, 1),
                                       (0, 1, 2, 3)):
        record = small.volume(type=kind, update_marker=marker, flags=flags)
        if kind == ubi.STATIC:
            block = small.static(0, 0, 1, 3)
        else:
            block = small.dynamic(0, 0, 3)
        probes.anywhere(small, small.with_tables([record], block),
                        states={0: 2 if marker else 1}, classes="111",
                        grade=marker)
    # The order of the map: volume, then LEB, each as a number.
    many = [(1, 0), (0, 10), (0, 9), (0, 2), (1, 11), (0, 0), (1, 9), (1, 1)]
    records = [small.volume(b"x", reserved=11),
               small.volume(b"y", reserved=12)]
    for turn in range(4):
        order = many[turn:] + many[:turn]
        blocks = [small.dynamic(number, leb, 5) for number, leb in order]
        blocks += [BLANK] * 16
        probes.anywhere(
            small, small.with_table(records, *blocks), entries=9,
            mapped={leb: 1 + at for at, leb in enumerate(order)})


def add_erased_and_unreadable(probes):
    """Classes 0, 3 and 4: what stands in the two headers' places."""
    for flash in (probes.small, probes.gaps):
        vid_start = flash.geometry.vid_start
        base = flash.with_table([])

        def judge(block, klass):
            probes.add(flash, base + [block], classes="1" + str(klass),
                       entries=1)

        # One bit of an erased header cleared.
        for at in (0, 31, 63):
            bit = b"\xff" * at + bytes([0xFF ^ 1 << at % 8])
            judge(Block(bit, b"", b""), 4)
            judge(Block(b"", bit, b""), 4)
            judge(Block(bit, bit, b""), 4)
            judge(Block(flash.ec(), bit, b""), 4)
        # Bytes outside the headers make nothing of a block.
        judge(Block(b"", b"", b"\x00" * 40), 3)
        judge(Block(flash.ec(), b"", b"\x00" * 40), 0)
        if vid_start > 64:
            judge(Block(b"\xff" * 64 + b"\x00" * (vid_start - 64), b"",
                        b""), 3)
            judge(Block(ubi.ec_header_bytes(flash.ec()) + b"\x00" * (
                vid_start - 64), b"\xff" * 64 + b"\x00" * 8, b""), 0)
        # Headers of zeroes, of another kind, and torn ones.
        ec = ubi.ec_header_bytes(flash.ec())
        vid = ubi.vid_header_bytes(flash.dynamic(0, 0, 77).vid)
        judge(Block(bytes(64), b"", b""), 4)
        judge(Block(b"", bytes(64), b""), 4)
        judge(Block(ec, bytes(64), b""), 4)
        judge(Block(ec, ec, b""), 4)
        judge(Block(vid, b"", b""), 4)
        for length in (1, 16, 60, 63):
            judge(Block(ec, vid[:length], b"abc"), 4)
            judge(Block(ec[:length], b"", b""), 4)
            judge(Block(b"", vid[:length], b""), 4)
            judge(Block(ec[:length], vid, b""), 5)
        judge(Block(ec, b"", b""), 0)
        judge(Block(b"", b"", b""), 3)
        judge(Block(b"", vid, b""), 5)


def block_of_each_class(flash):
    """For each class with a good VID header: such a block, and its class."""
    return [
        ("chosen", flash.dynamic(0, 1, 30), 1),
        ("passed over", flash.dynamic(0, 0, 3), 2),
        ("no record", flash.dynamic(1, 0, 30), 5),
        ("to delete", flash.internal(ubi.DELETE, 30), 5),
        ("read only", flash.internal(ubi.READ_ONLY, 30), 6),
        ("kept", flash.internal(ubi.PRESERVE, 30), 6),
    ]


def add_counters(probes):
    small = probes.small
    base = small.with_table(
        [small.volume(reserved=2)],
        small.dynamic(0, 0, 4)._replace(ec=small.ec(counter=21)))
    base[0] = ec_with(base[0], counter=10)

    def judge(block, klass, counter, mean):
        probes.anywhere(small, base + [block, BLANK],
                        classes="11%d3" % klass,
                        counters=[10, 21, counter, U32], mean=mean)

    for name, block, klass in block_of_each_class(small):
        for counter in (0, 1, 14, 0x7FFFFFFF):
            judge(ec_with(block, counter=counter), klass, counter,
                  (31 + counter) // 3)
        ways = ways_to_lose(block.ec)
        for way in sorted(ways):
            if name == "chosen" or way in ("erased", "CRC",
                                           "counter 0x80000000"):
                judge(block._replace(ec=ways[way]), klass, U32, 15)
    for counter in (0, 15, 0x7FFFFFFE, 0x7FFFFFFF):
        judge(small.free(counter=counter), 0, counter, (31 + counter) // 3)
        judge(Block(small.ec(counter=counter), b"torn", b""), 4, counter,
              (31 + counter) // 3)
    for name, lost in sorted(ways_to_lose(small.ec()).items()):
        judge(Block(lost, b"", b""), 3 if name == "erased" else 4, U32, 15)
        judge(Block(lost, b"torn", b""), 4, U32, 15)

    # No good counter at all: the mean is 0, and an image without good EC
    # headers attaches.
    for name, lost in sorted(ways_to_lose(small.ec()).items()):
        blocks = [block._replace(ec=lost) for block in base]
        probes.anywhere(small, blocks + [BLANK, BLANK], mean=0,
                        classes="1133", counters=[U32] * 4, entries=2)
    # Sums beyond 32 bits, floors, and means at the lowest and highest.
    for counters in ((0x7FFFFFFF,) * 6, (0x7FFFFFFF,) * 3, (0, 0x7FFFFFFF),
                     (0x7FFFFFFF, 0x7FFFFFFE), (0x7FFFFFFF, 0x7FFFFFFE, 0),
                     (0, 0), (0, 1), (1, 1, 0), (2, 2, 1), (0,) * 5,
                     (7, 7, 7), (7, 8), (7, 8, 8), (3, 5, 9),
                     (0x7FFFFFFF,) * 5 + (0x7FFFFFFD,)):
        blocks = [small.free(counter=counter) for counter in counters]
        blocks[0] = blocks[0]._replace(
            vid=base[0].vid, data=small.table(small.volume()))
        blocks.append(BLANK)
        probes.anywhere(small, blocks, counters=list(counters) + [U32],
                        mean=sum(counters) // len(counters))


def add_sequences(probes):
    """The highest of all good VID headers, of any class."""
    small = probes.small
    for sequence in (5, 2 ** 32 - 1, 2 ** 32 + 4, 2 ** 63, U64):
        for name, block, klass in block_of_each_class(small):
            base = small.with_table(
                [small.volume(reserved=2)], small.dynamic(0, 0, 4))
            if name == "passed over":
                # Newer but unsound.
                block = small.copy(0, 0, 9, sound=False)
            probes.anywhere(
                small, base + [vid_with(block, sequence=sequence), BLANK],
                highest=sequence, classes="11%d3" % klass)
        # The layout volume's, and its LEB 1's.
        for leb in (0, 1):
            probes.anywhere(
                small, small.with_table([]) + [small.layout(
                    leb, small.table(), sequence)],
                highest=sequence, classes="21" if leb == 0 else "11")
        # Not those of bad headers.
        for change in ({"type": 3}, {"version": 0}, {"data_size": 1}):
            block = small.dynamic(0, 0, sequence, **change)
            probes.anywhere(small, small.with_table([], block),
                            highest=1, classes="14")
        torn = ubi.vid_header_bytes(small.dynamic(0, 0, sequence).vid)
        probes.anywhere(small, small.with_table(
            [], Block(small.ec(), torn[:61], b"")), highest=1, classes="14")
    # Different LEBs may share any sequence; 0 is one as well.
    for sequence in (0, 1, U64):
        probes.anywhere(
            small, [small.layout(0, small.table(small.volume(reserved=2)),
                                 sequence),
                    small.dynamic(0, 0, sequence),
                    small.dynamic(0, 1, sequence),
                    small.dynamic(1, 0, sequence),
                    small.internal(1, sequence)],
            highest=sequence, classes="11155", entries=3)


def add_bytes_nobody_reads(probes):
    """Gaps between headers, data behind a data run, padding of headers."""
    chance = probes.chance
    for flash in (probes.gaps, probes.small, Flash(4096, 2048, 512)):
        geometry = flash.geometry
        blocks = flash.with_tables(
            [flash.volume(reserved=2)], flash.dynamic(0, 0, 3),
            flash.copy(0, 1, 4, b"moved"), flash.free(), BLANK)
        whole = bytearray(flash.image(blocks))
        for at in range(0, len(whole), flash.peb_size):
            for start, end in (
                    (64, geometry.vid_start),
                    (geometry.vid_start + 64, geometry.data_start),
                    (flash.peb_size - 30, flash.peb_size)):
                # The ends of the gap, so that few bytes will do.
                for place in (start, start + 1, end - 1):
                    if start < end:
                        whole[at + place] = chance.below(255)
        probes.image(flash, bytes(whole), classes="111103", grade=0,
                     copies=0, states={0: 1}, entries=4)
    # Padding is read only through the CRC.
    small = probes.small
    for at in (5, 7, 28, 59):
        raw = ubi.ec_header_bytes(small.ec(counter=77))
        raw = with_header_crc(changed(raw, at, [0x5A]))
        probes.add(small, small.with_table([]) + [Block(raw, b"", b"")],
                   classes="10")
    for at in (16, 19, 36, 39, 48, 59):
        raw = ubi.vid_header_bytes(small.dynamic(0, 0, 8).vid)
        raw = with_header_crc(changed(raw, at, [0x5A]))
        probes.add(small, small.with_table(
            [small.volume()], Block(small.ec(), raw, b""), BLANK),
            classes="113", mapped={(0, 0): 1}, highest=8)
    # Records: behind a name's zero, and from 145 to 167.
    for record in (small.volume()._replace(name=whole_name(b"log", b"junk")),
                   with_record_crc(changed(
                       ubi.record_bytes(small.volume()), 150, [9]))):
        probes.add(small, small.with_tables(
            [record], small.dynamic(0, 0, 3)), classes="111", grade=0)


def add_bad_vid_headers(probes):
    """Each rule for VID headers broken, and kept, at this LEB size."""
    small = probes.small
    size = small.leb_size
    log = small.volume(b"log", reserved=1)
    boot = small.volume(b"boot", reserved=2, type=ubi.STATIC)
    dynamic = small.dynamic(0, 0, 5)
    copy = small.copy(0, 0, 5)
    static = small.static(1, 0, 2, 5)
    last = small.static(1, 1, 2, 5, b"q")
    layout = small.layout(1, b"", 2)

    def judge(block, good, **change):
        block = vid_with(block, **change)
        probes.anywhere(small, small.with_table(
            [log, boot], block, BLANK, BLANK, BLANK),
            classes="1%d333" % (1 if good else 4))

    for block in (dynamic, copy, static, last, layout):
        judge(block, True)
        judge(block, False, copy_flag=2)
        judge(block, False, version=0)
        judge(block, False, type=3)
        judge(block, False, type=0)
        judge(block, False, compatibility=3)
        judge(block, False, volume=128)
        judge(block, False, volume=0x80000000)
        judge(block, False, leb=0x80000000)
        judge(block, False, used_lebs=0x80000000)
        judge(block, False, data_size=size + 1)
        judge(block, False, data_pad=size // 2)
    judge(dynamic, False, compatibility=5)
    judge(dynamic, False, volume=LAYOUT)
    judge(dynamic, False, used_lebs=1)
    judge(dynamic, False, data_size=1)
    judge(dynamic, False, data_crc=1)
    judge(copy, False, data_size=0)
    judge(copy, True, data_size=size)
    judge(copy, False, used_lebs=1)
    judge(static, False, data_size=size - 1)
    judge(static, False, leb=2)
    judge(static, False, used_lebs=0)
    judge(last, True, data_size=size)
    judge(last, False, data_size=0)
    judge(last, False, data_size=size - 5, data_pad=6)
    judge(layout, False, leb=2)
    judge(layout, False, data_pad=1)
    for compatibility in (0, 1, 2, 4):
        judge(layout, False, compatibility=compatibility)
    judge(layout, False, type=2, used_lebs=2, data_size=size)
    # A bad copy beside a good one is no copy: not the newer, not equal.
    for sequence in (5, 6, 4):
        for change in ({"copy_flag": 2}, {"used_lebs": 7}, {"version": 0}):
            bad = small.dynamic(0, 0, sequence, **change)
            probes.anywhere(small, small.with_table([log], bad, dynamic),
                            classes="141", mapped={(0, 0): 2}, highest=5)
    # The pad: half the LEB is too much, one less is not.
    five = probes.five
    size = five.leb_size
    padded = five.volume(b"log", reserved=2, alignment=449)
    assert padded.data_pad == 447
    for pad, klass in ((447, 1), (448, 4)):
        for block in (five.dynamic(0, 0, 4, data_pad=pad),
                      five.copy(0, 0, 4, data_pad=pad),
                      five.copy(0, 0, 4, data_pad=pad, data_size=size - pad)):
            probes.anywhere(five, five.with_table(
                [padded], block, BLANK, BLANK), classes="1%d33" % klass)


def add_internal_volumes(probes):
    small = probes.small
    wanted = {1: ("5", 0), 2: ("6", 1), 4: ("6", 0)}
    numbers = (LAYOUT + 1, LAYOUT + 2, 0x7FFFF800, 0x7FFFFFFE, 0x7FFFFFFF)
    for compatibility, (klass, readonly) in sorted(wanted.items()):
        for number in numbers:
            block = small.internal(compatibility, 40, number)
            probes.anywhere(small, small.with_tables([], block),
                            classes="11" + klass, readonly=readonly,
                            entries=2, highest=40, grade=0)
        for block in (
                small.internal(compatibility, 41, leb=0x7FFFFFFF),
                small.internal(compatibility, 41, data_pad=255),
                vid_with(small.static(0, 3, 9, 41), volume=numbers[1],
                         compatibility=compatibility),
                # Nobody asks whether it is sound.
                vid_with(small.copy(0, 1, 41, sound=False),
                         volume=numbers[2], compatibility=compatibility)):
            probes.anywhere(small, small.with_table([], block, BLANK),
                            classes="1" + klass + "3", readonly=readonly,
                            entries=1, highest=41)
        # Several copies of one LEB: nobody chooses.
        copies = [small.internal(compatibility, sequence)
                  for sequence in (7, 8, 8)]
        probes.anywhere(small, small.with_table([], *copies),
                        classes="1" + 3 * klass, readonly=readonly)
        # Bad ones are unreadable like any other.
        for change in ({"data_pad": 256}, {"used_lebs": 1}, {"type": 2},
                       {"data_size": 3}, {"leb": 0x80000000},
                       {"volume": LAYOUT - 1}, {"volume": 0x80000000},
                       {"copy_flag": 2}):
            block = vid_with(small.internal(compatibility, 42), **change)
            probes.anywhere(small, small.with_table([], block),
                            classes="14", readonly=0, highest=1)
    for compatibility in (0, 3, 6, 7, 255):
        block = small.internal(compatibility)
        probes.anywhere(small, small.with_table([], block), classes="14",
                        readonly=0, highest=1)
    # A layout block with another compatibility is bad and not internal.
    for compatibility in (1, 2, 4):
        block = small.internal(compatibility, number=LAYOUT)
        probes.anywhere(small, small.with_table([], block), classes="14",
                        readonly=0, highest=1)
    # Together.
    probes.anywhere(
        small, small.with_tables([], small.internal(1), small.internal(2),
                                 small.internal(4), small.free()),
        classes="115660", readonly=1, grade=0)
    probes.anywhere(
        small, small.with_tables([], small.internal(1), small.internal(4)),
        classes="1156", readonly=0, grade=0)

    # Compatibility 5: refusal 8 at its PEB, the lowest of them.
    for number in numbers:
        block = small.internal(5, 40, number)
        for at in (0, 1, 3):
            blocks = small.with_table([]) + [BLANK] * 2
            blocks.insert(at, block)
            probes.add(small, blocks, refused=(8, at))
    for block in (small.internal(5, 41, leb=0x7FFFFFFF),
                  small.internal(5, 41)._replace(ec=b""),
                  small.internal(5, 41)._replace(ec=b"lost"),
                  small.internal(5, 41, data_pad=255),
                  vid_with(small.static(0, 3, 9, 41), volume=numbers[1],
                           compatibility=5),
                  vid_with(small.copy(0, 0, 41, sound=False),
                           volume=numbers[2], compatibility=5)):
        probes.add(small, small.with_table([], block, block),
                   refused=(8, 1))
    # A bad header names nothing to refuse.
    for change in ({"data_pad": 256}, {"used_lebs": 1}, {"copy_flag": 2},
                   {"leb": 0x80000000}, {"data_crc": 9}, {"version": 0},
                   {"volume": LAYOUT - 1}, {"volume": 0x80000000}):
        probes.anywhere(small, small.with_table(
            [], vid_with(small.internal(5, 42), **change)), classes="14",
            highest=1)
    torn = ubi.vid_header_bytes(small.internal(5).vid)[:50]
    probes.anywhere(small, small.with_table(
        [], Block(small.ec(), torn, b"")), classes="14")


def add_grades(probes):
    """Grade 1 for each reason alone, and grade 0 beside it."""
    small = probes.small
    log = small.volume(b"log", reserved=2)
    user = small.dynamic(0, 0, 5)
    fine = small.with_tables([log], user)

    def judge(blocks, grade, **want):
        probes.anywhere(small, blocks, grade=grade, **want)

    judge(fine + [small.free()], 0, classes="1110")
    judge(fine + [BLANK], 0, classes="1113")
    # A PEB of class 4, its counter good or lost.
    judge(fine + [Block(small.ec(), b"torn", b"")], 1, classes="1114")
    judge(fine + [Block(b"lost", b"", b"")], 1, classes="1114")
    judge(fine + [Block(b"", b"torn", b"")], 1, classes="1114")
    # A lost counter in each class that can have one but blank.
    for name, block, klass in block_of_each_class(small):
        if name == "passed over":
            block = small.dynamic(0, 0, 4)
        judge(fine + [block], 0, classes="111%d" % klass)
        for lost in (b"", b"lost", small.ec(counter=0x80000000)):
            judge(fine + [block._replace(ec=lost)], 1,
                  classes="111%d" % klass)
    for at in (0, 1, 2):
        blocks = list(fine)
        blocks[at] = blocks[at]._replace(ec=b"")
        judge(blocks + [BLANK], 1, classes="1113")
    # The copies mark.
    other = small.table(log, small.volume(b"boot"))
    judge([fine[0], BLANK, user, BLANK], 1, copies=1, classes="1313")
    judge([BLANK, fine[1], user, BLANK], 1, copies=1, classes="3113")
    judge([fine[0], small.layout(1, other, 2), user, BLANK, BLANK], 1,
          copies=2, classes="11133")
    # A state 2 or 3, of either volume.
    for number in (0, 1):
        for change, block, grade in (
                ({"update_marker": 1}, user, 1),
                ({}, small.copy(0, 0, 5, sound=False), 1),
                ({}, small.copy(0, 0, 5), 0),
                ({"type": 2}, small.static(0, 0, 2, 5), 1),
                ({"type": 2}, small.static(0, 0, 1, 5, right=False), 1),
                ({"type": 2, "flags": 2},
                 small.static(0, 0, 1, 5, right=False), 0)):
            records = [small.volume(b"other")] * number + [
                log._replace(**change)]
            judge(small.with_tables(
                records, vid_with(block, volume=number), BLANK, BLANK),
                grade, classes="11133")
    # Neither class 2, 5, 6, the read-only mark nor free PEBs.
    judge(fine + [small.dynamic(0, 0, 4), small.dynamic(7, 0, 4),
                  small.internal(1), small.internal(2), small.internal(4),
                  small.free(), BLANK], 0, classes="1112556603", readonly=1)
    # A state 3 that was only passed over, or whose volume has no record.
    judge(fine + [small.copy(0, 0, 6, sound=False),
                  small.copy(1, 0, 6, sound=False)], 0, classes="11125")


def add_many_records(probes):
    """128 records: long tables, so few cases, mostly with one copy."""
    full = probes.full
    ends = [full.volume(b"first")] + [None] * 126 + [full.volume(
        b"last", type=ubi.STATIC, reserved=2)]
    blocks = full.with_table(
        ends, full.dynamic(0, 0, 5), full.static(127, 1, 2, 6),
        full.static(127, 0, 2, 7), full.dynamic(126, 0, 8))
    probes.anywhere(full, blocks, classes="11115", states={0: 1, 127: 1},
                    mapped={(0, 0): 1, (127, 1): 2, (127, 0): 3})
    middle = [None] * 63 + [full.volume(b"a", update_marker=1),
                            full.volume(b"b")] + [None] * 61 + [
                                full.volume(b"c")]
    blocks = full.with_table(
        middle, full.copy(64, 0, 5, sound=False), full.dynamic(126, 0, 6),
        full.dynamic(127, 0, 7), full.dynamic(63, 0, 7))
    probes.anywhere(full, blocks, classes="11151",
                    states={63: 2, 64: 3, 126: 1})
    # The last record's last byte, and the bytes behind the last record.
    table = full.table(*ends)
    spoilt = table[:-1] + bytes([table[-1] ^ 1])
    probes.add(full, [full.layout(0, spoilt, 1), BLANK], refused=(11, 0))
    wide = Flash(22144 + 172, 1, 1)
    probes.add(wide, [wide.layout(0, wide.table(*[
        record and wide.volume(b"v%d" % at) for at, record in
        enumerate(ends)]) + b"\x00" * 172, 1)] + [BLANK] * 3,
        classes="1333", states={0: 1, 127: 1})
    # 127 records: volume 127 has none.
    less = Flash(22143, 1, 1)
    assert less.record_count == 127
    probes.add(less, less.with_table(
        [None] * 126 + [less.volume(b"v")], less.dynamic(126, 0, 3),
        less.dynamic(127, 0, 4)), classes="115", states={126: 1})


def add_many_pebs(probes):
    """A static and a dynamic volume, copies, and all other classes but 4."""
    small = probes.small
    chance = probes.chance
    for count in (60, 97, 120, 250):
        static_lebs = count // 5
        dynamic_lebs = count // 3
        records = [small.volume(b"log", reserved=dynamic_lebs),
                   small.volume(b"boot", type=ubi.STATIC,
                                reserved=static_lebs + 3)]
        blocks = small.with_tables(records)
        mapped = {}
        for leb in range(dynamic_lebs):
            mapped[0, leb] = len(blocks)
            blocks.append(small.dynamic(0, leb, 3 + chance.below(2 ** 40)))
        for leb in range(static_lebs):
            mapped[1, leb] = len(blocks)
            blocks.append(small.static(1, leb, static_lebs,
                                       3 + chance.below(2 ** 40)))
        classes = ["1"] * len(blocks)
        for leb in range(0, dynamic_lebs, 4):
            # An older copy, or a newer one that is unsound.
            if leb % 8 == 0:
                blocks.append(small.dynamic(0, leb, 2))
            else:
                blocks.append(small.copy(0, leb, 2 ** 41, sound=False))
            classes.append("2")
        while len(blocks) < count:
            block, klass = chance.pick([
                (BLANK, "3"), (small.free(), "0"),
                (small.dynamic(4, 4, 4 + len(blocks)), "5"),
                (small.internal(4), "6"), (small.internal(1), "5")])
            if klass == "5" and block.vid.volume == 4:
                block = vid_with(block, leb=len(blocks))
            blocks.append(block)
            classes.append(klass)
        probes.anywhere(small, blocks, classes=classes, mapped=mapped,
                        states={0: 1, 1: 1}, grade=0, copies=0,
                        entries=2 + len(mapped))
