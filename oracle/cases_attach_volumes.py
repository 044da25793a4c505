"""Cases for attaching: copies, volume tables and volume states."""

from itertools import permutations, product

import ubi
from cases import changed, cycle
from cases_table import whole_name
from images import BLANK

U32 = 0xFFFFFFFF
U64 = 2 ** 64 - 1


def add_volume_cases(probes):
    add_which_copy_counts(probes)
    add_tables(probes)
    add_layout_copies(probes)
    add_without_record(probes)
    add_states(probes)


FLAG_0, SOUND, UNSOUND = "flag 0", "sound", "unsound"


def copy_of(flash, target, kind, sequence):
    """One more copy of a LEB: of a dynamic, static or layout volume."""
    data = b"written at %d" % (sequence % 1000)
    if target == "static":
        return flash.static(0, 0, 1, sequence, data, kind != UNSOUND,
                            copy_flag=int(kind != FLAG_0))
    if target == "layout":
        table = flash.table(flash.volume(), flash.volume(
            b"by %d" % (sequence % 1000)))
        if kind == FLAG_0:
            return flash.layout(1, table, sequence)
        return flash.layout_copy(1, table, sequence, kind == SOUND)
    if kind == FLAG_0:
        return flash.dynamic(0, 0, sequence, data)
    return flash.copy(0, 0, sequence, data, kind == SOUND)


def wanted_copy(kinds, sequences):
    """By eye: from the newest to the oldest the first that is sound."""
    by_age = sorted(range(len(kinds)), key=lambda at: sequences[at])
    for at in reversed(by_age):
        if kinds[at] != UNSOUND:
            return at
    return by_age[0]


def judge_copies(probes, target, kinds, sequences, free=1):
    flash = probes.small
    kind_of_volume = ubi.STATIC if target == "static" else ubi.DYNAMIC
    copies = [copy_of(flash, target, kind, sequence)
              for kind, sequence in zip(kinds, sequences)]
    chosen = wanted_copy(kinds, sequences)
    blocks = flash.with_table([flash.volume(type=kind_of_volume)]) + copies
    blocks += [BLANK] * free
    classes = ["1"] + ["1" if at == chosen else "2"
                       for at in range(len(copies))] + ["3"] * free
    place = 1 + chosen
    if target == "layout":
        probes.anywhere(flash, blocks, classes=classes, entries=2,
                        layout={0: 0, 1: place}, table=0,
                        highest=max(sequences + [1]))
    else:
        state = 3 if kinds[chosen] == UNSOUND else 1
        probes.anywhere(flash, blocks, classes=classes, entries=2,
                        mapped={(0, 0): place}, states={0: state},
                        highest=max(sequences + [1]))


def add_which_copy_counts(probes):
    chance = probes.chance
    every_kind = (FLAG_0, SOUND, UNSOUND)
    for target in ("dynamic", "static", "layout"):
        for kinds in product(every_kind, repeat=2):
            for sequences in ([7, 8], [8, 7]):
                judge_copies(probes, target, kinds, sequences)
    # Each kind in each place, and each with two of the orders.
    targets = cycle(["dynamic", "static", "dynamic"])
    for kinds in product(every_kind, repeat=3):
        for order in chance.shuffled(permutations([5, 6, 7]))[:2]:
            judge_copies(probes, next(targets), kinds, list(order), 0)
    for _ in range(30):
        kinds = [chance.pick(every_kind) for _ in range(4)]
        judge_copies(probes, next(targets), kinds,
                     chance.shuffled([11, 12, 13, 14]), 0)
    for order in list(permutations([3, 4, 5, 6]))[::2]:
        judge_copies(probes, "dynamic", [UNSOUND] * 4, list(order), 0)
        judge_copies(probes, "dynamic",
                     [UNSOUND, SOUND, UNSOUND, FLAG_0], list(order), 0)

    # Sequences are numbers of 64 bits without a sign.
    for older, newer in ((0, 1), (0, U64), (2 ** 32 - 1, 2 ** 32),
                         (2 ** 32 + 1, 2 ** 33), (2 ** 63 - 1, 2 ** 63),
                         (5, 2 ** 63), (U64 - 1, U64), (2 ** 31, 2 ** 32)):
        for kinds in ((FLAG_0, FLAG_0), (UNSOUND, UNSOUND),
                      (FLAG_0, UNSOUND)):
            judge_copies(probes, next(targets), kinds, [older, newer])

    # What the data CRC covers: the first data-size bytes, all of them.
    small = probes.small
    data = b"0123456789"
    crc = ubi.jamcrc(data)
    for written, size, sum_of, state in (
            (data, 10, crc, 1),
            (b"x" + data[1:], 10, crc, 3),
            (data[:9] + b"x", 10, crc, 3),
            (data[:9], 10, crc, 3),
            (data + b"x", 10, crc, 1),
            (data, 9, crc, 3),
            (data, 11, crc, 3),
            (data, 11, ubi.jamcrc(data + b"\xff"), 1),
            (data, 10, crc ^ U32, 3),
            (data, 10, crc ^ 1, 3),
            (data, 10, crc ^ 0x80000000, 3),
            (data, 10, 0, 3),
            (data, 10, int.from_bytes(crc.to_bytes(4, "big"), "little"), 3),
            (b"", 10, crc, 3),
            (b"", 1, ubi.jamcrc(b"\xff"), 1),
            (b"", 512, ubi.jamcrc(b"\xff" * 512), 1),
            (b"", 511, ubi.jamcrc(b"\xff" * 512), 3)):
        copy = small.copy(0, 0, 4, written, data_size=size, data_crc=sum_of)
        probes.anywhere(small, small.with_tables([small.volume()], copy),
                        states={0: state}, classes="111",
                        grade=int(state == 3))
        # The same beside an older copy.
        probes.anywhere(
            small, small.with_table([small.volume()], copy,
                                    small.dynamic(0, 0, 3)),
            states={0: 1}, classes="112" if state == 1 else "121")

    # Copies of several LEBs and volumes at once.
    records = [small.volume(b"x", reserved=2),
               small.volume(b"y", reserved=2, type=ubi.STATIC)]
    probes.anywhere(
        small, small.with_table(
            records,
            small.dynamic(0, 0, 5), small.copy(0, 0, 9, sound=False),
            small.dynamic(0, 1, 9), small.copy(0, 1, 5),
            small.static(1, 1, 2, 5), small.static(1, 1, 2, 9, copy_flag=1),
            small.static(1, 0, 2, 7, right=False, copy_flag=1),
            small.static(1, 0, 2, 6, right=False, copy_flag=1)),
        classes="112122121", highest=9, states={0: 1, 1: 3},
        mapped={(0, 0): 1, (0, 1): 3, (1, 1): 6, (1, 0): 8})
    # A chosen copy may be of another type or pad than those passed over.
    probes.anywhere(
        small, small.with_table(
            [small.volume(reserved=2)], small.dynamic(0, 0, 5),
            small.static(0, 0, 1, 4), small.dynamic(0, 0, 3, data_pad=9)),
        classes="1122", mapped={(0, 0): 1}, states={0: 1})


def add_tables(probes):
    small = probes.small
    log = small.volume(b"log")
    good = small.table(log)
    other = small.table(small.volume(b"old", reserved=2))
    behind = good + b"anything"
    junk = small.table(log._replace(name=whole_name(b"log", b"s")))
    bad = {
        "CRC": changed(good, 171, [good[171] ^ 1]),
        "last byte": changed(good, 343, [good[343] ^ 0x80]),
        "erased": b"",
        "one record": good[:172],
        "names": small.table(log, log),
        "two autoresize": small.table(small.volume(b"a", flags=1),
                                      small.volume(b"b", flags=3)),
        "sum": small.table(small.volume(b"a", reserved=2),
                           small.volume(b"b", reserved=1)),
        "alignment": small.table(small.volume(alignment=256)),
        "pad": small.table(log._replace(data_pad=1)),
    }
    user = small.dynamic(0, 0, 9)

    def judge(copy_0, copy_1, **want):
        """Four PEBs, so that two may be reserved; None is an absent copy."""
        blocks = [user]
        for leb, copy in ((0, copy_0), (1, copy_1)):
            if copy is None:
                blocks.append(BLANK)
            else:
                blocks.append(small.layout(leb, copy, 1 + leb))
        probes.anywhere(small, blocks + [small.free()], **want)

    judge(good, good, table=0, copies=0, grade=0, classes="1110")
    judge(good, behind, table=0, copies=0, grade=0, classes="1110")
    judge(behind, good, table=0, copies=0, grade=0, classes="1110")
    judge(other, other, table=0, copies=0, grade=0, classes="1110")
    judge(good, other, table=0, copies=2, grade=1, classes="1110")
    judge(other, good, table=0, copies=2, grade=1, classes="1110")
    judge(good, junk, table=0, copies=2, grade=1, classes="1110")
    judge(junk, good, table=0, copies=2, grade=1, classes="1110")
    judge(good, None, table=0, copies=1, grade=1, classes="1130")
    judge(None, good, table=1, copies=1, grade=1, classes="1310")
    judge(None, None, refused=(11, 0))
    for name in sorted(bad):
        judge(good, bad[name], table=0, copies=1, grade=1, classes="1110",
              layout={0: 1, 1: 2})
        judge(bad[name], good, table=1, copies=1, grade=1, classes="1110",
              layout={0: 1, 1: 2})
        judge(bad[name], bad[name], refused=(11, 0))
        judge(bad[name], None, refused=(11, 0))
        judge(None, bad[name], refused=(11, 0))
    judge(bad["CRC"], bad["sum"], refused=(11, 0))
    # Each rule for a record, broken in one copy.
    full = b"n" * 128
    for record in (
            log._replace(reserved=0), log._replace(alignment=0),
            log._replace(alignment=1024, data_pad=512),
            log._replace(alignment=513, data_pad=512),
            log._replace(type=0), log._replace(type=3),
            log._replace(update_marker=2), log._replace(flags=4),
            log._replace(name_length=0, name=bytes(128)),
            log._replace(name_length=128, name=full),
            log._replace(name_length=2), log._replace(name_length=4)):
        judge(good, small.table(record), table=0, copies=1, grade=1)
        judge(small.table(record), None, refused=(11, 0))

    # The taken table decides: LEB 0's if good, else LEB 1's.
    empty = small.table()
    judge(empty, good, table=0, copies=2, classes="5110", states={},
          mapped={}, entries=2)
    judge(good, empty, table=0, copies=2, classes="1110", states={0: 1},
          mapped={(0, 0): 0}, entries=3)
    judge(bad["CRC"], empty, table=1, copies=1, classes="5110", states={})
    judge(None, empty, table=1, copies=1, classes="5310", states={})
    marked = small.table(log._replace(update_marker=1))
    judge(good, marked, copies=2, states={0: 1})
    judge(marked, good, copies=2, states={0: 2})
    judge(bad["CRC"], marked, copies=1, states={0: 2})
    # 12 looks at the taken one as well.
    static = small.table(log._replace(type=ubi.STATIC))
    judge(good, static, copies=2, states={0: 1})
    judge(static, good, refused=(12, 0))
    judge(bad["CRC"], static, refused=(12, 0))
    judge(static, bad["CRC"], refused=(12, 0))

    # The sum of reserved PEBs is at most PEB count less 2.
    for blanks, reserved, fits in (
            (0, [1], False), (1, [1], True), (1, [2], False), (2, [2], True),
            (2, [1, 1], True), (2, [2, 1], False), (3, [2, 1], True),
            (8, [8], True), (8, [9], False), (8, [4, 4], True),
            (8, [4, 5], False), (8, [U32, 9], False), (8, [U32], False),
            (8, [0x80000000, 0x80000000], False), (0, [], True)):
        records = [small.volume(b"v%d" % number, reserved=amount)
                   for number, amount in enumerate(reserved)]
        states = {number: 1 for number in range(len(reserved))}
        want = {"states": states} if fits else {"refused": (11, 0)}
        # Blank PEBs count, and it need not be the layout volume's own two.
        probes.anywhere(small, small.with_tables(records)
                        + [BLANK] * blanks, **want)
        probes.anywhere(small, small.with_table(records)
                        + [BLANK] * (blanks + 1), **want)

    # The copies mark compares all record bytes and no others.
    five = probes.five
    table = five.table(five.volume(b"a"), None, five.volume(b"c"))
    assert len(table) == 860
    last = five.table(five.volume(b"a"), None, five.volume(b"c"), None,
                      five.volume(b"e"))
    for copy, mark in ((table + b"x", 0), (table + b"\x00" * 36, 0),
                       (last, 2), (table, 0)):
        probes.anywhere(five, [five.layout(0, table, 1),
                               five.layout(1, copy, 1), BLANK, BLANK, BLANK],
                        copies=mark, grade=1 if mark else 0)


def add_layout_copies(probes):
    """Several copies of a layout LEB: the chosen one is the table."""
    small = probes.small
    log = small.volume(b"log")
    good = small.table(log)
    other = small.table(small.volume(b"boot", type=ubi.STATIC))
    bad = changed(good, 0, [0xFF])

    def judge(blocks, **want):
        probes.anywhere(small, blocks + [small.free()], **want)

    second = small.layout(1, good, 2)
    for leb in (0, 1):
        beside = small.layout(1 - leb, good, 20)
        # The newer table counts if it is sound ...
        judge([small.layout(leb, other, 5), small.layout(leb, good, 6),
               beside], classes="2110", copies=0, grade=0, states={0: 1})
        judge([small.layout(leb, other, 5), small.layout_copy(leb, good, 6),
               beside], classes="2110", copies=0, grade=0, states={0: 1})
        # ... and the older if it is not.
        judge([small.layout(leb, good, 5),
               small.layout_copy(leb, other, 6, sound=False), beside],
              classes="1210", copies=0, grade=0, states={0: 1})
        # A bad table in the chosen copy is not good, whatever the other.
        judge([small.layout(leb, good, 5), small.layout(leb, bad, 6),
               beside], classes="2110", copies=1, grade=1, table=1 - leb)
        judge([small.layout(leb, bad, 5),
               small.layout_copy(leb, good, 6, sound=False), beside],
              classes="1210", copies=1, grade=1, table=1 - leb)
        # An unsound copy, chosen because there is no other, is read.
        judge([small.layout_copy(leb, good, 6, sound=False), beside],
              classes="110", copies=0, grade=0, layout={leb: 0, 1 - leb: 1})
        judge([small.layout_copy(leb, good, 6, sound=False),
               small.layout_copy(leb, other, 7, sound=False), beside],
              classes="1210", copies=0, grade=0)
        judge([small.layout_copy(leb, good, 7, sound=False),
               small.layout_copy(leb, bad, 6, sound=False), beside],
              classes="2110", copies=1, grade=1, table=1 - leb)
        # Whatever its data size: the records are the LEB's first bytes.
        for size in (1, 172, 343, 344, 345, 512):
            judge([small.layout_copy(leb, good, 6, data_size=size), beside],
                  classes="110", copies=0, grade=0)
            judge([small.layout_copy(leb, other, 6, data_size=size),
                   small.layout(leb, good, 5), beside],
                  classes="1210", copies=2, grade=1)
    judge([small.layout(0, good, 1), small.layout(0, bad, 3),
           small.layout(1, bad, 2)], refused=(11, 0))
    judge([small.layout(0, good, 1), small.layout_copy(0, bad, 3)],
          refused=(11, 0))
    # LEB 1 decides nothing of LEB 0: sequences of different LEBs.
    for first, later in ((1, 9), (9, 1)):
        judge([small.layout(0, good, first), small.layout(1, other, later),
               small.dynamic(0, 0, 3)], table=0, copies=2, states={0: 1})
    # The layout volume is not in the table and stays mapped.
    judge([small.layout(0, small.table(), 1), second],
          entries=2, layout={0: 0, 1: 1}, states={}, copies=2)


def add_without_record(probes):
    """Chosen user copies that become class 5 and leave the map."""
    small, five = probes.small, probes.five

    def judge(flash, records, volume, leb, stays, peb_count=4):
        user = flash.dynamic(volume, leb, 9)
        blocks = flash.with_tables(records, user)
        blocks += [BLANK] * (peb_count - len(blocks))
        probes.anywhere(
            flash, blocks, entries=3 if stays else 2, highest=9, grade=0,
            classes="11" + ("1" if stays else "5") + "3" * (peb_count - 3),
            mapped={(volume, leb): 2} if stays else {})

    # Empty, absent, or present.
    one = [None, small.volume()]
    for volume, stays in ((0, False), (1, True), (2, False), (3, False),
                          (64, False), (126, False), (127, False)):
        judge(small, one, volume, 0, stays)
    three = [five.volume(b"a"), None, five.volume(b"c")]
    for volume in (0, 1, 2, 3, 4, 5, 6, 127):
        judge(five, three, volume, 0, volume in (0, 2))
    full = [five.volume(b"v%d" % number) for number in range(5)]
    for volume in (4, 5):
        judge(five, full, volume, 0, volume == 4, 7)
    # The LEB below reserved or not.
    for reserved in (1, 2, 7):
        record = small.volume(reserved=reserved)
        for leb in sorted(set([0, reserved - 1, reserved, reserved + 1, 255,
                               256, 65536, 0x7FFFFFFF])):
            judge(small, [record], 0, leb, leb < reserved, 9)

    # Only the chosen copy becomes class 5; passed-over ones stay class 2.
    log = small.volume()
    for volume, leb in ((0, 1), (1, 0), (9, 0)):
        probes.anywhere(
            small, small.with_tables(
                [log], small.dynamic(volume, leb, 5),
                small.copy(volume, leb, 6, sound=False),
                small.dynamic(volume, leb, 4), small.dynamic(0, 0, 3)),
            classes="115221", states={0: 1}, grade=0, entries=3, highest=6)
        # All unsound: the oldest is chosen; no state suffers.
        probes.anywhere(
            small, small.with_tables(
                [log], small.copy(volume, leb, 7, sound=False),
                small.copy(volume, leb, 6, sound=False), BLANK),
            classes="11253", states={0: 1}, grade=0, entries=2, highest=7)
    # Neither type, pad nor used LEBs of a class 5 copy are 12.
    for block in (small.static(0, 1, 5, 5), small.static(0, 2, 3, 5),
                  small.dynamic(0, 1, 5, data_pad=7),
                  small.static(1, 0, 900, 5), small.static(0, 1, 2, 5)):
        probes.anywhere(small, small.with_tables([log], block),
                        classes="115", states={0: 1}, entries=2, grade=0)
    boot = small.volume(b"boot", type=ubi.STATIC, reserved=2)
    probes.anywhere(
        small, small.with_tables(
            [boot], small.static(0, 0, 2, 3), small.static(0, 1, 2, 4),
            small.static(0, 2, 3, 5), small.dynamic(0, 3, 6)),
        classes="111155", states={0: 1}, entries=4, grade=0)
    # With its only copy gone from the map, a static volume misses nothing.
    probes.anywhere(
        small, small.with_tables(
            [boot], small.static(0, 2, 3, 4, right=False), BLANK),
        classes="1153", states={0: 1}, grade=0, entries=2)


def add_states(probes):
    small = probes.small

    def judge(record, blocks, state):
        probes.anywhere(
            small, small.with_tables([record]) + blocks
            + [BLANK] * (4 - len(blocks)),
            states={0: state}, copies=0, grade=int(state > 1))

    dynamic_copies = {
        "nothing": ([], 1),
        "flag 0": ([small.dynamic(0, 0, 3)], 1),
        "sound": ([small.copy(0, 1, 3)], 1),
        "unsound": ([small.copy(0, 0, 3, sound=False)], 3),
        "later unsound": ([small.dynamic(0, 0, 3),
                           small.copy(0, 1, 4, sound=False)], 3),
        "earlier unsound": ([small.copy(0, 0, 4, sound=False),
                             small.dynamic(0, 1, 3)], 3),
        "unsound passed over": ([small.dynamic(0, 0, 3),
                                 small.copy(0, 0, 4, sound=False)], 1),
        "gap": ([small.dynamic(0, 1, 3)], 1),
        "unsound beyond reserved": ([small.dynamic(0, 0, 3),
                                     small.copy(0, 2, 4, sound=False)], 1),
        "unsound of no volume": ([small.dynamic(0, 0, 3),
                                  small.copy(1, 0, 4, sound=False)], 1),
    }
    for flags, marker in product((0, 2), (0, 1)):
        record = small.volume(reserved=2, flags=flags, update_marker=marker)
        for name in sorted(dynamic_copies):
            blocks, state = dynamic_copies[name]
            judge(record, blocks, 2 if marker else state)

    def s(leb, used, sequence, **more):
        return small.static(0, leb, used, sequence, **more)

    # With the state if the skip flag is clear, and if it is set.
    static_copies = {
        "nothing": ([], 1, 1),
        "one": ([s(0, 1, 3)], 1, 1),
        "two": ([s(0, 2, 3), s(1, 2, 4)], 1, 1),
        "two turned": ([s(1, 2, 3), s(0, 2, 4)], 1, 1),
        "first missing": ([s(1, 2, 3)], 3, 3),
        "last missing": ([s(0, 2, 3)], 3, 3),
        "middle missing": ([s(0, 3, 3), s(2, 3, 4)], 3, 3),
        "all but the last missing": ([s(2, 3, 4)], 3, 3),
        "three": ([s(0, 3, 3), s(1, 3, 4), s(2, 3, 5)], 1, 1),
        "wrong": ([s(0, 1, 3, right=False)], 3, 1),
        "first wrong": ([s(0, 2, 3, right=False), s(1, 2, 4)], 3, 1),
        "last wrong": ([s(0, 2, 3), s(1, 2, 4, right=False)], 3, 1),
        "wrong and missing": ([s(0, 2, 3, right=False)], 3, 3),
        "copies": ([s(0, 2, 3, copy_flag=1), s(1, 2, 4, copy_flag=1)], 1, 1),
        "unsound": ([s(0, 1, 3, right=False, copy_flag=1)], 3, 3),
        "last unsound": ([s(0, 2, 3),
                          s(1, 2, 4, right=False, copy_flag=1)], 3, 3),
        "wrong passed over": ([s(0, 1, 3), s(0, 1, 2, right=False)], 1, 1),
        "unsound passed over": (
            [s(0, 1, 3), s(0, 1, 4, right=False, copy_flag=1)], 1, 1),
        "newer wrong": ([s(0, 1, 3), s(0, 1, 4, right=False)], 3, 1),
        "wrong beyond reserved": (
            [s(0, 1, 3), s(3, 4, 3, right=False)], 1, 1),
    }
    for flags, marker in product((0, 1, 2, 3), (0, 1)):
        record = small.volume(reserved=3, type=ubi.STATIC, flags=flags,
                              update_marker=marker)
        for name in sorted(static_copies):
            blocks, clear, skipped = static_copies[name]
            if flags in (1, 3) and name not in ("wrong", "unsound", "one"):
                continue
            state = skipped if flags & ubi.SKIP_CRC else clear
            judge(record, blocks, 2 if marker else state)

    # Each volume has its own; no record, no state.
    five = probes.five
    records = [five.volume(b"a", update_marker=1), five.volume(b"b"), None,
               five.volume(b"d", type=ubi.STATIC),
               five.volume(b"e", type=ubi.STATIC, flags=2)]
    blocks = [five.dynamic(0, 0, 3), five.copy(1, 0, 4, sound=False),
              five.copy(2, 0, 5, sound=False),
              five.static(3, 0, 1, 6, right=False),
              five.static(4, 0, 1, 7, right=False)]
    probes.anywhere(five, five.with_tables(records, *blocks),
                    states={0: 2, 1: 3, 3: 3, 4: 1}, classes="1111511",
                    grade=1)
    for at in range(5):
        # One of the five damaged, and the others are fine.
        records = [five.volume(b"v%d" % number) for number in range(5)]
        blocks = [five.copy(number, 0, 3, sound=number != at)
                  for number in range(5)]
        states = {number: 3 if number == at else 1 for number in range(5)}
        probes.anywhere(five, five.with_tables(records, *blocks),
                        states=states, grade=1)
    # Pads: a static LEB but the last is full with the pad taken off.
    padded = five.volume(b"p", type=ubi.STATIC, alignment=100, reserved=3)
    pad = padded.data_pad
    assert pad == 96
    for wrong in (None, 0, 1):
        blocks = [five.static(0, leb, 2, 3, b"%d" % leb, right=leb != wrong,
                              data_pad=pad) for leb in (0, 1)]
        # Bytes in the pad are no data.
        blocks[0] = blocks[0]._replace(
            data=b"0" + b"\xff" * (five.leb_size - 2) + b"p")
        probes.anywhere(five, five.with_tables([padded], *blocks) + [BLANK],
                        states={0: 1 if wrong is None else 3},
                        classes="11113")
