"""Cases for volume records and for the two copies of the volume table."""

import frames
import ubi
from cases import Cases, Chance, changed, cycle

U32 = 0xFFFFFFFF
RECORD_SIZE = ubi.RECORD_SIZE


def table_cases():
    cases = Cases(frames.table_answer, frames.table_kinds)
    records = RecordProbes(cases)
    add_good_records(records)
    add_record_boundaries(records)
    add_names(records)
    add_empty_records(records)
    add_damaged_records(records)
    add_record_lengths(records)
    add_random_records(records)
    add_written_records(records)
    tables = TableProbes(cases)
    add_small_tables(tables)
    add_bad_records_in_tables(tables)
    add_equal_names(tables)
    add_autoresize(tables)
    add_sums(tables)
    add_copies(tables)
    add_record_counts(tables)
    add_full_tables(tables)
    add_random_tables(tables)
    return cases


def u32(value):
    return value.to_bytes(4, "big")


def whole_name(name, junk=b""):
    """128 bytes: the name, a zero, and perhaps junk behind it."""
    behind = b"\x00" + junk
    return (name + behind + bytes(ubi.NAME_SIZE))[:ubi.NAME_SIZE]


def volume(leb_size, name=b"log", **change):
    """A volume's record, good for the LEB size unless changed.

    The pad follows a changed alignment, so that one thing is wrong at a
    time.
    """
    record = ubi.VolumeRecord(
        reserved=1, alignment=1, data_pad=0, type=ubi.DYNAMIC,
        update_marker=0, name_length=len(name), flags=0,
        name=whole_name(name))
    alignment = change.get("alignment", 1)
    if alignment > 0:
        record = record._replace(data_pad=leb_size % alignment)
    return record._replace(**change)


def with_record_crc(raw):
    """The bytes with the CRC put right again."""
    return raw[:168] + u32(ubi.jamcrc(raw[:168]))


# ----------------------------------------------------------- single records

class RecordProbes:
    def __init__(self, cases):
        self.cases = cases
        self.chance = Chance(404)
        self.tails = cycle([0, 0, 0, 3, 0, 0, 1])

    def raw(self, raw, want=None, leb_size=896, unit=1, exact=False):
        tail = b"" if exact else self.chance.bytes(next(self.tails))
        self.cases.add(bytes([frames.RECORD]) + u32(leb_size) + u32(unit)
                       + raw + tail, want)

    def record(self, record, want=None, leb_size=896, unit=1):
        self.raw(ubi.record_bytes(record), want, leb_size, unit)


def add_good_records(probes):
    for leb_size, unit in ((896, 1), (172, 4), (129024, 2048), (1000, 8),
                           (U32, 4096), (0x80000000, 512)):
        for kind in (ubi.DYNAMIC, ubi.STATIC):
            for marker in (0, 1):
                for flags in (0, 1, 2, 3):
                    probes.record(volume(
                        leb_size, type=kind, update_marker=marker,
                        flags=flags), "good", leb_size, unit)
    for reserved in (1, 2, 255, 256, 0x7FFFFFFF, 0x80000000, U32):
        probes.record(volume(896, reserved=reserved), "good")


def add_record_boundaries(probes):
    for leb_size, unit in ((896, 1), (896, 64), (1000, 16), (172, 4),
                           (129024, 2048), (15000, 512), (U32, 4096)):
        most = leb_size // unit * unit
        for alignment in (0, 1, 2, 3, unit - 1, unit, unit + 1, 2 * unit,
                          3 * unit, 2 * unit + 1, unit // 2, most - unit,
                          most, most + unit, leb_size - 1, leb_size,
                          leb_size + 1, 0x80000000, U32):
            if not 0 <= alignment <= U32:
                continue
            good = 1 <= alignment <= leb_size and (
                alignment == 1 or alignment % unit == 0)
            want = "good" if good else "bad"
            record = volume(leb_size, alignment=alignment)
            probes.record(record, want, leb_size, unit)
            # Any pad but LEB size modulo alignment is wrong.
            for pad in (0, record.data_pad + 1, record.data_pad - 1,
                        alignment):
                if not 0 <= pad <= U32 or not good:
                    continue
                probes.record(
                    record._replace(data_pad=pad),
                    "good" if pad == record.data_pad else "bad",
                    leb_size, unit)

    # Of 0 only 0 is a multiple, and alignment is at least 1.
    for alignment, want in ((0, "bad"), (1, "good"), (2, "bad"), (64, "bad"),
                            (896, "bad"), (897, "bad")):
        probes.record(volume(896, alignment=alignment), want, 896, 0)
    # A unit that is no power of two: the rule is the same.
    for unit, alignment, want in (
            (3, 3, "good"), (3, 6, "good"), (3, 2, "bad"), (3, 4, "bad"),
            (3, 5, "bad"), (6, 12, "good"), (6, 9, "bad"), (896, 896, "good"),
            (896, 448, "bad"), (897, 896, "bad"), (U32, 1, "good"),
            (U32, 896, "bad")):
        probes.record(volume(896, alignment=alignment), want, 896, unit)
    # LEB sizes that hold no record are judged by the same words.
    for leb_size, alignment, want in (
            (0, 0, "bad"), (0, 1, "bad"), (1, 1, "good"), (1, 2, "bad"),
            (2, 2, "good"), (2, 1, "good"), (171, 171, "good"),
            (171, 172, "bad")):
        probes.record(volume(leb_size, alignment=alignment), want, leb_size)

    for kind in (0, 3, 4, 127, 128, 255):
        probes.record(volume(896, type=kind), "bad")
    for marker in (2, 3, 127, 128, 255):
        probes.record(volume(896, update_marker=marker), "bad")
    for flags in list(range(0, 17)) + [0x20, 0x40, 0x80, 0x81, 0x82, 0x83,
                                       0xFC, 0xFF]:
        probes.record(volume(896, flags=flags),
                      "good" if flags < 4 else "bad")


def add_names(probes):
    chance = probes.chance
    for length in (1, 2, 3, 64, 126, 127):
        name = chance.nonzero_bytes(length)
        record = volume(896, name)
        probes.record(record, "good")
        # One zero within the name, at its first, middle and last byte.
        for at in sorted(set([0, length // 2, length - 1])):
            probes.record(record._replace(
                name=changed(record.name, at, [0])), "bad")
        # The byte after the name.
        for after in (1, 0x80, 0xFF):
            probes.record(record._replace(
                name=changed(record.name, length, [after])), "bad")
        # Junk behind the zero counts through the CRC alone.
        for amount in (1, 20, 128):
            junk = chance.nonzero_bytes(amount)
            probes.record(record._replace(
                name=whole_name(name, junk)), "good")
    full = chance.nonzero_bytes(128)
    for length in (0, 1, 126, 127, 128, 129, 255, 256, 257, 0x0103, 0x7F00,
                   0x7FFF, 0x8000, 0x8003, 0xFFFF):
        # The name length alone, over names of 3, 127 and 128 bytes.
        for name in (whole_name(b"log"), whole_name(full[:127]), full,
                     bytes(128)):
            good = 1 <= length <= 127 and (
                0 not in name[:length] and name[length] == 0)
            probes.record(
                volume(896)._replace(name_length=length, name=name),
                "good" if good else "bad")
    for length in range(0, 6):
        probes.record(volume(896)._replace(name_length=length),
                      "good" if length == 3 else "bad")
    # A zero at each place of the longest name.
    longest = volume(896, full[:127])
    for at in range(0, 127, 9):
        probes.record(longest._replace(
            name=changed(longest.name, at, [0])), "bad")
    for name in (b" ", b"\xff", b"\x01", b"\x80\x81", b"a/b", b"log\n"):
        probes.record(volume(896, name), "good")


def add_empty_records(probes):
    empty = ubi.empty_record_bytes()
    for leb_size, unit in ((896, 1), (0, 0), (U32, 4096)):
        probes.raw(empty, "empty", leb_size, unit)
        probes.raw(empty, "empty", leb_size, unit, exact=True)
    crc = ubi.jamcrc(bytes(168))
    for wrong in (0, U32, crc ^ U32, crc ^ 1, (crc + 1) & U32,
                  int.from_bytes(u32(crc), "little")):
        probes.raw(bytes(168) + u32(wrong), "bad")
    # Reserved 0 and any other byte not: neither empty nor good.
    chance = probes.chance
    for at in list(range(4, 20)) + list(range(20, 168, 5)) + list(
            range(143, 168)):
        raw = changed(bytes(172), at, [chance.between(1, 255)])
        probes.raw(with_record_crc(raw), "bad")
    # A record that is good but for reserved 0.
    probes.record(volume(896, reserved=0), "bad")
    probes.record(volume(896, reserved=0, flags=3, type=2), "bad")
    # Reserved above 0 and nothing else.
    for at in range(4):
        probes.raw(with_record_crc(changed(bytes(172), at, [1])), "bad")


def add_damaged_records(probes):
    chance = probes.chance
    good = ubi.record_bytes(volume(896, b"rootfs", reserved=12, flags=2))
    for at in range(172):
        flipped = changed(good, at, [good[at] ^ 1 << (at % 8)])
        probes.raw(flipped, "bad")
    for at in range(0, 172, 6):
        flipped = changed(ubi.empty_record_bytes(), at,
                          [ubi.empty_record_bytes()[at] ^ 1 << (at % 8)])
        probes.raw(flipped, "bad")
    crc = ubi.number_at(good, 168, 4)
    for wrong in (0, U32, crc ^ U32, (crc + 1) & U32, ubi.jamcrc(good[:167]),
                  int.from_bytes(u32(crc), "little"), ubi.jamcrc(good[1:168])):
        probes.raw(good[:168] + u32(wrong), "bad")
    # Padding counts through the CRC alone.
    for at in range(145, 168):
        padded = changed(good, at, [chance.between(1, 255)])
        probes.raw(with_record_crc(padded), "good")
    probes.raw(with_record_crc(good[:145] + b"\xff" * 23 + bytes(4)), "good")
    for filler in (0x00, 0xFF, 0x55):
        probes.raw(bytes([filler]) * 172, "bad")
        probes.raw(with_record_crc(bytes([filler]) * 172),
                   "empty" if filler == 0 else "bad")
    for _ in range(10):
        probes.raw(chance.bytes(172), "bad")
        probes.raw(with_record_crc(chance.bytes(172)), "bad")


def add_record_lengths(probes):
    good = ubi.record_bytes(volume(896, b"data"))
    empty = ubi.empty_record_bytes()
    for length in list(range(0, 172, 7)) + [1, 167, 168, 169, 170, 171]:
        probes.raw(good[:length], "refused 4", exact=True)
    for length in (0, 1, 168, 171):
        probes.raw(empty[:length], "refused 4", exact=True)
        probes.raw(b"\xff" * length, "refused 4", exact=True)
    for more in (0, 1, 2, 4, 172, 300):
        probes.raw(good + probes.chance.bytes(more), "good", exact=True)
        probes.raw(empty + probes.chance.bytes(more), "empty", exact=True)
    probes.raw(b"\x00" + good, "bad", exact=True)
    probes.raw(b"\xff" * 172 + good, "bad", exact=True)


def add_random_records(probes):
    chance = probes.chance
    for _ in range(200):
        leb_size = chance.pick([172, 896, 1000, 4096, 129024])
        unit = chance.pick([1, 2, 8, 64, 512, 2048])
        alignment = chance.pick([1, 1, unit, 2 * unit, unit * 3, leb_size])
        name = chance.nonzero_bytes(chance.pick([1, 2, 5, 30, 126, 127]))
        record = volume(leb_size, name, alignment=alignment,
                        reserved=chance.between(1, 4000),
                        type=chance.pick([1, 2]), flags=chance.below(4),
                        update_marker=chance.below(2))
        pools = {
            "reserved": [0, 1, U32],
            "alignment": [0, 1, unit, unit + 1, leb_size, leb_size + 1],
            "data_pad": [0, 1, leb_size % unit],
            "type": [0, 1, 2, 3],
            "update_marker": [0, 1, 2],
            "name_length": [0, len(name) - 1, len(name), len(name) + 1, 128],
            "flags": [0, 1, 2, 3, 4, 0x80],
        }
        change = {}
        for _ in range(chance.below(4)):
            field = chance.pick(sorted(pools))
            change[field] = chance.pick(pools[field])
        probes.record(record._replace(**change), None, leb_size, unit)


def add_written_records(probes):
    """Any numbers and name, to lent bytes of any length and content."""
    chance = probes.chance

    def write(record, lent, want):
        payload = bytearray([frames.WRITE_RECORD])
        for (_, _, width), value in zip(ubi.RECORD_FIELDS, record):
            payload += value.to_bytes(width, "big")
        probes.cases.add(bytes(payload) + record.name + lent, want)

    for length in (0, 1, 4, 168, 171, 172, 173, 200):
        want = "written" if length >= RECORD_SIZE else "refused 4"
        write(volume(896), b"\xff" * length, want)
        write(volume(896, b"data", flags=3), chance.bytes(length), want)
    for name, _, width in ubi.RECORD_FIELDS:
        for value in (0, 1, 256 ** width - 2, 256 ** width - 1):
            write(volume(896, **{name: value}), b"\xff" * 172, "written")
    for _ in range(60):
        numbers = [chance.below(256 ** width)
                   for _, _, width in ubi.RECORD_FIELDS]
        write(ubi.VolumeRecord(*(numbers + [chance.bytes(128)])),
              chance.bytes(chance.pick([172, 172, 180, 171])), None)


# ---------------------------------------------------------------- two copies

class TableProbes:
    def __init__(self, cases):
        self.cases = cases
        self.chance = Chance(405)

    def add(self, leb_size, copy_0, copy_1, want=None, unit=1, peb_count=16):
        self.cases.add(
            bytes([frames.TABLES]) + u32(leb_size) + u32(unit)
            + u32(peb_count) + u32(len(copy_0)) + copy_0 + copy_1, want)

    def copy(self, leb_size, records):
        """A whole layout LEB: records, empty ones, and chance bytes."""
        count = ubi.record_count(leb_size)
        raws = [record if isinstance(record, bytes)
                else ubi.record_bytes(record) for record in records]
        assert len(raws) <= count
        raws += [ubi.empty_record_bytes()] * (count - len(raws))
        part = b"".join(raws)
        return part + self.chance.bytes(leb_size - len(part))

    def good_or_not(self, leb_size, records, good, unit=1, peb_count=16,
                    places=(0,)):
        """One table as copy 0, copy 1 or both, beside a good empty one."""
        fine = self.copy(leb_size, [])
        judged = self.copy(leb_size, records)
        wants = {0: ("taken 0 mark 2", "taken 1 mark 1"),
                 1: ("taken 0 mark 2", "taken 0 mark 1"),
                 2: ("taken 0 mark 0", "taken 2 mark 1"),
                 3: ("taken 0 mark 1", "taken 2 mark 1"),
                 4: ("taken 1 mark 1", "taken 2 mark 1")}
        pairs = {0: (judged, fine), 1: (fine, judged), 2: (judged, judged),
                 3: (judged, b""), 4: (b"", judged)}
        for place in places:
            copy_0, copy_1 = pairs[place]
            self.add(leb_size, copy_0, copy_1,
                     wants[place][0 if good else 1], unit, peb_count)


EMPTY = ubi.empty_record_bytes()
ABSENT = b""


def volumes(leb_size, count, **change):
    """Volumes of different names."""
    return [volume(leb_size, b"vol%d" % number, **change)
            for number in range(count)]


def add_small_tables(probes):
    """Nothing, one volume or more, at LEB sizes of 1 to 6 records."""
    for leb_size in (172, 173, 343, 344, 345, 516, 700, 896, 1100):
        count = ubi.record_count(leb_size)
        empty = probes.copy(leb_size, [])
        full = probes.copy(leb_size, volumes(leb_size, count))
        probes.add(leb_size, empty, empty, "taken 0 mark 0")
        probes.add(leb_size, full, full, "taken 0 mark 0")
        probes.add(leb_size, full, empty, "taken 0 mark 2")
        probes.add(leb_size, empty, full, "taken 0 mark 2")
        probes.add(leb_size, full, ABSENT, "taken 0 mark 1")
        probes.add(leb_size, ABSENT, full, "taken 1 mark 1")
        probes.add(leb_size, empty, ABSENT, "taken 0 mark 1")
        probes.add(leb_size, ABSENT, empty, "taken 1 mark 1")
        probes.add(leb_size, ABSENT, ABSENT, "taken 2 mark 1")
        # A volume anywhere, empty records around it.
        for at in range(count):
            one = probes.copy(
                leb_size, [EMPTY] * at + [volume(leb_size, b"one")])
            probes.add(leb_size, one, ABSENT, "taken 0 mark 1")
    for unit, leb_size in ((1, 400), (8, 400), (64, 896), (512, 512)):
        table = [volume(leb_size, b"a", alignment=unit),
                 volume(leb_size, b"b", type=ubi.STATIC)]
        probes.good_or_not(leb_size, table, True, unit, places=(0, 1, 2))
    # Good at one unit or LEB size, not at another.
    aligned = probes.copy(400, [volume(400, b"a", alignment=8)])
    for unit in (1, 2, 4, 8, 16, 0):
        probes.add(400, aligned, aligned, "taken 0 mark 0"
                   if unit in (1, 2, 4, 8) else "taken 2 mark 1", unit)
    aligned = probes.copy(400, [volume(400, b"a", alignment=7)])
    for leb_size in (399, 400, 407, 401):
        probes.add(leb_size, aligned, aligned, "taken 0 mark 0"
                   if leb_size in (400, 407) else "taken 2 mark 1")


def broken_records(leb_size, unit):
    """One for each thing that can be wrong with a record."""
    good = volume(leb_size, b"broken")
    raw = ubi.record_bytes(good)
    records = [good._replace(**change) for change in (
        {"reserved": 0}, {"alignment": 0}, {"alignment": leb_size + 1},
        {"data_pad": 1}, {"type": 0}, {"type": 3}, {"update_marker": 2},
        {"name_length": 0}, {"name_length": 5}, {"name_length": 7},
        {"name_length": 128}, {"flags": 4}, {"flags": 0x80},
        {"name": whole_name(b"bro\x00en")}, {"name": b"x" * 128})]
    if unit > 1:
        records.append(volume(leb_size, b"broken", alignment=unit + 1))
    raws = [ubi.record_bytes(record) for record in records]
    raws += [changed(raw, 171, [raw[171] ^ 1]), changed(raw, 20, [0x55]),
             bytes(172), b"\xff" * 172,
             with_record_crc(changed(bytes(172), 150, [1])),
             changed(EMPTY, 168, [EMPTY[168] ^ 0x80])]
    return raws


def add_bad_records_in_tables(probes):
    for leb_size, unit in ((172, 1), (350, 2), (520, 8)):
        count = ubi.record_count(leb_size)
        for broken in broken_records(leb_size, unit):
            for at in sorted(set([0, count - 1])):
                records = [ubi.record_bytes(one)
                           for one in volumes(leb_size, count)]
                records[at] = broken
                probes.good_or_not(leb_size, records, False, unit,
                                   places=(0, 1) if at else (0, 2))


def add_equal_names(probes):
    chance = probes.chance
    long_name = chance.nonzero_bytes(127)

    def named(name, junk=b""):
        return volume(600, name)._replace(name=whole_name(name, junk))

    pairs = [
        (named(b"log"), named(b"log"), False),
        (named(b"log"), named(b"loh"), True),
        (named(b"log"), named(b"Log"), True),
        (named(b"log"), named(b"lo"), True),
        (named(b"l"), named(b"log"), True),
        (named(b"log"), named(b"logs"), True),
        (named(b"log", b"s"), named(b"log", b"t"), False),
        (named(b"log", b"s"), named(b"log"), False),
        (named(b"log"), named(b"log", b"\x00\x00s"), False),
        # Equal bytes behind the zero do not make names equal.
        (named(b"log", b"same"), named(b"lag", b"same"), True),
        # The longer name continues where the other has zero and junk.
        (named(b"log", b"x"), named(b"log1x"), True),
        (named(long_name), named(long_name), False),
        (named(long_name), named(long_name[:126]), True),
        (named(long_name), named(long_name[:126] + bytes(
            [long_name[126] ^ 0x80 or 1])), True),
        (named(b"\x80"), named(b"\xff"), True),
        (named(b"\x80"), named(b"\x80"), False),
        (named(b"log")._replace(type=2, flags=2), named(b"log"), False),
    ]
    for one, other, good in pairs:
        probes.good_or_not(344, [refit(one, 344), refit(other, 344)], good,
                           places=(0, 2))
        probes.good_or_not(516, [refit(other, 516), EMPTY, refit(one, 516)],
                           good, places=(1,))
    # Each two places of a table.
    for leb_size in (344, 520, 700, 1040):
        count = ubi.record_count(leb_size)
        for first in range(count):
            for second in range(first + 1, count):
                records = volumes(leb_size, count)
                records[second] = records[second]._replace(
                    name=records[first].name)
                probes.good_or_not(leb_size, records, False, places=(3,))
    # Empty records have no name and may be many.
    probes.good_or_not(860, [EMPTY, volume(860), EMPTY], True, places=(0,))


def refit(record, leb_size):
    return record._replace(data_pad=leb_size % record.alignment)


def add_autoresize(probes):
    for leb_size in (344, 520, 700):
        count = ubi.record_count(leb_size)
        for first in range(count):
            for second in range(first + 1, count):
                for flags, good in (((1, 1), False), ((1, 3), False),
                                    ((3, 3), False), ((1, 2), True),
                                    ((2, 2), True), ((3, 2), True)):
                    records = volumes(leb_size, count)
                    records[first] = records[first]._replace(flags=flags[0])
                    records[second] = records[second]._replace(
                        flags=flags[1])
                    probes.good_or_not(leb_size, records, good, places=(3,))
    for at in range(3):
        records = volumes(520, 3, flags=2)
        records[at] = records[at]._replace(flags=3)
        probes.good_or_not(520, records, True, places=(0, 2))
    probes.good_or_not(520, volumes(520, 3, flags=1), False, places=(0, 1, 2))


def add_sums(probes):
    def judge(reserved, peb_count, good, places=(3,)):
        leb_size = 172 * max(len(reserved), 1) + 5
        records = [record._replace(reserved=amount) if amount else EMPTY
                   for record, amount in
                   zip(volumes(leb_size, len(reserved)), reserved)]
        probes.good_or_not(leb_size, records, good, peb_count=peb_count,
                           places=places)

    # No PEBs but the layout volume's own, or not even these.
    for peb_count in (0, 1, 2):
        judge([0], peb_count, True, (2, 3))
        judge([1], peb_count, False, (2, 3))
        judge([2], peb_count, False)
        judge([U32], peb_count, False)
        judge([0xFFFFFFFE], peb_count, False)
    for peb_count in (3, 4, 10, 64, 4096, 4097, 0x10000, 0x7FFFFFFF,
                      0x80000000, 0x80000001, 0xFFFFFFFE, U32):
        most = peb_count - 2
        judge([most], peb_count, True)
        judge([most + 1], peb_count, False)
        judge([most + 2], peb_count, False)
        if most > 1:
            judge([most - 1, 1], peb_count, True, (0, 1))
            judge([most - 1, 2], peb_count, False, (0, 1))
            judge([1, 0, most - 1], peb_count, True)
            judge([1, 0, most], peb_count, False)
        if most > 2:
            judge([1, 1, most - 2], peb_count, True)
            judge([1, 1, most - 1], peb_count, False)
    # Sums that come round to something small in 32 bits.
    for reserved in ([U32, 1], [U32, 2], [1, U32], [U32, U32],
                     [0x80000000, 0x80000000], [0x80000000, 0x80000001],
                     [0x40000000] * 4, [U32, U32, 2], [U32, 1, 1],
                     [U32, 0, 5], [0xFFFFFFF0, 0x10, 3]):
        for peb_count in (3, 16, 0x7FFFFFFF, U32):
            judge(reserved, peb_count, False)


def add_copies(probes):
    """What the copies mark compares, and what it does not."""
    for leb_size in (200, 400, 600):
        count = ubi.record_count(leb_size)
        length = count * RECORD_SIZE
        records = volumes(leb_size, count)
        one = probes.copy(leb_size, records)
        part = one[:length]
        # Behind the records anything may stand, and any number of bytes.
        behind = leb_size - length
        for tail in (b"", bytes(behind), b"\xff" * behind,
                     probes.chance.bytes(behind),
                     changed(one[length:], behind - 1,
                             [one[-1] ^ 1]), EMPTY, one):
            probes.add(leb_size, one, part + tail, "taken 0 mark 0")
            probes.add(leb_size, part + tail, one, "taken 0 mark 0")
        # One byte too few.
        probes.add(leb_size, part[:-1], one, "taken 1 mark 1")
        probes.add(leb_size, one, part[:-1], "taken 0 mark 1")
        probes.add(leb_size, part[:-1], part[:-1], "taken 2 mark 1")
        probes.add(leb_size, part[:1], part[:1], "taken 2 mark 1")
        probes.add(leb_size, part[1:], one, "taken 1 mark 1")
        for cut in range(0, length, RECORD_SIZE):
            probes.add(leb_size, part[:cut], one, "taken 1 mark 1")
            probes.add(leb_size, one, part[:cut], "taken 0 mark 1")

        # Both good, and unequal in one record only.
        for at in range(count):
            raw = ubi.record_bytes(records[at])
            others = [
                ubi.record_bytes(records[at]._replace(reserved=2)),
                ubi.record_bytes(records[at]._replace(update_marker=1)),
                ubi.record_bytes(records[at]._replace(
                    name=whole_name(b"vol%d" % at, b"junk"))),
                with_record_crc(changed(raw, 167, [1])),
                ubi.record_bytes(records[at]._replace(
                    name=whole_name(b"vox%d" % at))),
                EMPTY]
            for other in others:
                changed_copy = changed(one, at * RECORD_SIZE, other)
                probes.add(leb_size, one, changed_copy, "taken 0 mark 2")
                if at == count - 1:
                    probes.add(leb_size, changed_copy, one, "taken 0 mark 2")
            # The same with a wrong CRC in it is not good, so mark 1.
            spoilt = changed(one, at * RECORD_SIZE + 171, [raw[171] ^ 1])
            probes.add(leb_size, one, spoilt, "taken 0 mark 1")
            probes.add(leb_size, spoilt, one, "taken 1 mark 1")
            probes.add(leb_size, spoilt, spoilt, "taken 2 mark 1")
            probes.add(leb_size, spoilt, ABSENT, "taken 2 mark 1")
        # Records in another order are another table.
        turned = probes.copy(leb_size, records[::-1])
        probes.add(leb_size, one, turned, "taken 0 mark 2"
                   if count > 1 else "taken 0 mark 0")
    for filler in (0x00, 0xFF):
        blank = bytes([filler]) * 344
        probes.add(344, blank, blank, "taken 2 mark 1")
        probes.add(344, blank, probes.copy(344, []), "taken 1 mark 1")
        probes.add(344, probes.copy(344, []), blank, "taken 0 mark 1")


def add_record_counts(probes):
    """How many records a LEB holds: one byte decides."""
    spoilt = b"\xff" * RECORD_SIZE
    for count in (1, 2, 3, 4, 5):
        good = b"".join(ubi.record_bytes(one)
                        for one in volumes(172 * count, count))
        for beside, want in ((0, "taken 0 mark 1"),
                             (171, "taken 0 mark 1"),
                             (172, "taken 2 mark 1"),
                             (173, "taken 2 mark 1")):
            leb_size = 172 * count + beside
            copy = (good + spoilt)[:leb_size]
            probes.add(leb_size, copy, ABSENT, want)
    # A LEB below 172 bytes holds none: no copy of it is good.
    for leb_size in (0, 1, 100, 171):
        mapped = probes.chance.bytes(max(leb_size, 1))
        for peb_count in (0, 2, 16):
            probes.add(leb_size, mapped, mapped,
                       "taken 2 mark 1 records 0", 1, peb_count)
        probes.add(leb_size, mapped, b"\xff" * 171,
                   "taken 2 mark 1 records 0")
        probes.add(leb_size, mapped, ABSENT, "taken 2 mark 1 records 0")
        probes.add(leb_size, ABSENT, mapped, "taken 2 mark 1 records 0")
        probes.add(leb_size, ABSENT, ABSENT, "taken 2 mark 1 records 0")
    # A copy may be longer than its LEB; the LEB size decides.
    two = probes.copy(344, volumes(344, 2, alignment=1))
    probes.add(172, two[:172] + spoilt, two, "taken 0 mark 0 records 172")
    probes.add(344, two[:172] + spoilt, two, "taken 1 mark 1 records 344")
    # The greatest LEB sizes want 128 records.
    for leb_size in (0x7FFFFFFF, 0x80000000, U32):
        probes.add(leb_size, two, two, "taken 2 mark 1")


def add_full_tables(probes):
    """128 records: long cases, and therefore few."""
    full = volumes(22016, 128)

    def part(records):
        return b"".join(ubi.record_bytes(one) for one in records)

    def replaced(at, **change):
        return full[:at] + [full[at]._replace(**change)] + full[at + 1:]

    good = part(full)
    empty = EMPTY * 128
    probes.add(22016, good, good, "taken 0 mark 0 records 22016",
               peb_count=130)
    probes.add(22016, good, ABSENT, "taken 2 mark 1", peb_count=129)
    # 127 records: the last is beyond them. 129 fit: one more is no table.
    spoilt = good[:-1] + bytes([good[-1] ^ 1])
    probes.add(22015, spoilt, ABSENT, "taken 0 mark 1 records 21844",
               peb_count=130)
    probes.add(22016, spoilt, ABSENT, "taken 2 mark 1", peb_count=130)
    probes.add(22188, good + b"\xff" * 172, good + bytes(172),
               "taken 0 mark 0 records 22016", peb_count=130)
    probes.add(129024, empty[:-1], empty, "taken 1 mark 1 records 22016")
    # Equal names, two that autoresize, and sums, at the table's ends.
    probes.add(22016, part(replaced(127, name=full[0].name,
                                    name_length=full[0].name_length)),
               good, "taken 1 mark 1", peb_count=130)
    probes.add(22016, part(replaced(127, name=full[126].name,
                                    name_length=full[126].name_length)),
               ABSENT, "taken 2 mark 1", peb_count=130)
    ends = replaced(127, flags=1)
    probes.add(22016, part(ends), ABSENT, "taken 0 mark 1", peb_count=130)
    probes.add(22016, part([ends[0]._replace(flags=3)] + ends[1:]), ABSENT,
               "taken 2 mark 1", peb_count=130)
    probes.add(22016, part(volumes(22016, 128, reserved=0x02000000)),
               ABSENT, "taken 2 mark 1", peb_count=130)
    probes.add(22016, part(volumes(22016, 128, reserved=U32)),
               ABSENT, "taken 2 mark 1", peb_count=U32)
    probes.add(22100, good + bytes(84), part(replaced(127, flags=1))
               + bytes(84), "taken 0 mark 2 records 22016", peb_count=131)


def add_random_tables(probes):
    chance = probes.chance
    for _ in range(200):
        leb_size = chance.between(172, 800)
        unit = chance.pick([1, 1, 2, 8, 64])
        count = ubi.record_count(leb_size)
        broken = broken_records(leb_size, unit)

        def any_record(at):
            lot = chance.below(40)
            if lot == 0:
                return chance.pick(broken)
            if lot < 12:
                return EMPTY
            name = chance.pick([b"a", b"ab", b"abc", b"b", b"log", b"root",
                                b"vol%d" % at, b"vol%d" % at, b"vol%d" % at])
            record = volume(
                leb_size, name, reserved=chance.between(1, 8),
                alignment=chance.pick([1, unit, 2 * unit]),
                type=chance.pick([1, 2]), update_marker=chance.below(2),
                flags=chance.pick([0, 0, 0, 1, 2, 2, 3]))
            if chance.below(4) == 0:
                record = record._replace(
                    name=whole_name(name, chance.bytes(12)))
            return ubi.record_bytes(record)

        copy_0 = probes.copy(leb_size, [any_record(at)
                                        for at in range(count)])
        lot = chance.below(8)
        if lot == 0:
            copy_1 = ABSENT
        elif lot < 3:
            copy_1 = copy_0
        elif lot < 6:
            at = chance.below(count)
            copy_1 = changed(copy_0, at * RECORD_SIZE, any_record(at))
        else:
            copy_1 = probes.copy(leb_size, [any_record(at)
                                            for at in range(count)])
        if chance.below(10) == 0:
            copy_0 = ABSENT
        probes.add(leb_size, copy_0, copy_1, None, unit,
                   chance.pick([8, 12, 16, 20, 40]))
