"""A second reading of the rules document (01), in plain Python.

It exists to disagree: it is written from 01 alone and never from the
program it checks, so an error would have to be made twice to go unseen.
Clear code is wanted here, fast code is not. The headings in quotes are
01's own.
"""

import zlib
from collections import namedtuple


class Refused(Exception):
    """A refusal of 01: its number, and its place where it has one (else 0)."""

    def __init__(self, number, place=0):
        Exception.__init__(self, "refused %d at %d" % (number, place))
        self.number = number
        self.place = place


# 'Refusal numbers, in order of checking'
SLIP_MALFORMED = 1
GEOMETRY_OUTSIDE_RULES = 2
LENT_TOO_SHORT = 4
WRITER_WOULD_NOT_READ_BACK = 19


def number_at(data, offset, width):
    """Numbers on flash and in the slip are big-endian."""
    return int.from_bytes(data[offset:offset + width], "big")


def put_number(data, offset, width, value):
    data[offset:offset + width] = value.to_bytes(width, "big")


# ---------------------------------------------------------------- checksum
# 01, opening: CRC-32 of IEEE 802.3, reflected, started at 0xFFFFFFFF and
# without the final complement (CRC-32/JAMCRC).

JAMCRC_CHECK = 0x340BC6D9  # published: the CRC of the digits 123456789


def jamcrc(data):
    # zlib does complement at the end; complementing again takes that back.
    return zlib.crc32(bytes(data)) ^ 0xFFFFFFFF


def jamcrc_bitwise(data):
    """The same, one bit at a time, only to check the use of zlib above."""
    crc = 0xFFFFFFFF
    for byte in data:
        crc ^= byte
        for _ in range(8):
            if crc & 1:
                crc = (crc >> 1) ^ 0xEDB88320
            else:
                crc = crc >> 1
    return crc


# ------------------------------------------------- slip and geometry
# 'The slip and the geometry'

Geometry = namedtuple(
    "Geometry", "peb_size unit sub_unit vid_start data_start leb_size")

# Tag and length of each field, in the only order there may be.
SLIP_FIELDS = ((1, 4), (2, 2), (3, 2), (0, 0))

MIN_PEB_SIZE = 1024
MAX_PEB_SIZE = 262144
HEADER_SIZE = 64
RECORD_SIZE = 172


def read_slip(slip):
    """PEB size, unit and sub-unit as the slip says them, not yet judged."""
    values = []
    at = 0
    for tag, length in SLIP_FIELDS:
        if len(slip) < at + 3 + length:
            raise Refused(SLIP_MALFORMED)
        if slip[at] != tag or number_at(slip, at + 1, 2) != length:
            raise Refused(SLIP_MALFORMED)
        values.append(number_at(slip, at + 3, length))
        at += 3 + length
    # The slip is exactly its fields: nothing may follow the last one.
    if at != len(slip):
        raise Refused(SLIP_MALFORMED)
    peb_size, unit, sub_unit, _ = values
    return peb_size, unit, sub_unit


def is_unit(value):
    """A power of two, 1 to 4,096."""
    return value in [2 ** exponent for exponent in range(12 + 1)]


def smallest_multiple(step, least):
    """The smallest multiple of step that is at least `least`."""
    return (least + step - 1) // step * step


def geometry_of(peb_size, unit, sub_unit):
    """The whole geometry, or refusal 2.

    Apart from the slip because a mover's plan carries these three numbers
    and is judged by the same rules.
    """
    refusal = Refused(GEOMETRY_OUTSIDE_RULES)
    if not is_unit(unit) or not is_unit(sub_unit) or sub_unit > unit:
        raise refusal
    if not MIN_PEB_SIZE <= peb_size <= MAX_PEB_SIZE or peb_size % unit != 0:
        raise refusal
    vid_start = smallest_multiple(sub_unit, HEADER_SIZE)
    data_start = smallest_multiple(unit, vid_start + HEADER_SIZE)
    # May be below zero; Python's numbers do not wrap, so one test will do.
    leb_size = peb_size - data_start
    if leb_size < RECORD_SIZE:
        raise refusal
    return Geometry(peb_size, unit, sub_unit, vid_start, data_start, leb_size)


def geometry_from_slip(slip):
    return geometry_of(*read_slip(slip))


# ----------------------------------------------------------- header bytes
# 'Header bytes': one table of offsets and widths serves reader and writer.

EC_MAGIC = b"UBI#"
VID_MAGIC = b"UBI!"
HEADER_CRC_AT = 60

EC_FIELDS = (
    ("version", 4, 1),
    ("counter", 8, 8),
    ("vid_start", 16, 4),
    ("data_start", 20, 4),
    ("image_sequence", 24, 4),
)

VID_FIELDS = (
    ("version", 4, 1),
    ("type", 5, 1),
    ("copy_flag", 6, 1),
    ("compatibility", 7, 1),
    ("volume", 8, 4),
    ("leb", 12, 4),
    ("data_size", 20, 4),
    ("used_lebs", 24, 4),
    ("data_pad", 28, 4),
    ("data_crc", 32, 4),
    ("sequence", 40, 8),
)

EcHeader = namedtuple("EcHeader", [name for name, _, _ in EC_FIELDS])
VidHeader = namedtuple("VidHeader", [name for name, _, _ in VID_FIELDS])

# What a reader can say of a header. An EC header that is not good is lost,
# a VID header that is not good is bad: 01's words.
GOOD = "good"
LOST = "lost"
BAD = "bad"
NEWER = "newer"

DYNAMIC = 1
STATIC = 2

MAX_ERASE_COUNTER = 0x7FFFFFFF
MAX_LEB_NUMBER = 0x7FFFFFFF
USER_VOLUMES = 128
LAYOUT_VOLUME = 0x7FFFEFFF
LAST_INTERNAL_VOLUME = 0x7FFFFFFF

# 01, opening: the source document's constants, not its comment, decide.
DELETE, READ_ONLY, PRESERVE, REJECT = 1, 2, 4, 5
INTERNAL_COMPATIBILITIES = (DELETE, READ_ONLY, PRESERVE, REJECT)


def header_bytes(magic, table, fields):
    """64 bytes with the right CRC, whatever the fields say."""
    raw = bytearray(HEADER_SIZE)
    raw[0:4] = magic
    for (_, offset, width), value in zip(table, fields):
        put_number(raw, offset, width, value)
    put_number(raw, HEADER_CRC_AT, 4, jamcrc(raw[:HEADER_CRC_AT]))
    return bytes(raw)


def ec_header_bytes(header):
    return header_bytes(EC_MAGIC, EC_FIELDS, header)


def vid_header_bytes(header):
    return header_bytes(VID_MAGIC, VID_FIELDS, header)


def header_of_slice(lent):
    """The header is the first 64 bytes lent; fewer are refusal 4."""
    if len(lent) < HEADER_SIZE:
        raise Refused(LENT_TOO_SHORT)
    return bytes(lent[:HEADER_SIZE])


def header_fields(raw, magic, table):
    """The fields as numbers, or None if magic or CRC is wrong."""
    if raw[0:4] != magic:
        return None
    if number_at(raw, HEADER_CRC_AT, 4) != jamcrc(raw[:HEADER_CRC_AT]):
        return None
    return [number_at(raw, offset, width) for _, offset, width in table]


def read_ec_header(lent):
    """(good, header), (lost, None) or (newer, None)."""
    fields = header_fields(header_of_slice(lent), EC_MAGIC, EC_FIELDS)
    if fields is None:
        return LOST, None
    header = EcHeader(*fields)
    # Before any other field: a newer version may mean something else by them.
    if header.version > 1:
        return NEWER, None
    if header.version == 0 or header.counter > MAX_ERASE_COUNTER:
        return LOST, None
    return GOOD, header


def read_vid_header(lent, leb_size):
    """(good, header), (bad, None) or (newer, None); any LEB size will do."""
    fields = header_fields(header_of_slice(lent), VID_MAGIC, VID_FIELDS)
    if fields is None:
        return BAD, None
    header = VidHeader(*fields)
    if header.version > 1:
        return NEWER, None
    if header.version == 0 or not vid_rules_hold(header, leb_size):
        return BAD, None
    return GOOD, header


def is_user_volume(volume):
    return volume < USER_VOLUMES


def is_internal_volume(volume):
    return LAYOUT_VOLUME <= volume <= LAST_INTERNAL_VOLUME


def vid_rules_hold(header, leb_size):
    """The list under 'a VID header is also bad unless all hold'."""
    if header.copy_flag not in (0, 1) or header.type not in (DYNAMIC, STATIC):
        return False
    if is_user_volume(header.volume):
        if header.compatibility != 0:
            return False
    elif is_internal_volume(header.volume):
        if header.compatibility not in INTERNAL_COMPATIBILITIES:
            return False
    else:
        return False
    if header.leb > MAX_LEB_NUMBER or header.used_lebs > MAX_LEB_NUMBER:
        return False

    # Twice the pad may not fit 32 bits; here it need not.
    if 2 * header.data_pad >= leb_size:
        return False
    room = leb_size - header.data_pad
    if header.data_size > room:
        return False

    if header.type == STATIC:
        if header.leb >= header.used_lebs or header.data_size == 0:
            return False
        is_last_used = header.leb + 1 == header.used_lebs
        if header.data_size != room and not is_last_used:
            return False
    else:
        if header.used_lebs != 0:
            return False
        if header.copy_flag == 0:
            if header.data_size != 0 or header.data_crc != 0:
                return False
        elif header.data_size == 0:
            return False

    if header.volume == LAYOUT_VOLUME:
        if header.type != DYNAMIC or header.compatibility != REJECT:
            return False
        if header.data_pad != 0 or header.leb not in (0, 1):
            return False
    return True


def store_header(raw, verdict, out):
    """Put a header the reader would call good into the lent buffer.

    4 is judged before 19, and a refusal changes nothing.
    """
    if len(out) < HEADER_SIZE:
        raise Refused(LENT_TOO_SHORT)
    if verdict != GOOD:
        raise Refused(WRITER_WOULD_NOT_READ_BACK)
    out[:HEADER_SIZE] = raw


def write_ec_header(header, out):
    raw = ec_header_bytes(header)
    verdict, _ = read_ec_header(raw)
    store_header(raw, verdict, out)


def write_vid_header(header, leb_size, out):
    raw = vid_header_bytes(header)
    verdict, _ = read_vid_header(raw, leb_size)
    store_header(raw, verdict, out)


# ----------------------------------------------------------- volume table
# 'The volume table'

RECORD_FIELDS = (
    ("reserved", 0, 4),
    ("alignment", 4, 4),
    ("data_pad", 8, 4),
    ("type", 12, 1),
    ("update_marker", 13, 1),
    ("name_length", 14, 2),
    ("flags", 144, 1),
)
NAME_AT = 16
NAME_SIZE = 128
RECORD_PADDING_AT = 145
RECORD_CRC_AT = 168

MAX_RECORDS = 128
AUTORESIZE = 1
SKIP_CRC = 2

# What a reader can say of a record, beside good and bad.
EMPTY = "empty"

VolumeRecord = namedtuple(
    "VolumeRecord", [name for name, _, _ in RECORD_FIELDS] + ["name"])


def record_name(record):
    """The name proper; what stands behind its zero is no part of it."""
    return record.name[:record.name_length]


def record_bytes(record, padding=bytes(RECORD_CRC_AT - RECORD_PADDING_AT)):
    """172 bytes with the right CRC, whatever the record says."""
    raw = bytearray(RECORD_SIZE)
    for (_, offset, width), value in zip(RECORD_FIELDS, record):
        put_number(raw, offset, width, value)
    raw[NAME_AT:NAME_AT + NAME_SIZE] = record.name
    raw[RECORD_PADDING_AT:RECORD_CRC_AT] = padding
    put_number(raw, RECORD_CRC_AT, 4, jamcrc(raw[:RECORD_CRC_AT]))
    return bytes(raw)


def write_record(record, out):
    """The first 172 bytes; what the record says is not judged."""
    if len(out) < RECORD_SIZE:
        raise Refused(4)
    out[:RECORD_SIZE] = record_bytes(record)


def empty_record_bytes():
    zeroes = bytes(RECORD_CRC_AT)
    return zeroes + jamcrc(zeroes).to_bytes(4, "big")


def read_record(lent, leb_size, unit):
    """(good, record), (empty, None) or (bad, None)."""
    if len(lent) < RECORD_SIZE:
        raise Refused(LENT_TOO_SHORT)
    raw = bytes(lent[:RECORD_SIZE])
    if raw == empty_record_bytes():
        return EMPTY, None
    if number_at(raw, RECORD_CRC_AT, 4) != jamcrc(raw[:RECORD_CRC_AT]):
        return BAD, None
    fields = [number_at(raw, offset, width)
              for _, offset, width in RECORD_FIELDS]
    record = VolumeRecord(*(fields + [raw[NAME_AT:NAME_AT + NAME_SIZE]]))
    if not record_rules_hold(record, leb_size, unit):
        return BAD, None
    return GOOD, record


def is_multiple(value, step):
    """Of 0 only 0 is a multiple."""
    if step == 0:
        return value == 0
    return value % step == 0


def record_rules_hold(record, leb_size, unit):
    """'Any other is good if ...', but for the CRC."""
    if record.reserved == 0:
        return False
    if not 1 <= record.alignment <= leb_size:
        return False
    if record.alignment != 1 and not is_multiple(record.alignment, unit):
        return False
    if record.data_pad != leb_size % record.alignment:
        return False
    if record.type not in (DYNAMIC, STATIC):
        return False
    if record.update_marker not in (0, 1):
        return False
    # At most 127, so the zero after the name lies within its 128 bytes.
    if not 1 <= record.name_length <= NAME_SIZE - 1:
        return False
    if 0 in record_name(record) or record.name[record.name_length] != 0:
        return False
    if record.flags & ~(AUTORESIZE | SKIP_CRC):
        return False
    return True


def record_count(leb_size):
    """As many as fit a LEB, at most 128."""
    return min(leb_size // RECORD_SIZE, MAX_RECORDS)


def records_part(copy, leb_size):
    """The records of a layout LEB; what stands behind them is no table."""
    return bytes(copy[:record_count(leb_size) * RECORD_SIZE])


def read_table(copy, leb_size, unit, peb_count):
    """A layout LEB's records, None for each empty one; or None, not good.

    A copy is None if its LEB is not mapped.
    """
    if copy is None:
        return None
    # Decided: a LEB that holds no record has no good table.
    if record_count(leb_size) == 0:
        return None
    part = records_part(copy, leb_size)
    if len(part) < record_count(leb_size) * RECORD_SIZE:
        return None

    records = []
    for at in range(0, len(part), RECORD_SIZE):
        verdict, record = read_record(part[at:], leb_size, unit)
        if verdict == BAD:
            return None
        records.append(record)

    volumes = [record for record in records if record is not None]
    names = [record_name(record) for record in volumes]
    if len(set(names)) != len(names):
        return None
    if len([1 for record in volumes if record.flags & AUTORESIZE]) > 1:
        return None
    # Two PEBs are the layout volume's own.
    if sum(record.reserved for record in volumes) > max(peb_count - 2, 0):
        return None
    return records


# Which copy was taken (0, 1, or None if neither is good), the copies mark,
# the bytes of the taken copy's records, and the records themselves.
VolumeTable = namedtuple("VolumeTable", "taken mark part records")

COPIES_EQUAL = 0
COPY_MISSING = 1
COPIES_UNEQUAL = 2


def take_table(copies, leb_size, unit, peb_count):
    """Judge both layout LEBs, LEB 0's first."""
    tables = [read_table(copy, leb_size, unit, peb_count) for copy in copies]
    good = [number for number in (0, 1) if tables[number] is not None]
    if len(good) < 2:
        mark = COPY_MISSING
    elif records_part(copies[0], leb_size) == records_part(copies[1], leb_size):
        mark = COPIES_EQUAL
    else:
        mark = COPIES_UNEQUAL
    if not good:
        return VolumeTable(None, mark, b"", [])
    taken = good[0]
    return VolumeTable(
        taken, mark, records_part(copies[taken], leb_size), tables[taken])


# --------------------------------------------------------------- self test

def self_test():
    """The published CRC value and 01's 'Bench values' for the above."""
    assert jamcrc(b"123456789") == JAMCRC_CHECK
    strings = [b"", b"\x00", b"\xff" * 5, b"123456789", bytes(168),
               bytes(range(256)), bytes(range(255, -1, -1)) * 3]
    for string in strings:
        assert jamcrc(string) == jamcrc_bitwise(string)

    for peb_size, unit, sub_unit, starts in (
            (1024, 1, 1, (64, 128)),
            (131072, 2048, 512, (512, 2048)),
            (131072, 2048, 2048, (2048, 4096)),
            (16384, 128, 32, (64, 128))):
        geometry = geometry_of(peb_size, unit, sub_unit)
        assert (geometry.vid_start, geometry.data_start) == starts
    try:
        geometry_of(16384, 32, 64)
        raise AssertionError("sub-unit 64 over unit 32 was not refused")
    except Refused as refused:
        assert refused.number == GEOMETRY_OUTSIDE_RULES

    assert [record_count(size) for size in (896, 172, 129024)] == [5, 1, 128]

    counter_read = EcHeader(1, 0x7FFFFFFF, 64, 128, 0)
    counter_lost = counter_read._replace(counter=0x80000000)
    assert read_ec_header(ec_header_bytes(counter_read))[0] == GOOD
    assert read_ec_header(ec_header_bytes(counter_lost))[0] == LOST

    # Each table of fields fits its bytes without overlap.
    for table, fixed, size in (
            (EC_FIELDS, [(0, 4), (HEADER_CRC_AT, 4)], HEADER_SIZE),
            (VID_FIELDS, [(0, 4), (HEADER_CRC_AT, 4)], HEADER_SIZE),
            (RECORD_FIELDS, [(NAME_AT, NAME_SIZE), (RECORD_CRC_AT, 4)],
             RECORD_SIZE)):
        places = sorted(fixed + [(at, width) for _, at, width in table])
        end = 0
        for at, width in places:
            assert at >= end
            end = at + width
        assert end <= size


if __name__ == "__main__":
    self_test()
    print("ubi: self test passed")
