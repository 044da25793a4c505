"""Production images from a volume list: change request 2026-01.

Like `ubi.py` it is written from the documents alone: 01, and of 02 the one
request, quoted as 2026-01. Images are bytes: a call gives the image after it
and never changes the one it was given. "Decided" marks a reading of a point
that the request leaves open.
"""

from collections import namedtuple

import attach
import ubi
from ubi import Refused, number_at

# "both after 1 to 4", and all with place 0.
VOLUME_FIELDS_NOT_GOOD = 20
LENGTHS_NOT_FIT = 21

BUILT = "built"

# The field of one volume: "tag 16, volume 0 first: reserved 4 bytes,
# alignment 4, type 1, flags 1, name".
VOLUME_TAG = 16
FIELD_NAME_AT = 10
MIN_FIELD = FIELD_NAME_AT + 1
MAX_FIELD = FIELD_NAME_AT + ubi.NAME_SIZE - 1

# What stands in one PEB beside its EC header.
Filled = namedtuple("Filled", "vid data")


# ------------------------------------------------------------------- the call

def build(slip, image_sequence, lengths, content, image):
    """The answer, as a test program prints it, and the image after."""
    try:
        return BUILT, built(slip, image_sequence, lengths, content, len(image))
    except Refused as refused:
        # "A refusal leaves the image as it came."
        return attach.refusal_line(refused), bytes(image)


def built(slip, image_sequence, lengths, content, size):
    """Refusals 1, 2, 3, 20 and 21 in this order, or an image of that size.

    No report is lent, so 4 is never given.
    """
    numbers, fields = read_slip(slip)
    geometry = ubi.geometry_of(*numbers)
    peb_count = attach.count_pebs(bytes(size), geometry.peb_size)
    records = records_of(fields, geometry.leb_size)
    table = table_of(records, geometry, peb_count)
    refuse_lengths(lengths, len(content), records, geometry.leb_size)

    filled = layout_blocks(table)
    at = 0
    for volume, (record, length) in enumerate(zip(records, lengths)):
        filled += volume_blocks(volume, record, content[at:at + length],
                                geometry.leb_size)
        at += length
    return image_of(filled, geometry, peb_count, image_sequence)


# ------------------------------------------------------------------- the slip

def read_slip(slip):
    """Three numbers and the volume fields' values, not yet judged; or 1.

    The head is 01's; then volume fields, "1 takes any length that the slip
    holds", then tag 0 with length 0. Decided: there may be no volume field.
    """
    fields, rest = [], slip
    while not fields or fields[-1][0] != 0:
        if len(rest) < 3:
            raise Refused(ubi.SLIP_MALFORMED)
        end = 3 + number_at(rest, 1, 2)
        if len(rest) < end:
            raise Refused(ubi.SLIP_MALFORMED)
        fields.append((rest[0], rest[3:end]))
        rest = rest[end:]
    head, volumes, last = fields[:3], fields[3:-1], fields[-1]
    form = [(tag, len(value)) for tag, value in head + [last]]
    if (form != list(ubi.SLIP_FIELDS) or rest
            or any(tag != VOLUME_TAG for tag, _ in volumes)):
        raise Refused(ubi.SLIP_MALFORMED)
    return ([number_at(value, 0, len(value)) for _, value in head],
            [value for _, value in volumes])


def plain_slip(slip):
    """The slip to attach under: the volume fields left out."""
    return slip[:17] + bytes(3)


def volume_field(reserved, alignment=1, kind=ubi.DYNAMIC, flags=0,
                 name=b"log"):
    """The value of a volume field; the name may be of any length."""
    return (reserved.to_bytes(4, "big") + alignment.to_bytes(4, "big")
            + bytes([kind, flags]) + name)


def slip_with(slip, values):
    """A slip of 20 bytes with these volume fields put in."""
    fields = [bytes([VOLUME_TAG]) + len(value).to_bytes(2, "big") + value
              for value in values]
    return slip[:17] + b"".join(fields) + slip[17:]


# ----------------------------------------------------------- table and lengths

def records_of(fields, leb_size):
    """A record for each volume field, or 20."""
    return [record_of(field, leb_size) for field in fields]


def record_of(field, leb_size):
    if not MIN_FIELD <= len(field) <= MAX_FIELD:
        raise Refused(VOLUME_FIELDS_NOT_GOOD)
    name = bytes(field[FIELD_NAME_AT:])
    alignment = number_at(field, 4, 4)
    # Of alignment 0 there is no modulo; 01 wants 1 at least.
    if alignment == 0:
        raise Refused(VOLUME_FIELDS_NOT_GOOD)
    # Decided: the update marker is 0.
    return ubi.VolumeRecord(
        reserved=number_at(field, 0, 4), alignment=alignment,
        data_pad=leb_size % alignment, type=field[8], update_marker=0,
        name_length=len(name), flags=field[9],
        name=name + bytes(ubi.NAME_SIZE - len(name)))


def table_of(records, geometry, peb_count):
    """The bytes of all records, empty ones behind the volumes'; or 20."""
    count = ubi.record_count(geometry.leb_size)
    if len(records) > count:
        raise Refused(VOLUME_FIELDS_NOT_GOOD)
    raws = [ubi.record_bytes(record) for record in records]
    raws += [ubi.empty_record_bytes()] * (count - len(records))
    table = b"".join(raws)
    if ubi.read_table(table, geometry.leb_size, geometry.unit,
                      peb_count) is None:
        raise Refused(VOLUME_FIELDS_NOT_GOOD)
    return table


def room_of(record, leb_size):
    """What one LEB of the volume holds."""
    return leb_size - record.data_pad


def refuse_lengths(lengths, size, records, leb_size):
    """21. Python's numbers do not wrap."""
    refusal = Refused(LENGTHS_NOT_FIT)
    if len(lengths) != len(records) or sum(lengths) != size:
        raise refusal
    for length, record in zip(lengths, records):
        if length > record.reserved * room_of(record, leb_size):
            raise refusal


# ------------------------------------------------------------------ the blocks

def layout_blocks(table):
    """Layout LEBs 0 and 1 "with equal tables".

    Their headers' sequences, as all, are set where the image is put
    together.
    """
    vid = ubi.VidHeader(
        version=1, type=ubi.DYNAMIC, copy_flag=0, compatibility=ubi.REJECT,
        volume=ubi.LAYOUT_VOLUME, leb=0, data_size=0, used_lebs=0,
        data_pad=0, data_crc=0, sequence=0)
    return [Filled(vid._replace(leb=leb), table) for leb in (0, 1)]


def volume_blocks(volume, record, content, leb_size):
    """Its LEBs "in order as far as its content goes".

    Decided: a LEB whose bytes are all 0xFF is built like any other; used
    LEBs is the number of those built; of no content there is none, static
    or not.
    """
    room = room_of(record, leb_size)
    pieces = [content[at:at + room] for at in range(0, len(content), room)]
    filled = []
    for leb, piece in enumerate(pieces):
        vid = ubi.VidHeader(
            version=1, type=record.type, copy_flag=0, compatibility=0,
            volume=volume, leb=leb, data_size=0, used_lebs=0,
            data_pad=record.data_pad, data_crc=0, sequence=0)
        if record.type == ubi.STATIC:
            vid = vid._replace(data_size=len(piece), used_lebs=len(pieces),
                               data_crc=ubi.jamcrc(piece))
        filled.append(Filled(vid, piece))
    return filled


def image_of(filled, geometry, peb_count, image_sequence):
    """From PEB 0 up, sequences from 1; "then EC headers alone"."""
    ec = ubi.ec_header_bytes(ubi.EcHeader(
        version=1, counter=0, vid_start=geometry.vid_start,
        data_start=geometry.data_start, image_sequence=image_sequence))
    image = bytearray(b"\xff" * (peb_count * geometry.peb_size))
    for peb in range(peb_count):
        put(image, peb * geometry.peb_size, ec)
    for peb, (vid, data) in enumerate(filled):
        vid = vid._replace(sequence=peb + 1)
        at = peb * geometry.peb_size
        put(image, at + geometry.vid_start, ubi.vid_header_bytes(vid))
        put(image, at + geometry.data_start, data)
    return bytes(image)


def put(image, at, data):
    image[at:at + len(data)] = data


# --------------------------------------------------- what the request promises

def check_promises(slip, image_sequence, lengths, content, image):
    """The request's claim, of an image that was built.

    "The filled image attaches with grade 0, and each volume's content,
    padded with 0xFF where dynamic, is what was given." And with that: the
    map is the LEBs built and no others, every record says what its field
    says, and behind what is read all is 0xFF.
    """
    numbers, fields = read_slip(slip)
    geometry = ubi.geometry_of(*numbers)
    peb_count = len(image) // geometry.peb_size
    lent = attach.Lent([0] * 2 * peb_count, [0] * 3 * peb_count, [0] * 128)
    report = attach.attach(plain_slip(slip), image, lent)
    pebs = attach.read_pebs(image, geometry)
    records = ubi.read_table(pebs[0].data, geometry.leb_size, geometry.unit,
                             peb_count)

    given, at, entries = [], 0, []
    for volume, (field, length) in enumerate(zip(fields, lengths)):
        given.append(content[at:at + length])
        at += length
        check_record(field, records[volume])
        room = room_of(records[volume], geometry.leb_size)
        entries += [(volume, leb) for leb in range(-(-length // room))]
    assert at == len(content) and len(given) == len(fields) == len(lengths)
    assert not any(records[len(fields):])

    places = {(volume, leb): 2 + number
              for number, (volume, leb) in enumerate(entries)}
    places.update({(ubi.LAYOUT_VOLUME, leb): leb for leb in (0, 1)})
    check_report(report, places, len(fields), peb_count)
    for volume, record in enumerate(records[:len(fields)]):
        check_content(volume, record, given[volume], pebs, places, geometry)
    check_blocks(image, pebs, len(places), geometry, image_sequence)


def check_record(field, record):
    """The field's bytes again, and nothing that it does not say."""
    assert field == volume_field(
        record.reserved, record.alignment, record.type, record.flags,
        ubi.record_name(record))
    assert record.update_marker == 0
    assert not any(record.name[record.name_length:])


def check_report(report, places, volumes, peb_count):
    assert report.grade == 0 and report.copies_mark == ubi.COPIES_EQUAL
    assert report.table_taken == 0 and report.read_only == 0
    assert [tuple(entry) for entry in report.entries] == sorted(
        key + (peb,) for key, peb in places.items())
    assert report.highest == report.entry_count == len(places)
    assert report.mean == 0 and report.counters == [0] * peb_count
    assert report.classes == [attach.CHOSEN] * len(places) + [
        attach.FREE] * (peb_count - len(places))
    assert report.states == [attach.FINE] * volumes + [
        attach.NO_RECORD] * (ubi.USER_VOLUMES - volumes)


def check_content(volume, record, given, pebs, places, geometry):
    """The volume read LEB by LEB, as a reader that knows the map alone."""
    room = room_of(record, geometry.leb_size)
    found = b""
    for leb in range(record.reserved):
        if (volume, leb) not in places:
            found += b"" if record.type == ubi.STATIC else b"\xff" * room
            continue
        peb = pebs[places[volume, leb]]
        static = record.type == ubi.STATIC
        found += peb.data[:peb.vid.data_size if static else room]
    if record.type == ubi.DYNAMIC:
        given += b"\xff" * (record.reserved * room - len(given))
    assert found == given


def check_blocks(image, pebs, filled, geometry, image_sequence):
    """Sequences, and 0xFF wherever no header, table or content stands."""
    for peb in pebs:
        assert peb.ec.image_sequence == image_sequence
        block = image[peb.number * geometry.peb_size:][:geometry.peb_size]
        if peb.number >= filled:
            assert attach.is_erased(block[ubi.HEADER_SIZE:])
            continue
        assert peb.vid.sequence == peb.number + 1 and peb.vid.copy_flag == 0
        assert attach.is_erased(block[ubi.HEADER_SIZE:geometry.vid_start])
        end = geometry.vid_start + ubi.HEADER_SIZE
        assert attach.is_erased(block[end:geometry.data_start])
        size = geometry.leb_size - peb.vid.data_pad
        if peb.vid.volume == ubi.LAYOUT_VOLUME:
            size = ubi.record_count(geometry.leb_size) * ubi.RECORD_SIZE
        elif peb.vid.type == ubi.STATIC:
            size = peb.vid.data_size
        assert attach.is_erased(peb.data[size:])


# --------------------------------------------------------------- self test

def self_test():
    """01's bench image from its volume list, the limits that no test program
    is given, and the promises on both."""
    slip, bench = attach.bench_input()
    given = slip_with(slip, [volume_field(1)]), 0, [3], b"abc"
    answer, image = build(*(given + (b"\xa5" * 4096,)))
    assert answer == BUILT
    check_promises(*(given + (image,)))
    for peb, counter in enumerate((3, 5, 9, 4)):
        ec = ubi.ec_header_bytes(ubi.EcHeader(1, counter, 64, 128, 0))
        image = image[:peb * 1024] + ec + image[peb * 1024 + 64:]
    assert image == bench

    # 128 volumes, and one more than there are records.
    head = bytes([1, 0, 4, 0, 0, 0x56, 0x80, 2, 0, 2, 0, 1, 3, 0, 2, 0, 1,
                  0, 0, 0])
    names = [b"%d" % number for number in range(129)]
    for volumes, pebs, wanted in ((128, 130, BUILT),
                                  (128, 129, "refused 20 at 0"),
                                  (129, 131, "refused 20 at 0")):
        values = [volume_field(1, name=name, kind=1 + at % 2)
                  for at, name in enumerate(names[:volumes])]
        given = slip_with(head, values), 5, [1] * volumes, bytes(volumes)
        answer, image = build(*(given + (bytes(pebs * 0x5680),)))
        assert answer == wanted
        if answer == BUILT:
            check_promises(*(given + (image,)))

    # 4,096 PEBs, and one more.
    for pebs, wanted in ((4096, BUILT), (4097, "refused 3 at 0")):
        given = slip_with(slip, [volume_field(4094)]), 0, [3], b"abc"
        answer, image = build(*(given + (bytes(pebs * 1024),)))
        assert answer == wanted
        assert (image == bytes(pebs * 1024)) == (answer != BUILT)
        if answer == BUILT:
            check_promises(*(given + (image,)))


if __name__ == "__main__":
    self_test()
    print("builder: self test passed")
