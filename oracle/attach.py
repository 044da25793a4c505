"""Attaching: from slip and image to the report, a second reading of 01.

Like `ubi.py` it is written from the documents alone: 01, and of 02 the
request 2026-02. `attach` is the whole call, with what it leaves in the lent
tables; the steps behind it stand in 01's order of checking. The headings in
quotes are 01's own; "decided" marks a reading of a point that both leave
open.
"""

from collections import namedtuple

import ubi
from ubi import Refused

# 'Refusal numbers, in order of checking'; 1, 2 and 4 are named in ubi.
IMAGE_NOT_WHOLE_PEBS = 3
HEADER_VERSION_ABOVE_1 = 5
OTHER_STARTS = 6
OTHER_IMAGE_SEQUENCE = 7
UNKNOWN_VOLUME = 8
SEQUENCE_SHARED = 9
ALL_FREE_OR_BLANK = 10
NO_GOOD_TABLE = 11
ENTRY_AGAINST_RECORD = 12

MIN_PEB_COUNT = 2
MAX_PEB_COUNT = 4096

# 'The report': the classes, the volume states, and the word that stands for
# a lost counter and for unused map entries.
FREE, CHOSEN, PASSED_OVER, BLANK, UNREADABLE, TO_DELETE, KEPT_ASIDE = range(7)
NO_RECORD, FINE, UPDATING, DAMAGED = range(4)
NONE = 0xFFFFFFFF

# The lent tables: lists of u32 words.
Lent = namedtuple("Lent", "pebs map states")

# A PEB as its headers show it. `ec` is None if lost and `vid` None if bad;
# `data` is the whole LEB.
Peb = namedtuple("Peb", "number ec ec_erased vid vid_erased data")

# A map entry before it is written as three words.
Entry = namedtuple("Entry", "volume leb peb")

Report = namedtuple(
    "Report", "peb_count entry_count mean highest read_only table_taken "
              "copies_mark grade classes counters entries states")


# ------------------------------------------------------------------- the call

def attach(slip, image, lent):
    """The report, written to the lent tables too; or a refusal."""
    geometry = ubi.geometry_from_slip(slip)
    peb_count = count_pebs(image, geometry.peb_size)
    needed = Lent(2 * peb_count, 3 * peb_count, ubi.USER_VOLUMES)
    for table, words in zip(lent, needed):
        if len(table) < words:
            raise Refused(ubi.LENT_TOO_SHORT)
    # Refusals 1 to 4 have changed nothing lent. From here on every needed
    # word is written, 0xFFFFFFFF where there is nothing to say.
    for table, words in zip(lent, needed):
        table[:words] = [NONE] * words
    report = report_of(image, geometry)
    for table, words in zip(lent, report_words(report)):
        table[:len(words)] = words
    return report


def count_pebs(image, peb_size):
    if len(image) % peb_size != 0:
        raise Refused(IMAGE_NOT_WHOLE_PEBS)
    peb_count = len(image) // peb_size
    if not MIN_PEB_COUNT <= peb_count <= MAX_PEB_COUNT:
        raise Refused(IMAGE_NOT_WHOLE_PEBS)
    return peb_count


def report_words(report):
    """The words of the three tables; of the map only the used ones."""
    pebs = []
    for klass, counter in zip(report.classes, report.counters):
        pebs += [klass, counter]
    entries = []
    for entry in report.entries:
        entries += [entry.volume, entry.leb, entry.peb]
    return Lent(pebs, entries, report.states)


def report_of(image, geometry):
    """Refusals 5 to 12 in their order, or the report."""
    pebs = read_pebs(image, geometry)
    refuse_shared_sequences(pebs)
    if all(erased_class(peb) in (FREE, BLANK) for peb in pebs):
        raise Refused(ALL_FREE_OR_BLANK)
    chosen = choose_copies(pebs)
    table = table_of(chosen, pebs, geometry)
    if table.taken is None:
        raise Refused(NO_GOOD_TABLE)
    entries = [entry for entry in chosen if stays_mapped(entry, table.records)]
    refuse_entries_against_records(entries, pebs, table.records)

    classes = [class_of(peb, chosen, entries) for peb in pebs]
    counters = [NONE if peb.ec is None else peb.ec.counter for peb in pebs]
    states = [state_of(volume, entries, pebs, table.records)
              for volume in range(ubi.USER_VOLUMES)]
    return Report(
        peb_count=len(pebs),
        entry_count=len(entries),
        mean=mean_counter(pebs),
        highest=max(peb.vid.sequence for peb in pebs if peb.vid is not None),
        read_only=int(any(has_compatibility(peb, ubi.READ_ONLY)
                          for peb in pebs)),
        table_taken=table.taken,
        copies_mark=table.mark,
        grade=grade_of(classes, counters, table.mark, states),
        classes=classes, counters=counters, entries=entries, states=states)


# ----------------------------------------------------- PEB by PEB: 5 to 8

def read_pebs(image, geometry):
    """Both headers of every PEB, judged in the order 01 gives."""
    pebs = []
    for number in range(len(image) // geometry.peb_size):
        at = number * geometry.peb_size
        block = image[at:at + geometry.peb_size]
        ec_bytes = block[:ubi.HEADER_SIZE]
        vid_bytes = block[geometry.vid_start:][:ubi.HEADER_SIZE]

        verdict, ec = ubi.read_ec_header(ec_bytes)
        if verdict == ubi.NEWER:
            raise Refused(HEADER_VERSION_ABOVE_1, number)
        # A lost EC header takes no part in 6 and 7.
        if verdict == ubi.GOOD:
            if (ec.vid_start != geometry.vid_start
                    or ec.data_start != geometry.data_start):
                raise Refused(OTHER_STARTS, number)
            # Compared with the lower PEBs; if none of them has one, this is
            # the lowest.
            named = image_sequence_of(pebs) if ec.image_sequence else 0
            if named and ec.image_sequence != named:
                raise Refused(OTHER_IMAGE_SEQUENCE, number)

        # Decided: the VID header is judged whatever the EC header is.
        verdict, vid = ubi.read_vid_header(vid_bytes, geometry.leb_size)
        if verdict == ubi.NEWER:
            raise Refused(HEADER_VERSION_ABOVE_1, number)
        peb = Peb(number, ec, is_erased(ec_bytes), vid, is_erased(vid_bytes),
                  block[geometry.data_start:])
        # Decided: 8 needs a good VID header.
        if has_compatibility(peb, ubi.REJECT):
            raise Refused(UNKNOWN_VOLUME, number)
        pebs.append(peb)
    return pebs


def image_sequence_of(pebs):
    """2026-02: "that of the lowest PEB that has one", or zero.

    "A zero says nothing". Decided: nor does a lost EC header; and there may
    be none though EC headers are good.
    """
    for peb in pebs:
        if peb.ec is not None and peb.ec.image_sequence != 0:
            return peb.ec.image_sequence
    return 0


def is_erased(data):
    return data == b"\xff" * len(data)


def is_copy_of_leb(peb):
    """Whether the PEB has a good VID header of a user or layout LEB."""
    return peb.vid is not None and (
        ubi.is_user_volume(peb.vid.volume)
        or peb.vid.volume == ubi.LAYOUT_VOLUME)


def has_compatibility(peb, compatibility):
    """Whether it belongs to another internal volume, of that compatibility."""
    return (peb.vid is not None and not is_copy_of_leb(peb)
            and peb.vid.compatibility == compatibility)


# ------------------------------------------- 'Which copy counts', and 9

def leb_of(peb):
    return peb.vid.volume, peb.vid.leb


def refuse_shared_sequences(pebs):
    """9: the lowest PEB that repeats a lower one.

    Decided: user LEBs that will become class 5 are asked too.
    """
    seen = set()
    for peb in pebs:
        if is_copy_of_leb(peb):
            mark = leb_of(peb), peb.vid.sequence
            if mark in seen:
                raise Refused(SEQUENCE_SHARED, peb.number)
            seen.add(mark)


def data_crc_right(peb):
    return ubi.jamcrc(peb.data[:peb.vid.data_size]) == peb.vid.data_crc


def is_sound(peb):
    return peb.vid.copy_flag == 0 or data_crc_right(peb)


def choose_copy(copies):
    """Of the copies of one LEB the one that counts; sequences differ."""
    sound = [peb for peb in copies if is_sound(peb)]
    if sound:
        return max(sound, key=lambda peb: peb.vid.sequence)
    return min(copies, key=lambda peb: peb.vid.sequence)


def choose_copies(pebs):
    """A map entry for each user and layout LEB, by volume and then LEB."""
    copies = {}
    for peb in pebs:
        if is_copy_of_leb(peb):
            copies.setdefault(leb_of(peb), []).append(peb)
    return [Entry(volume, leb, choose_copy(copies[volume, leb]).number)
            for volume, leb in sorted(copies)]


# --------------------------------- 'The volume table', and what it decides

def table_of(chosen, pebs, geometry):
    """11 is this table taken from neither copy.

    Decided: an unsound chosen copy is read too, and its records whatever
    its data size.
    """
    copies = [None, None]
    for entry in chosen:
        if entry.volume == ubi.LAYOUT_VOLUME:
            copies[entry.leb] = pebs[entry.peb].data
    return ubi.take_table(copies, geometry.leb_size, geometry.unit, len(pebs))


def record_of(volume, records):
    """The volume's record, or None if it is empty or absent."""
    return records[volume] if volume < len(records) else None


def stays_mapped(entry, records):
    if entry.volume == ubi.LAYOUT_VOLUME:
        return True
    record = record_of(entry.volume, records)
    return record is not None and entry.leb < record.reserved


def entries_of(volume, entries):
    return [entry for entry in entries if entry.volume == volume]


def refuse_entries_against_records(entries, pebs, records):
    """12, on the map that class 5 has left (decided), in its order."""
    for entry in entries:
        if entry.volume == ubi.LAYOUT_VOLUME:
            continue
        vid = pebs[entry.peb].vid
        record = record_of(entry.volume, records)
        refusal = Refused(ENTRY_AGAINST_RECORD, entry.peb)
        if vid.type != record.type or vid.data_pad != record.data_pad:
            raise refusal
        if vid.type == ubi.STATIC:
            # Decided: the first entry is the one of the lowest LEB.
            first = entries_of(entry.volume, entries)[0]
            if vid.used_lebs != pebs[first.peb].vid.used_lebs:
                raise refusal
            if vid.used_lebs > record.reserved:
                raise refusal


def state_of(volume, entries, pebs, records):
    record = record_of(volume, records)
    if record is None:
        return NO_RECORD
    if record.update_marker == 1:
        return UPDATING
    mapped = [pebs[entry.peb] for entry in entries_of(volume, entries)]
    if any(not is_sound(peb) for peb in mapped):
        return DAMAGED
    if record.type == ubi.STATIC:
        if mapped:
            lebs = [peb.vid.leb for peb in mapped]
            if any(leb not in lebs for leb in range(mapped[0].vid.used_lebs)):
                return DAMAGED
        if not record.flags & ubi.SKIP_CRC:
            if any(not data_crc_right(peb) for peb in mapped):
                return DAMAGED
    return FINE


# ------------------------------------------------------------ 'The report'

def erased_class(peb):
    """Free, blank or unreadable; None with a good VID header."""
    if peb.vid is not None:
        return None
    if not peb.vid_erased:
        return UNREADABLE
    if peb.ec is not None:
        return FREE
    return BLANK if peb.ec_erased else UNREADABLE


def class_of(peb, chosen, entries):
    if peb.vid is None:
        return erased_class(peb)
    if not is_copy_of_leb(peb):
        return TO_DELETE if peb.vid.compatibility == ubi.DELETE else KEPT_ASIDE
    if peb.number in [entry.peb for entry in entries]:
        return CHOSEN
    # Only the chosen copy becomes class 5; those passed over remain so.
    if peb.number in [entry.peb for entry in chosen]:
        return TO_DELETE
    return PASSED_OVER


def mean_counter(pebs):
    counters = [peb.ec.counter for peb in pebs if peb.ec is not None]
    return sum(counters) // len(counters) if counters else 0


def grade_of(classes, counters, copies_mark, states):
    if UNREADABLE in classes:
        return 1
    if any(counter == NONE and klass != BLANK
           for klass, counter in zip(classes, counters)):
        return 1
    if copies_mark != ubi.COPIES_EQUAL:
        return 1
    if UPDATING in states or DAMAGED in states:
        return 1
    return 0


# ------------------------------------------ lines that test_attach prints too

def first_line(report):
    return ("attached %d entries %d mean %d highest %d readonly %d table %d "
            "copies %d grade %d" % report[:8])


def refusal_line(refused):
    return "refused %d at %d" % (refused.number, refused.place)


# --------------------------------------------------------------- self test

def bench_input():
    """Slip and image of 01's listing, byte by byte as it describes them."""
    slip = bytes([1, 0, 4, 0, 0, 4, 0, 2, 0, 2, 0, 1, 3, 0, 2, 0, 1, 0, 0, 0])
    record = ubi.VolumeRecord(
        reserved=1, alignment=1, data_pad=0, type=ubi.DYNAMIC,
        update_marker=0, name_length=3, flags=0, name=b"log" + bytes(125))
    table = ubi.record_bytes(record) + 4 * ubi.empty_record_bytes()
    user = ubi.VidHeader(
        version=1, type=ubi.DYNAMIC, copy_flag=0, compatibility=0, volume=0,
        leb=0, data_size=0, used_lebs=0, data_pad=0, data_crc=0, sequence=3)
    layout = user._replace(volume=ubi.LAYOUT_VOLUME,
                           compatibility=ubi.REJECT)
    image = b""
    for counter, vid, data in (
            (3, layout._replace(leb=0, sequence=1), table),
            (5, layout._replace(leb=1, sequence=2), table),
            (9, user, b"abc"),
            (4, None, b"")):
        image += ubi.ec_header_bytes(ubi.EcHeader(1, counter, 64, 128, 0))
        image += ubi.vid_header_bytes(vid) if vid else b"\xff" * 64
        image += data + b"\xff" * (896 - len(data))
    assert len(slip) == 20 and len(image) == 4 * 1024
    return slip, image


def self_test():
    """01's bench image, its values for which copy counts, and limits."""
    slip, image = bench_input()
    report = report_of(image, ubi.geometry_from_slip(slip))
    assert report[:8] == (4, 3, 5, 3, 0, 0, 0, 0)
    assert report.classes == [1, 1, 1, 0]
    # With the last PEB blank the mean of 3, 5 and 9 is 5 still.
    blank = image[:3072] + b"\xff" * 1024
    assert report_of(blank, ubi.geometry_from_slip(slip)).mean == 5

    for size, whole in ((1024, False), (2048, True), (2049, False),
                        (4096 * 1024, True), (4097 * 1024, False)):
        try:
            assert count_pebs(bytes(size), 1024) * 1024 == size and whole
        except Refused as refused:
            assert refused.number == IMAGE_NOT_WHOLE_PEBS and not whole

    def copy(sequence, flag, right):
        vid = ubi.VidHeader(
            version=1, type=ubi.DYNAMIC, copy_flag=flag, compatibility=0,
            volume=0, leb=0, data_size=3 * flag, used_lebs=0, data_pad=0,
            data_crc=flag * (ubi.jamcrc(b"abc") ^ (not right)),
            sequence=sequence)
        return Peb(sequence, None, True, vid, False, b"abc")

    for older, newer, wanted in ((copy(7, 0, True), copy(8, 1, False), 7),
                                 (copy(7, 1, False), copy(8, 1, False), 7),
                                 (copy(7, 0, True), copy(8, 1, True), 8)):
        assert choose_copy([older, newer]).vid.sequence == wanted
        assert choose_copy([newer, older]).vid.sequence == wanted

    # The bench image has no image sequence; one that differs from none is
    # no refusal, the next one may be.
    geometry = ubi.geometry_from_slip(slip)
    assert image_sequence_of(read_pebs(image, geometry)) == 0
    for numbers, named, place in (
            ((0, 0, 0, 0), 0, None), ((0, 0, 0, 9), 9, None),
            ((0, 7, 0, 7), 7, None), ((0, 7, 0, 9), 7, 3),
            ((9, 7, 0, 9), 9, 1), ((9, 0, 9, 0), 9, None)):
        other = image
        for number, sequence in enumerate(numbers):
            ec = ubi.EcHeader(1, 5, 64, 128, sequence)
            other = (other[:1024 * number] + ubi.ec_header_bytes(ec)
                     + other[1024 * number + 64:])
        try:
            pebs = read_pebs(other, geometry)
            assert place is None and image_sequence_of(pebs) == named
        except Refused as refused:
            assert (refused.number, refused.place) == (7, place)

    counters = [ubi.EcHeader(1, counter, 64, 128, 0) for counter in (3, 5, 9)]
    assert mean_counter([Peb(0, ec, False, None, True, b"")
                         for ec in counters]) == 5


if __name__ == "__main__":
    self_test()
    print("attach: self test passed")
