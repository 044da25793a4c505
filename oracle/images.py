"""Flash images put together from readable descriptions.

A `Flash` has a geometry and makes blocks for it. A `Block` is one PEB as
described: its headers are still fields, so that a case can change one of
them and the CRC follows. Bytes in place of a header stand as they are, with
0xFF behind them; so no bytes are an erased header and few a torn one.
"""

from collections import namedtuple

import ubi
from cases import changed, cycle
from cases_slip import slip
from cases_table import volume

Block = namedtuple("Block", "ec vid data")

BLANK = Block(b"", b"", b"")

LAYOUT = ubi.LAYOUT_VOLUME
IMAGE_SEQUENCE = 0x5EED0001


class Flash:
    def __init__(self, peb_size, unit, sub_unit):
        self.geometry = ubi.geometry_of(peb_size, unit, sub_unit)
        self.slip = slip(peb_size, unit, sub_unit)
        self.peb_size = peb_size
        self.unit = unit
        self.leb_size = self.geometry.leb_size
        self.record_count = ubi.record_count(self.leb_size)
        # Counters where a case does not care.
        self.counters = cycle([3, 5, 9, 4, 17, 6, 1, 250])

    # Whole images

    def image(self, blocks):
        return b"".join(self.peb(block) for block in blocks)

    def peb(self, block):
        peb = b"\xff" * self.peb_size
        for header, write, at in (
                (block.ec, ubi.ec_header_bytes, 0),
                (block.vid, ubi.vid_header_bytes, self.geometry.vid_start)):
            raw = header if isinstance(header, bytes) else write(header)
            peb = changed(peb, at, raw)
        peb = changed(peb, self.geometry.data_start, block.data)
        assert len(peb) == self.peb_size
        return peb

    # Blocks

    def ec(self, **change):
        header = ubi.EcHeader(
            version=1, counter=next(self.counters),
            vid_start=self.geometry.vid_start,
            data_start=self.geometry.data_start,
            image_sequence=IMAGE_SEQUENCE)
        return header._replace(**change)

    def free(self, **ec):
        return Block(self.ec(**ec), b"", b"")

    def dynamic(self, volume, leb, sequence, data=b"abc", **vid):
        """As first written: no copy."""
        header = ubi.VidHeader(
            version=1, type=ubi.DYNAMIC, copy_flag=0, compatibility=0,
            volume=volume, leb=leb, data_size=0, used_lebs=0, data_pad=0,
            data_crc=0, sequence=sequence)
        return Block(self.ec(), header._replace(**vid), data)

    def copy(self, volume, leb, sequence, data=b"copied", sound=True, **vid):
        """As moved: copy flag, data size and CRC."""
        block = self.dynamic(volume, leb, sequence, data)
        size = vid.get("data_size", len(data))
        crc = self.data_crc(data, size) ^ (0 if sound else 0x00010000)
        return vid_with(block, **dict(
            {"copy_flag": 1, "data_size": size, "data_crc": crc}, **vid))

    def static(self, volume, leb, used, sequence, data=b"static", right=True,
               **vid):
        """Full, or as long as its data if it is the last; no copy."""
        block = self.dynamic(volume, leb, sequence, data)
        room = self.leb_size - vid.get("data_pad", 0)
        size = vid.get("data_size", len(data) if leb + 1 == used else room)
        crc = self.data_crc(data, size) ^ (0 if right else 0x80000000)
        return vid_with(block, **dict(
            {"type": ubi.STATIC, "used_lebs": used, "data_size": size,
             "data_crc": crc}, **vid))

    def data_crc(self, data, size):
        return ubi.jamcrc((data + b"\xff" * size)[:size])

    def layout(self, leb, table, sequence, **vid):
        return self.dynamic(LAYOUT, leb, sequence, table,
                            compatibility=ubi.REJECT, **vid)

    def layout_copy(self, leb, table, sequence, sound=True, **vid):
        return self.copy(LAYOUT, leb, sequence, table, sound,
                         compatibility=ubi.REJECT, **vid)

    def internal(self, compatibility, sequence=9, number=LAYOUT + 1, leb=0,
                 **vid):
        """A block of an internal volume that is not the layout volume."""
        return self.dynamic(number, leb, sequence,
                            compatibility=compatibility, **vid)

    # Volume tables

    def volume(self, name=b"log", **change):
        return volume(self.leb_size, name, **change)

    def table(self, *records):
        """All records; None is an empty one, and so are those left out."""
        raws = []
        for record in records:
            if record is None:
                raws.append(ubi.empty_record_bytes())
            elif isinstance(record, bytes):
                raws.append(record)
            else:
                raws.append(ubi.record_bytes(record))
        assert len(raws) <= self.record_count
        raws += [ubi.empty_record_bytes()] * (self.record_count - len(raws))
        return b"".join(raws)

    def with_tables(self, records, *blocks):
        """Both layout LEBs (blocks 0 and 1, sequences 1 and 2) and these."""
        table = self.table(*records)
        return [self.layout(0, table, 1), self.layout(1, table, 2)] + list(
            blocks)

    def with_table(self, records, *blocks):
        """LEB 0 of the layout volume alone, where that will do: shorter."""
        return [self.layout(0, self.table(*records), 1)] + list(blocks)


# Changes to a block

def ec_with(block, **change):
    return block._replace(ec=block.ec._replace(**change))


def vid_with(block, **change):
    return block._replace(vid=block.vid._replace(**change))


def with_image_seqs(blocks, sequences):
    """The blocks with these image sequences; bytes stay what they are."""
    assert len(blocks) == len(sequences)
    return [block if isinstance(block.ec, bytes)
            else ec_with(block, image_sequence=sequence)
            for block, sequence in zip(blocks, sequences)]


def ways_to_lose(ec):
    """An EC header that is lost, by what is wrong with it."""
    raw = ubi.ec_header_bytes(ec)
    return {
        "erased": b"",
        "torn at 1": raw[:1],
        "torn at 60": raw[:60],
        "torn at 63": raw[:63],
        "zeroes": bytes(64),
        "magic of a VID header": with_header_crc(changed(raw, 0, b"UBI!")),
        "CRC": changed(raw, 63, [raw[63] ^ 1]),
        "counter byte": changed(raw, 15, [raw[15] ^ 4]),
        "version 0": ubi.ec_header_bytes(ec._replace(version=0)),
        "counter 0x80000000": ubi.ec_header_bytes(
            ec._replace(counter=0x80000000)),
        "counter 0xFFFFFFFF": ubi.ec_header_bytes(
            ec._replace(counter=0xFFFFFFFF)),
        "counter 2^32 + 5": ubi.ec_header_bytes(
            ec._replace(counter=2 ** 32 + 5)),
    }


def with_header_crc(raw):
    return raw[:60] + ubi.jamcrc(raw[:60]).to_bytes(4, "big")
