"""Cases for what a move copies: all sorts of blocks, gone on to the end."""

from itertools import product

import ubi
from cases import changed, cycle
from images import (BLANK, LAYOUT, Block, Flash, ec_with, vid_with,
                    ways_to_lose, with_header_crc, with_image_seqs)

U32 = 0xFFFFFFFF


def add_source_cases(moves):
    add_lengths(moves)
    add_flagged(moves)
    add_padded(moves)
    add_static(moves)
    add_layout(moves)
    add_lost_counters(moves)
    add_odd_headers(moves)
    add_image_sequences(moves)
    add_chips(moves)


def one(flash, source, **record):
    """Layout LEB 0, the block to move (PEB 1), and PEB 2 free."""
    return flash.with_table([flash.volume(**record)], source, flash.free())


def add_lengths(moves):
    """Data size: behind the last byte that is not 0xFF, rounded up."""
    last = cycle([b"\x00", b"\xfe", b"\x7f"])
    for flash in (moves.small, moves.five, moves.units, moves.gaps):
        unit, full = flash.unit, flash.leb_size
        lengths = {0, 1, 3, unit - 1, unit, unit + 1, 2 * unit, full - 1,
                   full}
        for length in sorted(lengths):
            if length > full or flash is moves.five and 3 < length < full:
                continue
            data = (b"\xff" * (length - 1) + next(last))[:length]
            wanted = -(-length // unit) * unit
            moves.moved(
                flash, one(flash, flash.dynamic(0, 0, 3, data)), (0, 0, 2),
                data_size=wanted, copy_flag=int(length > 0), type=1,
                data_crc=flash.data_crc(data, wanted) if length else 0)
    flash = moves.units
    for data in (b"\xff" * 7 + b"x", b"x" + b"\xff" * 70 + b"y",
                 b"\xff" * 128 + b"y" + b"\xff" * 3, b"\x00" * 64):
        moves.moved(flash, one(flash, flash.dynamic(0, 0, 3, data)),
                    (0, 0, 2), old=1)


def add_flagged(moves):
    """The old copy's data size says nothing of what was written later."""
    flash = moves.units
    for data, size, wanted in (
            (b"copied", 6, 64), (b"copied", 64, 64), (b"copied", 1, 64),
            (b"copied" * 20, 6, 128), (b"copied" * 20, 64, 128),
            (b"\xff" * 9, 9, 0), (b"\xff" * 896, 896, 0),
            (b"x" + b"\xff" * 100, 100, 64), (b"\xff" * 64 + b"x", 64, 128)):
        source = flash.copy(0, 0, 3, data, data_size=size)
        moves.moved(flash, one(flash, source), (0, 0, 2), data_size=wanted,
                    copy_flag=int(wanted > 0))
    # A flag of 0 with the copies that it was chosen over.
    blocks = flash.with_table(
        [flash.volume()], flash.copy(0, 0, 3, b"older"),
        flash.dynamic(0, 0, 5, b"newer"), flash.free(),
        flash.copy(0, 0, 8, b"torn", sound=False))
    moves.moved(flash, blocks, (0, 0, 3), old=2, sequence=9)


def add_padded(moves):
    """Bytes in the pad are neither counted nor copied."""
    for flash, alignment in ((moves.five, 600), (moves.five, 500),
                             (moves.units, 320), (moves.units, 512),
                             (moves.gaps, 512)):
        pad = flash.leb_size % alignment
        room = flash.leb_size - pad
        for data in (b"", b"abc", b"abc" + b"\xff" * (room - 3) + b"pad",
                     b"\xff" * room + b"pad", b"\xff" * (room - 1) + b"x"):
            if flash is moves.five and data.endswith(b"x"):
                continue
            data = (data + b"\xff" * flash.leb_size)[:flash.leb_size]
            used = len(data[:room].rstrip(b"\xff"))
            source = flash.dynamic(0, 0, 3, data, data_pad=pad)
            moves.moved(flash, one(flash, source, alignment=alignment,
                                   data_pad=pad), (0, 0, 2), data_pad=pad,
                        data_size=-(-used // flash.unit) * flash.unit)


def add_static(moves):
    """Data size and CRC are kept, the flag is 1; the last step is short."""
    for flash in (moves.small, moves.units, moves.gaps, moves.five):
        for size in (1, 3, flash.unit, flash.unit + 1, flash.leb_size - 1,
                     flash.leb_size):
            if size > flash.leb_size or flash is moves.five and size > 3:
                continue
            data = (b"static" * 200)[:size]
            for flag in (0, 1):
                source = flash.static(0, 0, 1, 3, data, copy_flag=flag)
                moves.moved(
                    flash, one(flash, source, type=ubi.STATIC), (0, 0, 2),
                    type=2, data_size=size, used_lebs=1, copy_flag=1,
                    data_crc=ubi.jamcrc(data))
    flash = moves.small
    erased = flash.static(0, 0, 1, 3, b"\xff" * 9)
    moves.moved(flash, one(flash, erased, type=ubi.STATIC), (0, 0, 2),
                data_size=9, data_crc=ubi.jamcrc(b"\xff" * 9))
    # Bytes behind the data size stay behind.
    more = flash.static(0, 0, 1, 3, b"program and more", data_size=7)
    moves.moved(flash, one(flash, more, type=ubi.STATIC), (0, 0, 2),
                data_size=7)
    # Not the last LEB, and full, with a pad in another chip.
    for flash, alignment in ((moves.small, 1), (moves.units, 320)):
        pad = flash.leb_size % alignment
        record = flash.volume(type=ubi.STATIC, reserved=2, data_pad=pad,
                              alignment=alignment)
        blocks = flash.with_table(
            [record], flash.static(0, 0, 2, 3, b"first", data_pad=pad),
            flash.static(0, 1, 2, 4, b"second", data_pad=pad), flash.free())
        for leb, size in ((0, flash.leb_size - pad), (1, 6)):
            moves.moved(flash, blocks, (0, leb, 3), data_size=size,
                        used_lebs=2, data_pad=pad)


def add_layout(moves):
    for flash in (moves.small, moves.units, moves.gaps, moves.five):
        table = flash.table(flash.volume())
        blocks = [flash.layout(0, table, 1), flash.free(),
                  flash.layout_copy(1, table, 4), BLANK]
        for leb in (0, 1):
            size = -(-len(table) // flash.unit) * flash.unit
            moves.moved(flash, blocks, (LAYOUT, leb, 1), volume=LAYOUT,
                        compatibility=5, data_size=size, old=2 * leb)
        # Bytes behind the records are content too.
        longer = table + b"\xff" * (flash.leb_size - len(table) - 1) + b"x"
        blocks[0] = flash.layout(0, longer, 1)
        moves.moved(flash, blocks, (LAYOUT, 0, 1), data_size=flash.leb_size)


def add_lost_counters(moves):
    """The mean takes the place of a lost counter, whatever lost it."""
    flash = moves.small
    for way, raw in sorted(ways_to_lose(flash.ec(counter=90)).items()):
        blocks = [ec_with(block, counter=counter) for block, counter in zip(
            one(flash, flash.dynamic(0, 0, 3)), (3, 5, 10))]
        blocks[1] = blocks[1]._replace(ec=raw)
        # The mean of 3 and 10.
        moves.moved(flash, blocks, (0, 0, 2), counter=7)
        blocks[0] = blocks[0]._replace(ec=b"")
        moves.moved(flash, blocks, (0, 0, 2), counter=11)
        if way == "erased":
            blocks[2] = ec_with(blocks[2], counter=0)
            moves.moved(flash, blocks, (0, 0, 2), counter=1)


def add_odd_headers(moves):
    """Padding is read through the CRC alone, and written as zero."""
    flash = moves.units
    for at in (16, 36, 48, 59):
        source = flash.dynamic(0, 0, 3)
        raw = changed(ubi.vid_header_bytes(source.vid), at, b"\x05")
        blocks = one(flash, source._replace(vid=with_header_crc(raw)))
        moves.moved(flash, blocks, (0, 0, 2), old=1, sequence=4)
    for at in (5, 28, 59):
        source = flash.dynamic(0, 0, 3)
        raw = changed(ubi.ec_header_bytes(source.ec), at, b"\x05")
        blocks = one(flash, source._replace(ec=with_header_crc(raw)))
        moves.moved(flash, blocks, (0, 0, 2), counter=source.ec.counter + 1)


def add_image_sequences(moves):
    """That of the lowest PEB that has one, or zero if none has."""
    flash = moves.small
    blocks = one(flash, flash.dynamic(0, 0, 3))

    def judge(blocks, sequences, move):
        """Zeroes aside, they are one number."""
        moves.moved(flash, with_image_seqs(blocks, sequences), move,
                    image_sequence=max(sequences))

    # In PEB 0, the old block and the target: zero, or a number.
    for number in (1, 0x80000000, U32):
        for sequences in product((0, number), repeat=3):
            judge(blocks, sequences, (0, 0, 2))
    # A lost one's does not count, of the old block neither.
    ways = ways_to_lose(flash.ec(image_sequence=77))
    for way in ("CRC", "version 0", "counter 0x80000000", "erased"):
        for at, sequences in ((0, (0, 0, 0)), (0, (0, 0, 5)), (0, (0, 5, 0)),
                              (1, (0, 0, 0)), (1, (0, 0, 5)), (1, (5, 0, 0))):
            spoilt = list(blocks)
            spoilt[at] = spoilt[at]._replace(ec=ways[way])
            judge(spoilt, sequences, (0, 0, 2))
    # Behind all that the move touches; of blocks of other classes.
    for block in (flash.free(), Block(flash.ec(), b"torn", b""),
                  flash.internal(ubi.PRESERVE), flash.dynamic(9, 0, 2),
                  flash.dynamic(0, 0, 2, b"older")):
        judge(blocks + [block], (0, 0, 0, 6), (0, 0, 2))
    # A layout LEB; and PEBs in another order.
    judge(blocks, (6, 0, 0), (LAYOUT, 0, 2))
    for sequences in ((0, 0, 6), (0, 6, 0), (6, 0, 0)):
        judge(blocks[::-1], sequences, (0, 0, 0))
    numbered = [vid_with(block, sequence=sequence) for block, sequence in zip(
        flash.with_tables([flash.volume()], flash.dynamic(0, 0, 3)),
        (9, 2, 5))]
    moves.moved(flash, numbered + [flash.free()], (0, 0, 3), sequence=10)


def add_chips(moves):
    """Other chips, up to 128 records and units of 4,096 bytes."""
    for numbers in ((1100, 4, 2), (2048, 512, 512), (4096, 1024, 128),
                    (8192, 2048, 512), (16384, 2048, 2048), (8192, 4096, 1),
                    (24576, 64, 64)):
        flash = Flash(*numbers)
        data = b"data" * 31 + b"\xff" * flash.unit + b"end"
        source = flash.dynamic(0, 0, 3, data[:flash.leb_size])
        blocks = one(flash, source)
        moves.moved(flash, blocks, (0, 0, 2), old=1, volume=0)
        moves.moved(flash, blocks, (LAYOUT, 0, 2), old=0, volume=LAYOUT)
