"""Cases for the beginning of a move: refusals 1 to 17 and their order."""

from itertools import product

import ubi
from cases import changed
from cases_slip import slip
from images import (BLANK, LAYOUT, Block, Flash, ec_with, vid_with,
                    ways_to_lose, with_image_seqs)

U32 = 0xFFFFFFFF
U64 = 2 ** 64 - 1
MOST = ubi.MAX_ERASE_COUNTER


def add_begin_cases(moves):
    add_attaching_refused(moves)
    add_order(moves)
    add_13(moves)
    add_14(moves)
    add_15(moves)
    add_16(moves)
    add_17_sequence(moves)
    add_17_counter(moves)


def ordinary(flash, *more):
    """PEB 1 has volume 0's LEB 0, 2 static volume 1's; 3 and 4 are free."""
    records = [flash.volume(reserved=2),
               flash.volume(b"boot", type=ubi.STATIC)]
    return flash.with_table(
        records, flash.dynamic(0, 0, 3), flash.static(1, 0, 1, 4),
        flash.free(), flash.free(), *more)


# ------------------------------------------------------------------ 1 to 12

def add_attaching_refused(moves):
    """Whatever else is wrong with the move, attaching is judged first."""
    flash = moves.small
    blocks = ordinary(flash)
    for move in ((0, 0, 3), (7, 7, 77)):
        for refusal, change in sorted(faults_of_attaching(flash).items()):
            number, place = refusal
            moves.refused(flash, change(list(blocks)), move, number, place)
        for lent in ((9, 15, 128), (10, 14, 128), (10, 15, 127), (0, 0, 0)):
            moves.refused(flash, blocks, move, 4, lent=lent)
        for size in (0, 1024, 5 * 1024 - 1, 5 * 1024 + 1):
            image = flash.image(blocks + [BLANK])[:size]
            moves.refused(flash, image, move, 3, lent=(10, 15, 128))
        for number, odd in ((1, b""), (1, flash.slip + b"\0"),
                            (2, slip(1024, 512, 1024)),
                            (2, slip(1024, 0, 0)), (3, slip(2048, 512, 64))):
            other = Flash(1024, 512, 64)
            other.slip = odd
            moves.refused(other, blocks, move, number)


def faults_of_attaching(flash):
    """By number and place, what makes attaching refuse the blocks."""
    def put(at, make):
        return lambda blocks: blocks[:at] + [make(blocks[at])] + blocks[
            at + 1:]

    return {
        (5, 2): put(2, lambda block: ec_with(block, version=2)),
        (5, 1): put(1, lambda block: vid_with(block, version=9)),
        (6, 3): put(3, lambda block: ec_with(block, vid_start=128)),
        (7, 4): put(4, lambda block: ec_with(block, image_sequence=1)),
        (7, 3): lambda blocks: with_image_seqs(blocks, [0, 0, 1, 2, 0]),
        (8, 3): put(3, lambda _: flash.internal(ubi.REJECT)),
        (9, 4): put(4, lambda _: flash.dynamic(0, 0, 3, b"twice")),
        (10, 0): lambda blocks: [BLANK] + [flash.free()] * 4,
        (11, 0): put(0, lambda _: BLANK),
        (12, 1): put(1, lambda block: flash.static(0, 0, 1, 3)),
        (12, 2): put(2, lambda block: vid_with(
            block, used_lebs=2, data_size=512)),
    }


# -------------------------------------------------------------------- order

def add_order(moves):
    """Every set of faults: the lowest number is given."""
    flash = moves.small
    for faults in product((False, True), repeat=5):
        f13, f14, f15, f16, f17 = faults
        blocks = ordinary(flash)
        if f15:
            blocks[1] = flash.copy(0, 0, 3, sound=False)
        if f17:
            blocks[2] = vid_with(blocks[2], sequence=U64)
        if f13:
            blocks.append(flash.internal(ubi.DELETE, 5))
        move = 0, int(f14), 0 if f16 else 3
        if not any(faults):
            moves.moved(flash, blocks, move, old=1)
            continue
        moves.refused(flash, blocks, move, 13 + faults.index(True))


# ----------------------------------------------------------------------- 13

def add_13(moves):
    flash = moves.small
    last = LAYOUT + 4096
    for block, refused in (
            (flash.internal(ubi.DELETE), True),
            (flash.internal(ubi.DELETE, number=last), True),
            (flash.internal(ubi.READ_ONLY), True),
            (flash.internal(ubi.READ_ONLY, number=last), True),
            (flash.internal(ubi.PRESERVE), False),
            (flash.internal(ubi.PRESERVE, number=last), False),
            (flash.internal(ubi.DELETE)._replace(ec=b""), True),
            (flash.internal(ubi.DELETE)._replace(ec=b"UBI#"), True),
            (flash.internal(ubi.READ_ONLY)._replace(ec=b""), True),
            (flash.internal(ubi.DELETE, copy_flag=1, data_size=6,
                            data_crc=5), True),
            # Not good, so it does not stand.
            (flash.internal(ubi.DELETE, used_lebs=1), False),
            (flash.internal(ubi.READ_ONLY, version=0), False),
            (flash.internal(ubi.DELETE, number=LAYOUT - 1), False),
            # Of class 5 as well, but a user volume's.
            (flash.dynamic(5, 0, 9), False),
            (flash.dynamic(0, 2, 9), False)):
        blocks = ordinary(flash, block)
        script = moves.script(flash, blocks)
        for move in ((0, 0, 3), (1, 0, 4), (LAYOUT, 0, 3), (7, 7, 77)):
            if refused:
                answer = script.begin(*move)
                assert answer.startswith("refused 13 at 0 "), answer
            elif move != (7, 7, 77):
                moves.moved(flash, blocks, move)
        if refused:
            moves.add(script)
    both = ordinary(flash, flash.internal(ubi.DELETE),
                    flash.internal(ubi.READ_ONLY, 10))
    moves.refused(flash, both, (0, 0, 3), 13)


# ----------------------------------------------------------------------- 14

def add_14(moves):
    flash = moves.small
    aside = LAYOUT + 1
    blocks = ordinary(
        flash, flash.internal(ubi.PRESERVE), flash.dynamic(0, 2, 10),
        flash.dynamic(9, 0, 11), flash.dynamic(2, 0, 12),
        Block(flash.ec(), ubi.vid_header_bytes(
            flash.dynamic(0, 1, 13).vid)[:63], b""))
    script = moves.script(flash, blocks)
    for volume, leb in (
            (0, 1), (0, 2), (0, 3), (1, 1), (1, U32), (0, U32), (2, 0),
            (9, 0), (127, 0), (128, 0), (U32, 0), (U32, U32), (LAYOUT, 1),
            (LAYOUT, 2), (LAYOUT, U32), (aside, 0), (0, LAYOUT), (256, 0),
            (0, 0x80000000), (0x80000000, 0), (0xFFFFEFFF, 0)):
        for target in (3, 77):
            answer = script.begin(volume, leb, target)
            assert answer.startswith("refused 14 at 0 "), answer
    moves.add(script)
    for volume, leb in ((0, 1), (LAYOUT, 1), (0, 2), (9, 0), (aside, 0)):
        moves.refused(flash, blocks, (volume, leb, 3), 14)
    # Volume and LEB are not taken for each other.
    swapped = flash.with_table(
        [flash.volume(reserved=2), flash.volume(b"b", reserved=2)],
        flash.dynamic(0, 1, 3), flash.free(), flash.free(), BLANK, BLANK)
    moves.refused(flash, swapped, (1, 0, 2), 14)
    moves.moved(flash, swapped, (0, 1, 2), old=1, volume=0, leb=1)


# ----------------------------------------------------------------------- 15

def add_15(moves):
    flash = moves.small
    for source in (
            [flash.copy(0, 0, 3, sound=False)],
            [flash.copy(0, 0, 3, data_size=512, data_crc=0)],
            [flash.copy(0, 0, 3, sound=False),
             flash.copy(0, 0, 4, sound=False)],
            [flash.copy(0, 0, 9, sound=False), BLANK,
             flash.copy(0, 0, 8, sound=False)]):
        blocks = flash.with_table([flash.volume()], flash.free(), *source)
        moves.refused(flash, blocks, (0, 0, 1), 15)
    for kind, older in ((flash.dynamic, 3), (flash.copy, 2)):
        # The unsound one is newer and passed over.
        blocks = flash.with_table(
            [flash.volume()], kind(0, 0, older, b"right"), flash.free(),
            flash.copy(0, 0, 7, b"wrong", sound=False))
        moves.moved(flash, blocks, (0, 0, 2), old=1, sequence=8)
    for flags, right, flag in product((0, ubi.SKIP_CRC), (0, 1), (0, 1)):
        record = flash.volume(type=ubi.STATIC, flags=flags)
        blocks = flash.with_table(
            [record], flash.static(0, 0, 1, 5, b"program", bool(right),
                                   copy_flag=flag), flash.free())
        if right:
            moves.moved(flash, blocks, (0, 0, 2), copy_flag=1, data_size=7)
        else:
            moves.refused(flash, blocks, (0, 0, 2), 15)
    add_15_of_other_blocks(moves)


def add_15_of_other_blocks(moves):
    """Layout LEBs; and LEBs of a volume that is not fine."""
    flash = moves.small
    table = flash.table(flash.volume())
    for leb, sound in product((0, 1), (False, True)):
        blocks = [flash.layout(0, table, 1), flash.layout(1, table, 2),
                  flash.free(), flash.free()]
        blocks[leb] = flash.layout_copy(leb, table, 5, sound)
        if sound:
            moves.moved(flash, blocks, (LAYOUT, leb, 3), old=leb)
        else:
            moves.refused(flash, blocks, (LAYOUT, leb, 3), 15)
    # Volumes being updated or damaged elsewhere move all the same.
    for marker in (0, 1):
        record = flash.volume(reserved=2, update_marker=marker)
        blocks = flash.with_table(
            [record], flash.dynamic(0, 0, 3), flash.free(),
            flash.copy(0, 1, 4, sound=False), BLANK)
        moves.moved(flash, blocks, (0, 0, 2), old=1)
        moves.refused(flash, blocks, (0, 1, 2), 15)


# ----------------------------------------------------------------------- 16

def add_16(moves):
    flash = moves.small
    ways = ways_to_lose(flash.ec())
    blocks = ordinary(
        flash, flash.copy(0, 0, 2, b"older"), BLANK,
        Block(flash.ec(), b"UBI!", b""), flash.dynamic(9, 0, 7),
        flash.internal(ubi.PRESERVE, 8), Block(ways["CRC"], b"", b""))
    classes = "11100234564"
    count = len(blocks)
    script = moves.script(flash, blocks)
    for target in list(range(count)) + [count, count + 1, 4096, U32,
                                        0x80000003, 65536 + 3]:
        for volume in (0, 1):
            answer = script.begin(volume, 0, target)
            free = target < count and classes[target] == "0"
            assert answer.startswith(
                "planned " if free else "refused 16 at 0 "), (target, answer)
    assert "".join(map(str, script.bench.lent.pebs[:2 * count:2])) == classes
    moves.add(script)
    for target in (0, 1, 2, 5, 6, 7, 8, 9, 10, count, U32):
        moves.refused(flash, blocks, (0, 0, target), 16)
    add_stray_bytes(moves)


def add_stray_bytes(moves):
    """Every byte behind the EC header, and none of it."""
    for flash, places in (
            (moves.small, (128, 129, 511, 512, 1022, 1023)),
            (moves.gaps, (64, 65, 255, 320, 321, 511, 512, 1023)),
            (moves.five, (128, 131, 1023))):
        for place in places:
            for stray in (0x00, 0xFE, 0x7F):
                if stray != 0 and place not in (64, 128, 1023):
                    continue
                image = flash.image(ordinary(flash))
                image = changed(image, 3 * 1024 + place, [stray])
                moves.refused(flash, image, (0, 0, 3), 16)
        # In the EC header's padding, with the CRC right.
        ec = changed(ubi.ec_header_bytes(flash.ec()), 28, b"padding")
        ec = ec[:60] + ubi.jamcrc(ec[:60]).to_bytes(4, "big")
        blocks = ordinary(flash)
        blocks[3] = Block(ec, b"", b"")
        moves.moved(flash, blocks, (0, 0, 3), old=1)
        # Bytes left in the other free block do not matter.
        image = changed(flash.image(ordinary(flash)), 4 * 1024 + 600, b"\0")
        moves.moved(flash, image, (0, 0, 3), old=1)


# ----------------------------------------------------------------------- 17

def add_17_sequence(moves):
    flash = moves.small
    for highest in (U64, U64 - 1, U64 - 2, 2 ** 63, 2 ** 32 - 1):
        for more in (
                [], [flash.dynamic(0, 1, highest)],
                [flash.copy(0, 0, highest, sound=False)],
                [flash.dynamic(9, 0, highest)],
                [flash.internal(ubi.PRESERVE, highest)]):
            blocks = ordinary(flash, *more)
            if not more:
                blocks[1] = vid_with(blocks[1], sequence=highest)
            script = moves.script(flash, blocks)
            left = U64 - highest
            for target, old in ((3, 1), (4, 3), (1, 4)):
                answer = script.begin(0, 0, target)
                if left == 0:
                    assert answer.startswith("refused 17 at 0 "), answer
                    break
                assert answer.startswith("planned "), answer
                assert script.plan.old == old
                script.run(9)
                left -= 1
            moves.add(script)
    # Of a header that is bad the sequence does not count.
    torn = vid_with(flash.dynamic(0, 1, U64), used_lebs=1)
    moves.moved(flash, ordinary(flash, torn), (0, 0, 3), sequence=5)


def add_17_counter(moves):
    flash = moves.small
    for counter in (MOST, MOST - 1, MOST - 2, 0):
        blocks = ordinary(flash)
        blocks[1] = ec_with(blocks[1], counter=counter)
        # The other copy's counter, the target's and the mean do not matter.
        blocks[3] = ec_with(blocks[3], counter=MOST)
        if counter == MOST:
            moves.refused(flash, blocks, (0, 0, 4), 17)
            moves.moved(flash, blocks, (1, 0, 3), old=2)
            continue
        script = moves.script(flash, blocks)
        assert script.begin(0, 0, 3).startswith("planned ")
        assert script.plan.ec.counter == counter + 1
        script.run(9)
        # Moved into a block whose counter is used up.
        assert script.begin(0, 0, 4).startswith("refused 17 at 0 ")
        moves.add(script)
    for number, way in enumerate(sorted(ways_to_lose(flash.ec()))):
        for counter in (MOST, MOST - 1):
            lost_at_the_limit(moves, way, counter, number % 2)


def lost_at_the_limit(moves, way, counter, low):
    """The old PEB's counter is lost, the mean of the others this."""
    flash = moves.small
    blocks = [ec_with(block, counter=counter) for block in ordinary(flash)]
    lost = ways_to_lose(flash.ec(counter=7))[way]
    blocks[1] = blocks[1]._replace(ec=lost)
    if counter < MOST and low:
        # Rounded down to the same.
        blocks[2] = ec_with(blocks[2], counter=MOST)
    if counter == MOST:
        moves.refused(flash, blocks, (0, 0, 3), 17)
    else:
        moves.moved(flash, blocks, (0, 0, 3), counter=MOST)
