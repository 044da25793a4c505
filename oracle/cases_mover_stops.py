"""Cases for moves that are stopped: in each step, and what follows."""

import mover
import ubi
from images import LAYOUT, ec_with, vid_with, with_image_seqs

HEADER_CUTS = (0, 1, 4, 5, 31, 60, 63, 64)


def add_stop_cases(moves):
    for flash in (moves.units, moves.small, moves.gaps):
        for source in sources(flash):
            add_stops_of(moves, flash, source)
    add_stops_byte_by_byte(moves)
    add_stops_in_a_row(moves)
    add_bytes_that_are_there(moves)
    add_lost_sequences(moves)


def chip(flash, source, kind=ubi.DYNAMIC):
    """Layout LEB 0, the block to move at PEB 1, three free blocks."""
    return flash.with_table([flash.volume(type=kind)], source, flash.free(),
                            flash.free(), flash.free())


def sources(flash):
    """Blocks, and the LEB to move."""
    two_units = (b"reading" * 40)[:flash.unit + 5][:flash.leb_size]
    lost = flash.dynamic(0, 0, 3, b"abc")._replace(ec=b"UBI#\x01")
    return (
        (chip(flash, flash.dynamic(0, 0, 3, two_units)), (0, 0)),
        (chip(flash, flash.static(0, 0, 1, 3, two_units), ubi.STATIC),
         (0, 0)),
        (chip(flash, flash.dynamic(0, 0, 3, b"")), (0, 0)),
        (chip(flash, lost), (0, 0)),
        (chip(flash, flash.copy(0, 0, 3)), (LAYOUT, 0)))


def erase_cuts(flash):
    """Places erased: none, headers, halves, and all but something."""
    size = flash.peb_size
    vid = flash.geometry.vid_start
    data = flash.geometry.data_start
    return [
        (), range(size), range(64), range(vid, vid + 64), range(4),
        range(60, 64), range(vid + 60, vid + 64), range(data, size),
        range(data), range(1, size), range(64, size), range(0, size, 2),
        (8, 15), (vid + 7,), (data,),
        [at for at in range(size) if at not in (vid, vid + 63)],
        [at for at in range(size) if at % 3]]


def stops(flash, plan):
    """Stops in the first step, the data, the erase and the last step."""
    last = mover.step_count(plan)
    for number in (1, last):
        for cut in HEADER_CUTS:
            yield mover.Stop(number, cut)
    for number in sorted({2, last - 2} if last > 3 else ()):
        start = (number - 2) * plan.unit
        length = min(plan.unit, plan.vid.data_size - start)
        for cut in sorted({0, 1, length - 1, length}):
            yield mover.Stop(number, cut)
    for places in erase_cuts(flash):
        yield mover.Stop(last - 1, tuple(places))


def add_stops_of(moves, flash, source):
    """A stop, an attaching, and the move begun again and not stopped."""
    blocks, leb = source
    script = moves.script(flash, blocks)
    script.begin(*(leb + (2,)))
    every = list(stops(flash, script.plan))
    # All of them are too many: every fourth, from another one on each time.
    for stop in every[moves.chance.below(4)::4]:
        script = moves.script(flash, blocks)
        stop_at(script, leb + (2,), stop)
        script.attach()
        script.begin(*(leb + (3,)))
        script.run(0xFFFF)
        script.attach()
        moves.add(script)


def stop_at(script, move, stop):
    answer = script.begin(*move)
    assert answer.startswith("planned "), answer
    if stop.step > 1:
        script.run(stop.step - 1)
    script.cut(stop.cut)


def add_stops_byte_by_byte(moves):
    """01's bench move with every prefix of its stores, in few cases."""
    flash = moves.five
    blocks = flash.with_table([flash.volume()],
                              flash.dynamic(0, 0, 3, b"abc"), flash.free())
    for first in range(0, 65, 8):
        for number in (1, 6):
            script = moves.script(flash, blocks)
            script.begin(0, 0, 2)
            if number > 1:
                script.run(number - 1)
            for cut in range(first, min(first + 8, 65)):
                script.cut(cut)
                script.attach()
            # The stopped move goes on as if it had not been.
            assert script.run(9).startswith("ran %d done " % (7 - number))
            script.attach()
            moves.add(script)
    for number in (2, 3, 4):
        script = moves.script(flash, blocks)
        stop_at(script, (0, 0, 2), mover.Stop(number, 0))
        script.attach()
        moves.add(script)


def add_stops_in_a_row(moves):
    """Stop after stop, until no free block is left."""
    flash = moves.units
    data = b"reading" * 20
    for number in (1, 2, 3, 4, 5, 6):
        blocks = chip(flash, flash.dynamic(0, 0, 3, data))
        script = moves.script(flash, blocks)
        for target in (2, 3, 4):
            cut = tuple(range(0, 1024, 3)) if number == 5 else 32
            stop_at(script, (0, 0, target), mover.Stop(number, cut))
            script.attach()
        answer = script.begin(0, 0, 2)
        assert answer.startswith("refused 16 at 0 "), answer
        script.begin(0, 0, 4)
        moves.add(script)
    # Back and forth without a stop: the counters grow.
    script = moves.script(flash, chip(flash, flash.dynamic(0, 0, 3, data)))
    for target in (2, 1, 2, 3, 4, 1):
        assert script.begin(0, 0, target).startswith("planned ")
        script.run(100)
        script.attach()
    moves.add(script)


def add_bytes_that_are_there(moves):
    """Bytes equal to the whole are whole, though not all were stored."""
    flash = moves.units
    tail = b"\xff" * 20
    blocks = chip(flash, flash.static(0, 0, 1, 3, b"program" + tail),
                  ubi.STATIC)
    for cut in (6, 7, 8, 26, 27):
        script = moves.script(flash, blocks)
        stop_at(script, (0, 0, 2), mover.Stop(2, cut))
        script.attach()
        whole = script.bench.lent.map[:3] == [0, 0, 2]
        assert whole == (cut >= 7)
        moves.add(script)
    erased = flash.static(0, 0, 1, 3, tail)
    script = moves.script(flash, chip(flash, erased, ubi.STATIC))
    stop_at(script, (0, 0, 2), mover.Stop(2, 0))
    script.attach()
    assert script.bench.lent.map[:3] == [0, 0, 2]
    moves.add(script)
    add_ends_of_0xff(moves)


def add_ends_of_0xff(moves):
    """Headers whose last byte is 0xFF: whole without it."""
    flash = moves.small
    for counter in range(2000):
        blocks = chip(flash, flash.dynamic(0, 0, 3, b""))
        blocks[1] = ec_with(blocks[1], counter=counter)
        script = moves.script(flash, blocks)
        script.begin(0, 0, 2)
        if ubi.ec_header_bytes(script.plan.ec)[63] == 0xFF:
            break
    script.run(2)
    script.cut(63)
    script.attach()
    assert script.bench.lent.pebs[2:4] == [0, counter + 1]
    moves.add(script)
    for sequence in range(3, 2000):
        blocks = chip(flash, vid_with(flash.dynamic(0, 0, 3, b""),
                                      sequence=sequence))
        script = moves.script(flash, blocks)
        script.begin(0, 0, 2)
        if ubi.vid_header_bytes(script.plan.vid)[63] == 0xFF:
            break
    script.cut(63)
    script.attach()
    assert script.bench.lent.map[:3] == [0, 0, 2]
    moves.add(script)


def add_lost_sequences(moves):
    """The old block has the only image sequence, and a stop may lose it.

    Then later headers carry zero.
    """
    flash = moves.small
    size, vid = flash.peb_size, flash.geometry.vid_start
    data = (b"reading" * 90)[:flash.leb_size]
    # Step, cut, and the image sequence that is left.
    every = ((1, 63, 7), (2, 300, 7), (3, (), 7), (3, range(64), 0),
             (3, range(size), 0), (3, range(64, size), 7), (3, (24,), 0),
             (3, range(24, 28), 0), (3, range(vid, vid + 64), 7),
             (4, 0, 0), (4, 27, 0), (4, 28, 0), (4, 63, 0), (4, 64, 7))
    for leb, sequences, some in (
            ((0, 0), (0, 7, 0, 0, 0), every),
            ((LAYOUT, 0), (7, 0, 0, 0, 0), every[1::3])):
        blocks = with_image_seqs(
            chip(flash, flash.dynamic(0, 0, 3, data)), sequences)
        for step, cut, left in some:
            script = moves.script(flash, blocks)
            stop_at(script, leb + (2,), mover.Stop(step, cut))
            assert script.plan.ec.image_sequence == 7
            goes_on_with(script, leb + (3,), left)
            # Of a later move too, once the header that it stored counts.
            goes_on_with(script, leb + (4,), left)
            moves.add(script)
    # Stopped again, in the EC header that carries zero.
    blocks = chip(flash, flash.dynamic(0, 0, 3))
    old_alone = with_image_seqs(blocks, (0, 7, 0, 0, 0))
    for cut in (0, 28, 64):
        script = moves.script(flash, old_alone)
        stop_at(script, (0, 0, 2), mover.Stop(3, range(size)))
        stop_at(script, (0, 0, 3), mover.Stop(4, cut))
        assert script.plan.ec.image_sequence == 0
        goes_on_with(script, (0, 0, 4), 0)
        moves.add(script)
    # The target has it: whatever stops the move, it stays.
    target_alone = with_image_seqs(blocks, (0, 0, 7, 0, 0))
    for step, cut in ((1, 0), (2, 5), (3, range(size)), (4, 28)):
        script = moves.script(flash, target_alone)
        stop_at(script, (0, 0, 2), mover.Stop(step, cut))
        assert script.plan.ec.image_sequence == 7
        goes_on_with(script, (0, 0, 3), 7)
        moves.add(script)


def goes_on_with(script, move, image_sequence):
    """Attached, and moved on with this image sequence to the end."""
    assert script.attach().startswith("attached ")
    assert script.begin(*move).startswith("planned ")
    assert script.plan.ec.image_sequence == image_sequence
    script.run(0xFFFF)
