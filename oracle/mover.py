"""Moving one logical block: plan, steps, stops and the place book.

Like `ubi.py` and `attach.py` it is written from the documents alone: 01, and
of 02 the request 2026-02. Images are bytes: a call gives the image after it
and never changes the one it was given. The headings in quotes are 01's own;
"decided" marks a reading of a point that both leave open.
"""

from collections import namedtuple

import attach
import ubi
from ubi import Refused

# 'Refusal numbers, in order of checking'
NOTHING_MAY_MOVE = 13
LEB_NOT_MAPPED = 14
COPY_NOT_RIGHT = 15
TARGET_NOT_FREE = 16
NUMBERS_USED_UP = 17
PLAN_NOT_FIT = 18

MAX_SEQUENCE = 2 ** 64 - 1

# Decided: a plan is the geometry's three numbers, both PEBs, both headers'
# fields and the number of steps run. Data are read from the old block.
Plan = namedtuple("Plan", "peb_size unit sub_unit old target vid ec steps")

ON, DONE = "on", "done"


# ------------------------------------------------------------- the beginning

def begin(slip, image, lent, volume, leb, target):
    """The plan of a move, or a refusal.

    It attaches into the lent tables first, so from 13 on they hold the
    report. Decided: 13 to 17 are judged in number order, all with place 0.
    """
    report = attach.attach(slip, image, lent)
    geometry = ubi.geometry_from_slip(slip)
    pebs = attach.read_pebs(image, geometry)
    refuse_moves(report, pebs)
    old = chosen_copy(report, pebs, volume, leb)
    refuse_target(report, block_of(image, geometry.peb_size, target), target)
    counter = counter_of(old, report)
    if (report.highest == MAX_SEQUENCE
            or counter == ubi.MAX_ERASE_COUNTER):
        raise Refused(NUMBERS_USED_UP)
    return Plan(geometry.peb_size, geometry.unit, geometry.sub_unit,
                old.number, target,
                new_vid_header(old, geometry, report.highest + 1),
                new_ec_header(pebs, geometry, counter + 1), 0)


def refuse_moves(report, pebs):
    """13. Decided: such a block stands where its VID header is good."""
    if report.read_only or any(attach.has_compatibility(peb, ubi.DELETE)
                               for peb in pebs):
        raise Refused(NOTHING_MAY_MOVE)


def chosen_copy(report, pebs, volume, leb):
    """The PEB to move from, or 14 or 15.

    Decided: 15 asks for the data CRC of a static copy whatever the skip
    flag of its volume says.
    """
    places = places_of(report)
    if (volume, leb) not in places:
        raise Refused(LEB_NOT_MAPPED)
    old = pebs[places[volume, leb]]
    if not attach.is_sound(old):
        raise Refused(COPY_NOT_RIGHT)
    if old.vid.type == ubi.STATIC and not attach.data_crc_right(old):
        raise Refused(COPY_NOT_RIGHT)
    return old


def refuse_target(report, block, target):
    """16, looking at every byte behind the EC header."""
    if target >= report.peb_count or report.classes[target] != attach.FREE:
        raise Refused(TARGET_NOT_FREE)
    if not attach.is_erased(block[ubi.HEADER_SIZE:]):
        raise Refused(TARGET_NOT_FREE)


def places_of(report):
    """The map, as PEB by volume and LEB."""
    return {(entry.volume, entry.leb): entry.peb for entry in report.entries}


def block_of(image, peb_size, number):
    return image[number * peb_size:(number + 1) * peb_size]


def counter_of(peb, report):
    return report.mean if peb.ec is None else peb.ec.counter


def new_vid_header(old, geometry, sequence):
    """'The mover's steps': what is kept, and what is new."""
    header = old.vid._replace(version=1, sequence=sequence)
    if old.vid.type == ubi.STATIC:
        return header._replace(copy_flag=1)
    content = old.data[:geometry.leb_size - old.vid.data_pad]
    size = ubi.smallest_multiple(geometry.unit, used_length(content))
    if size == 0:
        return header._replace(copy_flag=0, data_size=0, data_crc=0)
    return header._replace(copy_flag=1, data_size=size,
                           data_crc=ubi.jamcrc(content[:size]))


def used_length(content):
    """The place after the last byte that is not 0xFF."""
    return len(content.rstrip(b"\xff"))


def new_ec_header(pebs, geometry, counter):
    """With the image sequence that refusal 7 compares with.

    2026-02: "carries that value, or zero if there is none". The target's EC
    header is good, yet it may say nothing.
    """
    return ubi.EcHeader(1, counter, geometry.vid_start, geometry.data_start,
                        attach.image_sequence_of(pebs))


# ----------------------------------------------------------------- the steps

# What a step does to the image: bytes from a place on. An erase is one of
# 0xFF, but cut in another way.
Write = namedtuple("Write", "at data is_erase")


def step(plan, image):
    """The answer with the plan and the image after it, or refusal 18.

    Decided: 18 is judged first, of a finished plan too.
    """
    geometry = judged_geometry(plan, image)
    write = write_of(plan, geometry, image)
    if write is None:
        return DONE, plan, image
    return (ON, plan._replace(steps=plan.steps + 1),
            stored(image, write.at, write.data))


def judged_geometry(plan, image):
    """The plan's geometry, or 18: the table's list and nothing beyond."""
    refusal = Refused(PLAN_NOT_FIT)
    try:
        geometry = ubi.geometry_of(plan.peb_size, plan.unit, plan.sub_unit)
        peb_count = attach.count_pebs(image, geometry.peb_size)
        if plan.old >= peb_count or plan.target >= peb_count:
            raise refusal
        if plan.old == plan.target:
            raise refusal
        buffer = bytearray(ubi.HEADER_SIZE)
        ubi.write_vid_header(plan.vid, geometry.leb_size, buffer)
        ubi.write_ec_header(plan.ec, buffer)
    except Refused:
        raise refusal
    return geometry


def data_steps(plan):
    return -(-plan.vid.data_size // plan.unit)


def step_count(plan):
    """Steps: 3 plus data size over unit, rounded up."""
    return 3 + data_steps(plan)


def write_of(plan, geometry, image):
    """What the plan's next step stores or erases; None if all are run."""
    old = plan.old * geometry.peb_size
    target = plan.target * geometry.peb_size
    if plan.steps == 0:
        return Write(target + geometry.vid_start,
                     ubi.vid_header_bytes(plan.vid), False)
    unit_number = plan.steps - 1
    if unit_number < data_steps(plan):
        start = unit_number * geometry.unit
        end = min(start + geometry.unit, plan.vid.data_size)
        run = image[old + geometry.data_start:][:geometry.leb_size]
        return Write(target + geometry.data_start + start, run[start:end],
                     False)
    if plan.steps == step_count(plan) - 2:
        return Write(old, b"\xff" * geometry.peb_size, True)
    if plan.steps == step_count(plan) - 1:
        return Write(old, ubi.ec_header_bytes(plan.ec), False)
    return None


def stored(image, at, data):
    return image[:at] + data + image[at + len(data):]


# ----------------------------------------------------------------- the stops

# Power lost in a step (1 is the first): the number of bytes that a store
# still stored, or the places within the block that an erase did erase.
Stop = namedtuple("Stop", "step cut")

# One call of a list: what a move is begun with, and where it is stopped,
# None if it goes on to its last step.
Call = namedtuple("Call", "volume leb target stop")


def cut_image(write, image, cut):
    """A prefix of the bytes of a store; of an erase any bytes old or 0xFF."""
    if not write.is_erase:
        return stored(image, write.at, write.data[:cut])
    block = bytearray(image[write.at:write.at + len(write.data)])
    for place in cut:
        block[place] = 0xFF
    return stored(image, write.at, bytes(block))


def image_after(plan, image, stop=None):
    """The image that a move leaves, gone on to its end or to a stop."""
    last = step_count(plan) if stop is None else stop.step - 1
    while plan.steps < last:
        _, plan, image = step(plan, image)
    if stop is None:
        return image
    write = write_of(plan, judged_geometry(plan, image), image)
    return cut_image(write, image, stop.cut)


# ------------------------------------------- what a stopped image must show

# The places that a move writes in or erases: both headers and the data run
# of the new copy, and both headers of the old block.
Places = namedtuple("Places", "new_vid new_data old_ec old_vid")


def move_places(plan, image):
    """Their bytes in an image, before, during or after the move."""
    geometry = ubi.geometry_of(plan.peb_size, plan.unit, plan.sub_unit)
    old = block_of(image, plan.peb_size, plan.old)
    target = block_of(image, plan.peb_size, plan.target)
    return Places(
        target[geometry.vid_start:][:ubi.HEADER_SIZE],
        target[geometry.data_start:][:plan.vid.data_size],
        old[:ubi.HEADER_SIZE],
        old[geometry.vid_start:][:ubi.HEADER_SIZE])


def data_run(plan, image):
    """What the new copy is to hold, from the image the move began with."""
    geometry = ubi.geometry_of(plan.peb_size, plan.unit, plan.sub_unit)
    old = block_of(image, plan.peb_size, plan.old)
    return old[geometry.data_start:][:plan.vid.data_size]


def new_copy_whole(plan, began, stopped):
    """Whether new VID header and data run stand whole in a stopped image.

    Bytes equal to the whole count as whole, whatever was stored.
    """
    found = move_places(plan, stopped)
    return (found.new_vid == ubi.vid_header_bytes(plan.vid)
            and found.new_data == data_run(plan, began))


# The premise's parts, true where they hold: one for each of the places.
Premise = namedtuple("Premise", Places._fields)


def premise_holds(plan, began, stopped):
    """Demand 3's premise, of one stopped image by itself."""
    return all(premise_parts(plan, began, stopped))


def premise_parts(plan, began, stopped):
    """Each of the move's headers and data runs that is not whole has a
    checksum field unlike the checksum of its bytes.

    Decided: magics are not asked, nor the old block's data run. A data run's
    checksum field is one once its header is whole. Of a header of 0xFF alone
    nothing need be asked: its checksum field is never right.
    """
    found, before = move_places(plan, stopped), move_places(plan, began)
    new_vid = ubi.vid_header_bytes(plan.vid)
    new_ec = ubi.ec_header_bytes(plan.ec)
    return Premise(
        found.new_vid == new_vid or has_wrong_checksum(found.new_vid),
        found.new_vid != new_vid or found.new_data == data_run(plan, began)
        or ubi.jamcrc(found.new_data) != plan.vid.data_crc,
        found.old_ec in (before.old_ec, new_ec)
        or has_wrong_checksum(found.old_ec),
        found.old_vid == before.old_vid or has_wrong_checksum(found.old_vid))


def has_wrong_checksum(header):
    return (ubi.number_at(header, ubi.HEADER_CRC_AT, 4)
            != ubi.jamcrc(header[:ubi.HEADER_CRC_AT]))


# ------------------------------------------------------------ the place book

def enough_tables(image, peb_size):
    """Attaching is judged with tables long enough."""
    count = len(image) // peb_size
    return attach.Lent([0] * 2 * count, [0] * 3 * count,
                       [0] * ubi.USER_VOLUMES)


class PlaceBook:
    """Where each LEB is, by the calls and cut points of a list alone.

    It starts as the first map, beside the first image, and never looks at
    an image that someone else's steps left.
    """

    def __init__(self, slip, image):
        self.slip = slip
        self.image = image
        self.peb_size = ubi.geometry_from_slip(slip).peb_size
        self.places = places_of(attach.attach(slip, image, self.tables()))

    def tables(self):
        return enough_tables(self.image, self.peb_size)

    def feed(self, call):
        """An accepted move writes its target, a stopped one if whole."""
        try:
            plan = begin(self.slip, self.image, self.tables(), call.volume,
                         call.leb, call.target)
        except Refused:
            return
        after = image_after(plan, self.image, call.stop)
        if call.stop is None or new_copy_whole(plan, self.image, after):
            self.places[call.volume, call.leb] = call.target
        self.image = after


# --------------------------------------------------------------- self test

def self_test():
    """01's bench move, and that an erased header passes for none."""
    slip, image = attach.bench_input()
    plan = begin(slip, image, enough_tables(image, 1024), 0, 0, 3)
    assert step_count(plan) == 6 and plan.vid.data_size == 3
    assert plan.ec.image_sequence == 0
    first, answers = image, []
    for _ in range(8):
        answer, plan, image = step(plan, image)
        answers.append(answer)
    assert answers == [ON] * 6 + [DONE] * 2
    report = attach.report_of(image, ubi.geometry_from_slip(slip))
    assert report.classes == [1, 1, 0, 1] and report.counters[2] == 10
    assert places_of(report)[0, 0] == 3 and report.highest == 4

    book = PlaceBook(slip, first)
    # Stopped before the last byte of the data: the book stays.
    for cut, place in ((0, 2), (1, 3)):
        book.feed(Call(0, 0, 3, Stop(4, cut)))
        assert book.places[0, 0] == place
        book.image = first
    book.feed(Call(0, 0, 3, None))
    assert book.image == image and book.places[0, 0] == 3
    assert has_wrong_checksum(b"\xff" * ubi.HEADER_SIZE)


if __name__ == "__main__":
    self_test()
    print("mover: self test passed")
