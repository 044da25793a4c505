"""Cases for building images: volume lists with their contents.

A case says by hand what it is about: that the image is built, and with how
many map entries, or the refusal. What it does not say the oracle finds alone;
and every image built is held to the request's promises.
"""

from collections import namedtuple

import builder
import ubi
from builder import volume_field
from cases import Cases, Chance, cycle
from cases_builder_random import add_random_builds
from cases_builder_refused import add_refused_builds
from cases_slip import field, slip_fields
from frames_builder import (IMAGE_BEFORE, builder_answer, builder_image,
                            builder_kinds, builder_payload)
from images import Flash

SEQUENCES = (0, 1, 0xFFFFFFFF, 0x80000000, 0x01020304, 0x5EED0001)


def builder_cases():
    builds = Builds()
    add_bench_builds(builds)
    add_geometries(builds)
    add_peb_counts(builds)
    add_content_lengths(builds)
    add_contents(builds)
    add_refused_builds(builds)
    add_random_builds(builds)
    return builds.cases


class Request(namedtuple(
        "Request", "head fields end sequence lengths content size")):
    """One call: the slip in three parts, and the other arguments.

    `head` are three numbers, `fields` the whole fields behind them, and
    `size` is the lent image's length in bytes.
    """

    @property
    def slip(self):
        return b"".join(self.head_fields + self.fields + [self.end])

    @property
    def head_fields(self):
        return slip_fields(*self.head)[:3] if self.head else []

    @property
    def given(self):
        return self.slip, self.sequence, self.lengths, self.content

    def payload(self):
        return builder_payload(*(self.given + (self.size,)))

    def with_slip(self, slip):
        """The same with any bytes in place of the slip."""
        return self._replace(head=(), fields=[slip], end=b"")

    def with_volumes(self, volumes):
        """The same with another list, of fields' values and contents."""
        return self._replace(
            fields=[field(builder.VOLUME_TAG, value) for value, _ in volumes],
            lengths=[len(content) for _, content in volumes],
            content=b"".join(content for _, content in volumes))


class Builds:
    def __init__(self):
        self.cases = Cases(builder_answer, builder_kinds)
        self.chance = Chance(1401)
        # Image sequences where a case does not care.
        self.sequences = cycle(SEQUENCES)
        # LEBs of 512 bytes: two records.
        self.small = Flash(1024, 512, 64)
        # LEBs of 896 bytes and alignments that leave a pad: five records.
        self.five = Flash(1024, 1, 1)
        # LEBs of 6,364 bytes: 37 records, and 39 PEBs fit an image.
        self.most = Flash(6492, 1, 1)
        # 128 records.
        self.full = Flash(22144, 1, 1)

    def request(self, flash, volumes, pebs):
        """`volumes` are pairs of a field's value and its content."""
        head = flash.peb_size, flash.unit, flash.geometry.sub_unit
        request = Request(head, [], bytes(3), next(self.sequences), [], b"",
                          pebs * flash.peb_size)
        return request.with_volumes(volumes)

    def add(self, request, want=None, entries=None):
        """`want` is True if it is built, else the refusal's number."""
        answer = self.cases.add(request.payload())
        first, image_line = answer.split("\n")[:2]
        if want is not None:
            assert first == (builder.BUILT if want is True
                             else "refused %d at 0" % want), (want, first)
        if first != builder.BUILT:
            before = bytes([IMAGE_BEFORE]) * request.size
            assert image_line == "image %d" % ubi.jamcrc(before)
            return
        _, image = builder_image(request.payload())
        builder.check_promises(*(request.given + (image,)))
        words = answer.split("\n")[2].split(" ")
        assert entries is None or words[2:4] == ["entries", str(entries)]

    def built(self, flash, volumes, pebs, entries=None):
        self.add(self.request(flash, volumes, pebs), True, entries)

    def refused(self, flash, volumes, pebs, number):
        self.add(self.request(flash, volumes, pebs), number)


def static_field(reserved, name=b"boot", **more):
    return volume_field(reserved, kind=ubi.STATIC, name=name, **more)


def sparse(size, room, chance):
    """Few bytes that are not 0xFF: at the ends of it and of each LEB."""
    content = bytearray(b"\xff" * size)
    for start in range(0, size, room):
        end = min(start + room, size)
        for at in (start, start + chance.below(end - start), end - 1):
            content[at] = chance.below(255)
    return bytes(content)


# ------------------------------------------------- bench, geometries, PEBs

def add_bench_builds(builds):
    """01's bench image; other image sequences in it."""
    request = builds.request(builds.five, [(volume_field(1), b"abc")], 4)
    for sequence in SEQUENCES + (2, 255, 256, 65536, 0x7FFFFFFF, 0xFFFFFFFE):
        builds.add(request._replace(sequence=sequence), True, 3)


GEOMETRIES = (
    (1024, 1, 1), (1025, 1, 1), (1031, 1, 1), (1026, 2, 1), (1100, 4, 2),
    (1024, 8, 8), (1024, 16, 1), (1024, 32, 32), (1024, 64, 64),
    (1024, 128, 32), (1024, 128, 128), (1024, 256, 256), (1024, 512, 64),
    (1024, 512, 256), (1536, 512, 512), (2048, 512, 256), (2048, 512, 512),
    (2048, 1024, 64), (3072, 1024, 1024), (4096, 2048, 512), (6144, 2048, 1),
    (6144, 2048, 2048), (8192, 2048, 512), (8192, 4096, 64),
    (12288, 4096, 4096), (16384, 2048, 512), (16384, 128, 32), (22144, 1, 1))


def add_geometries(builds):
    """Each with no volume, and with volumes beyond one LEB."""
    chance = builds.chance
    for numbers in GEOMETRIES:
        flash = Flash(*numbers)
        size, unit = flash.leb_size, flash.unit
        builds.built(flash, [], 2, 2)
        builds.built(flash, [], 3, 2)
        volumes = [(volume_field(3), sparse(size + 1, size, chance)),
                   (static_field(2), sparse(2 * size - 1, size, chance))]
        builds.built(flash, volumes, 7, 6)
        builds.built(flash, volumes, 9, 6)
        # The least alignment that leaves a pad, if any does.
        pads = [alignment for alignment in range(unit, size, unit)
                if size % alignment]
        if pads:
            room = size - size % pads[0]
            builds.built(flash, [
                (static_field(2, alignment=pads[0]),
                 sparse(room + 1, room, chance)),
                (volume_field(2, alignment=pads[0]),
                 sparse(2 * room, room, chance))], 6, 6)
    # Two and three PEBs of the longest that the image can hold.
    for numbers, pebs in (((131072, 2048, 512), 2), ((131072, 4096, 4096), 2),
                          ((87040, 512, 512), 3), ((87381, 1, 1), 3)):
        flash = Flash(*numbers)
        builds.built(flash, [], pebs, 2)
        want = True if pebs == 3 else 20
        builds.add(builds.request(
            flash, [(static_field(1), b"boot")], pebs), want)


def add_peb_counts(builds):
    for flash in (builds.five, builds.small, Flash(2048, 512, 256)):
        for pebs in (0, 1):
            builds.refused(flash, [], pebs, 3)
            builds.refused(flash, [(volume_field(1), b"abc")], pebs, 3)
        builds.built(flash, [], 2, 2)
        builds.refused(flash, [(volume_field(1), b"")], 2, 20)
        builds.built(flash, [(volume_field(1), b"abc")], 3, 3)
        builds.refused(flash, [(volume_field(2), b"abc")], 3, 20)
        for pebs in (4, 5, 8, 17, 64):
            builds.built(flash, [(volume_field(1), b"abc"),
                                 (static_field(pebs - 3), b"boot")], pebs, 4)
        # Not whole PEBs.
        request = builds.request(flash, [(volume_field(1), b"abc")], 4)
        for size in (1, 63, flash.peb_size - 1, flash.peb_size + 1,
                     2 * flash.peb_size - 1, 2 * flash.peb_size + 1,
                     request.size - 1, request.size + 1,
                     request.size + flash.peb_size // 2, 200001):
            builds.add(request._replace(size=size), 3)
    # The most PEBs of an image: none, some and all of them filled.
    five, erased = builds.five, b"\xff" * 896
    builds.built(five, [], 256, 2)
    builds.built(five, [(volume_field(254), b"abc")], 256, 3)
    builds.refused(five, [(volume_field(255), b"abc")], 256, 20)
    for make in (volume_field, static_field):
        builds.built(five, [(make(254), erased * 254)], 256, 256)
        builds.refused(five, [(make(254), erased * 254 + b"\xff")], 256, 21)
    builds.built(five, [(volume_field(100), erased * 100),
                        (static_field(154), erased * 153 + b"end")], 256, 256)
    builds.refused(five, [(volume_field(254), b"\xff" * 262144)], 256, 21)


# -------------------------------------------------------------- the contents

def add_content_lengths(builds):
    """Around each LEB's end and the volume's, with every sort of pad."""
    chance = builds.chance
    # 897 bytes with a pad of 448: one byte more would be half.
    for flash, alignments in ((builds.five, (1, 2, 100, 300, 448, 449, 895,
                                             896)),
                              (Flash(1025, 1, 1), (1, 448, 449, 450, 897)),
                              (Flash(2048, 512, 256), (1, 512, 1024, 1536)),
                              (Flash(1024, 64, 64), (64, 320, 448, 512, 896)),
                              (Flash(1100, 4, 2), (4, 488, 972))):
        for alignment in alignments:
            room = flash.leb_size - flash.leb_size % alignment
            for length in lengths_around(room, 3):
                content = sparse(length, room, chance)
                lebs = -(-length // room)
                for make in (volume_field, static_field):
                    value = make(3, alignment=alignment)
                    if length > 3 * room:
                        builds.refused(flash, [(value, content)], 6, 21)
                    else:
                        builds.built(flash, [(value, content)], 6, 2 + lebs)


def lengths_around(room, lebs):
    return sorted(set(
        [0, 1, room // 2] + [leb * room + beside for leb in range(1, lebs + 1)
                             for beside in (-1, 0, 1)]))


def add_contents(builds):
    five = builds.five
    empty = [(volume_field(2), b""), (static_field(2), b"")]
    builds.built(five, empty[:1], 6, 2)
    builds.built(five, empty[1:], 6, 2)
    builds.built(five, empty, 6, 2)
    # An empty volume before, between and behind others.
    other = static_field(1, name=b"a"), b"one"
    more = volume_field(1, name=b"b"), b"two"
    for volumes in ([empty[0], other], [other, empty[1]],
                    [empty[1], other, empty[0]], [other, empty[1], more],
                    [more, empty[0], other], [more, other]):
        builds.built(five, volumes, 9)
    # Bytes of 0xFF are content like any other.
    for make in (volume_field, static_field):
        for length in (1, 2, 895, 896, 897, 1792, 1793, 2687, 2688):
            builds.built(five, [(make(3), b"\xff" * length)], 6,
                         2 + -(-length // 896))
        for content in (b"\xff" * 896 + b"abc", b"abc" + b"\xff" * 1000,
                        b"abc" + b"\xff" * 1789 + b"def", bytes(1000),
                        b"abc\xff", b"\xffabc", bytes(range(256)) * 7):
            builds.built(five, [(make(3), content)], 6,
                         2 + -(-len(content) // 896))
        # What would be headers, and a record.
        for content in (ubi.EC_MAGIC * 32, ubi.VID_MAGIC * 400,
                        ubi.empty_record_bytes() * 5):
            builds.built(five, [(make(3), content)], 6)
    # The bytes of one volume go on where those of the one before end.
    text = bytes(range(1, 201))
    for first in (0, 1, 63, 100, 199, 200):
        builds.built(five, [(static_field(1), text[:first]),
                            (volume_field(1), text[first:])], 4)
        builds.built(five, [(volume_field(1), text[:first]),
                            (static_field(1), text[first:])], 4)
    # As much as a case has room for, if no byte of it is 0xFF.
    longest = volume_field(80), bytes(
        byte % 255 for byte in builds.chance.bytes(65471))
    request = builds.request(five, [longest], 90)
    assert len(request.payload()) == 65535
    builds.add(request, True, 76)
    # All records, in every order of types and with long contents.
    chance = builds.chance
    for kinds in range(0, 32, 3):
        builds.built(five, [
            (volume_field(2, kind=1 + (kinds >> number & 1),
                          name=b"volume-%d" % number),
             chance.bytes(chance.pick([0, 1, 30, 896, 1000, 1792])))
            for number in range(5)], 12)
