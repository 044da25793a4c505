"""Cases for building: each refusal with what stands just beside it, and every
order of two."""

from itertools import permutations, product

import ubi
from builder import VOLUME_TAG, volume_field
from cases import changed
from cases_slip import field, slip_fields
from images import Flash

U32 = 0xFFFFFFFF
END = bytes(3)

# Content that every volume here has room for.
SOME = b"some"


def add_refused_builds(builds):
    add_cut_slips(builds)
    add_misplaced_fields(builds)
    add_lying_lengths(builds)
    add_bad_geometries(builds)
    add_field_lengths(builds)
    add_volume_counts(builds)
    add_reserved(builds)
    add_alignments(builds)
    add_types_and_flags(builds)
    add_names(builds)
    add_length_lists(builds)
    add_orders(builds)


def boot(reserved=1, name=b"boot", **more):
    return volume_field(reserved, kind=ubi.STATIC, name=name, **more)


def plain(builds):
    """Two volumes with content, and a PEB more than they reserve."""
    return builds.request(builds.five, [(volume_field(2), b"abc"),
                                        (boot(), b"static")], 6)


def numbered(count, reserved=1, **more):
    """So many volumes with short names and one byte each."""
    return [(volume_field(reserved, name=b"%d" % number, **more),
             bytes([number])) for number in range(count)]


# ----------------------------------------------------------------- 1: slips

def add_cut_slips(builds):
    """Cut anywhere, with bytes more, or with another tag or length."""
    request = plain(builds)
    builds.add(request, True, 4)
    whole, volumes = request.slip, request.fields
    for length in range(len(whole)):
        builds.add(request.with_slip(whole[:length]), 1)
        builds.add(request.with_slip(whole[length + 1:]), 1)
    for more in (b"\x00", b"\xff", END, volumes[0], whole[:7], bytes(17),
                 volumes[0] + END, whole):
        builds.add(request.with_slip(whole + more), 1)
        builds.add(request.with_slip(more + whole), 1)
    starts = [0, 7, 12, 17, 17 + len(volumes[0]), len(whole) - 3]
    for at in [start + byte for start in starts for byte in range(3)]:
        for other in (whole[at] ^ 1, whole[at] ^ 0x80, whole[at] + 1 & 0xFF,
                      whole[at] - 1 & 0xFF, 0, 255):
            if other != whole[at]:
                builds.add(request.with_slip(changed(whole, at, [other])), 1)
    # No volume field: what 01 calls a slip.
    nothing = request.with_volumes([])
    builds.add(nothing, True, 2)
    for length in range(20):
        builds.add(nothing.with_slip(nothing.slip[:length]), 1)
        builds.add(nothing.with_slip(nothing.slip + bytes(length + 1)), 1)


def add_misplaced_fields(builds):
    request = plain(builds)
    head, volumes = request.head_fields, request.fields
    # A volume field before the head is over, or behind tag 0.
    for one in volumes + [field(VOLUME_TAG, b"")]:
        for at in range(3):
            early = head[:at] + [one] + head[at:]
            builds.add(request.with_slip(b"".join(early) + END), 1)
            builds.add(request.with_slip(b"".join(early + volumes) + END), 1)
            late = head + volumes[:at] + [END] + volumes[at:] + [one]
            builds.add(request.with_slip(b"".join(late)), 1)
            builds.add(request.with_slip(b"".join(late) + END), 1)
    # Another field between them.
    for tag, value in product((0, 1, 2, 3, 4, 15, 17, 32, 128, 255), (
            b"", b"\x00\x04", b"\x00\x00\x04\x00", volumes[0][3:])):
        for at in range(3):
            fields = volumes[:at] + [field(tag, value)] + volumes[at:]
            builds.add(request._replace(fields=fields), 1)
    # Tag 0 with a value.
    for value in (b"\x00", b"\x00\x00", END, volumes[0]):
        builds.add(request._replace(end=field(0, value)), 1)
        builds.add(request._replace(end=field(0, value) + END), 1)
    # The head's fields in another order, left out, or twice.
    one = request.with_volumes([(boot(), SOME)])
    right = head + one.fields
    for order in permutations(right):
        builds.add(one.with_slip(b"".join(order) + END),
                   True if list(order) == right else 1)
    for at in range(3):
        builds.add(one.with_slip(b"".join(right[:at] + right[at + 1:])
                                 + END), 1)
        builds.add(one.with_slip(b"".join(right[:at + 1] + right[at:])
                                 + END), 1)
        builds.add(one.with_slip(b"".join(right + [right[at]]) + END), 1)
    # A head whose fields have other lengths.
    for at, length in product(range(3), (0, 1, 2, 3, 4, 5, 8)):
        value = head[at][3:].rjust(length, b"\x00")
        value = value[len(value) - length:]
        other = head[:at] + [field(at + 1, value)] + head[at + 1:]
        builds.add(request.with_slip(b"".join(other + volumes) + END),
                   True if other == head else 1)


def add_lying_lengths(builds):
    """A field that says it is longer, or shorter, than it is."""
    request = plain(builds)
    volumes = request.fields
    for number, one in enumerate(volumes):
        behind = len(b"".join(volumes[number + 1:]) + END)
        for more in (-1, 1, 2, behind - 1, behind, behind + 1, 256, 0xFF00):
            length = len(one) - 3 + more
            lying = one[:1] + length.to_bytes(2, "big") + one[3:]
            fields = volumes[:number] + [lying] + volumes[number + 1:]
            builds.add(request._replace(fields=fields), 1)
    # The next field swallowed whole: one volume, with zeroes in its name.
    first, second = volumes
    lying = first[:1] + (len(first) - 3 + len(second)).to_bytes(2, "big")
    swallowing = request._replace(fields=[lying + first[3:], second])
    builds.add(swallowing, 20)
    builds.add(swallowing._replace(lengths=[9]), 20)
    # Names that read like a field or like the end of the slip.
    for name in (b"\x10", b"\x10\x01\x01", b"\x01\x02\x03", b"\xff" * 3):
        builds.built(builds.five, [(boot(name=name), SOME)], 4, 3)
    for name in (END, b"x" + END, second, field(VOLUME_TAG, b"")):
        builds.refused(builds.five, [(boot(name=name), SOME)], 4, 20)


# ------------------------------------------------------------ 2: geometries

BAD_HEADS = (
    (0, 0, 0), (0, 1, 1), (1023, 1, 1), (262145, 1, 1), (U32, 1, 1),
    (0x80000400, 1, 1), (1024, 0, 1), (1024, 1, 0), (1024, 3, 1),
    (1024, 8, 3), (1024, 1, 2), (1024, 32, 64), (1025, 2, 1), (1024, 1024, 1),
    (4096, 4096, 4096), (8192, 4096, 4096), (16384, 8192, 1),
    (65535, 65535, 65535))


def add_bad_geometries(builds):
    request = plain(builds)
    for head in BAD_HEADS:
        other = request._replace(head=head)
        builds.add(other, 2)
        builds.add(other.with_volumes([]), 2)
        # An image of whole PEBs.
        if 0 < head[0] <= 65536:
            builds.add(other._replace(size=4 * head[0]), 2)
        builds.add(other._replace(end=END[:2]), 1)
    # The least PEB sizes that are good.
    for head, pebs in (((1024, 512, 256), 6), ((12288, 4096, 4096), 6)):
        builds.add(request._replace(head=head, size=pebs * head[0]), True)


# ---------------------------------------------------------------- 20: fields

def add_field_lengths(builds):
    request = plain(builds)
    value = boot(name=b"n" * 400)
    for length in (0, 1, 4, 8, 9, 10, 11, 12, 13, 64, 135, 136, 137, 138, 139,
                   255, 256, 267, 300, 393):
        want = True if 11 <= length <= 137 else 20
        one = request.with_volumes([(value[:length], SOME)])
        builds.add(one, want)
        # As the last of two, and as the first.
        other = volume_field(1), b"abc"
        builds.add(one.with_volumes([other, (value[:length], SOME)]), want)
        builds.add(one.with_volumes([(value[:length], SOME), other]), want)
    # Up to the longest that a case has room for.
    for length in (512, 4096, 32768, 65494):
        long = field(VOLUME_TAG, value[:10] + b"n" * (length - 10))
        builds.add(request._replace(fields=[long], lengths=[], content=b""),
                   20)
    # Fields without any content.
    for length in (0, 10, 11, 137, 138):
        want = True if 11 <= length <= 137 else 20
        builds.add(request.with_volumes([(value[:length], b"")]), want)


def add_volume_counts(builds):
    """As many as there are records, and one more; all else is right."""
    for flash, records in ((builds.small, 2), (builds.five, 5),
                           (Flash(2048, 512, 256), 8), (builds.most, 37)):
        assert flash.record_count == records
        for count in sorted({0, 1, 2, records - 1, records, records + 1}):
            pebs = min(count + 2, 39)
            builds.add(builds.request(flash, numbered(count), pebs),
                       True if count <= records else 20,
                       count + 2 if count <= records else None)
    for count in (7, 20, 200):
        builds.refused(builds.five, numbered(count), 220, 20)
    # 128 records; 128 volumes would want more PEBs than an image here has.
    full = builds.full
    builds.built(full, numbered(9), 11, 11)
    for count in (10, 127, 128, 129, 130, 256):
        builds.refused(full, numbered(count), 11, 20)
    # More fields than records, the one beyond bad or a copy of another.
    volumes = numbered(5)
    for value in (b"", boot(0), boot(), volumes[0][0]):
        builds.refused(builds.five, volumes + [(value, b"")], 9, 20)


def add_reserved(builds):
    five = builds.five
    for pebs in (2, 3, 4, 10, 200):
        most = pebs - 2
        for reserved in sorted({0, 1, 2, most - 1, most, most + 1, pebs,
                                pebs + 1} & set(range(300))):
            want = True if 1 <= reserved <= most else 20
            for make in (volume_field, boot):
                for content in (b"", SOME):
                    builds.add(builds.request(
                        five, [(make(reserved), content)], pebs), want)
    for reserved in (255, 256, 257, 65536, 65537, 0x01000001, 0x7FFFFFFF,
                     0x80000000, 0x80000001, U32 - 1, U32):
        builds.refused(five, [(boot(reserved), SOME)], 200, 20)
        builds.refused(five, [(boot(reserved), SOME),
                              (volume_field(1), b"abc")], 200, 20)
    # Sums at the limit, and those that wrap to a small number.
    for reserved in ((1, 1), (3, 5), (5, 3), (4, 5), (8, 1), (1, 8), (8, 8),
                     (2, 2, 2, 2), (2, 2, 2, 1, 1), (2, 2, 2, 2, 1),
                     (0, 1), (1, 0), (0, 0), (1, 0, 1), (1, 1, 0),
                     (0x80000000, 0x80000000), (U32, 1), (U32, 2), (U32, 9),
                     (U32, U32), (1, U32), (0x80000001, 0x80000001),
                     (0x80000000, 0x7FFFFFFF, 2),
                     (0x40000000, 0x40000000, 0x40000000, 0x40000001),
                     (U32, U32, U32, U32, 5)):
        want = True if 0 not in reserved and sum(reserved) <= 8 else 20
        for content in (b"", SOME):
            builds.add(builds.request(five, [
                (volume_field(one, name=b"%d" % number, kind=1 + number % 2),
                 content) for number, one in enumerate(reserved)], 10), want)


def add_alignments(builds):
    for flash in (builds.five, builds.small, Flash(1024, 64, 64),
                  Flash(2048, 512, 256), Flash(1025, 1, 1),
                  Flash(6144, 2048, 2048)):
        size, unit = flash.leb_size, flash.unit
        for alignment in sorted({
                0, 1, 2, 3, unit - 1, unit, unit + 1, 2 * unit, 3 * unit,
                2 * unit + 1, unit // 2, size // 2, size // 2 + 1,
                size - unit, size - 1, size, size + 1, size + unit, 2 * size,
                256 + unit, 65536, 65536 + unit, 0x01000000 + unit,
                0x80000000, 0x80000000 + unit, U32}):
            good = 1 <= alignment <= size and (
                alignment == 1 or alignment % unit == 0)
            for make in (volume_field, boot):
                builds.add(builds.request(
                    flash, [(make(2, alignment=alignment), SOME)], 5),
                    True if good else 20)


def add_types_and_flags(builds):
    five = builds.five
    for kind in (0, 1, 2, 3, 4, 16, 127, 128, 129, 255):
        want = True if kind in (1, 2) else 20
        for content in (b"", SOME):
            builds.add(builds.request(
                five, [(volume_field(1, kind=kind), content)], 4), want)
            builds.add(builds.request(five, numbered(1) + [
                (volume_field(1, kind=kind), content)], 5), want)
    for flags in (0, 1, 2, 3, 4, 5, 8, 16, 32, 64, 128, 129, 254, 255):
        for make in (volume_field, boot):
            builds.add(builds.request(
                five, [(make(1, flags=flags), SOME)], 4),
                True if flags <= 3 else 20)
    for flags in product((0, 1, 2, 3), repeat=2):
        twice = sum(one & 1 for one in flags) > 1
        builds.add(builds.request(five, [
            (volume_field(1, flags=flags[0]), SOME),
            (boot(flags=flags[1]), SOME)], 5), 20 if twice else True)
    for flags in ((1, 0, 0, 0, 1), (0, 1, 0, 1, 0), (0, 0, 0, 1, 1),
                  (1, 1, 1, 1, 1), (2, 2, 2, 2, 2), (2, 3, 2, 2, 2),
                  (3, 2, 2, 2, 3)):
        twice = sum(one & 1 for one in flags) > 1
        builds.add(builds.request(five, [
            (volume_field(1, name=b"%d" % number, flags=one), b"")
            for number, one in enumerate(flags)], 7), 20 if twice else True)


def add_names(builds):
    five = builds.five

    def named(names, want):
        builds.add(builds.request(five, [
            (volume_field(1, name=name, kind=1 + number % 2), SOME)
            for number, name in enumerate(names)], 7), want)

    # Any bytes but zero.
    for name in (b"a", b"\x01", b"\xff", b" ", b"\x7f\x80", b"a" * 127,
                 b"\xff" * 127, bytes(range(1, 128)), bytes(range(129, 256)),
                 b"log\n", b"caf\xc3\xa9", b"UBI#", b"\x10\x10\x10"):
        named([name], True)
    for name in (b"log", b"l", b"n" * 126):
        for at in sorted({0, len(name) // 2, len(name)}):
            named([name[:at] + b"\x00" + name[at:]], 20)
            named([b"other", name[:at] + b"\x00" + name[at:]], 20)
        for at in sorted({0, len(name) // 2, len(name) - 1}):
            named([changed(name, at, b"\x00")], 20)
    named([b"\x00"], 20)
    named([bytes(127)], 20)
    named([b"log\x00" + b"x" * 40], 20)
    # Equal names, at each pair of places; and nearly equal ones.
    distinct = [b"a", b"bb", b"ccc", b"dddd", b"eeeee"]
    named(distinct, True)
    for first in range(5):
        for second in range(first + 1, 5):
            names = list(distinct)
            names[second] = names[first]
            named(names, 20)
    for names in ((b"log", b"lo"), (b"lo", b"log"), (b"log", b"log2"),
                  (b"log", b"Log"), (b"log", b"gol"), (b"a", b"b"),
                  (b"a" * 127, b"a" * 126), (b"a" * 126, b"a" * 127),
                  (b"a" * 126 + b"b", b"a" * 127),
                  (b"b" + b"a" * 126, b"a" * 127), (b"\xff", b"\x7f"),
                  (b"log ", b"log"), (b"a", b"aa", b"aaa", b"aaaa", b"aaaaa"),
                  (b"aaaaa", b"aaaa", b"aaa", b"aa", b"a")):
        named(names, True)
    for names in ((b"log", b"log"), (b"a" * 127, b"a" * 127), (b"a", b"a"),
                  (b"log", b"log\x00"), (b"\xff", b"\xff"),
                  (b"a", b"aa", b"aaa", b"aaaa", b"aa")):
        named(names, 20)
    # Nothing else in the field tells equal names apart.
    builds.refused(five, [(volume_field(1), b"abc"),
                          (boot(2, name=b"log", alignment=7, flags=3),
                           b"def")], 9, 20)


# --------------------------------------------------------------- 21: lengths

def add_length_lists(builds):
    request = plain(builds)
    text = b"abcstatic"
    builds.add(request, True, 4)
    for lengths in ([], [9], [3], [3, 5], [3, 7], [4, 6], [0, 0], [2, 6],
                    [3, 6, 0], [0, 3, 6], [3, 0, 6], [3, 6, 0, 0, 0],
                    [3, 3, 3], [10, 0], [0, 10], [9, 9], [6, 3, 1],
                    [U32, 10], [10, U32], [2 ** 32 - 50, 59], [59, U32 - 49],
                    [0x80000000, 0x80000009], [0x80000009, 0x80000000],
                    [U32, U32], [U32, 0], [0, U32], [0x80000000, 0x80000000],
                    [1 << 8, 9], [1 << 16, 9], [1 << 24, 9]):
        builds.add(request._replace(lengths=lengths), 21)
    for lengths in ([0, 9], [9, 0], [4, 5], [1, 8]):
        builds.add(request._replace(lengths=lengths), True)
    for content in (b"", text[:8], text + b"x", text + b"\xff", b"x" * 256):
        builds.add(request._replace(content=content), 21)
    # As many lengths as there may be in a case.
    for count in (128, 129, 511, 512):
        builds.add(request._replace(lengths=[0] * count, content=b""), 21)
        builds.add(request._replace(lengths=[U32] * count), 21)
        builds.add(request._replace(lengths=[3, 6] + [0] * (count - 2)), 21)
    # Too few or too many for volumes without content, or with all of it in
    # the first.
    for count in (1, 2, 5):
        empty = request.with_volumes(
            [(value, b"") for value, _ in numbered(count)])._replace(
                size=8 * 1024)
        builds.add(empty, True, 2)
        for other in sorted({0, 1, count - 1, count, count + 1, 128}):
            want = True if other == count else 21
            builds.add(empty._replace(lengths=[0] * other), want)
            if other > 0:
                builds.add(empty._replace(lengths=[4] + [0] * (other - 1),
                                          content=SOME), want)
    # No volumes.
    nothing = request.with_volumes([])
    for lengths, content, want in (([], b"", True), ([0], b"", 21),
                                   ([], b"a", 21), ([1], b"a", 21),
                                   ([], b"\xff" * 896, 21), ([0, 0], b"", 21),
                                   ([U32, 1], b"", 21)):
        builds.add(nothing._replace(lengths=lengths, content=content), want)
    add_long_contents(builds)


def add_long_contents(builds):
    """The right sum, but one volume has a byte too many for its LEBs."""
    five = builds.five
    for alignment, room in ((1, 896), (100, 800), (449, 449), (896, 896)):
        for reserved in (1, 2, 3):
            most = reserved * room
            for make in (volume_field, boot):
                value = make(reserved, alignment=alignment)
                other = volume_field(3, name=b"other")
                for length in (most - 1, most, most + 1, most + room):
                    want = True if length <= most else 21
                    content = b"\xff" * (length - 1) + b"z"
                    builds.add(builds.request(
                        five, [(value, content), (other, SOME)], 9), want)
                    builds.add(builds.request(
                        five, [(other, SOME), (value, content)], 9), want)
    # Room in the LEBs of another volume, or in PEBs that nobody reserves,
    # helps nobody; nor does the pad.
    builds.refused(five, [(boot(1), b"x" * 897), (volume_field(5), b"")],
                   100, 21)
    builds.refused(five, [(boot(1, alignment=449), b"x" * 450)], 100, 21)
    builds.refused(five, [(boot(1), b"\xff" * 262144)], 100, 21)
    # A sum and a product beyond 32 bits.
    request = builds.request(five, numbered(5), 9)
    builds.add(request._replace(lengths=[U32] * 5), 21)
    builds.add(request._replace(lengths=[2 ** 30] * 4 + [5]), 21)
    builds.add(request._replace(lengths=[2 ** 31, 2 ** 31, 1, 2, 2]), 21)


# ------------------------------------------------------- the order of checks

def fields_changed(**more):
    """The second volume's field with something else in it."""
    return lambda request: request._replace(fields=request.fields[:1] + [
        field(VOLUME_TAG, boot(**more))])


def parts_changed(**parts):
    return lambda request: request._replace(**parts)


# What brings about each refusal in the plain request, whatever else does.
WAYS = {
    1: (parts_changed(end=END[:2]), parts_changed(end=b"\x00\x00\x01\x00"),
        parts_changed(end=END + b"\x00"),
        lambda request: request._replace(
            fields=request.fields + [field(17, b"")]),
        lambda request: request._replace(
            fields=[slip_fields(1024, 1, 1)[2]] + request.fields),
        lambda request: request.with_slip(request.slip[3:])),
    2: tuple(parts_changed(head=head) for head in (
        (1024, 3, 1), (1024, 1, 2), (1023, 1, 1), (0, 1, 1),
        (4096, 4096, 4096))),
    3: tuple(parts_changed(size=size) for size in (
        0, 1024, 6143, 6145, 262143)),
    20: (fields_changed(reserved=0), fields_changed(reserved=3),
         fields_changed(reserved=U32 - 1), fields_changed(alignment=0),
         fields_changed(alignment=897), fields_changed(flags=4),
         fields_changed(name=b""), fields_changed(name=b"n" * 128),
         fields_changed(name=b"log"), fields_changed(name=b"bo\x00t"),
         lambda request: request._replace(fields=request.fields + [
             field(VOLUME_TAG, b"")]),
         lambda request: request._replace(fields=[
             field(VOLUME_TAG, volume_field(1, name=b"%d" % number))
             for number in range(6)]),
         lambda request: request._replace(fields=request.fields[:1] + [
             field(VOLUME_TAG, volume_field(1, kind=3, name=b"x"))]),
         lambda request: request._replace(fields=[
             field(VOLUME_TAG, volume_field(1, flags=1, name=name))
             for name in (b"x", b"y")])),
    21: (parts_changed(lengths=[]), parts_changed(lengths=[9]),
         parts_changed(lengths=[3, 5]), parts_changed(lengths=[3, 6, 0]),
         parts_changed(lengths=[U32, 10]), parts_changed(content=b""),
         parts_changed(lengths=[3, 897], content=b"\xff" * 900)),
}


def add_orders(builds):
    request = plain(builds)
    for number, ways in sorted(WAYS.items()):
        for way in ways:
            builds.add(way(request), number)
    # With a later one at the same time the earlier is given. What changes
    # the slip as a whole comes last.
    for number in (1, 2, 3, 20):
        for later in [one for one in sorted(WAYS) if one > number]:
            for way, other in product(WAYS[number], WAYS[later]):
                builds.add(way(other(request)), number)
    # All of them at once, and from each on.
    for first in (1, 2, 3, 20):
        for turn in range(7):
            worse = request
            for number in sorted(WAYS, reverse=True):
                if number >= first:
                    worse = WAYS[number][turn % len(WAYS[number])](worse)
            builds.add(worse, first)
