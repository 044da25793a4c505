"""Cases for the readers and writers of both headers.

`probe_ec` and `probe_vid` put one set of fields to the reader, with a right
CRC, and to the writer: the writer refuses with 19 exactly what the reader
would not call good.
"""

import frames
import ubi
from cases import Cases, Chance, changed, cycle

U32 = 0xFFFFFFFF
VERSIONS = [0, 1, 2, 128, 255]

VOLUMES = [0, 1, 127, 128, 129, 256, 0x7FFFEFFE, 0x7FFFEFFF, 0x7FFFF000,
           0x7FFFFFFE, 0x7FFFFFFF, 0x80000000, 0xFFFFEFFF, 0xFFFFFFFF]


def header_cases():
    probes = Probes()
    add_good(probes)
    add_ec_boundaries(probes)
    add_versions(probes)
    add_small_fields(probes)
    add_volumes(probes)
    add_leb_numbers(probes)
    add_sizes(probes)
    add_static(probes)
    add_dynamic(probes)
    add_layout(probes)
    add_many_at_once(probes)
    add_damaged_bytes(probes)
    add_lengths(probes)
    return probes.cases


def numbers(table, values):
    return b"".join(value.to_bytes(width, "big")
                    for (_, _, width), value in zip(table, values))


def u32(value):
    return value.to_bytes(4, "big")


class Probes:
    def __init__(self):
        self.cases = Cases(frames.header_answer, frames.header_kinds)
        self.chance = Chance(303)
        # Slices and buffers are mostly a header long, at times longer.
        self.tails = cycle([0, 0, 1, 0, 16, 0, 0, 7])
        self.buffers = cycle([64, 65, 64, 80, 64, 64, 72])

    def slice(self, raw):
        return raw + self.chance.bytes(next(self.tails))

    def buffer(self):
        return self.chance.nonzero_bytes(next(self.buffers))

    def read_ec(self, lent, want=None):
        self.cases.add(bytes([frames.READ_EC]) + lent, want)

    def read_vid(self, leb_size, lent, want=None):
        self.cases.add(bytes([frames.READ_VID]) + u32(leb_size) + lent, want)

    def write_ec(self, header, buffer, want=None):
        self.cases.add(bytes([frames.WRITE_EC])
                       + numbers(ubi.EC_FIELDS, header) + buffer, want)

    def write_vid(self, leb_size, header, buffer, want=None):
        self.cases.add(bytes([frames.WRITE_VID]) + u32(leb_size)
                       + numbers(ubi.VID_FIELDS, header) + buffer, want)

    def probe_ec(self, header, want=None):
        self.read_ec(self.slice(ubi.ec_header_bytes(header)), want)
        self.write_ec(header, self.buffer(), wanted_of_writer(want))

    def probe_vid(self, leb_size, header, want=None):
        raw = ubi.vid_header_bytes(header)
        self.read_vid(leb_size, self.slice(raw), want)
        self.write_vid(leb_size, header, self.buffer(),
                       wanted_of_writer(want))


def wanted_of_writer(want):
    if want is None:
        return None
    return "written" if want == "good" else "refused 19"


def good_vid_headers(leb_size):
    """One of each sort, good for any LEB size above 2."""
    dynamic = ubi.VidHeader(
        version=1, type=ubi.DYNAMIC, copy_flag=0, compatibility=0, volume=3,
        leb=7, data_size=0, used_lebs=0, data_pad=0, data_crc=0, sequence=19)
    copy = dynamic._replace(
        copy_flag=1, data_size=leb_size // 2, data_crc=0x12345678)
    static = dynamic._replace(
        type=ubi.STATIC, volume=5, leb=2, used_lebs=4, data_size=leb_size,
        data_crc=0xCAFEF00D)
    layout = dynamic._replace(
        volume=ubi.LAYOUT_VOLUME, compatibility=ubi.REJECT, leb=0)
    pad = (leb_size - 1) // 2
    headers = {
        "dynamic": dynamic,
        "dynamic copy": copy,
        "dynamic padded": dynamic._replace(data_pad=pad),
        "dynamic copy padded": copy._replace(
            data_pad=pad, data_size=leb_size - pad),
        "static": static,
        "static padded": static._replace(
            data_pad=pad, data_size=leb_size - pad),
        "static copy": static._replace(copy_flag=1),
        "static last": static._replace(leb=3, data_size=1),
        "static last full": static._replace(leb=3),
        "static only": static._replace(leb=0, used_lebs=1, copy_flag=1),
        "layout 0": layout,
        "layout 1": layout._replace(leb=1),
        "layout copy": layout._replace(
            copy_flag=1, data_size=leb_size, data_crc=1),
    }
    for compatibility in ubi.INTERNAL_COMPATIBILITIES:
        other = {"volume": 0x7FFFF000 + compatibility,
                 "compatibility": compatibility}
        for kind in ("dynamic", "dynamic copy padded", "static last"):
            headers["internal %d %s" % (compatibility, kind)] = \
                headers[kind]._replace(**other)
    return headers


EC = ubi.EcHeader(version=1, counter=3, vid_start=64, data_start=128,
                  image_sequence=0x1F2E3D4C)


def add_good(probes):
    for leb_size in (172, 897, 129024, 0x80000000, U32):
        headers = good_vid_headers(leb_size)
        for name in sorted(headers):
            probes.probe_vid(leb_size, headers[name], "good")
    dynamic = good_vid_headers(896)["dynamic copy"]
    for sequence in (0, 1, 0xFFFFFFFF, 2 ** 32, 2 ** 63 - 1, 2 ** 63,
                     2 ** 64 - 2, 2 ** 64 - 1, 0x0102030405060708):
        probes.probe_vid(896, dynamic._replace(sequence=sequence), "good")
    for crc in (0, 1, 0x80000000, U32, 0x01020304):
        probes.probe_vid(896, dynamic._replace(data_crc=crc), "good")

    probes.probe_ec(EC, "good")
    chance = probes.chance
    for _ in range(40):
        probes.probe_ec(EC._replace(
            counter=chance.below(0x80000000), vid_start=chance.below(2 ** 32),
            data_start=chance.below(2 ** 32),
            image_sequence=chance.below(2 ** 32)), "good")


def add_ec_boundaries(probes):
    counters = [(0, "good"), (1, "good"), (0x7FFFFFFE, "good"),
                (0x7FFFFFFF, "good"), (0x80000000, "lost"),
                (0x80000001, "lost"), (0xFFFFFFFE, "lost"),
                (0xFFFFFFFF, "lost"), (2 ** 32, "lost"),
                (2 ** 32 + 5, "lost"), (0x7FFFFFFF00000000, "lost"),
                (2 ** 63, "lost"), (2 ** 63 + 1, "lost"),
                (2 ** 64 - 1, "lost"), (0x0100000000000000, "lost")]
    for counter, want in counters:
        probes.probe_ec(EC._replace(counter=counter), want)
        for version in VERSIONS:
            if version == 0:
                want_with_version = "lost"
            else:
                want_with_version = want if version == 1 else "newer"
            probes.probe_ec(EC._replace(counter=counter, version=version),
                            want_with_version)
    # The reader judges none of these; 6 and 7 belong to attaching.
    for value in (0, 1, 63, 64, 65, 0x7FFFFFFF, 0x80000000, U32):
        probes.probe_ec(EC._replace(vid_start=value), "good")
        probes.probe_ec(EC._replace(data_start=value), "good")
        probes.probe_ec(EC._replace(image_sequence=value), "good")


def add_versions(probes):
    broken = [{"type": 9}, {"copy_flag": 7}, {"volume": U32}, {"leb": U32},
              {"data_pad": U32}, {"data_size": U32}, {"used_lebs": U32},
              {"type": 0, "volume": 128, "copy_flag": 2, "data_pad": 900}]
    for name in ("dynamic", "static", "layout 1", "internal 2 static last"):
        header = good_vid_headers(896)[name]
        for version in VERSIONS:
            if version == 0:
                want = "bad"
            else:
                want = "good" if version == 1 else "newer"
            probes.probe_vid(896, header._replace(version=version), want)
        for change in broken:
            for version in (0, 1, 2, 255):
                probes.probe_vid(
                    896, header._replace(version=version, **change),
                    "bad" if version < 2 else "newer")
    # The LEB size does not make a newer header any older.
    header = good_vid_headers(896)["dynamic"]
    for leb_size in (0, 1, U32):
        probes.probe_vid(leb_size, header._replace(version=2), "newer")
        probes.probe_vid(leb_size, header._replace(version=0), "bad")


def add_small_fields(probes):
    """Copy flag and type, all else being right for one of the types."""
    headers = good_vid_headers(896)
    for name in ("dynamic", "dynamic copy", "static", "static copy",
                 "layout 0", "internal 4 static last"):
        header = headers[name]
        for flag in (2, 3, 127, 128, 254, 255):
            probes.probe_vid(896, header._replace(copy_flag=flag), "bad")
        for kind in (0, 3, 4, 127, 128, 255):
            probes.probe_vid(896, header._replace(type=kind), "bad")
        other = ubi.STATIC + ubi.DYNAMIC - header.type
        probes.probe_vid(896, header._replace(type=other), "bad")
    # A type that is neither may not pass as one that is not static.
    for kind in (0, 3):
        probes.probe_vid(
            896, headers["static last"]._replace(type=kind), "bad")


def add_volumes(probes):
    headers = good_vid_headers(896)
    for volume in VOLUMES:
        for compatibility in (0, 1, 2, 3, 4, 5, 6, 255):
            if volume < 128:
                good = compatibility == 0
            elif 0x7FFFEFFF <= volume <= 0x7FFFFFFF:
                good = compatibility in (1, 2, 4, 5)
            else:
                good = False
            numbers_of_volume = {"volume": volume, "leb": 0,
                                 "compatibility": compatibility}
            layout = volume == 0x7FFFEFFF
            probes.probe_vid(
                896, headers["dynamic"]._replace(**numbers_of_volume),
                "good" if good and (not layout or compatibility == 5)
                else "bad")
            probes.probe_vid(
                896, headers["static only"]._replace(**numbers_of_volume),
                "good" if good and not layout else "bad")


def add_leb_numbers(probes):
    headers = good_vid_headers(896)
    dynamic, static = headers["dynamic"], headers["static"]
    for name in ("dynamic", "dynamic copy", "internal 1 dynamic"):
        for leb, want in ((0, "good"), (1, "good"), (2, "good"),
                          (0x7FFFFFFE, "good"), (0x7FFFFFFF, "good"),
                          (0x80000000, "bad"), (0x80000001, "bad"),
                          (U32, "bad")):
            probes.probe_vid(896, headers[name]._replace(leb=leb), want)
    for leb, used, want in (
            (0, 0x7FFFFFFE, "good"), (0, 0x7FFFFFFF, "good"),
            (0, 0x80000000, "bad"), (0, U32, "bad"),
            (0x7FFFFFFD, 0x7FFFFFFF, "good"),
            (0x7FFFFFFE, 0x7FFFFFFF, "good"),
            (0x7FFFFFFF, 0x7FFFFFFF, "bad"),
            (0x7FFFFFFF, 0x80000000, "bad"),
            (0x80000000, 0x7FFFFFFF, "bad"),
            (0x80000000, 0x80000001, "bad"),
            (0xFFFFFFFE, U32, "bad"), (U32, U32, "bad"), (U32, 0, "bad")):
        probes.probe_vid(
            896, static._replace(leb=leb, used_lebs=used), want)
    for used in (1, 8, 0x7FFFFFFF, 0x80000000, U32):
        probes.probe_vid(896, dynamic._replace(used_lebs=used), "bad")


def add_sizes(probes):
    """Pad and data size against the LEB size, any LEB size."""
    # No LEB size at all, and the smallest ones.
    for leb_size, pad, want in (
            (0, 0, "bad"), (0, 1, "bad"), (1, 0, "good"), (1, 1, "bad"),
            (2, 0, "good"), (2, 1, "bad"), (3, 1, "good"), (3, 2, "bad"),
            (0x7FFFFFFF, 0x3FFFFFFF, "good"), (0x7FFFFFFF, 0x40000000, "bad"),
            (0x80000000, 0x3FFFFFFF, "good"), (0x80000000, 0x40000000, "bad"),
            (U32, 0x7FFFFFFF, "good"), (U32, 0x80000000, "bad"),
            (U32, U32, "bad")):
        header = good_vid_headers(leb_size or 3)["dynamic"]
        probes.probe_vid(leb_size, header._replace(data_pad=pad), want)
    for leb_size in (172, 173, 129024):
        headers = good_vid_headers(leb_size)
        half = leb_size // 2
        for pad in (0, half - 1, half, half + 1, leb_size,
                    # Twice these is small or 0 in 32 bits.
                    0x80000000, 0x80000001, 0x80000000 + half - 1):
            fits = 2 * pad < leb_size
            probes.probe_vid(
                leb_size, headers["dynamic"]._replace(data_pad=pad),
                "good" if fits else "bad")
            for beside in (-1, 0, 1):
                size = (leb_size - pad + beside) % 2 ** 32
                sized = {"data_pad": pad, "data_size": size}
                probes.probe_vid(
                    leb_size, headers["dynamic copy"]._replace(**sized),
                    "good" if fits and beside <= 0 else "bad")
                probes.probe_vid(
                    leb_size, headers["static"]._replace(**sized),
                    "good" if fits and beside == 0 else "bad")
                probes.probe_vid(
                    leb_size, headers["static last"]._replace(**sized),
                    "good" if fits and beside <= 0 else "bad")
    for size in (897, 0x7FFFFFFF, 0x80000000, U32):
        for name in ("dynamic copy", "static last"):
            probes.probe_vid(896, good_vid_headers(896)[name]._replace(
                data_size=size), "bad")


def add_static(probes):
    static = good_vid_headers(896)["static"]
    for used in (0, 1, 2, 1000):
        for leb in (0, used - 2, used - 1, used, used + 1):
            if leb < 0:
                continue
            for size in (0, 1, 895, 896, 897):
                header = static._replace(
                    leb=leb, used_lebs=used, data_size=size)
                good = leb < used and (
                    size == 896 or leb == used - 1 and 0 < size < 896)
                probes.probe_vid(896, header, "good" if good else "bad")
    for crc in (0, 1, U32):
        for flag in (0, 1):
            probes.probe_vid(896, static._replace(
                data_crc=crc, copy_flag=flag), "good")


def add_dynamic(probes):
    headers = good_vid_headers(896)
    for name in ("dynamic", "layout 0", "internal 5 dynamic"):
        header = headers[name]
        for flag in (0, 1):
            for size in (0, 1, 896, 897):
                for crc in (0, 1, U32):
                    for used in (0, 1):
                        if flag == 0:
                            good = size == crc == used == 0
                        else:
                            good = 0 < size <= 896 and used == 0
                        probes.probe_vid(896, header._replace(
                            copy_flag=flag, data_size=size, data_crc=crc,
                            used_lebs=used), "good" if good else "bad")


def add_layout(probes):
    headers = good_vid_headers(896)
    for name in ("layout 0", "layout copy"):
        header = headers[name]
        for leb in (0, 1, 2, 3, 255, 256, 0x01000000, 0x7FFFFFFF,
                    0x80000000):
            probes.probe_vid(896, header._replace(leb=leb),
                             "good" if leb < 2 else "bad")
        for compatibility in (0, 1, 2, 3, 4, 6):
            probes.probe_vid(896, header._replace(
                compatibility=compatibility), "bad")
        for pad in (1, 2, 447):
            padded = {"data_pad": pad}
            if header.data_size:
                padded["data_size"] = 896 - pad
            probes.probe_vid(896, header._replace(**padded), "bad")
            # What the layout volume may not, its neighbour may.
            probes.probe_vid(896, header._replace(
                volume=ubi.LAYOUT_VOLUME + 1, **padded), "good")
        probes.probe_vid(896, header._replace(
            volume=ubi.LAYOUT_VOLUME + 1, leb=2), "good")
    for leb, used in ((0, 1), (0, 2), (1, 2)):
        header = headers["layout 0"]._replace(
            type=ubi.STATIC, leb=leb, used_lebs=used, data_size=896)
        probes.probe_vid(896, header, "bad")
        probes.probe_vid(
            896, header._replace(volume=ubi.LAYOUT_VOLUME + 1), "good")


def add_many_at_once(probes):
    """Some fields of a good header replaced by values at boundaries."""
    chance = probes.chance
    for _ in range(300):
        leb_size = chance.pick([0, 1, 2, 172, 173, 896, 1000, 129024, U32])
        headers = good_vid_headers(max(leb_size, 3))
        header = headers[chance.pick(sorted(headers))]
        pools = {
            "version": [0, 1, 1, 1, 2],
            "type": [0, 1, 2, 3],
            "copy_flag": [0, 1, 2],
            "compatibility": [0, 1, 2, 3, 4, 5],
            "volume": VOLUMES,
            "leb": [0, 1, 2, 3, 4, 0x7FFFFFFF, 0x80000000],
            "data_size": [0, 1, leb_size // 2, leb_size,
                          (leb_size + 1) & U32],
            "used_lebs": [0, 1, 3, 4, 0x7FFFFFFF, 0x80000000],
            "data_pad": [0, 1, leb_size // 2, leb_size],
            "data_crc": [0, 1, U32],
            "sequence": [0, 1, 2 ** 64 - 1],
        }
        change = {}
        for _ in range(chance.between(1, 4)):
            name = chance.pick(list(ubi.VidHeader._fields))
            change[name] = chance.pick(pools[name])
        probes.probe_vid(leb_size, header._replace(**change))
    # Fields at random are practically never good.
    for _ in range(30):
        probes.probe_vid(
            chance.below(2 ** 32),
            ubi.VidHeader(*[chance.below(256 ** width)
                            for _, _, width in ubi.VID_FIELDS]))
        probes.probe_ec(
            ubi.EcHeader(*[chance.below(256 ** width)
                           for _, _, width in ubi.EC_FIELDS]))


def with_crc(raw):
    """The bytes with the CRC put right again."""
    return raw[:60] + u32(ubi.jamcrc(raw[:60]))


def add_damaged_bytes(probes):
    """Magic, CRC, padding and single bits, which no writer can produce."""
    chance = probes.chance
    headers = good_vid_headers(896)

    def read_ec(raw, want):
        probes.read_ec(probes.slice(raw), want)

    def read_vid(raw, want):
        probes.read_vid(896, probes.slice(raw), want)

    samples = [(read_ec, "lost", ubi.ec_header_bytes(header)) for header in
               (EC, EC._replace(counter=0x7FFFFFFF, image_sequence=0))]
    samples += [(read_vid, "bad", ubi.vid_header_bytes(headers[name]))
                for name in ("static last", "dynamic copy")]
    newer = [(read_ec, "lost", ubi.ec_header_bytes(EC._replace(version=2))),
             (read_vid, "bad", ubi.vid_header_bytes(
                 headers["dynamic"]._replace(version=2)))]

    for read, not_good, raw in samples + newer:
        crc = ubi.number_at(raw, 60, 4)
        swapped = int.from_bytes(u32(crc), "little")
        for wrong in (0, U32, crc ^ U32, swapped, crc ^ 1, crc ^ 0x80000000,
                      (crc + 1) & U32, ubi.jamcrc(raw[:59]),
                      ubi.jamcrc(raw[4:60]), ubi.jamcrc(raw)):
            if wrong != crc:
                read(raw[:60] + u32(wrong), not_good)
        for magic in (b"UBI#", b"UBI!", b"#IBU", b"!IBU", b"ubi#", b"ubi!",
                      b"UBI\x00", b"UBI\"", bytes(4), b"\xff" * 4):
            if magic != raw[:4]:
                read(with_crc(magic + raw[4:]), not_good)
                read(magic + raw[4:], not_good)
        for at in range(4):
            for bit in (0, 7):
                magic = changed(raw[:4], at, [raw[at] ^ 1 << bit])
                read(with_crc(magic + raw[4:]), not_good)

    for read, not_good, raw in samples:
        for at in range(64):
            for bit in (at % 8, (at + 5) % 8):
                read(changed(raw, at, [raw[at] ^ 1 << bit]), not_good)

    # Padding counts through the CRC alone: with a right one all is good.
    ec_padding = [5, 6, 7] + list(range(28, 60))
    vid_padding = [16, 17, 18, 19, 36, 37, 38, 39] + list(range(48, 60))
    for (read, _, raw), padding in zip(
            samples, [ec_padding, ec_padding, vid_padding, vid_padding]):
        for at in padding:
            read(with_crc(changed(raw, at, [chance.between(1, 255)])), "good")
        filled = bytearray(raw)
        for at in padding:
            filled[at] = 0xFF
        read(with_crc(bytes(filled)), "good")
    for read, _, raw in newer:
        read(with_crc(changed(raw, 50, [chance.between(1, 255)])), "newer")

    for length in (64, 65, 80):
        for byte in (0, 0xFF, 0x55):
            probes.read_ec(bytes([byte]) * length, "lost")
            probes.read_vid(896, bytes([byte]) * length, "bad")
    # All zero and all 0xFF, but with magic, CRC or both.
    for filler in (bytes(60), b"\xff" * 60):
        read_ec(with_crc(filler), "lost")
        read_vid(with_crc(filler), "bad")
        for magic in (b"UBI#", b"UBI!"):
            body = magic + filler[4:]
            read_ec(body + filler[:4], "lost")
            read_vid(body + filler[:4], "bad")
            probes.read_ec(with_crc(body))
            probes.read_vid(896, with_crc(body))
    # Only the tail of a long slice would make it good.
    good = ubi.ec_header_bytes(EC)
    probes.read_ec(b"\x00" + good, "lost")
    probes.read_ec(b"\xff" * 64 + good, "lost")
    probes.read_ec(good + good, "good")
    good = ubi.vid_header_bytes(headers["dynamic"])
    probes.read_vid(896, b"\x00" + good, "bad")
    probes.read_vid(896, b"\xff" * 64 + good, "bad")
    probes.read_vid(896, good + good, "good")
    for _ in range(20):
        probes.read_ec(chance.bytes(64), "lost")
        probes.read_vid(896, chance.bytes(64), "bad")


def add_lengths(probes):
    """Slices and buffers too short, just long enough, and longer."""
    chance = probes.chance
    headers = good_vid_headers(896)
    ec = ubi.ec_header_bytes(EC)
    vid = ubi.vid_header_bytes(headers["static last"])
    for length in range(64):
        probes.read_ec(ec[:length], "refused 4")
        probes.read_vid(896, vid[:length], "refused 4")
    for length in (0, 1, 32, 63):
        probes.read_ec(b"\xff" * length, "refused 4")
        probes.read_vid(896, b"\xff" * length, "refused 4")
        probes.read_vid(0, vid[:length], "refused 4")
    for length in (64, 65, 66, 100, 128, 1000, 4096):
        probes.read_ec(ec + chance.bytes(length - 64), "good")
        probes.read_vid(896, vid + chance.bytes(length - 64), "good")

    ec_fields = [(EC, "good"), (EC._replace(version=0), "lost"),
                 (EC._replace(version=2), "newer"),
                 (EC._replace(counter=0x80000000), "lost"),
                 (EC._replace(counter=0x7FFFFFFF), "good")]
    vid_fields = [(header, "good") for header in
                  (headers["dynamic"], headers["static"], headers["layout 1"])]
    vid_fields += [(headers["dynamic"]._replace(**change), want)
                   for change, want in (
                       ({"version": 0}, "bad"), ({"version": 2}, "newer"),
                       ({"type": 0}, "bad"), ({"copy_flag": 2}, "bad"),
                       ({"volume": 128}, "bad"), ({"data_size": 1}, "bad"),
                       ({"data_pad": 448}, "bad"), ({"leb": U32}, "bad"))]
    for length in (0, 1, 32, 63, 64, 65, 80, 128):
        for filler in (0x00, 0xFF, None):
            if filler is None:
                buffer = chance.nonzero_bytes(length)
            else:
                buffer = bytes([filler]) * length
            for header, want in ec_fields:
                probes.write_ec(header, buffer, "refused 4" if length < 64
                                else wanted_of_writer(want))
            for header, want in vid_fields if filler is None else []:
                probes.write_vid(896, header, buffer, "refused 4"
                                 if length < 64 else wanted_of_writer(want))
