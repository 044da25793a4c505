"""Cases for slip and geometry."""

from itertools import permutations

import frames
import ubi
from cases import Cases, Chance, changed

POWERS = [2 ** exponent for exponent in range(13)]
OTHER_UNITS = [0, 3, 5, 6, 7, 9, 63, 65, 100, 127, 129, 511, 513, 1000, 2047,
               2049, 3072, 4095, 4097, 6144, 8191, 8192, 8193, 12288, 16384,
               32767, 32768, 32769, 65535]


def field(tag, value):
    return bytes([tag]) + len(value).to_bytes(2, "big") + value


def slip_fields(peb_size, unit, sub_unit):
    return [field(1, peb_size.to_bytes(4, "big")),
            field(2, unit.to_bytes(2, "big")),
            field(3, sub_unit.to_bytes(2, "big")),
            field(0, b"")]


def slip(peb_size, unit, sub_unit):
    return b"".join(slip_fields(peb_size, unit, sub_unit))


def slip_cases():
    cases = Cases(frames.slip_answer, frames.slip_kinds)
    add_bench(cases)
    add_good_geometries(cases)
    add_geometry_boundaries(cases)
    add_malformed(cases)
    add_random(cases)
    return cases


def add_bench(cases):
    cases.add(slip(1024, 1, 1), "good 1024 1 1 64 128 896")
    cases.add(slip(131072, 2048, 512), "good 131072 2048 512 512 2048 129024")
    cases.add(slip(131072, 2048, 2048),
              "good 131072 2048 2048 2048 4096 126976")
    cases.add(slip(16384, 128, 32), "good 16384 128 32 64 128 16256")
    cases.add(slip(16384, 32, 64), "refused 2")


def add_good_geometries(cases):
    """Every unit and sub-unit, at the smallest and largest PEB sizes."""
    chance = Chance(202)
    for unit in POWERS:
        for sub_unit in [power for power in POWERS if power <= unit]:
            data_start = ubi.smallest_multiple(
                unit, ubi.smallest_multiple(sub_unit, 64) + 64)
            smallest = ubi.smallest_multiple(
                unit, max(1024, data_start + 172))
            cases.add(slip(smallest, unit, sub_unit), "good")
            cases.add(slip(smallest - unit, unit, sub_unit), "refused 2")
            cases.add(slip(262144, unit, sub_unit), "good")
            cases.add(slip(262144 + unit, unit, sub_unit), "refused 2")
            cases.add(slip(262144 - unit, unit, sub_unit), "good")
            # No LEB at all, and less than none.
            for peb_size in (data_start, data_start - unit):
                cases.add(slip(peb_size, unit, sub_unit), "refused 2")
            middle = chance.between(smallest // unit, 262144 // unit) * unit
            cases.add(slip(middle, unit, sub_unit), "good")
            if unit > 1:
                beside = chance.pick([1, unit // 2, unit - 1])
                cases.add(slip(middle - beside, unit, sub_unit), "refused 2")


def add_geometry_boundaries(cases):
    for peb_size in (0, 1, 171, 172, 299, 300, 301, 1022, 1023):
        cases.add(slip(peb_size, 1, 1), "refused 2")
    # A LEB of exactly 171 to 173 bytes needs a PEB below 1,024 bytes.
    for leb_size in (171, 172, 173):
        cases.add(slip(128 + leb_size, 1, 1), "refused 2")
    for peb_size in (1024, 1025, 1026, 262142, 262143, 262144):
        cases.add(slip(peb_size, 1, 1), "good")
    for peb_size in (262145, 262146, 524288, 0x7FFFFFFF, 0x80000000,
                     0x80000400, 0xFFFFFC00, 0xFFFFFFFF, 0x01000000,
                     0x00010000 << 8 | 1024):
        cases.add(slip(peb_size, 1, 1), "refused 2")
    for peb_size in (1024, 2048, 4096, 8192, 262144):
        for unit in (512, 1024, 2048, 4096):
            for sub_unit in (512, 1024, 2048, 4096):
                cases.add(slip(peb_size, unit, sub_unit))
    # Data start above the PEB size: a careless difference would wrap.
    cases.add(slip(1024, 1024, 1024), "refused 2")
    cases.add(slip(2048, 2048, 2048), "refused 2")
    cases.add(slip(4096, 4096, 4096), "refused 2")
    cases.add(slip(4096, 4096, 1), "refused 2")
    cases.add(slip(8192, 4096, 4096), "refused 2")
    cases.add(slip(12288, 4096, 4096), "good")

    # Units that are no powers of two, with a PEB size they do divide.
    for unit in list(range(0, 34)) + OTHER_UNITS + POWERS:
        whole = ubi.smallest_multiple(unit, 100000) if unit else 100000
        wanted = "good" if unit in POWERS else "refused 2"
        cases.add(slip(whole, unit, 1), wanted)
        cases.add(slip(whole, unit, unit), wanted)
        cases.add(slip(65536, unit, 1), wanted)
    for sub_unit in list(range(0, 34)) + OTHER_UNITS + POWERS:
        wanted = "good" if sub_unit in POWERS else "refused 2"
        cases.add(slip(65536, 4096, sub_unit), wanted)
        cases.add(slip(65536, 64, sub_unit),
                  wanted if sub_unit <= 64 else "refused 2")
    # A sub-unit above its unit.
    for unit in POWERS:
        for sub_unit in [power for power in POWERS + [8192] if power > unit]:
            cases.add(slip(65536, unit, sub_unit), "refused 2")


def add_malformed(cases):
    chance = Chance(203)
    good = [(1024, 1, 1), (131072, 2048, 512)]
    for numbers in good:
        whole = slip(*numbers)
        fields = slip_fields(*numbers)

        for at, byte in enumerate(whole):
            # A value may change into another good one, tag and length not.
            is_value = at in (3, 4, 5, 6, 10, 11, 15, 16)
            for other in (byte ^ 1, byte ^ 0x80, (byte + 1) & 0xFF,
                          (byte - 1) & 0xFF, 0, 0xFF):
                if other != byte:
                    cases.add(changed(whole, at, [other]),
                              None if is_value else "refused 1")

        for length in range(len(whole)):
            cases.add(whole[:length], "refused 1")
            cases.add(whole[length + 1:], "refused 1")
        for tail in (b"\x00", b"\xff", b"\x00\x00\x00", b"\x01", fields[3],
                     fields[0], whole, chance.bytes(1), chance.bytes(7),
                     chance.bytes(64), bytes(64), b"\xff" * 64):
            cases.add(whole + tail, "refused 1")
            cases.add(tail + whole, "refused 1")

        for order in permutations(fields):
            cases.add(b"".join(order),
                      "good" if list(order) == fields else "refused 1")
        for chosen in range(15):
            kept = [one for bit, one in enumerate(fields) if chosen >> bit & 1]
            cases.add(b"".join(kept), "refused 1")
        for twice in fields:
            for at in range(5):
                cases.add(b"".join(fields[:at] + [twice] + fields[at:]),
                          "refused 1")
        for strange in (4, 128, 255):
            for at in range(5):
                for value in (b"", b"\x00\x01"):
                    cases.add(b"".join(fields[:at] + [field(strange, value)]
                                       + fields[at:]), "refused 1")

        # Another length: the bytes agree with it ...
        for number, (tag, length) in enumerate(ubi.SLIP_FIELDS):
            value = fields[number][3:]
            for other in range(10):
                if other == length:
                    continue
                wider = value.rjust(other, b"\x00")[-other:] if other else b""
                cases.add(b"".join(fields[:number] + [field(tag, wider)]
                                   + fields[number + 1:]), "refused 1")
            # ... or only the length says so.
            for other in (0, 1, 2, 3, 4, 5, 256, 512, 0x0400, 0xFFFF):
                if other != length:
                    lying = bytes([tag]) + other.to_bytes(2, "big") + value
                    cases.add(b"".join(fields[:number] + [lying]
                                       + fields[number + 1:]), "refused 1")

    # Malformed and outside the rules at once: 1 comes first.
    for numbers in ((0, 0, 0), (1024, 32, 64), (1023, 1, 1),
                    (262145, 1, 1), (4096, 4096, 4096), (65536, 3, 1)):
        whole = slip(*numbers)
        cases.add(whole, "refused 2")
        cases.add(whole + b"\x00", "refused 1")
        cases.add(whole[:-1], "refused 1")
        for at in (0, 1, 2, 7, 8, 9, 12, 13, 14, 17, 18, 19):
            cases.add(changed(whole, at, [whole[at] ^ 4]), "refused 1")

    # 1,024, 1 and 1 with the lowest byte first: other lengths, or other
    # numbers.
    cases.add(bytes([1, 4, 0, 0, 4, 0, 0, 2, 2, 0, 1, 0, 3, 2, 0, 1, 0,
                     0, 0, 0]), "refused 1")
    cases.add(bytes([1, 0, 4, 0, 4, 0, 0, 2, 0, 2, 1, 0, 3, 0, 2, 1, 0,
                     0, 0, 0]), "good 262144 256 256")


def add_random(cases):
    chance = Chance(204)
    for length in (1, 3, 7, 10, 12, 17, 19, 20, 20, 20, 21, 40, 100, 1000):
        cases.add(chance.bytes(length))
        cases.add(bytes(length))
        cases.add(b"\xff" * length)
    for _ in range(150):
        unit = chance.pick(POWERS)
        sub_unit = chance.pick(POWERS[:POWERS.index(unit) + 1])
        if chance.below(8) == 0:
            unit, sub_unit = sub_unit, unit
        peb_size = chance.between(1, 262144 // unit) * unit
        if chance.below(8) == 0:
            peb_size += chance.between(1, unit)
        cases.add(slip(peb_size, unit, sub_unit))
    for _ in range(60):
        cases.add(slip(chance.below(2 ** 32), chance.below(2 ** 16),
                       chance.below(2 ** 16)))
