"""Cases for the checksum: every short length, every start, long strings."""

import frames
import ubi
from cases import Cases, Chance, cycle

CHECK_STRING = b"123456789"


def crc_cases():
    cases = Cases(frames.crc_answer, frames.crc_kinds)
    chance = Chance(101)

    def add(data, offset, want=None):
        # Junk before the string: a start at 0 would change the answer.
        cases.add(bytes([offset]) + chance.bytes(offset) + data, want)

    check = str(ubi.JAMCRC_CHECK)
    add(CHECK_STRING, 0, check)
    nothing = str(0xFFFFFFFF)
    add(b"", 0, nothing)

    for offset in range(8):
        add(CHECK_STRING, offset, check)
        add(b"", offset, nothing)
        # The start lies beyond the payload: the string is empty.
        for length in range(offset):
            cases.add(bytes([offset]) + chance.bytes(length), nothing)

    # Each one-byte string meets one entry of a table-driven CRC.
    for byte in range(256):
        add(bytes([byte]), byte % 8)

    for length in range(65):
        for offset in (length % 8, (length + 3) % 8):
            add(chance.bytes(length), offset)
    offsets = cycle(range(8))
    for length in range(65):
        add(bytes(length), next(offsets))
        add(b"\xff" * length, next(offsets))

    # One bit set in a string of zeroes, at every place of three words.
    for place in range(24):
        string = bytearray(24)
        string[place] = 1 << (place % 8)
        add(string, place * 5 % 8)

    # Around powers of two, and the lengths 01 itself sums.
    lengths = [60, 168, 172]
    for power in (7, 8, 9, 10, 11, 12):
        lengths += [2 ** power - 1, 2 ** power, 2 ** power + 1]
    for length in lengths:
        if length > 4096:
            continue
        add(chance.bytes(length), next(offsets))
        add(bytes(length), next(offsets))
        add(b"\xff" * length, next(offsets))

    for _ in range(120):
        add(chance.bytes(chance.between(65, 1500)), chance.below(8))
    for _ in range(60):
        add(chance.bytes(chance.between(1500, 4096)), chance.below(8))
    for _ in range(15):
        length = chance.between(65, 4096)
        add(bytes(length), chance.below(8))
        add(b"\xff" * length, chance.below(8))

    # Long strings: all rests of a word, and around the lengths at which the
    # program folds its first four words (568 bytes), and from which on it
    # takes one block of 512 words, two and three (2,600 bytes and 2,048 for
    # each).
    for length in range(4097, 4105):
        add(chance.bytes(length), next(offsets))
    for length in range(548, 602):
        add(chance.bytes(length), next(offsets))
    for blocks in (1, 2, 3):
        for rest in (-17, -16, -9, -4, -1, 0, 1, 4, 8, 15, 16, 17):
            add(chance.bytes(552 + 2048 * blocks + rest), next(offsets))
    add(chance.bytes(65000), next(offsets))
    for length in (5000, 20000):
        add(bytes(length), next(offsets))
        add(b"\xff" * length, next(offsets))
        add(chance.bytes(length), next(offsets))
    # One bit set in a long string of zeroes.
    for place in range(0, 7500, 977):
        string = bytearray(7500)
        string[place] = 1 << (place % 8)
        add(string, next(offsets))
    for _ in range(10):
        add(chance.bytes(chance.between(4105, 12000)), chance.below(8))
    return cases
