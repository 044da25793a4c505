"""Numbers as they are written on the command line, and as they are shown."""

import re

FORM = re.compile(r"(0[xX][0-9a-fA-F]+|[0-9]+)([kKmM]?)", re.ASCII)
TIMES = {"": 1, "k": 1024, "m": 1024 * 1024}


def parse(word):
    """131072, 128k and 0x20000 are one number; ValueError for anything else."""
    found = FORM.fullmatch(word)
    if found is None:
        raise ValueError("%r is no number: write 131072, 128k or 0x20000" % word)
    digits, unit = found.groups()
    base = 16 if digits[:2].lower() == "0x" else 10
    return int(digits, base) * TIMES[unit.lower()]


def parse_stop(word):
    """STEP or STEP:BYTES, as a pair; the bytes are 0 if they are not named."""
    step, colon, more = word.partition(":")
    return parse(step), parse(more) if colon else 0


def grouped(number):
    """1,048,576: as people read it."""
    return format(number, ",")


def counted(number, noun):
    """1 byte, 2 bytes."""
    return "%s %s%s" % (grouped(number), noun, "" if number == 1 else "s")


def sized(number):
    """The shortest of bytes, KiB and MiB that says it exactly."""
    for unit, word in ((1 << 20, "MiB"), (1 << 10, "KiB")):
        if number >= unit and number % unit == 0:
            return "%s %s" % (grouped(number // unit), word)
    return counted(number, "byte")


def ranges(numbers):
    """Ascending numbers, runs put together: 1, 4 to 7, 9."""
    runs = []
    for number in numbers:
        if runs and runs[-1][1] == number - 1:
            runs[-1][1] = number
        else:
            runs.append([number, number])
    return ", ".join(str(low) if low == high else "%d to %d" % (low, high) for low, high in runs)
