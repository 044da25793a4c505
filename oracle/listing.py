"""The listing program's text: from a dump's bytes to the lines.

    python3 oracle/listing.py < dump

A dump is what the listing program reads on standard input: the slip and
then the image. Written from 01 over `attach.py`; "decided" marks a reading
of a point that 01 leaves open.
"""

import sys

# Run as a program it leaves no cache among the modules beside it.
sys.dont_write_bytecode = True

import attach  # noqa: E402
import ubi  # noqa: E402
from ubi import Refused  # noqa: E402

SLIP_SIZE = 20
MOST_INPUT = 60 * 1024


def listing(data):
    """All that the program prints for these bytes of standard input."""
    try:
        lines = report_lines(attach_dump(bytes(data)))
    except Refused as refused:
        lines = [attach.refusal_line(refused)]
    return "".join(line + "\n" for line in lines).encode("ascii")


def attach_dump(data):
    """Decided: the first 20 bytes, or all if fewer, are the slip, the rest
    the image; and more than the program holds is judged after 1 and 2."""
    slip, image = data[:SLIP_SIZE], data[SLIP_SIZE:]
    geometry = ubi.geometry_from_slip(slip)
    if len(data) > MOST_INPUT:
        raise Refused(attach.IMAGE_NOT_WHOLE_PEBS)
    # Tables that are long enough for any such image.
    most = len(image) // geometry.peb_size
    lent = attach.Lent([0] * 2 * most, [0] * 3 * most, [0] * ubi.USER_VOLUMES)
    return attach.attach(slip, image, lent)


def report_lines(report):
    """'Bench values', the paragraph below the example."""
    lines = [attach.first_line(report)]
    for number, klass in enumerate(report.classes):
        counter = report.counters[number]
        lines.append("peb %d %d %s" % (
            number, klass, "lost" if counter == attach.NONE else counter))
    for entry in report.entries:
        lines.append("map %d %d %d" % (entry.volume, entry.leb, entry.peb))
    for volume, state in enumerate(report.states):
        if state != attach.NO_RECORD:
            lines.append("vol %d %d" % (volume, state))
    return lines


# --------------------------------------------------------------- self test

# 01's own text, to be met byte for byte.
BENCH_LISTING = b"""\
attached 4 entries 3 mean 5 highest 3 readonly 0 table 0 copies 0 grade 0
peb 0 1 3
peb 1 1 5
peb 2 1 9
peb 3 0 4
map 0 0 2
map 2147479551 0 0
map 2147479551 1 1
vol 0 1
"""


def self_test():
    """01's listing in full, and the most input."""
    slip, image = attach.bench_input()
    assert listing(slip + image) == BENCH_LISTING
    assert listing(slip + image[:3072] + b"\xff" * 1024) == (
        BENCH_LISTING.replace(b"peb 3 0 4", b"peb 3 3 lost"))
    assert listing(slip + image[:-1]) == b"refused 3 at 0\n"
    assert listing(slip[:-1]) == b"refused 1 at 0\n"
    # The most input: 20 PEBs of 3,071 bytes; one more byte is too much,
    # though it be 17 whole PEBs of 3,613.
    for peb_size, peb_count, wanted in ((3071, 20, b"refused 10 at 0\n"),
                                        (3613, 17, b"refused 3 at 0\n")):
        blank = b"\xff" * (peb_size * peb_count)
        other = slip[:3] + peb_size.to_bytes(4, "big") + slip[7:]
        assert listing(other + blank) == wanted
        assert listing(other[:-1] + b"\x01" + blank) == b"refused 1 at 0\n"
        assert listing(other[:10] + b"\x00\x03" + other[12:] + blank) == (
            b"refused 2 at 0\n")


def main(arguments):
    if arguments:
        print(__doc__.strip(), file=sys.stderr)
        return 2
    sys.stdout.buffer.write(listing(sys.stdin.buffer.read()))
    return 0


if __name__ == "__main__":
    sys.exit(main(sys.argv[1:]))
