"""Inputs of the moves fuzzer in which demand 3's premise does not hold.

    python3 fuzz/premise_seeds.py DIRECTORY

Writes one input for each part of the premise, from the images of
oracle/premise.py: a move stopped where a torn header or data run has a
checksum that fits. The fuzzer has to tell that these stop a list; one that
did not judge the premise would call them failures.
"""

import os
import struct
import sys

HERE = os.path.dirname(os.path.abspath(__file__))
sys.dont_write_bytecode = True
sys.path.insert(0, os.path.join(HERE, "..", "oracle"))

import mover  # noqa: E402
import premise  # noqa: E402
import ubi  # noqa: E402

# A call's bytes, as fuzz/moves.c has them.
STOP = 2
HEADERS_BY_BITS = 8
NOTHING_ELSE, ALL_BEHIND_EC = 0, 7


def bits_of(places):
    """A bit for each of a header's bytes."""
    return sum(1 << at for at in places).to_bytes(8, "little")


def call_of(stopped):
    flash, image, stop = stopped
    plan = premise.plan_on(flash, image)
    cut, erase, ec, vid = stop.cut, 0, [], []
    if stop.step == mover.step_count(plan) - 1:
        start = flash.geometry.vid_start
        ec = [at for at in cut if at < ubi.HEADER_SIZE]
        vid = [at - start for at in cut
               if start <= at < start + ubi.HEADER_SIZE]
        behind = any(at >= flash.geometry.data_start for at in cut)
        erase = HEADERS_BY_BITS | (ALL_BEHIND_EC if behind else NOTHING_ELSE)
        cut = 0
    return struct.pack(">BBHHBBIII", 0, STOP, stop.step - 1, cut, erase, 0,
                       0, 0, premise.TARGET) + bits_of(ec) + bits_of(vid)


def main(arguments):
    if len(arguments) != 1:
        print(__doc__.strip(), file=sys.stderr)
        return 2
    for number, (name, make) in enumerate(premise.PARTS, 1):
        stopped = make()
        path = os.path.join(arguments[0], "premise-%d-%s" % (number, name))
        with open(path, "wb") as file:
            file.write(b"\x01" + call_of(stopped) + stopped.flash.slip
                       + stopped.image)
    return 0


if __name__ == "__main__":
    sys.exit(main(sys.argv[1:]))
