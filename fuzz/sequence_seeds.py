"""Inputs of both fuzzers in which EC headers have image sequence zero.

    python3 fuzz/sequence_seeds.py DIRECTORY

Writes into DIRECTORY/attach and DIRECTORY/moves: images where none has an
image sequence, where some have it, and where two differ behind a zero; and
moves where the old block or the target alone has it, one of them stopped
where that is lost, with a further move behind it.
"""

import os
import struct
import sys

HERE = os.path.dirname(os.path.abspath(__file__))
sys.dont_write_bytecode = True
sys.path.insert(0, os.path.join(HERE, "..", "oracle"))

import ubi  # noqa: E402
from images import Flash, with_image_seqs  # noqa: E402

# A call's bytes, as fuzz/moves.c has them.
TO_END, STOP = 0, 2
# Bytes below the edge are erased.
BELOW = 0
# The third step, counted from 0.
ERASE = 2


def dump(sequences):
    """The block to move is PEB 2, and 3 and 4 are free."""
    flash = Flash(1024, 64, 64)
    blocks = flash.with_tables(
        [flash.volume()], flash.dynamic(0, 0, 3, b"reading"), flash.free(),
        flash.free())
    return flash.slip + flash.image(with_image_seqs(blocks, sequences))


def call(how, target, step=0, edge=0):
    return struct.pack(">BBHHBBIII16x", 0, how, step, edge, BELOW, 0, 0, 0,
                       target)


def seeds():
    yield "attach/sequence-1-none", b"\x00" + dump((0, 0, 0, 0, 0))
    yield "attach/sequence-2-some", b"\x00" + dump((0, 7, 0, 0, 7))
    yield "attach/sequence-3-two", b"\x01" + dump((0, 7, 0, 9, 7))
    lost = call(STOP, 3, ERASE, ubi.HEADER_SIZE)
    yield "moves/sequence-1-old", b"\x02" + lost + call(TO_END, 4) + dump(
        (0, 0, 7, 0, 0))
    yield "moves/sequence-2-target", b"\x02" + call(TO_END, 3) + call(
        TO_END, 4) + dump((0, 0, 0, 7, 0))


def main(arguments):
    if len(arguments) != 1:
        print(__doc__.strip(), file=sys.stderr)
        return 2
    for name, content in seeds():
        with open(os.path.join(arguments[0], name), "wb") as file:
            file.write(content)
    return 0


if __name__ == "__main__":
    sys.exit(main(sys.argv[1:]))
