"""Compares a listing program with the oracle on dumps by chance.

    python3 oracle/compare.py build/ubilist [--count 5000] [--seed 1]

The same seed gives the same dumps. At the first difference the dump is kept
in a temporary file, its path is printed, and the exit status is 1.
"""

import argparse
import os
import subprocess
import sys
import time

# The modules beside this one are read only: leave no cache among them.
sys.dont_write_bytecode = True
sys.path.insert(0, os.path.dirname(os.path.abspath(__file__)))

from cases import Chance  # noqa: E402
from cases_listing_random import random_dump  # noqa: E402
from listing import SLIP_SIZE, listing  # noqa: E402
from programs import chosen_by, keep  # noqa: E402

SECONDS = 60

# Every so many dumps come in two pieces, as `cat slip dump |` may send them.
IN_PIECES = 50


def run(program, dump, in_pieces=False):
    """Standard output and exit status of the program given this dump."""
    process = subprocess.Popen([program], stdin=subprocess.PIPE,
                               stdout=subprocess.PIPE)
    try:
        if in_pieces:
            send(process, dump[:SLIP_SIZE])
            dump = dump[SLIP_SIZE:]
        # Input that the program does not read is no error.
        output, _ = process.communicate(dump, timeout=SECONDS)
    except subprocess.TimeoutExpired:
        process.kill()
        process.communicate()
        return b"", "none after %d seconds" % SECONDS
    return output, process.returncode


def send(process, piece):
    """A piece that the program has most likely read before the next."""
    try:
        process.stdin.write(piece)
        process.stdin.flush()
        time.sleep(0.02)
    except BrokenPipeError:
        pass


def agrees(program, dump, in_pieces=False):
    """Whether it prints what the oracle does; if not, says and keeps how.

    01 names no exit status: any will do but one of a crash.
    """
    output, status = run(program, dump, in_pieces)
    wanted = listing(dump)
    if output == wanted and isinstance(status, int) and status >= 0:
        return True
    print("a difference: exit status %s, dump of %d bytes in %s" % (
        status, len(dump), keep(dump, "ubilist-", ".dump")))
    print("the oracle prints\n%sthe program prints\n%s" % (
        shown(wanted), shown(output)), end="")
    return False


def shown(text):
    lines = text.decode("ascii", "backslashreplace").splitlines()
    return "".join("    %s\n" % line for line in lines)


def arguments_of(arguments):
    parser = argparse.ArgumentParser(
        description="Compare a listing program with the oracle.")
    parser.add_argument("program", help="path of the listing program")
    return chosen_by(parser, arguments, "dumps", 5000)


def main(arguments):
    chosen = arguments_of(arguments)
    # Seeds of the stored cases are below these.
    chance = Chance(1000000 + chosen.seed)
    attached = 0
    for number in range(chosen.count):
        dump = random_dump(chance)
        if not agrees(chosen.program, dump, number % IN_PIECES == 0):
            print("compared %d dumps, 1 difference" % (number + 1))
            return 1
        attached += listing(dump).startswith(b"attached")
    print("compared %d dumps (%d attach), 0 differences" % (
        chosen.count, attached))
    return 0


if __name__ == "__main__":
    sys.exit(main(sys.argv[1:]))
