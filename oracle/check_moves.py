"""Checks demand 3 on lists of moves by chance, within the oracle itself.

    python3 oracle/check_moves.py [--count 10000] [--seed 1]
    python3 oracle/check_moves.py PROGRAM [--count 1000]

PROGRAM is test_mover, as crates/test_mover/out/test_mover, where `rt run`
leaves it.

Each list starts from an image of its own that attaches; its moves are
accepted or refused, gone on with to the end or stopped anywhere. After every
call the image must attach with its first table, states and contents, and its
map must be the place book. A list ends where a stopped image does not meet
demand 3's premise. With a program the same lists are sent to it as cases of
`test_mover`. The same seed gives the same lists; the exit status is 1 at the
first failure or difference.
"""

import argparse
import os
import subprocess
import sys

# The modules beside this one are read only: leave no cache among them.
sys.dont_write_bytecode = True
sys.path.insert(0, os.path.dirname(os.path.abspath(__file__)))

import attach  # noqa: E402
import mover  # noqa: E402
import ubi  # noqa: E402
from cases import Chance  # noqa: E402
from cases_mover_random import (  # noqa: E402
    random_chip, random_move, random_stop)
from frames import framed  # noqa: E402
from frames_mover import Script, mover_answer  # noqa: E402
from programs import chosen_by, keep  # noqa: E402

SECONDS = 600

# Lists sent to a program at once.
BATCH = 100


# --------------------------------------------------------- what must remain

class Shown:
    """What demand 3 speaks of, in one image that attaches."""

    def __init__(self, image, geometry):
        self.report = attach.report_of(image, geometry)
        pebs = attach.read_pebs(image, geometry)
        chosen = attach.choose_copies(pebs)
        table = attach.table_of(chosen, pebs, geometry)
        # Decided: which copy was taken, the record bytes, the copies mark.
        self.table = table.taken, table.part, table.mark
        self.states = self.report.states
        self.places = mover.places_of(self.report)
        self.contents = {leb: content_of(pebs[place], geometry)
                         for leb, place in self.places.items()}

    def remains(self, first):
        return (self.table == first.table and self.states == first.states
                and self.contents == first.contents)


def content_of(peb, geometry):
    if peb.vid.type == ubi.STATIC:
        return peb.data[:peb.vid.data_size]
    return peb.data[:geometry.leb_size - peb.vid.data_pad]


def expected_blocks(plan, began, stop):
    """Target and old block after a move, in one piece and not by steps.

    `stop` is None for a move gone on with to its end.
    """
    geometry = ubi.geometry_of(plan.peb_size, plan.unit, plan.sub_unit)
    last = mover.step_count(plan)
    number, cut = (last + 1, 0) if stop is None else stop
    old = mover.block_of(began, plan.peb_size, plan.old)
    target = mover.block_of(began, plan.peb_size, plan.target)
    vid, ec = ubi.vid_header_bytes(plan.vid), ubi.ec_header_bytes(plan.ec)
    run = old[geometry.data_start:][:plan.vid.data_size]
    if number == 1:
        vid, run = vid[:cut], b""
    elif number < last - 1:
        run = run[:(number - 2) * plan.unit + cut]
    elif number == last - 1:
        old = bytes(0xFF if at in set(cut) else byte
                    for at, byte in enumerate(old))
    else:
        ec = ec[:cut] if number == last else ec
        old = ec + b"\xff" * (plan.peb_size - len(ec))
    for at, data in ((geometry.vid_start, vid), (geometry.data_start, run)):
        target = target[:at] + data + target[at + len(data):]
    return target, old


# ----------------------------------------------------------------- one list

class PremiseFails(Exception):
    """A half-stored or half-erased piece has the right checksum."""


class Walk:
    """A list of moves on one image, run step by step and judged."""

    def __init__(self, slip, image, counts):
        self.slip = slip
        self.geometry = ubi.geometry_from_slip(slip)
        self.first = self.now = Shown(image, self.geometry)
        self.book = mover.PlaceBook(slip, image)
        count = self.first.report.peb_count
        self.script = Script(slip, (2 * count, 3 * count, 128), image)
        self.counts = counts

    @property
    def image(self):
        return self.script.image

    def call(self, chance):
        """One move begun and gone on with, stopped or refused."""
        move = random_move(chance, self.now.report)
        began = self.image
        answer = self.script.begin(*move).split(" ")
        stop = None
        lent = mover.enough_tables(began, self.geometry.peb_size)
        attach.attach(self.slip, began, lent)
        assert self.script.bench.lent == lent
        if answer[0] == "planned":
            self.judge_image_sequence(began)
        if answer[0] == "refused":
            self.counts.add("refused " + answer[1])
        elif chance.below(2):
            stop = random_stop(chance, self.script.plan)
            self.go_on_to(stop)
            if not mover.premise_holds(self.script.plan, began, self.image):
                raise PremiseFails()
        else:
            self.go_on(chance)
        self.book.feed(mover.Call(*(move + (stop,))))
        self.judge(answer, began, stop)

    def judge_image_sequence(self, began):
        """2026-02: nonzero ones agree, so there is one to carry, or none."""
        sequences = {peb.ec.image_sequence for peb in attach.read_pebs(
            began, self.geometry) if peb.ec}
        nonzero = sequences - {0}
        assert {self.script.plan.ec.image_sequence} == (nonzero or {0})
        if not nonzero:
            self.counts.add("begun where no image sequence is left")
        elif 0 in sequences:
            self.counts.add("begun where some image sequences are zero")

    def go_on(self, chance):
        """To the last step and some further ones."""
        plan = self.script.plan
        wanted = 3 + -(-plan.vid.data_size // plan.unit)
        assert self.script.run(wanted).startswith(
            "ran %d on %d " % (wanted, wanted))
        ended = self.image
        for _ in range(chance.below(3)):
            assert self.script.step().startswith("done ")
        assert self.image == ended
        self.counts.add("gone on to the end")

    def go_on_to(self, stop):
        if stop.step > 1:
            self.script.run(stop.step - 1)
        self.script.cut(stop.cut)
        self.counts.add("stopped")

    def judge(self, answer, began, stop):
        """Demand 3, of the list up to and with this call."""
        self.now = Shown(self.image, self.geometry)
        assert self.now.remains(self.first), "table, states or contents"
        assert self.now.places == self.book.places, "the map is not the book"
        assert self.image == self.book.image
        if answer[0] == "refused":
            assert self.image == began
            return
        plan = self.script.plan
        wanted = expected_blocks(plan, began, stop)
        for number in range(self.now.report.peb_count):
            block = mover.block_of(began, plan.peb_size, number)
            if number in (plan.target, plan.old):
                block = wanted[number == plan.old]
            assert block == mover.block_of(self.image, plan.peb_size, number)
        if stop is None:
            assert self.now.report.classes[plan.old] == attach.FREE
            assert self.now.report.counters[plan.old] == plan.ec.counter


class Counts(dict):
    def add(self, key):
        self[key] = self.get(key, 0) + 1


def random_list(chance, counts):
    """The payload of one list that was judged; None if no image attached."""
    flash, image = random_chip(chance)
    try:
        walk = Walk(flash.slip, image, counts)
    except ubi.Refused:
        counts.add("images that do not attach")
        return None
    counts.add("lists")
    try:
        for _ in range(chance.between(1, 8)):
            if attach.FREE not in walk.now.report.classes and chance.below(3):
                break
            walk.call(chance)
            if chance.below(6) == 0:
                walk.script.attach()
    except PremiseFails:
        counts.add("lists ended by the premise")
    except (AssertionError, ubi.Refused) as failed:
        print("a list fails (%s), its case in %s" % (
            failed, keep(framed([walk.script.payload()]), "test_mover-",
                         ".stdin")))
        raise
    walk.script.attach()
    return walk.script.payload()


# -------------------------------------------------------- a program's answer

def agrees(program, payloads):
    """Whether a test program prints for each case what the oracle does."""
    stdin = framed(payloads)
    wanted = "".join(mover_answer(payload) + "\n" for payload in payloads)
    process = subprocess.run([program], input=stdin, timeout=SECONDS,
                             stdout=subprocess.PIPE)
    if process.stdout == wanted.encode("ascii") and process.returncode >= 0:
        return True
    if len(payloads) > 1:
        return all(agrees(program, [payload]) for payload in payloads)
    print("a difference: exit status %d, the case in %s" % (
        process.returncode, keep(stdin, "test_mover-", ".stdin")))
    print("the oracle prints\n%sthe program prints\n%s" % (
        wanted, process.stdout.decode("ascii", "backslashreplace")))
    return False


def arguments_of(arguments):
    parser = argparse.ArgumentParser(
        description="Check demand 3 on lists of moves by chance.")
    parser.add_argument("program", nargs="?",
                        help="path of a test_mover to compare, if any")
    return chosen_by(parser, arguments, "lists", 10000)


def main(arguments):
    chosen = arguments_of(arguments)
    # Seeds of the stored cases are below these.
    chance = Chance(2000000 + chosen.seed)
    counts = Counts()
    batch = []
    while counts.get("lists", 0) < chosen.count:
        payload = random_list(chance, counts)
        if payload is None or chosen.program is None:
            continue
        batch.append(payload)
        if len(batch) == BATCH or counts["lists"] == chosen.count:
            if not agrees(chosen.program, batch):
                return 1
            counts["compared"] = counts.get("compared", 0) + len(batch)
            batch = []
    for key in sorted(counts):
        print("%6d %s" % (counts[key], key))
    print("no failure")
    return 0


if __name__ == "__main__":
    sys.exit(main(sys.argv[1:]))
