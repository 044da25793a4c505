"""Cases for moving a block: lists of calls on images described in words.

A case says by hand what it is about: which refusal, or some fields of the
plan and what stands where in the end. What it does not say the oracle finds
alone.
"""

import attach
import ubi
from cases import Cases, Chance, cycle
from cases_mover_begin import add_begin_cases
from cases_mover_random import random_chip, random_move, random_stop
from cases_mover_sources import add_source_cases
from cases_mover_steps import add_step_cases
from cases_mover_stops import add_stop_cases
from frames_mover import Script, mover_answer, mover_kinds
from images import Flash


def mover_cases():
    moves = Moves()
    add_bench_case(moves)
    add_look_ups(moves)
    add_begin_cases(moves)
    add_source_cases(moves)
    add_step_cases(moves)
    add_stop_cases(moves)
    add_random_lists(moves)
    return moves.cases


class Moves:
    def __init__(self):
        self.cases = Cases(mover_answer, mover_kinds)
        self.chance = Chance(711)
        # What the lent tables have more than they need.
        self.spare = cycle([(0, 0, 0), (0, 0, 0), (1, 2, 3), (0, 0, 0)])
        # LEBs of 512 bytes in one unit, and short tables.
        self.small = Flash(1024, 512, 64)
        # LEBs of 896 bytes: byte by byte, and in 14 units.
        self.five = Flash(1024, 1, 1)
        self.units = Flash(1024, 64, 64)
        # Bytes between the headers, and two units of data.
        self.gaps = Flash(1024, 256, 256)

    def script(self, flash, blocks, lent=None):
        """A case begun: no call yet."""
        image = blocks if isinstance(blocks, bytes) else flash.image(blocks)
        if lent is None:
            count = len(image) // flash.peb_size
            lent = tuple(map(sum, zip((2 * count, 3 * count, 128),
                                      next(self.spare))))
        return Script(flash.slip, lent, image)

    def add(self, script):
        """The case is whole; what it printed is what its payload says."""
        return self.cases.add(script.payload())

    def refused(self, flash, blocks, move, number, place=0, lent=None):
        script = self.script(flash, blocks, lent)
        wants(script.begin(*move), "refused %d at %d" % (number, place))
        self.add(script)

    def moved(self, flash, blocks, move, **want):
        """A move begun and gone on with to its end."""
        script = self.script(flash, blocks)
        begin_planned(script, move, **want)
        finish(script)
        self.add(script)


def wants(answer, words):
    assert (answer + " ").startswith(words + " "), (words, answer)


def begin_planned(script, move, **want):
    """`want` names fields of the plan and of its headers."""
    wants(script.begin(*move), "planned")
    plan = script.plan
    found = dict(plan.vid._asdict(), counter=plan.ec.counter, old=plan.old,
                 image_sequence=plan.ec.image_sequence)
    for key, value in want.items():
        assert found[key] == value, (key, value, plan)
    assert plan.target == move[2] and plan.steps == 0


def finish(script):
    """To the end, one step beyond, and what attaching then says."""
    plan = script.plan
    steps = 3 + -(-plan.vid.data_size // plan.unit)
    wants(script.run(steps + 1), "ran %d done" % (steps - plan.steps))
    text = script.attach().split("\n")
    wants(text[0], "attached")
    lent = script.bench.lent
    assert lent.pebs[2 * plan.old:][:2] == [attach.FREE, plan.ec.counter]
    assert lent.pebs[2 * plan.target] == attach.CHOSEN


def add_bench_case(moves):
    """01's: six steps, then PEB 2 free with 10, the map 3, highest 4."""
    slip, image = attach.bench_input()
    script = Script(slip, (8, 12, 128), image)
    begin_planned(script, (0, 0, 3), old=2, sequence=4, copy_flag=1,
                  data_size=3, data_crc=ubi.jamcrc(b"abc"), counter=10)
    for number in range(1, 7):
        wants(script.step(), "on %d" % number)
    wants(script.step(), "done")
    wants(script.run(5), "ran 0 done")
    text = script.attach()
    wants(text, "attached 4 entries 3 mean 5 highest 4 readonly 0 table 0 "
                "copies 0 grade 0\npebs 1 3 1 5 0 10 1 4\nmap 0*2 3")
    moves.add(script)


def add_look_ups(moves):
    """01's image: each PEB and LEB, others, and tables that are too short."""
    slip, image = attach.bench_input()
    for lent in ((8, 12, 128), (7, 8, 128), (0, 0, 128)):
        script = Script(slip, lent, image)
        script.attach()
        for peb_count in (0, 3, 4, 5, 2 ** 32 - 1):
            for peb in (0, 2, 3, 4, 2 ** 31, 2 ** 32 - 1):
                script.look_up(peb_count, peb, 3, 0, 0)
        layout, most = ubi.LAYOUT_VOLUME, 2 ** 32 - 1
        for entries in (0, 2, 3, 4, 5, most):
            for volume, leb in ((0, 0), (0, 1), (1, 0), (layout, 0),
                                (layout, 1), (most, most)):
                script.look_up(4, 0, entries, volume, leb)
        moves.add(script)


def add_random_lists(moves):
    """Nothing is expected of these; stops and further moves at will."""
    chance = moves.chance
    for _ in range(100):
        flash, image = random_chip(chance)
        script = moves.script(flash, image)
        try:
            for _ in range(chance.between(1, 5)):
                random_call(script, chance, flash)
        except ubi.Refused:
            # An image that does not attach, at first or by a stop.
            script.begin(0, 0, chance.below(4))
        script.attach()
        moves.add(script)


def random_call(script, chance, flash):
    report = attach.report_of(script.image, flash.geometry)
    if script.begin(*random_move(chance, report)).startswith("refused"):
        return
    if chance.below(2):
        script.run(1000)
        return
    stop = random_stop(chance, script.plan)
    if stop.step > 1:
        script.run(stop.step - 1)
    script.cut(stop.cut)
