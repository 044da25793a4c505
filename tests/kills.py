"""Real stops: `ubibench move --in-place` killed at random moments, and what it leaves judged by demand 3.

    python3 tests/kills.py [--kills 300] [--seed 1] [--directory DIR]
    python3 tests/kills.py --kills 10000

A process that moves a block in a file is killed from outside by SIGKILL: after a random part of the time that the move
takes, or at a random moment after it has told of a random step. Most are forked from this process, which has the tool
loaded already, some are started afresh. The file is then attached by the oracle and by the library:

- it is byte for byte an image that the rules know for a stop in one of the steps;
- it attaches, with the same volume table, states and contents of every LEB as at first;
- its map is the place book, which has the new place exactly if the new header and data run are whole;
- all words that the library gives are the oracle's; and no step was told of that was not stored.

A kill does not lose what the system holds in memory for the disk, a power cut does. So whatever the tool syncs is also
written to a second file, which has no byte that was not synced: it is judged in the same way, and no step may have been
told of that was not synced.

Then the move is tried again on the same file, with another block if the target is spoilt, until it completes; then
another LEB is moved. A run in which fewer than a third of the kills fell inside the steps is a failure. At a failure
the file is kept, the message names it, and the exit status is 1. The seed gives the chips and the choices; no seed
gives the moments at which a process is killed.
"""

import argparse
import mmap
import os
import random
import re
import select
import shutil
import signal
import subprocess
import sys
import tempfile
import time
from collections import Counter, namedtuple
from types import SimpleNamespace

import scale
from clib import REPORT_WORDS, VARIABLE, Functions, Held, Lent, library_path
from scale import PROGRAM

import attach
import mover
import ubi
from check_moves import Shown
from images import IMAGE_SEQUENCE, Flash, with_image_seqs
from programs import keep

from benchtool.cli import main as tool_main
from benchtool import move as tool_move

# PEB size, unit, sub-unit. NOR flash has the unit 1: its LEBs here are short, as each byte is a step.
CHIPS = ((131072, 2048, 512), (131072, 2048, 512), (131072, 2048, 2048), (262144, 4096, 4096), (65536, 512, 512),
         (16384, 512, 256), (65536, 1, 1))
FREE_BLOCKS = 8
MOST_STEPS = 400
NOR_BYTES = 120
# One process of so many is started afresh, with all of Python's start.
FRESH_ONE_IN = 25
# Seconds a step takes, and the start, before any was measured.
STEP_SECONDS, START_SECONDS, FRESH_SECONDS = 0.003, 0.02, 0.15
SECONDS = 120

TOLD = re.compile(rb"step (\d+) of (\d+)")

# How a process ended: killed or by itself (then its status), what it printed, and how long it took.
Ended = namedtuple("Ended", "killed status stdout seconds")


class Failure(Exception):
    """Demand 3 does not hold of a file, or the tool did something else than move."""


def demand(holds, what):
    if not holds:
        raise Failure(what)


# ----------------------------------------------------------------------- chips

def contents(flash, dice):
    """Bytes of a LEB, of the lengths that matter."""
    room = flash.leb_size if flash.unit > 1 else NOR_BYTES
    length = min(room, dice.choice([0, 1, flash.unit, 5 * flash.unit + 3, room // 2, room, room, room]))
    data = dice.randbytes(length)
    # Now and then the end is 0xFF, which a move of a dynamic LEB leaves out.
    return data[:length // 2] + b"\xff" * (length - length // 2) if dice.random() < 0.15 else data


def chip_blocks(flash, dice):
    """Two dynamic LEBs, one with a pad, a static volume and free blocks, in any order; few or all with their image
    sequence, the others with 0."""
    align = 3 * flash.unit if flash.unit > 1 else 3
    records = [flash.volume(b"log", reserved=3), flash.volume(b"boot", reserved=2, type=ubi.STATIC),
               flash.volume(b"padded", reserved=2, alignment=align)]
    pad = records[2].data_pad
    room = flash.leb_size if flash.unit > 1 else NOR_BYTES
    padded = contents(flash, dice)[:flash.leb_size - pad]
    blocks = flash.with_tables(
        records, flash.dynamic(0, 0, 3, contents(flash, dice)),
        flash.copy(0, 2, 4, dice.randbytes(min(room, 2 * flash.unit + 1))),
        flash.dynamic(2, 1, 7, padded, data_pad=pad))
    if flash.unit > 1:
        blocks += [flash.static(1, 0, 2, 5, dice.randbytes(room)), flash.static(1, 1, 2, 6, dice.randbytes(room // 3))]
    else:
        blocks.append(flash.static(1, 0, 1, 5, dice.randbytes(NOR_BYTES)))
    blocks += [flash.free() for _ in range(FREE_BLOCKS)]
    dice.shuffle(blocks)
    named = dice.choice([1, 2, len(blocks)])
    return with_image_seqs(blocks, dice.sample([IMAGE_SEQUENCE] * named + [0] * (len(blocks) - named), len(blocks)))


class Chip:
    """A file with an image, its first state, and the place book; beside it the file of what was synced."""

    def __init__(self, dice, path, synced):
        self.flash = Flash(*dice.choice(CHIPS))
        self.path = path
        self.synced = synced
        self.geometry = self.flash.geometry
        image = self.flash.image(chip_blocks(self.flash, dice))
        with open(path, "wb") as file:
            file.write(image)
        self.image = image
        self.first = self.now = Shown(image, self.geometry)
        self.places = dict(self.first.places)

    def content(self):
        return read(self.path)

    def start_synced(self):
        """All that the file has now is on the disk."""
        with open(self.synced, "wb") as file:
            file.write(self.image)

    def plan(self, move):
        """The oracle's plan, or its refusal."""
        tables = mover.enough_tables(self.image, self.flash.peb_size)
        try:
            return mover.begin(self.flash.slip, self.image, tables, *move)
        except ubi.Refused as refused:
            return refused

    def free(self):
        return [peb for peb, klass in enumerate(self.now.report.classes) if klass == attach.FREE]

    def words(self, move):
        """The tool's command line."""
        numbers = ("--peb-size", self.geometry.peb_size, "--unit", self.geometry.unit, "--sub-unit",
                   self.geometry.sub_unit, "--blocks", self.now.report.peb_count)
        return [str(word) for word in ("move", self.path) + numbers + (
            "--volume", move[0], "--leb", move[1], "--to", move[2], "--in-place")]


def read(path):
    with open(path, "rb") as file:
        return file.read()


# ------------------------------------------------------------------- processes

class Synced(mmap.mmap):
    """A mapping that also writes what is synced to another file."""

    file = None

    def flush(self, offset=0, size=None):
        size = len(self) - offset if size is None else size
        super().flush(offset, size)
        os.pwrite(self.file, self[offset:offset + size], offset)


class Child:
    """The tool in a process of its own: forked from here, or started afresh, and then its syncs are not followed."""

    def __init__(self, words, errors, fresh, synced=None):
        self.out, inner = os.pipe()
        self.synced = None if fresh else synced
        self.began = time.monotonic()
        self.told = b""
        if fresh:
            os.set_inheritable(inner, True)
            self.pid = subprocess.Popen([sys.executable, "-B", PROGRAM] + words, stdout=inner, stderr=errors).pid
        else:
            self.pid = os.fork()
            if self.pid == 0:
                self.be_tool(words, inner, errors)
        os.close(inner)

    def be_tool(self, words, inner, errors):
        status = 70
        try:
            os.dup2(inner, 1)
            os.dup2(errors.fileno(), 2)
            sys.stdout = open(1, "w", closefd=False)
            if self.synced:
                Synced.file = os.open(self.synced, os.O_RDWR)
                tool_move.mmap = SimpleNamespace(**dict(vars(mmap), mmap=Synced))
            status = tool_main(words)
        finally:
            os._exit(status)

    def wait_until_told(self, step):
        """Until it has told of this step or a later one, or has ended."""
        while True:
            piece = self.heard()
            found = TOLD.findall(self.told)
            if not piece or found and int(found[-1][0]) >= step or step == 0 and self.told:
                return

    def heard(self):
        """What it tells next; nothing at its end. One that says nothing for long is killed, and a failure."""
        if not select.select([self.out], [], [], SECONDS)[0]:
            self.kill()
            raise Failure("the tool hangs")
        piece = os.read(self.out, 65536)
        self.told += piece
        return piece

    def kill(self):
        os.kill(self.pid, signal.SIGKILL)

    def ended(self):
        """Waits for the end."""
        while self.heard():
            pass
        os.close(self.out)
        _, status = os.waitpid(self.pid, 0)
        killed = os.WIFSIGNALED(status)
        demand(not killed or os.WTERMSIG(status) == signal.SIGKILL, "the tool ended by signal %d" % (status & 127))
        code = None if killed else os.WEXITSTATUS(status)
        return Ended(killed, code, self.told, time.monotonic() - self.began)


class Clock:
    """How long starts and steps take, as measured on moves that completed."""

    def __init__(self):
        self.step = {}
        self.start = {False: START_SECONDS, True: FRESH_SECONDS}

    def whole(self, kind, steps, fresh):
        return self.start[fresh] + steps * self.step.get(kind, STEP_SECONDS)

    def learn(self, kind, steps, fresh, seconds):
        """Half of what is new; the start is what few steps take."""
        if fresh:
            return
        one = max(1e-5, (seconds - self.start[False]) / steps)
        self.step[kind] = (self.step.get(kind, one) + one) / 2
        if steps < 10:
            self.start[False] = (self.start[False] + seconds) / 2


# ------------------------------------------------------------------- judgement

def pair_of(plan, image):
    """Old block and target alone: what a move may change. Steps of it are quicker to follow."""
    return b"".join(mover.block_of(image, plan.peb_size, number) for number in (plan.old, plan.target))


def stop_in(plan, before, after):
    """The cut point that explains what became of both blocks; None if the move is whole."""
    geometry = ubi.geometry_of(plan.peb_size, plan.unit, plan.sub_unit)
    found = mover.move_places(plan, after)
    last = mover.step_count(plan)
    vid = ubi.vid_header_bytes(plan.vid)
    if found.new_vid != vid:
        return mover.Stop(1, common(found.new_vid, vid))
    run = mover.data_run(plan, before)
    if found.new_data != run:
        units, cut = divmod(common(found.new_data, run), geometry.unit)
        return mover.Stop(2 + units, cut)
    old = mover.block_of(after, plan.peb_size, plan.old)
    ec = ubi.ec_header_bytes(plan.ec)
    if attach.is_erased(old[ubi.HEADER_SIZE:]) and attach.is_erased(old[common(old, ec):]):
        stored = common(old, ec)
        return None if stored == len(ec) else mover.Stop(last, stored)
    return mover.Stop(last - 1, tuple(at for at, byte in enumerate(old) if byte == 0xFF)
                      if old != mover.block_of(before, plan.peb_size, plan.old) else ())


def common(one, other):
    """The length of the front that both share."""
    for at, (left, right) in enumerate(zip(one, other)):
        if left != right:
            return at
    return min(len(one), len(other))


def steps_stored(plan, stop):
    """Whole steps, and whether the next one is torn."""
    if stop is None:
        return mover.step_count(plan), False
    return stop.step - 1, bool(stop.cut)


class Judge:
    def __init__(self):
        self.functions = Functions(library_path())

    def stopped(self, chip, plan, move, ended, synced):
        """What a killed move, or one that ended, left: the steps stored, and whether one is torn.

        None if demand 3's premise does not hold, so that nothing is claimed.
        """
        image = chip.content()
        if synced and self.left(chip, plan, move, ended, read(chip.synced), "synced") is None:
            return None
        found = self.left(chip, plan, move, ended, image, "stored")
        if found is None:
            return None
        stop, places, now = found
        if stop is None:
            demand(now.report.classes[plan.old] == attach.FREE, "the old block is not free")
            demand(now.report.counters[plan.old] == plan.ec.counter, "the old block's counter")
        self.library_words(chip, image, now.report)
        chip.image, chip.now, chip.places = image, now, places
        return steps_stored(plan, stop)

    def left(self, chip, plan, move, ended, image, what):
        """The stop that an image shows, the place book after it, and what attaching it shows."""
        demand(len(image) == len(chip.image), "the length changed")
        small = plan._replace(old=0, target=1)
        before, after = pair_of(plan, chip.image), pair_of(plan, image)
        stop = stop_in(small, before, after)
        demand(mover.image_after(small, before, stop) == after, "no stop leaves blocks like these: %s" % what)
        for number in range(chip.now.report.peb_count):
            demand(number in (plan.old, plan.target) or mover.block_of(image, plan.peb_size, number)
                   == mover.block_of(chip.image, plan.peb_size, number), "block %d changed" % number)
        if not mover.premise_holds(small, before, after):
            return None
        self.told(plan, stop, ended, what)
        places = dict(chip.places)
        if stop is None or mover.new_copy_whole(small, before, after):
            places[move[:2]] = move[2]
        return stop, places, self.demand_3(chip, image, places)

    @staticmethod
    def told(plan, stop, ended, what):
        """No step is told of before it is stored and synced; and one that ended by itself ended well."""
        told = [int(number) for number, _ in TOLD.findall(ended.stdout)]
        demand(max(told + [0]) <= steps_stored(plan, stop)[0], "a step was told of that is not %s" % what)
        if not ended.killed:
            demand(ended.status == 0 and stop is None, "exit status %s" % ended.status)

    @staticmethod
    def demand_3(chip, image, places):
        try:
            now = Shown(image, chip.geometry)
        except ubi.Refused as refused:
            raise Failure("the file does not attach: %s" % refused)
        demand(now.table == chip.first.table, "another volume table")
        demand(now.states == chip.first.states, "other states")
        demand(now.contents == chip.first.contents, "other contents")
        demand(now.places == places, "the map is not the place book")
        return now

    def library_words(self, chip, image, report):
        count = report.peb_count
        wanted = mover.enough_tables(image, chip.flash.peb_size)
        attach.attach(chip.flash.slip, image, wanted)
        lent = [Lent("I", len(words), 7) for words in wanted]
        words = Lent("Q", REPORT_WORDS, 7)
        answer = self.functions.call("attach", chip.flash.slip, Held(image), *lent, words)
        demand(answer == 0, "the library answers %d" % answer)
        demand([one.words() for one in lent] == list(wanted), "the library's tables are not the oracle's")
        named = attach.image_sequence_of(attach.read_pebs(image, chip.geometry))
        demand(words.words()[8:13] == [count, report.entry_count, report.mean, report.highest, named],
               "the report's words")

    def refused(self, chip, refused, ended):
        demand((ended.status, ended.stdout) == (2, b"refused %d at %d\n" % (refused.number, refused.place)),
               "the oracle refuses %d, the tool ends with %s: %r" % (refused.number, ended.status, ended.stdout[:80]))
        demand(chip.content() == chip.image, "a refused move changed the file")


# ---------------------------------------------------------------------- the run

class Run:
    def __init__(self, chosen, directory):
        self.dice = random.Random(chosen.seed)
        self.directory = directory
        self.wanted = chosen.kills
        self.judge = Judge()
        self.clock = Clock()
        self.counts = Counter()
        self.tenths = Counter()
        self.errors = open(os.path.join(directory, "stderr"), "w+b")
        # In memory: on the same disk it would have to be written with each sync.
        self.synced = tempfile.NamedTemporaryFile(prefix="kills-", dir=scale.memory_directory())
        self.chip = None

    @property
    def kills(self):
        return self.counts["kills"]

    def run(self):
        while self.kills < self.wanted:
            self.chip = Chip(self.dice, os.path.join(self.directory, "chip.bin"), self.synced.name)
            self.counts["chips"] += 1
            while self.kills < self.wanted and self.move_until_complete():
                pass

    def move_until_complete(self):
        """One LEB, tried again after each kill; False if no block is left that a kill may spoil."""
        chip = self.chip
        lebs = sorted(leb for leb in chip.places if leb[0] != ubi.LAYOUT_VOLUME or chip.flash.unit > 1)
        leb, target, attempts = self.dice.choice(lebs), None, 0
        while True:
            free = chip.free()
            if not free:
                return False
            target = target if target in free else self.dice.choice(free)
            move, attempts = leb + (target,), attempts + 1
            plan = chip.plan(move)
            demand(isinstance(plan, mover.Plan), "the oracle refuses %s" % (plan,))
            demand(mover.step_count(plan) <= MOST_STEPS, "too many steps for this test")
            # With one block left, or enough kills, it is let go on to its end.
            if self.attempt(plan, move, len(free) > 1 and self.kills < self.wanted):
                self.counts["moves completed after kills" if attempts > 1 else "moves completed at once"] += 1
                return len(free) > 1
            self.try_spoilt(move)

    def attempt(self, plan, move, may_kill):
        """Whether it completed."""
        fresh = may_kill and self.dice.randrange(FRESH_ONE_IN) == 0
        self.chip.start_synced()
        child = Child(self.chip.words(move), self.errors, fresh, self.chip.synced)
        steps = mover.step_count(plan)
        if may_kill:
            self.wait(child, steps, fresh)
            child.kill()
        ended = child.ended()
        where = self.judge.stopped(self.chip, plan, move, ended, child.synced)
        if not ended.killed:
            self.clock.learn(self.chip.geometry, steps, fresh, ended.seconds)
            return True
        self.counts["kills"] += 1
        self.counts["of processes started afresh"] += fresh
        if where is None:
            self.counts["stops outside the premise"] += 1
            raise Failure("a half-stored piece has the right checksum: not met in years, look at it")
        self.note(steps, *where)
        return where[0] == steps

    def wait(self, child, steps, fresh):
        """A random part of the whole time; or until a random step was told of, and a random part of a step."""
        if fresh or self.dice.random() < 0.5:
            time.sleep(self.dice.random() * 1.1 * self.clock.whole(self.chip.geometry, steps, fresh))
            return
        # The steps at both ends as often as all those between.
        child.wait_until_told(self.dice.choice([0, 1, steps - 3, steps - 2, steps - 2, self.dice.randrange(steps)]))
        # At once the signal meets the next store more often than its sync.
        if self.dice.random() < 0.5:
            time.sleep(self.dice.random() ** 3 * 1.5 * self.clock.step.get(self.chip.geometry, STEP_SECONDS))

    def note(self, steps, stored, torn):
        self.counts["torn: in a store or erase"] += torn
        if stored == 0 and not torn:
            self.counts["fell before the first step"] += 1
        elif stored == steps:
            self.counts["fell after the last step was stored"] += 1
        else:
            self.counts["fell inside the steps"] += 1
            self.counts["  in " + self.step_name(steps, stored + torn)] += 1
            self.tenths[10 * stored // steps] += 1

    @staticmethod
    def step_name(steps, number):
        if number == 1:
            return "the VID header's"
        if number < steps - 1:
            return "those of the data"
        return "the erase" if number == steps - 1 else "the EC header's"

    def try_spoilt(self, move):
        """The same move once more: refused where the oracle refuses it, and the file is as it was."""
        if self.dice.randrange(10):
            return
        refused = self.chip.plan(move)
        if isinstance(refused, mover.Plan):
            return
        child = Child(self.chip.words(move), self.errors, False)
        self.judge.refused(self.chip, refused, child.ended())
        self.counts["retries refused %d" % refused.number] += 1

    def tell(self):
        for name in sorted(self.counts, key=lambda name: (name.strip(), name)):
            print("%7d %s" % (self.counts[name], name))
        print("kills inside by tenths of the steps: " + " ".join(str(self.tenths[part]) for part in range(10)))

    def told_errors(self):
        self.errors.seek(0)
        return self.errors.read()[-2000:].decode("utf-8", "replace")


def arguments_of(arguments):
    parser = argparse.ArgumentParser(description="Kills a move in place at random moments and judges the file.")
    parser.add_argument("--kills", type=int, default=300, help="number of kills (300)")
    parser.add_argument("--seed", type=int, default=1, help="which chips and choices (1)")
    parser.add_argument("--directory", help="where the file is (the system's temporary directory)")
    return parser.parse_args(arguments)


def main(arguments):
    chosen = arguments_of(arguments)
    os.environ[VARIABLE] = library_path()
    # Ended from outside, it still removes its files.
    signal.signal(signal.SIGTERM, lambda *_: sys.exit(143))
    directory = tempfile.mkdtemp(prefix="kills-", dir=chosen.directory)
    print("kills: seed %d, %d kills, in %s" % (chosen.seed, chosen.kills, os.path.dirname(directory)), flush=True)
    began = time.monotonic()
    run = Run(chosen, directory)
    try:
        run.run()
    except Failure as failure:
        kept = keep(run.chip.content(), "kills-", ".bin")
        before = keep(run.chip.image, "kills-", ".before")
        print("after %d kills: %s; geometry %s, the file in %s, before the move %s\n%s" % (
            run.kills, failure, tuple(run.chip.geometry[:3]), kept, before, run.told_errors()))
        return 1
    finally:
        shutil.rmtree(directory)
    run.tell()
    inside = run.counts["fell inside the steps"]
    if inside * 3 < run.kills:
        print("kills: only %d of %d fell inside the steps" % (inside, run.kills))
        return 1
    print("kills: %d kills, %d inside the steps, nothing lost (%d s)" % (
        run.kills, inside, time.monotonic() - began))
    return 0


if __name__ == "__main__":
    sys.exit(main(sys.argv[1:]))
