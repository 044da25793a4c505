"""Change request 2026-02: an image sequence of 0 says nothing, and all others on a chip agree."""

import json
import unittest
from itertools import product

from support import Case, Flash, oracle_listing, options_of, run

import attach
import mover
import ubi
from check_moves import Shown
from clib import ON, PLAN_WORDS, REPORT_WORDS, Functions, Held, Lent, library_path
from frames_mover import plan_numbers
from images import LAYOUT, ways_to_lose, with_image_seqs

# Six blocks: the table twice, both LEBs of volume 0, two free ones.
FLASH = Flash(1024, 64, 64)
OPTIONS = options_of(FLASH) + ("--blocks", 6)
FIRST, SECOND = (0, 0, 4), (0, 1, 5)
OLD_BLOCKS = {FIRST: 2, SECOND: 3}
NONE = (0,) * 6
OLD_ALONE = (0, 0, 7, 0, 0, 0)

# Image sequences by block, and the chip's: the first that is not 0.
ATTACHED = (((0, 5, 5, 5, 5, 5), 5), ((5, 5, 5, 5, 5, 0), 5), ((0, 0, 0, 0, 0, 0xFFFFFFFF), 0xFFFFFFFF),
            ((0, 0, 0x80000000, 0, 0x80000000, 0), 0x80000000), (NONE, 0))
# And the block that 7 refuses.
REFUSED = (((0, 5, 0, 9, 0, 0), 3), ((0, 0, 0, 0, 5, 9), 5), ((9, 0, 0, 0, 0, 5), 5), ((0, 5, 9, 5, 0, 9), 2))
# Words of a report and a plan; what is in lent words before a call.
IMAGE_SEQ, PLAN_IMAGE_SEQ, FILL = 12, 22, 99


def blocks_with(*sequences):
    flash = Flash(1024, 64, 64)
    blocks = flash.with_tables([flash.volume(reserved=2)], flash.dynamic(0, 0, 3, b"abc"),
                               flash.dynamic(0, 1, 4, b"d" * 100), flash.free(), flash.free())
    return with_image_seqs(blocks, sequences)


def image_with(*sequences):
    return FLASH.image(blocks_with(*sequences))


def lost_headers():
    """Images with a lost header that has 9 in it, and the image sequence that they have without it."""
    for raw in ways_to_lose(FLASH.ec(image_sequence=9)).values():
        for at, sequences, named in ((0, (0, 0, 5, 0, 5, 0), 5), (3, (0, 0, 0, 0, 5, 0), 5), (2, NONE, 0)):
            blocks = blocks_with(*sequences)
            blocks[at] = blocks[at]._replace(ec=raw)
            yield FLASH.image(blocks), named


def planned(image, move):
    """The oracle's plan."""
    return mover.begin(FLASH.slip, image, mover.enough_tables(image, FLASH.peb_size), *move)


def header_seq(image, block):
    """The image sequence in a block's EC header, lost or not."""
    return ubi.number_at(image, block * FLASH.peb_size + 24, 4)


def contents(image):
    return Shown(image, FLASH.geometry).contents


# -------------------------------------------------------------- what is shown

class Tool(Case):
    def command(self, name, image, *more):
        return run(name, self.file("dump", image), *OPTIONS, *more)

    def json(self, image, status=0):
        done = self.command("list", image, "--json")
        self.ends(done, status)
        return json.loads(done.stdout.decode("ascii"))

    def page(self, image, status=0):
        self.ends(self.command("report", image, "-o", self.path("page")), status)
        return self.content("page").decode("utf-8")

    def test_zeroes_are_no_fault(self):
        for sequences, _ in ATTACHED:
            image = image_with(*sequences)
            self.ends(self.command("list", image), 0, oracle_listing(FLASH.slip, image))
            done = self.command("show", image)
            self.ends(done, 0)
            self.assertIn(b"grade 0: nothing wrong was found\n", done.stdout)

    def test_the_chip_s_number(self):
        for sequences, named in ATTACHED:
            image = image_with(*sequences)
            found = self.json(image)
            self.assertEqual((found["report"]["image_seq"], found["faults"]), (named, []))
            said = str(named) if named else "0: no block names its image"
            self.assertIn("<tr><th>Image sequence</th><td>%s</td></tr>\n" % said, self.page(image))

    def test_numbers_that_differ(self):
        for sequences, place in REFUSED:
            image, line = image_with(*sequences), "refused 7 at %d" % place
            self.assertEqual(oracle_listing(FLASH.slip, image), line.encode() + b"\n")
            meaning = "Block %d was written as part of another image than the first block that names one." % place
            for name in ("list", "show"):
                done = self.command(name, image)
                self.ends(done, 2, line.encode() + b"\n")
                self.assertIn(b"refused 7: " + meaning.encode(), done.stderr)
            found = self.json(image, 2)["refused"]
            self.assertEqual((found["line"], found["place"], found["meaning"]), (line, place, meaning))
            self.assertIn("<p>%s</p>" % meaning, self.page(image, 2))

    def test_a_lost_header_says_nothing(self):
        for image, named in list(lost_headers())[-6:]:
            self.ends(self.command("list", image), 1, oracle_listing(FLASH.slip, image))
            self.assertEqual(self.json(image, 1)["report"]["image_seq"], named)


# ----------------------------------------------------------- the C functions

class Called(unittest.TestCase):
    def setUp(self):
        self.functions = Functions(library_path())

    def tables(self, image):
        """Lent to the library, and the oracle's."""
        wanted = mover.enough_tables(image, FLASH.peb_size)
        return [Lent("I", len(table), FILL) for table in wanted], wanted

    def attached(self, image):
        """The report's words; they and the tables are the oracle's."""
        lent, wanted = self.tables(image)
        words = Lent("Q", REPORT_WORDS, FILL)
        answer = self.functions.call("attach", FLASH.slip, Held(image), *lent, words)
        self.assertEqual(answer, words.words()[0])
        try:
            report = attach.attach(FLASH.slip, image, wanted)
            named = attach.image_sequence_of(attach.read_pebs(image, FLASH.geometry))
            told = [0, 0, *FLASH.geometry, report.peb_count, report.entry_count, report.mean, report.highest, named,
                    report.read_only, report.table_taken, report.copies_mark, report.grade]
        except ubi.Refused as refused:
            told = [refused.number, refused.place] + [FILL] * (REPORT_WORDS - 2)
        self.assertEqual(words.words(), told)
        self.assertEqual([table.words() for table in lent], list(wanted))
        return told

    def begun(self, image, move):
        """The answer and the plan's words, still lent."""
        plan = Lent("Q", PLAN_WORDS, FILL)
        return self.functions.call("begin", FLASH.slip, Held(image), *self.tables(image)[0], *move, plan), plan

    def test_every_chip_with_two_numbers_and_zeroes(self):
        for sequences in product((0, 5, 0x80000005), repeat=6):
            words = self.attached(image_with(*sequences))
            named = next(filter(None, sequences), 0)
            others = [block for block, sequence in enumerate(sequences) if sequence not in (0, named)]
            if others:
                self.assertEqual(words[:2], [7, others[0]], sequences)
            else:
                self.assertEqual((words[0], words[IMAGE_SEQ]), (0, named), sequences)

    def test_a_lost_header_says_nothing(self):
        for image, named in lost_headers():
            words = self.attached(image)
            self.assertEqual((words[0], words[IMAGE_SEQ]), (0, named))
            self.assertEqual(self.begun(image, SECOND)[1].words()[PLAN_IMAGE_SEQ], named)

    def test_every_plan_of_a_chip_with_zeroes(self):
        """Whichever of old block, target and the others have it."""
        for sequences in product((0, 7), repeat=6):
            image = image_with(*sequences)
            for move in (FIRST, SECOND, (LAYOUT, 0, 4), (LAYOUT, 1, 5)):
                answer, plan = self.begun(image, move)
                self.assertEqual((answer, plan.words()), (0, [0, 0] + plan_numbers(planned(image, move))), sequences)
                self.assertEqual(plan.words()[PLAN_IMAGE_SEQ], max(sequences), sequences)

    def test_no_plan_where_numbers_differ(self):
        for sequences, place in REFUSED:
            answer, plan = self.begun(image_with(*sequences), FIRST)
            self.assertEqual((answer, plan.words()), (7, [7, place] + [FILL] * (PLAN_WORDS - 2)))

    def test_cuts_of_an_erase(self):
        """The old block alone has it. Bytes erased in any order; then the next move."""
        before = image_with(*OLD_ALONE)
        for erased, named in (((), 7), (range(64, 1024), 7), ((63,), 0), (range(24, 28), 0), ((5, 6, 7), 0),
                              (range(64), 0), (range(1024), 0)):
            answer, plan = self.begun(before, FIRST)
            self.assertEqual(answer, 0)
            held, wanted = Held(before), planned(before, FIRST)
            for _ in range(mover.step_count(wanted) - 2):
                self.assertEqual(self.functions.call("step", plan, held), ON)
                _, wanted, _ = mover.step(wanted, before)
            image = held.bytes()
            cut = mover.cut_image(mover.write_of(wanted, FLASH.geometry, image), image, erased)
            self.assertEqual(self.attached(cut)[IMAGE_SEQ], named, erased)
            answer, plan = self.begun(cut, SECOND)
            self.assertEqual((answer, plan.words()[PLAN_IMAGE_SEQ]), (0, named), erased)
            held = Held(cut)
            self.assertEqual(self.functions.call("finish", plan, held), 0)
            self.assertEqual(held.bytes(), mover.image_after(planned(cut, SECOND), cut))
            self.assertEqual(self.attached(held.bytes())[IMAGE_SEQ], named, erased)
            self.assertEqual(contents(held.bytes()), contents(before), erased)


# ------------------------------------------------------------------- the tool

class Moves(Case):
    def moved(self, image, move, *more):
        """What the tool leaves on a copy and in place, which is one; and the listing of it."""
        words = OPTIONS + ("--volume", move[0], "--leb", move[1], "--to", move[2]) + more
        path = self.file("dump", image)
        for where in (("-o", self.path("out")), ("--in-place",)):
            self.ends(run("move", path, *words, *where), 0)
        left = self.content("out")
        self.assertEqual(self.content("dump"), left)
        listed = json.loads(run("list", path, *OPTIONS, "--json").stdout.decode("ascii"))
        return left, listed

    def check(self, left, listed, move, named):
        """All of it moved: the header that was written last has the chip's number."""
        self.assertEqual(header_seq(left, OLD_BLOCKS[move]), named)
        self.assertEqual(listed["report"]["image_seq"], named)
        self.assertIn({"volume": move[0], "leb": move[1], "peb": move[2]}, listed["map"])

    def test_whole_moves(self):
        """It is that of another block, of the target alone, of the old block alone, or there is none."""
        for sequences, named in (((7, 7, 7, 7, 0, 7), 7), ((0, 0, 0, 0, 7, 0), 7), (OLD_ALONE, 7), (NONE, 0)):
            image = image_with(*sequences)
            left, listed = self.moved(image, FIRST)
            self.assertEqual(left, mover.image_after(planned(image, FIRST), image))
            self.check(left, listed, FIRST, named)
            self.assertEqual(listed["report"]["grade"], 0)

    def test_the_only_one_is_lost_in_a_stop(self):
        """Of 4 steps the third erases the old block, which alone has it, and the last stores its header."""
        image = image_with(*OLD_ALONE)
        plan = planned(image, FIRST)
        for step, part, named in ((3, 0, 7), (3, 1, 0), (3, 1024, 0), (4, 28, 0), (4, 64, 7)):
            cut, listed = self.moved(image, FIRST, "--stop-after", "%d:%d" % (step - 1, part))
            stop = mover.Stop(step, range(part) if step == 3 else part)
            self.assertEqual(cut, mover.image_after(plan, image, stop), stop)
            self.assertEqual(listed["report"]["image_seq"], named, stop)
            told = run("diff", self.file("first", image), self.file("cut", cut), *OPTIONS).stdout.splitlines()
            self.assertEqual(b"image_seq 7 -> 0" in told, named == 0, stop)
            left, listed = self.moved(cut, SECOND)
            self.assertEqual(left, mover.image_after(planned(cut, SECOND), cut), stop)
            self.check(left, listed, SECOND, named)
            self.assertEqual(contents(left), contents(image), stop)

    def test_refused(self):
        for sequences, place in REFUSED:
            image = image_with(*sequences)
            done = run("move", self.file("dump", image), *OPTIONS, "--volume", 0, "--leb", 0, "--to", 4, "--in-place")
            self.ends(done, 2, b"refused 7 at %d\n" % place)
            self.assertEqual(self.content("dump"), image)


if __name__ == "__main__":
    unittest.main()
