"""Library and bench tool against the oracle, on dumps by chance.

    python3 tests/scale_attach.py [--count 20000] [--seed 1] [--jobs 2] [--only NUMBER]

Each dump, good or damaged, is attached by the library, called straight through its C functions, and by the oracle: the
answer, all lent words and those beyond, the report's words and the listing's bytes must be the same, and what
`ubibench list` prints and ends with. A move is begun, stepped and finished on it, plans are spoilt, and headers,
records and geometries read and written. Every refusal must be met often enough. A dump has its number: the same seed
and number give the same dump. At a difference the dump is kept in a file that the message names, and the exit status
is 1.
"""

import argparse
import sys
from collections import Counter
from multiprocessing import Pool

import scale
from clib import (BAD, EC_WORDS, EMPTY, GEOMETRY_WORDS, LISTING_MOST, NAME_BYTES, ON, PLAN_WORDS, RECORD_WORDS,
                  REPORT_WORDS, UNFIT, VID_WORDS, WRITE_WORDS, Functions, Held, Lent, library_path)
from dumps import dump_of, flip, is_layout

import attach
import listing
import mover
import ubi
from cases import Chance
from cases_mover_random import random_move
from frames_mover import plan_numbers, plan_widths
from programs import keep

BATCH = 250
# The least share of each refusal, and of what a report can show: one in so many dumps.
ONE_IN = 1000
SHOWN = (["attach refused %d" % number for number in range(1, 13)]
         + ["begin refused %d" % number for number in range(1, 18)]
         + ["step refused 18", "finish refused 18", "next_write refused 18", "write_ec refused 19",
            "write_vid refused 19", "listing refused 4", "unfit plan", "unfit header", "unfit report"]
         + ["attached", "planned", "moved to the end"]
         + ["class %d" % klass for klass in range(7)] + ["state %d" % state for state in range(4)]
         + ["table 0", "table 1", "copies 0", "copies 1", "copies 2", "grade 0", "grade 1", "read only"]
         + ["ec read", "ec lost", "ec newer", "vid read", "vid bad", "vid newer", "record good", "record empty",
            "record bad", "geometry good", "geometry refused 2"])
TABLES = attach.Lent._fields
# The words of each function's struct, and two words of a report.
STRUCT_WORDS = {
    "attach": REPORT_WORDS, "listing": REPORT_WORDS, "begin": PLAN_WORDS, "step": PLAN_WORDS, "finish": PLAN_WORDS,
    "next_write": PLAN_WORDS, "geometry": GEOMETRY_WORDS, "read_ec": EC_WORDS, "read_vid": VID_WORDS,
    "write_ec": EC_WORDS, "write_vid": VID_WORDS, "read_record": RECORD_WORDS}
HIGHEST, READ_ONLY = 11, 13
GOOD_WRITES = {False: 1, True: 2}


class Different(Exception):
    """What the library or the tool did is not what the oracle says."""


def same(found, wanted, what):
    if found != wanted:
        raise Different("%s: %s, the oracle says %s" % (what, shortened(found), shortened(wanted)))


def shortened(value):
    text = repr(value)
    return text if len(text) < 400 else text[:400] + ".."


def refusal_of(call):
    """(0, 0, what it gives), or the refusal's number and place."""
    try:
        return 0, 0, call()
    except ubi.Refused as refused:
        return refused.number, refused.place, None


class Case:
    """One dump by its number, and all that is tried on it."""

    def __init__(self, functions, seed, number, counts):
        self.functions = functions
        self.chance = Chance(1 + seed * 1000003 + number * 31)
        self.counts = counts
        self.slip, self.image = dump_of(self.chance)
        self.fill = self.chance.next() & 0xFFFFFFFF
        self.geometry = refusal_of(lambda: ubi.geometry_from_slip(self.slip))[2]
        self.number = number

    def lent_lengths(self):
        """Words of the tables: as many as are wanted, more, or now and then too few."""
        peb_size = self.geometry.peb_size if self.geometry else 1024
        count = len(self.image) // peb_size
        lengths = [2 * count, 3 * count, ubi.USER_VOLUMES]
        lot = self.chance.below(40)
        if lot < 2:
            which = self.chance.below(3)
            lengths[which] = max(0, lengths[which] - self.chance.pick([1, 1, 2, 3, lengths[which]]))
        elif lot < 20:
            lengths = [length + self.chance.below(9) for length in lengths]
        return lengths

    def tables(self, lengths):
        """Lent to the library, and the oracle's own."""
        return ([Lent("I", length, self.fill) for length in lengths],
                attach.Lent(*([self.fill] * length for length in lengths)))

    def same_tables(self, lent, wanted, what):
        for name, found, words in zip(TABLES, lent, wanted):
            same(found.words(), words, "%s of %s" % (name, what))

    def count(self, *names):
        for name in names:
            self.counts[name] += 1

    def run(self):
        report = self.check_attach()
        self.check_tool()
        if report is not None or self.chance.below(2):
            self.check_move(report)
        self.check_headers()
        if self.chance.below(4) == 0:
            self.check_geometry()
            self.check_short_words()

    # ------------------------------------------------------------ attaching

    def check_attach(self):
        lent, wanted = self.tables(self.lent_lengths())
        number, place, report = refusal_of(lambda: attach.attach(self.slip, self.image, wanted))
        short = self.chance.below(60) == 0
        words = Lent("Q", self.chance.below(REPORT_WORDS) if short else REPORT_WORDS + self.chance.below(3), self.fill)
        held = Held(self.image)
        answer = self.functions.call("attach", self.slip, held, *lent, words)
        same(held.bytes() == self.image, True, "the image is as it was")
        if short:
            same(answer, 4, "the answer to a report too short")
            same(words.words(), [self.fill] * words.length, "a report too short")
            same([one.words() for one in lent], [[self.fill] * one.length for one in lent], "its tables")
            return None
        same((answer, words.words()), (number, self.report_words(number, place, report, words.length)), "the report")
        self.same_tables(lent, wanted, "attaching")
        if report is None:
            self.count("attach refused %d" % number)
        else:
            self.count("attached", *self.shown(report))
        self.check_listing(words, lent, number, place, report)
        return report

    def report_words(self, number, place, report, length):
        """A refusal stores two words only."""
        if report is None:
            return [number, place] + [self.fill] * (length - 2)
        sequence = attach.image_sequence_of(attach.read_pebs(self.image, self.geometry))
        return ([0, 0] + list(self.geometry) + [report.peb_count, report.entry_count, report.mean, report.highest,
                sequence, report.read_only, report.table_taken, report.copies_mark, report.grade]
                + [self.fill] * (length - REPORT_WORDS))

    @staticmethod
    def shown(report):
        names = ["class %d" % klass for klass in set(report.classes)]
        names += ["state %d" % state for state in set(report.states)]
        names += ["table %d" % report.table_taken, "copies %d" % report.copies_mark, "grade %d" % report.grade]
        return names + ["read only"] * report.read_only

    # ---------------------------------------------------------- the listing

    def text(self, number, place, report):
        if report is None:
            return b"refused %d at %d\n" % (number, place)
        return "".join(line + "\n" for line in listing.report_lines(report)).encode("ascii")

    def check_listing(self, words, lent, number, place, report):
        """In a buffer that is long, that just fits, or that is too short by little."""
        text = self.text(number, place, report)
        if len(words.words()) < REPORT_WORDS or number == 4:
            return
        room = self.chance.pick([LISTING_MOST, len(text), len(text), len(text) - 1, len(text) + 3])
        out, length = Lent("B", room, 0x5A), Lent("Q", 1, self.fill)
        answer = self.functions.call("listing", words, *lent, out, length)
        if room < len(text):
            self.count("listing refused 4")
            same((answer, length.words(), bytes(out.words())), (4, [self.fill], b"\x5a" * room), "a buffer too short")
            return
        same((answer, length.words()), (0, [len(text)]), "the listing's length")
        same(bytes(out.words()), text + b"\x5a" * (room - len(text)), "the listing")
        if report is not None and self.chance.below(8) == 0:
            self.check_unfit_listing(words, lent)

    def check_unfit_listing(self, words, lent):
        """A report with a word that does not fit its field; the highest sequence fits always."""
        at = self.chance.pick([0, 1] + list(range(2, HIGHEST)) + list(range(HIGHEST + 1, REPORT_WORDS)))
        most = 1 if at == READ_ONLY else 2 ** 32 - 1
        spoilt = words.words()
        spoilt[at] = most + 1 + self.chance.below(99)
        out, length = Lent("B", LISTING_MOST, 0x5A), Lent("Q", 1, self.fill)
        answer = self.functions.call("listing", Lent.of("Q", spoilt, self.fill), *lent, out, length)
        same((answer, length.words(), set(out.words())), (UNFIT, [self.fill], {0x5A}), "report %s" % spoilt)
        self.count("unfit report")

    def check_tool(self):
        """`ubibench list`, mostly with the numbers on the command line."""
        data = self.slip + self.image
        slip, image = data[:listing.SLIP_SIZE], data[listing.SLIP_SIZE:]
        numbers = refusal_of(lambda: ubi.read_slip(slip))[2]
        options = ["--slip"]
        if numbers is not None and self.chance.below(4):
            data, options = image, ["--peb-size", numbers[0], "--unit", numbers[1], "--sub-unit", numbers[2]]
        found = scale.tool_on(data, "list", *options)
        wanted = scale.oracle_listing(slip, image)
        same((found.stdout, found.status), (wanted, scale.status_of(wanted)), "ubibench list")

    # --------------------------------------------------------------- a move

    def check_move(self, report):
        move = (0, 0, 0)
        if report is not None:
            move = random_move(self.chance, report)
        lent, wanted = self.tables(self.lent_lengths())
        number, place, plan = refusal_of(lambda: mover.begin(self.slip, self.image, wanted, *move))
        words, held = Lent("Q", PLAN_WORDS + self.chance.below(3), self.fill), Held(self.image)
        answer = self.functions.call("begin", self.slip, held, *lent, *move, words)
        same(held.bytes() == self.image, True, "the image of a beginning is as it was")
        beyond = [self.fill] * (words.length - PLAN_WORDS)
        if plan is None:
            self.count("begin refused %d" % number)
            same((answer, words.words()), (number, [number, place] + [self.fill] * (PLAN_WORDS - 2) + beyond), "a move")
        else:
            self.count("planned")
            same((answer, words.words()), (0, plan_words(plan) + beyond), "the plan")
            self.check_steps(plan, words, held)
        self.same_tables(lent, wanted, "beginning %s" % (move,))
        self.check_plans(plan)

    def check_steps(self, plan, words, held):
        """Step by step with the next write foretold, and at some step all that are left at once."""
        count = mover.step_count(plan)
        leave = self.chance.below(count + 1) if self.chance.below(2) else count
        leave = min(leave, 40)
        image = self.image
        for _ in range(leave):
            self.check_next_write(plan, words, held, image)
            _, plan, image = mover.step(plan, image)
            same(self.functions.call("step", words, held), ON, "a step")
            same(words.words()[:PLAN_WORDS], plan_words(plan), "the plan after a step")
            same(held.bytes() == image, True, "the image after step %d is the oracle's" % plan.steps)
        self.check_next_write(plan, words, held, image)
        ended = words.words()
        ended[PLAN_WORDS - 1] = count
        same(self.functions.call("finish", words, held), 0, "finishing")
        same((words.words(), held.bytes() == mover.image_after(plan, image)), (ended, True), "what finishing leaves")
        self.check_done(plan, words, held)

    def check_done(self, plan, words, held):
        """Beyond the last step nothing changes."""
        words.cells[PLAN_WORDS - 1] = mover.step_count(plan) + self.chance.pick([0, 1, 7])
        ended, before = held.bytes(), words.words()
        same(self.functions.call("step", words, held), 0, "a further step")
        same((words.words(), held.bytes() == ended), (before, True), "what a further step leaves")
        self.count("moved to the end")

    def check_next_write(self, plan, words, held, image):
        write = mover.write_of(plan, ubi.geometry_of(*plan[:3]), image)
        foretold = Lent("Q", WRITE_WORDS + self.chance.below(2), self.fill)
        same(self.functions.call("next_write", words, held, foretold), 0, "the next write")
        wanted = [0, 0, 0] if write is None else [GOOD_WRITES[write.is_erase], write.at, len(write.data)]
        found = foretold.words()
        # Of no write at all the library says no place.
        same(found if write else found[:1], wanted + [self.fill] * (len(found) - 3) if write else [0], "the next write")

    # -------------------------------------------------------- spoilt plans

    def check_plans(self, plan):
        """Refusal 18, and words that no plan has."""
        if plan is None:
            plan = self.made_plan()
        for _ in range(2):
            spoilt = self.spoilt(plan_words(plan))
            self.check_plan(spoilt, self.chance.pick(["step", "finish", "next_write"]))

    def made_plan(self):
        """One that no beginning gave: volume 0's first LEB, from one block to another."""
        geometry = self.geometry or ubi.geometry_of(1024, 1, 1)
        count = max(2, len(self.image) // geometry.peb_size)
        vid = ubi.VidHeader(1, ubi.DYNAMIC, 1, 0, 0, 0, min(3 * geometry.unit, geometry.leb_size), 0, 0, 77, 4)
        ec = ubi.EcHeader(1, 6, geometry.vid_start, geometry.data_start, 0)
        return mover.Plan(*geometry[:3], self.chance.below(count), self.chance.below(count), vid, ec, 0)

    def spoilt(self, words):
        """One word another one, now and then two; seldom one that does not fit its field."""
        widths = [8, 8] + plan_widths()
        for _ in range(self.chance.pick([1, 1, 1, 2])):
            at = self.chance.between(2, PLAN_WORDS - 1)
            near = words[at] + self.chance.pick([-1, 1, 2])
            most = 2 ** (8 * widths[at]) - 1
            words[at] = self.chance.pick([0, 1, 2, near & most, near & most, words[at] ^ 1 << self.chance.below(
                8 * widths[at]), most, self.chance.next() & most])
            if self.chance.below(12) == 0:
                words[at] = min(most + 1 + self.chance.below(300), 2 ** 64 - 1)
        if self.chance.below(40) == 0:
            words[0] = self.chance.between(1, 19)
        return words

    def check_plan(self, words, name):
        lent, held = Lent.of("Q", words + [self.fill], self.fill), Held(self.image)
        write = Lent("Q", WRITE_WORDS, self.fill)
        more = [write] if name == "next_write" else []
        answer = self.functions.call(name, lent, held, *more)
        wanted, left, steps = self.judged(words, name)
        same(answer, wanted, "%s of the plan %s" % (name, words))
        same(held.bytes() == left, True, "what %s of the plan %s leaves" % (name, words))
        words[PLAN_WORDS - 1] = steps
        same(lent.words(), words + [self.fill], "the plan after %s" % name)
        if wanted == 18:
            self.count("%s refused 18" % name)
            same(write.words(), [self.fill] * WRITE_WORDS, "the write of a refused plan")

    def judged(self, words, name):
        """The answer, the image it leaves, and the plan's number of steps."""
        steps = words[PLAN_WORDS - 1]
        if words[0] or any(word >= 2 ** (8 * width) for word, width in zip(words[2:], plan_widths())):
            self.count("unfit plan")
            return UNFIT, self.image, steps
        plan = plan_of(words)
        number, _, stepped = refusal_of(lambda: mover.step(plan, self.image))
        if number or name == "next_write":
            return number, self.image, steps
        if name == "finish":
            return 0, mover.image_after(plan, self.image), max(steps, mover.step_count(plan))
        answer, after, image = stepped
        return ON if answer == mover.ON else 0, image, after.steps

    # -------------------------------------------- headers, records, geometry

    def check_headers(self):
        """A header or record of the dump, or near it, read; and one of such numbers written."""
        size = self.geometry.leb_size if self.geometry else 896
        kind = self.chance.pick(["ec", "vid", "vid", "record"])
        if kind == "record":
            return self.check_record(size)
        starts = {"ec": 0, "vid": self.geometry.vid_start if self.geometry else 64}
        raw = self.piece(starts[kind], ubi.HEADER_SIZE)
        fields = ubi.EC_FIELDS if kind == "ec" else ubi.VID_FIELDS
        if self.chance.below(2) and len(raw) >= 64:
            raw = self.spoilt_header(raw, fields, size)
        more = [] if kind == "ec" else [size]
        read = ubi.read_ec_header if kind == "ec" else ubi.read_vid_header
        number, _, told = refusal_of(lambda: read(raw, *more))
        verdict, header = told or (None, None)
        answer = {None: number, ubi.GOOD: 0, ubi.NEWER: 5, ubi.LOST: BAD, ubi.BAD: BAD}[verdict]
        self.count("%s %s" % (kind, "read" if verdict == ubi.GOOD else verdict or "short"))
        words = Lent("Q", len(fields) + self.chance.below(2), self.fill)
        same(self.functions.call("read_" + kind, raw, *more, words), answer, "reading %s %s" % (kind, raw.hex()))
        same(words.words(), (list(header) if header else [self.fill] * len(fields))
             + [self.fill] * (words.length - len(fields)), "the words of %s %s" % (kind, raw.hex()))
        self.check_writer(kind, fields, raw, more, size)

    def spoilt_header(self, raw, fields, size):
        """A bit flipped, often in the version, or a field at a limit; and the CRC right."""
        if self.chance.below(2):
            raw = flip(raw, self.chance.pick([4, self.chance.below(64), self.chance.below(64)]), self.chance)
        else:
            _, offset, width = self.chance.pick(fields)
            value = self.limit(size, ubi.number_at(raw, offset, width)) % 2 ** (8 * width)
            raw = raw[:offset] + value.to_bytes(width, "big") + raw[offset + width:]
        return raw[:60] + ubi.jamcrc(raw[:60]).to_bytes(4, "big") + raw[64:]

    def limit(self, size, value):
        """A number near this one, or near one that a rule names."""
        named = [0, 1, 2, 5, 127, 128, ubi.LAYOUT_VOLUME, ubi.LAST_INTERNAL_VOLUME, 0x7FFFFFFF, 0x80000000, size,
                 size // 2, (size + 1) // 2, 2 ** 32 - 1, value, value]
        return max(0, self.chance.pick(named) + self.chance.pick([-1, 0, 0, 1]))

    def piece(self, start, size, wanted=None):
        """So many bytes of a block from a place on, of a layout block if asked for; now and then too few, or more."""
        peb_size = self.geometry.peb_size if self.geometry else 1024
        at = self.chance.below(max(1, len(self.image) // peb_size)) * peb_size
        layouts = [peb for peb in range(0, len(self.image), peb_size)
                   if wanted and wanted(self.image[peb:peb + peb_size])]
        raw = self.image[(self.chance.pick(layouts) if layouts else at) + start:][:size]
        return raw[:self.chance.below(size)] if self.chance.below(30) == 0 else raw + b"more" * self.chance.below(2)

    def check_writer(self, kind, fields, raw, more, size):
        """The fields that stand there, one of them near or at a limit."""
        padded = raw + bytes(64)
        words = [ubi.number_at(padded, offset, width) for _, offset, width in fields]
        if self.chance.below(3):
            at = self.chance.below(len(words))
            width = fields[at][2]
            words[at] = self.chance.pick([self.limit(size, words[at]), self.limit(size, words[at]),
                                          2 ** (8 * width) - 1, 2 ** (8 * width)]) % 2 ** 64
        if self.chance.below(2):
            words[0] = 1
        room = self.chance.pick([64, 64, 64, 70, 63, 0])
        out = Lent("B", room, 0xA5)
        answer = self.functions.call("write_" + kind, Lent.of("Q", words, self.fill), *more, out)
        wanted, stored = self.written(kind, fields, words, more, room)
        same((answer, bytes(out.words())), (wanted, stored), "writing %s %s" % (kind, words))

    def written(self, kind, fields, words, more, room):
        stored = bytearray(b"\xa5" * room)
        unfit = any(word >= 2 ** (8 * width) for word, (_, _, width) in zip(words, fields))
        if unfit:
            # Words that make no header come before a buffer that is too short for one.
            self.count("unfit header")
            return UNFIT, bytes(stored)
        write = ubi.write_ec_header if kind == "ec" else ubi.write_vid_header
        header = (ubi.EcHeader if kind == "ec" else ubi.VidHeader)(*words)
        number, _, _ = refusal_of(lambda: write(header, *more, stored))
        if number:
            self.count("write_%s refused %d" % (kind, number))
        return number, bytes(stored)

    def check_record(self, size):
        start = self.geometry.data_start if self.geometry else 128
        raw = self.piece(start + self.chance.below(3) * ubi.RECORD_SIZE, ubi.RECORD_SIZE, self.is_layout)
        if self.chance.below(3) == 0 and len(raw) >= ubi.RECORD_SIZE:
            at = self.chance.pick([self.chance.below(16), self.chance.below(168)])
            raw = flip(raw, at, self.chance)
            raw = raw[:168] + ubi.jamcrc(raw[:168]).to_bytes(4, "big") + raw[172:]
        unit = self.geometry.unit if self.geometry else 1
        number, _, told = refusal_of(lambda: ubi.read_record(raw, size, unit))
        verdict, record = told or (None, None)
        self.count("record %s" % (verdict or "short"))
        answer = {None: number, ubi.GOOD: 0, ubi.EMPTY: EMPTY, ubi.BAD: BAD}[verdict]
        words, name = Lent("Q", RECORD_WORDS, self.fill), Lent("B", NAME_BYTES + self.chance.below(2), 0x5A)
        same(self.functions.call("read_record", raw, size, unit, words, name), answer, "record %s" % raw.hex())
        wanted = (list(record[:-1]), record.name) if record else ([self.fill] * RECORD_WORDS, b"\x5a" * NAME_BYTES)
        same((words.words(), bytes(name.words()[:NAME_BYTES])), wanted, "the words of record %s" % raw.hex())

    def is_layout(self, peb):
        return self.geometry is not None and is_layout(self.geometry.vid_start, peb)

    def check_geometry(self):
        """Numbers near the dump's, and any."""
        numbers = list(self.geometry[:3]) if self.geometry else [1024, 64, 64]
        at = self.chance.below(3)
        numbers[at] = self.chance.pick([numbers[at], numbers[at] * 2, numbers[at] // 2, numbers[at] + 1,
                                        self.chance.below(2 ** 32), 1 << self.chance.below(32)]) % 2 ** 32
        number, _, told = refusal_of(lambda: ubi.geometry_of(*numbers))
        words = Lent("Q", GEOMETRY_WORDS, self.fill)
        answer = self.functions.call("geometry", *numbers, words)
        same((answer, words.words()), (number, list(told or [self.fill] * GEOMETRY_WORDS)), "geometry %s" % numbers)
        self.count("geometry refused 2" if number else "geometry good")


    def check_short_words(self):
        """Too few words for a struct are refusal 4 of every function, and change nothing."""
        name = self.chance.pick(sorted(STRUCT_WORDS))
        words = Lent("Q", self.chance.below(STRUCT_WORDS[name]), self.fill)
        tables, _ = self.tables([4000, 4000, 128])
        lent = {"B": Lent("B", LISTING_MOST if name == "listing" else 172, 0x5A), "Q": Lent("Q", 7, self.fill)}
        held, raw = Held(self.image), bytes(172)
        answer = self.functions.call(name, *{
            "attach": (self.slip, held, *tables, words), "begin": (self.slip, held, *tables, 0, 0, 1, words),
            "step": (words, held), "finish": (words, held), "next_write": (words, held, lent["Q"]),
            "geometry": (1024, 1, 1, words), "read_ec": (raw, words), "read_vid": (raw, 896, words),
            "write_ec": (words, lent["B"]), "write_vid": (words, 896, lent["B"]),
            "read_record": (raw, 896, 1, words, lent["B"]), "listing": (words, *tables, lent["B"], lent["Q"])}[name])
        same(answer, 4, "%s with %d words" % (name, words.length))
        same(held.bytes() == self.image, True, "the image of %s with few words is as it was" % name)
        for one in tables + [words, *lent.values()]:
            same(set(one.words()) <= {self.fill, 0x5A}, True, "what %s with few words left is as it was" % name)
        self.count("%s short of words" % name)


def plan_words(plan):
    return [0, 0] + plan_numbers(plan)


def plan_of(words):
    front, vid, ec = words[2:7], words[7:18], words[18:23]
    assert len(vid) == VID_WORDS and len(ec) == EC_WORDS
    return mover.Plan(*front, ubi.VidHeader(*vid), ubi.EcHeader(*ec), words[23])


# -------------------------------------------------------------------- the run

def run_batch(job):
    """Dumps of one batch: the counts, and the first difference or None."""
    seed, numbers = job
    counts = Counter()
    functions = Functions(library_path())
    for number in numbers:
        case = Case(functions, seed, number, counts)
        try:
            case.run()
        except (Different, AssertionError) as failed:
            kept = keep(case.slip + case.image, "scale-", ".dump")
            return counts, "dump %d of seed %d (slip of %d bytes, then the image, in %s): %s" % (
                number, seed, len(case.slip), kept, failed)
    return counts, None


def in_order(name):
    """By the words, numbers as numbers."""
    head, _, last = name.rpartition(" ")
    return (head, int(last)) if last.isdigit() else (name, 0)


def judged_counts(counts, count):
    """Prints them; the names that were met too seldom."""
    for name in sorted(counts, key=in_order):
        print("%7d %s" % (counts[name], name))
    least = max(1, count // ONE_IN)
    return ["%s (%d, at least %d)" % (name, counts[name], least) for name in SHOWN if counts[name] < least]


def arguments_of(arguments):
    parser = argparse.ArgumentParser(description="Library and tool against the oracle on dumps by chance.")
    parser.add_argument("--count", type=int, default=20000, help="number of dumps (20000)")
    parser.add_argument("--seed", type=int, default=1, help="which dumps (1)")
    parser.add_argument("--jobs", type=int, default=2, help="processes (2)")
    parser.add_argument("--only", type=int, metavar="NUMBER", help="this dump of the seed alone")
    return parser.parse_args(arguments)


def main(arguments):
    chosen = arguments_of(arguments)
    print("scale_attach: seed %d, %s" % (chosen.seed, library_path()), flush=True)
    if chosen.only is not None:
        counts, failed = run_batch((chosen.seed, [chosen.only]))
        print(failed or "no difference: %s" % dict(counts))
        return 1 if failed else 0
    numbers = range(1, chosen.count + 1)
    jobs = [(chosen.seed, numbers[at:at + BATCH]) for at in range(0, chosen.count, BATCH)]
    counts = Counter()
    with Pool(chosen.jobs) as pool:
        for found, failed in pool.imap_unordered(run_batch, jobs):
            counts.update(found)
            if failed:
                print("a difference in " + failed)
                return 1
    seldom = judged_counts(counts, chosen.count)
    if seldom:
        print("met too seldom: " + ", ".join(seldom))
        return 1
    print("scale_attach: %d dumps, 0 differences" % chosen.count)
    return 0


if __name__ == "__main__":
    sys.exit(main(sys.argv[1:]))
