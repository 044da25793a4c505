"""`ubibench show`: the chip at a glance in a terminal."""

import os
import shutil
import sys

from benchtool import words
from benchtool.bench import Bench, status_of
from benchtool.chip import UNREADABLE, missing_lebs
from benchtool.histogram import bins_of, label
from benchtool.numbers import grouped, ranges, sized
from benchtool.trouble import put

ROW = 64
GROUP = 8
BAR = 40
NARROW = 20
# Terminal colours by class; the sign alone tells them apart.
COLOURS = ("32", "36", "33", "90", "1;97;41", "35", "34")
STATE_COLOURS = ("", "32", "1;33", "1;31")


def run(arguments):
    bench = Bench(arguments)
    dump = bench.read(arguments.dump)
    chip = bench.attach(dump)
    if chip.refusal is not None:
        raise chip.refusal
    put("\n".join(Screen(chip, in_colour()).lines(dump)) + "\n")
    return status_of(chip)


def in_colour():
    return sys.stdout.isatty() and not os.environ.get("NO_COLOR") and os.environ.get("TERM") != "dumb"


class Screen:
    def __init__(self, chip, colour):
        self.chip = chip
        self.colour = colour
        width = shutil.get_terminal_size().columns if colour else 80
        self.bar = max(NARROW, min(BAR, width - 40))

    def painted(self, text, colour):
        if not self.colour or not colour:
            return text
        return "\x1b[%sm%s\x1b[0m" % (colour, text)

    def lines(self, dump):
        yield from self.verdict(dump)
        yield ""
        yield from self.map_rows()
        yield ""
        yield from self.legend()
        yield ""
        yield from self.volumes()
        yield ""
        yield from self.counters()

    def verdict(self, dump):
        chip = self.chip
        yield "%s: %s blocks of %s (%s bytes), LEB %s bytes" % (
            dump.name, grouped(chip.peb_count), sized(chip.peb_size), grouped(dump.image.length),
            grouped(chip.leb_size))
        if not chip.grade:
            yield self.painted("grade 0: " + words.GRADE_0.lower(), "1;32")
        else:
            yield self.painted("grade 1: " + words.GRADE_1.lower(), "1;31")
        for fault in words.faults(chip):
            yield "  %s, %s: %s" % (fault.what, fault.where, fault.meaning)
        for note in words.notes(chip):
            yield "  note: " + note

    def map_rows(self):
        pebs = self.chip.pebs
        yield " " * 8 + "".join("%-*d" % (GROUP, at) for at in range(0, min(ROW, len(pebs)), GROUP)).rstrip()
        for at in range(0, len(pebs), ROW):
            row = [self.painted(words.CLASSES[peb.klass].sign, COLOURS[peb.klass]) for peb in pebs[at:at + ROW]]
            yield "%6d  %s" % (at, "".join(row))

    def legend(self):
        for klass, count in enumerate(self.chip.class_counts()):
            one = words.CLASSES[klass]
            colour = COLOURS[klass] if count or klass != UNREADABLE else ""
            yield "  %s  %-12s %6s" % (self.painted(one.sign, colour), one.word, grouped(count))

    def volumes(self):
        chip = self.chip
        if not chip.volumes:
            yield "no volumes"
            return
        yield "vol  %-24s %-8s %12s  %-17s %s" % ("name", "type", "bytes", "state", "LEBs written")
        for volume in chip.volumes:
            yield from self.volume(volume)

    def volume(self, volume):
        record = volume.record
        reserved, mapped = record["reserved"], len(volume.mapped)
        state = words.STATES[volume.state].word
        yield "%3d  %-24s %-8s %12s  %s %s %s of %s" % (
            volume.number, words.visible(record["name"]), words.TYPES[record["vol_type"]],
            grouped(reserved * volume.room), self.painted("%-17s" % state, STATE_COLOURS[volume.state]),
            full_bar(mapped, reserved), grouped(mapped), grouped(reserved))
        missing = missing_lebs(volume)
        if volume.used is not None and missing:
            yield "     missing: LEB %s of %d in use" % (ranges(missing), volume.used)

    def counters(self):
        counters = self.chip.counters()
        if not counters:
            yield "no erase counter can be read"
            return
        yield "erase counters: lowest %s, mean %s, highest %s, lost %s" % (
            grouped(min(counters)), grouped(self.chip.mean), grouped(max(counters)),
            grouped(self.chip.peb_count - len(counters)))
        bins = bins_of(counters)
        most = max(one.count for one in bins)
        wide = max(len(label(one)) for one in bins)
        for one in bins:
            length = -(-one.count * self.bar // most)
            yield ("  %*s  %-*s %s" % (wide, label(one), self.bar, "=" * length, grouped(one.count))).rstrip()


def full_bar(part, whole, width=10):
    """Ten places: a part that is there shows, and only the whole fills them."""
    length = part * width // whole if whole else 0
    if part and not length:
        length = 1
    return "[%s%s]" % ("|" * min(width, length), " " * (width - min(width, length)))
