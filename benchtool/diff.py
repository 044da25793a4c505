"""`ubibench diff`: which PEBs changed class, counter, place or content between two dumps of one chip."""

from collections import namedtuple

from benchtool import words
from benchtool.bench import Bench
from benchtool.library import LAYOUT_VOLUME
from benchtool.numbers import counted, grouped
from benchtool.trouble import Refused, put

Change = namedtuple("Change", "peb klass counter place content")
ASPECTS = Change._fields[1:]


def run(arguments):
    """Exit status 0 with differences and without: they are what was asked for. Refused if one of the dumps is."""
    bench = Bench(arguments)
    chips = [attached(bench, path) for path in (arguments.dump, arguments.other)]
    put("".join(line + "\n" for line in lines(*chips)))
    return 0


def attached(bench, path):
    chip = bench.attach(bench.read(path))
    if chip.refusal is None:
        return chip
    refused = chip.refusal
    raise Refused(refused.number, refused.place, "%s\nin %s" % (refused.line, path))


def lines(before, after):
    changes = [change for change in changes_of(before, after) if any(change[1:])]
    for change in changes:
        yield "peb %d %s" % (change.peb, ", ".join(text for text in change[1:] if text))
    yield from lengths(before, after)
    yield from numbers(before, after)
    yield from states(before, after)
    if not changes:
        yield "no PEB changed"
        return
    counts = ["%s %s" % (name_of(aspect), grouped(sum(1 for change in changes if getattr(change, aspect))))
              for aspect in ASPECTS]
    yield "changed %s of %s: %s" % (grouped(len(changes)), grouped(min(before.peb_count, after.peb_count)),
                                    ", ".join(counts))


def name_of(aspect):
    return "class" if aspect == "klass" else aspect


def changes_of(before, after):
    """One for each PEB of both; an aspect that did not change is empty."""
    places = before.places(), after.places()
    for old, new in zip(before.pebs, after.pebs):
        yield Change(
            old.number,
            arrow("class", class_text(old.klass), class_text(new.klass)),
            arrow("counter", counter_text(old.counter), counter_text(new.counter)),
            arrow("place", place_text(places[0].get(old.number)), place_text(places[1].get(old.number))),
            content_text(before, after, old.number))


def arrow(name, old, new):
    return "" if old == new else "%s %s -> %s" % (name, old, new)


def class_text(klass):
    return "%d (%s)" % (klass, words.CLASSES[klass].word)


def counter_text(counter):
    return "lost" if counter is None else str(counter)


def place_text(place):
    if place is None:
        return "none"
    volume, leb = place
    return "%s:%d" % ("layout" if volume == LAYOUT_VOLUME else volume, leb)


def content_text(before, after, peb):
    """How many bytes differ, and between which places of the block."""
    size = before.peb_size
    old, new = before.image.at(peb * size, size), after.image.at(peb * size, size)
    if old == new:
        return ""
    different = (int.from_bytes(old, "big") ^ int.from_bytes(new, "big")).to_bytes(size, "big")
    first, last = size - len(different.lstrip(b"\0")), len(different.rstrip(b"\0")) - 1
    return "content %s from %d to %d" % (counted(size - different.count(0), "byte"), first, last)


def lengths(before, after):
    if before.peb_count != after.peb_count:
        yield "blocks %d -> %d: those beyond the shorter are not compared" % (before.peb_count, after.peb_count)


def numbers(before, after):
    """The first line of the listing, number by number, and the image sequence, which a stopped move may lose."""
    for name in ("entries", "mean", "highest", "image_seq", "read_only", "table", "copies_mark", "grade"):
        if before.report[name] != after.report[name]:
            yield "%s %d -> %d" % (name, before.report[name], after.report[name])


def states(before, after):
    for number, (old, new) in enumerate(zip(before.states, after.states)):
        if old != new:
            yield "vol %d state %d (%s) -> %d (%s)" % (
                number, old, words.STATES[old].word, new, words.STATES[new].word)
