"""`ubibench report`: one page to file with the unit. No script, no outside file; prints on A4."""

import os
import time
from html import escape

from benchtool import svg, words
from benchtool.bench import Bench, status_of
from benchtool.chip import AUTORESIZE, CLASSES, SKIP_CRC, missing_lebs
from benchtool.library import RECORD_SIZE, RECORDS_MOST
from benchtool.files import refuse_output, write_whole
from benchtool.numbers import grouped, ranges, sized
from benchtool.trouble import put

STYLE = """
@page { size: A4; margin: 14mm }
* { box-sizing: border-box }
body { font: 10.5pt/1.45 "DejaVu Sans", "Liberation Sans", Arial, sans-serif; color: #1b1f23; background: #fff;
  max-width: 186mm; margin: 8mm auto; padding: 0 4mm }
h1 { font-size: 13pt; margin: 0 0 1mm; overflow-wrap: anywhere }
h2 { font-size: 12pt; margin: 8mm 0 2mm; padding-bottom: 1mm; border-bottom: 0.4mm solid #1b1f23;
  break-after: avoid }
.verdict { margin: 4mm 0 5mm; padding: 4mm 5mm; border: 0.8mm solid #1b1f23; border-left-width: 4mm }
.verdict strong { display: block; font-size: 23pt; line-height: 1.2 }
.verdict p { margin: 1.5mm 0 0 }
.good { border-color: #2e6b3a; background: #f1f7f2 }
.faults { border-color: #b3261e; background: #fcf1f0 }
table { border-collapse: collapse; width: 100% }
th, td { text-align: left; vertical-align: top; padding: 1.1mm 2mm; border-bottom: 0.2mm solid #b8bec4 }
th { font-size: 9pt; color: #444; border-bottom-color: #1b1f23 }
tr { break-inside: avoid }
td.number, th.number { text-align: right; font-variant-numeric: tabular-nums; white-space: nowrap }
td.name { overflow-wrap: anywhere }
.where { width: 40mm }
.facts th { width: 44mm; font-weight: normal; font-size: inherit; border-bottom-color: #b8bec4 }
.facts td { overflow-wrap: anywhere }
.picture { display: block; width: 100%; height: auto; break-inside: avoid }
.map { margin: 0 }
.map .picture { break-inside: auto }
.sign { width: 4mm; height: 4mm; vertical-align: -0.7mm; margin-right: 1.5mm }
.legend { columns: 2; margin: 2mm 0 0; padding: 0; list-style: none; font-size: 9.5pt }
.legend li { break-inside: avoid; margin-bottom: 0.6mm }
.bar { display: inline-block; width: 18mm; height: 3mm; border: 0.25mm solid #555; vertical-align: -0.3mm;
  margin-right: 1.5mm }
.part { white-space: nowrap }
.bar i { display: block; height: 100%; background: #3f6f8f }
pre { font: 6.8pt/1.3 "DejaVu Sans Mono", "Liberation Mono", monospace; columns: 5; column-gap: 4mm;
  white-space: pre-wrap; margin: 0 }
pre.first { columns: 1; margin-bottom: 2mm; font-weight: bold; font-size: 8.5pt }
code { font-family: "DejaVu Sans Mono", "Liberation Mono", monospace; font-size: 92% }
code.sum { font-size: 83% }
.todo { font-weight: bold }
.sub { color: #555; font-size: 9.5pt; margin: 0 }
* { print-color-adjust: exact; -webkit-print-color-adjust: exact }
@media print { body { margin: 0; padding: 0; max-width: none } }
@media screen and (max-width: 700px) { pre { columns: 2 } .legend { columns: 1 } }
"""

CHECK_FIRST = (
    ("Is it the whole chip?", "Compare the number of blocks above with the chip's. A dump that ends early, at the "
                              "end of a block, can be listed with grade 0, and then this number alone shows it."),
    ("Is the block size right?", "A wrong one can be accepted. `ubibench probe` tells where good headers stand."),
    ("Are the spare bytes left out?", "With them every block of the dump is longer than the numbers say."),
    ("Which blocks are bad?", "The marks of bad blocks are not in a dump, so a bad block is judged like any other, by "
                              "whatever the reader gave for it. Have the reader tell you their numbers, and look at "
                              "their lines."),
)


def run(arguments):
    refuse_output(arguments.dump, arguments.output)
    bench = Bench(arguments)
    dump = bench.read(arguments.dump, hashed=True)
    chip = bench.attach(dump)
    page = Page(chip, dump, bench, arguments.title or os.path.basename(dump.name)).html()
    write_whole(arguments.output, [page.encode("utf-8")])
    put(chip.listing.split(b"\n", 1)[0] + b"\n")
    return status_of(chip)


class Page:
    def __init__(self, chip, dump, bench, title):
        self.chip = chip
        self.dump = dump
        self.bench = bench
        self.title = safe(title)

    def html(self):
        body = self.refused() if self.chip.refusal is not None else self.attached()
        return ("<!DOCTYPE html>\n<html lang=\"en\">\n<head>\n<meta charset=\"utf-8\">\n"
                "<meta name=\"viewport\" content=\"width=device-width\">\n"
                "<title>%s</title>\n<style>%s</style>\n</head>\n<body>\n%s\n</body>\n</html>\n"
                % (self.title, STYLE, "\n".join(body)))

    def head(self, kind, verdict, said):
        yield "<h1>%s</h1>" % self.title
        yield "<p class=\"sub\">Chip report, made %s by ubibench %s. %s</p>" % (
            time.strftime("%Y-%m-%d %H:%M %Z"), self.chip.library.version(), self.size_words())
        yield "<div class=\"verdict %s\"><strong>%s</strong>%s</div>" % (
            kind, verdict, "".join("<p>%s</p>" % line for line in said))

    def size_words(self):
        if self.chip.refusal is not None:
            return "%s bytes." % grouped(self.dump.length)
        return "%s blocks of %s." % (grouped(self.chip.peb_count), sized(self.chip.peb_size))

    # A refused dump

    def refused(self):
        refused = self.chip.refusal
        meaning, to_do = words.meaning_of(refused)
        said = [safe(meaning), "<span class=\"todo\">What to do:</span> " + marked(to_do)]
        if self.bench.hint:
            said.append("<span class=\"todo\">Geometry:</span> " + safe(self.bench.hint) + ".")
        yield from self.head("faults", "Refused: %d at %d" % (refused.number, refused.place), said)
        yield "<p>The dump cannot be listed, so nothing is said of its blocks.</p>"
        yield from self.facts()
        yield "<h2>The listing</h2>\n<pre class=\"first\">%s</pre>" % safe(refused.line)
        yield from self.check_first()

    # An attached one

    def attached(self):
        chip = self.chip
        faults = words.faults(chip)
        if chip.grade:
            said = ["Grade 1. " + " ".join(safe("%s: %s." % (capital(fault.where), fault.what)) for fault in faults)]
            yield from self.head("faults", words.GRADE_1, said)
        else:
            yield from self.head("good", words.GRADE_0, ["Grade 0. " + words.GRADE_0_SAYS])
        yield from self.faults(faults)
        yield from self.notes()
        yield from self.map()
        yield from self.volumes()
        yield from self.wear()
        yield from self.facts()
        yield from self.check_first()
        yield from self.listing()

    def faults(self, faults):
        if not faults:
            return
        yield "<h2>What was found, and what to do</h2>\n<table><tr><th class=\"where\">Where</th>" \
            "<th>What it means</th><th>What to do</th></tr>"
        for fault in faults:
            yield "<tr><td class=\"name\"><b>%s</b><br>%s</td><td>%s</td><td>%s</td></tr>" % (
                safe(capital(fault.what)), safe(fault.where), safe(capital(fault.meaning)),
                safe(capital(fault.to_do)))
        yield "</table>"

    def notes(self):
        notes = words.notes(self.chip)
        if self.bench.hint:
            notes.insert(0, "The geometry may be wrong: %s." % self.bench.hint)
        if notes:
            yield "<h2>To be known</h2>\n<ul>%s</ul>" % "".join("<li>%s</li>" % safe(note) for note in notes)

    def facts(self):
        yield "<h2>The dump and the chip</h2>\n<table class=\"facts\">"
        for name, value in self.fact_rows():
            yield "<tr><th>%s</th><td>%s</td></tr>" % (name, value)
        yield "</table>"

    def fact_rows(self):
        dump, chip = self.dump, self.chip
        yield "Dump", safe(dump.name)
        yield "Length", "%s bytes" % grouped(dump.length)
        yield "SHA-256", "<code class=\"sum\">%s</code>" % (dump.sha256 or "not made")
        if self.bench.numbers:
            yield "Numbers given", "block %s, unit %s, sub-unit %s%s" % (
                tuple(map(sized, self.bench.numbers))
                + (", %d spare bytes a page left out" % self.bench.spare if self.bench.spare else "",))
        yield "Made by", "ubibench with libchoduljin %s" % chip.library.version()
        if chip.refusal is not None:
            return
        told = "as the chip has" if self.bench.blocks else "the chip's number was not told: compare it"
        yield "Blocks", "%s (%s)" % (grouped(chip.peb_count), told)
        yield "In a block", "VID header from byte %d, data from byte %d on, LEB of %s bytes" % (
            chip.vid_start, chip.data_start, grouped(chip.leb_size))
        yield "Image sequence", str(chip.image_seq) if chip.image_seq else "0: no block names its image"
        yield "Highest sequence", grouped(chip.highest)
        yield "Volume table", "copy %d was used; copies %d: %s" % (
            chip.table, chip.copies_mark, words.COPIES[chip.copies_mark])
        yield "Read only", "%d: %s" % (chip.read_only, "a block asks that nothing be written to this chip"
                                       if chip.read_only else "no block asks for it")

    def map(self):
        counts = self.chip.class_counts()
        yield "<h2>Chip map</h2>\n<figure class=\"map\">%s</figure>\n<ul class=\"legend\">" % svg.chip_map(self.chip)
        for klass in range(CLASSES):
            one = words.CLASSES[klass]
            yield "<li>%s<b>%s</b> %s</li>" % (svg.legend_sign(klass), one.word, grouped(counts[klass]))
        yield "<li>%s<b>volume table</b>, among the chosen</li></ul>" % svg.table_sign()

    def volumes(self):
        yield "<h2>Volumes</h2>"
        if not self.chip.volumes:
            yield "<p>The table has no volume. It has room for %d.</p>" % min(
                RECORDS_MOST, self.chip.leb_size // RECORD_SIZE)
            return
        yield "<table><tr><th class=\"number\">No.</th><th>Name</th><th>Type</th><th class=\"number\">Bytes</th>" \
            "<th>State</th><th>Parts written</th></tr>"
        for volume in self.chip.volumes:
            yield self.volume(volume)
        yield "</table>"

    def volume(self, volume):
        record = volume.record
        flags = [word for bit, word in ((AUTORESIZE, "autoresize"), (SKIP_CRC, "skip CRC")) if record["flags"] & bit]
        kind = ", ".join([words.TYPES[record["vol_type"]]] + flags)
        if record["alignment"] != 1:
            kind += ", alignment %s" % grouped(record["alignment"])
        share = 100 * len(volume.mapped) // record["reserved"]
        state = words.STATES[volume.state].word
        return ("<tr><td class=\"number\">%d</td><td class=\"name\">%s</td><td>%s</td><td class=\"number\">%s</td>"
                "<td>%s</td><td><span class=\"part\"><span class=\"bar\"><i style=\"width:%d%%\"></i></span>"
                "%s of %s</span>%s</td></tr>" % (
                    volume.number, safe(words.visible(record["name"])), kind,
                    grouped(record["reserved"] * volume.room), state if volume.state == 1 else "<b>%s</b>" % state,
                    share, grouped(len(volume.mapped)), grouped(record["reserved"]), missing_words(volume)))

    def wear(self):
        yield "<h2>Wear</h2>"
        counters = self.chip.counters()
        if not counters:
            yield "<p>No erase counter can be read.</p>"
            return
        lost = self.chip.peb_count - len(counters)
        yield "<p>Erase counters: lowest %s, mean %s, highest %s. Lost: %s, of these %s in blank blocks, which is no " \
            "fault.</p>\n%s" % (grouped(min(counters)), grouped(self.chip.mean), grouped(max(counters)),
                                grouped(lost), grouped(lost - len(self.chip.lost_counters())),
                                svg.histogram(self.chip))

    def check_first(self):
        yield "<h2>What a dump cannot show</h2>\n<table class=\"facts\">"
        for question, answer in CHECK_FIRST:
            yield "<tr><th>%s</th><td>%s</td></tr>" % (question, marked(answer))
        yield "</table>"

    def listing(self):
        first, rest = self.chip.listing.decode("ascii").split("\n", 1)
        yield "<h2>The whole listing</h2>\n<pre class=\"first\">%s</pre>\n<pre>%s</pre>" % (safe(first), safe(rest))


def missing_words(volume):
    missing = missing_lebs(volume)
    if not missing or len(missing) == volume.record["reserved"]:
        return ""
    word = "not written" if volume.used is None else "missing"
    said = ranges(missing)
    return "<br><span class=\"sub\">%s: %s</span>" % (word, said if len(said) < 60 else "%d of them" % len(missing))


def capital(text):
    return text[:1].upper() + text[1:]


def safe(text):
    """For HTML: nothing in it is markup, and no control character hides."""
    return escape("".join(words.shown(letter) if letter != "\n" and letter != "\\" else letter for letter in text))


def marked(text):
    """Our own words, in which what stands between backquotes is to be typed."""
    parts = safe(text).split("`")
    return "".join(part if place % 2 == 0 else "<code>%s</code>" % part for place, part in enumerate(parts))
