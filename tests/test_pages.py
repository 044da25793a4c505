"""What is shown to people: `show`, the page of `report`, `diff`, and the words of docs/LISTING.md."""

import hashlib
import os
import re
import unittest
from html.parser import HTMLParser

from support import BENCH, BENCH_OPTIONS, ROOT, SMALL, SMALL_OPTIONS, Case, Flash, named_chip, options_of, run

from images import ec_with
from samples import CHIP, chip_image

from benchtool import histogram, words


class Show(Case):
    def shown(self, image, *options):
        done = run("show", self.file("dump", image), *options)
        self.assertIn(done.returncode, (0, 1), done.stderr)
        return done.stdout.decode("utf-8")

    def test_small(self):
        text = self.shown(SMALL, *SMALL_OPTIONS)
        self.assertIn("     0  ##o##o##X#dk._\n", text)
        self.assertIn("lowest 7, mean 46, highest 350, lost 2", text)
        self.assertRegex(text, r"0  log +dynamic +3,584  good .* 3 of 4")
        self.assertRegex(text, r"1  boot +static +1,792  damaged .* 2 of 2")
        self.assertNotIn("\x1b", text)

    def test_rows_of_64(self):
        rows = re.findall(r"^ +(\d+)  ([.#o_Xdk]+)$", self.shown(chip_image(), *options_of(CHIP)), re.M)
        self.assertEqual([(number, len(row)) for number, row in rows], [("0", 64), ("64", 64)])
        counts = [sum(row.count(one.sign) for _, row in rows) for one in words.CLASSES]
        self.assertEqual(counts, [56, 64, 2, 5, 1, 0, 0])

    def test_names_cannot_reach_the_terminal(self):
        flash, image = named_chip(b"\x1b[31mred\xff\n")
        text = self.shown(image, *options_of(flash))
        self.assertIn(r"\x1b[31mred\xff\x0a", text)
        self.assertNotIn("\x1b", text)

    def test_missing_parts_of_a_static_volume(self):
        flash = Flash(1024, 1, 1)
        image = flash.image(flash.with_tables(
            [flash.volume(b"boot", reserved=3, type=2)], flash.static(0, 0, 3, 3, b"x" * flash.leb_size),
            flash.static(0, 2, 3, 4), flash.free()))
        self.assertIn("missing: LEB 1 of 3 in use", self.shown(image, *options_of(flash)))

    def test_histogram(self):
        for counters in ([5], [5, 5], [0, 2 ** 31 - 1], list(range(100)), [1, 2, 3]):
            bins = histogram.bins_of(counters)
            self.assertLessEqual(len(bins), histogram.BINS)
            self.assertEqual(sum(one.count for one in bins), len(counters))
            for one in bins:
                inside = [counter for counter in counters if one.low <= counter <= one.high]
                self.assertEqual(len(inside), one.count)


class Page(HTMLParser):
    """The tags of a page, each closed; and its text."""

    VOID = {"meta", "br", "rect", "path"}

    def __init__(self, source):
        super().__init__()
        self.open, self.seen, self.text = [], [], []
        self.feed(source)
        self.close()

    def handle_starttag(self, tag, attributes):
        self.seen.append((tag, dict(attributes)))
        if tag not in self.VOID:
            self.open.append(tag)

    def handle_startendtag(self, tag, attributes):
        self.seen.append((tag, dict(attributes)))

    def handle_endtag(self, tag):
        assert self.open.pop() == tag, tag

    def handle_data(self, data):
        self.text.append(data)


class Report(Case):
    def page(self, image, *options, status=None):
        done = run("report", self.file("unit.bin", image), *options, "-o", self.path("unit.html"))
        if status is not None:
            self.ends(done, status)
        return self.content("unit.html").decode("utf-8")

    def check(self, source):
        """Well formed, and nothing from outside."""
        page = Page(source)
        self.assertEqual(page.open, [])
        for tag, attributes in page.seen:
            self.assertNotIn(tag, ("script", "link", "img", "iframe", "object"))
            for name in ("src", "href", "xlink:href"):
                self.assertTrue(attributes.get(name, "#").startswith("#"), (tag, attributes))
        self.assertNotIn("http", source)
        self.assertNotIn("url(", source)
        return "".join(page.text)

    def test_verdicts(self):
        text = self.check(self.page(BENCH, *BENCH_OPTIONS, status=0))
        self.assertIn(words.GRADE_0, text)
        text = self.check(self.page(SMALL, *SMALL_OPTIONS, status=1))
        self.assertIn(words.GRADE_1, text)
        for fault in ("block 8", "block 9", "volume 1", "volume 3"):
            self.assertIn(fault, text)
        self.assertIn(words.READ_ONLY, text)
        text = self.check(self.page(BENCH[:-1], *BENCH_OPTIONS, status=2))
        self.assertIn("Refused: 3 at 0", text)
        self.assertIn(words.REFUSALS[3][0], text)

    def test_what_is_in_it(self):
        text = self.check(self.page(SMALL, *SMALL_OPTIONS))
        listing = run("list", self.path("unit.bin"), *SMALL_OPTIONS).stdout.decode("ascii")
        for line in listing.splitlines():
            self.assertIn(line + "\n" if not line.startswith("attached") else line, text)
        for wanted in (hashlib.sha256(SMALL).hexdigest(), "14,336 bytes", "libchoduljin", "colours", "mean 46"):
            self.assertIn(wanted, text)

    def test_a_cell_for_every_block(self):
        page = Page(self.page(chip_image(), *options_of(CHIP)))
        cells = [attributes["href"] for tag, attributes in page.seen if tag == "use"]
        self.assertEqual([cells.count("#c%d" % klass) for klass in range(7)] + [cells.count("#t")],
                         [56, 62, 2, 5, 1, 0, 0, 2])

    def test_names_are_no_markup(self):
        flash, image = named_chip(b"<script>alert(1)</script>&\x07\xff\"")
        source = self.page(image, *options_of(flash))
        self.check(source)
        self.assertIn("&lt;script&gt;alert(1)&lt;/script&gt;&amp;\\x07\\xff&quot;", source)

    def test_title_and_paths_are_no_markup(self):
        done = run("report", self.file("<b>", BENCH), *BENCH_OPTIONS, "--title", "<i>\x1b", "-o", self.path("p.html"))
        self.ends(done, 0)
        source = self.content("p.html").decode("utf-8")
        self.check(source)
        self.assertIn("<h1>&lt;i&gt;\\x1b</h1>", source)

    def test_no_counter_at_all(self):
        flash = Flash(1024, 1, 1)
        blocks = [block._replace(ec=b"") for block in flash.with_tables([flash.volume()], flash.dynamic(0, 0, 3))]
        self.assertIn("No erase counter can be read", self.check(self.page(flash.image(blocks), *options_of(flash))))

    def test_no_volume(self):
        flash = Flash(1024, 1, 1)
        self.assertIn("The table has no volume", self.check(self.page(flash.image(flash.with_tables([])),
                                                                      *options_of(flash), status=0)))

    def test_the_page_is_never_the_dump(self):
        done = run("report", self.file("dump", BENCH), *BENCH_OPTIONS, "-o", self.path("dump"))
        self.ends(done, 3, b"")
        self.assertEqual(self.content("dump"), BENCH)


class Diff(Case):
    def compared(self, before, after, *options):
        return run("diff", self.file("a", before), self.file("b", after), *options)

    def test_no_difference(self):
        self.ends(self.compared(BENCH, BENCH, *BENCH_OPTIONS), 0, b"no PEB changed\n")

    def test_aspects(self):
        flash = Flash(1024, 1, 1)
        blocks = flash.with_tables([flash.volume(reserved=2)], ec_with(flash.dynamic(0, 0, 3), counter=9),
                                   flash.dynamic(0, 1, 4, b"xyz"), flash.free())
        after = list(blocks)
        after[2] = ec_with(blocks[2], counter=10)
        after[3] = blocks[3]._replace(data=b"xYz")
        after[4] = flash.dynamic(0, 1, 5, b"new")._replace(ec=blocks[4].ec)
        done = self.compared(flash.image(blocks), flash.image(after), *options_of(flash))
        self.ends(done, 0)
        lines = done.stdout.decode("ascii").splitlines()
        self.assertRegex(lines[0], r"^peb 2 counter 9 -> 10, content 5 bytes from 15 to 63$")
        self.assertEqual(lines[1], "peb 3 class 1 (chosen) -> 2 (passed over), place 0:1 -> none, content 1 byte from "
                                   "129 to 129")
        self.assertRegex(lines[2], r"^peb 4 class 0 \(free\) -> 1 \(chosen\), place none -> 0:1, content \d+ bytes")
        self.assertEqual(lines[3:], ["mean 8 -> 9", "highest 4 -> 5",
                                     "changed 3 of 5: class 2, counter 1, place 2, content 3"])

    def test_refused(self):
        done = self.compared(BENCH, BENCH[:-1], *BENCH_OPTIONS)
        self.ends(done, 2)
        self.assertTrue(done.stdout.startswith(b"refused 3 at 0\n"))


class Words(unittest.TestCase):
    """The words are those of docs/LISTING.md, but for the refusals that a command line words in another way."""

    @classmethod
    def setUpClass(cls):
        with open(os.path.join(ROOT, "docs", "LISTING.md"), encoding="utf-8") as file:
            cls.parts = file.read().split("\n## ")

    def table(self, heading):
        """The second and third cell of each row by its first, in the part with this heading."""
        part = [part for part in self.parts if part.startswith(heading)][0]
        rows = [line.strip("|").split("|") for line in part.splitlines() if re.match(r"\| \d", line)]
        return {int(row[0]): tuple(cell.strip() for cell in row[1:]) for row in rows}

    def test_classes(self):
        self.assertEqual(self.table("peb:"), {number: (one.word, one.meaning)
                                              for number, one in enumerate(words.CLASSES)})

    def test_states(self):
        self.assertEqual(self.table("vol:"), {number: (one.meaning, one.to_do)
                                              for number, one in enumerate(words.STATES) if number})

    def test_refusals(self):
        table = self.table("Refusals")
        for number in (5, 7, 8, 9, 10, 11, 12, 20, 21):
            self.assertEqual(table[number], words.REFUSALS[number], number)
        # 19 is of writing a header, which no command does.
        self.assertEqual(sorted(words.REFUSALS), list(range(1, 19)) + [20, 21])


if __name__ == "__main__":
    unittest.main()
