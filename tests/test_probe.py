"""Probing, and the warnings of the other commands."""

import json
import unittest

from support import BENCH, SMALL, SMALL_OPTIONS, Case, Flash, options_of, run

from samples import CHIP, chip_image
from test_dump import with_spare


def chip(peb_size, unit, sub_unit, blocks, blank=0):
    """A chip of one static and one dynamic volume, with some free blocks, and some blank ones at its end."""
    flash = Flash(peb_size, unit, sub_unit)
    records = [flash.volume(b"boot", reserved=2, type=2), flash.volume(b"log", reserved=4)]
    full = b"full " * (flash.leb_size // 5 + 1)
    filled = flash.with_tables(records, flash.static(0, 0, 2, 3, full[:flash.leb_size]),
                               flash.static(0, 1, 2, 4, b"end"), flash.dynamic(1, 0, 5), flash.dynamic(1, 3, 6))
    image = flash.image(filled + [flash.free()] * (blocks - len(filled)))
    return flash, image + b"\xff" * (blank * peb_size)


class Proposals(Case):
    def proposed(self, image, *options):
        done = run("probe", self.file("dump", image), "--json", *options)
        self.ends(done, 0)
        return json.loads(done.stdout.decode("ascii"))["proposals"]

    def test_geometries_are_found(self):
        for numbers in ((131072, 2048, 512), (131072, 2048, 2048), (262144, 4096, 4096), (16384, 512, 512),
                        (65536, 1, 1), (8192, 512, 256), (1660, 4, 4)):
            flash, image = chip(*numbers, blocks=12, blank=3)
            best = self.proposed(image)[0]
            self.assertEqual((best["peb_size"], best["vid_start"], best["data_start"]),
                             (numbers[0], flash.geometry.vid_start, flash.geometry.data_start), numbers)
            self.assertIn(list(numbers[1:]), best["same_starts"])
            self.assertEqual((best["agree"], best["inside_blocks"], best["blocks"]), (12, 0, 15))

    def test_the_most_usual_units(self):
        for numbers in ((131072, 2048, 512), (131072, 2048, 2048), (262144, 4096, 4096), (16384, 512, 512),
                        (65536, 1, 1), (8192, 512, 256)):
            _, image = chip(*numbers, blocks=8)
            best = self.proposed(image)[0]
            self.assertEqual((best["peb_size"], best["unit"], best["sub_unit"]), numbers)

    def test_wrong_sizes_are_told(self):
        _, image = chip(16384, 512, 512, blocks=16)
        found = {one["peb_size"]: one for one in self.proposed(image)}
        self.assertEqual(found[8192]["every"], 2)
        self.assertEqual(found[32768]["inside_blocks"], 8)
        text = run("probe", self.path("dump")).stdout
        self.assertIn(b"only at every second block", text)
        self.assertIn(b"8 of 16 good headers stand inside blocks", text)

    def test_spare_bytes_are_found(self):
        for numbers, spare in (((131072, 2048, 512), 64), ((131072, 2048, 2048), 64), ((16384, 512, 512), 16),
                               ((262144, 4096, 4096), 224), ((131072, 2048, 2048), 128)):
            _, image = chip(*numbers, blocks=8)
            best = self.proposed(with_spare(image, numbers[1], spare))[0]
            self.assertEqual((best["peb_size"], best["unit"], best["sub_unit"], best["oob"]), numbers + (spare,))
            self.assertEqual(best["agree"], 8)

    def test_spare_bytes_left_out(self):
        _, image = chip(16384, 512, 512, blocks=8)
        best = self.proposed(with_spare(image, 512, 16), "--oob", "16")[0]
        self.assertEqual((best["peb_size"], best["oob"], best["agree"]), (16384, 0, 8))

    def test_a_torn_header_is_counted(self):
        best = self.proposed(chip_image())[0]
        self.assertEqual((best["peb_size"], best["at_block_starts"], best["agree"]), (8192, 123, 122))

    def test_an_image_inside_a_volume(self):
        """Headers in the data of a block are not taken for blocks."""
        flash, image = chip(16384, 512, 512, blocks=16)
        _, inner = chip(2048, 512, 512, blocks=6)
        at = 4 * 16384 + flash.geometry.data_start
        best = self.proposed(image[:at] + inner + image[at + len(inner):])[0]
        self.assertEqual((best["peb_size"], best["inside_blocks"]), (16384, 6))

    def test_nothing_to_go_by(self):
        done = run("probe", self.file("blank", b"\xff" * 65536))
        self.ends(done, 3, b"")
        self.assertIn(b"no good EC header", done.stderr)
        self.ends(run("probe", self.file("empty", b"")), 3, b"")


class Warnings(Case):
    def warning(self, image, *options):
        done = run("list", self.file("dump", image), *options)
        found = [line for line in done.stderr.decode("utf-8").splitlines() if "probing proposes" in line]
        return found[0] if found else None

    def test_none_where_the_numbers_are_right(self):
        for numbers in ((131072, 2048, 512), (16384, 512, 512), (1660, 4, 4), (1024, 1, 1)):
            flash, image = chip(*numbers, blocks=12, blank=5)
            self.assertIsNone(self.warning(image, *options_of(flash)), numbers)
        self.assertIsNone(self.warning(SMALL, *SMALL_OPTIONS))
        self.assertIsNone(self.warning(BENCH, "--peb-size", "1k", "--unit", "1"))
        self.assertIsNone(self.warning(chip_image(), *options_of(CHIP)))

    def test_none_where_it_cannot_be_told(self):
        """The only good EC header is that of the first block."""
        flash = Flash(2048, 512, 512)
        blocks = flash.with_tables([flash.volume(reserved=2)], flash.dynamic(0, 0, 3), flash.dynamic(0, 1, 4))
        image = flash.image(blocks[:1] + [block._replace(ec=b"UBI") for block in blocks[1:]])
        self.assertIsNone(self.warning(image, *options_of(flash)))

    def test_half_and_twice_the_size(self):
        _, image = chip(65536, 2048, 512, blocks=16)
        for size in ("32k", "128k", "16k", "256k"):
            warned = self.warning(image, "--peb-size", size, "--unit", "2048", "--sub-unit", "512")
            self.assertIn("--peb-size 65536 --unit 2048 --sub-unit 512", warned or "", size)

    def test_other_units(self):
        _, image = chip(65536, 2048, 512, blocks=16)
        self.assertIn("--unit 2048 --sub-unit 512", self.warning(image, "--peb-size", "64k", "--unit", "2048"))
        self.assertIn("--unit 2048 --sub-unit 512", self.warning(image, "--peb-size", "1", "--unit", "3"))

    def test_spare_bytes(self):
        _, image = chip(131072, 2048, 512, blocks=32)
        warned = self.warning(with_spare(image, 2048, 64), "--peb-size", "128k", "--unit", "2048", "--sub-unit", "512")
        self.assertIn("--oob 64", warned)


if __name__ == "__main__":
    unittest.main()
