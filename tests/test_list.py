"""Listings and JSON, held against the oracle."""

import json
import os
import unittest

from support import (BENCH, BENCH_OPTIONS, ROOT, SLIP, SMALL, SMALL_OPTIONS, Case, Flash, named_chip, oracle_listing,
                     options_of, run)

from cases import Chance
from cases_listing_random import random_dump
from samples import CHIP, chip_image

from benchtool import library
from benchtool.chip import Chip
from benchtool.library import Image

CHANCES = 400


class Text(Case):
    def test_stored_samples(self):
        for name in ("small", "chip"):
            with open(os.path.join(ROOT, "samples", name + ".txt"), "rb") as file:
                wanted = file.read()
            options = SMALL_OPTIONS if name == "small" else options_of(CHIP) + ("--blocks", 128)
            path = os.path.join(ROOT, "samples", name + ".dump")
            if name == "small":
                path = self.file("small", SMALL)
            self.ends(run("list", path, *options), 1, wanted)

    def test_slip_in_front(self):
        with open(os.path.join(ROOT, "samples", "small.txt"), "rb") as file:
            self.ends(run("list", os.path.join(ROOT, "samples", "small.dump"), "--slip"), 1, file.read())
        self.ends(run("list", self.file("odd", b"\x02" + BENCH), "--slip"), 2, b"refused 1 at 0\n")
        self.ends(run("list", self.file("short", b"\x01\x00"), "--slip"), 2, b"refused 1 at 0\n")

    def test_dumps_by_chance(self):
        """In this process, as so many would take long by the program."""
        loaded, chance, attached = library.load(), Chance(1300001), 0
        for _ in range(CHANCES):
            dump = random_dump(chance)
            slip, image = dump[:SLIP], dump[SLIP:]
            chip = Chip(loaded, slip, Image(bytearray(image)))
            self.assertEqual(chip.listing, oracle_listing(slip, image))
            attached += chip.refusal is None
        self.assertGreater(attached, CHANCES // 4)
        self.assertLess(attached, CHANCES)

    def test_the_numbers_of_the_command_line_make_the_slip(self):
        flash = Flash(2048, 512, 256)
        image = flash.image(flash.with_tables([flash.volume()], flash.dynamic(0, 0, 3), flash.free()))
        self.ends(run("list", self.file("dump", image), *options_of(flash)), 0, oracle_listing(flash.slip, image))


class Json(Case):
    def object(self, image, *options):
        done = run("list", self.file("dump", image), "--json", *options)
        return json.loads(done.stdout.decode("ascii")), done.returncode

    def test_everything(self):
        found, status = self.object(SMALL, *SMALL_OPTIONS)
        self.assertEqual(status, 1)
        lines = [line.split() for line in oracle_listing(Flash(1024, 64, 64).slip, SMALL).decode("ascii").splitlines()]
        for line, peb in zip([line for line in lines if line[0] == "peb"], found["pebs"]):
            counter = None if line[3] == "lost" else int(line[3])
            self.assertEqual((int(line[1]), int(line[2]), counter), (peb["peb"], peb["class"], peb["counter"]))
        self.assertEqual([list(map(int, line[1:])) for line in lines if line[0] == "map"],
                         [[entry["volume"], entry["leb"], entry["peb"]] for entry in found["map"]])
        self.assertEqual([list(map(int, line[1:])) for line in lines if line[0] == "vol"],
                         [[volume["volume"], volume["state"]] for volume in found["volumes"]])
        numbers = dict(zip(lines[0][::2], map(int, lines[0][1::2])))
        names = {"attached": "peb_count", "readonly": "read_only", "copies": "copies_mark"}
        for name, value in numbers.items():
            self.assertEqual(found["report"][names.get(name, name)], value)
        self.assertEqual(found["geometry"], {"peb_size": 1024, "unit": 64, "sub_unit": 64, "vid_start": 64,
                                             "data_start": 128, "leb_size": 896})

    def test_volumes(self):
        found, _ = self.object(SMALL, *SMALL_OPTIONS)
        self.assertEqual([volume["name"] for volume in found["volumes"]], ["log", "boot", "colours", "spare"])
        boot = found["volumes"][1]
        self.assertEqual((boot["type"], boot["reserved"], boot["mapped"], boot["used_lebs"]), ("static", 2, 2, 2))
        self.assertEqual(found["volumes"][2]["update_marker"], 1)

    def test_the_table_taken(self):
        """Copy 0 is damaged: the names are those of copy 1."""
        flash = Flash(1024, 1, 1)
        blocks = [flash.layout(0, b"\0" * 500, 1), flash.layout(1, flash.table(flash.volume(b"one")), 2), flash.free()]
        found, status = self.object(flash.image(blocks), *options_of(flash))
        self.assertEqual((status, found["report"]["table"], found["report"]["copies_mark"]), (1, 1, 1))
        self.assertEqual([volume["name"] for volume in found["volumes"]], ["one"])

    def test_names_survive(self):
        for name in (b"\xff\xfe", b"caf\xc3\xa9", b"a\nb", b"\x01", b"<b>&\"'"):
            flash, image = named_chip(name)
            found, status = self.object(image, *options_of(flash))
            self.assertEqual(status, 0)
            self.assertEqual(bytes.fromhex(found["volumes"][0]["name_hex"]), name)

    def test_refused(self):
        found, status = self.object(BENCH[:1024], *BENCH_OPTIONS)
        self.assertEqual(status, 2)
        self.assertEqual((found["refused"]["number"], found["refused"]["place"]), (3, 0))
        self.assertEqual(found["refused"]["line"], "refused 3 at 0")
        self.assertNotIn("pebs", found)


class Whole(Case):
    def test_the_sample_chip(self):
        image = chip_image()
        self.ends(run("list", self.file("chip", image), *options_of(CHIP), "--blocks", "0x80"), 1,
                  oracle_listing(CHIP.slip, image))


if __name__ == "__main__":
    unittest.main()
