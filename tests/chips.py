"""Images that ubinize and mkfs.ubifs make for real chips, through every command of the bench tool.

    python3 tests/chips.py           the chips of the gate
    python3 tests/chips.py --all     those of 1,024 blocks of every kind, too

A chip holds a UBIFS, a static volume and a small dynamic one, and free blocks behind them, as ubiformat leaves them.
It is probed (its geometry is proposed first), listed (against the oracle, and what was asked for), shown, reported,
moved (the bytes are the oracle's) and compared with what it was; spoilt copies are listed, too, and dumps with spare
bytes. Without ubinize or mkfs.ubifs it says so and ends with 0. At a difference the chip is kept in a file that the
message names, and the exit status is 1.
"""

import argparse
import hashlib
import json
import os
import random
import re
import shutil
import subprocess
import sys
import tempfile
import time
from collections import namedtuple

import scale
from clib import VARIABLE, library_path
from scale import PROGRAM, Ended

import attach
import mover
import ubi
from cases import Chance
from check_moves import expected_blocks
from images import Flash
from programs import keep
from ubinize import spoilt_images

SECONDS = 600
MISSING = "skipped: %s (Debian package mtd-utils) is not installed"

# `fs_unit` is the least that UBIFS writes, `spare` the spare bytes of a page (0: the chip has none).
Kind = namedtuple("Kind", "name peb_size unit sub_unit fs_unit spare")
NAND = Kind("NAND 128 KiB, pages of 2,048 with sub-pages of 512", 131072, 2048, 512, 2048, 64)
WHOLE = Kind("NAND 128 KiB, pages of 2,048", 131072, 2048, 2048, 2048, 64)
LARGE = Kind("NAND 256 KiB, pages of 4,096", 262144, 4096, 4096, 4096, 224)
NOR = Kind("NOR 64 KiB", 65536, 1, 1, 8, 0)

# Kind, blocks, and how large the file in the file system is.
GATE = ((NAND, 64, 2000000), (WHOLE, 100, 3000000), (LARGE, 64, 3000000), (NOR, 64, 900000), (NOR, 256, 4000000),
        (LARGE, 256, 9000000), (NAND, 1024, 20000000))
ALL = GATE + ((WHOLE, 1024, 60000000), (LARGE, 1024, 100000000), (NOR, 1024, 30000000))

IMAGE_SEQUENCE = 0x1234ABCD
COUNTER = 7
ROOTFS, KERNEL, SETTINGS = range(3)
NAMES = ("rootfs", "kernel", "settings")
SIGNS = ".#o_Xdk"
BLANK_BLOCKS = 2


class Different(Exception):
    pass


def demand(holds, what):
    if not holds:
        raise Different(what)


def find(name):
    return shutil.which(name, path=os.environ.get("PATH", os.defpath) + ":/usr/sbin:/sbin")


def run(*words):
    """The bench tool, as people start it."""
    done = subprocess.run([sys.executable, "-B", PROGRAM] + [str(word) for word in words], stdout=subprocess.PIPE,
                          stderr=subprocess.PIPE, timeout=SECONDS)
    return Ended(done.returncode, done.stdout, done.stderr)


# ----------------------------------------------------------------- making a chip

class Maker:
    """One chip's image, made in a directory of its own."""

    def __init__(self, kind, blocks, size, directory):
        self.kind = kind
        self.blocks = blocks
        self.size = size
        self.directory = directory
        self.flash = Flash(kind.peb_size, kind.unit, kind.sub_unit)

    def path(self, name):
        return os.path.join(self.directory, name)

    def call(self, name, *words):
        done = subprocess.run([find(name)] + [str(word) for word in words], cwd=self.directory, timeout=SECONDS,
                              stdout=subprocess.PIPE, stderr=subprocess.STDOUT)
        demand(done.returncode == 0, "%s: %s" % (name, done.stdout.decode("utf-8", "replace")))

    def contents(self):
        """Files for the file system, half of it text that can be compressed; and the kernel."""
        dice = random.Random(self.blocks)
        os.makedirs(self.path("root/etc"))
        for name, data in (("root/etc/unit", b"scanner 7\n" * 300),
                           ("root/log", b"vial reading 17\n" * (self.size // 32)),
                           ("root/image", dice.randbytes(self.size // 2)),
                           ("kernel", dice.randbytes(3 * self.flash.leb_size + 1234)),
                           ("settings", b"colour=blue\n" * 200)):
            with open(self.path(name), "wb") as file:
                file.write(data)

    def image(self):
        kind, leb_size = self.kind, self.flash.leb_size
        self.contents()
        self.call("mkfs.ubifs", "-r", "root", "-m", kind.fs_unit, "-e", leb_size, "-c", self.blocks, "-o", "rootfs")
        with open(self.path("volumes.ini"), "w") as ini:
            for number, more in ((ROOTFS, "vol_type=dynamic\nvol_flags=autoresize"), (KERNEL, "vol_type=static"),
                                 (SETTINGS, "vol_type=dynamic\nvol_size=%d" % (3 * leb_size))):
                ini.write("[%s]\nmode=ubi\nimage=%s\nvol_id=%d\nvol_name=%s\n%s\n" % (
                    NAMES[number], NAMES[number], number, NAMES[number], more))
        self.call("ubinize", "-o", "ubi", "-p", kind.peb_size, "-m", kind.unit, "-s", kind.sub_unit, "-Q",
                  IMAGE_SEQUENCE, "-e", COUNTER, "volumes.ini")
        with open(self.path("ubi"), "rb") as file:
            return self.as_on_chip(file.read())

    def as_on_chip(self, image):
        """ubiformat writes an EC header to every block that is left."""
        written = len(image) // self.kind.peb_size
        left = self.blocks - written - BLANK_BLOCKS
        demand(left > 4, "the image of %d blocks is too large for the chip" % written)
        free = self.flash.peb(self.flash.free(image_sequence=IMAGE_SEQUENCE, counter=COUNTER - 2))
        return image + free * left + b"\xff" * self.kind.peb_size * BLANK_BLOCKS


# ------------------------------------------------------------------- what is tried

class Trial:
    def __init__(self, maker):
        self.maker = maker
        self.flash = maker.flash
        self.image = maker.image()
        self.path = self.file("chip.bin", self.image)
        self.report = attach.attach(self.flash.slip, self.image,
                                    mover.enough_tables(self.image, self.flash.peb_size))
        self.chance = Chance(1 + maker.blocks)
        self.tried = 0

    def file(self, name, data):
        with open(self.maker.path(name), "wb") as file:
            file.write(data)
        return self.maker.path(name)

    def options(self, blocks=True):
        kind = self.maker.kind
        words = ["--peb-size", kind.peb_size, "--unit", kind.unit, "--sub-unit", kind.sub_unit]
        return words + ["--blocks", self.maker.blocks] * blocks

    def run(self):
        self.as_asked_for()
        self.listed(self.path, self.image)
        self.probed(self.path, 0)
        self.shown()
        self.reported()
        for volume in (ROOTFS, KERNEL, SETTINGS, ubi.LAYOUT_VOLUME):
            self.moved(volume)
        if self.maker.blocks <= 100:
            self.spoilt()
        if self.maker.kind.spare and self.maker.blocks <= 256:
            self.with_spare_bytes()

    def as_asked_for(self):
        """What ubinize was told to make, by the oracle."""
        report = self.report
        lebs = {number: [leb for volume, leb, _ in report.entries if volume == number] for number in range(3)}
        demand(report.states[:4] == [1, 1, 1, 0] and report.grade == 0, "the volumes are not as asked for")
        for number, name in enumerate(NAMES):
            length = os.path.getsize(self.maker.path(name))
            wanted = range(-(-length // self.flash.leb_size))
            demand(lebs[number] == list(wanted), "%s has the LEBs %s" % (name, lebs[number]))
        demand(report.classes.count(attach.BLANK) == BLANK_BLOCKS, "blank blocks")

    def listed(self, path, image, *more):
        wanted = scale.oracle_listing(self.flash.slip, image)
        done = run("list", path, *self.options(), *more)
        demand((done.stdout, done.status) == (wanted, scale.status_of(wanted)), "the listing of %s: %s" % (
            path, done.stderr.decode("utf-8", "replace")))
        demand(b"warning" not in done.stderr or scale.status_of(wanted) == 2, "a warning: %s" % done.stderr)
        self.tried += 1

    def probed(self, path, spare):
        done = run("probe", path, "--json")
        demand(done.status == 0, "probe ends with %d: %s" % (done.status, done.stderr))
        first, kind = json.loads(done.stdout)["proposals"][0], self.maker.kind
        wanted = {"peb_size": kind.peb_size, "unit": kind.unit, "sub_unit": kind.sub_unit, "oob": spare,
                  "blocks": self.maker.blocks, "left_over": 0}
        if spare:
            # Among spare bytes the page is known, and the sub-page is told by the starts alone.
            wanted.pop("sub_unit")
            demand([kind.unit, kind.sub_unit] in first["same_starts"], "probe with spare bytes: %s" % first)
        demand({name: first[name] for name in wanted} == wanted, "probe proposes %s" % first)
        geometry = self.flash.geometry
        demand((first["vid_start"], first["data_start"]) == (geometry.vid_start, geometry.data_start), "starts")
        demand(first["agree"] == self.maker.blocks - BLANK_BLOCKS, "%d headers agree" % first["agree"])
        self.tried += 1

    def shown(self):
        done = run("show", self.path, *self.options())
        text = done.stdout.decode("utf-8")
        rows = re.findall(r"^ +(\d+)  ([%s]+)$" % re.escape(SIGNS), text, re.M)
        drawn = "".join(row for _, row in rows)
        wanted = "".join(SIGNS[klass] for klass in self.report.classes)
        demand(done.status == 0 and drawn == wanted, "the map:\n" + text)
        demand([int(number) for number, _ in rows] == list(range(0, self.maker.blocks, 64)), "rows of 64")
        for number, name in enumerate(NAMES):
            mapped = sum(1 for entry in self.report.entries if entry.volume == number)
            line = re.search(r"^ *%d  %s +(dynamic|static) .* good .* %s of " % (number, name, format(mapped, ",")),
                             text, re.M)
            demand(line and (line.group(1) == "static") == (number == KERNEL), "%s in:\n%s" % (name, text))
        counters = [counter for counter in self.report.counters if counter != attach.NONE]
        demand("lowest %d, mean %d, highest %d" % (min(counters), self.report.mean, max(counters)) in text, text)
        self.tried += 1

    def reported(self):
        page_path = self.maker.path("unit.html")
        done = run("report", self.path, *self.options(), "-o", page_path)
        demand(done.status == 0, "report ends with %d: %s" % (done.status, done.stderr))
        with open(page_path, encoding="utf-8") as file:
            page = file.read()
        for words in (hashlib.sha256(self.image).hexdigest(), format(len(self.image), ","), "class=\"verdict good\"",
                      *NAMES, *scale.oracle_listing(self.flash.slip, self.image).decode("ascii").splitlines()):
            demand(words in page, "the page has no %r" % words)
        self.tried += 1

    # --------------------------------------------------------------- moves

    def moved(self, volume):
        """A LEB by chance, on a copy; then in the file itself, where it is not a step for every byte."""
        entry = self.chance.pick([entry for entry in self.report.entries if entry.volume == volume])
        target = self.chance.pick([peb for peb, klass in enumerate(self.report.classes) if klass == attach.FREE])
        move = (volume, entry.leb, target)
        plan = mover.begin(self.flash.slip, self.image, mover.enough_tables(self.image, self.flash.peb_size), *move)
        wanted = self.image_after(plan)
        words = ["--volume", volume, "--leb", entry.leb, "--to", target]
        out = self.maker.path("moved.bin")
        self.compare_move(run("move", self.path, *self.options(), *words, "-o", out), plan, out, wanted)
        demand(self.content(self.path) == self.image, "the dump itself changed")
        self.listed(out, wanted)
        self.differs(plan, entry, out)
        if mover.step_count(plan) < 400 and len(self.image) < 40000000:
            shutil.copy(self.path, out)
            self.compare_move(run("move", out, *self.options(), *words, "--in-place"), plan, out, wanted)
        self.tried += 1

    def image_after(self, plan):
        """The oracle's, both blocks in one piece."""
        size = self.flash.peb_size
        blocks = dict(zip((plan.target, plan.old), expected_blocks(plan, self.image, None)))
        after = bytearray(self.image)
        for peb, block in blocks.items():
            after[peb * size:(peb + 1) * size] = block
        return bytes(after)

    def compare_move(self, done, plan, path, wanted):
        demand(done.status == 0, "move ends with %d: %s" % (done.status, done.stderr))
        steps = mover.step_count(plan)
        lines = done.stdout.decode("ascii").splitlines()
        name = "map %d %d " % (plan.vid.volume, plan.vid.leb)
        demand((lines[0], lines[-1]) == (name + str(plan.old), name + str(plan.target)), "the map's lines: %s" % lines)
        demand(lines[-2].startswith("step %d of %d" % (steps, steps)), lines[-2])
        demand(self.content(path) == wanted, "the moved image is not the oracle's")

    @staticmethod
    def content(path):
        with open(path, "rb") as file:
            return file.read()

    def differs(self, plan, entry, moved):
        """`diff` names just the two blocks, and what became of them."""
        done = run("diff", self.path, moved, *self.options())
        lines = done.stdout.decode("ascii").splitlines()
        changed = {int(line.split(" ")[1]): line for line in lines if line.startswith("peb ")}
        demand(done.status == 0 and set(changed) == {plan.old, plan.target}, "diff says:\n" + "\n".join(lines))
        volume = "layout" if entry.volume == ubi.LAYOUT_VOLUME else str(entry.volume)
        place = "%s:%d" % (volume, entry.leb)
        for words in ("class 1 (chosen) -> 0 (free)", "counter %d -> %d" % (COUNTER, COUNTER + 1),
                      "place %s -> none" % place, "content "):
            demand(words in changed[plan.old], "diff says " + changed[plan.old])
        for words in ("class 0 (free) -> 1 (chosen)", "place none -> " + place, "content "):
            demand(words in changed[plan.target], "diff says " + changed[plan.target])
        demand("highest 0 -> 1" in lines, "diff says:\n" + "\n".join(lines))
        self.tried += 1

    # ------------------------------------------------- damage, and spare bytes

    def spoilt(self):
        for image in spoilt_images(self.flash, self.image, self.chance):
            wanted = scale.oracle_listing(self.flash.slip, image)
            done = scale.tool_on(image, "list", *self.options(blocks=False))
            if (done.stdout, done.status) != (wanted, scale.status_of(wanted)):
                raise Different("a spoilt copy, in %s" % keep(self.flash.slip + image, "chips-", ".dump"))
            self.tried += 1

    def with_spare_bytes(self):
        """As a reader that does not leave them out dumps it."""
        kind = self.maker.kind
        spare = random.Random(1).randbytes(kind.spare)
        raw = b"".join(self.image[at:at + kind.unit] + spare for at in range(0, len(self.image), kind.unit))
        path = self.file("raw.bin", raw)
        self.listed(path, self.image, "--oob", kind.spare)
        self.probed(path, kind.spare)
        os.unlink(path)


def try_chip(kind, blocks, size):
    began = time.monotonic()
    with tempfile.TemporaryDirectory(prefix="chips-") as directory:
        trial = None
        try:
            trial = Trial(Maker(kind, blocks, size, directory))
            trial.run()
        except (Different, ubi.Refused) as different:
            kept = keep(trial.flash.slip + trial.image, "chips-", ".dump") if trial else "no file"
            print("%s, %d blocks: %s\nthe chip with its slip is in %s" % (kind.name, blocks, different, kept))
            return None
        print("%s, %d blocks: %d tries (%d s)" % (kind.name, blocks, trial.tried, time.monotonic() - began), flush=True)
        return trial.tried


def main(arguments):
    parser = argparse.ArgumentParser(description="Images of ubinize and mkfs.ubifs through the bench tool.")
    parser.add_argument("--all", action="store_true", help="1,024 blocks of every kind, too")
    chosen = parser.parse_args(arguments)
    os.environ[VARIABLE] = library_path()
    for name in ("ubinize", "mkfs.ubifs"):
        if find(name) is None:
            print("chips: " + MISSING % name)
            return 0
    tried = 0
    chips = ALL if chosen.all else GATE
    for kind, blocks, size in chips:
        count = try_chip(kind, blocks, size)
        if count is None:
            return 1
        tried += count
    print("chips: %d chips, %d tries, 0 differences" % (len(chips), tried))
    return 0


if __name__ == "__main__":
    sys.exit(main(sys.argv[1:]))
