"""Images that `ubibench build` and ubinize make from the same configuration, byte for byte.

    python3 tests/build_chips.py               the chips of the gate
    python3 tests/build_chips.py --count 2000 --seed 7

For volume lists by chance, and for chips with a UBIFS that mkfs.ubifs made, both read one
configuration. ubinize knows no sequences, writes only the blocks in use, and reserves LEBs for a
volume's size as if its alignment left no pad. So its headers are numbered 1, 2, 3, .., their
checksums set alike, free blocks put behind them, and the LEBs reserved for a padded volume taken
from here; nothing else is touched. Then the two images must be equal, with the sections of the
configuration turned round, too, and `ubibench list` must say grade 0. Without ubinize or
mkfs.ubifs it says so and ends with 0. At a difference the exit status is 1, and the message names
what it takes to see it again.
"""

import argparse
import os
import random
import subprocess
import sys
import tempfile
import time

import scale
from chips import LARGE, MISSING, NAND, NOR, WHOLE, Different, demand, find
from clib import VARIABLE, library_path
from volume_lists import List, Volume, list_by_chance, room_of

import ubi
from cases import Chance
from images import Flash

SECONDS = 600
COUNT = 250
SEED = 1

# Geometry, and the most LEBs of a volume's content.
SMALL = (((1024, 1, 1), 20), ((1024, 64, 64), 20), ((2048, 512, 256), 12), ((2048, 1024, 64), 12),
         ((4096, 512, 512), 8), ((16384, 512, 256), 5))
REAL = tuple(((kind.peb_size, kind.unit, kind.sub_unit), 2) for kind in (NAND, WHOLE, LARGE, NOR))
# Of the lists by chance, every so many is of a real chip's geometry.
REAL_EVERY = 12
# With a UBIFS: kind, blocks, and how large the file in it is.
FILES = ((NAND, 64, 2000000), (NOR, 128, 900000), (LARGE, 64, 3000000), (NAND, 1024, 20000000))


class Trial:
    """One list of volumes in a directory of its own."""

    def __init__(self, asked, directory):
        self.asked = asked
        self.flash = asked.flash
        self.directory = directory

    def path(self, name):
        return os.path.join(self.directory, name)

    def run(self, chance):
        self.asked.write(self.directory)
        wanted = self.by_ubinize()
        self.compare(wanted)
        self.asked.write(self.directory, order=chance.shuffled(range(len(self.asked.volumes))))
        self.compare(wanted)

    # ------------------------------------------------------------- ubinize

    def by_ubinize(self):
        """Its image as ours has to be."""
        geometry = self.flash.geometry
        words = [find("ubinize"), "-o", "ubi", "-p", geometry.peb_size, "-m", geometry.unit,
                 "-s", geometry.sub_unit, "-e", 0, "-Q", self.asked.image_seq, "chip.ini"]
        done = subprocess.run([str(word) for word in words], cwd=self.directory, timeout=SECONDS,
                              stdout=subprocess.PIPE, stderr=subprocess.STDOUT)
        demand(done.returncode == 0, "ubinize: " + done.stdout.decode("utf-8", "replace"))
        with open(self.path("ubi"), "rb") as file:
            image = bytearray(file.read())
        self.number(image)
        self.reserve(image)
        written = len(image) // geometry.peb_size
        demand(written <= self.asked.blocks, "ubinize writes %d blocks" % written)
        free = self.flash.peb(self.flash.free(counter=0, image_sequence=self.asked.image_seq))
        return bytes(image) + free * (self.asked.blocks - written)

    def number(self, image):
        """Sequences from 1 on; all of ubinize's are 0."""
        for peb, at in enumerate(range(0, len(image), self.flash.peb_size)):
            at += self.flash.geometry.vid_start
            demand(image[at + 40:at + 48] == bytes(8), "ubinize numbers its headers")
            image[at + 40:at + 48] = (peb + 1).to_bytes(8, "big")
            with_crc(image, at, 60)

    def reserve(self, image):
        """What a padded volume's size comes to, in both tables."""
        for copy in range(2):
            table = copy * self.flash.peb_size + self.flash.geometry.data_start
            for number, one in enumerate(self.asked.volumes):
                if room_of(self.flash, one.alignment) < self.flash.leb_size:
                    at = table + number * ubi.RECORD_SIZE
                    image[at:at + 4] = one.reserved.to_bytes(4, "big")
                    with_crc(image, at, 168)

    # ---------------------------------------------------------------- ours

    def compare(self, wanted):
        before = os.getcwd()
        os.chdir(self.directory)
        try:
            done = scale.tool("build", "chip.ini", *self.asked.options(), "-o", "built",
                              "--image-seq", self.asked.image_seq)
        finally:
            os.chdir(before)
        demand(done.status == 0 and not done.stderr, "build ends with %d: %s" % (
            done.status, done.stderr.decode("utf-8", "replace")))
        with open(self.path("built"), "rb") as file:
            image = file.read()
        demand(len(image) == len(wanted), "the image has %d bytes" % len(image))
        if image != wanted:
            at = next(at for at in range(len(image)) if image[at] != wanted[at])
            raise Different("byte %d of block %d is %d, and ubinize's %d" % (
                at % self.flash.peb_size, at // self.flash.peb_size, image[at], wanted[at]))
        self.listed(done)

    def listed(self, done):
        lines = done.stdout.decode("utf-8").splitlines()
        listed = scale.tool("list", self.path("built"), *self.asked.options())
        first = listed.stdout.decode("ascii").split("\n", 1)[0]
        demand(listed.status == 0 and first.endswith(" grade 0"), "the listing: " + first)
        demand(lines == list(self.asked.lines()) + [first], "it says:\n" + "\n".join(lines))


def with_crc(image, at, size):
    image[at + size:at + size + 4] = ubi.jamcrc(image[at:at + size]).to_bytes(4, "big")


# ------------------------------------------------------------------- what is tried

def try_lists(count, seed):
    for number in range(count):
        # Each has a chance of its own, so that it can be tried by itself.
        chance = Chance(seed * 1000003 + number)
        geometry, most = chance.pick(SMALL if number % REAL_EVERY else REAL)
        asked = list_by_chance(Flash(*geometry), chance, most, for_ubinize=True)
        yield "list %d of seed %d" % (number, seed), asked, chance


def files_list(kind, blocks, size, directory):
    """A chip with a UBIFS that takes all blocks that are left, a kernel and settings."""
    flash, dice = Flash(kind.peb_size, kind.unit, kind.sub_unit), random.Random(blocks)
    root = os.path.join(directory, "root")
    os.makedirs(root)
    for name, data in (("log", b"vial reading 17\n" * (size // 32)),
                       ("image", dice.randbytes(size // 2))):
        with open(os.path.join(root, name), "wb") as file:
            file.write(data)
    out = os.path.join(directory, "ubifs")
    words = [find("mkfs.ubifs"), "-r", root, "-m", kind.fs_unit, "-e", flash.leb_size, "-c", blocks,
             "-o", out]
    done = subprocess.run([str(word) for word in words], timeout=SECONDS, stdout=subprocess.PIPE,
                          stderr=subprocess.STDOUT)
    demand(done.returncode == 0, "mkfs.ubifs: " + done.stdout.decode("utf-8", "replace"))
    with open(out, "rb") as file:
        ubifs = file.read()
    kernel = dice.randbytes(3 * flash.leb_size + 1234)
    lebs = -(-len(ubifs) // flash.leb_size) + 3
    text = "[%s]\nmode=ubi\nimage=content-%d\nvol_id=%d\nvol_name=%s\n%s\n"
    volumes = [
        Volume(text % ("rootfs", 0, 0, "rootfs", "vol_size=%d\nvol_flags=autoresize"
                       % (lebs * flash.leb_size)), b"rootfs", 1, lebs, 1, 1, ubifs),
        Volume(text % ("kernel", 1, 1, "kernel", "vol_type=static"), b"kernel", 2, 4, 1, 0, kernel),
        Volume(text % ("settings", 2, 2, "settings", "vol_size=1"), b"settings", 1, 1, 1, 0, b"7")]
    return List(flash, volumes, blocks, 0x1234ABCD)


def try_files():
    for kind, blocks, size in FILES:
        with tempfile.TemporaryDirectory(prefix="files-") as directory:
            asked = files_list(kind, blocks, size, directory)
        yield "%s, %d blocks with a UBIFS" % (kind.name, blocks), asked, Chance(blocks)


def try_all(trials):
    """How many were tried, or None at a difference."""
    tried = 0
    for name, asked, chance in trials:
        with tempfile.TemporaryDirectory(dir=scale.memory_directory()) as directory:
            try:
                Trial(asked, directory).run(chance)
            except Different as different:
                print("%s, %s: %s" % (name, " ".join(map(str, asked.options())), different))
                return None
        tried += 1
    return tried


def main(arguments):
    parser = argparse.ArgumentParser(description="Images of ubibench build and of ubinize.")
    parser.add_argument("--count", type=int, default=COUNT, help="lists by chance (%d)" % COUNT)
    parser.add_argument("--seed", type=int, default=SEED, help="other lists for another number")
    chosen = parser.parse_args(arguments)
    os.environ[VARIABLE] = library_path()
    for name in ("ubinize", "mkfs.ubifs"):
        if find(name) is None:
            print("build_chips: " + MISSING % name)
            return 0
    began = time.monotonic()
    counts = []
    for trials in (try_lists(chosen.count, chosen.seed), try_files()):
        counts.append(try_all(trials))
        if counts[-1] is None:
            return 1
    print("build_chips: %d lists by chance, %d chips with a UBIFS, 0 differences (%d s)" % (
        *counts, time.monotonic() - began))
    return 0


if __name__ == "__main__":
    sys.exit(main(sys.argv[1:]))
