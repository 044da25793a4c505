"""Compares a listing program and the oracle on images made by `ubinize`.

    python3 oracle/ubinize.py build/ubilist
    python3 oracle/ubinize.py --installed

`ubinize`, of mtd-utils, is what makes UBI images elsewhere: a third reading
of the format, by people who knew nothing of 01. Each image is listed by the
program and the oracle, and its listing held against what was asked for;
then again with some of its bytes spoilt, where both only have to agree.
Without `ubinize` it says so and ends with 0. The second form only asks
whether there is one: its exit status is 1 if not.
"""

import os
import shutil
import subprocess
import sys
import tempfile
from collections import namedtuple

# The modules beside this one are read only: leave no cache among them.
sys.dont_write_bytecode = True
sys.path.insert(0, os.path.dirname(os.path.abspath(__file__)))

from cases import Chance  # noqa: E402
from cases_attach_random import flipped, half_erased, torn  # noqa: E402
from compare import agrees  # noqa: E402
from images import BLANK, Flash  # noqa: E402
from listing import MOST_INPUT, listing  # noqa: E402

SKIPPED = "skipped: ubinize (Debian package mtd-utils) is not installed"

# `size` is that of the volume's content in bytes, 0 for none; `reserved` the
# LEBs it is to have.
Volume = namedtuple("Volume", "number kind name size reserved alignment flags")

# Options are more words for the command line; the first line of the listing
# is found by the volumes unless `refused` says what it is.
Recipe = namedtuple(
    "Recipe", "peb_size unit sub_unit counter options volumes refused")


def volume(number, name, size, reserved, kind="dynamic", alignment=1,
           flags=""):
    return Volume(number, kind, name, size, reserved, alignment, flags)


def static(number, name, size, reserved, **more):
    return volume(number, name, size, reserved, kind="static", **more)


def recipe(peb_size, unit, sub_unit, volumes, counter=0, options=(),
           refused=None):
    return Recipe(peb_size, unit, sub_unit, counter, list(options), volumes,
                  refused)


# LEB sizes: 896, 896, 512, 1024, 1536, 1024, 2048, 3072.
GEOMETRIES = ((1024, 1, 1), (1024, 64, 64), (1024, 512, 64), (2048, 512, 512),
              (2048, 512, 256), (2048, 1024, 64), (4096, 2048, 512),
              (4096, 512, 512))


def recipes():
    """Every geometry with both kinds of volume, and then one thing each."""
    for numbers in GEOMETRIES:
        leb_size = Flash(*numbers).leb_size
        yield recipe(*numbers, volumes=[volume(0, "log", 100, 1)])
        yield recipe(*numbers, counter=17, volumes=[
            volume(0, "log", 2 * leb_size, 3),
            static(1, "boot", leb_size + 1, 2)])
        yield recipe(*numbers, options=["-Q", "3735928559"], volumes=[
            static(1, "boot", leb_size, 1),
            volume(0, "data", 0, 2, flags="autoresize")])
    yield from single_recipes()


def single_recipes():
    five = (1024, 1, 1)
    # Alignments that leave a pad, of 96 and of 512 bytes.
    for numbers, alignment, pad in ((five, 100, 96),
                                    ((2048, 512, 256), 1024, 512)):
        room = Flash(*numbers).leb_size - pad
        yield recipe(*numbers, volumes=[
            volume(0, "padded", room + 5, 3, alignment=alignment),
            static(1, "boot", 2 * room, 3, alignment=alignment),
            static(2, "short", 1, 1, alignment=alignment)])
    # As many volumes as records, their order and numbers turned.
    yield recipe(*five, volumes=[
        volume(number, "volume-%d" % number, 10, 2) for number in (4, 2, 0, 3)
    ] + [static(1, "volume-1", 900, 2)])
    yield recipe(2048, 512, 256, volumes=[volume(7, "last", 1, 1)])
    # Names: the shortest and the longest.
    yield recipe(*five, volumes=[volume(0, "n", 1, 1),
                                 volume(1, "n" * 127, 1, 1)])
    # The highest counter that ubinize writes.
    yield recipe(*five, counter=2147483646, options=["-Q", "0"],
                 volumes=[static(0, "boot", 896, 1)])
    # Many LEBs.
    yield recipe(*five, counter=3, volumes=[
        volume(3, "log", 20 * 896 - 7, 24), static(4, "boot", 17 * 896, 20)])
    # A VID header elsewhere than the slip says, and a later version.
    yield recipe(*five, options=["-O", "128"], refused="refused 6 at 0",
                 volumes=[volume(0, "log", 1, 1)])
    yield recipe(*five, options=["-x", "2"], refused="refused 5 at 0",
                 volumes=[volume(0, "log", 1, 1)])


# ------------------------------------------------------------ making images

def find_ubinize():
    """Debian keeps it where an ordinary user's path does not lead."""
    places = os.environ.get("PATH", os.defpath).split(os.pathsep)
    found = shutil.which(
        "ubinize", path=os.pathsep.join(places + ["/usr/sbin", "/sbin"]))
    return found and os.path.abspath(found)


def section(number, kind, name, size, alignment, flags, has_content):
    """The ini file's lines for one volume; its content stands in a file."""
    lines = ["[section-%d]" % number, "mode=ubi"]
    if has_content:
        lines.append("image=content-%d" % number)
    lines += ["vol_id=%d" % number, "vol_type=" + kind, "vol_name=" + name,
              "vol_size=%d" % size, "vol_alignment=%d" % alignment]
    if flags:
        lines.append("vol_flags=" + flags)
    return lines + [""]


def write_ini(directory, wanted, leb_size):
    """The ini file, and beside it the content of each volume."""
    chance = Chance(801)
    lines = []
    for one in wanted.volumes:
        if one.size:
            with open(os.path.join(directory, "content-%d" % one.number),
                      "wb") as content:
                content.write(chance.bytes(one.size))
        lines += section(one.number, one.kind, one.name,
                         one.reserved * leb_size, one.alignment, one.flags,
                         one.size > 0)
    with open(os.path.join(directory, "volumes.ini"), "w") as ini:
        ini.write("\n".join(lines))


def make_image(ubinize, wanted, flash):
    """What ubinize writes: the layout volume's two PEBs and all content."""
    with tempfile.TemporaryDirectory() as directory:
        write_ini(directory, wanted, flash.leb_size)
        return image_in(directory, ubinize, flash,
                        ["-e", str(wanted.counter)] + wanted.options)


def image_in(directory, ubinize, flash, options):
    """The image of the ini file that stands in the directory."""
    command = [ubinize, "-o", "image", "-p", str(flash.peb_size),
               "-m", str(flash.unit), "-s", str(flash.geometry.sub_unit)]
    made = subprocess.run(
        command + options + ["volumes.ini"], cwd=directory,
        stdout=subprocess.PIPE, stderr=subprocess.STDOUT)
    if made.returncode != 0:
        with open(os.path.join(directory, "volumes.ini"), "rb") as ini:
            sys.exit("ubinize makes no image of\n%s%s" % (
                ini.read().decode("latin-1"),
                made.stdout.decode("utf-8", "replace")))
    with open(os.path.join(directory, "image"), "rb") as image:
        return image.read()


def peb_count(wanted, flash):
    """As many as the volumes reserve, with two for the layout volume and two
    more. Whether ubinize divides a volume's size by the LEB size or by what
    its alignment leaves of it, there are enough."""
    return 4 + sum(lebs_of(one, one.reserved * flash.leb_size, flash)
                   for one in wanted.volumes)


def lebs_of(one, size, flash):
    """How many LEBs of the volume hold so many bytes."""
    room = flash.leb_size - flash.leb_size % one.alignment
    return (size + room - 1) // room


def chip_image(ubinize, wanted, flash):
    """The image as on a chip: with blank PEBs behind what is written."""
    image = make_image(ubinize, wanted, flash)
    whole = peb_count(wanted, flash) * wanted.peb_size
    assert len(image) <= whole and len(flash.slip) + whole <= MOST_INPUT
    return image + b"\xff" * (whole - len(image))


# ------------------------------------------------------------- judging them

def expected_lines(wanted, flash):
    """What 01 says of an image of these volumes, with nothing wrong.

    ubinize numbers no sequences: all are 0. It stores the layout volume in
    PEBs 0 and 1 and then the volumes in the order of the ini file.
    """
    if wanted.refused:
        return [wanted.refused]
    entries, at = [], 2
    for one in wanted.volumes:
        for leb in range(lebs_of(one, one.size, flash)):
            entries.append((one.number, leb, at))
            at += 1
    pebs = peb_count(wanted, flash)
    entries = sorted(entries) + [(2147479551, 0, 0), (2147479551, 1, 1)]
    return (["attached %d entries %d mean %d highest 0 readonly 0 table 0 "
             "copies 0 grade 0" % (pebs, at, wanted.counter)]
            + ["peb %d 1 %d" % (peb, wanted.counter) for peb in range(at)]
            + ["peb %d 3 lost" % peb for peb in range(at, pebs)]
            + ["map %d %d %d" % entry for entry in entries]
            + ["vol %d 1" % number for number in sorted(
                one.number for one in wanted.volumes)])


def spoilt_images(flash, image, chance):
    """The image with a PEB or two spoilt, in several ways."""
    size = flash.peb_size
    pebs = [image[at:at + size] for at in range(0, len(image), size)]
    written = [at for at, peb in enumerate(pebs) if peb != flash.peb(BLANK)]
    for way in (flipped, flipped, torn, half_erased):
        changed = list(pebs)
        for _ in range(chance.pick([1, 1, 2])):
            at = chance.pick(written)
            changed[at] = way(flash, chance, changed[at])
        yield b"".join(changed)
    yield b"".join(chance.shuffled(pebs))
    yield b"".join(pebs[1:])


def judge(program, ubinize, wanted, chance):
    """The number of dumps compared, or None at a difference."""
    flash = Flash(wanted.peb_size, wanted.unit, wanted.sub_unit)
    image = chip_image(ubinize, wanted, flash)
    lines = listing(flash.slip + image).decode("ascii").splitlines()
    if lines != expected_lines(wanted, flash):
        print("the oracle does not list what ubinize was asked for:\n%s\n%s"
              % (wanted, "\n".join(lines)))
        return None
    dumps = [flash.slip + image]
    dumps += [flash.slip + spoilt
              for spoilt in spoilt_images(flash, image, chance)]
    if all(agrees(program, dump) for dump in dumps):
        return len(dumps)
    return None


def main(arguments):
    if len(arguments) != 1:
        print(__doc__.strip(), file=sys.stderr)
        return 2
    ubinize = find_ubinize()
    if ubinize is None:
        print(SKIPPED)
        return 1 if arguments == ["--installed"] else 0
    if arguments == ["--installed"]:
        return 0
    chance = Chance(802)
    images = dumps = 0
    for wanted in recipes():
        compared = judge(os.path.abspath(arguments[0]), ubinize, wanted,
                         chance)
        if compared is None:
            return 1
        images += 1
        dumps += compared
    print("compared %d dumps of %d images of ubinize, 0 differences" % (
        dumps, images))
    return 0


if __name__ == "__main__":
    sys.exit(main(sys.argv[1:]))
