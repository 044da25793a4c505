"""Volume lists by chance, written as the configuration that ubinize and `ubibench build` read.

What a list asks for is known here by its own words, and by none of the bench tool's.
"""

import os
from collections import namedtuple

import builder
import ubi

# `text` is the section as it stands in the configuration, `content` the bytes of its image file.
Volume = namedtuple("Volume", "text name vol_type reserved alignment flags content")

LETTERS = "abcdefghijklmnopqrstuvwxyzABCDEFGHIJKLMNOPQRSTUVWXYZ0123456789-_.=:[]"
# In quotes only.
MORE = LETTERS + " #;\t'"
TYPES = {"dynamic": ubi.DYNAMIC, "static": ubi.STATIC}
FLAGS = {"": 0, "autoresize": 1, "skip-check": 2}
UNITS = ((1, ""), (1024, "KiB"), (1024, " KiB"), (1 << 20, "MiB"))


class List:
    """The volumes of one chip, and what is asked for by them."""

    def __init__(self, flash, volumes, blocks, image_seq):
        self.flash = flash
        self.volumes = volumes
        self.blocks = blocks
        self.image_seq = image_seq

    def slip(self):
        return builder.slip_with(self.flash.slip, [
            builder.volume_field(one.reserved, one.alignment, one.vol_type, one.flags, one.name)
            for one in self.volumes])

    def built(self):
        """The oracle's image."""
        answer, image = builder.build(
            self.slip(), self.image_seq, [len(one.content) for one in self.volumes],
            b"".join(one.content for one in self.volumes),
            bytes(self.blocks * self.flash.peb_size))
        assert answer == builder.BUILT, answer
        return image

    def write(self, directory, name="chip.ini", order=None):
        """The configuration with its image files; the sections in an order that may be given."""
        for number, one in enumerate(self.volumes):
            if one.content:
                with open(os.path.join(directory, "content-%d" % number), "wb") as file:
                    file.write(one.content)
        path = os.path.join(directory, name)
        with open(path, "wb") as file:
            for number in range(len(self.volumes)) if order is None else order:
                file.write(self.volumes[number].text.encode("utf-8"))
        return path

    def options(self):
        geometry = self.flash.geometry
        return ["--peb-size", geometry.peb_size, "--unit", geometry.unit,
                "--sub-unit", geometry.sub_unit, "--blocks", self.blocks]

    def lines(self):
        """What the tool says of each volume."""
        for number, one in enumerate(self.volumes):
            room = room_of(self.flash, one.alignment)
            yield "volume %d \"%s\", %s: %s of %s written, %s" % (
                number, one.name.decode("utf-8").replace("\t", "\\x09"),
                "static" if one.vol_type == ubi.STATIC else "dynamic",
                format(-(-len(one.content) // room), ","), counted(one.reserved, "LEB"),
                counted(len(one.content), "byte"))


def counted(number, noun):
    return "%s %s%s" % (format(number, ","), noun, "" if number == 1 else "s")


def room_of(flash, alignment):
    return flash.leb_size - flash.leb_size % alignment


def list_by_chance(flash, chance, lebs_most, for_ubinize=False):
    """A few volumes of up to so many LEBs each. ubinize makes no static volume without content, and
    none with the LEB's size for an alignment."""
    count = chance.between(1, min(chance.pick([2, 4, 9]), flash.record_count))
    autoresize = chance.below(2 * count)
    volumes = []
    for number in range(count):
        volumes.append(volume_by_chance(flash, chance, number, lebs_most, number == autoresize,
                                        for_ubinize))
    blocks = 2 + sum(one.reserved for one in volumes) + chance.pick([0, 0, 1, 5])
    image_seq = chance.pick([0, 1, 0x80000000, 0xFFFFFFFF, chance.below(2 ** 32)])
    return List(flash, volumes, blocks, image_seq)


def volume_by_chance(flash, chance, number, lebs_most, autoresize, for_ubinize):
    kind = chance.pick(["dynamic", "static"])
    alignment = alignment_by_chance(flash, chance, flash.leb_size - for_ubinize)
    room = room_of(flash, alignment)
    empty = chance.below(5) == 0 and not (for_ubinize and kind == "static")
    content = b"" if empty else content_by_chance(chance, room, lebs_most)
    size, size_text = size_by_chance(chance, room, len(content))
    flags = "autoresize" if autoresize else ""
    if not flags and kind == "static" and chance.below(3) == 0:
        flags = "skip-check"
    # Two names that are equal in small letters are two; the number keeps all of them apart.
    name = "%d" % number + text_by_chance(chance, chance.pick([0, 1, 5, 20, 124]))
    lines = ["mode=ubi", "vol_id=" + chance.pick(["%d", "0x%x"]) % number,
             "vol_name=" + quoted(chance, name)]
    if content:
        lines.append("image=content-%d" % number)
    if size_text:
        lines.append("vol_size=" + size_text)
    if kind == "static" or chance.below(2):
        lines.append("vol_type=" + kind)
    if alignment > 1 or chance.below(2):
        lines.append("vol_alignment=%d" % alignment)
    if flags:
        lines.append("vol_flags=" + flags)
    text = "[section %d]\n" % number + "".join(
        written(chance, line) for line in chance.shuffled(lines))
    return Volume(text, name.encode("ascii"), TYPES[kind], -(-size // room), alignment,
                  FLAGS[flags], content)


def alignment_by_chance(flash, chance, most):
    """1 mostly; else a multiple of the unit, some of which leave a pad."""
    units = most // flash.unit
    if not units:
        return 1
    return chance.pick([1, 1, flash.unit, flash.unit * chance.between(1, units)])


def content_by_chance(chance, room, lebs_most):
    """Whole LEBs, a byte more or less, or any length; sometimes 0xFF or zeroes alone."""
    lebs = chance.between(1, lebs_most)
    length = chance.pick([lebs * room, lebs * room - 1, (lebs - 1) * room + 1,
                          chance.between(1, lebs * room)])
    return chance.pick([chance.bytes(length)] * 3 + [b"\xff" * length, bytes(length)])


def size_by_chance(chance, room, length):
    """The volume's size, and how it is written: not at all, or in bytes or more, rounded up."""
    if length and chance.below(3) == 0:
        return length, None
    size = length + chance.pick([0, 1, room, chance.below(4 * room)]) or 1
    times, unit = chance.pick(UNITS[:1] if size < 4096 else UNITS[:3])
    if size > 8 << 20:
        times, unit = UNITS[3]
    size = -(-size // times) * times
    return size, "%d%s" % (size // times, unit)


def text_by_chance(chance, length):
    letters = chance.pick([LETTERS, MORE])
    return "".join(chance.pick(letters) for _ in range(length))


def quoted(chance, text):
    if set(text) <= set(LETTERS) and chance.below(2):
        return text
    return '"%s"' % text


def written(chance, line):
    """A line of the configuration: blanks, capital letters in the key, a comment."""
    key, value = line.split("=", 1)
    if chance.below(4) == 0:
        key = key.upper()
    blank = chance.pick(["", "", " ", "\t"])
    comment = chance.pick(["", "", " ; a comment", "\n# a comment = 1", "\n"])
    return blank + key + blank + "=" + blank + value + blank + comment + chance.pick(["\n", "\r\n"])
