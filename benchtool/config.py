"""The configuration of `ubibench build`: ubinize's format, a section for each volume.

A line is blank, a comment (# or ; in front), `[section]` or `key=value`. Names of sections and keys
are the same in small and capital letters. A value ends at # or ; unless it stands in quotes. What
ubinize passes over in silence is an error here: a section of another mode, a key that it does not
know, a section or key that is there twice, a number with something behind it.
"""

import os
import re
from collections import namedtuple

from benchtool.chip import AUTORESIZE, DYNAMIC, SKIP_CRC, STATIC
from benchtool.library import NAME_SIZE
from benchtool.numbers import grouped
from benchtool.trouble import Trouble, of_system

KEYS = ("mode", "image", "vol_id", "vol_size", "vol_type", "vol_name", "vol_alignment", "vol_flags")
TYPES = {"dynamic": DYNAMIC, "static": STATIC}
FLAGS = {"autoresize": AUTORESIZE, "skip-check": SKIP_CRC}
NAME_MOST = NAME_SIZE - 1
# No list of 128 volumes is longer, in bytes.
LENGTH_MOST = 1 << 20

BLANKS = " \t\v\f\r"
COMMENT = re.compile("[#;]")
QUOTES = "\"'"
# ubinize takes a number with 0 in front for an octal one.
NUMBER = re.compile(r"0|[1-9][0-9]{0,18}|0[xX][0-9a-fA-F]{1,16}", re.ASCII)
SIZE = re.compile(r"(%s)[ \t]*(|KiB|MiB|GiB)" % NUMBER.pattern, re.ASCII)
TIMES = {"": 1, "KiB": 1 << 10, "MiB": 1 << 20, "GiB": 1 << 30}

# A volume as it is asked for: the name is bytes; `size` and `image` are None if they are not there.
Wanted = namedtuple("Wanted", "section number name vol_type size alignment flags image")


class Section:
    """The keys of one section, and what is said where one of them is not taken."""

    def __init__(self, config, name):
        self.config = config
        self.name = name
        self.keys = {}

    def at(self, key):
        return "%s [%s] %s" % (self.config, self.name, key)

    def trouble(self, key, text):
        return Trouble("%s: %s" % (self.at(key), text))

    def wanted(self, key, meaning):
        if key not in self.keys:
            raise self.trouble(key, "missing; it is " + meaning)
        return self.keys[key]

    def one_of(self, key, values, default):
        """The value that a word stands for."""
        if key not in self.keys:
            return default
        if self.keys[key] not in values:
            raise self.trouble(key, "%r is not %s" % (self.keys[key], " or ".join(values)))
        return values[self.keys[key]]

    def number(self, key, text):
        if NUMBER.fullmatch(text) is None:
            raise self.trouble(key, "%r is no number: write 16 or 0x10, no 0 before it" % text)
        return int(text, 0)


# ------------------------------------------------------------- the lines

def read_config(path):
    """The volumes asked for, by their numbers; Trouble for what is not taken."""
    try:
        with open(path, "rb") as file:
            data = file.read(LENGTH_MOST + 1)
    except OSError as error:
        raise of_system(path, error)
    if len(data) > LENGTH_MOST:
        raise Trouble("%s: more than %s bytes are no configuration" % (path, grouped(LENGTH_MOST)))
    return volumes_of(sections_of(path, data))


def sections_of(path, data):
    sections, section = {}, None
    for number, raw in enumerate(data.split(b"\n"), 1):
        # As a file's name is text: of any bytes, and back.
        line = os.fsdecode(raw).strip(BLANKS)
        where = "%s, line %d" % (path, number)
        if "\0" in line:
            raise Trouble(where + ": a zero byte is no text")
        if line.endswith("\\"):
            raise Trouble(where + ": a line that goes on in the next (\\ at its end) is not taken")
        if not line or line[0] in "#;":
            continue
        if line[0] == "[":
            name = section_name(where, line)
            if name in sections:
                raise Trouble("%s: the section [%s] is there twice" % (where, name))
            section = sections[name] = Section(path, name)
        else:
            add_key(where, line, section)
    if not sections:
        raise Trouble("%s: there is no [section] in it, and a volume is one" % path)
    return list(sections.values())


def section_name(where, line):
    name = lower(line[1:-1].strip(BLANKS))
    # ubinize keeps keys as section:key.
    if line[-1] != "]" or not name or re.search(r"[]\[:]", name):
        raise Trouble("%s: %r is no [section]" % (where, line))
    return name


def add_key(where, line, section):
    key, equals, value = line.partition("=")
    key = lower(key.strip(BLANKS))
    if not equals or not key:
        raise Trouble("%s: %r is neither [section] nor key=value" % (where, line))
    if section is None:
        raise Trouble("%s: %s stands before the first [section]" % (where, key))
    if key not in KEYS:
        raise section.trouble(key, "this key is not known; %s are" % ", ".join(KEYS))
    if key in section.keys:
        raise section.trouble(key, "twice in this section")
    section.keys[key] = value_of(section, key, value.strip(BLANKS))


def value_of(section, key, text):
    """In quotes, or up to a comment."""
    if not text or text[0] not in QUOTES:
        return COMMENT.split(text, 1)[0].strip(BLANKS)
    value, closed, rest = text[1:].partition(text[0])
    rest = rest.strip(BLANKS)
    if not closed:
        raise section.trouble(key, "%r has no second quote" % text)
    if rest and rest[0] not in "#;":
        raise section.trouble(key, "there is more behind the quotes: %r" % rest)
    return value


def lower(name):
    """As C has it: letters of ASCII alone."""
    return re.sub("[A-Z]", lambda found: found.group().lower(), name)


# ----------------------------------------------------------- the volumes

def volumes_of(sections):
    volumes = sorted((volume_of(section) for section in sections), key=lambda one: one.number)
    for number, one in enumerate(volumes):
        if one.number != number:
            raise out_of_order(one, volumes, number)
    names, resized = {}, None
    for one in volumes:
        if one.name in names:
            raise one.section.trouble("vol_name", "[%s] has this name, too" % names[one.name])
        names[one.name] = one.section.name
        if one.flags & AUTORESIZE:
            if resized:
                raise one.section.trouble(
                    "vol_flags", "[%s] has autoresize, too: only one volume may" % resized)
            resized = one.section.name
    return volumes


def out_of_order(one, volumes, number):
    """Volumes have the numbers 0, 1, 2, .. without a gap, each once."""
    if one.number < number:
        return one.section.trouble("vol_id", "[%s] has the number %d, too" % (
            volumes[one.number].section.name, one.number))
    return one.section.trouble("vol_id", "%d, and there is no volume %d: the numbers are "
                               "0, 1, 2, .. without a gap" % (one.number, number))


def volume_of(section):
    mode = section.wanted("mode", "ubi for a volume")
    if mode != "ubi":
        raise section.trouble("mode", "%r is not taken, only ubi" % mode)
    vol_type = section.one_of("vol_type", TYPES, DYNAMIC)
    flags = section.one_of("vol_flags", FLAGS, 0)
    if flags == SKIP_CRC and vol_type != STATIC:
        raise section.trouble("vol_flags", "skip-check is for static volumes")
    number = section.number("vol_id", section.wanted("vol_id", "the volume's number, from 0 on"))
    alignment = section.number("vol_alignment", section.keys.get("vol_alignment", "1"))
    size, image = size_of(section), section.keys.get("image")
    if image == "":
        raise section.trouble("image", "it names no file; an empty volume has no image line")
    if image is None and size is None:
        raise section.trouble("vol_size", "missing, and there is no image to take it from")
    return Wanted(section, number, name_of(section), vol_type, size, alignment, flags, image)


def name_of(section):
    name = os.fsencode(section.wanted("vol_name", "the volume's name"))
    if not 1 <= len(name) <= NAME_MOST:
        raise section.trouble("vol_name", "a name has 1 to %d bytes, and this one %d" % (
            NAME_MOST, len(name)))
    return name


def size_of(section):
    text = section.keys.get("vol_size")
    if text is None:
        return None
    found = SIZE.fullmatch(text)
    size = int(found.group(1), 0) * TIMES[found.group(2)] if found else 0
    if not size:
        raise section.trouble("vol_size", "%r is no size: write 65536, 64KiB, 4MiB or 1GiB" % text)
    return size
