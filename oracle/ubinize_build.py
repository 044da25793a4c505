"""Compares the builder with `ubinize` on volume lists by chance.

    python3 oracle/ubinize_build.py [PROGRAM] [--count 150] [--seed 1]

Each list is built by `builder.py` and by `ubinize` of mtd-utils, and the two
images are compared byte for byte, once what 2026-01 wants otherwise is put
into ubinize's:

- All its sequences are 0: here they are numbered 1, 2, 3 .. in the order of
  the PEBs, and these headers' CRCs follow.
- It writes the PEBs in use alone: here EC headers alone stand behind them.

The rest is not changed but left out of the lists, as ubinize does not do it,
or does something else:

- Reserved PEBs are its volume size over the LEB size, rounded up, whatever an
  alignment leaves of a LEB. So it is asked for reserved times LEB size; and
  content that is longer than reserved LEBs hold, but not longer than that, is
  21 for the builder while ubinize stores LEBs beyond the reserved ones.
- Alignment: that of the whole LEB is refused, 0 and above the LEB size end
  it by a signal, and one that is no multiple of the unit is taken.
- A static volume without content, an empty file, and a list without volumes
  are refused.
- The skip flag is refused for a dynamic volume, and no two flags can be said.
- Contents are stored in the order of the ini file, not of the volumes'
  numbers, and numbers may be left out: here each has its place.
- A name cannot have a blank at its ends, nor what begins a comment.

PROGRAM, if given, is compared in place of `builder.py`. It is run with the
paths of two files, slip and content, then the image sequence, the image's
length and all lengths as decimal numbers, and writes the image to standard
output. Who has another interface calls `compare` with a function. Without
`ubinize` it says so and ends with 0; at the first difference it names the
files in which it kept both images and ends with 1.
"""

import argparse
import os
import subprocess
import sys
import tempfile

# The modules beside this one are read only: leave no cache among them.
sys.dont_write_bytecode = True
sys.path.insert(0, os.path.dirname(os.path.abspath(__file__)))

import builder  # noqa: E402
import ubi  # noqa: E402
from cases import Chance  # noqa: E402
from cases_builder_random import field_and_content, random_list  # noqa: E402
from programs import chosen_by, keep  # noqa: E402
from ubinize import SKIPPED, find_ubinize, image_in, section  # noqa: E402

SECONDS = 60

KINDS = {ubi.DYNAMIC: "dynamic", ubi.STATIC: "static"}
FLAGS = {0: "", ubi.AUTORESIZE: "autoresize", ubi.SKIP_CRC: "skip-check"}

# What an ini file carries as it stands; any other byte of a name becomes one
# of the letters.
PLAIN = b"abcdefghijklmnopqrstuvwxyzABCDEFGHIJKLMNOPQRSTUVWXYZ0123456789-_."


# ----------------------------------------------------------- lists for both

def common_list(chance):
    """A list of at least one volume, each as ubinize takes it."""
    volumes = []
    while not volumes:
        flash, pebs, volumes = random_list(chance)
    names = set()
    for number, volume in enumerate(volumes):
        volume = as_ubinize_can(volume, flash.leb_size)
        name = plain_name(volume.name)
        if name in names:
            name = (b"%d-" % number + name)[:127]
        names.add(name)
        volumes[number] = volume._replace(name=name)
    return flash, pebs, volumes


def as_ubinize_can(volume, leb_size):
    if volume.alignment == leb_size:
        # The same room in each LEB.
        volume = volume._replace(alignment=1)
    if volume.kind == ubi.STATIC and not volume.content:
        volume = volume._replace(kind=ubi.DYNAMIC)
    if volume.kind == ubi.DYNAMIC or volume.flags & ubi.AUTORESIZE:
        volume = volume._replace(flags=volume.flags & ubi.AUTORESIZE)
    return volume


def plain_name(name):
    return bytes(byte if byte in PLAIN or byte >= 128 else PLAIN[byte % 52]
                 for byte in name)


# ---------------------------------------------------------------- two images

def ubinize_image(ubinize, flash, pebs, volumes, sequence):
    """What ubinize makes of the list, as 2026-01 wants it."""
    with tempfile.TemporaryDirectory() as directory:
        lines = []
        for number, volume in enumerate(volumes):
            write(directory, "content-%d" % number, volume.content)
            lines += section(
                number, KINDS[volume.kind], volume.name.decode("latin-1"),
                volume.reserved * flash.leb_size, volume.alignment,
                FLAGS[volume.flags], volume.content != b"")
        write(directory, "volumes.ini", "\n".join(lines).encode("latin-1"))
        made = image_in(directory, ubinize, flash,
                        ["-e", "0", "-Q", str(sequence)])
    size = flash.peb_size
    assert len(made) % size == 0 and 2 * size <= len(made) <= pebs * size
    whole = b"".join(numbered(made[at:at + size], 1 + at // size, flash)
                     for at in range(0, len(made), size))
    unused = made[:ubi.HEADER_SIZE] + b"\xff" * (size - ubi.HEADER_SIZE)
    return whole + unused * (pebs - len(made) // size)


def numbered(block, sequence, flash):
    """The block with this sequence in its VID header, where 0 stood."""
    at = flash.geometry.vid_start
    fields = ubi.header_fields(block[at:at + ubi.HEADER_SIZE], ubi.VID_MAGIC,
                               ubi.VID_FIELDS)
    header = ubi.VidHeader(*fields)
    assert header.sequence == 0
    raw = ubi.vid_header_bytes(header._replace(sequence=sequence))
    return block[:at] + raw + block[at + len(raw):]


def write(directory, name, data):
    path = os.path.join(directory, name)
    with open(path, "wb") as file:
        file.write(data)
    return path


def by_oracle(slip, sequence, lengths, content, size):
    """The builder's image, into a lent one of that many bytes."""
    answer, image = builder.build(slip, sequence, lengths, content,
                                  b"\xa5" * size)
    assert answer == builder.BUILT, answer
    return image


def by_program(program):
    """The same function for a program, as said above."""
    def build(slip, sequence, lengths, content, size):
        with tempfile.TemporaryDirectory() as directory:
            files = [write(directory, "slip", slip),
                     write(directory, "content", content)]
            numbers = [str(word) for word in [sequence, size] + lengths]
            return subprocess.run([program] + files + numbers,
                                  stdout=subprocess.PIPE,
                                  timeout=SECONDS).stdout
    return build


# ----------------------------------------------------------------- comparing

def compare(build, ubinize, count=150, seed=1):
    """Whether `build` makes what ubinize does of so many lists.

    `build` is given slip, image sequence, lengths, content and the image's
    length, and gives the image. At a difference both images are kept.
    """
    # Seeds of the stored cases are below these.
    chance = Chance(3000000 + seed)
    for _ in range(count):
        flash, pebs, volumes = common_list(chance)
        sequence = chance.pick([0, 1, 0xFFFFFFFF, chance.below(2 ** 32)])
        wanted = ubinize_image(ubinize, flash, pebs, volumes, sequence)
        pairs = [field_and_content(volume) for volume in volumes]
        found = build(builder.slip_with(flash.slip,
                                        [value for value, _ in pairs]),
                      sequence, [len(content) for _, content in pairs],
                      b"".join(content for _, content in pairs), len(wanted))
        if found != wanted:
            print("a difference: %s\nubinize's image in %s, the other in %s"
                  % (first_difference(wanted, found, flash),
                     keep(wanted, "ubinize-", ".image"),
                     keep(found, "built-", ".image")))
            return False
    return True


def first_difference(wanted, found, flash):
    same = [one == other for one, other in zip(wanted, found)] + [False]
    peb, at = divmod(same.index(False), flash.peb_size)
    return "at byte %d of PEB %d, of %d and %d bytes" % (
        at, peb, len(wanted), len(found))


def arguments_of(arguments):
    parser = argparse.ArgumentParser(
        description="Compare the builder with ubinize on volume lists.")
    parser.add_argument("program", nargs="?",
                        help="path of a program to compare, if any")
    return chosen_by(parser, arguments, "lists", 150)


def main(arguments):
    chosen = arguments_of(arguments)
    ubinize = find_ubinize()
    if ubinize is None:
        print(SKIPPED)
        return 0
    build = by_program(chosen.program) if chosen.program else by_oracle
    if not compare(build, ubinize, chosen.count, chosen.seed):
        return 1
    print("compared %d images of ubinize, 0 differences" % chosen.count)
    return 0


if __name__ == "__main__":
    sys.exit(main(sys.argv[1:]))
