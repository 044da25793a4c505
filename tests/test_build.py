"""Building: the configuration, the bytes of the image against the oracle, and what goes wrong."""

import errno
import io
import os
import subprocess
import sys
import unittest
from unittest import mock

from support import PROGRAM, ROOT, Case, Flash, oracle_listing, run

import builder
from cases import Chance
from clib import Functions, Held, Lent, library_path
from volume_lists import List, Volume, list_by_chance

from benchtool import build, cli, config, dump, files, library, words
from benchtool.config import read_config

CHANCES = 100
CALLS = 400
GEOMETRIES = ((1024, 1, 1), (1024, 64, 64), (2048, 512, 256), (2048, 1024, 64), (4096, 512, 512),
              (16384, 2048, 512))

# A LEB has 896 bytes, a table 5 records.
SMALL = Flash(1024, 64, 64)
OPTIONS = ("--peb-size", "1k", "--unit", "64", "--blocks", "12")
LOG = "[log]\nmode=ubi\nvol_id=0\nvol_name=log\nvol_size=4KiB\n"
BOOT = "[boot]\nmode=ubi\nvol_id=1\nvol_name=boot\nvol_type=static\nimage=boot\n"
BOOT_BYTES = bytes(range(256)) * 7


def called(*given):
    """The tool's main, in this process: exit status, standard output and standard error."""
    out = mock.Mock(buffer=io.BytesIO())
    with mock.patch("sys.stdout", out), mock.patch("sys.stderr", io.StringIO()) as said:
        status = cli.answer([str(word) for word in given])
    return status, out.buffer.getvalue().decode("utf-8"), said.getvalue()


class Building(Case):
    """In a directory of its own, which is the current one, too."""

    def setUp(self):
        super().setUp()
        before = os.getcwd()
        self.addCleanup(os.chdir, before)
        os.chdir(self.directory)

    def config(self, text, name="chip.ini"):
        return self.file(name, text if isinstance(text, bytes) else text.encode("utf-8"))

    def build(self, text, *more):
        """The command on this text: status, standard output, standard error."""
        self.config(text)
        return called("build", "chip.ini", *OPTIONS, "-o", "out", *more)

    def fails(self, text, *wanted):
        """An error with these words; nothing is printed, and nothing written."""
        status, out, said = self.build(text)
        self.assertEqual((status, out), (cli.TROUBLE, ""), said)
        self.assertNotIn("Traceback", said)
        for one in wanted:
            self.assertIn(one, said)
        self.nothing_written()

    def nothing_written(self):
        left = [name for name in os.listdir(self.directory)
                if name == "out" or name.startswith(".ubibench")]
        self.assertEqual(left, [])


# -------------------------------------------------------------- the configuration

class Config(Building):
    def volumes(self, text):
        return read_config(self.config(text))

    def test_every_key(self):
        boot, log = self.volumes(
            "[log]\nmode=ubi\nimage=a file\nvol_id=1\nvol_size=2MiB\nvol_type=static\n"
            "vol_name=log\nvol_alignment=128\nvol_flags=skip-check\n"
            "[boot]\nmode=ubi\nvol_id=0\nvol_size=1\nvol_type=dynamic\nvol_name=boot\n"
            "vol_flags=autoresize\n")
        self.assertEqual(log[1:], (1, b"log", 2, 2 << 20, 128, 2, "a file"))
        self.assertEqual(boot[1:], (0, b"boot", 1, 1, 1, 1, None))

    def test_defaults(self):
        one, = self.volumes("[x]\nmode=ubi\nvol_id=0\nvol_name=n\nimage=i\n")
        self.assertEqual(one[1:], (0, b"n", 1, None, 1, 0, "i"))

    def test_sizes(self):
        for text, size in (("1", 1), ("4096", 4096), ("0x10", 16), ("3KiB", 3072), ("3 KiB", 3072),
                           ("3\tMiB", 3 << 20), ("0X2GiB", 2 << 30)):
            one, = self.volumes(LOG.replace("4KiB", text))
            self.assertEqual(one.size, size, text)

    def test_letters_blanks_comments_and_quotes(self):
        one, = self.volumes(
            "; a comment\n# another = 1\n\n  [ My Section ]\t\n\tMODE = ubi ; as it must be\r\n"
            "Vol_ID=0#none\nvol_name = \"a # b; 'c' \" # with quotes\nimage='my \"file\"'\n")
        self.assertEqual(one.section.name, "my section")
        self.assertEqual((one.number, one.name, one.image), (0, b"a # b; 'c' ", 'my "file"'))

    def test_names_of_any_bytes(self):
        name = b"caf\xc3\xa9 \xff\x01\x1b"
        self.config(LOG.encode().replace(b"vol_name=log", b'vol_name="' + name + b'"'))
        self.assertEqual(read_config("chip.ini")[0].name, name)
        longest = LOG.replace("vol_name=log", "vol_name=" + "n" * 127)
        self.assertEqual(self.volumes(longest)[0].name, b"n" * 127)

    def test_sections_in_any_order(self):
        section = "[s%d]\nmode=ubi\nvol_id=%d\nvol_name=n%d\nvol_size=1\n"
        for order in ((0, 1, 2), (2, 1, 0), (1, 2, 0)):
            found = self.volumes("".join(section % ((number,) * 3) for number in order))
            self.assertEqual([one.number for one in found], [0, 1, 2])

    def test_what_is_not_taken(self):
        for line, key, more in (
                ("mode=ubifs", "mode", "ubifs"), ("mode=UBI", "mode", "UBI"),
                ("vol_typ=static", "vol_typ", "not known"), ("size=3", "size", "not known"),
                ("vol_id=", "vol_id", "no number"), ("vol_id=one", "vol_id", "one"),
                ("vol_id=-1", "vol_id", "-1"), ("vol_id=010", "vol_id", "010"),
                ("vol_id=0x", "vol_id", "0x"), ("vol_id=1_0", "vol_id", "1_0"),
                ("vol_id=1KiB", "vol_id", "1KiB"), ("vol_id=" + "9" * 5000, "vol_id", "999"),
                ("vol_id=1", "vol_id", "no volume 0"),
                ("vol_name=", "vol_name", "1 to 127"), ("vol_name=\"\"", "vol_name", "1 to 127"),
                ("vol_name=" + "n" * 128, "vol_name", "128"),
                ("vol_name=\"log", "vol_name", "second quote"),
                ("vol_name='log' too", "vol_name", "too"),
                ("vol_size=", "vol_size", "no size"), ("vol_size=0", "vol_size", "no size"),
                ("vol_size=0KiB", "vol_size", "no size"), ("vol_size=4k", "vol_size", "4k"),
                ("vol_size=4KB", "vol_size", "4KB"), ("vol_size=4kib", "vol_size", "4kib"),
                ("vol_size=1.5MiB", "vol_size", "1.5MiB"), ("vol_size=-4", "vol_size", "-4"),
                ("vol_size=MiB", "vol_size", "MiB"), ("vol_size=08", "vol_size", "08"),
                ("vol_size=\u0661", "vol_size", "no size"),
                ("vol_type=", "vol_type", "dynamic or static"),
                ("vol_type=Static", "vol_type", "Static"),
                ("vol_flags=", "vol_flags", "autoresize or skip-check"),
                ("vol_flags=autoresize,skip-check", "vol_flags", "autoresize,skip-check"),
                ("vol_flags=skip-check", "vol_flags", "static volumes"),
                ("vol_alignment=", "vol_alignment", "no number"),
                ("vol_alignment=64KiB", "vol_alignment", "64KiB"),
                ("vol_alignment=0", "vol_alignment", "neither 1 nor"),
                ("vol_alignment=65", "vol_alignment", "64"),
                ("vol_alignment=960", "vol_alignment", "896"),
                ("image=", "image", "no file"), ("image=none", "image", "none: No such file"),
                ("image=.", "image", "Is a directory")):
            given = line.partition("=")[0]
            text = "".join(one + "\n" for one in LOG.splitlines()
                           if not one.startswith(given + "=")) + line + "\n"
            self.fails(text, "chip.ini [log] %s: " % key, more)

    def test_what_is_missing(self):
        for key in ("mode", "vol_id", "vol_name", "vol_size"):
            text = "".join(one + "\n" for one in LOG.splitlines() if not one.startswith(key + "="))
            self.fails(text, "chip.ini [log] %s: missing" % key)

    def test_what_is_there_twice(self):
        self.fails(LOG + "vol_id=0\n", "[log] vol_id: twice")
        self.fails(LOG + "[LOG]\nmode=ubi\n", "line 6", "[log] is there twice")
        other = LOG.replace("[log]", "[other]")
        self.fails(LOG + other.replace("vol_name=log", "vol_name=o"), "[other] vol_id: [log]")
        self.fails(LOG + other.replace("vol_id=0", "vol_id=1"), "[other] vol_name: [log]")
        both = LOG + "vol_flags=autoresize\n" + other.replace("vol_id=0", "vol_id=1").replace(
            "vol_name=log", "vol_name=o") + "vol_flags=autoresize\n"
        self.fails(both, "[other] vol_flags: [log]")
        # The name is compared as it is.
        status, _, said = self.build(LOG + other.replace("vol_id=0", "vol_id=1").replace(
            "vol_name=log", "vol_name=Log"))
        self.assertEqual(status, 0, said)

    def test_a_gap(self):
        self.fails(LOG + "[b]\nmode=ubi\nvol_id=2\nvol_name=b\nvol_size=1\n", "[b] vol_id: 2",
                   "no volume 1", "without a gap")

    def test_lines_that_are_none(self):
        for line in ("[log", "[]", "[ ]", "[a]b]", "[a:b]", "[log] ; the log", "vol_id", "=1",
                     "mode=ubi\\", "; a path C:\\", "\ufeff[bom]", "a\0b"):
            self.fails(LOG + line + "\n", "chip.ini, line 6: ")
        self.fails("mode=ubi\n" + LOG, "line 1: mode stands before")
        for text in ("", "\n\n", "; nothing\n"):
            self.fails(text, "chip.ini: there is no [section]")
        self.fails("#" * (config.LENGTH_MOST + 1), "chip.ini: more than")

    def test_a_configuration_that_cannot_be_read(self):
        for path, more in (("none", "No such file or directory"), (".", "Is a directory"),
                           ("/proc/self/mem", "Input/output error")):
            status, out, said = called("build", path, *OPTIONS, "-o", "out")
            self.assertEqual((status, out), (3, ""))
            self.assertIn("%s: %s" % (path, more), said)


# --------------------------------------------------------------------- what is built

class Image(Building):
    def built(self, asked, *more, order=None):
        """The image of a list; what is said is as it should be."""
        asked.write(self.directory, order=order)
        given = asked.options() + ["--image-seq", asked.image_seq] + list(more)
        status, out, said = called("build", "chip.ini", *given, "-o", "out")
        self.assertEqual((status, said), (0, ""))
        image = self.content("out")
        first = oracle_listing(asked.flash.slip, image).decode("ascii").splitlines()[0]
        self.assertEqual(out.splitlines(), list(asked.lines()) + [first])
        self.assertTrue(first.endswith(" grade 0"), first)
        return image

    def test_a_small_chip(self):
        self.file("boot", BOOT_BYTES)
        self.config(LOG + BOOT)
        done = run("build", "chip.ini", *OPTIONS, "-o", "out")
        self.ends(done, 0, b"volume 0 \"log\", dynamic: 0 of 5 LEBs written, 0 bytes\n"
                  b"volume 1 \"boot\", static: 2 of 2 LEBs written, 1,792 bytes\n"
                  b"attached 12 entries 4 mean 0 highest 4 readonly 0 table 0 copies 0 grade 0\n")
        self.assertEqual(done.stderr, b"")
        slip = builder.slip_with(SMALL.slip, [builder.volume_field(5), builder.volume_field(
            2, kind=2, name=b"boot")])
        wanted = builder.build(slip, 0, [0, 1792], BOOT_BYTES, bytes(12 * 1024))
        self.assertEqual((builder.BUILT, self.content("out")), wanted)
        listed = run("list", "out", *OPTIONS)
        self.ends(listed, 0)
        self.assertTrue(done.stdout.endswith(listed.stdout.split(b"\n")[0] + b"\n"))

    def test_two_builds_are_the_same(self):
        """The image sequence is 0 and nothing else is by chance."""
        for name in ("one", "two"):
            self.config(LOG)
            self.assertEqual(called("build", "chip.ini", *OPTIONS, "-o", name)[0], 0)
        self.assertEqual(self.content("one"), self.content("two"))
        self.assertEqual(self.content("one")[24:28], bytes(4))

    def test_blocks_of_two_images_mixed(self):
        """Of one configuration: 0, as without --image-seq, goes with any number; two numbers do not."""
        built = {}
        for number, given in ((0, ()), (7, ("--image-seq", 7)), (9, ("--image-seq", 9))):
            self.assertEqual(self.build(LOG, *given)[0], 0)
            image = self.content("out")
            built[number] = [image[at:at + 1024] for at in range(0, len(image), 1024)]
            self.assertEqual({block[24:28] for block in built[number]}, {number.to_bytes(4, "big")})
        for even, odd, status in ((0, 7, 0), (7, 0, 0), (7, 9, 2)):
            mixed = b"".join(built[odd if at % 2 else even][at] for at in range(12))
            wanted = oracle_listing(SMALL.slip, mixed)
            self.assertEqual(wanted == b"refused 7 at 1\n", status == 2)
            self.ends(run("list", self.file("mixed", mixed), *OPTIONS), status, wanted)

    def test_the_size_of_the_image_file(self):
        """Without vol_size; a byte more is a LEB more."""
        for length, lebs in ((1, 1), (896, 1), (897, 2), (8 * 896, 8)):
            self.file("boot", bytes(length))
            status, out, said = self.build(BOOT.replace("vol_id=1", "vol_id=0"))
            self.assertEqual((status, said), (0, ""))
            self.assertIn("static: %d of %d LEB" % (lebs, lebs), out)

    def test_an_alignment_that_leaves_a_pad(self):
        """LEBs are counted by what the alignment leaves of each: 512 of 896 bytes."""
        self.file("boot", BOOT_BYTES)
        text = BOOT.replace("vol_id=1", "vol_id=0") + "vol_alignment=512\n"
        status, out, said = self.build(text)
        self.assertEqual((status, said), (0, ""))
        self.assertIn("static: 4 of 4 LEBs written, 1,792 bytes", out)
        slip = builder.slip_with(SMALL.slip, [builder.volume_field(4, 512, 2, 0, b"boot")])
        self.assertEqual((builder.BUILT, self.content("out")),
                         builder.build(slip, 0, [1792], BOOT_BYTES, bytes(12 * 1024)))

    def test_an_alignment_of_the_whole_leb(self):
        status, out, said = self.build(LOG + "vol_alignment=896\n")
        self.assertEqual((status, said), (0, ""))

    def test_an_empty_static_volume(self):
        status, out, said = self.build(LOG + "vol_type=static\n")
        self.assertEqual((status, said), (0, ""))
        self.assertIn("volume 0 \"log\", static: 0 of 5 LEBs written, 0 bytes", out)

    def test_as_many_volumes_and_blocks_as_there_may_be(self):
        volumes = [Volume("[%d]\nmode=ubi\nvol_id=%d\nvol_name=v%d\nvol_size=1\n" % ((number,) * 3),
                          b"v%d" % number, 1, 1, 1, 0, b"") for number in range(128)]
        flash = Flash(32768, 512, 512)
        asked = List(flash, volumes, 130, 7)
        self.assertEqual(self.built(asked), asked.built())
        asked = List(Flash(1024, 1, 1), volumes[:5], 4096, 7)
        self.assertEqual(self.built(asked), asked.built())

    def test_names_cannot_reach_the_terminal(self):
        self.config(LOG.encode().replace(b"vol_name=log", b"vol_name=\x1b[31mred\xff"))
        status, out, _ = called("build", "chip.ini", *OPTIONS, "-o", "out")
        self.assertEqual(status, 0)
        self.assertIn("\"\\x1b[31mred\\xff\"", out)

    def test_lists_by_chance(self):
        chance = Chance(1400001)
        for _ in range(CHANCES):
            asked = list_by_chance(Flash(*chance.pick(GEOMETRIES)), chance, 6)
            order = chance.shuffled(range(len(asked.volumes)))
            self.assertEqual(self.built(asked, order=order), asked.built())

    def test_other_folders(self):
        """Files are named from the current folder, as ubinize names them."""
        os.mkdir("sub")
        self.file("boot", BOOT_BYTES)
        self.config(BOOT.replace("vol_id=1", "vol_id=0"), "sub/chip.ini")
        self.assertEqual(called("build", "sub/chip.ini", *OPTIONS, "-o", "sub/out")[0], 0)
        os.chdir("sub")
        status, _, said = called("build", "chip.ini", *OPTIONS, "-o", "other")
        self.assertEqual(status, 3)
        self.assertIn("chip.ini [boot] image: boot: No such file or directory", said)

    def test_memory(self):
        """Content and image are held once."""
        flash, mega = Flash(131072, 2048, 512), 1 << 20
        lebs = 500
        with open("content", "wb") as file:
            file.truncate(lebs * flash.leb_size)
        self.config("[a]\nmode=ubi\nvol_id=0\nvol_name=a\nimage=content\n")
        given = ["--peb-size", "128k", "--unit", "2k", "--sub-unit", "512", "--blocks", "512"]
        process = subprocess.Popen([sys.executable, PROGRAM, "build", "chip.ini"] + given
                                   + ["-o", "out"], stdout=subprocess.DEVNULL)
        _, status, usage = os.wait4(process.pid, 0)
        process.returncode = status
        self.assertEqual((status, os.path.getsize("out")), (0, 64 * mega))
        held = lebs * flash.leb_size + 64 * mega
        self.assertLess(usage.ru_maxrss * 1024, held + 48 * mega)


# -------------------------------------------------------------------- what is refused

class Refusals(Building):
    def test_the_geometry(self):
        self.config(LOG)
        for numbers in (("--peb-size", 1000, "--unit", 1), ("--peb-size", 1024, "--unit", 3),
                        ("--peb-size", 1024, "--unit", 1, "--sub-unit", 2),
                        ("--peb-size", 2 ** 31, "--unit", 1), ("--peb-size", 1024, "--unit", 0)):
            status, out, said = called("build", "chip.ini", *numbers, "--blocks", 4, "-o", "out")
            self.assertEqual((status, out), (2, "refused 2 at 0\n"))
            self.assertIn("refused 2: " + words.REFUSALS[2][0], said)
            self.nothing_written()

    def test_usage(self):
        self.config(LOG)
        whole = ["build", "chip.ini", *OPTIONS, "-o", "out"]
        for given in (whole[:1] + whole[2:], whole[:-2], whole[:2] + whole[4:], whole + ["--slip"],
                      whole[:4] + whole[6:], whole[:6] + whole[8:], whole + ["--oob", "16"],
                      whole + ["more"], whole + ["--image-seq", "x"],
                      whole + ["--image-seq", 2 ** 32], whole + ["--blocks", 1],
                      whole + ["--blocks", 4097], whole + ["--blocks", 10 ** 12],
                      whole + ["--peb-size", 2 ** 32], whole + ["--unit", 2 ** 16]):
            status, out, said = called(*given)
            self.assertEqual((status, out), (3, ""), given)
            self.assertNotIn("Traceback", said)
            self.nothing_written()

    def test_more_volumes_than_records(self):
        text = "".join("[%d]\nmode=ubi\nvol_id=%d\nvol_name=%d\nvol_size=1\n" % ((number,) * 3)
                       for number in range(6))
        self.fails(text, "[5] vol_id: 5", "5 volumes")

    def test_more_blocks_than_there_are(self):
        """12 blocks, 2 of them for the table."""
        self.assertEqual(self.build(LOG.replace("4KiB", "8960"))[0], 0)
        os.unlink("out")
        self.fails(LOG.replace("4KiB", "8961"), "11 blocks", "together 13", "has 12")
        self.fails(LOG.replace("4KiB", "9000000000GiB"), "has 12")
        self.file("boot", BOOT_BYTES)
        self.fails(LOG.replace("4KiB", "9KiB") + BOOT.replace("[boot]", "[b]"), "chip.ini: ",
                   "13 blocks", "together 15", "has 12")

    def test_an_image_larger_than_its_volume(self):
        """Its size is what is written, though whole LEBs are reserved."""
        self.file("boot", BOOT_BYTES)
        self.assertEqual(self.build(BOOT.replace("vol_id=1", "vol_id=0") + "vol_size=1792\n")[0], 0)
        os.unlink("out")
        self.fails(BOOT.replace("vol_id=1", "vol_id=0") + "vol_size=1791\n",
                   "[boot] image: boot has 1,792 bytes", "volume 0 \"boot\"", "1,791")

    def test_a_file_larger_than_memory(self):
        """It is not read: that it does not fit is said before."""
        with open("boot", "wb") as file:
            file.truncate(1 << 43)
        self.fails(BOOT.replace("vol_id=1", "vol_id=0"), "chip.ini: the volumes take")

    def test_the_library_judges(self):
        """What the tool lets pass by a fault is refused, with the number's words."""
        self.file("boot", BOOT_BYTES)
        field = build.volume_field
        for number, wrong in ((20, [field(0, 1, 1, 0, b"log"), field(2, 1, 2, 0, b"boot")]),
                              (20, [field(1, 1, 1, 0, b"log"), field(2, 1, 2, 0, b"log")]),
                              (21, [field(1, 1, 1, 0, b"log")]),
                              (21, [field(1, 1, 1, 0, b"log"), field(1, 1, 2, 0, b"boot")])):
            with mock.patch.object(build, "fields_of", lambda *given: wrong):
                status, out, said = self.build(LOG + BOOT)
            self.assertEqual((status, out), (2, "refused %d at 0\n" % number))
            self.assertIn("refused %d: %s" % (number, words.REFUSALS[number][0]), said)
            self.nothing_written()

    def test_only_grade_0_is_written(self):
        """A library that stores nothing, and one that leaves a block damaged."""
        real = library.Library.build

        def damaged(loaded, slip, image_seq, lengths, content, image):
            real(loaded, slip, image_seq, lengths, content, image)
            image.view[70] ^= 1

        for broken in (lambda *given: None, damaged):
            with mock.patch.object(library.Library, "build", broken):
                self.fails(LOG, "a fault of this program")


# ------------------------------------------------------------------- reads and writes

class Reading(Building):
    TEXT = BOOT.replace("vol_id=1", "vol_id=0")

    def setUp(self):
        super().setUp()
        self.file("boot", BOOT_BYTES)

    def test_files_that_are_none(self):
        os.mkdir("folder")
        os.mkfifo("pipe")
        self.file("empty", b"")
        for name, more in (("none", "No such file or directory"), ("folder", "Is a directory"),
                           ("pipe", "no plain file"), ("/dev/zero", "no plain file"),
                           ("empty", "the file is empty"),
                           ("boot/x", "Not a directory"), ("n" * 300, "File name too long")):
            self.fails(self.TEXT.replace("image=boot", "image=" + name),
                       "chip.ini [boot] image: %s: " % name, more)

    def reading(self, change, at=2, size=700, again=False):
        """Built while `change` is done before the call `at` of `read`, or before each from it on;
        calls read a few bytes, and what `change` gives is their answer."""
        real, calls = dump.read_piece, []

        def hooked(file, view):
            calls.append(1)
            if len(calls) == at or again and len(calls) > at:
                answer = change()
                if answer is not None:
                    return answer
            return real(file, view[:size])

        with mock.patch.object(dump, "read_piece", hooked):
            self.fails(self.TEXT, "[boot] image: boot: ")
        self.assertGreaterEqual(len(calls), at)

    def test_a_read_that_fails(self):
        def failing():
            raise OSError(errno.EIO, os.strerror(errno.EIO))

        for at in (1, 2, 3):
            self.reading(failing, at)

    def test_a_read_that_ends_early(self):
        for at in (1, 2, 3):
            for again in (False, True):
                self.reading(lambda: 0, at, again=again)

    def test_a_file_that_changes(self):
        def grow():
            with open("boot", "ab") as file:
                file.write(b"more")

        def touch():
            os.utime("boot", ns=(1, 1))

        for change in (lambda: os.truncate("boot", 100), grow, touch):
            for at in (1, 3):
                self.file("boot", BOOT_BYTES)
                self.reading(change, at)

    def test_small_pieces_are_put_together(self):
        with mock.patch.object(dump, "PIECE", 100):
            self.assertEqual(self.build(LOG + BOOT)[0], 0)
        one = self.content("out")
        self.assertEqual(self.build(LOG + BOOT)[0], 0)
        self.assertEqual(self.content("out"), one)


class Output(Building):
    def test_what_is_read_is_never_written_over(self):
        self.file("boot", BOOT_BYTES)
        os.link("boot", "link")
        os.symlink("boot", "symlink")
        self.config(LOG + BOOT)
        for name in ("chip.ini", "boot", "link", "symlink"):
            status, out, said = called("build", "chip.ini", *OPTIONS, "-o", name)
            self.assertEqual((status, out), (3, ""))
            self.assertIn("the same file", said)
        self.assertEqual((self.content("boot"), self.content("chip.ini")),
                         (BOOT_BYTES, (LOG + BOOT).encode()))

    def test_an_old_file_is_replaced_whole(self):
        self.file("out", b"old" * 100000)
        self.assertEqual(self.build(LOG)[0], 0)
        self.assertEqual(len(self.content("out")), 12 * 1024)
        self.assertEqual(sorted(os.listdir(".")), ["chip.ini", "out"])

    def test_what_cannot_be_written(self):
        os.mkdir("folder")
        os.mkfifo("pipe")
        self.config(LOG)
        for name, more in (("none/out", "No such file or directory"), ("folder", "no plain file"),
                           ("pipe", "no plain file")):
            status, out, said = called("build", "chip.ini", *OPTIONS, "-o", name)
            self.assertEqual((status, out), (3, ""))
            self.assertIn(more, said)
        self.assertEqual(sorted(os.listdir(".")), ["chip.ini", "folder", "pipe"])

    def test_a_write_that_fails_leaves_the_old_file(self):
        for call in ("fsync", "replace"):
            self.file("out", b"old")
            failing = mock.patch.object(files.os, call, side_effect=OSError(28, "No space left"))
            with failing:
                status, out, said = self.build(LOG)
            self.assertEqual((status, out), (3, ""))
            self.assertIn("out: No space left", said)
            self.assertEqual(self.content("out"), b"old")
            self.assertEqual(sorted(os.listdir(".")), ["chip.ini", "out"])

    def test_standard_output_that_fails(self):
        self.config(LOG)
        with open("/dev/full", "wb") as full:
            done = subprocess.run([sys.executable, PROGRAM, "build", "chip.ini", *OPTIONS]
                                  + ["-o", "out"], stdout=full, stderr=subprocess.PIPE)
        self.assertEqual((done.returncode, done.stderr),
                         (3, b"ubibench: standard output: No space left on device\n"))


# ----------------------------------------------------------------------- the function

class Function(unittest.TestCase):
    """choduljin_build by C's own call: answers and all bytes are the oracle's."""

    def setUp(self):
        self.functions = Functions(library_path())

    def called(self, slip, image_seq, lengths, content, image):
        held, counts = Held(image), Lent.of("I", lengths, 0xA5A5A5A5)
        answer = self.functions.call("build", slip, image_seq, counts, content, held)
        self.assertEqual(counts.words(), lengths)
        return answer, held.bytes()

    def compare(self, *given):
        answer, image = builder.build(*given)
        number = 0 if answer == builder.BUILT else int(answer.split()[1])
        found = self.called(*given)
        self.assertEqual(found[0], number, given[0])
        self.assertEqual(found[1], image)
        return number

    def test_by_chance(self):
        chance, numbers = Chance(1400002), set()
        for _ in range(CALLS):
            numbers.add(self.compare(*changed(chance, *given_by_chance(chance))))
        self.assertEqual(numbers, {0, 1, 2, 3, 20, 21})

    def test_each_reason(self):
        """Of 8 PEBs, with LEBs of 896 bytes: 6 of them for volumes, 5 records."""
        one = builder.volume_field
        two = one(2, name=b"a"), one(4, name=b"b")
        for number, fields, lengths, size in (
                (0, two, [0, 0], 0), (0, two, [1792, 3584], 5376),
                (0, [one(6, name=b"n" * 127)], [1], 1), (0, [one(6, 896)], [5376], 5376),
                (0, [one(6, 512, 2, 3)], [3072], 3072),
                # A field that is too short or too long; too many of them.
                (20, [one(1, name=b"")], [0], 0), (20, [one(1, name=b"n" * 128)], [0], 0),
                (20, [b""], [0], 0), (20, [one(1, name=b"%d" % at) for at in range(6)], [0] * 6, 0),
                # A table that is not good.
                (20, [one(0)], [0], 0), (20, [one(7)], [0], 0), (20, two + (one(1),), [0] * 3, 0),
                (20, [one(2 ** 32 - 1, name=b"a"), one(2, name=b"b")], [0, 0], 0),
                (20, [one(1, 0)], [0], 0), (20, [one(1, 63)], [0], 0), (20, [one(1, 960)], [0], 0),
                (20, [one(1, kind=0)], [0], 0), (20, [one(1, kind=3)], [0], 0),
                (20, [one(1, flags=4)], [0], 0), (20, [one(1, name=b"a\0b")], [0], 0),
                (20, [one(1), one(2)], [0, 0], 0),
                (20, [one(1, flags=1, name=b"a"), one(2, flags=3, name=b"b")], [0, 0], 0),
                # Lengths: their number, their sum, the room.
                (21, two, [0], 0), (21, two, [0, 0, 0], 0), (21, two, [], 0),
                (21, two, [1, 1], 1), (21, two, [1, 1], 3), (21, two, [2 ** 32 - 1, 1], 0),
                (21, two, [1793, 0], 1793), (21, two, [0, 3585], 3585),
                (21, [one(6, 512)], [3073], 3073),
                # 20 comes first.
                (20, [one(7)], [], 3), (20, [one(1, name=b"")], [9000], 9000)):
            slip = builder.slip_with(SMALL.slip, fields)
            given = slip, 9, lengths, bytes(range(256)) * (size // 256) + b"x" * (size % 256)
            self.assertEqual(self.compare(*given, b"\xa5" * 8192), number, (fields, lengths))

    def test_128_volumes_and_one_more(self):
        """A LEB of 31,744 bytes would hold 184 records, and a table has 128."""
        flash = Flash(32768, 512, 512)
        for volumes, blocks, number in ((128, 130, 0), (128, 129, 20), (129, 131, 20), (129, 140, 20)):
            fields = [builder.volume_field(1, name=b"v%d" % at) for at in range(volumes)]
            given = builder.slip_with(flash.slip, fields), 3, [1] * volumes, b"x" * volumes
            image = b"\xa5" * (blocks * flash.peb_size)
            self.assertEqual(self.compare(*given, image), number, (volumes, blocks))

    def test_no_volumes(self):
        self.assertEqual(self.compare(SMALL.slip, 5, [], b"", b"\0" * 2048), 0)
        self.assertEqual(self.compare(SMALL.slip, 5, [0], b"", b"\0" * 2048), 21)
        self.assertEqual(self.compare(SMALL.slip, 5, [], b"x", b"\0" * 2048), 21)


def given_by_chance(chance):
    asked = list_by_chance(Flash(*chance.pick(GEOMETRIES[:4])), chance, 3)
    return [asked.slip(), asked.image_seq, [len(one.content) for one in asked.volumes],
            b"".join(one.content for one in asked.volumes),
            chance.pick([b"\0", b"\xff", b"\xa5"]) * (asked.blocks * asked.flash.peb_size)]


def changed(chance, slip, image_seq, lengths, content, image):
    """One thing is changed, mostly: a byte of the slip, a length, the content's or image's end."""
    way = chance.below(8)
    if way in (0, 1):
        at = chance.below(len(slip))
        slip = slip[:at] + bytes([chance.pick([0, 1, 2, 16, 255, slip[at] ^ 1])]) + slip[at + 1:]
    elif way == 2:
        slip = slip[:chance.below(len(slip))] + chance.pick([b"", b"\0", bytes(3)])
    elif way == 3:
        at = chance.below(len(lengths))
        other = chance.pick([[], [0], [2 ** 32 - 1], [lengths[at] ^ 1], [lengths[at]] * 2])
        lengths = lengths[:at] + other + lengths[at + 1:]
    elif way == 4:
        content = chance.pick([content + b"x", content[1:]])
    elif way == 5:
        image = chance.pick([image[1:], image[:1024], image[:len(image) // 2], b""])
    return slip, image_seq, lengths, content, image


class Completion(unittest.TestCase):
    def test_build_is_completed(self):
        script = ("source tools/ubibench.bash; COMP_WORDS=(ubibench %s); COMP_CWORD=%d; _ubibench; "
                  "echo ${COMPREPLY[@]}")
        for line, at, wanted in (("bui", 1, "build"), ("build --image", 2, "--image-seq"),
                                 ("build --bl", 2, "--blocks"), ("build --sl", 2, "")):
            done = subprocess.run(["bash", "-c", script % (line, at)], cwd=ROOT, check=True,
                                  stdout=subprocess.PIPE)
            self.assertEqual(done.stdout.decode().strip(), wanted)


if __name__ == "__main__":
    unittest.main()
