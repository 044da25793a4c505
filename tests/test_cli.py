"""The command line: numbers, usage errors, exit statuses, and output that fails."""

import io
import os
import shutil
import subprocess
import sys
import time
import unittest
from unittest import mock

from support import BENCH, BENCH_OPTIONS, PROGRAM, ROOT, SMALL, SMALL_OPTIONS, Case, run

from benchtool import cli, library, numbers, progress


class Numbers(unittest.TestCase):
    def test_three_ways_to_write_one(self):
        for word in ("131072", "128k", "128K", "0x20000", "0X20000", "0x80k"):
            self.assertEqual(numbers.parse(word), 131072, word)
        self.assertEqual(numbers.parse("2m"), 2 << 20)
        self.assertEqual(numbers.parse("0"), 0)
        self.assertEqual(numbers.parse("010"), 10)

    def test_what_is_no_number(self):
        for word in ("", "-1", "+1", "1_000", "1.5", "k", "0x", "1kk", "1 k", " 1", "1\n", "128g", "\u0661", "one"):
            with self.assertRaises(ValueError, msg=repr(word)):
                numbers.parse(word)

    def test_stops(self):
        self.assertEqual(numbers.parse_stop("4"), (4, 0))
        self.assertEqual(numbers.parse_stop("4:100"), (4, 100))
        for word in ("", ":", "4:", ":1", "4:x"):
            with self.assertRaises(ValueError, msg=repr(word)):
                numbers.parse_stop(word)

    def test_ranges(self):
        self.assertEqual(numbers.ranges([1, 4, 5, 6, 9]), "1, 4 to 6, 9")
        self.assertEqual(numbers.ranges([]), "")


class Usage(Case):
    def test_errors_are_3_and_print_nothing(self):
        dump = self.file("dump", BENCH)
        for words in ((), ("unknown",), ("list",), ("list", dump), ("list", dump, "--unit", "1"),
                      ("list", dump, "--peb-size", "1z", "--unit", "1"), ("list", dump, "--no-such"),
                      ("list", dump, "--peb-size", "1k", "--unit", "65536"),
                      ("list", dump, "--peb-size", "4096m", "--unit", "1"),
                      ("list", dump, "--slip", "--unit", "1"),
                      ("report", dump) + BENCH_OPTIONS,
                      ("move", dump, "--volume", "0", "--leb", "0", "--to", "3") + BENCH_OPTIONS,
                      ("diff", dump) + BENCH_OPTIONS, ("build", dump) + BENCH_OPTIONS):
            done = run(*words)
            self.ends(done, cli.TROUBLE, b"")
            self.assertIn(b"ubibench", done.stderr)

    def test_help_is_0_with_examples(self):
        for words in (("--help",), ("list", "--help"), ("move", "--help"), ("build", "--help")):
            done = run(*words)
            self.ends(done, 0)
            self.assertIn(b"exit status", done.stdout)
        self.assertIn(b"examples:", run("--help").stdout)

    def test_statuses(self):
        bench, small = self.file("bench", BENCH), self.file("small", SMALL)
        for command, more in (("list", ()), ("list", ("--json",)), ("show", ()), ("report", ("-o", self.path("p")))):
            self.ends(run(command, bench, *BENCH_OPTIONS, *more), 0)
            self.ends(run(command, small, *SMALL_OPTIONS, *more), 1)
            self.ends(run(command, bench, "--peb-size", "1000", "--unit", "1", *more), 2)
            self.ends(run(command, self.path("none"), *BENCH_OPTIONS, *more), 3, b"")

    def test_refusal_is_on_standard_output(self):
        bench = self.file("bench", BENCH)
        for command, more in (("list", ()), ("show", ()), ("report", ("-o", self.path("page"))),
                              ("move", ("--volume", 0, "--leb", 0, "--to", 3, "-o", self.path("out")))):
            self.ends(run(command, bench, "--peb-size", "1000", "--unit", "1", *more), 2, b"refused 2 at 0\n")
        self.assertFalse(os.path.exists(self.path("out")))

    def test_blocks(self):
        bench = self.file("bench", BENCH)
        untold = run("list", bench, "--peb-size", "1k", "--unit", "1")
        self.ends(untold, 0)
        self.assertIn(b"--blocks", untold.stderr)
        self.assertEqual(run("list", bench, *BENCH_OPTIONS).stderr, b"")
        wrong = run("list", bench, "--peb-size", "1k", "--unit", "1", "--blocks", "5")
        self.ends(wrong, 3, b"")
        self.assertIn(b"4 blocks, not 5", wrong.stderr)


class Faults(unittest.TestCase):
    def test_a_fault_of_the_program_is_no_grade(self):
        with mock.patch.object(cli, "make_parser", side_effect=IndexError("on purpose")):
            with mock.patch("sys.stderr", io.StringIO()) as said:
                self.assertEqual(cli.answer(["list"]), cli.TROUBLE)
        self.assertIn("on purpose", said.getvalue())


class Installed(Case):
    def test_package_and_library_are_found(self):
        """As `make install` lays them out, with the program called by a link from elsewhere."""
        for place in ("bin", "lib", "share/choduljin"):
            os.makedirs(self.path(place))
        shutil.copy(PROGRAM, self.path("bin/ubibench"))
        shutil.copytree(os.path.join(ROOT, "benchtool"), self.path("share/choduljin/benchtool"))
        shutil.copy(library.load().path, self.path("lib/libchoduljin.so"))
        os.symlink(self.path("bin/ubibench"), self.path("link"))
        bare = {name: value for name, value in os.environ.items() if name not in (library.VARIABLE, "PYTHONPATH")}
        dump = self.file("dump", BENCH)
        for program in ("bin/ubibench", "link"):
            done = subprocess.run([self.path(program), "list", dump] + list(BENCH_OPTIONS), stdout=subprocess.PIPE,
                                  stderr=subprocess.PIPE, env=bare, cwd="/")
            self.assertEqual((done.returncode, done.stderr), (0, b""))
            self.assertTrue(done.stdout.startswith(b"attached 4 "))


class Telling(unittest.TestCase):
    def told(self, seconds, total):
        with mock.patch.object(progress, "SILENT_SECONDS", 0.02), mock.patch("sys.stderr", io.StringIO()) as said:
            with progress.Progress("reading", total) as one:
                one.at(1)
                time.sleep(seconds)
        return said.getvalue()

    def test_only_what_takes_long(self):
        self.assertEqual(self.told(0, 4), "")
        self.assertEqual(self.told(0.2, 4), "ubibench: reading, 25 %\n")
        self.assertEqual(self.told(0.2, None), "ubibench: reading, 0 s\n")


class Output(Case):
    def test_a_full_device_is_3(self):
        dump = self.file("dump", BENCH)
        with open("/dev/full", "wb") as full:
            done = subprocess.run([sys.executable, PROGRAM, "list", dump] + list(BENCH_OPTIONS), stdout=full,
                                  stderr=subprocess.PIPE)
        self.assertEqual(done.returncode, 3)
        self.assertEqual(done.stderr, b"ubibench: standard output: No space left on device\n")

    def test_nobody_reads(self):
        dump = self.file("dump", BENCH)
        ours, theirs = os.pipe()
        os.close(ours)
        done = subprocess.run([sys.executable, PROGRAM, "list", dump] + list(BENCH_OPTIONS), stdout=theirs,
                              stderr=subprocess.PIPE)
        os.close(theirs)
        self.assertEqual((done.returncode, done.stderr), (3, b"ubibench: standard output: Broken pipe\n"))

    def test_closed(self):
        dump = self.file("dump", BENCH)
        done = subprocess.run(["/bin/sh", "-c", 'exec "$@" >&-', "sh", sys.executable, PROGRAM, "list", dump]
                              + list(BENCH_OPTIONS), stderr=subprocess.PIPE)
        self.assertEqual(done.returncode, 3, done.stderr)

    def test_no_library(self):
        dump = self.file("dump", BENCH)
        done = subprocess.run([sys.executable, PROGRAM, "list", dump] + list(BENCH_OPTIONS), stdout=subprocess.PIPE,
                              stderr=subprocess.PIPE, env=dict(os.environ, CHODULJIN_LIBRARY=self.path("none.so")))
        self.assertEqual((done.returncode, done.stdout), (3, b""))
        self.assertIn(b"none.so", done.stderr)


if __name__ == "__main__":
    unittest.main()
