"""Moves: the bytes they leave are the oracle's, on a copy, in place, and stopped anywhere."""

import io
import mmap
import os
import re
import shutil
import unittest
from unittest import mock

from support import BENCH, BENCH_OPTIONS, SMALL, SMALL_OPTIONS, Case, Flash, oracle_listing, options_of, run

import mover
import ubi
from benchtool import cli, files, move
from benchtool.library import Library
from benchtool.trouble import Trouble
from cases import Chance
from cases_mover_random import random_chip
from mover import begin, cut_image, enough_tables, image_after, judged_geometry, step, step_count, write_of

MOVES = 25
BENCH_MOVE = ("--volume", 0, "--leb", 0, "--to", 3)


def stopped(plan, image, steps, part):
    """The oracle's image after so many steps, and so many bytes of the next (of an erase, its first ones)."""
    for _ in range(steps):
        _, plan, image = step(plan, image)
    write = write_of(plan, judged_geometry(plan, image), image)
    if write is None:
        return image
    return cut_image(write, image, range(min(part, len(write.data))) if write.is_erase else part)


def random_move(chance):
    """A chip by chance with a move: the plan, or the refusal in its place."""
    flash, image = random_chip(chance)
    tables = enough_tables(image, flash.peb_size)
    numbers = len(image) // flash.peb_size
    try:
        report = mover.attach.attach(flash.slip, image, tables)
    except ubi.Refused:
        return flash, image, (0, 0, 0)
    free = [peb for peb in range(numbers) if report.classes[peb] == 0] or [0]
    entry = chance.pick(report.entries)
    return flash, image, (entry.volume, entry.leb, chance.pick(free))


class Bench(Case):
    def test_01s_move(self):
        done = run("move", self.file("dump", BENCH), *BENCH_OPTIONS, *BENCH_MOVE, "-o", self.path("out"))
        self.ends(done, 0)
        lines = done.stdout.decode("ascii").splitlines()
        self.assertEqual((lines[0], lines[-1]), ("map 0 0 2", "map 0 0 3"))
        self.assertEqual([line.split(":")[0] for line in lines[1:-1]], ["step %d of 6" % n for n in range(1, 7)])
        self.assertEqual(self.content("dump"), BENCH)
        plan = begin(Flash(1024, 1, 1).slip, BENCH, enough_tables(BENCH, 1024), 0, 0, 3)
        self.assertEqual(self.content("out"), image_after(plan, BENCH))
        listed = run("list", self.path("out"), *BENCH_OPTIONS).stdout
        for line in (b"peb 2 0 10", b"map 0 0 3", b"highest 4"):
            self.assertIn(line, listed)

    def test_refusals(self):
        small = self.file("small", SMALL)
        self.ends(run("move", small, *SMALL_OPTIONS, "--volume", 0, "--leb", 0, "--to", 12, "-o", self.path("out")), 2,
                  b"refused 13 at 0\n")
        bench = self.file("dump", BENCH)
        for leb, to, line in ((1, 3, b"refused 14 at 0\n"), (0, 2, b"refused 16 at 0\n"),
                              (0, 4, b"refused 16 at 0\n")):
            for where in (("-o", self.path("out")), ("--in-place",)):
                done = run("move", bench, *BENCH_OPTIONS, "--volume", 0, "--leb", leb, "--to", to, *where)
                self.ends(done, 2, line)
        self.assertEqual(self.content("dump"), BENCH)
        self.assertEqual(sorted(os.listdir(self.directory)), ["dump", "small"])

    def test_numbers_beyond_32_bits(self):
        done = run("move", self.file("dump", BENCH), *BENCH_OPTIONS, "--volume", 0, "--leb", 2 ** 32, "--to", 3,
                   "--in-place")
        self.ends(done, 3, b"")


class Output(Case):
    def moved(self, *words):
        return run("move", self.file("dump", BENCH), *BENCH_OPTIONS, *BENCH_MOVE, *words)

    def test_the_dump_is_never_the_copy(self):
        os.mkdir(self.path("dir"))
        self.file("dump", BENCH)
        os.link(self.path("dump"), self.path("link"))
        os.symlink(self.path("dump"), self.path("symlink"))
        for name in ("dump", "link", "symlink"):
            done = run("move", self.path("dump"), *BENCH_OPTIONS, *BENCH_MOVE, "-o", self.path(name))
            self.ends(done, 3, b"")
            self.assertIn(b"the same file", done.stderr)
        self.assertEqual(self.content("dump"), BENCH)
        self.ends(self.moved("-o", self.path("dir")), 3, b"")

    def test_a_copy_that_cannot_be_written(self):
        done = self.moved("-o", self.path("none/out"))
        self.ends(done, 3)
        self.assertIn(b"No such file or directory", done.stderr)
        self.assertEqual(os.listdir(self.directory), ["dump"])

    def test_a_copy_that_fails_leaves_nothing(self):
        for call in ("fsync", "replace"):
            self.file("out", b"old")
            with mock.patch.object(files.os, call, side_effect=OSError(28, "No space left on device")):
                with self.assertRaisesRegex(Trouble, "No space left on device"):
                    files.write_whole(self.path("out"), [b"new"])
            self.assertEqual(os.listdir(self.directory), ["out"])
            self.assertEqual(self.content("out"), b"old")

    def test_an_old_copy_is_replaced_whole(self):
        self.file("out", b"old" * 100000)
        self.ends(self.moved("-o", self.path("out")), 0)
        self.assertEqual(len(self.content("out")), len(BENCH))
        self.assertEqual(sorted(os.listdir(self.directory)), ["dump", "out"])

    def test_in_place_needs_a_plain_file(self):
        self.ends(run("move", "-", *BENCH_OPTIONS, *BENCH_MOVE, "--in-place", input=BENCH), 3, b"")
        self.ends(run("move", "/dev/zero", *BENCH_OPTIONS, *BENCH_MOVE, "--in-place"), 3, b"")
        self.ends(run("move", self.path("none"), *BENCH_OPTIONS, *BENCH_MOVE, "--in-place"), 3, b"")


class InPlace(Case):
    def moved(self, *more):
        """In this process: the exit status, and what was said on standard error."""
        words = ["move", self.path("dump"), *BENCH_OPTIONS, *map(str, BENCH_MOVE), "--in-place", *more]
        with mock.patch("sys.stdout", mock.Mock(buffer=io.BytesIO())), mock.patch("sys.stderr", io.StringIO()) as said:
            return cli.answer(words), said.getvalue()

    def test_each_step_is_synced_before_the_next(self):
        calls = []

        class Recording(mmap.mmap):
            def flush(self, start, size):
                calls.append(("synced", start, start + size))
                return super().flush(start, size)

        real = Library.step

        def step_of(library, plan, image):
            calls.append(library.next_write(plan, image))
            return real(library, plan, image)

        self.file("dump", BENCH)
        with mock.patch.object(move.mmap, "mmap", Recording), mock.patch.object(Library, "step", step_of):
            self.assertEqual(self.moved(), (0, ""))
        self.assertEqual(len(calls), 2 * 6)
        for (_, at, size), (name, start, end) in zip(calls[::2], calls[1::2]):
            self.assertEqual(name, "synced")
            self.assertTrue(start <= at and at + size <= end, (at, size, start, end))

    def test_a_sync_that_fails_ends_the_move(self):
        class Failing(mmap.mmap):
            def flush(self, start, size):
                raise OSError(5, "Input/output error")

        self.file("dump", BENCH)
        with mock.patch.object(move.mmap, "mmap", Failing):
            status, said = self.moved()
        self.assertEqual(status, 3)
        self.assertIn("Input/output error", said)
        # The first step is stored, and no other.
        plan = begin(Flash(1024, 1, 1).slip, BENCH, enough_tables(BENCH, 1024), 0, 0, 3)
        self.assertEqual(self.content("dump"), stopped(plan, BENCH, 1, 0))

    def test_a_dump_that_changes_after_it_was_judged(self):
        for place in (2 * 1024 + 500, 3 * 1024 + 500):
            path, real = self.file("dump", BENCH), move.foretold

            def changing(*arguments):
                with open(path, "r+b") as file:
                    file.seek(place)
                    file.write(b"x")
                return real(*arguments)

            with mock.patch.object(move, "foretold", changing):
                status, said = self.moved()
            self.assertEqual(status, 3)
            self.assertIn("changed", said)
            self.assertEqual(self.content("dump"), BENCH[:place] + b"x" + BENCH[place + 1:])

    def test_a_locked_dump(self):
        with open(self.file("dump", BENCH), "rb") as file:
            move.fcntl.flock(file, move.fcntl.LOCK_EX)
            status, said = self.moved()
        self.assertEqual(status, 3)
        self.assertIn("locked", said)
        self.assertEqual(self.content("dump"), BENCH)


class AgainstTheOracle(Case):
    def moved(self, flash, image, move, *more):
        """What both ways leave, which must be one; and what the program printed."""
        words = options_of(flash) + ("--volume", move[0], "--leb", move[1], "--to", move[2]) + more
        path = self.file("dump", image)
        copied = run("move", path, *words, "-o", self.path("out"))
        placed = run("move", shutil.copy(path, self.path("place")), *words, "--in-place")
        self.assertEqual((copied.stdout, copied.returncode), (placed.stdout, placed.returncode))
        if copied.returncode == 2:
            self.assertEqual(self.content("place"), image)
            return copied.stdout, image
        self.ends(copied, 0)
        self.assertEqual(self.content("out"), self.content("place"))
        self.assertEqual(self.content("dump"), image)
        return copied.stdout, self.content("out")

    def test_moves_by_chance(self):
        chance, refused, ran = Chance(1300002), 0, 0
        for _ in range(MOVES):
            flash, image, move = random_move(chance)
            try:
                plan = begin(flash.slip, image, enough_tables(image, flash.peb_size), *move)
            except ubi.Refused as refusal:
                refused += 1
                said, left = self.moved(flash, image, move)
                self.assertEqual(said, b"refused %d at %d\n" % (refusal.number, refusal.place))
                continue
            ran += 1
            said, left = self.moved(flash, image, move)
            self.assertEqual(left, image_after(plan, image))
            self.assertIn(b"map %d %d %d\n" % move, said)
            self.check_stop(flash, image, move, plan, chance)
        self.assertGreater(ran, MOVES // 3)
        self.assertGreater(refused, 0)

    def check_stop(self, flash, image, move, plan, chance):
        steps = chance.below(step_count(plan) + 1)
        part = chance.pick([0, 1, 17, 63, 64, 512, 5000])
        said, left = self.moved(flash, image, move, "--stop-after", "%d:%d" % (steps, part))
        wanted = stopped(plan, image, steps, part)
        self.assertEqual(left, wanted, "stopped after %d:%d" % (steps, part))
        last = said.decode("ascii").splitlines()[-1]
        self.assertIn(last.encode("ascii") + b"\n", oracle_listing(flash.slip, wanted))

    def test_every_stop_of_the_bench_move(self):
        flash, move = Flash(1024, 1, 1), (0, 0, 3)
        plan = begin(flash.slip, BENCH, enough_tables(BENCH, 1024), *move)
        for steps, part in ((0, 0), (0, 1), (0, 63), (0, 64), (1, 0), (3, 0), (3, 1), (4, 0), (4, 700), (4, 1024),
                            (5, 0), (5, 10), (5, 64), (6, 0), (6, 5), (99, 0)):
            said, left = self.moved(flash, BENCH, move, "--stop-after", "%d:%d" % (steps, part))
            self.assertEqual(left, stopped(plan, BENCH, min(steps, 6), part), (steps, part))
            undone = re.search(rb"left undone: step (\d) of 6", said)
            whole = steps + (part >= (64, 1, 1, 1, 1024, 64, 1)[min(steps, 6)])
            self.assertEqual(undone and int(undone.group(1)), whole + 1 if whole < 6 else None, (steps, part))


if __name__ == "__main__":
    unittest.main()
