"""Reading: whole or not at all. Spare bytes, pipes, reads that fail, files that change."""

import errno
import os
import threading
import unittest
from unittest import mock

from support import BENCH, BENCH_OPTIONS, SMALL, SMALL_OPTIONS, Case, run

from benchtool import dump
from benchtool.dump import Way, read_dump
from benchtool.trouble import Trouble


def with_spare(image, page, spare):
    """A raw dump: other bytes after each page."""
    return b"".join(image[at:at + page] + (b"spare" * spare)[:spare] for at in range(0, len(image), page))


def bytes_of(read):
    return bytes(read.image.view)


class Reading(Case):
    def test_plain(self):
        for size in (0, 1, 4096, 100000):
            data = bytes(range(256)) * (size // 256 + 1)
            path = self.file("dump", data[:size])
            read = read_dump(path, Way(0, 0, 0, True))
            self.assertEqual(bytes_of(read), data[:size])
            self.assertEqual(read.length, size)

    def test_checksum_is_of_the_file(self):
        import hashlib
        raw = with_spare(SMALL, 512, 16)
        path = self.file("dump", raw)
        for way in (Way(0, 0, 0, True), Way(512, 16, 0, True), Way(0, 0, 20, True)):
            self.assertEqual(read_dump(path, way).sha256, hashlib.sha256(raw).hexdigest())

    def test_spare_bytes_are_left_out(self):
        for page, spare in ((512, 16), (64, 1), (2048, 64), (256, 300)):
            image = SMALL[:len(SMALL) // page * page]
            path = self.file("raw", with_spare(image, page, spare))
            with mock.patch.object(dump, "PIECE", 1000):
                self.assertEqual(bytes_of(read_dump(path, Way(page, spare, 0, False))), image)

    def test_spare_bytes_that_do_not_fit(self):
        path = self.file("raw", with_spare(SMALL, 512, 16)[:-1])
        with self.assertRaisesRegex(Trouble, "whole number of pages"):
            read_dump(path, Way(512, 16, 0, False))

    def test_front(self):
        path = self.file("dump", b"x" * 20 + SMALL)
        read = read_dump(path, Way(0, 0, 20, False))
        self.assertEqual((read.front, bytes_of(read)), (b"x" * 20, SMALL))
        self.assertEqual(read_dump(self.file("short", b"abc"), Way(0, 0, 20, False)).front, b"abc")

    def test_too_long_to_be_an_image(self):
        with open(self.path("long"), "wb") as file:
            file.truncate((1 << 30) + 4096)
        self.ends(run("list", self.path("long"), "--peb-size", "256k", "--unit", "2048"), 2, b"refused 3 at 0\n")


class Failing(Case):
    """Never a listing: exit status 3 in the system's words."""

    def fails(self, words, *command, **more):
        done = run(*command, **more)
        self.ends(done, 3, b"")
        self.assertIn(words, done.stderr)

    def test_missing_directory_unreadable(self):
        self.fails(b"No such file or directory", "list", self.path("none"), *BENCH_OPTIONS)
        self.fails(b"Is a directory", "list", self.directory, *BENCH_OPTIONS)
        self.fails(b"Is a directory", "diff", self.file("a", BENCH), self.directory, *BENCH_OPTIONS)
        # Its first byte cannot be read by anyone.
        self.fails(b"Input/output error", "list", "/proc/self/mem", *BENCH_OPTIONS)

    def test_pipe_that_runs_dry(self):
        ours, theirs = os.pipe()
        self.addCleanup(os.close, ours)
        self.addCleanup(os.close, theirs)
        os.set_blocking(ours, False)
        os.write(theirs, BENCH)
        self.fails(b"Resource temporarily unavailable", "list", "-", *BENCH_OPTIONS, stdin=ours)

    def test_error_in_the_middle(self):
        path = self.file("dump", BENCH)
        real, calls = dump.read_piece, []

        def failing(file, view):
            calls.append(1)
            if len(calls) == 3:
                raise OSError(errno.EIO, os.strerror(errno.EIO))
            return real(file, view[:1000])

        with mock.patch.object(dump, "read_piece", failing):
            with self.assertRaisesRegex(Trouble, "Input/output error"):
                read_dump(path)
        self.assertEqual(len(calls), 3)

    def test_an_early_end(self):
        """Where a file ends before its length, though nothing else shows it."""
        path = self.file("dump", SMALL)
        real, calls = dump.read_piece, []

        def ending(file, view):
            calls.append(1)
            return 0 if len(calls) >= 3 else real(file, view[:1024])

        for way in (dump.PLAIN, Way(64, 64, 0, False)):
            calls.clear()
            with mock.patch.object(dump, "read_piece", ending):
                with self.assertRaisesRegex(Trouble, "changed while it was read"):
                    read_dump(path, way)

    def changing(self, change, way=dump.PLAIN, at=2):
        """The dump read while `change` is done to its file, before the call `at` of `read`."""
        path = self.file("dump", SMALL)
        real, calls = dump.read_piece, []

        def hooked(file, view):
            calls.append(1)
            if len(calls) == at:
                change(path)
            return real(file, view[:1024])

        with mock.patch.object(dump, "read_piece", hooked):
            with self.assertRaisesRegex(Trouble, "changed while it was read"):
                read_dump(path, way)
        self.assertGreaterEqual(len(calls), at)

    def test_file_that_shrinks(self):
        self.changing(lambda path: os.truncate(path, 5 * 1024))
        self.changing(lambda path: os.truncate(path, 0), at=1)
        self.changing(lambda path: os.truncate(path, 5 * 1024), Way(64, 64, 0, False))
        # All was read: the length alone shows it.
        self.changing(lambda path: os.truncate(path, 5 * 1024), at=15)

    def test_file_that_grows(self):
        def grow(path):
            with open(path, "ab") as file:
                file.write(b"\xff" * 1024)

        self.changing(grow)
        self.changing(grow, at=15)
        self.changing(grow, Way(64, 64, 0, False))

    def test_file_that_is_written_to(self):
        def write(path):
            with open(path, "r+b") as file:
                file.write(b"\0")
            os.utime(path, ns=(1, 1))

        self.changing(write)


class Pipes(Case):
    def test_standard_input(self):
        wanted = run("list", self.file("small", SMALL), *SMALL_OPTIONS)
        done = run("list", "-", *SMALL_OPTIONS, input=SMALL)
        self.ends(done, 1, wanted.stdout)
        raw = run("list", "-", *SMALL_OPTIONS, "--oob", "3", input=with_spare(SMALL, 64, 3))
        self.ends(raw, 1, wanted.stdout)

    def test_spare_bytes_that_do_not_fit(self):
        done = run("list", "-", *SMALL_OPTIONS, "--oob", "3", input=with_spare(SMALL, 64, 3)[:-1])
        self.ends(done, 3, b"")
        self.assertIn(b"whole number of pages", done.stderr)

    def test_standard_input_is_read_from_where_it_stands(self):
        with open(self.file("small", b"x" * 20 + SMALL), "rb") as file:
            os.lseek(file.fileno(), 20, os.SEEK_SET)
            self.ends(run("list", "-", *SMALL_OPTIONS, stdin=file), 1)

    def through_fifo(self, data, *options):
        os.mkfifo(self.path("fifo"))

        def write():
            with open(self.path("fifo"), "wb") as fifo:
                fifo.write(data)

        writer = threading.Thread(target=write)
        writer.start()
        done = run("list", self.path("fifo"), *options)
        writer.join()
        os.unlink(self.path("fifo"))
        return done

    def test_fifo(self):
        self.ends(self.through_fifo(BENCH, *BENCH_OPTIONS), 0)

    def test_fifo_closed_early(self):
        self.ends(self.through_fifo(BENCH[:-1], *BENCH_OPTIONS), 2, b"refused 3 at 0\n")
        # Three whole blocks attach: only the number of blocks shows it.
        self.ends(self.through_fifo(BENCH[:3072], *BENCH_OPTIONS), 3, b"")
        self.ends(self.through_fifo(b"", *BENCH_OPTIONS), 2, b"refused 3 at 0\n")


if __name__ == "__main__":
    unittest.main()
