"""What the tests share: the program run as people run it, and chips made by the oracle."""

import os
import subprocess
import sys
import tempfile
import unittest

HERE = os.path.dirname(os.path.abspath(__file__))
ROOT = os.path.dirname(HERE)
PROGRAM = os.path.join(ROOT, "ubibench")
SECONDS = 120

for place in (ROOT, os.path.join(ROOT, "oracle")):
    if place not in sys.path:
        sys.path.insert(0, place)
sys.dont_write_bytecode = True

import attach  # noqa: E402
import listing  # noqa: E402
import ubi  # noqa: E402
from images import Flash  # noqa: E402
from mover import enough_tables  # noqa: E402
from samples import bench_dump, small_dump  # noqa: E402

SLIP = listing.SLIP_SIZE
BENCH = bench_dump()[SLIP:]
BENCH_OPTIONS = ("--peb-size", "1024", "--unit", "1", "--blocks", "4")
SMALL = small_dump()[SLIP:]
SMALL_OPTIONS = ("--peb-size", "1k", "--unit", "64", "--blocks", "14")


def run(*words, **more):
    """The finished process: `stdout`, `stderr` as bytes, `returncode`."""
    environment = dict(os.environ, PYTHONDONTWRITEBYTECODE="1")
    return subprocess.run([sys.executable, PROGRAM] + [str(word) for word in words], stdout=subprocess.PIPE,
                          stderr=subprocess.PIPE, timeout=SECONDS, env=environment, **more)


def oracle_listing(slip, image):
    """The oracle's text without the listing program's 60 KiB."""
    try:
        peb_size = ubi.geometry_from_slip(slip).peb_size
        lines = listing.report_lines(attach.attach(slip, image, enough_tables(image, peb_size)))
    except ubi.Refused as refused:
        lines = [attach.refusal_line(refused)]
    return "".join(line + "\n" for line in lines).encode("ascii")


def options_of(flash):
    geometry = flash.geometry
    return ("--peb-size", geometry.peb_size, "--unit", geometry.unit, "--sub-unit", geometry.sub_unit)


class Case(unittest.TestCase):
    def setUp(self):
        held = tempfile.TemporaryDirectory()
        self.addCleanup(held.cleanup)
        self.directory = held.name

    def path(self, name):
        return os.path.join(self.directory, name)

    def file(self, name, data):
        with open(self.path(name), "wb") as file:
            file.write(data)
        return self.path(name)

    def content(self, name):
        with open(self.path(name), "rb") as file:
            return file.read()

    def ends(self, done, status, stdout=None):
        self.assertEqual(done.returncode, status, done.stderr.decode("utf-8", "replace"))
        if stdout is not None:
            self.assertEqual(done.stdout, stdout)


def named_chip(name):
    """A chip of one volume with this name."""
    flash = Flash(1024, 1, 1)
    return flash, flash.image(flash.with_tables([flash.volume(name, reserved=2)], flash.dynamic(0, 0, 3, b"abc"),
                                                flash.free()))
