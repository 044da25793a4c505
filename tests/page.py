"""The page of `ubibench report` in a real browser: Debian's chromium, headless.

    python3 tests/page.py [--keep DIR]

Pages of a good chip, of chips with faults and of refused dumps are loaded. No word on the console, no request to
anywhere, the verdict in the page and in a picture of it, and A4 when it is printed. First a page that breaks all of
this must be caught. `--keep` leaves pages and pictures in a directory, to be looked at. Without chromium it says so
and ends with 0.
"""

import argparse
import json
import os
import re
import shutil
import subprocess
import sys
import tempfile
import zlib
from collections import namedtuple

import scale
from clib import VARIABLE, library_path

from images import Flash
from samples import CHIP, bench_dump, chip_image, small_dump
from listing import SLIP_SIZE

SKIPPED = "page: skipped: chromium (Debian package chromium) is not installed"
BROWSERS = ("chromium", "chromium-browser", "google-chrome")
SECONDS = 120
OPTIONS = ("--headless=new", "--no-sandbox", "--disable-gpu", "--no-first-run", "--disable-background-networking",
           "--disable-component-update", "--disable-sync", "--hide-scrollbars", "--enable-logging=stderr",
           # The browser's own requests go nowhere, either.
           "--host-resolver-rules=MAP * ~NOTFOUND")
WIDTH, HEIGHT = 900, 1200
# The verdict is in the upper part of the page: a box at least half as wide as the page.
TOP, BOX = 500, 450
LEAST_COLOURS = 12
# A4 in points, as printed.
A4 = (595, 842)

GOOD_BORDER, FAULTS_BORDER = (0x2E, 0x6B, 0x3A), (0xB3, 0x26, 0x1E)
OWN_REQUEST = "not an origin"

# A page with words of its verdict, the colour of its box, and words that must be in it.
Page = namedtuple("Page", "name image options kind colour words")
Loaded = namedtuple("Loaded", "dom console requests")

# One that breaks every rule, and has no verdict.
BROKEN = """<!DOCTYPE html>
<html><head><meta charset="utf-8"><title>broken</title></head><body>
<script>console.error("a word on the console")</script>
<img src="http://127.0.0.1:9/picture.png" style="visibility:hidden">
</body></html>
"""


def pages():
    bench, small = bench_dump()[SLIP_SIZE:], small_dump()[SLIP_SIZE:]
    flash = Flash(1024, 1, 1)
    hostile = b"<script>console.error(1)</script><img src=http://127.0.0.1:9/>"
    named = flash.image(flash.with_tables([flash.volume(hostile, reserved=2)], flash.dynamic(0, 0, 3), flash.free()))
    yield Page("good", bench, ("--peb-size", "1024", "--unit", "1", "--blocks", "4"), "good", GOOD_BORDER, ["log"])
    yield Page("small", small, ("--peb-size", "1k", "--unit", "64"), "faults", FAULTS_BORDER, ["colours", "boot"])
    yield Page("chip", chip_image(), ("--peb-size", CHIP.peb_size, "--unit", CHIP.unit, "--blocks", "128"), "faults",
               FAULTS_BORDER, ["program", "settings"])
    yield Page("refused", bench[:2048] + bench[:2048], ("--peb-size", "1024", "--unit", "1"), "faults", FAULTS_BORDER,
               ["refused 9 at 2"])
    yield Page("hostile", named, ("--peb-size", "1024", "--unit", "1"), "good", GOOD_BORDER, ["&lt;script&gt;"])


# ----------------------------------------------------------------- the browser

class Browser:
    def __init__(self, program, directory):
        self.program = program
        self.directory = directory

    def run(self, url, *options):
        profile = tempfile.mkdtemp(dir=self.directory)
        command = [self.program, *OPTIONS, "--user-data-dir=" + profile, *options, url]
        done = subprocess.run(command, stdout=subprocess.PIPE, stderr=subprocess.PIPE, timeout=SECONDS,
                              cwd=self.directory)
        shutil.rmtree(profile, ignore_errors=True)
        if done.returncode != 0:
            raise AssertionError("%s ends with %d: %s" % (self.program, done.returncode, done.stderr[-500:]))
        return done

    def load(self, path):
        log = os.path.join(self.directory, "net.json")
        done = self.run("file://" + path, "--log-net-log=" + log, "--dump-dom")
        console = re.findall(r":CONSOLE[^\]]*\] (.*)", done.stderr.decode("utf-8", "replace"))
        return Loaded(done.stdout.decode("utf-8"), console, requests_in(log))

    def picture(self, path, out):
        self.run("file://" + path, "--window-size=%d,%d" % (WIDTH, HEIGHT), "--screenshot=" + out)
        with open(out, "rb") as file:
            return rows_of(file.read())

    def printed(self, path, out):
        self.run("file://" + path, "--no-pdf-header-footer", "--print-to-pdf=" + out)
        with open(out, "rb") as file:
            return [tuple(float(word) for word in box.split()) for box in re.findall(
                rb"/MediaBox ?\[([0-9. ]+)\]", file.read())]


def requests_in(log):
    """What the page asked for, without the browser's own requests."""
    with open(log, encoding="utf-8") as file:
        text = file.read()
    try:
        events = json.loads(text)["events"]
    except ValueError:
        # A browser that was quick to end has not closed its list.
        events = json.loads(text.rstrip().rstrip(",") + "]}")["events"]
    asked = [event["params"] for event in events if "initiator" in event.get("params", {})]
    return [one["url"] for one in asked if one["initiator"] != OWN_REQUEST and not one["url"].startswith("file:")]


def rows_of(png):
    """The pixels of a PNG of 8-bit RGB or RGBA: a list of rows of (r, g, b)."""
    assert png[:8] == b"\x89PNG\r\n\x1a\n", "no PNG"
    width, height, channels, data, at = 0, 0, 0, b"", 8
    while at < len(png):
        size, kind = int.from_bytes(png[at:at + 4], "big"), png[at + 4:at + 8]
        body = png[at + 8:at + 8 + size]
        if kind == b"IHDR":
            width, height = int.from_bytes(body[:4], "big"), int.from_bytes(body[4:8], "big")
            channels = {(8, 2): 3, (8, 6): 4}[body[8], body[9]]
        elif kind == b"IDAT":
            data += body
        at += size + 12
    return unfiltered(zlib.decompress(data), width, height, channels)


def unfiltered(raw, width, height, channels):
    stride, rows, above = width * channels, [], bytearray(width * channels)
    for row in range(height):
        start = row * (stride + 1)
        line = bytearray(raw[start + 1:start + 1 + stride])
        unfilter(raw[start], line, above, channels)
        rows.append([tuple(line[at:at + 3]) for at in range(0, stride, channels)])
        above = line
    return rows


def unfilter(kind, line, above, channels):
    """PNG's five filters."""
    for at in range(len(line)):
        left = line[at - channels] if at >= channels else 0
        up = above[at]
        corner = above[at - channels] if at >= channels else 0
        if kind == 4:
            near = left + up - corner
            guess = min((left, up, corner), key=lambda one: abs(near - one))
        else:
            guess = (0, left, up, (left + up) // 2)[kind]
        line[at] = line[at] + guess & 0xFF


# ------------------------------------------------------------------- judgement

def faults_of(loaded, rows, boxes, page):
    """What is wrong with a page, in words; nothing if all is well."""
    if loaded.console:
        yield "the console says %s" % loaded.console
    if loaded.requests:
        yield "it asks for %s" % loaded.requests
    verdict = re.search(r'<div class="verdict (\w+)"><strong>([^<]+)</strong>', loaded.dom)
    if verdict is None or verdict.group(1) != page.kind:
        yield "the verdict is not in it"
    for words in page.words:
        if words not in loaded.dom:
            yield "it has no %r" % words
    if len({pixel for row in rows for pixel in row}) < LEAST_COLOURS:
        yield "the picture is blank"
    if not any(longest_run(row, page.colour) >= BOX for row in rows[:TOP]):
        yield "the verdict's box is not in the picture"
    if not boxes or any(abs(box[2] - A4[0]) > 2 or abs(box[3] - A4[1]) > 2 for box in boxes):
        yield "it is not printed on A4: %s" % boxes[:3]


def longest_run(row, colour):
    longest = run = 0
    for pixel in row:
        run = run + 1 if pixel == colour else 0
        longest = max(longest, run)
    return longest


def judge(browser, path, page):
    stem = path[:-len(".html")]
    return list(faults_of(browser.load(path), browser.picture(path, stem + ".png"),
                          browser.printed(path, stem + ".pdf"), page))


def broken_is_caught(browser, directory):
    """The checks themselves: each of them must find something."""
    path = os.path.join(directory, "broken.html")
    with open(path, "w", encoding="utf-8") as file:
        file.write(BROKEN)
    found = judge(browser, path, Page("broken", b"", (), "good", GOOD_BORDER, ["log"]))
    wanted = ("console", "asks for", "verdict is not", "has no", "blank", "box", "A4")
    missed = [word for word in wanted if not any(word in fault for fault in found)]
    if missed:
        print("page: a broken page is not caught: %s; only %s" % (missed, found))
    return not missed


def find_browser():
    for name in BROWSERS:
        found = shutil.which(name)
        if found:
            return found
    return None


def try_pages(browser, directory):
    count = 0
    for page in pages():
        path = os.path.join(directory, page.name + ".html")
        dump = os.path.join(directory, page.name + ".bin")
        with open(dump, "wb") as file:
            file.write(page.image)
        done = scale.tool("report", dump, *page.options, "-o", path)
        if done.status not in (0, 1, 2):
            print("page: report ends with %d: %s" % (done.status, done.stderr.decode("utf-8", "replace")))
            return None
        found = judge(browser, path, page)
        if found:
            print("page: %s: %s" % (page.name, "; ".join(found)))
            return None
        count += 1
    return count


def main(arguments):
    parser = argparse.ArgumentParser(description="The report's page in a browser.")
    parser.add_argument("--keep", metavar="DIR", help="leave pages and pictures there")
    chosen = parser.parse_args(arguments)
    os.environ[VARIABLE] = library_path()
    program = find_browser()
    if program is None:
        print(SKIPPED)
        return 0
    directory = os.path.abspath(chosen.keep) if chosen.keep else tempfile.mkdtemp(prefix="page-")
    os.makedirs(directory, exist_ok=True)
    try:
        browser = Browser(program, directory)
        if not broken_is_caught(browser, directory):
            return 1
        count = try_pages(browser, directory)
    finally:
        if not chosen.keep:
            shutil.rmtree(directory, ignore_errors=True)
    if count is None:
        return 1
    print("page: %d pages in %s, no fault" % (count, os.path.basename(program)))
    return 0


if __name__ == "__main__":
    sys.exit(main(sys.argv[1:]))
