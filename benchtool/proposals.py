"""Geometries under which the good EC headers in a dump agree with their own starts.

The library judges the headers. Here they are only looked for: at every place where the bytes are those that each EC
header begins with, and those are taken from a header that the library writes.
"""

from collections import Counter, namedtuple
from math import gcd

from benchtool import library as lib
from benchtool.numbers import grouped

# A good EC header: from which byte of the dump on, and the starts it names.
Header = namedtuple("Header", "at starts")

# One block size: blocks, and bytes left over; headers at the start of blocks, and inside; of those at the start how
# many name the same starts and have a good or an erased VID header there; the units and sub-units that give these
# starts; whether headers stand at each second block (third, ..) only.
Proposal = namedtuple("Proposal", "peb_size blocks left starts geometries at_start inside agree every page spare")

POWERS = [1 << power for power in range(13)]
BLOCK_SIZES = [1 << power for power in range(10, 19)]
BLOCK_MOST = BLOCK_SIZES[-1]
# Pages with their spare bytes, as chips are made.
SPARES = ((512, 16), (2048, 64), (2048, 128), (4096, 128), (4096, 218), (4096, 224), (4096, 256), (1024, 32))
# Pages of NAND chips, and of NOR flash, which is written byte by byte.
PAGES = (1, 512, 2048, 4096)
# Where blocks start in a dump, spare bytes or not, is a multiple of this.
GRID = 512


# ---------------------------------------------------------- looking for headers

def everywhere(image, magic):
    """Every place where these bytes stand."""
    at = image.buffer.find(magic)
    while 0 <= at < image.length:
        yield at
        at = image.buffer.find(magic, at + 1)


def on_grid(image, magic):
    """The same, at multiples of GRID only: little of the dump is looked at."""
    firsts = bytes(image.view[::GRID])
    at = firsts.find(magic[:1])
    while at >= 0:
        yield at * GRID
        at = firsts.find(magic[:1], at + 1)


def good_headers(library, image, places):
    found = []
    for at in places:
        header = library.read_ec(image, at)
        if header is not None:
            found.append(Header(at, (header["vid_start"], header["data_start"])))
    return found


def together(numbers):
    """The greatest number that divides all; 0 if all are 0."""
    found = 0
    for number in numbers:
        found = gcd(found, number)
    return found


# ------------------------------------------------------------------- proposing

class Prober:
    def __init__(self, library, image):
        self.library = library
        self.image = image
        self.known = {}

    def geometries(self, peb_size, starts):
        """Units and sub-units that give these starts in blocks of this size, the most usual first."""
        if peb_size not in self.known:
            self.known[peb_size] = self.all_geometries(peb_size)
        return self.known[peb_size].get(starts, [])

    def all_geometries(self, peb_size):
        found = {}
        for unit in POWERS:
            for sub_unit in POWERS:
                words = self.library.geometry(peb_size, unit, sub_unit)
                if words is not None:
                    found.setdefault((words["vid_start"], words["data_start"]), []).append((unit, sub_unit))
        for numbers in found.values():
            numbers.sort(key=usual)
        return found

    def proposals(self, headers, more_sizes=(), page=0, spare=0):
        """All block sizes that say something, the best first. With spare bytes, headers are those of the raw dump."""
        length = self.image.length
        if spare:
            headers = [Header(header.at // (page + spare) * page, header.starts) for header in headers
                       if header.at % (page + spare) == 0]
            length = length // (page + spare) * page
        sizes = set(BLOCK_SIZES) | set(more_sizes) | {together(header.at for header in headers)}
        made = [self.proposal(size, length, headers, page, spare) for size in sorted(sizes)
                if BLOCK_SIZES[0] <= size <= BLOCK_MOST]
        made = [one for one in made if one is not None]
        return sorted(made, key=rank, reverse=True)

    def proposal(self, peb_size, length, headers, page, spare):
        blocks, left = divmod(length, peb_size)
        if not 2 <= blocks <= lib.PEBS_MOST:
            return None
        starting = [header for header in headers if header.at % peb_size == 0]
        named = Counter(header.starts for header in starting if self.fitting(peb_size, header.starts, page))
        if not named:
            return None
        starts = max(named, key=lambda one: (named[one], one))
        agree = sum(1 for header in starting if header.starts == starts
                    and self.vid_agrees(header, peb_size, page, spare))
        every = together(header.at // peb_size for header in starting)
        return Proposal(peb_size, blocks, left, starts, self.fitting(peb_size, starts, page), len(starting),
                        len(headers) - len(starting), agree, every, page, spare)

    def fitting(self, peb_size, starts, page):
        """With spare bytes the page is known, and is the unit."""
        found = self.geometries(peb_size, starts)
        return [numbers for numbers in found if numbers[0] == page] if page else found

    def vid_agrees(self, header, peb_size, page, spare):
        """Where the EC header says that the VID header is, there is a good one, or none was written."""
        at = header.at + header.starts[0]
        if spare:
            at = at // page * (page + spare) + at % page
        raw = self.image.at(at, lib.HEADER_SIZE)
        if raw == b"\xff" * lib.HEADER_SIZE:
            return True
        return self.library.read_vid(self.image, at, peb_size - header.starts[1]) is not None


def usual(numbers):
    """Pages as chips have them first, then those without sub-pages; then the largest sub-unit and smallest unit."""
    unit, sub_unit = numbers
    return (unit not in PAGES, unit != sub_unit, unit if unit == sub_unit else -sub_unit, unit)


def rank(one):
    """Many blocks with a header that agrees, few headers inside blocks; a length of whole blocks."""
    inside = one.inside / (one.at_start + one.inside)
    return (one.agree > 0, one.agree / one.blocks - inside, one.left == 0, one.peb_size)


def with_spares(prober, headers):
    """The best proposal for each page with spare bytes that the dump's length and headers fit."""
    found = []
    apart = together(header.at for header in headers)
    for page, spare in SPARES:
        if prober.image.length % (page + spare) or not apart or apart % (page + spare):
            continue
        found += prober.proposals(headers, page=page, spare=spare)[:1]
    return sorted(found, key=rank, reverse=True)


def best_of(plain, spared):
    """Spare bytes are believed where blocks of an odd size fit them, and no usual size does better."""
    return sorted(plain + spared, reverse=True,
                  key=lambda one: (rank(one)[:2], one.peb_size & (one.peb_size - 1) == 0))


# -------------------------------------------------------- for other commands

def other_geometry(library, chip, numbers):
    """What probing proposes instead of the given numbers, or None. Little is looked at unless something is odd."""
    if chip.refusal is None and not looks_odd(library, chip):
        return None
    if numbers is None:
        if chip.refusal is not None:
            return None
        numbers = chip.peb_size, chip.unit, chip.sub_unit
    proposed = quick_proposals(library, chip.image, numbers)
    if not proposed or not proposed[0].agree:
        return None
    best, given = proposed[0], given_among(library, proposed, numbers)
    if given is best or given and given.agree >= best.agree and not is_worse(given):
        return None
    return "probing proposes %s instead: %s" % (options_of(best), agreement(best))


def quick_proposals(library, image, numbers):
    """By headers on the grid, and at the starts of blocks as they were given."""
    places = set(on_grid(image, library.ec_magic()))
    if library.geometry(*numbers) is not None:
        places.update(range(0, image.length, numbers[0]))
    headers = good_headers(library, image, sorted(places))
    prober = Prober(library, image)
    return best_of(prober.proposals(headers, numbers[:1]), with_spares(prober, headers))


def given_among(library, proposed, numbers):
    """The proposal that comes to the starts of these numbers, if there is one."""
    words = library.geometry(*numbers)
    for one in proposed if words else ():
        if (one.peb_size, one.starts, one.spare) == (numbers[0], (words["vid_start"], words["data_start"]), 0):
            return one
    return None


def looks_odd(library, chip):
    """Whether the good headers are at each second block only (or third, ..), or stand inside blocks, too."""
    if together(chip.with_counter()) != 1:
        return True
    magic = library.ec_magic()
    for part in prime_factors(chip.peb_size):
        inside = chip.peb_size // part
        for at in range(inside, chip.image.length, chip.peb_size):
            if chip.image.view[at] == magic[0] and library.read_ec(chip.image, at) is not None:
                return True
    return False


def prime_factors(number):
    found, factor = [], 2
    while factor * factor <= number:
        if number % factor == 0:
            found.append(factor)
            while number % factor == 0:
                number //= factor
        factor += 1
    return found + [number] if number > 1 else found


# -------------------------------------------------------------------- in words

def options_of(one):
    unit, sub_unit = one.geometries[0]
    text = "--peb-size %d --unit %d --sub-unit %d" % (one.peb_size, unit, sub_unit)
    return text + " --oob %d" % one.spare if one.spare else text


def agreement(one):
    return "%s of %s good headers agree, in %s blocks" % (
        grouped(one.agree), grouped(one.at_start + one.inside), grouped(one.blocks))


def against(one):
    """What speaks against the block size."""
    if one.left:
        yield "%s bytes are left over: the dump is cut short, or the block size is wrong" % grouped(one.left)
    if one.inside:
        yield "%s of %s good headers stand inside blocks: the block size is too large, or an image is stored in a " \
            "volume" % (grouped(one.inside), grouped(one.inside + one.at_start))
    if one.every > 1:
        yield "good headers stand only at every %s block: the blocks may be %d times as large" % (
            ordinal(one.every), one.every)
    if one.every == 0:
        yield "there is a good header in the first block only: the block size cannot be told from it"


def is_worse(one):
    return bool(one.inside or one.every > 1)


def ordinal(number):
    return {2: "second", 3: "third"}.get(number, "%dth" % number)
