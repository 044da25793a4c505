"""`ubibench probe`: what the headers in a dump say of its geometry."""

from benchtool import library as lib
from benchtool.dump import PLAIN, Way, read_dump
from benchtool.numbers import grouped, sized
from benchtool.progress import Progress
from benchtool.proposals import (SPARES, Prober, against, agreement, best_of, everywhere, good_headers, is_worse,
                                 options_of, with_spares)
from benchtool.trouble import Trouble, put

MOST_SHOWN = 5


def run(arguments):
    library = lib.load()
    raw, proposed, headers = probed(library, arguments)
    shown = proposed[:MOST_SHOWN]
    if arguments.json:
        import json
        put(json.dumps(as_objects(raw, headers, shown), indent=1) + "\n")
    elif shown:
        put("\n".join(lines(raw, headers, shown)) + "\n")
    if not shown:
        raise Trouble("%s: there is no good EC header in its %s bytes that a geometry could be told from"
                      % (raw.name, grouped(raw.length)))
    return 0


def probed(library, arguments):
    """The dump, the proposals and the good headers."""
    way = PLAIN
    if arguments.oob:
        way = Way(page_for(arguments), arguments.oob, 0, False)
    dump = read_dump(arguments.dump, way)
    prober = Prober(library, dump.image)
    with Progress("looking for headers"):
        headers = good_headers(library, dump.image, everywhere(dump.image, library.ec_magic()))
    plain = prober.proposals(headers)
    spared = [] if arguments.oob else with_spares(prober, headers)
    return dump, best_of(plain, spared), headers


def page_for(arguments):
    if arguments.unit:
        return arguments.unit
    pages = [page for page, spare in SPARES if spare == arguments.oob]
    if len(pages) != 1:
        raise Trouble("--oob %d: say the page's size with --unit" % arguments.oob)
    return pages[0]


def lines(dump, headers, proposed):
    yield "%s: %s bytes, %s good EC headers" % (dump.name, grouped(dump.length), grouped(len(headers)))
    for page, spare in SPARES:
        if dump.length % (page + spare) == 0:
            yield "the length fits pages of %s and %d spare bytes" % (grouped(page), spare)
    worse = [one for one in proposed[1:] if is_worse(one)]
    for one in proposed:
        if one not in worse:
            yield ""
            yield from proposal_lines(one)
    if worse:
        yield ""
        yield "worse:"
    for one in worse:
        yield "  %s: %s" % (options_of(one), "; ".join(against(one)))


def proposal_lines(one):
    yield options_of(one)
    yield "  " + agreement(one)
    yield "  blocks of %s, VID headers at %d, data at %d; %s" % (
        sized(one.peb_size), *one.starts, same_starts(one.geometries))
    if one.spare:
        yield "  the headers fit pages of %s and %d spare bytes after each" % (grouped(one.page), one.spare)
    for remark in against(one):
        yield "  " + remark
    if one.agree < one.at_start:
        yield "  good headers that name other starts, or have no good VID header there: %s" % grouped(
            one.at_start - one.agree)


def same_starts(geometries):
    """The other units and sub-units that come to the same starts."""
    if len(geometries) == 1:
        return "no other unit and sub-unit give these starts"
    units, sub_units = (sorted(set(column)) for column in zip(*geometries))
    if len(geometries) == sum(1 for unit in units for sub_unit in sub_units if sub_unit <= unit):
        return "the same starts: unit %s, sub-unit %s, not above the unit" % (span(units), span(sub_units))
    return "the same starts: " + ", ".join("%d/%d" % numbers for numbers in sorted(geometries))


def span(powers):
    return str(powers[0]) if len(powers) == 1 else "%d to %d" % (powers[0], powers[-1])


def as_objects(dump, headers, proposed):
    return {"dump": {"name": dump.name, "length": dump.length}, "good_headers": len(headers),
            "proposals": [dict(peb_size=one.peb_size, unit=one.geometries[0][0], sub_unit=one.geometries[0][1],
                               oob=one.spare, blocks=one.blocks, left_over=one.left, vid_start=one.starts[0],
                               data_start=one.starts[1], agree=one.agree, at_block_starts=one.at_start,
                               inside_blocks=one.inside, every=one.every, same_starts=one.geometries,
                               remarks=list(against(one))) for one in proposed]}
