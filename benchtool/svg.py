"""The pictures of the report: the chip map and the wear histogram, as SVG without script or outside file."""

from html import escape

from benchtool import words
from benchtool.chip import CLASSES, UNREADABLE
from benchtool.histogram import bins_of, label
from benchtool.library import LAYOUT_VOLUME
from benchtool.numbers import grouped

ROW = 64
ROW_LEAST = 16
CELL = 11
LEFT = 34
TOP = 14

# Fill, letter's colour and letter of each class: light and dark differ, and the letter tells all apart without colour.
STYLES = (
    ("#ffffff", "#8a948c", "\u00b7"),
    ("#3f6f8f", "#ffffff", ""),
    ("#e3c474", "#4a3a08", "o"),
    ("#ececec", "#9a9a9a", "\u2013"),
    ("#b3261e", "#ffffff", "\u00d7"),
    ("#b9a3cc", "#35204a", "d"),
    ("#9fbf9f", "#16381b", "k"),
)
TABLE_STYLE = ("#1e3f57", "#ffffff", "T")


def chip_map(chip):
    """A cell for each PEB in rows of 64, with what it holds as its title. A chip of few blocks has shorter rows."""
    columns = ROW if chip.peb_count > ROW else 2 * ROW_LEAST if chip.peb_count > 2 * ROW_LEAST else ROW_LEAST
    rows = -(-chip.peb_count // columns)
    width, height = LEFT + columns * CELL + 2, TOP + rows * CELL + 4
    parts = [opening("Chip map", width, height), definitions()]
    parts += [text(LEFT + column * CELL + 1, TOP - 4, column) for column in range(0, min(columns, chip.peb_count), 8)]
    parts += [text(LEFT - 5, TOP + row * CELL + 8, row * columns, "end") for row in range(rows)]
    places = chip.places()
    for peb in chip.pebs:
        row, column = divmod(peb.number, columns)
        parts.append(cell(chip, peb, places.get(peb.number), LEFT + column * CELL, TOP + row * CELL))
    return "".join(parts) + "</svg>"


def cell(chip, peb, place, x, y):
    name = "t" if place and place[0] == LAYOUT_VOLUME else "c%d" % peb.klass
    return '<use href="#%s" x="%d" y="%d"><title>%s</title></use>' % (name, x, y, escape(title(chip, peb, place)))


def title(chip, peb, place):
    counter = "counter lost" if peb.counter is None else "erased %s times" % grouped(peb.counter)
    said = "block %d: %s, %s" % (peb.number, words.CLASSES[peb.klass].word, counter)
    if place is None:
        return said
    volume, leb = place
    if volume == LAYOUT_VOLUME:
        return said + ", copy %d of the volume table" % leb
    return said + ", volume %d part %d" % (volume, leb)


def definitions():
    return "<defs>%s%s</defs>" % (
        "".join(symbol("c%d" % klass, STYLES[klass], klass == UNREADABLE) for klass in range(CLASSES)),
        symbol("t", TABLE_STYLE, False))


def symbol(name, style, bold):
    fill, ink, letter = style
    side = CELL - 1
    drawn = '<rect width="%d" height="%d" fill="%s" stroke="%s" stroke-width="%s"/>' % (
        side, side, fill, "#5d0f0a" if bold else "#7d8790", "1.2" if bold else "0.5")
    if letter:
        drawn += '<text x="%s" y="7.8" font-size="%d" font-weight="%s" text-anchor="middle" fill="%s">%s</text>' % (
            side / 2, 9 if bold else 8, "bold" if bold else "normal", ink, letter)
    return '<g id="%s">%s</g>' % (name, drawn)


def legend_sign(klass):
    """One cell alone, for the legend beside the words."""
    return swatch(STYLES[klass], klass == UNREADABLE)


def table_sign():
    return swatch(TABLE_STYLE, False)


def swatch(style, bold):
    inner = symbol("", style, bold).replace('<g id="">', "<g>")
    return '<svg class="sign" viewBox="-1 -1 12 12" aria-hidden="true">%s</svg>' % inner


def text(x, y, said, anchor="start"):
    return '<text x="%s" y="%s" font-size="7.5" fill="#555" text-anchor="%s">%s</text>' % (x, y, anchor, said)


def opening(name, width, height):
    return '<svg class="picture" role="img" aria-label="%s" viewBox="0 0 %d %d" font-family="inherit">' % (
        name, width, height)


# -------------------------------------------------------------- the histogram

WIDE, HIGH = 640, 130
FOOT = 22
HEAD = 30
# About the width of a digit.
LETTER = 5.6


def histogram(chip):
    """Blocks by erase counter, with the mean as a broken line."""
    counters = chip.counters()
    bins = bins_of(counters)
    most = max(one.count for one in bins)
    step = WIDE / max(len(bins), 4)
    parts = [opening("Wear histogram", WIDE + 20, HEAD + HIGH + FOOT), '<g transform="translate(10,%d)">' % HEAD]
    for place, one in enumerate(bins):
        parts.append(bar(one, place * step, step, most))
    parts.append('<path d="M0 %d H%d" stroke="#333" stroke-width="1"/>' % (HIGH, WIDE))
    parts += labels(bins, step)
    parts.append(mean_line(chip.mean, bins, step))
    return "".join(parts) + "</g></svg>"


def bar(one, x, step, most):
    if not one.count:
        return ""
    high = HIGH * one.count / most
    return '<rect x="%.1f" y="%.1f" width="%.1f" height="%.1f" fill="#3f6f8f" stroke="#1e3f57" ' \
        'stroke-width="0.5"/>' % (x + 1, HIGH - high, step - 2, high) + note(x + step / 2, HIGH - high - 4,
                                                                            grouped(one.count))


def labels(bins, step):
    """Under each bar what it counts; where that is too long, where some of the bars begin."""
    wide = max(len(label(one)) for one in bins) * LETTER + LETTER
    if wide <= step:
        return [note((place + 0.5) * step, HIGH + 14, label(one).replace(" to ", "\u2013"))
                for place, one in enumerate(bins)]
    wide = (len(grouped(bins[-1].low)) + 2) * LETTER
    every = int(wide / step) + 1
    return ['<path d="M%.1f %d v4" stroke="#333" stroke-width="1"/>' % (place * step + 1, HIGH)
            + note(place * step + 1, HIGH + 14, grouped(bins[place].low), "start")
            for place in range(0, len(bins), every) if place * step + wide < WIDE + 20]


def note(x, y, said, anchor="middle"):
    return '<text x="%.1f" y="%.1f" font-size="9" text-anchor="%s" fill="#222">%s</text>' % (x, y, anchor, said)


def mean_line(mean, bins, step):
    width = bins[0].high - bins[0].low + 1
    x = (mean - bins[0].low + 0.5) / width * step
    return '<path d="M%.1f -14 V%d" stroke="#b3261e" stroke-width="1.2" stroke-dasharray="4 3"/>' \
        '<text x="%.1f" y="-18" font-size="9" text-anchor="middle" fill="#7a1a14">mean %s</text>' % (
            x, HIGH, min(max(x, 20), WIDE - 20), grouped(mean))
