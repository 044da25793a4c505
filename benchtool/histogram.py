"""How erase counters spread: the bins of a histogram."""

from collections import namedtuple

BINS = 16

# From `low` to `high`, both counted in.
Bin = namedtuple("Bin", "low high count")


def bins_of(counters, most=BINS):
    """Bins of one width over all counters, at most so many."""
    if not counters:
        return []
    low, high = min(counters), max(counters)
    width = -(-(high - low + 1) // most)
    bins = [0] * ((high - low) // width + 1)
    for counter in counters:
        bins[(counter - low) // width] += 1
    return [Bin(low + place * width, low + (place + 1) * width - 1, count) for place, count in enumerate(bins)]


def label(one):
    return str(one.low) if one.low == one.high else "%d to %d" % (one.low, one.high)
