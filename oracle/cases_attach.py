"""Cases for attaching: images described block by block.

A case says by hand what it is about: the classes, some numbers of the first
line, the mapped user LEBs, the volume states, or the refusal. What it does
not say the oracle finds alone.
"""

import frames
from cases import Cases, Chance, cycle
from cases_attach_random import add_random_cases
from cases_attach_refused import add_refused_cases
from cases_attach_report import add_report_cases
from cases_attach_volumes import add_volume_cases
from images import LAYOUT, Flash

U32 = 0xFFFFFFFF


def attach_cases():
    probes = Probes()
    add_report_cases(probes)
    add_volume_cases(probes)
    add_refused_cases(probes)
    add_random_cases(probes)
    return probes.cases


class Probes:
    def __init__(self):
        self.cases = Cases(frames.attach_answer, frames.attach_kinds)
        self.chance = Chance(506)
        # What the lent tables have more than they need.
        self.spare = cycle([(0, 0, 0), (0, 0, 0), (1, 0, 0), (0, 0, 0),
                            (0, 1, 0), (0, 0, 0), (0, 0, 1), (4, 9, 3)])
        # LEBs of 512 bytes, so short tables: two records.
        self.small = Flash(1024, 512, 64)
        # LEBs of 896 bytes and alignments that leave a pad: five records.
        self.five = Flash(1024, 1, 1)
        # Bytes between the two headers.
        self.gaps = Flash(1024, 256, 256)
        # 128 records.
        self.full = Flash(22144, 1, 1)

    def raw(self, slip, image, lent, **want):
        """A case of bytes; `lent` are the three lengths in words."""
        payload = frames.attach_payload(slip, lent, image)
        answer = frames.AttachAnswer(self.cases.add(payload))
        if answer.refused and answer.refused[0] <= 4:
            needed = 0, 0, 0
        else:
            needed = needed_words(len(image) // int.from_bytes(
                slip[3:7], "big"))
        check_lent(answer, lent, needed)
        check(answer, want)

    def image(self, flash, image, lent=None, **want):
        if lent is None:
            needed = needed_words(len(image) // flash.peb_size)
            lent = tuple(map(sum, zip(needed, next(self.spare))))
        self.raw(flash.slip, image, lent, **want)

    def add(self, flash, blocks, lent=None, **want):
        """A case of blocks, in the places they are given in."""
        self.image(flash, flash.image(blocks), lent, **want)

    def anywhere(self, flash, blocks, **want):
        """The same where places do not matter: the blocks are shuffled.

        What is wanted names blocks by their number in the description; so
        does 12, and of the other refusals only those without a place.
        """
        places = self.chance.shuffled(range(len(blocks)))
        for key in ("classes", "counters"):
            if key in want:
                want[key] = put_at(places, want[key])
        for key in ("mapped", "layout"):
            if key in want:
                want[key] = {leb: places[block]
                             for leb, block in want[key].items()}
        if "refused" in want:
            number, block = want["refused"]
            assert number in (10, 11, 12)
            want["refused"] = number, places[block] if number == 12 else 0
        self.add(flash, put_at(places, blocks), **want)


def put_at(places, things):
    result = [None] * len(places)
    assert len(things) == len(places)
    for place, thing in zip(places, things):
        result[place] = thing
    return result


def needed_words(peb_count):
    return 2 * peb_count, 3 * peb_count, 128


def check_lent(answer, lent, needed):
    """What a refusal leaves in the tables, and what lies beyond a report.

    Of a refusal that changes nothing lent no words are needed.
    """
    for table, length, words in zip(answer.lent, lent, needed):
        assert len(table) == length
        assert set(table[words:]) <= {frames.LENT_BEFORE}
        if answer.refused:
            assert set(table[:words]) <= {U32}
    if not answer.refused:
        used = 3 * answer.numbers["entries"]
        assert set(answer.lent.map[used:needed[1]]) <= {U32}


def check(answer, want):
    """Hold the answer against what the author of the case expects."""
    found = dict(answer.numbers)
    if answer.refused:
        found["refused"] = answer.refused
    else:
        found["classes"] = "".join(map(str, answer.classes))
        found["counters"] = answer.counters
        found["states"] = answer.states
        found["mapped"] = [entry for entry in answer.mapped
                           if entry[0] != LAYOUT]
        found["layout"] = [entry for entry in answer.mapped
                           if entry[0] == LAYOUT]
    for key, value in sorted(want.items()):
        if key == "classes":
            value = "".join(value)
        elif key == "mapped":
            value = sorted((volume, leb, peb)
                           for (volume, leb), peb in value.items())
        elif key == "layout":
            value = sorted((LAYOUT, leb, peb) for leb, peb in value.items())
        assert found.get(key) == value, (key, value, found)
