"""The words an inspector reads: for classes, states, refusals and faults. They are those of docs/LISTING.md."""

from collections import namedtuple

from benchtool.chip import DAMAGED, UNREADABLE, UPDATING, missing_lebs
from benchtool.numbers import ranges

# `sign` is the character in a map of the chip: every class is told from the others without colour.
Class = namedtuple("Class", "word sign meaning")
State = namedtuple("State", "word meaning to_do")
Fault = namedtuple("Fault", "what where meaning to_do")

TYPES = {1: "dynamic", 2: "static"}

CLASSES = (
    Class("free", ".", "erased and ready to be written, as far as its headers say; bytes behind them are not "
                       "looked at"),
    Class("chosen", "#", "holds a part of a volume; it is in the map"),
    Class("passed over", "o", "another copy of a part that a block of class 1 or 5 holds: an older one, or a newer "
                              "one whose data are not whole. Mostly power was lost during a move"),
    Class("blank", "_", "both headers are erased; its counter is always `lost`, and this is no fault. Bytes behind "
                        "them are not looked at"),
    Class("unreadable", "X", "a header is torn or damaged. What it held cannot be told from the dump"),
    Class("to delete", "d", "belongs to no volume in the table, or lies beyond its volume's end; or is of other "
                            "software that lets it be deleted"),
    Class("kept aside", "k", "of other software that asks for it to be left alone"),
)

STATES = (
    State("none", "no volume has this number", ""),
    State("good", "nothing wrong was found",
          "data written in place are not judged where they have no checksum (dynamic volumes), or where the volume's "
          "entry in the table asks to skip it (static ones)"),
    State("update not ended", "an update of the volume was begun and not ended",
          "do not trust its content; have it written again"),
    State("damaged", "damaged: a moved copy's data do not match their checksum and there is no better copy; or a "
                     "static volume has a part missing or wrong",
          "do not trust its content; keep the dump, have it written again"),
)

COPIES = (
    "both copies of the table are good and equal",
    "one is missing or damaged",
    "both are good but differ",
)

# What is wrong, and what to do next. 1 to 4 are worded for numbers that come from a command line.
REFUSALS = {
    1: ("The first 20 bytes are no slip.",
        "Make it with `tools/slip`. Is it in front of the dump, once, and whole?"),
    2: ("The numbers fit no chip: unit and sub-unit are powers of two from 1 to 4,096 and the sub-unit is not the "
        "larger; a block is 1,024 to 262,144 bytes, a multiple of the unit, and has room behind both headers.",
        "Compare them with the data sheet: --peb-size is the erase block, --unit the page, --sub-unit the smallest "
        "piece of a page that can be written. `ubibench probe` proposes numbers."),
    3: ("The dump is not two to 4,096 whole blocks.",
        "Divide its length by the block size. A remainder: the dump is cut short, has spare-area bytes in it (--oob), "
        "or the block size is wrong. `ubibench probe` tells which."),
    4: ("Memory lent to the library is too short.",
        "`ubibench` lends enough for every dump. If you see this, report it with the dump."),
    5: ("Block `P` has a header of a later format version.", "List it with software for that version."),
    6: ("Block `P` says that its second header or its data start elsewhere than the numbers of unit and sub-unit say.",
        "If `P` is the first written block, unit or sub-unit is wrong: `ubibench probe` says which fit. If not, the "
        "block is from elsewhere: dump again."),
    7: ("Block `P` was written as part of another image than the first block that names one.",
        "Were two dumps mixed, or was the chip written anew without being erased? Is `P` or that first block a bad "
        "block? Dump again. Bytes 24 to 27 of a block name its image; 0, as older units wrote it, names none and is "
        "not refused."),
    8: ("Block `P` belongs to software that forbids anyone who does not know it to use the chip.",
        "List it with that software."),
    9: ("Block `P` claims the same part of a volume with the same sequence number as an earlier block.",
        "Neither can be called the newer. Is one block twice in the dump, or `P` a bad block? Dump again; if it "
        "stays, keep the chip as it is and hand it on."),
    10: ("Nothing is written: every block is free or blank.",
         "The chip is erased, the dump is of something else, or it has spare-area bytes in it. Dump again to be sure."),
    11: ("Neither copy of the volume table is good.",
         "Is the dump whole, without spare-area bytes, and are block size and unit right? If so the table is lost: "
         "keep the chip as it is and hand it on."),
    12: ("Block `P` does not fit its volume's entry in the table: another type, another alignment, or another number "
         "of parts.",
         "Were two dumps mixed? Dump again; if it stays, keep the chip as it is and hand it on."),
    13: ("Nothing may be moved: a block on the chip asks that nothing be written to it, or there is a block of other "
         "software that is to be deleted first.",
         "Leave the chip to the software that knows those blocks."),
    14: ("The part of the volume is not in the map.",
         "Look at the map lines of `ubibench list`: it was never written, or the volume's or part's number is wrong."),
    15: ("The data to be moved do not match their checksum.",
         "Do not move damaged data: keep the dump, have the volume written again."),
    16: ("The block to move to is not there, is not free (class 0), or is not erased behind its header.",
         "Take another block of class 0. One that was half written and not erased is not free."),
    17: ("There is no higher sequence number, or no higher erase counter for the block that is left.",
         "The chip is at the end of its numbers. Hand it on."),
    18: ("The plan of the move does not fit the image any more.",
         "The dump changed during the move, or this program is at fault: report it with the dump."),
    20: ("The volumes make no good table: there are more than it has records, a name is empty, too long or given "
         "twice, an alignment does not fit, two volumes autoresize, or all together want more blocks than the chip "
         "has, less the two of the table.",
         "Compare the list of volumes with the chip. `ubibench build` looks for all of this first, and names section "
         "and key; if you see this from it, report it with the configuration."),
    21: ("The contents do not fit the volumes: there is not one for each, or one is longer than its volume.",
         "Compare the length of each content with its volume's size. `ubibench build` looks for this first, and names "
         "section and key; if you see this from it, report it with the configuration."),
}

GRADE_0 = "Nothing wrong was found"
GRADE_1 = "Faults were found"
GRADE_0_SAYS = ("None of the faults that a dump can show was found, and no more: that bytes are missing, that the "
                "numbers are of another chip, or that a block is bad, is not in the bytes.")

LOST_COUNTER = ("the erase counter cannot be read. What the block holds is judged by its other header, and may be "
                "whole", "if a volume is in it, its content may be trusted as far as its state says; the scanner "
                         "takes the mean for the counter when it erases the block")
UNREADABLE_TO_DO = ("if the reader calls the block bad, put 0xFF in its place in a copy of the dump, and list that: "
                    "without another reason for the grade, nothing else was found. If it does not, dump again; if it "
                    "stays, keep the dump")
COPIES_TO_DO = ("the other copy serves, and the scanner writes both again when a volume is made, resized or removed; "
                "keep the dump")
COPIES_DIFFER_TO_DO = ("the table taken is the one below; a change of the volumes was begun and not ended. Keep the "
                       "dump, and compare the volumes with what the unit should have")
READ_ONLY = "A block on the chip asks that nothing be written to this chip."


def meaning_of(refused):
    """Meaning and advice of a refusal, with its block's number in them."""
    number = "lock %d" % refused.place
    return tuple(text.replace("lock `P`", number).replace("`P`", "b" + number) for text in REFUSALS[refused.number])


def refusal_words(refused):
    """On one line, for standard error."""
    return "refused %d: %s What to do: %s" % ((refused.number,) + meaning_of(refused))


def blocks(numbers):
    return ("block " if len(numbers) == 1 else "blocks ") + ranges(numbers)


def faults(chip):
    """Every reason for grade 1, as docs/LISTING.md has them."""
    found = []
    unreadable, lost = chip.of_class(UNREADABLE), chip.lost_counters()
    if unreadable:
        found.append(Fault("unreadable", blocks(unreadable), CLASSES[UNREADABLE].meaning, UNREADABLE_TO_DO))
    if lost:
        found.append(Fault("counter lost", blocks(lost), *LOST_COUNTER))
    if chip.copies_mark:
        to_do = COPIES_TO_DO if chip.copies_mark == 1 else COPIES_DIFFER_TO_DO
        found.append(Fault("copies of the volume table", "copies %d" % chip.copies_mark, COPIES[chip.copies_mark],
                           to_do))
    for volume in chip.volumes:
        if volume.state in (UPDATING, DAMAGED):
            found.append(volume_fault(volume))
    return found


def volume_fault(volume):
    state = STATES[volume.state]
    meaning = state.meaning
    missing = missing_lebs(volume) if volume.used is not None else []
    if volume.state == DAMAGED and missing:
        meaning += " (missing: part %s)" % ranges(missing)
    return Fault("volume " + state.word, 'volume %d "%s"' % (volume.number, visible(volume.record["name"])), meaning,
                 state.to_do)


def notes(chip):
    """What is no fault, but to be known."""
    found = []
    if chip.read_only:
        found.append(READ_ONLY)
    if chip.table == 1:
        found.append("Copy 1 of the volume table was used: copy 0 is missing or damaged.")
    for klass in (2, 5, 6):
        numbers = chip.of_class(klass)
        if numbers:
            found.append("%s (%s): %s." % (blocks(numbers).capitalize(), CLASSES[klass].word, CLASSES[klass].meaning))
    return found


def visible(name):
    """A name's bytes as text in which nothing can hide: what is no printable character is shown as \\xNN."""
    text = name.decode("utf-8", "surrogateescape")
    return "".join(shown(letter) for letter in text)


def shown(letter):
    if letter == "\\":
        return "\\\\"
    if letter.isprintable():
        return letter
    raw = letter.encode("utf-8", "surrogateescape")
    return "".join("\\x%02x" % byte for byte in raw)
