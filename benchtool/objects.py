"""`ubibench list --json`: all that the library says of a dump, as what JSON has."""

from benchtool import words
from benchtool.chip import AUTORESIZE, SKIP_CRC
from benchtool.library import LAYOUT_VOLUME

GEOMETRY = ("peb_size", "unit", "sub_unit", "vid_start", "data_start", "leb_size")
NUMBERS = ("peb_count", "entries", "mean", "highest", "image_seq", "read_only", "table", "copies_mark", "grade")


def everything(chip, dump):
    found = {"version": chip.library.version(),
             "dump": {"name": dump.name, "length": dump.length, "image_length": dump.image.length,
                      "sha256": dump.sha256}}
    if chip.refusal is not None:
        return dict(found, refused=refusal(chip.refusal))
    return dict(
        found,
        geometry={name: chip.report[name] for name in GEOMETRY},
        report={name: chip.report[name] for name in NUMBERS},
        pebs=[peb_object(peb) for peb in chip.pebs],
        map=[entry._asdict() for entry in chip.map],
        layout_volume=LAYOUT_VOLUME,
        volumes=[volume_object(volume) for volume in chip.volumes],
        faults=[fault._asdict() for fault in words.faults(chip)])


def refusal(refused):
    meaning, to_do = words.meaning_of(refused)
    return {"number": refused.number, "place": refused.place, "line": refused.line, "meaning": meaning,
            "to_do": to_do}


def peb_object(peb):
    return {"peb": peb.number, "class": peb.klass, "word": words.CLASSES[peb.klass].word, "counter": peb.counter}


def volume_object(volume):
    record = volume.record
    return {
        "volume": volume.number,
        # A name may be any bytes: the text is for people, the digits are exact.
        "name": record["name"].decode("utf-8", "replace"),
        "name_hex": record["name"].hex(),
        "type": words.TYPES[record["vol_type"]],
        "reserved": record["reserved"], "alignment": record["alignment"], "data_pad": record["data_pad"],
        "update_marker": record["update_marker"], "flags": record["flags"],
        "autoresize": bool(record["flags"] & AUTORESIZE), "skip_crc": bool(record["flags"] & SKIP_CRC),
        "state": volume.state, "state_word": words.STATES[volume.state].word,
        "mapped": len(volume.mapped), "used_lebs": volume.used,
    }
