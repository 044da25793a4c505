"""A dump with what the library says of it."""

from collections import Counter, namedtuple
from functools import cached_property

from benchtool.library import LAYOUT_VOLUME, NONE, RECORD_SIZE, RECORDS_MOST, REPORT, USER_VOLUMES
from benchtool.progress import Progress

FREE, CHOSEN, PASSED_OVER, BLANK, UNREADABLE, TO_DELETE, KEPT_ASIDE = range(7)
CLASSES = 7
NO_RECORD, FINE, UPDATING, DAMAGED = range(4)
DYNAMIC, STATIC = 1, 2
AUTORESIZE, SKIP_CRC = 1, 2

Peb = namedtuple("Peb", "number klass counter")
Entry = namedtuple("Entry", "volume leb peb")
Volume = namedtuple("Volume", "number record state mapped used room")


class Chip:
    """Attached, or refused: then `refusal` is set, and there is nothing but it and the listing."""

    def __init__(self, library, slip, image):
        self.library = library
        self.slip = slip
        self.image = image
        with Progress("attaching"):
            self.tables = library.attach(slip, image)
        self.report = dict(zip(REPORT, self.tables.report))
        self.listing = library.listing(self.tables)
        self.refusal = None
        if self.report["number"]:
            self.refusal = library.refusal(self.report["number"], self.report["place"])

    def __getattr__(self, name):
        """The report's words by name."""
        report = self.__dict__.get("report", {})
        if name in report:
            return report[name]
        raise AttributeError(name)

    # The tables, read when they are asked for

    @cached_property
    def pebs(self):
        words = self.tables.pebs[:2 * self.peb_count]
        counters = [None if word == NONE else word for word in words[1::2]]
        return [Peb(*row) for row in zip(range(self.peb_count), words[::2], counters)]

    @cached_property
    def map(self):
        words = self.tables.map[:3 * self.entries]
        return [Entry(*row) for row in zip(words[::3], words[1::3], words[2::3])]

    @cached_property
    def states(self):
        return list(self.tables.states)

    @cached_property
    def volumes(self):
        """The records of the table taken, where the map has it."""
        layout = self.place_of(LAYOUT_VOLUME, self.table)
        start = layout * self.peb_size + self.data_start
        volumes = []
        for number in range(min(RECORDS_MOST, self.leb_size // RECORD_SIZE)):
            record = self.library.read_record(self.image, start + number * RECORD_SIZE, self.leb_size, self.unit)
            if record is not None:
                volumes.append(self.volume(number, record))
        return volumes

    def volume(self, number, record):
        mapped = [entry for entry in self.map if entry.volume == number]
        used = None
        if record["vol_type"] == STATIC and mapped:
            header = self.vid_header(mapped[0].peb)
            used = header and header["used_lebs"]
        return Volume(number, record, self.states[number], mapped, used, self.leb_size - record["data_pad"])

    # Questions

    def place_of(self, volume, leb):
        """The PEB that holds it, or None."""
        for entry in self.map:
            if (entry.volume, entry.leb) == (volume, leb):
                return entry.peb
        return None

    def places(self):
        """Volume and LEB by PEB, of those in the map."""
        return {entry.peb: (entry.volume, entry.leb) for entry in self.map}

    def vid_header(self, peb):
        return self.library.read_vid(self.image, peb * self.peb_size + self.vid_start, self.leb_size)

    def counters(self):
        return [word for word in self.tables.pebs[1:2 * self.peb_count:2] if word != NONE]

    def with_counter(self):
        """The PEBs whose EC header is good."""
        words = self.tables.pebs[1:2 * self.peb_count:2]
        return [number for number, word in enumerate(words) if word != NONE]

    def class_counts(self):
        found = Counter(peb.klass for peb in self.pebs)
        return [found[klass] for klass in range(CLASSES)]

    def of_class(self, klass):
        return [peb.number for peb in self.pebs if peb.klass == klass]

    def lost_counters(self):
        """Those that are a fault: a blank block has none to lose."""
        return [peb.number for peb in self.pebs if peb.counter is None and peb.klass != BLANK]

    def user_volume_name(self, number):
        """The name's bytes; None for the layout volume and where there is no record."""
        for volume in self.volumes if number < USER_VOLUMES else ():
            if volume.number == number:
                return volume.record["name"]
        return None


def missing_lebs(volume):
    """LEBs of a volume that are not in the map: of a static one those in use, of a dynamic one all it may have."""
    most = volume.record["reserved"] if volume.used is None else volume.used
    there = {entry.leb for entry in volume.mapped}
    return [leb for leb in range(most) if leb not in there]
