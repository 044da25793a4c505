"""What the commands share: the geometry on the command line, a dump read by it, and the warnings."""

from benchtool import library, proposals
from benchtool.chip import Chip
from benchtool.dump import Way, read_dump
from benchtool.numbers import grouped
from benchtool.slip import SIZE, slip
from benchtool.trouble import Trouble, warn

GRADE_0, GRADE_1, REFUSED = range(3)


class Bench:
    """The library, and how the command line says that the chip is built."""

    def __init__(self, arguments):
        self.library = library.load()
        self.blocks = arguments.blocks
        self.spare = getattr(arguments, "oob", 0)
        self.front = SIZE if arguments.slip else 0
        self.numbers = None
        # What probing proposes instead, once a dump is attached.
        self.hint = None
        if arguments.slip:
            self.refuse_numbers(arguments)
            return
        if arguments.peb_size is None or arguments.unit is None:
            raise Trouble("--peb-size and --unit are wanted; `ubibench probe DUMP` proposes them")
        sub_unit = arguments.unit if arguments.sub_unit is None else arguments.sub_unit
        self.numbers = (arguments.peb_size, arguments.unit, sub_unit)
        if self.spare and not arguments.unit:
            raise Trouble("--oob: a unit of 0 bytes has no spare bytes after it")

    def refuse_numbers(self, arguments):
        given = (arguments.peb_size, arguments.unit, arguments.sub_unit)
        if given != (None, None, None):
            raise Trouble("--slip takes the numbers from the dump: --peb-size, --unit and --sub-unit are not for it")
        if self.spare:
            raise Trouble("--slip and --oob do not go together: ubilist takes no spare bytes")

    def read(self, path, hashed=False, file=None):
        page = self.numbers[1] if self.spare else 0
        return read_dump(path, Way(page, self.spare, self.front, hashed), file)

    def slip_of(self, dump):
        return dump.front if self.front else self.slip_with()

    def slip_with(self, volumes=()):
        """The slip of the command line's numbers, with the fields of volumes that are to be built."""
        try:
            return slip(self.numbers, volumes)
        except OverflowError:
            raise Trouble("no slip holds these numbers: the PEB size is below 2^32, unit and sub-unit below 2^16")

    def attach(self, dump):
        """The chip, attached or refused, with the warnings that are due."""
        chip = Chip(self.library, self.slip_of(dump), dump.image)
        self.compare_blocks(chip, dump)
        self.hint = proposals.other_geometry(self.library, chip, self.numbers)
        if self.hint:
            warn(self.hint)
        return chip

    def compare_blocks(self, chip, dump):
        if chip.refusal is not None:
            return
        if self.blocks is None:
            warn("not told how many blocks the chip has (--blocks); %s has %s: compare it"
                 % (dump.name, grouped(chip.peb_count)))
        elif self.blocks != chip.peb_count:
            raise Trouble("%s has %s blocks, not %s: it is no dump of the whole chip"
                          % (dump.name, grouped(chip.peb_count), grouped(self.blocks)))


def status_of(chip):
    if chip.refusal is not None:
        return REFUSED
    return GRADE_1 if chip.grade else GRADE_0
