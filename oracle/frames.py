"""Cases as the test programs read them, and the lines they must print.

The frames are described in README.md. A program's `answer` takes one
payload and gives its lines, without the last line feed; `kinds` names what
sort of answer it is, one way or several, so that the generator can count
them.
"""

import re
from itertools import groupby

import attach
import listing
import ubi


def framed(payloads):
    """`stdin` of these cases: their number in four bytes, then each."""
    return len(payloads).to_bytes(4, "big") + b"".join(map(part, payloads))


def part(data):
    """Two bytes of length, then the bytes: a case, or a part of one."""
    return len(data).to_bytes(2, "big") + data


def counted(parts):
    """The number of parts in two bytes, then each."""
    return len(parts).to_bytes(2, "big") + b"".join(parts)


def line(*words):
    return " ".join(str(word) for word in words if word != "")


def hexadecimal(data):
    return bytes(data).hex()


class Fields:
    """Takes big-endian numbers from the front of a payload."""

    def __init__(self, payload):
        self.payload = payload
        self.at = 0

    def number(self, width):
        assert self.at + width <= len(self.payload), "payload cut short"
        self.at += width
        return ubi.number_at(self.payload, self.at - width, width)

    def numbers(self, table):
        """One number for each field of a header's table."""
        return [self.number(width) for _, _, width in table]

    def bytes(self, length):
        assert self.at + length <= len(self.payload), "payload cut short"
        self.at += length
        return self.payload[self.at - length:self.at]

    def rest(self):
        return self.payload[self.at:]

    def at_end(self):
        return self.at == len(self.payload)


# ------------------------------------------------------------------- crc

def crc_answer(payload):
    offset = payload[0]
    return line(ubi.jamcrc(payload[1 + offset:]))


# ------------------------------------------------------------------ slip

def slip_answer(payload):
    try:
        return line("good", *ubi.geometry_from_slip(payload))
    except ubi.Refused as refused:
        return line("refused", refused.number)


# ---------------------------------------------------------------- header

READ_EC, READ_VID, WRITE_EC, WRITE_VID = 1, 2, 3, 4


def read_answer(read, *lent):
    try:
        verdict, header = read(*lent)
    except ubi.Refused as refused:
        return line("refused", refused.number)
    return line(verdict, *(header or ()))


def write_answer(write, *lent):
    out = lent[-1]
    try:
        write(*lent)
        words = ["written"]
    except ubi.Refused as refused:
        words = ["refused", refused.number]
    return line(*(words + [hexadecimal(out)]))


def header_answer(payload):
    fields = Fields(payload)
    operation = fields.number(1)
    if operation == READ_EC:
        return read_answer(ubi.read_ec_header, fields.rest())
    if operation == READ_VID:
        leb_size = fields.number(4)
        return read_answer(ubi.read_vid_header, fields.rest(), leb_size)
    if operation == WRITE_EC:
        header = ubi.EcHeader(*fields.numbers(ubi.EC_FIELDS))
        return write_answer(
            ubi.write_ec_header, header, bytearray(fields.rest()))
    if operation == WRITE_VID:
        leb_size = fields.number(4)
        header = ubi.VidHeader(*fields.numbers(ubi.VID_FIELDS))
        return write_answer(
            ubi.write_vid_header, header, leb_size, bytearray(fields.rest()))
    raise AssertionError("no such operation")


# ----------------------------------------------------------------- table

RECORD, TABLES, WRITE_RECORD = 1, 2, 3
NEITHER_TAKEN = 2


def record_answer(fields):
    leb_size, unit = fields.number(4), fields.number(4)
    try:
        verdict, record = ubi.read_record(fields.rest(), leb_size, unit)
    except ubi.Refused as refused:
        return line("refused", refused.number)
    if record is None:
        return line(verdict)
    return line(verdict, record.reserved, record.alignment, record.data_pad,
                record.type, record.update_marker, record.name_length,
                record.flags, hexadecimal(record.name))


def tables_answer(fields):
    leb_size, unit = fields.number(4), fields.number(4)
    peb_count, length = fields.number(4), fields.number(4)
    both = fields.rest()
    assert length <= len(both)
    # A copy of no bytes is one whose LEB is not mapped.
    copies = [both[:length] or None, both[length:] or None]
    table = ubi.take_table(copies, leb_size, unit, peb_count)
    taken = NEITHER_TAKEN if table.taken is None else table.taken
    return line("taken", taken, "mark", table.mark,
                "records", len(table.part), ubi.jamcrc(table.part))


def table_answer(payload):
    fields = Fields(payload)
    operation = fields.number(1)
    if operation == RECORD:
        return record_answer(fields)
    if operation == TABLES:
        return tables_answer(fields)
    if operation == WRITE_RECORD:
        record = ubi.VolumeRecord(*(
            fields.numbers(ubi.RECORD_FIELDS) + [fields.bytes(ubi.NAME_SIZE)]))
        return write_answer(ubi.write_record, record, bytearray(fields.rest()))
    raise AssertionError("no such operation")


# --------------------------------------------------------------- patches
# Images are mostly 0xFF: stored are their length and what is not erased.

NOT_ERASED = re.compile(b"[^\xff]+(?:\xff{1,6}[^\xff]+)*")


def as_patches(data):
    """The runs of other bytes than 0xFF."""
    return counted(patches_of(data))


def patches_of(data):
    """A few bytes of 0xFF within a run are fewer than a patch's numbers."""
    return [patch(run.start(), run.group())
            for run in NOT_ERASED.finditer(data)]


def patch(offset, data):
    return offset.to_bytes(4, "big") + len(data).to_bytes(2, "big") + data


def patched(fields, data):
    """The bytes with the next patches of a payload written over them."""
    data = bytearray(data)
    for _ in range(fields.number(2)):
        apply_patch(fields, data)
    return bytes(data)


def apply_patch(fields, data):
    """The next patch of a payload, written over the bytes."""
    offset, length = fields.number(4), fields.number(2)
    assert offset + length <= len(data), "patch beyond the image"
    data[offset:offset + length] = fields.bytes(length)


# ---------------------------------------------------------------- attach

LENT_BEFORE = 0xDEADBEEF
MAX_IMAGE = 262144
MAX_LENT_WORDS = 16384


def attach_payload(slip, lent_lengths, image):
    return attach_head(slip, lent_lengths, len(image)) + as_patches(image)


def attach_head(slip, lent_lengths, size):
    """What stands before the patches."""
    parts = [length.to_bytes(2, "big") for length in lent_lengths]
    return b"".join(parts + [size.to_bytes(4, "big"), part(slip)])


def attach_parts(fields):
    """Slip, lent tables before the call, and image of a payload."""
    lengths = [fields.number(2) for _ in attach.Lent._fields]
    assert max(lengths) <= MAX_LENT_WORDS
    size = fields.number(4)
    assert size <= MAX_IMAGE
    slip = fields.bytes(fields.number(2))
    image = patched(fields, b"\xff" * size)
    lent = attach.Lent(*([LENT_BEFORE] * length for length in lengths))
    return slip, lent, image


def words_in_runs(words):
    """A word, or word*count for more than one equal in a row."""
    runs = [(word, len(list(run))) for word, run in groupby(words)]
    return ["%d*%d" % (word, count) if count > 1 else str(word)
            for word, count in runs]


def attach_answer(payload):
    fields = Fields(payload)
    slip, lent, image = attach_parts(fields)
    assert fields.at_end()
    return attach_lines(slip, image, lent)


def attach_lines(slip, image, lent):
    try:
        first = attach.first_line(attach.attach(slip, image, lent))
    except ubi.Refused as refused:
        first = attach.refusal_line(refused)
    return "\n".join([first] + tables_lines(lent))


def tables_lines(lent):
    """All words of the lent tables, a line for each."""
    return [line(name, *words_in_runs(words))
            for name, words in zip(attach.Lent._fields, lent)]


class AttachAnswer:
    """The four lines read back, for those who judge or count answers."""

    def __init__(self, answer):
        lines = [text.split(" ") for text in answer.split("\n")]
        first, tables = lines[0], lines[1:]
        numbers = {first[at]: int(first[at + 1])
                   for at in range(0, len(first), 2)}
        # Of an image that attaches: entries, mean and so on by name.
        self.numbers = numbers if first[0] == "attached" else {}
        self.refused = None
        if first[0] == "refused":
            self.refused = numbers["refused"], numbers["at"]
        assert [table[0] for table in tables] == ["pebs", "map", "states"]
        self.lent = attach.Lent(*(self.words(table[1:]) for table in tables))

    @staticmethod
    def words(runs):
        words = []
        for run in runs:
            word, _, count = run.partition("*")
            words += [int(word)] * int(count or 1)
        return words

    @property
    def classes(self):
        return self.lent.pebs[:2 * self.numbers["attached"]:2]

    @property
    def counters(self):
        return self.lent.pebs[1:2 * self.numbers["attached"]:2]

    @property
    def mapped(self):
        words = self.lent.map[:3 * self.numbers["entries"]]
        return [tuple(words[at:at + 3]) for at in range(0, len(words), 3)]

    @property
    def states(self):
        """State by volume, for the volumes that have one."""
        states = enumerate(self.lent.states[:ubi.USER_VOLUMES])
        return {volume: state for volume, state in states if state != 0}


# --------------------------------------------------------------- listing

MAX_ROOM = 65536


def listing_payload(data, room):
    """All input of one run; `room` is the length of the lent output buffer.

    Of more input than the program holds only the first bytes are stored.
    """
    more = len(data) > listing.MOST_INPUT
    held = data[:listing.MOST_INPUT]
    return (bytes([more]) + room.to_bytes(4, "big")
            + len(held).to_bytes(4, "big") + as_patches(held))


def listing_parts(payload):
    """The bytes held, whether there were more, and the buffer's length."""
    fields = Fields(payload)
    more, room = fields.number(1), fields.number(4)
    size = fields.number(4)
    assert size <= listing.MOST_INPUT and room <= MAX_ROOM
    held = patched(fields, b"\xff" * size)
    assert fields.at_end()
    assert more == 0 or more == 1 and len(held) == listing.MOST_INPUT
    return held, more, room


def listing_answer(payload):
    """The text if it fits, whatever it says; a line ends it either way."""
    held, more, room = listing_parts(payload)
    # Of more input no byte counts but that it is there.
    text = listing.listing(held + bytes(more)).decode("ascii")
    if len(text) > room:
        return line("refused", ubi.LENT_TOO_SHORT) + "\nend"
    return line("listed", len(text)) + "\n" + text + "end"


def listed_text(answer):
    """The text of an answer, or None if it did not fit."""
    first, _, rest = answer.partition("\n")
    return rest[:-len("end")] if first.startswith("listed ") else None


# ----------------------------------------------------------------- kinds

def first_words(answer):
    words = answer.split(" ")
    return " ".join(words[:2] if words[0] == "refused" else words[:1])


def crc_kinds(payload, answer):
    return ["empty" if len(payload) <= 1 + payload[0] else "bytes"]


def slip_kinds(payload, answer):
    return [first_words(answer)]


def header_kinds(payload, answer):
    return ["op %d %s" % (payload[0], first_words(answer))]


def table_kinds(payload, answer):
    if payload[0] == TABLES:
        return ["op 2 " + " ".join(answer.split(" ")[:4])]
    return ["op %d %s" % (payload[0], first_words(answer))]


def attach_kinds(payload, answer):
    """The refusal, or all that a report shows at least once."""
    answer = AttachAnswer(answer)
    if answer.refused:
        number, place = answer.refused
        # The places of PEBs 0 and others; refusals without a place have 0.
        return ["refused %d" % number] + (
            ["refused %d above 0" % number] if place else [])
    kinds = ["attached"]
    for name in ("readonly", "table", "copies", "grade"):
        kinds.append("%s %d" % (name, answer.numbers[name]))
    kinds += ["class %d" % klass for klass in set(answer.classes)]
    states = set(answer.lent.states[:ubi.USER_VOLUMES])
    kinds += ["state %d" % state for state in states]
    return kinds


def listing_kinds(payload, answer):
    """What the text shows at least once, or that it did not fit."""
    held, more, room = listing_parts(payload)
    kinds = ["more input"] if more else []
    text = listed_text(answer)
    if text is None:
        return kinds + ["text too long" if room else "no buffer"]
    if len(text) == room:
        kinds.append("text just fits")
    lines = [words.split(" ") for words in text.splitlines()]
    first = lines[0]
    if first[0] == "refused":
        kinds.append(" ".join(first[:2]))
        return kinds + ([kinds[-1] + " above 0"] if first[3] != "0" else [])
    kinds.append("attached")
    kinds += ["%s %s" % pair for pair in zip(first[8::2], first[9::2])]
    shown = set("class " + words[2] for words in lines if words[0] == "peb")
    shown |= set("counter lost" for words in lines if words[-1] == "lost")
    shown |= set("state " + words[2] for words in lines if words[0] == "vol")
    return kinds + sorted(shown)
