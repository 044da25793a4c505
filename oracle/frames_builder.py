"""Cases of `test_builder`: one image built, and attached if it was."""

import attach
import builder
import ubi
from frames import (LENT_BEFORE, MAX_IMAGE, Fields, as_patches, attach_lines,
                    counted, line, part, patched)

MAX_CONTENT = 262144
MAX_LENGTHS = 512

# Every byte of the lent image before the call.
IMAGE_BEFORE = 0xA5

# The words of the tables lent to attach the built image: enough for the most
# PEBs there may be.
LENT_WORDS = attach.Lent(2 * attach.MAX_PEB_COUNT, 3 * attach.MAX_PEB_COUNT,
                         ubi.USER_VOLUMES)


def builder_payload(slip, image_sequence, lengths, content, size):
    """`size` is the lent image's length in bytes."""
    words = [length.to_bytes(4, "big") for length in lengths]
    return b"".join([
        part(slip), image_sequence.to_bytes(4, "big"), counted(words),
        len(content).to_bytes(4, "big"), size.to_bytes(4, "big"),
        as_patches(content)])


def builder_parts(payload):
    """Slip, image sequence, lengths, content, and the lent image's length."""
    fields = Fields(payload)
    slip = fields.bytes(fields.number(2))
    image_sequence = fields.number(4)
    lengths = [fields.number(4) for _ in range(fields.number(2))]
    content_size, size = fields.number(4), fields.number(4)
    assert len(lengths) <= MAX_LENGTHS
    assert content_size <= MAX_CONTENT and size <= MAX_IMAGE
    content = patched(fields, b"\xff" * content_size)
    assert fields.at_end()
    return slip, image_sequence, lengths, content, size


def builder_image(payload):
    """The answer's first line, and the image after the call."""
    slip, image_sequence, lengths, content, size = builder_parts(payload)
    return builder.build(slip, image_sequence, lengths, content,
                         bytes([IMAGE_BEFORE]) * size)


def builder_answer(payload):
    answer, image = builder_image(payload)
    lines = [answer, line("image", ubi.jamcrc(image))]
    if answer == builder.BUILT:
        slip = builder_parts(payload)[0]
        lent = attach.Lent(*([LENT_BEFORE] * words for words in LENT_WORDS))
        lines.append(attach_lines(builder.plain_slip(slip), image, lent))
    return "\n".join(lines)


# ------------------------------------------------------------------ kinds

def builder_kinds(payload, answer):
    """The refusal, or what the image built has at least once."""
    first = answer.split("\n")[0]
    if first != builder.BUILT:
        return [" ".join(first.split(" ")[:2])]
    slip, _, lengths, _, size = builder_parts(payload)
    numbers, fields = builder.read_slip(slip)
    geometry = ubi.geometry_of(*numbers)
    records = builder.records_of(fields, geometry.leb_size)
    kinds = set(kind for record, length in zip(records, lengths)
                for kind in volume_kinds(record, length, geometry.leb_size))
    kinds |= {first, "no volume" if not records else "volumes"}
    if len(records) == ubi.record_count(geometry.leb_size):
        kinds.add("all records")
    reserved = 2 + sum(record.reserved for record in records)
    if reserved == size // geometry.peb_size:
        kinds.add("all PEBs reserved")
    return sorted(kinds)


def volume_kinds(record, length, leb_size):
    name = "static" if record.type == ubi.STATIC else "dynamic"
    room = builder.room_of(record, leb_size)
    if length == 0:
        return [name + " empty"]
    kinds = [name]
    if length == record.reserved * room:
        kinds.append(name + " full")
    if record.data_pad:
        kinds.append(name + " padded")
    if length > room:
        kinds.append(name + " above one LEB")
    return kinds
