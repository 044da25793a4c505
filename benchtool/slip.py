"""The slip: 20 bytes that say how a chip is built. `tools/slip` writes it for `ubilist`.

With a field more for each volume it says what an image is built of.
"""

# Tag and width of each number; the field that ends the slip has no number.
FIELDS = ((1, 4), (2, 2), (3, 2))
VOLUME_TAG = 16
END = bytes(3)
SIZE = 20


def slip(numbers, volumes=()):
    """PEB size, unit and sub-unit as fields in their order, then the volumes'. OverflowError if a
    number does not fit."""
    head = [field(tag, number.to_bytes(width, "big"))
            for (tag, width), number in zip(FIELDS, numbers)]
    return b"".join(head) + b"".join(volumes) + END


def volume_field(reserved, alignment, vol_type, flags, name):
    """A volume that is to be built; its name is bytes."""
    numbers = reserved.to_bytes(4, "big") + alignment.to_bytes(4, "big")
    return field(VOLUME_TAG, numbers + bytes([vol_type, flags]) + name)


def field(tag, value):
    return bytes([tag]) + len(value).to_bytes(2, "big") + value
