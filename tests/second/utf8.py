"""Text by RFC 3629: each sequence is decoded to its character's number, and that is held against the sequence's size.

    torn_at(body)  ->  the place of the first byte that begins no well-formed sequence, where all before it are; None if the whole is text
"""

import re

ABOVE_ASCII = re.compile(b"[\x80-\xff]")

# The numbers that need a sequence of so many bytes, and the numbers that are no characters.
NEEDING = {2: range(0x80, 0x800), 3: range(0x800, 0x10000), 4: range(0x10000, 0x110000)}
SURROGATES = range(0xD800, 0xE000)


def torn_at(body):
    at = 0
    while found := ABOVE_ASCII.search(body, at):
        at = found.start()
        size = leading_ones(body[at])
        if size not in NEEDING or not is_character(body[at:at + size], size):
            return at
        at += size
    return None


def leading_ones(byte):
    return 8 - (byte ^ 0xFF).bit_length()


def is_character(sequence, size):
    """Whether these bytes are as many as the first says, and tell a number that needs them all."""
    number = sequence[0] & 0x7F >> size
    for byte in sequence[1:]:
        if leading_ones(byte) != 1:
            return False
        number = number << 6 | byte & 0x3F
    return len(sequence) == size and number in NEEDING[size] and number not in SURROGATES
