"""Frames: a size of 4 bytes, big-endian, then that many bytes: one byte of kind and a message."""

from listing import listing
from wire import MOST_FRAME


def frame(kind, message):
    return (len(message) + 1).to_bytes(4, "big") + bytes([kind]) + message


def split(data):
    """The frames of `data`, and whether a broken one ends it: one cut short, or of more than MOST_FRAME bytes."""
    frames, at = [], 0
    while at < len(data):
        size = int.from_bytes(data[at:at + 4], "big")
        if at + 4 > len(data) or size > MOST_FRAME or at + 4 + size > len(data):
            return frames, True
        frames.append(data[at + 4:at + 4 + size])
        at += 4 + size
    return frames, False


def swept(data):
    """The output of `sweep` for its whole standard input."""
    frames, broken = split(data)
    return "".join(listing(one) + ".\n" for one in frames) + ("broken\n" if broken else "")
