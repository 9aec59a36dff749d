"""What the programs `list` and `sweep` print."""

from reader import Refused, read
from wire import *


def listing(data):
    """The output of `list` for its whole standard input: one byte of kind, then a message."""
    if not data or data[0] not in KINDS:
        return refused(BAD_TYPE, 0) + "\n"
    message = data[1:]
    if len(message) > MOST_LISTED:
        return refused(LIMIT, 0) + "\n"
    try:
        _, fields = read(data[0], message)
    except Refused as refusal:
        return refused(refusal.number, refusal.place) + "\n"
    return "".join("%d %d %d %d %d %d\n" % field for field in fields)
