"""Values at the edges of their own rules, and messages that hold them.

    RIGHT, WRONG    by wire type, the decimals, points and geographies at both sides of each edge, as values of a record
    held()      ->  (kind, record, verdict) triples: each of these in each place of a value; each flag byte; names with bytes above 127; and two or
                    more faults in one message, where the first in wire order decides
    messages()  ->  (kind, message, verdict) triples: the same
"""

import itertools
import math

from encoder import encode, value
from wire import *

# Each end of the decimals, null and the ends of 128 bits, with the numbers next to them, and those whose upper 64 bits are the next ones.
HALF = 2**64
ENDS = (MOST_DECIMAL, -MOST_DECIMAL, MOST_DECIMAL + 1, -MOST_DECIMAL - 1, 0, NULL_DECIMAL, 2**127 - 1)
DECIMALS = sorted({end + off for end in ENDS for off in (-HALF, -1, 0, 1, HALF) if NULL_DECIMAL <= end + off < 2**127})
OUT_OF_RANGE = [units for units in DECIMALS if abs(units) > MOST_DECIMAL and units != NULL_DECIMAL]

EAST, NORTH, BOTH_NULL = 180.0, 90.0, 360.0
POSITIONS = [*itertools.product((EAST, -EAST), (NORTH, -NORTH)), (0.0, -0.0), (-0.0, 5e-324)]


def next_beyond(degrees):
    return math.nextafter(degrees, math.copysign(math.inf, degrees))


NO_LONGITUDES = [next_beyond(EAST), next_beyond(-EAST), math.inf, -math.inf, math.nan, 1e300, BOTH_NULL, -BOTH_NULL]
NO_LATITUDES = [next_beyond(NORTH), next_beyond(-NORTH), EAST, math.inf, -math.inf, math.nan, 1e300, BOTH_NULL, -BOTH_NULL]
NEXT_TO_NULL = [-BOTH_NULL, next_beyond(BOTH_NULL), math.nextafter(BOTH_NULL, 0), math.inf, math.nan]
NO_POINTS = [
    *((longitude, NORTH) for longitude in NO_LONGITUDES), *((-EAST, latitude) for latitude in NO_LATITUDES),
    *((BOTH_NULL, other) for other in NEXT_TO_NULL), *((other, BOTH_NULL) for other in NEXT_TO_NULL), (-BOTH_NULL, -BOTH_NULL),
]

RIGHT = {DECIMAL: sorted(set(DECIMALS) - set(OUT_OF_RANGE)), POINT: [*POSITIONS, None], GEOGRAPHY: [None, b"\0", b"\xff" * 9]}
WRONG = {DECIMAL: OUT_OF_RANGE, POINT: NO_POINTS, GEOGRAPHY: [b""]}

# The sizes of names around what code looks at together, and what stands in them that is no ASCII.
NAME_SIZES = (1, 2, 7, 8, 9, 15, 16, 17, 33, 40)
ABOVE_ASCII = (b"\x80", b"\xc3\xa9", b"\xff")


# -- Messages.

def call(*parameters):
    return {"version": 0, "procedure": b"", "client_data": bytes(8), "parameters": list(parameters)}


def reply(flags, *tables):
    return {"version": 1, "client_data": bytes(8), "flags": flags, "status": 1, "status_string": None, "application": 0, "application_string": None,
            "round_trip": 0, "exception": b"", "tables": list(tables)}


def table(types, names, *rows):
    return {"status": 0, "types": list(types), "names": list(names), "rows": list(rows)}


# Where things stand: the flags; the first parameter's value, and an array's first element; in a table that has nothing but one column without a name,
# from its first byte on: that name and its first cell.
FLAGS_AT, VALUE_AT, ELEMENT_AT, TABLE_AT = 13, 20, 23, 22
NAME_IN, CELL_IN = 16, 24


def held():
    yield from at_edges()
    yield from flag_bytes()
    yield from names()
    yield from pairs()
    yield from several()


def messages():
    for kind, record, verdict in held():
        yield kind, encode(kind, record), verdict


def at_edges():
    """Each value as a parameter, as the first and the second of two elements, and as a cell of the first and of the second row."""
    for wire_type, cause in CAUSE_OF_TYPE.items():
        for it in RIGHT[wire_type] + WRONG[wire_type]:
            other = RIGHT[wire_type][0]
            size = len(value(wire_type, other))
            for kind, record, place in (
                    (INVOCATION, call((wire_type, it)), VALUE_AT),
                    (INVOCATION, call((ARRAY, (wire_type, [it, other]))), ELEMENT_AT),
                    (INVOCATION, call((ARRAY, (wire_type, [other, it]))), ELEMENT_AT + size),
                    (REPLY, reply(0, table([wire_type], [b""], [it], [other])), TABLE_AT + CELL_IN),
                    (REPLY, reply(0, table([wire_type], [b""], [other], [it])), TABLE_AT + CELL_IN + size + 4)):
                yield kind, record, "accepted" if it in RIGHT[wire_type] else (cause, place)


def flag_bytes():
    for flags in range(256):
        yield REPLY, reply(flags), (BAD_FLAGS, FLAGS_AT) if flags & ~FLAGS else "accepted"


def names():
    """ASCII; and one byte, or a character, or two bytes above 127 at each place of a name."""
    for size in NAME_SIZES:
        for name in (b"\x7f" * size, b"\0" * size):
            yield REPLY, reply(0, table([TINYINT], [name])), "accepted"
        for at, above in itertools.product(range(size), ABOVE_ASCII):
            name = (b"n" * at + above).ljust(size, b"\x80" if at % 2 else b"n")
            yield REPLY, reply(0, table([TINYINT, TINYINT], [name, b""])), (BAD_NAME, TABLE_AT + NAME_IN + 1 + at)
            yield REPLY, reply(0, table([TINYINT, TINYINT], [b"n", name])), (BAD_NAME, TABLE_AT + NAME_IN + 1 + 1 + 4 + at)


def pairs():
    """Two values that break their rules, in both orders: parameters, arrays' elements, cells of a row and of two rows."""
    for (wire_type, wrong), (other_type, other) in itertools.product(first_wrong(), repeat=2):
        cause = CAUSE_OF_TYPE.get(wire_type, BAD_TEXT)
        at = 4 if wire_type == STRING else 0  # a text is refused where it is torn, which is behind its length
        yield INVOCATION, call((wire_type, wrong), (other_type, other)), (cause, VALUE_AT + at)
        yield INVOCATION, call(*((ARRAY, (t, [it])) for t, it in ((wire_type, wrong), (other_type, other)))), (cause, ELEMENT_AT + at)
        yield REPLY, reply(0, table([wire_type, other_type], [b"", b""], [wrong, other])), (cause, TABLE_AT + CELL_IN + 1 + 4 + at)
        rows = [wrong, right(other_type)], [right(wire_type), other]
        yield REPLY, reply(0, table([wire_type, other_type], [b"", b""], *rows)), (cause, TABLE_AT + CELL_IN + 1 + 4 + at)


def first_wrong():
    return [*((wire_type, wrong[0]) for wire_type, wrong in WRONG.items()), (STRING, b"\xc3")]


def right(wire_type):
    return RIGHT[wire_type][0] if wire_type in RIGHT else b""


def several():
    """Two tables, each with a name and a cell, behind the flags: whatever of these five is wrong, the first decides."""
    for wire_type, wrong in WRONG.items():
        for flags, *bad in itertools.product((0, 1), repeat=5):
            tables = [table([wire_type], [b"\x80" if name else b"n"], [wrong[0] if cell else right(wire_type)])
                      for name, cell in (bad[:2], bad[2:])]
            yield REPLY, reply(flags, *tables), first_of(flags, bad, CAUSE_OF_TYPE[wire_type], len(table_bytes(tables[0])))


def first_of(flags, bad, cause, size):
    """The verdict: the flags, and then the name and the cell of a table and of the one that begins so many bytes behind it."""
    name_at, cell_at = TABLE_AT + NAME_IN, TABLE_AT + CELL_IN + 1
    faults = [(BAD_FLAGS, FLAGS_AT), (BAD_NAME, name_at), (cause, cell_at), (BAD_NAME, name_at + size), (cause, cell_at + size)]
    return next((fault for is_bad, fault in zip((flags, *bad), faults) if is_bad), "accepted")


def table_bytes(it):
    empty = encode(REPLY, reply(0))
    return encode(REPLY, reply(0, it))[len(empty):]
