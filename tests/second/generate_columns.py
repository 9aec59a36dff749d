"""Tables of many columns, and messages that hold them.

    held()      ->  (kind, record, verdict) triples: tables of as many columns as there can be, of one more, and of numbers in between; and what is
                    wrong with one of their types, names or cells
    messages()  ->  (kind, message, verdict) triples: the same; and counts that aren't those of the columns, and rows with a cell too few or too many
"""

from cards import NEAR_COLUMNS, POSITIONS, wide_table
from encoder import encode
from generate import MANY_COLUMNS
from generate_values import RIGHT, TABLE_AT, WRONG, reply, table
from wire import *

# Where the column count and the types stand in a message that has nothing but a table.
COUNT_AT = TABLE_AT + 9
TYPES_AT = COUNT_AT + 2

VALUES = {**{wire_type: 1 for wire_type in FIXED_SIZES}, **{wire_type: b"v" for wire_type in COUNTED_TYPES}, DECIMAL: RIGHT[DECIMAL][-1], POINT: None}


def held():
    yield from of_each_number()
    yield from too_many()
    yield from wrong_columns()


def messages():
    for kind, record, verdict in held():
        yield kind, encode(kind, record), verdict
    yield from other_counts()
    yield from other_rows()


def narrow(columns, *rows, types={}, names={}):
    """So many tinyints without a name, but for the types and names that are given by position."""
    return table([types.get(c, TINYINT) for c in range(columns)], [names.get(c, b"") for c in range(columns)], *rows)


def name_at(columns, column):
    """Where a column's name has its length, in a table of `narrow`; behind the last one stands the row count."""
    return TYPES_AT + columns + 4 * column


def cell_at(columns, column):
    """Where a cell of its first row stands."""
    return name_at(columns, columns) + 8 + column


def of_each_number():
    for columns in (NEAR_COLUMNS - 1, NEAR_COLUMNS, *MANY_COLUMNS):
        yield REPLY, reply(0, narrow(columns, [1] * columns, [-1] * columns)), "accepted"
        it = wide_table(columns)
        it["rows"] = [[VALUES[wire_type] for wire_type in it["types"]]]
        yield REPLY, reply(0, it), "accepted"


def too_many():
    """The count comes before all that it counts, and behind a table before it."""
    columns = MOST_COLUMNS + 1
    for changes in ({}, {"types": {0: NULL}}, {"types": {MOST_COLUMNS: NULL}}, {"names": {MOST_COLUMNS: b"\x80"}}):
        yield REPLY, reply(0, narrow(columns, **changes)), (LIMIT, COUNT_AT)
    yield REPLY, reply(0, narrow(columns, [1] * columns)), (LIMIT, COUNT_AT)
    most = reply(0, narrow(MOST_COLUMNS, [1] * MOST_COLUMNS))
    behind = len(encode(REPLY, most)) - TABLE_AT
    yield REPLY, reply(0, *most["tables"], narrow(columns)), (LIMIT, COUNT_AT + behind)


def wrong_columns():
    """One column, or its cell; then two of them."""
    most, last = MOST_COLUMNS, MOST_COLUMNS - 1
    for at in POSITIONS:
        yield from ((REPLY, reply(0, narrow(most, types={at: wrong})), (BAD_TYPE, TYPES_AT + at)) for wrong in (NULL, ARRAY, 0))
        yield REPLY, reply(0, narrow(most, names={at: b"n\x80"})), (BAD_NAME, name_at(most, at) + 5)
        for wire_type, wrong in (*((wire_type, wrong[0]) for wire_type, wrong in WRONG.items()), (STRING, b"\xc3")):
            row = [1] * at + [wrong] + [1] * (last - at)
            cause, behind_length = (BAD_TEXT, 4) if wire_type == STRING else (CAUSE_OF_TYPE[wire_type], 0)
            yield REPLY, reply(0, narrow(most, row, types={at: wire_type})), (cause, cell_at(most, at) + behind_length)
    first = NEAR_COLUMNS
    yield REPLY, reply(0, narrow(most, types={first: NULL, last: ARRAY})), (BAD_TYPE, TYPES_AT + first)
    yield REPLY, reply(0, narrow(most, types={last: NULL}, names={0: b"\x80"})), (BAD_TYPE, TYPES_AT + last)
    yield REPLY, reply(0, narrow(most, names={first: b"\x80", last: b"\x80"})), (BAD_NAME, name_at(most, first) + 4)


def other_counts():
    """With a column less the last type begins the first name's length; with one more a type is missing, and a name's length begins there."""
    for columns in (NEAR_COLUMNS, NEAR_COLUMNS + 1, MOST_COLUMNS - 1, MOST_COLUMNS):
        message = encode(REPLY, reply(0, narrow(columns)))
        for count, verdict in ((columns - 1, (LIMIT, TYPES_AT + columns - 1)), (columns, "accepted"), (MOST_COLUMNS + 1, (LIMIT, COUNT_AT)),
                               (columns + 1, (BAD_TYPE, TYPES_AT + columns) if columns < MOST_COLUMNS else (LIMIT, COUNT_AT)),
                               (2**15 - 1, (LIMIT, COUNT_AT)), (-1, (BAD_SIGN, COUNT_AT)), (-2**15, (BAD_SIGN, COUNT_AT))):
            yield REPLY, message[:COUNT_AT] + count.to_bytes(2, "big", signed=True) + message[TYPES_AT:], verdict
    nothing = encode(REPLY, reply(0, narrow(0)))
    yield REPLY, nothing[:COUNT_AT] + MOST_COLUMNS.to_bytes(2, "big") + nothing[TYPES_AT:], (NO_ROOM, TYPES_AT)


def other_rows():
    for columns in (NEAR_COLUMNS, NEAR_COLUMNS + 1, MOST_COLUMNS):
        message = encode(REPLY, reply(0, narrow(columns, [1] * columns)))
        row = cell_at(columns, 0)
        yield REPLY, with_lengths(message[:-1], row), (NO_ROOM, cell_at(columns, columns - 1))
        yield REPLY, with_lengths(message + b"\1", row), (LEFT_OVER, cell_at(columns, columns))


def with_lengths(message, row):
    """The lengths of the message, its table and its only row, which begins there, made right."""
    for start in (4, TABLE_AT + 4, row):
        message = message[:start - 4] + (len(message) - start).to_bytes(4, "big") + message[start:]
    return message
