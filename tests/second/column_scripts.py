"""Scripts of writer steps (steps.py) for tables of many columns.

    by_turns()  ->  (script, verdict) pairs: tables of generate_columns in messages of their own; the verdict is the reader's on one
    in_order()  ->  (script, answer) pairs: tables at both sides of the limit, in buffers that are just long enough or just too short; and forged
                    states, with column counts and types that are right and wrong; the answer is that of the last step
"""

from dataclasses import replace

import generate_columns
import steps
from cards import NEAR_COLUMNS, POSITIONS
from encoder import encode
from generate import MANY_COLUMNS
from wire import *
from writer import REPLY_OPEN, ROW_OPEN, TABLE_OPEN, State

REPLY_AT = 22  # where a reply that was just begun stands
BEGIN = "begin_reply", (0, bytes(8), 0, 1, None, 0, None, 0, b"")
HUGE = (2**16, 2**31, 2**63, 2**64 - 1)
NO_TYPES = [byte for byte in range(256) if byte not in COLUMN_TYPES]
OTHERS = bytes(NO_TYPES * MOST_COLUMNS)[:MOST_COLUMNS]  # no column's, wherever one looks


def by_turns():
    """Of the wrong columns each third, so that all kinds of them come: their scripts have a step for each cell."""
    for kind, record, verdict in (*generate_columns.of_each_number(), *generate_columns.too_many(), *list(generate_columns.wrong_columns())[::3]):
        yield [("buffer", (len(encode(kind, record)),)), *steps.spelled(kind, record), ("show", ())], verdict


def in_order():
    return steps.scripted((*openings(), *wrong_columns(), *forged_counts(), *forged_types(), *forged_everywhere(), *typed_cells()))


def opening(columns, names=b"", last=(TINYINT, 0, 0)):
    return "open_table", (0, ((TINYINT, 0, 0),) * (columns - 1) + (last,), names)


def reached(columns):
    """Where a reply stands that has such a table open."""
    return REPLY_AT + 15 + 5 * columns


def openings():
    """In just enough room, and in a byte less; the types that stand behind the columns' stay, and all of them if the step is refused."""
    marked = steps.forging(State(REPLY_OPEN, REPLY_AT, REPLY_AT - 2, types=OTHERS))
    for columns in (1, NEAR_COLUMNS - 1, NEAR_COLUMNS, *MANY_COLUMNS):
        room = reached(columns)
        yield room, [marked, opening(columns)], "fine"
        yield room - 1, [marked, opening(columns)], (OUTPUT_SHORT, room)
        for at in (1, columns):  # behind a wide table, a small one and then a wide one
            yield 2 * room, [BEGIN, opening(columns), ("close_table", ()), opening(at), ("close_table", ()), ("finish_reply", ())], "fine"
    for columns in (MOST_COLUMNS + 1, MOST_COLUMNS + 2):
        for room in (0, reached(columns)):
            yield room + REPLY_AT, [marked, opening(columns)], (LIMIT, REPLY_AT)
        yield reached(columns), [opening(columns)], (WRONG_STAGE, 0)


def wrong_columns():
    """The last of as many as can be; all types come before all names. Of one too many nothing is looked at."""
    for columns, last, names, answer in (
            (MOST_COLUMNS, (NULL, 0, 0), b"", (BAD_TYPE, REPLY_AT)), (MOST_COLUMNS, (ARRAY, 0, 0), b"", (BAD_TYPE, REPLY_AT)),
            (MOST_COLUMNS, (TINYINT, 1, 1), b"n", (PAST_END, 0)), (MOST_COLUMNS, (TINYINT, 2**64 - 1, 1), b"n", (PAST_END, 0)),
            (MOST_COLUMNS, (TINYINT, 0, 1), b"\x80", (BAD_NAME, REPLY_AT)), (MOST_COLUMNS, (TINYINT, 0, 1), b"\x7f", (OUTPUT_SHORT, reached(MOST_COLUMNS) + 1)),
            (MOST_COLUMNS + 1, (NULL, 0, 0), b"", (LIMIT, REPLY_AT)), (MOST_COLUMNS + 1, (TINYINT, 0, 1), b"", (LIMIT, REPLY_AT)),
            (MOST_COLUMNS + 1, (TINYINT, 0, 1), b"\x80", (LIMIT, REPLY_AT))):
        yield reached(MOST_COLUMNS), [BEGIN, opening(columns, names, last)], answer


# -- Forged states: a table of tinyints that is open, and a row of it, somewhere in a buffer that is long enough.

ROOM = 200
IN_TABLE = State(TABLE_OPEN, 100, 20, 1, table_at=22, rows_at=90)
IN_ROW = replace(IN_TABLE, stage=ROW_OPEN, inner_at=94)
TINYINTS = bytes([TINYINT]) * MOST_COLUMNS


def of_columns(columns, types):
    """The steps that look at the types, each with a state of so many columns that permits it if the types do."""
    cells = min(columns, MOST_COLUMNS)
    for step, state in ((("open_row", ()), IN_TABLE), (("close_table", ()), IN_TABLE), (("close_row", ()), replace(IN_ROW, inner_count=columns)),
                        (("add_cell", ((TINYINT, 7),)), replace(IN_ROW, inner_count=max(cells - 1, 0)))):
        if columns or step[0] != "add_cell":
            yield step, replace(state, columns=columns, types=types)


def forged_counts():
    for columns in (0, 1, NEAR_COLUMNS, *MANY_COLUMNS, MOST_COLUMNS + 1, MOST_COLUMNS + 2, *HUGE):
        for step, state in of_columns(columns, TINYINTS):
            yield ROOM, [steps.forging(state), step], "fine" if columns <= MOST_COLUMNS else (WRONG_STAGE, state.position)
        for cells in (columns + 1, 2**63):  # more than the row can have
            for step in (("add_cell", ((TINYINT, 7),)), ("close_row", ())):
                state = replace(IN_ROW, columns=columns, types=TINYINTS, inner_count=cells % 2**64)
                yield ROOM, [steps.forging(state), step], (WRONG_STAGE, state.position)
        if columns <= MOST_COLUMNS:  # a row that is full, and one that lacks a cell
            full = replace(IN_ROW, columns=columns, types=TINYINTS, inner_count=columns)
            yield ROOM, [steps.forging(full), ("add_cell", ((TINYINT, 7),))], (WRONG_STAGE, full.position)
            if columns:
                yield ROOM, [steps.forging(replace(full, inner_count=columns - 1)), ("close_row", ())], (WRONG_STAGE, full.position)


def forged_types():
    """A type that is no column's is refused if a column has it, and isn't looked at behind the last one."""
    for columns in (0, 1, 2, NEAR_COLUMNS, *MANY_COLUMNS):
        for at in sorted({0, 1, columns - 1, columns, columns + 1, *POSITIONS} & {*range(MOST_COLUMNS)}):
            types = TINYINTS[:at] + bytes([NO_TYPES[(columns + at) % len(NO_TYPES)]]) + TINYINTS[at + 1:]
            for step, state in of_columns(columns, types):
                yield ROOM, [steps.forging(state), step], (WRONG_STAGE, state.position) if at < columns else "fine"
        for step, state in of_columns(columns, TINYINTS[:columns] + OTHERS[columns:]):
            yield ROOM, [steps.forging(state), step], "fine"


def forged_everywhere():
    """At each place, in a table of some columns; and each byte there is, at the last one."""
    columns = 400
    for at in range(MOST_COLUMNS):
        state = replace(IN_TABLE, columns=columns, types=TINYINTS[:at] + b"\0" + TINYINTS[at + 1:])
        yield ROOM, [steps.forging(state), ("open_row", ())], (WRONG_STAGE, state.position) if at < columns else "fine"
    for byte in range(256):
        state = replace(IN_TABLE, columns=MOST_COLUMNS, types=TINYINTS[1:] + bytes([byte]))
        yield ROOM, [steps.forging(state), ("open_row", ())], "fine" if byte in COLUMN_TYPES else (WRONG_STAGE, state.position)


def typed_cells():
    """A cell is held against the type of its own column, whatever those beside it are."""
    for at in POSITIONS:
        for wire_type, beside in ((INTEGER, TINYINT), (TINYINT, INTEGER)):
            types = bytes([beside]) * at + bytes([wire_type]) + bytes([beside]) * (MOST_COLUMNS - at - 1)
            state = replace(IN_ROW, columns=MOST_COLUMNS, types=types, inner_count=at)
            yield ROOM, [steps.forging(state), ("add_cell", ((wire_type, 7),))], "fine"
            yield ROOM, [steps.forging(state), ("add_cell", ((beside, 7),))], (BAD_TYPE, state.position)
